#!/usr/bin/env python3
"""Print what feedcat must print for a capture: a plain model of its rules, sharing nothing with it."""
import argparse
import sys

import expect

COMMON = {kind: expect.LAYOUT[kind] for kind in "SRHY"}
QUOTED = range(0, expect.PRICES.stop)
SALE = (39, [("stock", 11, 8, "symbol"), ("match", 19, 8, None), ("price", 27, 8, expect.PRICES),
             ("size", 35, 4, expect.SHARES)])
FEEDS = {
    "depth": expect.LAYOUT,
    "bbbo": {**COMMON, "Q": (43, [("stock", 11, 8, "symbol"), ("bid", 19, 8, QUOTED), ("bid_size", 27, 4, None),
                                  ("offer", 31, 8, QUOTED), ("offer_size", 39, 4, None)])},
    "sale": {**COMMON, "T": SALE, "X": SALE},
}


def decode(feed, message):
    """Questions 1 to 8 for a message of a feed: its letter, and name and value of each field."""
    expect.ask(1, 0, len(message) > 0)
    kind = chr(message[0])
    expect.ask(2, 0, kind in FEEDS[feed])
    length, fields = FEEDS[feed][kind]
    expect.ask(3, min(len(message), length), len(message) == length)
    locate = int.from_bytes(message[1:3], "big")
    expect.ask(4, 1, (locate == 0) == (kind == "S"))
    told = {"locate": locate, "stamp": int.from_bytes(message[3:11], "big")}
    for name, offset, width, allowed in fields:
        told[name] = expect.judge_field(message[offset:offset + width], offset, allowed)
    if "price" in told:
        place = [offset for name, offset, _, _ in fields if name == "price"][0]
        shares = told["shares"] if "shares" in told else told["size"]
        expect.ask(8, place, told["price"] * shares <= expect.VALUE_LIMIT)
    return kind, told


def write(feed, kind, told):
    """The bytes of a message, from its letter and fields."""
    fields = [("locate", 1, 2, None), ("stamp", 3, 8, None)] + FEEDS[feed][kind][1]
    message = kind.encode("ascii")
    for name, _, width, _ in fields:
        value = told[name]
        message += value.to_bytes(width, "big") if isinstance(value, int) else value.encode("ascii").ljust(width)
    return message


def line(feed, pair, message):
    """A message's line, whether it is refused, and whether it differs when written again."""
    try:
        kind, told = decode(feed, message)
    except expect.Refused as refused:
        return f"{pair} fault {refused.number} place {refused.place}\n", 1, 0
    words = [f"{name}={repr(value) if value == ' ' else value}" for name, value in told.items()]
    return " ".join([str(pair), kind] + words) + "\n", 0, int(write(feed, kind, told) != message)


def listing(feed, data):
    """The text of feedcat for its input."""
    try:
        messages = expect.judge_index(data)
    except expect.Refused as refused:
        return f"fault {refused.number} place {refused.place} pair {refused.pair}\n"
    told = [line(feed, pair, message) for pair, message in enumerate(messages)]
    refused, differ = (sum(each[part] for each in told) for part in (1, 2))
    return "".join(each[0] for each in told) + f"{len(told)} messages, {refused} refused, {differ} rewritten differ\n"


def main():
    """List the capture that the command line names."""
    parser = argparse.ArgumentParser(description=__doc__)
    parser.add_argument("feed", choices=sorted(FEEDS))
    parser.add_argument("capture")
    told = parser.parse_args()
    with open(told.capture, "rb") as file:
        sys.stdout.write(listing(told.feed, file.read()))


if __name__ == "__main__":
    sys.exit(main())
