#!/usr/bin/env python3
"""Write pseudo-random captures and what bookday must print for them, from a seed."""
import argparse
import collections
import os
import random
import sys

import capture
import expect

TOP = 2 ** 64 - 1
SYMBOLS = ["A", "ABCD", "LONGNAME", "!", "~~~~~~~~", "BRK.A", "X+Y", "a1", "ZZ", "A#", "Q'", "S0S"]
EDGES = [0, 1, 2, 255, 256, 65535, 65536, 1_000_000, 1_000_001, 2 ** 31, 2 ** 32 - 1, TOP]


class Day:
    """A day in the making: its messages, and the book as the accepted ones made it."""

    def __init__(self, rng, size, mood, badness):
        self.rng, self.size, self.mood, self.badness = rng, size, mood, badness
        self.book = expect.Book()
        self.messages = []
        self.stamp = rng.choice([0, 5, TOP - 4000])
        self.bytes = 4

    def add(self, message):
        """Append a message, and let the book take it if it does."""
        self.messages.append(message)
        self.bytes += 6 + len(message)
        try:
            self.book.feed(message)
        except expect.Refused:
            pass

    def send(self, kind, locate=0, **fields):
        """Append a good message, or now and then a spoilt copy before it."""
        self.stamp += self.rng.randrange(3)
        message = capture.pack_message(kind, locate=locate, stamp=self.stamp, **fields)
        if self.rng.random() < self.badness:
            self.add(spoil(self.rng, message, self.book))
        self.add(message)

    def event(self):
        """Send the next event, if there is one."""
        if self.book.events < 6:
            self.send("S", event=expect.EVENTS[self.book.events])

    def directory(self, locate=None):
        """Enter a new stock, or renew a known one."""
        rng = self.rng
        used = {stock["stock"] for stock in self.book.stocks.values()}
        free = [symbol for symbol in SYMBOLS if symbol not in used] or [f"N{len(used)}"]
        if locate is None:
            locate = rng.choice([len(used) + 1, rng.randrange(1, 65536)])
        symbol = self.book.stocks.get(locate, {}).get("stock") or rng.choice(free)
        self.send("R", locate, stock=hexed(symbol), category=hexed(rng.choice("ANPQVZ ")),
                  lot=rng.choice([0, 1, 100, 2 ** 32 - 1]), authenticity=rng.choice("PT"))

    def add_order(self, shares=None):
        """Open an order of some known stock under a reference that is not open."""
        rng, book = self.rng, self.book
        locate = rng.choice(list(book.stocks))
        reference = new_key(rng, book.orders)
        if shares is None:
            shares = rng.choice([1, rng.randrange(1, 500), rng.randrange(1, 500), 50_000, 1_000_000])
        price = rng.choice([1, rng.randrange(1, 2_000_000), 10 ** 14 // shares, 2_000_000_000])
        self.send("A", locate, reference=reference, side=rng.choice("BS"), shares=shares,
                  stock=hexed(book.stocks[locate]["stock"]),
                  price=min(price, 10 ** 14 // shares, 2_000_000_000))

    def change_order(self, kind):
        """Execute, cancel, delete or replace some open order."""
        rng, book = self.rng, self.book
        reference = rng.choice(list(book.orders))
        order = book.orders[reference]
        fields = {"reference": reference}
        if kind in "EX":
            fields["shares"] = rng.choice([order["shares"], rng.randint(1, order["shares"]), 1])
        if kind == "E":
            fields["match"] = new_key(rng, book.trades)
        if kind == "U":
            fields.update(new=new_key(rng, book.orders), shares=rng.randint(1, 900),
                          price=rng.randint(1, 2_000_000))
        self.send(kind, order["locate"], **fields)

    def change_trade(self, kind):
        """Correct or break some live trade."""
        rng, book = self.rng, self.book
        live = [match for match, trade in book.trades.items() if trade["standing"] == "live"]
        if not live:
            return
        match = rng.choice(live)
        fields = {"match": match}
        if kind == "C":
            fields.update(new=new_key(rng, book.trades), shares=rng.choice([1, 50_000, rng.randint(1, 900)]),
                          price=rng.choice([1, 2_000_000_000, rng.randint(1, 2_000_000)]))
        self.send(kind, book.trades[match]["locate"], **fields)

    def status(self, kind):
        """Set a stock's trading state or restriction."""
        locate = self.rng.choice(list(self.book.stocks))
        name, codes = ("state", "HT") if kind == "H" else ("restriction", "012")
        self.send(kind, locate, stock=hexed(self.book.stocks[locate]["stock"]),
                  **{name: self.rng.choice(codes)})

    def step(self):
        """Send one message that fits the book, chosen by the day's mood."""
        book = self.book
        kind = self.rng.choice(MOODS[self.mood])
        if not book.stocks or kind == "R":
            self.directory()
        elif kind == "r":
            self.directory(self.rng.choice(list(book.stocks)))
        elif kind in "HY":
            self.status(kind)
        elif kind in "CB" and book.trades:
            self.change_trade(kind)
        elif kind in "EXDU" and book.orders:
            self.change_order(kind)
        elif kind == "S":
            if self.rng.random() < 0.3:
                self.event()
        else:
            self.add_order(1_000_000 if self.mood == "trades" else None)

    def make(self):
        """Fill the day up to its size; some days run through to the event C and beyond."""
        if self.rng.random() > self.badness:
            self.event()
        while self.bytes < self.size:
            self.step()
        if self.rng.random() < 0.4:
            while self.book.events < 6:
                self.event()
            if self.rng.random() < 0.3:
                self.step()
        return self.messages


MOODS = {
    "mixed": "RrHYAAAAAAAAAEEEEEEXXXDDUUUCCBS",
    "stocks": "RRRRRRRRRRRRRRRRRRRRRRRRRRRRRRRRRrHYAE",
    "orders": "A" * 60 + "UUEXr",
    "trades": "E" * 60 + "CCCCBAU",
}


def hexed(text):
    """A code or symbol as a word that the builder takes whatever it holds."""
    return "0x" + text.encode("ascii").hex()


def new_key(rng, taken):
    """A number that is not taken: small, so that it comes again, or at the edges."""
    while True:
        key = rng.choice([rng.randrange(40), rng.randrange(40), rng.randrange(2000), TOP - rng.randrange(9)])
        if key not in taken:
            return key


def spoil(rng, message, book):
    """A copy of a message with one thing changed, which mostly makes it bad."""
    kind = chr(message[0])
    length, fields = expect.LAYOUT[kind]
    way = rng.randrange(10)
    if way == 0:
        return rng.choice([b"", message[:rng.randrange(length)], message + b"\0", rng.randbytes(rng.randrange(50))])
    if way == 1:
        return bytes([rng.choice(b"QTZs\0\xff" + message[:1])]) + message[1:]
    if way == 2:
        locates = [0, 1, 65535, *book.stocks]
        return message[:1] + rng.choice(locates).to_bytes(2, "big") + message[3:]
    if way == 3:
        at = rng.randrange(length)
        return message[:at] + rng.randbytes(1) + message[at + 1:]
    name, offset, width, _ = rng.choice(fields)
    return message[:offset] + odd_value(rng, name, width, book) + message[offset + width:]


def odd_value(rng, name, width, book):
    """A value for a field that is often wrong: at an edge, or another one that the book holds."""
    if width == 1:
        return bytes([rng.choice(b"OSQMECHTBP012 3b\0")])
    if name == "stock":
        known = [stock["stock"] for stock in book.stocks.values()]
        odd = ["", " A", "A B", "\x7f", "ABCDEFG\x1f", *known, *known]
        return rng.choice(odd).encode("ascii").ljust(8)
    if name == "price" and rng.random() < 0.5:
        return rng.choice([0, 2_000_000_000, 2_000_000_001, 10 ** 14]).to_bytes(8, "big")
    held = {"reference": book.orders, "match": book.trades}.get(name, {**book.orders, **book.trades})
    number = rng.choice([*EDGES, *([*held] * 2)]) if width == 8 else rng.choice(EDGES)
    return (number % 256 ** width).to_bytes(width, "big")


def twist(rng, capture_bytes, count):
    """A capture with a broken count, index or end."""
    data = bytearray(capture_bytes)
    way = rng.randrange(4)
    if way == 0:
        data[0:4] = rng.choice([count + 1, count - 1, 2 ** 32 - 1, 715_827_883, 0]).to_bytes(4, "big", signed=False)
    elif way == 1:
        return bytes(data[:rng.choice([rng.randrange(12), rng.randrange(len(data)), len(data) - 1])])
    elif way == 2:
        at = 4 + 6 * rng.randrange(count)
        old = int.from_bytes(data[at:at + 4], "big")
        new = max(0, old + rng.choice([-1, 1, -old, len(data), -100, 2 ** 32 - 1 - old]))
        data[at:at + 4] = new.to_bytes(4, "big")
    else:
        at = 8 + 6 * rng.randrange(count)
        old = int.from_bytes(data[at:at + 2], "big")
        data[at:at + 2] = rng.choice([0, max(0, old - 1), old + 1, 65535]).to_bytes(2, "big")
    return bytes(data)


def make_capture(rng):
    """One capture: mostly sound, now and then with gaps, a twisted index or too many bytes."""
    mood = rng.choice(["mixed"] * 6 + ["stocks", "orders", "trades"])
    full = 31_500 if mood != "mixed" or rng.random() < 0.2 else rng.choice([200, 800, 3000, 8000])
    size = 34_000 if rng.random() < 0.03 else full
    badness = 0 if mood != "mixed" and rng.random() < 0.7 else rng.choice([0, 0.005, 0.01, 0.03, 0.1])
    messages = Day(rng, size, mood, badness).make()
    plan = capture.Plan()
    gaps = rng.random() < 0.1
    for message in messages:
        if gaps and rng.random() < 0.05:
            plan.add(rng.randbytes(rng.randrange(4)), False)
        plan.add(message, True)
    data = plan.build()
    return twist(rng, data, len(messages)) if rng.random() < 0.06 and messages else data


def main():
    """Write the captures and their expected outputs, and tell how they end."""
    parser = argparse.ArgumentParser(description=__doc__)
    parser.add_argument("seed", type=int)
    parser.add_argument("count", type=int)
    parser.add_argument("outdir")
    told = parser.parse_args()
    os.makedirs(told.outdir, exist_ok=True)
    ends, fed = collections.Counter(), 0
    for number in range(told.count):
        data = make_capture(random.Random(f"{told.seed}/{number}"))
        text, book = expect.bookday(data)
        name = os.path.join(told.outdir, f"day-{told.seed}-{number:05}")
        with open(name + ".cap", "wb") as file:
            file.write(data)
        with open(name + ".out", "w", encoding="ascii", newline="") as file:
            file.write(text)
        ends[int(text.split()[1]) if text.startswith("fault") else 0] += 1
        fed += book.accepted
    print(f"{told.count} captures, {fed} messages accepted")
    print("refused by " + ", ".join(f"{n}: {ends[n]}" for n in sorted(ends) if n) + f"; not refused: {ends[0]}")


if __name__ == "__main__":
    sys.exit(main())
