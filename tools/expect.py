#!/usr/bin/env python3
"""Print what bookday must print for a capture: a plain model of its rules, sharing nothing with it."""
import argparse
import sys

INPUT_LIMIT = 32768
PLACES = 512
MESSAGE_LIMIT = 1_000_000_000
VALUE_LIMIT = 100_000_000_000_000
SHARES = range(1, 1_000_001)
PRICES = range(1, 2_000_000_001)
EVENTS = "OSQMEC"

# For each type its length and its fields after the time stamp: name, offset, width, what is allowed.
# Allowed is a text of codes, "symbol", a range of numbers, or None for any number.
LAYOUT = {
    "S": (12, [("event", 11, 1, EVENTS)]),
    "R": (25, [("stock", 11, 8, "symbol"), ("category", 19, 1, "ANPQVZ "),
               ("lot", 20, 4, None), ("authenticity", 24, 1, "PT")]),
    "H": (20, [("stock", 11, 8, "symbol"), ("state", 19, 1, "HT")]),
    "Y": (20, [("stock", 11, 8, "symbol"), ("restriction", 19, 1, "012")]),
    "A": (40, [("reference", 11, 8, None), ("side", 19, 1, "BS"), ("shares", 20, 4, SHARES),
               ("stock", 24, 8, "symbol"), ("price", 32, 8, PRICES)]),
    "E": (31, [("reference", 11, 8, None), ("shares", 19, 4, SHARES), ("match", 23, 8, None)]),
    "X": (23, [("reference", 11, 8, None), ("shares", 19, 4, SHARES)]),
    "D": (19, [("reference", 11, 8, None)]),
    "U": (39, [("reference", 11, 8, None), ("new", 19, 8, None),
               ("shares", 27, 4, SHARES), ("price", 31, 8, PRICES)]),
    "C": (39, [("match", 11, 8, None), ("new", 19, 8, None),
               ("shares", 27, 4, SHARES), ("price", 31, 8, PRICES)]),
    "B": (19, [("match", 11, 8, None)]),
}


class Refused(Exception):
    """A question answered with no: its number, the place, and in a capture the pair."""

    def __init__(self, number, place, pair=None):
        super().__init__(number, place, pair)
        self.number, self.place, self.pair = number, place, pair


def ask(number, place, yes):
    """Refuse with this number and place unless the answer is yes."""
    if not yes:
        raise Refused(number, place)


def is_symbol(field):
    """One to eight bytes from 0x21 to 0x7E, then only spaces."""
    name = field.rstrip(b" ")
    return len(field) == 8 and len(name) >= 1 and all(0x21 <= byte <= 0x7E for byte in name)


def judge_field(field, place, allowed):
    """Questions 5, 6 and 7: the value of a field, if it is allowed."""
    number = int.from_bytes(field, "big")
    if allowed is None:
        return number
    if allowed == "symbol":
        ask(5, place, is_symbol(field))
        return field.rstrip(b" ").decode("ascii")
    if isinstance(allowed, str):
        ask(6, place, chr(number) in allowed)
        return chr(number)
    ask(7, place, number in allowed)
    return number


def decode(message):
    """Questions 1 to 8 for a Depth message: its fields by name."""
    ask(1, 0, len(message) > 0)
    kind = chr(message[0])
    ask(2, 0, kind in LAYOUT)
    length, fields = LAYOUT[kind]
    ask(3, min(len(message), length), len(message) == length)
    locate = int.from_bytes(message[1:3], "big")
    ask(4, 1, (locate == 0) == (kind == "S"))
    told = {"type": kind, "locate": locate, "stamp": int.from_bytes(message[3:11], "big")}
    for name, offset, width, allowed in fields:
        told[name] = judge_field(message[offset:offset + width], offset, allowed)
    if "price" in told:
        place = [offset for name, offset, _, _ in fields if name == "price"][0]
        ask(8, place, told["price"] * told["shares"] <= VALUE_LIMIT)
    return told


class Book:
    """The engine: stocks by locate, open orders by reference, all trades by match number."""

    def __init__(self, stocks=PLACES, orders=PLACES, matches=PLACES):
        self.places = {"stocks": stocks, "orders": orders, "matches": matches}
        self.stocks, self.orders, self.trades = {}, {}, {}
        self.events = 0
        self.accepted = 0

    def feed(self, data):
        """Take one message's bytes, or refuse them; answer the count accepted so far."""
        message = decode(data)
        kind = message["type"]
        ask(10, 0, self.accepted < MESSAGE_LIMIT)
        if kind == "S":
            ask(11, 11, message["event"] == EVENTS[self.events:self.events + 1])
            self.events += 1
        else:
            ask(11, 0, 1 <= self.events <= 5)
            if kind != "R":
                ask(12, 1, message["locate"] in self.stocks)
            getattr(self, "take_" + kind)(message)
            self.stocks[message["locate"]]["stamp"] = message["stamp"]
        self.accepted += 1
        return self.accepted

    def ask_symbol(self, message, place):
        """Question 13 where the locate is known: the symbol is its own."""
        ask(13, place, self.stocks[message["locate"]]["stock"] == message["stock"])

    def take_R(self, message):
        """Enter a stock, or renew what the directory says of it."""
        locate, symbol = message["locate"], message["stock"]
        known = locate in self.stocks
        if known:
            self.ask_symbol(message, 11)
        others = [s["stock"] for key, s in self.stocks.items() if key != locate]
        ask(13, 11, symbol not in others)
        if not known:
            ask(14, 1, len(self.stocks) < self.places["stocks"])
            self.stocks[locate] = {"stock": symbol, "state": "H", "restriction": "none",
                                   "added": 0, "executed": 0, "removed": 0}
        for name in ("category", "lot", "authenticity"):
            self.stocks[locate][name] = message[name]

    def take_H(self, message):
        """Set the trading state."""
        self.ask_symbol(message, 11)
        self.stocks[message["locate"]]["state"] = message["state"]

    def take_Y(self, message):
        """Set the restriction."""
        self.ask_symbol(message, 11)
        self.stocks[message["locate"]]["restriction"] = message["restriction"]

    def open_order(self, message, reference, side):
        """Put an order in and count its shares as added."""
        self.orders[reference] = {"locate": message["locate"], "side": side,
                                  "price": message["price"], "shares": message["shares"]}
        self.stocks[message["locate"]]["added"] += message["shares"]

    def take_A(self, message):
        """Open an order."""
        self.ask_symbol(message, 24)
        ask(19, 11, message["reference"] not in self.orders)
        ask(22, 11, len(self.orders) < self.places["orders"])
        self.open_order(message, message["reference"], message["side"])

    def named_order(self, message):
        """Questions 15 and 17: the open order that the message names."""
        ask(15, 11, message["reference"] in self.orders)
        order = self.orders[message["reference"]]
        ask(17, 1, order["locate"] == message["locate"])
        return order

    def lower(self, reference, shares):
        """Take shares off an order; at zero it leaves."""
        self.orders[reference]["shares"] -= shares
        if self.orders[reference]["shares"] == 0:
            del self.orders[reference]

    def take_E(self, message):
        """Execute shares of an order: a trade at the order's price."""
        order = self.named_order(message)
        shares, match = message["shares"], message["match"]
        ask(20, 19, shares <= order["shares"])
        ask(21, 23, match not in self.trades)
        ask(23, 23, len(self.trades) < self.places["matches"])
        self.trades[match] = {"locate": order["locate"], "price": order["price"],
                              "shares": shares, "step": 0, "standing": "live"}
        self.lower(message["reference"], shares)
        self.stocks[message["locate"]]["executed"] += shares

    def take_X(self, message):
        """Cancel shares of an order."""
        order = self.named_order(message)
        ask(20, 19, message["shares"] <= order["shares"])
        self.lower(message["reference"], message["shares"])
        self.stocks[message["locate"]]["removed"] += message["shares"]

    def take_D(self, message):
        """Delete an order."""
        order = self.named_order(message)
        self.stocks[message["locate"]]["removed"] += order["shares"]
        del self.orders[message["reference"]]

    def take_U(self, message):
        """Replace an order by a new one of the same stock and side."""
        order = self.named_order(message)
        ask(19, 19, message["new"] not in self.orders)
        self.stocks[message["locate"]]["removed"] += order["shares"]
        del self.orders[message["reference"]]
        self.open_order(message, message["new"], order["side"])

    def named_trade(self, message):
        """Questions 16, 17 and 18: the live trade that the message names."""
        ask(16, 11, message["match"] in self.trades)
        trade = self.trades[message["match"]]
        ask(17, 1, trade["locate"] == message["locate"])
        ask(18, 11, trade["standing"] == "live")
        return trade

    def take_C(self, message):
        """Correct a trade: a new one stands for it."""
        trade = self.named_trade(message)
        ask(21, 19, message["new"] not in self.trades)
        ask(23, 19, len(self.trades) < self.places["matches"])
        trade["standing"] = ("corrected", message["new"])
        self.trades[message["new"]] = {
            "locate": trade["locate"], "price": message["price"], "shares": message["shares"],
            "step": trade["step"] + 1, "standing": "live"}

    def take_B(self, message):
        """Break a trade for good."""
        self.named_trade(message)["standing"] = "broken"

    def open_orders(self, locate):
        """The open orders of a stock."""
        return [order for order in self.orders.values() if order["locate"] == locate]

    def live_trades(self, locate):
        """The live trades of a stock."""
        return [trade for trade in self.trades.values()
                if trade["locate"] == locate and trade["standing"] == "live"]

    def trace(self, match):
        """The last match number through corrections, its standing, and the steps taken."""
        steps = 0
        while isinstance(self.trades[match]["standing"], tuple):
            match, steps = self.trades[match]["standing"][1], steps + 1
        return match, self.trades[match]["standing"], steps

    def report(self):
        """A line for each stock in rising locate."""
        text = ""
        for locate in sorted(self.stocks):
            shares = sum(order["shares"] for order in self.open_orders(locate))
            volume = sum(trade["shares"] for trade in self.live_trades(locate))
            text += f"{locate} {self.stocks[locate]['stock']} {shares} {volume}\n"
        return text


def judge_index(data):
    """Questions 24 to 26, pair by pair: the messages of the capture."""
    count = int.from_bytes(data[:4], "big")
    if len(data) < 4 or 4 + 6 * count > len(data):
        raise Refused(24, 0, 0)
    messages, end = [], 4 + 6 * count
    for pair in range(count):
        place = 4 + 6 * pair
        offset = int.from_bytes(data[place:place + 4], "big")
        length = int.from_bytes(data[place + 4:place + 6], "big")
        if offset < end:
            raise Refused(25, place, pair)
        if offset + length > len(data):
            raise Refused(26, place, pair)
        end = offset + length
        messages.append(data[offset:end])
    return messages


def play(book, data, start=0):
    """Feed a capture from a pair on; answer how many messages were fed."""
    messages = judge_index(data)
    if start > len(messages):
        raise Refused(27, 0, start)
    for pair, message in enumerate(messages[start:], start):
        try:
            book.feed(message)
        except Refused as refused:
            raise Refused(refused.number, refused.place, pair) from None
    return len(messages) - start


def fitting(text, room):
    """Question 28: a text, if a buffer of this many bytes has room for it."""
    ask(28, room, len(text) <= room)
    return text


def bookday(data, start=0, **places):
    """The text of bookday for its input, and the book afterwards."""
    book, text = Book(**places), ""
    try:
        play(book, data[:INPUT_LIMIT], start)
    except Refused as refused:
        text = f"fault {refused.number} place {refused.place} pair {refused.pair}\n"
    return text + book.report(), book


def details(book):
    """Lines that tell all that the book holds, for tests."""
    lines = [f"accepted {book.accepted} events {book.events}"]
    for locate, stock in sorted(book.stocks.items()):
        orders, trades = book.open_orders(locate), book.live_trades(locate)
        sums = {"open": sum(order["shares"] for order in orders), "orders": len(orders),
                "trades": len(trades), "volume": sum(trade["shares"] for trade in trades),
                "turnover": sum(trade["shares"] * trade["price"] for trade in trades)}
        names = ("stock", "category", "lot", "authenticity", "state", "restriction",
                 "stamp", "added", "executed", "removed")
        told = {**{name: stock[name] for name in names}, **sums}
        lines.append(f"stock {locate} " + " ".join(f"{k}={v}" for k, v in told.items()))
    for reference, order in sorted(book.orders.items()):
        lines.append(f"order {reference} " + " ".join(f"{k}={v}" for k, v in order.items()))
    for match, trade in sorted(book.trades.items()):
        standing = trade["standing"] if isinstance(trade["standing"], str) else "corrected:%d" % trade["standing"][1]
        last, state, steps = book.trace(match)
        told = {**trade, "standing": standing, "trace": f"{last},{state},{steps}"}
        lines.append(f"trade {match} " + " ".join(f"{k}={v}" for k, v in told.items()))
    return "".join(line + "\n" for line in lines)


def main():
    """Read a capture and print what bookday prints."""
    parser = argparse.ArgumentParser(description=__doc__)
    parser.add_argument("capture", nargs="?", help="a file; standard input if left out")
    for name in ("stocks", "orders", "matches"):
        parser.add_argument("--" + name, type=int, default=PLACES, metavar="N",
                            help=f"places in the store of {name} ({PLACES})")
    parser.add_argument("--start", type=int, default=0, metavar="PAIR", help="the pair to play from (0)")
    parser.add_argument("--trace-all", action="store_true",
                        help="after the report, tell every stock, order and trade")
    told = parser.parse_args()
    if told.capture is None:
        data = sys.stdin.buffer.read(INPUT_LIMIT)
    else:
        with open(told.capture, "rb") as file:
            data = file.read(INPUT_LIMIT)
    text, book = bookday(data, told.start, stocks=told.stocks, orders=told.orders, matches=told.matches)
    sys.stdout.write(text + (details(book) if told.trace_all else ""))


if __name__ == "__main__":
    sys.exit(main())
