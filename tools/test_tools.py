#!/usr/bin/env python3
"""Check the tools: hand-worked cases for every question, the samples, and building what was listed."""
import glob
import os
import random
import sys

import capture
import expect
import list_capture

SAMPLES = os.path.join(os.path.dirname(os.path.abspath(__file__)), "..", "samples")

# The messages that every case starts with: pairs 0 to 3. Order 7 has 60 shares left, trade 9 has 40.
BEGIN = """
S event=O
R locate=1 stock=ABCD category=N lot=100 authenticity=P
A locate=1 reference=7 side=B shares=100 stock=ABCD price=100000
E locate=1 reference=7 shares=40 match=9
"""
# And with a second stock, an order and a trade of its own: pairs 4 to 6.
SECOND = """
R locate=2 stock=EF category=N lot=100 authenticity=P
A locate=2 reference=8 side=S shares=10 stock=EF price=100
E locate=2 reference=8 shares=1 match=10
"""

# What the next message answers: number and place, or None if it is taken. Each worked out by hand.
CASES = [
    ("raw", (1, 0)),
    ("raw 51", (2, 0)),
    ("raw 00", (2, 0)),
    ("raw 44", (3, 1)),
    ("raw 58" + "00" * 38, (3, 23)),
    ("S locate=1 event=S", (4, 1)),
    ("D reference=7", (4, 1)),
    ("H locate=1 stock=0x2020202020202020 state=T", (5, 11)),
    ("H locate=1 stock='AB D' state=T", (5, 11)),
    ("H locate=1 stock=0x414243447f state=T", (5, 11)),
    ("H locate=1 stock=ABCD state=X", (6, 19)),
    ("Y locate=1 stock=ABCD restriction=3", (6, 19)),
    ("R locate=1 stock=ABCD category=X lot=1 authenticity=P", (6, 19)),
    ("R locate=1 stock=ABCD category=N lot=1 authenticity=X", (6, 24)),
    ("S event=X", (6, 11)),
    ("A locate=1 reference=1 side=B shares=0 stock='' price=1", (7, 20)),
    ("A locate=1 reference=1 side=B shares=1000001 stock=ABCD price=1", (7, 20)),
    ("A locate=1 reference=1 side=B shares=1 stock=ABCD price=0", (7, 32)),
    ("A locate=1 reference=1 side=B shares=1 stock=ABCD price=2000000001", (7, 32)),
    ("A locate=1 reference=1 side=B shares=50000 stock=ABCD price=2000000000", None),
    ("A locate=1 reference=1 side=B shares=50001 stock=ABCD price=2000000000", (8, 32)),
    ("U locate=1 reference=7 new=1 shares=50001 price=2000000000", (8, 31)),
    ("C locate=1 match=9 new=1 shares=1000000 price=100000001", (8, 31)),
    ("C locate=1 match=9 new=1 shares=1000000 price=100000000", None),
    ("X locate=1 reference=7 shares=16777217", (7, 19)),
    ("raw 44" + "00" * 299, (3, 19)),
    ("S event=O", (11, 11)),
    ("S event=Q", (11, 11)),
    ("S event=S", None),
    ("D locate=3 reference=7", (12, 1)),
    ("H locate=3 stock=ABCD state=T", (12, 1)),
    ("R locate=1 stock=ABCE category=N lot=1 authenticity=P", (13, 11)),
    ("R locate=3 stock=ABCD category=N lot=1 authenticity=P", (13, 11)),
    ("R locate=1 stock=EF category=N lot=1 authenticity=P", (13, 11)),
    ("H locate=1 stock=EF state=T", (13, 11)),
    ("H locate=1 stock=! state=T", (13, 11)),
    ("H locate=1 stock=~~~~~~~~ state=T", (13, 11)),
    ("Y locate=1 stock=ABCDE restriction=0", (13, 11)),
    ("A locate=1 reference=1 side=B shares=1 stock=EF price=1", (13, 24)),
    ("R locate=3 stock=GH category=N lot=1 authenticity=P", (14, 1)),
    ("R locate=1 stock=ABCD category=Q lot=1 authenticity=T", None),
    ("E locate=1 reference=6 shares=1 match=1", (15, 11)),
    ("X locate=1 reference=6 shares=1", (15, 11)),
    ("D locate=1 reference=6", (15, 11)),
    ("D locate=1 reference=0x0100000000000007", (15, 11)),
    ("U locate=1 reference=6 new=7 shares=1 price=1", (15, 11)),
    ("C locate=1 match=8 new=11 shares=1 price=1", (16, 11)),
    ("B locate=1 match=8", (16, 11)),
    ("B locate=1 match=0x0100000000000009", (16, 11)),
    ("E locate=1 reference=8 shares=99 match=9", (17, 1)),
    ("U locate=1 reference=8 new=8 shares=1 price=1", (17, 1)),
    ("C locate=1 match=10 new=10 shares=1 price=1", (17, 1)),
    ("B locate=1 match=10", (17, 1)),
    ("A locate=1 reference=7 side=B shares=1 stock=ABCD price=1", (19, 11)),
    ("A locate=1 reference=8 side=B shares=1 stock=ABCD price=1", (19, 11)),
    ("U locate=1 reference=7 new=7 shares=1 price=1", (19, 19)),
    ("U locate=1 reference=7 new=8 shares=1 price=1", (19, 19)),
    ("E locate=1 reference=7 shares=61 match=9", (20, 19)),
    ("X locate=1 reference=7 shares=61", (20, 19)),
    ("X locate=1 reference=7 shares=60", None),
    ("E locate=1 reference=7 shares=60 match=9", (21, 23)),
    ("E locate=1 reference=7 shares=60 match=11", None),
    ("E locate=1 reference=7 shares=60 match=0x0100000000000009", None),
    ("C locate=1 match=9 new=9 shares=1 price=1", (21, 19)),
    ("C locate=1 match=9 new=10 shares=1 price=1", (21, 19)),
]

# More than one message to bring the refusal about; the last one is asked about.
LATER = [
    ("B locate=1 match=9\nB locate=1 match=9", (18, 11)),
    ("B locate=1 match=9\nC locate=1 match=9 new=9 shares=1 price=1", (18, 11)),
    ("C locate=1 match=9 new=11 shares=1 price=1\nB locate=1 match=9", (18, 11)),
    ("C locate=1 match=9 new=11 shares=1 price=1\nB locate=1 match=11", None),
    ("A locate=1 reference=1 side=B shares=1 stock=ABCD price=1\n"
     "A locate=1 reference=2 side=B shares=1 stock=ABCD price=1", (22, 11)),
    ("A locate=1 reference=1 side=B shares=1 stock=ABCD price=1\n"
     "U locate=1 reference=1 new=2 shares=1 price=1", None),
    ("D locate=1 reference=7\nA locate=1 reference=7 side=S shares=1 stock=ABCD price=1", None),
    ("E locate=1 reference=7 shares=1 match=11\nE locate=1 reference=7 shares=1 match=12", (23, 23)),
    ("E locate=1 reference=7 shares=1 match=11\nC locate=1 match=9 new=12 shares=1 price=1", (23, 19)),
    ("S event=S\nS event=Q\nS event=M\nS event=E\nD locate=1 reference=7", None),
    ("S event=S\nS event=Q\nS event=M\nS event=E\nS event=C\nD locate=1 reference=7", (11, 0)),
    ("S event=S\nS event=Q\nS event=M\nS event=E\nS event=C\nS event=C", (11, 11)),
]


def answer(text, **places):
    """What feeding the last message of a text answers, the ones before being taken."""
    data = capture.build(text)
    pairs, _ = capture.read_index(data)
    book = expect.Book(**places)
    messages = [data[at:at + length] for at, length in pairs]
    for message in messages[:-1]:
        book.feed(message)
    return refusal(book, messages[-1])


def refusal(book, message):
    """Number and place of a refusal, which changes nothing, or None if the message is taken."""
    before = expect.details(book)
    try:
        book.feed(message)
    except expect.Refused as refused:
        assert expect.details(book) == before, message
        return refused.number, refused.place
    return None


def check_cases():
    """Every case answers as worked out: 2 stocks, 3 orders, 3 trades."""
    for line, wanted in CASES + LATER:
        got = answer(BEGIN + SECOND + line, stocks=2, orders=3, matches=3)
        assert got == wanted, (line, wanted, got)
    assert answer("S event=S") == (11, 11)
    assert answer("R locate=1 stock=A category=N lot=1 authenticity=P") == (11, 0)
    full = expect.Book()
    full.accepted = expect.MESSAGE_LIMIT
    assert refusal(full, b"") == (1, 0)
    assert refusal(full, capture.pack_message("S", event="O")) == (10, 0)


def check_short_day():
    """A day over 1 stock, 2 orders and 3 trades, figure by figure."""
    text = BEGIN
    want = "added=100 executed=40 removed=0 open=60 orders=1 trades=1 volume=40 turnover=4000000"
    assert want in day(text)
    text += "U locate=1 reference=7 new=8 shares=50 price=100100\n"
    want = "added=150 executed=40 removed=60 open=50 orders=1 trades=1 volume=40 turnover=4000000"
    assert want in day(text) and day(text).startswith("1 ABCD 50 40\n")
    text += "C locate=1 match=9 new=10 shares=30 price=100000\n"
    want = "added=150 executed=40 removed=60 open=50 orders=1 trades=1 volume=30 turnover=3000000"
    assert want in day(text)
    text += "B locate=1 match=10\n"
    want = "added=150 executed=40 removed=60 open=50 orders=1 trades=0 volume=0 turnover=0"
    assert want in day(text) and "standing=corrected:10 trace=10,broken,1" in day(text)
    assert "locate=1 side=B price=100100 shares=50" in day(text)


def day(text):
    """The report and all details of a text over small stores."""
    said, book = expect.bookday(capture.build(text), stocks=1, orders=2, matches=3)
    return said + expect.details(book)


def check_starts():
    """Playing from a pair: at most the count, and with the pair's own number in the fault."""
    data = capture.build(BEGIN)
    for start, wanted in [(0, "1 ABCD 60 40\n"), (4, ""), (5, "fault 27 place 0 pair 5\n"),
                          (1, "fault 11 place 0 pair 1\n"), (3, "fault 11 place 0 pair 3\n")]:
        assert expect.bookday(data, start)[0] == wanted, start
    exact = capture.build("count 3\nS event=O")  # 22 bytes: the index takes them all
    assert expect.bookday(exact)[0] == "fault 25 place 4 pair 0\n"
    assert expect.bookday(data[:-1], 99)[0] == "fault 26 place 22 pair 3\n"
    assert expect.fitting("abc", 3) == "abc"
    try:
        expect.fitting("abc", 2)
        raise AssertionError("28")
    except expect.Refused as refused:
        assert (refused.number, refused.place) == (28, 2)


# All that the book holds after samples/day.txt: the sums worked out by hand there, the rest checked against it line by line.
WHOLE_DAY = """\
accepted 37 events 6
stock 1 stock=ABCD category=N lot=100 authenticity=P state=T restriction=1 stamp=33 \
added=870 executed=500 removed=300 open=70 orders=1 trades=1 volume=180 turnover=180090000
stock 2 stock=XY category=Q lot=100 authenticity=P state=T restriction=2 stamp=36 \
added=1400 executed=150 removed=1000 open=250 orders=1 trades=0 volume=0 turnover=0
stock 3 stock=MNO.B category=A lot=25 authenticity=P state=H restriction=none stamp=34 \
added=1000050 executed=1 removed=50 open=999999 orders=1 trades=1 volume=1 turnover=99
stock 65535 stock=LONGNAME category=Z lot=10 authenticity=P state=H restriction=none stamp=18446744073709551615 \
added=0 executed=0 removed=0 open=0 orders=0 trades=0 volume=0 turnover=0
order 101 locate=1 side=S price=1020000 shares=70
order 202 locate=2 side=B price=260000 shares=250
order 302 locate=3 side=B price=99 shares=999999
trade 9001 locate=1 price=1000000 shares=200 step=0 standing=corrected:9006 trace=9006,live,1
trade 9002 locate=1 price=1000000 shares=300 step=0 standing=broken trace=9002,broken,0
trade 9003 locate=2 price=260000 shares=150 step=0 standing=corrected:9004 trace=9005,broken,2
trade 9004 locate=2 price=255000 shares=120 step=1 standing=corrected:9005 trace=9005,broken,1
trade 9005 locate=2 price=255000 shares=130 step=2 standing=broken trace=9005,broken,0
trade 9006 locate=1 price=1000500 shares=180 step=1 standing=live trace=9006,live,0
trade 9007 locate=3 price=99 shares=1 step=0 standing=live trace=9007,live,0
"""


def check_whole_day():
    """The sample of a whole day leaves the book as worked out."""
    with open(os.path.join(SAMPLES, "day.cap"), "rb") as file:
        assert expect.details(expect.bookday(file.read())[1]) == WHOLE_DAY


def check_samples():
    """Each sample is built from its text and prints its stored output."""
    names = sorted(glob.glob(os.path.join(SAMPLES, "*.txt")))
    assert names
    for name in names:
        with open(name, encoding="ascii") as text, open(name[:-4] + ".cap", "rb") as cap, \
                open(name[:-4] + ".out", encoding="ascii", newline="") as out:
            data = cap.read()
            assert capture.build(text.read()) == data, name
            assert expect.bookday(data)[0] == out.read(), name
        check_listing(data)
    return len(names)


def check_lists():
    """Each sample of a feed is built from its text and lists as stored."""
    for feed in list_capture.FEEDS:
        name = os.path.join(SAMPLES, "lists", feed)
        with open(name + ".txt", encoding="ascii") as text, open(name + ".cap", "rb") as cap, \
                open(name + ".list", encoding="ascii", newline="") as out:
            data = cap.read()
            assert capture.build(text.read()) == data, feed
            assert list_capture.listing(feed, data) == out.read(), feed
        check_listing(data)
    assert list_capture.listing("depth", b"") == "fault 24 place 0 pair 0\n"


def check_listing(data):
    """A listing builds the same bytes again."""
    assert capture.build("\n".join(capture.listing(data))) == data


def check_noise():
    """Listing and building agree on arbitrary bytes and on captures of arbitrary messages."""
    rng = random.Random(5)
    for _ in range(3000):
        check_listing(rng.randbytes(rng.randrange(60)))
        plan = capture.Plan()
        for _ in range(rng.randrange(4)):
            kind = rng.choice(list(expect.LAYOUT))
            plan.add(kind.encode() + rng.choice([bytes, rng.randbytes])(expect.LAYOUT[kind][0] - 1), True)
            plan.add(rng.randbytes(rng.randrange(3)), False)
        check_listing(plan.build())
    for symbol in ("'", "''", "#", "A#", "0x41", "A=B", "=", "A'"):
        check_listing(capture.build("H locate=1 stock=0x%s state=0x27" % symbol.encode().hex()))


if __name__ == "__main__":
    check_cases()
    check_short_day()
    check_starts()
    check_whole_day()
    number = check_samples()
    check_lists()
    check_noise()
    print(f"{len(CASES) + len(LATER)} cases and {number} samples agree")
    sys.exit(0)
