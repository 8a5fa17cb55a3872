#!/usr/bin/env python3
"""Build a capture of messages from a readable text, or list a capture as such a text."""
import argparse
import re
import sys

HELP = """\
The text holds one line for each message; '#' at the start of a line or after a
space begins a comment.

  TYPE name=value ...      a message; locate and stamp are 0 when left out
    S event                  R stock category lot authenticity
    H stock state            Y stock restriction
    A reference side shares stock price
    E reference shares match                X reference shares
    D reference              U reference new shares price
    C match new shares price                B match
    Q stock bid bid_size offer offer_size   T stock match price size
    X stock match price size                (that of Last Sale)
  raw HEXBYTES             a message given as bytes; 'raw' alone is an empty one

Numbers are decimal or 0x hexadecimal. Codes and symbols are written as they are,
in quotes if they hold a space (category=' '), or as bytes (stock=0x4142); a symbol
is filled up with spaces to eight bytes. Whatever fits the width of its field is
taken, also values that no feed may send.

Lines that shape the file, to build broken captures too:
  bare HEXBYTES            bytes that belong to no message, at this place
  fill N                   N zero bytes that belong to no message, at this place
  count N                  write N as the count, whatever the number of messages
  pair OFFSET LENGTH       write these into the index for the next message;
                           '-' stands for the true value
  noindex                  write neither count nor index, only the bytes
"""

HEAD = [("locate", 2), ("stamp", 8)]
BODY = {
    "S": [("event", "code")],
    "R": [("stock", "symbol"), ("category", "code"), ("lot", 4), ("authenticity", "code")],
    "H": [("stock", "symbol"), ("state", "code")],
    "Y": [("stock", "symbol"), ("restriction", "code")],
    "A": [("reference", 8), ("side", "code"), ("shares", 4), ("stock", "symbol"), ("price", 8)],
    "E": [("reference", 8), ("shares", 4), ("match", 8)],
    "X": [("reference", 8), ("shares", 4)],
    "D": [("reference", 8)],
    "U": [("reference", 8), ("new", 8), ("shares", 4), ("price", 8)],
    "C": [("match", 8), ("new", 8), ("shares", 4), ("price", 8)],
    "B": [("match", 8)],
    "Q": [("stock", "symbol"), ("bid", 8), ("bid_size", 4), ("offer", 8), ("offer_size", 4)],
    "T": [("stock", "symbol"), ("match", 8), ("price", 8), ("size", 4)],
}
SALE_CANCEL = BODY["T"]  # X of Last Sale; X above is that of Depth
WIDTH = {"code": 1, "symbol": 8}
FIELD = re.compile(r"\s+(\w+)=('[^']*'|\S+)")


def width_of(kind):
    """The bytes that a field of this kind takes."""
    return WIDTH.get(kind, kind)


def length_of(fields):
    """The length of a message with these fields after its head."""
    return 1 + sum(width_of(kind) for _, kind in HEAD + fields)


def pack_text(kind, word):
    """The bytes of a code or symbol, filled with spaces."""
    if re.fullmatch(r"0x([0-9A-Fa-f]{2})+", word):
        text = bytes.fromhex(word[2:])
    else:
        text = word.strip("'").encode("ascii") if word.startswith("'") else word.encode("ascii")
    if len(text) > WIDTH[kind]:
        raise ValueError(f"{word} is longer than {WIDTH[kind]}")
    return text.ljust(WIDTH[kind])


def pack_number(width, word):
    """The bytes of a whole number, most significant first."""
    number = int(word, 16 if word.startswith("0x") else 10)
    if not 0 <= number < 256 ** width:
        raise ValueError(f"{word} does not fit {width} bytes")
    return number.to_bytes(width, "big")


def pack_message(kind, **words):
    """The bytes of one message from its type and the words of its fields."""
    words = {"locate": "0", "stamp": "0", **{name: str(word) for name, word in words.items()}}
    message = kind.encode("ascii")
    body = SALE_CANCEL if kind == "X" and "stock" in words else BODY[kind]
    for name, field in HEAD + body:
        if name not in words:
            raise ValueError(f"{kind} needs {name}")
        word = words.pop(name)
        message += pack_text(field, word) if field in WIDTH else pack_number(field, word)
    if words:
        raise ValueError(f"{kind} has no field {', '.join(words)}")
    return message


def parse_message(line):
    """The bytes of a line that names a message type and its fields."""
    kind, rest = line[:1], line[1:]
    if kind not in BODY or FIELD.sub("", rest).strip():
        raise ValueError("no such line")
    names = [name for name, _ in FIELD.findall(rest)]
    if len(set(names)) != len(names):
        raise ValueError("a field is given twice")
    return pack_message(kind, **dict(FIELD.findall(rest)))


class Plan:
    """What the lines of a text ask for: bytes in order, and what the index says of them."""

    def __init__(self):
        self.pieces = []  # (bytes, is it a message, offset told, length told)
        self.count = None
        self.told = (None, None)
        self.index = True

    def add(self, data, message):
        """Add bytes, with the index entry that a pair line told for a message."""
        self.pieces.append((data, message, *(self.told if message else (None, None))))
        if message:
            self.told = (None, None)

    def line(self, line):
        """Take one line of the text, without its comment."""
        word, _, rest = line.partition(" ")
        if word in ("raw", "bare"):
            self.add(bytes.fromhex(rest), word == "raw")
        elif word == "fill":
            self.add(bytes(int(rest)), False)
        elif word == "count":
            self.count = int(rest)
        elif word == "pair":
            offset, length = rest.split()
            self.told = tuple(None if told == "-" else int(told) for told in (offset, length))
        elif word == "noindex":
            self.index = False
        else:
            self.add(parse_message(line), True)

    def build(self):
        """The bytes of the capture."""
        messages = sum(1 for piece in self.pieces if piece[1])
        count = messages if self.count is None else self.count
        index, body = count.to_bytes(4, "big"), b""
        for data, message, offset, length in self.pieces:
            if message:
                at = 4 + 6 * messages + len(body) if offset is None else offset
                index += at.to_bytes(4, "big")
                index += (len(data) if length is None else length).to_bytes(2, "big")
            body += data
        return index + body if self.index else body


def build(text):
    """The capture that a text describes."""
    plan = Plan()
    for number, line in enumerate(text.splitlines(), 1):
        line = re.sub(r"(^|\s)#.*$", "", line).strip()
        try:
            if line:
                plan.line(line)
        except (ValueError, OverflowError) as problem:
            raise SystemExit(f"line {number}: {problem}")
    return plan.build()


def show_text(value):
    """A code or symbol as a word that packs to the same bytes."""
    bare = value.rstrip(b" ")
    plain = all(0x21 <= byte <= 0x7E and byte != 0x27 for byte in bare)
    if value == b" ":
        return "' '"
    if bare and plain and not bare.startswith(b"0x"):
        return bare.decode("ascii")
    return "0x" + value.hex()


def show_message(message):
    """A message as a line: by its fields if type and length are right, else raw."""
    kind = message[:1].decode("latin-1")
    body = BODY.get(kind, [])
    if kind == "X" and len(message) == length_of(SALE_CANCEL):
        body = SALE_CANCEL
    if kind not in BODY or len(message) != length_of(body):
        return ("raw " + message.hex(" ")).strip()
    line, at = kind, 1
    for name, field in HEAD + body:
        value = message[at:at + width_of(field)]
        at += width_of(field)
        word = show_text(value) if field in WIDTH else int.from_bytes(value, "big")
        line += f" {name}={word}"
    return line


def show_loose(data):
    """Lines for bytes that belong to no message."""
    if not data:
        return []
    return [f"fill {len(data)}"] if not any(data) else ["bare " + data.hex(" ")]


def read_index(data):
    """The pairs of the index, and a complaint if it is broken."""
    count = int.from_bytes(data[:4], "big")
    if len(data) < 4 or 4 + 6 * count > len(data):
        return [], "count and index do not fit the bytes"
    pairs, end, complaint = [], 4 + 6 * count, None
    for at in range(4, end, 6):
        offset, length = (int.from_bytes(part, "big") for part in (data[at:at + 4], data[at + 4:at + 6]))
        if complaint is None and (offset < end or offset + length > len(data)):
            complaint = f"pair {len(pairs)} starts too early or ends too late"
        pairs.append((offset, length))
        end = offset + length
    return pairs, complaint


def listing(data):
    """The lines that build this capture again, byte for byte."""
    pairs, complaint = read_index(data)
    if complaint:
        told = [f"#   pair {k}: offset {pair[0]} length {pair[1]}" for k, pair in enumerate(pairs)]
        return [f"# broken index: {complaint}", *told, "noindex", *show_loose(data)]
    lines, at = [], 4 + 6 * len(pairs)
    for number, (offset, length) in enumerate(pairs):
        lines += show_loose(data[at:offset])
        lines.append(f"{show_message(data[offset:offset + length])}  # pair {number}")
        at = offset + length
    return lines + show_loose(data[at:])


def main():
    """Build or list, as the command line says."""
    parser = argparse.ArgumentParser(
        description=__doc__, epilog=HELP, formatter_class=argparse.RawDescriptionHelpFormatter)
    parser.add_argument("action", choices=["build", "list"])
    parser.add_argument("source", help="the text to build from, or the capture to list")
    parser.add_argument("target", nargs="?", help="the capture to write (build only)")
    told = parser.parse_args()
    if (told.action == "build") != (told.target is not None):
        parser.error("build takes a text and a capture, list takes a capture")
    if told.action == "list":
        with open(told.source, "rb") as file:
            for line in listing(file.read()):
                print(line)
        return
    with open(told.source, encoding="ascii") as file:
        capture = build(file.read())
    with open(told.target, "wb") as file:
        file.write(capture)


if __name__ == "__main__":
    sys.exit(main())
