"""A model of the book and its file: reading, writing, prices, look-up.

A book has terms (multiplier, futures price), 1 to 4 assets (factor, accrued
interest, market price) and holders in rows from 1 (member, number, clearing
member, payment agent, position: plus bought, minus sold).
"""

import re
from collections import namedtuple

MOST_BYTES = 16_384
MOST_ASSETS = 4
MOST_HOLDERS = 256
MOST_BOUGHT = 1_000_000

# For each kind of line the range of each number on it, from the left.
RANGES = {
    b"terms": [(1, 1_000), (100, 100_000_000)],
    b"asset": [(100_000, 2_000_000), (0, 10_000_000), (1, 210_000_000)],
    b"holder": [(1, 999), (1, 999_999), (1, 999), (1, 64),
                (-1_000_000, 1_000_000)],
}

# A position is never 0.
POSITION = 5

# Base ten, no leading zero, no plus, no -0.
NUMBER = re.compile(rb"0|-?[1-9][0-9]*")

# A number of more bytes than this is out of every range.
LONGEST_NUMBER = 20

Asset = namedtuple("Asset", "factor accrued market")
Holder = namedtuple("Holder", "member number clearing agent position")


class Refused(Exception):
    """A refusal: its number, line and field."""

    def __init__(self, number, line=0, field=0):
        super().__init__(number, line, field)
        self.number, self.line, self.field = number, line, field

    def told(self):
        return "refused,%d,%d,%d" % (self.number, self.line, self.field)


class Book:
    def __init__(self, multiplier, price, assets, holders):
        self.multiplier = multiplier
        self.price = price
        self.assets = [Asset(*asset) for asset in assets]
        self.holders = [Holder(*holder) for holder in holders]

    def __eq__(self, other):
        return vars(self) == vars(other)

    def bought(self):
        return sum(h.position for h in self.holders if h.position > 0)

    def sold(self):
        return sum(-h.position for h in self.holders if h.position < 0)

    def invoice_price(self, asset):
        """Centavos a unit: the futures price by the factor, a half rounded up, and the interest."""
        record = self.assets[asset]
        return (self.price * record.factor + 500_000) // 1_000_000 + record.accrued

    def value(self, asset, contracts):
        return contracts * self.multiplier * self.invoice_price(asset)

    def row_of(self, member, number):
        """The row of a holder, counted from 1, or None."""
        for row, holder in enumerate(self.holders, 1):
            if (holder.member, holder.number) == (member, number):
                return row
        return None

    def first_deliverable(self):
        """The asset with the lowest market price less invoice price, the lowest number among equals."""
        gaps = [a.market - self.invoice_price(i) for i, a in enumerate(self.assets)]
        return gaps.index(min(gaps))


def cut(data):
    """The lines of a file, each with whether byte 10 ends it."""
    pieces = data.split(b"\n")
    lines = [(piece, True) for piece in pieces[:-1]]
    if pieces[-1]:
        lines.append((pieces[-1], False))
    return lines


def kinds_allowed(terms, assets, holders):
    """The kinds of line that may come next."""
    if terms is None:
        return [b"terms"]
    if holders:
        return [b"holder"]
    if not assets:
        return [b"asset"]
    return [b"holder"] if len(assets) == MOST_ASSETS else [b"asset", b"holder"]


def numbers_of(line, kind, fields):
    """The numbers of a line: all forms are checked before any range."""
    for field, text in enumerate(fields[1:], 2):
        if not NUMBER.fullmatch(text):
            raise Refused(2, line, field)
    numbers = []
    for field, (text, (low, high)) in enumerate(zip(fields[1:], RANGES[kind]), 2):
        value = int(text) if len(text) <= LONGEST_NUMBER else None
        if value is None or not low <= value <= high:
            raise Refused(3, line, field)
        if kind == b"holder" and field == POSITION + 1 and value == 0:
            raise Refused(3, line, field)
        numbers.append(value)
    return numbers


def check_row(line, holders, new):
    """A row above the last one, under one clearing member and one agent."""
    if holders and (new.member, new.number) <= (holders[-1].member, holders[-1].number):
        raise Refused(4, line)
    for old in holders:
        if old.member == new.member and old.clearing != new.clearing:
            raise Refused(5, line)
        if old.clearing == new.clearing and old.agent != new.agent:
            raise Refused(5, line)


def read(data):
    """The book of a file, or Refused."""
    if len(data) > MOST_BYTES:
        raise Refused(7)
    terms, assets, holders = None, [], []
    for line, (text, ended) in enumerate(cut(data), 1):
        fields = text.split(b",")
        kind = fields[0]
        if kind == b"holder" and len(holders) == MOST_HOLDERS:
            raise Refused(7, line)
        if line == 1 and text != b"book,1":
            raise Refused(1, line)
        if not ended:
            raise Refused(2, line)
        if line == 1:
            continue
        if kind not in kinds_allowed(terms, assets, holders):
            raise Refused(2, line, 1)
        if len(fields) != 1 + len(RANGES[kind]):
            raise Refused(2, line)
        numbers = numbers_of(line, kind, fields)
        if kind == b"terms":
            terms = numbers
        elif kind == b"asset":
            assets.append(Asset(*numbers))
        else:
            check_row(line, holders, Holder(*numbers))
            holders.append(Holder(*numbers))
    if not holders:
        raise Refused(6)
    book = Book(terms[0], terms[1], assets, holders)
    if book.bought() != book.sold() or book.bought() > MOST_BOUGHT:
        raise Refused(6)
    return book


def write(book):
    """The file of a book; the empty book, None, has none."""
    if book is None:
        raise Refused(6)
    rows = [("book", 1), ("terms", book.multiplier, book.price)]
    rows += [("asset",) + tuple(asset) for asset in book.assets]
    rows += [("holder",) + tuple(holder) for holder in book.holders]
    return "".join(",".join(map(str, row)) + "\n" for row in rows).encode()


def write_into(book, buffer):
    """Writes at the front of the buffer, leaves later bytes alone, answers the length."""
    data = write(book)
    if len(data) > len(buffer):
        raise Refused(15)
    buffer[:len(data)] = data
    return len(data)


def check(data):
    """What the program that checks one file prints, without the line end."""
    try:
        book = read(data)
    except Refused as refusal:
        return refusal.told()
    return "accepted,%d,%d,%d,%d" % (
        len(data), len(book.assets), len(book.holders), book.bought())


if __name__ == "__main__":
    import sys
    print(check(sys.stdin.buffer.read()))
