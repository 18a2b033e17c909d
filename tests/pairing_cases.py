"""Books with notices, and the lines of each.

  python3 tests/pairing_cases.py --cases 400 --seed 1 --stdin FILE --stdout FILE

One case a line: the escaped book file, then for each lot notified a space and
ROW:ASSET:CONTRACTS. The other table has, case after case, what the program
that lists lines prints. The laws of the lines are checked on every case.
"""

import argparse
import random
import sys
from collections import Counter

from book import Book, write
from escaping import escape
from pairing import answer
from random_books import PRINTED, random_book

TERMS = (10, 1_000)
ASSETS = [(1_000_000, 0, 1_010), (900_000, 50, 940)]

# Positions of holders in ascending order, in one group.
ONE_GROUP = [
    (5, 4, -4, -3, -2), (7, 5, -6, -4, -2), (10, 4, -7, -3, -2, -2),
    (1, -1), (3, 3, 3, -3, -3, -3), (-3, 3, -3, 3), (2, 2, 2, -3, -3), (1, 1, 1, 1, -4),
    (4, -1, -1, -1, -1), (6, 5, 4, -5, -4, -6), (6, 5, 4, -4, -4, -4, -3), (9, 1, -5, -5),
    (2, 2, 4, -4, -2, -2), (8, 3, 3, -3, -3, -8), (5, 5, 5, -7, -8), (-9, 2, 3, 4),
    (100, 50, 25, -60, -60, -55), (7, 7, 2, -7, -2, -7), (1, 2, 3, 4, -4, -3, -2, -1),
    (12, 11, -10, -9, -4), (1_000_000, -999_999, -1), (500_000, 500_000, -1_000_000),
]

# For each stage, the names of a row that put all holders into one group of that stage alone.
GROUPS = {1: lambda row: (1, row, 1, 1), 2: lambda row: (row, 1, 1, 1),
          3: lambda row: (row, 1, row, 1), 4: lambda row: (row, 1, row, row)}


def grouped(stage, positions):
    rows = [GROUPS[stage](row) + (position,) for row, position in enumerate(positions, 1)]
    return write(Book(*TERMS, ASSETS, rows))


def groups():
    for stage in GROUPS:
        for positions in ONE_GROUP:
            yield grouped(stage, positions), []


def printed():
    """The printed book with every way to notify its first seller, and some for both."""
    for first in range(6):
        yield PRINTED, [(1, 0, first)] if first else []
        for second in range(6 - first):
            lots = [(1, 0, first), (1, 1, second), (4, 0, second % 5)]
            yield PRINTED, [lot for lot in lots if lot[2]]


def deliverables():
    """Which asset the unnotified contracts go to: ties, prices below the invoice price."""
    rows = [(1, 1, 1, 1, 3), (1, 2, 1, 1, -2), (2, 1, 2, 2, -1)]
    for assets in [
            [(1_000_000, 0, 1_000)] * 4, [(1_000_000, 0, 1_000), (1_000_000, 0, 999)],
            [(1_000_000, 0, 999), (1_000_000, 0, 1_000)], [(1_000_000, 0, 5), (900_000, 0, 1)],
            [(1_000_000, 7, 1_007), (900_000, 9, 909), (800_000, 0, 799), (500_000, 1, 500)],
            [(2_000_000, 10_000_000, 1), (100_000, 0, 210_000_000)],
            [(100_000, 0, 210_000_000), (2_000_000, 10_000_000, 210_000_000)],
            [(1_000_500, 0, 1_001), (1_000_499, 0, 1_000), (999_500, 0, 1_000)],
            [(1_000_000, 0, 1_001), (1_000_000, 0, 1_000), (1_000_000, 0, 1_000)]]:
        yield write(Book(*TERMS, assets, rows)), []
        yield write(Book(1_000, 100_000_000, assets, rows)), []
        yield write(Book(1, 105, assets, rows)), [(2, len(assets) - 1, 1)]
    # The price by the factor just below a half, at it and above it: 49.499999, 50.5, 51.500001.
    for factor in (490_099, 500_000, 509_901):
        yield write(Book(1, 101, [(factor, 3, 1)], rows)), []


def refusals():
    yield b"", []
    yield b"book,2\n", []
    yield PRINTED[:-1], []
    yield PRINTED.replace(b"-4", b"-5"), []
    yield PRINTED.replace(b"holder,2,1,1,1,4", b"holder,2,1,1,1,4,1"), []
    yield PRINTED.replace(b",-5\n", b",05\n"), []


def random_notices(rng, book):
    """Lots for some sellers, some of them for all their contracts."""
    notices = []
    for row, holder in enumerate(book.holders, 1):
        left = max(0, -holder.position) if rng.random() < 0.7 else 0
        for asset in rng.sample(range(len(book.assets)), rng.randint(0, len(book.assets))):
            contracts = rng.choice((left, left // 2, rng.randint(0, left)))
            if contracts:
                notices.append((row, asset, contracts))
                left -= contracts
    return notices


def random_case(rng, holders=None):
    holders = holders or rng.choice((2, 3, 4, 5, 6, 8, 10, 14, 20))
    members = rng.choice((None, None, 1, 2, max(1, holders // 2)))
    book = random_book(rng, holders, members=members)
    return write(book), random_notices(rng, book) if rng.random() < 0.7 else []


def large():
    """Large books; in the last one buyer takes four assets from each of 255 sellers."""
    rng = random.Random(11)
    for holders in (60, 120, 256):
        yield random_case(rng, holders)
    rows = [(1 + row // 200, row % 200 + 1, 1 + row // 200, 1, -4) for row in range(255)]
    book = Book(*TERMS, [(1_000_000, 0, 1_010)] * 4, rows + [(2, 999_999, 2, 1, 1_020)])
    yield write(book), [(row, asset, 1) for row in range(1, 256) for asset in range(1, 4)]


def cases(count, seed):
    number = 0
    for part in (groups, printed, deliverables, refusals, large):
        for case in part():
            number += 1
            yield case
    rng = random.Random(seed)
    while number < count:
        number += 1
        yield random_case(rng)


def main():
    parser = argparse.ArgumentParser(description=__doc__)
    parser.add_argument("--cases", type=int, default=400)
    parser.add_argument("--seed", type=int, default=1)
    parser.add_argument("--stdin", required=True)
    parser.add_argument("--stdout", required=True)
    given = parser.parse_args()
    met = Counter()
    with open(given.stdin, "w") as asked, open(given.stdout, "w") as expected:
        for data, notices in cases(given.cases, given.seed):
            asked.write(" ".join([escape(data)] + ["%d:%d:%d" % lot for lot in notices]) + "\n")
            texts = answer(data, notices)
            expected.write("\n".join(texts) + "\n")
            met["cases"] += 1
            for text in texts:
                fields = text.split(",")
                met["stage " + fields[2] if fields[0] == "line" else fields[0]] += 1
    for what, number in sorted(met.items()):
        print(number, what, file=sys.stderr)


if __name__ == "__main__":
    main()
