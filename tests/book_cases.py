"""Good and damaged book files of every kind, with the answer to each.

  python3 tests/book_cases.py --cases 700 --seed 1 --stdin FILE --stdout FILE

One escaped file a line, and on the same line of the other table what the
program that checks one file prints for it. The fixed cases come first, then
seeded random damage until there are as many as asked for.
"""

import argparse
import random
import sys
from collections import Counter

from book import MOST_BYTES, RANGES, Book, check, write
from escaping import escape, unescape
from random_books import PRINTED, random_book

# Texts that are no number.
BAD_FORMS = [b"", b"05", b"+5", b"-0", b"00", b"-", b"--5", b"-05", b"5 ", b" 5",
             b"5.0", b"1e3", b"0x5", b"5\r", b"5\0", b"\xb2", b"5-", b"x", b"'5'"]

# Well-formed numbers that wrap round to a small one in some width.
WRAPS = [2**8 + 5, 2**16 + 150, 2**32 + 150, 2**63, 2**64 - 1, 2**64, 2**64 + 150,
         2**128 + 150, -2**63, -2**64 + 150]

LINES = PRINTED.split(b"\n")[:-1]


def joined(lines):
    return b"".join(line + b"\n" for line in lines)


def with_line(place, text):
    """The printed book with another line at this place, counted from 1."""
    return joined(LINES[:place - 1] + [text] + LINES[place:])


def with_field(place, field, text):
    fields = LINES[place - 1].split(b",")
    fields[field - 1] = text
    return with_line(place, b",".join(fields))


def first_lines():
    good = joined(LINES[1:])
    for first in [b"book,2", b"book,1,", b"book,1,1", b"book", b"book,", b"book,01",
                  b"book, 1", b"Book,1", b"book,1\r", b" book,1", b"book;1", b"book,1 ",
                  b"", b"terms,10,1000", b"\xef\xbb\xbfbook,1", b"book,1\0", b"book,11",
                  b"holder,1,1,1,1,-5", b"boo", b"bookk,1"]:
        yield first + b"\n" + good
        yield first
    yield joined(LINES[1:])
    for text in [b"", b"\n", b"\n\n", b"book,1", b"book,1\n", b"book,2", b"book,2\n",
                 b"book,1\n\n", b"\0", b",", b"book,1\nbook,1\n", b"book,1\rterms,10,1000\n"]:
        yield text


def short_files():
    """Files that stop after each line, with and without its end, and after each byte of a line."""
    for count in range(1, len(LINES) + 1):
        yield joined(LINES[:count])
        yield joined(LINES[:count])[:-1]
    last = len(PRINTED) - len(LINES[-1]) - 1
    for end in range(last, len(PRINTED)):
        yield PRINTED[:end]


def wrong_kinds():
    """Lines of every kind at every place where they may not stand."""
    for place in range(2, len(LINES) + 1):
        for text in [b"", b"terms,10,1000", b"asset,1000000,0,1010", b"holder,1,1,1,1,-5",
                     b"book,1", b"Holder,9,9,9,9,9", b"holder ,9,9,9,9,9", b"holders,9,9,9,9,9"]:
            kind = LINES[place - 1].split(b",")[0]
            if text.split(b",")[0] != kind:
                yield with_line(place, text)
    for kind in [b"", b"term", b"terms\0", b"ASSET", b"asset\r", b"\xffholder", b"0", b"-1",
                 b" terms", b"\tasset", b"hold", b"holder\x0b"]:
        for place in (2, 3, 4, 5, 9):
            yield with_field(place, 1, kind)
    assets = [LINES[2]] * 4
    yield joined(LINES[:2] + assets[:3] + LINES[4:])
    yield joined(LINES[:2] + assets + LINES[4:])
    yield joined(LINES[:2] + assets + [LINES[2]] + LINES[4:])
    yield joined(LINES[:2] + assets + [b"asset,1"] + LINES[4:])
    yield joined(LINES[:2] + LINES[1:])
    yield joined(LINES[:2] + LINES[4:])
    yield joined(LINES[:5] + [LINES[3]] + LINES[5:])
    yield joined(LINES + [LINES[1]])
    yield joined(LINES + [b""])
    yield joined(LINES + [b"", b""])
    yield joined(LINES) + b"holder,5,1,3,2"
    yield joined(LINES) + b" "
    yield joined(LINES) + b"\0"


def wrong_counts():
    for place in (2, 3, 4, 5, 7, 9):
        fields = LINES[place - 1].split(b",")
        yield with_line(place, LINES[place - 1] + b",1")
        yield with_line(place, LINES[place - 1] + b",")
        yield with_line(place, b",".join(fields[:-1]))
        yield with_line(place, fields[0])
        yield with_line(place, fields[0] + b",")
        yield with_line(place, b",,".join(fields))
        yield with_line(place, LINES[place - 1] + b"," * 100)
    # A column before the position or behind it: never the position of another column.
    yield joined(LINES[:4] + [line + b",1" for line in LINES[4:]])
    yield joined(LINES[:4] + [b",".join(line.split(b",")[:5]) for line in LINES[4:]])


def wrong_numbers():
    """Each number of each kind of line: bad forms, both ends of its range, numbers beyond."""
    for place in (2, 4, 5, 9):
        ranges = RANGES[LINES[place - 1].split(b",")[0]]
        for field, (low, high) in enumerate(ranges, 2):
            turn = place * 7 + field
            forms = {BAD_FORMS[(turn + step) % len(BAD_FORMS)] for step in range(6)}
            for form in sorted(forms | {b"", b"05", b"+5", b"-0"}):
                yield with_field(place, field, form)
            wraps = {WRAPS[(turn + step) % len(WRAPS)] for step in range(3)}
            for number in sorted(wraps | {low - 1, low, high, high + 1, 0, -1}):
                yield with_field(place, field, b"%d" % number)
    for form in BAD_FORMS:
        yield with_field(6, 6, form)
    for number in WRAPS:
        yield with_field(7, 6, b"%d" % number)
    for digits in (b"1" + b"0" * 18, b"1" * 40, b"9" * 500, b"-" + b"9" * 500, b"0" * 500,
                   b"-" + b"0" * 500, b"9" * 499 + b"x", b"9" * 15_000, b"9" * 15_000 + b"-",
                   b"+" + b"9" * 15_000):
        yield with_field(5, 6, digits)
        yield with_field(3, 3, digits)


def wrong_rows():
    holders = LINES[4:]
    yield joined(LINES[:4] + holders[::-1])
    for place in range(5, 9):
        swapped = list(LINES)
        swapped[place - 1], swapped[place] = swapped[place], swapped[place - 1]
        yield joined(swapped)
        yield joined(LINES[:place] + [LINES[place - 1]] + LINES[place:])
    for rows in [
            # Members and numbers compared as numbers, members first.
            [b"2,1,1,1,1", b"10,1,1,1,-1"], [b"10,1,1,1,1", b"2,1,1,1,-1"],
            [b"1,9,1,1,1", b"1,10,1,1,-1"], [b"1,10,1,1,1", b"1,9,1,1,-1"],
            [b"1,2,1,1,1", b"2,1,1,1,-1"], [b"2,1,1,1,1", b"1,2,1,1,-1"],
            [b"1,1,1,1,1", b"1,1,1,1,-1"], [b"1,1,1,1,1", b"1,2,1,1,-1", b"1,1,1,1,1"],
            # A member under two clearing members, next to each other and with rows between.
            [b"1,1,1,1,1", b"1,2,2,1,-1"], [b"1,1,1,1,1", b"1,2,1,1,1", b"1,3,2,1,-2"],
            # A clearing member under two agents, of one member and of two.
            [b"1,1,1,1,1", b"1,2,1,2,-1"], [b"1,1,1,1,1", b"2,1,1,2,-1"],
            [b"1,1,1,1,1", b"2,1,2,2,-1", b"3,1,1,2,1"],
            [b"1,1,1,1,1", b"2,1,2,1,-1", b"3,1,3,3,1", b"4,1,2,3,-1"],
            # Both at once.
            [b"1,1,1,1,1", b"1,2,2,2,-1"],
            # Lawful: one number under two members, one agent over many, shared names across kinds.
            [b"1,1,2,3,1", b"2,1,3,3,-1"], [b"1,7,2,2,1", b"2,7,1,1,-1"],
            [b"999,999999,999,64,1000000", b"999,999998,999,64,-1000000"],
            [b"999,999998,999,64,1000000", b"999,999999,999,64,-1000000"]]:
        yield joined(LINES[:4] + [b"holder," + row for row in rows])


def wrong_totals():
    for positions in [(1,), (-1,), (1, 1), (-1, -1), (1, -2), (2, -1), (5, -3, -1), (1, -1),
                      (1_000_000, -1_000_000), (-1_000_000, 1_000_000),
                      (1_000_000, 1, -1_000_000, -1), (1_000_000, -999_999, -1),
                      (999_999, 1, -1_000_000), (500_000, 500_001, -1_000_000, -1),
                      (500_000, 500_000, -1_000_000), (500_000, 500_001, -1_000_000),
                      (1_000_000, 1_000_000, -1_000_000, -1_000_000), (1_000_000, -999_999),
                      (-1_000_000, -1, 1_000_000), (-1_000_000, -1, 999_999, 2)]:
        yield joined(LINES[:4] + [b"holder,%d,1,1,1,%d" % (row, position)
                                  for row, position in enumerate(positions, 1)])


def two_faults():
    """Two faults in one file: the earlier check of one line, or the earlier line, decides."""
    for text in [b"holder", b"holder,1", b"holder,1,1,1,1,x", b"holder,0,0,0,0,0", b"asset,1",
                 b"terms,0,0", b"holder,5,1,3,2,-9"]:
        yield PRINTED + text                                # no line end and more
    yield with_line(5, b"holdr,1,1,1,1,1,1")                # kind and count
    yield with_line(5, b"holder,1,1,1,1,x,1")               # count and form
    yield with_line(5, b"holder,0,1,1,1,x")                 # form, right of a range
    yield with_line(5, b"holder,x,1,1,1,0")                 # form, left of a range
    yield with_line(5, b"holder,x,y,1,1,1")                 # two forms
    yield with_line(5, b"holder,1000,1,0,65,0")             # several ranges
    yield with_line(5, b"holder,1,1,0,65,0")
    yield with_line(5, b"holder,1,1,1,65,0")
    yield with_line(3, b"asset,99999,-1,0")
    yield with_line(3, b"asset,2000000,10000001,210000001")
    yield with_line(2, b"terms,0,99")
    yield with_line(2, b"terms,1001,x")
    yield with_line(6, b"holder,1,1,1,1,0")                 # range and not ascending
    yield with_line(6, b"holder,1,1,2,1,3")                 # not ascending and two clearing members
    yield with_line(6, b"holder,1,1,1,2,3")                 # not ascending and two agents
    yield with_line(6, b"holder,1,0,2,1,3")                 # range and two clearing members
    yield with_line(7, b"holder,1,2,1,2,0")
    yield joined(LINES[:5] + [b"holder,1,1,1,1,3", b"nothing"] + LINES[7:])
    yield joined(LINES[:5] + [b"holder,1,2,9,1,3", b"holder,1,1,1,1,1"] + LINES[7:])
    yield joined(LINES[:4] + [b"holder,1,1,1,1,-5000001", b""] + LINES[6:])
    yield joined([b"book,2", b"terms,x"] + LINES[2:])
    yield joined([b"book,1", b"", b"asset,x"] + LINES[4:])
    yield joined(LINES[:8] + [b"holder,4,1,3,2,3"])         # unbalanced alone
    yield joined(LINES[:8] + [b"holder,4,1,3,2,3", b"x"])   # unbalanced and a wrong kind
    yield joined(LINES[:8] + [b"holder,4,1,3,2,0"])


def many_holders(count, extra=()):
    rows = [b"holder,%d,%d,%d,%d,%d" % (1 + row // 100, row % 100 + 1, 1, 1, 1 - row % 2 * 2)
            for row in range(count)]
    return joined([b"book,1", b"terms,1,100", b"asset,100000,0,1"] + rows) + b"".join(extra)


def sizes():
    """The greatest files, and those just past them."""
    yield many_holders(256)
    for extra in (b"holder,9,1,1,1,1\nholder,9,2,1,1,-1\n", b"holder,x\n", b"holder",
                  b"holders,9,1,1,1,1\n", b"asset,100000,0,1\n"):
        yield many_holders(256, [extra])
    yield many_holders(255)
    widest = [(999, 999_743 + row, 999, 64, 3_906 if row % 2 else -3_906) for row in range(256)]
    yield write(Book(1000, 100_000_000, [(2_000_000, 10_000_000, 210_000_000)] * 4, widest))
    for size in (MOST_BYTES - 1, MOST_BYTES, MOST_BYTES + 1):
        yield b"\n" * size
        yield b"x" * size
        yield PRINTED[:-1] + b"0" * (size - len(PRINTED)) + b"\n"
        yield PRINTED + b"," * (size - len(PRINTED))
        yield PRINTED + b"\n" * (size - len(PRINTED))
        yield PRINTED + b"\xff" * (size - len(PRINTED) - 1) + b"\n"
        yield b"book,1\n" + b"\0" * (size - 7)
        yield b"book,1" + b" " * (size - 6)
    yield b"book,2\n" + b"z" * (MOST_BYTES + 2_000)


def good_books():
    yield PRINTED
    rng = random.Random(7)
    for holders in list(range(2, 12)) * 2:
        yield write(random_book(rng, holders))


def fixed_cases():
    for part in (good_books, first_lines, short_files, wrong_kinds, wrong_counts, wrong_numbers,
                 wrong_rows, wrong_totals, two_faults, sizes):
        yield from part()


# Bytes that mean something to a reader, and some that mean nothing.
TELLING = b"\n\n,,--00123456789+ \r\0\xff\x80;\\.xbookterms"


def damaged(rng, data):
    """One random change of a file."""
    place = rng.randrange(len(data))
    lines = data.split(b"\n")
    row = rng.randrange(len(lines))
    change = rng.randrange(10)
    if change == 0:
        return data[:place] + bytes([data[place] ^ 1 << rng.randrange(8)]) + data[place + 1:]
    if change == 1:
        return data[:place] + data[place + 1:]
    if change == 2:
        return data[:place] + bytes([rng.choice(TELLING)]) + data[place:]
    if change == 3:
        return data[:place] + bytes([rng.choice(TELLING)]) + data[place + 1:]
    if change == 4:
        return data[:place]
    if change == 5:
        return b"\n".join(lines[:row] + [lines[row]] + lines[row:])
    if change == 6:
        return b"\n".join(lines[:row] + lines[row + 1:])
    if change == 7:
        other = rng.randrange(len(lines))
        lines[row], lines[other] = lines[other], lines[row]
        return b"\n".join(lines)
    fields = lines[row].split(b",")
    field = rng.randrange(len(fields))
    if change == 8:
        fields[field] = rng.choice(BAD_FORMS + [b"%d" % number for number in WRAPS])
    else:
        fields[field] = b"%d" % rng.choice((0, 1, -1, 64, 65, 99, 100, 999, 1_000, 1_001, 99_999,
                                            999_999, 1_000_000, 1_000_001, -1_000_001,
                                            2_000_001, 210_000_001))
    lines[row] = b",".join(fields)
    return b"\n".join(lines)


def random_case(rng):
    data = write(random_book(rng, rng.randint(2, 9)))
    for _ in range(rng.choice((0, 1, 1, 1, 1, 1, 2, 2, 3))):
        if data:
            data = damaged(rng, data)
    return data


def cases(count, seed):
    """The fixed cases, each once, then random ones until there are as many as asked for."""
    seen = set()
    for data in fixed_cases():
        if data not in seen:
            seen.add(data)
            yield data
    rng = random.Random(seed)
    while len(seen) < count:
        data = random_case(rng)
        if data not in seen:
            seen.add(data)
            yield data


def main():
    parser = argparse.ArgumentParser(description=__doc__)
    parser.add_argument("--cases", type=int, default=900)
    parser.add_argument("--seed", type=int, default=1)
    parser.add_argument("--stdin", required=True)
    parser.add_argument("--stdout", required=True)
    given = parser.parse_args()
    answers = Counter()
    with open(given.stdin, "w") as asked, open(given.stdout, "w") as expected:
        for data in cases(given.cases, given.seed):
            line, answer = escape(data), check(data)
            assert unescape(line) == data
            asked.write(line + "\n")
            expected.write(answer + "\n")
            answers[answer.split(",")[0] + " " + answer.split(",")[1]
                    if answer.startswith("refused") else "accepted"] += 1
    for answer, number in sorted(answers.items()):
        print(number, answer, file=sys.stderr)


if __name__ == "__main__":
    main()
