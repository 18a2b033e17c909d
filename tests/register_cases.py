"""Calls on registers, with the answer to each.

  python3 tests/register_cases.py --lines 700 --seed 1 --stdin FILE --stdout FILE

The fixed calls come first, then seeded random ones until there are as many
lines as asked for. Every make of a register must give the same answers.
"""

import argparse
import random
import sys
from collections import Counter

from register import MOST_ISSUED, Table

WIDEST = 2**64 - 1

# A make of register may keep this many accepted entries before it posts them.
ENTRIES = 64


def make(accounts, assets, memory):
    return ",".join(["make", str(accounts), str(assets)] + [str(units) for units in memory])


def makings():
    """Counts and memories at both ends of what is lawful, and just past them."""
    for accounts, assets, size in [
            (1, 1, 1), (0, 1, 0), (1, 0, 0), (0, 0, 0), (1, 1, 0), (1, 1, 2), (2, 3, 6),
            (2, 3, 5), (2, 3, 7), (1, 16, 16), (1, 17, 17), (1_024, 1, 1_024), (1_025, 1, 1_025),
            (16, 1, 16), (17, 1, 17), (16, 17, 16), (3, 2, 4), (WIDEST, WIDEST, 1),
            (2**63, 2, 0), (2**32, 2**32, 0), (1, WIDEST, 0), (WIDEST, 1, 1)]:
        yield make(accounts, assets, [7] * size)
        yield "balance,0,0"
        yield "issue,0"
        yield "credit,0,0,5"
        yield "balance,%d,%d" % (accounts - 1 if accounts else 0, assets - 1 if assets else 0)
    half = MOST_ISSUED // 2
    for accounts, assets, memory in [
            (1, 1, [MOST_ISSUED]), (1, 1, [MOST_ISSUED + 1]), (2, 1, [half, half]),
            (2, 1, [half, half + 1]), (1, 2, [half, half + 1]), (2, 2, [half, 1, half, half]),
            (2, 2, [1, half, 1, half + 1]), (3, 1, [WIDEST, 1, 0]), (2, 1, [2**63, 2**63]),
            (1, 1, [WIDEST]), (2, 1, [WIDEST]), (1, 17, [WIDEST] * 17), (2, 2, [0, WIDEST, 0, 1])]:
        yield make(accounts, assets, memory)
        yield "issue,0"
        yield "issue,1"
        yield "credit,0,0,1"
        yield "move,0,1,0,1"


def orders_of_checks():
    """Every set of faults of a credit and of a move at once: the first in order is told."""
    yield make(3, 2, [10, 0, 0, 20, 30, MOST_ISSUED - 100])
    for account in (1, 3, WIDEST):
        for asset in (1, 2, WIDEST):
            for amount in (0, 81, WIDEST):
                yield "credit,%d,%d,%d" % (account, asset, amount)
    for giver, taker in [(0, 1), (3, 0), (0, 3), (3, 3), (0, 0), (WIDEST, WIDEST)]:
        for asset in (0, 2):
            for amount in (0, 11):
                yield "move,%d,%d,%d,%d" % (giver, taker, asset, amount)
    yield from ("move,0,1,0,%d" % amount for amount in (WIDEST, 2**63, 11, 10, 1))
    yield from ("credit,2,1,%d" % amount for amount in (81, 80, 1, WIDEST, WIDEST - 99))
    yield from told(3, 2)


def told(accounts, assets):
    """A question for each balance and issue, and some past the last."""
    for account in range(accounts):
        for asset in range(assets):
            yield "balance,%d,%d" % (account, asset)
    for asset in range(assets + 1):
        yield "issue,%d" % asset
    yield "balance,%d,0" % accounts
    yield "balance,0,%d" % assets
    yield "balance,%d,%d" % (WIDEST, WIDEST)


REFUSED = ["credit,9,0,1", "credit,0,9,1", "credit,0,0,0", "credit,0,0,%d" % MOST_ISSUED,
           "move,0,9,0,1", "move,0,1,9,1", "move,1,1,0,1", "move,0,1,0,0", "move,0,1,0,999999"]


def accepted_run(start):
    """Entries that are all accepted: a unit goes round through accounts that hold no posted one."""
    if start == 0:
        return ["credit,0,0,%d" % (step + 1) for step in range(ENTRIES)]
    return ["move,%d,%d,0,%d" % (step % 3, (step + 1) % 3, 5) for step in range(ENTRIES)]


def borders():
    """Refusals and questions right where 64 entries wait, and on both sides of it."""
    for refused_first in (False, True):
        yield make(3, 1, [0, 0, 0])
        for block in range(2):
            for step, line in enumerate(accepted_run(block)):
                yield line
                if step in (ENTRIES - 2, ENTRIES - 1):
                    yield from told(3, 1)
            if refused_first:
                yield from REFUSED
                yield from told(3, 1)
            yield "move,0,2,0,1"
            yield from told(3, 1)
            yield "move,2,0,0,1"
            if not refused_first:
                yield from REFUSED
        yield from told(3, 1)
    # What a move gives was got by an entry that still waits, and is all given on.
    yield make(2, 1, [1, 0])
    for step in range(ENTRIES * 2 + 2):
        yield "move,%d,%d,0,1" % (step % 2, 1 - step % 2)
        if step % ENTRIES in (0, 1, ENTRIES - 1):
            yield "move,%d,%d,0,1" % (step % 2, 1 - step % 2)
            yield "balance,0,0"
            yield "balance,1,0"
            yield "issue,0"


def random_calls(rng):
    accounts, assets = rng.randint(1, 5), rng.randint(1, 3)
    most = rng.choice((10, 10, 1_000, MOST_ISSUED // accounts))
    yield make(accounts, assets, [rng.randint(0, most) for _ in range(accounts * assets)])

    def account():
        return rng.randrange(accounts) if rng.random() < 0.95 else rng.choice((accounts, WIDEST))

    def asset():
        return rng.randrange(assets) if rng.random() < 0.95 else rng.choice((assets, WIDEST))

    for _ in range(rng.randint(5, 200)):
        amount = rng.choice((0, 1, 2, rng.randint(0, 20), rng.randint(0, most), most))
        kind = rng.random()
        if kind < 0.3:
            yield "credit,%d,%d,%d" % (account(), asset(), amount)
        elif kind < 0.75:
            yield "move,%d,%d,%d,%d" % (account(), account(), asset(), amount)
        elif kind < 0.9:
            yield "balance,%d,%d" % (account(), asset())
        else:
            yield "issue,%d" % asset()
    yield from told(accounts, assets)


def calls(count, seed):
    number = 0
    for part in (makings(), orders_of_checks(), borders()):
        for line in part:
            number += 1
            yield line
    rng = random.Random(seed)
    while number < count:
        for line in random_calls(rng):
            number += 1
            yield line


def main():
    parser = argparse.ArgumentParser(description=__doc__)
    parser.add_argument("--lines", type=int, default=1_500)
    parser.add_argument("--seed", type=int, default=1)
    parser.add_argument("--stdin", required=True)
    parser.add_argument("--stdout", required=True)
    given = parser.parse_args()
    table, answers = Table(), Counter()
    with open(given.stdin, "w") as asked, open(given.stdout, "w") as expected:
        for line in calls(given.lines, given.seed):
            answer = table.answer(line)
            asked.write(line + "\n")
            expected.write(answer + "\n")
            answers[line.split(",")[0] + " " + (answer if answer[0] in "or" else "")] += 1
    for answer, number in sorted(answers.items()):
        print(number, answer, file=sys.stderr)


if __name__ == "__main__":
    main()
