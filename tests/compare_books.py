"""Runs random book files through the real program and reports every difference.

  python3 tests/compare_books.py --check-book 'COMMAND' --cases 500 --seed 3
  python3 tests/compare_books.py --book-cases 'COMMAND' --cases 20000 --seed 3

The first way starts the program once for each file, given on its standard
input; the second gives all files, escaped, one a line, to one run.
"""

import argparse
import random
import shlex
import subprocess
import sys

from book import check
from book_cases import fixed_cases, random_case
from escaping import escape


def files(count, seed):
    """The fixed cases and this many random ones."""
    yield from fixed_cases()
    rng = random.Random(seed)
    for _ in range(count):
        yield random_case(rng)


def run(command, data):
    done = subprocess.run(shlex.split(command), input=data, stdout=subprocess.PIPE)
    return done.stdout.decode(errors="replace").splitlines()


def main():
    parser = argparse.ArgumentParser(description=__doc__)
    way = parser.add_mutually_exclusive_group(required=True)
    way.add_argument("--check-book", metavar="COMMAND")
    way.add_argument("--book-cases", metavar="COMMAND")
    parser.add_argument("--cases", type=int, default=500)
    parser.add_argument("--seed", type=int, default=1)
    given = parser.parse_args()
    asked = list(files(given.cases, given.seed))
    if given.check_book:
        answers = [" / ".join(run(given.check_book, data)) for data in asked]
    else:
        answers = run(given.book_cases, "".join(escape(d) + "\n" for d in asked).encode())
    differences = abs(len(answers) - len(asked))
    for data, answer in zip(asked, answers):
        if answer != check(data):
            differences += 1
            print("file %s\n  expected %s\n  answered %s" % (escape(data), check(data), answer))
    print("%d files, %d answers, %d differences" % (len(asked), len(answers), differences))
    sys.exit(1 if differences else 0)


if __name__ == "__main__":
    main()
