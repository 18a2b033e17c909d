"""Runs a new random table through the real program and reports the first differences.

  python3 tests/compare.py KIND 'COMMAND' --count 2000 --seed 9

KIND is books, registers, pairs or days; COMMAND reads the table on its
standard input (the `_cases` program of that kind).
"""

import argparse
import difflib
import os
import shlex
import subprocess
import sys
import tempfile

GENERATORS = {"books": ("book_cases.py", "--cases"), "registers": ("register_cases.py", "--lines"),
              "pairs": ("pairing_cases.py", "--cases"), "days": ("day_cases.py", "--days")}

# Differences beyond this many are not printed.
MOST_TOLD = 40


def main():
    parser = argparse.ArgumentParser(description=__doc__)
    parser.add_argument("kind", choices=sorted(GENERATORS))
    parser.add_argument("command")
    parser.add_argument("--count", type=int, default=1_000)
    parser.add_argument("--seed", type=int, default=2)
    given = parser.parse_args()
    program, size = GENERATORS[given.kind]
    here = os.path.dirname(os.path.abspath(__file__))
    with tempfile.TemporaryDirectory() as folder:
        asked, expected = os.path.join(folder, "stdin"), os.path.join(folder, "stdout")
        subprocess.run([sys.executable, os.path.join(here, program), size, str(given.count),
                        "--seed", str(given.seed), "--stdin", asked, "--stdout", expected],
                       check=True, stderr=subprocess.DEVNULL)
        with open(asked, "rb") as table:
            done = subprocess.run(shlex.split(given.command), stdin=table, stdout=subprocess.PIPE)
        with open(expected) as table:
            right = table.read().splitlines()
    told = done.stdout.decode(errors="replace").splitlines()
    if told == right:
        print("%d lines of answers, no difference" % len(right))
        return
    differences = difflib.unified_diff(right, told, "expected", "answered", lineterm="", n=2)
    for _, text in zip(range(MOST_TOLD), differences):
        print(text)
    sys.exit(1)


if __name__ == "__main__":
    main()
