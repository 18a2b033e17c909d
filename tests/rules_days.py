"""Days of the separate player, written as a table that the checker plays by the definitions of the rules.

  python3 tests/rules_days.py --days 24 --seed 1 [--to crates/rules_days]

It writes specs/DaysNN.antt, a few days each, specs/Days.antt, which has the theorem that
all of them agree, and proofs/Played.antt, which has the checker compute them.
The same numbers always give the same table. `rt tidy` in the crate then lays the files
out and drops the imports that a file does not use. A day that the definitions do not
give makes the crate fail.
"""

import argparse
import random
from pathlib import Path

from day import PLACES_A_HOLDER, Day
from day_cases import Script, greatest_values, last_agent, openings, random_day, worked
from random_books import PRINTED

WIDTH = 150
DAYS_A_FILE = 8
# Registers this large would take the checker long to tell, and are met in other tables.
MOST_ACCOUNTS = 100

SIDE = {"s": "Securities", "c": "Cash"}
PART = {"l": "part.LineTable", "s": "(part.Register Securities)", "c": "(part.Register Cash)"}
CALL = {"end": "call.End", "pair": "call.Pair", "take": "call.Take", "draw": "call.Draw",
        "whole": "call.SettleWhole", "line": "call.SettleLine", "close": "call.Close"}

USES = """\
use Rattle.std.specs.Prelude.{List, [], ◌∷◌, pos, negsuc}
use Rattle.rules.specs.declared.side.Side.TheVariants.{Securities, Cash}
use Rattle.rules.specs.declared.speaker.Speaker.TheVariants as speaker
use Rattle.rules.specs.declared.call.Call.TheVariants as call
use Rattle.rules.specs.declared.fault.Part.TheVariants as part
use Rattle.pairing.specs.Cases.{asset, buyer, seller, book}
use Rattle.rules_days.specs.Trials.{Day, asks, cramped, tell, ok, counts, refused, refused_by, stands}
"""


def wrapped(items, indent):
    """A list of terms, as many to a line as fit."""
    lines, line = [], ""
    for item in items + ["[]"]:
        more = (" ∷ " if line else "") + item
        if line and len(indent) + len(line) + len(more) > WIDTH:
            lines.append(line + " ∷")
            line = item
        else:
            line += more
    return ("\n" + indent).join(lines + [line])


def signed(number):
    return "pos %d" % number if number >= 0 else "negsuc %d" % (-number - 1)


def call(line):
    word, *names = line.split(",")
    if word == "notice":
        kind = "speaker.Member" if names[0] == "m" else "speaker.Clearing"
        return "call.Notice (%s %s) %s" % (kind, names[1], " ".join(names[2:]))
    if word == "credit":
        return "call.Credit %s %s" % (SIDE[names[0]], " ".join(names[1:]))
    return " ".join([CALL[word]] + names)


def told(text):
    word, *rest = text.split(",")
    if word == "ok":
        return "counts " + rest[0] if rest else "ok"
    if len(rest) == 2:
        return "refused_by %s %s" % (SIDE[rest[1]], rest[0])
    return "refused " + rest[0]


def rows(kind, texts, make):
    return wrapped([make(text.split(",")[1:]) for text in texts if text.split(",")[0] == kind], "      ")


def standing(texts):
    """What `tell` answers, as a term."""
    balances = {side: ["balance," + text[len("balance,s,"):] for text in texts
                       if text.startswith("balance,%s," % side)] for side in "sc"}
    three = lambda names: "(%s)" % ", ".join(names)
    return """stands (record
    { session = %s
    ; lines = %s
    ; securities = %s
    ; cash = %s
    ; agents = %s })""" % (
        texts[0].split(",")[1],
        rows("line", texts, lambda names: "(%s)" % ", ".join(names[1:])),
        rows("balance", balances["s"], three),
        rows("balance", balances["c"], three),
        rows("agent", texts, lambda names: "(%s, %s, %s)" % (
            names[0], signed(int(names[1])), signed(int(names[2])))))


class Table:
    """One day, read from the lines of a script and played again for its answers."""

    def __init__(self, player):
        self.player = player
        self.book = self.places = None
        self.shape = {}
        self.placed, self.asked, self.told = [], [], []

    def take(self, line):
        texts = self.player.answers(line)
        word, *names = line.split(",")
        if line.startswith("book "):
            self.book = self.player.book
        elif word == "places":
            self.places = int(names[0])
        elif word in ("securities", "cash"):
            self.shape[word] = names
        elif word == "set":
            self.placed.append("record { side = %s; account = %s; asset = %s; amount = %s }" % (
                SIDE[names[0]], *names[1:]))
        elif word == "small":
            self.cramped = PART[names[0]]
        elif word == "tell":
            self.asked.append("tell")
            self.told.append(standing(texts))
        else:
            cramped, self.cramped = self.cramped, None
            self.told.append(told(texts[0]))
            if word != "open":
                self.asked.append("cramped %s (%s)" % (cramped, call(line)) if cramped
                                  else "asks (%s)" % call(line))

    cramped = None

    def small_enough(self):
        return all(int(names[0]) <= MOST_ACCOUNTS for names in self.shape.values())

    def term(self):
        holders = self.book.holders if self.book else []
        places = PLACES_A_HOLDER * len(holders) if self.places is None else self.places
        assets = wrapped(["asset %d %d %d" % (a.factor, a.accrued, a.market)
                          for a in (self.book.assets if self.book else [])], "    ")
        people = wrapped(["%s %d %d %d %d %d" % (
            "buyer" if h.position > 0 else "seller", h.member, h.number, h.clearing, h.agent,
            abs(h.position)) for h in holders], "    ")
        terms = (self.book.multiplier, self.book.price) if self.book else (0, 0)
        return """record
  { book = book %d %d
    (%s)
    (%s)
  ; places = %d; securities = (%s); cash = (%s)
  ; placed = %s
  ; asked = %s
  ; told = %s }""" % (
            *terms, assets, people, places, ", ".join(self.shape["securities"]),
            ", ".join(self.shape["cash"]), wrapped(self.placed, "    "),
            wrapped(self.asked, "    "), wrapped(self.told, "    "))


def tables(script):
    """The days of a script."""
    player, table = Day(), None
    for line in script.lines:
        if line.startswith("book "):
            if table:
                yield table
            table = Table(player)
        table.take(line)
    yield table


def page_day(script):
    """The worked day of docs/rules.md."""
    script.start(PRINTED, units=[("s", 1, 0, 20), ("s", 1, 1, 30), ("s", 4, 1, 25)])
    for line in ("notice,m,1,1,1,0,2", "notice,m,3,3,1,0,5", "end", "notice,c,2,3,1,2,1", "end",
                 "pair", "tell", "take,1,1,0", "take,1,1,1", "take,3,1,1", "credit,c,2,0,20000",
                 "draw,2", "draw,2", "whole", "tell", "end", "tell", "take,3,1,1",
                 "credit,c,1,0,70000", "line,1", "line,2", "line,3", "line,4", "line,5", "tell",
                 "close", "tell", "end", "credit,s,0,1,5"):
        script.say(line)


def all_days(count, seed):
    for part in (page_day, openings, worked, last_agent, greatest_values):
        script = Script()
        part(script)
        yield from tables(script)
    rng = random.Random(seed)
    for made in range(count):
        script = Script(random.Random(made))
        random_day(rng, script)
        yield from tables(script)


def main():
    parser = argparse.ArgumentParser(description=__doc__)
    parser.add_argument("--days", type=int, default=24, help="random days beside the fixed ones")
    parser.add_argument("--seed", type=int, default=1)
    parser.add_argument("--to", default="crates/rules_days")
    given = parser.parse_args()
    crate = Path(given.to)
    for old in crate.glob("specs/Days*.antt"):
        old.unlink()
    days = [table for table in all_days(given.days, given.seed) if table.small_enough()]
    names = []
    for start in range(0, len(days), DAYS_A_FILE):
        name = "Days%02d" % (len(names) + 1)
        names.append(name)
        part = days[start:start + DAYS_A_FILE]
        text = "-- Days that the separate player played, with what it told. Written by tests/rules_days.py.\n" + USES
        for number, table in enumerate(part, 1):
            text += "\nabbrev pub day_%d : Day\nday_%d = %s\n" % (number, number, table.term())
        text += "\nabbrev pub days : List Day\ndays = %s\n" % wrapped(
            ["day_%d" % number for number in range(1, len(part) + 1)], "  ")
        (crate / "specs" / (name + ".antt")).write_text(text)
    uses = "".join("use Rattle.rules_days.specs.%s as %s\n" % (name, name.lower()) for name in names)
    (crate / "specs/Days.antt").write_text(
        "-- All days agree: %d of them. Written by tests/rules_days.py.\n"
        "use Rattle.rules_days.specs.Trials.{Agree}\n%s\n"
        "pub record DaysAgree : Type 0 where\n%s" % (
            len(days), uses, "".join("  pub %s : Agree %s.days\n" % (name.lower(), name.lower()) for name in names)))
    (crate / "proofs/Played.antt").write_text(
        "-- The days, played by computation. Written by tests/rules_days.py.\n"
        "use Rattle.std.proofs.Common.{refl}\nuse Rattle.pairing.specs.Pairing.{all_groups}\n"
        "use Rattle.rules_days.specs.Trials.{Agree}\n%s"
        "use Rattle.rules_days.specs.Days.{DaysAgree}\n%s\n"
        "pub days_agree : DaysAgree\ndays_agree = record { %s }\n" % (
            uses,
            "".join("\nin_%s : Agree %s.days\nunfolding all_groups\nin_%s = refl\n" % ((name.lower(),) * 3) for name in names),
            "; ".join("%s = in_%s" % ((name.lower(),) * 2) for name in names)))
    (crate / "specs/Lib.antt").write_text("".join("pub mod %s\n" % name for name in ["Trials"] + names + ["Days"]))
    print("%d days, %d asked" % (len(days), sum(len(table.asked) + 1 for table in days)))


if __name__ == "__main__":
    main()
