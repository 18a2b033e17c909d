"""Whole days, call by call, with the answer to each.

  python3 tests/day_cases.py --days 120 --seed 1 --stdin FILE --stdout FILE

The fixed days come first (openings, worked days, extremes, two large books), then seeded
random ones until there are as many as asked for. Each day is checked as it is
played.
"""

import argparse
import random
import sys
from collections import Counter

from book import Book, read, write
from day import (AGENTS, CASH, CLEARING_NOTICES, CLOSED, MEMBERS_NOTICES, PARTIAL_DELIVERY,
                 WHOLE_DELIVERY, Day)
from escaping import escape
from random_books import PRINTED, random_book
from register import MOST_ISSUED

WIDEST = 2**64 - 1


class Script:
    """A day being written: each line is played at once, so the next can be chosen by the state."""

    def __init__(self, small=None):
        self.day = Day()
        self.small = small
        self.lines = []
        self.told = []
        self.met = Counter()

    def say(self, form, *names):
        line = form % names if names else form
        if self.small and self.expiry and line != "tell" and self.small.random() < 0.03:
            self.lines.append("small,%s" % self.small.choice("lsc"))
            self.day.answers(self.lines[-1])
        session = self.day.expiry.session if self.day.expiry else 0
        texts = self.day.answers(line)
        self.lines.append(line)
        self.told += texts
        if texts and line != "tell":
            word = line.split(",")[0]
            answer = texts[0] if texts[0][0] == "r" else "ok"
            self.met["session %d %s %s" % (session, word, answer)] += 1
        return texts[0] if texts else None

    def start(self, data, securities=None, cash=None, places=None, units=()):
        """The book, registers just large enough unless told otherwise, and the opening."""
        self.say("book " + escape(data))
        book = self.day.book
        if places is not None:
            self.say("places,%d", places)
        if securities is None:
            securities = (len(book.holders) + 1, len(book.assets))
        if cash is None:
            cash = (max(h.agent for h in book.holders) + 1, 1)
        self.say("securities,%d,%d", *securities)
        self.say("cash,%d,%d", *cash)
        for unit in units:
            self.say("set,%s,%d,%d,%d", *unit)
        return self.say("open") == "ok"

    @property
    def expiry(self):
        return self.day.expiry


def openings(script):
    """Each thing that refuses an opening, alone and together with later ones."""
    places = 4 * 5
    good, small = ((6, 2), (3, 1)), ((5, 2), (2, 1))
    script.start(b"book,2\n", *small, places=0, units=[("s", 0, 0, 1)])
    script.start(b"", *good, places=1_024)
    script.start(PRINTED, *small, places=places - 1, units=[("s", 0, 0, 1), ("c", 0, 0, 1)])
    script.start(PRINTED, *good, places=places - 1)
    script.start(PRINTED, *good, places=0)
    script.start(PRINTED, *small, units=[("s", 0, 1, 1), ("c", 0, 0, 1)])
    script.start(PRINTED, (5, 2), (3, 1))
    script.start(PRINTED, (5, 16), (3, 1))
    script.start(PRINTED, (1_024, 1), (3, 1))
    script.start(PRINTED, (6, 2), (2, 1), units=[("s", 0, 1, 1), ("c", 0, 0, 1)])
    script.start(PRINTED, (6, 2), (2, 16))
    script.start(PRINTED, *good, units=[("s", 0, 0, 1), ("c", 0, 0, 1)])
    script.start(PRINTED, *good, units=[("s", 0, 1, 1)])
    script.start(PRINTED, *good, units=[("c", 0, 0, 1)])
    # Accepted: places to spare, and the house may hold what is neither basket nor cash.
    script.start(PRINTED, (9, 3), (65, 2), places=places + 7,
                 units=[("s", 0, 2, 5), ("c", 0, 1, 5), ("s", 5, 1, 9)])
    script.say("tell")
    finish(script)


def to_pairing(script):
    for line in ("end", "end", "pair"):
        script.say(line)


def finish(script):
    """The rest of a day without a delivery."""
    to_pairing(script)
    for line in ("end", "close", "tell"):
        script.say(line)


def worked(script):
    """The printed book: short takes, part deliveries, claims, whole settlement."""
    for units, part in ((25, 2), (9, 0), (40, 4), (39, 3)):
        script.start(PRINTED, units=[("s", 4, 1, units)])
        to_pairing(script)
        script.say("take,3,1,1")
        script.say("end")
        script.say("take,3,1,1")
        script.say("tell")
        if part:
            script.say("credit,c,1,0,%d", 9_500 * part)
            script.say("line,3")
            script.say("line,4")
        script.say("close")
        script.say("tell")
    # All but line 4 settled at the close.
    script.start(PRINTED, units=[("s", 1, 1, 50), ("s", 4, 1, 40), ("c", 1, 0, 28_499)])
    to_pairing(script)
    for line in ("take,1,1,1", "end", "take,3,1,1", "line,1", "credit,c,1,0,1", "line,1",
                 "line,1", "line,2", "line,3", "line,4", "tell", "close", "tell", "close"):
        script.say(line)
    # Whole settlement, with each thing that must be in missing once.
    script.start(PRINTED, units=[("s", 1, 1, 50), ("s", 4, 1, 40), ("c", 2, 0, 18_999)])
    to_pairing(script)
    for line in ("whole", "draw,2", "credit,c,2,0,1", "draw,1", "draw,2", "draw,2", "whole",
                 "take,1,1,1", "whole", "take,3,1,1", "tell", "whole", "tell", "whole", "end",
                 "credit,s,3,1,7", "draw,2", "take,1,1,1", "line,1", "close", "pair", "tell"):
        script.say(line)
    # Draws given back at the end of whole delivery.
    script.start(PRINTED, units=[("s", 1, 1, 50), ("c", 2, 0, 20_000)])
    to_pairing(script)
    for line in ("take,1,1,1", "draw,2", "whole", "tell", "end", "tell", "line,4", "line,1",
                 "close", "tell"):
        script.say(line)
    # Notices: each refusal, and a seller in two assets.
    script.start(PRINTED)
    for line in ("notice,m,1,1,1,0,2", "notice,m,1,1,2,0,1", "notice,m,1,9,9,9,0",
                 "notice,m,2,1,1,9,0", "notice,c,2,1,1,0,1", "notice,c,1,1,1,2,0",
                 "notice,c,1,1,1,1,0", "notice,c,1,1,1,1,4", "notice,c,1,1,1,1,1", "end",
                 "notice,m,1,1,1,0,1", "notice,m,3,3,1,0,1", "notice,c,2,3,1,1,3",
                 "notice,c,1,1,1,0,3", "notice,c,1,1,1,0,2", "notice,c,1,1,1,0,1", "end",
                 "notice,c,2,3,1,0,1", "end", "pair", "tell", "notice,c,2,3,1,0,1"):
        script.say(line)


def last_agent(script):
    """The highest agent draws and is paid, whole and line by line, and gets claims."""
    for positions in ((2, -2), (-2, 2)):
        data = write(Book(1, 100, [(1_000_000, 0, 107)], [
            (row, 1, row, agent, position)
            for row, agent, position in zip((1, 2), (63, 64), positions)]))
        seller, buyer = (1, 2) if positions[0] < 0 else (2, 1)
        for whole in (True, False):
            script.start(data, units=[("s", seller, 0, 2), ("c", 62 + buyer, 0, 200)])
            to_pairing(script)
            script.say("take,%d,1,0", seller)
            for line in ("draw,63", "draw,64", "draw,65", "draw,0", "tell"):
                script.say(line)
            if whole:
                script.say("whole")
            else:
                for line in ("end", "credit,c,65,0,1", "line,1", "line,2", "close"):
                    script.say(line)
            script.say("tell")
        script.start(data, cash=(64, 1))
        script.start(data)
        finish(script)


def greatest_values(script):
    """The most contracts at the highest price, and all the cash a register can hold."""
    for market in (1, 210_000_000):
        data = write(Book(1_000, 100_000_000, [(2_000_000, 10_000_000, market)], [
            (1, 1, 1, 1, 1_000_000), (2, 1, 2, 2, -1_000_000)]))
        value = 1_000_000 * 1_000 * 210_000_000
        for cash in (value - 1, value, MOST_ISSUED):
            script.start(data, units=[("s", 2, 0, MOST_ISSUED), ("c", 1, 0, cash)])
            to_pairing(script)
            for line in ("credit,s,1,0,1", "take,2,1,0", "draw,1", "tell"):
                script.say(line)
            if cash == value:
                script.say("whole")
            else:
                for line in ("end", "line,1", "close"):
                    script.say(line)
            script.say("tell")


class Player:
    """Random calls, many of them sensible."""

    def __init__(self, rng, script):
        self.rng, self.script = rng, script
        self.book = script.day.book

    def chance(self, share):
        return self.rng.random() < share

    def wide(self, usual):
        """Mostly the usual number, else one that no rule expects."""
        return usual if self.chance(0.93) else self.rng.choice((0, 1, 5, 999, 2**32 + 1, WIDEST))

    def sellers(self):
        return [h for h in self.book.holders if h.position < 0]

    def notice(self):
        seller = self.rng.choice(self.sellers() if self.chance(0.9) else self.book.holders)
        kind = self.rng.choice("mc")
        speaker = seller.member if kind == "m" else seller.clearing
        if self.chance(0.1):
            speaker = self.rng.choice(self.book.holders).member
        contracts = self.rng.choice((1, 1, 2, abs(seller.position), self.rng.randint(0, 6)))
        self.script.say("notice,%s,%d,%d,%d,%d,%d", kind, self.wide(speaker),
                        self.wide(seller.member), self.wide(seller.number),
                        self.wide(self.rng.randrange(len(self.book.assets))),
                        self.wide(contracts))

    def credit(self, side, account, asset, amount):
        self.script.say("credit,%s,%d,%d,%d", side, self.wide(account), self.wide(asset),
                        self.wide(amount))

    def any_credit(self):
        register_side = self.rng.choice("sc")
        register = self.script.day.registers[register_side]
        asset = self.rng.randrange(register.assets)
        room = MOST_ISSUED - register.issue(asset)
        amount = self.rng.choice((0, 1, 10, self.rng.randint(1, 1_000), room + 1))
        account = self.rng.randrange(register.accounts)
        if self.chance(0.15):
            account, asset = self.rng.choice(((0, asset), (register.accounts, asset),
                                              (account, register.assets)))
        self.credit(register_side, account, asset, amount)

    def take(self):
        expiry, rng = self.script.expiry, self.rng
        if expiry.lines and self.chance(0.9):
            line = rng.choice(expiry.lines)
            holder, asset = expiry.holder(line.seller), line.asset
        else:
            holder, asset = rng.choice(self.book.holders), rng.randrange(5)
        self.script.say("take,%d,%d,%d", self.wide(holder.member), self.wide(holder.number),
                        self.wide(asset))

    def draw(self):
        self.script.say("draw,%d", self.wide(self.rng.choice(self.book.holders).agent))

    def line(self):
        lines = self.script.expiry.lines
        ready = [number for number, line in enumerate(lines, 1) if line.inside()]
        number = self.rng.randint(0, len(lines) + 1)
        if ready and self.chance(0.8):
            number = self.rng.choice(ready)
            self.cash_for(lines[number - 1])
        self.script.say("line,%d", self.wide(number))

    def cash_for(self, line):
        """Sometimes a credit that lets the buyer's agent pay for a line, or just not."""
        expiry = self.script.expiry
        agent = expiry.holder(line.buyer).agent
        missing = (expiry.book.value(line.asset, line.inside())
                   - expiry.registers["c"].balance(agent, CASH))
        if missing > 0 and self.chance(0.6):
            self.script.say("credit,c,%d,0,%d", agent,
                            missing - 1 if self.chance(0.2) else missing)

    def anything(self):
        """A call of any kind, mostly out of its session."""
        word = self.rng.choice(("notice", "credit", "take", "draw", "line", "pair", "whole",
                                "close", "end"))
        moves_on = {"end": (MEMBERS_NOTICES, CLEARING_NOTICES, WHOLE_DELIVERY),
                    "pair": (3,), "close": (PARTIAL_DELIVERY,)}
        if self.script.expiry.session in moves_on.get(word, ()):
            word = "credit"
        if word == "credit":
            self.any_credit()
        elif word in ("notice", "take", "draw", "line"):
            getattr(self, word)()
        else:
            self.script.say(word)

    def some(self, least, most, *steps):
        for _ in range(self.rng.randint(least, most)):
            (self.rng.choice(steps) if self.chance(0.8) else self.anything)()

    # Putting in what a delivery needs.

    def give_units(self, share):
        """Credits to sellers: for each lot all that it needs, a unit less, or a part."""
        expiry = self.script.expiry
        for row, lot in sorted(expiry.lots.items()):
            for asset, contracts in enumerate(lot):
                need = expiry.units(contracts) - expiry.registers["s"].balance(row, asset)
                if need > 0 and self.chance(share):
                    amount = self.rng.choice((need, need, need - 1, need // 2, need + 3))
                    self.script.say("credit,s,%d,%d,%d", row, asset, amount)

    def give_cash(self, share):
        """Credits to agents: about what their net, or one line, needs."""
        expiry = self.script.expiry
        for agent in AGENTS:
            need = -expiry.net(agent)
            if expiry.session == PARTIAL_DELIVERY:
                values = [expiry.book.value(line.asset, line.contracts) for line in expiry.lines
                          if expiry.holder(line.buyer).agent == agent]
                need = self.rng.choice(values) if values else 0
            if need > 0 and self.chance(share):
                self.script.say("credit,c,%d,0,%d", agent,
                                self.rng.choice((need, need, need - 1, need + 3)))

    def put_in_the_rest(self):
        """Everything still missing for whole settlement, in any order."""
        expiry, script = self.script.expiry, self.script
        jobs = []
        for row, lot in expiry.lots.items():
            jobs += [(row, asset) for asset, contracts in enumerate(lot) if contracts]
        jobs += [agent for agent in AGENTS if expiry.net(agent) < 0]
        self.rng.shuffle(jobs)
        for job in jobs:
            if self.chance(0.1):
                script.say("whole")
            if isinstance(job, tuple):
                row, asset = job
                missing = (expiry.units(expiry.lots[row][asset])
                           - expiry.registers["s"].balance(row, asset))
                if missing > 0:
                    script.say("credit,s,%d,%d,%d", row, asset, missing)
                holder = expiry.holder(row)
                script.say("take,%d,%d,%d", holder.member, holder.number, asset)
            else:
                missing = -expiry.net(job) - expiry.registers["c"].balance(job, CASH)
                if missing > 0 and job not in expiry.drawn:
                    script.say("credit,c,%d,0,%d", job, missing)
                script.say("draw,%d", job)

    # Sessions.

    def notices(self):
        for _ in range(2):
            self.some(0, 6, self.notice)
            self.script.say("end")
        self.some(0, 3, self.anything)
        self.script.say("pair")

    def whole_delivery(self):
        """Ends in whole settlement or in the end of the session."""
        self.give_units(0.6)
        self.give_cash(0.5)
        self.some(2, 10, self.take, self.take, self.draw)
        if self.chance(0.5):
            self.script.say("whole")
        if self.chance(0.5) and self.script.expiry.session == WHOLE_DELIVERY:
            self.put_in_the_rest()
            self.script.say("tell")
            self.script.say("whole")
        if self.script.expiry.session == WHOLE_DELIVERY:
            self.script.say("end")

    def partial_delivery(self):
        for _ in range(self.rng.randint(1, 3)):
            self.give_units(0.4)
            self.give_cash(0.5)
            self.some(3, 12, self.take, self.line, self.line)
        self.script.say("tell")
        if self.chance(0.9):
            self.script.say("close")


def random_registers(rng, book):
    """Registers that are mostly just large enough, with some units in them before the opening."""
    spare = rng.choice((0, 0, 1, 3))
    securities = (len(book.holders) + 1 + spare, min(16, len(book.assets) + rng.choice((0, 0, 2))))
    cash = (max(h.agent for h in book.holders) + 1 + spare, rng.choice((1, 1, 2)))
    units = {}
    for _ in range(rng.randint(0, 5)):
        row, asset = rng.randint(1, len(book.holders)), rng.randrange(securities[1])
        contracts = rng.randint(1, abs(book.holders[row - 1].position))
        units["s", row, asset] = contracts * book.multiplier + rng.choice((0, 0, 1))
    if rng.random() < 0.2:
        units["c", rng.choice(book.holders).agent, CASH] = MOST_ISSUED - rng.randint(0, 10**6)
    return securities, cash, [place + (amount,) for place, amount in units.items()]


def random_day(rng, script):
    data = PRINTED if rng.random() < 0.2 else write(random_book(
        rng, rng.randint(2, 7), most_volume=rng.choice((1, 3, 6, 6, 1_000))))
    securities, cash, units = random_registers(rng, read(data))
    script.start(data, securities, cash, units=units)
    player = Player(rng, script)
    player.notices()
    player.whole_delivery()
    if script.expiry.session == PARTIAL_DELIVERY:
        player.partial_delivery()
    if script.expiry.session == CLOSED:
        player.some(0, 6, player.anything)
    script.say("tell")


def large_days(script):
    """A large book settled whole, and one delivered in part."""
    rng = random.Random(5)
    for holders, whole in ((256, True), (90, False)):
        script.start(write(random_book(rng, holders, most_volume=50)))
        player = Player(rng, script)
        player.some(30, 30, player.notice)
        to_pairing(script)
        if whole:
            player.put_in_the_rest()
            script.say("whole")
        else:
            player.give_units(0.5)
            player.give_cash(1)
            script.say("end")
            player.some(60, 60, player.take, player.line)
            script.say("close")
        script.say("tell")


def days(count, seed, small=False):
    """One script for each fixed part, then one for each random day."""
    made = 0
    for part in (openings, worked, last_agent, greatest_values, large_days):
        script = Script()
        part(script)
        made += sum(line == "open" for line in script.lines)
        yield script
    rng = random.Random(seed)
    while made < count:
        script = Script(random.Random(made) if small else None)
        random_day(rng, script)
        made += 1
        yield script


def main():
    parser = argparse.ArgumentParser(description=__doc__)
    parser.add_argument("--days", type=int, default=120)
    parser.add_argument("--seed", type=int, default=1)
    parser.add_argument("--small", action="store_true",
                        help="with calls made on a line table or a register that is too small")
    parser.add_argument("--stdin", required=True)
    parser.add_argument("--stdout", required=True)
    given = parser.parse_args()
    met = Counter()
    with open(given.stdin, "w") as asked, open(given.stdout, "w") as expected:
        for script in days(given.days, given.seed, given.small):
            asked.write("".join(line + "\n" for line in script.lines))
            expected.write("".join(text + "\n" for text in script.told))
            met += script.met
    for what, number in sorted(met.items()):
        print(number, what, file=sys.stderr)


if __name__ == "__main__":
    main()
