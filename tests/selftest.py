"""Tests of the test program itself: the worked cases, second ways to the same answers, brute force,
and wrong rules that the tables must tell from the right one.

  python3 tests/selftest.py
"""

import random
import unittest
from itertools import product
from unittest import mock

import book_cases
import day
import day_cases
import pairing
import pairing_cases
import register as registers
import register_cases
from book import Book, Refused, check, read, write, write_into
from day import Account, Day
from escaping import escape, unescape
from random_books import PRINTED, random_book


class Escapes(unittest.TestCase):
    def test_there_and_back(self):
        rng = random.Random(1)
        for size in range(60):
            data = bytes(rng.choice(b";\\ \n,r0n\0\xff") for _ in range(size)) + b";" * size
            line = escape(data)
            self.assertEqual(unescape(line), data)
            self.assertTrue(all("!" <= letter <= "~" for letter in line))
        self.assertEqual(unescape("\\r3;a\\n\\x3b;;"), b"a\n;a\n;a\n;;")


def all_faults(data):
    """A second reading: every fault of a file with the place of its check; the first decides."""
    if len(data) > 16_384:
        return [((0,), (7, 0, 0))]
    faults = []
    rows = []
    assets = 0
    text, line = data, 0
    while text:
        line += 1
        here, end, text = text.partition(b"\n")
        fields = here.split(b",")
        kind = fields[0].decode("latin1")

        def fault(check_number, number, field=0, line=line):
            faults.append(((line, check_number, field), (number, line, field)))

        if kind == "holder" and len(rows) >= 256:
            fault(0, 7)
        if line == 1 and here != b"book,1":
            fault(1, 1)
        if not end:
            fault(2, 2)
        if line == 1:
            continue
        stands = (kind == "terms" if line == 2 else kind == "asset" if line == 3 else
                  kind == "holder" or kind == "asset" and not rows and assets < 4)
        if not stands:
            fault(3, 2, 1)
        ranges = {"terms": [(1, 1e3), (100, 1e8)],
                  "asset": [(1e5, 2e6), (0, 1e7), (1, 2.1e8)],
                  "holder": [(1, 999), (1, 999_999), (1, 999), (1, 64), (-1e6, 1e6)],
                  }.get(kind, [])
        if len(fields) != 1 + len(ranges):
            fault(4, 2)
        numbers = []
        for field, digits in enumerate(fields[1:], 2):
            low, high = (ranges + [(-1e99, 1e99)] * len(fields))[field - 2]
            plain = digits[1:] if digits[:1] == b"-" else digits
            if (not plain or any(digit not in b"0123456789" for digit in plain)
                    or plain[:1] == b"0" and digits != b"0"):
                fault(5, 2, field)
                continue
            number = int(digits) if len(digits) < 30 else 10**30
            numbers.append(number)
            if number < low or number > high or (kind, field, number) == ("holder", 6, 0):
                fault(6, 3, field)
        assets += kind == "asset"
        if kind == "holder" and len(numbers) == 5:
            if rows and tuple(rows[-1][:2]) >= tuple(numbers[:2]):
                fault(7, 4)
            if any(row[0] == numbers[0] and row[2] != numbers[2]
                   or row[2] == numbers[2] and row[3] != numbers[3] for row in rows):
                fault(8, 5)
            rows.append(numbers)
    bought = sum(max(0, row[4]) for row in rows)
    if not rows or sum(row[4] for row in rows) or bought > 1_000_000:
        faults.append(((10**6,), (6, 0, 0)))
    return faults


class Files(unittest.TestCase):
    def test_worked(self):
        self.assertEqual(check(PRINTED), "accepted,149,2,5,9")
        two = b"book,1\nterms,1,100\nasset,1000000,0,1\nholder,1,1,1,1,%d\nholder,2,1,1,1,%d\n"
        more = b"holder,3,1,1,1,1\nholder,4,1,1,1,-1\n"
        million = two % (1_000_000, -1_000_000)
        self.assertTrue(check(million).startswith("accepted,"))
        self.assertEqual(check(million + more), "refused,6,0,0")
        self.assertEqual(check(PRINTED.replace(b",-5\n", b",05\n")), "refused,2,5,6")

    def test_prices(self):
        book = read(PRINTED)
        self.assertEqual([book.invoice_price(0), book.invoice_price(1)], [1_000, 950])
        self.assertEqual(Book(1, 105, [(900_000, 0, 1)], []).invoice_price(0), 95)
        self.assertEqual(book.value(1, 3), 28_500)
        self.assertEqual(book.row_of(3, 1), 4)
        self.assertIsNone(book.row_of(3, 2))
        self.assertEqual(book.first_deliverable(), 1)

    def test_written_and_read(self):
        """A book written and read back is the same, and an accepted file is the one written."""
        rng = random.Random(2)
        for _ in range(300):
            book = random_book(rng, rng.randint(2, 30))
            self.assertEqual(read(write(book)), book)
        for data in book_cases.cases(1_500, 3):
            if check(data).startswith("accepted"):
                self.assertEqual(write(read(data)), data)

    def test_written_into_a_buffer(self):
        book = read(PRINTED)
        buffer = bytearray(b"#" * 151)
        self.assertEqual(write_into(book, buffer), 149)
        self.assertEqual(bytes(buffer), PRINTED + b"##")
        short = bytearray(b"#" * 148)
        with self.assertRaises(Refused):
            write_into(book, short)
        self.assertEqual(bytes(short), b"#" * 148)
        with self.assertRaises(Refused):
            write(None)

    def test_two_readings(self):
        for data in book_cases.cases(3_000, 4):
            faults = all_faults(data)
            if faults:
                self.assertEqual(check(data), "refused,%d,%d,%d" % min(faults)[1], escape(data))
            else:
                self.assertTrue(check(data).startswith("accepted,"), escape(data))

    def test_order_of_checks_matters(self):
        """Two checks of a line in the other order change some answer of the table."""
        faulty = [all_faults(data) for data in book_cases.fixed_cases()]
        faulty = [faults for faults in faulty if len(faults) > 1]
        for one, other in [(0, 2), (1, 2), (2, 3), (3, 4), (4, 5), (5, 6), (6, 7), (7, 8)]:
            swapped = {one: other, other: one}

            def wrong(fault):
                key = fault[0]
                return key[:1] + (swapped.get(key[1], key[1]),) + key[2:] if key[1:] else key

            self.assertTrue(any(min(faults)[1] != min(faults, key=wrong)[1]
                                for faults in faulty), (one, other))

    def test_table_meets_every_refusal(self):
        told = [check(data) for data in book_cases.cases(0, 1)]
        self.assertGreater(len(told), 250)
        met = {tuple(text.split(",")[1::2]) for text in told if text.startswith("refused")}
        self.assertLessEqual({("1", "0"), ("2", "0"), ("4", "0"), ("5", "0"), ("6", "0"),
                              ("7", "0")}, met)
        self.assertLessEqual({("2", str(field)) for field in range(1, 7)}, met)
        self.assertLessEqual({("3", str(field)) for field in range(2, 7)}, met)


class Registers(unittest.TestCase):
    def test_making(self):
        self.assertEqual(registers.Register(2, 2, [0] * 3).refused, 15)
        self.assertEqual(registers.Register(1_025, 1, [0] * 1_025).refused, 15)
        self.assertEqual(registers.Register(1, 17, [10**18 + 1] * 17).refused, 15)
        self.assertEqual(registers.Register(1, 1, [10**18 + 1]).refused, 25)
        self.assertEqual(registers.Register(2, 2, [1, 2, 3, 4]).balance(1, 0), 3)

    def test_nothing_gained_or_lost(self):
        """Moves keep the sum, refusals keep everything, the issue is the sum."""
        rng = random.Random(3)
        for _ in range(60):
            table = registers.Table()
            for line in register_cases.random_calls(rng):
                before = list(table.register.memory)
                answer = table.answer(line)
                after, assets = table.register.memory, table.register.assets
                if line.startswith("make"):
                    continue
                if answer != "ok":
                    self.assertEqual(after, before)
                grown = int(line.split(",")[3]) if line[:2] == "cr" and answer == "ok" else 0
                self.assertEqual(sum(after), sum(before) + grown)
                for asset in range(assets):
                    self.assertEqual(table.register.issue(asset), sum(after[asset::assets]))

    def test_table_meets_every_refusal(self):
        table = registers.Table()
        met = {(line.split(",")[0], table.answer(line)) for line in register_cases.calls(0, 1)}
        self.assertLessEqual({("make", "refused,%d" % n) for n in (15, 25)}, met)
        self.assertLessEqual({("credit", "refused,%d" % n) for n in (20, 21, 23, 25)}, met)
        self.assertLessEqual({("move", "refused,%d" % n) for n in range(20, 25)}, met)


def second_pairs(book):
    """A second way to the pairs: equal volumes counted off from the largest down, then two lists."""
    left = [abs(h.position) for h in book.holders]
    made = []
    for stage, name in enumerate(("member", "clearing", "agent", None), 1):
        groups = {}
        for row, holder in enumerate(book.holders):
            groups.setdefault(getattr(holder, name) if name else 0, []).append(row)
        for _, rows in sorted(groups.items()):
            buyers = [row for row in rows if left[row] and book.holders[row].position > 0]
            sellers = [row for row in rows if left[row] and book.holders[row].position < 0]
            for volume in sorted({left[row] for row in buyers}, reverse=True):
                twins = list(zip([row for row in buyers if left[row] == volume],
                                 [row for row in sellers if left[row] == volume]))
                for buyer, seller in twins:
                    made.append((stage, buyer + 1, seller + 1, volume))
                    left[buyer] = left[seller] = 0
            while True:
                buyers = sorted((row for row in buyers if left[row]), key=lambda r: (-left[r], r))
                sellers = sorted((row for row in sellers if left[row]), key=lambda r: (-left[r], r))
                if not buyers or not sellers:
                    break
                smaller = min(left[buyers[0]], left[sellers[0]])
                made.append((stage, buyers[0] + 1, sellers[0] + 1, smaller))
                left[buyers[0]] -= smaller
                left[sellers[0]] -= smaller
    return made


def every_pairing(bought, sold):
    """All ways to put bought contracts against sold ones, as tables of contracts."""
    if not bought:
        yield []
        return
    for row in product(*(range(min(bought[0], limit) + 1) for limit in sold)):
        if sum(row) == bought[0]:
            rest = [limit - contracts for limit, contracts in zip(sold, row)]
            for more in every_pairing(bought[1:], rest):
                yield [row] + more


class Pairs(unittest.TestCase):
    def test_worked(self):
        for positions, expected in [
                ((5, 4, -4, -3, -2), "BC 4, AD 3, AE 2"),
                ((7, 5, -6, -4, -2), "AC 6, BD 4, AE 1, BE 1"),
                ((10, 4, -7, -3, -2, -2), "AC 7, BD 3, AE 2, AF 1, BF 1")]:
            for stage in pairing_cases.GROUPS:
                book = read(pairing_cases.grouped(stage, positions))
                told = ", ".join("%s%s %d" % ("ABCDEF"[p.buyer - 1], "ABCDEF"[p.seller - 1],
                                              p.contracts) for p in pairing.pairs_of(book))
                self.assertEqual(told, expected)
                self.assertEqual({p.stage for p in pairing.pairs_of(book)}, {stage})

    def test_printed(self):
        self.assertEqual(pairing.answer(PRINTED), [
            "lines,1", "line,1,1,1,2,1,1,1,3,28500", "line,2,2,2,1,1,1,1,2,19000",
            "line,3,3,2,1,3,1,1,2,19000", "line,4,4,4,1,3,1,1,2,19000"])

    def test_two_ways(self):
        rng = random.Random(4)
        for _ in range(400):
            book = random_book(rng, rng.randint(2, 25))
            self.assertEqual([tuple(pair) for pair in pairing.pairs_of(book)], second_pairs(book))

    def test_no_pairing_is_closer(self):
        """Brute force: in each group no pairing of a tiny book has more contracts within."""
        rng = random.Random(5)
        for _ in range(250):
            book = random_book(rng, rng.randint(2, 6), most_volume=3)
            lots = pairing.lots_of(book)
            lines = pairing.lines_of(book, lots)
            buyers = [h for h in book.holders if h.position > 0]
            sellers = [h for h in book.holders if h.position < 0]
            tables = list(every_pairing([h.position for h in buyers],
                                        [-h.position for h in sellers]))
            for group_of in (pairing.MEMBER, pairing.CLEARING, pairing.AGENT):
                for group in {group_of(h) for h in book.holders}:
                    most = max(sum(contracts for b, row in zip(buyers, table)
                                   for s, contracts in zip(sellers, row)
                                   if group_of(b) == group_of(s) == group) for table in tables)
                    self.assertEqual(pairing.within(book, lines, group_of, group), most)

    def test_wrong_rules_are_told_apart(self):
        """Rules that look right and are not change some answer of the table."""
        right = self.answers()

        def all_in_last_stage(book):
            with mock.patch.object(pairing, "STAGES", [lambda h: 0]):
                return rightly(book)

        def by_first_place(book, unpaired, rows):
            return min(rows, key=lambda row: (-abs(book.holders[row - 1].position), row))

        def last_of_equals(book, unpaired, rows):
            return min(rows, key=lambda row: (-unpaired[row], -row))

        def largest_first(book, stage, unpaired, rows):
            """Equal volumes are not looked for."""
            made = []
            while True:
                sides = [[row for row in rows if unpaired[row]
                          and book.holders[row - 1].position * sign > 0] for sign in (1, -1)]
                if not all(sides):
                    return made
                buyer, seller = (pairing.first(book, unpaired, side) for side in sides)
                contracts = min(unpaired[buyer], unpaired[seller])
                unpaired[buyer] -= contracts
                unpaired[seller] -= contracts
                made.append(pairing.Pair(stage, buyer, seller, contracts))

        rightly = pairing.pairs_of
        with mock.patch.object(pairing, "pair_group", largest_first):
            self.assertNotEqual(self.answers(), right)
        with mock.patch.object(pairing, "first", by_first_place):
            self.assertNotEqual(self.answers(), right)
        with mock.patch.object(pairing, "first", last_of_equals):
            self.assertNotEqual(self.answers(), right)
        with mock.patch.object(pairing, "pairs_of", all_in_last_stage):
            self.assertNotEqual(self.answers(), right)
        with mock.patch.object(Book, "first_deliverable", lambda book: 0):
            self.assertNotEqual(self.answers(), right)

    def answers(self):
        with mock.patch.object(pairing, "check_laws", lambda *_: None):
            return [pairing.answer(data, lots) for data, lots in pairing_cases.cases(300, 1)]


def wrong_engines():
    """Engines with one wrong rule each, by its name."""

    class TakesAllOrNothing(day.Expiry):
        def take(self, *names):
            session = self.session
            self.session = day.WHOLE_DELIVERY if session == day.PARTIAL_DELIVERY else session
            try:
                return super().take(*names)
            finally:
                self.session = session

    class TakesFromTheLastLine(day.Expiry):
        def take(self, *names):
            self.lines.reverse()
            try:
                return super().take(*names)
            finally:
                self.lines.reverse()

    class KeepsDraws(day.Expiry):
        def end(self):
            self.drawn = {}
            super().end()

    class DrawsTwice(day.Expiry):
        def draw(self, agent):
            self.drawn.pop(agent, None)
            super().draw(agent)

    class SettlesWithoutDraws(day.Expiry):
        def whole(self):
            for agent in day.AGENTS:
                self.drawn.setdefault(agent, 0)
            super().whole()

    class NetsOneAgent(day.Expiry):
        def line(self, number):
            if (self.session == day.PARTIAL_DELIVERY and 1 <= number <= len(self.lines)):
                line = self.lines[number - 1]
                agents = self.holder(line.buyer).agent, self.holder(line.seller).agent
                if agents[0] == agents[1] and line.inside():
                    contracts = line.inside()
                    self.move("s", 0, line.buyer, line.asset, self.units(contracts))
                    line.settled += contracts
                    return contracts
            return super().line(number)

    class ClosesAllByDifferences(day.Expiry):
        def close(self):
            settled = [line.settled for line in self.lines]
            super().close()
            for line, contracts in zip(self.lines, settled):
                gap = self.book.assets[line.asset].market - self.book.invoice_price(line.asset)
                agent = self.holder(line.buyer).agent
                self.claims[agent] = self.claims.get(agent, 0) + self.units(contracts) * gap

    class HearsMembersLate(day.Expiry):
        def notice(self, *names):
            session, self.session = self.session, (1 if self.session == 2 else self.session)
            try:
                super().notice(*names)
            finally:
                self.session = session

    class CreditsTheHouse(day.Expiry):
        def credit(self, side, account, asset, amount):
            with mock.patch.object(day, "HOUSE", -1):
                super().credit(side, account, asset, amount)

    class ForgetsNets(day.Expiry):
        def net(self, agent):
            return super().net(agent) if self.session < day.PARTIAL_DELIVERY else 0

    return {engine.__name__: engine for engine in (
        TakesAllOrNothing, TakesFromTheLastLine, KeepsDraws, DrawsTwice, SettlesWithoutDraws,
        NetsOneAgent, ClosesAllByDifferences, HearsMembersLate, CreditsTheHouse, ForgetsNets)}


class Days(unittest.TestCase):
    def play(self, *lines, units=()):
        played = Day()
        for line in ("book " + escape(PRINTED), "securities,6,2", "cash,3,1", *units, "open"):
            played.answers(line)
        return played, [played.answers(line)[0] for line in ("end", "end", "pair") + lines][3:]

    def test_worked(self):
        played, _ = self.play()
        self.assertEqual([played.expiry.net(1), played.expiry.net(2)], [19_000, -19_000])
        for units, part in ((25, "ok,2"), (9, "refused,24,s")):
            _, told = self.play("take,3,1,1", "end", "take,3,1,1",
                                units=["set,s,4,1,%d" % units])
            self.assertEqual(told, ["refused,24,s", "ok", part])

    def test_claims(self):
        played, told = self.play(
            "end", "take,1,1,1", "take,3,1,1", "line,1", "line,2", "line,3", "close",
            units=["set,s,1,1,50", "set,s,4,1,40", "set,c,1,0,28500"])
        self.assertEqual(told, ["ok", "ok,5", "ok,4", "ok,3", "ok,2", "ok,2", "ok"])
        self.assertEqual(played.expiry.claims, {1: 200, 2: -200})

    def test_cash_is_not_netted_line_by_line(self):
        """Buyer and seller have one agent, and it still needs all the cash."""
        _, told = self.play("take,1,1,1", "end", "line,1", "credit,c,1,0,1", "line,1",
                            units=["set,s,1,1,50", "set,c,1,0,28499"])
        self.assertEqual(told[2:], ["refused,24,c", "ok", "ok,3"])

    def test_whole(self):
        played, told = self.play(
            "whole", "take,1,1,1", "take,3,1,1", "whole", "draw,1", "draw,2", "draw,2", "whole",
            units=["set,s,1,1,50", "set,s,4,1,40", "set,c,2,0,19000"])
        self.assertEqual(told, ["refused,14", "ok,5", "ok,4", "refused,14", "refused,13", "ok",
                                "refused,13", "ok"])
        self.assertEqual(played.registers["s"].memory, [0] * 5 + [30, 0, 40, 0, 0, 0, 20])
        self.assertEqual(played.registers["c"].memory, [0, 19_000, 0])

    def test_the_second_account_sees_a_lost_unit(self):
        played, _ = self.play(units=["set,s,4,1,25"])
        self.assertIsInstance(played.account, Account)
        played.account.check()
        played.registers["s"].memory[9] -= 1
        with self.assertRaises(AssertionError):
            played.account.check()

    def test_wrong_engines_are_told_apart(self):
        """Engines that look right and are not change some answer of the table."""
        scripts = [script for script in day_cases.days(60, 1) if len(script.lines) < 500]
        lines = [line for script in scripts for line in script.lines]
        right = [text for script in scripts for text in script.told]
        for name, engine in wrong_engines().items():
            with mock.patch.object(day, "Expiry", engine):
                player = Day(checked=False)
                told = [text for line in lines for text in player.answers(line)]
            self.assertNotEqual(told, right, name)

    def test_days_meet_every_refusal(self):
        """Each random day is checked as it is played; together they meet every refusal."""
        met = set()
        for script in day_cases.days(100, 1):
            met |= {tuple(what.split(" ")[2:]) for what in script.met}
            met |= {tuple(what.split(" ")[1:]) for what in script.met}
            again = Day()
            self.assertEqual([text for line in script.lines for text in again.answers(line)],
                             script.told)
        for session in "123456":
            for word in ("notice", "end", "pair", "take", "draw", "whole", "line", "close"):
                lawful = {"notice": "12", "end": "124", "pair": "3", "take": "45", "draw": "4",
                          "whole": "4", "line": "5", "close": "5"}[word]
                answer = "ok" if session in lawful else "refused,8"
                self.assertIn((session, word, answer), met)
            self.assertIn((session, "credit", "ok"), met)
        for word, answers in {
                "open": "6 15 15,s 15,c 16,s 16,c", "notice": "8 9 10 11 12",
                "take": "8 13 24,s", "draw": "8 13 24,c", "whole": "8 14", "line": "8 13 24,c",
                "credit": "17 20,s 20,c 21,s 21,c 23,s 23,c 25,s 25,c"}.items():
            for answer in answers.split():
                self.assertIn((word, "refused," + answer), met)


if __name__ == "__main__":
    unittest.main()
