"""A player of whole days: one expiry over two registers, by plain simulation.

It holds balances and lines and does what each call says. After every call it
is checked against a second account of the same facts, made from the opening
balances, the accepted credits and the counts on the lines alone.

Lines before the opening, without an answer:
  book ESCAPED            the book file; a refused one leaves the empty book
  places,N                places of the line table (when left out: four a holder)
  securities,ACCOUNTS,ASSETS and cash,ACCOUNTS,ASSETS   registers of zeros
  set,s|c,ACCOUNT,ASSET,AMOUNT                          units there before the opening
Calls, each with one answer (ok, ok,NUMBER, refused,NUMBER or refused,NUMBER,s|c):
  open
  notice,m|c,SPEAKER,MEMBER,NUMBER,ASSET,CONTRACTS
  end
  pair                    answers the count of lines
  credit,s|c,ACCOUNT,ASSET,AMOUNT
  take,MEMBER,NUMBER,ASSET   answers the contracts
  draw,AGENT
  whole
  line,NUMBER             answers the contracts
  close
  small,l|s|c             no answer; the next call alone is made on a line table of no places, or
                          on a register of one account and one asset, and gets 15 first
  tell                    answers several lines: the session, lines, balances, agents
"""

from book import Refused, read
from escaping import unescape
from pairing import PLACES_A_HOLDER, check_laws, lines_of, lots_of
from register import Refusal, Register

(MEMBERS_NOTICES, CLEARING_NOTICES, PAIRING, WHOLE_DELIVERY, PARTIAL_DELIVERY,
 CLOSED) = range(1, 7)

EMPTY_BOOK = 6
WRONG_SESSION = 8
NOT_THE_SPEAKERS = 9
NO_SUCH_SELLER = 10
NO_SUCH_ASSET = 11
WRONG_CONTRACTS = 12
NOTHING_DUE = 13
NOT_ALL_IN = 14
TOO_SMALL = 15
HOUSE_NOT_EMPTY = 16
CREDIT_TO_HOUSE = 17
SHORT = 24

HOUSE = 0
CASH = 0
AGENTS = range(1, 65)


class Stop(Exception):
    """A refused call: the number, and the register's side or nothing."""

    def __init__(self, number, side=None):
        super().__init__(number, side)
        self.number, self.side = number, side

    def told(self):
        return "refused,%d" % self.number + ("," + self.side if self.side else "")


class DayLine:
    """A line of the pairing with its contracts taken, settled and returned."""

    def __init__(self, pair):
        self.buyer, self.seller, self.asset = pair.buyer, pair.seller, pair.asset
        self.contracts = pair.contracts
        self.taken = self.settled = self.returned = 0

    def inside(self):
        return self.taken - self.settled - self.returned


class Expiry:
    """One expiry from its opening on."""

    def __init__(self, book, places, registers):
        securities, cash = registers["s"], registers["c"]
        if book is None:
            raise Stop(EMPTY_BOOK)
        if places < PLACES_A_HOLDER * len(book.holders):
            raise Stop(TOO_SMALL)
        if securities.accounts <= len(book.holders) or securities.assets < len(book.assets):
            raise Stop(TOO_SMALL, "s")
        if cash.accounts <= max(h.agent for h in book.holders) or cash.assets <= CASH:
            raise Stop(TOO_SMALL, "c")
        if any(securities.balance(HOUSE, asset) for asset in range(len(book.assets))):
            raise Stop(HOUSE_NOT_EMPTY, "s")
        if cash.balance(HOUSE, CASH):
            raise Stop(HOUSE_NOT_EMPTY, "c")
        self.book, self.registers = book, registers
        self.session = MEMBERS_NOTICES
        self.notified = []
        self.lots = {}
        self.lines = []
        self.drawn = {}
        self.claims = {}

    # Small facts.

    def need(self, *sessions):
        if self.session not in sessions:
            raise Stop(WRONG_SESSION)

    def holder(self, row):
        return self.book.holders[row - 1]

    def units(self, contracts):
        return contracts * self.book.multiplier

    def move(self, side, giver, taker, asset, amount):
        try:
            self.registers[side].move(giver, taker, asset, amount)
        except Refusal as refusal:
            raise Stop(refusal.number, side)

    def net(self, agent):
        """The value of the lines an agent sells less those it buys."""
        total = 0
        for line in self.lines:
            value = self.book.value(line.asset, line.contracts)
            if self.holder(line.seller).agent == agent:
                total += value
            if self.holder(line.buyer).agent == agent:
                total -= value
        return total

    # Calls.

    def notice(self, kind, speaker, member, number, asset, contracts):
        self.need(MEMBERS_NOTICES, CLEARING_NOTICES)
        row = self.book.row_of(member, number)
        if row is None or self.holder(row).position > 0:
            raise Stop(NO_SUCH_SELLER)
        seller = self.holder(row)
        speaks = (seller.clearing == speaker if kind == "c"
                  else self.session == MEMBERS_NOTICES and seller.member == speaker)
        if not speaks:
            raise Stop(NOT_THE_SPEAKERS)
        if asset >= len(self.book.assets):
            raise Stop(NO_SUCH_ASSET)
        before = sum(lot[2] for lot in self.notified if lot[0] == row)
        if contracts == 0 or contracts > -seller.position - before:
            raise Stop(WRONG_CONTRACTS)
        self.notified.append((row, asset, contracts))

    def end(self):
        self.need(MEMBERS_NOTICES, CLEARING_NOTICES, WHOLE_DELIVERY)
        if self.session == CLEARING_NOTICES:
            self.lots = lots_of(self.book, self.notified)
        if self.session == WHOLE_DELIVERY:
            for agent, amount in sorted(self.drawn.items()):
                self.move("c", HOUSE, agent, CASH, amount)
            self.drawn = {}
        self.session += 1

    def pair(self):
        self.need(PAIRING)
        made = lines_of(self.book, self.lots)
        check_laws(self.book, self.lots, made)
        self.lines = [DayLine(pair) for pair in made]
        self.session = WHOLE_DELIVERY
        return len(self.lines)

    def credit(self, side, account, asset, amount):
        if account == HOUSE:
            raise Stop(CREDIT_TO_HOUSE)
        try:
            self.registers[side].credit(account, asset, amount)
        except Refusal as refusal:
            raise Stop(refusal.number, side)

    def take(self, member, number, asset):
        self.need(WHOLE_DELIVERY, PARTIAL_DELIVERY)
        row = self.book.row_of(member, number)
        mine = [line for line in self.lines if (line.seller, line.asset) == (row, asset)]
        outstanding = sum(line.contracts - line.taken for line in mine)
        if outstanding == 0:
            raise Stop(NOTHING_DUE)
        contracts = outstanding
        if self.session == PARTIAL_DELIVERY:
            covered = self.registers["s"].balance(row, asset) // self.book.multiplier
            contracts = min(outstanding, covered)
            if contracts == 0:
                raise Stop(SHORT, "s")
        self.move("s", row, HOUSE, asset, self.units(contracts))
        left = contracts
        for line in mine:
            step = min(left, line.contracts - line.taken)
            line.taken += step
            left -= step
        return contracts

    def draw(self, agent):
        self.need(WHOLE_DELIVERY)
        if self.net(agent) >= 0 or agent in self.drawn:
            raise Stop(NOTHING_DUE)
        self.move("c", agent, HOUSE, CASH, -self.net(agent))
        self.drawn[agent] = -self.net(agent)

    def whole(self):
        self.need(WHOLE_DELIVERY)
        owing = [agent for agent in AGENTS if self.net(agent) < 0 and agent not in self.drawn]
        if owing or any(line.taken < line.contracts for line in self.lines):
            raise Stop(NOT_ALL_IN)
        for line in self.lines:
            self.move("s", HOUSE, line.buyer, line.asset, self.units(line.contracts))
            line.settled = line.contracts
        for agent in AGENTS:
            if self.net(agent) > 0:
                self.move("c", HOUSE, agent, CASH, self.net(agent))
        self.drawn = {}
        self.session = CLOSED

    def line(self, number):
        self.need(PARTIAL_DELIVERY)
        if not 1 <= number <= len(self.lines):
            raise Stop(NOTHING_DUE)
        line = self.lines[number - 1]
        contracts = line.inside()
        if contracts == 0:
            raise Stop(NOTHING_DUE)
        value = self.book.value(line.asset, contracts)
        self.move("c", self.holder(line.buyer).agent, HOUSE, CASH, value)
        self.move("c", HOUSE, self.holder(line.seller).agent, CASH, value)
        self.move("s", HOUSE, line.buyer, line.asset, self.units(contracts))
        line.settled += contracts
        return contracts

    def close(self):
        self.need(PARTIAL_DELIVERY)
        for line in self.lines:
            if line.inside():
                self.move("s", HOUSE, line.seller, line.asset, self.units(line.inside()))
                line.returned += line.inside()
            asset = self.book.assets[line.asset]
            gap = asset.market - self.book.invoice_price(line.asset)
            amount = self.units(line.contracts - line.settled) * gap
            for row, sign in ((line.buyer, 1), (line.seller, -1)):
                agent = self.holder(row).agent
                self.claims[agent] = self.claims.get(agent, 0) + sign * amount
        self.session = CLOSED


class Account:
    """The second account: opening balances, accepted credits, counts on lines, draws."""

    def __init__(self, expiry):
        self.expiry = expiry
        self.opening = {side: list(r.memory) for side, r in expiry.registers.items()}
        self.credited = {side: [0] * len(r.memory) for side, r in expiry.registers.items()}

    def balances(self, side):
        """What each account must hold by the counts on the lines and the draws held."""
        e = self.expiry
        assets = e.registers[side].assets
        held = [sum(both) for both in zip(self.opening[side], self.credited[side])]

        def add(account, asset, amount):
            held[account * assets + asset] += amount

        for line in e.lines:
            if side == "s":
                add(line.seller, line.asset, -e.units(line.taken - line.returned))
                add(line.buyer, line.asset, e.units(line.settled))
                add(HOUSE, line.asset, e.units(line.taken - line.settled - line.returned))
            else:
                value = e.book.value(line.asset, line.settled)
                add(e.holder(line.seller).agent, CASH, value)
                add(e.holder(line.buyer).agent, CASH, -value)
        if side == "c":
            for agent, amount in e.drawn.items():
                add(agent, CASH, -amount)
                add(HOUSE, CASH, amount)
        return held

    def balance(self, side, account, asset):
        return self.balances(side)[account * self.expiry.registers[side].assets + asset]

    def covered(self, word, names):
        """For a take, draw or line settlement that is due: its side, and whether it is covered."""
        e = self.expiry
        if word == "take" and e.session in (WHOLE_DELIVERY, PARTIAL_DELIVERY):
            row = e.book.row_of(names[0], names[1])
            out = sum(line.contracts - line.taken for line in e.lines
                      if (line.seller, line.asset) == (row, names[2]))
            if out:
                need = e.units(out if e.session == WHOLE_DELIVERY else 1)
                return "s", self.balance("s", row, names[2]) >= need
        if word == "draw" and e.session == WHOLE_DELIVERY:
            if e.net(names[0]) < 0 and names[0] not in e.drawn:
                return "c", self.balance("c", names[0], CASH) >= -e.net(names[0])
        if word == "line" and e.session == PARTIAL_DELIVERY and 1 <= names[0] <= len(e.lines):
            line = e.lines[names[0] - 1]
            if line.inside():
                need = e.book.value(line.asset, line.inside())
                return "c", self.balance("c", e.holder(line.buyer).agent, CASH) >= need
        return None

    def check(self):
        e = self.expiry
        for side, register in e.registers.items():
            assert register.memory == self.balances(side)
            for asset in range(register.assets):
                total = (sum(self.opening[side][asset::register.assets])
                         + sum(self.credited[side][asset::register.assets]))
                assert register.issue(asset) == total
                assert sum(register.memory[asset::register.assets]) == total
        for line in e.lines:
            assert 0 <= line.settled + line.returned <= line.taken <= line.contracts
        if e.session == CLOSED:
            self.check_end()

    def check_end(self):
        """The house is empty, every contract settled or closed by differences, claims even out."""
        e = self.expiry
        assert not any(e.registers["s"].balance(HOUSE, asset)
                       for asset in range(len(e.book.assets)))
        assert e.registers["c"].balance(HOUSE, CASH) == 0
        assert all(line.inside() == 0 for line in e.lines) and not e.drawn
        assert sum(e.claims.values()) == 0
        for agent in AGENTS:
            claim = 0
            for line in e.lines:
                gap = e.book.assets[line.asset].market - e.book.invoice_price(line.asset)
                open_units = e.units(line.contracts - line.settled)
                claim += open_units * gap * ((e.holder(line.buyer).agent == agent)
                                             - (e.holder(line.seller).agent == agent))
            assert e.claims.get(agent, 0) == claim


class Day:
    """Answers the lines of a table of days; unchecked, for trying wrong rules on a table."""

    def __init__(self, checked=True):
        self.book = self.places = self.expiry = self.account = self.small = None
        self.registers = {}
        self.checked = checked

    def answers(self, line):
        """The answer to one line, as lines of text."""
        if line.startswith("book "):
            try:
                self.book = read(unescape(line[len("book "):]))
            except Refused:
                self.book = None
            self.places = self.expiry = self.account = None
            return []
        word, *texts = line.split(",")
        names = [text if text in ("m", "l", "s", "c") else int(text) for text in texts]
        if word == "small":
            self.small = names[0]
            return []
        if word in ("places", "securities", "cash", "set"):
            self.prepare(word, names)
            return []
        if word == "tell":
            return self.tell()
        if self.small is not None:
            side, self.small = self.small, None
            return [Stop(TOO_SMALL, None if side == "l" else side).told()]
        return [self.open() if word == "open" else self.call(word, names)]

    def prepare(self, word, names):
        if word == "places":
            self.places = names[0]
        elif word == "set":
            self.registers[names[0]].credit(*names[1:])
        else:
            zeros = [0] * (names[0] * names[1])
            self.registers["s" if word == "securities" else "c"] = Register(*names, zeros)

    def open(self):
        holders = len(self.book.holders) if self.book else 0
        places = PLACES_A_HOLDER * holders if self.places is None else self.places
        try:
            self.expiry = Expiry(self.book, places, self.registers)
        except Stop as stop:
            return stop.told()
        self.account = Account(self.expiry)
        return "ok"

    def call(self, word, names):
        due = self.account.covered(word, names) if self.checked else None
        before = self.tell() if self.checked else None
        try:
            number = getattr(self.expiry, word)(*names)
        except Stop as stop:
            if self.checked:
                self.check_refused(stop, due, before)
            return stop.told()
        if word == "credit":
            side, account, asset, amount = names
            place = account * self.registers[side].assets + asset
            self.account.credited[side][place] += amount
        if self.checked:
            assert due == ("s" if word == "take" else "c", True) or (
                due is None and word not in ("take", "draw", "line"))
            self.account.check()
        return "ok" if number is None else "ok,%d" % number

    def check_refused(self, stop, due, before):
        """A refused call changes nothing; one that was due is short, and only such a one is."""
        assert self.tell() == before
        short = (stop.number, stop.side) == (SHORT, due[0]) and not due[1] if due else False
        assert short == (due is not None) == (stop.number == SHORT)

    def tell(self):
        """The session, each line's counts, each balance, net and claim that is not 0."""
        e = self.expiry
        texts = ["session,%d" % e.session]
        for number, line in enumerate(e.lines, 1):
            texts.append("line,%d,%d,%d,%d,%d" % (
                number, line.contracts, line.taken, line.settled, line.returned))
        for side in "sc":
            register = self.registers[side]
            for account in range(register.accounts):
                for asset in range(register.assets):
                    if register.balance(account, asset):
                        texts.append("balance,%s,%d,%d,%d" % (
                            side, account, asset, register.balance(account, asset)))
        for agent in AGENTS:
            net, claim = e.net(agent), e.claims.get(agent, 0)
            if net or claim:
                texts.append("agent,%d,%d,%d" % (agent, net, claim))
        return texts


if __name__ == "__main__":
    import sys
    day = Day()
    for line in sys.stdin:
        for text in day.answers(line.rstrip("\n")):
            print(text)
