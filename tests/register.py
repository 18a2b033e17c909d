"""A model of a register: units of assets in accounts, both numbered from 0.

Calls, one a line, and their answers:
  make,ACCOUNTS,ASSETS,BALANCE,...  starts a register over this memory: ok or refused,NUMBER
  credit,ACCOUNT,ASSET,AMOUNT       ok or refused,NUMBER
  move,GIVER,TAKER,ASSET,AMOUNT     ok or refused,NUMBER
  balance,ACCOUNT,ASSET             the number
  issue,ASSET                       the number
"""

MOST_ACCOUNTS = 1_024
MOST_ASSETS = 16
MOST_ISSUED = 10**18

BAD_MAKING = 15
UNKNOWN_ACCOUNT = 20
UNKNOWN_ASSET = 21
SAME_ACCOUNT = 22
NO_AMOUNT = 23
SHORT = 24
OVER_ISSUE = 25


class Refusal(Exception):
    def __init__(self, number):
        super().__init__(number)
        self.number = number


class Register:
    """The balance of an account and asset stands at place account x assets + asset."""

    def __init__(self, accounts, assets, memory):
        self.accounts, self.assets, self.memory = 0, 0, list(memory)
        self.issued = []
        counts_fit = 1 <= accounts <= MOST_ACCOUNTS and 1 <= assets <= MOST_ASSETS
        if not counts_fit or len(memory) != accounts * assets:
            self.refused = BAD_MAKING
            return
        issued = [sum(memory[asset::assets]) for asset in range(assets)]
        if max(issued) > MOST_ISSUED:
            self.refused = OVER_ISSUE
            return
        self.refused = None
        self.accounts, self.assets, self.issued = accounts, assets, issued

    def balance(self, account, asset):
        if account < self.accounts and asset < self.assets:
            return self.memory[account * self.assets + asset]
        return 0

    def issue(self, asset):
        return self.issued[asset] if asset < self.assets else 0

    def credit(self, account, asset, amount):
        if account >= self.accounts:
            raise Refusal(UNKNOWN_ACCOUNT)
        if asset >= self.assets:
            raise Refusal(UNKNOWN_ASSET)
        if amount == 0:
            raise Refusal(NO_AMOUNT)
        if self.issued[asset] + amount > MOST_ISSUED:
            raise Refusal(OVER_ISSUE)
        self.memory[account * self.assets + asset] += amount
        self.issued[asset] += amount

    def move(self, giver, taker, asset, amount):
        if giver >= self.accounts or taker >= self.accounts:
            raise Refusal(UNKNOWN_ACCOUNT)
        if asset >= self.assets:
            raise Refusal(UNKNOWN_ASSET)
        if giver == taker:
            raise Refusal(SAME_ACCOUNT)
        if amount == 0:
            raise Refusal(NO_AMOUNT)
        if self.balance(giver, asset) < amount:
            raise Refusal(SHORT)
        self.memory[giver * self.assets + asset] -= amount
        self.memory[taker * self.assets + asset] += amount


class Table:
    """Answers the lines of a table of calls, one register after the other."""

    def __init__(self):
        self.register = Register(0, 0, [])

    def answer(self, line):
        word, *texts = line.split(",")
        numbers = [int(text) for text in texts]
        if word == "make":
            self.register = Register(numbers[0], numbers[1], numbers[2:])
            refused = self.register.refused
            return "ok" if refused is None else "refused,%d" % refused
        if word == "balance":
            return str(self.register.balance(*numbers))
        if word == "issue":
            return str(self.register.issue(*numbers))
        try:
            {"credit": self.register.credit, "move": self.register.move}[word](*numbers)
        except Refusal as refusal:
            return "refused,%d" % refusal.number
        return "ok"


if __name__ == "__main__":
    import sys
    table = Table()
    for line in sys.stdin:
        print(table.answer(line.rstrip("\n")))
