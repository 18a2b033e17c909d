"""Pairs and lines of a book, by the rule word for word, and the laws they obey.

Stages 1 to 4 go by member, by clearing member, by payment agent and over the
whole book, groups in ascending number. In a group the largest volume that
stands on both sides comes first: the first buyer and first seller of it are
paired, until no volume stands on both sides. Then first buyer and first seller
are paired for the smaller volume, and the order is read again, until one side
is empty. Order: larger unpaired volume, lower member, lower number.
"""

from collections import namedtuple

from book import Refused, read

# Rows are counted from 1.
Pair = namedtuple("Pair", "stage buyer seller contracts")
Line = namedtuple("Line", "stage buyer seller asset contracts")

MEMBER, CLEARING, AGENT = (lambda h: h.member), (lambda h: h.clearing), (lambda h: h.agent)
STAGES = [MEMBER, CLEARING, AGENT, lambda h: 0]

# The line table has this many places for each holder.
PLACES_A_HOLDER = 4


def first(book, unpaired, rows):
    """The first of these rows by the order."""
    def rank(row):
        holder = book.holders[row - 1]
        return (-unpaired[row], holder.member, holder.number)
    return min(rows, key=rank)


def pair_group(book, stage, unpaired, rows):
    """The pairs of one group, in the order made; lowers what is unpaired."""
    made = []

    def open_rows(sign):
        return [row for row in rows
                if unpaired[row] > 0 and book.holders[row - 1].position * sign > 0]

    def pair(buyer, seller):
        contracts = min(unpaired[buyer], unpaired[seller])
        unpaired[buyer] -= contracts
        unpaired[seller] -= contracts
        made.append(Pair(stage, buyer, seller, contracts))

    while True:
        buyers, sellers = open_rows(1), open_rows(-1)
        both = {unpaired[row] for row in buyers} & {unpaired[row] for row in sellers}
        if not both:
            break
        volume = max(both)
        pair(first(book, unpaired, [row for row in buyers if unpaired[row] == volume]),
             first(book, unpaired, [row for row in sellers if unpaired[row] == volume]))
    while open_rows(1) and open_rows(-1):
        pair(first(book, unpaired, open_rows(1)), first(book, unpaired, open_rows(-1)))
    return made


def pairs_of(book):
    unpaired = {row: abs(h.position) for row, h in enumerate(book.holders, 1)}
    made = []
    for stage, group_of in enumerate(STAGES, 1):
        for group in sorted({group_of(holder) for holder in book.holders}):
            rows = [row for row, h in enumerate(book.holders, 1) if group_of(h) == group]
            made += pair_group(book, stage, unpaired, rows)
    return made


def lots_of(book, notices=()):
    """Each seller's contracts by asset: what was notified, the rest in the first deliverable."""
    lots = {}
    for row, holder in enumerate(book.holders, 1):
        if holder.position < 0:
            lots[row] = [0] * len(book.assets)
    for row, asset, contracts in notices:
        lots[row][asset] += contracts
    for row, lot in lots.items():
        lot[book.first_deliverable()] += -book.holders[row - 1].position - sum(lot)
    return lots


def lines_of(book, lots):
    """Each pair, in the order made, uses up the seller's lots, lowest asset first."""
    left = {row: list(lot) for row, lot in lots.items()}
    lines = []
    for pair in pairs_of(book):
        wanted = pair.contracts
        for asset in range(len(book.assets)):
            contracts = min(wanted, left[pair.seller][asset])
            if contracts:
                left[pair.seller][asset] -= contracts
                wanted -= contracts
                lines.append(Line(pair.stage, pair.buyer, pair.seller, asset, contracts))
    return lines


def told(book, lines):
    """The lines as the program prints them."""
    texts = ["lines,1"]
    for number, line in enumerate(lines, 1):
        buyer, seller = book.holders[line.buyer - 1], book.holders[line.seller - 1]
        texts.append("line," + ",".join(map(str, (
            number, line.stage, buyer.member, buyer.number, seller.member, seller.number,
            line.asset, line.contracts, book.value(line.asset, line.contracts)))))
    return texts


def within(book, lines, group_of, group):
    """Contracts whose buyer and seller share the group."""
    return sum(line.contracts for line in lines
               if group_of(book.holders[line.buyer - 1]) == group
               and group_of(book.holders[line.seller - 1]) == group)


def check_laws(book, lots, lines):
    """What must hold of the lines, told without the rule."""
    for row, holder in enumerate(book.holders, 1):
        bought = sum(line.contracts for line in lines if line.buyer == row)
        sold = sum(line.contracts for line in lines if line.seller == row)
        assert bought - sold == holder.position and min(bought, sold) == 0
        for asset in range(len(book.assets)):
            sold = sum(line.contracts for line in lines
                       if (line.seller, line.asset) == (row, asset))
            assert sold == (lots[row][asset] if holder.position < 0 else 0)
    assert all(line.contracts > 0 for line in lines)
    named = {(line.buyer, line.seller) for line in lines}
    assert len(named) < len(book.holders)
    assert len({(line.buyer, line.seller, line.asset) for line in lines}) == len(lines)
    assert len(lines) <= PLACES_A_HOLDER * len(book.holders)
    # No pairing has more within a group than the smaller of its two sides; this one has as much.
    for group_of in (MEMBER, CLEARING, AGENT):
        for group in {group_of(holder) for holder in book.holders}:
            inside = [h.position for h in book.holders if group_of(h) == group]
            bought = sum(position for position in inside if position > 0)
            assert within(book, lines, group_of, group) == min(bought, bought - sum(inside))
    # The stage of a line is the closest name that its two holders share.
    for line in lines:
        buyer, seller = book.holders[line.buyer - 1], book.holders[line.seller - 1]
        shared = [group_of(buyer) == group_of(seller) for group_of in STAGES]
        assert line.stage == shared.index(True) + 1


def answer(data, notices=()):
    """What the program prints for a file, as lines of text."""
    try:
        book = read(data)
    except Refused as refusal:
        return [refusal.told()]
    lots = lots_of(book, notices)
    lines = lines_of(book, lots)
    check_laws(book, lots, lines)
    return told(book, lines)


if __name__ == "__main__":
    import sys
    print("\n".join(answer(sys.stdin.buffer.read())))
