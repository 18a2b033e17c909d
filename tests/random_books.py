"""Random accepted books, from a given source of random numbers."""

from book import Book, MOST_BOUGHT

PRINTED = b"""book,1
terms,10,1000
asset,1000000,0,1010
asset,900000,50,940
holder,1,1,1,1,-5
holder,1,2,1,1,3
holder,2,1,1,1,4
holder,3,1,2,1,-4
holder,4,1,3,2,2
"""


def balanced(rng, volumes):
    """Positions with these volumes on random sides, changed until bought equals sold."""
    sides = [rng.choice((-1, 1)) for _ in volumes]
    sides[rng.randrange(len(sides))] = 1
    if len(set(sides)) == 1:
        sides[rng.randrange(len(sides))] = -sides[0]
    positions = [side * volume for side, volume in zip(sides, volumes)]
    while sum(positions):
        gap = sum(positions)
        row = rng.randrange(len(positions))
        heavy = (positions[row] > 0) == (gap > 0)
        if heavy and abs(positions[row]) > 1:
            step = rng.randint(1, min(abs(positions[row]) - 1, abs(gap)))
        elif not heavy:
            step = rng.randint(1, abs(gap))
        else:
            continue
        positions[row] -= step if gap > 0 else -step
    return positions


def random_assets(rng, count, price):
    """Assets whose price gaps often tie."""
    assets = []
    for _ in range(count):
        factor = rng.choice((100_000, 900_000, 1_000_000, 1_234_567, 2_000_000,
                             rng.randint(100_000, 2_000_000)))
        accrued = rng.choice((0, 50, rng.randint(0, 10_000), rng.randint(0, 10_000_000)))
        invoice = (price * factor + 500_000) // 1_000_000 + accrued
        gap = rng.choice((-10, 0, 0, 7, rng.randint(-100_000, 100_000)))
        market = max(1, min(210_000_000, invoice + gap))
        assets.append((factor, accrued, market))
    return assets


def random_book(rng, holders, most_volume=None, members=None, wide=True):
    """A book of this many holders; narrow ones have few clearing members and agents."""
    clearing_names = rng.sample(range(1, 1000), rng.randint(1, max(1, holders // 3) + 1))
    agents = rng.sample(range(1, 65), rng.randint(1, 4 if wide else 2))
    agent_of = {name: rng.choice(agents) for name in clearing_names}
    names = rng.sample(range(1, 1000), members or rng.randint(1, holders))
    clearing_of = {name: rng.choice(clearing_names) for name in names}
    keys = set()
    while len(keys) < holders:
        number = rng.randint(1, 999_999) if rng.random() < 0.3 else rng.randint(1, 2 * holders)
        keys.add((rng.choice(names), number))
    most = most_volume or rng.choice((1, 2, 3, 6, 20, 1_000, MOST_BOUGHT // holders))
    positions = balanced(rng, [rng.randint(1, most) for _ in range(holders)])
    rows = [(member, number, clearing_of[member], agent_of[clearing_of[member]], position)
            for (member, number), position in zip(sorted(keys), positions)]
    price = rng.choice((100, 105, 1_000, 100_000_000, rng.randint(100, 100_000_000)))
    multiplier = rng.choice((1, 10, 1_000, rng.randint(1, 1_000)))
    return Book(multiplier, price, random_assets(rng, rng.randint(1, 4), price), rows)
