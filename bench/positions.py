#!/usr/bin/env python3
"""Random calls for the program `words`, on standard output.

    positions.py conflicts SEED COUNT REGIONS   one phase of moves and its retreats each: crowded boards, many supports and convoys
    positions.py years SEED COUNT REGIONS       several phases each, from any phase; some calls are bad and to be refused
"""
import random
import sys

LAND, COAST, SEA = 0, 1, 2
HOLD, MOVE, WATER, HOLDS, HELPS, CARRIES, ARMY, FLEET, GONE = range(9)


class Board:
    def __init__(self, dice, count):
        self.count = count
        self.kinds = [dice.choice([LAND, COAST, COAST, COAST, COAST, SEA, SEA]) for _ in range(count)]
        self.centres = [dice.randint(0, 1) for _ in range(count)]
        self.homes = [dice.choice([0, 0, 1, 2, 3, 4]) for _ in range(count)]
        density = dice.uniform(0.4, 1)
        self.march, self.sail = [], []
        for a in range(count):
            # edges of a large board stay near, and below their limit
            for b in range(a + 1, min(count, a + 9)):
                edge = (a, b) if dice.random() < 0.5 else (b, a)
                if SEA not in (self.kinds[a], self.kinds[b]) and dice.random() < density:
                    self.march.append(edge)
                both_coasts = self.kinds[a] == COAST and self.kinds[b] == COAST
                if LAND not in (self.kinds[a], self.kinds[b]) and dice.random() < density * (0.5 if both_coasts else 1):
                    self.sail.append(edge)
        # an edge may stand twice, and the other way round
        if self.march and dice.random() < 0.1:
            self.march.append(dice.choice(self.march)[::-1])

    def beside(self, unit):
        _, region, fleet = unit
        return sorted({b if a == region else a for a, b in (self.sail if fleet else self.march) if region in (a, b)})

    def words(self):
        regions = [w for r in range(self.count) for w in (self.kinds[r], self.centres[r], self.homes[r])]
        return regions + [w for edge in self.march + self.sail for w in edge]


def unit_in(dice, board, region, powers):
    kind = board.kinds[region]
    fleet = 1 if kind == SEA else 0 if kind == LAND else int(dice.random() < 0.45)
    return (dice.randrange(powers), region, fleet)


def begin(board, units, owners, phase, out=(), barred=()):
    words = [board.count, len(board.march), len(board.sail), len(units)] + board.words()
    words += [w for u in units for w in u] + owners + [phase, len(out)]
    return words + [w for u in out for w in u] + [len(barred)] + list(barred)


def moves(dice, board, units):
    """Orders that get in each other's way: crossings, attacks on the fleets that carry them, supports cut by them."""
    there = {u[1]: u for u in units}
    beside = {u[1]: board.beside(u) for u in units}
    order = {}
    coasts = [r for r in range(board.count) if board.kinds[r] == COAST]
    armies = [u[1] for u in units if not u[2] and u[1] in coasts]
    fleets = [u[1] for u in units if u[2] and board.kinds[u[1]] == SEA]
    hot = []
    dice.shuffle(armies)
    for start in armies[: dice.choice([0, 1, 1, 2, 3])]:
        ends = [c for c in coasts if c != start]
        if not fleets or not ends or start in order:
            continue
        end = dice.choice(ends)
        order[start] = (WATER, end, 0)
        for fleet in fleets:
            if fleet in order or dice.random() < 0.4:
                continue
            order[fleet] = (CARRIES, start, end)
            hot.append(fleet)
            if end in there and end not in order and fleet in beside[end] and dice.random() < 0.7:
                attackers = [r for r in there if r not in order and r != end and fleet in beside[r]]
                if attackers and dice.random() < 0.6:
                    attacker = dice.choice(attackers)
                    order[attacker] = (MOVE, fleet, 0)
                    order[end] = (HELPS, attacker, fleet)
                else:
                    order[end] = (HOLDS, fleet, 0)
    going = [(r, o[1]) for r, o in order.items() if o[0] in (MOVE, WATER)]
    hot = hot or dice.sample(range(board.count), (board.count + 2) // 3)
    for region in dice.sample(sorted(there), len(there)):
        if region in order or not beside[region]:
            continue
        chance = dice.random()
        near = [r for r in beside[region] if r in hot]
        if chance < 0.45:
            end = dice.choice(near) if near and dice.random() < 0.5 else dice.choice(beside[region])
            order[region] = (MOVE, end, 0)
            going.append((region, end))
        elif chance < 0.92:
            helped = [m for m in going if m[1] in beside[region] and m[0] != region]
            if helped and dice.random() < 0.75:
                order[region] = (HELPS,) + dice.choice(helped)
            else:
                order[region] = (HOLDS, dice.choice(near or beside[region]), 0)
        else:
            order[region] = (dice.randint(HOLD, GONE), dice.randrange(board.count), dice.randrange(board.count))
    return [(there[r][0], r) + o for r, o in order.items()]


def steps(dice, board, units):
    """Each unit moves one step: retreats, or moves."""
    texts = []
    for unit in units:
        near = board.beside(unit)
        if near and dice.random() < 0.85:
            texts.append((unit[0], unit[1], MOVE, dice.choice(near), 0))
    return texts


def winter(dice, board, powers):
    return [
        (p, r, dice.choice([ARMY, FLEET, GONE, GONE]), 0, 0)
        for p in range(powers)
        for r in range(board.count)
        if dice.random() < (0.9 if board.homes[r] == p + 1 else 0.2)
    ]


def turn(dice, texts, twice=0.02):
    texts = texts + [t for t in texts if dice.random() < twice]
    dice.shuffle(texts)
    return [w for t in texts for w in t]


def spoil(dice, words, count):
    """One word changed, left out or put in."""
    if not words:
        return words
    place, chance = dice.randrange(len(words)), dice.random()
    if chance < 0.6:
        return words[:place] + [dice.choice([0, 1, 2, 3, 5, 7, 8, 9, count, 127, 128, 129, 1025])] + words[place + 1 :]
    if chance < 0.8:
        return words[:place] + words[place + 1 :]
    return words[:place] + [dice.randint(0, 3)] + words[place:]


def conflicts(dice, regions):
    board = Board(dice, dice.randint(3, regions))
    powers = dice.choice([2, 2, 3, 3, 4, 5])
    units = [unit_in(dice, board, r, powers) for r in range(board.count) if dice.random() < 0.9]
    dice.shuffle(units)
    print("begin", *begin(board, units, [0] * board.count, 0))
    print("turn", *turn(dice, moves(dice, board, units)))
    print("turn", *turn(dice, steps(dice, board, units)))


def years(dice, regions):
    board = Board(dice, dice.randint(0, regions))
    powers = dice.choice([1, 2, 2, 3, 4, 7])
    places = list(range(board.count))
    dice.shuffle(places)
    units = [unit_in(dice, board, r, powers) for r in places if dice.random() < 0.6]
    owners = [dice.randint(0, powers) if board.centres[r] else 0 for r in range(board.count)]
    phase, out, barred = dice.choice([0, 0, 1, 2, 3, 4]), [], []
    if phase in (1, 3):
        out = [unit_in(dice, board, r, powers) + (dice.randint(0, board.count),) for r in places if dice.random() < 0.5]
        barred = [dice.randrange(board.count) for _ in range(dice.randint(0, 3))] if board.count else []
    words = begin(board, units, owners, phase, out, barred)
    print("begin", *(spoil(dice, words, board.count) if dice.random() < 0.1 else words))
    for later in range(dice.choice([1, 2, 6])):
        season = (phase + later) % 5
        if season == 4:
            texts = winter(dice, board, powers)
        elif season in (1, 3):
            texts = steps(dice, board, [o[:3] for o in out] if later == 0 else units)
        else:
            texts = moves(dice, board, units)
        words = turn(dice, texts)
        print("turn", *(spoil(dice, words, board.count) if dice.random() < 0.03 else words))


def main():
    if len(sys.argv) != 5 or sys.argv[1] not in ("conflicts", "years"):
        sys.exit(__doc__)
    dice = random.Random(int(sys.argv[2]))
    for _ in range(int(sys.argv[3])):
        (conflicts if sys.argv[1] == "conflicts" else years)(dice, int(sys.argv[4]))


main()
