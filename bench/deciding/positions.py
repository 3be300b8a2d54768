#!/usr/bin/env python3
"""One position for the program `words`: a board with units, and the texts for a phase of moves.

    positions.py FAMILY UNITS [hold]

Families: crowd (moves and supports that get in each other's way), line (each moves to where the next leaves from, the last
stays: as many rounds as units), convoys (armies carried by four fleets each), chain (one army carried over half of all units,
to the end of a line). With `hold` all texts are holds: the same reading and printing, nothing to decide.
"""
import random
import sys

COAST, SEA = 1, 2
HOLD, MOVE, WATER, HOLDS, HELPS, CARRIES = range(6)


def crowd(count):
    dice = random.Random(count)
    wide = 8
    march = [(r, r + 1) for r in range(count - 1) if r % wide < wide - 1] + [(r, r + wide) for r in range(count - wide)]
    beside = [[b if a == r else a for a, b in march if r in (a, b)] for r in range(count)]
    goes = {r: dice.choice(beside[r]) for r in range(count) if dice.random() < 0.55}
    orders = []
    for r in range(count):
        helped = [(f, t) for f, t in goes.items() if t in beside[r] and f != r]
        if r in goes:
            orders.append((MOVE, goes[r], 0))
        elif helped:
            orders.append((HELPS,) + dice.choice(helped))
        else:
            orders.append((HOLDS, dice.choice(beside[r]), 0))
    return [COAST] * count, march, [], orders


def line(count):
    march = [(r, r + 1) for r in range(count - 1)]
    return [COAST] * count, march, [], [(MOVE, r + 1, 0) for r in range(count - 1)] + [(HOLD, 0, 0)]


def convoys(count):
    half = count // 2
    sail = [(r, r + half) for r in range(half)] + [(r, r + 1) for r in range(half, count - 1)]
    army = [(WATER, r - r % 4 + (r + 1) % 4, 0) for r in range(half)]
    fleet = [(CARRIES, r - r % 4, r - r % 4 + 1) for r in range(half)]
    return [COAST] * half + [SEA] * half, [], sail, army + fleet


def chain(count):
    half = count // 2
    kinds = [COAST] * half + [SEA] * half
    march = [(r, r + 1) for r in range(1, half - 1)]
    sail = [(0, half)] + [(r, r + 1) for r in range(half, count - 1)] + [(1, count - 1)]
    land = [(WATER, 1, 0)] + [(MOVE, r + 1, 0) for r in range(1, half - 1)] + [(HOLD, 0, 0)]
    return kinds, march, sail, land + [(CARRIES, 0, 1)] * half


family, count = sys.argv[1], int(sys.argv[2])
kinds, march, sail, orders = {"crowd": crowd, "line": line, "convoys": convoys, "chain": chain}[family](count)
if "hold" in sys.argv[3:]:
    orders = [(HOLD, 0, 0)] * count
begin = [count, len(march), len(sail), count] + [w for kind in kinds for w in (kind, 0, 0)]
begin += [w for edge in march + sail for w in edge]
begin += [w for r in range(count) for w in (r % 7, r, int(kinds[r] == SEA))] + [0] * count + [0, 0, 0]
turn = [w for r in range(count) for w in (r % 7, r) + orders[r]]
print("begin", *begin)
print("turn", *turn)
