#!/usr/bin/env python3
"""Writes the example cards and price lists of this folder, always the same bytes. README.md says what each is."""
import os
import random

NO_ARC = 1048575
MAX_WEIGHT = 1048574
MAX_BUDGET = 32505794
FREE, PINNED, BANNED = 0, 1, 2

Q = {(0, 1): 10, (0, 2): 10, (0, 3): 8, (1, 2): 1, (1, 3): 4, (2, 1): 2, (2, 3): 9, (3, 1): 7}

# the console's row in a school's own list, and the rows that are used of both
OWN = {(0, 1): 6, (0, 2): 9}
MERGED = {arc: price for arc, price in Q.items() if arc[0] != 0} | OWN


def sheet(n, root, budget, weights, marks):
    """The bits of a plain card: weights (prices) and marks by (tail, head), or (feeder, fed); a pair without a weight
    is no arc."""
    bits = f"{n:06b}{root:05b}{budget:025b}"
    for tail in range(n):
        for head in range(n):
            if tail != head and head != root:
                arc = (tail, head)
                bits += f"{weights.get(arc, NO_ARC):020b}{marks.get(arc, FREE):02b}"
    return bits


def packed(bits):
    bits += "0" * (-len(bits) % 8)
    return bytes(int(bits[i : i + 8], 2) for i in range(0, len(bits), 8))


def card(n, root, budget, weights, marks={}):
    """The plain card."""
    return packed(sheet(n, root, budget, weights, marks))


def link(tail, head, mark):
    """The record of a press on one link, with the mark that it replaced."""
    return f"00{tail:05b}{head:05b}{mark:02b}"


def old_budget(budget):
    """The record of a budget press, with the budget that it replaced."""
    return f"01{budget:025b}"


def group(tail, marks):
    """The record of a group press, with the marks that it replaced, by fed position."""
    heads = sum(1 << head for head in marks)
    return f"10{tail:05b}{heads:032b}" + "".join(f"{marks[head]:02b}" for head in sorted(marks))


def history_card(n, root, budget, weights, marks, records):
    """The history card: the records oldest first."""
    return packed(f"{63:06b}" + sheet(n, root, budget, weights, marks) + f"{len(records):08b}" + "".join(records))


def hall():
    """32 positions on a floor of 24 m by 16 m, the console in the middle of one end. A link costs 350 pence for its two
    plugs and 120 to 180 a metre, 40 more where it runs back towards the console; there is none beyond 25 m, and one
    pair in fifteen has a wall between."""
    draw = random.Random(32)
    floor = [(x, y) for x in range(1, 25) for y in range(17)]
    places = [(0, 8)] + draw.sample(floor, 31)
    weights = {}
    for tail, (x, y) in enumerate(places):
        for head, (u, v) in enumerate(places):
            metres = abs(x - u) + abs(y - v)
            rate = draw.randrange(120, 181) + (40 if u < x else 0)
            wall = draw.randrange(15) == 0
            if tail != head and head != 0 and metres <= 25 and not wall:
                weights[tail, head] = 350 + rate * metres
    return weights


def heads():
    """A console, two dimmer racks and five moving heads: to feed a head costs more than 10,000 pounds, whether from a
    rack or from another head, and from the console as much as a link can."""
    draw = random.Random(9)
    weights = {(0, rack): 85000 + 500 * rack for rack in (1, 2)}
    for head in range(3, 8):
        for rack in (1, 2):
            weights[rack, head] = draw.randrange(1000001, 1030000)
        weights[0, head] = MAX_WEIGHT
        for tail in range(3, 8):
            if tail != head:
                weights[tail, head] = draw.randrange(1000001, 1040000)
    return weights


def prices(weights, arcs):
    """The price list: a line for each arc, in the order of `arcs`."""
    return "".join(f"{tail} {head} {weights[tail, head]}\n" for tail, head in arcs).encode()


def write(name, data, kind=".card"):
    with open(os.path.join(os.path.dirname(os.path.abspath(__file__)), name + kind), "wb") as file:
        file.write(data)


write("p1", card(4, 0, 16, Q))
write("p3", card(4, 0, 15, Q))
write("p4", card(4, 0, 14, Q))
write("p5", card(4, 0, 16, Q, {(2, 1): PINNED}))
write("p6", card(4, 0, 16, Q, {(0, 1): BANNED}))
write("p7", card(4, 0, 16, Q, {(2, 1): PINNED, (1, 2): PINNED}))
write("pins", card(4, 0, 16, Q, {(0, 1): PINNED, (2, 1): PINNED}))
write("p8", card(1, 0, 0, {}))
write("p9", card(2, 0, 5, {(0, 1): 5}))
write("p10", card(2, 0, 4, {(0, 1): 5}))
write("hall", card(32, 0, 28500, hall(), {(8, 27): PINNED, (18, 20): BANNED}))
write("own", card(4, 0, 16, MERGED))
write("heads", card(8, 0, 5210000, heads()))
dearest = {(tail, head): MAX_WEIGHT for tail in range(32) for head in range(32)}
write("dearest", card(32, 0, MAX_BUDGET, dearest))
presses = [link(2, 1, FREE), old_budget(20), group(0, {1: FREE, 3: FREE})]
write("presses", history_card(4, 0, 16, Q, {(2, 1): PINNED, (0, 1): BANNED, (0, 3): BANNED}, presses))
presses = [link(0, 1, FREE), old_budget(20), link(0, 1, BANNED), link(0, 1, FREE)]
presses += [group(0, {2: FREE, 3: FREE}), link(0, 3, BANNED), link(0, 2, BANNED)]
marks = {(0, 1): BANNED, (2, 3): BANNED, (0, 3): PINNED, (1, 2): PINNED}
write("recorded", history_card(4, 0, 16, Q, marks, presses))
presses = [group(0, dict.fromkeys(range(1, 32), mark)) for mark in (FREE, BANNED)] * 100
write("longest", history_card(32, 0, MAX_BUDGET, dearest, {}, presses))

write("q", prices(Q, sorted(Q)), ".prices")
write("q-any-order", prices(Q, sorted(Q, key=lambda arc: (arc[1], -arc[0]))), ".prices")
write("own", prices(OWN, sorted(OWN)), ".prices")
write("own.merged", prices(MERGED, sorted(MERGED)), ".prices")
write("hall", prices(hall(), sorted(hall())), ".prices")
