#!/usr/bin/env python3
"""Writes the block of the placer examples beside this script: arcs.txt, delays.txt, bounds.txt and false.txt.

Ten stages of 16 signals. Each arc is a cell, from a signal to one of the next stage. Twelve times two selectors that always
choose the same way stand one behind the other, each with a late and an early way: the way that is late in both is the one
that no signal takes, and a false set names it."""
import pathlib
import random

STAGES, WIDTH, PAIRS = 10, 16, 12
LATE, END = 260, 1800

dice = random.Random(8)
arcs, delays, false_sets = [], [], []


def cell(start, end, delay):
    if (start, end) in arcs:
        return
    arcs.append((start, end))
    delays.append(delay)


def signal(stage, place):
    return stage * WIDTH + place


# the selectors first, so that no other cell takes the place of their ways
for pair in range(PAIRS):
    stage = pair % (STAGES - 2)
    before, first, second = (signal(stage + i, dice.randrange(WIDTH)) for i in range(3))
    cell(before, first, LATE)
    cell(signal(stage, dice.randrange(WIDTH)), first, 40)
    cell(first, second, LATE)
    cell(signal(stage + 1, dice.randrange(WIDTH)), second, 40)
    false_sets.append((pair, before, second))

# each signal is made from two or three of the stage before, and used in the stage behind
for stage in range(1, STAGES):
    for place in range(WIDTH):
        for other in [place] + dice.sample(range(WIDTH), dice.choice([1, 2])):
            cell(signal(stage - 1, other), signal(stage, place), dice.randrange(20, 70))


def write(name, columns, lines):
    text = "".join(",".join(map(str, line)) + "\n" for line in [columns, *lines, ("end", len(lines))])
    (pathlib.Path(__file__).parent / name).write_text(text)


write("arcs.txt", ("from", "to"), arcs)
write("delays.txt", ("arc", "ticks"), list(enumerate(delays)))
starts = [(signal(0, i), "s", dice.randrange(30)) for i in range(WIDTH)]
ends = [(signal(STAGES - 1, i), "e", END) for i in range(WIDTH)]
write("bounds.txt", ("node", "side", "ticks"), starts + ends)
write("false.txt", ("set", "from", "to"), false_sets)
