#!/usr/bin/env python3
"""Makes the windows of the tests, the same ones each time. Run it in this folder, and then `../test record`."""
import random

GREATEST = 1073741823
BEYOND = [GREATEST + 1, -GREATEST - 1, 2**63 - 1, -(2**63), 2**62]


def ends(rng, size):
    """A range of counts within size; one in ten is a point."""
    low = rng.randint(-size, size)
    high = low if rng.random() < 0.1 else low + rng.randint(0, size)
    return [max(-GREATEST, low), min(GREATEST, high)]


def window(rng, channels):
    size = rng.choice([10, 5000, 100000, 1500000, 30000000, GREATEST])
    counts = [end for _ in range(channels) for end in ends(rng, size)]
    fault = rng.random()
    if fault < 0.04:
        counts[rng.randrange(len(counts))] = rng.choice(BEYOND)
    elif fault < 0.08:
        counts[0], counts[1] = counts[1] + 1, counts[0]
    elif fault < 0.12:
        counts[-2], counts[-1] = counts[-1] + 1, counts[-2]
    elif fault < 0.15:
        counts.pop()
    elif fault < 0.18:
        counts = counts[:2]
    elif fault < 0.20:
        counts = counts * 9
    elif fault < 0.22:
        counts = []
    elif fault < 0.25:
        counts = [-GREATEST, GREATEST] * channels
    return " ".join(str(count) for count in counts)


EDGES = [
    "\t+1   0007\t-000 1  ",
    "",
    "   ",
    "9223372036854775807 -9223372036854775808 0 0",
    "-9223372036854775808 9223372036854775807 0 0",
    "0 0",
    "-3 0 65536 65536 1 2",
    "-1073741823 -1073741823 1073741823 1073741823 0 0",
    "65536 65537 65536 65537 65536 65537 65536 65537 65536 65537 65536 65537 65536 65537 65536 65537",
    "1 2 1 2 1 2 1 2 1 2 1 2 1 2 1 2 1 2",
    "1 2 1 2 1 2 1 2 1 2 1 2 1 2 1 2 1",
    "65536 131072 -65536 65536 0 196608",
]


def write(name, lines):
    with open(name + ".windows", "w", encoding="ascii") as out:
        out.write("".join(line + "\n" for line in lines))


for name, channels, count in [("tilt", 2, 280), ("ratio", 2, 240), ("every", 3, 240), ("eight", 8, 120)]:
    rng = random.Random(name)
    write(name, EDGES + [window(rng, channels) for _ in range(count)])
write("few", EDGES)
