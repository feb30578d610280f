#!/usr/bin/env python3
"""tests/make_day.py [SALES [FLIPS [SEED]]]: writes a day of a machine to standard output.

The day has eight hours: changer, validator and two readers are polled in turn, and so many customers
(1,000 if not said) pay with coins or by card. So many bits (none if not said) are flipped, one in
each equal part of the day, but none in the first minute. It makes some 1.4 million rows.
"""

import importlib.machinery
import importlib.util
import pathlib
import random
import sys

TOP = pathlib.Path(__file__).resolve().parent.parent
HOURS, MICROS = 8, 1_000_000
#: From the begin of one round of polls to the next.
ROUND = 252_000


def load():
    loader = importlib.machinery.SourceFileLoader("generate", str(TOP / "bench" / "generate"))
    made = importlib.util.module_from_spec(importlib.util.spec_from_loader("generate", loader))
    loader.exec_module(made)
    return made


def customer(generate, dice):
    """What is said of a customer, in steps with rounds of polls between them."""
    changer = generate.CHANGER
    if dice.randrange(3):
        return list(generate.Sale(dice.choice(generate.READERS)).sold())
    coins = [generate.told(generate.poll(changer), 0x50 + dice.randrange(3), 9) for _ in range(dice.randint(2, 5))]
    sale = [generate.taken(generate.READERS[0] + 3, 5, 0, 20, 0, dice.randrange(1, 40))]
    return coins + sale + [generate.taken(changer + 5, 0x10 + dice.randrange(3))] * dice.randrange(2)


def rows_of(sales, seed):
    """The rows of the day, each with its time."""
    generate, dice = load(), random.Random(seed)
    rounds, steps = generate.poll_all(), []
    begins = sorted(dice.randrange(60 * MICROS, HOURS * 3600 * MICROS) for _ in range(sales))
    time, made, next_one = 0, [], 0
    for gap, row in generate.set_up():
        time += gap
        made.append((time, row))
    while time < HOURS * 3600 * MICROS:
        begin = time
        if not steps and next_one < sales and begins[next_one] <= time:
            steps = customer(generate, dice)
            next_one += 1
        for gap, row in (steps.pop(0) if steps and dice.randrange(2) else []) + rounds:
            time += gap
            made.append((time, row))
        time = max(time, begin + ROUND)
    return made


def flipped(rows, flips, seed):
    """The same with flipped bits: the lines, and the numbers of their rows."""
    dice, lines, places = random.Random(f"flips {seed}"), [f"{time},{row}" for time, row in rows], []
    for part in range(flips):
        at = dice.randrange(max(3000, len(lines) * part // flips), len(lines) * (part + 1) // flips)
        time, line, value = lines[at].split(",")
        lines[at] = f"{time},{line},{int(value, 16) ^ 1 << dice.randrange(9):03X}"
        places.append(at + 1)
    return lines, places


def text(sales=1_000, flips=0, seed=1):
    return "\n".join(flipped(rows_of(sales, seed), flips, seed)[0]) + "\n"


if __name__ == "__main__":
    sys.stdout.write(text(*map(int, sys.argv[1:])))
