#!/usr/bin/env python3
"""Writes subjects.csv beside this file: the simulated experiment of docs/tutorials, in the design of Choi, Fisman, Gale and Kariv (2007).

Twenty subjects choose on 25 budget lines over two accounts. A line is stored by its two intercepts, between 10 and 100 tokens, one
of them 50 or more. The choice is rounded down to two decimal places. Subjects maximize a utility of constant elasticity of
substitution and miss their choice by errors of three sizes; the last three choose at random. Subject 4 has no round 13, and
subject 9 leaves a tenth of the tokens over.
"""
import csv
import math
import os
import random
import sys


def down(amount):
    """Returns an amount rounded down to two decimal places."""
    return f"{math.floor(100 * amount) / 100:.2f}"


def main():
    draw = random.Random("tutorial")
    rows = [["subject", "round", "x_max", "y_max", "x", "y"]]
    for subject in range(1, 21):
        weight, power = draw.uniform(0.35, 0.65), draw.uniform(-1.0, 0.6)
        error = (0.0, 0.05, 0.15)[subject % 3]
        for number in range(1, 26):
            x_max, y_max = 0, 0
            while max(x_max, y_max) < 50:
                x_max, y_max = draw.randint(100, 1000) / 10, draw.randint(100, 1000) / 10
            ratio = (weight / (1 - weight) * x_max / y_max) ** (1 / (1 - power))
            share = ratio * y_max / (ratio * y_max + x_max)
            share = draw.random() if subject > 17 else min(1.0, max(0.0, share + draw.gauss(0, error)))
            spent = 0.9 if subject == 9 else 1
            x, y = down(spent * share * x_max), down(spent * (1 - share) * y_max)
            if (subject, number) != (4, 13):
                rows.append([subject, number, x_max, y_max, x, y])
    with open(os.path.join(os.path.dirname(os.path.abspath(__file__)), "subjects.csv"), "w", newline="", encoding="utf-8") as it:
        csv.writer(it, lineterminator="\n").writerows(rows)


if __name__ == "__main__":
    if {"-h", "--help"} & {*sys.argv[1:]}:
        sys.exit(print(__doc__.strip()))
    main()
