#!/usr/bin/env python3
"""Writes cross_section.csv beside this file: the simulated repeated cross-section of docs/howto/random-utility.md.

In each of four years 30 other persons buy food and other goods at the prices of the year. Each maximizes a utility of constant
elasticity of substitution of their own, and spends between 80 and 120. Quantities have three decimal places.
"""
import csv
import os
import random
import sys

PRICES = {2021: (2.0, 1.0), 2022: (1.5, 1.5), 2023: (1.0, 2.0), 2024: (1.8, 1.3)}


def main():
    draw = random.Random("cross-section")
    rows = [["year", "p_food", "p_other", "q_food", "q_other"]]
    for year, (food, other) in PRICES.items():
        for _ in range(30):
            weight, power, spent = draw.uniform(0.2, 0.8), draw.uniform(-1.0, 0.7), draw.uniform(80, 120)
            ratio = (weight / (1 - weight) * other / food) ** (1 / (1 - power))
            on_food = ratio * food / (ratio * food + other)
            rows.append([year, food, other, f"{spent * on_food / food:.3f}", f"{spent * (1 - on_food) / other:.3f}"])
    with open(os.path.join(os.path.dirname(os.path.abspath(__file__)), "cross_section.csv"), "w", newline="", encoding="utf-8") as it:
        csv.writer(it, lineterminator="\n").writerows(rows)


if __name__ == "__main__":
    if {"-h", "--help"} & {*sys.argv[1:]}:
        sys.exit(print(__doc__.strip()))
    main()
