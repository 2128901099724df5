#!/usr/bin/env python3
"""Compares the answers by plain whole numbers with the program's, on tables that are drawn by a fixed seed.

usage: plain_agreement.py PROGRAM [COUNT [FIRST]]
       plain_agreement.py --times

Of COUNT (10,000) tables from number FIRST (0) on each answer of the program has to be that of `revealed.plain`: verdicts, the index, Afriat's numbers,
the least products and sums, ranks, bounds of demand and of welfare. Where the program withholds one, `verify` looks at the other.
With --times it tells how long `revealed.plain` takes on consistent tables of 50 rounds of 2 goods and of 256 of 8.
"""
from __future__ import annotations

import os
import random
import sys
import time
from multiprocessing import Pool

HERE = os.path.dirname(os.path.realpath(__file__))
sys.path.insert(0, os.path.dirname(HERE))
import revealed  # noqa: E402
from revealed import plain  # noqa: E402

SEED = "plain"
CERTIFY = ("garp", "afriat", "efficiency", "homothetic", "quasilinear")


def drawn(choice):
    """Returns a table: small numbers, in which ties are common; or numbers of more digits of a consumer with a utility."""
    rows, goods = choice.randint(1, 7), choice.randint(1, 4)
    if choice.random() < 0.5:
        prices = [[choice.randint(1, 6) for _ in range(goods)] for _ in range(rows)]
        quantities = [[choice.choice([0, 0, 1, 2, 3, 4, 5]) for _ in range(goods)] for _ in range(rows)]
    else:
        top = 10 ** choice.randint(2, 6)
        rows = choice.randint(1, 20)
        shares = [choice.uniform(0.5, 1) for _ in range(goods)]
        prices = [[choice.randint(top // 10, top - 1) for _ in range(goods)] for _ in range(rows)]
        money = [choice.uniform(0.5, 1) * top * 50 for _ in range(rows)]
        quantities = [[int(share * own / price * choice.uniform(0.97, 1)) for share, price in zip(shares, row)] for row, own in zip(prices, money)]
    for bundle in quantities:
        bundle[choice.randrange(goods)] += 1
    levels = [choice.choice([1000, 1000, 950, 800, choice.randint(1, 1000)]) for _ in range(rows)] if choice.random() < 0.2 else None
    return prices, quantities, levels


def case(number):
    """Returns how the two differ on a table, and how many answers the program withheld."""
    choice = random.Random(f"{SEED} {number}")
    prices, quantities, levels = drawn(choice)
    wrong, withheld = [], 0
    own, other = revealed.analyse(prices, quantities, levels=levels, wide=False), plain.analyse(prices, quantities, levels=levels)
    for first, second in zip(own.certificate.items, other.certificate.items):
        if "withheld" in first:
            withheld += 1
        elif "cycle" in first or "cycle" in second:
            wrong += [f"{first} {second}"] if ("cycle" in first) != ("cycle" in second) else []
        elif {**first, "at_cycle": 0, "above": 0} != {**second, "at_cycle": 0, "above": 0}:
            wrong.append(f"{first} {second}")
    found = revealed.verify(other)
    wrong += [] if found.accepted and not found.withheld else [repr(found)]
    if levels is None and own.garp:
        more, kept_back = bounds(choice, prices, quantities)
        wrong, withheld = wrong + more, withheld + kept_back
    return [f"{prices} {quantities} {levels}: {it}" for it in wrong], withheld


def bounds(choice, prices, quantities):
    """Returns how the two differ on bounds at one new budget."""
    goods, (wrong, withheld) = len(prices[0]), ([], 0)
    new = [choice.choice(prices)[it] + choice.randint(0, 3) for it in range(goods)]
    spent = max(1, sum(map(int.__mul__, new, choice.choice(quantities))) + choice.randint(-2, 2))
    for name in ("demand", "welfare"):
        asked = (prices, quantities, new, spent) if name == "demand" else (prices, quantities, new)
        own, other = getattr(revealed, name)(*asked, wide=False), getattr(plain, name)(*asked)
        for first, second in zip(own.certificate.items, other.certificate.items):
            pairs = [(a[side], b[side]) for a, b in zip(first.get("goods", []), second.get("goods", [])) for side in ("lower", "upper")]
            pairs += [(first["lower"], second["lower"])] if name == "welfare" and "lower" in first else []
            withheld += sum("withheld" in a for a, _ in pairs)
            wrong += [f"{name} {a} {b}" for a, b in pairs if "withheld" not in a and a["value"] != b["value"]]
            rest = [{key: value for key, value in item.items() if key not in ("goods", "lower")} for item in (first, second)]
            wrong += [f"{name} {rest}"] if rest[0] != rest[1] else []
        found = revealed.verify(other)
        wrong += [] if found.accepted and not found.withheld else [f"{name} {found!r}"]
    return wrong, withheld


def times():
    """Tells how long the answers take on consistent tables, and `verify` after them."""
    for rows, goods in ((50, 2), (256, 8)):
        draw = random.Random(f"{SEED} {rows}")
        shares = [draw.uniform(0.5, 1) for _ in range(goods)]
        prices = [[draw.randint(100, 999) for _ in range(goods)] for _ in range(rows)]
        money = [draw.uniform(0.3, 1) * 10**6 for _ in range(rows)]
        quantities = [[max(1, round(share * own / price)) for share, price in zip(shares, row)] for row, own in zip(prices, money)]
        new = [draw.randint(100, 999) for _ in range(goods)]
        asked = {
            "analyse": lambda: plain.analyse(prices, quantities),
            "demand": lambda: plain.demand(prices, quantities, new, 500_000),
            "welfare": lambda: plain.welfare(prices, quantities, new),
        }
        for name, call in asked.items():
            began = time.process_time()
            found = call()
            middle = time.process_time()
            good = bool(revealed.verify(found))
            ended = time.process_time()
            verdicts = f", garp {found.garp}" + (f", homothetic {found.homothetic}" if name == "analyse" else "")
            print(f"{rows} x {goods} {name}: {middle - began:.2f} s, verify {ended - middle:.2f} s{verdicts}, accepted {good}", flush=True)


def main(words):
    if words == ["--times"]:
        times()
        return 0
    os.environ["RP_EXEC"] = os.path.abspath(words[0])
    count, first = (int(words[place]) if len(words) > place else other for place, other in ((1, 10_000), (2, 0)))
    processors = len(os.sched_getaffinity(0)) if hasattr(os, "sched_getaffinity") else os.cpu_count()
    with Pool(processors) as pool:
        found = pool.map(case, range(first, first + count), chunksize=16)
    wrong = [it for differences, _ in found for it in differences]
    for it in wrong[:5]:
        print(it)
    print(f"plain whole numbers and the program: {count} tables, {sum(kept for _, kept in found)} answers withheld by the program, {len(wrong)} differ")
    return 1 if wrong else 0


if __name__ == "__main__":
    sys.exit(main(sys.argv[1:]))
