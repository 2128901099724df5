#!/usr/bin/env python3
"""Altered certificates on goodness of fit: what the second checker accepts is true, by looking at all there is.

usage: altered_fit.py [COUNT] [--seed TEXT] [--with PROGRAM]

Draws small tables (up to five observations), makes a true certificate of each by `fit_by_search`, which the checker has to accept,
and alters it in one way, eight times: numbers, lists, members, items of another table, and changes that may leave it true. Each
item of an accepted certificate has to be true by `fit_by_search`. Tells how many were accepted, and what was rejected why. With a
program that has `checkfit`, that has to say the same of each. Where it has `fit` too, its own certificates are altered as well.
"""
from __future__ import annotations

import argparse
import collections
import copy
import json
import os
import random
import subprocess
import sys
import tempfile

HERE = os.path.dirname(os.path.realpath(__file__))
sys.path[:0] = [HERE, os.path.dirname(HERE)]
import fit_by_search as search  # noqa: E402
from revealed.verifier import NoCertificate, verify_fit  # noqa: E402

COUNT, EACH, SEED = 5000, 8, "altered fit"
MOST_STEPS = 11
WIDE = [2**32 - 1, 2**32, 2**40, 2**51, 2**60, 2**60 + 1, 2**64 - 1, 2**64, 2**120, 2**120 + 1, 2**121, 2**127, 2**128]


# ---- tables


def drawn(choice):
    """Returns the bytes of a small table, and the table; few steps are on closed walks, so that all sets of them can be tried."""
    while True:
        count, goods, most = choice.randint(1, 5), choice.randint(1, 3), choice.choice([2, 4, 9])
        prices = [[choice.randint(1, most) for _ in range(goods)] for _ in range(count)]
        bundles = [[choice.randint(0, most) for _ in range(goods)] for _ in range(count)]
        if count > 1 and choice.random() < 0.2:
            bundles[0] = bundles[-1]
        if not all(map(any, bundles)):
            continue
        table = search.Table(prices, bundles)
        strict = search.strict_at(table, search.ones(table))
        reached = search.closure(table, strict)
        if sum((t, s) in reached for s, t in strict) <= MOST_STEPS:
            return csv(prices, bundles), table


def csv(prices, bundles):
    names = [f"{side}_{good}" for side in "pq" for good in range(len(prices[0]))]
    rows = [names, *(p + q for p, q in zip(prices, bundles))]
    return "".join(",".join(map(str, row)) + "\n" for row in rows).encode()


# ---- true items


def ids(places):
    return [s + 1 for s in places]


def ranks_of(table, steps):
    """Returns ranks that fall along steps without a closed walk: how many observations each leads to.

    Where there are closed walks, and a step from each to itself, the ranks rise along no step and fall along each that is on none."""
    reached = search.closure(table, steps)
    return [1 + sum((s, t) in reached for t in table.all) for s in table.all]


def efficiency_item(table):
    level, attained = table.once(search.efficiency)
    levels = [level] * len(table.all)
    weak, strict = search.weak_at(table, levels), search.strict_at(table, levels)
    item = {"item": "efficiency", "level": str(level), "below": ranks_of(table, strict), "above": []}
    if level < 1:
        item["above"] = ids(next(walk for walk in search.cycles(table) if set(search.joined(walk)) <= weak and len(walk) > 2))
    if attained:
        return {**item, "at_ranks": ranks_of(table, weak | {(s, s) for s in table.all})}
    return {**item, "at_cycle": ids(violation(table, weak, strict))}


def violation(table, weak, strict):
    return next(walk for walk in search.cycles(table) if set(search.joined(walk)) <= weak and set(search.joined(walk)) & strict)


def kept_item(table, choice):
    weak, strict = search.weak_at(table, search.ones(table)), search.strict_at(table, search.ones(table))
    kept, den = table.once(search.largest), choice.choice([1, 1, 2, 3])
    within = ranks_of(table, {it for it in weak if set(it) <= set(kept)} | {(s, s) for s in kept})
    contradict = {(s, t) for s, t in weak if (t, s) in strict} | {(s, t) for s, t in strict if (t, s) in weak}
    pool = [("pairs", [s]) for s in table.all]
    pool += [("pairs", [s, t]) for s, t in contradict if s < t]
    pool += [
        ("pairs", list(it)) for it in search.itertools.combinations(table.all, 3) if all(two in contradict for two in search.itertools.combinations(it, 2))
    ]
    pool += [("cycle", walk) for walk in search.cycles(table) if set(search.joined(walk)) <= weak and set(search.joined(walk)) & strict]
    groups = []
    lacking = {s: den for s in table.all}
    while any(lacking.values()):
        covered = lambda it: sum(lacking[s] > 0 for s in set(it[1]))
        best = max(covered(it) / allowed(it) for it in pool)
        kind, listed = choice.choice([it for it in pool if covered(it) and covered(it) / allowed(it) >= best * choice.choice([1, 1, 0.8])])
        weight = choice.randint(1, max(lacking[s] for s in listed))
        groups.append({kind: ids(listed), "weight": str(weight)})
        lacking.update({s: max(0, lacking[s] - weight) for s in set(listed)})
    total = sum(int(it["weight"]) * allowed(next((k, v) for k, v in it.items() if k != "weight")) for it in groups)
    item = {"item": "kept", "kept": ids(kept), "ranks": [within[s] for s in kept]}
    return {**item, "den": str(den), "groups": groups, "most": str(total // den)}


def allowed(group):
    return 1 if group[0] == "pairs" else len(group[1]) - 2


def packed(table, choice, den, slack, loaded):
    """Returns closed walks of strict steps with weights that load nothing more than it may; `loaded` says what a step loads."""
    strict = search.strict_at(table, search.ones(table))
    found = []
    walks = [walk for walk in search.cycles(table) if set(search.joined(walk)) <= strict]
    choice.shuffle(walks)
    left = {key: den * value for key, value in slack.items()}
    for walk in sorted(walks, key=len):
        keys = [key for step in search.joined(walk) for key in loaded(step)]
        weight = min(left[key] for key in keys)
        if weight > 0:
            found.append({"cycle": ids(walk), "weight": str(weight)})
            for key in keys:
                left[key] -= weight
    return found


def levels_item(table, choice, measure):
    power, den = {"mean": 1, "squares": 2}[measure], choice.choice([1, 1, 2, 16])
    strict = search.strict_at(table, search.ones(table))
    at = table.once(search.best_levels, power)
    slack = {(s, t): search.UNIT * search.saved(table, (s, t)) ** power // table.costs[s][s] ** power for s, t in strict}
    loaded = lambda step: [(s, t) for s, t in strict if s == step[0] and table.costs[s][t] <= table.costs[s][step[1]]]
    below = {(s, t) for s in table.all for t in table.all if table.costs[s][t] < table.costs[s][at[s]]}
    places = [0 if t == s else t + 1 for s, t in enumerate(at)]
    item = {"item": "levels", "measure": measure, "at": places, "ranks": ranks_of(table, below)}
    return {**item, "den": str(den), "cycles": packed(table, choice, den, slack, loaded)}


def steps_item(table, choice):
    den, taken = choice.choice([1, 1, 2, 3]), table.once(search.best_steps)
    strict = search.strict_at(table, search.ones(table))
    slack = {it: search.saved(table, it) for it in strict}
    rows = [sorted(t + 1 for u, t in taken if u == s) for s in table.all]
    item = {"item": "steps", "taken": rows, "cost": str(sum(search.saved(table, it) for it in taken))}
    ranks = ranks_of(table, strict - set(taken))
    return {**item, "ranks": ranks, "den": str(den), "cycles": packed(table, choice, den, slack, lambda step: [step])}


def potentials(table, steps, weight):
    """Returns values with none above that of s and the weight of a step from s."""
    values = [0 for _ in table.all]
    for _ in table.all:
        for s, t in steps:
            values[t] = min(values[t], values[s] + weight(s, t))
    return values


def pump_item(table):
    walk = table.once(search.best_pump)
    ratio = search.pump_ratio(table, walk)
    weight = lambda s, t: ratio.numerator * table.costs[s][s] - ratio.denominator * search.saved(table, (s, t))
    values = potentials(table, [(s, t) for s, t in search.weak_at(table, search.ones(table)) if s != t], weight)
    return {"item": "pump", "num": str(ratio.numerator), "den": str(ratio.denominator), "cycle": ids(walk), "values": list(map(str, values))}


def quotient_item(table):
    walk = table.once(search.best_quotient)
    level = search.quotient(table, walk)
    weight = lambda s, t: level.denominator * table.costs[s][t] - level.numerator * table.costs[s][s]
    values = potentials(table, [(s, t) for s in table.all for t in table.all], weight)
    item = {"item": "quasilinear_level", "num": str(level.numerator), "den": str(level.denominator)}
    return {**item, "cycle": ids(walk), "values": list(map(str, values))}


def means_item(table):
    """Returns bounds that differ by little: the greatest `low` of every cycle, less 1, leaves room for values that are rounded."""
    least = search.UNIT
    for walk in search.cycles(table):
        while not search.mean_is_at_least(table, walk, least):
            least = down_to(lambda low, walk=walk: search.mean_is_at_least(table, walk, low), least)
    best = next(walk for high in (least, least + 1) for walk in search.cycles(table) if search.mean_is_at_most(table, walk, high))
    high = least if search.mean_is_at_most(table, best, least) else least + 1
    low, values = factors(table, least)
    return {"item": "homothetic_level", "low": str(low), "high": str(high), "cycle": ids(best), "values": list(map(str, values))}


def down_to(holds, most):
    """Returns the greatest number below that holds, by halving."""
    least = 0
    while most - least > 1:
        middle = (least + most) // 2
        least, most = (middle, most) if holds(middle) else (least, middle)
    return least


def factors(table, low):
    """Returns a lower bound and values that show it."""
    while True:
        values = [2**59 for _ in table.all]
        for _ in range(4 * len(values)):
            before = list(values)
            for s in table.all:
                for t in table.all:
                    values[t] = min(values[t], values[s] * table.costs[s][t] * search.UNIT // (low * table.costs[s][s]))
            if values == before:
                return low, values
        low -= 1


def certificate(table, choice):
    """Returns the items of a true certificate."""
    pairs = {name: str(count) for name, count in table.once(search.pairs).items()}
    return [
        {"item": "violations", **pairs},
        efficiency_item(table),
        kept_item(table, choice),
        levels_item(table, choice, "mean"),
        levels_item(table, choice, "squares"),
        steps_item(table, choice),
        pump_item(table),
        quotient_item(table),
        means_item(table),
    ]


# ---- alterations


def leaves(value, path=()):
    """Yields the paths of the numbers and lists of a value."""
    if isinstance(value, dict):
        for name in value:
            if name != "item":
                yield from leaves(value[name], (*path, name))
        return
    yield path
    if isinstance(value, list):
        for place, it in enumerate(value):
            yield from leaves(it, (*path, place))


def at(value, path):
    for step in path:
        value = value[step]
    return value


def put(value, path, new):
    at(value, path[:-1])[path[-1]] = new


def other_number(choice, value):
    """Returns a number or a fraction near another one, or a wide one, in the same spelling."""
    if isinstance(value, int):
        return choice.choice([value + 1, value - 1, value + 1, max(value - 1, 1), 0, 1, 2, choice.choice(WIDE), str(value)])
    num, slash, den = value.partition("/")
    if not num.lstrip("-").isdigit():
        return choice.choice(["mean", "squares", "", "1"])
    if slash:
        return choice.choice([f"{int(num) + 1}/{den}", f"{num}/{int(den) + 1}", f"{int(num) - 1}/{den}", "1", f"{2 * int(num)}/{2 * int(den)}"])
    near = [int(num) + 1, int(num) - 1, int(num) * 2, int(num) // 2, 0, 1, choice.choice(WIDE), -choice.choice(WIDE)]
    return choice.choice([*map(str, near), str(int(num) + 1), str(max(0, int(num) - 1)), f"0{num}", int(num)])


def other_list(choice, value):
    """Returns a list with an entry more or fewer, entries exchanged, or the whole turned."""
    found, place = list(value), choice.randrange(len(value) + 1)
    way = choice.randrange(5)
    if way == 0:
        return found[:place] + found[place + 1 :]
    if way == 1:
        return [*found[:place], *(found[-1:] or [1]), *found[place:]]
    if way == 2 and len(found) > 1:
        first, second = choice.sample(range(len(found)), 2)
        found[first], found[second] = found[second], found[first]
        return found
    return found[::-1] if way == 3 else found[1:] + found[:1]


def weakened(choice, item):
    """Changes an item so that it may say less and be as true, or by so little that it may be untrue only just."""
    kind = item["item"]
    if kind == "kept":
        weakened_kept(choice, item)
    elif kind in ("levels", "steps"):
        weakened_cycles(choice, item)
    elif kind in ("pump", "quasilinear_level"):
        weakened_ratio(choice, item)
    elif kind == "homothetic_level":
        name = choice.choice(["low", "high"])
        item[name] = str(max(0, int(item[name]) - choice.choice([-1, 1, 1000])))
    elif kind == "efficiency":
        item["below"] = [it + 1 for it in item["below"]]


def weakened_kept(choice, item):
    way = choice.randrange(4)
    if way == 3:
        group = choice.choice(item["groups"])
        group["weight"] = str(max(1, int(group["weight"]) - 1))
    elif way == 0 and item["kept"]:
        place = choice.randrange(len(item["kept"]))
        del item["kept"][place], item["ranks"][place]
    elif way == 1:
        item["den"] = str(int(item["den"]) * 2)
        for group in item["groups"]:
            group["weight"] = str(int(group["weight"]) * 2)
    else:
        item["groups"] = choice.sample(item["groups"], len(item["groups"]))


def turned(walk):
    """Returns a closed walk from its second observation on."""
    return [*walk[1:], walk[1]]


def weakened_cycles(choice, item):
    if not item["cycles"]:
        return
    place, way = choice.randrange(len(item["cycles"])), choice.randrange(4)
    each = item["cycles"][place]
    if way == 0:
        del item["cycles"][place]
    elif way == 1:
        each["cycle"] = turned(each["cycle"])
    elif way == 2:
        each["weight"] = str(int(each["weight"]) + 1)
    else:
        each["weight"] = str(max(1, int(each["weight"]) // 2))


def weakened_ratio(choice, item):
    more, times = choice.choice([1, -3, 2**100]), choice.choice([2, 3])
    if choice.random() < 0.5:
        item["values"] = [str(int(it) + more) for it in item["values"]]
    else:
        item.update({name: str(int(item[name]) * times) for name in ("num", "den")}, values=[str(int(it) * times) for it in item["values"]])
    if choice.random() < 0.5:
        item["cycle"] = turned(item["cycle"])


def altered(choice, items, another):
    """Returns the items altered in one way."""
    for _ in range(50):
        found = copy.deepcopy(items)
        place, way = choice.randrange(len(found)), choice.random()
        item = found[place]
        if way < 0.25:
            weakened(choice, item)
        elif way < 0.8:
            path = choice.choice(list(leaves(item)))
            value = at(item, path)
            put(item, path, other_list(choice, value) if isinstance(value, list) else other_number(choice, value))
        elif way < 0.9:
            found[place] = next(it for it in another if it["item"] == item["item"])
        elif way < 0.97:
            found = other_list(choice, found)
        else:
            item[choice.choice(["extra", "cycle", "cycles", "ranks"])] = item.pop(choice.choice(sorted(item)))
        if found != items:
            return found
    return items


def spelled(items):
    return json.dumps({"items": items, "kind": "fit", "version": 1}).encode()


# ---- the comparison


def looked_at(file, items):
    """Returns what the second checker finds, or None where it reads no certificate."""
    try:
        return verify_fit(file, spelled(items))
    except NoCertificate:
        return None


def told(file, table, items):
    """Returns what the checker says of a certificate in a word or two, and what it accepts that is untrue."""
    found = looked_at(file, items)
    if found is None:
        return "no certificate", []
    if not found.accepted:
        return f"{found.rejected.kind} {found.rejected.failure[0]}", []
    return "accepted", [item for item in items if not search.is_true(table, item)]


class Program:
    """The program's own commands `fit` and `checkfit`, on files in a folder of their own."""

    def __init__(self, name, room):
        self.name, self.room = name, room

    def ran(self, *words):
        it = subprocess.run([self.name, *words], cwd=self.room, stdin=subprocess.DEVNULL, capture_output=True)
        return it.returncode, it.stdout, it.stderr

    def has(self, command):
        """Whether it has a command: called without files it prints its usage, which then names the command."""
        return bool(self.name) and os.access(self.name, os.X_OK) and f" {command} ".encode() in self.ran(command)[2]

    def written(self, file):
        """Returns the items of its certificate on a table, none where it makes no certificates, and what is wrong with that."""
        with open(f"{self.room}/t.csv", "wb") as it:
            it.write(file)
        if not self.has("fit"):
            return [], []
        status, out, err = self.ran("fit", "t.csv", "--json")
        return (json.loads(out)["items"], []) if status == 0 else ([], [f"fit ended with {status} on {file!r}: {err!r}"])

    def differs(self, file, items):
        """Returns how it says something else than the second checker does of a certificate on the table that was written last."""
        with open(f"{self.room}/z.json", "wb") as it:
            it.write(spelled(items))
        status, out, err = self.ran("checkfit", "t.csv", "z.json")
        found = looked_at(file, items)
        wanted = (4, b"") if found is None else (0 if found.accepted else 1, f"{found.line}\n".encode())
        return [] if (status, out) == wanted else [f"checkfit said {status} {out!r} {err!r}, and not {wanted}: {file!r} {spelled(items)!r}"]


def looked_through(choice, program, file, table, count, another):
    """Returns the items that were altered, what is said of each alteration, and what is wrong: of a true certificate by `fit_by_search`,
    of the program's own, and of so many that are altered from one of the two."""
    items = [certificate(table, choice)]
    wrong, said = [], []
    if program:
        own, wrong = program.written(file)
        items += [own] if own else []
    for it in items:
        line, untrue = told(file, table, it)
        wrong += [] if line == "accepted" and not untrue else [f"a true certificate: {line} {untrue} {file!r} {json.dumps(it)}"]
    others = [altered(choice, choice.choice(items), another or items[0]) for _ in range(count)]
    for other in others:
        line, untrue = told(file, table, other)
        said.append(line)
        wrong += [f"accepted and untrue: {item} {file!r}" for item in untrue]
    if program:
        wrong += [it for each in (*items, *others) for it in program.differs(file, each)]
    return items[0], said, wrong


def main():
    parser = argparse.ArgumentParser(description=__doc__, formatter_class=argparse.RawDescriptionHelpFormatter)
    parser.add_argument("count", type=int, nargs="?", default=COUNT)
    parser.add_argument("--seed", default=SEED)
    parser.add_argument("--with", dest="program", help="a program with the commands fit and checkfit")
    given = parser.parse_args()
    choice = random.Random(given.seed)
    said, wrong, tables, another = collections.Counter(), [], 0, None
    with tempfile.TemporaryDirectory() as room:
        program = Program(os.path.abspath(given.program), room) if given.program else None
        if program and not program.has("checkfit"):
            print("goodness of fit: the program has no command checkfit, so that the second checker is alone")
            program = None
        while sum(said.values()) < given.count:
            file, table = drawn(choice)
            another, more, found = looked_through(choice, program, file, table, min(EACH, given.count - sum(said.values())), another)
            said.update(more)
            wrong += found
            tables += 1
    for it in wrong[:5]:
        print(it)
    reasons = ", ".join(f"{line} {number}" for line, number in sorted(said.items()))
    beside = " beside the program" if program else ""
    print(f"goodness of fit{beside}: {tables} certificates that were made, {sum(said.values())} that were altered ({reasons}): {len(wrong)} wrong")
    return 1 if wrong else 0


if __name__ == "__main__":
    sys.exit(main())
