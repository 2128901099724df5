"""Draws tables, choices and certificates on them, alters the certificates, and compares what two checkers say of each.

The certificates are the program's own: of five items, of demand and of welfare, on tables with levels and without, and on
random choices. An alteration changes a number, a list, a member, the order of items or the spelling of the JSON, or a byte,
a field or a line of a table, of budgets or of choices.
"""
import json
import random
import subprocess
import tempfile
from concurrent.futures import ThreadPoolExecutor

NAMES = "abcd"
# How many certificates are altered of one drawn input, and how many inputs are tried at once.
EACH, WORKERS = 8, 3


def lines(records):
    return "".join(",".join(map(str, it)) + "\n" for it in records)


def amount(draw, least, places):
    text = str(draw.randint(least, 9))
    return text if draw.random() < 0.8 or not places else f"{text}.{draw.randint(0, 10**places - 1):0{places}}"


def table(draw, goods, records, levels):
    """A table whose quantities are drawn freely, or as what a share of each good buys, so that many meet the axioms."""
    places, share = draw.choice([0, 0, 1, 2]), draw.random() < 0.5
    named = [f"{kind}_{it}" for it in NAMES[:goods] for kind in "pq"] + ["e"] * levels
    rows = []
    for _ in range(records):
        prices = [amount(draw, 1, places) for _ in range(goods)]
        if share:
            income = draw.randint(20, 60)
            bundle = [max(1, round(income / goods / float(p))) for p in prices]
        else:
            bundle = [amount(draw, 0, places) for _ in range(goods)]
        if not any(float(it) for it in bundle):
            bundle[0] = 1
        level = [draw.choice([1000, 999, 950, 900, 800, 500, draw.randint(1, 1000)])] * levels
        rows.append([it for pair in zip(prices, bundle) for it in pair] + level)
    return lines([named, *rows])


def new_prices(draw, goods, with_expenditure):
    named = [f"p_{it}" for it in NAMES[:goods]] + ["m"] * with_expenditure
    records = range(draw.randint(1, 2))
    rows = [[draw.randint(1, 9) for _ in range(goods)] + [draw.randint(1, 60)] * with_expenditure for _ in records]
    return lines([named, *rows])


def choices(draw):
    goods, budgets = draw.randint(2, 3), draw.randint(1, 4)
    prices = [[draw.randint(1, 5) for _ in range(goods)] + [draw.randint(4, 12)] for _ in range(budgets)]
    chosen = []
    for budget in range(budgets):
        for _ in range(draw.randint(1, 4)):
            bundle = [draw.randint(0, 4) for _ in range(goods)]
            if not any(bundle):
                bundle[-1] = 1
            chosen.append([budget + 1, *bundle, draw.randint(1, 3)])
    return (
        lines([[f"p_{it}" for it in NAMES[:goods]] + ["w"], *prices]),
        lines([["budget"] + [f"q_{it}" for it in NAMES[:goods]] + ["n"], *chosen]),
    )


# ---- alterations


def places(value, at=()):
    """The places of a JSON value, each with what stands there."""
    yield at, value
    if isinstance(value, dict):
        for name, it in value.items():
            yield from places(it, (*at, name))
    elif isinstance(value, list):
        for number, it in enumerate(value):
            yield from places(it, (*at, number))


def put(value, at, new):
    for step in at[:-1]:
        value = value[step]
    value[at[-1]] = new


def other_number(draw, value):
    if isinstance(value, (int, float)):
        most = draw.choice([2**32 - 1, 2**32, 2**64 - 1, 2**64, 1.0, -1, str(value)])
        return draw.choice([value + 1, value + 1, max(0, value - 1), max(0, value - 1), 0, 1, 2, most])
    num, slash, den = value.partition("/")
    if not num.lstrip("-").isdigit():
        return draw.choice(["", "table", "random", "garp", value + " "])
    k = draw.choice([1, 1, 1, 2, 10])
    if slash and den.isdigit() and draw.random() < 0.5:
        return f"{num}/{max(0, int(den) + draw.choice([-k, k]))}"
    bits = draw.choice([60, 63, 64, 100, 120, 127])
    wild = draw.choice(["0", "-1", "-0", "01", f"{int(num) * 2}/2", str(2**bits), str(2**bits - 1), int(num)])
    near = str(int(num) + draw.choice([-k, k])) + slash + den
    return draw.choice([near, near, near, wild])


def other_list(draw, value):
    it, k = list(value), draw.randrange(len(value) + 1)
    how = draw.randrange(6)
    if how == 0 and it:
        del it[k - 1]
    elif how == 1 and it:
        it.insert(k, draw.choice(it))
    elif how == 2 and len(it) > 1:
        it[k - 1], it[k - 2] = it[k - 2], it[k - 1]
    elif how == 3:
        it.reverse()
    elif how == 4:
        it = it[:k]
    else:
        it = it + it[:1]
    return it


def other_members(draw, value):
    it = dict(value)
    name = draw.choice(list(it) or ["item"])
    if draw.random() < 0.5:
        it.pop(name, None)
    else:
        it[draw.choice(["withheld", "cycle", "ranks", "values", "at_cycle", "levels", "other"])] = it.get(name)
    return it


SPELLINGS = [
    lambda it: it.replace(",", " ,\t", 1),
    lambda it: it.replace('"item"', '"\\u0069tem"'),
    lambda it: it.replace("[1", "[-0", 1),
    lambda it: it.replace("[1", "[1.0", 1),
    lambda it: it.replace("[1", "[1e0", 1),
    lambda it: it.replace("[1", "[01", 1),
    lambda it: it.replace("]", ",]", 1),
    lambda it: it.replace("{", "{/* */", 1),
    lambda it: it.replace('"version":1', '"version":2'),
    lambda it: it.replace('"version":1', '"version":3'),
    lambda it: it.replace('"version":1', "version:1"),
    lambda it: it.replace('"version":1', '"version":NaN'),
    lambda it: it.replace('"version":1', '"version":true,"version":1'),
    lambda it: it.replace('"version":1', '"version":1,"version":null'),
    lambda it: it.replace('"kind"', '"kind\x01"'),
    lambda it: it.replace('"table"', '"t\\ud800ble"'),
    lambda it: "\ufeff" + it,
    lambda it: it[:-3],
    lambda it: it + "{}",
    lambda it: it + "\n\n ",
    lambda it: "",
    lambda it: "[" * 200,
    lambda it: it.replace("[]", "[" * 130 + "]" * 130, 1),
    lambda it: it.replace('"levels":[', '"levels":[1000,', 1),
    lambda it: it.replace('"levels":[', '"levels":[0', 1),
]


def altered(draw, text):
    """Another text: one or two changes of the value, or one of its spelling."""
    if draw.random() < 0.1:
        return draw.choice(SPELLINGS)(text)
    value = json.loads(text)
    for _ in range(draw.choice([1, 1, 1, 2])):
        found = [it for it in places(value) if it[0]]
        # Numbers are more often changed than what holds them.
        numbers = [it for it in found if not isinstance(it[1], (dict, list))]
        at, old = draw.choice(numbers if numbers and draw.random() < 0.6 else found)
        if isinstance(old, dict):
            new = other_members(draw, old)
        elif isinstance(old, list):
            new = other_list(draw, old)
        elif old is None:
            new = 0
        else:
            new = other_number(draw, old)
        put(value, at, new)
    return json.dumps(value, separators=(",", ":"))


def altered_file(draw, text):
    """Another file of numbers, by one to three changes of its bytes or lines."""
    for _ in range(draw.choice([1, 1, 2, 3])):
        k, how = draw.randrange(len(text) + 1), draw.randrange(6)
        rows = text.split("\n")
        row = draw.randrange(len(rows))
        if how == 0:
            text = text[:k] + draw.choice(['"', ",", ".", "0", "1", "9", " ", "\t", "\n", "\r", "\r\n", "-", "e", "é"]) + text[k:]
        elif how == 1:
            text = text[:k] + text[k + 1 :]
        elif how == 2:
            text = "\n".join([*rows[:row], rows[row], *rows[row:]])
        elif how == 3:
            text = "\n".join(rows[:row] + rows[row + 1 :])
        elif how == 4:
            fields = rows[row].split(",")
            at = draw.randrange(len(fields))
            wild = ['"' + fields[at] + '"', "0", "", "1.1234567", "10000000", "99999.999", "0.10", "1000", "obs", "e", "w", "q_a"]
            fields[at] = draw.choice(wild)
            text = "\n".join([*rows[:row], ",".join(fields), *rows[row + 1 :]])
        else:
            whole = [text.replace("\n", "\r\n"), text.replace(",", " ,"), text + "\n\n", "\ufeff" + text, text.rstrip("\n")]
            text = draw.choice(whole)
    return text


# ---- what is compared


def ran(words, folder):
    it = subprocess.run(words, cwd=folder, capture_output=True, check=False)
    said = it.stderr.decode(errors="replace").removeprefix("rp-second: ").removeprefix("rp: ")
    return it.returncode, it.stdout.decode(errors="replace"), said


class Input:
    """Files that are drawn, the words by which the program makes certificates of them, and those by which it checks."""

    def __init__(self, draw, number):
        self.draw, self.random = draw, number % 5 == 4
        self.files = {}
        if self.random:
            self.files["b.csv"], self.files["c.csv"] = choices(draw)
            per = ["--per", str(draw.choice([1, 2, 6, 12]))] if draw.random() < 0.5 else []
            self.made = [["random", "b.csv", "c.csv", *per, "--json"]]
            self.first, self.second = ["checkrandom", "b.csv", "c.csv"], ["b.csv", "c.csv"]
            self.end = per
        else:
            goods, levels = draw.randint(1, 4), int(number % 5 == 3)
            self.files["t.csv"] = table(draw, goods, draw.randint(1, 6), levels)
            self.files["d.csv"], self.files["w.csv"] = new_prices(draw, goods, 1), new_prices(draw, goods, 0)
            self.made = [["certify", "t.csv"]]
            if not levels:
                self.made += [["demand", "t.csv", "d.csv", "--json"], ["welfare", "t.csv", "w.csv", "--json"]]
            self.first, self.second, self.end = ["check", "t.csv"], ["t.csv"], []

    def compare(self, rp, second, alterations):
        """Yields whether a certificate was altered, what both said of it where they differ, and whether it was accepted."""
        with tempfile.TemporaryDirectory() as folder:
            for name, text in self.files.items():
                with open(f"{folder}/{name}", "w", encoding="utf-8") as it:
                    it.write(text)
            texts = []
            for words in self.made:
                status, out, _ = ran([rp, *words], folder)
                if status == 0:
                    texts.append((False, out))
            whole = [text for _, text in texts]
            if len(whole) > 1:
                first, later = json.loads(whole[0]), json.loads(self.draw.choice(whole[1:]))
                first["items"] += later["items"]
                texts.append((False, json.dumps(first)))
            texts += [(True, altered(self.draw, self.draw.choice(whole))) for _ in range(alterations if whole else 0)]
            original = dict(self.files)
            texts += [(None, whole[0]) for _ in range(2 if whole else 0)]
            for changed, text in texts:
                if changed is None:
                    name = self.draw.choice([it for it in self.second])
                    self.files = {**original, name: altered_file(self.draw, original[name])}
                    with open(f"{folder}/{name}", "w", encoding="utf-8", newline="") as it:
                        it.write(self.files[name])
                with open(f"{folder}/cert.json", "w", encoding="utf-8", errors="surrogatepass") as it:
                    it.write(text)
                one = ran([rp, *self.first, "cert.json", *self.end], folder)
                other = ran([second, *self.second, "cert.json", *self.end], folder)
                differ = None if one == other else {"files": self.files, "cert": text, "rp": one, "second": other}
                yield changed is not False, one[0] == 0, differ
                if changed is None:
                    with open(f"{folder}/{name}", "w", encoding="utf-8") as it:
                        it.write(original[name])
                    self.files = original


def agreement(seed, rp, second, wanted, wanted_altered):
    """Compares at least so many drawn and altered certificates; returns both counts, how many were accepted, and differences."""
    counts, accepted, differences, number = [0, 0], [0, 0], [], 0
    with ThreadPoolExecutor(WORKERS) as pool:
        while counts[0] < wanted or counts[1] < wanted_altered:
            inputs = [Input(random.Random(f"{seed} {number + k}"), number + k) for k in range(4 * WORKERS)]
            number += len(inputs)
            for found in pool.map(lambda it: list(it.compare(rp, second, EACH)), inputs):
                for changed, was_accepted, differ in found:
                    counts[changed] += 1
                    accepted[changed] += was_accepted
                    if differ:
                        differences.append(differ)
    return counts, accepted, differences
