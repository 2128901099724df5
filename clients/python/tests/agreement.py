#!/usr/bin/env python3
"""Compares `revealed.verify` with the program's own checker, on certificates of random tables and on altered ones.

usage: agreement.py PROGRAM [COUNT]

COUNT (2,000) times it makes a table of small numbers or choices from budgets, by a fixed seed, has the program write a
certificate, and alters that in one way. Both checkers look at both. The program's has to accept exactly where `verify`
accepts without a remark; where it rejects, at the first item that `verify` rejects or remarks upon; and it has to refuse
exactly what `verify` takes for no certificate, or remarks upon for the type of a number.
"""
import glob
import json
import os
import random
import re
import subprocess
import sys
import tempfile
from fractions import Fraction
from multiprocessing import Pool

HERE = os.path.dirname(os.path.realpath(__file__))
sys.path.insert(0, os.path.dirname(HERE))
from revealed import NoCertificate  # noqa: E402
from revealed.verifier import verify_choices, verify_table  # noqa: E402

SEED = "certificates"
KINDS = ["certify"] * 11 + ["demand"] * 4 + ["welfare"] * 3 + ["random"] * 4
WIDE = [2**n + more for n in (32, 51, 60, 63, 64, 100, 120, 127) for more in (-1, 0, 1)]


# ---- inputs


def csv(rows):
    return "".join(",".join(map(str, row)) + "\n" for row in rows).encode()


def tenths(choice, number):
    """A number, or now and then a tenth of it."""
    return f"{number // 10}.{number % 10}" if choice.random() < 0.1 else str(number)


def table(choice):
    rows, goods = choice.randint(1, 5), choice.randint(1, 3)
    names = [f"{side}_{good}" for side in "pq" for good in range(goods)]
    records = []
    for _ in range(rows):
        bundle = [choice.choice([0, 0, 1, 2, 3, 4, 5]) for _ in range(goods)]
        bundle[choice.randrange(goods)] += 1
        records.append([*(tenths(choice, choice.randint(1, 6)) for _ in range(goods)), *(tenths(choice, it) for it in bundle)])
    if all(float(it) == 0 for it in records[0][goods:]):
        records[0][goods] = "1"
    return names, goods, records


def level(choice):
    """The level of an observation in thousandths: the whole, or one of those at which costs as small as these are often equal."""
    return choice.choice([1000, 1000, 999, 800, 750, 667, 500, choice.randint(1, 1000)])


def asked(choice, number):
    """Returns the words of a command and its files."""
    kind = KINDS[number % len(KINDS)]
    if kind == "random":
        goods, count = choice.randint(2, 3), choice.randint(1, 4)
        budgets = [[f"p_{good}" for good in range(goods)] + ["w"]]
        budgets += [[*(choice.randint(1, 4) for _ in range(goods)), choice.randint(4, 9)] for _ in range(count)]
        choices = [["budget", *(f"q_{good}" for good in range(goods)), "n"]]
        for budget in range(1, count + 1):
            for _ in range(choice.randint(1, 3)):
                bundle = [choice.randint(0, 3) for _ in range(goods)]
                bundle[choice.randrange(goods)] += 1
                choices.append([budget, *bundle, choice.randint(1, 4)])
        per = ["--per", str(choice.choice([1, 2, 3, 5, 7, 10]))] if choice.random() < 0.3 else []
        return ["random", "b.csv", "c.csv", "--json", *per], {"b.csv": csv(budgets), "c.csv": csv(choices)}, per
    names, goods, records = table(choice)
    if kind == "certify" and choice.random() < 0.3:
        names, records = [*names, "e"], [[*record, level(choice)] for record in records]
    files = {"t.csv": csv([names, *records])}
    if kind == "certify":
        return ["certify", "t.csv"], files, []
    header = [f"p_{good}" for good in range(goods)] + (["m"] if kind == "demand" else [])
    new = [[choice.randint(1, 6) for _ in range(goods)] + ([choice.randint(1, 30)] if kind == "demand" else [])]
    files["n.csv"] = csv([header, *new])
    return [kind, "t.csv", "n.csv", "--json"], files, []


# ---- what is altered


def leaves(value, path=()):
    """Yields the path of each number, as it stands or as a text, and of each list."""
    if isinstance(value, dict):
        for name, entry in value.items():
            if name != "item":
                yield from leaves(entry, (*path, name))
    elif isinstance(value, list):
        yield path, "list"
        for place, entry in enumerate(value):
            yield from leaves(entry, (*path, place))
    else:
        yield path, "number"


def at(value, path):
    for step in path:
        value = value[step]
    return value


def put(value, path, entry):
    at(value, path[:-1])[path[-1]] = entry


def other_number(choice, entry):
    """Returns another number in place of one, mostly a near one."""
    if isinstance(entry, int):
        return choice.choice([entry + 1, max(entry - 1, 0), 0, entry * 2, choice.choice(WIDE), str(entry)])
    number = Fraction(entry)
    near = [number + 1, number - 1, number * 2, -number, Fraction(0), Fraction(choice.choice(WIDE)), number / 2]
    near += [number + Fraction(1, 100), Fraction(-choice.choice(WIDE)), Fraction(choice.choice(WIDE), 3)]
    return choice.choice([*map(str, near), f"0{entry}", f"{entry}/2"])


def other_list(choice, entries):
    """Returns another list in place of one."""
    found = list(entries)
    way = choice.choice(["drop", "twice", "swap", "reverse", "rotate", "sort"])
    if not found:
        return [1]
    place, second = choice.randrange(len(found)), choice.randrange(len(found))
    if way == "drop":
        del found[place]
    elif way == "twice":
        found.insert(place, found[place])
    elif way == "swap":
        found[place], found[second] = found[second], found[place]
    elif way == "reverse":
        found.reverse()
    elif way == "rotate":
        found = found[1:] + found[1:2]
    else:
        found.sort(key=str)
    return found


def truly_other(choice, item):
    """Alters an item so that it stays true: numbers scaled or shifted, a cycle that begins elsewhere, lists in another order."""
    factor = choice.choice([2, 3, 10, choice.choice(WIDE)])
    if "cycle" in item and choice.random() < 0.5:
        item["cycle"] = item["cycle"][1:] + item["cycle"][1:2]
        return
    kind = item["item"]
    if kind == "garp" and "ranks" in item or kind == "efficiency":
        name = {"garp": "ranks"}.get(kind, "below")
        item[name] = [rank * factor for rank in item[name]]
    elif kind == "afriat" and "utility" in item:
        shift = choice.choice([0, 1, choice.choice(WIDE)])
        item["utility"] = [str(int(u) * factor + shift) for u in item["utility"]]
        item["lambda"] = [str(int(it) * factor) for it in item["lambda"]]
    elif kind == "homothetic" and "cycle" in item:
        item["start"] = str(Fraction(item["start"]) * factor / choice.randint(1, 3))
    elif kind == "homothetic" and "values" in item:
        by = Fraction(factor, choice.choice([1, 3, choice.choice(WIDE)]))
        item["values"] = [str(Fraction(it) * by) for it in item["values"]]
    elif kind == "quasilinear" and "values" in item:
        item["values"] = [str(int(it) + factor) for it in item["values"]]
    elif kind in ("demand", "welfare") and "cycle" not in item:
        bounds = [good[side] for good in item.get("goods", []) for side in ("lower", "upper")]
        bound = choice.choice(bounds or [item["lower"]])
        way = choice.choice(["pair", "order", "zero", "inner", "below"])
        if "withheld" in bound or way == "pair":
            for pair in [it for it in (bounds or [item["lower"]]) if "withheld" not in it]:
                pair["den"] = str(int(pair["den"]) * factor)
                pair["x"] = [str(int(it) * factor) for it in pair["x"]]
                pair["y"] = [[column, str(int(it) * factor)] for column, it in pair["y"]]
        elif way == "order":
            bound["y"].reverse()
        elif way == "zero":
            bound["y"] = sorted([*bound["y"], [1 + max([0, *(column for column, _ in bound["y"])]), "0"]])
        elif way == "inner" and kind == "demand":
            item["inner"] = {"den": str(int(item["inner"]["den"]) * factor), "num": [str(int(it) * factor) for it in item["inner"]["num"]]}
        elif kind == "demand":
            item[choice.choice(["below", "strict"])].reverse()
    elif kind == "random" and "den" in item:
        way = choice.choice(["scale", "order", "twice", "zero", "split"])
        if way == "scale" or not item["parts"]:
            item["den"] = str(int(item["den"]) * factor)
            item["parts"] = [[types, str(int(weight) * factor)] for types, weight in item["parts"]]
            if "weights" in item:
                item["weights"] = [str(int(weight) * factor) for weight in item["weights"]]
        elif way == "order":
            item["parts"].reverse()
        elif way in ("twice", "split"):
            types, weight = item["parts"].pop(0)
            first = int(weight) // 2
            item["parts"][:0] = [[types, str(first)], [types, str(int(weight) - first)]]
        else:
            item["parts"].append([item["parts"][0][0], "0"])


def altered(choice, certificate, another):
    """Returns the bytes of a certificate that was altered in one way, so that it says something else."""
    for _ in range(50):
        value = json.loads(certificate)
        alter(choice, value, another)
        if value != json.loads(certificate):
            return json.dumps(value).encode()
    return certificate


def alter(choice, value, another):
    """Alters the value of a certificate in one way; now and then nothing comes of it."""
    items, way = value["items"], choice.random()
    if "levels" in value and way < 0.15:
        place = choice.randrange(len(value["levels"]))
        lower = max(value["levels"][place] - 1, 1)
        value["levels"] = choice.choice([other_list(choice, value["levels"]), [*value["levels"][:place], lower, *value["levels"][place + 1 :]]])
    elif way < 0.35:
        truly_other(choice, choice.choice(items))
    elif way < 0.65:
        item = choice.choice(items)
        path, what = choice.choice(list(leaves(item)))
        entry = at(item, path)
        put(item, path, other_list(choice, entry) if what == "list" else other_number(choice, entry))
    elif way < 0.75:
        item = choice.choice(items)
        lists = [path for path, what in leaves(item) if what == "list"]
        if lists:
            path = choice.choice(lists)
            put(item, path, other_list(choice, at(item, path)))
    elif way < 0.82:
        value["items"] = other_list(choice, items)
    elif way < 0.93:
        # an item of a certificate on another table
        place = choice.randrange(len(items))
        others = [item for item in another() if item["item"] == items[place]["item"]]
        if others:
            items[place] = choice.choice(others)
    elif way < 0.97:
        item = choice.choice(items)
        item[choice.choice(["extra", "cycle", "ranks", "values"])] = item.pop(choice.choice(list(item)))
    else:
        value[choice.choice(["version", "kind", "items", "levels", "note"])] = choice.choice([1, 2, "1", "table", "random", [], 1.0, [1], [1000, 1001]])


# ---- the two checkers


def told(program, words, folder):
    ran = subprocess.run([program, *words], cwd=folder, stdin=subprocess.DEVNULL, capture_output=True)
    return ran.returncode, ran.stdout.decode(), ran.stderr.decode()


def expected(files, certificate, per):
    """Returns what the program's checker has to say, by what `verify` finds; and what that is."""
    try:
        if "t.csv" in files:
            found = verify_table(files["t.csv"], certificate)
        else:
            found = verify_choices(files["b.csv"], files["c.csv"], certificate, int(per[1]) if per else None)
    except NoCertificate as why:
        return (4, None), f"no certificate: {why}"
    if any("past its type" in remark for remark in found.remarks):
        return (4, None), repr(found)
    failing = [item.number for item in found.items if item.proves is False or item.remarks]
    if failing:
        return (1, f"rejected item {failing[0]} "), repr(found)
    return (0, f"accepted items {len(found.items)} withheld {found.withheld}\n"), repr(found)


def differs(program, folder, files, certificate, per):
    """Returns how the two checkers differ on a certificate, or None; and the status of the program's."""
    with open(f"{folder}/z.json", "wb") as it:
        it.write(certificate)
    words = ["check", "t.csv", "z.json"] if "t.csv" in files else ["checkrandom", "b.csv", "c.csv", "z.json", *per]
    status, out, err = told(program, words, folder)
    (wanted, line), found = expected(files, certificate, per)
    if status != wanted or (line is not None and not out.startswith(line)):
        return f"the program said {status} {out}{err}verify would have it say {wanted} {line}; it found {found}\n{files}\n{certificate}", status
    return None, status


def written(program, folder, words, files):
    """Returns the certificate that the program writes, and what is wrong where it writes none."""
    for name, data in files.items():
        with open(f"{folder}/{name}", "wb") as it:
            it.write(data)
    status, out, err = told(program, words, folder)
    return out.encode(), None if status == 0 else f"{words} ended with {status}: {err}"


def of_another(program, choice, number):
    """Returns the items of a certificate of the same command on another table."""
    with tempfile.TemporaryDirectory() as folder:
        words, files, _ = asked(choice, number)
        return json.loads(written(program, folder, words, files)[0])["items"]


def case(job):
    """Makes one certificate, has both checkers look at it, alters it, and has both look again.

    Returns what is wrong, the status of the program's checker on the altered one, and whether `verify` remarks on that.
    """
    program, number = job
    choice = random.Random(f"{SEED} {number}")
    with tempfile.TemporaryDirectory() as folder:
        words, files, per = asked(choice, number)
        certificate, wrong = written(program, folder, words, files)
        if wrong:
            return [wrong], None, False
        wrong, status = differs(program, folder, files, certificate, per)
        if not wrong and status != 0:
            wrong = f"what the program wrote was not accepted: {files} {certificate}"
        other = altered(choice, certificate, lambda: of_another(program, choice, number))
        worse, status = differs(program, folder, files, other, per)
        return [it for it in (wrong, worse) if it], status, "remark" in expected(files, other, per)[1]


# ---- the repository's forged certificates


def literals(path):
    """Returns the texts of a Rust source that have an item or items in them."""
    with open(path, encoding="utf-8") as it:
        texts = re.findall(r'"((?:[^"\\]|\\.)*)"', it.read())
    texts = [text.replace('\\"', '"').replace("\\n", "\n").replace("{{", "{").replace("}}", "}") for text in texts if "\\u" not in text]
    return [text for text in texts if '"item' in text or '"kind"' in text]


def forged(program, top):
    """Compares the two on the certificates of the repository's tests, each on some tables, one of which has levels."""
    tables = ["1,1,2,2\n2,2,1,1\n", "1,2,2,1\n2,1,1,2\n", "1,4,1,4\n1,2,1,2\n", "1,2,1,2\n1,3,1,1\n"]
    tables = [f"p_a,q_a,p_b,q_b\n{it}".encode() for it in tables] + [b"p_a,q_a,p_b,q_b,e\n1,1,2,2,799\n2,2,1,1,1000\n"]
    texts = []
    for path in sorted(glob.glob(f"{glob.escape(top)}/crates/*/src/**/*.rt", recursive=True)):
        texts += literals(path)
    texts = sorted(set(texts))
    texts = [it if '"items"' in it or '"kind"' in it else f'{{"items":[{it}],"kind":"table","version":1}}' for it in texts]
    wrong = []
    with tempfile.TemporaryDirectory() as folder:
        for data in tables:
            with open(f"{folder}/t.csv", "wb") as it:
                it.write(data)
            wrong += [differs(program, folder, {"t.csv": data}, text.encode(), [])[0] for text in texts]
    wrong = [it for it in wrong if it]
    # none at all means that they stand elsewhere by now, and not that all is well
    return wrong if texts else ["the repository's tests have no certificates"], len(texts) * len(tables)


def main(words):
    program, count = os.path.abspath(words[0]), int(words[1]) if len(words) > 1 else 2000
    top = os.path.realpath(f"{HERE}/../../..")
    processors = len(os.sched_getaffinity(0))
    with Pool(processors) as pool:
        found = pool.map(case, [(program, number) for number in range(count)], chunksize=8)
    wrong = [it for result in found for it in result[0]]
    by_status = {status: sum(result[1] == status for result in found) for status in (0, 1, 4)}
    more, forgeries = forged(program, top)
    wrong += more
    for it in wrong[:5]:
        print(it)
    print(
        f"verify and the program's checker: {count} certificates that were written, {count} that were altered (accepted {by_status[0]}, rejected "
        f"{by_status[1]}, refused {by_status[4]}; remarks on {sum(result[2] for result in found)}), {forgeries} of the repository's tests: {len(wrong)} differ"
    )
    return 1 if wrong else 0


if __name__ == "__main__":
    if {"-h", "--help"} & {*sys.argv[1:]}:
        sys.exit(print(__doc__.strip()))
    sys.exit(main(sys.argv[1:]))
