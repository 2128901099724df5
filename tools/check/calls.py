"""Calls of all commands over drawn files, for the scripts that compare two programs: words, and files by their names.
`drawn` has the commands of `rp`, and `fits` has `fit` and `checkfit`, which `rp-wide` alone has."""
import os
import subprocess

# A table on which the homothetic test holds, and for which rp withholds it.
HELD = """p_a,q_a,p_b,q_b
4194304,2097151,1,4194304
1,1747627,3145727,2796203
1,4194304,4194304,2097151
"""
GOODS = ["bread", "wine", "tea", "coal", "milk", "salt"]


def number(draw, most=99):
    """Returns a number of at least 1 as a file has it, now and then with places, or with zeros in front."""
    whole = draw.randint(1, most)
    kind = draw.random()
    if kind < 0.15:
        return f"{whole}.{draw.randint(0, 99):02}"
    return f"00{whole}" if kind < 0.18 else str(whole)


def sheet(names, records, draw):
    """Returns a file of these columns and records, in one of the forms that readers take."""
    order = list(range(len(names)))
    if draw.random() < 0.3:
        draw.shuffle(order)
    end = "\r\n" if draw.random() < 0.2 else "\n"
    lines = [",".join(names[it] for it in order), *(",".join(record[it] for it in order) for record in records)]
    mark = "\ufeff" if draw.random() < 0.1 else ""
    return (mark + end.join(lines) + ("" if draw.random() < 0.2 else end)).encode()


def table(draw, rows=None, goods=None, with_levels=False):
    """Returns the file of a table: purchases of any kind."""
    rows, goods = rows or draw.randint(1, 9), goods or draw.randint(1, 4)
    names = [f"{mark}_{it}" for it in GOODS[:goods] for mark in "pq"] + ["e"] * with_levels
    records = []
    for _ in range(rows):
        bought = [str(draw.randint(0, 30)) for _ in range(goods)]
        bought[draw.randrange(goods)] = number(draw)
        record = [it for quantity in bought for it in (number(draw), quantity)]
        records.append(record + [str(draw.randint(500, 1000))] * with_levels)
    return sheet(names, records, draw), rows, goods


def priced(draw, goods, mark, extra=(), rows=None):
    """Returns a file of prices or of quantities under one mark, with further columns of numbers."""
    records = [[number(draw) for _ in range(goods)] + [number(draw, 300) for _ in extra] for _ in range(rows or draw.randint(1, 3))]
    return sheet([f"{mark}_{it}" for it in GOODS[:goods]] + list(extra), records, draw)


def budgets_and_choices(draw):
    """Returns budgets of two goods and choices that cost what they have."""
    count, expenditure = draw.randint(1, 3), 60
    prices = [(draw.choice([1, 2, 3, 4, 5, 6]), draw.choice([1, 2, 3, 4, 5, 6])) for _ in range(count)]
    budgets = sheet(["p_bread", "p_wine", "w"], [[str(a), str(b), str(expenditure)] for a, b in prices], draw)
    records = []
    for at, (a, b) in enumerate(prices):
        for share in draw.sample(range(0, 61), draw.randint(1, 3)):
            records.append([str(at + 1), f"{share / a:.6f}", f"{(60 - share) / b:.6f}", str(draw.randint(1, 4))])
    if draw.random() < 0.85:
        records = [
            [r[0], str(round(float(r[1]))), str(round((60 - round(float(r[1])) * prices[int(r[0]) - 1][0]) / prices[int(r[0]) - 1][1])), r[3]] for r in records
        ]
    return budgets, sheet(["budget", "q_bread", "q_wine", "n"], records, draw)


def menus(draw):
    """Returns choices from menus of up to four letters."""
    letters = "abcd"[: draw.randint(2, 4)]
    records = []
    for _ in range(draw.randint(1, 6)):
        menu = "".join(sorted(draw.sample(letters, draw.randint(2, len(letters)))))
        records.append([menu, draw.choice(menu), str(draw.randint(1, 5))])
    return sheet(["menu", "choice", "n"], records, draw)


def technology(draw):
    goods = draw.randint(1, 3)
    names = ["y", "p", *(f"w_{it}" for it in GOODS[:goods]), *(f"x_{it}" for it in GOODS[:goods])]
    records = [[number(draw, 5)] + [number(draw) for _ in range(2 * goods + 1)] for _ in range(draw.randint(1, 5))]
    asked = [[number(draw) for _ in range(goods)] + [number(draw, 6)] for _ in range(draw.randint(1, 3))]
    return sheet(names, records, draw), sheet([*(f"w_{it}" for it in GOODS[:goods]), "y"], asked, draw)


def spoilt(draw, data):
    """Returns a file with one slip: a byte that is another, or that is gone, or one more."""
    at = draw.randrange(len(data) or 1)
    new = bytes([draw.choice(b'0,.-"x\n\xff;e')])
    return draw.choice([data[:at] + new + data[at + 1 :], data[:at] + data[at + 1 :], data[:at] + new + data[at:]])


def one(draw, number_of):
    """Returns the words and the files of one call; `number_of` decides which command it is."""
    kind = number_of % 14
    levels = draw.random() < 0.2
    data, _, goods = table(draw, with_levels=levels)
    files = {"t.csv": data}
    if kind < 4:
        words = [("pairs", "analyse", "certify", "pump")[kind], "t.csv"]
    elif kind == 4:
        files["new.csv"] = priced(draw, goods, "p", ["m"])
        words = ["demand", "t.csv", "new.csv"]
    elif kind == 5:
        files["new.csv"] = priced(draw, goods, "p")
        words = ["welfare", "t.csv", "new.csv"]
    elif kind == 6:
        files["bundles.csv"] = priced(draw, goods, "q")
        words = ["utility", "t.csv", "bundles.csv"]
    elif kind == 7:
        words = ["power", "t.csv", str(draw.randint(1, 99)), str(draw.randint(1, 200))]
    elif kind == 8:
        files, words = {}, ["trial", str(draw.randint(1, 999)), str(draw.randint(1, 12)), str(draw.randint(1, 4))]
    elif kind == 9:
        tech, asked = technology(draw)
        files, words = {"tech.csv": tech, "asked.csv": asked}, ["cost", "tech.csv", "asked.csv"]
    elif kind == 10:
        files, words = {"menus.csv": menus(draw)}, ["menus", "menus.csv"]
    elif kind in (11, 12):
        budgets, choices = budgets_and_choices(draw)
        files, words = {"b.csv": budgets, "c.csv": choices}, ["random", "b.csv", "c.csv"]
    else:
        words = ["check", "t.csv", "cert.json"]
        files["cert.json"] = b'{"items":[{"cycle":[1,2,1],"item":"garp"}],"kind":"table","version":1}'
    if kind in (10, 11, 12) and draw.random() < 0.5:
        words += ["--per", str(draw.randint(1, 12))]
    if kind in (4, 5, 11, 12) and draw.random() < 0.5:
        words.append("--json")
    if files and draw.random() < 0.2:
        name = draw.choice(sorted(files))
        files[name] = spoilt(draw, files[name])
    elif files and draw.random() < 0.04:
        del files[draw.choice(sorted(files))]
    elif draw.random() < 0.04:
        words = draw.choice([words[:-1], [*words, "--more"], ["nothing"], []])
    return words, files


class Native:
    """The program itself, in a folder where the files of a call are laid."""

    def __init__(self, program, room):
        self.words, self.room = program if isinstance(program, list) else [program], room

    def answer(self, words, files):
        """Returns the status, what is written and what is told."""
        for it in os.listdir(self.room):
            os.remove(f"{self.room}/{it}")
        for name, data in files.items():
            with open(f"{self.room}/{name}", "wb") as it:
                it.write(data)
        how = {"stdin": subprocess.DEVNULL, "stdout": subprocess.PIPE, "stderr": subprocess.PIPE}
        try:
            done = subprocess.run([*self.words, *words], cwd=self.room, timeout=600, **how)
        except subprocess.TimeoutExpired:
            return None, b"", b"no answer within ten minutes"
        return done.returncode, done.stdout, done.stderr


def altered(draw, certificate):
    """Returns a certificate with one number that is another."""
    at = [place for place, byte in enumerate(certificate) if chr(byte).isdigit()]
    place = draw.choice(at)
    return certificate[:place] + str(draw.randint(0, 9)).encode() + certificate[place + 1 :]


def drawn(draw, count, native):
    """Gives so many calls with what the program itself answers to each; a certificate is checked too, as it is and altered."""
    given = 0
    while given < count:
        words, files = one(draw, given)
        answer = native.answer(words, files)
        yield words, files, answer
        given += 1
        is_certificate = answer[0] == 0 and answer[1].startswith(b"{")
        if is_certificate and given < count:
            data = answer[1] if draw.random() < 0.5 else altered(draw, answer[1])
            words = (
                ["checkrandom", "b.csv", "c.csv", "made.json", *words[words.index("--per") : words.index("--per") + 2]]
                if words[0] == "random" and "--per" in words
                else ["checkrandom", "b.csv", "c.csv", "made.json"]
                if words[0] == "random"
                else ["check", "t.csv", "made.json"]
            )
            told = {name: it for name, it in {**files, "made.json": data}.items() if name in words}
            yield words, told, native.answer(words, told)
            given += 1


def as_call(answer):
    """Returns an answer of `rp-wide` or `rp-panel` as the library's call gives it: without the hint behind the line of an error,
    and without a note."""
    status, out, told = answer
    before, mark, _ = told.rpartition(b"hint: ")
    lines = (before if mark else told).splitlines(keepends=True)
    return status, out, b"".join(it for it in lines if not it.startswith(b"note: "))


# Two choices that contradict each other, three of which each contradicts the next in a cycle, and two that are consistent.
FIT_TABLES = {
    "pair": "p_a,q_a,p_b,q_b\n1,1,2,2\n2,2,1,1\n",
    "cycle": "p_a,q_a,p_b,q_b,p_c,q_c\n2,1,1,0,3,0\n3,0,2,1,1,0\n1,0,3,0,2,1\n",
    "consistent": "p_a,q_a,p_b,q_b\n1,2,2,1\n2,1,1,2\n",
}
# Lines of their reports, from the definitions by hand. In the cycle the costs are 2, 1, 3; 3, 2, 1; 1, 3, 2.
FIT_LINES = {
    "pair": [
        "violations garp 2 wgarp 2 warp 2 sarp 2 of 2",
        "violating observations 2 of 2",
        "kept 1 of 2",
        "steps 1/10 to 1/10 exact",
        "pump 1/5",
        "quasilinear level 4/5",
    ],
    "cycle": [
        "violations garp 3 wgarp 0 warp 0 sarp 3 of 6",
        "violating observations 3 of 3",
        "kept 2 of 3",
        "steps 1/6 to 1/6 exact",
        "quasilinear level 1/2",
    ],
    "consistent": [
        "violations garp 0 wgarp 0 warp 0 sarp 0 of 2",
        "violating observations 0 of 2",
        "kept 2 of 2",
        "steps 0 to 0 exact",
        "quasilinear level 1",
    ],
}


def fits(draw, count, native):
    """Gives so many calls of `fit` and `checkfit`, with what a program answers to each: worked and drawn tables, certificates as
    they are and altered, files with a slip or not there, and words that are not taken."""
    files = [{"t.csv": it.encode()} for it in FIT_TABLES.values()]
    given = 0
    while given < count:
        own = files[given] if given < len(files) else {"t.csv": table(draw, with_levels=draw.random() < 0.1)[0]}
        if given >= len(files) and draw.random() < 0.2:
            own = {"t.csv": spoilt(draw, own["t.csv"])}
        answer = native.answer(["fit", "t.csv", "--json"], own)
        yield ["fit", "t.csv", "--json"], own, answer
        yield ["fit", "t.csv"], own, native.answer(["fit", "t.csv"], own)
        if answer[0] == 0:
            for data in (answer[1], altered(draw, answer[1])):
                both = {**own, "c.json": data}
                yield ["checkfit", "t.csv", "c.json"], both, native.answer(["checkfit", "t.csv", "c.json"], both)
        given += 1
    for words in (["fit"], ["fit", "t.csv", "--more"], ["checkfit", "t.csv"], ["fit", "--json", "t.csv"], ["checkfit", "t.csv", "c.json"]):
        yield words, files[0], native.answer(words, files[0])
    yield ["fit", "t.csv"], {}, native.answer(["fit", "t.csv"], {})


def largest():
    """Gives calls on the largest inputs of each limit: observations, goods, numbers, levels, new records, cells of menus, seeds
    and draws."""
    import itertools
    import random

    draw = random.Random(7)
    goods = [f"g{it}" for it in range(16)]
    names = [f"{mark}_{it}" for it in goods for mark in "pq"]
    rows = [[str(draw.randint(9_000_000, 9_999_999)) for _ in names] for _ in range(512)]
    full = ("\n".join([",".join(names), *map(",".join, rows)]) + "\n").encode()
    for words in (["pairs", "t.csv"], ["analyse", "t.csv"], ["certify", "t.csv"], ["pump", "t.csv"], ["power", "t.csv", "18446744073709551615", "3"]):
        yield words, {"t.csv": full}
    yield ["analyse", "t.csv"], {"t.csv": full + full.split(b"\n")[1] + b"\n"}
    long_line = b"p_a,q_a\n" + b"\n" * 4_194_303
    yield ["pairs", "t.csv"], {"t.csv": long_line[:4_194_304]}
    yield ["pairs", "t.csv"], {"t.csv": long_line + b"1,1\n"}
    yield ["check", "t.csv", "c.json"], {"t.csv": b"p_a,q_a\n1,1\n", "c.json": b" " * 16_777_217}
    yield ["check", "t.csv", "c.json"], {"t.csv": b"p_a,q_a\n1,1\n", "c.json": b" " * 16_777_216}
    yield ["trial", "18446744073709551615", "256", "16"], {}
    few = ("\n".join([",".join(names[:8]), *(",".join(it[:8]) for it in rows[:40])]) + "\n").encode()
    new = ",".join(names[:8:2]) + ",m\n" + "\n".join(",".join(it[1:9:2]) + ",9999999" for it in rows[:16]) + "\n"
    yield ["demand", "t.csv", "new.csv"], {"t.csv": few, "new.csv": new.encode()}
    levels = "\n".join([",".join([*names, "e"]), *(",".join([*it, str(draw.randint(1, 1000))]) for it in rows)]) + "\n"
    yield ["certify", "t.csv"], {"t.csv": levels.encode()}
    # Of a consumer who spends as much on each good, so the axiom holds.
    prices = [[draw.choice([1, 2, 3, 4, 5, 6, 7, 8, 9, 10, 11, 12, 13, 14, 15, 16]) for _ in range(4)] for _ in range(512)]
    bought = [[str(it) for price in row for it in (price, 720720 // price)] for row in prices]
    met = ("\n".join([",".join(names[:8]), *map(",".join, bought)]) + "\n").encode()
    lines = {mark: [[str(draw.randint(1, 99)) for _ in range(4)] for _ in range(16)] for mark in "pq"}
    heads = {mark: ",".join(f"{mark}_{it}" for it in goods[:4]) for mark in "pq"}
    files = {mark: "\n".join([heads[mark], *map(",".join, lines[mark])]) + "\n" for mark in "pq"}
    budgets = files["p"].replace("\n", ",9999\n").replace(",9999", ",m", 1)
    yield ["demand", "t.csv", "new.csv", "--json"], {"t.csv": met, "new.csv": budgets.encode()}
    yield ["welfare", "t.csv", "new.csv"], {"t.csv": met, "new.csv": files["p"].encode()}
    yield ["utility", "t.csv", "bundles.csv"], {"t.csv": met, "bundles.csv": files["q"].encode()}
    menus_ = [it for size in (2, 3, 4) for it in itertools.combinations("abcdef", size)]
    cells = [(menu, letter) for menu in menus_ for letter in menu][:64]
    counted = "menu,choice,n\n" + "".join(f"{''.join(menu)},{letter},{draw.randint(1, 9)}\n" for menu, letter in cells)
    yield ["menus", "menus.csv", "--per", "1000000"], {"menus.csv": counted.encode()}
