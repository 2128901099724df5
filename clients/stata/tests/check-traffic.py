#!/usr/bin/env python3
"""Follows the file traffic of rptest.ado, by an interpreter of just the Stata that it uses; Stata itself is not here.

usage: RP_EXEC=PROGRAM check-traffic.py

The text of rptest.ado is run line by line over the examples: it writes its files and calls rptest.sh, the script runs the
program, and what comes back is compared with the worked answers. That Stata takes the text in the same way is not shown.
"""
import contextlib
import csv
import json
import math
import os
import re
import subprocess
import sys
import tempfile
from fractions import Fraction

HERE = os.path.dirname(os.path.realpath(__file__))
EXAMPLES = os.path.join(HERE, "..", "..", "..", "examples")
SCRIPT = os.path.join(HERE, "..", "rptest.sh")
with open(os.path.join(HERE, "..", "rptest.ado"), encoding="ascii") as it:
    TEXT = it.read().splitlines()
# A missing number is greater than every other, as in Stata.
MISSING = math.inf
STRING = r"`\"(.*?)\"'|\"([^\"]*)\""


class Stopped(Exception):
    """The command ended with a return code."""


def parsed(lines, at=0):
    """Returns the commands from a line to the end of its block, each a text or a block with its branches, and where that ends."""
    found = []
    while at < len(lines):
        line = lines[at].strip()
        at += 1
        if line == "}":
            return found, at
        if line.endswith("{"):
            body, at = parsed(lines, at)
            head = line[:-1].strip()
            if head.startswith("else"):
                found[-1][1].append((head[4:].strip(), body))
            else:
                found.append(("block", [(head, body)]))
        elif line and not line.startswith("*"):
            found.append(("line", line))
    return found, at


def shown(value):
    """Returns a number or a text as a macro has it."""
    if isinstance(value, str):
        return value
    if value == MISSING:
        return "."
    return str(int(value)) if value == int(value) else repr(float(value))


class Stata:
    """The data, the macros, the files and the results of one call."""

    def __init__(self, data, room, options, panel):
        self.data, self.room, self.panel = data, room, panel
        self.count = len(next(iter(data.values())))
        names = ("decimals", "digits", "units", "by", "levels", "obs", "exe", "nowide", "generate", "saving", "pump", "fit", "newprices", "money")
        self.locals = {**{name: "" for name in names}, "power": "0", "seed": "1", **options}
        self.system, self.rownames = "Unix", {}
        self.results, self.r, self.code, self.files = {}, {}, 0, {}
        self.matrices, self.posts, self.said, self.temporary, self.steps = {}, {}, [], 0, 0
        self.kept, self.summed = [], 0

    # ---- macros and expressions

    def expand(self, text):
        """Returns a text with its macros in place, again and again, but for those under macval()."""

        def own(found):
            name = found[2]
            if found[1]:
                return shown(self.value(name))
            if name.startswith("r("):
                return shown(self.r.get(name[2:-1], ""))
            if name == "c(os)":
                return self.system
            if name.startswith("macval("):
                self.kept.append(self.locals.get(name[7:-1], ""))
                return f"\ue000{len(self.kept) - 1}\ue001"
            return self.locals.get(name, "")

        while True:
            changed = re.sub(r"`(=?)([^`'\"]*)'", own, text, count=1)
            if changed == text:
                # What is left of a global macro is expanded too; none is defined here.
                return re.sub(r"\$\{[^}]*\}|\$\w+", "", text)
            text = changed

    def whole(self, text):
        """Returns a text with what macval() kept in its place."""
        return re.sub("\ue000(\\d+)\ue001", lambda it: self.kept[int(it[1])], text)

    def value(self, text, row=None):
        """Returns the value of an expression whose macros are expanded, at a row of the data."""
        strings, out, at = [], [], 0
        form = re.compile(STRING + r"|(\d+\.?\d*|\.\d+)|r\((\w+)\)|([A-Za-z_]\w*)|(!=|<=|>=|==|.)", re.S)
        closers = []
        while at < len(text):
            found = form.match(text, at)
            at = found.end()
            compound, simple, number, result, name, other = found.groups()
            if compound is not None or simple is not None:
                strings.append(self.whole(compound if compound is not None else simple))
                out.append(f"S[{len(strings) - 1}]")
            elif number:
                out.append(number)
            elif result:
                out.append(f"R({result!r})")
            elif name:
                following = text[at : at + 1]
                if following == "(":
                    out.append(f"F_{name}")
                elif following == "[":
                    out.append(f"V({name!r}, ")
                    closers.append(("[", ")"))
                    at += 1
                else:
                    out.append({"_n": "n", "_N": "N", "_rc": "rc"}.get(name, f"V({name!r}, n)"))
            elif other == "]":
                out.append(closers.pop()[1])
            else:
                out.append({"&": " and ", "|": " or ", "!": " not ", "^": "**", ".": "M"}.get(other, other))
        names = {
            "S": strings,
            "R": lambda it: self.r.get(it, MISSING),
            "V": self.cell,
            "N": self.count,
            "n": row,
            "rc": self.code,
            "M": MISSING,
            "F_missing": lambda it: it in (MISSING, ""),
            "F_floor": lambda it: it if it == MISSING else math.floor(it),
            "F_cond": lambda it, a, b: a if it else b,
            "F_trim": str.strip,
            "F_round": round,
            "F_log10": math.log10,
            "F_substr": lambda it, start, count: it[start - 1 : start - 1 + count],
            "F_strtoname": lambda it: re.sub(r"^(?=[0-9])|[^A-Za-z0-9_]", "_", it)[:32],
            "F_max": lambda *it: max([x for x in it if x != MISSING], default=MISSING),
            "F_min": min,
            "F_string": self.string,
            "F_regexr": lambda it, form, other: re.sub(form, other, it, count=1),
            "F_sum": self.running,
        }
        found = eval("".join(out).strip(), {"__builtins__": {}}, names)
        return int(found) if isinstance(found, bool) else found

    @staticmethod
    def string(number, form):
        return "." if number == MISSING else form % number

    def running(self, number):
        """Returns the sum of what came in this command so far."""
        self.summed += number
        return self.summed

    def cell(self, name, row):
        if name in self.matrices:
            return self.matrices[name][row - 1]
        return self.data[name][row - 1] if 1 <= row <= self.count else MISSING

    # ---- commands

    def run(self, commands):
        for kind, own in commands:
            if kind == "line":
                self.command(own)
            else:
                self.block(own)

    def block(self, branches):
        head, body = branches[0]
        word = head.split()[0]
        self.steps += 1
        if word == "if":
            for head, body in branches:
                if not head or self.value(self.expand(head.split(" ", 1)[1])):
                    return self.run(body)
        elif word == "while":
            while self.value(self.expand(head[5:])):
                self.steps += 1
                self.run(body)
        elif word == "forvalues":
            name, low, high = re.fullmatch(r"forvalues (\w+) = (\S+)/(\S+)", self.expand(head)).groups()
            for number in range(int(low), int(high) + 1):
                self.locals[name] = str(number)
                self.run(body)
        else:
            name, items = re.fullmatch(r"foreach (\w+) (?:of varlist|in) (.*)", self.expand(head)).groups()
            for item in items.split():
                self.locals[name] = item
                self.run(body)
        return None

    def command(self, line):
        self.steps += 1
        if line.startswith("capture "):
            try:
                self.code = 0
                self.command(line[8:])
            except (OSError, Stopped):
                self.code = 1
            return
        line = line.removeprefix("quietly ")
        word, _, rest = line.partition(" ")
        getattr(self, f"do_{word}")(self.expand(rest))

    def do_local(self, text):
        name, _, value = text.partition(" ")
        value = value.strip()
        if value.startswith(":"):
            self.locals[name] = self.extended(value[1:].strip())
        elif value.startswith("="):
            self.locals[name] = shown(self.value(value[1:]))
        else:
            found = re.fullmatch(STRING, value, re.S)
            self.locals[name] = self.whole(found[1] if found[1] is not None else found[2])

    def extended(self, text):
        words = text.split()
        if words[:2] == ["word", "count"]:
            return str(len(words) - 2)
        if words[0] == "word":
            return (words[3:] + [""] * 99)[int(words[1]) - 1]
        if words[0] == "char":
            return self.panel
        assert words[:2] == ["subinstr", "local"], text
        old, new = re.search(r'"([^"]*)" "([^"]*)", all', text).groups()
        return self.locals[words[2]].replace(old, new)

    def do_display(self, text):
        self.said.append(text)

    def do_exit(self, text):
        raise Stopped(int(text))

    do_error = do_exit

    def temporary_names(self, text, form):
        for name in text.split():
            self.temporary += 1
            self.locals[name] = form(self.temporary)

    def do_tempvar(self, text):
        self.temporary_names(text, lambda number: f"__{number:06}")

    do_tempname = do_tempvar

    def do_tempfile(self, text):
        self.temporary_names(text, lambda number: os.path.join(self.room, f"St{number:05}"))

    @staticmethod
    def unquoted(text):
        return re.sub(r"^`?\"|\"'?$", "", text.strip())

    def path(self, text):
        return self.whole(self.unquoted(text))

    def parts(self, text):
        """Returns the command of `command if CONDITION in A/B`, and the rows that it speaks of."""
        own, _, within = text.partition(" in ") if re.search(r" in \d+/\d+$", text) else (text, "", "")
        own, _, condition = own.partition(" if ")
        first, last = (int(it) for it in within.split("/")) if within else (1, self.count)
        rows = [it for it in range(first, last + 1) if not condition or self.value(condition.partition(",")[0], it) not in (0, False)]
        return own, rows

    def do_generate(self, text):
        own, rows = self.parts(text)
        name, value = re.fullmatch(r"(?:strL |long |byte |double )?(\w+) = (.*)", own).groups()
        assert name not in self.data, name
        self.data[name] = ["" if own.startswith("strL") else MISSING] * self.count
        self.put(name, value, rows)

    def do_replace(self, text):
        own, rows = self.parts(text)
        name, value = re.fullmatch(r"(\w+) = (.*)", own).groups()
        self.put(name, value, rows)

    def put(self, name, value, rows):
        self.summed = 0
        found = [self.value(value, row) for row in rows]
        for row, it in zip(rows, found):
            self.data[name][row - 1] = it

    def do_egen(self, text):
        grouped = re.fullmatch(r"long (\w+) = group\(([\w ]+)\) if (\w+)", text)
        if grouped:
            name, own, touse = grouped.groups()
            keys = list(zip(*(self.data[it] for it in own.split())))
            order = {key: at + 1 for at, key in enumerate(sorted({key for key, is_used in zip(keys, self.data[touse]) if is_used}))}
            self.data[name] = [order[key] if is_used else MISSING for key, is_used in zip(keys, self.data[touse])]
            return
        name, own, by = re.fullmatch(r"byte (\w+) = max\((\w+)\), by\((\w+)\)", text).groups()
        most = {}
        for value, group in zip(self.data[own], self.data[by]):
            most[group] = max(value, most.get(group, 0))
        self.data[name] = [most[group] for group in self.data[by]]

    def do_count(self, text):
        self.r = {"N": len(self.parts(" " + text)[1])}

    def do_summarize(self, text):
        own, rows = self.parts(text)
        found = [it for it in (self.data[own.strip()][row - 1] for row in rows) if it != MISSING]
        self.r = {"N": len(found), "min": min(found, default=MISSING), "max": max(found, default=MISSING)}

    def do_sort(self, text):
        # Texts and numbers of one variable are of one kind.
        order = sorted(range(self.count), key=lambda at: [self.data[name][at] for name in text.split()])
        self.data = {name: [column[at] for at in order] for name, column in self.data.items()}

    def do_findfile(self, text):
        self.r = {"fn": os.path.join(os.path.dirname(SCRIPT), text)}

    def do_mkdir(self, text):
        os.mkdir(self.path(text))

    def do_rmdir(self, text):
        os.rmdir(self.path(text))

    def do_erase(self, text):
        os.remove(self.path(text))

    def do_confirm(self, text):
        words = text.split()
        if words[0] == "file":
            good = os.path.isfile(self.path(text.split(" ", 1)[1]))
        elif words[0] == "new":
            good = words[2] not in self.data
        else:
            good = isinstance(self.data[words[2]][0], str)
        if not good:
            raise Stopped(601)

    def do_shell(self, text):
        subprocess.run(["/bin/sh", "-c", self.whole(text)], stdin=subprocess.DEVNULL, stderr=subprocess.DEVNULL)

    def do_file(self, text):
        verb, _, rest = text.partition(" ")
        if verb == "open":
            name, path, mode = re.fullmatch(r"(\S+) using (.*), (read|write) text(?: replace)?", rest).groups()
            self.files[name] = open(self.path(path), mode[0], encoding="utf-8", newline="\n")
        elif verb == "close":
            self.files.pop(rest.strip()).close()
        elif verb == "write":
            name, _, rest = rest.partition(" ")
            for compound, simple, end in re.findall(STRING + r"|(_n)", rest, re.S):
                self.files[name].write("\n" if end else self.whole(compound or simple))
        else:
            name, macro = rest.split()
            line = self.files[name].readline()
            self.r = {"eof": int(not line)}
            self.locals[macro] = line.rstrip("\n")

    def do_matrix(self, text):
        if text.startswith(("colnames", "list")):
            return
        named = re.fullmatch(r"rownames (\w+) = (.*)", text)
        if named:
            names = named[2].split()
            assert len(names) == len(self.matrices[named[1]]) and all(re.fullmatch(r"[A-Za-z_]\w{0,31}", it) for it in names), names
            self.rownames[named[1]] = names
            return
        made = re.fullmatch(r"(\w+) = J\((\d+), (\d+), \.\)", text)
        if made:
            self.matrices[made[1]] = [[MISSING] * int(made[3]) for _ in range(int(made[2]))]
            return
        name, row, column, value = re.fullmatch(r"(\w+)\[(\d+), (\d+)\] = (.*)", text).groups()
        self.matrices[name][int(row) - 1][int(column) - 1] = self.value(value)

    def do_postfile(self, text):
        name, rest = text.split(" ", 1)
        declared, _, path = rest.partition(" using ")
        names = re.sub(r"(?:double|str\d+)\(([^)]*)\)|(?:double|str\d+) (\w+)", lambda it: it[1] or it[2], declared).split()
        self.posts[name] = (self.path(path), names, [])

    def do_post(self, text):
        name, rest = text.split(" ", 1)
        values = [self.value(it) for it in re.findall(r"\(((?:[^()\"]|\"[^\"]*\")*)\)", rest)]
        self.posts[name][2].append(dict(zip(self.posts[name][1], values, strict=True)))

    def do_postclose(self, text):
        path, _, rows = self.posts.pop(text.strip())
        self.results[path] = rows

    def do_return(self, text):
        kind, _, rest = text.partition(" ")
        if kind == "local":
            name, _, value = rest.partition(" ")
            self.results[name] = self.path(value)
        elif kind == "matrix":
            name, value = rest.split(" = ")
            self.results[name] = self.matrices[value]
            self.results["names of rows"] = self.rownames.get(value)
        else:
            name, value = rest.split(" = ")
            self.results[name] = self.value(value)

    def do_version(self, text):
        pass

    do_syntax = do_version

    def do_marksample(self, text):
        self.locals["touse"] = "__touse"
        self.data["__touse"] = [1] * self.count


def call(data, panel="", temporary="ein Ordner é ", system="Unix", **options):
    """Runs the command; returns its results, its return code, what it displayed, and the machine as it was left."""
    with tempfile.TemporaryDirectory(prefix=temporary) as room:
        stata = Stata({name: [MISSING if it is None else it for it in column] for name, column in data.items()}, room, options, panel)
        stata.system = system
        start = next(at for at, line in enumerate(TEXT) if line.startswith("program define"))
        code = 0
        try:
            stata.run(parsed(TEXT[start + 1 : TEXT.index("end")])[0])
            assert os.listdir(room) == [], os.listdir(room)
        except Stopped as stopped:
            code = stopped.args[0]
        return stata.results, code, " ".join(stata.said), stata


def sentence_of(code):
    """Returns what is wrong and what to do, by the catalogue."""
    with open(os.path.join(HERE, "..", "..", "..", "docs", "catalogue.json"), encoding="utf-8") as it:
        (found,) = [one for one in json.load(it)["hints"] if (one["of"], one["code"]) == ("fault", code)]
    return f"{found['wrong']} {found['do']}"


def example(name, text=()):
    with open(os.path.join(EXAMPLES, name), newline="", encoding="utf-8") as it:
        rows = list(csv.DictReader(it))
    return {name: [row[name] if name in text else float(row[name]) for row in rows] for name in rows[0]}


BOTH = {"prices": "p_bread p_wine", "quantities": "q_bread q_wine"}


# What `fit` counts: pairs that violate each axiom, observations in one, and how many can be kept.
COUNTS = ["garp_pairs", "wgarp_pairs", "warp_pairs", "sarp_pairs", "violating", "kept", "kept_most"]


def check_verdicts():
    found, code, _, _ = call(example("contradiction.csv"), **BOTH)
    assert code == 0 and [found[it] for it in ("status", "garp", "afriat", "homothetic", "quasilinear")] == [0] * 5, found
    assert found["efficiency"] == "4/5" and found["attained"] == 1 and found["cycle"] in ("1 2 1", "2 1 2"), found
    assert found["ccei"] == 0.8 and found["verdicts"][0][6] == found["ccei"], found
    found, code, _, _ = call(example("decimals.csv"), **BOTH)
    assert code == 0 and (found["garp"], found["afriat"], found["homothetic"], found["quasilinear"], found["ccei"]) == (1, 1, 1, 1, 1), found
    found, _, _, _ = call(example("cycle_of_three.csv"), prices="p_bread p_wine p_rent", quantities="q_bread q_wine q_rent")
    assert (found["garp"], found["efficiency"], found["ccei"]) == (0, "1/2", 0.5), found
    # An index of 1 that is not attained, and a table that meets GARP and breaks the other tests: its cycle is none.
    found, _, _, _ = call(example("just_one.csv"), **BOTH)
    assert (found["garp"], found["ccei"], found["attained"]) == (0, 1, 0), found
    found, _, _, _ = call(example("experiment.csv"), prices="p_x p_y", quantities="q_x q_y", digits="2")
    assert (found["garp"], found["homothetic"], found["quasilinear"], found["efficiency"], found["cycle"]) == (1, 0, 0, "1", ""), found
    # Levels.
    found, _, _, _ = call(example("levels.csv"), **BOTH, levels="e")
    assert (found["garp"], found["afriat"], found["efficiency"], found["homothetic"]) == (1, 1, "4/5", 0), found
    found, _, _, _ = call(example("levels.csv"), **BOTH)
    assert found["garp"] == 0, found
    data = example("levels.csv")
    data["e"] = [0.0, 1000.0]
    message = call(data, **BOTH, levels="e")[0]["message"]
    assert message.startswith("BadLevel record 1 column 5: ") and message.endswith(sentence_of("BadLevel")), message


def check_refusals():
    _, code, said, _ = call(example("experiment.csv"), prices="p_x p_y", quantities="q_x q_y")
    assert code == 459 and "decimals(6 5)" in said and said.index("intercept") < said.index("decimals("), (code, said)
    data = example("decimals.csv")
    data["q_wine"][1] = None
    found, code, _, _ = call(data, **BOTH)
    assert code == 0 and found["status"] == 416 and found["garp"] == MISSING and "missing" in found["message"], found
    assert call(data, prices="p_bread", quantities="q_bread q_wine")[1] == 198
    data["q_wine"] = [-0.0, 1.0]
    assert call(data, **BOTH)[0]["status"] == 0
    data["q_wine"] = [-1.0, 1.0]
    found, code, _, _ = call(data, **BOTH)
    assert found["status"] == 4 and "BadNumber record 1 column 4" in found["message"] and found["garp"] == MISSING, found
    # A panel without its households.
    panel = example("panel/panel.csv", text=("household",))
    panel["year"] = [float(panel["household"][:at].count(own)) for at, own in enumerate(panel["household"])]
    _, code, said, _ = call(panel, **BOTH, digits="2", obs="year")
    assert code == 459 and "by()" in said, (code, said)
    own = {"prices": "p_a p_b", "quantities": "q_a q_b"}
    _, code, said, _ = call(households(2), panel="id", **own)
    assert code == 459 and "by(id)" in said, (code, said)
    assert call(households(1), panel="id", **own)[0]["garp"] == 0
    assert call(panel, **BOTH, digits="2", obs="year", by="household")[1] == 0


NAMES = "observations goods garp efficiency_floor attained homothetic quasilinear record column".split()


def rows_of(found):
    """Returns the rows of a panel by the names of the groups, each by its columns."""
    numbers = {found[f"group{at}"]: dict(zip(NAMES, row)) for at, row in enumerate(found["verdicts"], 1)}
    texts = {found[f"group{at}"]: {it: found[f"{it}{at}"] for it in ("efficiency", "pump", "power", "fault")} for at in range(1, len(numbers) + 1)}
    return {name: {**row, **texts[name]} for name, row in numbers.items()}


def check_panel():
    panel = example("panel/panel.csv", text=("household",))
    found, code, _, stata = call(panel, **BOTH, by="household", digits="2", generate="v", saving="kept.dta")
    rows, none = rows_of(found), MISSING
    wanted = {"north": (1, 1, 1), "south": (0, 0, 0), "east, upper": (1, 1, 1), "west": (none, none, none), "harbour": (1, 0, 0)}
    assert {name: (row["garp"], row["homothetic"], row["quasilinear"]) for name, row in rows.items()} == wanted, rows
    assert (rows["west"]["fault"], rows["west"]["record"], rows["west"]["column"]) == ("ZeroPrice", 9, 3), rows["west"]
    assert (rows["south"]["efficiency"], rows["south"]["efficiency_floor"], rows["south"]["observations"]) == ("4/5", 0.8, 2), rows["south"]
    assert {(name, garp) for name, garp in zip(stata.data["household"], stata.data["v_garp"])} == {(name, row[0]) for name, row in wanted.items()}
    kept = {row["household"]: row for row in found["kept.dta"]}
    assert found["names of rows"] == [found[f"group{at}"].replace(",", "_").replace(" ", "_") for at in range(1, 6)], found["names of rows"]
    assert kept["south"]["efficiency"] == "4/5" and kept["south"]["efficiency_floor"] == 0.8 and kept["west"]["fault"] == "ZeroPrice", kept
    # A missing value refuses its own group alone, at its place.
    panel["q_wine"][0] = None
    found, code, _, _ = call(panel, **BOTH, by="household", digits="2")
    rows = rows_of(found)
    assert code == 0 and sorted(row["fault"] for row in rows.values()) == ["", "", "", "BadNumber", "ZeroPrice"], rows
    own = rows[panel["household"][0]]
    assert (own["fault"], own["record"], own["column"]) == ("BadNumber", 1, 5), own
    # What is wrong with groups, and what to do, once for each error; the groups have the word of the user, and none else.
    panel = {"subject" if name == "household" else name: column for name, column in example("panel/panel.csv", text=("household",)).items()}
    _, _, said, _ = call(panel, **BOTH, by="subject", decimals="2", units="subjects")
    assert "5 subjects: GARP holds in 3, and 1 are without a verdict" in said and "household" not in said, said
    assert f"1 with the error ZeroPrice: {sentence_of('ZeroPrice')}" in said, said


def check_ids():
    """Blanks round an id are cut; an observation without one is in no table, whatever tells households apart."""
    own = {"p_a": [1.0, 2.0] * 4, "p_b": [2.0, 1.0] * 4, "q_a": [1.0, 2.0] * 4, "q_b": [2.0, 1.0] * 4}
    names = {"prices": "p_a p_b", "quantities": "q_a q_b"}
    data = {**own, "home": ["A", "A ", "\tA", "B", "", "", " \t", "x\ry"]}
    found, code, said, stata = call(data, **names, by="home", generate="v")
    rows = rows_of(found)
    assert code == 0 and {name.strip(): (row["observations"], row["garp"]) for name, row in rows.items()} == {"A": (3, 0), "B": (1, 1), "x\ry": (1, 1)}, rows
    assert found["unnamed"] == 3 and "3 observations have no id (home), the first of them observation 5" in said, said
    nameless = [garp for name, garp in zip(stata.data["home"], stata.data["v_garp"]) if not name.strip()]
    assert nameless == [MISSING] * 3, stata.data
    data = {**own, "town": ["x"] * 4 + ["y"] * 4, "home": [1.0, 1.0, None, None, 1.0, 1.0, 2.0, None]}
    found, code, _, _ = call(data, **names, by="town home")
    assert code == 0 and (found["groups"], found["unnamed"]) == (3, 3) and sorted(row["garp"] for row in rows_of(found).values()) == [0, 0, 1], found
    # What is no table of verdicts is no answer, whatever the status.
    with tempfile.TemporaryDirectory() as room:
        head = ",".join(["household", *NAMES[:3], "efficiency,efficiency_floor,attained,homothetic,quasilinear,pump,pump_floor,power,fault,record,column"])
        good = "1,2,2,violated,4/5,0.800000,yes,violated,violated,,,,,,"
        for lines in (
            [],
            ["hello"],
            [head],
            [good],
            [head, good, good],
            [head, good.replace("violated", "maybe", 1)],
            [head, "1,,,,,,,,,,,,,,"],
            [head, good[1:]],
        ):
            with open(f"{room}/rp-panel", "w", encoding="utf-8") as it:
                it.write("#!/bin/sh\ncat <<'END'\n" + "".join(f"{line}\n" for line in lines) + "END\n")
            os.chmod(f"{room}/rp-panel", 0o755)
            os.symlink(os.environ["RP_EXEC"], f"{room}/rp") if not os.path.exists(f"{room}/rp") else None
            with without("RP_PANEL"):
                _, code, said, _ = call({name: column[:2] for name, column in {**own, "home": [1.0] * 8}.items()}, **names, by="home", exe=f"{room}/rp")
            assert code == 601 and "gave no results" in said, (lines, code, said)


def check_tutorial():
    """The command of docs/tutorials/experiment-stata.md gives the numbers of its table."""
    with open(os.path.join(EXAMPLES, "..", "docs", "tutorials", "experiment-stata.md"), encoding="utf-8") as it:
        page = it.read()
    options = dict(re.findall(r"(\w+)\(([^)]*)\)", re.search(r"(?m)^rptest, (.*)$", page)[1]))
    old, new = re.search(r"(?m)^rename \((.*?)\) \((.*?)\)$", page).groups()
    data = example("tutorial/subjects.csv")
    for name, other in zip(old.split(), new.split()):
        data[other] = data.pop(name)
    found, code, _, stata = call(data, **options)
    first = {subject: at for at, subject in reversed(list(enumerate(stata.data["subject"])))}
    garp, floors = [[stata.data[it][at] for at in first.values()] for it in ("v_garp", "v_efficiency_floor")]
    middle = sorted(floors)
    told = [len(garp), int(sum(garp)), round(sum(floors) / len(floors), 3), round((middle[9] + middle[10]) / 2, 3)]
    told += [sum(it >= level for it in floors) for level in (0.95, 0.90)]
    wanted = [float(it) for it in re.findall(r"(?m)^\| [^|]* \| ([\d.]+)(?: \(\d+%\))? \|$", page)]
    assert code == 0 and told == wanted, (code, told, wanted)


@contextlib.contextmanager
def without(variable):
    kept = os.environ.pop(variable, None)
    try:
        yield
    finally:
        if kept is not None:
            os.environ[variable] = kept


def check_more():
    """The money pump, the power, and bounds at new prices; and households by two variables."""
    found, code, _, stata = call(example("contradiction.csv"), **BOTH, pump="pump", power="100", seed="7", generate="v")
    assert code == 0 and (found["pump"], found["pump_ratio"]) == (0.2, "1/5") and found["verdicts"][0][7:] == [0.2, found["power"]], found
    assert 0 <= found["power"] <= 1 and found["power"] * 100 == round(found["power"] * 100), found
    assert stata.data["v_pump"] == [0.2, 0.2] and stata.data["v_power"] == [found["power"]] * 2 and stata.data["v_pump_ratio"] == ["1/5", "1/5"]
    # Each of the two contradicts the other: one can be kept, the level 4/5 of one is enough, and one step costs 1 of 10.
    found, code, _, stata = call(example("contradiction.csv"), **BOTH, fit="fit", generate="v")
    if found["message"] == "fit rp-wide is not beside rp":
        print("check-traffic: rp-wide is not beside rp, so goodness of fit is left out")
    else:
        assert code == 0 and [found[it] for it in COUNTS] == [2, 2, 2, 2, 2, 1, 1], found
        assert found["steps_low"] == found["steps_high"] == 0.1 and found["dropped"] in ("1", "2"), found
        assert 0.1 - 1e-11 < found["levels_low"] <= 0.1 <= found["levels_high"] < 0.1 + 1e-11, found
        assert 0.02 - 1e-11 < found["squares_low"] <= 0.02 <= found["squares_high"] < 0.02 + 1e-11, found
        assert stata.data["v_kept"] == [1, 1] and stata.data["v_dropped"] == [found["dropped"]] * 2, stata.data
        found, _, _, _ = call(example("decimals.csv"), **BOTH, fit="fit", pump="pump")
        assert [found[it] for it in COUNTS] == [0, 0, 0, 0, 0, 2, 2] and (found["dropped"], found["levels_high"], found["pump"]) == ("", 0, 0), found
        found, _, _, _ = call(example("levels.csv"), **BOTH, levels="e", fit="fit")
        assert found["message"] == "fit OwnLevels" and found["kept"] == found["levels_low"] == MISSING, found
    assert call(example("decimals.csv"), **BOTH, fit="fit", nowide="nowide")[1] == 198
    found, _, _, _ = call(example("decimals.csv"), **BOTH, pump="pump")
    assert (found["pump"], found["pump_ratio"], "power" in found) == (0, "0", False), found
    # With levels neither is defined, and the verdicts stand.
    found, _, _, _ = call(example("levels.csv"), **BOTH, levels="e", pump="pump", power="10")
    assert found["garp"] == 1 and found["pump"] == found["power"] == MISSING, found
    assert found["message"] == "pump OwnLevels; power OwnLevels", found
    # At prices 1 and 1 with 4 to spend: choices (2, 1) at (1, 2) and (1, 2) at (2, 1) are 4 and 4 of the money, and both are within reach.
    own = {"p_a": [1.0, 2.0], "p_b": [2.0, 1.0], "q_a": [2.0, 1.0], "q_b": [1.0, 2.0]}
    names = {"prices": "p_a p_b", "quantities": "q_a q_b"}
    found, code, _, stata = call(own, **names, newprices="1 1", money="3", generate="v")
    wanted = program_demand(own, "1,1,3")
    assert code == 0 and found["verdicts"][0][7:] == wanted and [stata.data[f"v_{it}"][0] for it in ("low1", "high1", "low2", "high2")] == wanted, found
    found, code, _, stata = call(own, **names, newprices=".5 1.25", generate="v")
    assert code == 0 and (stata.data["v_lower"], stata.data["v_upper"]) == program_welfare(own, "0.5,1.25"), stata.data
    broken = {**own, "q_a": [1.0, 2.0], "q_b": [2.0, 1.0]}
    assert call(broken, **names, newprices="1 1", money="3")[0]["verdicts"][0][7:] == [MISSING] * 4
    for wrong in ({"newprices": "1"}, {"money": "3"}, {"newprices": "1 1"}, {"power": "1001"}):
        assert call(own, **names, **wrong)[1] == 198, wrong
    # Two variables tell households apart; a group's name has both values.
    data = {**households(6), "town": ["x" if own < 3 else "y, z" for own in households(6)["id"]]}
    data["id"] = [own % 3 for own in data["id"]]
    found, code, _, stata = call(data, prices="p_a p_b", quantities="q_a q_b", by="town id", generate="v", saving="kept.dta", pump="pump")
    assert code == 0 and found["groups"] == 6 and found["held"] == 4, found
    assert [found[f"group{at}"] for at in range(1, 7)] == ["x 0", "x 1", "x 2", "y, z 0", "y, z 1", "y, z 2"], found
    assert found["names of rows"] == ["x_0", "x_1", "x_2", "y__z_0", "y__z_1", "y__z_2"], found
    assert {(row["town"], row["id"], row["garp"], row["pump"]) for row in found["kept.dta"]} == {
        (town, own, float(own != 0), "1/5" if own == 0 else "0") for town in ("x", "y, z") for own in (0.0, 1.0, 2.0)
    }
    # On Windows a clear word comes first.
    _, code, said, _ = call(own, **names, system="Windows")
    assert code == 198 and "rp.exe" in said and "Windows" in said, said


def told_by_program(data, command, line):
    """Returns the lines of the program's own report on a table at new prices."""
    with tempfile.TemporaryDirectory() as room:
        with open(f"{room}/t.csv", "w", encoding="utf-8") as it:
            csv.writer(it, lineterminator="\n").writerows([data, *([f"{it:g}" for it in row] for row in zip(*data.values()))])
        with open(f"{room}/new.csv", "w", encoding="utf-8") as it:
            it.write(f"p_a,p_b{',m' if command == 'demand' else ''}\n{line}\n")
        words = [os.environ["RP_EXEC"], command, "t.csv", "new.csv"]
        return subprocess.run(words, cwd=room, stdin=subprocess.DEVNULL, capture_output=True, text=True, check=True).stdout.splitlines()


def program_demand(data, line):
    found = [re.fullmatch(r"good \d+ lower (\S+) upper (\S+)", it) for it in told_by_program(data, "demand", line)]
    return [float(Fraction(bound)) for it in found if it for bound in it.groups()]


def program_welfare(data, line):
    # Prices of two places, and quantities whole: costs are in hundredths.
    found = [re.fullmatch(r"welfare prices .* observation \d+ lower (\S+) upper (\S+) at \d+", it) for it in told_by_program(data, "welfare", line)]
    return tuple([float(Fraction(it[side]) / 100) for it in found if it] for side in (1, 2))


def check_files():
    """The files that `net install` takes are those that are here."""
    with open(os.path.join(HERE, "..", "stata.toc"), encoding="ascii") as it:
        assert re.search(r"(?m)^p rptest ", it.read())
    with open(os.path.join(HERE, "..", "rptest.pkg"), encoding="ascii") as it:
        named = re.findall(r"(?m)^[fF] (\S+)$", it.read())
    assert sorted(named) == ["rptest.ado", "rptest.sh", "rptest.sthlp", "rptest_hints.txt"], named
    assert all(os.path.exists(os.path.join(HERE, "..", it)) for it in named)


def households(count):
    """Returns a panel in no order; every third household contradicts itself."""
    order = sorted(range(2 * count), key=lambda at: at * 7919 % (2 * count + 1))
    rows = [(at // 2, at % 2) for at in order]
    prices = [(1.0, 2.0), (2.0, 1.0)]
    bought = lambda own, year: prices[year] if own % 3 == 0 else prices[1 - year]
    return {
        "id": [float(own) for own, _ in rows],
        "p_a": [prices[year][0] for _, year in rows],
        "p_b": [prices[year][1] for _, year in rows],
        "q_a": [bought(own, year)[0] for own, year in rows],
        "q_b": [bought(own, year)[1] for own, year in rows],
    }


def check_many():
    """Runs more households than a matrix holds; the number of commands grows as that of households."""
    steps = []
    for count in (150, 900):
        found, code, _, stata = call(households(count), prices="p_a p_b", quantities="q_a q_b", by="id", generate="v", saving="kept.dta")
        assert code == 0 and found["groups"] == count and found["held"] == count - (count + 2) // 3 and found["without"] == 0, found
        assert ("verdicts" in found) == (count <= 800) and len(found["kept.dta"]) == count
        assert all(row["garp"] == (row["id"] % 3 != 0) for row in found["kept.dta"])
        assert all(garp == (own % 3 != 0) for own, garp in zip(stata.data["id"], stata.data["v_garp"]))
        steps.append(stata.steps)
    assert steps[1] < 6.3 * steps[0], steps


REPORT = """observations 2 goods 2 places 0 0
garp holds
ranks 1 1
afriat model
utility 0 0
lambda 1 1
efficiency 1 attained yes
below 1 1
at ranks 1 1
homothetic {}
quasilinear holds
values 0 0
"""
DEMAND = """observations 2 goods 2 places 0 0
garp holds
ranks 1 1
demand prices 1 1 expenditure 3
below 1 2
strict none
inner 2 1 over 1
good 1 lower {} upper 2
good 2 lower 1 upper withheld 5
"""
WELFARE = """observations 2 goods 2 places 0 0
garp holds
ranks 1 1
welfare prices 1 1 observation 1 lower 5/2 upper 3 at 1
welfare prices 1 1 observation 2 lower {} upper 3 at 2
"""


def stand_in(folder, name, reports, ends=0):
    """Writes a program that prints a report for each command, and tells in a file of its own that it was asked."""
    path = os.path.join(folder, name)
    with open(path, "w", encoding="utf-8") as it:
        it.write(f'#!/bin/sh\nown=$(readlink -f "$0")\necho "$1" >>"$own.asked"\ncat "$own.$1"\nexit {ends}\n')
    os.chmod(path, 0o755)
    for command, report in reports.items():
        with open(f"{path}.{command}", "w", encoding="utf-8") as it:
            it.write(report)
    return path


def check_wide():
    """What rp withholds is asked of rp-wide: by stand-ins that write what they are told."""
    data, wide = example("decimals.csv"), os.environ.pop("RP_WIDE", None)
    held, given = "withheld steps 2 from 2 to 1", "holds\nvalues 1 1"
    with tempfile.TemporaryDirectory(prefix="ein Ordner é ") as room:
        own = {"analyse": REPORT.format(held), "demand": DEMAND.format("withheld 4"), "welfare": WELFARE.format("withheld 4")}
        exe = stand_in(room, "rp", own)
        found, _, _, _ = call(data, **BOTH, exe=exe)
        assert (found["homothetic"], found["wide"]) == (MISSING, ""), found
        assert found["message"] == f"homothetic {held}; rp-wide may give it, which is not beside rp", found
        more = {"analyse": REPORT.format(given), "demand": DEMAND.format("1/2"), "welfare": WELFARE.format("9/4")}
        other = stand_in(room, "rp-wide", more)
        found, code, _, stata = call(data, **BOTH, exe=exe, newprices="1 1", money="3", generate="v", saving="kept.dta")
        assert (code, found["homothetic"], found["wide"], found["message"]) == (0, 1, "homothetic demand", ""), found
        assert found["verdicts"][0][7:] == [0.5, 2, 1, MISSING] and stata.data["v_wide"][0] == "homothetic demand", found
        assert found["kept.dta"][0]["wide"] == "homothetic demand", found
        found, _, _, stata = call(data, **BOTH, exe=exe, newprices="1 1", generate="v")
        assert found["wide"] == "homothetic welfare" and stata.data["v_lower"] == [2.5, 2.25], (found, stata.data)
        found, _, _, stata = call(data, **BOTH, exe=exe, nowide="nowide", newprices="1 1", generate="v")
        assert (found["wide"], found["homothetic"], stata.data["v_lower"][1]) == ("", MISSING, MISSING), found
        assert found["message"] == f"homothetic {held}; rp-wide may give it", found
        # By a link to the program, and where nothing is withheld it is not asked.
        os.makedirs(f"{room}/linked")
        os.symlink(exe, f"{room}/linked/rp")
        assert call(data, **BOTH, exe=f"{room}/linked/rp")[0]["wide"] == "homothetic"
        os.remove(f"{other}.asked")
        stand_in(room, "rp", {"analyse": REPORT.format(given)})
        assert (call(data, **BOTH, exe=exe)[0]["wide"], os.path.exists(f"{other}.asked")) == ("", False)
        # It stays withheld, and a wider program that fails.
        stand_in(room, "rp", own)
        stand_in(room, "rp-wide", own)
        found, _, _, _ = call(data, **BOTH, exe=exe)
        assert found["message"] == f"homothetic {held}; rp-wide found no evidence either", found
        stand_in(room, "rp-wide", {"analyse": ""}, ends=9)
        found, _, _, _ = call(data, **BOTH, exe=exe)
        assert (found["status"], found["garp"]) == (9, MISSING), found
    if wide is not None:
        os.environ["RP_WIDE"] = wide


def check_texts():
    """Texts that a shell or Stata could take for more than a text: as the program's path, as a folder, as what is said."""
    data, program = example("contradiction.csv"), os.environ["RP_EXEC"]
    crafted = ["a'b", 'a"b', "$HOME", "${x}", "{a}", "$(touch X)", "; touch X;", "a b", "é", "-n", "%s", "\\"]
    with tempfile.TemporaryDirectory() as room:
        for text in crafted:
            own = os.path.join(room, text)
            os.mkdir(own)
            os.symlink(program, os.path.join(own, "rp " + text))
            path = os.path.join(own, "rp " + text)
            found, code, _, _ = call(data, temporary=text, **BOTH, exe=path)
            assert code == 0 and found["status"] == 0 and found["garp"] == 0, (text, found)
            os.environ["RP_EXEC"] = path
            assert call(data, **BOTH)[0]["garp"] == 0, text
            os.environ["RP_EXEC"] = program
            found, code, _, _ = call(data, **BOTH, exe=text)
            assert found["garp"] == MISSING and found["status"] in (126, 127), (text, found)
        # What an other program says is no answer, and is no command of Stata or the shell.
        fake = os.path.join(room, "fake")
        with open(fake, "w", encoding="utf-8") as it:
            it.write('#!/bin/sh\necho \'garp `x` $(touch X) "\'\necho "rp: \\`touch X\\` \\"\'" >&2\n')
        os.chmod(fake, 0o755)
        found, code, _, _ = call(data, **BOTH, exe=fake)
        assert found["garp"] == MISSING and found["status"] == MISSING and "no answer" in found["message"], found
    assert not os.path.exists("X")


def main():
    old = os.getcwd()
    os.environ["RP_EXEC"] = os.path.abspath(os.environ["RP_EXEC"])
    with tempfile.TemporaryDirectory() as room:
        os.chdir(room)
        for check in (check_verdicts, check_refusals, check_panel, check_ids, check_tutorial, check_more, check_files, check_many, check_wide, check_texts):
            check()
        os.chdir(old)
    print("clients/stata: the traffic is as it should be; it was not run in Stata")
    return 0


if __name__ == "__main__":
    if {"-h", "--help"} & {*sys.argv[1:]}:
        sys.exit(print(__doc__.strip()))
    if not os.environ.get("RP_EXEC"):
        sys.exit("check-traffic: RP_EXEC has to name the program")
    sys.exit(main())
