"""What the program has, read from its proved sources: commands, kinds of files, faults, limits, the checker's reasons, statuses,
items of certificates, words of verdicts, and the words with which lines of reports begin.

`read()` returns it as one value. Nothing is run and nothing is proved here: a source that has not the form that is looked for
ends it.
"""
import os
import re

from shared import TOP

# Whole numbers that every reader of JSON keeps; a greater one is written as a text of its digits.
EXACT = 2**53
# Where the limits stand, a module for each kind, and the law of each module that has their numbers.
LIMITS, LAW = "rp_limits/src", "limits_in_numbers"
# What a value of `Place` is told by, in order.
PLACES = {"File": [], "Record": ["record"], "Column": ["column"], "Cell": ["record", "column"], "Budget": ["budget"], "Item": ["item"]}
# Where the definitions of reports stand.
REPORTS = [
    "rp_print/specs", "rp_report/specs", "rp_pump/specs/Report.antt", "rp_cost/specs/Report.antt", "rp_orders/specs/Report.antt",
    "rp_power/specs/PowerText.antt", "rp_answers/specs/CheckText.antt", "rp_answers/specs/PairsText.antt",
    "rp_answers/specs/TrialLines.antt", "rp_answers/specs/UtilityText.antt",
]  # fmt: skip


class Unread(Exception):
    """A source has not the form that is looked for."""


def text(file):
    with open(f"{TOP}/crates/{file}", encoding="utf-8") as it:
        return it.read()


def need(pattern, file, flags=re.M | re.S):
    """Returns the first match in a file, which has to be there."""
    found = re.search(pattern, text(file), flags)
    if not found:
        raise Unread(f"crates/{file} has no {pattern}")
    return found


def sentence(doc):
    """Returns the lines of a doc comment as one."""
    return " ".join(line.strip().removeprefix("///").strip() for line in doc.strip().splitlines())


def variants(file, name):
    """Returns the variants of an enum, each with its doc comment."""
    body = need(rf"^pub(?:\(crate\))? enum {name}(?:<[^>]*>)? \{{\n(.*?)^\}}", file)[1]
    found = {}
    for doc, variant in re.findall(r"((?:^    ///[^\n]*\n)*)(?:^    #\[[^\n]*\n)*^    ([A-Z]\w*)", body, re.M):
        found[variant] = sentence(doc)
    return found


def whole(number):
    return number if number <= EXACT else str(number)


# ---- limits


def value_of(written, known):
    """Returns the number of a constant as it is written in a clause or in the code."""
    plain = re.sub(r"rp_\w+::(?:\w+::)?|\bas \w+|_", lambda it: "" if it[0] != "_" else it[0], written).strip()
    if plain == "u64::MAX":
        return 2**64 - 1
    if plain in known:
        return known[plain]
    if re.fullmatch(r"[\d_]+", plain):
        return int(plain.replace("_", ""))
    power = re.fullmatch(r"(\d+) (?:\^|<<) (\d+)", plain)
    if not power:
        raise Unread(f"{written} is no number")
    return int(power[1]) ** int(power[2]) if "^" in plain else int(power[1]) << int(power[2])


def modules_used():
    """Returns the modules of limits that some other crate names: the program keeps no limit of another."""
    found = set()
    for at, _, names in os.walk(f"{TOP}/crates"):
        if "/rp_limits" not in at:
            for name in (it for it in names if it.endswith((".rt", ".antt"))):
                found.update(re.findall(r"rp_limits(?:::|\.specs\.declared\.)(\w+)", text(os.path.relpath(f"{at}/{name}", f"{TOP}/crates"))))
    return found


def limits():
    found, used = [], modules_used()
    for name in sorted(it for it in os.listdir(f"{TOP}/crates/{LIMITS}") if it.removesuffix(".rt") in used):
        file = f"{LIMITS}/{name}"
        says = {constant: sentence(doc) for doc, constant in re.findall(r"((?:^///[^\n]*\n)+)^pub const (\w+)", text(file), re.M)}
        law = need(rf"^pub fn {LAW}\(\)\n(.*?)^\{{\}}", file)[1]
        for clause, constant, number in re.findall(r"ensures (\w+) \{ (\w+) ≡ ([^}]*?) \}", law):
            found.append(
                {"name": f"{name.removesuffix('.rt')}.{clause}", "constant": constant, "most": whole(value_of(number, {})), "says": says.pop(constant)}
            )
        if says:
            raise Unread(f"crates/{file} has limits without a clause of {LAW}: {', '.join(says)}")
    return found


# ---- commands


def commands():
    file = "rp_command_line/src/commands.rt"
    source = text(file)
    known = {it["constant"]: int(it["most"]) for it in limits()}
    arguments = {}
    for constant, name, least, most in re.findall(
        r"const (\w+): NumberArgument = NumberArgument \{\s*name: \"(\w+)\",\s*least: ([^,]+),\s*most: ([^,]+),\s*\}", source
    ):
        arguments[constant] = {"name": name, "least": value_of(least, known), "most": whole(value_of(most, known))}
    files = {it: re.findall(r'"(\w+)"', names) for it, names in re.findall(r"FileSet::(\w+) => &\[([^\]]*)\]", source)}
    says = variants(file, "Command")
    order = re.findall(r"Command::(\w+),", need(r"^pub\(crate\) fn commands\(\).*?&\[(.*?)\]", file)[1])
    forms = dict((it, (name, of, more)) for it, name, of, more in re.findall(r'Command::(\w+) => over\("(\w+)", FileSet::(\w+)\)([^\n]*),\n', source))
    if set(order) != set(forms) or set(order) != set(says):
        raise Unread(f"crates/{file}: the commands, their forms and their variants are not the same")
    found = []
    for it in order:
        name, of, more = forms[it]
        numbers = [arguments[one.strip()] for one in re.findall(r"with_numbers\(&\[([^\]]*)\]\)", more) for one in one.split(",")]
        options = [{"name": "--per", **arguments["UNITS"], "value": "N"}] if ".with_per()" in more else []
        options = [{key: value for key, value in one.items()} | {"name": "--per"} for one in options]
        options += [{"name": "--json"}] if ".with_json()" in more else []
        shape = [name, *files[of], *(one["name"] for one in numbers)]
        shape += [f"[{one['name']} {one['value']}]" if "value" in one else f"[{one['name']}]" for one in options]
        found.append({
            "name": name, "usage": " ".join(shape), "files": files[of], "numbers": numbers, "options": options,
            "levels": ".with_levels()" in more, "says": says[it],
        })  # fmt: skip
    usage = need(r'^    b"(usage: [^"]*)"', file)[1].replace("\\n", "\n")
    told = [line.removeprefix("usage:").strip().removeprefix("rp ") for line in usage.splitlines()]
    if told != [it["usage"] for it in found]:
        raise Unread(f"crates/{file}: the usage text is not that of the forms")
    return found


WITHIN = "Within"


def of_front():
    """Returns of each kind of words that `rp-wide` takes besides those of `rp` its parts in the usage text, and what it asks."""
    says = variants("rp_fit_answers/src/asked.rt", "Asked")
    usage = need(r'^        b"(usage: [^"]*)"', "rp_fit_run/src/program.rt")[1].replace("\\n", "\n")
    called = [line.removeprefix("usage:").strip() for line in usage.splitlines()]
    added = need(r'^    all\.extend_from_slice\(\s*b"([^"]*)"', "rp_run_wide/src/hinting.rt")[1].replace("\\n", "\n")
    shapes = [re.findall(r"\[[^]]*\]|\S+", line.removeprefix("rp-wide ")) for line in called]
    if [line.strip() for line in added.splitlines()] != called or [it[0] for it in shapes] != [name.removesuffix(WITHIN).lower() for name in says]:
        raise Unread("the commands of rp-wide alone, their usage texts and what is asked by them are not the same")
    return [(shape, own, name.endswith(WITHIN)) for shape, (name, own) in zip(shapes, says.items())]


def wide_options():
    """Returns the options that `rp-wide` has for commands of `rp`, each with the words in which it stands: the limit of steps."""
    steps = need(r"pub const STEPS: u64 = ([^;]+);", "rp_limits/src/generated.rt")[1]
    half = need(r"pub const SEARCH_STEPS: u64 = STEPS / (\d+);", "rp_generated/src/generated_verdict.rt")[1]
    most = value_of(steps, {}) // int(half)
    return [
        {"command": name, "usage": " ".join([name, *rest]), "name": option, "value": value, "least": 1, "most": whole(most), "says": own}
        for (name, *rest), own, is_within in of_front() if is_within
        for option, value in zip(rest, rest[1:]) if option.startswith("--")
    ]  # fmt: skip


def wide_commands():
    """Returns the commands that `rp-wide` has besides those of `rp`, as its usage text has them."""
    return [
        {
            "name": name, "usage": " ".join([name, *rest]), "files": [it for it in rest if not it.startswith("[")], "numbers": [],
            "options": [{"name": it[1:-1]} for it in rest if it.startswith("[")], "levels": False, "says": own,
        }
        for (name, *rest), own, is_within in of_front() if not is_within
    ]  # fmt: skip


# ---- kinds of files


def kinds():
    """Returns the kinds of files of numbers and of menus: their columns, and the most records."""
    source = text("rp_forms/src/form.rt")
    known = {it["constant"]: int(it["most"]) for it in limits()}
    headers = {role: header for role, header in re.findall(r'Role::(\w+) => b"(\w+)"', source)}
    marks = {(kind, side): mark for side, body in re.findall(r"pub fn (prices|quantities)\(self\).*?match self \{(.*?)\n        \}", source, re.S)
             for kind, mark in re.findall(r'Marks::(\w+) => b"(\w+)"', body)}  # fmt: skip
    found = []
    for name, body in re.findall(r"^    pub fn (\w+)\([^)]*\) -> Form\n(.*?)^    \}", source, re.M | re.S):
        of = re.search(r"marks: Marks::(\w+)", body)[1]
        goods = [f"{marks[of, side]}NAME" for side in ("prices", "quantities") if re.search(rf"\b{side}: true", body)]
        named = [(kind, headers[role]) for kind, role in re.findall(r"(required|optional)\(Role::(\w+)\)", body)]
        found.append({
            "name": name, "columns": goods + [header for kind, header in named if kind == "required"],
            "optional": [header for kind, header in named if kind == "optional"] + [headers["Observation"]],
            "most": value_of(re.search(r"most: (\w+)", body)[1], known),
        })  # fmt: skip
    return found


# ---- faults


def faults():
    """Returns the names with which files and choices are refused: the places that are told, and whose they are."""
    found = {}

    def add(name, of, places, says):
        one = found.setdefault(name, {"name": name, "of": [], "places": [], "says": says})
        if of not in one["of"]:
            one["of"].append(of)
        if places not in one["places"]:
            one["places"].append(places)

    source = text("rp_commands/src/faults.rt")
    for enum, file, of in (
        ("TableFault", "rp_sheet/src/fault.rt", "numbers"),
        ("MenuFault", "rp_menu/src/fault.rt", "menus"),
        ("JsonFault", "rp_json/src/fault.rt", "certificate"),
    ):
        says = variants(file, enum)
        told = dict((it, (name, place)) for it, name, place in re.findall(
            rf'{enum}::(\w+)(?: \{{[^}}]*\}})? =>\s*\{{?\s*told\(b"(\w+)", Place::(\w+)', source))  # fmt: skip
        untold = set(re.findall(rf"{enum}::(\w+) => None", source))
        if set(told) | untold != set(says):
            raise Unread(f"crates/rp_commands/src/faults.rt does not tell each {enum}")
        for it, (name, place) in told.items():
            add(name, of, PLACES[place], says[it])
    add_refusals(add)
    return list(found.values())


def add_refusals(add):
    """Adds what is told beside the faults of files: of a file as a whole, of patches, of rational types, and of units."""
    for file, of, says in (
        ("rp_commands/src/files.rt", "file", "The file has more bytes than are read."),
        ("rp_commands/src/tables.rt", "table", "The table has levels of observations, and the command does not take them."),
    ):
        for name in dict.fromkeys(re.findall(r'refused\(alloc, file, b"(\w+)"\)', text(file))):
            add(name, of, [], says)
    says = {**variants("rp_patch/src/fault.rt", "PatchFault"), **variants("rp_types/src/fault.rt", "TypesFault")}
    for file, of in (("rp_commands/src/patches.rt", "choices"), ("rp_commands/src/units.rt", "menus")):
        for name, place in re.findall(r'b"rp: (\w+)(?: (\w+) |\\n)"', text(file)):
            add(name, of, [place] if place else [], says[name])


# ---- the checker, statuses, certificates and reports


def reasons():
    told = dict(re.findall(r'^reason_name reason\.(\w+) = codes "(\w+)"', text("rp_answers/specs/CheckText.antt"), re.M))
    if list(told) != list(variants("rp_evidence/src/failure.rt", "Reason")):
        raise Unread("the reasons and their names are not the same")
    return list(told.values())


def statuses():
    file = "rp_answers/src/status.rt"
    numbers = {name: int(number) for name, number in re.findall(r"Status::(\w+) => (\d+),", text(file))}
    found = [{"number": numbers[name], "name": name, "of": "program", "says": says} for name, says in variants(file, "Status").items()]
    says, own = need(r"^/// ([^\n]*)\nconst NO_WORDS: u8 = (\d+);", "rp/src/main.rt").groups()
    found.append({"number": int(own), "name": "NoText", "of": "program", "says": says})
    for name, number in re.findall(r"Ending::(\w+) => (\d+),", text("rp_call/src/ending.rt") + text("rp_call/src/calling.rt")):
        if name != "NoText":
            found.append({"number": int(number), "name": name, "of": "library", "says": "The arguments of the call do not fit together."})
    return found


def items():
    """Returns the kinds of certificates, each with the tags of its items and, of each tag, the members that items of it have."""
    tags = {}
    for crate in ("rp_json_tests", "rp_json_programs"):
        for tag in re.findall(r'ghost tag = \{ codes "(\w+)" \}', text(f"{crate}/src/tags.rt")):
            tags[tag] = crate
    names = re.findall(r'^kind_name (\w+) = codes "(\w+)"', text("rp_json/specs/CertificateValue.antt"), re.M)
    fit = re.findall(r'ghost tag = \{ codes "(\w+)" \}', text("rp_json_indices/src/tags.rt"))
    measures = re.findall(r'codes "(\w+)"', text("rp_json_indices/specs/MeasureValue.antt"))
    return {"kinds": [name for _, name in names], "tags": list(tags), "fit": ["efficiency", *(it for it in fit if it not in measures)]}


def reports():
    """Returns the sources of reports, one after the other."""
    whole_text = []
    for it in REPORTS:
        path = f"{TOP}/crates/{it}"
        files = sorted(f"{it}/{name}" for name in os.listdir(path)) if os.path.isdir(path) else [it]
        whole_text += [text(file) for file in files]
    return "\n".join(whole_text)


def verdicts():
    """Returns the words of each verdict, by the name with which its line begins."""
    found = {}

    def add(name, word):
        own = found.setdefault(name, [])
        if word not in own:
            own.append(word)

    source = reports()
    given = set(re.findall(r'(?:mixture_text|violation_text|axiom_text) \(codes "(\w+)"\)', source))
    for name in ("garp", "afriat", "homothetic", "quasilinear", *sorted(given)):
        for word in re.findall(rf'line_of \(codes "{name} (\w+)', source):
            add(name, word)
    shared = re.findall(r'line_of \(name \+\+ codes " (\w+)', text("rp_print/specs/MixtureText.antt"))
    axiom = re.findall(r'line_of \(name \+\+ codes " (\w+)', text("rp_cost/specs/Report.antt"))
    for name in sorted(given):
        for word in axiom if re.search(rf'axiom_text \(codes "{name}"\)', source) else shared:
            add(name, word)
    return found


def lines():
    """Returns the words with which lines of reports begin."""
    source = reports()
    begun = re.findall(r'line_of\s*\(codes "(\w+)', source)
    begun += re.findall(r'^\w+_head \w+ \w+ = codes "(\w+)', source, re.M) + re.findall(r'^asked_text \w+ \w+ = codes "(\w+)', source, re.M)
    begun += re.findall(r'pair_line \(codes "(\w+) "\)', source)
    begun += re.findall(r'^production_head_text \w+ =\s*line_of\s*\(codes "(\w+)', source, re.M)
    return sorted(set(begun) | set(verdicts()))


def fit_lines():
    """Returns the words with which lines of the report of `fit` begin."""
    path = f"{TOP}/crates/rp_fit_report/specs"
    source = "\n".join(text(f"rp_fit_report/specs/{name}") for name in sorted(os.listdir(path)))
    begun = re.findall(r'(?:line_of|range_text)\s*\(codes "(\w+)', source) + re.findall(r'^(?:measure|kind)_text \w+ = codes "(\w+)', source, re.M)
    return sorted({*begun, "efficiency"})


# ---- hints


# What a hint is also given for: a file that is not there, and a certificate that the checker accepts.
BESIDE = {"Missing": "status", "Accepted": "check", "Nothing": "check"}


def panel_faults():
    """Returns the names of faults that panels alone have."""
    whole = re.findall(r'^long_fault_text \(?long_fault\.(\w+)[^=]*= codes "(\w+)', text("rp_panel_run/specs/Told.antt"), re.M)
    rows = re.findall(r'^fault_word \(?(\w+)[^=]*= codes "(\w+)"', text("rp_rows/specs/Faults.antt"), re.M)
    return [name for _, name in whole + rows]


def hints(refused, told, numbered):
    """Returns the hint for each fault, reason and status but the first: what is wrong, and what to do."""
    of = {it["name"]: "fault" for it in refused} | {it["name"]: "status" for it in numbered if it["number"]} | dict.fromkeys(told, "reason")
    of = {**dict.fromkeys(panel_faults(), "fault"), **of, **BESIDE}
    file = "rp_guide/src/hints.rt"
    found = re.findall(r'\(\s*b"(\w+)",\s*b"([^"]+)",?\s*\)', text(file))
    if len(found) != len(of) or {code for code, _ in found} != set(of):
        raise Unread(f"crates/{file} has other codes than there are: {', '.join(sorted({code for code, _ in found} ^ set(of)))}")
    return [dict(zip(("code", "of", "wrong", "do"), (code, of[code], *parted(own)))) for code, own in found]


def parted(own):
    """Returns the first sentence of a text, and the others."""
    wrong, _, rest = own.partition(". ")
    return (f"{wrong}." if rest else own), rest


# ---- programs


PAGES, PANEL_WORDS = "rp_guide/src/texts.rt", "rp_panel_run/specs/Questions.antt"


def panel_page():
    """Returns the lines of the help page of `rp-panel`."""
    page = need(r"const PANEL_PAGES:.*?^\)\];", PAGES)[0].replace(r"\x20", " ")
    return [re.sub(r"^ {8}", "", line) for line in re.findall(r"^(.*)\\n(?:\\|\",)$", page, re.M)]


def panel_options():
    """Returns the options of `rp-panel` in the order of its help page: the words that follow each, and what it does."""
    found = [re.match(r"(--[a-z]+)((?: [A-Z]+)*) {2,}(.*)", line) for line in panel_page()]
    told = [{"name": it[1], "values": it[2].split(), "says": it[3]} for it in found if it]
    taken = set(re.findall(r'codes "(--\w+)"', text(PANEL_WORDS)))
    if {it["name"] for it in told} != taken:
        raise Unread(f"crates/{PAGES} has other options of rp-panel than crates/{PANEL_WORDS}")
    return told


def panel_columns():
    """Returns the columns of the tables of panels: of verdicts, and of bounds on demand and on welfare."""
    verdicts = need(r"^header_fields kept = .*?\[\]\)", "rp_rows/specs/RowText.antt")[0]
    file = "rp_bound_rows/specs/RowText.antt"
    bounds = need(r"^header_fields asked kept = .*?\[\]\)", file)[0]
    about = {name.lower(): word for name, word in re.findall(r'^about_name (\w+) = codes "(\w+)"', text(file), re.M)}
    own = {name: bounds.replace("about_name asked", f'codes "{word}"') for name, word in about.items()}
    return {name: re.findall(r'codes "(\w+)"', it) for name, it in {"verdicts": verdicts, **own}.items()}


def programs(asked):
    """Returns the three programs, each with its commands, its forms of words where it has no commands, and its options beside those."""
    names = [it["name"] for it in asked]
    wide = [it for it in re.findall(r'^        b"(\w+)",$', need(r"const WIDE_PAGES:.*?^\];", PAGES)[0], re.M)]
    if wide != [*names, *(it["name"] for it in wide_commands())]:
        raise Unread(f"crates/{PAGES} has the pages of other commands than there are")
    usage = [line.removeprefix("usage:").strip() for line in panel_page() if re.match(r"(usage:| +)rp-panel|usage: rp-panel", line)]
    return [
        {"name": "rp", "commands": names, "options": []},
        {"name": "rp-wide", "commands": wide, "options": ["--help", "--version"]},
        {"name": "rp-panel", "usage": usage, "options": [*(it["name"] for it in panel_options()), "--help", "--version"]},
    ]


def read():
    refused, told, numbered = faults(), reasons(), statuses()
    return {
        "commands": commands(), "wide_commands": wide_commands(), "wide_options": wide_options(), "kinds": kinds(), "faults": refused, "limits": limits(), "reasons": told, "statuses": numbered,
        "programs": programs(commands()), "panel_options": panel_options(), "panel_columns": panel_columns(), "certificates": items(), "verdicts": verdicts(), "lines": lines(), "fit_lines": fit_lines(), "hints": hints(refused, told, numbered),
    }  # fmt: skip
