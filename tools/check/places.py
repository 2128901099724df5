"""Where the facts of the catalogue stand outside of the proved sources, and how each is told there.

A place is a file, or a part of it, with the facts of one kind: for each a pattern that has to be found, and, where the place is to
have no others, what finds all that it has.
"""
import re

CAMEL = r"[A-Z][a-z]+(?:[A-Z][a-z]+)+"
# What ./rp and the library as one C file add to the statuses, and what is no limit that a user meets.
OF_THE_SCRIPT, INNER = "70", {"walk.observations"}
# What is found nowhere: a limit or a line that has no phrase here yet.
NEVER = r"(?!)"


class Place:
    """`needs` has a pattern for each fact by its name; `found` gives the names that a text has, where others are too many."""

    def __init__(self, file, kind, needs, found=None, part=None, made_up="unheard"):
        self.file, self.kind, self.needs, self.found, self.part, self.made_up = file, kind, needs, found, part, made_up

    def own(self, text):
        """Returns the part of the file, or nothing where there is none such."""
        if self.part is None:
            return text
        match = re.search(self.part, text, re.M | re.S)
        return match[0] if match else ""

    def wrong(self, text):
        """Returns what is wrong with it."""
        own = self.own(text)
        if not own:
            return [f"{self.file} has no part {self.part} for {self.kind}"]
        lacks = [name for name, pattern in self.needs.items() if not re.search(pattern, own, re.M)]
        more = sorted(set(self.found(own)) - {name.split()[0] for name in self.needs}) if self.found else []
        return [f"{self.file} lacks of {self.kind}: {it}" for it in lacks] + [f"{self.file} has too many of {self.kind}: {it}" for it in more]


def all_of(pattern):
    """Returns what finds all first groups of a pattern."""
    return lambda text: [it if isinstance(it, str) else next(filter(None, it), "") for it in re.findall(pattern, text, re.M)]


def quoted(text):
    return re.escape(text)


def number(value):
    """Returns the ways in which a number is written."""
    ways = {str(value), f"{value:,}"}
    if value & (value - 1) == 0 and value > 2**16:
        ways.add(f"2^{value.bit_length() - 1}")
    words = "no one two three four five six seven eight nine ten".split()
    return "(?:" + "|".join(sorted(map(re.escape, ways | ({words[value]} if value < len(words) else set())), key=len, reverse=True)) + ")"


def said(facts, phrases):
    """Returns the patterns of limits by the phrases around them, where {} is the number."""
    most = {it["name"]: int(it["most"]) for it in facts["limits"]}
    return {name: re.sub(r"\\ |\s", r"\\s+", quoted(phrase)).replace(r"\{\}", number(most[name])) for name, phrase in phrases.items()}


LIMITS = {
    "table.records": "| observations of a table | 1 to {} |", "table.goods": "| goods | 1 to {} |", "table.places": "| decimal places | at most {} |",
    "table.largest": "| a number after scaling | at most {} |", "table.largest_expenditure": "after scaling | at most {} |",
    "table.level_scale": "| efficiency level `e` | 1 to {} |", "table.name_bytes": "| name of a good | 1 to {} bytes |",
    "table.new_records": "bundles or outputs | 1 to {} |", "table.budgets": "| budgets | 1 to {} |", "table.choices": "and of menus | 1 to {} |",
    "menu.letters": "| letters of a menu | one to {} |", "menu.cells": "| cells of menus | at most {} |", "patch.patches": "| patches | at most {} |",
    "generated.patches": "| patches, by `rp-wide` | at most {} |", "patch.places": "| patches, by `rp-wide` | at most {} |",
    "patch.units": "| units of a budget or a menu | at most {} |", "types.combinations": "| combinations of patches | at most {};",
    "types.types": "| rational types | at most {};", "generated.steps": "searches and check together | at most {} |",
    "command_line.draws": "| behaviours of `power` | 1 to {} |", "command_line.rows": "| observations of `trial` | 1 to {} |",
    "run.bytes": "| a file | at most {} bytes |", "run.certificate_bytes": "| a certificate | at most {} bytes |",
    "long.bytes": "| a long file of a panel | at most {} bytes |", "long.records": "| rows of a long file | at most {} |",
    "long.household_bytes": "| an id | at most {} bytes |",
}  # fmt: skip
FILES_LIMITS = {
    "table.records": "1 to {} observations of 1 to", "table.goods": "of 1 to {} goods", "table.name_bytes": "NAME has 1 to {} bytes",
    "table.places": "At most {} decimal places are taken", "table.largest": "scaled numbers are at most {}", "table.level_scale": "thousandths, from 1 to {} |",
    "table.largest_expenditure": "scaled `m` and `w` are at most {}", "table.new_records": "| outputs | `w_NAME` for each input; `y` | 1 to {} |",
    "table.budgets": "the income, above 0 | 1 to {} |", "table.choices": "The file has 1 to {} rows", "run.bytes": "A file has at most {} bytes",
    "menu.cells": "at most {} cells", "menu.letters": "one to {} letters", "long.bytes": "file has at most {} bytes", "long.records": "{} rows, and ids",
    "long.household_bytes": "ids of {} bytes",
}  # fmt: skip
CERTIFICATE_LIMITS = {"run.certificate_bytes": "a file of at most {} bytes", "generated.steps": "tries at most {} beginnings"}
RANDOM_LIMITS = {
    "patch.patches": "more than {} patches up to", "patch.units": "passes {} |", "types.combinations": "more than {} combinations",
    "types.types": "more than {} rational types", "generated.patches": "`rp-wide`: {} |", "generated.steps": "check together make at most {} steps",
}  # fmt: skip
# The page on which a line of reports is explained, for lines that more than one command prints, or that no command is named for.
PAGE_OF_LINE = {
    "analyse": "above afriat at below cycle efficiency garp homothetic lambda levels observations quasilinear ranks start utility values",
    "check": "accepted rejected", "demand": "demand good inner lower none strict upper", "welfare": "welfare", "pump": "pump",
    "menus": "alternatives menus sums", "random": "apportioned budgets part random weights", "cost": "bounds cost profit technology",
    "pairs": "pair", "power": "power", "trial": "trial",
}  # fmt: skip
WORDS_OF = {"analyse": ("garp", "afriat", "homothetic", "quasilinear"), "menus": ("menus",), "random": ("random",), "cost": ("cost", "profit")}
MANUAL_LIMITS = {
    "table.records": "A table has at most {} observations", "table.goods": "observations of {} goods. It", "command_line.rows": "1 to {} observations",
    "command_line.draws": "1 to {}, random behaviours", "patch.units": "units, 1 to {},",
}  # fmt: skip
STATA_LIMITS = {"table.places": "min({}, 7 - `whole')", "table.largest": "> {}, `allowed' - 1", "table.level_scale": "; {} is the whole of what was spent"}


def of_documents(facts):
    commands, statuses = facts["commands"], [it for it in facts["statuses"] if it["of"] == "program"]
    reasons = facts["reasons"]
    rows = {it["name"]: rf"^\| `rp {quoted(it['usage'])}` \|" for it in commands}
    told = {f"{it['name']} {' '.join(own)}".strip(): rf"`(?:rp: (?:NAME: )?)?{it['name']}{''.join(f' {place} [A-Z]' for place in own)}`"
            for it in facts["faults"] for own in it["places"]}  # fmt: skip
    numbers = {str(it["number"]): rf"^\| {it['number']} \|" for it in statuses}
    words = {f"{name} {word}": rf"`{name} {word}\b" for name, own in facts["verdicts"].items() for word in own}
    columns = {f"{kind['name']} {it}": rf"`{quoted(it)}`" for kind in facts["kinds"] for it in kind["columns"] + kind["optional"]}
    row = all_of(r"^\| `rp (\w+)")
    yield Place("docs/reference/README.md", "commands", rows, row)
    for it in commands:
        page = f"docs/reference/rp-{it['name']}.md"
        yield Place(page, "usage", {it["name"]: rf"^rp {quoted(it['usage'])}(?: >.*)?$"})
        yield Place(page, "sessions", {it["name"]: rf"^\$ \./rp {it['name']} "})
    for it in facts["wide_commands"]:
        page = f"docs/reference/rp-{it['name']}.md"
        yield Place("docs/reference/README.md", "commands of rp-wide", {it["name"]: rf"^\| `rp-wide {quoted(it['usage'])}` \|"})
        yield Place(page, "usage", {it["name"]: rf"^rp-wide {quoted(it['usage'])}(?: >.*)?$"})
        yield Place(page, "sessions", {it["name"]: rf"^\$ \./rp-wide {it['name']} "})
        yield Place("release/rp-wide.1", "commands", {it["name"]: rf"^\.B[IR]? {it['name']}\b"})
    for it in facts["wide_options"]:
        page = f"docs/reference/rp-{it['command']}.md"
        yield Place("docs/reference/README.md", "commands of rp-wide", {it["usage"]: rf"^\| `rp-wide {quoted(it['usage'])}` \|"})
        yield Place(page, "usage", {it["usage"]: rf"^rp-wide {quoted(it['usage'])}(?: >.*)?$"})
        yield Place(page, "options of rp-wide", {it["name"]: rf"^\| `{it['name']} {it['value']}` \|"})
        yield Place("crates/rp_guide/src/texts.rt", "help pages", {it["usage"]: rf'b"{it["command"]}",\s*b"usage: [^"]*rp-wide {quoted(it["usage"])}\\n'})
    yield from of_errors(facts, told, numbers)
    yield Place("crates/rp_guide/src/texts.rt", "help pages", {it["name"]: rf'b"{it["name"]}",\s*b"usage: rp-wide {quoted(it["usage"])}\\n' for it in [*commands, *facts["wide_commands"]]},
                all_of(r'^ *b"(\w+)",$'))  # fmt: skip
    unsaid = [it["name"] for it in facts["limits"] if it["name"] not in {*LIMITS, *INNER}]
    yield Place("docs/reference/limits.md", "limits", {**said(facts, LIMITS), **{it: NEVER for it in unsaid}})
    for page, phrases in {"files": FILES_LIMITS, "certificate": CERTIFICATE_LIMITS, "rp-random": RANDOM_LIMITS}.items():
        yield Place(f"docs/reference/{page}.md", "limits", said(facts, phrases))
    yield Place("docs/reference/files.md", "columns", columns)
    certificate, tags = "docs/reference/certificate.md", facts["certificates"]["tags"]
    yield Place(certificate, "reasons", {it: rf"^\| `{it}` \|" for it in reasons}, all_of(r"^\| `(\w+)` \|"), r"^\| Reason \|.*?^$", "UnheardOf")
    yield Place(certificate, "reasons in order", {it: rf"`{it}`" for it in reasons}, all_of(r"`([A-Z][a-z]\w*)`"), r"^## The order of checks.*", "UnheardOf")
    yield Place(certificate, "items of certificates", {it: rf'"item":"{it}"' for it in tags}, all_of(r'"item":"(\w+)"'))
    yield Place(certificate, "kinds of certificates", {it: rf'"kind":"{it}"|is\s+`"{it}"`' for it in [*facts["certificates"]["kinds"], "fit"]})
    for page in ("rp-fit", "rp-checkfit"):
        yield Place(f"docs/reference/{page}.md", "items on goodness of fit", {it: rf"^\| `{it}` \|" for it in facts["certificates"]["fit"]},
                    all_of(r"^\| `(\w+)` \|"), r"^\| Item \|.*?^$")  # fmt: skip
    for page, own in PAGE_OF_LINE.items():
        yield Place(f"docs/reference/rp-{page}.md", "lines of reports", {it: rf"^\|.*`{it}\b" for it in own.split()})
    yield Place("docs/reference/rp-fit.md", "lines of reports", {it: rf"^\|.*`{it}\b" for it in facts["fit_lines"]})
    placed = {it for own in PAGE_OF_LINE.values() for it in own.split()}
    yield Place("docs/reference/rp-analyse.md", "lines of all reports", {it: NEVER for it in facts["lines"] if it not in placed} or {"garp": "`garp"})
    for page, own in WORDS_OF.items():
        yield Place(f"docs/reference/rp-{page}.md", "words of verdicts", {it: rf"`{it}\b" for it in words if it.split()[0] in own})
    yield Place("docs/explain/tests.md", "verdicts", {it: rf"^\| `{it}` \|" for it in [*facts["verdicts"], "efficiency", "pump"]},
                all_of(r"^\| `(\w+)` \|"), r"^\| Verdict \| What it says.*?^$")  # fmt: skip
    yield Place("docs/dev/PROVED.md", "programs", {"rp": r"clauses of the top call `run`", "rp-wide": r"`run_wide`", "rp-panel": r"`run_panel`"})
    yield Place("docs/dev/DEFINITIONS.md", "programs", {"rp-panel": r"`rp_long/Panels`"})
    yield Place("docs/howto/referee.md", "items of certificates", {it: rf'`"{it}"`' for it in tags})


def of_errors(facts, told, numbers):
    """Yields what the page of error messages has to say."""
    page, commands, faults = "docs/reference/errors.md", facts["commands"], {it["name"] for it in facts["faults"]}
    code = all_of(rf"^\| `({CAMEL}|Empty|Ragged|Unpaired)\b")
    yield Place(page, "usage", {it["name"]: rf"^(?:usage:|      ) rp {quoted(it['usage'])}$" for it in commands},
                all_of(r"^(?:usage:|      ) rp (\w+)"), r"^usage: rp .*?^\$")  # fmt: skip
    yield Place(page, "errors", told, code, r"^\| Code \|.*?^$", "UnheardOf")
    yield Place(page, "exit codes", numbers, all_of(r"^\| (\d+) \|"), r"^\| Exit code \|.*?^$", "99")
    yield Place(page, "errors by programs", {}, lambda own: set(code(own)) - faults, r"^\| You see \|.*?^$", "UnheardOf")


def of_release(facts):
    commands, statuses = facts["commands"], facts["statuses"]
    names = [it["name"] for it in commands]
    plain = {it["name"]: re.sub(r"[A-Z-]+", lambda word: word[0], it["usage"]) for it in commands}

    def synopsis(usage):
        """The line of the manual with its changes of font."""
        name, *rest = re.findall(r"\[[^]]*\]|\S+", usage)
        files = [it for it in rest if not it.startswith("[")]
        line = rf"\\fBrp {name}\\fR" + (rf" \\fI{' '.join(files)}\\fR" if files else "")
        for it in rest:
            if it.startswith("["):
                option, *value = it[1:-1].replace("-", r"\\-").split()
                line += rf" \[\\fB{option}\\fR" + (rf" \\fI{value[0]}\\fR" if value else "") + r"\]"
        return rf"^{line}$"

    options = sorted({one["name"] for it in commands for one in it["options"]})
    yield Place("release/rp.1", "usage", {it: synopsis(usage) for it, usage in plain.items()}, all_of(r"^\\fBrp (\w+)"), r"^\.SH SYNOPSIS.*?^\.fi")
    yield Place("release/rp.1", "commands", {it: rf"^\.B[IR]? {it}\b" for it in names}, all_of(r"^\.TP\n\.B[IR]? (\w+)"), r"^\.SH COMMANDS.*?^\.SH OPTIONS")
    yield Place("release/rp.1", "options", {it: rf"^\.BI? {quoted(it.replace('-', chr(92) + '-'))}(?: |$)" for it in options})
    yield Place("release/rp.1", "statuses", {str(it["number"]): rf"^\.B {it['number']}$" for it in statuses if it["of"] == "program"},
                all_of(r"^\.B (\d+)$"), r"^\.SH EXIT STATUS.*?^\.SH", "99")  # fmt: skip
    yield Place("release/rp.1", "limits", said(facts, MANUAL_LIMITS))
    for page in ("rp", "rp-panel"):
        yield Place(f"release/{page}.1", "the word -", {"not standard input": r"not standard input"})
    yield Place("release/rp.bash", "commands", {it: rf'-W "[a-z ]*\b{it}\b' for it in names}, lambda own: " ".join(re.findall(r'-W "([a-z ]*)"', own)).split())
    for it in commands:
        own = [re.escape(one["name"]) for one in it["options"]]
        if own:
            case = rf"^ *(?:\w+ \| )*{it['name']}(?: \| \w+)*\) options=\""
            yield Place("release/rp.bash", f"options of {it['name']}", {one: case + rf"[^\"]*{one}\b" for one in own})
    yield Place(
        "library/rp.h",
        "statuses",
        {str(it["number"]): rf"^    RP_\w+ = {it['number']}\b" for it in statuses},
        lambda own: set(all_of(r"^    RP_\w+ = (\d+)")(own)) - {OF_THE_SCRIPT},
        None,
        "99",
    )


def of_clients(facts):
    names, faults = [it["name"] for it in facts["commands"]], [it["name"] for it in facts["faults"]]
    kinds = {it["name"]: it["columns"] for it in facts["kinds"]}
    shown = ["table", "budgets", "choices", "menus", "technology", "asked"]
    # What is wrong and what to do, which the clients and the page take from there.
    said_of = {("fault", it) for it in faults} | {("reason", it) for it in facts["reasons"]}
    yield Place("docs/catalogue.json", "sentences", {f"{of} {it}": rf'"code": "{it}", "of": "{of}", "wrong": "[A-Z]' for of, it in sorted(said_of)})
    for name, own in facts["verdicts"].items():
        told = all_of(rf'"item": "{name}", "verdict": "(\w+)"')
        yield Place("docs/sentences.json", f"sentences on {name}", {it: rf'"item": "{name}", "verdict": "{it}"' for it in own},
                    lambda text, told=told: set(told(text)) - {"bounds"}, None, "unheard")  # fmt: skip
    yield Place("page/main.js", "columns", {f"{kind} {it}": rf"\b{quoted(it)}\b" for kind in shown for it in kinds[kind]})
    yield Place("clients/python/revealed/__init__.py", "commands", {it: rf'^    "{it}",' for it in names if not it.startswith("check")} |
                {"check": r"^    check,", "checkrandom": r"^    checkrandom,"})  # fmt: skip
    yield Place("clients/python/README.md", "commands", {it: rf"^\| `(?:\w+\(.*?\)` \| `)?{it}[`(]" for it in names})
    yield Place("clients/r/revealed/NAMESPACE", "commands", {it: rf"\brp_{it}\b" for it in names})
    yield Place("clients/r/README.md", "commands", {it: rf"`rp_{it}[`(]" for it in names})
    yield Place("clients/stata/rptest.ado", "limits", said(facts, STATA_LIMITS))
    words = {word for name in ("garp", "afriat", "homothetic", "quasilinear") for word in facts["verdicts"][name]}
    yield Place("clients/stata/rptest.sh", "words of verdicts", {it: rf'== "{it}"' for it in sorted(words)})


def places(facts):
    """Yields all places."""
    yield from of_documents(facts)
    yield from of_release(facts)
    yield from of_clients(facts)
