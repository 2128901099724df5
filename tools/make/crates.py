"""The crates as their README.md describe them, and the two tables of ARCHITECTURE that are made from these descriptions.

The README of a crate begins with its name; then comes what it has, in one paragraph, and the part of the suite that it belongs to
with what is proved of it in short, where it has something to prove:

    # rp_grid

    Rows of equal length in one raw block.

    *Numbers and files*. Proved: rows in one raw block that is used within bounds.

One table has what each crate has, part by part. The other has what is proved, where crates with the same sentence share a row. Both
have the order of crates.txt, where each part stands under its name, and no crate depends on a later one.
"""
import glob
import os
import re

from shared import TOP

PARTS = ["Numbers and files", "Definitions and laws", "Checker", "Texts", "Searches", "Whole results", "Top", "Tests"]
LIST = "crates.txt"
HEAD = re.compile(r"# (\w+)\n\n((?:[^#\n].*\n)+)\n\*([\w ]+)\*\.(?:\s+Proved:\s+((?:.+\n)+?))?(?:\n|\Z)")
# The tables that are drawn: the document, and the row with which its table begins.
ARCHITECTURE = "docs/dev/ARCHITECTURE.md"
PROVED, HAS = (ARCHITECTURE, "| crate | what is proved of it |"), (ARCHITECTURE, "| crate | what it has |")


class Unread(Exception):
    """A document has not the form that is looked for."""


class Crate:
    """What the head of a README says of a crate."""

    def __init__(self, name, text):
        found = HEAD.match(text)
        if not found or found[1] != name or found[3] not in PARTS:
            raise Unread(f"crates/{name}/README.md does not begin with the name, what it has, and one of the parts {', '.join(PARTS)}")
        self.name, self.part = name, found[3]
        self.has, self.proved = (" ".join((it or "").split()).rstrip(".") for it in (found[2], found[4]))


def file_of(name):
    return f"crates/{name}/README.md"


def names():
    """Returns the names of all crates, in the order of crates.txt."""
    with open(f"{TOP}/{LIST}", encoding="utf-8") as it:
        return re.findall(r"(?m)^(\w+)[^:#\n]*:", it.read())


def listed(own):
    """Yields of each line of crates.txt with a crate its name, what it depends on, and the part under whose name it stands."""
    part = None
    for line in own.splitlines():
        if line.removeprefix("# ") in PARTS:
            part = line.removeprefix("# ")
        elif found := re.match(r"(\w+)[^:#]*:([^#]*)", line):
            yield found[1], found[2].split(), part


def read(text):
    """Returns the crates by their documents, of which `text` gives the text of a file."""
    found = []
    for name in names():
        try:
            found.append(Crate(name, text(file_of(name))))
        except FileNotFoundError as lacks:
            raise Unread(f"crates/{name} has no README.md") from lacks
    return found


def rows_of_proved(crates):
    """Returns the rows of what is proved: crates with the same sentence share one, at the place of the first of them."""
    rows = {}
    for it in sorted(crates, key=lambda one: PARTS.index(one.part)):
        if it.proved:
            rows.setdefault(it.proved, []).append(f"`{it.name}`")
    return [f"| {', '.join(own)} | {proved} |" for proved, own in rows.items()]


def rows_of_parts(crates):
    """Returns the rows of what each crate has, under the names of the parts."""
    rows = []
    for part in PARTS:
        rows.append(f"| **{part}** | |")
        rows += [f"| `{it.name}` | {it.has} |" for it in crates if it.part == part]
    return rows


def with_table(text, place, rows):
    """Returns the text of a document with these rows in its table."""
    file, header = place
    found = re.search(re.escape(header) + r"\n\|---\|---\|\n(?:\|.*\n)*", text)
    if not found:
        raise Unread(f"{file} has no table {header}")
    table = "\n".join([header, "|---|---|", *rows]) + "\n"
    return text[: found.start()] + table + text[found.end() :]


def drawn(text):
    """Returns the documents with the tables of crates as they should be, by their names."""
    crates = read(text)
    own = with_table(text(ARCHITECTURE), PROVED, rows_of_proved(crates))
    return {ARCHITECTURE: with_table(own, HAS, rows_of_parts(crates))}


def out_of_order(text):
    """Yields what stands in crates.txt otherwise than crates/*/README.md tell: parts, and crates that depend on later ones."""
    lines = list(listed(text(LIST)))
    later = {name for name, _, _ in lines}
    headings = [part for part in re.findall(r"(?m)^# (.*)$", text(LIST)) if part in PARTS]
    if headings != PARTS:
        yield f"{LIST} has not the parts {', '.join(PARTS)}, in this order"
    parts = {it.name: it.part for it in read(text)}
    for name, below, part in lines:
        later.discard(name)
        if parts.get(name) != part:
            yield f"{LIST} has {name} in another part than {file_of(name)}"
        for it in below:
            if it in later:
                yield f"{LIST} has {name} before {it}, on which it depends"


def resting_on_inner(text):
    """Yields the specs that rest on words for the inner functions of a crate, and are not for these themselves (docs/dev/ARCHITECTURE.md)."""
    for file in sorted(glob.glob("crates/*/specs/**/*.antt", root_dir=TOP, recursive=True)):
        inner = re.search(r"\bspecs\.(Inner\w+)", text(file))
        if inner and not os.path.basename(file).startswith("Inner"):
            yield f"{file} rests on {inner[1]}, which is for the inner functions of a crate"


def wrong(text):
    """Yields what is wrong with the documents of the crates, with the tables, and with what specs rest on."""
    yield from resting_on_inner(text)
    try:
        yield from out_of_order(text)
        told = drawn(text)
    except Unread as lacks:
        yield str(lacks)
        return
    for file, own in told.items():
        if own != text(file):
            yield f"{file} has another table of crates than crates/*/README.md tell: run tools/make/catalogue"
    known = names()
    for name in known:
        own = text(file_of(name))
        for test in sorted(set(re.findall(r"`(tests_\w+)`", own)) - set(known)):
            yield f"{file_of(name)} names {test}, which is no crate"
        for file in sorted(set(re.findall(r"`(?:specs/|proofs/)?(\w+\.antt)`", own))):
            if not any(os.path.isfile(f"{TOP}/crates/{name}/{folder}/{file}") for folder in ("specs", "proofs")):
                yield f"{file_of(name)} names {file}, which is not there"
