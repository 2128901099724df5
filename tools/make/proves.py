"""What each kind of item of a certificate proves, for the help pages of `rp-wide check` and `rp-wide checkrandom`.

The sentences are those of docs/sentences.json, each of which has its clause there (`tools/make/sentences --check` looks that each
clause stands in its file). They are written into the pages of crates/rp_guide/src/texts.rt between two markers.
"""
import json
import re
import textwrap

SOURCE, PAGES = "docs/sentences.json", "crates/rp_guide/src/texts.rt"
ITEMS = {"check": ("garp", "afriat", "efficiency", "homothetic", "quasilinear", "demand", "welfare"), "checkrandom": ("random",)}
# What ends each list.
ENDS = {
    "check": "A value that is left out (withheld) proves nothing. With efficiency levels (a column e), garp and afriat are about "
    "the part of each expenditure that its level names; the other items do not use levels.",
    "checkrandom": "A verdict that is left out (withheld) proves nothing.",
}
WIDTH = 96


def filled(said):
    """Returns a sentence with the names of members in place of their values, and without pointing at a report below it."""
    said = re.sub(r" The parts below are [^.]*\.", "", said).replace("{about}", "").replace("numbers below", "numbers")
    return re.sub(r"\{(\w+)\}", lambda found: {"index": "LEVEL"}.get(found[1], found[1].upper()), said)


def entries(sentences, command):
    """Yields the head of each entry of a command's list, and what is proved."""
    for item in ITEMS[command]:
        for own in sentences:
            bound = own.get("bound", "")
            if own["item"] == item and not own.get("levels") and "withheld" not in (own["verdict"], *bound.split()):
                rounded = ["with --per N"] if own.get("apportioned") else []
                yield ", ".join([f"{item} {own['verdict']}", *([bound] if bound else []), *rounded]), filled(own["says"])


def lines(sentences, command):
    """Returns the lines of the list of a command, one for a head and others for what is proved."""
    found = ["What an accepted item proves, for exactly these data:", ""]
    for head, said in entries(sentences, command):
        found += [head, *textwrap.wrap(said, WIDTH, initial_indent="    ", subsequent_indent="    ")]
    return [*found, "", *textwrap.wrap(ENDS[command], WIDTH)]


def literal(own):
    """Returns lines as those of a byte string of the sources."""
    kept = [re.sub(r"^ ", r"\\x20", it).replace('"', r"\"") for it in own]
    return "".join(f"            {it}\\n\\\n" for it in kept)


def drawn(text):
    """Returns the pages with the lists, by the name of their file."""
    sentences, own = json.loads(text(SOURCE))["sentences"], text(PAGES)
    for command in ITEMS:
        part = re.compile(
            rf'(?s)(\n        b"{command}",\n        b"usage: (?:.(?!What an accepted))*?\\n\\\n            \\n\\\n)            What an accepted.*?",\n'
        )
        body = literal(lines(sentences, command))
        own = part.sub(lambda it: it[1] + body.removesuffix("\\n\\\n") + '\\n",\n', own)
    return {PAGES: own}
