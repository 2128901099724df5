"""The sentences on errors, exit codes and reasons in the documents: what is wrong and what to do, as the catalogue has them.

Each of these tables has a code in its first cell, and two sentences of the catalogue beside it. The document decides which rows
there are, and in which order; tools/check/catalogue looks whether all are there.
"""
import re

# The documents, and how their tables begin.
ERRORS, CERTIFICATE = "docs/reference/errors.md", "docs/reference/certificate.md"
TABLES = (
    (ERRORS, "| Exit code |", "status"),
    (ERRORS, "| Code |", "fault"),
    (ERRORS, "| Code of a panel |", "fault"),
    (CERTIFICATE, "| Reason |", "reason"),
)


def with_sentences(table, of, hints, statuses):
    """Returns a table with the sentences of its codes; rows without a hint stay as they are."""
    own = {it["code"]: it for it in hints if it["of"] == of}
    by_number = {str(it["number"]): it["name"] for it in statuses}
    lines = []
    for line in table.splitlines():
        first = line.strip("|").split("|")[0].strip()
        found = re.match(r"`?(\w+)", first)
        code = by_number.get(first, found[1] if found else "")
        lines.append(f"| {first} | {own[code]['wrong']} | {own[code]['do']} |" if code in own else line)
    return "\n".join(lines) + "\n"


def drawn(text, found):
    """Returns the documents with the sentences of a catalogue, by their names; none if the catalogue has no sentences."""
    told = {}
    for file, header, of in TABLES if found.get("hints") else ():
        own = told.get(file) or text(file)
        table = re.search(rf"(?m)^{re.escape(header)}.*\n(?:\|.*\n)+", own)
        if table:
            own = own[: table.start()] + with_sentences(table[0], of, found["hints"], found["statuses"]) + own[table.end() :]
        told[file] = own
    return told
