"""The second checker at a command line, without the program.

usage: python -m revealed.verify TABLE CERT
       python -m revealed.verify BUDGETS CHOICES CERT [--per N]

It says of a certificate on a table or on choices from budgets, or of a report of `pump`, what each item says and whether that is
proved. It ends as `rp check` does: with 0 where no item fails, 1 where one does, 2 with another number of words, 3 where a file cannot be read, 4 where one is
no table or no certificate, and 5 where the answer cannot be written. A certificate without items ends with 0 too, and its first
line says that nothing is proved.
"""

from __future__ import annotations

import sys
from typing import Sequence

from .commands import verify
from .faults import NoFile
from .verifier import NoCertificate, NoTable


USAGE = """usage: python -m revealed.verify TABLE CERT
       python -m revealed.verify BUDGETS CHOICES CERT [--per N]"""

# What is said of a file that is no certificate of this kind.
WHAT_TO_DO = "Use the certificate exactly as the program wrote it: one on a table with TABLE, one on choices with BUDGETS and CHOICES."

# What is said of a file that is no table, and no budgets with choices.
WHAT_TABLE = "Correct the file: docs/reference/files.md describes it, and rp-wide analyse names the row and the column of a table."


def main(words: Sequence[str]) -> int:
    names, per = list(words), None
    if len(names) == 5 and names[3] == "--per" and names[4].isascii() and names[4].isdigit():
        names, per = names[:3], int(names[4])
    if len(names) not in (2, 3):
        print(USAGE, file=sys.stderr)
        return 2
    data = []
    for name in names:
        try:
            with open(name, "rb") as it:
                data.append(it.read())
        except (OSError, ValueError) as wrong:
            print(f"{name} cannot be read: {wrong}", file=sys.stderr)
            return 3
    if data[0].lstrip().startswith(b"{"):
        print(f"refused: {names[0]} is JSON, and not a CSV file of data. Give the data first, and the certificate last.", file=sys.stderr)
        return 4
    try:
        found = verify(data[0] if len(data) == 2 else (data[0], data[1]), data[-1], per=per)
    except NoCertificate as wrong:
        print(f"refused: {names[-1]}: {wrong}. {WHAT_TO_DO}", file=sys.stderr)
        return 4
    except NoTable as wrong:
        print(f"refused: {' or '.join(names[:-1])}: {wrong}. {WHAT_TABLE}", file=sys.stderr)
        return 4
    except (NoFile, ValueError) as wrong:
        print(f"refused: {wrong}", file=sys.stderr)
        return 4
    try:
        print(found, flush=True)
    except OSError as wrong:
        print(f"write failed: {wrong}", file=sys.stderr)
        return 5
    return 0 if found.accepted else 1


if __name__ == "__main__":
    sys.exit(main(sys.argv[1:]))
else:
    # The package has a function of this module's name, which an import of the module leaves in its place.
    sys.modules[__name__] = verify  # type: ignore[assignment]
