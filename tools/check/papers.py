"""What a release carries beside the program: one version and one date, papers that are cited alike, and both licenses whole."""
import hashlib
import re
import shutil
import subprocess

from shared import TOP, loaded

# The text of the Apache License 2.0 as Debian has it, from its first line to its last.
APACHE = "cfc7749b96f63bd31c3c42b5c471bf756814053e847c10f3eb003417bc523d30"
# Where the version stands beside CHANGELOG.md, and after what.
RELEASE = r"rp[-_](\d[\d.]*\d)[-_](?:x86_64|amd64|web)"
VERSIONS = {
    "README.md": RELEASE,
    "docs/howto/install.md": RELEASE,
    "page/README.md": RELEASE,
    "clients/python/pyproject.toml": r'^version = "(.*)"$',
    "clients/python/revealed/__init__.py": r'^__version__ = "(.*)"$',
    "clients/r/revealed/DESCRIPTION": r"^Version: (\S+)$",
    "clients/r/revealed/inst/CITATION": r'"(\d+(?:\.\d+)+)"',
    "clients/r/revealed/man/rp_program.Rd": RELEASE,
    "clients/stata/rptest.ado": r"^\*! version (\S+)",
    "crates/rp_guide/src/texts.rt": r'b"rp-(?:wide|panel) (\d+(?:\.\d+)+)\\n"',
}


def found(pattern, text):
    """Returns the groups of the first match, or none where there is no match."""
    match = re.search(pattern, text, re.M)
    return match.groups() if match else ()


def of_versions(text):
    """Yields what is wrong with versions and dates; `text` gives the text of a file."""
    changes = text("CHANGELOG.md")
    heading = found(r"^## (\d\S*) \((\d{4}-\d\d-\d\d)\)$", changes)
    if not heading:
        yield "CHANGELOG.md has no heading '## VERSION (DATE)'"
    if changes.find("## Not yet released\n") not in range(0, max(changes.find("\n## "), 0) + 2):
        yield "CHANGELOG.md has not '## Not yet released' above the last version"
    citation = text("CITATION.cff")
    cited = (*found(r"^version: (\S+)$", citation), *found(r"^date-released: (\S+)$", citation))
    if cited != heading:
        yield f"CITATION.cff has {' of '.join(cited)}, and CHANGELOG.md {' of '.join(heading)}"
    for page, title in (("rp.1", "RP"), ("rp-wide.1", "RP-WIDE")):
        manual = found(rf'^\.TH {title} 1 (\S+) "rp (\S+)"', text(f"release/{page}"))[::-1]
        if manual != heading:
            yield f"release/{page} has {' of '.join(manual)}, and CHANGELOG.md {' of '.join(heading)}"
    for file, pattern in VERSIONS.items():
        versions = set(re.findall(pattern, text(file), re.M))
        if versions != set(heading[:1]):
            yield f"{file} has the version {', '.join(sorted(versions)) or 'of none'}, and CHANGELOG.md {' of '.join(heading)}"


def of_release(text):
    """Yields whether a release does not stop while changes wait for a version."""
    release = loaded(f"{TOP}/tools/make/release")
    named = "## 1.2.3 (2026-01-02)\n\n- one\n"
    for waiting, stops in (("", False), ("## Not yet released\n\n", False), ("## Not yet released\n\n- two\n\n", True)):
        try:
            stopped = release.named(f"# Changes\n\n{waiting}{named}") != ("1.2.3", "2026-01-02")
        except release.Stopped:
            stopped = True
        if stopped != stops:
            yield f"tools/make/release {'stops' if stopped else 'does not stop'} at {waiting!r}"


def of_manual(text):
    """Yields what groff says of the manual pages, where it is there."""
    for page in ("rp.1", "rp-wide.1") if shutil.which("groff") else ():
        ran = subprocess.run(["groff", "-man", "-ww", "-z"], input=text(f"release/{page}"), capture_output=True, text=True)
        if ran.returncode or ran.stderr:
            yield f"groff says of release/{page}: {ran.stderr}"


def of_sources(text):
    """Yields papers of CITATION.cff that docs/dev/DEFINITIONS.md has not among its sources, or at another place."""
    plain = " ".join(re.sub(r"[*_]", "", text("docs/dev/DEFINITIONS.md")).split())
    entries = re.split(r"(?m)^  - type: ", text("CITATION.cff").partition("references:\n")[2])[1:]
    if not entries:
        yield "CITATION.cff has no references"
    for entry in entries:
        title, year, start, end, journal, volume = (
            (re.search(rf"(?m)^    {name}: \"?(.*?)\"?$", entry) or [None, ""])[1] for name in ("title", "year", "start", "end", "journal", "volume")
        )
        family = re.search(r"family-names: (.*)", entry)[1]
        source = re.search(rf"{re.escape(family)}, (?:(?!\(\d{{4}}\)).)*\({year}\)\. {re.escape(title)}.*?(?= - |$)", plain)
        if not source:
            yield f"docs/dev/DEFINITIONS.md has no source {family} ({year}), {title}"
        elif journal and f"{journal} {volume}, {start}–{end}" not in source[0]:
            yield f"{family} ({year}): its place differs in the two files"


def of_license(text):
    license_text = text("LICENSE")
    if "SPDX-License-Identifier: MIT OR Apache-2.0\n" not in license_text:
        yield "LICENSE does not name its licenses"
    if "MIT License\n\nPermission is hereby granted, free of charge" not in license_text:
        yield "LICENSE lacks the MIT License"
    apache = license_text[license_text.find("\n                                 Apache License") :]
    if hashlib.sha256(apache.encode()).hexdigest() != APACHE:
        yield "LICENSE lacks the Apache License 2.0, or has it changed"


def wrong(text):
    """Yields all that is wrong."""
    for check in (of_versions, of_release, of_manual, of_sources, of_license):
        yield from check(text)
