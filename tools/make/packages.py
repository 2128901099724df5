"""The packages that stand beside the archive of a release: one for Debian and the systems that come from it, those of Python, and
that of R. tools/make/release makes them, and tools/check/packages installs them. The same files give the same bytes.

The package for Debian has the gate's program as it is, with the library, the header, the manual page and the completion, and
with rp-panel-long, the module of Python that it stands on, and the examples of the documents. It is written here, since dpkg-deb is not on every system: an `ar` archive of two archives, of what is told and of what is installed.
"""
import gzip
import hashlib
import os
import re
import shutil
import subprocess
import sys
import tarfile
import tempfile
import time

from shared import TOP

NAME = "rp"
MACHINE = "lib/x86_64-linux-gnu"
CONTROL = """Package: {name}
Version: {version}
Architecture: amd64
Maintainer: Violetoar maintainers <maintainers@users.noreply.violetoar.example>
Installed-Size: {size}
Depends: libc6 (>= {libc})
Recommends: python3
Section: math
Priority: optional
Description: revealed preference with proved verdicts
 Whether a table of prices and purchases meets the generalized axiom of revealed
 preference, with the efficiency index, the homothetic and the quasilinear test,
 bounds of demand and welfare, and tests of random choices, menus and firms. The
 verdicts are proved, and PROVED among the documents says with what.
 .
 This package has the programs, their library for C with the header, the manual
 pages and the completion for bash; rp-panel makes the table of many households of
 one file, and the command rp-panel-long that of files of any length, over it, with
 the module revealed for Python, on which that stands; and the examples that the
 documents run.
"""
PANEL = """#!/usr/bin/python3
\"\"\"Runs the command of the module revealed.long, which tells what it takes: rp-panel-long --help.\"\"\"
import sys

# Nothing is left in the system's folders that the package has not.
sys.dont_write_bytecode = True
from revealed.long import main

if __name__ == "__main__":
    sys.exit(main())
"""
MODULES = "usr/lib/python3/dist-packages"
COPYRIGHT = """Format: https://www.debian.org/doc/packaging-manuals/copyright-format/1.0/
Upstream-Name: rp
Comment: Into the program and the library parts of other works are linked.
 NOTICE in this folder has the notices of these.

Files: *
Copyright: 2026 the authors of rp
License: MIT or Apache-2.0

"""


def pressed(data):
    """Returns data as gzip has them, without a name and a time."""
    return gzip.compress(data, compresslevel=9, mtime=0)


def ar(members, when):
    """Returns the bytes of an `ar` archive."""
    parts = [b"!<arch>\n"]
    for name, data in members:
        parts.append(f"{name:<16}{when:<12}{0:<6}{0:<6}{'100644':<8}{len(data):<10}`\n".encode() + data + b"\n" * (len(data) % 2))
    return b"".join(parts)


def place(name):
    """Returns where Debian has a file of the C library."""
    return f"usr/{name}" if name.startswith("include/") else f"usr/{MACHINE}/{name.removeprefix('lib/')}"


def of_library(library):
    """Returns the files of the C library where Debian has them; the one for pkg-config tells these places."""
    found = {}
    for name, data in library.items():
        if name.endswith(".pc"):
            text = re.sub(r"(?m)^prefix=.*$", "prefix=/usr", data.decode())
            data = re.sub(r"(?m)^libdir=.*$", f"libdir=${{prefix}}/{MACHINE}", text).encode()
        found[place(name)] = (data, False)
    return found


def debian(entries, programs, library, version, libc, when, archive):
    """Returns the package for Debian by its name, of the files of a release and of the gate's programs by their names."""
    files = {f"usr/bin/{it}": (data, True) for it, data in programs.items()} | of_library(library)
    for it in programs:
        files[f"usr/share/man/man1/{it}.1.gz"] = (pressed(entries[f"share/man/man1/{it}.1"][0]), False)
        files[f"usr/share/bash-completion/completions/{it}"] = entries[f"share/bash-completion/completions/{it}"]
    files["usr/share/zsh/vendor-completions/_rp"] = entries["share/zsh/site-functions/_rp"]
    for it in programs:
        files[f"usr/share/fish/vendor_completions.d/{it}.fish"] = entries["share/fish/vendor_completions.d/rp.fish"]
    folder = f"usr/share/doc/{NAME}"
    documents = ("docs/", "examples/", "clients/panel/", "crates/")
    modules = {"clients/python/revealed/": "", "second/python/verifier/": "verifier/", "clients/panel/long/": "long/"}
    for name in ("NOTICE", "PROVED", "README.md", *(it for it in entries if it.startswith(documents) and not it.startswith(tuple(modules)))):
        files[f"{folder}/{name}"] = entries[name]
    # Among the documents the panel stands where these have it, and is the command.
    files[f"{folder}/clients/panel/rp-panel-long"] = ("../../../../../bin/rp-panel-long", False)
    files["usr/bin/rp-panel-long"] = (PANEL.encode(), True)
    for inside, place in modules.items():
        files.update({f"{MODULES}/revealed/{place}{it.removeprefix(inside)}": entries[it] for it in entries if it.startswith(inside)})
    files[f"{folder}/changelog.gz"] = (pressed(entries["CHANGELOG.md"][0]), False)
    text = entries["LICENSE"][0].decode()
    files[f"{folder}/copyright"] = ((COPYRIGHT + "".join(f" {it}".rstrip() + "\n" if it.strip() else " .\n" for it in text.splitlines())).encode(), False)
    whole = {name: it[0] for name, it in files.items() if not isinstance(it[0], str)}
    size = -(-sum(map(len, whole.values())) // 1024)
    told = {
        "control": CONTROL.format(name=NAME, version=version, size=size, libc=libc),
        "md5sums": "".join(f"{hashlib.md5(whole[it]).hexdigest()}  {it}\n" for it in sorted(whole)),
        "triggers": "activate-noawait ldconfig\n",
    }
    control = {name: (text.encode(), False) for name, text in told.items()}
    members = [("debian-binary", b"2.0\n"), ("control.tar.gz", archive(control, ".", when)), ("data.tar.gz", archive(files, ".", when))]
    return {f"{NAME}_{version}_amd64.deb": ar(members, when)}


# What the package of R has of the library as one C file: a source for each part, and the call that is inside.
R_PART = """/* Part {part} of the library, which is one C file. */
#define RP_PART {part}
#include "onefile/rp.c"
"""
R_MAKEVARS = """# Of the library as C, -O2 takes twice as long to compile and runs a sixth faster, and nobody debugs what was translated.
all: $(SHLIB)
"""
R_RULE = """
part{part}.o: part{part}.c onefile/rp.c onefile/rp.h
\t$(CC) $(ALL_CPPFLAGS) $(ALL_CFLAGS) -O1 -g0 -c part{part}.c -o part{part}.o
"""
R_INSIDE = """/* The library inside the package: the one of onefile/. */
#include "onefile/rp.h"

#include "inside.h"

rp_call *revealed_inside(int which) {
    return which == 2 ? rp_panel : which == 1 ? rp_answer_wide : rp_answer;
}

rp_version_call *revealed_inside_version(void) { return rp_version; }
"""


def r(entries, one_file, parts, notice, proved, when, archive, programs):
    """Returns the source package of R by its name, of the files of a release, with the library as C inside, and its vignette where
    LaTeX is here: the programs, by their names, answer what the vignette asks, so that nothing is compiled for it."""
    top = "clients/r/revealed/"
    own = {name.removeprefix(top): data for name, (data, _) in entries.items() if name.startswith(top)}
    own = built_by_r(own, when, programs) or own
    own |= {f"src/onefile/{name}": one_file[name].encode() for name in ("rp.c", "rp.h")}
    own |= {f"src/part{it}.c": R_PART.format(part=it).encode() for it in range(parts + 1)}
    own["src/Makevars"] = (R_MAKEVARS + "".join(R_RULE.format(part=it) for it in range(parts + 1))).encode()
    own |= {"src/inside.c": R_INSIDE.encode(), "inst/NOTICE": notice.encode(), "inst/PROVED": proved.encode()}
    own["inst/terms/LICENSE"] = entries["LICENSE"][0]
    version = re.search(r"(?m)^Version: (.*)$", own["DESCRIPTION"].decode())[1]
    return {f"revealed_{version}.tar.gz": archive({name: (data, False) for name, data in own.items()}, "revealed", when)}


def built_by_r(files, when, programs):
    """Returns the files as `R CMD build` leaves them, where R is here; what it tells of the time and the user is of the release."""
    if not shutil.which("R"):
        return None
    has_latex = shutil.which("pdflatex") is not None
    if not has_latex:
        print("release: the package for R has no vignette: this machine lacks pdflatex")
    with tempfile.TemporaryDirectory(prefix="rp-r-") as room:
        for name, data in files.items():
            os.makedirs(os.path.dirname(f"{room}/revealed/{name}"), exist_ok=True)
            with open(f"{room}/revealed/{name}", "wb") as it:
                it.write(data)
        for name, data in programs.items():
            with open(f"{room}/{name}", "wb") as it:
                it.write(data)
            os.chmod(f"{room}/{name}", 0o755)
        env = {**os.environ, "RP_EXEC": f"{room}/rp", "RP_LIBRARY": "", "LC_ALL": "C.UTF-8", "TZ": "UTC"}
        env |= {"SOURCE_DATE_EPOCH": str(when), "FORCE_SOURCE_DATE": "1"}
        words = ["R", "CMD", "build", *([] if has_latex else ["--no-build-vignettes"]), "revealed"]
        ran = subprocess.run(words, cwd=room, env=env, stdin=subprocess.DEVNULL, stdout=subprocess.PIPE, stderr=subprocess.STDOUT, text=True)
        packed = [it for it in os.listdir(room) if it.endswith(".tar.gz")]
        if ran.returncode or len(packed) != 1:
            print(f"release: R CMD build ended with {ran.returncode}, so the package for R is as its sources are:\n{ran.stdout[-1000:]}")
            return None
        with tarfile.open(f"{room}/{packed[0]}") as tar:
            found = {it.name.removeprefix("revealed/"): tar.extractfile(it).read() for it in tar if it.isfile()}
    told = time.strftime("%Y-%m-%d %H:%M:%S UTC", time.gmtime(when))
    found["DESCRIPTION"] = re.sub(rb"(?m)^Packaged: .*$", f"Packaged: {told}; release".encode(), found["DESCRIPTION"])
    return found


def python(when, inside=None, notice="", proved=""):
    """Returns the wheel of Python that has this library or program inside, with its NOTICE and its PROVED; the sdist that
    compiles the library, where this is rp.c and rp.h; or where there is none, the sdist without a library; by their names."""
    given = {**(inside or {}), **({"NOTICE": notice.encode(), "PROVED": proved.encode()} if inside else {})}
    with tempfile.TemporaryDirectory(prefix="rp-wheels-") as room:
        os.mkdir(f"{room}/made")
        for name, data in given.items():
            with open(f"{room}/{name}", "wb") as it:
                it.write(data)
        words = [sys.executable, "-B", f"{TOP}/clients/python/wheels.py", f"{room}/made", *(f"{room}/{it}" for it in given)]
        subprocess.run(words, check=True, stdin=subprocess.DEVNULL, stdout=subprocess.DEVNULL, env={**os.environ, "SOURCE_DATE_EPOCH": str(when)})
        found = {}
        for name in sorted(os.listdir(f"{room}/made")):
            with open(f"{room}/made/{name}", "rb") as it:
                found[name] = it.read()
    return found
