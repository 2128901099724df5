"""The notices of what is linked into the files of a release: the kit's libraries, the C library and the compiler's run
time.

The texts are those that stand on the machine which makes the release: of the kit's libraries in the kit, of the rest in
the documents of the system's packages. Where there is none, the notice says so.
"""
import functools
import glob
import os
import re

from shared import TOP, Stopped, kit

DOCUMENTS = "/usr/share/doc"
LICENSES = "/usr/share/common-licenses"
RULE = "-" * 120
# The kit's own parts: its standard library in its pieces, and what it has of C.
OF_KIT = ("core", "io", "libc", "os", "std", "std_alloc", "std_collections", "std_heap", "std_io")
HEAD = """rp is under the licenses of LICENSE. {what} parts of other works are linked, whose notices follow: {names}.
"""
LIBRARIES = "{names}, of the Rattle kit. What it has as the license of {each}:"
KIT = """The Rattle kit's own libraries ({names}), and what these take of C: the kit that this was made with has
no text of a license for them, so none can be repeated here."""
GNU = """The GNU C library {version}: GNU Lesser General Public License, version 2.1 or later. Its source is
that of this version, and of the system's package. With what lies under link/ the program can be linked with another
version:

    {link}

What its package says of it, and the license:
"""
START = """The code by which a program or a library starts, of the GNU C library, which its sources allow to be linked
into any work without further terms. The C library itself is not inside: it is that of the system.
"""
GCC = """GCC's run time (libgcc and the code by which a program starts): GNU General Public License, version 3 or
later, with the GCC Runtime Library Exception, under which it may be linked into any work:
"""
MINGW = """The run time of mingw-w64: what its package says of it.
"""
LLVM = """The functions of LLVM's compiler-rt on whole numbers of 128 bits: Apache License, version 2.0 (it stands in
LICENSE), with the LLVM Exceptions. What their package says of them:
"""
WABT = """What the translated functions stand on, written after that of wasm2c of WABT: Apache License, version 2.0 (it stands in
LICENSE). What its package says of it:
"""


def text(file):
    with open(file, encoding="utf-8", errors="replace") as it:
        return it.read().replace("\r\n", "\n").strip("\n")


@functools.lru_cache(maxsize=None)
def libraries():
    """Returns the kit's libraries that the program and the library's call stand on, and those below them."""
    with open(f"{TOP}/crates.txt", encoding="utf-8") as it:
        rows = [line.partition("#")[0].partition(":") for line in it]
    uses = {head.split()[0]: tail.split() for head, _, tail in rows if head.split()}
    found, left = set(), ["rp", "rp_c"]
    while left:
        name = left.pop()
        if name in found or name in OF_KIT:
            continue
        found.add(name)
        if name in uses:
            left += uses[name]
        else:
            below = re.findall(r"(?m)^dep (\w+)$", text(f"{kit()}/rlibs/{name}.rlib/format"))
            if not below:
                raise Stopped(f"the kit does not tell what its library {name} stands on")
            left += below
    return sorted(found - set(uses))


def license_of(name):
    """Returns the text of a library's license: the MIT License where it is one of two, else all it has; or nothing."""
    files = sorted(glob.glob(f"{kit()}/rattle/{name}/LICENSE*"))
    chosen = [it for it in files if it.endswith("-MIT")] or files
    more = [it for it in files if it not in chosen and not it.endswith("-APACHE")]
    return "\n\n".join(text(it) for it in [*chosen, *more])


def of_kit():
    """Yields a part for each license of the kit's libraries, and one for what has none."""
    under = {}
    for name in libraries():
        under.setdefault(license_of(name), []).append(name)
    for words, names in sorted(under.items(), key=lambda it: it[1]):
        if words:
            head = LIBRARIES.format(names=", ".join(names), each="each" if len(names) > 1 else "it")
            yield ", ".join(names), f"{wrapped(head)}\n\n{words}"
    yield "the Rattle kit", wrapped(KIT.format(names=", ".join(sorted([*OF_KIT, *under.get("", [])]))))


def of_package(package, pick=lambda it: it):
    """Returns what the package of the system says of its licenses, or what `pick` takes of it."""
    file = f"{DOCUMENTS}/{package}/copyright"
    if not os.path.exists(file):
        return f"(The machine that made this has no {file}.)"
    return pick(text(file))


def exception(words):
    """Returns the GCC Runtime Library Exception out of what the package of GCC says."""
    found = re.search(r"(?ms)^GCC RUNTIME LIBRARY EXCEPTION\n.*?requirements of the license of GCC\.$", words)
    return found[0] if found else words


def first(words):
    """Returns the first two paragraphs of what a package says: on what, and on all that is not named further below."""
    return "\n\n".join(words.split("\n\n")[:2])


def glibc(package, version, link):
    head = GNU.format(version=version, link=link)
    lesser = f"{LICENSES}/LGPL-2.1"
    whole = text(lesser) if os.path.exists(lesser) else f"(The machine that made this has no {lesser}.)"
    return "the GNU C library", f"{head}\n{of_package(package)}\n\n{whole}"


def gcc(package):
    return "GCC's run time", f"{GCC}\n{of_package(package, exception)}"


def joined(what, parts):
    """Returns the text of NOTICE."""
    parts = [*of_kit(), *parts]
    head = HEAD.format(what=what, names="; ".join(name for name, _ in parts))
    return "\n".join(f"{it.rstrip()}\n\n{RULE}\n" for it in [wrapped(head), *(words for _, words in parts)])


def wrapped(paragraph):
    """Returns a paragraph in lines of at most 118 columns."""
    lines = [""]
    for word in paragraph.split():
        if len(lines[-1]) + len(word) > 117:
            lines.append("")
        lines[-1] = f"{lines[-1]} {word}".strip()
    return "\n".join(lines)


def linux(version, link):
    """The notice of the archive for Linux, whose program has the C library inside."""
    parts = [glibc("libc6-dev", version, link), gcc("libgcc-12-dev")]
    return joined("Into the programs and the libraries of this archive", parts)


def shared():
    """The notice of what takes the C library of the system: the package for Debian, and the wheel for Linux."""
    parts = [("the start of a program", START), gcc("libgcc-12-dev")]
    return joined("Into the program and the library of this package", parts)


def arm(version, link):
    """The notice of the archive for Linux on ARM."""
    parts = [glibc("libc6-dev-arm64-cross", version, link), gcc("libgcc-12-dev-arm64-cross")]
    return joined("Into the program of this archive", parts)


def windows():
    """The notice of the archive and of the wheel for Windows."""
    run_time = ("the run time of mingw-w64", f"{MINGW}\n{of_package('mingw-w64-x86-64-dev')}")
    return joined("Into rp.exe and rp.dll", [run_time, gcc("gcc-mingw-w64-base")])


def web():
    """The notice of the archive for the web, and of the page."""
    run_time = ("LLVM's compiler-rt", f"{LLVM}\n{of_package('libclang-rt-14-dev-wasm64', first)}")
    return joined("Into the module of WebAssembly, rp.wasm, which rp.html has inside,", [run_time])


def one_file():
    """The notice of the library as one C file."""
    llvm = ("LLVM's compiler-rt", f"{LLVM}\n{of_package('libclang-rt-14-dev-wasm64', first)}")
    wabt = ("WABT", f"{WABT}\n{of_package('wabt')}")
    return joined("Into the module of WebAssembly that rp.c is translated from, and into the code around it,", [llvm, wabt])
