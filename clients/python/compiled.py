"""Compiles the library that comes as one C file (`onefile/rp.c`) by the C compiler of this system, through setuptools.

The file is compiled in parts, side by side. Nothing of Python is asked for: the library is loaded by `ctypes`, so the wheel
fits every version of Python on systems of this kind.
"""

import os
import platform
import re
import sys
import sysconfig
import tempfile
from concurrent.futures import ThreadPoolExecutor

NAME = "rp.dll" if sys.platform == "win32" else "librp.so"
# What is given after the flags of the system's own Python; other compilers take these alone.
FLAGS = {"unix": ["-O1", "-g0"], "mingw32": ["-O1", "-g0"]}
# On x86 of 32 bits doubles are rounded after each operation by these alone.
SSE = ["-msse2", "-mfpmath=sse"]
WITHOUT = "--config-settings=library=none installs the package without it, for a program rp or a library that is elsewhere"
# What to install where there is no compiler, by the platform that Python tells.
COMPILERS = {
    "darwin": "install Apple's command line tools (xcode-select --install)",
    "win32": "install the Build Tools for Visual Studio, with the tools for C++",
    "linux": "install one (Debian and Ubuntu: apt install gcc libc6-dev; Fedora: dnf install gcc; Alpine: apk add gcc musl-dev)",
}
# The platforms of which a release has a wheel with the library inside.
HAVE_WHEELS = {("linux", "x86_64"), ("linux", "amd64"), ("win32", "amd64"), ("win32", "x86_64")}


def advice(system=sys.platform, machine=None):
    """Returns what to do where there is no compiler."""
    machine = (machine or platform.machine()).lower()
    does = COMPILERS.get(system, "install a C compiler")
    wheel = ", or take the wheel of the release for this system, which needs no compiler" if (system, machine) in HAVE_WHEELS else ""
    return f"{does} and run pip again{wheel}; {WITHOUT}"


class Failed(Exception):
    """Why there is no library, in one line that says what to do."""


def platform_tag():
    """Returns the name that installers have for this platform."""
    return re.sub(r"[-.\s]", "_", sysconfig.get_platform())


def compiler_here():
    """Returns the system's compiler as setuptools finds it."""
    try:
        import setuptools  # noqa: F401  It brings distutils, which newer Pythons have not.
    except ImportError:
        raise Failed("the library is compiled by setuptools, which is not here: pip install setuptools; " + WITHOUT) from None
    from distutils.ccompiler import new_compiler
    from distutils.sysconfig import customize_compiler

    found = new_compiler()
    customize_compiler(found)
    return found


def in_file(path, pattern):
    with open(path, encoding="utf-8") as it:
        return re.findall(pattern, it.read())


def compiled(folder):
    """Returns the bytes of the library that rp.c of this folder is."""
    parts = int(in_file(f"{folder}/rp.c", r"(?m)^#define RP_PARTS (\d+)$")[0])
    calls = in_file(f"{folder}/rp.h", r"\bint32_t (\w+)\(")
    compiler = compiler_here()
    flags = [*FLAGS.get(compiler.compiler_type, []), *(SSE if re.search(r"linux.i[3-6]86$", sysconfig.get_platform()) else [])]
    with tempfile.TemporaryDirectory(prefix="rp-compiled-") as room:

        def part(number):
            macros = [("RP_PART", str(number))]
            return compiler.compile([f"{folder}/rp.c"], output_dir=f"{room}/{number}", macros=macros, extra_postargs=flags)

        try:
            # The first one alone, because it sets up what the others then share.
            objects = part(0)
            with ThreadPoolExecutor(os.cpu_count() or 1) as pool:
                objects += [it for made in pool.map(part, range(1, parts + 1)) for it in made]
            compiler.link_shared_object(objects, f"{room}/{NAME}", export_symbols=calls)
        except Exception as wrong:
            reason = " ".join(str(wrong).split()) or type(wrong).__name__
            raise Failed(f"rp.c, the library, was not compiled: there is no C compiler that works ({reason}): {advice()}") from None
        with open(f"{room}/{NAME}", "rb") as it:
            return it.read()
