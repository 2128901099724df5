"""Builds the package's wheels and its sdist with the standard library alone (PEP 517), so that pip needs no network and no other
package. The same sources give the same bytes.

usage: wheels.py FOLDER [FILE..]

Without files it writes the sdist alone: a wheel for every platform has no library inside, and pip would take it before the sdist that
compiles one. With the library `librp.so` or `rp.dll`, or the
program `rp` or `rp.exe`, it writes the wheel of that platform, which has them inside, and among its own documents the
files `NOTICE` and `PROVED` of a release where they are given. pip gives them by `--config-settings=library=FILE`,
`program=FILE` and `told=FILE`; where it is given none in an unpacked release, the library of that release goes inside.
With `rp.c` and `rp.h`, the library as one C file, it writes the sdist that has these inside, with NOTICE and PROVED beside
them: pip compiles the library of it (`compiled.py`), unless `--config-settings=library=none` says not to.
"""

import base64
import gzip
import hashlib
import io
import os
import re
import sys
import tarfile
import time
import zipfile

import compiled

NAME = "revealed"
HERE = os.path.dirname(os.path.abspath(__file__))
ONE_FILE = os.path.join(HERE, "onefile")  # of an sdist that compiles the library
OLDEST = (2, 17)  # of what needs no version of the C library: the oldest that installers have a name for
MACHINES = {62: "x86_64", 183: "aarch64"}
# What has a folder of its own in the repository and in a release, and is inside the package elsewhere.
PARTS = {f"{NAME}/verifier": os.path.join("second", "python", "verifier"), f"{NAME}/long": os.path.join("clients", "panel", "long")}
COMMANDS = "[console_scripts]\nrp-panel-long = revealed.long:main\n"
METADATA = """Metadata-Version: 2.1
Name: {name}
Version: {version}
Summary: Revealed preference with proved verdicts: the program rp from Python, and a second checker
License: MIT OR Apache-2.0
Requires-Python: >=3.9
Provides-Extra: frames
Requires-Dist: pandas; extra == 'frames'
Provides-Extra: pictures
Requires-Dist: matplotlib; extra == 'pictures'
Description-Content-Type: text/markdown

{readme}"""


def get_requires_for_build_wheel(config_settings=None):
    """Returns what a build wants beside this: setuptools where the library is compiled."""
    return ["setuptools"] if is_compiled(config_settings) else []


def is_compiled(config_settings=None):
    """Whether the library is compiled here: it came as a C file, and nothing else is given, nor is it refused."""
    return os.path.exists(os.path.join(ONE_FILE, "rp.c")) and not {"library", "program"} & set(config_settings or {})


def prepare_metadata_for_build_wheel(metadata_directory, config_settings=None):
    """Writes what installers ask before they build, so that nothing is compiled for it, and returns its name."""
    info = f"{NAME}-{version()}.dist-info"
    os.makedirs(os.path.join(metadata_directory, info))
    for name, data in {"METADATA": metadata(), "WHEEL": wheel_of(is_compiled(config_settings), "any")}.items():
        with open(os.path.join(metadata_directory, info, name), "wb") as it:
            it.write(data)
    return info


def build_wheel(wheel_directory, config_settings=None, metadata_directory=None):
    """Writes the wheel into a folder, and returns its name."""
    given = [it for name in ("library", "program", "told") for it in listed((config_settings or {}).get(name))]
    files = [it for it in given if it != "none"]
    if not is_compiled(config_settings):
        return write_wheel(wheel_directory, files if given else of_release())
    try:
        made = {compiled.NAME: compiled.compiled(ONE_FILE)}
    except compiled.Failed as wrong:
        raise SystemExit(f"revealed: {wrong}") from None
    told = [os.path.join(ONE_FILE, it) for it in ("NOTICE", "PROVED") if os.path.exists(os.path.join(ONE_FILE, it))]
    return write_wheel(wheel_directory, [*files, *told], made, compiled.platform_tag())


def of_release():
    """Returns the library of the unpacked release that this file lies in, with what is told of it; nothing elsewhere."""
    top = os.path.join(HERE, "..", "..")
    told = [os.path.join(top, name) for name in ("NOTICE", "PROVED")]
    inside = [os.path.join(top, name) for name in (os.path.join("lib", "librp.so"), "rp.dll")]
    found = [it for it in inside if os.path.isfile(it)]
    return [*found[:1], *told] if found and all(map(os.path.isfile, told)) else []


def build_sdist(sdist_directory, config_settings=None, extra=()):
    """Writes the sdist into a folder, and returns its name; these files stand in its folder of the library as one C file."""
    top = f"{NAME}-{version()}"
    files = {f"{top}/PKG-INFO": metadata()}
    for name in ("README.md", "compiled.py", "pyproject.toml", "wheels.py"):
        files[f"{top}/{name}"] = bytes_of(os.path.join(HERE, name))
    files.update({f"{top}/{name}": data for name, data in own_license()})
    files.update({f"{top}/onefile/{os.path.basename(it)}": bytes_of(it) for it in extra})
    for folder in (NAME, "tests", "data", "onefile"):
        files.update({f"{top}/{name}": data for name, data in sources(folder)})
    packed = io.BytesIO()
    with tarfile.open(fileobj=packed, mode="w", format=tarfile.USTAR_FORMAT) as tar:
        for name, data in sorted(files.items()):
            head = tarfile.TarInfo(name)
            head.size, head.mode, head.mtime = len(data), 0o644, when()
            tar.addfile(head, io.BytesIO(data))
    with open(os.path.join(sdist_directory, f"{top}.tar.gz"), "wb") as it:
        with gzip.GzipFile(filename="", fileobj=it, mode="wb", compresslevel=9, mtime=0) as pressed:
            pressed.write(packed.getvalue())
    return f"{top}.tar.gz"


def write_wheel(folder, extra=(), made=None, of_platform=None):
    """Writes the wheel with these libraries and programs inside, and returns its name; those that were compiled here are
    given as bytes, with the name of the platform."""
    inside = {**{os.path.basename(it): bytes_of(it) for it in extra}, **(made or {})}
    told = {name: inside.pop(name) for name in ("NOTICE", "PROVED") if name in inside}
    tags = {of_platform} if of_platform else {tag_of(name, data) for name, data in inside.items()} or {"any"}
    if len(tags) > 1 and not all(it.startswith("manylinux") for it in tags):
        raise SystemExit(f"wheels: these are of several platforms: {sorted(tags)}")
    tag = max(tags, key=lambda it: tuple(map(int, re.findall(r"\d+", it))))
    info = f"{NAME}-{version()}.dist-info"
    files = dict(sources(NAME))
    files.update({f"{NAME}/{name}": data for name, data in inside.items()})
    files.update({f"{info}/{name}": data for name, data in [*own_license(), *told.items()]})
    files[f"{info}/METADATA"] = metadata()
    files[f"{info}/entry_points.txt"] = COMMANDS.encode()
    files[f"{info}/WHEEL"] = wheel_of(bool(inside), tag)
    record = "".join(f"{name},sha256={digest(data)},{len(data)}\n" for name, data in sorted(files.items()))
    files[f"{info}/RECORD"] = f"{record}{info}/RECORD,,\n".encode()
    wheel = f"{NAME}-{version()}-py3-none-{tag}.whl"
    date = time.gmtime(max(when(), 315532800))[:6]
    with zipfile.ZipFile(os.path.join(folder, wheel), "w", zipfile.ZIP_DEFLATED) as it:
        for name, data in sorted(files.items()):
            head = zipfile.ZipInfo(name, date)
            runs = name in {f"{NAME}/{it}" for it in ("rp", "rp-wide", "rp-panel", "rp.exe", "rp-wide.exe", "rp-panel.exe")}
            head.external_attr, head.compress_type, head.create_system = (0o100755 if runs else 0o100644) << 16, zipfile.ZIP_DEFLATED, 3
            it.writestr(head, data)
    return wheel


def wheel_of(has_inside, tag):
    """Returns the text of the file WHEEL."""
    return f"Wheel-Version: 1.0\nGenerator: wheels\nRoot-Is-Purelib: {'false' if has_inside else 'true'}\nTag: py3-none-{tag}\n".encode()


def tag_of(name, data):
    """Returns the platform that a library or a program is of, as installers name it."""
    if data.startswith(b"MZ"):
        return "win_amd64"
    machine = MACHINES.get(int.from_bytes(data[18:20], "little"))
    if not data.startswith(b"\x7fELF") or machine is None:
        raise SystemExit(f"wheels: {name} is neither of Linux nor of Windows")
    needed = [tuple(map(int, it.split(b".")))[:2] for it in re.findall(rb"GLIBC_(\d+\.\d+)[\d.]*\0", data)]
    return "manylinux_{}_{}_{}".format(*max([OLDEST, *needed]), machine)


def version():
    """Returns the version that the package says."""
    return re.search(r'(?m)^__version__ = "(.*)"$', bytes_of(os.path.join(HERE, NAME, "__init__.py")).decode())[1]


def metadata():
    return METADATA.format(name=NAME, version=version(), readme=bytes_of(os.path.join(HERE, "README.md")).decode()).encode()


def own_license():
    """Returns the file LICENSE, which stands beside this one in the sdist, else at the top of a release or the sources."""
    for folder in (HERE, os.path.join(HERE, "..", "..")):
        if os.path.exists(os.path.join(folder, "LICENSE")):
            return [("LICENSE", bytes_of(os.path.join(folder, "LICENSE")))]
    return []


def sources(top):
    """Yields the files of a folder of the package by their names there, with the parts that have a folder of their own elsewhere."""
    yield from under(os.path.join(HERE, top), top)
    for name, place in PARTS.items():
        if name.startswith(f"{top}/") and not os.path.isdir(os.path.join(HERE, name)):
            folder = os.path.join(HERE, "..", "..", place)
            if not os.path.isdir(folder):
                raise SystemExit(f"wheels: {place} is not there, a part of the package: take the whole repository, or the whole release")
            yield from under(folder, name)


def under(place, top):
    """Yields the files under a folder, by their names under another; what was made by running them is left out."""
    for folder, folders, names in os.walk(place):
        folders[:] = sorted(it for it in folders if it != "__pycache__")
        for name in sorted(names):
            path = os.path.join(folder, name)
            if not name.endswith((".pyc", ".so", ".dll")):
                yield f"{top}/{os.path.relpath(path, place)}".replace(os.sep, "/"), bytes_of(path)


def listed(files):
    return [files] if isinstance(files, str) else list(files or [])


def bytes_of(path):
    with open(path, "rb") as it:
        return it.read()


def when():
    """Returns the time that files get: what SOURCE_DATE_EPOCH says, else the beginning of 2026."""
    return int(os.environ.get("SOURCE_DATE_EPOCH", 1767225600))


def digest(data):
    return base64.urlsafe_b64encode(hashlib.sha256(data).digest()).rstrip(b"=").decode()


if __name__ == "__main__":
    if len(sys.argv) < 2 or sys.argv[1].startswith("-"):
        raise SystemExit(__doc__)
    if any(os.path.basename(it) == "rp.c" for it in sys.argv[2:]):
        print(build_sdist(sys.argv[1], extra=sys.argv[2:]))
        sys.exit()
    print(write_wheel(sys.argv[1], sys.argv[2:]) if sys.argv[2:] else build_sdist(sys.argv[1]))
