"""The program as a library in memory: a call over the bytes of files (`rp.h`), and the wider one, without a process and without a file.

It is taken where it is found: the argument `exe` where that names one, the environment variable RP_LIBRARY, inside the package
(`librp.so`, `rp.dll`), in the unpacked release that the package lies in, or where the system's loader looks; on Windows, whose
loader looks into no folder of the path, in the folders of the path. Any number of threads may call at once, and other threads of
Python run meanwhile.
"""

from __future__ import annotations

import ctypes
import os
import pickle
import sys
import threading
import warnings
from typing import Any, Mapping, Sequence

from . import worker
from .faults import Failed, NoProgram

VARIABLE = "RP_LIBRARY"
NAME = "rp.dll" if sys.platform == "win32" else "librp.so"
# What the system's loader is asked for.
LOADED = [NAME] if sys.platform == "win32" else [NAME, "librp.so.0"]
ROOM = 65_536
# What a process of its own runs: the wider call of a library over what standard input has.
APART = "import sys; sys.path.insert(0, sys.argv[1]); from revealed.library import serve; serve()"
# Statuses that the program has not, and what is said of them.
SAID = {
    8: b"the arguments of the call do not fit together",
    70: b"the library stopped in the middle of the call, which no input is known to do",
}


class Library:
    """A library that was loaded from a path."""

    def __init__(self, path: str) -> None:
        self.path = path
        try:
            loaded = ctypes.CDLL(path)
            self.answer = loaded.rp_answer
        except (OSError, AttributeError, ValueError) as wrong:
            raise NoProgram(f"{path} is no library of rp: {wrong}") from wrong
        # Libraries up to 0.13.0 have not the wider call, and those up to 0.14.0 not that of panels.
        self.wider: Any = getattr(loaded, "rp_answer_wide", None)
        self.panels: Any = getattr(loaded, "rp_panel", None)
        # Libraries up to 0.17.0 do not have this call.
        version: Any = getattr(loaded, "rp_version", None)
        if version is not None:
            version.argtypes, version.restype = [], ctypes.c_char_p
        self.version: str | None = None if version is None else version().decode("ascii", "replace")
        text, size, number = ctypes.c_char_p, ctypes.c_size_t, ctypes.POINTER(ctypes.c_uint64)
        room = ctypes.POINTER(ctypes.c_char)
        for call in filter(None, (self.answer, self.wider, self.panels)):
            call.argtypes = [text, size, text, size, number, size, text, size, room, size, room, size, number, number]
            call.restype = ctypes.c_int32
        self.rooms = threading.local()

    def run(self, program: str, words: Sequence[str], files: Mapping[str, bytes]) -> tuple[int, bytes, bytes]:
        """Returns the status of a call, and what it wrote to standard output and standard error, as a process would."""
        return self._called(self.answer, words, files)

    def run_wide(self, program: str, words: Sequence[str], files: Mapping[str, bytes]) -> tuple[int, bytes, bytes]:
        """Returns the same of the wider call, which the library has to have."""
        return self._called(self.wider, words, files)

    def run_wide_apart(self, program: str, words: Sequence[str], files: Mapping[str, bytes], running: worker.Running | None = None) -> tuple[int, bytes, bytes]:
        """Returns the same of the wider call, which may take long, by a process of its own: Ctrl-C ends that, and cannot end a call in
        this one. Where no process of Python can be started, the call is made here."""
        if not sys.executable:
            return self.run_wide(program, words, files)
        package = os.path.dirname(os.path.dirname(os.path.abspath(__file__)))
        given = pickle.dumps((self.path, list(words), dict(files)))
        status, out, said = worker.waited([sys.executable, "-c", APART, package], "rp-wide", given=given, running=running)
        if status != 0:
            raise Failed(status, said.decode("utf-8", "replace").strip().rpartition("\n")[2])
        found: tuple[int, bytes, bytes] = pickle.loads(out)
        return found

    def run_panel(self, program: str, words: Sequence[str], files: Mapping[str, bytes]) -> tuple[int, bytes, bytes]:
        """Returns the same of the call of panels, which the library has to have."""
        return self._called(self.panels, words, files)

    def _called(self, call: Any, words: Sequence[str], files: Mapping[str, bytes]) -> tuple[int, bytes, bytes]:
        said = b"".join(word.encode() + b"\0" for word in words)
        names = b"".join(name.encode() + b"\0" for name in files)
        sizes = (ctypes.c_uint64 * max(len(files), 1))(*map(len, files.values()))
        data = b"".join(files.values())
        rooms = [getattr(self.rooms, name, None) or ctypes.create_string_buffer(ROOM) for name in ("output", "told")]
        while True:
            self.rooms.output, self.rooms.told = rooms
            lengths = [ctypes.c_uint64(), ctypes.c_uint64()]
            ends = [it for room in rooms for it in (room, len(room))]
            status = call(said, len(said), names, len(names), sizes, len(files), data, len(data), *ends, *map(ctypes.byref, lengths))
            if status in SAID:
                return status, b"", SAID[status]
            if all(length.value <= len(room) for length, room in zip(lengths, rooms)):
                output, told = (ctypes.string_at(room, length.value) for length, room in zip(lengths, rooms))
                return status, output, told
            rooms = [ctypes.create_string_buffer(max(len(room), length.value)) for length, room in zip(lengths, rooms)]


def serve() -> None:
    """Makes the wider call of a library over what standard input has, and writes how it ended to standard output."""
    path, words, files = pickle.load(sys.stdin.buffer)
    sys.stdout.buffer.write(pickle.dumps(Library(path).run_wide(path, words, files)))


class OtherVersion(UserWarning):
    """A library is of another version than this package."""


KNOWN: dict[str, Library] = {}
LOCK = threading.Lock()


def known(path: str) -> Library:
    """Returns the library of a path, which is loaded once."""
    with LOCK:
        if path not in KNOWN:
            KNOWN[path] = Library(path)
            warn_of_version(KNOWN[path])
        return KNOWN[path]


def warn_of_version(of: Library) -> None:
    """Warns of a library of another version than this package."""
    from . import __version__

    if of.version not in (None, __version__):
        said = f"the library {of.path} is of version {of.version}, and the package revealed of version {__version__}: take both of one release"
        warnings.warn(said, OtherVersion, stacklevel=4)


def is_library(named: Any) -> bool:
    """Whether this is the name of a library, and not of a program."""
    try:
        name = os.path.basename(os.fsdecode(os.fspath(named))).lower()
    except (TypeError, ValueError):
        return False
    return name.endswith((".so", ".dll", ".dylib")) or ".so." in name


def find(exe: Any = None) -> Library | None:
    """Returns the library that is asked for by the argument or by RP_LIBRARY, or that is inside the package; None where the
    program is to be taken."""
    if exe is not None and exe != "":
        return known(os.path.abspath(os.fsdecode(os.fspath(exe)))) if is_library(exe) else None
    named = os.environ.get(VARIABLE)
    if named:
        return known(os.path.abspath(named))
    if os.environ.get("RP_EXEC"):
        return None
    own = next(filter(os.path.isfile, places()), None)
    return known(own) if own is not None else None


def release() -> str | None:
    """Returns the folder of the unpacked release that this package lies in, as `clients/python/revealed`, if it does."""
    package = os.path.dirname(os.path.abspath(__file__))
    top = os.path.dirname(os.path.dirname(os.path.dirname(package)))
    is_release = os.path.isfile(os.path.join(top, "PROVED")) and os.path.isdir(os.path.join(top, "clients", "python", "revealed"))
    return top if is_release else None


def places(name: str = NAME) -> list[str]:
    """Returns where a library or a program may be that came with the package."""
    top, package = release(), os.path.dirname(os.path.abspath(__file__))
    return [os.path.join(package, name), *([os.path.join(top, "lib", name), os.path.join(top, name)] if top is not None else [])]


SOUGHT: list[Library | None] = []


def sought() -> list[str]:
    """Returns the names and paths that the system's loader is asked for."""
    if sys.platform != "win32":
        return LOADED
    folders = os.environ.get("PATH", "").split(os.pathsep)
    return [*filter(os.path.isfile, (os.path.join(folder, NAME) for folder in folders if os.path.isabs(folder))), *LOADED]


def of_loader() -> Library | None:
    """Returns the library that the system's loader finds, if there is one. It is asked once."""
    if not SOUGHT:
        found = None
        for name in sought():
            try:
                found = known(name)
                break
            except NoProgram:
                continue
        SOUGHT.append(found)
    return SOUGHT[0]
