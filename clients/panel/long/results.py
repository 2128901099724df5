"""The results of a long panel while they come: a file of rows, a file of checksums beside it, and perhaps an archive.

The checksums say for each block of households of which bytes its rows are, what the rows are, how many, and where they end. A later
start reads them, takes what stands, and goes on behind it. At the end the files get their names.
"""

from __future__ import annotations

import contextlib
import hashlib
import itertools
import json
import os
import shutil
import struct
import tarfile
from typing import IO, Any, Optional

from .files import Stopped, sum_of

# The checksum of what was asked, that of the rows, where these and the archive's part of them end, and how many rows there are.
ENTRY = struct.Struct("<16s16sQQQ")


def small(data: bytes) -> bytes:
    return hashlib.blake2b(data, digest_size=16).digest()


def put(file: int, data: bytes, name: str) -> None:
    """Writes all of some bytes, and raises OSError with the file's name where they cannot be."""
    view = memoryview(data)
    try:
        while view:
            view = view[os.write(file, view) :]
    except OSError as wrong:
        raise OSError(wrong.errno, wrong.strerror, name) from None


class Results:
    """What is done of a panel. `head` says of what, and has to be the same where a start goes on."""

    def __init__(self, target: str, archive: Optional[str], head: dict[str, Any], first: bytes) -> None:
        self.target, self.archive = target, archive
        self.part, self.sums, self.folder = (f"{target}.part", f"{target}.part.sums", f"{target}.part.blocks")
        self.first = len(first)
        self.head = json.dumps(head, sort_keys=True).encode() + b"\n"
        self.standing: Optional[IO[bytes]] = None
        self.files: list[int] = []
        self.end = self.tar_end = 0
        # How many blocks stand, how many rows, and of each block how many rows and bytes.
        self.count = self.rows = 0
        self.blocks: list[tuple[int, int]] = []
        goes_on = os.path.exists(self.sums)
        for file in (self.sums, self.part, *([f"{archive}.part"] if archive else [])):
            if not goes_on and os.path.lexists(file):
                raise Stopped(f"{file}: this is there already, and no run is known that left it: remove it, or name another file")
            self.files.append(os.open(file, os.O_RDWR | os.O_CREAT | getattr(os, "O_BINARY", 0), 0o666))
        self._alone()
        # Of a run that was killed the files of its processes are left.
        if os.path.isdir(self.folder) and not os.path.islink(self.folder):
            shutil.rmtree(self.folder)
        if not (goes_on and self._stand(first)):
            for place in self.files:
                os.ftruncate(place, 0)
            try:
                put(self.files[0], self.head, self.sums)
                put(self.files[1], first, self.part)
            except OSError:
                self.drop()
                raise
            self.end = len(first)

    def _alone(self) -> None:
        try:
            import fcntl
        except ImportError:
            return
        try:
            fcntl.flock(self.files[0], fcntl.LOCK_EX | fcntl.LOCK_NB)
        except BlockingIOError:
            raise Stopped(f"{self.part}: another run writes it now") from None
        except OSError:
            pass

    def _stand(self, first: bytes) -> bool:
        """Finds what stands of an earlier start, and cuts off what was not written to its end. False where nothing stands."""
        tar_size = os.fstat(self.files[2]).st_size if self.archive else 0
        with open(self.sums, "rb") as sums, open(self.part, "rb") as part:
            head = sums.readline()
            if not head.endswith(b"\n"):
                return False
            if head != self.head:
                raise Stopped(f"{self.part}: this was begun with {self._other(head)}: go on with the same, or remove it and {self.sums}")
            if part.read(len(first)) != first:
                return False
            self.end = len(first)
            for entry in iter(lambda: sums.read(ENTRY.size), b""):
                if len(entry) < ENTRY.size:
                    break
                _, record, end, tar_end, rows = ENTRY.unpack(entry)
                if end <= self.end or tar_end > tar_size or small(part.read(end - self.end)) != record:
                    break
                self.blocks.append((rows, end - self.end))
                self.count, self.rows, self.end, self.tar_end = (self.count + 1, self.rows + rows, end, tar_end)
        for place, length in zip(self.files, [len(head) + self.count * ENTRY.size, self.end, self.tar_end]):
            os.ftruncate(place, length)
            os.lseek(place, 0, os.SEEK_END)
        self.standing = open(self.sums, "rb")
        self.standing.seek(len(head))
        return True

    def known(self) -> Optional[bytes]:
        """Returns the checksum of what was asked of the next block whose rows stand, and None behind the last one."""
        entry = self.standing.read(ENTRY.size) if self.standing is not None else b""
        if len(entry) == ENTRY.size:
            return bytes(entry[:16])
        if self.standing is not None:
            self.standing.close()
            self.standing = None
        return None

    def _other(self, head: bytes) -> str:
        try:
            old, new = json.loads(head), json.loads(self.head)
            return " and ".join(f"another {name}" for name in new if old.get(name) != new[name]) or "other words"
        except ValueError:
            return "other words"

    def add(self, first: int, asked: bytes, rows: bytes, kept: list[tuple[int, list[tuple[str, bytes]]]], count: int) -> None:
        """Writes the rows of a block, of which there are so many after the first ones, and what is kept of them."""
        if self.archive:
            data = b"".join(member(f"{first + at + 1:07}/{name}", it) for at, files in kept for name, it in files)
            put(self.files[2], data, f"{self.archive}.part")
            self.tar_end += len(data)
        self.end += len(rows)
        put(self.files[1], rows, self.part)
        put(self.files[0], ENTRY.pack(asked, small(rows), self.end, self.tar_end, count), self.sums)
        self.blocks.append((count, len(rows)))
        self.count, self.rows = self.count + 1, self.rows + count

    def drop(self) -> None:
        """Removes everything, as where nothing of it is of use."""
        self.close()
        for file in (self.sums, self.part, *([f"{self.archive}.part"] if self.archive else [])):
            os.remove(file)

    def close(self) -> None:
        for place in self.files:
            try:
                os.close(place)
            except OSError:
                pass
        self.files = []
        if self.standing is not None:
            self.standing.close()

    def finish(self, done: Optional[dict[str, Any]]) -> None:
        """Gives the files their names; of a part, with what `gather` has to know of it beside it."""
        if self.archive:
            put(self.files[2], b"\0" * (1024 + -(self.tar_end + 1024) % 10240), f"{self.archive}.part")
        for place in self.files:
            os.fsync(place)
        self.close()
        if done is not None:
            told = {**json.loads(self.head), **done, "first": self.first, "blocks": self.blocks, "sum": sum_of(self.part)}
            with open(f"{self.target}.json.part", "w", encoding="utf-8") as it:
                json.dump(told, it, sort_keys=True)
            os.replace(f"{self.target}.json.part", f"{self.target}.json")
        if self.archive:
            os.replace(f"{self.archive}.part", self.archive)
        os.replace(self.part, self.target)
        os.remove(self.sums)


def member(name: str, data: bytes) -> bytes:
    """Returns a file as a part of an archive of tar."""
    info = tarfile.TarInfo(name)
    info.size, info.mode = len(data), 0o644
    return info.tobuf(tarfile.USTAR_FORMAT) + data + b"\0" * (-len(data) % 512)


def part_name(target: str, part: Optional[tuple[int, int]]) -> str:
    return f"{target}.{part[0]}-of-{part[1]}" if part else target


def done_of(target: str) -> Optional[dict[str, Any]]:
    """Returns what is told beside a finished part, where the part is the one it is told of."""
    try:
        with open(f"{target}.json", encoding="utf-8") as it:
            told = json.load(it)
        return dict(told) if told["sum"] == sum_of(target) else None
    except (OSError, ValueError, KeyError, TypeError):
        return None


def is_apart(target: str) -> bool:
    """Whether a run that did not end had to put the records of households together."""
    try:
        with open(f"{target}.part.sums", "rb") as it:
            return bool(json.loads(it.readline()).get("apart"))
    except (OSError, ValueError, AttributeError):
        return False


def begun(target: str) -> int:
    """Returns how many rows a run that did not end has left, and -1 where there was none."""
    try:
        with open(f"{target}.part.sums", "rb") as it:
            it.readline()
            entries = iter(lambda: it.read(ENTRY.size), b"")
            return sum(ENTRY.unpack(entry)[4] for entry in entries if len(entry) == ENTRY.size)
    except OSError:
        return -1


def through(target: str) -> str:
    """Returns where a result is written: what a link leads to, which stays a link."""
    if not os.path.islink(target):
        return target
    led = os.path.realpath(target)
    if os.path.islink(led):
        raise Stopped(f"{target}: this link leads to itself: name another file")
    return led


def copied(parts: list[str], first: int, blocks: list[list[tuple[int, int]]], file: str) -> None:
    """Writes the names of the columns, which have so many bytes, and the rows of all parts, a block of each in turn."""
    with open(file, "wb") as it, contextlib.ExitStack() as stack:
        opened = [stack.enter_context(open(name, "rb")) for name in parts]
        it.write([own.read(first) for own in opened][0])
        for turn in itertools.zip_longest(*blocks):
            for own, block in zip(opened, turn):
                it.write(own.read(block[1]) if block is not None else b"")
