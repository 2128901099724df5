"""One run of the program over files, in a folder of their own. A run that takes long says so on a terminal, and Ctrl-C ends it."""

from __future__ import annotations

import os
import subprocess
import sys
import tempfile
import threading
import time
from typing import Mapping, Sequence

# After so many seconds a terminal is told that a run goes on, and again after as many.
TELLS = 5.0


class Running:
    """The processes of several threads that work for one call: `end` ends all of them, and each that starts later."""

    def __init__(self) -> None:
        self.lock = threading.Lock()
        self.processes: set[subprocess.Popen[bytes]] = set()
        self.is_ended = False

    def add(self, process: subprocess.Popen[bytes]) -> None:
        with self.lock:
            self.processes.add(process)
            if self.is_ended:
                process.kill()

    def discard(self, process: subprocess.Popen[bytes]) -> None:
        with self.lock:
            self.processes.discard(process)

    def end(self) -> None:
        with self.lock:
            self.is_ended = True
            for process in self.processes:
                process.kill()


def run(program: str, words: Sequence[str], files: Mapping[str, bytes], running: Running | None = None) -> tuple[int, bytes, bytes]:
    """Returns the status of a call, and what it wrote to standard output and standard error. The folder is its own."""
    with tempfile.TemporaryDirectory(prefix="revealed-") as folder:
        return run_in(folder, program, words, files, running)


def run_in(folder: str, program: str, words: Sequence[str], files: Mapping[str, bytes], running: Running | None = None) -> tuple[int, bytes, bytes]:
    for name, data in files.items():
        with open(os.path.join(folder, name), "wb") as it:
            it.write(data)
    return waited([program, *words], os.path.basename(program), folder, running=running)


def waited(words: Sequence[str], name: str, folder: str | None = None, given: bytes = b"", running: Running | None = None) -> tuple[int, bytes, bytes]:
    """Returns how a process ended that gets these bytes. If the wait for it is interrupted, the process is ended, and that is said."""
    process = subprocess.Popen(words, cwd=folder, stdin=subprocess.PIPE, stdout=subprocess.PIPE, stderr=subprocess.PIPE)
    began, told, rest = time.monotonic(), False, given or None
    running = running or Running()
    running.add(process)
    try:
        while True:
            try:
                out, said = process.communicate(rest, timeout=TELLS)
                return process.returncode, out, said
            except subprocess.TimeoutExpired:
                rest = None
                told = tells(name, time.monotonic() - began) or told
    except KeyboardInterrupt:
        raise KeyboardInterrupt(f"{name} was ended after {time.monotonic() - began:.0f} s, and there is no result") from None
    finally:
        if process.poll() is None:
            process.kill()
            process.communicate()
        running.discard(process)
        if told:
            sys.stderr.write("\r" + " " * WIDTH + "\r")


WIDTH = 79


def tells(name: str, seconds: float) -> bool:
    """Says how long a run has taken, where somebody looks at a terminal or a notebook; whether it did."""
    is_seen = sys.stderr is not None and (sys.stderr.isatty() or "ipykernel" in sys.modules)
    if not is_seen or threading.current_thread() is not threading.main_thread():
        return False
    sys.stderr.write(f"\r{name} has worked for {seconds:.0f} s; Ctrl-C ends it".ljust(WIDTH))
    sys.stderr.flush()
    return True
