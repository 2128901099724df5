"""A call that takes long: it says so on a terminal, and an interruption ends the process that works, and says so."""

import os
import pathlib
import pty
import shutil
import signal
import subprocess
import sys
import tempfile
import time
import unittest

PACKAGE = str(pathlib.Path(__file__).resolve().parent.parent)
RANDOM = """import sys
sys.path.insert(0, sys.argv[1])
import revealed
from revealed import worker
worker.TELLS = 0.2
revealed.random([[1, 2, 4], [2, 1, 4]], [[1, 2, 1, 1], [1, 0, 2, 3], [2, 1, 2, 2], [2, 2, 0, 2]])
"""
# A library that refuses choices, and whose wider edition works until it is ended.
LIBRARY = r"""#include <stdio.h>
#include <stdlib.h>
#include <string.h>
#include <unistd.h>
#include <stdint.h>
#define GIVEN const char *a, size_t b, const char *c, size_t d, const uint64_t *e, size_t f, const char *g, size_t h, \
  char *out, size_t room, char *told, size_t told_room, uint64_t *length, uint64_t *told_length
int32_t rp_answer(GIVEN) {
  strcpy(told, "rp: TooManyTypes\n");
  *length = 0;
  *told_length = strlen(told);
  return 4;
}
int32_t rp_answer_wide(GIVEN) {
  FILE *it = fopen(getenv("WORKS"), "w");
  fprintf(it, "%d\n", (int)getpid());
  fclose(it);
  sleep(120);
  return 0;
}
"""

# Calls that the tests start take interrupts, also where a shell runs the tests in the background, which ignores them.
signal.signal(signal.SIGINT, signal.default_int_handler)


def is_alive(number):
    """Whether a process runs; one that has ended and was not waited for does not."""
    try:
        with open(f"/proc/{number}/stat", encoding="utf-8", errors="replace") as it:
            return it.read().rpartition(")")[2].split()[0] != "Z"
    except OSError:
        return False


@unittest.skipUnless(os.path.isdir("/proc/self") and hasattr(os, "openpty"), "there is no /proc, or no terminal")
class Interrupted(unittest.TestCase):
    def ended(self, **environment):
        """Returns what a terminal was told of a call that is interrupted once it works, and whether what worked still runs."""
        works = os.path.join(self.folder, "works")
        names = ("RP_EXEC", "RP_WIDE", "RP_LIBRARY", "RP_TEST_LIBRARY")
        own = {name: value for name, value in os.environ.items() if name not in names}
        ours, theirs = pty.openpty()
        caller = subprocess.Popen(
            [sys.executable, "-c", RANDOM, PACKAGE], env={**own, **environment, "WORKS": works}, stdin=subprocess.DEVNULL, stderr=theirs, start_new_session=True
        )
        os.close(theirs)
        said = b""
        ends = time.monotonic() + 60
        self.addCleanup(lambda: caller.poll() is None and caller.kill())
        while not (b"has worked for" in said and os.path.exists(works) and os.path.getsize(works)) and time.monotonic() < ends:
            said += os.read(ours, 1000)
        number = int(pathlib.Path(works).read_text(encoding="utf-8"))
        self.assertTrue(is_alive(number))
        caller.send_signal(signal.SIGINT)
        try:
            while True:
                said += os.read(ours, 1000)
        except OSError:
            os.close(ours)
        self.assertNotEqual(caller.wait(60), 0)
        return said.decode(), is_alive(number)

    def setUp(self):
        self.folder = tempfile.mkdtemp(prefix="ein Ordner ")
        self.addCleanup(shutil.rmtree, self.folder)

    def look(self, said, runs, name):
        self.assertRegex(said, rf"{name} has worked for \d+ s; Ctrl-C ends it")
        self.assertRegex(said, rf"KeyboardInterrupt: {name} was ended after \d+ s, and there is no result")
        self.assertFalse(runs)

    def test_the_program_that_works_is_ended(self):
        for name, text in (("rp", "echo 'rp: TooManyTypes' >&2; exit 4"), ("rp-wide", 'echo $$ >"$WORKS"; exec sleep 120')):
            path = pathlib.Path(self.folder) / name
            path.write_text(f"#!/bin/sh\n{text}\n", encoding="utf-8")
            path.chmod(0o755)
        self.look(*self.ended(RP_EXEC=os.path.join(self.folder, "rp")), "rp-wide")

    @unittest.skipUnless(shutil.which("cc"), "there is no C compiler")
    def test_a_library_works_in_a_process_of_its_own_which_is_ended(self):
        path = pathlib.Path(self.folder) / "own.c"
        path.write_text(LIBRARY, encoding="utf-8")
        library = os.path.join(self.folder, "librp.so")
        subprocess.run(["cc", "-shared", "-fPIC", "-o", library, str(path)], check=True)
        self.look(*self.ended(RP_LIBRARY=library), "rp-wide")


if __name__ == "__main__":
    unittest.main()
