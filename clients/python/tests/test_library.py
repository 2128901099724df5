"""The library in place of the program: the same answers, from memory. It is what RP_TEST_LIBRARY names; without it most is left out."""

import ctypes.util
import os
import pathlib
import random
import shutil
import subprocess
import sys
import tempfile
import threading
import unittest
import warnings

import revealed
from revealed import NoProgram, Refused, folders, library, program

LIBRARY = os.environ.get("RP_TEST_LIBRARY", "")
P, Q = [[1, 2], [2, 1]], [[1, 2], [2, 1]]
BUDGETS = {"p_a": [1, 2], "p_b": [2, 1], "w": [4, 4]}
CHOICES = {"budget": [1, 1, 2, 2], "q_a": [2, 0, 1, 2], "q_b": [1, 2, 2, 0], "n": [1, 3, 2, 2]}
# Products on the way pass 2^127 - 1, so rp withholds the homothetic verdict.
LONG = [[4194304, 1], [1, 3145727], [1, 4194304]], [[2097151, 4194304], [1747627, 2796203], [4194304, 2097151]]
FIRM = {"y": [1, 2], "p": [5, 4], "w_a": [1, 2], "w_b": [2, 1], "x_a": [2, 2], "x_b": [1, 2]}


class Found(unittest.TestCase):
    def setUp(self):
        self.before = {name: os.environ.pop(name, None) for name in ("RP_EXEC", "RP_LIBRARY")}

    def tearDown(self):
        for name, value in self.before.items():
            os.environ.pop(name, None)
            if value is not None:
                os.environ[name] = value

    def test_names_of_libraries(self):
        for name, so in [
            ("librp.so", True),
            ("a/librp.so.0", True),
            ("RP.DLL", True),
            ("librp.dylib", True),
            ("rp", False),
            ("so", False),
            ("rp.exe", False),
            (5, False),
            (None, False),
            (b"x.so", True),
        ]:
            self.assertEqual(library.is_library(name), so, name)

    def test_what_is_no_library(self):
        with tempfile.TemporaryDirectory() as folder:
            path = pathlib.Path(folder) / "librp.so"
            path.write_bytes(b"no library")
            others = [path, "/nowhere/librp.so", "a\x00b.so", *filter(None, [ctypes.util.find_library("c")])]
            for other in others:
                with self.assertRaises(NoProgram):
                    revealed.analyse(P, Q, exe=other)
            os.environ["RP_LIBRARY"] = str(path)
            with self.assertRaises(NoProgram):
                revealed.analyse(P, Q)

    def test_a_program_that_is_named_comes_first(self):
        os.environ["RP_EXEC"] = sys.executable
        self.assertEqual(program.way(), (None, os.path.abspath(sys.executable)))
        self.assertEqual(program.way(sys.executable)[0], None)

    def test_a_library_of_another_version_gives_a_warning(self):
        class Own:
            path = "/somewhere/librp.so"

        for version, count in [("0.0.1", 1), (revealed.__version__, 0), (None, 0)]:
            Own.version = version
            with warnings.catch_warnings(record=True) as caught:
                warnings.simplefilter("always")
                library.warn_of_version(Own)
            self.assertEqual(len(caught), count, version)
            self.assertTrue(all("/somewhere/librp.so is of version 0.0.1" in str(it.message) for it in caught))

    @unittest.skipUnless(LIBRARY, "there is no library")
    def test_the_library_tells_its_version(self):
        own = library.known(os.path.abspath(LIBRARY))
        if own.version is None:
            self.skipTest("the library is of 0.17.0 or earlier")
        self.assertEqual(own.version, revealed.__version__)
        self.assertEqual(program.version(LIBRARY), revealed.__version__)
        self.assertIsNone(program.version(sys.executable))

    @unittest.skipUnless(LIBRARY, "there is no library")
    def test_the_library_that_is_named(self):
        os.environ["RP_EXEC"] = sys.executable
        self.assertEqual(program.way(LIBRARY)[1], os.path.abspath(LIBRARY))
        os.environ["RP_LIBRARY"] = LIBRARY
        self.assertEqual(program.way()[1], os.path.abspath(LIBRARY))
        self.assertFalse(revealed.analyse(P, Q).garp)


# What Windows has is put in the place of what is here: the name of the system, the loader, the path and the start of a program.
WINDOWS = """
import ctypes, os, pathlib, shutil, subprocess, sys, tempfile

class Call:
    def __call__(self, words, *others):
        return 8

class Dll:
    def __init__(self, path):
        if not os.path.isfile(path):
            raise OSError(path)
        self.rp_answer = Call()

started = []

class Start:
    returncode = 4

    def __init__(self, words, **how):
        started.append((words, how))

    def communicate(self, given, timeout):
        return b"", b"rp: table.csv: TooLong"

    def poll(self):
        return self.returncode

where = lambda name, *more: next((it for it in (os.path.join(at, str(name)) for at in [*os.environ["PATH"].split(os.pathsep), ""]) if os.path.isfile(it)), None)
sys.platform, ctypes.CDLL, shutil.which, subprocess.Popen = "win32", Dll, where, Start
import revealed
from revealed import library, program
assert (library.NAME, program.NAME) == ("rp.dll", "rp.exe")
folder = pathlib.Path(sys.argv[1])
one, other = folder / "one", folder / "other"
for it in (one, other):
    it.mkdir()
os.environ["PATH"] = os.pathsep.join(["", str(one), str(other)])
try:
    program.way()
    raise AssertionError("something was found")
except revealed.NoProgram as wrong:
    assert "rp.exe" in str(wrong) and "rp.dll" in str(wrong), wrong
library.SOUGHT.clear()
(other / "rp.exe").write_bytes(b"MZ")
assert program.way() == (None, str(other / "rp.exe")), program.way()
try:
    revealed.analyse([[1]], [[1]])
except revealed.Refused as refused:
    assert refused.fault == "TooLong"
(words, how), = started
assert words == [str(other / "rp.exe"), "certify", "table.csv"] and "shell" not in how, (words, how)
library.SOUGHT.clear()
(one / "rp.dll").write_bytes(b"MZ")
assert program.way()[1] == str(one / "rp.dll"), program.way()
assert program.way(str(other / "rp.exe")) == (None, str(other / "rp.exe"))
assert program.way(str(one / "RP.DLL".lower()))[1] == str(one / "rp.dll")
os.environ["RP_LIBRARY"] = str(one / "rp.dll")
assert program.way()[1] == str(one / "rp.dll")
"""


class OnWindows(unittest.TestCase):
    """The paths of Windows, where this was not tried."""

    def test_they_are_found_and_called_without_a_shell(self):
        env = {name: value for name, value in os.environ.items() if name not in ("RP_EXEC", "RP_LIBRARY")}
        env["PYTHONPATH"] = str(pathlib.Path(revealed.__file__).parents[1])
        with tempfile.TemporaryDirectory() as folder:
            ran = subprocess.run([sys.executable, "-c", WINDOWS, folder], cwd=os.sep, env=env, stdin=subprocess.DEVNULL, capture_output=True, text=True)
        self.assertEqual(ran.returncode, 0, ran.stderr)


class InARelease(unittest.TestCase):
    """The package as an unpacked release has it."""

    def test_the_program_and_the_library_of_the_release_are_found(self):
        own = pathlib.Path(revealed.__file__).parent
        env = {name: value for name, value in os.environ.items() if name not in ("RP_EXEC", "RP_LIBRARY")}
        with tempfile.TemporaryDirectory() as folder:
            top = pathlib.Path(folder) / "rp-0-x86_64-linux"
            parts = {own: "clients/python/revealed"}
            for name, place in folders.PARTS.items():
                if not (own / name).is_dir():
                    parts[pathlib.Path(folders.TOP, place, name)] = f"{place}/{name}"
            for part, place in parts.items():
                shutil.copytree(part, top / place, ignore=shutil.ignore_patterns("__pycache__", "*.so", "rp"))
            for name in ("rp", "lib/librp.so"):
                (top / name).parent.mkdir(exist_ok=True)
                (top / name).write_bytes(b"#!/bin/sh\n")
                (top / name).chmod(0o755)
            code = "from revealed import library, program; print(program.find(), library.places()[1:])"
            env.update(PYTHONPATH=str(top / "clients/python"), PATH="/nowhere")
            said = [self.said(code, env)]
            (top / "PROVED").write_bytes(b"")
            said.append(self.said(code, env))
        # without PROVED it is no release: a repository has its script in that place
        self.assertIn("NoProgram", said[0])
        self.assertEqual(said[1], f"{top}/rp ['{top}/lib/librp.so', '{top}/librp.so']")

    def said(self, code, env):
        ran = subprocess.run([sys.executable, "-B", "-c", code], cwd=os.sep, env=env, stdin=subprocess.DEVNULL, capture_output=True, text=True)
        return ran.stdout.strip() or ran.stderr


@unittest.skipUnless(LIBRARY, "there is no library")
class Answers(unittest.TestCase):
    def both(self, call):
        """Returns what a call gives by the library, after seeing that it gives the same by the program."""
        answers = []
        for exe in (LIBRARY, os.environ["RP_EXEC"]):
            try:
                found = call(exe)
                answers.append(getattr(found, "report", None) or getattr(getattr(found, "certificate", found), "data", None) or repr(found))
            except revealed.Problem as problem:
                answers.append((type(problem), str(problem)))
        self.assertEqual(answers[0], answers[1])
        return answers[0]

    def test_every_command(self):
        for call in (
            lambda exe: revealed.analyse(P, Q, exe=exe),
            lambda exe: revealed.analyse(P, Q, levels=[799, 1000], exe=exe),
            lambda exe: revealed.pairs(P, Q, exe=exe),
            lambda exe: revealed.pump(P, Q, exe=exe),
            lambda exe: revealed.power(P, Q, seed=7, exe=exe),
            lambda exe: revealed.trial(7, 30, 3, exe=exe),
            lambda exe: revealed.demand(P, [[2, 1], [1, 2]], [1, 1], 3, exe=exe),
            lambda exe: revealed.welfare(P, [[2, 1], [1, 2]], [1, 1], exe=exe),
            lambda exe: revealed.utility(P, [[2, 1], [1, 2]], [1, 1], exe=exe),
            lambda exe: revealed.random(BUDGETS, CHOICES, exe=exe),
            lambda exe: revealed.random(BUDGETS, CHOICES, per=7, exe=exe),
            lambda exe: revealed.patches(BUDGETS, CHOICES, exe=exe),
            lambda exe: revealed.analyse(*LONG, exe=exe, wide=False),
            lambda exe: revealed.menus([["ab", "a", 1], ["ab", "b", 2]], exe=exe),
            lambda exe: revealed.cost(FIRM, {"w_a": 1, "w_b": 1, "y": 3}, exe=exe),
            lambda exe: revealed.check((P, Q), revealed.certify(P, Q), exe=exe),
            lambda exe: revealed.check((P, Q), revealed.certify(P, [[2, 1], [1, 2]]), exe=exe),
        ):
            self.assertIsNotNone(self.both(call))

    def test_the_wider_call(self):
        self.assertIsNotNone(library.known(os.path.abspath(LIBRARY)).wider)
        with_library = revealed.analyse(*LONG, exe=LIBRARY)
        self.assertEqual((with_library.homothetic, with_library.wide), (True, ["homothetic"]))
        self.assertTrue(revealed.check(LONG, with_library, exe=LIBRARY))
        if program.wide_way(os.environ["RP_EXEC"]):
            self.both(lambda exe: revealed.analyse(*LONG, exe=exe))

    def test_refusals(self):
        for call, fault in (
            (lambda exe: revealed.analyse([[0, 1]], [[1, 1]], exe=exe), "ZeroPrice"),
            (lambda exe: revealed.demand(P, Q, [1, 1], 3, levels=5, exe=exe), "OwnLevels"),
            (lambda exe: revealed.demand(P, Q, [1, 0], 3, exe=exe), "ZeroPrice"),
            (lambda exe: revealed.random(BUDGETS, {**CHOICES, "n": [1, 1, 0, 0]}, exe=exe), "NoChoices"),
            (lambda exe: revealed.check((P, Q), "x", exe=exe), "NotJson"),
        ):
            kind, said = self.both(call)
            self.assertIs(kind, Refused)
            self.assertIn(fault, said)

    def test_an_answer_that_does_not_fit_at_first(self):
        draw = random.Random(1)
        prices = [[draw.randint(1, 99) for _ in range(8)] for _ in range(200)]
        quantities = [[1 + 100 // p for p in row] for row in prices]
        new = [[draw.randint(1, 99) for _ in range(8)] for _ in range(16)]
        found = revealed.welfare(prices, quantities, new, exe=LIBRARY)
        self.assertEqual(found.certificate.data, revealed.welfare(prices, quantities, new).certificate.data)
        if found.garp:
            self.assertGreater(len(found.certificate.data), library.ROOM)

    def test_many_threads_at_once(self):
        draw = random.Random(2)
        tables = [revealed.table(*([[draw.randint(1, 99) for _ in range(3)] for _ in range(12)] for _ in range(2))) for _ in range(64)]
        wanted = [revealed.certify(table).data for table in tables]
        wrong = []

        def work(own):
            for at in own:
                if revealed.certify(tables[at], exe=LIBRARY).data != wanted[at]:
                    wrong.append(at)

        threads = [threading.Thread(target=work, args=(random.Random(number).sample(range(64), 64),)) for number in range(16)]
        for thread in threads:
            thread.start()
        for thread in threads:
            thread.join()
        self.assertEqual(wrong, [])

    @unittest.skipUnless(LIBRARY and library.known(os.path.abspath(LIBRARY)).panels, "the library has no call of panels")
    def test_a_panel(self):
        d = {"id": [1, 1, 2, 2, 3], "p_a": [1, 2, 1, 2, 0], "p_b": [2, 1, 2, 1, 1], "q_a": [1, 2, 2, 1, 1], "q_b": [2, 1, 1, 2, 1]}
        for more in ({}, {"pump": True, "power": 20}, {"wide": False}):
            by_library = revealed.panel(d, "id", exe=LIBRARY, progress=False, **more)
            self.assertEqual(by_library.csv(), revealed.panel(d, "id", progress=False, **more).csv())
        frame = {"home": [1, 1, 1, 2, 2, 2], **{f"{side}_{at}": [row[at] for row in rows] * 2 for side, rows in zip("pq", LONG) for at in (0, 1)}}
        self.assertEqual([row.homothetic for row in revealed.panel(frame, "home", exe=LIBRARY, progress=False)], [True, True])
        self.assertEqual([row.homothetic for row in revealed.panel(frame, "home", exe=LIBRARY, progress=False, wide=False)], [None, None])


if __name__ == "__main__":
    unittest.main()
