"""What the scripts of tools/check, tools/make and tools/measure share: folders, files, commands that are run, and what was tried."""
import os
import re
import shutil
import subprocess
import sys
from importlib.machinery import SourceFileLoader
from importlib.util import module_from_spec, spec_from_loader

TOP = os.path.dirname(os.path.dirname(os.path.realpath(__file__)))
# The program that the gate or ./prove left.
PROGRAM = f"{TOP}/crates/rp/out/rp"
# The program that answers what that one withholds.
WIDE = f"{TOP}/crates/rp_wide/out/rp_wide"
# The program that makes the table of households of a long file.
PANEL = f"{TOP}/crates/rp_panel_program/out/rp_panel_program"
TOGETHER = {"stdin": subprocess.DEVNULL, "stdout": subprocess.PIPE, "stderr": subprocess.STDOUT, "text": True, "errors": "replace"}


def help_if_asked():
    """Prints what the script that runs says at its head, and ends with 0, where the words ask for help; argparse does it itself."""
    said = getattr(sys.modules["__main__"], "__doc__", None)
    if said and "argparse" not in sys.modules and {"-h", "--help"} & {*sys.argv[1:]}:
        print(said.strip())
        sys.exit(0)


help_if_asked()


class Stopped(Exception):
    """Why something is not made, in one line."""


class Tries:
    """What was tried under the name of a script, of which what is wrong is told at once."""

    def __init__(self, name):
        self.name, self.wrong = name, []

    def expect(self, is_so, what):
        if not is_so:
            self.wrong.append(what)
            print(f"{self.name}: {what}")
        return is_so

    def skipped(self, what):
        print(f"{self.name}: skipped: {what}")


def bytes_of(file):
    with open(file, "rb") as it:
        return it.read()


def text(file):
    """Returns a file's text as it stands, with its own ends of lines."""
    return bytes_of(file).decode()


def loaded(path):
    """Returns the module that a script is."""
    loader = SourceFileLoader(os.path.basename(path).replace("-", "_").removesuffix(".py"), path)
    module = module_from_spec(spec_from_loader(loader.name, loader))
    sys.dont_write_bytecode = True
    loader.exec_module(module)
    return module


def kit():
    """Returns the folder of the kit."""
    rt = shutil.which("rt")
    if not rt:
        raise Stopped("the command rt of the kit is not on the path")
    return os.path.dirname(os.path.dirname(os.path.realpath(rt)))


def version():
    """Returns the version of CHANGELOG.md."""
    return re.search(r"(?m)^## (\S+) \(", text(f"{TOP}/CHANGELOG.md"))[1]


def ran(words, folder):
    """Runs a command and returns what it writes, and stops with its last line where it fails."""
    try:
        it = subprocess.run(words, cwd=folder, **TOGETHER)
    except OSError as error:
        raise Stopped(f"{words[0]}: {error.strerror}") from None
    if it.returncode:
        raise Stopped(f"{os.path.basename(words[0])}: {(it.stdout.strip().splitlines() or ['no message'])[-1]}")
    return it.stdout


def outcome(*words, cwd=None, env=None):
    """Runs a command, and returns its status and all that it wrote."""
    it = subprocess.run(words, cwd=cwd, env=env, **TOGETHER)
    return it.returncode, it.stdout
