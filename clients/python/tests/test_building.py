"""What a release has of this package, and what is said where it cannot be built. The scripts stand beside the package in the sources
and in an sdist; where they are not, as in an installed package, nothing is tried."""

import os
import pathlib
import subprocess
import sys
import tempfile
import unittest

HERE = pathlib.Path(__file__).resolve().parents[1]


@unittest.skipUnless((HERE / "wheels.py").exists(), "the scripts that build are not here")
class Building(unittest.TestCase):
    def test_no_wheel_without_a_library(self):
        """pip takes a wheel before a source package, so one without a library would be taken on Macs and ARM."""
        with tempfile.TemporaryDirectory() as room:
            words = [sys.executable, "-B", str(HERE / "wheels.py"), room]
            subprocess.run(words, check=True, stdout=subprocess.DEVNULL)
            (name,) = os.listdir(room)
            self.assertTrue(name.endswith(".tar.gz"), name)

    def test_what_to_install_without_a_compiler(self):
        sys.path.insert(0, str(HERE))
        try:
            import compiled
        finally:
            sys.path.remove(str(HERE))
        for system, machine, said, has_wheel in [
            ("darwin", "arm64", "xcode-select --install", False),
            ("darwin", "x86_64", "xcode-select --install", False),
            ("linux", "aarch64", "apt install gcc", False),
            ("linux", "x86_64", "apt install gcc", True),
            ("win32", "AMD64", "Build Tools for Visual Studio", True),
            ("win32", "ARM64", "Build Tools for Visual Studio", False),
            ("freebsd14", "amd64", "install a C compiler", False),
        ]:
            advice = compiled.advice(system, machine)
            self.assertIn(said, advice)
            self.assertEqual("take the wheel" in advice, has_wheel, (system, machine))
            self.assertIn("--config-settings=library=none", advice)


if __name__ == "__main__":
    unittest.main()
