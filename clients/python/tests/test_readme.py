"""The lines of README, of the documents and of the package's own texts: each `>>>` gives what stands below it."""

import doctest
import os
import pathlib
import re
import tempfile
import unittest

import revealed

HERE = pathlib.Path(__file__).resolve().parents[1]
TOP = HERE.parents[1]

try:
    import matplotlib
    import pandas
except ImportError:
    matplotlib = pandas = None


class Lines(unittest.TestCase):
    def runs(self, text, name):
        # without the fences, which would count as output
        test = doctest.DocTestParser().get_doctest(re.sub("(?m)^```.*$", "", text), {}, name, name, 0)
        told = []
        doctest.DocTestRunner(verbose=False).run(test, out=told.append)
        self.assertTrue(test.examples)
        self.assertEqual("".join(told), "")

    def test_readme(self):
        self.runs((HERE / "README.md").read_text(encoding="utf-8"), "README.md")

    def test_package(self):
        self.runs(revealed.__doc__, "revealed")
        self.runs(revealed.plain.__doc__, "revealed.plain")

    @unittest.skipUnless((TOP / "docs" / "howto").is_dir(), "the repository is not here")
    def test_documents(self):
        """README and the documents of the repository, in a folder with its examples; what they write is thrown away."""
        before = os.getcwd()
        with tempfile.TemporaryDirectory() as folder:
            for name in ("examples", "docs"):
                os.symlink(TOP / name, f"{folder}/{name}")
            os.chdir(folder)
            try:
                for path in [TOP / "README.md", *sorted((TOP / "docs").rglob("*.md"))]:
                    text = path.read_text(encoding="utf-8")
                    if ">>> " in text and (pandas is not None or "pandas" not in text):
                        with self.subTest(path.name):
                            self.runs(text, path.name)
                            for name in re.findall(r'savefig\("([^"]+)"', text):
                                self.assertTrue(pathlib.Path(name).read_bytes().startswith(b"\x89PNG"))
            finally:
                os.chdir(before)


if __name__ == "__main__":
    unittest.main()
