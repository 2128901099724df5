"""Frames, tables and pictures of a panel. What needs pandas or matplotlib is left out where they are not there."""

import io
import json
import math
import os
import pathlib
import subprocess
import sys
import tempfile
import unittest
import unittest.mock
from fractions import Fraction

import revealed
from revealed import BadData, draws, papers

try:
    import matplotlib
    import pandas

    matplotlib.use("Agg")
except ImportError:
    matplotlib = pandas = None

# Three households: a contradiction with the index 4/5, a rational one, and one without a price.
D = {
    "id": [1, 1, 2, 2, 3, 3],
    "p_a": [1, 2, 1, 2, 0, 1],
    "p_b": [2, 1, 2, 1, 1, 1],
    "q_a": [1, 2, 2, 1, 1, 1],
    "q_b": [2, 1, 1, 2, 1, 1],
}


def made(**more):
    return revealed.panel(D, "id", progress=False, **more)


class Texts(unittest.TestCase):
    def test_a_table(self):
        text = made(pump=True, power=10).text()
        for line in (
            "units +3",
            r"with a verdict \(N\) +2",
            "observations of each +2",
            r"GARP holds +1 of 2 \(50\.0%\)",
            r"CCEI, mean +0\.900",
            # of 4/5 and 1 the sample's standard deviation is a fifth over the root of 2
            r"CCEI, standard deviation +0\.141",
            r"CCEI of at least 0\.90 +1 of 2",
            r"maximum money pump, maximum +0\.200",
        ):
            self.assertRegex(text, f"(?m)^({line})")
        self.assertEqual(len({len(line.rstrip()) > 0 for line in text.splitlines()}), 1)

    def test_latex(self):
        text = made().latex()
        self.assertTrue(text.startswith("\\begin{tabular}{lr}\n\\toprule\nunits & 3 \\\\\n"))
        self.assertIn("1 of 2 (50.0\\%)", text)
        self.assertTrue(text.endswith("\\bottomrule\n\\end{tabular}\n"))
        self.assertEqual(papers.escaped("a_b & 5% $x$ {~^\\}#"), "a\\_b \\& 5\\% \\$x\\$ \\{\\textasciitilde{}\\textasciicircum{}\\textbackslash{}\\}\\#")

    def test_units_and_thresholds_are_the_users(self):
        d = {"subject": D["id"], **{name: column for name, column in D.items() if name != "id"}}
        text = revealed.panel(d, "subject", progress=False).text(thresholds=[0.85, "1"])
        self.assertRegex(text, "^subjects +3\n")
        self.assertRegex(text, r"(?m)^CCEI of at least 0\.85 +1 of 2 \(50\.0%\)$")
        self.assertRegex(text, r"(?m)^CCEI of at least 1 +1 of 2 \(50\.0%\)$")
        self.assertNotIn("0.99", text)
        self.assertTrue(made().text(units="villages").startswith("villages"))
        for bad in (["x"], [2], [-0.1]):
            with self.assertRaises(BadData):
                made().text(thresholds=bad)

    def test_what_is_absent_is_said(self):
        lines = {"s": [1, 1], "i_x": ["87.13", "45.50"], "i_y": [33.61, 62.04], "q_x": ["43.2", "20.1"], "q_y": ["16.95", "34.63"]}
        found = revealed.panel(lines, "s", progress=False)
        for said in (found.text(), found.latex()):
            self.assertIn("quasilinear and money pump are absent: intercepts exchanged give each row money of its own", said)
            self.assertIn("numbers: shortest decimals of doubles", said)
        self.assertNotIn("absent", made().text())

    def test_shares_count_what_is_withheld(self):
        said = papers.share_told([True] * 8 + [None] * 9 + [False] * 33)
        self.assertEqual(said, "between 8 and 17 of 50 (16.0% to 34.0%), 9 withheld")
        self.assertEqual(papers.share_told([True, False]), "1 of 2 (50.0%)")
        self.assertEqual(papers.share_told([None]), "between 0 and 1 of 1 (0.0% to 100.0%), 1 withheld")
        # what has no answer is neither withheld nor passing
        self.assertRegex(made().text(), r"(?m)^quasilinear +1 of 2 \(50\.0%\)$")

    def test_only_what_is_1_reads_1(self):
        self.assertEqual(
            [papers.shown(it, 4) for it in (Fraction(1), 1 - Fraction(1, 10**9), Fraction(4, 5), Fraction(0), Fraction(1, 10**9))],
            ["1.0000", "0.9999", "0.8000", "0.0000", "<0.0001"],
        )
        # Half way between two, the even one.
        self.assertEqual([papers.shown(Fraction(it, 2000), 3) for it in (1825, 1827)], ["0.912", "0.914"])
        self.assertEqual(
            [papers.mean(it, 4) for it in ([Fraction(1)], [Fraction(1), 1 - Fraction(1, 10**9)], [Fraction(4, 5), Fraction(1)])],
            ["1.0000", "0.9999", "0.9000"],
        )
        self.assertEqual(papers.quantile([Fraction(1), Fraction(0)], Fraction(1, 4)), Fraction(1, 4))

    def test_a_panel_without_verdicts(self):
        found = revealed.panel({"id": [1, 2], "p_a": [0, 1], "q_a": [1, None]}, "id", progress=False)
        self.assertIn("GARP holds", found.text())
        self.assertIsInstance(found.latex(), str)

    def test_records(self):
        first, second, third = made(pump=True).records()
        self.assertEqual((first["efficiency"], second["efficiency"], third["efficiency"]), (Fraction(4, 5), 1, None))
        self.assertEqual((second["efficiency_floor"], third["efficiency_floor"], second["pump_floor"], first["pump"]), (1.0, None, 0.0, Fraction(1, 5)))
        self.assertEqual((first["efficiency_floor"], first["pump_floor"], third["fault"], third["record"]), (0.8, 0.2, "ZeroPrice", 5))


BEHAVIOURS = pathlib.Path(__file__).resolve().parents[2] / "tests" / "behaviours.json"


class Draws(unittest.TestCase):
    @unittest.skipUnless(BEHAVIOURS.exists(), "what Python, R and the page draw alike is not here")
    def test_the_same_as_r_and_the_page(self):
        wanted = json.loads(BEHAVIOURS.read_text(encoding="utf-8"))
        for it in wanted["words"]:
            words = draws.Words(it["seed"])
            self.assertEqual([words.next() for _ in it["words"]], it["words"])
        for it in wanted["tables"]:
            words, budgets = draws.Words(it["seed"]), draws.Budgets(revealed.table(it["prices"], it["quantities"]))
            self.assertEqual([budgets.behaviour(words) for _ in it["behaviours"]], it["behaviours"])

    def test_on_the_budget_line(self):
        table = revealed.from_frame({"p_a": ["1.25", 3], "p_b": [2, "0.5"], "q_a": [10, 20], "q_b": [30, "4.5"], "obs": ["x", "y"]})
        first, again, other = (draws.on_budget_lines(table, seed) for seed in (1, 1, 2))
        self.assertEqual((first.csv(), first.labels), (again.csv(), ["x", "y"]))
        self.assertNotEqual(first.csv(), other.csv())
        # Spent is what 72.5 and 62.25 are in the table's units, times one power of ten, and a little less than a unit of each good.
        prices, budgets = [[125, 200], [300, 50]], [72500, 62250]
        for drawn, own, money in zip(first.texts, prices, budgets):
            p, q = [int(it) for it in drawn[:2]], [int(it) for it in drawn[2:]]
            self.assertEqual(p, own)
            self.assertTrue(0 <= money * 1000 - sum(map(int.__mul__, p, q)) <= 2 * sum(p))

    def test_shares_are_uniform(self):
        words = draws.Words(1)
        many = [words.shares(3) for _ in range(20_000)]
        self.assertEqual({sum(it) for it in many}, {draws.PARTS})
        for good in range(3):
            self.assertAlmostEqual(sum(it[good] for it in many) / len(many) / draws.PARTS, 1 / 3, delta=0.01)
            # on the simplex over three goods a share is below a half with the chance 3/4
            self.assertAlmostEqual(sum(2 * it[good] < draws.PARTS for it in many) / len(many), 3 / 4, delta=0.02)

    def test_seeds(self):
        for seed in (-1, 2**32, 1.5, "1", None):
            with self.assertRaises(BadData):
                draws.Words(seed)

    def test_the_benchmark(self):
        panel = made()
        tables = draws.on_budgets_of(panel, 5, seed=3)
        words, own = draws.Words(3), [draws.Budgets(row.table) for row in panel[:2]]
        self.assertEqual([it.csv() for it in tables], [own[at % 2].drawn(words).csv() for at in range(5)])
        found = draws.verdicts(panel, 5, seed=3)
        self.assertEqual([it.efficiency for it in found], [revealed.analyse(it).efficiency for it in tables])
        self.assertEqual(draws.share_above(panel, "0.8"), Fraction(1, 2))
        self.assertEqual([draws.share_above(panel, it) for it in (Fraction(4, 5), Fraction(79, 100), 1)], [Fraction(1, 2), 1, 0])
        with self.assertRaises(BadData):
            draws.verdicts(panel[2:], 5)


class Import(unittest.TestCase):
    def test_a_frame_without_pandas_says_what_to_install(self):
        with unittest.mock.patch.dict(sys.modules, {"pandas": None}):
            for call in (made().frame, lambda: made().to_stata("nowhere.dta")):
                with self.assertRaises(BadData) as caught:
                    call()
                self.assertIn("pip install pandas", str(caught.exception))

    def test_nothing_is_imported_with_the_package(self):
        code = "import sys, revealed; sys.exit(any(name in sys.modules for name in ('pandas', 'numpy', 'matplotlib')))"
        self.assertEqual(
            subprocess.run([sys.executable, "-c", code], env={**os.environ, "PYTHONPATH": str(pathlib.Path(revealed.__file__).parents[1])}).returncode, 0
        )


@unittest.skipIf(pandas is None, "pandas or matplotlib is not there")
class Frames(unittest.TestCase):
    def test_types(self):
        f = made(pump=True, power=10).frame()
        types = {name: str(kind) for name, kind in f.dtypes.items()}
        self.assertEqual([it for it in types if it != "ccei"], ["id", *revealed.long_call.COLUMNS[1:]])
        self.assertEqual(types["ccei"], "Float64")
        for name in ("garp", "attained", "homothetic", "quasilinear"):
            self.assertEqual(types[name], "boolean")
        for name in ("efficiency_floor", "pump_floor"):
            self.assertEqual(types[name], "Float64")
        self.assertEqual((types["efficiency"], types["fault"], types["record"], types["id"]), ("string", "string", "Int64", "int64"))
        self.assertEqual(list(f["power"].fillna(""))[2], "")
        self.assertEqual(list(f["efficiency"].fillna("")), ["4/5", "1", ""])

    def test_they_behave(self):
        f = made(pump=True, power=10).frame()
        self.assertEqual(list((~f.garp).fillna(False)), [True, False, False])
        self.assertEqual(list(f[f.garp.fillna(False)].id), [2])
        self.assertEqual((f.garp.sum(), f.garp.isna().sum()), (1, 1))
        self.assertEqual((f.efficiency_floor.describe()["count"], f.describe().shape[0]), (2, 8))
        self.assertAlmostEqual(float(f.efficiency_floor.mean()), 0.9)
        self.assertIsNotNone(f.efficiency_floor.hist())
        self.assertEqual(f.groupby("garp").efficiency_floor.mean().size, 2)
        self.assertEqual(list(f.sort_values("efficiency_floor", na_position="last").id), [1, 2, 3])

    def test_stata(self):
        with tempfile.TemporaryDirectory() as folder:
            found = made(pump=True)
            found.to_stata(f"{folder}/a.dta")
            back = pandas.read_stata(f"{folder}/a.dta")
            self.assertEqual(list(back["id"]), [1, 2, 3])
            self.assertEqual(list(back["garp"])[:2], [0, 1])
            self.assertTrue(math.isnan(list(back["garp"])[2]))
            self.assertEqual(list(back["efficiency"]), ["4/5", "1", ""])
            self.assertEqual(back["efficiency_floor"][1], 1.0)

    def test_keys_that_are_texts(self):
        f = revealed.panel({"town": ["x", "x", None], "p_a": [1, 1, 1], "q_a": [1, 2, 3]}, "town", progress=False).frame()
        self.assertEqual((len(f), list(f["fault"].fillna(""))), (2, ["", "NoId"]))

    def test_an_empty_panel(self):
        self.assertEqual(len(revealed.panel(pandas.DataFrame({"id": [], "p_a": [], "q_a": []}), "id", progress=False).frame()), 0)


@unittest.skipIf(pandas is None, "pandas or matplotlib is not there")
class Pictures(unittest.TestCase):
    def saved(self, axes):
        out = io.BytesIO()
        axes.figure.savefig(out)
        matplotlib.pyplot.close(axes.figure)
        self.assertTrue(out.getvalue().startswith(b"\x89PNG"))

    def test_a_verdict(self):
        for verdict in (revealed.analyse([[1, 2], [2, 1]], [[1, 2], [2, 1]]), revealed.analyse([[1, 2], [2, 1]], [[2, 1], [1, 2]])):
            axes = verdict.plot()
            self.assertEqual(len(axes.lines), 2)
            self.assertIn("GARP", axes.get_title())
            self.saved(axes)
        with self.assertRaises(BadData):
            revealed.analyse([[1]], [[1]]).plot()

    def test_a_panel(self):
        axes = made().plot(random=5)
        own, drawn = [it.get_text() for it in axes.get_legend().get_texts()]
        self.assertEqual(own, "2 units: 50.0% at least 0.90, 50.0% at least 0.95")
        self.assertRegex(drawn, r"^5 random behaviours: \d+\.0% at least 0\.90, \d+\.0% at least 0\.95$")
        self.saved(axes)
        self.saved(made().plot(random=0))
        own = matplotlib.pyplot.subplots()[1]
        self.assertIs(made().plot(own, random=0), own)
        matplotlib.pyplot.close(own.figure)


if __name__ == "__main__":
    unittest.main()
