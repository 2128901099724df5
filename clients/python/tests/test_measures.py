"""The commands that answer in a report alone, through the program that RP_EXEC names; and `verify` on their reports."""

import pathlib
import tempfile
import unittest
from fractions import Fraction

import revealed
from revealed import BadData, NoReport, Refused
from revealed.verifier import verify_cost, verify_menus, verify_pump

EXAMPLES = pathlib.Path(__file__).resolve().parents[3] / "examples"
P, Q = [[1, 2], [2, 1]], [[1, 2], [2, 1]]
YEARS = {"obs": [2024, 2025], "p_bread": ["1.25", "2.50"], "p_wine": ["2.50", "1.25"], "q_bread": [1, 2], "q_wine": [2, 1]}
FIRM = {"obs": ["old", "new"], "y": [1, 2], "p": [5, 4], "w_labour": [1, 2], "w_coal": [2, 1], "x_labour": [2, 2], "x_coal": [1, 2]}
ASKED = {"w_labour": [1, 1], "w_coal": [1, 1], "y": [1, 3]}
MENUS = {"menu": ["abc", "abc", "ab"], "choice": ["a", "b", "b"], "n": [1, 1, 2]}


class Pumps(unittest.TestCase):
    def test_the_example(self):
        found = revealed.money_pump(revealed.from_frame(YEARS))
        self.assertEqual((found.ratio, found.garp, set(found.cycle)), (Fraction(1, 5), False, {2024, 2025}))
        self.assertEqual(found.values, {2024: 0, 2025: 0})
        self.assertEqual(found.pump, 0.2)
        self.assertEqual(float(found), found.pump)
        self.assertTrue(revealed.verify(found))
        self.assertTrue(revealed.verify(found.table, found.report))
        self.assertTrue(revealed.verify((P, Q), revealed.pump(P, Q).report.decode()))

    def test_a_rational_table(self):
        found = revealed.pump([[1, 2], [2, 1]], [[2, 1], [1, 2]])
        self.assertEqual((found.ratio, found.pump, found.garp), (0, 0.0, True))
        self.assertTrue(revealed.verify(found))

    def test_values_are_in_money(self):
        # in cents, and tenths of a unit, the same table
        d = {"p_a": ["0.01", "0.02"], "p_b": ["0.02", "0.01"], "q_a": ["0.1", "0.2"], "q_b": ["0.2", "0.1"]}
        three = [[2, 1, 3], [3, 2, 1], [1, 3, 2]], [[1, 0, 0], [0, 1, 0], [0, 0, 1]]
        found = revealed.pump(d)
        self.assertEqual(found.ratio, Fraction(1, 5))
        whole = revealed.pump(*three)
        parts = revealed.pump([[f"0.{it}" for it in row] for row in three[0]], three[1])
        self.assertEqual({label: value * 10 for label, value in parts.values.items()}, whole.values)

    def test_what_verify_says_of_others(self):
        table = revealed.from_frame(YEARS).csv()
        good = revealed.pump(YEARS).report.decode()
        for old, new, number, told in [
            ("pump 1/5", "pump 1/6", 1, "another ratio"),
            ("pump 1/5", "pump 0", 1, "another ratio"),
            ("cycle 1 2 1", "cycle 1 1", 1, "another ratio"),
            ("cycle 1 2 1", "cycle 1 3 1", 1, "no observation"),
            ("cycle 1 2 1", "cycle 1 2", 1, "does not end"),
            ("values 0 0", "values 0 1000", 1, "above what 1 allows"),
            ("values 0 0", "values 0", 1, "one value"),
            ("observations 2", "observations 3", 0, "first line"),
            ("places 2 0", "places 2 1", 0, "first line"),
        ]:
            found = verify_pump(table, good.replace(old, new).encode())
            self.assertEqual((found.accepted, found.rejected.number), (False, number), old)
            self.assertIn(told, found.rejected.why)
        self.assertTrue(verify_pump(table, good.encode()))
        self.assertEqual(verify_pump(table, good.encode()).remarks, [])
        for text in (
            "",
            good[:-1],
            good + "\n",
            good.replace("1/5", "2/10"),
            good.replace("1/5", "1/1"),
            good.replace("values", "value"),
            good.replace(" 1 2 1", "  1 2 1"),
            good.replace("0 0", "-0 0"),
        ):
            with self.assertRaises(NoReport):
                verify_pump(table, text.encode())
        self.assertFalse(verify_pump(b"p_a,q_a,e\n1,1,5\n", b"observations 1 goods 1 places 0 0\npump 0\ncycle 1 1\nvalues 0\n"))


class Powers(unittest.TestCase):
    def test_the_example(self):
        found = revealed.power_of_test(P, Q, seed=7, draws=1000)
        self.assertEqual((found.violations, found.share, found.power), (69, Fraction(69, 1000), 0.069))
        self.assertEqual(float(found), 0.069)

    def test_a_trial(self):
        found = revealed.random_trial(7, 256, 16)
        self.assertEqual((found.garp, found.efficiency, found.attained, found.homothetic, found.quasilinear), (False, Fraction(631, 867), False, False, False))
        self.assertLess(found.ccei, Fraction(631, 867))
        self.assertEqual(revealed.trial(1, 1, 1).garp, True)

    def test_pairs(self):
        self.assertIn(revealed.first_contradiction(YEARS), [(2024, 2025), (2025, 2024)])
        self.assertIsNone(revealed.pairs([[1, 2], [2, 1]], [[2, 1], [1, 2]]))


class Firms(unittest.TestCase):
    def test_the_example(self):
        found = revealed.cost_minimisation(FIRM, ASKED)
        self.assertEqual((found.cost, found.profit, found.cost_pair, found.profit_pair), (True, False, None, ("old", "new")))
        first, second = found.bounds
        self.assertEqual((first.lower, first.upper, first.at, first.output), (2, 3, "old", 1))
        self.assertEqual((second.lower, second.upper, second.at), (Fraction(10, 3), None, None))
        self.assertEqual(second.prices, {"labour": 1, "coal": 1})
        self.assertTrue(revealed.verify(found))
        self.assertTrue(revealed.verify((EXAMPLES / "technology.csv", EXAMPLES / "outputs.csv"), found.report))

    def test_the_verdicts_alone(self):
        found = revealed.cost({name: values for name, values in FIRM.items() if name != "p"})
        self.assertEqual((found.cost, found.profit, found.bounds), (True, None, []))
        self.assertTrue(revealed.verify(found))

    def test_units(self):
        # prices in tenths, inputs and outputs in hundredths
        scaled = {"y": ["0.01", "0.02"], "w_labour": ["0.1", "0.2"], "w_coal": ["0.2", "0.1"], "x_labour": ["0.02", "0.02"], "x_coal": ["0.01", "0.02"]}
        (bound,) = revealed.cost(scaled, {"w_labour": "0.01", "w_coal": "0.01", "y": "0.03"}).bounds
        self.assertEqual((bound.lower, bound.output), (Fraction(10, 3) / 10_000, Fraction(3, 100)))

    def test_waste(self):
        found = revealed.cost({"y": [1, 1], "w_a": [1, 1], "w_b": [1, 1], "x_a": [3, 1], "x_b": [3, 1]}, {"w_a": 1, "w_b": 1, "y": 1})
        self.assertEqual((found.cost, found.cost_pair, found.profit), (False, (1, 2), None))
        self.assertEqual((found.bounds[0].given, found.bounds[0].lower), (False, None))
        self.assertTrue(revealed.verify(found))

    def test_refusals_name_the_row(self):
        with self.assertRaises(Refused) as caught:
            revealed.cost({**FIRM, "w_coal": [2, 0]}, ASKED)
        self.assertEqual(
            (caught.exception.file, caught.exception.fault, caught.exception.label, caught.exception.name), ("technology", "ZeroPrice", "new", "w_coal")
        )
        with self.assertRaises(Refused) as caught:
            revealed.cost(FIRM, {**ASKED, "y": [1, "1.5"]})
        self.assertEqual((caught.exception.file, caught.exception.fault), ("asked", "TooFine"))

    def test_what_verify_says_of_others(self):
        files = (EXAMPLES / "technology.csv").read_bytes(), (EXAMPLES / "outputs.csv").read_bytes()
        good = revealed.cost_minimisation(FIRM, ASKED).report.decode()
        self.assertEqual(verify_cost(*files, good.encode()).remarks, [])
        for old, new, number, told in [
            ("cost holds", "cost violated\npair 1 2", 1, "does not break it"),
            ("profit violated\npair 1 2", "profit holds", 2, "1 and 2 break it"),
            ("pair 1 2", "pair 2 1", 2, "does not break it"),
            ("pair 1 2", "pair 1 3", 2, "no"),
            ("profit violated\npair 1 2\n", "", 2, "stands there just where"),
            ("lower 2 upper 3 at 1", "lower 2 upper 4 at 2", 3, "cost less"),
            ("lower 2 upper 3 at 1", "lower 2 upper none", 3, "made as much"),
            ("lower 2 upper", "lower 1 upper", 3, "another value"),
            ("x 0 4 y 1:1 over 2", "x 0 4 y none over 2", 3, "not one value"),
            ("x 8 2 y 1:1 2:1", "x 8 2 y 1:1 2:2", 4, "above b"),
            ("lower 10/3 upper none", "lower 10/3 upper 9 at 2", 4, "no observation"),
            ("output 3", "output 2", 4, "asked"),
            ("records 2", "records 3", 0, "first line"),
        ]:
            found = verify_cost(*files, good.replace(old, new, 1).encode())
            self.assertFalse(found.accepted, old)
            self.assertEqual(found.rejected.number, number, (old, found))
            self.assertIn(told, found.rejected.why)
        withheld = good.replace("lower 2 upper 3 at 1\nlower x 0 4 y 1:1 over 2", "lower withheld 7 upper 3 at 1")
        self.assertEqual((verify_cost(*files, withheld.encode()).accepted, verify_cost(*files, withheld.encode()).withheld), (True, 1))


class Menus(unittest.TestCase):
    def test_the_example(self):
        found = revealed.menu_choices(MENUS)
        self.assertEqual((found.rational, found.share, found.total, found.orders), (False, Fraction(1, 2), 2, 2))
        self.assertEqual(([part.order for part in found.parts], found.weights, found.least_sum), (["bac"], [0, 1, 0], None))
        self.assertTrue(revealed.verify(found))
        self.assertTrue(revealed.verify(EXAMPLES / "menus.csv", found.report))
        self.assertEqual(revealed.menus([["abc", "a", 1], ["abc", "b", 1], ["ab", "b", 2]]).report, found.report)

    def test_complete_choices(self):
        rows = [
            ["ab", "a", 2],
            ["ab", "b", 2],
            ["ac", "a", 3],
            ["ac", "c", 1],
            ["bc", "b", 1],
            ["bc", "c", 1],
            ["abc", "a", 2],
            ["abc", "b", 1],
            ["abc", "c", 1],
        ]
        found = revealed.menus(rows)
        self.assertIsNotNone(found.least_sum)
        self.assertEqual(found.rational, found.least_sum >= 0)
        self.assertTrue(revealed.verify(found))
        asked = revealed.menus(rows, per=7)
        self.assertEqual(asked.total, 7)
        self.assertTrue(revealed.verify(asked))
        self.assertFalse(revealed.verify(asked, per=8))
        text = found.report.decode()
        line = text.splitlines()[-1]
        for other in (line.replace("least ", "least 9"), line.rsplit(" ", 1)[0] + " ab", ""):
            told = verify_menus(found.choices.csv(), text.replace(line + "\n", other + "\n" if other else "").encode())
            self.assertEqual(told.accepted, other == line)

    def test_refusals(self):
        for rows, fault, record in [
            ([["ba", "a", 1]], "BadMenu", 1),
            ([["ab", "a", 1], ["ab", "c", 1]], "BadChoice", 2),
            ([["ab", "a", 0]], "NoMenus", None),
            ([[" ab", "a", 1]], "BadMenu", 1),
            ([["ab", "a", 1.5]], "BadNumber", 1),
        ]:
            with self.assertRaises(Refused) as caught:
                revealed.menus(rows)
            self.assertEqual((caught.exception.file, caught.exception.fault, caught.exception.record), ("menus", fault, record))

    def test_what_verify_says_of_others(self):
        data = (EXAMPLES / "menus.csv").read_bytes()
        good = revealed.menu_choices(MENUS).report.decode()
        for old, new, number, told in [
            ("orders 2", "orders 3", 0, "orders is 2"),
            ("total 2", "total 3", 0, "total is 2"),
            ("share 1/2", "share 1/3", 1, "share"),
            ("weights 0 1 0", "weights 1 0 0", 1, "weigh less"),
            ("weights 0 1 0", "weights 0 1 1", 1, "not what the units weigh"),
            ("weights 0 1 0", "weights 0 1", 1, "one weight"),
            ("part b a c weight 1", "part b a c weight 3", 1, "more than its units"),
            ("part b a c", "part a b c", 1, "nobody chose"),
            ("part b a c", "part b a", 1, "no order"),
            ("weight 1\n", "weight 1\nsums least 0 at a in a\n", 2, "no sums"),
            ("menus violated share 1/2\nweights 0 1 0 over 1", "menus mixture over 1", 1, "does not get its units"),
        ]:
            found = verify_menus(data, good.replace(old, new).encode())
            self.assertFalse(found.accepted, old)
            self.assertEqual(found.rejected.number, number, (old, found))
            self.assertIn(told, found.rejected.why)
        found = verify_menus(data, b"alternatives 3 menus 2 cells 3 orders 2 total 2\nmenus withheld 5\n")
        self.assertEqual((found.accepted, found.withheld), (True, 1))


class AltogetherAnotherWay(unittest.TestCase):
    def test_files_of_the_repository(self):
        with tempfile.TemporaryDirectory() as folder:
            path = pathlib.Path(folder) / "a report.txt"
            path.write_bytes(revealed.pump(YEARS).report)
            self.assertTrue(revealed.verify(YEARS, path))
            self.assertFalse(revealed.verify(EXAMPLES / "decimals.csv", path))

    def test_the_names_of_the_commands(self):
        for name, command in [
            ("power_of_test", "power"),
            ("money_pump", "pump"),
            ("cost_minimisation", "cost"),
            ("menu_choices", "menus"),
            ("random_trial", "trial"),
            ("first_contradiction", "pairs"),
            ("demand_bounds", "demand"),
            ("welfare_bounds", "welfare"),
            ("afriat_utility", "utility"),
            ("random_utility", "random"),
        ]:
            self.assertIs(getattr(revealed, name), getattr(revealed, command))
        for name in revealed.__all__:
            self.assertTrue(hasattr(revealed, name), name)

    def test_a_panel_of_all(self):
        d = {"id": [1, 1, 2, 2], "p_a": [1, 2] * 2, "p_b": [2, 1] * 2, "q_a": [1, 2, 2, 1], "q_b": [2, 1, 1, 2]}
        found = revealed.panel(d, "id", pump=True, power=100, seed=7, progress=False)
        self.assertEqual([row.pump for row in found], [Fraction(1, 5), 0])
        self.assertEqual([row.texts["power"].partition("/")[2] for row in found], ["100", "100"])
        own = [revealed.power({name: column[at : at + 2] for name, column in d.items() if name != "id"}, seed=7, draws=100) for at in (0, 2)]
        self.assertEqual([row.power for row in found], [it.share for it in own])
        self.assertEqual([(row["pump"] > 0, row["garp"]) for row in found.records()], [(True, False), (False, True)])


LINES = {
    "obs": [1, 2],
    "i_x": ["87.13", "45.50"],
    "i_y": ["33.61", "62.04"],
    "q_x": ["43.2", "20.1"],
    "q_y": ["16.95", "34.63"],
}


class Intercepts(unittest.TestCase):
    def test_each_row_has_money_of_its_own(self):
        made = revealed.from_frame(LINES)
        self.assertEqual(made.csv(), b"p_x,p_y,q_x,q_y\n33.61,87.13,43.2,16.95\n62.04,45.50,20.1,34.63\n")
        for verdict in (revealed.analyse(LINES), revealed.analyse(made, places=2), revealed.analyse(made, levels=1000), revealed.plain.analyse(made)):
            self.assertIsNone(verdict.quasilinear)
            self.assertIn("money of its own", verdict.reasons["quasilinear"])
            self.assertNotIn("withheld", repr(verdict))
            self.assertIn("garp holds", repr(verdict))
        for call in (lambda: revealed.pump(LINES), lambda: revealed.panel({**LINES, "s": [1, 1]}, "s", pump=True, progress=False)):
            with self.assertRaisesRegex(BadData, "money of its own"):
                call()
        panel = revealed.panel({**LINES, "s": [1, 1]}, "s", progress=False)
        self.assertNotRegex(panel.text(), "(?m)^quasilinear  ")
        # one way from text to verdict: what is not told of the data stands nowhere
        (row,) = panel
        self.assertIsNone(row.quasilinear)
        for said in (repr(panel), repr(row), panel._repr_html_()):
            self.assertNotIn("quasilinear", said)
        names, values = (line.split(",") for line in panel.csv().decode().splitlines())
        self.assertEqual(dict(zip(names, values))["quasilinear"], "")
        self.assertEqual(panel.records()[0]["quasilinear"], None)
        found = revealed.verify(revealed.analyse(LINES))
        self.assertIn("on the exchanged intercepts as prices of one unit of money, which is not told of the data: proved", repr(found))
        self.assertNotIn("exchanged", repr(revealed.verify(revealed.analyse([[1, 2], [2, 1]], [[1, 2], [2, 1]]))))
        with self.assertRaisesRegex(BadData, "two intercepts"):
            revealed.from_frame({"i_x": [1], "q_x": [1]})
        with self.assertRaises(revealed.Refused) as caught:
            revealed.analyse({**LINES, "i_y": [0, 1]})
        self.assertEqual((caught.exception.name, caught.exception.fault), ("i_y", "ZeroPrice"))


class OfferedBudgets(unittest.TestCase):
    """Shares by hand. From x + y <= 10: (5, 5) spends all, (3, 4) 7/10, which halves of a unit do not make a whole: 3.5/9.5 + 4.5/9.5 is
    below 1. (5, 4) spends 9/10, and 5.5/9.5 + 4.5/9.5 is not."""

    def lines(self, *bundles, a=10, b=10):
        x, y = zip(*bundles)
        return {"i_x": [a] * len(x), "i_y": [b] * len(x), "q_x": list(x), "q_y": list(y)}

    def test_shares(self):
        made = revealed.from_frame(self.lines((5, 5), (3, 4), (5, 4)))
        self.assertEqual((made.offered.rows, made.offered.below, made.offered.least, made.offered.at), (3, [2], Fraction(7, 10), 2))
        self.assertEqual(str(made.offered), "offered budgets: 1 of 3 choices spent less than was offered by more than rounding; minimum share 0.7000, row 2")
        # the same choices to a decimal place leave less to rounding
        made = revealed.from_frame(self.lines(("5.0", "5.0"), ("3.0", "4.0"), ("5.0", "4.0")))
        self.assertEqual(made.offered.below, [2, 3])
        # other intercepts: 8/10 + 1/20
        made = revealed.from_frame(self.lines(("8.00", "1.00"), a="10.00", b="20.00"))
        self.assertEqual((made.offered.below, made.offered.least), ([1], Fraction(17, 20)))
        self.assertIsNone(revealed.from_frame({"p_a": [1], "q_a": [1]}).offered)

    def test_what_costs_more_than_was_offered(self):
        with self.assertRaises(revealed.Overspent) as caught:
            revealed.analyse(self.lines((5, 5), (9, 9)))
        self.assertEqual((caught.exception.label, caught.exception.share, caught.exception.count), (2, Fraction(9, 5), 1))
        self.assertIn("row 2 (i_x 10, i_y 10, q_x 9, q_y 9): the choice costs 1.8000 of the offered budget", str(caught.exception))
        # within rounding: (5.5, 5.5) may be 5 and 5 to the unit, and is not to a tenth
        self.assertEqual(revealed.from_frame(self.lines((5, 6))).offered.below, [])
        with self.assertRaises(revealed.Overspent):
            revealed.from_frame(self.lines(("5.0", "6.0")))
        d = self.lines((5, 5), (9, 9), (9, 8))
        with self.assertRaises(revealed.Overspent) as caught:
            revealed.panel({**d, "s": ["u", "u", "v"]}, "s", progress=False)
        self.assertIn("2 of u", str(caught.exception))
        self.assertIn("1 other choice does too", str(caught.exception))

    def test_columns_of_a_panel(self):
        # u: (3, 4) spends 7/10, which halves of a unit do not explain; v: (5, 4) spends 9/10, which they do
        d = {"s": ["u", "u", "v"], **self.lines((5, 5), (3, 4), (5, 4))}
        found = revealed.panel(d, "s", progress=False)
        self.assertEqual([(row.offered_least, row.below_line, row.over_line) for row in found], [(0.7, 1, 0), (0.9, 0, 0)])
        self.assertEqual([row["below_line"] for row in found.records()], [1, 0])
        self.assertEqual(found.csv().decode().splitlines()[1].split(",")[-3:], ["0.700000", "1", "0"])
        # a decimal place in another unit, or a zero behind the point, leaves less to rounding: 5.05/9.95 + 4.05/9.95 is below 1
        for more in ("0.1", "0.0"):
            two = {name: [*map(str, column), last] for (name, column), last in zip(d.items(), ("w", "10.0", "10.0", "9.9", more))}
            found = revealed.panel(two, "s", progress=False)
            self.assertEqual([row.below_line for row in found][:2], [1, 1])
            self.assertEqual(sum(row.below_line for row in found), len(found.offered.below))
        # each block of a panel of many units is told by the decimal places of all of them
        many = {"s": [f"s{at}" for at in range(401)], **self.lines(*[(5, 4)] * 400, ("9.5", "0.5"), a="10.0", b="10.0")}
        found = revealed.panel(many, "s", progress=False)
        self.assertEqual({row.below_line for row in found[:400]}, {1})
        self.assertEqual((found[400].offered_least, found[400].below_line), (1.0, 0))
        # a unit with an error has none, and a unit may have the id of what is sent beside the units
        bad = {**d, "s": ["places", "places", "v"], "i_x": [10, 10, 0]}
        found = revealed.panel(bad, "s", progress=False)
        self.assertEqual([(row.key, row.below_line, row.fault) for row in found], [("places", 1, None), ("v", None, "ZeroPrice")])
        self.assertEqual(found[1].record, 3)
        self.assertNotIn("offered_least", revealed.panel({"s": [1], "p_a": [1], "q_a": [1]}, "s", progress=False).names())

    def test_it_is_told_once(self):
        verdict = revealed.analyse(LINES)
        self.assertEqual(repr(verdict).count("offered budgets: all 2 choices lie on their lines, within rounding"), 1)
        panel = revealed.panel({**LINES, "s": [1, 1]}, "s", progress=False)
        self.assertEqual(repr(panel).count("offered budgets"), 1)
        self.assertIn("offered budgets", panel.text())
        # what is no number, or no line, is refused by the program
        for bad in ({"i_y": [0, 1]}, {"i_y": ["x", 1]}):
            with self.assertRaises(revealed.Refused):
                revealed.analyse({**LINES, **bad})


if __name__ == "__main__":
    unittest.main()
