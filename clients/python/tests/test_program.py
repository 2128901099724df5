"""Each command through the program that RP_EXEC names."""

import json
import os
import pathlib
import shutil
import stat
import subprocess
import sys
import tempfile
import unittest
from decimal import Decimal
from fractions import Fraction

import revealed
from revealed import BadData, Failed, NoProgram, Problem, Refused

HERE = pathlib.Path(__file__).resolve().parent
EXAMPLES = HERE.parents[2] / "examples"

# Two purchases of which each could have bought the other's bundle for 4 of its 5.
P, Q = [[1, 2], [2, 1]], [[1, 2], [2, 1]]
# Two years at crossed prices: 1.25 and 2.50, and the other way round.
YEARS = {"obs": [2024, 2025], "p_bread": ["1.25", "2.50"], "p_wine": ["2.50", "1.25"], "q_bread": [2, 1], "q_wine": [1, 2]}
THREE = [[2, 1, 3], [3, 2, 1], [1, 3, 2]], [[1, 0, 0], [0, 1, 0], [0, 0, 1]]

try:
    import pandas
except ImportError:
    pandas = None


class Analyses(unittest.TestCase):
    def test_a_contradiction(self):
        verdict = revealed.analyse(P, Q)
        self.assertEqual((verdict.garp, verdict.afriat, verdict.homothetic, verdict.quasilinear), (False,) * 4)
        self.assertIn(verdict.cycle, ([1, 2, 1], [2, 1, 2]))
        self.assertEqual((verdict.efficiency, verdict.attained), (Fraction(4, 5), True))
        self.assertEqual((verdict.ranks, verdict.utility, verdict.reasons), (None, None, {}))
        self.assertIn("garp violated", repr(verdict))

    def test_the_labels_of_the_data(self):
        verdict = revealed.analyse(revealed.from_frame({**YEARS, "q_bread": [1, 2], "q_wine": [2, 1]}))
        self.assertFalse(verdict.garp)
        self.assertEqual(set(verdict.cycle), {2024, 2025})
        verdict = revealed.analyse(*revealed.from_frame(YEARS))
        self.assertEqual(verdict.ranks, {2024: 1, 2025: 1})
        self.assertEqual((verdict.utility, verdict.multipliers), ({2024: 0, 2025: 0}, {2024: 1, 2025: 1}))
        self.assertEqual(verdict.as_dict()["efficiency"], 1)

    def test_numbers_of_each_kind_are_one_table(self):
        rows = [[1.5, 2], [2, 1.5]]
        same = [rows, [["1.5", "2"], ["2", "1.50"]], [[Decimal("1.5"), 2], [2, Decimal("15e-1")]], [[Fraction(3, 2), 2], [2, Fraction(3, 2)]]]
        certificates = {revealed.certify(prices, Q).data for prices in same}
        self.assertEqual(len(certificates), 1)

    def test_cycle_of_three(self):
        verdict = revealed.analyse(*THREE)
        self.assertEqual((verdict.garp, len(verdict.cycle), verdict.efficiency), (False, 4, Fraction(1, 2)))

    def test_what_is_withheld_is_none(self):
        # each row is dearer by 10^7, so that numbers get past 2^120 and products past 2^127
        verdict = None
        for number in range(2, 40):
            prices = [[1, 9999999 if t % 2 else 9999998] for t in range(number)]
            quantities = [[9999999 - t, 1 + t] for t in range(number)]
            verdict = revealed.analyse(prices, quantities)
            for name in ("afriat", "homothetic"):
                value = getattr(verdict, name)
                self.assertIs(value is None, name in verdict.reasons)
                self.assertIn(value, (True, False, None))
        made = revealed.answers.Certificate(WITHHELD)
        verdict = revealed.Verdict(revealed.from_frame(YEARS), made)
        self.assertIsNone(verdict.afriat)
        self.assertIsNone(verdict.homothetic)
        self.assertIn("2025", verdict.reasons["afriat"])
        self.assertIn("withheld", repr(verdict))


WITHHELD = (
    b'{"items":[{"item":"garp","ranks":[1,1]},{"item":"afriat","withheld":2},{"above":[],"at_ranks":[1,1],"below":[1,1],'
    b'"item":"efficiency","level":"1"},{"item":"homothetic","withheld":[3,1,2]},{"item":"quasilinear","values":["0","-5"]}],'
    b'"kind":"table","version":1}\n'
)


class Floats(unittest.TestCase):
    def test_a_float_is_not_rounded_unasked(self):
        d = {**YEARS, "p_bread": [3.18, 2.5]}
        with self.assertRaises(Refused) as caught:
            revealed.analyse(revealed.from_frame(d), numbers="exact")
        refused = caught.exception
        self.assertEqual((refused.fault, refused.record, refused.label, refused.name, refused.status), ("TooManyDecimals", 1, 2024, "p_bread", 4))
        self.assertIn("decimals=(6, None)", str(refused))
        asked = revealed.analyse(revealed.from_frame(d, decimals=2))
        text = revealed.analyse(revealed.from_frame({**d, "p_bread": ["3.18", "2.5"]}))
        self.assertEqual(asked.certificate.data, text.certificate.data)
        self.assertEqual(revealed.analyse(revealed.from_frame(d), decimals=(2, 0)).certificate.data, text.certificate.data)
        self.assertEqual(revealed.analyse(d).certificate.data, text.certificate.data)

    def test_zero_with_a_sign(self):
        self.assertEqual(revealed.certify(P, [[1, -0.0], [2, 1]]).data, revealed.certify(P, [[1, 0], [2, 1]]).data)
        with self.assertRaises(Refused) as caught:
            revealed.analyse([[-0.0, 1]], [[1, 1]])
        self.assertEqual((caught.exception.fault, caught.exception.column), ("ZeroPrice", 1))

    def test_missing_and_negative(self):
        for value, told in [(float("nan"), "missing"), (None, "missing"), ("", "missing"), (-1.5, "is negative"), ("NA", "'NA'"), (float("inf"), "inf")]:
            with self.assertRaises(Refused) as caught:
                revealed.analyse(revealed.from_frame({**YEARS, "q_wine": [1, value]}))
            refused = caught.exception
            self.assertEqual((refused.fault, refused.record, refused.column, refused.label, refused.name), ("BadNumber", 2, 4, 2025, "q_wine"))
            self.assertIn(told, str(refused))

    def test_other_faults(self):
        for p, q, fault, record in [
            ([[1], [1]], [[1], [0]], "ZeroBundle", 2),
            ([[1], [10**7]], [[1], [1]], "TooLarge", 2),
            ([], [], "Empty", None),
            ([[1]] * 513, [[1]] * 513, "TooManyRecords", None),
            ([[1] * 17], [[1] * 17], "TooManyGoods", None),
        ]:
            with self.assertRaises(Refused) as caught:
                revealed.analyse(p, q)
            self.assertEqual((caught.exception.fault, caught.exception.record, caught.exception.label), (fault, record, record))


class Asked(unittest.TestCase):
    """The worked example of README, in the units of the data."""

    def test_demand(self):
        (answer,) = found = revealed.demand(revealed.from_frame(YEARS), new={"p_bread": 2, "p_wine": 2}, m=6)
        self.assertTrue(found.garp)
        self.assertEqual(answer.bounds, {"bread": (1, 2), "wine": (1, 2)})
        self.assertEqual(answer.inner, {"bread": 2, "wine": 1})
        self.assertEqual((answer.below, answer.strict, answer.expenditure, answer.prices), ([2024, 2025], [], 6, {"bread": 2, "wine": 2}))
        self.assertTrue(revealed.verify(found.table, found.certificate))
        self.assertTrue(revealed.check(found.table, found.certificate))

    def test_units(self):
        # the same with quantities in tenths, and prices and money in fifths
        d = {**YEARS, "q_bread": ["0.2", "0.1"], "q_wine": ["0.1", "0.2"]}
        (answer,) = revealed.demand(revealed.from_frame(d), new=[["0.4", "0.4"]], m=Decimal("0.12"))
        self.assertEqual(answer.bounds, {"bread": (Fraction(1, 10), Fraction(1, 5)), "wine": (Fraction(1, 10), Fraction(1, 5))})
        self.assertEqual((answer.inner, answer.expenditure), ({"bread": Fraction(1, 5), "wine": Fraction(1, 10)}, Fraction(3, 25)))
        (answer,) = revealed.welfare(revealed.from_frame(d), new=["0.4", "0.4"])
        self.assertEqual((answer.lower, answer.upper), ({2024: Fraction(2, 25), 2025: Fraction(2, 25)}, {2024: Fraction(3, 25), 2025: Fraction(3, 25)}))
        self.assertEqual(revealed.utility(revealed.from_frame(d), bundles=[["0.2", "0.1"], ["0.3", "0.3"]]), [0, Fraction(5, 8)])

    def test_welfare(self):
        (answer,) = found = revealed.welfare(revealed.from_frame(YEARS), new={"obs": ["now"], "p_wine": [2], "p_bread": [2]})
        self.assertEqual((answer.label, answer.lower, answer.upper), ("now", {2024: 4, 2025: 4}, {2024: 6, 2025: 6}))
        self.assertEqual(answer.at, {2024: 2024, 2025: 2025})
        self.assertTrue(revealed.verify(found.table, found.certificate))

    def test_utility(self):
        found = revealed.utility(revealed.from_frame(YEARS), bundles=[[2, 1], [3, 3]])
        self.assertEqual(found, [0, Fraction(25, 4)])
        found = revealed.utility(P, Q, bundles=[[1, 1]])
        self.assertEqual((found, found.reasons, found.garp), ([None], {1: "the axiom fails"}, False))

    def test_where_the_axiom_fails(self):
        (answer,) = found = revealed.demand(P, Q, new=[[1, 1]], m=[3])
        self.assertEqual((answer.garp, answer.bounds, found.garp), (False, None, False))
        self.assertIn(found.cycle, ([1, 2, 1], [2, 1, 2]))
        (answer,) = revealed.welfare(P, Q, new=[1, 1])
        self.assertEqual((answer.garp, answer.lower), (False, None))

    def test_refusals_name_the_new_rows(self):
        with self.assertRaises(Refused) as caught:
            revealed.demand(P, Q, new=[[1, 1], [1, 0]], m=3)
        self.assertEqual((caught.exception.file, caught.exception.fault, caught.exception.record, caught.exception.name), ("new", "ZeroPrice", 2, "p_2"))
        with self.assertRaises(Refused) as caught:
            revealed.demand(P, Q, new={"p_1": 1, "p_2": 1})
        self.assertEqual((caught.exception.file, caught.exception.fault), ("new", "Unpaired"))


BUDGETS = {"p_bread": [1, 2], "p_wine": [2, 1], "w": [4, 4]}
CHOICES = {"budget": [1, 1, 2, 2], "q_bread": [2, 0, 1, 2], "q_wine": [1, 2, 2, 0], "n": [1, 3, 2, 2]}


class Random(unittest.TestCase):
    def test_no_mixture(self):
        verdict = revealed.random(BUDGETS, CHOICES)
        self.assertEqual((verdict.rational, verdict.share, verdict.total, verdict.reason), (False, Fraction(3, 4), 4, None))
        self.assertEqual([part.patches for part in verdict.parts], [[1, 4], [2, 3]])
        self.assertEqual(sum(part.share for part in verdict.parts), Fraction(3, 4))
        self.assertEqual(verdict.weights, [1, 0, 1, 0])
        self.assertEqual([(it.number, it.budget) for it in verdict.patches], [(1, 1), (2, 1), (3, 2), (4, 2)])
        self.assertEqual([sum(it.share for it in verdict.patches if it.budget == budget) for budget in (1, 2)], [Fraction(3, 4)] * 2)
        self.assertTrue(revealed.check(verdict, verdict))
        self.assertTrue(revealed.verify(verdict, verdict))

    def test_patches_with_their_sides(self):
        found = revealed.patches({**BUDGETS, "obs": ["low", "high"]}, {**CHOICES, "budget": ["low", "low", "high", "high"]})
        self.assertEqual([(it.number, it.budget, it.share, it.units) for it in found], [
            (1, 1, Fraction(1, 4), 1), (2, 1, Fraction(3, 4), 3), (3, 2, Fraction(1, 2), 2), (4, 2, Fraction(1, 2), 2),
        ])  # fmt: skip
        self.assertEqual([it.sides for it in found[:2]], [{"low": "on", "high": "above"}, {"low": "on", "high": "below"}])
        self.assertEqual([it.sides for it in found[2:]], [{"low": "above", "high": "on"}, {"low": "below", "high": "on"}])
        self.assertEqual(repr(found[1]), "<patch 2 of budget 1: 3/4, on below>")
        self.assertEqual([it.units for it in revealed.choice_patches(BUDGETS, CHOICES, per=10)], [3, 7, 5, 5])
        own = revealed.Choices(BUDGETS, CHOICES, None)
        for report in ("", "budgets 2 patches 1 total 4\n", "budgets 2 patches 1 total 4\npatch 1 budget 1 units 1 sides on\n"):
            with self.assertRaises(revealed.Unreadable):
                revealed.answers.patches_of(own, report)

    def test_rows_and_names_of_budgets(self):
        rows = revealed.random([[1, 2, 4], [2, 1, 4]], [[1, 2, 1, 1], [1, 0, 2, 3], [2, 1, 2, 2], [2, 2, 0, 2]])
        named = revealed.random({**BUDGETS, "obs": ["low", "high"]}, {**CHOICES, "budget": ["low", "low", "high", "high"]})
        self.assertEqual(rows.certificate.data, named.certificate.data)
        with self.assertRaises(Refused) as caught:
            revealed.random({**BUDGETS, "obs": ["low", "high"]}, {**CHOICES, "budget": ["low", "low", "high", "hihg"]})
        self.assertEqual((caught.exception.fault, caught.exception.record, caught.exception.label), ("UnknownBudget", 4, 4))

    def test_units_that_are_asked_for(self):
        verdict = revealed.random(BUDGETS, CHOICES, per=10)
        self.assertEqual(verdict.total, 10)
        self.assertTrue(revealed.check(verdict, verdict))
        self.assertTrue(revealed.verify(verdict, verdict))
        self.assertFalse(revealed.check(verdict, verdict, per=20))
        self.assertFalse(revealed.verify(verdict, verdict, per=20))

    def test_a_mixture(self):
        verdict = revealed.random(BUDGETS, {**CHOICES, "n": [0, 3, 2, 0]})
        self.assertEqual((verdict.rational, verdict.share, verdict.weights), (True, 1, None))
        self.assertEqual([(it.number, it.budget, it.share) for it in verdict.patches], [(1, 1, 1), (2, 2, 1)])

    def test_a_budget_without_choices(self):
        with self.assertRaises(Refused) as caught:
            revealed.random(BUDGETS, {**CHOICES, "n": [1, 1, 0, 0]})
        self.assertEqual((caught.exception.fault, caught.exception.budget, caught.exception.label), ("NoChoices", 2, 2))
        self.assertIn("choices, budget 2: ", str(caught.exception))

    def test_shares_and_exchanged_frames(self):
        shares = {name: values for name, values in CHOICES.items() if name != "n"}
        for given in ({**CHOICES, "n": ["0.25", "0.75", "0.5", "0.5"]}, {**shares, "share": [0.25, 0.7, 0.5, 0.5]}):
            with self.assertRaisesRegex(ValueError, "'(n|share)'.*If you have shares, multiply them"):
                revealed.random(BUDGETS, given)
        with self.assertRaisesRegex(BadData, "exchanged"):
            revealed.random(CHOICES, BUDGETS)


class Checks(unittest.TestCase):
    def test_the_examples(self):
        for data, certificate, accepted in [
            ("contradiction.csv", "contradiction.json", True),
            ("contradiction.csv", "forged.json", False),
            ("decimals.csv", "contradiction.json", False),
            (("budgets.csv", "choices.csv"), "choices.json", True),
        ]:
            data = EXAMPLES / data if isinstance(data, str) else tuple(EXAMPLES / it for it in data)
            for checker in (revealed.check, revealed.verify):
                self.assertEqual(bool(checker(data, EXAMPLES / certificate)), accepted, certificate)
        told = revealed.check(EXAMPLES / "contradiction.csv", EXAMPLES / "forged.json")
        self.assertEqual((told.item, told.reason, told.place), (2, "Order", 1))
        self.assertEqual(revealed.verify(EXAMPLES / "contradiction.csv", EXAMPLES / "forged.json").rejected.number, 2)

    def test_what_is_proved_is_told_item_by_item(self):
        """With the index, the share, and the levels at which an item is proved; and what a rejection means."""
        of_choices = ((EXAMPLES / "budgets.csv", EXAMPLES / "choices.csv"), EXAMPLES / "choices.json")
        of_levels = (EXAMPLES / "levels.csv", EXAMPLES / "levels.json")
        forged = (EXAMPLES / "contradiction.csv", EXAMPLES / "forged.json")
        for checker in (revealed.check, revealed.verify):
            self.assertEqual(repr(checker(*of_choices)).splitlines()[1:], ["item 1 random violated, maximum share 3/4: proved"])
            said = repr(checker(*of_levels)).splitlines()
            self.assertEqual(said[1:4:2], ["item 1 garp holds at the levels 0.799, 1: proved", "item 3 efficiency 4/5 attained yes: proved"])
            said = repr(checker(*forged)).splitlines()
            self.assertTrue(said[0].startswith("rejected"), said)
            self.assertIn("item 2 efficiency 9/10 attained yes: not proved", said[-2])
            self.assertIn("may be true or false", said[-1])
        self.assertIn("The ranks or numbers break their inequality", repr(revealed.check(*forged)))
        lines = {"i_x": [87.13, 45.5], "i_y": [33.61, 62.04], "q_x": [43.2, 20.1], "q_y": [16.95, 34.63]}
        verdict = revealed.analyse(lines)
        for checker in (revealed.check, revealed.verify):
            own = [it for it in repr(checker(lines, verdict)).splitlines() if " quasilinear " in it]
            self.assertEqual([it.count("not told of the data") for it in own], [1])

    def test_each_example_by_both(self):
        for name in ("contradiction", "cycle_of_three", "decimals", "experiment"):
            ran = subprocess.run([os.environ["RP_EXEC"], "certify", f"{name}.csv"], cwd=EXAMPLES, capture_output=True, stdin=subprocess.DEVNULL)
            found = revealed.verify(EXAMPLES / f"{name}.csv", ran.stdout)
            self.assertEqual((ran.returncode, bool(found), found.remarks), (0, True, []), name)
        for command, new in (("demand", "budget"), ("welfare", "prices")):
            words = [os.environ["RP_EXEC"], command, "decimals.csv", f"{new}.csv", "--json"]
            ran = subprocess.run(words, cwd=EXAMPLES, capture_output=True, stdin=subprocess.DEVNULL)
            self.assertTrue(revealed.verify(EXAMPLES / "decimals.csv", ran.stdout))

    def test_the_columns_of_a_file_may_stand_in_any_order(self):
        made = revealed.from_frame(YEARS)
        verdict = revealed.analyse(made)
        with tempfile.TemporaryDirectory() as folder:
            path = pathlib.Path(folder) / "a table.csv"
            path.write_bytes(made.csv())
            verdict.certificate.save(f"{folder}/a certificate.json")
            self.assertTrue(revealed.verify(str(path), f"{folder}/a certificate.json"))
            self.assertTrue(revealed.check(path, verdict))

    def test_no_certificate(self):
        for text, fault, item in [
            (b"{", "NotJson", None),
            ('{"items":[],"kind":"table","version":3}', "BadVersion", None),
            ('{"items":[],"kind":"table","version":2}', "BadShape", 0),
            ({"items": [1], "kind": "table", "version": 1}, "BadShape", 1),
        ]:
            with self.assertRaises(Refused) as caught:
                revealed.check((P, Q), text)
            self.assertEqual((caught.exception.fault, caught.exception.file, caught.exception.item), (fault, "certificate", item))
            with self.assertRaises(revealed.NoCertificate):
                revealed.verify((P, Q), text)
        self.assertEqual(revealed.check((P, Q), {"items": [], "kind": "table", "version": 1}).items, 0)

    def test_a_table_with_levels(self):
        with tempfile.TemporaryDirectory() as folder:
            path = pathlib.Path(folder) / "table.csv"
            path.write_bytes(b"p_a,q_a,p_b,q_b,e\n1,1,2,2,799\n2,2,1,1,1000\n")
            ran = subprocess.run([os.environ["RP_EXEC"], "certify", "table.csv"], cwd=folder, capture_output=True, stdin=subprocess.DEVNULL)
            found = revealed.verify(path, ran.stdout)
            self.assertEqual((bool(found), found.remarks, len(found.items)), (True, [], 5))
            self.assertTrue(revealed.check(path, ran.stdout))
            for levels, place in ([799, 999], 2), ([799], 0), ([800, 999, 1000], 0):
                other = {**json.loads(ran.stdout), "levels": levels}
                told = revealed.check(path, other)
                self.assertEqual((told.item, told.reason, told.place), (0, "Levels", place))
                self.assertEqual(revealed.verify(path, other).rejected.number, 0)


class Panels(unittest.TestCase):
    def test_it_keeps_the_order_and_goes_on(self):
        d = {
            "household": ["north", "south", "east, upper", "north", "south", "west"],
            "p_a": [1, 1, 1, 2, 2, 0],
            "p_b": [2, 2, 2, 1, 1, 1],
            "q_a": [2, 1, 1, 1, 2, 1],
            "q_b": [1, 2, 1, 2, 1, 1],
        }
        found = revealed.panel(d, "household", workers=2, progress=False)
        self.assertEqual([row.key for row in found], ["north", "south", "east, upper", "west"])
        self.assertEqual([row.status for row in found], [0, 0, 0, 4])
        self.assertEqual([row["garp"] for row in found.records()], [True, False, True, None])
        self.assertEqual((found[3].refusal.fault, found[3].refusal.label, found[1].verdict.labels), ("ZeroPrice", 6, [2, 5]))
        last = found.records()[3]
        self.assertEqual((last["fault"], last["record"], last["column"]), ("ZeroPrice", 6, 2))
        self.assertIn(
            "row 6, column 'p_a', value 0: This price is 0, and every price must be positive. Use a positive price, or leave out the row or the good. [ZeroPrice record 6 column 2]",
            found[3].message,
        )
        self.assertEqual((found[1].efficiency, found[1].efficiency_floor, found[1].ccei), (Fraction(4, 5), 0.8, 0.8))
        self.assertTrue(revealed.verify(found[1].verdict))

    def test_two_columns_tell_apart(self):
        d = {"town": ["x", "x"], "year": [1, 2], "p_a": [1, 1], "q_a": [1, 1]}
        found = revealed.panel(d, ["town", "year"], progress=False)
        self.assertEqual([row.key for row in found], [("x", 1), ("x", 2)])
        self.assertEqual(found.records()[1]["year"], 2)

    @unittest.skipIf(pandas is None, "pandas is not there")
    def test_a_frame_of_it(self):
        d = pandas.DataFrame({"id": [7, 8, 7], "p_a": [1, 2, 3], "q_a": [1, 1.5, None]}, index=["u", "v", "w"])
        found = revealed.panel(d, "id").frame()
        self.assertEqual((list(found["fault"].fillna("")), found["record"][0]), (["BadNumber", ""], 3))


def many(count):
    """Returns a long frame of so many households of two records, of which every ninth is refused."""
    d = {"id": [], "p_a": [], "p_b": [], "q_a": [], "q_b": []}
    for number in range(count):
        for row in ((1, 2, 1 + number % 3, 2), (2, number % 9 and 1, 2, number % 2)):
            for name, value in zip(d, (number, *row)):
                d[name].append(value)
    return d


class Threads(unittest.TestCase):
    """Blocks of households by several calls at once."""

    def test_many_households(self):
        count = 3 * revealed.panels.FEW
        found = [revealed.panel(many(count), "id", workers=workers, pump=True, progress=False) for workers in (1, 3)]
        self.assertEqual(found[0].csv(), found[1].csv())
        self.assertEqual([row.fault for row in found[0]], ["ZeroPrice" if number % 9 == 0 else None for number in range(count)])
        self.assertEqual([row.record for row in found[0] if row.fault], [2 * number + 2 for number in range(0, count, 9)])

    def test_a_program_that_cannot_be_run(self):
        with tempfile.TemporaryDirectory() as folder:
            exe = pathlib.Path(folder) / "rp-panel"
            exe.write_bytes(b"\x7fELF no program")
            exe.chmod(0o755)
            for count in (1, 2 * revealed.panels.FEW):
                with self.assertRaises(Problem):
                    revealed.panel(many(count), "id", workers=2, exe=exe, progress=False)


class Programs(unittest.TestCase):
    def fake(self, folder, status, said="", out=""):
        path = pathlib.Path(folder) / "a program of our own é"
        path.write_text(f"#!/bin/sh\nprintf '%s\\n' '{said}' >&2\nprintf '%s' '{out}'\nexit {status}\n", encoding="utf-8")
        path.chmod(path.stat().st_mode | stat.S_IXUSR)
        return path

    def test_every_status(self):
        with tempfile.TemporaryDirectory() as folder:
            for status, said in [
                (2, "usage: rp pairs TABLE"),
                (3, "rp: table.csv: read failed"),
                (5, "rp: write failed"),
                (6, "rp: out of memory"),
                (7, ""),
                (70, "rp: the command rt of the Rattle kit is not on the path"),
                (1, ""),
                (-9, ""),
            ]:
                exe = self.fake(folder, status if status >= 0 else 0, said)
                if status == -9:
                    exe.write_text("#!/bin/sh\nkill -9 $$\n")
                with self.assertRaises(Failed) as caught:
                    revealed.analyse(P, Q, exe=exe)
                self.assertEqual((caught.exception.status, caught.exception.said), (status, said))
            exe = self.fake(folder, 4, "rp: table.csv: TooLong")
            with self.assertRaises(Refused) as caught:
                revealed.analyse(P, Q, exe=exe)
            self.assertEqual((caught.exception.fault, caught.exception.record), ("TooLong", None))
            exe = self.fake(folder, 4, "rp: NeedUnit budget 2")
            with self.assertRaises(Refused) as caught:
                revealed.random({**BUDGETS, "obs": ["low", "high"]}, {**CHOICES, "budget": ["low", "low", "high", "high"]}, exe=exe)
            self.assertEqual((caught.exception.fault, caught.exception.budget, caught.exception.label), ("NeedUnit", 2, "high"))
            exe = self.fake(folder, 6, "rp-panel: out of memory")
            with self.assertRaises(Failed) as caught:
                revealed.panel({"id": [1], "p_a": [1], "q_a": [1]}, "id", exe=exe, progress=False)
            self.assertEqual((caught.exception.status, caught.exception.said), (6, "rp-panel: out of memory"))

    def test_a_note_is_no_fault(self):
        with tempfile.TemporaryDirectory() as folder:
            out = revealed.certify(P, Q).data.decode()
            exe = self.fake(folder, 0, "note: answered by the same source", out)
            self.assertFalse(revealed.analyse(P, Q, exe=exe).garp)

    def test_it_is_found_by_argument_then_environment_then_path(self):
        program, path = os.environ["RP_EXEC"], os.environ["PATH"]
        with tempfile.TemporaryDirectory() as folder:
            (pathlib.Path(folder) / "rp").symlink_to(program)
            try:
                os.environ["PATH"] = folder + os.pathsep + path
                del os.environ["RP_EXEC"]
                self.assertEqual(revealed.program.find(), os.path.join(folder, "rp"))
                self.assertFalse(revealed.analyse(P, Q).garp)
                os.environ["RP_EXEC"] = program
                self.assertEqual(revealed.program.find(), os.path.abspath(program))
                self.assertEqual(revealed.program.find(sys.executable), os.path.abspath(sys.executable))
                os.environ["RP_EXEC"] = os.path.join(folder, "not there")
                with self.assertRaises(NoProgram):
                    revealed.analyse(P, Q)
                del os.environ["RP_EXEC"]
                os.environ["PATH"] = os.path.join(folder, "nothing here")
                # What to do is said: which package has the program inside, and what names another one.
                with self.assertRaisesRegex(NoProgram, r"Install the package of a release.*pip install.*exe=.*RP_EXEC.*RP_LIBRARY"):
                    revealed.analyse(P, Q)
            finally:
                os.environ["RP_EXEC"], os.environ["PATH"] = program, path

    def test_folders_with_blanks_and_letters(self):
        with tempfile.TemporaryDirectory() as folder:
            own = os.path.join(os.fsencode(folder), "ein Ordner mit Ümläuten".encode())
            os.makedirs(own)
            shutil.copy(os.path.realpath(os.environ["RP_EXEC"]), os.path.join(own, b"rp"))
            code = "import os, revealed; v = revealed.analyse([[1, 2], [2, 1]], {0!r}); print(v.garp, revealed.verify(v, v).accepted)"
            for locale in ("C", "C.UTF-8"):
                where = {"RP_EXEC": os.path.join(own, b"rp"), "TMPDIR": own, "LC_ALL": locale, "PYTHONPATH": str(HERE.parent)}
                ran = subprocess.run([sys.executable, "-c", code.format(Q)], env={**os.environ, **where}, cwd=own, capture_output=True)
                self.assertEqual((ran.stdout, ran.stderr), (b"False True\n", b""), locale)
                self.assertEqual(sorted(os.listdir(own)), [b"rp"])


class Bounds(unittest.TestCase):
    """At the prices 1, 1 and the expenditure 3 of the contradiction-free pair: bounds as floats beside the exact ones."""

    def test_records_and_frames(self):
        found = revealed.demand([[1, 2], [2, 1]], [[2, 1], [1, 2]], [[1, 1], [1, 3]], 3)
        records = found.records()
        self.assertEqual([(it["budget"], it["good"]) for it in records], [(1, "1"), (1, "2"), (2, "1"), (2, "2")])
        for it in records:
            self.assertIsInstance(it["lower"], float)
            self.assertLessEqual(Fraction(it["lower"]), it["lower_exact"])
            self.assertGreaterEqual(Fraction(it["upper"]), it["upper_exact"])
            self.assertLessEqual(it["lower"], it["inner"])
        welfare = revealed.welfare([[1, 2], [2, 1]], [[2, 1], [1, 2]], [1, 1]).records()
        self.assertEqual([(it["observation"], it["upper_exact"]) for it in welfare], [(1, 3), (2, 3)])
        # where the axiom fails there are no bounds
        (none, *_) = revealed.demand(P, [[1, 2], [2, 1]], [1, 1], 3).records()
        self.assertEqual((none["lower"], none["upper_exact"], none["reason"]), (None, None, "the axiom fails"))
        with self.assertRaises(BadData):
            revealed.utility([[1, 2], [2, 1]], [[2, 1], [1, 2]], [1, 1]).records()

    @unittest.skipIf(pandas is None, "pandas is not there")
    def test_frames(self):
        frame = revealed.demand([[1, 2], [2, 1]], [[2, 1], [1, 2]], [[1, 1], [1, 3]], 3).frame()
        self.assertEqual((len(frame), str(frame.dtypes["lower"]), str(frame.dtypes["upper"])), (4, "float64", "float64"))
        self.assertTrue((frame["lower"] <= frame["upper"]).all())

    def test_rounded_away_from_what_is_between(self):
        third = Fraction(1, 3)
        low, high = revealed.exact.double_below(third), revealed.exact.double_above(third)
        self.assertTrue(Fraction(low) < third < Fraction(high))
        self.assertEqual((revealed.exact.double_below(Fraction(1, 2)), revealed.exact.double_above(Fraction(1, 2))), (0.5, 0.5))


if __name__ == "__main__":
    unittest.main()
