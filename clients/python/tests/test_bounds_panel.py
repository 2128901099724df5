"""The bounds of each unit of a panel at new prices, what units are called, and that a hint of the program is no part of its first line."""

import unittest
from fractions import Fraction
from math import ceil, floor

import revealed
from revealed import AllRefused, BadData, Refused, program
from revealed.bounds_panel import told_of

# Two purchases that contradict each other, two that do not, and a price of 0.
D = {"subject": ["a", "a", "b", "b", "c"], "p_x": [1, 2, 1, 2, 0], "p_y": [2, 1, 2, 1, 1], "q_x": [1, 2, 2, 1, 1], "q_y": [2, 1, 1, 2, 1]}


def bounds(call, *data, **more):
    return call(*data, progress=False, **more)


class Bounds(unittest.TestCase):
    def test_demand_is_that_of_each_unit_alone(self):
        new = {"x": [1, 2], "y": [1, 1]}
        found = bounds(revealed.panel_demand, D, "subject", new, m=[3, 4])
        self.assertEqual([(it.key, it.garp, it.fault) for it in found], [("a", False, None), ("b", True, None), ("c", None, "ZeroPrice")])
        own = revealed.demand({name: column[2:4] for name, column in D.items() if name != "subject"}, None, new, m=[3, 4])
        wanted = {(it.label, good): it.bounds[good] for it in own for good in ("x", "y")}
        self.assertEqual(found[1].bounds, wanted)
        # On the budget x + y = 3 the demand at prices (1, 2) and (2, 1) leaves x and y from 1 to 2.
        self.assertEqual(found[1].bounds[1, "x"], (Fraction(1), Fraction(2)))
        self.assertEqual((found[2].record, found[2].column), (5, 2))

    def test_welfare_is_that_of_each_unit_alone(self):
        found = bounds(revealed.panel_welfare, {**D, "obs": [1, 2, 7, 8, 1]}, "subject", [1, 1])
        own = revealed.welfare({name: column[2:4] for name, column in D.items() if name != "subject"}, None, [1, 1])
        self.assertEqual([found[1].bounds[1, row] for row in (7, 8)], list(zip(own[0].lower.values(), own[0].upper.values())))
        # Bundles as good as (2, 1), chosen at prices (1, 2) for 4, cost 4 there at least: (0, 2) does, and costs 2 at the new prices.
        self.assertEqual(found[1].bounds[1, 7], (Fraction(2), Fraction(3)))

    def test_records_and_csv(self):
        found = bounds(revealed.panel_demand, D, "subject", [1, 1], m=3)
        first, x, y, last = found.records()
        self.assertEqual((first["garp"], first["lower"], first["reason"]), (False, None, "the axiom fails"))
        self.assertEqual((x["budget"], x["good"], x["lower"], x["upper_exact"], y["good"]), (1, "x", 1.0, Fraction(2), "y"))
        self.assertEqual(last["fault"], "ZeroPrice")
        lines = found.csv().decode().splitlines()
        self.assertEqual(lines[0], "subject,budget,good,garp,lower,upper,lower_exact,upper_exact,reason,fault")
        self.assertEqual(lines[2], "b,1,x,True,1.0,2.0,1,2,,")
        self.assertEqual(
            repr(found).splitlines()[:3],
            ["panel of 3 subjects by 'subject', bounds on demand for 1", "garp violated 1: no bounds", "1 with an error: ZeroPrice, the first 'c'"],
        )

    def test_a_unit_is_found_by_its_id(self):
        found = bounds(revealed.panel_demand, D, "subject", {"x": [7], "y": [3]}, m=3)
        self.assertIs(found["b"], found[1])
        self.assertEqual(revealed.panel(D, "subject", progress=False)["c"].fault, "ZeroPrice")
        with self.assertRaises(KeyError):
            found["d"]

    def test_bounds_are_printed_outward(self):
        # Demand at prices (7, 3) and 3 is (3 / 7, 0) at most.
        found = bounds(revealed.panel_demand, D, "subject", {"x": [7], "y": [3]}, m=3)
        self.assertIn("x at 1: 0 to 0.428572", repr(found["b"]))
        self.assertEqual((told_of(Fraction(1, 3), floor), told_of(Fraction(450), ceil), told_of(None, ceil)), ("0.333333", "450", "undetermined"))

    def test_labels_stay_integers_beside_units_without_bounds(self):
        try:
            import pandas  # noqa: F401
        except ImportError:
            self.skipTest("pandas is not here")
        frame = bounds(revealed.panel_welfare, {**D, "obs": [1, 2, 7, 8, 1]}, "subject", [1, 1]).frame()
        self.assertEqual([str(frame[name].dtype) for name in ("prices", "observation")], ["Int64", "Int64"])
        self.assertEqual(frame["observation"].dropna().tolist(), [7, 8])

    def test_an_error_of_the_new_prices_is_raised_once(self):
        for new, fault in [([1, 0], "ZeroPrice"), ([1.1234567, 1], "TooManyDecimals"), ({"x": [1], "z": [1]}, "OtherGoods")]:
            with self.assertRaises(Refused) as caught:
                bounds(revealed.panel_demand, D, "subject", new, m=3)
            self.assertEqual((caught.exception.fault, caught.exception.file), (fault, "new"), new)
        with self.assertRaises(BadData):
            bounds(revealed.panel_demand, D, "subject", None, m=3)
        with self.assertRaises(AllRefused):
            bounds(revealed.panel_welfare, {**D, "p_x": [0] * 5}, "subject", [1, 1])

    def test_rows_of_one_label_are_no_unit(self):
        found = bounds(revealed.panel_welfare, {**D, "obs": [1, 1, 1, 2, 1], "p_x": [1, 2, 1, 2, 1]}, "subject", [1, 1])
        self.assertEqual([it.fault for it in found], ["Pooled", None, None])


class Words(unittest.TestCase):
    """What units are called is the user's: by the name of the column, or by the argument."""

    def said(self, by, **more):
        found = revealed.panel({by if name == "subject" else name: column for name, column in D.items()}, by, progress=False, **more)
        return repr(found), found.text()

    def test_subjects_are_no_households(self):
        for by, more, wanted in [
            ("subject", {}, "subjects"),
            ("subject_id", {}, "subjects"),
            ("hh", {}, "households"),
            ("town", {}, "units"),
            ("town", {"units": "towns"}, "towns"),
        ]:
            shown, text = self.said(by, **more)
            self.assertIn(f"panel of 3 {wanted} by", shown)
            self.assertRegex(text, f"^{wanted} +3\\n")
            if wanted != "households":
                self.assertNotIn("household", shown + text)
        with self.assertRaises(BadData):
            self.said("subject", units=3)

    def test_all_of_them_with_one_error(self):
        with self.assertRaises(AllRefused) as caught:
            revealed.panel({**D, "p_x": [0] * 5}, "subject", progress=False)
        self.assertTrue(str(caught.exception).startswith("all 3 subjects have one error, the first, 'a': row 1, column 'p_x', value 0: This price is 0"))

    def test_what_the_program_adds_is_no_part_of_its_line(self):
        ran = program.ran_of(4, b"", b"rp: table.csv: ZeroPrice record 1 column 2\nhint: This price is 0.\nnote: more\n")
        self.assertEqual(ran.refusal, ("table", "ZeroPrice", {"record": 1, "column": 2}))

    def test_one_name_for_each_call(self):
        for name, other in [("demand", "demand_bounds"), ("welfare", "welfare_bounds"), ("pump", "money_pump"), ("power", "power_of_test")]:
            self.assertIs(getattr(revealed, name), getattr(revealed, other))
            self.assertEqual(getattr(revealed, name).__name__, name)


class Spike(unittest.TestCase):
    def test_an_index_of_one_has_a_bar_of_its_own(self):
        from revealed import pictures

        class Own:
            def __init__(self, efficiency):
                self.efficiency, self.ccei = efficiency, float(efficiency)

        own = [Own(Fraction(1)), Own(Fraction(999999, 1000000)), Own(Fraction(9, 10)), Own(Fraction(1))]
        self.assertEqual(pictures.shares_in(own, 0.9, 0.05, 2), [0.25, 0.25, 0.5])


if __name__ == "__main__":
    unittest.main()
