"""Indices of goodness of fit: worked tables whose numbers are by hand, by stand-ins that write what they are told and by the program."""

import contextlib
import copy
import json
import os
import pathlib
import pickle
import signal
import subprocess
import sys
import tempfile
import time
import unittest
import unittest.mock
from fractions import Fraction

import revealed
from revealed import AllRefused, BadData, NoProgram, Refused, Unreadable, papers, program
from revealed.goodness import between
from test_waiting import PACKAGE, is_alive
from test_wide import variables

try:
    import matplotlib
    import pandas

    matplotlib.use("Agg")
except ImportError:
    matplotlib = pandas = None

UNIT = 2**40
# What the level 4/5 lacks of 1, in parts of 2^40, rounded down: a fifth, and the square of it, a 25th.
FIFTH, SQUARE = 219902325555, 43980465111
# Costs 5, 4 and 4, 5: each is strictly preferred to the other.
TWO = [[1, 2], [2, 1]], [[1, 2], [2, 1]]
# Costs 2, 1, 3; 3, 2, 1; 1, 3, 2: strict steps from 1 to 2, from 2 to 3 and from 3 to 1, and no others.
THREE = [[2, 1, 3], [3, 2, 1], [1, 3, 2]], [[1, 0, 0], [0, 1, 0], [0, 0, 1]]
# Costs 8, 4 and 8, 4: the first is strictly preferred to the second, and nothing violates.
NONE = [[1, 1], [1, 1]], [[4, 4], [2, 2]]

# What a program could write of the table TWO, whose observations 1 and 2 contradict each other: bounds that meet, and bounds that do not.
HEAD = """observations 2 goods 2 places 0 0
violations garp 2 wgarp 2 warp 2 sarp 2 of 2
violating observations 2 of 2
efficiency 4/5 attained yes
below 1 1
above 1 2 1
at ranks 2 2
"""
TAIL = """pump 1/5
cycle 1 2 1
values 0 0
"""
OPEN = f"""{HEAD}kept 1 to 2 of 2
observations 1
ranks 0
groups over 1
pairs 1 weight 1
pairs 2 weight 1
levels mean 0 to 1/10
at 4/5 1
ranks 0 1
cycles over 1
levels squares 0 to 1/50
at 4/5 1
ranks 0 1
cycles over 1
steps 0 to 1/10
removed 1 to 2
ranks 0 1
cycles over 1
{TAIL}"""
MEET = f"""{HEAD}kept 1 of 2
observations 1
ranks 0
groups over 1
pairs 1 2 weight 1
levels mean {FIFTH}/{2 * UNIT} to 1/10 exact
at 4/5 1
ranks 0 1
cycles over 1
cycle 1 2 1 weight {FIFTH}
levels squares {SQUARE}/{2 * UNIT} to 1/50 exact
at 4/5 1
ranks 0 1
cycles over 1
cycle 1 2 1 weight {SQUARE}
steps 1/10 to 1/10 exact
removed 1 to 2
ranks 0 1
cycles over 1
cycle 1 2 1 weight 1
{TAIL}quasilinear level 4/5
cycle 1 2 1
values 0 0
homothetic level {FIFTH}/274877906944 to 879609302221/{UNIT}
cycle 1 2 1
values 1152921504606846976 1152921504606846976
"""


def has_fit():
    """Whether there is a program that computes indices of goodness of fit."""
    try:
        revealed.fit([[1]], [[1]])
    except NoProgram:
        return False
    return True


@contextlib.contextmanager
def stand_in(report, certificate="", status=0, said=""):
    """Yields a program beside which a wider edition writes this report, and this certificate if it is asked for one."""
    with tempfile.TemporaryDirectory(prefix="ein Ordner é ") as folder, variables(RP_WIDE=None, RP_LIBRARY=None):
        place = pathlib.Path(folder)
        (place / "report").write_text(report, encoding="utf-8")
        (place / "certificate").write_text(certificate, encoding="utf-8")
        (place / "said").write_text(said, encoding="utf-8")
        wide = f'#!/bin/sh\ncat "${{0%/*}}/said" >&2\ncase $* in *--json*) cat "${{0%/*}}/certificate" ;; *) cat "${{0%/*}}/report" ;; esac\nexit {status}\n'
        for name, text in (("rp", "#!/bin/sh\nexit 4\n"), ("rp-wide", wide)):
            (place / name).write_text(text, encoding="utf-8")
            (place / name).chmod(0o755)
        yield str(place / "rp")


def told(report, data=TWO, **more):
    """Returns the indices of a table that a stand-in tells."""
    with stand_in(report, **more) as exe:
        return revealed.fit(*data, exe=exe)


class Reports(unittest.TestCase):
    def test_bounds_that_meet(self):
        fit = told(MEET)
        self.assertEqual((fit.observations, fit.goods, fit.pairs, fit.violating_observations), (2, 2, 2, 2))
        self.assertEqual((fit.garp_pairs, fit.wgarp_pairs, fit.warp_pairs, fit.sarp_pairs), (2, 2, 2, 2))
        self.assertEqual(fit.shares, dict.fromkeys(("garp", "wgarp", "warp", "sarp", "observations"), Fraction(1)))
        self.assertEqual((fit.efficiency, fit.ccei, fit.attained), (Fraction(4, 5), 0.8, True))
        self.assertEqual((fit.kept, fit.kept_most, fit.kept_exact, fit.kept_rows, fit.dropped), (1, 1, True, [1], [2]))
        self.assertEqual((fit.hm_low, fit.hm_high), (Fraction(1, 2), Fraction(1, 2)))
        # A level of 4/5 lacks a fifth. The lower bound counts its whole parts of 2^40, and the upper bound is exact.
        self.assertEqual((fit.levels_low, fit.levels_high, fit.levels_exact), (Fraction(FIFTH, 2 * UNIT), Fraction(1, 10), True))
        self.assertEqual((fit.squares_low, fit.squares_high, fit.squares_exact), (Fraction(SQUARE, 2 * UNIT), Fraction(1, 50), True))
        self.assertEqual((fit.levels, fit.squares_levels), ({1: Fraction(4, 5), 2: 1}, {1: Fraction(4, 5), 2: 1}))
        self.assertEqual((fit.steps_low, fit.steps_high, fit.steps_exact, fit.removed_steps), (Fraction(1, 10), Fraction(1, 10), True, [(1, 2)]))
        self.assertEqual((fit.pump, fit.pump_cycle, fit.quasilinear_level), (Fraction(1, 5), [1, 2, 1], Fraction(4, 5)))
        self.assertEqual((fit.homothetic_low, fit.homothetic_high, fit.homothetic_exact), (Fraction(FIFTH * 4, UNIT), Fraction(FIFTH * 4 + 1, UNIT), True))
        self.assertEqual((fit.reasons, fit.evidence["kept"]), ({}, {"ranks": {1: 0}, "groups": [("pairs", [1, 2], 1)]}))
        self.assertEqual(fit.evidence["levels"], {"ranks": {1: 0, 2: 1}, "cycles": [([1, 2, 1], FIFTH)]})

    def test_bounds_that_do_not_meet(self):
        fit = told(OPEN)
        self.assertEqual((fit.kept, fit.kept_most, fit.kept_exact, fit.hm_low, fit.hm_high), (1, 2, False, Fraction(1, 2), 1))
        self.assertEqual((fit.levels_low, fit.levels_high, fit.levels_exact), (0, Fraction(1, 10), False))
        self.assertEqual((fit.steps_low, fit.steps_high, fit.steps_exact), (0, Fraction(1, 10), False))
        self.assertEqual((fit.quasilinear_level, fit.homothetic_low, fit.homothetic_high, fit.homothetic_exact), (None, None, None, None))
        self.assertEqual(set(fit.reasons), {"quasilinear_level", "homothetic_level"})
        self.assertIn("HM 0.500000 to 1.000000 (kept 1 to 2 of 2, without 2)", repr(fit))
        self.assertIn("AVI 0.000000 to 0.100000\n", repr(fit))
        self.assertIn("homothetic level none: rp-wide found no evidence of it", repr(fit))
        self.assertNotIn("None", repr(fit))

    def test_what_is_shown(self):
        fit = told(MEET)
        self.assertEqual(
            repr(fit).splitlines(),
            [
                "violations garp 2, wgarp 2, warp 2, sarp 2 of 2 pairs, 2 of 2 observations",
                "CCEI 0.800000",
                "HM 0.500000 (kept 1 of 2, without 2)",
                "AVI 0.100000",
                "AVI, squares 0.020000",
                "MCI 0.100000",
                "MPI, maximum 0.200000",
                "quasilinear level 0.800000",
                "homothetic level 0.800000",
            ],
        )
        html = told(OPEN)._repr_html_()
        self.assertIn("<td>HM</td><td>share of kept observations</td><td>0.500000 to 1.000000</td><td>no</td>", html)

    def test_labels_are_the_users(self):
        d = {"obs": ["a<b", "c"], "p_x": [1, 2], "p_y": [2, 1], "q_x": [1, 2], "q_y": [2, 1]}
        with stand_in(MEET) as exe:
            fit = revealed.fit(d, exe=exe)
        self.assertEqual((fit.kept_rows, fit.dropped, fit.removed_steps, fit.pump_cycle), (["a<b"], ["c"], [("a<b", "c")], ["a<b", "c", "a<b"]))
        self.assertEqual(fit.levels, {"a<b": Fraction(4, 5), "c": 1})
        self.assertIn("<p>without c</p>", fit._repr_html_())

    def test_records(self):
        rows = {row["index"]: row for row in told(OPEN).records()}
        self.assertEqual(list(rows), ["CCEI", "HM", "AVI", "AVI, squares", "MCI", "MPI, maximum", "quasilinear level", "homothetic level"])
        self.assertEqual((rows["HM"]["low"], rows["HM"]["high"], rows["HM"]["exact"]), (0.5, 1.0, False))
        self.assertEqual((rows["CCEI"]["low_exact"], rows["CCEI"]["exact"]), (Fraction(4, 5), True))
        # A bound as a float is no better than the bound.
        avi = rows["AVI"]
        self.assertTrue(Fraction(avi["high"]) >= avi["high_exact"] == Fraction(1, 10))
        self.assertEqual((rows["quasilinear level"]["low"], rows["quasilinear level"]["exact"]), (None, None))
        self.assertIn("no evidence", rows["quasilinear level"]["reason"])
        self.assertEqual(told(OPEN).as_dict()["dropped"], [2])

    def test_intercepts_give_each_row_money_of_its_own(self):
        lines = {"i_x": [2, 1], "i_y": [1, 2], "q_x": [1, 2], "q_y": [2, 1]}
        with stand_in(MEET) as exe, unittest.mock.patch("revealed.tables.spent", lambda *_: None):
            fit = revealed.fit(lines, exe=exe)
        self.assertEqual((fit.steps_low, fit.steps_high, fit.steps_exact, fit.removed_steps, fit.pump, fit.quasilinear_level), (None,) * 6)
        self.assertEqual({name for name, why in fit.reasons.items() if "money of its own" in why}, {"steps", "pump", "quasilinear_level"})
        self.assertEqual((fit.kept, fit.levels_exact, fit.homothetic_exact), (1, True, True))
        self.assertIn("MCI none: intercepts exchanged give each row money of its own", repr(fit))

    def test_pickles_and_copies(self):
        fit = told(MEET)
        for again in (pickle.loads(pickle.dumps(fit)), copy.deepcopy(fit)):
            self.assertEqual((repr(again), again.as_dict(), again.evidence), (repr(fit), fit.as_dict(), fit.evidence))

    def test_bounds_as_numbers(self):
        third = Fraction(1, 3)
        self.assertEqual(between(third, third, 3), "0.333")
        self.assertEqual(between(third, third + Fraction(1, 10**9), 3), "0.333")
        self.assertEqual(between(Fraction(3334, 10000), Fraction(3336, 10000), 3), "0.333 to 0.334")
        self.assertEqual(between(Fraction(0), Fraction(0), 3), "0.000")
        self.assertEqual(between(Fraction(0), Fraction(1, 10**9), 3), "0.000 to 0.001")
        self.assertEqual(between(None, None, 3), "none")

    def test_what_is_no_report(self):
        bad = [
            "",
            "accepted items 9\n",
            MEET.replace("observations 2 goods", "observations 3 goods"),
            MEET.replace(" of 2\nviolating", " of 6\nviolating"),
            MEET.replace("kept 1 of 2", "kept 2 of 2"),
            MEET.replace("kept 1 of 2", "kept 1 to 0 of 2"),
            MEET.replace("observations 1\n", "observations 3\n"),
            MEET.replace("at 4/5 1\n", "at 4/5\n"),
            MEET.replace("steps 1/10 to 1/10", "steps 1/5 to 1/10"),
            MEET.replace("steps 1/10 to 1/10", "steps 2/20 to 1/10"),
            MEET.replace("removed 1 to 2", "removed 1 to 3"),
            MEET.replace("values 0 0\n", "values 0\n", 1),
            MEET + "more\n",
            MEET[:-1],
            OPEN.replace("steps 0 to 1/10", "steps 0"),
        ]
        for text in bad:
            with self.assertRaises(Unreadable, msg=text):
                told(text)

    def test_certificates_that_disagree_with_the_report(self):
        items = [
            {"item": "violations", "garp": "2", "wgarp": "2", "warp": "2", "sarp": "2", "observations": "2"},
            {"item": "efficiency", "level": "4/5", "above": [1, 2, 1], "below": [1, 1], "at_ranks": [2, 2]},
            {"item": "kept", "kept": [1], "ranks": [0], "den": "1", "groups": [{"pairs": [1, 2], "weight": "1"}], "most": "1"},
            {"item": "levels", "measure": "mean", "at": [2, 0], "ranks": [0, 1], "den": "1", "cycles": [{"cycle": [1, 2, 1], "weight": str(FIFTH)}]},
            {"item": "levels", "measure": "squares", "at": [2, 0], "ranks": [0, 1], "den": "1", "cycles": [{"cycle": [1, 2, 1], "weight": str(SQUARE)}]},
        ]
        own = json.dumps({"items": items, "kind": "fit", "version": 1})
        with stand_in(MEET, own) as exe:
            fit = revealed.fit(*TWO, exe=exe)
            self.assertEqual(fit.certificate.data.decode(), own)
            self.assertIs(fit.certificate, fit.certificate)
            found = revealed.verify(fit)
            self.assertTrue(found, found)
        for before, after in (('"2"', '"1"'), ("4/5", "3/5"), ('"most": "1"', '"most": "2"'), ('"kept": [1]', '"kept": [2]'), ('"at": [2, 0]', '"at": [0, 1]')):
            with stand_in(MEET, own.replace(before, after)) as exe, self.assertRaises(Unreadable):
                revealed.fit(*TWO, exe=exe).certificate  # pylint: disable=expression-not-assigned


class Programs(unittest.TestCase):
    def test_there_is_no_wider_edition(self):
        with tempfile.TemporaryDirectory() as folder, variables(RP_WIDE=None, RP_LIBRARY=None):
            path = pathlib.Path(folder) / "rp"
            path.write_text("#!/bin/sh\n", encoding="utf-8")
            path.chmod(0o755)
            with self.assertRaises(NoProgram) as caught:
                revealed.fit(*TWO, exe=str(path))
        self.assertIn("fit is a command of rp-wide", str(caught.exception))

    def test_a_wider_edition_without_fit(self):
        with self.assertRaises(NoProgram) as caught:
            told("", status=2, said="rp: usage: rp-wide ..\n")
        self.assertIn("has no fit: take rp-wide of a release after 0.17.0", str(caught.exception))

    def test_refusals_are_told_by_the_users_names(self):
        d = {"obs": ["x", "y"], "p_a": [1, 0], "q_a": [1, 1]}
        with stand_in("", status=4, said="rp: table.csv: ZeroPrice record 2 column 1\n") as exe, self.assertRaises(Refused) as caught:
            revealed.fit(d, exe=exe)
        self.assertEqual((caught.exception.fault, caught.exception.label, caught.exception.name), ("ZeroPrice", "y", "p_a"))

    def test_another_end_is_told(self):
        with self.assertRaises(revealed.Failed):
            told("", status=6, said="rp: out of memory\n")


@unittest.skipUnless(has_fit(), "there is no rp-wide with fit")
class WorkedRows(unittest.TestCase):
    def proved(self, fit, items=9):
        """Looks at the certificate by both checkers."""
        found = revealed.verify(fit)
        self.assertEqual((bool(found), found.line), (True, f"accepted items {items}"), found)
        checked = revealed.check(fit, fit)
        self.assertEqual((bool(checked), checked.line, checked.withheld, checked.wide), (True, f"accepted items {items}", 0, True))
        self.assertEqual([it.rpartition(":")[0] for it in checked.says], [f"item {it.number} {it.says}" for it in found.items])
        return checked

    def test_two_that_contradict_each_other(self):
        fit = revealed.fit(*TWO)
        self.assertEqual([fit.garp_pairs, fit.wgarp_pairs, fit.warp_pairs, fit.sarp_pairs, fit.pairs, fit.violating_observations], [2] * 6)
        self.assertEqual((fit.kept, fit.kept_most, len(fit.dropped), fit.hm_low), (1, 1, 1, Fraction(1, 2)))
        self.assertEqual((fit.levels_low, fit.levels_high, fit.levels_exact), (Fraction(FIFTH, 2 * UNIT), Fraction(1, 10), True))
        self.assertEqual((fit.squares_low, fit.squares_high, fit.squares_exact), (Fraction(SQUARE, 2 * UNIT), Fraction(1, 50), True))
        self.assertEqual((sorted(fit.levels.values()), sorted(fit.squares_levels.values())), ([Fraction(4, 5), 1],) * 2)
        self.assertEqual((fit.steps_low, fit.steps_high, fit.steps_exact, len(fit.removed_steps)), (Fraction(1, 10), Fraction(1, 10), True, 1))
        self.assertEqual((fit.efficiency, fit.pump, fit.quasilinear_level), (Fraction(4, 5), Fraction(1, 5), Fraction(4, 5)))
        # The product of the two ratios is 16/25.
        self.assertTrue(fit.homothetic_low <= Fraction(4, 5) <= fit.homothetic_high and fit.homothetic_exact)
        says = self.proved(fit).says
        self.assertEqual(says[2], "item 3 kept 1 of 2: proved")

    def test_a_cycle_of_three(self):
        fit = revealed.fit(*THREE)
        counts = (fit.garp_pairs, fit.wgarp_pairs, fit.warp_pairs, fit.sarp_pairs, fit.pairs, fit.violating_observations)
        self.assertEqual(counts, (3, 0, 0, 3, 6, 3))
        self.assertEqual((fit.shares["garp"], fit.shares["warp"], fit.shares["observations"]), (Fraction(1, 2), 0, 1))
        self.assertEqual((fit.kept, fit.kept_most, len(fit.dropped)), (2, 2, 1))
        self.assertEqual((fit.levels_low, fit.levels_high, fit.levels_exact), (Fraction(1, 6), Fraction(1, 6), True))
        self.assertEqual((fit.squares_low, fit.squares_high, fit.squares_exact), (Fraction(1, 12), Fraction(1, 12), True))
        self.assertEqual(sorted(fit.levels.values()), [Fraction(1, 2), 1, 1])
        self.assertEqual((fit.steps_low, fit.steps_high, fit.steps_exact), (Fraction(1, 6), Fraction(1, 6), True))
        self.assertEqual((fit.efficiency, fit.pump, fit.quasilinear_level), (Fraction(1, 2),) * 3)
        self.assertTrue(fit.homothetic_low <= Fraction(1, 2) <= fit.homothetic_high and fit.homothetic_exact)
        self.proved(fit)

    def test_choices_that_violate_nothing(self):
        fit = revealed.fit(*NONE)
        self.assertEqual([fit.garp_pairs, fit.wgarp_pairs, fit.warp_pairs, fit.sarp_pairs, fit.violating_observations], [0] * 5)
        self.assertEqual((fit.kept, fit.kept_most, fit.dropped, fit.removed_steps), (2, 2, [], []))
        self.assertEqual([fit.levels_low, fit.levels_high, fit.squares_low, fit.squares_high, fit.steps_low, fit.steps_high, fit.pump], [0] * 7)
        self.assertEqual((fit.levels, fit.efficiency, fit.quasilinear_level, fit.homothetic_high), ({1: 1, 2: 1}, 1, 1, 1))
        self.assertTrue(fit.levels_exact and fit.squares_exact and fit.steps_exact and fit.homothetic_exact)
        self.proved(fit)

    def test_one_observation(self):
        fit = revealed.fit([[1, 2]], [[1, 2]])
        self.assertEqual((fit.observations, fit.pairs, fit.garp_pairs, fit.kept, fit.kept_most), (1, 0, 0, 1, 1))
        self.assertEqual(fit.shares, {**dict.fromkeys(("garp", "wgarp", "warp", "sarp")), "observations": 0})
        self.assertEqual((fit.levels, fit.levels_high, fit.steps_high, fit.quasilinear_level), ({1: 1}, 0, 0, 1))
        self.proved(fit)

    def test_a_forged_certificate(self):
        fit = revealed.fit(*TWO)
        value = json.loads(fit.certificate.data)
        value["items"][2].update(most="2")
        checked = revealed.check(fit, value)
        self.assertEqual((bool(checked), checked.item, checked.reason, checked.place), (False, 3, "Bound", 0))
        self.assertFalse(revealed.verify(fit, value))
        self.assertFalse(revealed.check(revealed.table(*THREE), fit))

    def test_levels_are_refused(self):
        with self.assertRaises(Refused) as caught:
            revealed.fit(*TWO, levels=[0.9, 1])
        self.assertEqual(caught.exception.fault, "OwnLevels")
        with self.assertRaises(Refused):
            revealed.fit({"p_a": [1], "q_a": [1], "e": [900]})

    def test_other_data_are_refused(self):
        with self.assertRaises(Refused) as caught:
            revealed.fit([[1, 0]], [[1, 1]])
        self.assertEqual((caught.exception.fault, caught.exception.label), ("ZeroPrice", 1))
        with self.assertRaises(BadData):
            revealed.fit([[1, 2]])


# Three subjects: a contradiction, choices that violate nothing, and one without a price.
D = {
    "subject": ["u", "u", "v", "v", "z", "z"],
    "p_a": [1, 2, 1, 1, 0, 1],
    "p_b": [2, 1, 1, 1, 1, 1],
    "q_a": [1, 2, 4, 2, 1, 1],
    "q_b": [2, 1, 4, 2, 1, 1],
}


def panel(d=None, by="subject", **more):
    return revealed.panel_fit(D if d is None else d, by, progress=False, **more)


@unittest.skipUnless(has_fit(), "there is no rp-wide with fit")
class Panels(unittest.TestCase):
    def test_units_and_an_error(self):
        found = panel()
        self.assertEqual([it.key for it in found], ["u", "v", "z"])
        self.assertEqual([(it.fit.kept, it.fit.observations) for it in found[:2]], [(1, 2), (2, 2)])
        z = found["z"]
        self.assertEqual((z.fit, z.fault, z.record, z.refusal.fault), (None, "ZeroPrice", 5, "ZeroPrice"))
        self.assertIn("column 'p_a'", z.message)
        self.assertEqual([row["kept"] for row in found.records()], [1, 2, None])
        self.assertIn("panel of 3 subjects by 'subject', 2 with indices of goodness of fit", repr(found))
        self.assertIn("'z': ", repr(found))
        self.assertEqual([it.key for it in found[1:]], ["v", "z"])
        self.assertEqual(revealed.panel(D, "subject", progress=False)["u"].fit.kept, 1)
        self.assertIsNone(revealed.panel(D, "subject", progress=False)["z"].fit)

    def test_records(self):
        first, second, third = panel().records()
        self.assertEqual((first["subject"], first["kept"], first["kept_most"], first["dropped"] in ([1], [2])), ("u", 1, 1, True))
        self.assertEqual(
            (first["steps_low_exact"], first["pump_exact"], first["efficiency"], first["ccei"]), (Fraction(1, 10), Fraction(1, 5), Fraction(4, 5), 0.8)
        )
        self.assertTrue(Fraction(first["levels_low"]) <= first["levels_low_exact"] <= first["levels_high_exact"] <= Fraction(first["levels_high"]))
        self.assertEqual((second["levels_high"], second["kept_exact"], third["levels_low"], third["fault"]), (0.0, True, None, "ZeroPrice"))

    def test_all_units_have_one_error(self):
        with self.assertRaises(AllRefused) as caught:
            panel({**D, "p_a": [0] * 6})
        self.assertIn("all 3 subjects have one error, the first, 'u'", str(caught.exception))
        with self.assertRaises(AllRefused) as caught:
            panel({**{name: column[:4] for name, column in D.items()}, "e": [900] * 4})
        self.assertEqual((caught.exception.fault, caught.exception.key), ("OwnLevels", "u"))

    def test_a_table_for_a_paper(self):
        for text in (panel().text(), revealed.panel(D, "subject", progress=False).text(fit=True)):
            for line in (
                r"all observations kept +1 of 2 \(50\.0%\)",
                r"HM \(Houtman-Maks\), share kept, mean +0\.750",
                r"AVI \(Varian\), mean of 1 - e, mean +0\.050",
                r"MCI \(minimum cost index\), maximum +0\.100",
                # of 0 and 1/10 the sample's standard deviation is a tenth over the root of 2
                r"MCI \(minimum cost index\), standard deviation +0\.071",
                r"MPI \(money pump\), maximum, maximum +0\.200",
            ):
                self.assertRegex(text, f"(?m)^{line}$")
            self.assertNotIn("bounds meet", text)
        self.assertIn("HM (Houtman-Maks), share kept, mean & 0.750 \\\\", panel().latex())
        self.assertNotIn("HM", revealed.panel(D, "subject", progress=False).text())
        with self.assertRaises(BadData):
            revealed.panel(D, "subject", progress=False).text(fit="yes")

    def test_it_is_kept(self):
        found = panel()
        for again in (pickle.loads(pickle.dumps(found)), copy.deepcopy(found)):
            self.assertEqual((repr(again), again.records(), again.csv()), (repr(found), found.records(), found.csv()))
        with tempfile.TemporaryDirectory() as folder:
            again = panel(certificates=folder)
            self.assertEqual(sorted(os.listdir(folder)), ["unit_1.csv", "unit_1_fit.json", "unit_2.csv", "unit_2_fit.json", "units.csv"])
            for number in (1, 2):
                self.assertTrue(revealed.verify(f"{folder}/unit_{number}.csv", f"{folder}/unit_{number}_fit.json"))
            again.panel.save_certificates(folder)
            self.assertTrue(revealed.verify(f"{folder}/unit_2.csv", f"{folder}/unit_2.json"))

    def test_csv(self):
        head, first, _, last = panel().csv().decode().splitlines()
        self.assertTrue(
            head.startswith("subject,observations,goods,garp_pairs,wgarp_pairs,warp_pairs,sarp_pairs,violating_observations,kept,kept_most,dropped,")
        )
        self.assertTrue(first.startswith("u,2,2,2,2,2,2,2,1,1,"))
        self.assertTrue(last.endswith(",ZeroPrice,5,2"))

    @unittest.skipIf(pandas is None, "pandas or matplotlib is not there")
    def test_frames_and_pictures(self):
        f = panel().frame()
        self.assertEqual((list(f["kept"][:2]), str(f["kept"].dtype), str(f["levels_low"].dtype)), ([1, 2], "Int64", "Float64"))
        self.assertEqual((list(f["steps_high_exact"][:2]), list(f["fault"].fillna("")), f["kept"].isna().sum()), (["1/10", "0"], ["", "", "ZeroPrice"], 1))
        rows = revealed.fit(*TWO).frame()
        self.assertEqual((list(rows["index"][:2]), list(rows["low_exact"][:2]), list(rows["exact"][:2])), (["CCEI", "HM"], ["4/5", "1/2"], [True, True]))
        four = panel().plot(random=5)
        self.assertEqual([it.get_xlabel() for it in four][1:], ["HM, share of kept observations", "AVI, mean of 1 - e", "MCI, share of expenditure"])
        # One of two subjects keeps all, and that bar stands apart.
        self.assertEqual([it.get_height() for it in four[1].patches if it.get_height()], [0.5, 0.5])
        with tempfile.TemporaryDirectory() as folder:
            four[0].figure.savefig(f"{folder}/a.png")
        own = list(matplotlib.pyplot.subplots(1, 4)[1])
        self.assertEqual(revealed.panel(D, "subject", progress=False).plot(own, fit=True, random=0), own)
        with self.assertRaises(BadData):
            panel().plot(own[:2])
        matplotlib.pyplot.close("all")


class Tables(unittest.TestCase):
    def test_both_bounds_where_they_do_not_meet(self):
        lows, highs = [Fraction(1, 2), Fraction(1)], [Fraction(1), Fraction(1)]
        lines = dict(papers.distribution_of_bounds("HM", lows, highs, 3))
        self.assertEqual((lines["HM, mean"], lines["HM, minimum"], lines["HM, maximum"]), ("0.750 to 1.000", "0.500 to 1.000", "1.000"))
        # Of 1/2 and 1 it is 0.354, and the norm of the differences, 1/2, is its distance from that of any values between.
        self.assertEqual(lines["HM, standard deviation"], "0.000 to 0.854")
        self.assertEqual(dict(papers.distribution_of_bounds("HM", lows, lows, 3))["HM, standard deviation"], "0.354")
        self.assertEqual(papers.distribution_of_bounds("HM", [], [], 3), [("HM", "none")])
        self.assertEqual(dict(papers.distribution_of_bounds("HM", lows[:1], highs[:1], 3))["HM, standard deviation"], "none")

    def test_which_bounds_meet(self):
        class Unit:
            fit = told(OPEN)

        lines = dict(papers.lines_of_fits([Unit, Unit], 3))
        self.assertEqual((lines["HM, bounds meet"], lines["AVI, bounds meet"], lines["MCI, bounds meet"]), ("0 of 2 (0.0%)",) * 3)
        self.assertEqual(lines["HM (Houtman-Maks), share kept, mean"], "0.500 to 1.000")


WORKS = """import sys
sys.path.insert(0, sys.argv[1])
import revealed
d = {"s": list(range(8)) * 2, "p_a": [1] * 16, "q_a": [1] * 16}
if sys.argv[2] == "panel":
    revealed.panel_fit(d, "s", 4, progress=False)
else:
    revealed.fit({"p_a": [1], "q_a": [1]})
"""


@unittest.skipUnless(os.path.isdir("/proc/self"), "there is no /proc")
class Interrupted(unittest.TestCase):
    def ended(self, what):
        """Returns what is said of a call that is interrupted while its programs work, and which of these still run."""
        with tempfile.TemporaryDirectory() as folder, variables(RP_LIBRARY=None, RP_WIDE=None):
            place = pathlib.Path(folder)
            (place / "rp-wide").write_text(f'#!/bin/sh\necho $$ >>"{place}/works"\nexec sleep 120\n', encoding="utf-8")
            (place / "rp-wide").chmod(0o755)
            own = {**os.environ, "RP_WIDE": str(place / "rp-wide")}
            caller = subprocess.Popen(
                [sys.executable, "-c", WORKS, PACKAGE, what], env=own, stdin=subprocess.DEVNULL, stderr=subprocess.PIPE, start_new_session=True
            )
            self.addCleanup(lambda: caller.poll() is None and caller.kill())
            count = 4 if what == "panel" else 1
            ends = time.monotonic() + 60
            numbers = []
            while len(numbers) < count and time.monotonic() < ends and caller.poll() is None:
                time.sleep(0.05)
                numbers = (place / "works").read_text(encoding="utf-8").split() if (place / "works").exists() else []
            self.assertEqual(len(numbers), count)
            caller.send_signal(signal.SIGINT)
            _, said = caller.communicate(timeout=60)
            self.assertNotEqual(caller.returncode, 0)
            numbers = (place / "works").read_text(encoding="utf-8").split()
            return said.decode(), [it for it in numbers if is_alive(it)]

    def setUp(self):
        try:
            by_library, _ = program.way()
            program.panel_way()
        except NoProgram:
            by_library = True
        if by_library:
            self.skipTest("there is no program rp, or none of panels")

    def test_one_table(self):
        said, alive = self.ended("table")
        self.assertRegex(said, r"KeyboardInterrupt: rp-wide was ended after \d+ s, and there is no result")
        self.assertEqual(alive, [])

    def test_a_panel(self):
        said, alive = self.ended("panel")
        self.assertIn("KeyboardInterrupt: fit was ended after 0 of 8 units, and there is no result", said)
        self.assertEqual(alive, [])


if __name__ == "__main__":
    unittest.main()
