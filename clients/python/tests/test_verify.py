"""The second checker on evidence made by hand, and each way in which it differs from the program's."""

import copy
import importlib
import os
import pathlib
import subprocess
import sys
import tempfile
import unittest

import revealed
from revealed import NoCertificate, NoTable
from revealed.verifier import demand, tables, verify_choices, verify_table

ONE = b"p_a,q_a\n2,3\n"
EXAMPLES = pathlib.Path(__file__).resolve().parents[3] / "examples"
CONTRADICTION = b"p_a,q_a,p_b,q_b\n1,1,2,2\n2,2,1,1\n"
APART = b"p_a,q_a,p_b,q_b\n1,2,2,1\n2,1,1,2\n"
EQUAL = b"p_a,q_a,p_b,q_b\n1,2,1,2\n1,3,1,1\n"
# costs 8, 4 and 8, 4
MORE_AND_LESS = b"p_a,q_a,p_b,q_b\n1,4,1,4\n1,2,1,2\n"
YEARS = b"p_bread,p_wine,q_bread,q_wine\n1.25,2.50,2,1\n2.50,1.25,1,2\n"
BUDGETS, CHOICES = b"p_a,p_b,w\n1,2,4\n2,1,4\n", b"budget,q_a,q_b,n\n1,2,1,1\n1,0,2,3\n2,1,2,2\n2,2,0,2\n"

RANKS = {"item": "garp", "ranks": [1, 1]}
DEMAND = {
    "item": "demand",
    "prices": ["2", "2"],
    "expenditure": "6",
    "below": [1, 2],
    "strict": [],
    "inner": {"den": "1", "num": ["2", "1"]},
    "goods": [
        {
            "lower": {"den": "250", "value": "1", "x": ["250", "500"], "y": [[2, "2"], [4, "125"]]},
            "upper": {"den": "250", "value": "2", "x": ["500", "250"], "y": [[1, "4"], [4, "250"]]},
        },
        {
            "lower": {"den": "250", "value": "1", "x": ["500", "250"], "y": [[1, "2"], [4, "125"]]},
            "upper": {"den": "250", "value": "2", "x": ["250", "500"], "y": [[2, "4"], [4, "250"]]},
        },
    ],
}
WELFARE = {
    "item": "welfare",
    "prices": ["2", "2"],
    "observation": 1,
    "at": 1,
    "upper": "6",
    "lower": {"den": "250", "value": "4", "x": ["0", "500"], "y": [[1, "2"]]},
}
VIOLATED = {"item": "random", "den": "1", "total": "4", "parts": [[[1, 4], "1"], [[2, 3], "2"]], "weights": ["1", "0", "1", "0"]}


def certificate(*items, kind="table", version=1, **more):
    return revealed.commands.certificate_bytes({"items": list(items), "kind": kind, "version": version, **more})


def levelled(*levels_and_items):
    """Returns a certificate of version 2: its levels, which are numbers, and its items."""
    levels = [it for it in levels_and_items if isinstance(it, int)]
    return certificate(*levels_and_items[len(levels) :], version=2, levels=levels)


def changed(item, *path, to):
    """Returns the item with something else at a place."""
    other = copy.deepcopy(item)
    at = other
    for step in path[:-1]:
        at = at[step]
    at[path[-1]] = to
    return other


class Evidence(unittest.TestCase):
    def proves(self, table, *items):
        found = verify_table(table, certificate(*items))
        self.assertTrue(found.accepted, found)
        self.assertEqual(found.remarks, [])

    def fails(self, table, told, *items):
        found = verify_table(table, certificate(*items))
        self.assertFalse(found.accepted, found)
        self.assertEqual(found.rejected.number, len(items))
        self.assertIn(told, found.rejected.why)

    def test_garp(self):
        self.proves(CONTRADICTION, {"item": "garp", "cycle": [2, 1, 2]})
        self.proves(APART, RANKS)
        self.proves(EQUAL, RANKS, {"item": "garp", "ranks": [7, 7]})
        self.proves(MORE_AND_LESS, {"item": "garp", "ranks": [2, 1]})
        self.fails(MORE_AND_LESS, "strictly", {"item": "garp", "ranks": [1, 1]})
        self.fails(EQUAL, "weakly", {"item": "garp", "ranks": [1, 2]})
        self.fails(CONTRADICTION, "axiom fails", RANKS)
        self.fails(EQUAL, "no step of the walk is strict", {"item": "garp", "cycle": [1, 2, 1]})
        self.fails(CONTRADICTION, "does not end", {"item": "garp", "cycle": [1, 2]})
        self.fails(CONTRADICTION, "has a step", {"item": "garp", "cycle": [1]})
        self.fails(CONTRADICTION, "no observation", {"item": "garp", "cycle": [1, 3, 1]})
        self.fails(APART, "one rank", {"item": "garp", "ranks": [1]})

    def test_afriat(self):
        # 4 is spent where the other costs 8: U2 <= U1 - 4 λ1 and U1 <= U2 + 4 λ2
        self.proves(MORE_AND_LESS, {"item": "afriat", "utility": ["0", "-4"], "lambda": ["1", "1"]})
        self.fails(MORE_AND_LESS, "allows", {"item": "afriat", "utility": ["0", "-3"], "lambda": ["1", "1"]})
        self.fails(MORE_AND_LESS, "below 1", {"item": "afriat", "utility": ["0", "-4"], "lambda": ["1", "0"]})
        self.proves(CONTRADICTION, {"item": "afriat", "cycle": [1, 2, 1]})

    def test_efficiency(self):
        index = {"item": "efficiency", "level": "4/5", "above": [1, 2, 1], "below": [1, 1], "at_ranks": [2, 2]}
        self.proves(CONTRADICTION, index)
        for level in ("9/10", "1"):
            self.fails(CONTRADICTION, "fails at a lower level", changed(index, "level", to=level))
        self.fails(CONTRADICTION, "holds at a higher level", changed(index, "level", to="3/4"))
        self.fails(CONTRADICTION, "above 0", changed(index, "level", to="0"))
        self.fails(CONTRADICTION, "above 0", changed(index, "level", to="5/4"))
        self.fails(CONTRADICTION, "above: ", changed(index, "above", to=[]))
        self.fails(CONTRADICTION, "above: ", changed(index, "above", to=[1, 1]))
        self.fails(CONTRADICTION, "below: ", changed(index, "below", to=[1]))
        self.fails(CONTRADICTION, "at the level: ", changed(index, "at_ranks", to=[2, 1]))
        self.proves(APART, {"item": "efficiency", "level": "1", "above": [], "below": [1, 1], "at_ranks": [1, 1]})
        self.fails(APART, "nothing above", {"item": "efficiency", "level": "1", "above": [1, 1], "below": [1, 1], "at_ranks": [1, 1]})

    def test_homothetic(self):
        self.proves(APART, {"item": "homothetic", "values": ["1", "1"]})
        self.proves(APART, {"item": "homothetic", "values": ["5/4", "1"]})
        self.fails(APART, "below the value", {"item": "homothetic", "values": ["4/3", "1"]})
        self.fails(APART, "is 0", {"item": "homothetic", "values": ["0", "1"]})
        self.proves(CONTRADICTION, {"item": "homothetic", "start": "7/3", "cycle": [1, 2, 1]})
        self.fails(CONTRADICTION, "start is 0", {"item": "homothetic", "start": "0", "cycle": [1, 2, 1]})
        self.fails(EQUAL, "not end below", {"item": "homothetic", "start": "1", "cycle": [1, 2, 1]})
        self.fails(APART, "not end below", {"item": "homothetic", "start": "1", "cycle": [1, 2, 1]})

    def test_quasilinear(self):
        self.proves(APART, {"item": "quasilinear", "values": ["1", "0"]})
        self.fails(APART, "below the value", {"item": "quasilinear", "values": ["2", "0"]})
        self.proves(CONTRADICTION, {"item": "quasilinear", "cycle": [2, 1, 2]})
        self.fails(EQUAL, "not below 0", {"item": "quasilinear", "cycle": [1, 2, 1]})
        self.fails(APART, "not below 0", {"item": "quasilinear", "cycle": [1, 2, 1]})

    def test_demand(self):
        self.proves(YEARS, RANKS, DEMAND)
        for told, path, to in [
            ("below are others", ["below"], [1]),
            ("strictly below are others", ["strict"], [1]),
            ("expenditure", ["inner", "num"], ["3", "1"]),
            ("expenditure", ["inner", "num"], ["1", "1"]),
            ("axiom fails", ["inner", "num"], ["0", "3"]),
            ("bounds for each good", ["goods"], DEMAND["goods"][:1]),
            ("another value", ["goods", 0, "lower", "value"], "2"),
            ("is above b", ["goods", 0, "lower", "y", 0], [2, "3"]),
            ("not one value", ["goods", 0, "lower", "y"], []),
            ("below c", ["goods", 1, "upper", "x"], ["249", "501"]),
            ("twice", ["goods", 0, "lower", "y"], [[2, "1"], [2, "1"], [4, "125"]]),
            ("one price", ["prices"], ["2"]),
            ("expenditure is 0", ["expenditure"], "0"),
        ]:
            self.fails(YEARS, told, RANKS, changed(DEMAND, *path, to=to))
        self.fails(YEARS, "no item before it", DEMAND)
        withheld = changed(DEMAND, "goods", 0, "lower", to={"withheld": "7"})
        self.assertEqual(verify_table(YEARS, certificate(RANKS, withheld)).withheld, 1)
        self.proves(CONTRADICTION, {"item": "demand", "prices": ["1", "1"], "expenditure": "1", "cycle": [1, 2, 1]})

    def test_strictly_below(self):
        # the budget buys just the first bundle, which is strictly preferred to the second; from there a weak step leads to
        # the third alone: its bundle costs as much as the first at the first prices, and as the second at the second
        table = tables.Table(["a", "b"], [[2, 1], [2, 3], [1, 1]], [[4, 0], [0, 4], [3, 2]])
        self.assertEqual(demand.observations_below(table, [1, 2], 4), ({0, 1, 2}, {0, 1, 2}))
        table = tables.Table(["a", "b"], [[2, 1], [2, 1]], [[4, 0], [0, 4]])
        self.assertEqual(demand.observations_below(table, [1, 2], 4), ({0, 1}, {1}))

    def test_welfare(self):
        self.proves(YEARS, RANKS, WELFARE)
        self.fails(YEARS, "not what its bundle costs", RANKS, changed(WELFARE, "upper", to="5"))
        self.fails(YEARS, "not what its bundle costs", RANKS, changed(WELFARE, "upper", to="7"))
        self.fails(YEARS, "does not reach", RANKS, changed(WELFARE, "at", to=2))
        self.fails(YEARS, "another value", RANKS, changed(WELFARE, "lower", "value", to="3"))
        self.fails(YEARS, "no item before it", WELFARE)
        self.fails(MORE_AND_LESS, "costs less", {"item": "garp", "ranks": [2, 1]}, {**WELFARE, "observation": 2, "upper": "16", "at": 1})

    def test_random(self):
        self.assertTrue(verify_choices(BUDGETS, CHOICES, certificate(VIOLATED, kind="random")))
        for told, path, to in [
            ("total", ["total"], "5"),
            ("not rational", ["parts", 0, 0], [2, 4]),
            ("patch of each", ["parts", 0, 0], [4, 1]),
            ("more than its units", ["parts", 0, 1], "9"),
            ("weighs less", ["weights"], ["0", "0", "1", "0"]),
            ("not what the units weigh", ["weights"], ["2", "0", "1", "0"]),
            ("denominator is 0", ["den"], "0"),
            ("one weight", ["weights"], ["1"]),
        ]:
            found = verify_choices(BUDGETS, CHOICES, certificate(changed(VIOLATED, *path, to=to), kind="random"))
            self.assertIn(told, found.rejected.why)
        mixture = {name: VIOLATED[name] for name in ("item", "den", "total", "parts")}
        self.assertIn("units", verify_choices(BUDGETS, CHOICES, certificate(mixture, kind="random")).rejected.why)

    def test_a_mixture_is_no_violation(self):
        # what was chosen 0 times is in no patch
        choices = b"budget,q_a,q_b,n\n1,2,1,0\n1,0,2,3\n2,1,2,2\n2,2,0,0\n"
        mixture = {"item": "random", "den": "1", "total": "6", "parts": [[[1, 2], "6"]]}
        self.assertTrue(verify_choices(BUDGETS, choices, certificate(mixture, kind="random")))
        found = verify_choices(BUDGETS, choices, certificate({**mixture, "weights": ["1", "0"]}, kind="random"))
        self.assertIn("not below the total", found.rejected.why)

    def test_what_is_withheld(self):
        found = verify_table(ONE, certificate({"item": "afriat", "withheld": 1}, {"item": "homothetic", "withheld": [1, 1, 1]}))
        self.assertEqual((found.accepted, found.withheld, [item.proves for item in found.items]), (True, 2, [None, None]))


class Levels(unittest.TestCase):
    """Tables with a level for each observation, in thousandths, and certificates of version 2.

    In the table CONTRADICTION each spends 5 where the other costs 4. At 799 and 1000 thousandths, 3995 and 5000 count as
    spent, and the other costs 4000: the second is strictly preferred to the first, and the first to nothing. At 800 the
    first is weakly preferred to the second.
    """

    OWN = b"p_a,q_a,p_b,q_b,e\n1,1,2,2,799\n2,2,1,1,1000\n"
    EQUAL = OWN.replace(b"799", b"800")
    MODEL = {"item": "afriat", "utility": ["-1000", "0"], "lambda": ["200", "1"]}

    def proves(self, table, *levels_and_items):
        found = verify_table(table, levelled(*levels_and_items))
        self.assertTrue(found.accepted, found)
        self.assertEqual(found.remarks, [])

    def fails(self, table, told, number, text):
        found = verify_table(table, text)
        self.assertEqual((found.accepted, found.rejected.number), (False, number), found)
        self.assertIn(told, found.rejected.why)

    def test_the_axiom(self):
        ranks = {"item": "garp", "ranks": [1, 2]}
        self.proves(self.OWN, 799, 1000, ranks, self.MODEL)
        self.fails(self.OWN, "strictly", 1, levelled(799, 1000, RANKS))
        self.fails(self.OWN, "not weak", 1, levelled(799, 1000, {"item": "garp", "cycle": [1, 2, 1]}))
        self.fails(self.EQUAL, "axiom fails", 1, levelled(800, 1000, ranks))
        for kind in ("garp", "afriat"):
            self.proves(self.EQUAL, 800, 1000, {"item": kind, "cycle": [1, 2, 1]})

    def test_a_model(self):
        # the gaps are 4000 - 3995 and 4000 - 5000: U2 <= U1 + 5 λ1 and U1 <= U2 - 1000 λ2
        self.fails(self.OWN, "of 2 is above what 1", 1, levelled(799, 1000, changed(self.MODEL, "lambda", 0, to="199")))
        self.fails(self.OWN, "of 1 is above what 2", 1, levelled(799, 1000, changed(self.MODEL, "utility", 0, to="-999")))
        # one that fits costs as they stand, where nothing is multiplied by 1000: U1 <= U2 - λ2
        self.fails(self.OWN, "of 1 is above what 2", 1, levelled(799, 1000, {"item": "afriat", "utility": ["-1", "0"], "lambda": ["1", "1"]}))
        # at the whole of what was spent the gaps are 1000 times as large: U2 <= U1 - 2000 λ1
        own = b"p_a,q_a,e\n1,4,1000\n1,2,1000\n"
        self.proves(own, 1000, 1000, {"item": "afriat", "utility": ["0", "-2000"], "lambda": ["1", "1"]})
        self.fails(own, "allows", 1, levelled(1000, 1000, {"item": "afriat", "utility": ["0", "-2"], "lambda": ["1", "1"]}))

    def test_costs_alone(self):
        # the other items say of a table what they say of it without its levels
        self.proves(self.OWN, 799, 1000, {"item": "efficiency", "level": "4/5", "above": [1, 2, 1], "below": [1, 1], "at_ranks": [2, 2]})
        self.proves(self.OWN, 799, 1000, {"item": "homothetic", "cycle": [1, 2, 1], "start": "1"}, {"item": "quasilinear", "cycle": [1, 2, 1]})

    def test_other_levels(self):
        self.fails(CONTRADICTION, "2 levels, the table none", 0, levelled(799, 1000))
        self.fails(self.OWN, "no levels, the table 2", 0, certificate())
        self.fails(self.OWN, "1 levels, the table 2", 0, levelled(799))
        self.fails(self.OWN, "of 1 is 799", 0, levelled(800, 999))
        self.fails(self.OWN, "of 2 is 1000", 0, levelled(799, 999, self.MODEL))
        self.proves(self.OWN, 799, 1000)

    def test_what_is_defined_without_levels(self):
        ranks = {"item": "garp", "ranks": [1, 2]}
        for item in (DEMAND, {"item": "demand", "prices": ["1", "1"], "expenditure": "1", "cycle": [2, 1, 2]}, WELFARE):
            self.fails(self.OWN, "without levels", 2, levelled(799, 1000, ranks, item))

    def test_choices_have_none(self):
        with self.assertRaises(NoCertificate):
            verify_choices(BUDGETS, CHOICES, certificate(VIOLATED, kind="random", version=2, levels=[1, 1]))


class Texts(unittest.TestCase):
    def test_no_certificates(self):
        good = certificate(RANKS)
        self.assertTrue(verify_table(APART, good))
        self.assertTrue(verify_table(APART, good.replace(b'"kind"', b'"kind": 7, "kind"')))
        self.assertTrue(verify_table(APART, good.replace(b'"kind"', b'"kind": %d, "kind"' % (2**1024 - 2**970 - 1))))
        for text, number in [
            (b"", 0),
            (good[:-1], 0),
            (good + b"{}", 0),
            (b"\xef\xbb\xbf" + good, 0),
            (good.replace(b"garp", b"\xff"), 0),
            (good.replace(b"[1, 1]", b"[1, NaN]"), 0),
            (good.replace(b"[1, 1]", b"[1, 1e999]"), 0),
            (good.replace(b'"table"', b'"\\ud800"'), 0),
            (good.replace(b"[1, 1]", b"[" * 200 + b"]" * 200), 0),
            # a name that stands twice: its first value counts for nothing, and is JSON all the same
            (good.replace(b'"kind"', b'"kind": ' + b"[" * 200 + b"]" * 200 + b', "kind"'), 0),
            (good.replace(b'"kind"', b'"kind": "\\ud800", "kind"'), 0),
            # a number past the greatest float is no JSON, also where it is whole and counts for nothing
            (good.replace(b'"kind"', b'"kind": %d, "kind"' % (2**1024 - 2**970)), 0),
            (good.replace(b'"kind"', b'"kind": -1' + b"0" * 5000 + b', "kind"'), 0),
            (good.replace(b"[1, 1]", b"[1, 1%s]" % (b"0" * 309)), 0),
            (good.replace(b'"table"', b'"random"'), 0),
            (good.replace(b'"version": 1', b'"version": 2'), 0),
            (good.replace(b'"version": 1', b'"version": 3'), 0),
            (good.replace(b'"version": 1', b'"version": 1.0'), 0),
            (good.replace(b'"version": 1', b'"version": 1, "levels": [1, 1]'), 0),
            (levelled(1, RANKS)[:-1] + b', "note": 1}', 0),
            *((certificate(RANKS, version=2, levels=levels), 0) for levels in (None, 1, [], [0], [1001], ["1"], [1.0], [True])),
            (good.replace(b"[1, 1]", b"[1, 1.0]"), 1),
            (good.replace(b"[1, 1]", b"[1, -1]"), 1),
            (good.replace(b"[1, 1]", b'["1", 1]'), 1),
            (good.replace(b"[1, 1]", b"[true, 1]"), 1),
            (certificate(RANKS, {"item": "homothetic", "values": ["2/4", "1"]}), 2),
            (certificate(RANKS, {"item": "homothetic", "values": ["2/1", "1"]}), 2),
            (certificate(RANKS, {"item": "quasilinear", "values": ["-0", "1"]}), 2),
            (certificate(RANKS, {"item": "quasilinear", "values": ["01", "1"]}), 2),
            (certificate({"item": "garp", "cycle": [0, 1, 0]}), 1),
        ]:
            with self.assertRaises(NoCertificate) as caught:
                verify_table(APART, text)
            self.assertEqual(caught.exception.item, number, text)

    def test_no_tables(self):
        for text in [
            b"",
            b"p_a\n1\n",
            b"p_a,q_a\n",
            b"p_a,q_a\n1\n",
            b"p_a,q_a\n1,.5\n",
            b"p_a,q_a\n0,1\n",
            b"p_a,q_a\n1,0\n",
            b"p_a,q_a\n1,1.0000001\n",
            b"p_a,q_a\n1,10000000\n",
            b"p_a,q_a,p_a,q_b\n1,1,1,1\n",
            b"p_a,q_a,x\n1,1,1\n",
            b"p_a,q_a,e\n1,1,0\n",
            b"p_a,q_a,e\n1,1,1001\n",
            b"p_a,q_a,e\n1,1,999.5\n",
            b"p_a,q_a\n" + b"1,1\n" * 513,
        ]:
            with self.assertRaises(NoTable):
                tables.read_table(text)
        table = tables.read_table(b'\xef\xbb\xbfobs,p_a,q_a\r\n\r\n"x, y", 1.50 ,"2.0"')
        self.assertEqual((table.prices, table.quantities, table.levels), ([[15]], [[2]], []))
        self.assertEqual(tables.read_table(b"e,p_a,q_a\n7.0,1,1\n1000,1,1\n").levels, [7, 1000])
        self.assertEqual(len(tables.read_table(b"p_a,q_a\n" + b"1,1\n" * 512).prices), 512)


class Differences(unittest.TestCase):
    """What proves its verdict and has not the form that the program's checker asks for: accepted with a remark, rejected there."""

    def differs(self, data, item, told, before=(), kind="table"):
        claimed = certificate(*before, item, kind=kind)
        files = (data,) if kind == "table" else data
        found = verify_table(*files, claimed) if kind == "table" else verify_choices(*files, claimed)
        self.assertTrue(found.accepted, found)
        self.assertEqual(len(found.items), len(before) + 1)
        self.assertTrue(found.items[-1].remarks, item)
        names = ["table.csv"] if kind == "table" else ["budgets.csv", "choices.csv"]
        words = ["check" if kind == "table" else "checkrandom", *names, "certificate.json"]
        ran = revealed.program.call(words, {**dict(zip(names, files)), "certificate.json": claimed})
        said = ran.out.strip() or ran.said
        self.assertEqual(said, told)

    def test_widths(self):
        first = "rejected item 1"
        self.differs(ONE, {"item": "afriat", "utility": ["0"], "lambda": [str(2**60 + 1)]}, f"{first} Number place 1")
        self.differs(ONE, {"item": "afriat", "utility": [str(-(2**120) - 1)], "lambda": ["1"]}, f"{first} Number place 1")
        self.differs(ONE, {"item": "quasilinear", "values": [str(2**100 + 1)]}, f"{first} Number place 1")
        wide = str(2**127 - 1)
        self.differs(APART, {"item": "homothetic", "values": [wide, wide]}, f"{first} Wide place 1")
        self.differs(CONTRADICTION, {"item": "homothetic", "start": wide, "cycle": [1, 2, 1]}, f"{first} Wide place 1")

    def test_types(self):
        for item in (
            {"item": "garp", "ranks": [2**32]},
            {"item": "afriat", "utility": ["0"], "lambda": [str(2**64)]},
            {"item": "quasilinear", "values": [str(2**127)]},
            {"item": "homothetic", "values": [str(2**127)]},
        ):
            self.differs(ONE, item, "rp: certificate.json: BadShape item 1")

    def test_lists_and_pairs(self):
        second = "rejected item 2"
        self.differs(YEARS, changed(DEMAND, "below", to=[2, 1]), f"{second} Set place 1", [RANKS])
        lower = ["goods", 0, "lower"]
        self.differs(YEARS, changed(DEMAND, *lower, "y", to=[[4, "125"], [2, "2"]]), f"{second} Bound place 1", [RANKS])
        self.differs(YEARS, changed(DEMAND, *lower, "y", to=[[2, "2"], [3, "0"], [4, "125"]]), f"{second} Bound place 1", [RANKS])
        # 500 times 2^55 is above 2^63 - 1 and has 64 bits
        scaled = {"den": str(250 * 2**55), "value": "1", "x": [str(250 * 2**55), str(500 * 2**55)], "y": [[2, str(2**56)], [4, str(125 * 2**55)]]}
        self.differs(YEARS, changed(DEMAND, *lower, to=scaled), f"{second} Bound place 1", [RANKS])
        scaled = {"den": str(250 * 2**55), "value": "4", "x": ["0", str(500 * 2**55)], "y": [[1, str(2**56)]]}
        self.differs(YEARS, changed(WELFARE, "lower", to=scaled), f"{second} Bound place 1", [RANKS])

    def test_limits_of_new_prices(self):
        dear = {
            **DEMAND,
            "prices": [str(2 * 10**7), str(2 * 10**7)],
            "expenditure": str(6 * 10**7),
            "goods": [{"lower": {"withheld": "1"}, "upper": {"withheld": "1"}}] * 2,
        }
        self.differs(YEARS, dear, "rejected item 2 Number place 1", [RANKS])
        much = {**DEMAND, "expenditure": str(2 * 10**15), "strict": [1, 2], "inner": {"den": "1", "num": [str(10**15), "0"]}, "goods": dear["goods"]}
        self.differs(YEARS, much, "rejected item 2 Number place 0", [RANKS])

    def test_random(self):
        data = (BUDGETS, CHOICES)
        for path, to, told in [
            (["parts"], VIOLATED["parts"][::-1], "Order place 2"),
            (["parts"], [[[1, 4], "1"], [[2, 3], "1"], [[2, 3], "1"]], "Order place 3"),
            (["parts"], [[[1, 3], "0"], [[1, 4], "1"], [[2, 3], "2"]], "Number place 1"),
        ]:
            self.differs(data, changed(VIOLATED, *path, to=to), f"rejected item 1 {told}", kind="random")
        wide = {
            **VIOLATED,
            "den": str(2**63),
            "parts": [[[1, 4], str(2**63)], [[2, 3], str(2**63)], [[2, 3], str(2**63)]],
            "weights": [str(2**63), "0", str(2**63), "0"],
        }
        self.differs(data, wide, "rejected item 1 Number place 0", kind="random")


class Large(unittest.TestCase):
    """A table of half as many observations as there may be is slow and takes no more than that."""

    def test_trial_table(self):
        import random

        choice = random.Random(5)
        prices = [[choice.randint(1, 99) for _ in range(16)] for _ in range(256)]
        quantities = [[choice.randint(0, 99) for _ in range(16)] for _ in range(256)]
        verdict = revealed.analyse(prices, quantities)
        found = revealed.verify(verdict, verdict)
        self.assertTrue(found, found)
        self.assertTrue(revealed.check(verdict, verdict))


class Told(unittest.TestCase):
    """What findings say, and when they are true."""

    def test_each_item_says_its_verdict(self):
        index = {"item": "efficiency", "level": "4/5", "above": [1, 2, 1], "below": [1, 1], "at_ranks": [2, 2]}
        found = verify_table(CONTRADICTION, certificate({"item": "garp", "cycle": [1, 2, 1]}, index, {"item": "homothetic", "withheld": [1, 1, 2]}))
        lines = repr(found).splitlines()
        self.assertEqual(lines[0], "accepted: items 3 proved 2 withheld 1, on 2 observations of 2 goods")
        self.assertEqual(lines[1:3], ["item 1 garp violated: proved", "item 2 efficiency 4/5 attained yes: proved"])
        self.assertEqual(lines[3:], ["item 3 homothetic withheld: nothing is said"])
        self.assertIn("garp holds: proved", repr(verify_table(APART, certificate(RANKS))))
        found = verify_table(YEARS, certificate(RANKS, DEMAND, WELFARE))
        self.assertIn("demand 1 to 2, 1 to 2 (scaled): proved", repr(found))
        self.assertIn("welfare of 1 4 to 6 (scaled): proved", repr(found))

    def test_nothing_proved_is_not_true(self):
        for items in ([], [{"item": "afriat", "withheld": 1}]):
            found = verify_table(CONTRADICTION, certificate(*items))
            self.assertEqual((found.accepted, bool(found), found.proved), (True, False, 0))
            self.assertIn("nothing is proved", repr(found))
        self.assertTrue(verify_table(CONTRADICTION, certificate({"item": "garp", "cycle": [1, 2, 1]})))

    def test_at_the_command_line(self):
        with tempfile.TemporaryDirectory() as folder:
            good = {"item": "garp", "cycle": [1, 2, 1]}
            files = {
                "t.csv": CONTRADICTION,
                "good.json": certificate(good),
                "bad.json": certificate(RANKS),
                "none.json": certificate(),
                "cut.json": certificate(good)[:-1],
                "bad.csv": b"p_a,q_a\nx,1\n",
            }
            for name, data in files.items():
                (pathlib.Path(folder) / name).write_bytes(data)
            chosen = [str(EXAMPLES / name) for name in ("budgets.csv", "choices.csv", "choices.json")]
            for words, status, told in (
                (["t.csv", "good.json"], 0, "garp violated: proved"),
                (["t.csv", "none.json"], 0, "nothing is proved"),
                (["t.csv", "bad.json"], 1, "not proved"),
                (["t.csv"], 2, "usage"),
                (["t.csv", "not there"], 3, "cannot be read"),
                (["t.csv", "t.csv"], 4, "refused"),
                # which file, and what to do
                (["bad.csv", "good.json"], 4, "refused: bad.csv: record 1: 'x' is no number. Correct the file"),
                (["t.csv", "cut.json"], 4, "refused: cut.json: no JSON"),
                (["t.csv", "cut.json"], 4, "Use the certificate exactly as the program wrote it"),
                ([*chosen[:2], "good.json"], 4, "one on choices with BUDGETS and CHOICES"),
                (["good.json", "t.csv"], 4, "refused: good.json is JSON"),
                (chosen, 0, "random violated"),
                ([*chosen, "--per", "8"], 1, "not proved"),
                ([*chosen[:2], "good.json"], 4, "refused"),
                ([*chosen, "--per"], 2, "BUDGETS CHOICES CERT"),
                ([*chosen, "--per", "x"], 2, "usage"),
            ):
                env = {**os.environ, "PYTHONPATH": str(pathlib.Path(revealed.__file__).parents[1])}
                ran = subprocess.run([sys.executable, "-m", "revealed.verify", *words], cwd=folder, env=env, capture_output=True, text=True)
                self.assertEqual(ran.returncode, status, words)
                self.assertIn(told, ran.stdout + ran.stderr)

    def test_the_module_leaves_the_function(self):
        importlib.import_module("revealed.verify")
        self.assertTrue(callable(revealed.verify))


if __name__ == "__main__":
    if "RP_EXEC" not in os.environ:
        raise SystemExit("RP_EXEC has to name the program")
    unittest.main()
