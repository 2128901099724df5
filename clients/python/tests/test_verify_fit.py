"""Certificates on goodness of fit made by hand from the definitions, and forged ones with one clause broken at a time."""

import copy
import random
import unittest

import altered_fit
import fit_by_search as search
from revealed import NoCertificate, NoTable
from revealed.verifier import clauses, verify_fit

# p(1,2) x(1,2); p(2,1) x(2,1): costs 5, 4 and 4, 5. Each is strictly preferred to the other.
TWO = b"p_a,p_b,q_a,q_b\n1,2,1,2\n2,1,2,1\n"
# Costs 2, 1, 3; 3, 2, 1; 1, 3, 2: strict steps from 1 to 2, from 2 to 3 and from 3 to 1, and no others.
THREE = b"p_a,p_b,p_c,q_a,q_b,q_c\n2,1,3,1,0,0\n3,2,1,0,1,0\n1,3,2,0,0,1\n"
# Costs 8, 4 and 8, 4: the first is strictly preferred, and nothing violates.
NONE = b"p_a,p_b,q_a,q_b\n1,1,4,4\n1,1,2,2\n"
# All costs 4: weak steps both ways, none of them strict, and other bundles.
TIED = b"p_a,p_b,q_a,q_b\n1,1,2,2\n1,1,3,1\n"

# Costs 10, 5 and 45, 50: at the level 9/10 the step from 2 to 1 is weak and that from 1 to 2 strict.
FIVE = b"p_a,p_b,q_a,q_b\n1,3,1,3\n21,8,2,1\n"

# What the level 4/5 lacks of 1, in parts of 2^40: a fifth, and the square of it, a 25th.
FIFTH, SQUARE = 219902325555, 43980465111
UNIT = 2**40


def counts(garp, wgarp, warp, sarp, observations):
    named = {"garp": garp, "wgarp": wgarp, "warp": warp, "sarp": sarp, "observations": observations}
    return {"item": "violations", **{name: str(count) for name, count in named.items()}}


OF_TWO = {
    "violations": counts(2, 2, 2, 2, 2),
    "efficiency": {"item": "efficiency", "level": "4/5", "above": [1, 2, 1], "below": [1, 1], "at_ranks": [2, 2]},
    "kept": {"item": "kept", "kept": [1], "ranks": [1], "den": "1", "groups": [{"pairs": [1, 2], "weight": "1"}], "most": "1"},
    "mean": {"item": "levels", "measure": "mean", "at": [2, 0], "ranks": [1, 2], "den": "1", "cycles": [{"cycle": [1, 2, 1], "weight": str(FIFTH)}]},
    "squares": {"item": "levels", "measure": "squares", "at": [2, 0], "ranks": [1, 2], "den": "1", "cycles": [{"cycle": [1, 2, 1], "weight": str(SQUARE)}]},
    "steps": {"item": "steps", "taken": [[2], []], "cost": "1", "ranks": [1, 2], "den": "1", "cycles": [{"cycle": [1, 2, 1], "weight": "1"}]},
    "pump": {"item": "pump", "num": "1", "den": "5", "cycle": [1, 2, 1], "values": ["0", "0"]},
    "quasilinear": {"item": "quasilinear_level", "num": "4", "den": "5", "cycle": [1, 2, 1], "values": ["0", "0"]},
    "homothetic": {"item": "homothetic_level", "low": "879609302220", "high": "879609302221", "cycle": [1, 2, 1], "values": ["1", "1"]},
}
OF_THREE = {
    "violations": counts(3, 0, 0, 3, 3),
    "efficiency": {"item": "efficiency", "level": "1/2", "above": [1, 2, 3, 1], "below": [1, 1, 1], "at_ranks": [3, 3, 3]},
    "kept": {"item": "kept", "kept": [1, 2], "ranks": [2, 1], "den": "1", "groups": [{"cycle": [1, 2, 3, 1], "weight": "1"}], "most": "2"},
    "mean": {"item": "levels", "measure": "mean", "at": [0, 0, 1], "ranks": [3, 2, 1], "den": "1", "cycles": [{"cycle": [1, 2, 3, 1], "weight": str(2**39)}]},
    "squares": {
        "item": "levels",
        "measure": "squares",
        "at": [0, 0, 1],
        "ranks": [3, 2, 1],
        "den": "1",
        "cycles": [{"cycle": [1, 2, 3, 1], "weight": str(2**38)}],
    },
    "steps": {"item": "steps", "taken": [[], [], [1]], "cost": "1", "ranks": [3, 2, 1], "den": "1", "cycles": [{"cycle": [2, 3, 1, 2], "weight": "1"}]},
    "pump": {"item": "pump", "num": "1", "den": "2", "cycle": [1, 2, 3, 1], "values": ["0", "0", "0"]},
    "quasilinear": {"item": "quasilinear_level", "num": "1", "den": "2", "cycle": [3, 1, 2, 3], "values": ["5", "5", "5"]},
    "homothetic": {"item": "homothetic_level", "low": str(2**39), "high": str(2**39), "cycle": [1, 2, 3, 1], "values": ["1", "1", "1"]},
}
OF_NONE = {
    "violations": counts(0, 0, 0, 0, 0),
    "efficiency": {"item": "efficiency", "level": "1", "above": [], "below": [2, 1], "at_ranks": [2, 1]},
    "kept": {
        "item": "kept",
        "kept": [1, 2],
        "ranks": [2, 1],
        "den": "1",
        "groups": [{"pairs": [1], "weight": "1"}, {"pairs": [2], "weight": "1"}],
        "most": "2",
    },
    "mean": {"item": "levels", "measure": "mean", "at": [0, 0], "ranks": [2, 1], "den": "1", "cycles": []},
    "squares": {"item": "levels", "measure": "squares", "at": [0, 0], "ranks": [2, 1], "den": "1", "cycles": []},
    "steps": {"item": "steps", "taken": [[], []], "cost": "0", "ranks": [2, 1], "den": "1", "cycles": []},
    "pump": {"item": "pump", "num": "0", "den": "1", "cycle": [1, 1], "values": ["0", "-4"]},
    "quasilinear": {"item": "quasilinear_level", "num": "1", "den": "1", "cycle": [1, 1], "values": ["0", "-4"]},
    "homothetic": {"item": "homothetic_level", "low": str(UNIT), "high": str(UNIT), "cycle": [2, 2], "values": ["2", "1"]},
}
OF_TIED = {
    "violations": counts(0, 0, 2, 2, 0),
    "kept": {**OF_NONE["kept"], "ranks": [7, 7]},
    "mean": {**OF_NONE["mean"], "ranks": [0, 0]},
    "steps": {**OF_NONE["steps"], "ranks": [0, 0]},
}
TABLES = {TWO: OF_TWO, THREE: OF_THREE, NONE: OF_NONE, TIED: OF_TIED}

# Of an item of the table TWO: a place, what stands there instead, and the reason and place of the clause that is broken.
FORGED = {
    "violations": [
        (("garp",), "3", "Number place 1"),
        (("wgarp",), "1", "Number place 2"),
        (("warp",), "0", "Number place 3"),
        (("sarp",), "4", "Number place 4"),
        (("observations",), "1", "Number place 5"),
    ],
    "efficiency": [
        (("level",), "0", "Level place 0"),
        (("level",), "5/4", "Level place 0"),
        (("level",), f"{2**51 - 1}/{2**51}", "Level place 0"),
        (("below",), [1], "Shape place 0"),
        (("level",), "9/10", "Order place 1"),
        (("above",), [], "Shape place 0"),
        (("above",), [1, 3, 1], "Number place 2"),
        (("above",), [1, 2], "NotClosed place 0"),
        (("level",), "3/4", "NotWeak place 1"),
        (("at_ranks",), [2, 2, 2], "Shape place 0"),
        (("at_ranks",), [2, 3], "Order place 1"),
    ],
    "kept": [
        (("den",), "0", "Number place 0"),
        (("ranks",), [1, 1], "Shape place 0"),
        (("kept",), [3], "Number place 1"),
        (("groups", 0, "weight"), "0", "Number place 1"),
        (("groups", 0, "pairs"), [1, 3], "Set place 1"),
        (("groups", 0, "pairs"), [1, 1], "Set place 1"),
        (("groups", 0, "pairs"), [1], "Dual place 2"),
        (("den",), "2", "Dual place 1"),
        (("most",), "2", "Bound place 0"),
        (("most",), "0", "Bound place 0"),
        (("groups", 0, "weight"), "2", "Bound place 0"),
    ],
    "mean": [
        (("den",), "0", "Number place 0"),
        (("at",), [2], "Shape place 1"),
        (("ranks",), [1], "Shape place 2"),
        (("at",), [3, 0], "Level place 1"),
        (("at",), [0, 0], "Order place 1"),
        (("ranks",), [2, 2], "Order place 2"),
        (("cycles", 0, "weight"), "0", "Number place 1"),
        (("cycles", 0, "cycle"), [1, 1], "Set place 1"),
        (("cycles", 0, "cycle"), [1, 2], "Set place 1"),
        (("cycles", 0, "cycle"), [1, 3, 1], "Set place 1"),
        (("cycles", 0, "cycle"), [1, 2, 1, 2, 1], "Set place 1"),
        (("cycles", 0, "weight"), str(FIFTH + 1), "Dual place 1"),
        (("measure",), "squares", "Dual place 1"),
    ],
    "squares": [(("cycles", 0, "weight"), str(SQUARE + 1), "Dual place 1")],
    "steps": [
        (("den",), "0", "Number place 0"),
        (("taken",), [[2]], "Shape place 1"),
        (("ranks",), [1, 2, 3], "Shape place 2"),
        (("taken",), [[1], []], "Set place 1"),
        (("taken",), [[], [3]], "Set place 2"),
        (("taken",), [[2, 2], []], "Set place 1"),
        (("taken",), [[], []], "Order place 1"),
        (("ranks",), [2, 2], "Order place 2"),
        (("cost",), "2", "Bound place 0"),
        (("cycles", 0, "weight"), "0", "Number place 1"),
        (("cycles", 0, "cycle"), [2, 2], "Set place 1"),
        (("cycles", 0, "weight"), "2", "Dual place 1"),
    ],
    "pump": [
        (("den",), "0", "Number place 0"),
        (("den",), str(2**60 + 1), "Wide place 0"),
        (("cycle",), [1, 2, 1, 2, 1], "Shape place 1"),
        (("cycle",), [1], "Shape place 0"),
        (("cycle",), [1, 3, 1], "Number place 2"),
        (("cycle",), [1, 2], "NotClosed place 0"),
        (("num",), "2", "Bound place 0"),
        (("num",), "0", "Bound place 0"),
        (("cycle",), [2, 2], "Bound place 0"),
        (("values",), ["0"], "Shape place 2"),
        (("values", 1), str(2**121 + 1), "Number place 2"),
        (("values", 1), "1", "Order place 1"),
    ],
    "quasilinear": [
        (("den",), "0", "Number place 0"),
        (("cycle",), [1, 2, 1, 1], "Shape place 1"),
        (("cycle",), [1], "Shape place 0"),
        (("cycle",), [3, 2, 3], "Number place 1"),
        (("cycle",), [2, 1], "NotClosed place 0"),
        (("num",), "3", "Bound place 0"),
        (("num",), "5", "Bound place 0"),
        (("values",), ["0", "0", "0"], "Shape place 2"),
        (("values", 0), str(-(2**120) - 1), "Number place 1"),
        (("values", 0), "1", "Order place 2"),
    ],
    "homothetic": [
        (("high",), str(UNIT + 1), "Number place 0"),
        (("cycle",), [1, 2, 1, 1], "Shape place 1"),
        (("cycle",), [1], "Shape place 0"),
        (("cycle",), [1, 2, 2], "NotClosed place 0"),
        (("high",), "879609302220", "Bound place 0"),
        (("cycle",), [1, 1], "Bound place 0"),
        (("values",), ["1"], "Shape place 2"),
        (("values", 1), "0", "Number place 2"),
        (("values", 0), str(2**60 + 1), "Number place 1"),
        (("low",), "879609302221", "Order place 1"),
        (("values", 0), "2", "Order place 2"),
    ],
}


def changed(item, path, to):
    """Returns the item with something else at a place."""
    other = copy.deepcopy(item)
    altered_fit.put(other, path, to)
    return other


def looked_at(table, *items):
    return verify_fit(table, altered_fit.spelled(list(items)))


class WorkedRows(unittest.TestCase):
    def test_rows_are_accepted(self):
        for table, items in TABLES.items():
            found = looked_at(table, *items.values())
            self.assertEqual(found.line, f"accepted items {len(items)}", found)

    def test_what_they_say(self):
        said = [item.says for item in looked_at(TWO, *OF_TWO.values()).items]
        self.assertEqual(said[0], "violations garp 2, wgarp 2, warp 2, sarp 2 of 2 pairs, 2 of 2 observations")
        self.assertEqual(said[1:3], ["efficiency 4/5 attained yes", "kept 1 of 2"])
        self.assertEqual(said[3], f"levels mean {FIFTH}/{2 * UNIT} to 1/10, exact")
        self.assertEqual(said[4], f"levels squares {SQUARE}/{2 * UNIT} to 1/50, exact")
        self.assertEqual(said[5:8], ["steps 1/10, exact", "pump 1/5", "quasilinear level 4/5"])
        said = [item.says for item in looked_at(THREE, *OF_THREE.values()).items]
        self.assertEqual(said[2:6], ["kept 2 of 3", "levels mean 1/6, exact", "levels squares 1/12, exact", "steps 1/6, exact"])
        self.assertEqual(said[6:], ["pump 1/2", "quasilinear level 1/2", "homothetic level 1/2"])
        said = [item.says for item in looked_at(NONE, *OF_NONE.values()).items]
        self.assertEqual(said[2:6], ["kept 2 of 2", "levels mean 0, exact", "levels squares 0, exact", "steps 0, exact"])
        self.assertEqual(said[6:], ["pump 0", "quasilinear level 1", "homothetic level 1"])

    def test_rows_are_true(self):
        for table, items in TABLES.items():
            for item in items.values():
                self.assertTrue(search.is_true(costs_of(table), item), item)

    def test_bounds_that_do_not_meet(self):
        singles = [{"pairs": [s], "weight": "1"} for s in (1, 2)]
        found = looked_at(TWO, {**OF_TWO["kept"], "groups": singles, "most": "2"}, {**OF_TWO["mean"], "cycles": []})
        self.assertEqual([item.says for item in found.items], ["kept 1 to 2 of 2", "levels mean 0 to 1/10"])


class ForgedItems(unittest.TestCase):
    def fails(self, table, item, told):
        # A true item stands before, so that the number of the item is seen too.
        found = looked_at(table, TABLES[table]["violations"], item)
        self.assertEqual(found.line, f"rejected item 2 {told}", item)

    def test_one_clause_at_a_time(self):
        for name, forged in FORGED.items():
            for path, to, told in forged:
                self.fails(TWO, changed(OF_TWO[name], path, to), told)

    def test_what_two_observations_cannot_break(self):
        kept = OF_THREE["kept"]
        self.fails(THREE, {**kept, "kept": [2, 1]}, "Set place 1")
        self.fails(THREE, {**kept, "kept": [1, 1], "ranks": [1, 1]}, "Set place 1")
        self.fails(THREE, {**kept, "ranks": [1, 1]}, "Order place 1")
        self.fails(THREE, {**kept, "kept": [1, 3], "ranks": [2, 2]}, "Order place 2")
        self.fails(THREE, changed(kept, ("groups", 0), {"pairs": [1, 2], "weight": "1"}), "Set place 1")
        self.fails(THREE, changed(kept, ("groups", 0, "cycle"), [1, 2, 1]), "Set place 1")
        self.fails(THREE, changed(kept, ("groups", 0, "cycle"), [1, 1, 1]), "Set place 1")
        self.fails(THREE, changed(kept, ("groups", 0, "cycle"), [1, 2, 3, 1, 2, 3, 1]), "Set place 1")
        self.fails(THREE, {**OF_THREE["mean"], "at": [3, 0, 0]}, "Level place 1")
        self.fails(THREE, changed(OF_THREE["steps"], ("cycles", 0, "cycle"), [1, 3, 1]), "Set place 1")
        # A walk that leaves 1 by the step to 2 loads the level of 1 by every bundle that is no dearer; here it is the only one.
        twice = [{"cycle": [1, 2, 3, 1], "weight": str(2**38)}, {"cycle": [2, 3, 1, 2], "weight": str(2**38 + 1)}]
        self.fails(THREE, {**OF_THREE["mean"], "cycles": twice}, "Dual place 1")
        self.fails(THREE, {**OF_THREE["pump"], "cycle": [1, 3, 2, 1]}, "NotWeak place 1")
        self.fails(THREE, changed(OF_THREE["pump"], ("values", 1), "4"), "Order place 1")
        self.fails(TIED, {**OF_TIED["kept"], "ranks": [1, 2]}, "Order place 1")
        self.fails(TIED, {**OF_TIED["kept"], "groups": [{"pairs": [1, 2], "weight": "1"}]}, "Set place 1")
        self.fails(TIED, {**OF_TIED["kept"], "groups": [{"cycle": [1, 2, 1], "weight": "1"}]}, "Set place 1")

    def test_groups(self):
        # The groups allow 3 over 2, which is 1 when it is rounded down.
        half = {**OF_TWO["kept"], "den": "2", "groups": [{"pairs": [1, 2], "weight": "3"}]}
        self.assertEqual(looked_at(TWO, half).line, "accepted items 1")
        self.fails(TWO, {**half, "most": "2"}, "Bound place 0")
        # Costs 4, 2, 9; 2, 4, 2; 9, 2, 4: the second contradicts both others, and these do not contradict each other.
        table = b"p_a,p_b,p_c,q_a,q_b,q_c\n4,2,9,1,0,0\n2,4,2,0,1,0\n9,2,4,0,0,1\n"
        item = {"item": "kept", "kept": [1, 3], "ranks": [1, 1], "den": "1", "most": "2"}
        groups = [{"pairs": [1, 2], "weight": "1"}, {"pairs": [2, 3], "weight": "1"}]
        self.assertEqual(looked_at(table, {**item, "groups": groups}).line, "accepted items 1")
        for three in ([1, 2, 3], [3, 1, 2]):
            forged = {**item, "kept": [2], "ranks": [1], "groups": [{"pairs": three, "weight": "1"}], "most": "1"}
            self.assertEqual(looked_at(table, forged).line, "rejected item 1 Set place 1")

    def test_walks_through_distinct_observations(self):
        # Costs 6, 2, 4, 9; 2, 6, 9, 9; 4, 9, 6, 9; 9, 9, 9, 6: a walk goes through 1 twice, with no more steps than there are observations.
        table = b"p_a,p_b,p_c,p_d,q_a,q_b,q_c,q_d\n6,2,4,9,1,0,0,0\n2,6,9,9,0,1,0,0\n4,9,6,9,0,0,1,0\n9,9,9,6,0,0,0,1\n"
        each = {"cycle": [1, 2, 1, 3, 1], "weight": "1"}
        levels = {"item": "levels", "measure": "mean", "at": [2, 0, 0, 0], "ranks": [1, 2, 2, 1], "den": "1", "cycles": [each]}
        steps = {"item": "steps", "taken": [[2, 3], [], [], []], "cost": "6", "ranks": [1, 2, 2, 1], "den": "1", "cycles": [each]}
        singles = [{"pairs": [s], "weight": "1"} for s in (1, 2, 3, 4)]
        kept = {"item": "kept", "kept": [2, 3, 4], "ranks": [1, 1, 1], "den": "1", "groups": [*singles, each], "most": "7"}
        for item, place in ((levels, 1), (steps, 1), (kept, 5)):
            self.assertEqual(looked_at(table, item).line, f"rejected item 1 Set place {place}")
            name = "groups" if item is kept else "cycles"
            simple = changed(item, (name, place - 1, "cycle"), [1, 2, 1])
            self.assertEqual(looked_at(table, {**simple, "most": "5"} if item is kept else simple).line, "accepted items 1")

    def test_an_index_that_is_not_attained(self):
        index = {"item": "efficiency", "level": "9/10", "below": [2, 1], "above": [1, 2, 1], "at_cycle": [2, 1, 2]}
        self.assertEqual(looked_at(FIVE, index).line, "accepted items 1")
        self.assertTrue(search.is_true(costs_of(FIVE), index))
        for path, to, told in [
            (("at_cycle",), [2, 2], "NotWeak place 1"),
            (("at_cycle",), [2], "Shape place 0"),
            (("at_cycle",), [2, 1], "NotClosed place 0"),
            (("at_cycle",), [3, 1, 3], "Number place 1"),
            (("level",), "1", "Order place 2"),
        ]:
            self.assertEqual(looked_at(FIVE, changed(index, path, to)).line, f"rejected item 1 {told}")
        on_edge = {name: OF_TWO["efficiency"][name] for name in ("item", "level", "above", "below")}
        self.fails(TWO, {**on_edge, "at_cycle": [1, 2, 1]}, "NoStrict place 0")
        self.fails(NONE, {**OF_NONE["efficiency"], "above": [1, 1]}, "Shape place 1")

    def test_levels_take_loads_of_dearer_steps(self):
        # Costs 6, 2, 4; 2, 6, 9; 4, 9, 6. The walk over 1 and 2 loads the level of 1 by the bundle of 2 alone; the one over 1 and 3,
        # whose step from 1 is dearer, loads it by the bundle of 3 and by that of 2.
        table = b"p_a,p_b,p_c,q_a,q_b,q_c\n6,2,4,1,0,0\n2,6,9,0,1,0\n4,9,6,0,0,1\n"
        third, two_thirds = UNIT // 3, 2 * UNIT // 3
        for by_two, by_three, told in [
            (two_thirds - third, third, "accepted items 1"),
            (two_thirds - third + 1, third, "rejected item 1 Dual place 1"),
            (two_thirds - third - 1, third + 1, "rejected item 1 Dual place 1"),
        ]:
            cycles = [{"cycle": [1, 2, 1], "weight": str(by_two)}, {"cycle": [1, 3, 1], "weight": str(by_three)}]
            item = {"item": "levels", "measure": "mean", "at": [2, 0, 0], "ranks": [1, 2, 2], "den": "1", "cycles": cycles}
            self.assertEqual(looked_at(table, item).line, told)


class Reading(unittest.TestCase):
    def refused(self, item, number=1):
        with self.assertRaises(NoCertificate) as it:
            looked_at(TWO, item)
        self.assertEqual(it.exception.item, number)

    def test_members_and_numbers(self):
        for name, path, to in [
            ("kept", ("den",), 1),
            ("kept", ("den",), str(2**32)),
            ("kept", ("ranks", 0), "1"),
            ("kept", ("groups", 0, "weight"), str(2**32)),
            ("kept", ("groups", 0), {"weight": "1"}),
            ("kept", ("groups", 0), {"pairs": [1], "cycle": [1, 1], "weight": "1"}),
            ("mean", ("measure",), "median"),
            ("mean", ("at", 1), 2),
            ("mean", ("cycles", 0, "weight"), str(2**64)),
            ("steps", ("cost",), str(2**128)),
            ("steps", ("cost",), "01"),
            ("pump", ("values", 0), "-0"),
            ("pump", ("values", 0), str(2**127)),
            ("pump", ("num",), "-1"),
            ("homothetic", ("low",), "0.5"),
            ("efficiency", ("level",), "8/10"),
            ("violations", ("garp",), str(2**32)),
            ("violations", ("more",), "1"),
        ]:
            self.refused(changed(OF_TWO[name], path, to))
        self.refused({"item": "garp", "ranks": [1, 1]})

    def test_widest_numbers(self):
        self.assertEqual(looked_at(TWO, changed(OF_TWO["steps"], ("cost",), str(2**128 - 1))).line, "rejected item 1 Bound place 0")
        self.assertEqual(looked_at(TWO, changed(OF_TWO["pump"], ("values", 0), str(2**127 - 1))).line, "rejected item 1 Number place 1")

    def test_kinds_and_versions(self):
        for text in (
            b'{"items":[],"kind":"table","version":1}',
            b'{"items":[],"kind":"fit","version":2,"levels":[1]}',
            b'{"items":[],"kind":"fit","version":3}',
            b"[]",
        ):
            with self.assertRaises(NoCertificate):
                verify_fit(TWO, text)
        found = verify_fit(TWO, b'{"version":1,"kind":"fit","items":[]}')
        self.assertEqual((found.line, bool(found)), ("accepted items 0", False))

    def test_tables_with_levels(self):
        with self.assertRaises(NoTable):
            verify_fit(b"p_a,q_a,e\n1,1,900\n", altered_fit.spelled([]))


class Altered(unittest.TestCase):
    def test_some_altered_certificates(self):
        choice = random.Random("some altered certificates")
        for _ in range(20):
            file, table = altered_fit.drawn(choice)
            items = altered_fit.certificate(table, choice)
            self.assertEqual(altered_fit.told(file, table, items), ("accepted", []))
            for _ in range(5):
                _, untrue = altered_fit.told(file, table, altered_fit.altered(choice, items, items))
                self.assertEqual(untrue, [])

    def test_every_reason_is_forged(self):
        """But one: evidence that shows a set and a bound has no set above the bound, so nothing reaches the last clause of `kept`."""
        told = {line.split()[0] for forged in FORGED.values() for _, _, line in forged}
        self.assertEqual(set(clauses.REASONS.values()) - told - {"NoStrict"}, {"Least"})


def costs_of(table):
    """Returns the table of `fit_by_search` that these bytes are."""
    header, *rows = [line.split(",") for line in table.decode().split()]
    goods = len(header) // 2
    return search.Table([list(map(int, row[:goods])) for row in rows], [list(map(int, row[goods:])) for row in rows])


if __name__ == "__main__":
    unittest.main()
