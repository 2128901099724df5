"""What is refused, and what it says to do: rounding, levels, households, columns; crafted texts in every argument; programs that
say something else. A refusal of data is the program's that RP_EXEC names."""

import copy
import os
import pathlib
import pickle
import shutil
import stat
import sys
import tempfile
import unittest

import revealed
from revealed import BadData, NoFile, NoProgram, Pooled, Refused, Unreadable, WrongColumns

P, Q = [[1, 2], [2, 1]], [[1, 2], [2, 1]]
LEVELS = [799, 1000]
FIRM = {"y": [1, 2], "p": [5, 4], "w_a": [1, 2], "w_b": [2, 1], "x_a": [2, 2], "x_b": [1, 2]}
BUDGETS = {"p_a": [1, 2], "p_b": [2, 1], "w": [4, 4]}
CHOICES = {"budget": [1, 1, 2, 2], "q_a": [2, 0, 1, 2], "q_b": [1, 2, 2, 0], "n": [1, 3, 2, 2]}
MENUS = {"menu": ["abc", "abc", "ab"], "choice": ["a", "b", "b"], "n": [1, 1, 2]}
# what a shell, a reader of CSV or a program's line would take for something else
CRAFTED = [
    "4; touch {0}",
    "$(touch {0})",
    "`touch {0}`",
    "| touch {0}",
    "&& touch {0}",
    "'; touch {0}; '",
    '"; touch {0}; "',
    "\n touch {0}",
    "--json",
    "-",
    "--",
    "--per=3",
    "%PATH%",
    "a\x00b",
    "=1+1",
    "a,b",
    'a"b',
    "a\rb",
    "../../{0}",
    "é\ud800",
    "",
]


def calls_of(work):
    """Returns how many functions are called, which is the same in every run."""
    count = 0

    def seen(frame, event, argument):
        nonlocal count
        count += event in ("call", "c_call")

    sys.setprofile(seen)
    try:
        work()
    finally:
        sys.setprofile(None)
    return count


class Rounding(unittest.TestCase):
    def hint(self, *data, **more):
        with self.assertRaises(Refused) as caught:
            revealed.analyse(*data, **more)
        return caught.exception.fault, caught.exception.hint

    def test_the_most_places_that_fit(self):
        fault, hint = self.hint([[1 / 87.13, 1 / 33.61], [1 / 45.5, 1 / 62.04]], [[43.2, 16.95], [20.1, 34.63]])
        self.assertEqual(fault, "TooManyDecimals")
        self.assertIn("decimals=(6, None) rounds prices and quantities to the most decimal places that fit", hint)
        self.assertIn("columns i_NAME", hint)
        for p, q, argument in [
            ([[3.1807123, 1250]], [[1, 1]], "decimals=(3, None)"),
            ([[1, 2]], [[1 / 3, 123456]], "decimals=(None, 1)"),
            ([[1 / 3, 2, 3]], [[1, 1, 1 / 7]], "decimals=(6, 6)"),
        ]:
            fault, hint = self.hint(p, q)
            self.assertEqual(fault, "TooManyDecimals")
            self.assertIn(argument, hint)
            decimals = eval(argument.partition("=")[2])
            self.assertIsNotNone(revealed.analyse(p, q, decimals=decimals).garp)

    def test_data_of_a_file_are_taken(self):
        """What read_csv makes of 23.86 is a float, and its shortest decimal is what the file has."""
        for p, q in [([[23.86, 1250]], [[1, 1]]), ([[0.1, 2, 3]], [[1, 1, 1.1]])]:
            verdict = revealed.analyse(p, q)
            self.assertTrue(verdict.garp)
            self.assertEqual(repr(verdict).splitlines()[-1], "numbers: shortest decimals of doubles")
            self.assertTrue(revealed.verify(verdict))
            self.assertTrue(revealed.check((p, q), verdict))
        self.assertNotIn("numbers:", repr(revealed.analyse([[0.5, 1]], [[1, 2]])))

    def test_strict_reading_is_an_option(self):
        for p, q, good in [
            ([[3.18, 1250]], [[1, 1]], True),
            ([[0.1, 2, 3]], [[1, 1, 1.1]], True),
            ([[3.18, 1]], [[1 / 3, 1]], False),
        ]:
            fault, hint = self.hint(p, q, numbers="exact")
            self.assertEqual((fault, "numbers='shortest', the default" in hint), ("TooManyDecimals", good))
        self.assertTrue(revealed.analyse([[0.5, 1]], [[0.25, 1]], numbers="exact").garp)

    def test_a_number_that_is_refused_takes_at_most_four_lines(self):
        for more in ({}, {"numbers": "exact"}):
            for p, q in [([[1 / 3, 1]], [[1, 2]]), ([[1 / 3, 1, 1]], [[1, 2, 0.1]]), ([[1, 1]], [[0.1 + 0.2, 1]])]:
                with self.assertRaises(Refused) as caught:
                    revealed.analyse(p, q, **more)
                said = str(caught.exception)
                self.assertLessEqual(len(said.splitlines()), 4, said)
                self.assertTrue(said.startswith("row 1, column '"), said)
                self.assertTrue(said.endswith("]"), said)
                self.assertIn("decimals=(", said)
        self.assertIn("as do 2 other numbers", self.hint([[1 / 3, 1 / 7]], [[1 / 9, 1]])[1])
        self.assertIn("as does 1 other number.", self.hint([[1 / 3, 1 / 7]], [[1, 1]])[1])

    def test_floats_that_need_more_refuse_the_whole_panel_at_once(self):
        d = {"home": ["u", "u", "v"], "p_a": [3.18, 2.5, 1.1], "p_b": [1, 1, 12500.5], "q_a": [1, 1, 1], "q_b": [2, 3, 4]}
        found = revealed.panel(d, "home", progress=False)
        self.assertEqual([row.fault for row in found], [None, None])
        self.assertEqual(found.numbers, "shortest decimals of doubles")
        with self.assertRaises(Refused) as caught:
            revealed.panel({**d, "q_a": [1, 0.1 + 0.2, 1 / 3]}, "home", progress=False, exe="/bin/true")
        refused = caught.exception
        self.assertEqual((refused.fault, refused.record, refused.column, refused.label, refused.name), ("TooManyDecimals", 2, 4, 2, "q_a"))
        self.assertIn("decimals=(None, 6)", str(refused))
        self.assertLessEqual(len(str(refused).splitlines()), 4)
        # strictly, 3.18 is one
        with self.assertRaises(Refused) as caught:
            revealed.panel(d, "home", progress=False, numbers="exact", exe="/bin/true")
        self.assertEqual((caught.exception.record, caught.exception.name), (1, "p_a"))
        self.assertIn("numbers='shortest'", str(caught.exception))
        self.assertEqual([row.status for row in revealed.panel(d, "home", decimals=(2, None), progress=False)], [0, 0])

    def test_refusing_a_panel_grows_with_its_rows_and_no_faster(self):
        def refuse(homes):
            rows = range(20 * homes)
            d = {"home": [at // 20 for at in rows], **{f"{kind}_{good}": [1 / (7 + at % 83) for at in rows] for kind in "pq" for good in "ab"}}
            with self.assertRaises(Refused):
                revealed.panel(d, "home", progress=False, exe="/bin/true")

        self.assertLess(calls_of(lambda: refuse(200)), 3 * calls_of(lambda: refuse(100)))

    def test_a_panel_that_is_refused_for_one_cause_stops(self):
        d = {"home": ["u", "u", "v"], "p_a": ["3.1800001", "2.5", "1.0000001"], "p_b": [1, 1, "12500.5"], "q_a": [1, 1, 1], "q_b": [2, 3, 4]}
        with self.assertRaises(revealed.AllRefused) as caught:
            revealed.panel(d, "home", progress=False)
        found = caught.exception
        self.assertEqual((found.fault, found.key, found.count, found.record, found.name), ("TooManyDecimals", "u", 2, 1, "p_a"))
        self.assertTrue(str(found).startswith("all 2 households have one error, the first, 'u': row 1, column 'p_a'"), str(found))
        # what fits is told by all of them: 12500.5 leaves two places
        self.assertIn("decimals=(2, None)", found.hint)
        self.assertEqual([row.status for row in revealed.panel(d, "home", decimals=(2, None), progress=False)], [0, 0])
        # two causes, or one household with an answer, and the others go on
        for p_a in (["3.1800001", 2.5, 0], ["3.1800001", 2.5, 1]):
            self.assertEqual(revealed.panel({**d, "p_a": p_a}, "home", progress=False)[0].status, 4)

    def test_intercepts_are_spoken_of_where_a_price_is_rounded(self):
        self.assertIn("intercepts", self.hint([[1 / 3, 1]], [[1, 1]])[1])
        self.assertNotIn("intercepts", self.hint([[1 / 3, 1, 1]], [[1, 1, 1]])[1])
        self.assertNotIn("intercepts", self.hint([[1, 1]], [[1 / 3, 1]])[1])

    def test_too_large_says_the_limit_and_the_way_out(self):
        fault, hint = self.hint([[1.25, 100000]], [[1, 1]])
        self.assertEqual(fault, "TooLarge")
        for said in ("9,999,999", "decimals=(1, None)"):
            self.assertIn(said, hint)
        fault, hint = self.hint([[1, 1]], [[1234.567891, 7.123457]])
        self.assertIn("decimals=(None, 3)", hint)
        self.assertIsNotNone(revealed.analyse([[1, 1]], [[1234.567891, 7.123457]], decimals=(None, 3)).garp)
        self.assertIn("decimals=(6, 3)", self.hint([[1 / 3, 1]], [[1234.567891, 7.123457]], decimals=(6, 6))[1])
        for p, q, said in [([[10**7]], [[1]], "a smaller unit of the good"), ([[1]], [[10**7]], "a larger unit of the good")]:
            self.assertIn(said, self.hint(p, q)[1])


class Levels(unittest.TestCase):
    """The table of two purchases of 5 where the other costs 4, with 799 and 1000 thousandths."""

    def test_both_ways_are_one_table(self):
        d = {"p_a": [1, 2], "p_b": [2, 1], "q_a": [1, 2], "q_b": [2, 1]}
        first, second = revealed.analyse({**d, "e": LEVELS}), revealed.analyse(P, Q, levels=LEVELS)
        self.assertFalse(revealed.analyse(d).garp)
        for verdict in (first, second):
            self.assertTrue(verdict.garp)
            self.assertEqual((list(verdict.utility.values()), list(verdict.multipliers.values())), ([-1, 0], [200, 1]))
            self.assertEqual((verdict.efficiency, verdict.homothetic, verdict.quasilinear), (revealed.analyse(d).efficiency, False, False))
            self.assertTrue(revealed.verify(verdict))
            self.assertTrue(revealed.check(verdict, verdict))
        self.assertEqual(first.certificate.data, second.certificate.data)
        self.assertFalse(revealed.analyse(P, Q, levels=[800, 1000]).garp)

    def test_each_call_that_has_them(self):
        self.assertIsNone(revealed.first_contradiction(P, Q, levels=LEVELS))
        self.assertEqual(revealed.first_contradiction(P, Q), (1, 2))
        self.assertIn(b"levels", revealed.certify(P, Q, levels=LEVELS).data)
        found = revealed.utility(P, Q, [[1, 2], [2, 1]], levels=LEVELS)
        self.assertEqual(found, [-1, 0])
        d = {"id": [1, 1, 2, 2], "p_a": [1, 2] * 2, "p_b": [2, 1] * 2, "q_a": [1, 2] * 2, "q_b": [2, 1] * 2}
        self.assertEqual([row.garp for row in revealed.panel({**d, "e": [*LEVELS, 1000, 1000]}, "id", progress=False)], [True, False])
        self.assertEqual([row.garp for row in revealed.panel(d, "id", levels=[1000, 1000, *LEVELS], progress=False)], [False, True])
        self.assertEqual([row.garp for row in revealed.panel(d, "id", levels=799, progress=False)], [True, True])

    def test_each_call_that_has_none(self):
        for call in (
            lambda: revealed.demand(P, Q, [1, 1], 3, levels=LEVELS),
            lambda: revealed.welfare(P, Q, [1, 1], levels=LEVELS),
            lambda: revealed.pump(P, Q, levels=LEVELS),
            lambda: revealed.power(P, Q, levels=LEVELS),
        ):
            with self.assertRaises(Refused) as caught:
                call()
            self.assertEqual((caught.exception.fault, caught.exception.status), ("OwnLevels", 4))
            self.assertIn("Leave out the column e", caught.exception.hint)
        with self.assertRaises(BadData):
            revealed.plain.welfare(revealed.from_frame({"p_a": [1], "q_a": [1], "e": [5]}), new=[1])
        d = {"id": [1, 1], "p_a": [1, 2], "p_b": [2, 1], "q_a": [1, 2], "q_b": [2, 1], "e": LEVELS}
        for more in ({"pump": True}, {"power": 10}):
            with self.assertRaises(revealed.AllRefused) as caught:
                revealed.panel(d, "id", progress=False, **more)
            self.assertEqual(caught.exception.fault, "OwnLevels")
            self.assertIn("Leave out pump and power", caught.exception.hint)

    def test_levels_that_are_none(self):
        for levels, fault in [
            ([0.8005, 1], "BadNumber"),
            ([800.5, 1], "BadNumber"),
            ([0.8, 900], "BadNumber"),
            ([0, 1], "BadLevel"),
            ([1001, 1], "BadLevel"),
            ([None, 1], "BadNumber"),
        ]:
            with self.assertRaises(Refused) as caught:
                revealed.analyse(P, Q, levels=levels)
            self.assertEqual((caught.exception.fault, caught.exception.name, caught.exception.record), (fault, "e", 1))
            self.assertIn("an integer of thousandths", caught.exception.hint)

    def test_levels_are_shares_too(self):
        for levels in ([0.799, 1], ["0.799", 1.0], [799, 1000]):
            self.assertEqual(revealed.table(P, Q, levels=levels).csv(), revealed.table(P, Q, levels=LEVELS).csv())
        self.assertEqual(revealed.table(P, Q, levels=0.95).csv(), revealed.table(P, Q, levels=950).csv())
        self.assertEqual(revealed.from_frame({"p_a": [1, 1], "q_a": [1, 2], "e": [0.8, 1.0]}).levels, [800, 1000])
        d = {"id": [1, 1], "p_a": [1, 2], "p_b": [2, 1], "q_a": [1, 2], "q_b": [2, 1]}
        self.assertEqual([row.garp for row in revealed.panel(d, "id", levels=0.799, progress=False)], [True])


class Households(unittest.TestCase):
    def test_a_pooled_panel_is_an_error(self):
        d = {"household": ["u", "u", "v", "v"], "obs": [1, 2, 1, 2], "p_a": [1] * 4, "q_a": [1] * 4}
        for call in (revealed.analyse, revealed.certify, revealed.pump, revealed.power, revealed.pairs):
            with self.assertRaises(Pooled) as caught:
                call(d)
            self.assertIn("by=", str(caught.exception))
        self.assertEqual([row.garp for row in revealed.panel(d, "household", progress=False)], [True, True])

    def test_a_panel_by_too_few_columns(self):
        d = {"town": ["x"] * 4, "home": [1, 1, 2, 2], "obs": [1, 2, 1, 2], "p_a": [1] * 4, "q_a": [1] * 4}
        with self.assertRaises(BadData) as caught:
            revealed.panel(d, "town", progress=False)
        self.assertIn("more than one row has the label 1 of the column 'obs'", str(caught.exception))
        other = {name: [*column, column[0]] for name, column in d.items()}
        row, _ = revealed.panel({**other, "town": [*"xxxxy"]}, "town", progress=False)
        self.assertIsInstance(row.refusal, Pooled)
        self.assertEqual(row.status, 4)
        self.assertEqual([row.key for row in revealed.panel(d, ["town", "home"], progress=False)], [("x", 1), ("x", 2)])


class Columns(unittest.TestCase):
    def test_each_call_says_what_it_wants(self):
        for call, wanted in [
            (lambda: revealed.analyse({"p1": [1], "x1": [1]}), "p_NAME and q_NAME"),
            (lambda: revealed.panel({"id": [1], "p1": [1], "x1": [1]}, "id"), "p_NAME and q_NAME"),
            (lambda: revealed.panel({"p_a": [1], "q_a": [1]}, "id"), "id (by)"),
            (lambda: revealed.demand(P, Q, {"p_1": 1, "p_2": 1}), "p_1, p_2, m"),
            (lambda: revealed.demand(P, Q, {"p_1": 1}, 3), "p_1, p_2, m"),
            (lambda: revealed.welfare(P, Q, {"p_1": 1, "p_3": 2}), "p_1, p_2"),
            (lambda: revealed.utility(P, Q, {"q_1": 1}), "q_1, q_2"),
            (lambda: revealed.random({"p_a": [1]}, CHOICES), "p_NAME for each good, m"),
            (lambda: revealed.random(BUDGETS, {"q_a": [1], "n": [1]}), "q_NAME for each good, budget, n"),
            (lambda: revealed.random({**BUDGETS, "obs": ["u", "v"]}, {"q_a": [1], "n": [1]}), "q_NAME for each good, budget, n"),
            (lambda: revealed.menus({"menu": ["a"], "choice": ["a"]}), "menu, choice, n"),
            (lambda: revealed.cost({"w_a": [1], "x_a": [1]}), "w_a, x_a, y"),
            (lambda: revealed.cost({"y": [1]}), "w_NAME and x_NAME for each input"),
            (lambda: revealed.cost(FIRM, {"w_a": 1, "y": 1}), "w_a, w_b, y"),
        ]:
            with self.assertRaises((WrongColumns, Refused)) as caught:
                call()
            self.assertIn(f"wanted are {wanted}", str(caught.exception))
            self.assertIn("found are", str(caught.exception))

    def test_what_is_missing_is_no_type_error(self):
        for call in (
            lambda: revealed.analyse(None),
            lambda: revealed.analyse(P),
            lambda: revealed.analyse(5, 5),
            lambda: revealed.analyse("p_a,q_a\n1,1\n"),
            lambda: revealed.demand(P, Q),
            lambda: revealed.demand(P, Q, 5),
            lambda: revealed.demand(P, Q, [1, 1], [1, 2]),
            lambda: revealed.random(None, None),
            lambda: revealed.menus(None),
            lambda: revealed.menus([["a", "a"]]),
            lambda: revealed.cost(None),
            lambda: revealed.panel(P, "id"),
            lambda: revealed.panel({"id": [1], "p_a": [1], "q_a": [1]}, []),
        ):
            with self.assertRaises(revealed.Problem):
                call()


class Pickled(unittest.TestCase):
    def test_every_error_can_be_pickled_and_copied(self):
        calls = [
            lambda: revealed.analyse([[0, 1]], [[1, 1]]),
            lambda: revealed.analyse({"p_a": [1], "x": [2]}),
            lambda: revealed.analyse([[1]], [[1]], exe="/no/such/program"),
            lambda: revealed.analyse({"p_a": [1, 2], "q_a": [1, 2], "obs": [1, 1]}),
            lambda: revealed.panel({"id": ["u"], "p_a": [0], "q_a": [1]}, "id", progress=False),
            lambda: revealed.analyse({"i_a": [10], "i_b": [10], "q_a": [9], "q_b": [9]}),
            lambda: revealed.check([[1]], "not_there.json"),
        ]
        for call in calls:
            with self.assertRaises(revealed.Problem) as caught:
                call()
            wrong = caught.exception
            for again in (pickle.loads(pickle.dumps(wrong)), copy.copy(wrong), copy.deepcopy(wrong)):
                self.assertIs(type(again), type(wrong))
                self.assertEqual((str(again), again.args, again.__dict__), (str(wrong), wrong.args, wrong.__dict__))
        for wrong in (revealed.Failed(70, "stopped"), Unreadable("x", "why")):
            again = pickle.loads(pickle.dumps(wrong))
            self.assertEqual((type(again), str(again), again.status), (type(wrong), str(wrong), wrong.status))


class Crafted(unittest.TestCase):
    """Each of these texts in each argument ends with an answer or one of the package's exceptions, and runs nothing."""

    def calls(self, text):
        frame = {"obs": [text, "y"], "p_a": [1, 2], "p_b": [2, 1], "q_a": [1, 2], "q_b": [2, 1]}
        named = {f"p_{text}": [1, 2], "p_b": [2, 1], f"q_{text}": [1, 2], "q_b": [2, 1]}
        long = {"id": [text, text, "v", "v"], **{name: values * 2 for name, values in frame.items() if name != "obs"}}
        valued = {**frame, "p_a": [text, 2]}
        return [
            lambda: revealed.analyse(frame),
            lambda: revealed.analyse(named),
            lambda: revealed.analyse(valued),
            lambda: revealed.analyse(P, Q, levels=text),
            lambda: revealed.analyse(P, Q, levels=[text, 1]),
            lambda: revealed.analyse(P, Q, decimals=text),
            lambda: revealed.analyse(P, Q, exe=text or "/nowhere"),
            lambda: revealed.analyse(text),
            lambda: revealed.analyse({text: [1]}),
            lambda: revealed.certify(named),
            lambda: revealed.pairs(valued),
            lambda: revealed.pump(named),
            lambda: revealed.power(P, Q, seed=text),
            lambda: revealed.power(P, Q, draws=text),
            lambda: revealed.trial(text, 2, 2),
            lambda: revealed.trial(1, text, 2),
            lambda: revealed.trial(1, 2, text),
            lambda: revealed.demand(P, Q, [text, 1], 3),
            lambda: revealed.demand(P, Q, [1, 1], text),
            lambda: revealed.demand(P, Q, {f"p_{text}": 1, "p_2": 1}, 3),
            lambda: revealed.welfare(P, Q, [text, 1]),
            lambda: revealed.utility(P, Q, [text, 1]),
            lambda: revealed.random(BUDGETS, CHOICES, per=text),
            lambda: revealed.random({**BUDGETS, "obs": [text, "y"]}, {**CHOICES, "budget": [text, text, "y", "y"]}),
            lambda: revealed.random({**BUDGETS, "w": [text, 4]}, CHOICES),
            lambda: revealed.menus({**MENUS, "menu": [text, "abc", "ab"]}),
            lambda: revealed.menus({**MENUS, "choice": [text, "b", "b"]}),
            lambda: revealed.menus(MENUS, per=text),
            lambda: revealed.cost({**FIRM, "y": [text, 2]}),
            lambda: revealed.cost({**FIRM, f"w_{text}": [1, 2], f"x_{text}": [1, 2]}),
            lambda: revealed.cost(FIRM, {"w_a": 1, "w_b": 1, "y": text}),
            lambda: revealed.panel(long, "id", progress=False),
            lambda: revealed.panel(long, text, progress=False),
            lambda: revealed.panel(long, "id", workers=text, progress=False),
            lambda: revealed.panel(long, "id", power=text, progress=False),
            lambda: revealed.panel(long, "id", power=3, seed=text, progress=False),
            lambda: revealed.check((P, Q), text),
            lambda: revealed.check((P, Q), {"items": [text]}),
            lambda: revealed.check(text, b"{}"),
            lambda: revealed.check((text, text), b"{}"),
            lambda: revealed.check((P, Q), b"{}", per=text),
            lambda: revealed.verify((P, Q), text),
            lambda: revealed.verify(text, b"{}"),
            lambda: revealed.verify((text, text), b"{}"),
            lambda: revealed.plain.analyse(named),
            lambda: revealed.plain.demand(P, Q, [1, 1], text),
        ]

    def test_in_every_argument(self):
        before = os.getcwd()
        with tempfile.TemporaryDirectory() as folder:
            os.chdir(folder)
            try:
                for text in CRAFTED:
                    text = text.format("made")
                    for number, call in enumerate(self.calls(text)):
                        try:
                            call()
                        except (revealed.Problem, revealed.NoCertificate, revealed.NoTable):
                            pass
                        except Exception as wrong:
                            self.fail(f"{text!r} in call {number}: {type(wrong).__name__}: {wrong}")
                self.assertEqual(os.listdir(folder), [])
            finally:
                os.chdir(before)

    def test_numbers_are_checked_before_they_are_words(self):
        for value in (0, -1, 10**9 + 1, 1.0, True, "4", b"4", None.__class__, [4], float("nan")):
            with self.assertRaises(BadData):
                revealed.random(BUDGETS, CHOICES, per=value)
        for seed in (-1, 2**64):
            with self.assertRaises(BadData):
                revealed.power(P, Q, seed=seed)
        self.assertEqual(revealed.power(P, Q, seed=2**64 - 1, draws=1).draws, 1)


class Certificates(unittest.TestCase):
    def test_a_text_that_begins_otherwise_is_no_file(self):
        for text in ('"a"', "null", "\ufeff{}", "7", " ", "garp", "certificate.json", "x" * 5000, "{", "a\x00"):
            with self.assertRaises(revealed.NoCertificate):
                revealed.verify((P, Q), text)
            with self.assertRaises(Refused) as caught:
                revealed.check((P, Q), text)
            self.assertEqual(caught.exception.file, "certificate")
        with self.assertRaises(NoFile):
            revealed.verify((P, Q), pathlib.Path("not/there.json"))
        with self.assertRaises(NoFile):
            revealed.verify("not/there.csv", b"{}")
        for nothing in (None, object(), {1, 2}):
            with self.assertRaises((BadData, revealed.NoCertificate)):
                revealed.verify((P, Q), nothing)

    def test_a_file_of_that_name(self):
        with tempfile.TemporaryDirectory() as folder:
            path = f"{folder}/a certificate"
            revealed.certify(P, Q).save(path)
            self.assertTrue(revealed.verify((P, Q), path))
            self.assertTrue(revealed.check((P, Q), path))

    def test_the_text_of_a_file(self):
        verdict = revealed.analyse(P, Q)
        text = verdict.table.csv().decode()
        for data in (text, text.encode(), text.replace("\n", "\r\n")):
            self.assertTrue(revealed.verify(data, verdict))
            self.assertTrue(revealed.check(data, verdict))

    def test_fields_that_are_long(self):
        field = "x" * 200_000
        for data in (
            f"obs,p_a,q_a\n{field},1,1\n",
            f'obs,p_a,q_a\n"{field}\n,""",1,1\n',
            f"p_a,q_a\n{'0' * 200_000}1,1.{'0' * 200_000}\n",
            "obs,p_a,q_a\na\x00b,1,1\n",
        ):
            certificate = revealed.certify([[1]], [[1]])
            self.assertTrue(revealed.check(data, certificate), data[:20])
            self.assertTrue(revealed.verify(data, certificate), data[:20])


class OtherPrograms(unittest.TestCase):
    """A program that ends with 0 and says something else."""

    def fake(self, folder, out):
        path = pathlib.Path(folder) / "rp"
        (pathlib.Path(folder) / "out").write_bytes(out)
        path.write_text(f"#!/bin/sh\ncat '{folder}/out'\n", encoding="utf-8")
        path.chmod(path.stat().st_mode | stat.S_IXUSR)
        return path

    def test_each_call(self):
        good = revealed.certify(P, Q).data
        texts = [b"", b"hello\n", b"{}", b"[]", b'{"items":[]}', b'{"items":[{"item":"garp"}]}', b"\xff\xfe", good[:-3], b"[" * 100_000, b"1" * 5000]
        texts += [
            good.replace(b"[1,2,1]", b"[1,3,1]"),
            good.replace(b"[1,1]", b"[1]"),
            good.replace(b"4/5", b"x"),
            b"pair 1\n",
            b"pump 1/5\n",
            b"accepted\n",
            b"rejected item\n",
        ]
        texts += [
            b"observations 2 goods 2 places 0 0\npump 2/10\ncycle 1 2 1\nvalues 0 0\n",
            b"observations 2 goods 2 places 0 0\npower 1 draws 10 violations 11\n",
        ]
        calls = [
            lambda exe: revealed.analyse(P, Q, exe=exe),
            lambda exe: revealed.demand(P, Q, [1, 1], 3, exe=exe),
            lambda exe: revealed.welfare(P, Q, [1, 1], exe=exe),
            lambda exe: revealed.utility(P, Q, [1, 1], exe=exe),
            lambda exe: revealed.random(BUDGETS, CHOICES, exe=exe),
            lambda exe: revealed.menus(MENUS, exe=exe),
            lambda exe: revealed.cost(FIRM, exe=exe),
            lambda exe: revealed.pump(P, Q, exe=exe),
            lambda exe: revealed.power(P, Q, seed=1, draws=10, exe=exe),
            lambda exe: revealed.trial(1, 2, 2, exe=exe),
            lambda exe: revealed.pairs(P, Q, exe=exe),
            lambda exe: revealed.check((P, Q), good, exe=exe),
        ]
        with tempfile.TemporaryDirectory() as folder:
            for text in texts:
                exe = self.fake(folder, text)
                for number, call in enumerate(calls):
                    with self.assertRaises(Unreadable, msg=f"{text[:40]!r} in call {number}") as caught:
                        call(exe)
                    self.assertEqual(caught.exception.status, 0)
                with self.assertRaises(Unreadable):
                    revealed.panel({"id": [1, 1], "p_a": [1, 2], "p_b": [2, 1], "q_a": [1, 2], "q_b": [2, 1]}, "id", exe=shutil.copy(exe, f"{folder}/rp-panel"))

    def test_what_is_no_program(self):
        for exe in (5, b"/nowhere", "/nowhere", "a\x00b", object(), pathlib.Path("/nowhere")):
            with self.assertRaises((NoProgram, BadData)):
                revealed.analyse(P, Q, exe=exe)


if __name__ == "__main__":
    unittest.main()
