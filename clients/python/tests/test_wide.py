"""What the program withholds or refuses and its wider edition gives: by stand-ins that write what they are told, and by the programs
that are here."""

import contextlib
import json
import os
import pathlib
import random
import shutil
import tempfile
import unittest
from fractions import Fraction

import revealed
from revealed import Failed, NoProgram, Refused, plain, program, wider

# Products on the way pass 2^127 - 1: `rp` withholds the homothetic verdict after 2 steps from 3 to 1.
P = [[4194304, 1], [1, 3145727], [1, 4194304]]
Q = [[2097151, 4194304], [1747627, 2796203], [4194304, 2097151]]
FIRM = {"y": [1, 2], "p": [5, 4], "w_a": [1, 2], "w_b": [2, 1], "x_a": [2, 2], "x_b": [1, 2]}
ASKED = {"w_a": [1], "w_b": [1], "y": [3]}


def pairs(count, first=(1, 3, 2, 2)):
    """Returns the budgets of so many pairs, and the choices from them, those of the first pair made so many times.

    On each pair the choices (2, 1) and (0, 2) of the one budget, (1, 2) and (2, 0) of the other are patches: the first of each lies
    above the other budget, the second below it, and no type has both that lie below. All that a later pair buys costs more on an
    earlier one than its income, and nothing of an earlier pair costs as much as the income of a later one, so a type is rational
    where it is on each pair: there are 3^count. Types of one mass on each pair can be put together; so the greatest share is the
    least of those of the pairs: 3/4 where 1, 3, 2 and 2 of 4 choose, and 1 where 3, 1, 3 and 1 do.
    """
    budgets, choices = [], []
    for pair in range(count):
        budgets += [[1, 2, 4 * 3**pair], [2, 1, 4 * 3**pair]]
        made = first if pair == 0 else (3, 1, 3, 1)
        patches = [(1, 2, 1), (1, 0, 2), (2, 1, 2), (2, 2, 0)]
        choices += [[2 * pair + budget, x, y, times] for (budget, x, y), times in zip(patches, made)]
    return budgets, choices


def tangents(count=18):
    """Returns budgets whose lines are tangents of a hyperbola, so that each two cross and no three in one point, and a choice from each
    line before its first crossing, between each two, and behind the last."""
    ends = [10 * 1.1**at for at in range(count)]
    budgets = [["1", f"{end**2:.3f}", f"{2 * end:.3f}"] for end in ends]
    choices = []
    for number, end in enumerate(ends, 1):
        crossings = sorted(2 * end * other / (end + other) for other in ends if other != end)
        marks = [0, *crossings, 2 * end]
        for left, right in zip(marks, marks[1:]):
            x = (left + right) / 2
            y = (2 * end - x) / end**2
            choices.append([number, *(round(9_000_000 * it / max(x, y)) for it in (x, y)), 1])
    return budgets, choices


def population(seed, count=8, persons=200, goods=3):
    """Returns drawn budgets and the choices of so many persons from each, each a maximizer of one drawn Cobb-Douglas utility."""
    draw = random.Random(seed)
    people = [[draw.randint(1, 9) for _ in range(goods)] for _ in range(persons)]
    budgets, choices = [], []
    for budget in range(1, count + 1):
        prices = [draw.randint(20, 60) for _ in range(goods)]
        budgets.append([*prices, 10_000])
        for person in people:
            spent = [round(10_000 * part / sum(person)) for part in person]
            choices.append([budget, *(f"{amount / price:.3f}" for amount, price in zip(spent, prices)), 1])
    return budgets, choices


@contextlib.contextmanager
def variables(**given):
    """Sets variables of the environment, or takes them away."""
    before = {name: os.environ.get(name) for name in given}
    try:
        for name, value in given.items():
            os.environ.pop(name, None)
            if value is not None:
                os.environ[name] = value
        yield
    finally:
        for name, value in before.items():
            os.environ.pop(name, None)
            if value is not None:
                os.environ[name] = value


@contextlib.contextmanager
def stand_ins(wide=None, status=0, refusal=None, **rp):
    """Yields a program that writes these texts, by command, in a folder that has its wider edition with the others, if there is one.
    With a refusal the program tells that alone, and ends with status 4."""
    with tempfile.TemporaryDirectory(prefix="ein Ordner é ") as folder, variables(RP_WIDE=None, RP_LIBRARY=None):
        for name, texts, ends in (("rp", rp, 0), ("rp-wide", wide, status)):
            if texts is None:
                continue
            path = pathlib.Path(folder) / name
            ending = f"echo '{refusal}' >&2\nexit 4" if refusal and name == "rp" else f'cat "$0.$1"\nexit {ends}'
            path.write_text(f'#!/bin/sh\necho "$1" >>"$0.asked"\n{ending}\n', encoding="utf-8")
            path.chmod(0o755)
            for command, text in texts.items():
                (pathlib.Path(folder) / f"{name}.{command}").write_text(text, encoding="utf-8")
        yield os.path.join(folder, "rp")


def withholding(answer, change):
    """Returns the certificate of an answer by whole numbers without bound, and the same with a part that is withheld."""
    whole = answer.certificate.data.decode()
    value = json.loads(whole)
    change(value["items"])
    return json.dumps(value, sort_keys=True, separators=(",", ":")) + "\n", whole


def homothetic(items):
    items[3] = {"item": "homothetic", "withheld": [2, 3, 1]}


class Verdicts(unittest.TestCase):
    def setUp(self):
        self.own, self.wide = withholding(plain.analyse(P, Q), homothetic)

    def test_what_is_withheld_is_asked_of_the_wider_edition(self):
        with stand_ins({"certify": self.wide}, certify=self.own) as exe:
            verdict = revealed.analyse(P, Q, exe=exe)
            self.assertEqual((verdict.homothetic, verdict.wide, verdict.reasons), (True, ["homothetic"], {}))
            self.assertEqual(verdict.as_dict()["wide"], ["homothetic"])
            self.assertIn("homothetic holds (by rp-wide; rp itself withholds it)", repr(verdict))
            self.assertEqual((verdict.certificate.data, verdict.certificate.stated.data), (self.wide.encode(), self.own.encode()))
            self.assertEqual(revealed.certify(P, Q, exe=exe).data, self.wide.encode())
            verdict = revealed.analyse(P, Q, exe=exe, wide=False)
            self.assertEqual((verdict.homothetic, verdict.wide, verdict.certificate.stated), (None, [], None))
            self.assertIn("leave wide=False out", verdict.reasons["homothetic"])
            with self.assertRaises(revealed.BadData):
                revealed.analyse(P, Q, exe=exe, wide="no")

    def test_where_nothing_is_withheld_it_is_not_asked(self):
        with stand_ins({}, certify=self.wide) as exe:
            verdict = revealed.analyse(P, Q, exe=exe)
            self.assertEqual((verdict.homothetic, verdict.wide, verdict.certificate.stated), (True, [], None))
            self.assertFalse(os.path.exists(f"{exe}-wide.asked"))

    def test_what_stays_withheld_says_what_to_do(self):
        with stand_ins({"certify": self.own}, certify=self.own) as exe:
            verdict = revealed.analyse(P, Q, exe=exe)
            self.assertEqual((verdict.homothetic, verdict.wide), (None, []))
            self.assertTrue(verdict.reasons["homothetic"].endswith(wider.ASKED))
        with stand_ins(certify=self.own) as exe:
            self.assertTrue(revealed.analyse(P, Q, exe=exe).reasons["homothetic"].endswith(wider.ABSENT))

    def test_where_the_wider_program_is(self):
        with stand_ins({"certify": self.wide}, certify=self.own) as exe:
            self.assertEqual(program.wide_way(exe), (None, f"{exe}-wide"))
            linked = os.path.join(os.path.dirname(exe), "linked")
            os.mkdir(linked)
            os.symlink(exe, os.path.join(linked, "rp"))
            self.assertEqual(program.wide_beside(os.path.join(linked, "rp")), os.path.realpath(f"{exe}-wide"))
            moved = shutil.move(f"{exe}-wide", os.path.join(linked, "another"))
            self.assertEqual(program.wide_way(exe), None)
            with variables(RP_WIDE=moved):
                self.assertEqual(program.wide_way(exe), (None, moved))
            with variables(RP_WIDE="/nowhere/rp-wide"):
                with self.assertRaises(NoProgram):
                    revealed.analyse(P, Q, exe=exe)
            # as `rt` builds both
            built = pathlib.Path(os.path.dirname(exe)) / "crates"
            for name in ("rp", "rp_wide"):
                (built / name / "out").mkdir(parents=True)
                shutil.copy(exe, built / name / "out" / name)
            self.assertEqual(program.wide_beside(str(built / "rp" / "out" / "rp")), str(built / "rp_wide" / "out" / "rp_wide"))

    def test_a_wider_program_that_fails(self):
        with stand_ins({"certify": ""}, status=9, certify=self.own) as exe:
            with self.assertRaises(Failed) as caught:
                revealed.analyse(P, Q, exe=exe)
            self.assertEqual(caught.exception.status, 9)


class Bounds(unittest.TestCase):
    years = [[2, 1], [1, 2]], [[1, 2], [2, 1]]

    def test_demand(self):
        answer = plain.demand_bounds(*self.years, new=[1, 1], m=3)

        def change(items):
            items[1]["goods"][0]["lower"] = items[1]["goods"][1]["upper"] = {"withheld": "4"}

        own, wide = withholding(answer, change)
        with stand_ins({"demand": wide}, demand=own) as exe:
            (found,) = revealed.demand_bounds(*self.years, new=[1, 1], m=3, exe=exe)
            first, second = found.bounds
            self.assertEqual((found.bounds, found.reasons), (answer[0].bounds, {}))
            self.assertEqual(found.wide, [(first, "lower"), (second, "upper")])
            (found,) = revealed.demand_bounds(*self.years, new=[1, 1], m=3, exe=exe, wide=False)
            self.assertEqual((found.bounds[first][0], found.wide, len(found.reasons)), (None, [], 2))

    def test_welfare(self):
        answer = plain.welfare_bounds(*self.years, new=[1, 1])

        def change(items):
            items[2]["lower"] = {"withheld": "4"}

        own, wide = withholding(answer, change)
        with stand_ins({"welfare": wide}, welfare=own) as exe:
            (found,) = revealed.welfare_bounds(*self.years, new=[1, 1], exe=exe)
            self.assertEqual((found.lower, found.wide, found.reasons), (answer[0].lower, [2], {}))
        with stand_ins(welfare=own) as exe:
            (found,) = revealed.welfare_bounds(*self.years, new=[1, 1], exe=exe)
            self.assertEqual((found.lower[2], found.wide), (None, []))
            self.assertIn(wider.ABSENT, found.reasons[2])

    def test_cost_and_trials(self):
        head = "technology records 2 inputs 2 places 0 0\ncost holds\nprofit violated\npair 1 2\nbounds prices 1 1 output 3 lower "
        own, wide = f"{head}withheld 7 upper none\n", f"{head}10/3 upper none\nlower x 8 2 y 1:1 2:1 over 3\n"
        with stand_ins({"cost": wide}, cost=own) as exe:
            (bound,) = revealed.cost_minimisation(FIRM, ASKED, exe=exe).bounds
            self.assertEqual((bound.lower, bound.wide, bound.reason), (Fraction(10, 3), True, None))
            (bound,) = revealed.cost_minimisation(FIRM, ASKED, exe=exe, wide=False).bounds
            self.assertEqual((bound.lower, bound.wide), (None, False))
            self.assertIn("leave wide=False out", bound.reason)
        text = "trial 7 rows 3 goods 2\ngarp holds\nefficiency 1 attained yes\nhomothetic {}\nquasilinear violated\n"
        with stand_ins({"trial": text.format("holds")}, trial=text.format("withheld")) as exe:
            found = revealed.random_trial(7, 3, 2, exe=exe)
            self.assertEqual((found.homothetic, found.wide), (True, ["homothetic"]))
            self.assertIn("\nhomothetic holds (by rp-wide; rp itself withholds it)\n", repr(found))
            found = revealed.random_trial(7, 3, 2, exe=exe, wide=False)
            self.assertEqual((found.homothetic, found.wide), (None, []))


class Choices(unittest.TestCase):
    """Choices from budgets that `rp` refuses."""

    budgets, choices = pairs(1)
    violated = '{"items":[{"den":"1","item":"random","parts":[[[1,4],"1"],[[2,3],"2"]],"total":"4","weights":["1","0","1","0"]}],"kind":"random","version":1}\n'
    withheld = '{"items":[{"item":"random","total":"4","withheld":"68719476736"}],"kind":"random","version":1}\n'
    patches = "budgets 2 patches 1 total 4\npatch 1 budget 1 units 4 sides on above\n"

    def test_what_is_refused_is_asked_of_the_wider_edition(self):
        wide = {"random": self.violated, "checkrandom": "accepted items 1 withheld 0\n", "patches": self.patches}
        for fault in ("TooManyTypes", "TooManyCombinations", "TooManyPatches budget 2"):
            with stand_ins(wide, refusal=f"rp: {fault}") as exe:
                verdict = revealed.random(self.budgets, self.choices, exe=exe)
                self.assertEqual((verdict.rational, verdict.share, verdict.wide), (False, Fraction(3, 4), True))
                self.assertEqual(repr(verdict), "random violated share 3/4 (by rp-wide; rp itself refuses these choices)")
                found = revealed.check(verdict, verdict, exe=exe)
                self.assertTrue(found and found.wide)
                self.assertEqual([it.sides for it in revealed.patches(self.budgets, self.choices, exe=exe)], [{1: "on", 2: "above"}])
                with self.assertRaises(Refused) as caught:
                    revealed.random(self.budgets, self.choices, exe=exe, wide=False)
                self.assertEqual((caught.exception.fault, caught.exception.budget), (fault.split()[0], 2 if "budget" in fault else None))
                self.assertIn("rp-wide", caught.exception.hint)
                with self.assertRaises(Refused):
                    revealed.patches(self.budgets, self.choices, exe=exe, wide=False)
                with self.assertRaises(Refused):
                    revealed.check(verdict, verdict, exe=exe, wide=False)
                with self.assertRaises(revealed.BadData):
                    revealed.random(self.budgets, self.choices, exe=exe, wide=1)

    def test_where_it_is_not_there_or_withholds(self):
        with stand_ins(refusal="rp: TooManyTypes") as exe:
            with self.assertRaises(Refused):
                revealed.random(self.budgets, self.choices, exe=exe)
        with stand_ins({"random": self.withheld}, refusal="rp: TooManyTypes") as exe:
            verdict = revealed.random(self.budgets, self.choices, exe=exe)
            self.assertEqual((verdict.rational, verdict.share, verdict.parts, verdict.patches), (None, None, None, None))
            self.assertIn("68719476736 steps", verdict.reason)
        with stand_ins({"random": self.violated}, refusal="rp: NeedUnit budget 2") as exe:
            with self.assertRaises(Refused):
                revealed.random(self.budgets, self.choices, exe=exe)
            self.assertFalse(os.path.exists(f"{exe}-wide.asked"))
        with stand_ins({"random": ""}, random=self.violated) as exe:
            verdict = revealed.random(self.budgets, self.choices, exe=exe)
            self.assertEqual((verdict.rational, verdict.wide), (False, False))
            self.assertFalse(os.path.exists(f"{exe}-wide.asked"))


class Built(unittest.TestCase):
    """By the programs, or the library, that are here."""

    def setUp(self):
        try:
            if program.wide_way() is not None:
                return
        except NoProgram:
            pass
        self.skipTest("the wider edition is not here")

    def test_the_worked_table(self):
        verdict = revealed.analyse(P, Q)
        self.assertEqual((verdict.homothetic, verdict.wide), (True, ["homothetic"]))
        values = verdict.evidence["homothetic"]["values"]
        self.assertEqual(values, {1: 1, 2: Fraction(7330081712811, 8796093022208), 3: Fraction(21990241643181, 35184372088832)})
        found = revealed.verify(verdict)
        self.assertTrue(found.accepted and not found.withheld and not found.remarks)
        self.assertEqual(revealed.check(verdict, verdict.certificate).proved, 5)
        alone = revealed.analyse(P, Q, wide=False)
        self.assertEqual((alone.homothetic, alone.certificate.data), (None, verdict.certificate.stated.data))
        self.assertIn("after 2 steps the product from 3 to 1", alone.reasons["homothetic"])

    def test_a_limit_of_steps(self):
        # A type takes a look at a patch of each of sixteen budgets, so fifteen steps find none.
        held = revealed.random(*pairs(8), steps=15)
        self.assertEqual((held.rational, held.wide), (None, True))
        self.assertIn(" 15 steps", held.reason)
        found = revealed.random(*pairs(8), steps=1_000_000)
        self.assertEqual((found.rational, found.share, found.wide), (False, Fraction(3, 4), True))
        # Where rp lists the types, no search is made.
        listed = revealed.random(*pairs(1), steps=1)
        self.assertEqual((listed.rational, listed.share, listed.wide), (False, Fraction(3, 4), False))
        for steps, wide in ((0, True), (2**35 + 1, True), (1.5, True), ("7", True), (7, False)):
            with self.assertRaises(revealed.BadData):
                revealed.random(*pairs(8), steps=steps, wide=wide)

    def test_choices_that_rp_refuses(self):
        for count, fault in ((8, "TooManyTypes"), (11, "TooManyCombinations"), (13, "TooManyPatches")):
            for first, share in (((1, 3, 2, 2), Fraction(3, 4)), ((3, 1, 3, 1), 1)):
                budgets, choices = pairs(count, first)
                with self.assertRaises(Refused) as caught:
                    revealed.random(budgets, choices, wide=False)
                self.assertEqual(caught.exception.fault, fault)
                verdict = revealed.random(budgets, choices)
                self.assertEqual((verdict.rational, verdict.share, verdict.wide), (share == 1, share, True), count)
                if share == 1:
                    self.assertEqual([it.share for it in verdict.patches], [Fraction(3, 4), Fraction(1, 4)] * 2 * count)
                found = revealed.verify(verdict)
                self.assertTrue(found.proved == 1 and not found.remarks, found)
                checked = revealed.check(verdict, verdict)
                self.assertTrue(checked and checked.wide)
                sides = [list(it.sides.values())[:2] for it in revealed.patches(budgets, choices)[:4]]
                self.assertEqual(sides, [["on", "above"], ["on", "below"], ["above", "on"], ["below", "on"]])

    def test_more_patches_than_are_taken(self):
        # each of the 18 lines has 17 crossings, so 18 patches
        budgets, choices = tangents()
        for wide, budget in ((False, 3), (True, 15)):
            for call in (revealed.random, revealed.patches):
                with self.assertRaises(Refused) as caught:
                    call(budgets, choices, wide=wide)
                self.assertEqual((caught.exception.fault, caught.exception.budget), ("TooManyPatches", budget))
        self.assertEqual(len(revealed.patches(budgets[:14], [it for it in choices if it[0] <= 14])), 14 * 14)

    def test_a_drawn_population(self):
        budgets, choices = population(1)
        patches = revealed.patches(budgets, choices)
        self.assertGreater(len(patches), 48)
        verdict = revealed.random(budgets, choices)
        self.assertIsNotNone(verdict.rational)
        self.assertTrue(revealed.verify(verdict) and revealed.check(verdict, verdict))
        self.assertEqual(sum(it.share for it in verdict.patches), len(budgets) * verdict.share)
        made = {it.number: it.share for it in patches}
        self.assertTrue(all(it.share <= made[it.number] for it in verdict.patches))

    def test_where_nothing_is_withheld(self):
        first = revealed.analyse([[1, 2], [2, 1]], [[1, 2], [2, 1]])
        second = revealed.analyse([[1, 2], [2, 1]], [[1, 2], [2, 1]], wide=False)
        self.assertEqual((first.certificate.data, first.wide, second.wide), (second.certificate.data, [], []))


if __name__ == "__main__":
    unittest.main()
