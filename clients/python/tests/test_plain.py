"""Answers by plain whole numbers: where the program withholds its own, and beside it where it does not."""

import random
import unittest
from fractions import Fraction

import revealed
from revealed import BadData, plain

P, Q = [[1, 2], [2, 1]], [[1, 2], [2, 1]]


def homothetic_table(rows, goods, digits=3, seed=7):
    """A table of a Cobb-Douglas consumer, rounded to whole numbers."""
    draw = random.Random(seed)
    shares = [draw.uniform(1, 2) for _ in range(goods)]
    prices = [[draw.randint(10 ** (digits - 1), 10**digits - 1) for _ in range(goods)] for _ in range(rows)]
    size = [draw.uniform(0.3, 1) * 10 ** (2 * digits - 1) for _ in range(rows)]
    return prices, [[max(1, round(share * money / price)) for share, price in zip(shares, row)] for row, money in zip(prices, size)]


def consistent(rows):
    """Rounds of two goods of 3 digits that meet the homothetic test."""
    draw, kept = random.Random(11), ([], [])
    while len(kept[0]) < rows:
        prices = [draw.randint(100, 999) for _ in range(2)]
        size = draw.uniform(0.3, 1) * 90_000
        bundle = [max(1, round(size * share / price)) for share, price in zip((0.4, 0.6), prices)]
        more = [*kept[0], prices], [*kept[1], bundle]
        if plain.analyse(*more).homothetic:
            kept = more
    return kept


class Plain(unittest.TestCase):
    def test_it_says_that_no_proof_stands_behind_it(self):
        verdict = plain.analyse(P, Q)
        self.assertFalse(verdict.proved)
        self.assertIn("no proof", repr(verdict))
        self.assertTrue(revealed.analyse(P, Q).proved)
        self.assertFalse(plain.demand(P, Q, [1, 1], 3).proved)
        self.assertNotIn("proof", repr(revealed.analyse(P, Q)))

    def test_what_the_program_withholds(self):
        # a table that a homothetic utility rationalizes, but for rounding: the next round is drawn until the test still holds
        p, q = consistent(50)
        own, other = revealed.analyse(p, q, wide=False), plain.analyse(p, q)
        self.assertIsNone(own.homothetic)
        self.assertIsNotNone(other.homothetic)
        found = revealed.verify(other)
        self.assertTrue(found, found)
        self.assertEqual(found.withheld, 0)
        self.assertEqual((own.garp, own.efficiency, own.quasilinear), (other.garp, other.efficiency, other.quasilinear))

    def test_bounds_that_the_program_withholds(self):
        draw = random.Random(3)
        weights = [draw.uniform(1, 2) for _ in range(4)]
        prices = [[draw.randint(1000, 9999) for _ in range(4)] for _ in range(25)]
        quantities = [[round(5_000_000 * draw.uniform(0.8, 1) * weight / price) for weight, price in zip(weights, row)] for row in prices]
        new = [4321, 5432, 6543, 7654]
        kept = [label for label in range(25) if revealed.analyse(prices[: label + 1], quantities[: label + 1]).garp]
        prices, quantities = prices[: len(kept)], quantities[: len(kept)]
        demand, exact = revealed.demand(prices, quantities, new, 20_000_000, wide=False), plain.demand(prices, quantities, new, 20_000_000)
        for good, pair in exact[0].bounds.items():
            for own, other in zip(demand[0].bounds[good], pair):
                self.assertIsNotNone(other)
                self.assertIn(own, (None, other))
        self.assertTrue(revealed.verify(exact))
        welfare, exact = revealed.welfare(prices, quantities, new, wide=False), plain.welfare(prices, quantities, new)
        for row, lower in exact[0].lower.items():
            self.assertIn(welfare[0].lower[row], (None, lower))
        self.assertTrue(revealed.verify(exact))

    def test_numbers_past_what_python_reads_at_once(self):
        p, q = homothetic_table(300, 2, 7, 1)
        verdict = plain.analyse([[min(it, 9_999_999) for it in row] for row in p], [[min(it % 9_999_999 + 1, 9_999_999) for it in row] for row in q])
        self.assertIsNotNone(verdict.homothetic)

    def test_with_levels(self):
        verdict = plain.analyse(P, Q, levels=[799, 1000])
        own = revealed.analyse(P, Q, levels=[799, 1000])
        self.assertEqual((verdict.garp, verdict.utility, verdict.multipliers), (own.garp, own.utility, own.multipliers))
        self.assertTrue(revealed.verify(verdict))
        with self.assertRaises(BadData):
            plain.demand(revealed.from_frame({"p_a": [1], "q_a": [1], "e": [5]}), new=[1], m=1)

    def test_where_the_axiom_fails(self):
        (answer,) = found = plain.demand(P, Q, [1, 1], 3)
        self.assertEqual((answer.garp, found.garp), (False, False))
        self.assertTrue(revealed.verify(found))
        self.assertTrue(revealed.verify(plain.welfare(P, Q, [1, 1])))

    def test_what_is_no_table(self):
        for call in (
            lambda: plain.analyse([[0]], [[1]]),
            lambda: plain.analyse([[1]], [[10**7]]),
            lambda: plain.analyse([], []),
            lambda: plain.demand(P, Q, [1], 3),
        ):
            with self.assertRaises((BadData, revealed.Refused)):
                call()

    def test_shares_of_money(self):
        d = {"p_a": ["1.25", "2.50"], "p_b": ["2.50", "1.25"], "q_a": [2, 1], "q_b": [1, 2]}
        for call, name in (
            (lambda way: way.demand(d, new={"p_b": "0.5", "p_a": "0.25"}, m=3), "bounds"),
            (lambda way: way.welfare(d, new=["0.5", "0.25"]), "lower"),
        ):
            own, other = call(revealed)[0], call(plain)[0]
            self.assertEqual(getattr(own, name), getattr(other, name))
            self.assertEqual(own.prices, other.prices)
        self.assertEqual(own.prices, {"a": Fraction(1, 2), "b": Fraction(1, 4)})


if __name__ == "__main__":
    unittest.main()
