"""The facts that ship with the package, and what of it is keyed by them."""
import os
import unittest

import revealed
from revealed import advice, catalogue, exact, verifier
from revealed.verifier import afriat, tables

OWN = os.path.dirname(os.path.abspath(__file__))
SOURCE = os.path.join(OWN, "..", "..", "..", "docs", "catalogue.json")


class Facts(unittest.TestCase):
    def test_the_file_is_that_of_the_repository(self):
        if not os.path.isfile(SOURCE):
            self.skipTest("the repository is not here")
        with open(SOURCE, encoding="utf-8") as one, open(os.path.join(revealed.__path__[0], "catalogue.json"), encoding="utf-8") as two:
            self.assertEqual(one.read(), two.read())

    def test_each_fault_and_each_reason_has_a_sentence(self):
        for fault in [*catalogue.FAULTS, "NoId", "LongId"]:
            self.assertRegex(advice.hint_of(fault), r"^[A-Z].*\.$", fault)
        for reason in catalogue.FACTS["reasons"]:
            self.assertRegex(catalogue.sentence("reason", reason), r"^[A-Z].*\.$", reason)

    def test_sentences_are_those_of_the_catalogue_in_the_words_of_python(self):
        for it in catalogue.FACTS["hints"]:
            said = catalogue.sentence(it["of"], it["code"])
            self.assertTrue(said.startswith(it["wrong"]), it["code"])
            self.assertNotRegex(said, "--(per|id)\\b", it["code"])
        self.assertIn("per=10000", advice.hint_of("NeedUnit"))

    def test_what_units_are_called(self):
        for name, wanted in [("subject", "subjects"), ("Subject_ID", "subjects"), ("hhid", "households"), ("firm no", "firms"), ("town", None), (7, None)]:
            self.assertEqual(catalogue.units_by(name), wanted, name)

    def test_each_command_has_a_call_of_its_name(self):
        own = {"check": revealed.check, "checkrandom": revealed.checkrandom, **{it: getattr(revealed, it, None) for it in catalogue.COMMANDS}}
        self.assertEqual([it for it, call in own.items() if not callable(call)], [])

    def test_ranges(self):
        self.assertEqual(catalogue.PER, (1, 10**9))
        self.assertEqual(catalogue.SEED, (0, 2**64 - 1))
        self.assertEqual(catalogue.DRAWS, (1, 1000))
        self.assertEqual(catalogue.span("trial", "ROWS"), (1, 256))
        self.assertEqual((advice.LARGEST, exact.MOST_PLACES), (9_999_999, 6))

    def test_the_second_checker_has_the_same_limits_of_its_own(self):
        limits = catalogue.LIMITS
        self.assertEqual(tables.LARGEST, limits["table.largest"])
        self.assertEqual(tables.LARGEST_LEVEL, limits["table.level_scale"])
        self.assertEqual(tables.LARGEST_INCOME, limits["table.largest_expenditure"])
        self.assertEqual(tables.LARGEST_TOTAL, limits["patch.units"])
        self.assertEqual(tables.LONGEST, limits["run.bytes"])
        self.assertEqual((afriat.WIDEST_UTILITY, afriat.WIDEST_MULTIPLIER), (2**120, 2**60))
        self.assertTrue(callable(verifier.verify_table))


if __name__ == "__main__":
    unittest.main()
