"""Theorems that `rp-second` writes, where it is; what is said where it is not; and what it is given."""

import os
import pathlib
import stat
import tempfile
import unittest
from unittest import mock

import revealed
from revealed import BadData, NoProgram, theorems

TABLE = "p_a,q_a,p_b,q_b\n1,1,2,2\n2,2,1,1\n"
CERTIFICATE = '{"items":[{"cycle":[1,2,1],"item":"garp"}],"kind":"table","version":1}\n'
EVIDENCE = (
    '{"items":[{"cycle":[1,2,1],"item":"garp"},{"cycle":[1,2,1],"item":"afriat"},{"above":[1,2,1],"at_ranks":[2,2],"below":[1,1],'
    '"item":"efficiency","level":"4/5"},{"cycle":[1,2,1],"item":"homothetic","start":"1"},{"cycle":[1,2,1],"item":"quasilinear"}],'
    '"kind":"table","version":1}\n'
)
BUDGETS, CHOICES = (
    "p_a,p_b,w\n1,2,4\n2,1,4\n",
    "budget,q_a,q_b,n\n1,2,1,1\n1,0,2,3\n2,1,2,2\n2,2,0,2\n",
)
MIXED = '{"items":[{"den":"1","item":"random","parts":[[[1,4],"1"],[[2,3],"2"]],"total":"4","weights":["1","0","1","0"]}],"kind":"random","version":1}\n'
PUMP = b"observations 2 goods 2 places 0 0\npump 1/5\ncycle 1 2 1\nvalues 0 0\n"
OF_MENUS = b"alternatives 3 menus 2 cells 3 orders 2 total 2\nmenus violated share 1/2\nweights 0 1 0 over 1\npart b a c weight 1\n"
OF_FIFTHS = b"alternatives 3 menus 2 cells 3 orders 2 total 5\napportioned per 5\nmenus violated share 2/5\nweights 0 1 0 over 1\npart b a c weight 2\n"
KEPT = '{"items":[{"den":"1","groups":[{"pairs":[1,2],"weight":"1"}],"item":"kept","kept":[1],"most":"1","ranks":[0]}],"kind":"fit","version":1}\n'
# Stands for the program: it writes its words and the files that it is given.
STANDS = '#!/bin/sh\n[ "$1" = --theorem ] || exit 2\necho "(* $* *)"\nshift\nfor it; do [ ! -f "$it" ] || cat "$it"; done\n'


class Without(unittest.TestCase):
    def test_says_what_to_install(self):
        with mock.patch.dict(os.environ, {"PATH": "/nowhere", theorems.VARIABLE: ""}):
            with self.assertRaisesRegex(NoProgram, "coq, ocaml-findlib and libzarith-ocaml-dev"):
                revealed.theorem(TABLE, CERTIFICATE)


@unittest.skipIf(os.name == "nt", "the program that stands for rp-second is a script of a shell")
class Given(unittest.TestCase):
    def setUp(self):
        self.folder = tempfile.TemporaryDirectory()
        self.addCleanup(self.folder.cleanup)
        self.program = pathlib.Path(self.folder.name, "stands")
        self.program.write_text(STANDS, encoding="ascii")
        self.program.chmod(self.program.stat().st_mode | stat.S_IXUSR)

    def test_a_table_and_its_certificate(self):
        to = pathlib.Path(self.folder.name, "Paper.v")
        text = revealed.theorem(TABLE, CERTIFICATE, exe=self.program, to=to)
        self.assertEqual(text, "(* --theorem table.csv certificate.json *)\n" + TABLE + CERTIFICATE)
        self.assertEqual(to.read_text(encoding="ascii"), text)

    def test_choices_and_their_certificate(self):
        text = revealed.theorem((BUDGETS, CHOICES), MIXED, exe=self.program)
        self.assertEqual(
            text,
            "(* --theorem budgets.csv choices.csv certificate.json *)\n" + BUDGETS + CHOICES + MIXED,
        )

    def test_rows_of_prices_and_quantities(self):
        text = revealed.theorem(([[1, 2], [2, 1]], [[1, 2], [2, 1]]), CERTIFICATE, exe=self.program)
        self.assertEqual(text.splitlines()[2:4], ["1,2,1,2", "2,1,2,1"])

    def test_an_answer_has_its_own_certificate(self):
        own = revealed.table([[1, 2], [2, 1]], [[1, 2], [2, 1]])
        verdict = revealed.Verdict(own, revealed.Certificate(EVIDENCE.encode()))
        self.assertTrue(revealed.theorem(verdict, exe=self.program).endswith(EVIDENCE))

    def test_rounded_shares(self):
        heads = "(* --theorem budgets.csv choices.csv certificate.json --per 5 *)\n"
        text = revealed.theorem((BUDGETS, CHOICES), MIXED, per=5, exe=self.program)
        self.assertTrue(text.startswith(heads))
        with self.assertRaisesRegex(BadData, "leave per out"):
            revealed.theorem(TABLE, CERTIFICATE, per=5, exe=self.program)

    def test_pairs_of_a_table(self):
        text = revealed.theorem(TABLE, pairs=True, exe=self.program)
        self.assertEqual(text, "(* --theorem --pairs table.csv *)\n" + TABLE)
        with self.assertRaisesRegex(BadData, "leave certificate, per and pump out"):
            revealed.theorem(TABLE, CERTIFICATE, pairs=True, exe=self.program)
        with self.assertRaisesRegex(BadData, "written of a table"):
            revealed.theorem((BUDGETS, CHOICES), pairs=True, exe=self.program)

    def test_a_money_pump(self):
        own = revealed.table([[1, 2], [2, 1]], [[1, 2], [2, 1]])
        answer = revealed.MoneyPump(own, PUMP)
        expected = "(* --theorem --pump table.csv result.txt *)\n" + own.csv().decode() + PUMP.decode()
        self.assertEqual(revealed.theorem(answer, exe=self.program), expected)
        self.assertEqual(revealed.theorem(own, PUMP, pump=True, exe=self.program), expected)

    def test_choices_from_menus(self):
        own = revealed.MenuChoices([["abc", "a", 1], ["abc", "b", 1], ["ab", "b", 2]], None)
        text = revealed.theorem(revealed.MenuVerdict(own, OF_MENUS), exe=self.program)
        self.assertEqual(text, "(* --theorem --menus menus.csv result.txt *)\n" + own.csv().decode() + OF_MENUS.decode())
        with self.assertRaisesRegex(BadData, "leave per out"):
            revealed.theorem(revealed.MenuVerdict(own, OF_MENUS), per=5, exe=self.program)

    def test_choices_from_menus_in_units(self):
        own = revealed.MenuChoices([["abc", "a", 1], ["abc", "b", 1], ["ab", "b", 2]], 5)
        text = revealed.theorem(revealed.MenuVerdict(own, OF_FIFTHS), exe=self.program)
        self.assertEqual(text, "(* --theorem --menus menus.csv result.txt --per 5 *)\n" + own.csv().decode() + OF_FIFTHS.decode())

    def test_what_is_rejected_has_no_theorem(self):
        self.program.write_text(
            "#!/bin/sh\necho rejected item 1 NotClosed place 0\nexit 1\n",
            encoding="ascii",
        )
        with self.assertRaisesRegex(BadData, "rejected item 1 NotClosed place 0"):
            revealed.theorem(TABLE, CERTIFICATE, exe=self.program)


@unittest.skipUnless(
    os.environ.get(theorems.VARIABLE),
    f"the variable {theorems.VARIABLE} names no rp-second",
)
class Written(unittest.TestCase):
    def test_theorems_of_a_contradiction(self):
        text = revealed.theorem(TABLE, CERTIFICATE)
        self.assertIn("Theorem garp_violated : ~ garp observed (by_own observed).", text)
        self.assertIn('  "1,1,2,2";\n', text)

    def test_theorems_of_pairs_and_the_money_pump(self):
        self.assertIn(
            "Theorem garp_pairs_are : pairs_in observed (garp_pair observed) 2.",
            revealed.theorem(TABLE, pairs=True),
        )
        self.assertIn(
            "Theorem money_pump_is : pump_index observed (1 # 5).",
            revealed.theorem(TABLE, PUMP, pump=True),
        )

    def test_theorems_of_menus(self):
        own = revealed.MenuChoices([["abc", "a", 1], ["abc", "b", 1], ["ab", "b", 2]], None)
        self.assertIn(
            "Theorem greatest_share_is : forall K, greatest_share_of_rankings K observed (1 # 2).",
            revealed.theorem(revealed.MenuVerdict(own, OF_MENUS)),
        )

    def test_theorems_of_menus_in_units(self):
        own = revealed.MenuChoices([["abc", "a", 1], ["abc", "b", 1], ["ab", "b", 2]], 5)
        text = revealed.theorem(revealed.MenuVerdict(own, OF_FIFTHS))
        self.assertIn("Theorem choices_rounded : rounded_choices 5 observed rounded.", text)
        self.assertIn("Theorem greatest_share_is : forall K, greatest_share_of_rankings K rounded (2 # 5).", text)

    def test_theorems_of_goodness_of_fit(self):
        text = revealed.theorem(TABLE, KEPT)
        self.assertIn("Theorem kept_is : kept_index observed 1.", text)
        with self.assertRaisesRegex(BadData, "rejected item 1 Order place 1"):
            revealed.theorem(TABLE, KEPT.replace("[1],", "[1,2],").replace("[0]", "[0,0]"))

    def test_theorems_of_choices(self):
        text = revealed.theorem((BUDGETS, CHOICES), MIXED)
        self.assertIn(
            "Theorem greatest_share_is : forall K, greatest_share K kinds offers shares (3 # 4).",
            text,
        )


if __name__ == "__main__":
    unittest.main()
