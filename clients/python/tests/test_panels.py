"""What a panel does with ids, faults and answers; the call is the program that RP_PANEL names, or what stands beside RP_EXEC."""

import copy
import os
import pathlib
import pickle
import random
import subprocess
import sys
import tempfile
import unittest
import unittest.mock
from fractions import Fraction

import revealed
from revealed import BadData, NoProgram, Unreadable, long_call, program
from revealed.long import files as long_files
from test_refusals import calls_of

# Two purchases that contradict each other: of a household that is "violated", and in exchange of one that "holds".
TWO = {"p_a": [1, 2], "p_b": [2, 1], "q_a": [1, 2], "q_b": [2, 1]}


def frame(ids, **more):
    """Returns a frame of these ids, in which each two rows contradict each other."""
    return {"household": ids, **{name: [column[at % 2] for at in range(len(ids))] for name, column in TWO.items()}, **more}


def panel(d, by="household", **more):
    return revealed.panel(d, by, progress=False, **more)


class Ids(unittest.TestCase):
    def test_blanks_round_an_id(self):
        found = panel(frame(["A", "A ", "\tA", " A\t"]))
        self.assertEqual([(row.key, row.observations, row.garp) for row in found], [("A", 4, False)])

    def test_a_row_without_an_id_is_refused_and_never_pooled(self):
        found = panel(frame(["A", "A", "", "", " \t", None, float("nan")]))
        self.assertEqual([(row.garp, row.fault, row.record) for row in found], [(False, None, None), *((None, "NoId", at) for at in range(3, 8))])
        self.assertEqual(found.csv().decode().splitlines()[2:], [",,,,,,,,,,,,NoId,%d," % at for at in range(3, 8)])
        found = panel({**frame(["A", "A", "B", ""]), "year": [1, 1, None, 3]}, ["household", "year"])
        self.assertEqual([(row.key, row.fault) for row in found], [(("A", 1), None), (("B", None), "NoId"), (("", 3), "NoId")])

    def test_ends_of_lines_and_quotes_in_an_id(self):
        ids = ["x\ry", "x\ry", 'a "b", c', 'a "b", c', "e\nf", "e\r\nf", "=1+1", "é"]
        found = panel(frame(ids))
        self.assertEqual([row.key for row in found], list(dict.fromkeys(ids)))
        self.assertEqual([row.observations for row in found], [2, 2, 1, 1, 1, 1])
        self.assertIn(b'"x\ry",2,2,violated', found.csv())

    def test_ids_of_several_columns_are_told_apart(self):
        found = panel({**frame(["a,b", "a", "a,b", "a"]), "town": ["c", "b,c", "c", "b,c"]}, ["household", "town"])
        self.assertEqual([(row.key, row.observations) for row in found], [(("a,b", "c"), 2), (("a", "b,c"), 2)])

    def test_long_ids(self):
        found = panel(frame(["x" * 256, "x" * 257, "é" * 128, "é" * 129]))
        self.assertEqual([row.fault for row in found], [None, None, "LongId", "LongId"])

    def test_keys_of_one_text(self):
        self.assertEqual([row.key for row in panel(frame([1, 1.0, True and 1]))], [1])
        with self.assertRaises(BadData):
            panel(frame([1, "1"]))
        with self.assertRaises(BadData):
            panel({**frame([1]), "goods": [1]}, "goods")


class Faults(unittest.TestCase):
    def test_a_short_record_is_never_shifted(self):
        rows = [{name: column[at] for name, column in frame(["A", "A"]).items()} for at in (0, 1)]
        del rows[1]["p_a"]
        (row,) = panel([*rows, {**rows[0], "household": "B"}])[:1]
        self.assertEqual((row.fault, row.record, row.refusal.name, row.garp), ("BadNumber", 2, "p_a", None))
        with self.assertRaises(BadData):
            panel({**frame(["A", "A"]), "q_b": [1]})

    def test_places_are_those_of_the_frame(self):
        d = {"note": ["x"] * 6, **frame(["A", "B", "A", "B", "C", "C"])}
        d["q_a"] = [1, 2, 1, "2,5", 1, None]
        found = panel(d)
        self.assertEqual(
            [(row.key, row.fault, row.record, row.column) for row in found], [("A", None, None, None), ("B", "BadNumber", 4, 5), ("C", "BadNumber", 6, 5)]
        )
        self.assertEqual(found[1].refusal.label, 4)
        (row, _) = panel({**frame(["A", "B"]), "p_a": [Fraction(1, 3), 1]})
        self.assertEqual((row.fault, row.record, row.column), ("TooManyDecimals", 1, 2))
        (row, _) = panel({**frame(["A", "B"]), "p_a": [10**3000, 1]})
        self.assertEqual(row.fault, "TooLarge")

    def test_a_panel_is_shown_short(self):
        found = panel(frame([f"h{at}" for at in range(40) for _ in "ab"]))
        said = repr(found)
        self.assertLessEqual(len(said.splitlines()), 12, said)
        self.assertTrue(said.startswith("panel of 40 households by 'household', 40 with verdicts\ngarp holds 0, violated 40; efficiency (CCEI) mean"), said)
        self.assertIn(".. and 34 more", said)
        html = found._repr_html_()
        self.assertEqual((html.count("<table>"), html.count("<tr>")), (1, 7))
        # what stands in the data is no markup
        self.assertIn("&lt;b&gt;", panel(frame(["<b>"] * 2))._repr_html_())
        self.assertIsInstance(found[:2], revealed.Panel)
        self.assertEqual([row.key for row in found[:2]], ["h0", "h1"])

    def test_a_panel_can_be_pickled_and_copied(self):
        d = frame(["A", "A", "B", "B", "C", "C"], obs=[1, 2, 1, 2, 1, 1], p_a=[1, 2, 1, 0, 1, 2])
        found = panel(d, pump=True)
        self.assertEqual([row.fault for row in found], [None, "ZeroPrice", "Pooled"])
        bounds = revealed.panel_welfare(d, "household", [1, 1], progress=False)
        for again in (pickle.loads(pickle.dumps(found)), copy.deepcopy(found), copy.copy(found)):
            self.assertIs(type(again), revealed.Panel)
            self.assertEqual((repr(again), again.csv(), again.asked), (repr(found), found.csv(), found.asked))
            self.assertEqual([str(row.refusal) for row in again], [str(row.refusal) for row in found])
            self.assertEqual((again[1].refusal.record, again[1].refusal.name, type(again[2].refusal)), (4, "p_a", revealed.Pooled))
            self.assertTrue(revealed.verify(again["A"].verdict))
        for again in (pickle.loads(pickle.dumps(bounds)), copy.deepcopy(bounds)):
            self.assertEqual((again.csv(), [row.message for row in again]), (bounds.csv(), [row.message for row in bounds]))

    def test_certificates_are_kept_when_asked(self):
        d = frame(["A", "B,c", "B,c", "C"], p_a=[1, 1, 2, 0])
        with tempfile.TemporaryDirectory() as room:
            folder = os.path.join(room, "archive", "new")
            found = panel(d, certificates=folder)
            self.assertEqual([row.fault for row in found], [None, None, "ZeroPrice"])
            self.assertEqual(sorted(os.listdir(folder)), ["unit_1.csv", "unit_1.json", "unit_2.csv", "unit_2.json", "units.csv"])
            self.assertEqual(pathlib.Path(folder, "units.csv").read_text(), 'household,file\nA,unit_1\n"B,c",unit_2\n')
            for number in (1, 2):
                table, kept = (os.path.join(folder, f"unit_{number}.{end}") for end in ("csv", "json"))
                self.assertTrue(revealed.check(table, kept))
                self.assertTrue(revealed.verify(table, kept))
            self.assertFalse(revealed.check(os.path.join(folder, "unit_1.csv"), os.path.join(folder, "unit_2.json")))

    def test_faults_are_grouped_by_cause(self):
        d = frame([f"h{at}" for at in range(6) for _ in "ab"])
        d["q_a"] = [1, 2, 1, "x", 1, "y", 1, "", 0, 2, 1, 2]
        d["q_b"][8] = 0
        found = panel(d)
        self.assertEqual([(it["fault"], it["count"], it["key"]) for it in found.faults()], [("BadNumber", 3, "h1"), ("ZeroBundle", 1, "h4")])
        self.assertIn("3 with an error: BadNumber, the first 'h1'\n1 with an error: ZeroBundle, the first 'h4'", repr(found))
        self.assertIn("row 4, column 'q_a', value 'x'", found.faults()[0]["message"])

    def test_refusing_is_not_dearer_than_answering(self):
        """Why a household has no verdicts is put into words where it is looked at, and not for each."""
        d = {"household": [f"h{at // 2}" for at in range(400)], "p_a": ["0.12345678"] * 400, "p_b": [1, 2] * 200, "q_a": [1, 2] * 200, "q_b": [2, 1] * 200}
        d["p_a"][0] = d["p_a"][1] = 1
        self.assertEqual(panel(d).faults()[0]["count"], 199)
        self.assertLess(calls_of(lambda: panel(d)), 2 * calls_of(lambda: panel({**d, "p_a": [1] * 400})))

    def test_more_records_than_a_table_has(self):
        found = panel(frame(["A"] * 513 + ["B"] * 512))
        self.assertEqual([(row.fault, row.observations) for row in found], [("TooManyRecords", None), (None, 512)])
        self.assertNotIn("columns", found[0].message)
        self.assertIn("at most 512 observations", found[0].message)


class Answers(unittest.TestCase):
    def of(self, out, **more):
        """Returns what a panel is by a program that ends with 0 after it wrote this."""
        with tempfile.TemporaryDirectory() as folder:
            exe = pathlib.Path(folder) / "rp-panel"
            exe.write_text(f"#!/bin/sh\ncat <<'END'\n{out}END\n")
            exe.chmod(0o755)
            return panel(frame(["A", "B"]), exe=exe, **more)

    def test_no_table_is_no_answer(self):
        head = ",".join(long_call.COLUMNS) + "\n"
        good = "A,1,2,holds,1,1.000000,yes,holds,holds,,,,,,\n", "B,,,,,,,,,,,,ZeroPrice,2,2\n"
        self.assertEqual([row.fault for row in self.of(head + "".join(good))], [None, "ZeroPrice"])
        for out in (
            "",
            "usage: none\n",
            head,
            head + good[0],
            head + good[1] + good[0],
            head + "".join(good) + good[1],
            "".join(good),
            head + good[0] + "B,,,,,,,,,,,,,,\n",
            head + good[0] + "B,1,2,holds,1,1.000000,yes,holds,,,,,,,\n",
            head + good[0] + "B,1,2,holds,1,1.000000,yes,holds,holds,,,,ZeroPrice,2,2\n",
            head + good[0] + "B,1,2,maybe,1,1.000000,yes,holds,holds,,,,,,\n",
        ):
            with self.assertRaises(Unreadable, msg=out):
                self.of(out)
        with self.assertRaises(Unreadable):
            panel(frame(["A"]), exe="/bin/true")

    def test_it_is_found(self):
        with tempfile.TemporaryDirectory() as folder:
            for name in ("rp", "rp-panel"):
                (pathlib.Path(folder) / name).write_text("#!/bin/sh\n")
                (pathlib.Path(folder) / name).chmod(0o755)
            self.assertEqual(program.panel_way(f"{folder}/rp")[1], f"{folder}/rp-panel")
            self.assertEqual(program.panel_way(f"{folder}/rp-panel")[1], f"{folder}/rp-panel")
            with unittest.mock.patch.dict(os.environ, {"RP_PANEL": f"{folder}/rp-panel"}):
                self.assertEqual(program.panel_way()[1], f"{folder}/rp-panel")
            os.remove(f"{folder}/rp-panel")
            with self.assertRaises(NoProgram):
                program.panel_way(f"{folder}/rp")


# ---- the driver


def records(text):
    """Returns the fields of each record of a text, and looks at what is handed on: the same fields, to the end of a line."""
    found = list(long_files.records_of(iter(text.splitlines(keepends=True) if "\r" not in text else lines(text))))
    for raw, fields in found:
        again = list(long_files.records_of(iter(lines(raw))))
        assert [it[1] for it in again] == [fields] and raw.endswith(("\n", "\r")), (raw, fields)
    return [fields for _, fields in found]


def lines(text):
    """Returns lines as a file in text gives them: ended by LF, CR or both."""
    with tempfile.TemporaryFile("w+", newline="", encoding="latin-1") as it:
        it.write(text)
        it.seek(0)
        return list(it)


class Records(unittest.TestCase):
    def test_they_are_whole(self):
        self.assertEqual(records("a,b\n1,2\r\n\n3,4"), [["a", "b"], ["1", "2"], ["3", "4"]])
        self.assertEqual(records('"a\nb",c\r1,"x ""y""\r\n"\n'), [["a\nb", "c"], ["1", 'x "y"\r\n']])
        self.assertEqual(records('a"b,c\n"d"e,f\n""\n'), [['a"b', "c"], ["de", "f"], [""]])
        self.assertEqual(records('1,"open\n'), [["1", "open\n"]])
        self.assertEqual(records('1,"open""\n'), [["1", 'open"\n']])

    def test_drawn_texts(self):
        draw = random.Random(73)
        for _ in range(3000):
            records("".join(draw.choice('ab,"\r\n ') for _ in range(draw.randint(0, 12))))


class Commands(unittest.TestCase):
    """`python -m revealed.long`, beside the program over the whole file."""

    def run_in(self, folder, *words, exe=None):
        env = {**os.environ, "PYTHONPATH": os.path.dirname(revealed.__path__[0])}
        call = [sys.executable, "-B", "-m", "revealed.long", "--rp", exe or program.panel_way()[1], *words]
        ran = subprocess.run(call, cwd=folder, env=env, stdin=subprocess.DEVNULL, capture_output=True, text=True)
        return ran.returncode, ran.stdout, ran.stderr

    def test_the_faults_of_long_files(self):
        head = "household,p_a,p_b,q_a,q_b\n"
        files = {
            "short": (head + "A,1,2,1,2\nA,2,1,2\n", 2, "Ragged record 2"),
            "return": (head + '"x\ry",1,2,1,2\n"x\ry",2,1,2,1\n', 0, "1 answered, 0 refused"),
            "bare return": (head + "x\ry,1,2,1,2\n", 2, "Ragged record 1"),
            "none": (head + ",1,2,1,2\n,2,1,2,1\n", 0, "0 answered, 0 refused, 2 records without a household; the first: NoId record 1"),
            "blank": (head + "A,1,2,1,2\nA ,2,1,2,1\n", 0, "1 answered, 0 refused"),
        }
        with tempfile.TemporaryDirectory() as folder:
            for name, (text, status, said) in files.items():
                with open(f"{folder}/long.csv", "w", newline="") as it:
                    it.write(text)
                got = self.run_in(folder, "long.csv", f"{name}.csv")
                self.assertEqual((got[0], said in got[1] + got[2]), (status, True), (name, got))
                self.assertEqual(os.path.exists(f"{folder}/{name}.csv"), status == 0, name)
                if status == 0:
                    whole = subprocess.run([program.panel_way()[1], "long.csv", "--wide"], cwd=folder, capture_output=True).stdout
                    self.assertEqual(pathlib.Path(f"{folder}/{name}.csv").read_bytes(), whole, name)
            got = self.run_in(folder, "long.csv", "true.csv", exe="/bin/true")
            self.assertEqual((got[0], "gave no table of verdicts" in got[2]), (2, True), got)
            self.assertEqual(sorted(os.listdir(folder)), ["blank.csv", "long.csv", "none.csv", "return.csv"])


if __name__ == "__main__":
    unittest.main()
