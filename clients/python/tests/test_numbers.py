"""Numbers as text, and frames as tables. No program is run."""

import time
import unittest
from decimal import Decimal
from fractions import Fraction

from revealed import BadData, Choices, MenuChoices, Pooled, Refused, WrongColumns, advice, exact, from_frame, power_of_test, table

try:
    import numpy
    import pandas
except ImportError:
    numpy = pandas = None


class Numbers(unittest.TestCase):
    def test_exact(self):
        for value, text in [
            (1, "1"),
            (10**30, "1" + "0" * 30),
            (-3, "-3"),
            ("1.50", "1.50"),
            (" 7 ", "7"),
            ("1e3", "1000"),
            (".5", "0.5"),
            ("-0.0", "0"),
            (0.5, "0.5"),
            (-0.0, "0"),
            (1e6, "1000000"),
            (3.18, "3.18"),
            (23.86, "23.86"),
            (0.000025, "0.000025"),
            (Decimal("3.18"), "3.18"),
            (Decimal("1E+2"), "100"),
            (Fraction(7, 8), "0.875"),
            (Fraction(-1, 20), "-0.05"),
        ]:
            self.assertEqual(exact.text_of(value), text, repr(value))
        strict = exact.Form(None, False)
        for value, text in [(3.18, "3.180000000000000159872115546022541821002960205078125"), (0.5, "0.5"), (5.0, "5"), ("3.18", "3.18")]:
            self.assertEqual(exact.text_of(value, strict), text, repr(value))

    def test_rounded_where_it_is_asked_for(self):
        # the shortest decimal is rounded, half to even, whatever type has it; strictly 2.675 is a float below two and 675 thousandths
        for value, text in [(2.675, "2.68"), (0.125, "0.12"), (0.375, "0.38"), (-0.001, "0"), (Fraction(1, 3), "0.33"), ("2.675", "2.68")]:
            self.assertEqual(exact.text_of(value, exact.Form(2)), text, repr(value))
        self.assertEqual(exact.text_of(2.675, exact.Form(2, False)), "2.67")

    def test_floats_that_are_taken(self):
        # at most 6 decimal places and 7 digits; strictly, at most 6 binary places
        for value, shortest, strict in [
            (23.86, False, True),
            (0.5, False, False),
            (0.015625, False, False),
            (0.0078125, True, True),
            (0.000001, False, True),
            (0.0000001, True, True),
            (12345.67, False, True),
            (12345.678, True, True),
            (0.1 + 0.2, True, True),
            (1 / 3, True, True),
            (1e9, False, False),
        ]:
            self.assertEqual((exact.is_beyond(value), exact.is_beyond(value, False)), (shortest, strict), value)

    def test_the_first_call_works(self):
        rows = [[23.86, 1.1]], [[0.5, 12.05]]
        self.assertEqual(table(*rows).csv(), b"p_1,p_2,q_1,q_2\n23.86,1.1,0.5,12.05\n")
        self.assertEqual(table(*rows).numbers, "shortest decimals of doubles")
        # no float is another number than its decimal
        for p, q in [([[1, 0.5]], [[2.0, "1.1"]]), ([[1]], [[Decimal("23.86")]])]:
            self.assertIsNone(table(p, q).numbers)
        self.assertIsNone(table(*rows, numbers="exact").numbers)
        self.assertIsNone(table(*rows, decimals=1).numbers)

    def test_places_is_the_older_name_of_decimals(self):
        self.assertEqual(table([[1.25]], [[2.35]], places=1).csv(), table([[1.25]], [[2.35]], decimals=1).csv())
        with self.assertRaises(BadData):
            table([[1]], [[1]], places=1, decimals=1)

    def test_no_numbers_stand_as_they_are(self):
        for value, text in [("NA", "NA"), ("1_000", "1_000"), ("1,5", "1,5"), (True, "True"), (float("inf"), "inf"), ("1e9999", "1e9999")]:
            self.assertEqual(exact.text_of(value), text)
        for value in (None, float("nan"), Decimal("NaN"), "", "  "):
            self.assertTrue(exact.is_missing(value))

    def test_a_third_is_refused(self):
        with self.assertRaises(Refused) as caught:
            table([[Fraction(1, 3)]], [[1]])
        refused = caught.exception
        self.assertEqual((refused.fault, refused.record, refused.column, refused.label, refused.name), ("TooManyDecimals", 1, 1, 1, "p_1"))
        self.assertIn("decimals=(6, None)", str(refused))

    def test_doubles_are_the_nearest(self):
        for number, double in [(Fraction(1), 1.0), (Fraction(4, 5), 0.8), (Fraction(0), 0.0), (Fraction(1, 3), 1 / 3), (Fraction(631, 867), 631 / 867)]:
            self.assertEqual(exact.nearest_double(number), double)
        # only 1 reads 1, and only 0 reads 0
        for number in (1 - Fraction(1, 10**30), Fraction(2**60 - 1, 2**60)):
            self.assertEqual(exact.nearest_double(number), 1 - 2**-53)
        self.assertGreater(exact.nearest_double(Fraction(1, 2**60)), 0.0)
        self.assertGreater(exact.nearest_double(Fraction(1, 10**400)), 0.0)

    def test_the_shortest_decimal_of_a_float(self):
        form = exact.Form()
        for value, text in [(3.18, "3.18"), (0.1 + 0.2, "0.30000000000000004"), (1e22, "10000000000000000000000"), (-0.0, "0"), (5, "5"), ("3.180", "3.180")]:
            self.assertEqual(exact.text_of(value, form), text)
        for value in (Decimal("3.18"), Fraction(159, 50), 3.18):
            self.assertEqual(exact.text_of(value, form), "3.18")
        # what is read is rounded, and not the binary fraction: 2.675 is a float below two and 675 thousandths
        self.assertEqual((exact.text_of(2.675, exact.Form(2, False)), exact.text_of(2.675, exact.Form(2))), ("2.67", "2.68"))
        self.assertEqual(table([[3.18, 1250, 1]], [[1.1, 1, 1]]).csv(), b"p_1,p_2,p_3,q_1,q_2,q_3\n3.18,1250,1,1.1,1,1\n")
        self.assertEqual(from_frame({"p_a": [3.18], "q_a": [0.3]}, decimals=(1, None)).csv(), b"p_a,q_a\n3.2,0.3\n")
        for numbers in ("short", 6, None, ["shortest"]):
            with self.assertRaises(BadData) as caught:
                table([[1]], [[1]], numbers=numbers)
            self.assertIn("the shortest decimal that gives it back", str(caught.exception))

    def test_numbers_too_long_are_refused_at_once(self):
        long = 10**5000
        began = time.perf_counter()
        for value, fault in [
            (long, "TooLarge"),
            (Fraction(long), "TooLarge"),
            (Fraction(1, long), "TooManyDecimals"),
            (Decimal("1E+99999999"), "TooLarge"),
            (Decimal("1E-99999999"), "TooManyDecimals"),
            ("+" + "1" * 5000, "TooLarge"),
        ]:
            for more in ({}, {"decimals": 2}, {"numbers": "exact"}):
                with self.assertRaises(Refused) as caught:
                    table([[1, value]], [[1, 1]], **more)
                self.assertEqual((caught.exception.fault, caught.exception.record, caught.exception.name), (fault, 1, "p_2"))
        self.assertEqual(table([[Decimal("0E+99999999")]], [[1]]).csv(), b"p_1,q_1\n0,1\n")
        # in a column beside, as an argument, and as a label
        with self.assertRaises(Refused):
            table([[1]], [[1]], levels=[long])
        with self.assertRaises(Refused):
            MenuChoices([["ab", "a", long]], None)
        for call in (lambda: table([[1]], [[1]], decimals=long), lambda: table(long), lambda: power_of_test([[1]], [[1]], seed=long)):
            with self.assertRaises(BadData) as caught:
                call()
            self.assertIn("a number of some 5,000 digits", str(caught.exception))
        with self.assertRaises(Pooled):
            from_frame({"obs": [long, long], "p_a": [1, 1], "q_a": [1, 1]})
        self.assertLess(time.perf_counter() - began, 5)

    def test_numbers_of_any_length(self):
        for number in (0, 7, -7, 10**4000, 10**4000 - 1, 3**20000, -(7**9000)):
            self.assertEqual(exact.whole_of(exact.written(number)), number)
        self.assertEqual(exact.fraction_read(exact.written(Fraction(3**20000, 2**20000))), Fraction(3**20000, 2**20000))


class Microdata(unittest.TestCase):
    BUDGETS = {"budget": ["north", "south"], "p_a": [1, 2], "p_b": [2, 1], "m": [4, 4]}

    def test_a_row_for_each_person(self):
        people = {"budget": ["north", "south", "north", "north"], "q_a": [2, 1, 2, 0], "q_b": [1, 2, 1.0, 2]}
        made = Choices(self.BUDGETS, people, None)
        self.assertEqual(made.budgets.csv(), b"p_a,p_b,w\n1,2,4\n2,1,4\n")
        self.assertEqual(made.choices.csv(), b"q_a,q_b,budget,n\n2,1,1,2\n1,2,2,1\n0,2,1,1\n")
        # a refusal is told by the first row that says so
        self.assertEqual(made.choices.labels, [1, 2, 4])
        with self.assertRaises(Refused) as caught:
            Choices(self.BUDGETS, {**people, "budget": ["north", "south", "north", "west"]}, None)
        self.assertEqual((caught.exception.fault, caught.exception.label), ("UnknownBudget", 4))

    def test_the_older_names(self):
        old = {"obs": ["north", "south"], "p_a": [1, 2], "p_b": [2, 1], "w": [4, 4]}
        choices = {"budget": ["south", "north"], "q_a": [1, 2], "q_b": [2, 1], "n": [3, 4]}
        first, second = Choices(old, choices, None), Choices(self.BUDGETS, choices, None)
        self.assertEqual((first.budgets.csv(), first.choices.csv()), (second.budgets.csv(), second.choices.csv()))
        for both in ({**old, "m": [4, 4]}, {**old, "budget": [1, 2]}):
            with self.assertRaises(BadData):
                Choices(both, choices, None)


class Tables(unittest.TestCase):
    def test_columns_of_a_mapping(self):
        made = from_frame({"obs": [2024, 2025], "q_w": [1, 2], "p_w": ["1.5", 2], "town": ["a", "b"], "p_b": [3, 4], "q_b": [5, 0.5]})
        self.assertEqual(made.csv(), b"p_w,p_b,q_w,q_b\n1.5,3,1,5\n2,4,2,0.5\n")
        self.assertEqual((made.labels, made.goods), ([2024, 2025], ["w", "b"]))
        self.assertEqual((made.price_scale, made.quantity_scale), (10, 10))

    def test_a_list_of_records(self):
        made = from_frame([{"p_a": 1, "q_a": 2}, {"p_a": 3, "q_a": 4}])
        self.assertEqual(made.csv(), b"p_a,q_a\n1,2\n3,4\n")

    def test_a_table_of_columns_that_are_no_names(self):
        class Column:
            def __init__(self, values):
                self.values = values

            def to_pylist(self):
                return self.values

        class Arrow:
            def __init__(self, columns):
                self.own = columns

            @property
            def column_names(self):
                return list(self.own)

            @property
            def columns(self):
                return [Column(it) for it in self.own.values()]

            def __getitem__(self, name):
                return Column(self.own[name])

        self.assertEqual(from_frame(Arrow({"p_a": [1, 2], "q_a": [3, 4]})).csv(), b"p_a,q_a\n1,3\n2,4\n")

    def test_it_unpacks(self):
        made = from_frame({"obs": ["x"], "p_a": [1], "q_a": [2]})
        self.assertIs(table(*made), made)

    def test_labels_that_are_no_names(self):
        self.assertEqual(from_frame({"obs": ["x", None], "p_a": [1, 1], "q_a": [2, 2]}).labels, [1, 2])
        self.assertEqual(from_frame({"obs": [[1], [2]], "p_a": [1, 1], "q_a": [2, 2]}).labels, [1, 2])

    def test_levels_are_a_column_or_an_argument(self):
        d = {"p_a": [1, 2], "q_a": [3, 4]}
        made = from_frame({**d, "e": [799, 1000.0]})
        self.assertEqual((made.csv(), made.levels), (b"p_a,q_a,e\n1,3,799\n2,4,1000\n", [799, 1000.0]))
        for levels in ([799, 1000], ["799", "1000"], [Decimal(799), Fraction(1000)]):
            self.assertEqual(from_frame(d, levels=levels).csv(), made.csv())
        self.assertEqual(table([[1], [2]], [[3], [4]], levels=900).csv(), b"p_1,q_1,e\n1,3,900\n2,4,900\n")
        self.assertEqual(table({"a": [1]}, {"a": [2]}, levels=[5], decimals=1).csv(), b"p_a,q_a,e\n1,2,5\n")
        for call in (
            lambda: from_frame({**d, "e": [1, 2]}, levels=5),
            lambda: from_frame(d, levels=[5]),
            lambda: table({"p_a": [1], "e": [5]}, {"q_a": [1]}),
        ):
            with self.assertRaises(BadData):
                call()
        with self.assertRaises(Refused) as caught:
            from_frame({**d, "E": [799, 1000]})
        self.assertEqual((caught.exception.fault, caught.exception.name), ("BadHeader", "E"))

    def test_several_households_are_no_table(self):
        d = {"p_a": [1, 1, 2], "q_a": [2, 2, 3]}
        for more, label in [({"obs": [1, 2, 1]}, 1), ({"obs": ["x", "x", None]}, "x"), ({"household": ["u", "v", "u"]}, None), ({"id": [1, 1, 2]}, None)]:
            with self.assertRaises(Pooled) as caught:
                from_frame({**d, **more})
            self.assertEqual(caught.exception.label, label)
            self.assertIn("panel(d, by=", str(caught.exception))
        # a name of each row, and one household
        self.assertEqual(len(from_frame({**d, "id": [1, 2, 3]})), 3)
        self.assertEqual(len(from_frame({**d, "household": ["u", "u", "u"]})), 3)

    def test_the_columns_that_are_wanted(self):
        for d, wanted, found in [
            ({"p1": [1], "p2": [1], "x1": [1], "x2": [1]}, "p_NAME and q_NAME for each good", ["p1", "p2", "x1", "x2"]),
            ({"price": [1]}, "p_NAME and q_NAME for each good", ["price"]),
            ({}, "p_NAME and q_NAME for each good", []),
        ]:
            with self.assertRaises(WrongColumns) as caught:
                from_frame(d)
            self.assertEqual((caught.exception.wanted, caught.exception.found), ([wanted], found))
        # the columns of an experiment: that intercepts are taken is said
        with self.assertRaisesRegex(WrongColumns, "'x_max', 'y_max', 'x', 'y': rename them; the intercepts .* i_NAME"):
            from_frame({"x_max": [10], "y_max": [10], "x": [5], "y": [5]})
        with self.assertRaises(WrongColumns) as caught:
            from_frame({"p1": [1], "x1": [1]})
        self.assertIn("{'p1': 'p_1', 'x1': 'q_1'}", str(caught.exception))
        with self.assertRaises(Refused) as caught:
            from_frame({"p_a": [1], "p_b": [1], "q_a": [1]})
        self.assertIn("wanted are p_a, p_b, q_a, q_b; those that were found are 'p_a', 'p_b', 'q_a'", str(caught.exception))

    def test_what_is_no_data(self):
        for p in (None, 5, "p_a,q_a", b"p_a", 1.5, object(), {"p_a": "12", "q_a": "34"}, {"p_a": 1, "q_a": 2}, {"p_a": [1], "q_a": [1, 2]}, [1, 2], []):
            with self.assertRaises(BadData):
                table(p)
        for places in ("2", 2.5, -1, 7, (1, 2, 3), True, (2, "x")):
            with self.assertRaises(BadData):
                table([[1]], [[1]], decimals=places)

    def test_places_that_fit_seven_digits(self):
        for values, places in [
            ([12.5], 5),
            ([1250], 3),
            ([9999999], 0),
            ([9999999.5], None),
            ([10000000], None),
            ([0.05], 6),
            ([99.99999999], 4),
            ([9.9999996], 5),
            ([], 6),
        ]:
            self.assertEqual(advice.places_that_fit(values), places, values)

    def test_a_carriage_return_is_quoted(self):
        made = from_frame({"p_a\rb": [1], "q_a\rb": ["1\r2"]})
        self.assertEqual(made.csv(), b'"p_a\rb","q_a\rb"\n1,"1\r2"\n')
        with self.assertRaises(BadData):
            from_frame({"p_\ud800": [1], "q_\ud800": [1]}).csv()

    def test_what_is_left_out_is_said(self):
        for columns, fault in [({"p_a": [1], "q_b": [1]}, "Unpaired"), ({"P_a": [1], "q_a": [1]}, "BadHeader")]:
            with self.assertRaises(Refused) as caught:
                from_frame(columns)
            self.assertEqual(caught.exception.fault, fault)
        for p, q in [([[1, 2]], [[1]]), ([[1], [1, 2]], [[1], [1, 2]]), ([1, 2], [1, 2]), ([[1]], {"a": [1]})]:
            with self.assertRaises(BadData):
                table(p, q)
        with self.assertRaises(BadData):
            table({"a": [1], "b": [2]}, {"a": [1], "c": [2]})

    def test_names_with_letters_and_commas(self):
        made = from_frame({"p_Käse, weiß": [1], "q_Käse, weiß": [2]})
        self.assertEqual(made.csv(), '"p_Käse, weiß","q_Käse, weiß"\n1,2\n'.encode())

    def test_two_mappings_go_by_name(self):
        made = table({"wine": [1, 2], "bread": [3, 4]}, {"q_bread": [5, 6], "q_wine": [7, 8]})
        self.assertEqual(made.csv(), b"p_wine,p_bread,q_wine,q_bread\n1,3,7,5\n2,4,8,6\n")


@unittest.skipIf(pandas is None, "pandas is not there")
class Frames(unittest.TestCase):
    def test_numbers_of_numpy(self):
        for value, text in [
            (numpy.int64(7), "7"),
            (numpy.float64(-0.0), "0"),
            (numpy.float32(0.5), "0.5"),
            (numpy.float32(3.18), "3.18"),
            (numpy.bool_(True), "True"),
            (numpy.longdouble("1e-4900"), None),
        ]:
            if text is None:
                self.assertRaises(exact.TooLong, exact.text_of, value)
            else:
                self.assertEqual(exact.text_of(value), text)
        for value, text in [(numpy.float64(3.18), "3.18"), (numpy.float32(3.18), "3.18"), (numpy.float16(0.1), "0.1"), (numpy.int64(7), "7")]:
            self.assertEqual(exact.text_of(value), text)
        self.assertEqual(exact.text_of(numpy.float32(3.18), exact.Form(None, False)), "3.1800000667572021484375")
        for value in (pandas.NA, pandas.NaT, numpy.nan):
            self.assertTrue(exact.is_missing(value))

    def test_an_array(self):
        made = table(numpy.array([[1, 2], [2, 1]]), numpy.array([[1.5, 2], [2, -0.0]]))
        self.assertEqual(made.csv(), b"p_1,p_2,q_1,q_2\n1,2,1.5,2\n2,1,2,0\n")

    def test_a_frame(self):
        d = pandas.DataFrame({"p_a": [1, 2], "q_a": [3, 4.5], "home": ["u", "v"]}, index=["Jänner", "Mai"])
        self.assertEqual((from_frame(d).csv(), from_frame(d).labels), (b"p_a,q_a\n1,3\n2,4.5\n", ["Jänner", "Mai"]))

    def test_a_column_of_an_odd_name(self):
        d = pandas.DataFrame({"p_a": [1], "q_a": [2], "column_names": ["x"], "columns": ["y"]})
        self.assertEqual(from_frame(d).csv(), b"p_a,q_a\n1,2\n")

    def test_what_files_are_read_as(self):
        import io

        d = pandas.read_csv(io.StringIO("obs,p_a,p_b,q_a,q_b\n1,23.86,1.5,1,2.25\n2,1.1,2.2,2,0.000025\n"))
        self.assertEqual(from_frame(d).csv(), b"p_a,p_b,q_a,q_b\n23.86,1.5,1,2.25\n1.1,2.2,2,0.000025\n")
        self.assertEqual(from_frame(d).numbers, "shortest decimals of doubles")
        # a column of Stata's type `float`
        d = d.astype({"p_a": "float32"})
        self.assertEqual(from_frame(d).csv(), b"p_a,p_b,q_a,q_b\n23.86,1.5,1,2.25\n1.1,2.2,2,0.000025\n")

    def test_two_frames(self):
        p, q = pandas.DataFrame({"a": [1, 2], "b": [3, 4]}), pandas.DataFrame({"b": [5, 6], "a": [7, 8]})
        self.assertEqual(table(p, q).csv(), b"p_a,p_b,q_a,q_b\n1,3,7,5\n2,4,8,6\n")
        with self.assertRaises(BadData):
            table(p, q.iloc[::-1])


if __name__ == "__main__":
    unittest.main()
