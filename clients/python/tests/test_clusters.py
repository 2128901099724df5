"""Panels of frames of Dask, and the task for Spark. What needs pandas or Dask is left out where they are not there."""

import inspect
import random
import unittest

import revealed
from revealed import BadData

try:
    import pandas
except ImportError:
    pandas = None
try:
    import dask.dataframe as dask
except ImportError:
    dask = None


def long(households=40, seed=7, **more):
    """Returns a long frame, of which the rows of a household do not stand together; some have a price of 0."""
    draw = random.Random(seed)
    rows = []
    for number in range(households):
        for at in range(draw.randint(1, 5)):
            prices = [draw.randint(0 if number % 9 == 4 else 1, 9) for _ in range(2)]
            rows.append([at + 1, f'h "{number}", é', *prices, draw.randint(1, 9), draw.randint(1, 9)])
    draw.shuffle(rows)
    return pandas.DataFrame(rows, columns=["obs", "home", "p_a", "p_b", "q_a", "q_b"], **more)


def one(d, by="home", **more):
    """Returns the records of one machine, in which the record of a fault counts the household's own rows."""
    return revealed.clusters.records_of(d, by, {"pump": False, **more})


@unittest.skipIf(pandas is None, "pandas is not there")
class Tasks(unittest.TestCase):
    def test_groups_in_any_order(self):
        d = long()
        task = revealed.panel_task("home", order="obs", pump=True, power=20, seed=3)
        # Spark gives a function of two arguments the key as well
        self.assertEqual(inspect.getfullargspec(task).args, ["frame"])
        wanted = one(d.sort_values("obs", kind="stable"), pump=True, power=20, seed=3).set_index("home")
        for found in (
            pandas.concat([task(group.sample(frac=1, random_state=1)) for _, group in d.groupby("home")]),
            pandas.concat([task(group) for _, group in d.groupby(d["home"].map(len))]),
        ):
            found = found.set_index("home").loc[wanted.index]
            for name in wanted:
                told = [None if pandas.isna(it) else it for it in wanted[name]]
                self.assertEqual([None if pandas.isna(it) else it for it in found[name]], told, name)
            self.assertEqual({str(it) for it in found.dtypes}, {"object", "float64"})

    def test_the_schema(self):
        wanted = "`town` string, `year` string, `observations` bigint, `goods` bigint, `garp` boolean, `efficiency` string, "
        wanted += "`ccei` double, `efficiency_floor` double, `attained` boolean, `homothetic` boolean, `quasilinear` boolean, `pump` string, "
        wanted += "`pump_floor` double, `power` string, `fault` string, `record` bigint, `column` bigint"
        self.assertEqual(revealed.panel_task(["town", "year"], order="obs", power=5).schema, wanted)
        self.assertTrue(revealed.panel_task("town", order="obs", key="bigint").schema.startswith("`town` bigint, "))

    def test_an_order_is_asked_for(self):
        with self.assertRaises(BadData):
            revealed.panel_task("home")


@unittest.skipIf(pandas is None or dask is None, "Dask is not there")
class Dask(unittest.TestCase):
    def same(self, d, by="home", parts=7, **more):
        found = revealed.panel(dask.from_pandas(d, npartitions=parts, sort=False), by, **more)
        self.assertIsInstance(found, dask.DataFrame)
        got = found.compute(scheduler="synchronous").sort_index().reset_index(drop=True)
        pandas.testing.assert_frame_equal(got, one(d, by, **more))
        self.assertEqual(list(found.dtypes), list(got.dtypes))

    def test_it_is_what_one_machine_gives(self):
        self.same(long())
        self.same(long(), pump=True, power=10, seed=2)
        self.same(long().assign(e=800))
        self.same(long(), levels=900)
        self.same(long(3), parts=11)

    def test_two_columns_tell_apart(self):
        d = long()
        self.same(d.assign(town=d["home"].map(len)), ["town", "home"])

    def test_rows_without_names(self):
        self.same(long().drop(columns="obs"))
        d = long().drop(columns="obs")
        whole = dask.from_pandas(d, npartitions=4, sort=False).map_partitions(lambda part: part.reset_index(drop=True))
        found = revealed.panel(whole, "home").compute(scheduler="synchronous").sort_index()
        wanted = one(d)
        self.assertEqual(list(found["garp"].isna()), list(wanted["garp"].isna()))
        self.assertEqual(list(found["efficiency"].fillna("")), list(wanted["efficiency"].fillna("")))

    def test_a_household_without_a_name(self):
        d = long()
        d.loc[d["home"].str.contains("3"), "home"] = None
        self.same(d)

    def test_what_is_wrong_is_told_at_once(self):
        d = dask.from_pandas(long(), npartitions=3, sort=False)
        for call in (
            lambda: revealed.panel(d, "subject"),
            lambda: revealed.panel(d.drop(columns="q_a"), "home"),
            lambda: revealed.panel(d, "home", levels=[800] * len(d)),
            lambda: revealed.panel(d, "home", power=0),
        ):
            with self.assertRaises(revealed.Problem):
                call()


if __name__ == "__main__":
    unittest.main()
