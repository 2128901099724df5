#!/usr/bin/env python3
"""A panel of a frame of Dask on a local cluster of two workers, of which one is killed in the middle, beside the same on one machine.

usage: dask_workers.py LONG BY PROGRAM VERDICTS

LONG is a CSV, and VERDICTS gets the records as one machine gives them, where those of the cluster are the same bytes.
"""
from __future__ import annotations

import os
import signal
import sys
import time

TOP = os.path.dirname(os.path.dirname(os.path.realpath(__file__)))
sys.path.insert(0, TOP)
os.environ["PYTHONPATH"] = TOP
PARTITIONS = 24


def done(dask_scheduler=None):
    """Returns how many partitions were answered."""
    return sum(it.state == "memory" for key, it in dask_scheduler.tasks.items() if "_answered" in str(key))


def main(words):
    import dask.dataframe
    import pandas
    from distributed import Client, LocalCluster

    import revealed

    long, by, exe, verdicts = words
    d = pandas.read_csv(long, dtype=str, keep_default_na=False)
    wanted = revealed.clusters.records_of(d, by, {"exe": exe})
    frame = dask.dataframe.from_pandas(d, npartitions=PARTITIONS, sort=False)
    how = {"n_workers": 2, "threads_per_worker": 1, "processes": True, "dashboard_address": None, "local_directory": os.path.dirname(verdicts)}
    with LocalCluster(**how) as cluster, Client(cluster) as client:
        before = client.run(os.getpid)
        future = client.compute(revealed.panel(frame, by, exe=exe))
        until = time.monotonic() + 120
        while client.run_on_scheduler(done) < 3 and not future.done() and time.monotonic() < until:
            time.sleep(0.002)
        os.kill(list(before.values())[0], signal.SIGKILL)
        stood = client.run_on_scheduler(done)
        found = future.result(timeout=600).sort_index()
        after = client.run(os.getpid)
    killed = before.items() - after.items()
    print(f"one of {len(before)} workers was killed when {stood} of {PARTITIONS} partitions were answered; {len(after)} worked at the end")
    if found.to_csv(index=False) != wanted.to_csv(index=False) or len(killed) != 1 or not 0 < stood < PARTITIONS:
        print("dask_workers.py: the cluster gives other records, or no worker was killed in the middle")
        return 1
    wanted.to_csv(verdicts, index=False)
    return 0


if __name__ == "__main__":
    if {"-h", "--help"} & {*sys.argv[1:]}:
        sys.exit(print(__doc__.strip()))
    sys.exit(main(sys.argv[1:]))
