#!/usr/bin/env python3
"""Measures a panel by processes and by the library, with one worker and with as many as there are processors.

usage: panel_times.py PROGRAM LIBRARY [SUBJECTS [TURNS]]

SUBJECTS (1,000) subjects of 50 rounds over two goods are taken by each way in turn, TURNS (3) times; the least time of each is
told, in milliseconds a subject of the clock and of processors, with what the processes beside it took.
"""
from __future__ import annotations

import os
import random
import resource
import sys
import time

sys.path.insert(0, os.path.dirname(os.path.dirname(os.path.realpath(__file__))))
import revealed  # noqa: E402


def frame(subjects):
    """Returns a long frame of subjects who maximize, and miss by little."""
    draw = random.Random("panel times")
    d = {name: [] for name in ("subject", "p_x", "p_y", "q_x", "q_y")}
    for subject in range(subjects):
        share = draw.uniform(0.3, 0.7)
        for _ in range(50):
            x, y = draw.randint(100, 999), draw.randint(100, 999)
            part = min(1.0, max(0.0, share + draw.gauss(0, 0.03)))
            for name, value in zip(d, (subject, y, x, 1 + int(part * x * 10), int((1 - part) * y * 10))):
                d[name].append(value)
    return d


def used():
    """Returns the time of processors that this process and those that it began have taken."""
    return sum(it.ru_utime + it.ru_stime for it in map(resource.getrusage, (resource.RUSAGE_SELF, resource.RUSAGE_CHILDREN)))


def main(words):
    (program, library), (subjects, turns) = words[:2], (int(words[place]) if len(words) > place else other for place, other in ((2, 1000), (3, 3)))
    d, most = frame(subjects), len(os.sched_getaffinity(0))
    ways = {f"{name}, {workers} at once": (exe, workers) for name, exe in (("processes", program), ("library", library)) for workers in (1, most)}
    least = {name: [float("inf")] * 2 for name in ways}
    for _ in range(turns):
        for name, (exe, workers) in ways.items():
            began, before = time.perf_counter(), used()
            revealed.panel(d, "subject", workers=workers, exe=exe, progress=False)
            took = time.perf_counter() - began, used() - before
            least[name] = list(map(min, least[name], took))
    for name, (clock, processors) in least.items():
        print(f"{name}: {1000 * clock / subjects:.2f} ms a subject, {1000 * processors / subjects:.2f} ms of processors")


if __name__ == "__main__":
    main(sys.argv[1:])
