"""The mixed integer programs of Demuynck and Rehbeck (2023) for indices of goodness of fit, by HiGHS as scipy has it.

Demuynck, T. and Rehbeck, J. (2023). Computing Revealed Preference Goodness-of-Fit Measures with Integer Programming. Economic
Theory 76, 1175-1195. Each observation has a utility from 0 to 1, and each two t, v a number from {0, 1} that is 1 just where the
utility of t is that of v at least. Strict inequalities are written without a small number: utilities that differ do so by 1/n, and
each row is divided so that its coefficients are the least that leave the same points. Levels are the infimum: where a level is that
of a step, the step may be there or not.
"""
import time
from fractions import Fraction

import numpy
from scipy.optimize import Bounds, LinearConstraint, milp
from scipy.sparse import csr_matrix

import exact_fit

# HiGHS looks at the clock alone: how many seconds of it a second of a processor took, call by call.
CLOCK = []


def clock():
    """Returns how many seconds of the clock a second of a processor takes, by the last call or else by turning a while."""
    if not CLOCK:
        began, of_clock = time.process_time(), time.perf_counter()
        while time.process_time() - began < 0.3:
            pass
        CLOCK.append(max(1.0, (time.perf_counter() - of_clock) / 0.3))
    return CLOCK[-1]


class Program:
    """Rows A x <= b over numbered columns, made one by one."""

    def __init__(self, costs):
        self.costs, self.count = costs, len(costs)
        self.rows, self.columns, self.entries, self.right = [], [], [], []
        self.is_whole, self.objective = [], []
        self.of_observation = [self.column(0) for _ in costs]
        self.utility = [self.column(0) for _ in costs]
        pairs = [(t, v) for t in range(self.count) for v in range(self.count) if t != v]
        self.at_least = {pair: self.column(1) for pair in pairs}
        gap = 1 / self.count
        for t, v in pairs:
            self.row({self.utility[t]: 1, self.utility[v]: -1, self.at_least[t, v]: -1 - gap}, -gap)
            self.row({self.at_least[t, v]: 1, self.utility[t]: -1, self.utility[v]: 1}, 1)

    def column(self, is_whole, worth=0.0):
        """Adds a column from 0 to 1; returns its number."""
        self.is_whole.append(is_whole)
        self.objective.append(worth)
        return len(self.objective) - 1

    def row(self, entries, right):
        self.rows += [len(self.right)] * len(entries)
        self.columns += entries
        self.entries += entries.values()
        self.right.append(right)

    def steps(self, is_strict):
        """Yields the steps s, t of two observations."""
        for s, row in enumerate(self.costs):
            for t, cost in enumerate(row):
                if s != t and (cost < row[s] or cost == row[s] and not is_strict):
                    yield s, t

    def part(self, s, t):
        """What the bundle of t costs at s, as a part of what was spent."""
        return self.costs[s][t] / self.costs[s][s]

    def solve(self, seconds):
        """Returns what HiGHS gives in about so many seconds of a processor, and how many it took."""
        shape = (len(self.right), len(self.objective))
        matrix = csr_matrix((self.entries, (self.rows, self.columns)), shape=shape)
        rows = LinearConstraint(matrix, -numpy.inf, self.right)
        options = {"time_limit": seconds * clock(), "mip_rel_gap": 0}
        began, of_clock = time.process_time(), time.perf_counter()
        found = milp(self.objective, integrality=self.is_whole, bounds=Bounds(0, 1), constraints=rows, options=options)
        taken = time.process_time() - began
        if taken > 0.01:
            CLOCK.append(max(1.0, (time.perf_counter() - of_clock) / taken))
        return found, taken


class Answer:
    """Two bounds on an index: the exact value of what HiGHS found, made right by order, and what HiGHS says is the bound; whether it
    says that the two meet; and the seconds."""

    def __init__(self, value, bound, is_solved, seconds):
        self.value, self.bound, self.is_solved, self.seconds = value, bound, is_solved, seconds


def kept(costs, seconds):
    """The most observations that are consistent: 1 for each that is kept."""
    program = Program(costs)
    for s in range(program.count):
        program.is_whole[program.of_observation[s]], program.objective[program.of_observation[s]] = 1, -1.0
    for s, t in program.steps(is_strict=False):
        program.row({program.of_observation[s]: 1, program.at_least[s, t]: -1}, 0)
    for s, t in program.steps(is_strict=True):
        program.row({program.at_least[t, s]: 1, program.of_observation[s]: 1}, 1)
    found, taken = program.solve(seconds)
    if found.x is None:
        return Answer(None, bound_of(found, -1), False, taken)
    some = [s for s in range(program.count) if found.x[program.of_observation[s]] > 0.5]
    return Answer(Fraction(len(some)) if exact_fit.is_consistent(costs, some) else None, bound_of(found, -1), found.status == 0, taken)


def levels(costs, seconds):
    """The mean of what levels lack of 1: a level for each observation."""
    program = Program(costs)
    for s in range(program.count):
        program.objective[program.of_observation[s]] = -1 / program.count
    for s, t in program.steps(is_strict=True):
        part = program.part(s, t)
        program.row({program.of_observation[s]: 1, program.at_least[s, t]: part - 1}, part)
        program.row({program.of_observation[s]: 1, program.at_least[t, s]: 1 - part}, 1)
    found, taken = program.solve(seconds)
    bound = bound_of(found, 1)
    value = exact_fit.lack_of_order(costs, stands(program, found)) if found.x is not None else None
    return Answer(value, None if bound is None else 1 + bound, found.status == 0, taken)


def steps(costs, seconds):
    """The minimum cost index: 1 for each strict step that is taken away."""
    program = Program(costs)
    spent = sum(row[s] for s, row in enumerate(costs))
    removed = {(s, t): program.column(1, (costs[s][s] - costs[s][t]) / spent) for s, t in program.steps(is_strict=True)}
    for (s, t), column in removed.items():
        program.row({program.at_least[s, t]: -1, column: -1}, -1)
        program.row({program.at_least[t, s]: 1, column: -1}, 0)
    found, taken = program.solve(seconds)
    value = exact_fit.steps_of_order(costs, stands(program, found)) if found.x is not None else None
    return Answer(value, bound_of(found, 1), found.status == 0, taken)


def bound_of(found, sign):
    """Returns the bound on the objective that HiGHS says, times a sign, as a fraction; or None. Of a program without whole numbers
    that is the value itself."""
    bound = getattr(found, "mip_dual_bound", None)
    if bound is None and found.status == 0:
        bound = found.fun
    return None if bound is None or not numpy.isfinite(bound) else sign * Fraction(float(bound))


def stands(program, found):
    """Returns where each observation stands in an order by the utilities that were found: those that differ by less than half of the
    least difference are one."""
    gap = 0.5 / program.count
    by_utility = sorted((found.x[column], s) for s, column in enumerate(program.utility))
    place, last, found_places = 0, None, {}
    for utility, s in by_utility:
        place += last is not None and utility - last > gap
        found_places[s], last = place, utility
    return [found_places[s] for s in range(program.count)]


PROGRAMS = {"kept": kept, "levels": levels, "steps": steps}
