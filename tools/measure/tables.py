"""Consistent tables, drawn at random, and calls of the program, for the scripts that measure."""
import os
import re
import subprocess
import sys
import tempfile


# How often a purchase is drawn for a table before it is given up, and how far apart two levels are held of which the
# greater is told by floating point.
TRIES, APART = 20_000, 1e-9


def cost(prices, quantities):
    return sum(map(int.__mul__, prices, quantities))


class Consumer:
    """A utility of constant elasticity of substitution, homogeneous of degree 1, and numbers of so many digits."""

    def __init__(self, draw, digits, goods):
        self.draw, self.least, self.most = draw, 10 ** (digits - 1), 10**digits - 1
        self.weights = [draw.uniform(0.3, 1) for _ in range(goods)]
        self.elasticity = draw.choice([draw.uniform(0.4, 0.9), draw.uniform(1.1, 2)])

    def level(self, bundle):
        power = 1 - 1 / self.elasticity
        return sum(w * q**power for w, q in zip(self.weights, bundle)) ** (1 / power)

    def prices(self):
        return [self.draw.randint(self.least, self.most) for _ in self.weights]

    def bundle(self, prices):
        """Returns what is bought at prices, with an expenditure that is drawn, in whole numbers."""
        each = [(w / p) ** self.elasticity for w, p in zip(self.weights, prices)]
        size = self.draw.uniform(0.3, 1) * self.most / max(each)
        return [max(1, round(it * size)) for it in each]


class AxiomTable:
    """A table that meets the generalized axiom, purchase by purchase; sets of observations are masks."""

    def __init__(self):
        self.records, self.reach, self.strict = [], [], []

    def take(self, prices, bundle, _):
        """Takes a purchase, unless some walk of weak steps through it would be closed with a strict one."""
        own, bit = cost(prices, bundle), 1 << len(self.records)
        out = strict_out = into = strict_into = 0
        for t, (p, q) in enumerate(self.records):
            here, there = cost(prices, q), cost(p, bundle) - cost(p, q)
            out |= (here <= own) << t
            strict_out |= (here < own) << t
            into |= (there <= 0) << t
            strict_into |= (there < 0) << t
        for t, reach in enumerate(self.reach):
            if out >> t & 1:
                out |= reach
        for t, reach in enumerate(self.reach):
            into |= bool(reach & into) << t
        closing = any(out >> s & 1 and strict & into for s, strict in enumerate(self.strict))
        if out & strict_into or strict_out & into or closing:
            return False
        reach_through = out | bit
        self.reach = [it | reach_through if into >> t & 1 else it for t, it in enumerate(self.reach)] + [out]
        self.strict = [it | bit if strict_into >> t & 1 else it for t, it in enumerate(self.strict)] + [strict_out]
        self.records.append((prices, bundle))
        return True


def is_tied(prices, bundle, p, q):
    """Answers whether the steps between two observations make the product 1, so that one's level fixes the other's."""
    return cost(prices, q) * cost(p, bundle) == cost(prices, bundle) * cost(p, q)


class HomotheticTable:
    """A table that the levels of a homothetic utility rationalize: none is above another times a step's quotient."""

    def __init__(self):
        self.records, self.levels = [], []

    def take(self, prices, bundle, level):
        own = cost(prices, bundle)
        for (p, q), other in zip(self.records, self.levels):
            if is_tied(prices, bundle, p, q):
                if abs(level * cost(p, q) - other * cost(p, bundle)) > APART * other * cost(p, bundle):
                    return False
                continue
            if level * cost(p, q) * (1 + APART) > other * cost(p, bundle):
                return False
            if other * own * (1 + APART) > level * cost(prices, q):
                return False
        self.records.append((prices, bundle))
        self.levels.append(level)
        return True


def drawn(table, consumer, observations, tries=TRIES):
    """Fills a table; returns its records, or None where too many purchases broke it."""
    for _ in range(tries):
        prices = consumer.prices()
        bundle = consumer.bundle(prices)
        table.take(prices, bundle, consumer.level(bundle))
        if len(table.records) == observations:
            return table.records
    return None


def tied(table, consumer, observations, by, tries=TRIES):
    """Fills a homothetic table, its second half with observations at the prices of earlier ones, or with multiples of their bundles; returns
    its records in a drawn order, or None where too many purchases broke it."""
    first = drawn(table, consumer, observations - observations // 2, tries)
    for _ in range(tries if first else 0):
        if len(table.records) == observations:
            return consumer.draw.sample(table.records, observations)
        s = consumer.draw.randrange(observations - observations // 2)
        (p, q), level = table.records[s], table.levels[s]
        if by == "same prices":
            bundle = consumer.bundle(p)
            table.take(p, bundle, level * cost(p, bundle) / cost(p, q))
        else:
            times = consumer.draw.choice([2, 3])
            table.take(consumer.prices(), [times * it for it in q], times * level)
    return None


def write(file, names, records):
    with open(file, "w", encoding="utf-8") as it:
        print(",".join(names), file=it)
        for record in records:
            print(",".join(map(str, record)), file=it)


def run(program, *words):
    ran = subprocess.run([program, *words], text=True, capture_output=True)
    if ran.returncode:
        sys.exit(f"rp {words[0]} ended with status {ran.returncode}: {ran.stderr.strip()}")
    return ran.stdout


def used(program, *words):
    """Returns the seconds of processors that a call takes, with starting the program, and the most memory, in bytes."""
    started = subprocess.Popen([program, *words], stdin=subprocess.DEVNULL, stdout=subprocess.DEVNULL, stderr=subprocess.DEVNULL)
    _, status, own = os.wait4(started.pid, 0)
    started.returncode = os.waitstatus_to_exitcode(status)
    if started.returncode:
        sys.exit(f"{program} {' '.join(words)} ended with status {started.returncode}")
    return own.ru_utime + own.ru_stime, 1024 * own.ru_maxrss


def instructions(program, *words):
    """Returns how many instructions a call takes, as valgrind's callgrind counts them."""
    with tempfile.NamedTemporaryFile(prefix="rp-callgrind-") as out:
        counted = ["valgrind", "-q", "--tool=callgrind", f"--callgrind-out-file={out.name}", program, *words]
        subprocess.run(counted, stdin=subprocess.DEVNULL, stdout=subprocess.DEVNULL, check=True)
        with open(out.name, encoding="utf-8", errors="replace") as it:
            return int(re.search(r"(?m)^(?:summary|totals): (\d+)", it.read())[1])
