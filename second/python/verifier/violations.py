"""How often choices contradict each other, by ordered pairs of two observations (Swofford and Whitney 1987; Famulari 1995).

A pair s, t violates GARP where weak steps lead from s to t and t is strictly directly preferred to s. It violates the weak form
where a single weak step leads there; WARP where each is weakly directly preferred to the other and the bundles differ; SARP where
weak steps lead from s to t, t is weakly directly preferred to s, and the bundles differ. The numbers are counted again.
"""

from . import walks

PAIRS = "another number of pairs violates the axiom"
AXIOMS = ("garp", "wgarp", "warp", "sarp")


def clauses(table, item):
    """Yields the clauses of the item, in order."""
    pairs = pairs_of(table)
    for number, axiom in enumerate(AXIOMS, 1):
        yield PAIRS, number, item[axiom] == len(pairs[axiom])
    involved = {s for pair in pairs["garp"] for s in pair}
    yield "another number of observations is in a pair that violates the axiom", 5, item["observations"] == len(involved)


def pairs_of(table):
    """Returns the pairs that violate each axiom, from 0."""
    weak, strict = walks.weakly_preferred(table), walks.strictly_preferred(table)
    reached = [walks.reached(weak, s) for s in table.observations]
    both = [(s, t) for s in table.observations for t in table.observations if s != t]
    differing = [(s, t) for s, t in both if table.quantities[s] != table.quantities[t]]
    return {
        "garp": [(s, t) for s, t in both if t in reached[s] and s in strict[t]],
        "wgarp": [(s, t) for s, t in both if t in weak[s] and s in strict[t]],
        "warp": [(s, t) for s, t in differing if t in weak[s] and s in weak[t]],
        "sarp": [(s, t) for s, t in differing if t in reached[s] and s in weak[t]],
    }
