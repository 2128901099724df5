"""A function for each command of the program, under its name. README.md lists the other names of these calls."""

from __future__ import annotations

import json
import os
from typing import Any, Callable, Sequence, Union

from . import advice, exact, program, verifier
from .answers import ADD_MONEY, OF_PRICES, Answers, Certificate, Checked, Patch, RandomVerdict, Verdict, demands, patches_of, reading, utilities
from .answers import walk_of, welfares
from .catalogue import DRAWS, PER, SEED, STEPS, span
from .faults import BadData, Failed, NoFile, Refused
from .goodness import Fit, fit_of
from .measures import CostMinimisation, MenuVerdict, MoneyPump, Power, Trial
from .tables import DEFAULT, OWN_MONEY, Choices, Forms, MenuChoices, Sheet, Table, Technology, beside, forms_of, table, takes_places
from .verifier import Findings, reports

TABLE, NEW, BUDGETS, CHOICES, CERTIFICATE = "table.csv", "new.csv", "budgets.csv", "choices.csv", "certificate.json"
MENUS, TECHNOLOGY, ASKED = "menus.csv", "technology.csv", "asked.csv"
Explains = Callable[[Union[str, None], str, "dict[str, int]"], Exception]


# ---- verdicts on a table


@takes_places
def analyse(p: Any, q: Any = None, *, levels: Any = None, decimals: Any = None, numbers: Any = "shortest", exe: Any = None, wide: bool = True) -> Verdict:
    """Tests a table: GARP, Afriat's inequalities, HARP and quasilinear utility, with the CCEI. Returns a Verdict.

    `p` and `q` are prices and quantities: two lists of rows, two arrays, or two frames. Or give one table or frame alone, as `p`.

    `levels` has the efficiency level of each row: the share of its expenditure that counts (Varian 1990). A level is a share such as
    0.95, or integer thousandths such as 950. A frame may have levels in its column `e`.

    A float is read as the shortest decimal that gives it back. A float that needs more than 6 decimal places or 7 digits is rejected.
    `decimals` rounds, half to even: one number of decimal places, or two, for prices and for quantities. With `numbers="exact"` a float
    is the binary fraction itself.

    Results that `rp` leaves undetermined come from `rp-wide`, if it finds them. `wide=False` uses `rp` alone.

    The tests are defined in docs/reference/rp-analyse.md.

    References:
        Afriat, S. N. (1967). The Construction of Utility Functions from Expenditure Data. International Economic Review 8, 67-77.
        Afriat, S. N. (1973). On a System of Inequalities in Demand Analysis. International Economic Review 14, 460-472.
        Brown, D. J. and Calsamiglia, C. (2007). The Nonparametric Approach to Applied Welfare Analysis. Economic Theory 31, 183-188.
        Varian, H. R. (1982). The Nonparametric Approach to Demand Analysis. Econometrica 50, 945-973.
        Varian, H. R. (1983). Non-parametric Tests of Consumer Behaviour. Review of Economic Studies 50, 99-110.
        Varian, H. R. (1990). Goodness-of-Fit in Optimizing Models. Journal of Econometrics 46, 125-140.
    """
    own = table(p, q, decimals=decimals, numbers=numbers, levels=levels)
    return Verdict(own, _certificate(["certify", TABLE], [own], exe, wide))


@takes_places
def certify(p: Any, q: Any = None, *, levels: Any = None, decimals: Any = None, numbers: Any = "shortest", exe: Any = None, wide: bool = True) -> Certificate:
    """Returns the Certificate of the verdicts of `analyse`: all evidence as JSON.

    References:
        Afriat, S. N. (1967). The Construction of Utility Functions from Expenditure Data. International Economic Review 8, 67-77.
        Varian, H. R. (1982). The Nonparametric Approach to Demand Analysis. Econometrica 50, 945-973.
    """
    return _certificate(["certify", TABLE], [table(p, q, decimals=decimals, numbers=numbers, levels=levels)], exe, wide)


@takes_places
def pairs(p: Any, q: Any = None, *, levels: Any = None, decimals: Any = None, numbers: Any = "shortest", exe: Any = None) -> tuple[Any, Any] | None:
    """Finds the first two rows of which each is revealed preferred to the other, at least once strictly. Returns their labels, or None.

    It is a quick look: `analyse` also finds longer cycles.

    References:
        Varian, H. R. (1982). The Nonparametric Approach to Demand Analysis. Econometrica 50, 945-973.
    """
    own = table(p, q, decimals=decimals, numbers=numbers, levels=levels)
    told = program.answer(["pairs", TABLE], {TABLE: own.csv()}, exe, explains(own))
    with reading(told.encode()):
        pair = reports.read_pairs(told)
        if pair is None:
            return None
        first, second = walk_of(own)(pair)
        return first, second


@takes_places
def pump(p: Any, q: Any = None, *, levels: Any = None, decimals: Any = None, numbers: Any = "shortest", exe: Any = None) -> MoneyPump:
    """Computes the maximum money pump index of a table, with a cycle that has it. Returns a MoneyPump.

    A table with levels is rejected. Intercepts of budget lines are rejected too, because each row then has its own unit of money. Echenique, Lee
    and Shum report the mean over short cycles, and this is the maximum over all cycles.

    References:
        Echenique, F., Lee, S. and Shum, M. (2011). The Money Pump as a Measure of Revealed Preference Violations. Journal of Political
        Economy 119, 1201-1223.
    """
    own = table(p, q, decimals=decimals, numbers=numbers, levels=levels)
    if own.own_money:
        raise BadData(f"the money pump: {OWN_MONEY}")
    return MoneyPump(own, program.answer(["pump", TABLE], {TABLE: own.csv()}, exe, explains(own)).encode())


@takes_places
def fit(p: Any, q: Any = None, *, levels: Any = None, decimals: Any = None, numbers: Any = "shortest", exe: Any = None) -> Fit:
    """Computes the indices of goodness of fit of a table: HM, Varian's index, the minimum cost index and more. Returns a Fit.

    Each index is exact or has two bounds, and its evidence is in the certificate. `check` and `verify` look at it. A table with levels is
    rejected. Intercepts of budget lines give each row its own unit of money. Three indices that add money are then None: the
    minimum cost index, the money pump and the quasilinear level. Data on several units are for `panel_fit`.

    This is a command of `rp-wide`. A table of 50 observations takes less than a second, and one of 512 observations can take two minutes. A
    terminal or a notebook says how long it has worked, and Ctrl-C ends it without a result.

    The indices are defined in docs/reference/rp-fit.md.

    References:
        Dean, M. and Martin, D. (2016). Measuring Rationality with the Minimum Cost of Revealed Preference Violations. Review of Economics
        and Statistics 98, 524-534.
        Famulari, M. (1995). A Household-Based, Nonparametric Test of Demand Theory. Review of Economics and Statistics 77, 372-382.
        Halevy, Y., Persitz, D. and Zrill, L. (2018). Parametric Recoverability of Preferences. Journal of Political Economy 126,
        1558-1593.
        Heufer, J. and Hjertstrand, P. (2019). Homothetic Efficiency: Theory and Applications. Journal of Business and Economic Statistics
        37, 235-247.
        Houtman, M. and Maks, J. A. H. (1985). Determining All Maximal Data Subsets Consistent with Revealed Preference. Kwantitatieve
        Methoden 19, 89-104.
        Swofford, J. L. and Whitney, G. A. (1987). Nonparametric Tests of Utility Maximization and Weak Separability for Consumption, Leisure
        and Money. Review of Economics and Statistics 69, 458-464.
        Varian, H. R. (1990). Goodness-of-Fit in Optimizing Models. Journal of Econometrics 46, 125-140.
    """
    own = table(p, q, decimals=decimals, numbers=numbers, levels=levels)
    return fit_of(own, exe, explains(own))


@takes_places
def power(
    p: Any, q: Any = None, *, seed: Any = 1, draws: Any = 1000, levels: Any = None, decimals: Any = None, numbers: Any = "shortest", exe: Any = None
) -> Power:
    """Draws 1 to 1,000 random behaviours on the budgets of a table, and counts the draws that violate GARP. Returns a Power.

    The draws are those of docs/reference/rp-power.md, which crowd around equal shares. Papers draw uniformly on the budget line: use
    `Panel.plot` or `draws` beside published numbers. A table with levels is rejected.

    References:
        Bronars, S. G. (1987). The Power of Nonparametric Tests of Preference Maximization. Econometrica 55, 693-698.
        O'Neill, M. E. (2014). PCG: A Family of Simple Fast Space-Efficient Statistically Good Algorithms for Random Number Generation.
        Harvey Mudd College, technical report HMC-CS-2014-0905.
    """
    own = table(p, q, decimals=decimals, numbers=numbers, levels=levels)
    seed, draws = program.whole(seed, "seed", *SEED), program.whole(draws, "draws", *DRAWS)
    out = program.answer(["power", TABLE, str(seed), str(draws)], {TABLE: own.csv()}, exe, explains(own))
    return Power(own, out.encode(), seed, draws)


def trial(seed: Any, rows: Any, goods: Any, *, exe: Any = None, wide: bool = True) -> Trial:
    """Tests a table of pseudorandom numbers: 1 to 256 rows of 1 to 16 goods. Returns a Trial.

    References:
        O'Neill, M. E. (2014). PCG: A Family of Simple Fast Space-Efficient Statistically Good Algorithms for Random Number Generation.
        Harvey Mudd College, technical report HMC-CS-2014-0905.
    """
    numbers = (("seed", seed, "SEED"), ("rows", rows, "ROWS"), ("goods", goods, "GOODS"))
    words = [program.whole(value, name, *span("trial", word)) for name, value, word in numbers]
    given = program.given(["trial", *map(str, words)], {}, exe, wide=wide)
    return Trial(given.out.encode(), _stated(given))


# ---- at new prices


@takes_places
def demand(
    p: Any,
    q: Any = None,
    new: Any = None,
    m: Any = None,
    *,
    levels: Any = None,
    decimals: Any = None,
    numbers: Any = "shortest",
    exe: Any = None,
    wide: bool = True,
) -> Answers:
    """Computes bounds on demand at new budgets: the infimum and supremum of each good over all consistent demands. Returns `Answers` of `Demand`.

    `new` has the new prices, a row or a frame, and `m` the new expenditure, one number or one for each row. A frame of new prices may
    have it in its column `m`. A table with levels is rejected. The method is in docs/reference/rp-demand.md.

    References:
        Varian, H. R. (1982). The Nonparametric Approach to Demand Analysis. Econometrica 50, 945-973.
    """
    own = table(p, q, decimals=decimals, numbers=numbers, levels=levels)
    sheet = _new(own, new, "p_", "m", m, forms=forms_of(decimals, numbers))
    return demands(own, sheet, _certificate(["demand", TABLE, NEW, "--json"], [own, sheet], exe, wide))


@takes_places
def welfare(
    p: Any, q: Any = None, new: Any = None, *, levels: Any = None, decimals: Any = None, numbers: Any = "shortest", exe: Any = None, wide: bool = True
) -> Answers:
    """Computes bounds on the money metric: what it costs at new prices to be as well off as at each row. Returns `Answers` of `Welfare`.

    A table with levels is rejected. The method is in docs/reference/rp-welfare.md.

    References:
        Varian, H. R. (1982). The Nonparametric Approach to Demand Analysis. Econometrica 50, 945-973.
    """
    own = table(p, q, decimals=decimals, numbers=numbers, levels=levels)
    sheet = _new(own, new, "p_", forms=forms_of(decimals, numbers))
    return welfares(own, sheet, _certificate(["welfare", TABLE, NEW, "--json"], [own, sheet], exe, wide))


@takes_places
def utility(p: Any, q: Any = None, bundles: Any = None, *, levels: Any = None, decimals: Any = None, numbers: Any = "shortest", exe: Any = None) -> Answers:
    """Computes the utility of bundles by Afriat's utility function, in the scale of the Afriat numbers: money where lambda is 1.

    References:
        Afriat, S. N. (1967). The Construction of Utility Functions from Expenditure Data. International Economic Review 8, 67-77.
    """
    own = table(p, q, decimals=decimals, numbers=numbers, levels=levels)
    sheet = _new(own, bundles, "q_", forms=forms_of(decimals, numbers))
    return utilities(own, sheet, program.answer(["utility", TABLE, NEW], {TABLE: own.csv(), NEW: sheet.csv()}, exe, explains(own, sheet)))


# ---- firms, and choices of many people


@takes_places
def cost(technology: Any, asked: Any = None, *, decimals: Any = None, numbers: Any = "shortest", exe: Any = None, wide: bool = True) -> CostMinimisation:
    """Tests whether a firm minimizes cost, and maximizes profit, and bounds what outputs cost at new input prices. Returns a `CostMinimisation`.

    `technology` is a frame with `w_NAME`, the price, and `x_NAME`, the amount used, for each input. Its column `y` has the output, and
    its column `p`, if there is one, the price of the output. `asked` is a frame with `w_NAME` and `y`, or a mapping of these to one
    number each. Without `asked`, the tests alone are returned.

    References:
        Varian, H. R. (1984). The Nonparametric Approach to Production Analysis. Econometrica 52, 579-597.
    """
    own = technology if isinstance(technology, Technology) else Technology(technology, decimals, numbers)
    first = dict(zip(own.names, own.rows[0])) if own.rows else {}
    sheet = own.asked({name: first.get(name) for name in own.names if name.startswith("w_") or name == "y"} if asked is None else asked, decimals, numbers)
    files = {TECHNOLOGY: own.csv(), ASKED: sheet.csv()}
    given = program.given(["cost", TECHNOLOGY, ASKED], files, exe, explains(own, sheet), wide)
    return CostMinimisation(own, sheet, given.out.encode(), asked is not None, _stated(given), given.hint)


@takes_places
def random(
    budgets: Any,
    choices: Any,
    per: Any = None,
    *,
    decimals: Any = None,
    numbers: Any = "shortest",
    exe: Any = None,
    wide: bool = True,
    steps: Any = None,
) -> RandomVerdict:
    """Tests random utility: could a population of utility maximizers have made these choices from budgets? Returns a RandomVerdict.

    `budgets` is a frame with `p_NAME` for each good and `m`, the income (or `w`). Or it has rows of prices that end with the income.

    `choices` is a frame with `budget`, `q_NAME` and `n`, how many times this was chosen. Without `n` each row is the choice of one person.
    Or it has rows that begin with the budget and end with `n`. A budget is its number, from 1. If the frame of budgets has a column
    `budget` or `obs`, or its own index, use the value there.

    `per` rounds the shares of each budget to this number of units. The shares are taken as exact, so False is not a statistical
    rejection. Choices with too many patches or types for `rp` are tested by `rp-wide`; `wide=False` uses `rp` alone. This test can take
    more than an hour. `steps` stops its searches after this many steps: a result that is not found by then is undetermined. A terminal or
    a notebook says how long it has worked. Ctrl-C ends its process without a result.

    References:
        Kitamura, Y. and Stoye, J. (2018). Nonparametric Analysis of Random Utility Models. Econometrica 86, 1883-1909.
        McFadden, D. and Richter, M. K. (1990). Stochastic Rationality and Revealed Stochastic Preference. In J. Chipman, D. McFadden and
        M. K. Richter (editors), Preferences, Uncertainty, and Optimality. Westview Press.
    """
    own = Choices(budgets, choices, per, forms_of(decimals, numbers))
    out, is_wide = _of_choices(["random", BUDGETS, CHOICES, "--json", *_units(own.per)], own, exe, wide, _limit(steps, wide))
    return RandomVerdict(own, Certificate(out.encode()), is_wide)


@takes_places
def patches(budgets: Any, choices: Any, per: Any = None, *, decimals: Any = None, numbers: Any = "shortest", exe: Any = None, wide: bool = True) -> list[Patch]:
    """Assigns choices from budgets to patches. Returns a list of Patch: the budget, the share of its choices, and the side of every budget.

    The arguments are those of `random`, and its verdict numbers patches in the same way.

    References:
        Kitamura, Y. and Stoye, J. (2018). Nonparametric Analysis of Random Utility Models. Econometrica 86, 1883-1909.
    """
    own = Choices(budgets, choices, per, forms_of(decimals, numbers))
    out, _ = _of_choices(["patches", BUDGETS, CHOICES, *_units(own.per)], own, exe, wide)
    return patches_of(own, out)


def _limit(steps: Any, wide: bool) -> list[str]:
    """Returns the words of a limit of steps, which the wider edition alone takes."""
    if steps is None:
        return []
    if not program.switch(wide, "wide"):
        raise BadData("steps is a limit of rp-wide, which wide=False does not use: leave one of them out")
    return ["--steps", str(program.whole(steps, "steps", *STEPS))]


def _of_choices(words: list[str], own: Choices, exe: Any, wide: bool, more: Sequence[str] = ()) -> tuple[str, bool]:
    """Returns the answer of words over choices from budgets, and whether that is the wider edition's, which takes `more` words."""
    files = {BUDGETS: own.budgets.csv(), CHOICES: own.choices.csv()}
    ran, is_wide = program.of_choices(words, files, exe, wide, more)
    return program.output(ran, _explains_choices(own)), is_wide


def menus(choices: Any, per: Any = None, *, exe: Any = None) -> MenuVerdict:
    """Tests whether people with strict preference orders could have made choices from menus. Returns a MenuVerdict.

    `choices` is a frame with `menu`, `choice` and `n`, or rows of these three. A menu is a text of one to six letters from a to f, in
    order. The choice is one of its letters, and `n` is how many times it was chosen. `per` rounds the shares of each menu to this number
    of units.

    References:
        Block, H. D. and Marschak, J. (1960). Random Orderings and Stochastic Theories of Responses. In Contributions to Probability and
        Statistics. Stanford University Press.
        Falmagne, J.-C. (1978). A Representation Theorem for Finite Random Scale Systems. Journal of Mathematical Psychology 18, 52-72.
    """
    own = choices if isinstance(choices, MenuChoices) and per is None else MenuChoices(choices, per)
    out = program.answer(["menus", MENUS, *_units(own.per)], {MENUS: own.csv()}, exe, explains(own))
    return MenuVerdict(own, out.encode())


# ---- certificates


def check(data: Any, certificate: Any, *, per: Any = None, exe: Any = None, wide: bool = True) -> Checked:
    """Checks by the program whether a certificate proves its verdicts on a table or on choices. Returns a Checked.

    `data` is a table, choices, or the verdict on one. Or it has prices and quantities in a tuple, or a CSV file, by its name, text or bytes.
    For choices, give budgets and choices in a tuple. `certificate` is a Certificate, its JSON as text, bytes or a value, or the name of its
    file. Choices with too many types for `rp` are checked by `rp-wide`, unless `wide=False`. A certificate on goodness of fit is checked by
    `rp-wide`.

    References:
        Afriat, S. N. (1967). The Construction of Utility Functions from Expenditure Data. International Economic Review 8, 67-77.
        Varian, H. R. (1982). The Nonparametric Approach to Demand Analysis. Econometrica 50, 945-973.
    """
    files, per, explain = _files(data, per)
    claimed = certificate_bytes(certificate)
    if TABLE not in files and BUDGETS not in files:
        raise BadData("the program checks certificates alone; verify looks at reports of pump, menus and cost")
    files[CERTIFICATE] = claimed
    if TABLE in files and verifier.is_fit(claimed):
        return _check_fit(data, files, explain, exe)
    words = ["check", TABLE] if TABLE in files else ["checkrandom", BUDGETS, CHOICES]
    ran, is_wide = program.of_choices([*words, CERTIFICATE, *_units(per)], files, exe, wide)
    if ran.status in (0, 1):
        return Checked(ran.out, claimed, is_wide, TABLE in files and _has_own_money(data))
    if ran.refusal is None:
        raise Failed(ran.status, ran.said)
    raise explain(*ran.refusal)


def _check_fit(data: Any, files: dict[str, bytes], explain: Explains, exe: Any) -> Checked:
    """Checks a certificate on goodness of fit by `rp-wide checkfit`."""
    ran = program.call_fit(["checkfit", TABLE, CERTIFICATE], files, exe)
    if ran.status not in (0, 1):
        program.output(ran, explain)
    return Checked(ran.out, files[CERTIFICATE], True, _has_own_money(data), files[TABLE])


def _has_own_money(data: Any) -> bool:
    return bool(getattr(_table_of(data), "own_money", False))


def verify(data: Any, certificate: Any = None, *, per: Any = None) -> Findings:
    """Checks a certificate by the second checker, which is plain Python and does not call the program. Returns Findings.

    The arguments are those of `check`. It also checks the results of `pump`, `menus` and `cost`, or their reports as text or bytes. Data
    on a firm are a tuple of the technology and of the new prices. A result alone is checked on its own data. A certificate may be on
    goodness of fit.

    References:
        Afriat, S. N. (1967). The Construction of Utility Functions from Expenditure Data. International Economic Review 8, 67-77.
        Varian, H. R. (1982). The Nonparametric Approach to Demand Analysis. Econometrica 50, 945-973.
    """
    files, per, _ = _files(data, per)
    claimed = certificate_bytes(data if certificate is None else certificate)
    if claimed.lstrip().startswith(b"technology "):
        files = _as_firm(files)
        return verifier.verify_cost(files[TECHNOLOGY], files[ASKED], claimed)
    if claimed.lstrip().startswith(b"alternatives "):
        return verifier.verify_menus(files.get(MENUS, files.get(TABLE, b"")), claimed, per)
    if TABLE in files:
        found = _verifier_of(claimed)(files[TABLE], claimed)
        return told_of_prices(found) if _has_own_money(data) else found
    if BUDGETS in files:
        return verifier.verify_choices(files[BUDGETS], files[CHOICES], claimed, per)
    raise BadData("a certificate is on a table or on choices from budgets; on menus and on firms there are reports")


def _verifier_of(claimed: bytes) -> Callable[[bytes, bytes], Findings]:
    """Returns what looks at evidence on a table: a report of `pump`, a certificate on goodness of fit, or another one."""
    if claimed.lstrip().startswith(b"observations "):
        return verifier.verify_pump
    return verifier.verify_fit if verifier.is_fit(claimed) else verifier.verify_table


def _table_of(data: Any) -> Any:
    """Returns the table that some data are, or have."""
    try:
        return data.table if hasattr(data, "table") else data if isinstance(data, Table) else table(*data) if isinstance(data, tuple) else table(data)
    except (BadData, TypeError):
        return None


def told_of_prices(found: Findings) -> Findings:
    """Returns what was found of a table whose prices are intercepts exchanged: an item that adds money of different rows proves its
    verdict of these prices, and tells nothing of the data."""
    for item in found.items:
        if item.kind in ADD_MONEY:
            item.says = f"{item.says} {OF_PRICES}"
    return found


def _as_firm(files: dict[str, bytes]) -> dict[str, bytes]:
    """Returns two files as those of a firm."""
    if TECHNOLOGY in files:
        return files
    if BUDGETS not in files:
        raise BadData("a report on production is on a technology and what was asked of it: a tuple of the two")
    return {TECHNOLOGY: files[BUDGETS], ASKED: files[CHOICES]}


def _certificate(words: list[str], sheets: list[Sheet], exe: Any, wide: bool) -> Certificate:
    """Returns the certificate that words over a table give, and over what is asked beside it."""
    files = {name: own.csv() for name, own in zip((TABLE, NEW), sheets)}
    given = program.given(words, files, exe, explains(*sheets), wide)
    return Certificate(given.out.encode(), _stated(given), given.hint)


def _stated(given: program.Given) -> bytes | None:
    return None if given.stated is None else given.stated.encode()


def _new(own: Table, data: Any, prefix: str, more: str | None = None, values: Any = None, forms: Forms = DEFAULT) -> Sheet:
    if data is None:
        raise BadData("there are no new prices or bundles")
    return beside(own.goods, data, prefix, more, values, forms)


def _units(per: Any) -> list[str]:
    return [] if per is None else ["--per", str(program.whole(per, "per", *PER))]


def explains(*sheets: Sheet) -> Explains:
    """Returns a function that makes the refusal of one of these files."""
    by_file = {sheet.file: sheet for sheet in sheets}

    def explain(file: str | None, fault: str, places: dict[str, int]) -> Refused:
        return by_file[file].refused(fault, places) if file in by_file else refusal(fault, file, places)

    return explain


def refusal(fault: str, file: str | None, places: dict[str, int], label: Any = None) -> Refused:
    """Returns a refusal at these places."""
    record, column, budget, menu, item = map(places.get, ("record", "column", "budget", "menu", "item"))
    return Refused(fault, file, record, column, budget, menu, item, label=label, hint=advice.hint_of(fault))


def _explains_choices(own: Choices) -> Explains:
    explain = explains(own.budgets, own.choices)

    def with_budget(file: str | None, fault: str, places: dict[str, int]) -> Exception:
        refused = explain(file or "choices", fault, places)
        if "budget" in places and places["budget"] <= len(own.budgets.labels):
            label = own.budgets.labels[places["budget"] - 1]
            refused = refusal(fault, file or "choices", places, label)
        return refused

    return with_budget


def _files(data: Any, per: Any) -> tuple[dict[str, bytes], Any, Explains]:
    """Returns the files of some data with their units, and what explains a refusal of one."""
    for attribute in ("table", "choices"):
        if isinstance(data, (Verdict, RandomVerdict, MoneyPump, MenuVerdict, Answers, Fit)) and hasattr(data, attribute):
            data = getattr(data, attribute)
            break
    if isinstance(data, CostMinimisation):
        data = (data.technology, data.asked)
    if isinstance(data, Choices):
        files = {BUDGETS: data.budgets.csv(), CHOICES: data.choices.csv()}
        return files, data.per if per is None else per, _explains_choices(data)
    if isinstance(data, MenuChoices):
        return {MENUS: data.csv()}, data.per if per is None else per, explains(data)
    if is_file(data):
        return {TABLE: file_bytes(data)}, per, explains()
    if isinstance(data, tuple) and len(data) == 2:
        if all(map(is_file, data)):
            return {BUDGETS: file_bytes(data[0]), CHOICES: file_bytes(data[1])}, per, explains()
        if isinstance(data[0], Technology):
            sheet = data[1] if isinstance(data[1], Sheet) else data[0].asked(data[1])
            return {TECHNOLOGY: data[0].csv(), ASKED: sheet.csv()}, per, explains(*data)
        data = table(*data)
    if not isinstance(data, Table):
        data = table(data)
    return {TABLE: data.csv()}, per, explains(data)


def is_file(data: Any) -> bool:
    return isinstance(data, (str, bytes, bytearray, os.PathLike))


def file_bytes(data: Any) -> bytes:
    """Returns the bytes of a CSV file: of its name, its text or themselves. A text of more than one line is no name."""
    if isinstance(data, (bytes, bytearray)):
        return bytes(data)
    return text_bytes(data) if isinstance(data, str) and "\n" in data else _read(data)


def certificate_bytes(certificate: Any) -> bytes:
    """Returns the bytes of a certificate, or of a report.

    A text is the name of a file where there is one of that name, and else the text itself: so what is neither is refused as what
    it is not, and never opened.
    """
    if isinstance(certificate, Certificate):
        return certificate.data
    if isinstance(certificate, (MoneyPump, MenuVerdict, CostMinimisation)):
        return certificate.report
    if isinstance(certificate, (Verdict, RandomVerdict, Answers, Fit)):
        if certificate.certificate is None:
            raise BadData("these utilities have no certificate: they are the Afriat numbers' of analyse, which has one")
        return certificate.certificate.data
    if isinstance(certificate, (bytes, bytearray)):
        return bytes(certificate)
    if isinstance(certificate, os.PathLike) or (isinstance(certificate, str) and is_name_of_file(certificate)):
        return _read(certificate)
    if isinstance(certificate, str):
        return text_bytes(certificate)
    try:
        return json.dumps(certificate).encode()
    except (TypeError, ValueError, RecursionError):
        raise BadData(
            f"a certificate is a Certificate, a text, bytes, a value of JSON or the name of a file, and not {exact.shown(certificate, repr)}"
        ) from None


def is_name_of_file(text: str) -> bool:
    """Whether a text that begins as no certificate and no report is the name of a file that there is."""
    if text.lstrip().startswith(("{", "[")) or "\n" in text:
        return False
    try:
        return os.path.isfile(text)
    except ValueError:
        return False


def text_bytes(text: str) -> bytes:
    return text.encode("utf-8", "surrogatepass")


def _read(path: Any) -> bytes:
    try:
        with open(path, "rb") as it:
            return it.read()
    except (OSError, ValueError) as wrong:
        raise NoFile(f"there is no file {path!r} that can be read: {wrong}") from wrong


# Other names of the same calls.
first_contradiction, money_pump, power_of_test, random_trial = pairs, pump, power, trial
demand_bounds, welfare_bounds, afriat_utility = demand, welfare, utility
cost_minimisation, random_utility, choice_patches, menu_choices, checkrandom = cost, random, patches, menus, check
