"""Revealed preference with proved verdicts: the program `rp` from Python, and a second checker of its certificates.

    >>> import revealed
    >>> verdict = revealed.analyse([[1, 2], [2, 1]], [[1, 2], [2, 1]])   # prices, quantities; a row for each observation
    >>> verdict.garp, verdict.cycle, verdict.efficiency
    (False, [1, 2, 1], Fraction(4, 5))
    >>> bool(revealed.verify(verdict, verdict.certificate))              # plain Python, without the program
    True

The verdicts are those of the proved program; this package itself is tested, not proved. Numbers are used exactly as they are. A number
that would have to be rounded is rejected, unless you say how to round. Each call has its references in its help.
"""

from . import folders, draws, plain  # noqa: F401
from .answers import Answers, Certificate, Checked, Demand, Part, Patch, RandomVerdict, Verdict, Welfare
from .bounds_panel import BoundsPanel, UnitBounds, panel_demand, panel_welfare
from .clusters import panel_task
from .commands import (
    afriat_utility,
    analyse,
    certify,
    check,
    checkrandom,
    choice_patches,
    cost,
    cost_minimisation,
    demand,
    demand_bounds,
    first_contradiction,
    fit,
    menu_choices,
    menus,
    money_pump,
    pairs,
    patches,
    power,
    power_of_test,
    pump,
    random,
    random_trial,
    random_utility,
    trial,
    utility,
    verify,
    welfare,
    welfare_bounds,
)
from .faults import AllRefused, BadData, Failed, NoFile, NoProgram, Pooled, Problem, Refused, Unreadable, WrongColumns
from .fit_panels import FitPanel, UnitFit, panel_fit
from .goodness import Fit, Index
from .measures import CostBound, CostMinimisation, MenuVerdict, MoneyPump, OrderPart, Power, Trial
from .offered import Offered, Overspent
from .panels import Panel, Row, panel
from .tables import Choices, MenuChoices, Table, Technology, from_frame, table
from .theorems import theorem
from .verifier import Finding, Findings, NoCertificate, NoReport, NoTable

__all__ = [
    "AllRefused",
    "Answers",
    "BadData",
    "BoundsPanel",
    "Certificate",
    "Checked",
    "Choices",
    "CostBound",
    "CostMinimisation",
    "Demand",
    "Failed",
    "Finding",
    "Findings",
    "Fit",
    "FitPanel",
    "Index",
    "MenuChoices",
    "MenuVerdict",
    "MoneyPump",
    "NoCertificate",
    "NoFile",
    "NoProgram",
    "NoReport",
    "NoTable",
    "Offered",
    "OrderPart",
    "Overspent",
    "Panel",
    "Part",
    "Patch",
    "Pooled",
    "Power",
    "Problem",
    "RandomVerdict",
    "Refused",
    "Row",
    "Table",
    "Technology",
    "Trial",
    "UnitBounds",
    "UnitFit",
    "Unreadable",
    "Verdict",
    "Welfare",
    "WrongColumns",
    "afriat_utility",
    "analyse",
    "certify",
    "check",
    "checkrandom",
    "choice_patches",
    "cost",
    "cost_minimisation",
    "demand",
    "demand_bounds",
    "draws",
    "first_contradiction",
    "fit",
    "from_frame",
    "menu_choices",
    "menus",
    "money_pump",
    "pairs",
    "panel",
    "panel_demand",
    "panel_fit",
    "panel_task",
    "panel_welfare",
    "patches",
    "plain",
    "power",
    "power_of_test",
    "pump",
    "random",
    "random_trial",
    "random_utility",
    "table",
    "theorem",
    "trial",
    "utility",
    "verify",
    "welfare",
    "welfare_bounds",
]
__version__ = "0.17.0"
