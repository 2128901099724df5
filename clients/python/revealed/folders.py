"""Where the second checker and the driver of long panels are found: the repository and a release have them in folders of their own, an
installed package has them inside."""

import os
import sys

PACKAGE = os.path.dirname(os.path.realpath(__file__))
TOP = os.path.dirname(os.path.dirname(os.path.dirname(PACKAGE)))
# The folders that have a part of the package, by the part's name.
PARTS = {"verifier": os.path.join("second", "python"), "long": os.path.join("clients", "panel")}


def beside() -> list[str]:
    """Returns the folders of the parts that are not inside the package."""
    absent = [folder for name, folder in PARTS.items() if not os.path.isdir(os.path.join(PACKAGE, name))]
    return [os.path.join(TOP, folder) for folder in absent]


sys.modules[__package__ or "revealed"].__path__.extend(beside())
