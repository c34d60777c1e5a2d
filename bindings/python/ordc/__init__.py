"""Reserve curves and the two operating reserve prices, over the shared library libordc.so.

Power is in whole kW, money in whole cents per MWh, shares of one in billionths.

    >>> import ordc
    >>> curves = ordc.read_curves(open("desk.curves", "rb").read())
    >>> prices = ordc.price(curves, open("snapshot.txt", "rb").read())
    >>> prices.online, prices.offline
    >>> page = ordc.write_page(curves).decode("ascii")
    >>> snapshot = ordc.Snapshot.from_text(open("snapshot.txt", "rb").read())
    >>> snapshot.resources[0].status = ordc.Status.OUT
    >>> ordc.price(curves, snapshot.to_text())
    >>> snapshot.resources[0].marks.hsl  # whether telemetry marked the HSL suspect

What an operation refuses raises :class:`Refused`, which gives the number, the line and a sentence.
The shared library is taken from the environment variable ORDC_LIBRARY where it is set, then from
target/staticlib of the repository that this package stands in, then from where the system looks.
"""

from ._library import GROUPS
from ._refusals import EXPLANATIONS, Refused
from ._values import CurveSet, Group, Pair, Prices, Record
from ._snapshot import (
    ControllableLoad,
    ControllableLoadMarks,
    Generator,
    GeneratorKind,
    GeneratorMarks,
    OtherLoad,
    OtherLoadMarks,
    Resource,
    Snapshot,
    Status,
)
from ._operations import book, curves_length, price, read_curves, settle, write_curves, write_page

__all__ = [
    "GROUPS",
    "EXPLANATIONS",
    "Refused",
    "Record",
    "Group",
    "CurveSet",
    "Pair",
    "Prices",
    "Snapshot",
    "Resource",
    "Generator",
    "GeneratorKind",
    "GeneratorMarks",
    "Status",
    "ControllableLoad",
    "ControllableLoadMarks",
    "OtherLoad",
    "OtherLoadMarks",
    "book",
    "settle",
    "read_curves",
    "curves_length",
    "write_curves",
    "write_page",
    "price",
]
