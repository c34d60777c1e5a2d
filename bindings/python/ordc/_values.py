"""Records, curve sets and prices, and their layout in the library's arrays."""

from dataclasses import dataclass
from typing import Sequence, Tuple

from ._library import GROUPS, CurvesArray, RecordArray


def _fitting(values: Sequence[int]) -> Sequence[int]:
    # ctypes would wrap a number that does not fit, and hand over another one.
    for value in values:
        if not -(2**63) <= value < 2**63:
            raise OverflowError(f"{value} does not fit 64 bits")
    return values


def _groups_of(groups: Sequence) -> Tuple:
    if len(groups) != GROUPS:
        raise ValueError(f"{len(groups)} groups in place of {GROUPS}")
    return tuple(groups)


@dataclass(frozen=True)
class Group:
    """The reserve errors of one group: how many, their sum in kW, and the sum of their squares."""

    count: int = 0
    sum: int = 0
    squares: int = 0


@dataclass(frozen=True)
class Record:
    """The reserve errors booked so far, by group. `Record()` is a fresh one, in which nothing is booked."""

    groups: Tuple[Group, ...] = (Group(),) * GROUPS

    def _array(self) -> RecordArray:
        values = [n for g in _groups_of(self.groups) for n in (g.count, g.sum, g.squares)]
        return RecordArray(*_fitting(values))

    @staticmethod
    def _of(array: RecordArray) -> "Record":
        return Record(tuple(Group(*array[3 * g : 3 * g + 3]) for g in range(GROUPS)))


@dataclass(frozen=True)
class Pair:
    """Mean and spread of a group's reserve errors, in kW."""

    mean: int
    spread: int


@dataclass(frozen=True)
class CurveSet:
    """VOLL in cents per MWh, X (the minimum contingency level) in kW, and the pair of each of the 24 groups."""

    voll: int
    floor: int
    pairs: Tuple[Pair, ...]

    def _array(self) -> CurvesArray:
        values = [self.voll, self.floor] + [n for p in _groups_of(self.pairs) for n in (p.mean, p.spread)]
        return CurvesArray(*_fitting(values))

    @staticmethod
    def _of(array: CurvesArray) -> "CurveSet":
        return CurveSet(array[0], array[1], tuple(Pair(*array[2 + 2 * g : 4 + 2 * g]) for g in range(GROUPS)))


@dataclass(frozen=True)
class Prices:
    """What a snapshot is worth.

    Attributes:
        rs: on-line reserve, kW.
        rsns: on-line and off-line reserve, kW.
        pis: probability of falling below X on rs, billionths.
        pins: the same on rsns, billionths.
        online: on-line price adder, cents per MWh.
        offline: off-line price adder, cents per MWh.
    """

    rs: int
    rsns: int
    pis: int
    pins: int
    online: int
    offline: int
