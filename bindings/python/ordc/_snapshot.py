"""A snapshot held as values, and its layout in the library's rows (include/ordc.h)."""

import ctypes
import enum
import operator
from dataclasses import dataclass, field
from typing import List, Tuple, Union

from ._library import ID_ROW, NUMBER_ROW, RESOURCES, HeaderArray, library
from ._refusals import check

_LONGEST_ID = 16
# No resource has fewer bytes in a text: id=A, kind=nclr, rrsok=0, net=0, lpc=0 and rrs=0, each with its line feed.
_SHORTEST_RESOURCE = 41
# Stands for what a row cannot hold. No id has this byte, so the library refuses the id, at its line and only where no
# line above it is refused.
_NO_ID_BYTE = b"?"
_NO_WORD = -1
_CLR = 4
_NCLR = 5


class _Word(str, enum.Enum):
    """A word of the text: equal to the plain string, and printed as it."""

    def __str__(self) -> str:
        return self.value


class GeneratorKind(_Word):
    """The kinds of generator."""

    GEN = "gen"
    WIND = "wind"
    IRR = "irr"
    NUKE = "nuke"


class Status(_Word):
    """The telemetered status of a generator."""

    ON = "ON"
    OFF = "OFF"
    OFFNS = "OFFNS"
    ONTEST = "ONTEST"
    STARTUP = "STARTUP"
    SHUTDOWN = "SHUTDOWN"
    OUT = "OUT"


# A kind's number, and a status's, is its place in the list.
_GENERATOR_KINDS = list(GeneratorKind)
_STATUSES = list(Status)


@dataclass
class GeneratorMarks:
    """Which of a generator's readings are marked suspect; `cold30` carries no mark."""

    net: bool = False
    lsl: bool = False
    hsl: bool = False
    base: bool = False
    nonspin: bool = False

    def _by_number(self) -> Tuple[bool, ...]:
        return (self.net, self.lsl, self.hsl, self.base, self.nonspin)


@dataclass
class Generator:
    """A generator, with its readings in kW.

    Attributes:
        id: 1 to 16 of A to Z, 0 to 9 and _, which no other resource of the snapshot has.
        kind: a GeneratorKind, or its word.
        status: a Status, or its word.
        net: net output; below zero where the unit consumes.
        lsl: LSL.
        hsl: HSL.
        base: base point.
        nonspin: Non-Spin.
        cold30: whether it can start from cold within 30 minutes.
        marks: which of these readings are marked suspect.
    """

    id: str
    kind: GeneratorKind
    status: Status
    net: int
    lsl: int
    hsl: int
    base: int
    nonspin: int
    cold30: bool
    marks: GeneratorMarks = field(default_factory=GeneratorMarks)

    def _numbers(self) -> Tuple:
        words = (_place_of(_GENERATOR_KINDS, self.kind), _place_of(_STATUSES, self.status))
        return words + (self.net, self.lsl, self.hsl, self.base, self.nonspin, self.cold30)


@dataclass
class ControllableLoadMarks:
    """Which of a controllable load's readings are marked suspect."""

    base: bool = False
    lpc: bool = False
    nonspin: bool = False
    regup: bool = False

    def _by_number(self) -> Tuple[bool, ...]:
        return (self.base, self.lpc, self.nonspin, self.regup)


@dataclass
class ControllableLoad:
    """A controllable load (`clr`), with its readings in kW.

    Attributes:
        id: as of a generator.
        base: base point.
        lpc: LPC.
        nonspin: Non-Spin.
        regup: Reg-Up.
        marks: which of these readings are marked suspect.
    """

    id: str
    base: int
    lpc: int
    nonspin: int
    regup: int
    marks: ControllableLoadMarks = field(default_factory=ControllableLoadMarks)

    def _numbers(self) -> Tuple:
        return (_CLR, 0, self.base, self.lpc, self.nonspin, self.regup)


@dataclass
class OtherLoadMarks:
    """Which of another load's readings are marked suspect; `rrsok` carries no mark."""

    net: bool = False
    lpc: bool = False
    rrs: bool = False

    def _by_number(self) -> Tuple[bool, ...]:
        # The first number is rrsok.
        return (False, self.net, self.lpc, self.rrs)


@dataclass
class OtherLoad:
    """A load that is not controllable (`nclr`), with its readings in kW.

    Attributes:
        id: as of a generator.
        rrsok: whether the RRS schedule is validated.
        net: net consumption.
        lpc: LPC.
        rrs: RRS.
        marks: which of these readings are marked suspect.
    """

    id: str
    rrsok: bool
    net: int
    lpc: int
    rrs: int
    marks: OtherLoadMarks = field(default_factory=OtherLoadMarks)

    def _numbers(self) -> Tuple:
        return (_NCLR, 0, self.rrsok, self.net, self.lpc, self.rrs)


Resource = Union[Generator, ControllableLoad, OtherLoad]


@dataclass
class Snapshot:
    """One SCED run, whose values can be changed before it is written again.

    Any values can be held. What no text can have is refused where the text is asked for, at the line where it would
    stand.

    A reading that telemetry flagged is marked suspect, in the text by one `?` after the number. On a unit that enters a
    sum, or may enter one, a marked reading turns the snapshot back: reading, pricing and writing refuse it by 15 at its
    line. On any other unit the mark is kept, and the price is that of the snapshot without it. docs/FORMAT.md lists the
    units.

    Attributes:
        month: 1 to 12.
        hour: 0 to 23.
        lambda_: System Lambda, cents per MWh; `lambda` is a word of Python.
        factor: discount factor, ten-thousandths.
        prc: PRC, kW.
        eea1: PRC at which EEA Level 1 starts, kW.
        short: under-generation of SCED, kW.
        resources: at most 4096 in a text; their number is the text's `count`.
    """

    month: int
    hour: int
    lambda_: int
    factor: int
    prc: int
    eea1: int
    short: int
    resources: List[Resource] = field(default_factory=list)

    @staticmethod
    def from_text(text: bytes) -> "Snapshot":
        """The snapshot of a text. Refusals: 2, 3 to 8, 9, 15."""
        # Rows for as many resources as the text can have, so that it is never refused for want of space.
        rows = min(len(text) // _SHORTEST_RESOURCE, RESOURCES)
        header = HeaderArray()
        ids = ctypes.create_string_buffer(rows * ID_ROW)
        numbers = (ctypes.c_int64 * (rows * NUMBER_ROW))()
        lent = (ctypes.byref(header), ids, len(ids), numbers, len(numbers))
        check(library.ordc_read_snapshot(text, len(text), *lent))
        *values, count = header
        return Snapshot(*values, [_resource(ids, numbers, row) for row in range(count)])

    def to_text(self) -> bytes:
        """The snapshot's text, as `ordc.price` takes it. Refusals: 6, 7, 8, at the line that would be wrong, then 15.

        Reading it gives an equal snapshot, and a snapshot that was read from a text gives that text.
        """
        held = self._held()
        length = ctypes.c_size_t()
        check(library.ordc_snapshot_length(*held, ctypes.byref(length)))
        buffer = ctypes.create_string_buffer(length.value)
        check(library.ordc_write_snapshot(*held, buffer, len(buffer), ctypes.byref(length)))
        return buffer.raw

    def _held(self) -> Tuple:
        # The number of rows stands for the eighth number of the header.
        values = (self.month, self.hour, self.lambda_, self.factor, self.prc, self.eea1, self.short, 0)
        header = HeaderArray(*map(_nearest, values))
        ids = b"".join(_id_row(resource.id) for resource in self.resources)
        laid = [number for resource in self.resources for number in _number_row(resource)]
        numbers = (ctypes.c_int64 * len(laid))(*laid)
        return ctypes.byref(header), ids, len(ids), numbers, len(numbers)


def _nearest(value: int) -> int:
    # A number that does not fit 64 bits is outside every range, and so is the nearest one that fits.
    return min(max(operator.index(value), -(2**63)), 2**63 - 1)


def _place_of(words: List, word: str) -> int:
    return words.index(word) if word in words else _NO_WORD


def _id_row(id: str) -> bytes:
    # A byte 0 would end the id there, and no character beyond ASCII stands in an id.
    laid = id.encode("ascii", "replace").replace(b"\0", _NO_ID_BYTE)
    if len(laid) > _LONGEST_ID:
        laid = laid[: _LONGEST_ID - 1] + _NO_ID_BYTE
    return laid.ljust(ID_ROW, b"\0")


def _number_row(resource: Resource) -> List[int]:
    numbers = [_nearest(number) for number in resource._numbers()]
    unused = [0] * (NUMBER_ROW - 1 - len(numbers))
    return numbers + unused + [_laid(resource.marks._by_number())]


def _laid(marks: Tuple[bool, ...]) -> int:
    # 1 for the first number of the kind, 2 for the second, then 4, 8 and 16, added up. Another number than 0 or 1 would
    # mark other readings.
    for mark in marks:
        if not isinstance(mark, bool):
            raise TypeError(f"a mark is True or False, not {mark!r}")
    return sum(mark << place for place, mark in enumerate(marks))


def _resource(ids: ctypes.Array, numbers: ctypes.Array, row: int) -> Resource:
    id = ids[row * ID_ROW : row * ID_ROW + _LONGEST_ID].rstrip(b"\0").decode("ascii")
    kind, status, *read, laid = numbers[row * NUMBER_ROW : (row + 1) * NUMBER_ROW]
    marked = [bool(laid >> place & 1) for place in range(len(read))]
    if kind == _CLR:
        return ControllableLoad(id, *read[:4], ControllableLoadMarks(*marked[:4]))
    if kind == _NCLR:
        rrsok, net, lpc, rrs = read[:4]
        return OtherLoad(id, bool(rrsok), net, lpc, rrs, OtherLoadMarks(*marked[1:4]))
    net, lsl, hsl, base, nonspin, cold30 = read
    words = (_GENERATOR_KINDS[kind], _STATUSES[status])
    return Generator(id, *words, net, lsl, hsl, base, nonspin, bool(cold30), GeneratorMarks(*marked[:5]))
