"""The seven operations. Each raises Refused where it refuses its input."""

import ctypes

from ._library import PAGE, AnswerArray, CurvesArray, library
from ._refusals import check
from ._values import CurveSet, Prices, Record, _fitting


def book(record: Record, text: bytes) -> Record:
    """The record with one more hour booked. Refusals: 1, 2, 3 to 7, 9, 10, 11."""
    array = record._array()
    check(library.ordc_book(ctypes.byref(array), text, len(text)))
    return Record._of(array)


def settle(record: Record, voll: int, floor: int) -> CurveSet:
    """The curves of a record, for VOLL in cents per MWh and X in kW. Refusals: 1, 7, 12, 13."""
    _fitting((voll, floor))
    array = CurvesArray()
    check(library.ordc_settle(ctypes.byref(record._array()), voll, floor, ctypes.byref(array)))
    return CurveSet._of(array)


def read_curves(text: bytes) -> CurveSet:
    """The curve set of a curve text. Refusals: 2, 3 to 7, 9."""
    array = CurvesArray()
    check(library.ordc_read_curves(text, len(text), ctypes.byref(array)))
    return CurveSet._of(array)


def curves_length(curves: CurveSet) -> int:
    """The length of a curve set's text in bytes, 327 to 700. Refusals: 1."""
    return _length(curves._array())


def write_curves(curves: CurveSet) -> bytes:
    """The text of a curve set, which has exactly `curves_length` bytes. Refusals: 1."""
    array = curves._array()
    buffer = ctypes.create_string_buffer(_length(array))
    written = ctypes.c_size_t()
    check(library.ordc_write_curves(ctypes.byref(array), buffer, len(buffer), ctypes.byref(written)))
    return buffer.raw


def _length(array: CurvesArray) -> int:
    length = ctypes.c_size_t()
    check(library.ordc_curves_length(ctypes.byref(array), ctypes.byref(length)))
    return length.value


def write_page(curves: CurveSet) -> bytes:
    """The page of a curve set: 1728 bytes, a row of 72 for each group, in order of the groups. Refusals: 1.

    A row has the season (winter, spring, summer or fall), the block (0 to 5), the mean and the spread in kW, then the
    probability of falling below X on an on-line and off-line reserve of X + 1000000, X + 2000000, X + 3000000 and
    X + 4000000 kW, in billionths. The columns stand at the same places in every row, and each row ends with a line
    feed. Neither VOLL nor X shows on the page.
    """
    buffer = ctypes.create_string_buffer(PAGE)
    check(library.ordc_write_page(ctypes.byref(curves._array()), buffer, PAGE))
    return buffer.raw


def price(curves: CurveSet, text: bytes) -> Prices:
    """The prices of a snapshot's text on a curve set. Refusals: 1, 2, 3 to 8, 9, 15."""
    answer = AnswerArray()
    check(library.ordc_price(ctypes.byref(curves._array()), text, len(text), ctypes.byref(answer)))
    return Prices(*answer)
