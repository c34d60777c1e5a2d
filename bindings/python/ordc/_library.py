"""The shared library and the C declarations of its functions (include/ordc.h)."""

import ctypes
import ctypes.util
import os
import pathlib

GROUPS = 24
RECORD = 72
CURVES = 50
ANSWER = 6
PAGE = 1728
HEADER = 8
ID_ROW = 32
NUMBER_ROW = 9
RESOURCES = 4096

RecordArray = ctypes.c_int64 * RECORD
CurvesArray = ctypes.c_int64 * CURVES
AnswerArray = ctypes.c_int64 * ANSWER
HeaderArray = ctypes.c_int64 * HEADER


class Refusal(ctypes.Structure):
    """struct ordc_refusal."""

    _fields_ = [("number", ctypes.c_uint64), ("line", ctypes.c_uint64)]


def _path() -> str:
    named = os.environ.get("ORDC_LIBRARY")
    if named:
        return named
    built = pathlib.Path(__file__).resolve().parents[3] / "target" / "staticlib" / "libordc.so"
    if built.exists():
        return str(built)
    found = ctypes.util.find_library("ordc")
    if found:
        return found
    raise OSError("libordc.so was not found: set ORDC_LIBRARY, or run `make lib` or `make install`")


def _load() -> ctypes.CDLL:
    library = ctypes.CDLL(_path())
    text, size = ctypes.c_char_p, ctypes.c_size_t
    pointer = ctypes.POINTER
    # A snapshot held as values: header, rows of ids and rows of numbers.
    held = [pointer(HeaderArray), ctypes.c_char_p, size, pointer(ctypes.c_int64), size]
    signatures = {
        "ordc_book": [pointer(RecordArray), text, size],
        "ordc_settle": [pointer(RecordArray), ctypes.c_int64, ctypes.c_int64, pointer(CurvesArray)],
        "ordc_read_curves": [text, size, pointer(CurvesArray)],
        "ordc_curves_length": [pointer(CurvesArray), pointer(ctypes.c_size_t)],
        "ordc_write_curves": [pointer(CurvesArray), ctypes.c_char_p, size, pointer(ctypes.c_size_t)],
        "ordc_write_page": [pointer(CurvesArray), ctypes.c_char_p, size],
        "ordc_price": [pointer(CurvesArray), text, size, pointer(AnswerArray)],
        "ordc_read_snapshot": [text, size] + held,
        "ordc_snapshot_length": held + [pointer(ctypes.c_size_t)],
        "ordc_write_snapshot": held + [ctypes.c_char_p, size, pointer(ctypes.c_size_t)],
    }
    for name, arguments in signatures.items():
        function = getattr(library, name)
        function.argtypes = arguments
        function.restype = Refusal
    return library


library = _load()
