"""Readings marked suspect (document 02, W-206). python -m unittest discover -s bindings/python/tests"""

import copy
import ctypes
import dataclasses
import pathlib
import re
import unittest
from typing import Iterator, Tuple

import ordc
from ordc import _library

EXAMPLES = pathlib.Path(__file__).resolve().parents[1] / "examples"
CURVES = (EXAMPLES / "listing.curves").read_bytes()
HOUR = (EXAMPLES / "hour.txt").read_bytes()
# Header at lines 1 to 8; six generators at lines 9, 18, 27, 36, 45 and 54; a clr at 63; an nclr at 69 and at 75. The
# last line is 80.
ALL_KINDS = (EXAMPLES / "snapshots" / "5-all-kinds.txt").read_bytes()
FIRST_LINES = (9, 18, 27, 36, 45, 54, 63, 69, 75)
# The same with marks on lines 50 and 51, HSL and base point of SOLAR_1, and 57, the net output of NUKE_1.
MARKED = (EXAMPLES / "snapshots" / "6-marked.txt").read_bytes()
# C of the listing is OFFNS, and its HSL stands in line 32.
SUSPECT_HSL = (EXAMPLES / "snapshots" / "7-suspect-hsl.txt").read_bytes()
C_HEADER = (EXAMPLES.parents[2] / "include" / "ordc.h").read_text()
ONE = b"month=7\nhour=14\nlambda=2500\nfactor=10000\nprc=3000000\neea1=2300000\nshort=0\ncount=1\nid=A\n"

# What a mark on a generator's reading does, by kind and status: it turns the snapshot back, it is fine, or that goes by
# cold30. Neither Non-Spin nor the 95 percent test has a part in it.
STATUSES = ("ON", "OFF", "OFFNS", "ONTEST", "STARTUP", "SHUTDOWN", "OUT")
TURNED_BACK = {
    "gen": ("yes", "cold30", "yes", "no", "yes", "no", "no"),
    "wind": ("yes", "no", "yes", "no", "yes", "no", "no"),
    "irr": ("no", "no", "yes", "no", "no", "no", "no"),
    "nuke": ("no", "cold30", "yes", "no", "no", "no", "no"),
}


def with_marks(text: bytes, *marked: int) -> bytes:
    """The text with a `?` at the end of these lines."""
    lines = text.splitlines()
    for line in marked:
        lines[line - 1] += b"?"
    return b"\n".join(lines) + b"\n"


def with_line(line: int, value: bytes, text: bytes = ALL_KINDS) -> bytes:
    """The text with another value in its line."""
    lines = text.splitlines(keepends=True)
    lines[line - 1] = lines[line - 1].split(b"=")[0] + b"=" + value + b"\n"
    return b"".join(lines)


def units() -> Iterator[Tuple[ordc.Resource, bytes, int, bool]]:
    """Units with the id A, their lines from `kind` on, the words among these, and whether a mark turns them back."""
    for kind, verdicts in TURNED_BACK.items():
        for status, verdict in zip(STATUSES, verdicts):
            # below and at 95 percent of LSL, without and with Non-Spin, each flag
            for net, nonspin, cold30 in ((94, 0, 0), (94, 1, 1), (95, 0, 1), (95, 1, 0), (-1, 0, 0)):
                unit = ordc.Generator(
                    "A", ordc.GeneratorKind(kind), ordc.Status(status), net, 100, 500, 60, nonspin, bool(cold30)
                )
                lines = f"kind={kind}\nstatus={status}\nnet={net}\nlsl=100\nhsl=500\nbase=60\n"
                lines += f"nonspin={nonspin}\ncold30={cold30}\n"
                yield unit, lines.encode(), 2, verdict == "yes" or (verdict == "cold30" and cold30 == 1)
    # Every load is summed, also one that adds nothing.
    for power in (0, 7):
        lines = f"kind=clr\nbase={power}\nlpc={power}\nnonspin={power}\nregup={power}\n"
        yield ordc.ControllableLoad("A", power, power, power, power), lines.encode(), 1, True
        for rrsok in (0, 1):
            lines = f"kind=nclr\nrrsok={rrsok}\nnet={power}\nlpc={power}\nrrs={power}\n"
            yield ordc.OtherLoad("A", bool(rrsok), power, power, power), lines.encode(), 2, True


class Marks(unittest.TestCase):
    def refused(self, number: int, line: int, operation, *arguments) -> None:
        with self.assertRaises(ordc.Refused) as caught:
            operation(*arguments)
        self.assertEqual((caught.exception.number, caught.exception.line), (number, line))

    def unreadable(self, number: int, line: int, text: bytes) -> None:
        self.refused(number, line, ordc.Snapshot.from_text, text)
        self.refused(number, line, ordc.price, ordc.read_curves(CURVES), text)

    def held(self, row: int, **places: int) -> tuple:
        """Number and line of the refusal, and the text, of ALL_KINDS with other numbers in a row: p8 is place 8."""
        header, ids, ids_length, numbers, numbers_length = ordc.Snapshot.from_text(ALL_KINDS)._held()
        for place, number in places.items():
            numbers[9 * row + int(place[1:])] = number
        buffer, length = ctypes.create_string_buffer(2000), ctypes.c_size_t(0)
        held = (header, ids, ids_length, numbers, numbers_length)
        told = _library.library.ordc_snapshot_length(*held, ctypes.byref(length))
        told_length = length.value
        refusal = _library.library.ordc_write_snapshot(*held, buffer, len(buffer), ctypes.byref(length))
        self.assertEqual((told.number, told.line, told_length), (refusal.number, refusal.line, length.value))
        return refusal.number, refusal.line, buffer.raw[: length.value]

    def test_by_unit(self):
        curves = ordc.read_curves(CURVES)
        for unit, lines, words, turned_back in units():
            keys = [mark.name for mark in dataclasses.fields(unit.marks)]
            plain = ONE + lines
            for index, key in enumerate(keys):
                line = 9 + words + 1 + index
                with self.subTest(unit=unit, key=key):
                    marked = copy.deepcopy(unit)
                    setattr(marked.marks, key, True)
                    text = with_marks(plain, line)
                    self.assertIn(f"\n{key}={getattr(unit, key)}?\n".encode(), text)
                    snapshot = ordc.Snapshot(7, 14, 2500, 10000, 3000000, 2300000, 0, [marked])
                    if turned_back:
                        self.unreadable(15, line, text)
                        self.refused(15, line, snapshot.to_text)
                    else:
                        self.assertEqual(ordc.Snapshot.from_text(text), snapshot)
                        self.assertEqual(snapshot.to_text(), text)
                        self.assertEqual(ordc.price(curves, text), ordc.price(curves, plain))

    def test_examples(self):
        self.assertEqual(MARKED, with_marks(ALL_KINDS, 50, 51, 57))
        # docs/FORMAT.md works the price out
        expected = ordc.Prices(2626301, 3194701, 187850153, 116104844, 136096, 51986)
        self.assertEqual(ordc.price(ordc.read_curves(CURVES), MARKED), expected)
        snapshot = ordc.Snapshot.from_text(MARKED)
        self.assertEqual(snapshot.to_text(), MARKED)
        marks = [resource.marks for resource in snapshot.resources]
        self.assertEqual(marks[4], ordc.GeneratorMarks(hsl=True, base=True))
        self.assertEqual(marks[5], ordc.GeneratorMarks(net=True))
        self.assertEqual(marks[:4], [ordc.GeneratorMarks()] * 4)
        self.assertEqual(marks[6:], [ordc.ControllableLoadMarks(), ordc.OtherLoadMarks(), ordc.OtherLoadMarks()])
        self.assertIs(marks[4].hsl, True)
        self.assertIs(marks[4].net, False)
        self.unreadable(15, 32, SUSPECT_HSL)

    def test_resources_share_no_marks(self):
        first, second = (ordc.Generator(id, "irr", "ON", 0, 0, 0, 0, 0, False) for id in "AB")
        first.marks.net = True
        self.assertEqual(second.marks, ordc.GeneratorMarks())

    def test_status_decides(self):
        snapshot = ordc.Snapshot.from_text(MARKED)
        snapshot.resources[4].status = ordc.Status.OFFNS
        self.refused(15, 50, snapshot.to_text)
        snapshot.resources[4].status = ordc.Status.OUT
        self.assertEqual(snapshot.to_text(), with_line(47, b"OUT", MARKED))

    def test_first_line(self):
        # Marks are put in from the last line to the first; those on SOLAR_1 and NUKE_1 are passed over.
        lines = (80, 72, 65, 57, 50, 43, 39, 34, 23, 12)
        told = (80, 72, 65, 65, 65, 43, 39, 34, 23, 12)
        for count, line in enumerate(told, 1):
            self.unreadable(15, line, with_marks(ALL_KINDS, *lines[:count]))

    def test_other_refusals_come_first(self):
        text = with_marks(ALL_KINDS, 12)
        self.unreadable(15, 12, text)
        self.unreadable(3, 80, text[:-1])
        self.unreadable(4, 80, text.replace(b"rrs=150000", b"RRS=150000"))
        self.unreadable(5, 80, with_line(80, b"", text))
        self.unreadable(6, 80, with_line(80, b"1.5", text))
        self.unreadable(7, 80, with_line(80, b"2000001", text))
        self.unreadable(8, 75, with_line(75, b"GAS_1", text))
        self.unreadable(9, 81, text + b"x")
        impossible = dataclasses.replace(ordc.read_curves(CURVES), voll=-1)
        self.refused(1, 0, ordc.price, impossible, text)
        snapshot = ordc.Snapshot.from_text(ALL_KINDS)
        snapshot.resources[0].marks.net = True
        self.refused(15, 12, snapshot.to_text)
        snapshot.resources[8].rrs = -1
        self.refused(7, 80, snapshot.to_text)
        snapshot.resources[8].id = "GAS_1"
        self.refused(8, 75, snapshot.to_text)
        snapshot.resources[8].id = ""
        self.refused(6, 75, snapshot.to_text)

    def test_15_comes_before_14(self):
        header, length = _library.HeaderArray(), ctypes.c_size_t(77)
        text = with_marks(ALL_KINDS, 12)
        for refused, number, line in ((text, 15, 12), (MARKED, 14, 0)):
            refusal = _library.library.ordc_read_snapshot(refused, len(refused), ctypes.byref(header), None, 0, None, 0)
            self.assertEqual((refusal.number, refusal.line), (number, line))
        snapshot = ordc.Snapshot.from_text(MARKED)
        for marked, number, line in ((False, 14, 0), (True, 15, 14)):
            snapshot.resources[0].marks.hsl = marked
            refusal = _library.library.ordc_write_snapshot(*snapshot._held(), None, 0, ctypes.byref(length))
            self.assertEqual((refusal.number, refusal.line, length.value), (number, line, 77))

    def test_how_a_mark_is_written(self):
        # Net output of GAS_1, where a mark turns the snapshot back, and of SOLAR_1, where it is fine; LSL is below it.
        for first, turned_back in ((12, True), (48, False)):
            for line in (first, first + 1):
                for value in (b"?", b"-?", b"5??", b"?5", b"5?5", b"-0?", b"05?", b"+5?", b"5 ?", b"5? ", b"5?\r"):
                    self.unreadable(6, line, with_line(line, value))
                for value in (b"2000001?", b"-2000001?", b"99999999999999999999?"):
                    self.unreadable(7, line, with_line(line, value))
            self.unreadable(7, first + 1, with_line(first + 1, b"-5?"))
            for value in (b"0?", b"-5?", b"2000000?", b"-2000000?"):
                text = with_line(first, value)
                if turned_back:
                    self.unreadable(15, first, text)
                else:
                    self.assertEqual(ordc.Snapshot.from_text(text).to_text(), text)

    def test_what_carries_no_mark(self):
        lines = list(range(1, 9))
        for row, first in enumerate(FIRST_LINES):
            # id and kind; status and cold30 of a generator, rrsok of an nclr
            lines += [first, first + 1] + ([first + 2, first + 8] if row < 6 else [first + 2] if row > 6 else [])
        for line in lines:
            self.unreadable(6, line, with_marks(ALL_KINDS, line))
        for line in range(1, len(HOUR.splitlines()) + 1):
            self.refused(6, line, ordc.book, ordc.Record(), with_marks(HOUR, line))
        for line in range(1, len(CURVES.splitlines()) + 1):
            self.refused(6, line, ordc.read_curves, with_marks(CURVES, line))

    def test_place_8(self):
        for row, first in enumerate(FIRST_LINES):
            numbers, words, flag = (6, 3, 7) if row < 6 else (4, 2, None) if row == 6 else (4, 2, 2)
            for unseen in (1 << numbers, -(1 << numbers), 1 << 62, -(2**63), 2**63 - (1 << numbers)):
                self.assertEqual(self.held(row, p8=unseen), (0, 0, ALL_KINDS))
            for place in range(2, 2 + numbers):
                line = first + words + place - 2
                mark = 1 << (place - 2)
                for marks in (mark, -mark, mark + (1 << numbers), -mark - (1 << numbers)):
                    changed = {"p8": marks, f"p{place}": 2000001}
                    if place == flag:
                        self.assertEqual(self.held(row, p8=marks), (6, line, b""))
                        self.assertEqual(self.held(row, **changed), (6, line, b""))
                        continue
                    self.assertEqual(self.held(row, **changed), (7, line, b""))
                    fine = row in (4, 5)  # SOLAR_1 and NUKE_1
                    expected = (0, 0, with_marks(ALL_KINDS, line)) if fine else (15, line, b"")
                    self.assertEqual(self.held(row, p8=marks), expected)

    def test_only_true_and_false(self):
        for mark in (0, 1, 2, None, "?"):
            for row, key in ((4, "hsl"), (6, "lpc"), (7, "rrs")):
                snapshot = ordc.Snapshot.from_text(ALL_KINDS)
                setattr(snapshot.resources[row].marks, key, mark)
                with self.assertRaises(TypeError):
                    snapshot.to_text()

    def test_names_of_the_header(self):
        self.assertIn("ORDC_MARKS = 8,", C_HEADER)
        self.assertIn("ORDC_SUSPECT_NUMBER = 15 ", C_HEADER)
        listed = re.search(r"enum ordc_number {(.*?)};", C_HEADER, re.S)
        assert listed is not None
        numbers = [int(number) for number in re.findall(r"ORDC_\w+ = (\d+)", listed.group(1))]
        self.assertEqual(numbers, [0] + list(ordc.EXPLANATIONS))


if __name__ == "__main__":
    unittest.main()
