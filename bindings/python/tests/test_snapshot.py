"""python -m unittest discover -s bindings/python/tests"""

import copy
import ctypes
import pathlib
import re
import threading
import unittest

import ordc
from ordc import _library

EXAMPLES = pathlib.Path(__file__).resolve().parents[1] / "examples"
CURVES = (EXAMPLES / "listing.curves").read_bytes()
LISTING = (EXAMPLES / "snapshots" / "1-listing.txt").read_bytes()
REFUSED = {EXAMPLES / "snapshots" / name for name in ("4-empty-hsl.txt", "7-suspect-hsl.txt")}
ACCEPTED = sorted(set((EXAMPLES / "snapshots").iterdir()) - REFUSED)
# Header at lines 1 to 8; six generators at lines 9, 18, 27, 36, 45 and 54; a clr at 63; an nclr at 69 and at 75. The
# last line is 80.
ALL_KINDS = (EXAMPLES / "snapshots" / "5-all-kinds.txt").read_bytes()
FIRST_LINES = (9, 18, 27, 36, 45, 54, 63, 69, 75)
HEADER = (EXAMPLES.parents[2] / "include" / "ordc.h").read_text()
VALUES = ordc.Snapshot(
    8,
    16,
    4500,
    9800,
    2900000,
    2300000,
    5000,
    [
        ordc.Generator("GAS_1", "gen", "ON", 1190000, 600000, 2000000, 1200000, 50000, False),
        ordc.Generator("GAS_2", "gen", "OFFNS", 0, 150000, 400000, 0, 400000, False),
        ordc.Generator("GAS_3", "gen", "OFF", 0, 40000, 100000, 0, 0, True),
        ordc.Generator("WIND_1", "wind", "ON", 900000, 0, 1900000, 900000, 0, False),
        ordc.Generator("SOLAR_1", "irr", "ON", 500000, 0, 800000, 500000, 0, False),
        ordc.Generator("NUKE_1", "nuke", "ON", 1250000, 1000000, 1300000, 1250000, 0, False),
        ordc.ControllableLoad("CLR_1", 300000, 50000, 30000, 40000),
        ordc.OtherLoad("NCLR_1", True, 900000, 20000, 300001),
        ordc.OtherLoad("NCLR_2", False, 200000, 0, 150000),
    ],
)
SIGNED, POWER, SYSTEM, FLAG = (-2000000, 2000000), (0, 2000000), (0, 200000000), (0, 1)
HEADER_RANGES = {
    "month": (1, 12),
    "hour": (0, 23),
    "lambda_": SIGNED,
    "factor": (0, 10000),
    "prc": SYSTEM,
    "eea1": SYSTEM,
    "short": SYSTEM,
}
GENERATOR = {"net": SIGNED, "lsl": POWER, "hsl": POWER, "base": POWER, "nonspin": POWER, "cold30": FLAG}
CONTROLLABLE_LOAD = {"base": POWER, "lpc": POWER, "nonspin": POWER, "regup": POWER}
OTHER_LOAD = {"rrsok": FLAG, "net": POWER, "lpc": POWER, "rrs": POWER}


def changed(row, key: str, value) -> ordc.Snapshot:
    """VALUES with another value in the header, where the row is None, or in that resource."""
    snapshot = copy.deepcopy(VALUES)
    setattr(snapshot if row is None else snapshot.resources[row], key, value)
    return snapshot


def with_line(line: int, value: bytes) -> bytes:
    """ALL_KINDS with another value in its line."""
    lines = ALL_KINDS.splitlines(keepends=True)
    lines[line - 1] = lines[line - 1].split(b"=")[0] + b"=" + value + b"\n"
    return b"".join(lines)


def readings():
    """Row, key, line and range of every number of VALUES."""
    for line, (key, range_) in enumerate(HEADER_RANGES.items(), 1):
        yield None, key, line, range_
    for row, first in enumerate(FIRST_LINES):
        keys, words = (GENERATOR, 3) if row < 6 else (CONTROLLABLE_LOAD, 2) if row == 6 else (OTHER_LOAD, 2)
        for line, (key, range_) in enumerate(keys.items(), first + words):
            yield row, key, line, range_


class Snapshots(unittest.TestCase):
    def refused(self, number: int, line: int, operation, *arguments) -> None:
        with self.assertRaises(ordc.Refused) as caught:
            operation(*arguments)
        self.assertEqual((caught.exception.number, caught.exception.line), (number, line))

    def unreadable(self, number: int, line: int, text: bytes) -> None:
        self.refused(number, line, ordc.Snapshot.from_text, text)

    def unwritable(self, number: int, line: int, snapshot: ordc.Snapshot) -> None:
        self.refused(number, line, snapshot.to_text)

    def test_all_kinds(self):
        snapshot = ordc.Snapshot.from_text(ALL_KINDS)
        self.assertEqual(snapshot, VALUES)
        self.assertEqual(VALUES.to_text(), ALL_KINDS)
        # Kinds and statuses are those of the enums, and flags are flags.
        generator = snapshot.resources[2]
        self.assertIs(generator.kind, ordc.GeneratorKind.GEN)
        self.assertIs(generator.status, ordc.Status.OFF)
        self.assertIs(generator.cold30, True)
        self.assertIs(snapshot.resources[8].rrsok, False)
        self.assertEqual(f"{generator.kind} {generator.status}", "gen OFF")

    def test_written_back(self):
        self.assertEqual(len(ACCEPTED), 5)
        for path in ACCEPTED:
            text = path.read_bytes()
            self.assertEqual(ordc.Snapshot.from_text(text).to_text(), text)

    def test_read_back(self):
        resources = [
            ordc.Generator(f"UNIT_{kind.name}_{status.name}"[:16], kind, status, -1, 2, 3, 4, 5, True)
            for kind in ordc.GeneratorKind
            for status in ordc.Status
        ]
        for held in ([], resources, resources + VALUES.resources):
            snapshot = ordc.Snapshot(1, 0, -2000000, 0, 0, 0, 0, held)
            text = snapshot.to_text()
            self.assertIn(b"\ncount=%d\n" % len(held), text)
            self.assertEqual(ordc.Snapshot.from_text(text), snapshot)
            self.assertEqual(ordc.Snapshot.from_text(text).to_text(), text)
            for resource in held:
                if isinstance(resource, ordc.Generator):
                    lines = f"id={resource.id}\nkind={resource.kind}\nstatus={resource.status}\n"
                    self.assertIn(lines.encode(), text)

    def test_edited(self):
        # C of the listing goes from OFFNS to OUT, so its 293000 kW no longer count: RSNS is RS, 707000 kW above X, and
        # p = 70.7. N = 758036348 + floor(0.7 * 3111584) = 760214456, so piNS = 239785544. On-line 897500 * (158655254 +
        # 239785544) / 2000000000 = 178800.3..., off-line 897500 * 239785544 / 2000000000 = 107603.7...
        snapshot = ordc.Snapshot.from_text(LISTING)
        self.assertEqual((snapshot.resources[2].id, snapshot.resources[2].status), ("C", "OFFNS"))
        snapshot.resources[2].status = ordc.Status.OUT
        text = snapshot.to_text()
        self.assertEqual(text, LISTING.replace(b"OFFNS", b"OUT"))
        expected = ordc.Prices(2707000, 2707000, 158655254, 239785544, 178800, 107604)
        self.assertEqual(ordc.price(ordc.read_curves(CURVES), text), expected)

    def test_refusals_of_reading(self):
        self.unreadable(2, 0, b"x" * 1048577)
        self.unreadable(3, 1, b"x" * 1048576)
        self.unreadable(3, 1, b"")
        self.unreadable(5, 14, (EXAMPLES / "snapshots" / "4-empty-hsl.txt").read_bytes())
        lines = ALL_KINDS.splitlines(keepends=True)
        for line in (1, 40, 80):
            self.unreadable(3, line, b"".join(lines[:line])[:-1])
            self.unreadable(4, line, b"".join(lines[: line - 1]) + b"KEY=1\n" + b"".join(lines[line:]))
            self.unreadable(5, line, with_line(line, b""))
            self.unreadable(6, line, with_line(line, b"01"))
            self.unreadable(7, line, with_line(line, b"200000001"))
        for line, id in ((18, b"GAS_1"), (45, b"GAS_2"), (75, b"NCLR_1")):
            self.unreadable(8, line, with_line(line, id))
        self.unreadable(9, 81, ALL_KINDS + b"x")
        self.unreadable(9, 45, with_line(8, b"4"))
        self.unreadable(9, 9, with_line(8, b"0"))

    def test_numbers(self):
        for row, key, line, (low, high) in readings():
            with self.subTest(row=row, key=key):
                for value in (low, high):
                    text = with_line(line, b"%d" % value)
                    self.assertEqual(changed(row, key, value).to_text(), text)
                    self.assertEqual(ordc.Snapshot.from_text(text), changed(row, key, value))
                # also numbers that do not fit 64 bits, of which the last would be 0 and 1 if they were wrapped
                beyond = (low - 1, high + 1, -(2**63), 2**63 - 1, -(2**63) - 1, 2**63, 2**64, 2**64 + 1)
                for value in beyond:
                    self.unwritable(7, line, changed(row, key, value))

    def test_only_whole_numbers(self):
        for value in (1.0, float("inf"), "1", None):
            for row, key in ((None, "prc"), (0, "hsl"), (6, "lpc"), (7, "rrsok")):
                with self.assertRaises(TypeError):
                    changed(row, key, value).to_text()

    def test_words(self):
        for row, first in enumerate(FIRST_LINES[:6]):
            for kind in ("", "GEN", "clr", "nclr", ordc.Status.ON, None, 0):
                self.unwritable(6, first + 1, changed(row, "kind", kind))
            for status in ("", "On", "gen", ordc.GeneratorKind.GEN, None, 0):
                self.unwritable(6, first + 2, changed(row, "status", status))

    def test_ids(self):
        long = "ABCDEFGHIJKLMNOPQ"
        bad = ["", "gas", "GAS 1", "A\0", "\0", "A\0B", "\u00dc", "\ud800", "A\n", long, long * 100]
        bad += [long[:15] + "\0", long[:16] + "\0", "\u00dc" * 17]
        for row, first in enumerate(FIRST_LINES):
            for id in bad:
                snapshot = changed(row, "id", id)
                self.unwritable(6, first, snapshot)
                # a line above is refused first
                snapshot.short = -1
                self.unwritable(7, 7, snapshot)
            self.assertEqual(changed(row, "id", long[:16]).to_text(), with_line(first, long[:16].encode()))
            for above in VALUES.resources[:row]:
                self.unwritable(8, first, changed(row, "id", above.id))
        # The first 16 bytes alone would be an id, and here one that stands above.
        snapshot = changed(0, "id", long[:16])
        snapshot.resources[8].id = long
        self.unwritable(6, 75, snapshot)
        snapshot.resources[8].id = long[:16]
        self.unwritable(8, 75, snapshot)

    def test_earliest_line(self):
        snapshot = changed(8, "rrs", -1)
        self.unwritable(7, 80, snapshot)
        snapshot.resources[8].id = "GAS_1"
        self.unwritable(8, 75, snapshot)
        snapshot.resources[3].cold30 = 2
        self.unwritable(7, 44, snapshot)
        snapshot.resources[3].status = "on"
        self.unwritable(6, 38, snapshot)
        snapshot.resources[3].kind = "hydro"
        self.unwritable(6, 37, snapshot)
        snapshot.resources += [ordc.OtherLoad(f"LOAD_{i}", False, 0, 0, 0) for i in range(4096)]
        self.unwritable(7, 8, snapshot)
        snapshot.month = 13
        self.unwritable(7, 1, snapshot)

    def test_most_resources(self):
        longest = ordc.Snapshot(12, 23, -2000000, 10000, 200000000, 200000000, 200000000)
        power = 2000000
        for i in range(4096):
            id = f"UNIT_{i:011}"
            longest.resources.append(ordc.Generator(id, "wind", "SHUTDOWN", -power, power, power, power, power, True))
        # The header has 9 + 8 + 16 + 13 + 14 + 15 + 16 + 11 = 102 bytes. A resource has 20 + 10 + 16 + 13 + 12 + 12 +
        # 13 + 16 + 9 = 121, and five more where all its readings are marked.
        for marked, length in ((False, 102 + 4096 * 121), (True, 516198)):
            for resource in longest.resources:
                resource.marks = ordc.GeneratorMarks(*[marked] * 5)
            text = longest.to_text()
            self.assertEqual(len(text), length)
            self.assertEqual(ordc.Snapshot.from_text(text), longest)
        last = longest.resources[4095]
        last.id = "UNIT_00000000000"
        self.unwritable(8, 8 + 9 * 4095 + 1, longest)
        last.id = "ONE"
        longest.resources.append(ordc.OtherLoad("ONE_MORE", False, 0, 0, 0))
        self.unwritable(7, 8, longest)

    def test_shortest_resources(self):
        # 41 bytes each: there is space for them all.
        letters = "ABCDEFGHIJKLMNOPQRSTUVWXYZ0123456789_"
        shortest = ordc.Snapshot(1, 0, 0, 0, 0, 0, 0, [ordc.OtherLoad(id, False, 0, 0, 0) for id in letters])
        text = shortest.to_text()
        header = b"month=1\nhour=0\nlambda=0\nfactor=0\nprc=0\neea1=0\nshort=0\ncount=37\n"
        self.assertEqual(len(text), len(header) + 37 * 41)
        self.assertEqual(ordc.Snapshot.from_text(text), shortest)

    def test_rows(self):
        # from_text lends enough rows; fewer, unequal ones and parts of rows go to the library's function.
        def read(id_bytes: int, numbers: int) -> tuple:
            header = _library.HeaderArray(*[-7] * 8)
            ids = ctypes.create_string_buffer(b"x" * id_bytes, id_bytes)
            rows = (ctypes.c_int64 * numbers)(*[-7] * numbers)
            refusal = _library.library.ordc_read_snapshot(
                ALL_KINDS, len(ALL_KINDS), ctypes.byref(header), ids, id_bytes, rows, numbers
            )
            return refusal.number, refusal.line, list(header), ids.raw, list(rows)

        for id_bytes, numbers in ((0, 0), (0, 81), (288, 0), (287, 81), (288, 80), (256, 90), (320, 72)):
            self.assertEqual(read(id_bytes, numbers), (14, 0, [-7] * 8, b"x" * id_bytes, [-7] * numbers))
        _, held_ids, _, held_numbers, _ = VALUES._held()
        header = [8, 16, 4500, 9800, 2900000, 2300000, 5000, 9]
        for id_bytes, numbers in ((288, 81), (319, 89), (288, 100), (400, 81), (400, 100)):
            expected = (0, 0, header, held_ids + b"x" * (id_bytes - 288), list(held_numbers) + [-7] * (numbers - 81))
            self.assertEqual(read(id_bytes, numbers), expected)

    def test_buffers(self):
        # to_text lends a buffer of the text's length; shorter and longer ones go to the library's function.
        def written(snapshot: ordc.Snapshot, size: int) -> tuple:
            buffer = ctypes.create_string_buffer(b"x" * 2000, 2000)
            length = ctypes.c_size_t(77)
            refusal = _library.library.ordc_write_snapshot(*snapshot._held(), buffer, size, ctypes.byref(length))
            return refusal.number, refusal.line, buffer.raw, length.value

        long = len(ALL_KINDS)
        for size in (0, 1, long - 1):
            self.assertEqual(written(VALUES, size), (14, 0, b"x" * 2000, 77))
        for size in (long, long + 1, 2000):
            self.assertEqual(written(VALUES, size), (0, 0, ALL_KINDS + b"x" * (2000 - long), long))
        # 6, 7 and 8 come before 14
        for size in (0, 1, long - 1, long, 2000):
            self.assertEqual(written(changed(8, "rrs", -1), size), (7, 80, b"x" * 2000, 77))

    def test_what_writing_does_not_look_at(self):
        # The eighth number of the header, the bytes after the byte 0 that ends an id, the status of a load, the places
        # that a kind does not use, marks beyond the numbers of a kind, and what is left over of rows; to_text lays 0
        # there and leaves nothing over.
        _, ids, _, numbers, _ = VALUES._held()
        ids, numbers = bytearray(ids), list(numbers)
        for row, resource in enumerate(VALUES.resources):
            ids[32 * row + len(resource.id) + 1 : 32 * row + 32] = b"z" * (31 - len(resource.id))
            for place in () if row < 6 else (1, 6, 7):
                numbers[9 * row + place] = -1
            # a generator has six numbers, a load four
            numbers[9 * row + 8] = -64 if row < 6 else -16
        for more_ids, more_numbers in ((0, 0), (31, 8), (64, 8), (31, 18)):
            header = _library.HeaderArray(8, 16, 4500, 9800, 2900000, 2300000, 5000, -1)
            laid = (ctypes.c_int64 * (81 + more_numbers))(*numbers, *[-1] * more_numbers)
            lent = bytes(ids) + b"z" * more_ids
            buffer = ctypes.create_string_buffer(len(ALL_KINDS))
            held = (ctypes.byref(header), lent, len(lent), laid, len(laid))
            refusal = _library.library.ordc_write_snapshot(*held, buffer, len(buffer), ctypes.byref(ctypes.c_size_t()))
            self.assertEqual((refusal.number, refusal.line, buffer.raw), (0, 0, ALL_KINDS))

    def test_values_stay(self):
        snapshot = changed(8, "id", "GAS_1")
        before = copy.deepcopy(snapshot)
        self.unwritable(8, 75, snapshot)
        self.assertEqual(snapshot, before)

    def test_names_are_those_of_the_header(self):
        def names(name: str) -> dict:
            listed = re.search(rf"enum {name} {{(.*?)}};", HEADER, re.S).group(1)
            return {word: int(number) for word, number in re.findall(r"ORDC_(\w+) = (\d+)", listed)}

        kinds = [kind.name for kind in ordc.GeneratorKind] + ["CLR", "NCLR"]
        self.assertEqual(names("ordc_kind"), {name: number for number, name in enumerate(kinds)})
        self.assertEqual(names("ordc_status"), {status.name: number for number, status in enumerate(ordc.Status)})
        for name in ("HEADER", "ID_ROW", "NUMBER_ROW", "RESOURCES"):
            self.assertIn(f"ORDC_{name} = {getattr(_library, name)},", HEADER)

    def test_threads(self):
        answers = []
        threads = [threading.Thread(target=lambda: answers.append(VALUES.to_text())) for _ in range(8)]
        for thread in threads:
            thread.start()
        for thread in threads:
            thread.join()
        self.assertEqual(answers, [ALL_KINDS] * 8)


if __name__ == "__main__":
    unittest.main()
