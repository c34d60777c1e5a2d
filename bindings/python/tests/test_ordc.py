"""python -m unittest discover -s bindings/python/tests"""

import ctypes
import pathlib
import re
import threading
import unittest
from unittest import mock

import ordc
from ordc import _library

EXAMPLES = pathlib.Path(__file__).resolve().parents[1] / "examples"
CURVES = (EXAMPLES / "listing.curves").read_bytes()
LISTING = (EXAMPLES / "snapshots" / "1-listing.txt").read_bytes()
PRICES = ordc.Prices(2707000, 3000000, 158655254, 158655254, 142393, 71197)
# the examples of docs/FORMAT.md
ALL_KINDS = (EXAMPLES / "snapshots" / "5-all-kinds.txt").read_bytes()
THREE_RUNS = (EXAMPLES / "hour.txt").read_bytes()
FORMAT = (EXAMPLES.parents[2] / "docs" / "FORMAT.md").read_bytes()
README = (EXAMPLES.parents[2] / "README.md").read_bytes()
# Rows of a page, each with its group, mean and spread, worked out by hand. On a reserve of X + d the probability is
# 1000000000 - N(p) with p = 100 * (d - mean) / spread, for d = 1000000, 2000000, 3000000 and 4000000. N is 1000000000
# from p = 500 on; below 0 it is 1000000000 - N(-p), so that the probability is N(-p). At a whole p it is a knot of the
# normal table, which the table's rule gives by fractions of whole numbers: T(0) 500000000, T(100) 841344746,
# T(105) 853140944, T(110) 864333939, T(115) 874928064, T(120) 884930330, T(200) 977249868.
ROWS = {
    # p = -100, 0, 100, 200
    (0, 2000000, 1000000): b"winter 0   2000000  1000000  841344746  500000000  158655254   22750132\n",
    # the longest mean and the longest spread; p = 2100000000 / 20000000 = 105, then 110, 115, 120
    (5, -20000000, 20000000): b"winter 5 -20000000 20000000  146859056  135666061  125071936  115069670\n",
    # the longest probability; p is -1900000000 to -1600000000
    (6, 20000000, 1): b"spring 0  20000000        1 1000000000 1000000000 1000000000 1000000000\n",
    # p is 2100000000 to 2400000000
    (11, -20000000, 1): b"spring 5 -20000000        1          0          0          0          0\n",
    # p = 70.7, between T(70) 758036348 and T(71) 761147932: N = 758036348 + floor(0.7 * 3111584) = 760214456; then p is
    # 10070.7 and more
    (12, 992930, 10000): b"summer 0    992930    10000  239785544          0          0          0\n",
    # docs/FORMAT.md works this one out
    (16, 712666, 1124667): b"summer 4    712666  1124667  399176016  126182998   20987705    1733886\n",
    # p = -70.7: N(70.7) itself; then p is 9929.3 and more
    (18, 1007070, 10000): b"fall   0   1007070    10000  760214456          0          0          0\n",
    # p = 499.5, between T(499) 999999698 and T(500) 999999713: N = 999999698 + floor(0.5 * 15) = 999999705; then p is
    # 999.5 and more
    (23, 1000, 200000): b"fall   5      1000   200000        295          0          0          0\n",
}
# The page of listing.curves: p = 100, 200, 300, 400 in every group, with T(300) 998650102 and T(400) 999968329.
LISTING_PAGE = b"".join(
    b"%-6s %d         0  1000000  158655254   22750132    1349898      31671\n" % (season, block)
    for season in (b"winter", b"spring", b"summer", b"fall")
    for block in range(6)
)
HOUR = (
    "month={}\nhour={}\nongen={}\nload=0\ntie=0\nns=0\nreg=0\nrrs=0\nnclr=0\noffns=0\ncold30=0\nshed=0\nruns=1\n"
    "hsl=1000\nbase=0\nrrs=0\nnclr=0\nreg=0\nns=0\noffns=0\ncold30=0\nshort=0\n"
)
# The months of each season and the hour endings of each block, as they are posted; hour h is hour ending h + 1.
SEASONS = ((12, 1, 2), (3, 4, 5), (6, 7, 8), (9, 10, 11))
POSTED = ((23, 24, 1, 2), (3, 4, 5, 6), (7, 8, 9, 10), (11, 12, 13, 14), (15, 16, 17, 18), (19, 20, 21, 22))
# Means and spreads on both sides of each power of ten, in rows of four. Above a row stand the bytes of its means and
# spreads, the sign counted, and their sum.
POWERS = (
    # 2 + 1, 3 + 1, 3 + 2, 4 + 2: 18
    (-9, 1), (-10, 9), (-99, 10), (-100, 99),
    # 4 + 3, 5 + 3, 5 + 4, 6 + 4: 34
    (-999, 100), (-1000, 999), (-9999, 1000), (-10000, 9999),
    # 6 + 5, 7 + 5, 7 + 6, 8 + 6: 50
    (-99999, 10000), (-100000, 99999), (-999999, 100000), (-1000000, 999999),
    # 8 + 7, 9 + 7, 1 + 8, 2 + 8: 50
    (-9999999, 1000000), (-10000000, 9999999), (9, 10000000), (10, 19999999),
    # 2 + 1, 3 + 2, 3 + 2, 4 + 3: 20
    (99, 9), (100, 10), (999, 99), (1000, 100),
    # 4 + 3, 5 + 4, 1 + 1, 2 + 1: 21
    (9999, 999), (10000, 1000), (0, 1), (-1, 1),
)
# VOLL, X and the pairs of curve sets, each with the length of its text, worked out by hand. Keys, `=` and byte 10 have
# 277 bytes: `voll=` 6 and `floor=` 7 with byte 10, and in each of the 24 groups `mu=` 4 and `sigma=` 7. The rest are
# the bytes of the 50 numbers, the sign counted.
LENGTHS = (
    # the shortest: 277 + 50
    (0, 0, ((0, 1),) * 24, 327),
    # the longest: 277 + 7 + 8 + 24 * (9 + 8)
    (2000000, 20000000, ((-20000000, 20000000),) * 24, 700),
    # the listing: 277 + 6 + 7 + 24 * (1 + 7)
    (900000, 2000000, ((0, 1000000),) * 24, 482),
    # 277 + 1 + 8 + 18 + 34 + 50 + 50 + 20 + 21
    (9, 10000000, POWERS, 479),
)


def sets_and_lengths():
    """The curve sets of LENGTHS, each with its text and the text's length."""
    for voll, floor, pairs, length in LENGTHS:
        lines = b"".join(b"mu=%d\nsigma=%d\n" % pair for pair in pairs)
        curves = ordc.CurveSet(voll, floor, tuple(ordc.Pair(*pair) for pair in pairs))
        yield curves, b"voll=%d\nfloor=%d\n" % (voll, floor) + lines, length


def hour(group: int, error: int) -> bytes:
    return HOUR.format(SEASONS[group // 6][1], POSTED[group % 6][0] - 1, error + 1000).encode()


def booked(*errors: int) -> ordc.Record:
    record = ordc.Record()
    for group in range(ordc.GROUPS):
        for error in errors:
            record = ordc.book(record, hour(group, error))
    return record


def with_pair(curves: ordc.CurveSet, group: int, mean: int, spread: int) -> ordc.CurveSet:
    pairs = list(curves.pairs)
    pairs[group] = ordc.Pair(mean, spread)
    return ordc.CurveSet(curves.voll, curves.floor, tuple(pairs))


class Operations(unittest.TestCase):
    def refused(self, number: int, line: int, operation, *arguments) -> None:
        with self.assertRaises(ordc.Refused) as caught:
            operation(*arguments)
        self.assertEqual((caught.exception.number, caught.exception.line), (number, line))
        self.assertEqual(caught.exception.explanation, ordc.EXPLANATIONS[number])

    def test_listing(self):
        self.assertEqual(ordc.price(ordc.read_curves(CURVES), LISTING), PRICES)

    def test_all_kinds(self):
        expected = ordc.Prices(2626301, 3194701, 187850153, 116104844, 136096, 51986)
        self.assertEqual(ordc.price(ordc.read_curves(CURVES), ALL_KINDS), expected)

    def test_hour_of_three_runs(self):
        error = 1837334
        record = ordc.book(ordc.Record(), THREE_RUNS)
        self.assertEqual(record.groups[16], ordc.Group(1, error, error * error))
        self.assertEqual(sum(group.count for group in record.groups), 1)

    def test_blocks_are_the_posted_ones(self):
        # History and snapshot have the groups of the posted table, in every month and hour. With mean -20000000 the
        # probability is 0 on every reserve above X, and 1 with mean 20000000.
        listed = ordc.read_curves(CURVES)
        never = ordc.CurveSet(listed.voll, listed.floor, (ordc.Pair(-20000000, 1),) * ordc.GROUPS)
        for group in range(ordc.GROUPS):
            only = with_pair(never, group, 20000000, 1)
            for month in SEASONS[group // 6]:
                for clock in (ending - 1 for ending in POSTED[group % 6]):
                    with self.subTest(month=month, hour=clock):
                        record = ordc.book(ordc.Record(), HOUR.format(month, clock, 1003).encode())
                        expected = [ordc.Group()] * ordc.GROUPS
                        expected[group] = ordc.Group(1, 3, 9)
                        self.assertEqual(list(record.groups), expected)
                        snapshot = LISTING.replace(b"month=7\nhour=14\n", b"month=%d\nhour=%d\n" % (month, clock))
                        prices = ordc.price(only, snapshot)
                        self.assertEqual((prices.pis, prices.pins), (1000000000, 1000000000))
                        prices = ordc.price(never, snapshot)
                        self.assertEqual((prices.pis, prices.pins), (0, 0))

    def test_one_version(self):
        # What a host notes beside a record or a curve text, since nothing in them tells by which blocks they were made.
        top = EXAMPLES.parents[2]
        places = {
            "Makefile": r"^VERSION := (\S+)$",
            "CHANGELOG.md": r"^## (\d\S*)$",  # the newest version, below what is not in one yet
            "bindings/rust/Cargo.toml": r'^version = "(\S+)"$',
            "bindings/python/pyproject.toml": r'^version = "(\S+)"$',
        }
        found = {place: re.search(line, (top / place).read_text(), re.M).group(1) for place, line in places.items()}
        self.assertEqual(len(set(found.values())), 1, found)

    def test_examples_stand_in_the_document(self):
        # docs/FORMAT.md has several lines of a text in one line, with a space for each byte 10 but the last of the line.
        document = FORMAT.replace(b" ", b"\n")
        self.assertIn(b"\n" + ALL_KINDS, document)
        self.assertIn(b"\n" + THREE_RUNS, document)

    def test_settling(self):
        curves = ordc.settle(booked(-1, 2), 900000, 2000000)
        self.assertEqual(set(curves.pairs), {ordc.Pair(0, 1)})
        self.assertEqual(ordc.read_curves(ordc.write_curves(curves)), curves)

    def test_written_back(self):
        self.assertEqual(ordc.write_curves(ordc.read_curves(CURVES)), CURVES)

    def test_lengths_worked_out_by_hand(self):
        for curves, text, length in sets_and_lengths():
            with self.subTest(length=length):
                self.assertEqual(ordc.curves_length(curves), length)
                self.assertEqual(ordc.write_curves(curves), text)
                self.assertEqual(len(text), length)

    def test_nothing_set_aside_lies_unused(self):
        for curves, _, length in sets_and_lengths():
            with mock.patch("ctypes.create_string_buffer", wraps=ctypes.create_string_buffer) as made:
                ordc.write_curves(curves)
            made.assert_called_once_with(length)

    def test_curve_text_buffers(self):
        # write_curves lends a buffer of just the text's length; shorter and longer ones go to the library's function.
        def written(curves: ordc.CurveSet, size: int) -> tuple:
            buffer = ctypes.create_string_buffer(b"x" * 1000, 1000)
            length = ctypes.c_size_t(77)
            lent = (ctypes.byref(curves._array()), buffer, size, ctypes.byref(length))
            refusal = _library.library.ordc_write_curves(*lent)
            return refusal.number, refusal.line, length.value, buffer.raw

        for curves, text, length in sets_and_lengths():
            for size in (0, 1, length - 1):
                self.assertEqual(written(curves, size), (14, 0, 77, b"x" * 1000))
            for size in (length, length + 1, 1000):
                self.assertEqual(written(curves, size), (0, 0, length, text.ljust(1000, b"x")))
            # 1 comes before 14
            for size in (0, length - 1, length, 1000):
                self.assertEqual(written(with_pair(curves, 23, 0, 0), size), (1, 0, 77, b"x" * 1000))

    def test_refused_length_stays(self):
        curves = with_pair(ordc.read_curves(CURVES), 23, 0, 0)
        length = ctypes.c_size_t(77)
        refusal = _library.library.ordc_curves_length(ctypes.byref(curves._array()), ctypes.byref(length))
        self.assertEqual((refusal.number, refusal.line, length.value), (1, 0, 77))

    def test_page_of_the_listing(self):
        self.assertEqual(len(LISTING_PAGE), 1728)
        self.assertEqual(ordc.write_page(ordc.read_curves(CURVES)), LISTING_PAGE)

    def test_rows_worked_out_by_hand(self):
        curves = ordc.read_curves(CURVES)
        rows = LISTING_PAGE.splitlines(keepends=True)
        for (group, mean, spread), row in ROWS.items():
            self.assertEqual(len(row), 72)
            curves = with_pair(curves, group, mean, spread)
            rows[group] = row
        # neither VOLL nor X shows
        for voll, floor in ((900000, 2000000), (0, 0), (2000000, 20000000)):
            self.assertEqual(ordc.write_page(ordc.CurveSet(voll, floor, curves.pairs)), b"".join(rows))

    def test_pages_stand_in_the_documents(self):
        self.assertIn(ROWS[16, 712666, 1124667], FORMAT)
        first = LISTING_PAGE.splitlines(keepends=True)[:3]
        self.assertIn(b"".join(b"    " + row for row in first), README)

    def test_impossible_sets_have_neither_text_nor_page(self):
        curves = ordc.read_curves(CURVES)
        impossible = [ordc.CurveSet(voll, 0, curves.pairs) for voll in (-1, 2000001)]
        impossible += [ordc.CurveSet(0, floor, curves.pairs) for floor in (-1, 20000001)]
        for group in range(ordc.GROUPS):
            impossible += [with_pair(curves, group, mean, 1) for mean in (-20000001, 20000001)]
            impossible += [with_pair(curves, group, 0, spread) for spread in (-1, 0, 20000001)]
        for curves in impossible:
            self.refused(1, 0, ordc.curves_length, curves)
            self.refused(1, 0, ordc.write_curves, curves)
            self.refused(1, 0, ordc.write_page, curves)

    def test_page_buffers(self):
        # write_page lends a buffer that is long enough; shorter and longer ones go to the library's function.
        def written(curves: ordc.CurveSet, size: int) -> tuple:
            buffer = ctypes.create_string_buffer(b"x" * 2000, 2000)
            refusal = _library.library.ordc_write_page(ctypes.byref(curves._array()), buffer, size)
            return refusal.number, refusal.line, buffer.raw

        curves = ordc.read_curves(CURVES)
        for size in (0, 1, 1727):
            self.assertEqual(written(curves, size), (14, 0, b"x" * 2000))
        for size in (1728, 1729, 2000):
            self.assertEqual(written(curves, size), (0, 0, LISTING_PAGE + b"x" * 272))
        # 1 comes before 14
        for size in (0, 1, 1727, 1728, 1729, 2000):
            self.assertEqual(written(with_pair(curves, 23, 0, 0), size), (1, 0, b"x" * 2000))
        explained = "refused by 14: The buffer is shorter than the text or the page, or the rows are fewer than the resources."
        self.assertEqual(str(ordc.Refused(14, 0)), explained)

    def test_every_refusal(self):
        curves = ordc.read_curves(CURVES)
        below = ordc.Record((ordc.Group(-1, 0, 0),) + (ordc.Group(),) * 23)
        full = ordc.Record((ordc.Group(1000, 0, 0),) + (ordc.Group(),) * 23)
        self.refused(1, 0, ordc.book, below, hour(0, 0))
        self.refused(1, 0, ordc.settle, below, 0, 0)
        self.refused(1, 0, ordc.curves_length, ordc.CurveSet(-1, 0, curves.pairs))
        self.refused(1, 0, ordc.write_curves, ordc.CurveSet(-1, 0, curves.pairs))
        self.refused(1, 0, ordc.write_page, ordc.CurveSet(-1, 0, curves.pairs))
        self.refused(1, 0, ordc.price, ordc.CurveSet(-1, 0, curves.pairs), LISTING)
        self.refused(2, 0, ordc.read_curves, b"x" * 4097)
        self.refused(2, 0, ordc.book, ordc.Record(), b"x" * 65537)
        self.refused(2, 0, ordc.price, curves, b"x" * 1048577)
        self.refused(3, 1, ordc.read_curves, b"")
        self.refused(3, 1, ordc.book, ordc.Record(), b"month=1")
        self.refused(4, 2, ordc.read_curves, b"voll=1\nmu=1\n")
        self.refused(5, 14, ordc.price, curves, LISTING.replace(b"hsl=2000000", b"hsl="))
        self.refused(6, 1, ordc.read_curves, b"voll=01\n")
        self.refused(7, 1, ordc.read_curves, b"voll=2000001\n")
        self.refused(7, 0, ordc.settle, booked(-1, 2), 2000001, 0)
        self.refused(8, 18, ordc.price, curves, LISTING.replace(b"id=B", b"id=A"))
        self.refused(9, 51, ordc.read_curves, CURVES + b"x")
        self.refused(10, 0, ordc.book, full, hour(0, 0))
        self.refused(11, 0, ordc.book, ordc.Record(), hour(0, 20000001))
        self.refused(12, 0, ordc.settle, ordc.Record(), 0, 0)
        self.refused(13, 0, ordc.settle, booked(5, 5), 0, 0)
        self.refused(15, 32, ordc.price, curves, LISTING.replace(b"hsl=293000", b"hsl=293000?"))
        # 14 comes of no operation here, all of which lend enough; test_page_buffers and others have it.
        self.assertEqual(list(ordc.EXPLANATIONS), list(range(1, 16)))

    def test_numbers_that_do_not_fit(self):
        with self.assertRaises(OverflowError):
            ordc.settle(ordc.Record(), 2**63, 0)
        for operation in (ordc.curves_length, ordc.write_curves, ordc.write_page):
            with self.assertRaises(OverflowError):
                operation(ordc.CurveSet(2**64, 0, ordc.read_curves(CURVES).pairs))
        with self.assertRaises(ValueError):
            ordc.settle(ordc.Record(()), 0, 0)

    def test_threads(self):
        curves, answers = ordc.read_curves(CURVES), []
        threads = [threading.Thread(target=lambda: answers.append(ordc.price(curves, LISTING))) for _ in range(8)]
        for thread in threads:
            thread.start()
        for thread in threads:
            thread.join()
        self.assertEqual(answers, [PRICES] * 8)


if __name__ == "__main__":
    unittest.main()
