"""Prices every snapshot of a folder on one curve text, and prints a table.

    python price_folder.py CURVES FOLDER
"""

import pathlib
import sys

import ordc

COLUMNS = ("snapshot", "rs", "rsns", "pis", "pins", "online", "offline")


def row(curves: ordc.CurveSet, path: pathlib.Path) -> tuple:
    try:
        p = ordc.price(curves, path.read_bytes())
    except ordc.Refused as refused:
        return (path.name, str(refused))
    return (path.name, p.rs, p.rsns, p.pis, p.pins, p.online, p.offline)


def main() -> int:
    if len(sys.argv) != 3:
        print(__doc__, file=sys.stderr)
        return 2
    curves = ordc.read_curves(pathlib.Path(sys.argv[1]).read_bytes())
    print("\t".join(COLUMNS))
    for path in sorted(pathlib.Path(sys.argv[2]).iterdir()):
        print("\t".join(str(cell) for cell in row(curves, path)))
    return 0


if __name__ == "__main__":
    sys.exit(main())
