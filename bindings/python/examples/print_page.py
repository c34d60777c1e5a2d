"""Prints the page of a curve text: a row for each season and block.

    python print_page.py CURVES
"""

import pathlib
import sys

import ordc


def main() -> int:
    if len(sys.argv) != 2:
        print(__doc__, file=sys.stderr)
        return 2
    try:
        curves = ordc.read_curves(pathlib.Path(sys.argv[1]).read_bytes())
    except ordc.Refused as refused:
        print(f"{sys.argv[1]}: {refused}", file=sys.stderr)
        return 1
    sys.stdout.buffer.write(ordc.write_page(curves))
    return 0


if __name__ == "__main__":
    sys.exit(main())
