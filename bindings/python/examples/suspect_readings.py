"""Lists the readings that are marked suspect, and prices the snapshots that they do not turn back.

    python suspect_readings.py CURVES SNAPSHOT...

On a unit that enters a sum, or may enter one, a marked reading turns its snapshot back until somebody corrects it or
takes the unit out of service. On any other unit it changes no price.
"""

import dataclasses
import pathlib
import sys
from typing import Iterator

import ordc


def marked(snapshot: ordc.Snapshot) -> Iterator[str]:
    for resource in snapshot.resources:
        for key in (mark.name for mark in dataclasses.fields(resource.marks)):
            if getattr(resource.marks, key):
                yield f"{resource.id} {key}={getattr(resource, key)}"


def reading(text: bytes, line: int) -> str:
    """The reading in this line, after the id of its resource."""
    lines = text.decode("ascii").splitlines()[:line]
    ids = [value for key, value in (above.split("=", 1) for above in lines) if key == "id"]
    return f"{ids[-1]} {lines[-1]}"


def report(curves: ordc.CurveSet, text: bytes) -> Iterator[str]:
    try:
        prices = ordc.price(curves, text)
    except ordc.Refused as refused:
        # The line of a suspect number is always that of a reading, and all lines above it are well written.
        yield f"{reading(text, refused.line)}: {refused}" if refused.number == 15 else str(refused)
        return
    for listed in marked(ordc.Snapshot.from_text(text)):
        yield f"{listed} is marked, and counts nowhere"
    yield f"rs={prices.rs} rsns={prices.rsns} online={prices.online} offline={prices.offline}"


def main() -> int:
    if len(sys.argv) < 3:
        print(__doc__, file=sys.stderr)
        return 2
    curves = ordc.read_curves(pathlib.Path(sys.argv[1]).read_bytes())
    for path in map(pathlib.Path, sys.argv[2:]):
        for line in report(curves, path.read_bytes()):
            print(f"{path.name}: {line}")
    return 0


if __name__ == "__main__":
    sys.exit(main())
