"""Changes one reading of a snapshot in memory, and prices the snapshot as it was and as it is then.

    python edit_snapshot.py CURVES SNAPSHOT ID KEY VALUE

KEY is a key of the resource with that ID, such as status or hsl. A number that is changed here is good: where it was
marked suspect, the mark goes.
"""

import pathlib
import sys

import ordc

COLUMNS = ("snapshot", "rs", "rsns", "pis", "pins", "online", "offline")


def row(name: str, p: ordc.Prices) -> str:
    return "\t".join(str(cell) for cell in (name, p.rs, p.rsns, p.pis, p.pins, p.online, p.offline))


def change(snapshot: ordc.Snapshot, id: str, key: str, value: str) -> None:
    for resource in snapshot.resources:
        if resource.id == id and hasattr(resource, key) and key != "marks":
            # A word stays a word; every other reading is a whole number.
            setattr(resource, key, value if isinstance(getattr(resource, key), str) else int(value))
            if hasattr(resource.marks, key):
                setattr(resource.marks, key, False)
            return
    raise SystemExit(f"the snapshot has no {key} of {id}")


def main() -> int:
    if len(sys.argv) != 6:
        print(__doc__, file=sys.stderr)
        return 2
    curves_path, snapshot_path, id, key, value = sys.argv[1:]
    try:
        curves = ordc.read_curves(pathlib.Path(curves_path).read_bytes())
        snapshot = ordc.Snapshot.from_text(pathlib.Path(snapshot_path).read_bytes())
        before = ordc.price(curves, snapshot.to_text())
        change(snapshot, id, key, value)
        # The text to price, to keep or to hand on.
        text = snapshot.to_text()
        after = ordc.price(curves, text)
    except ordc.Refused as refused:
        print(refused, file=sys.stderr)
        return 1
    print("\t".join(COLUMNS))
    print(row("as read", before))
    print(row(f"{id} {key}={value}", after))
    return 0


if __name__ == "__main__":
    sys.exit(main())
