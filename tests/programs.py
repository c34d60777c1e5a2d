#!/usr/bin/env python3
"""Runs the programs `curves`, `price` and `page` beside the second implementation.

usage: programs.py DIRECTORY REFERENCE
DIRECTORY holds the built programs, REFERENCE is the second implementation's command. Both get the same standard input, at once and in parts,
and must print the same bytes; where a read fails, a program must print nothing on standard output and a sentence on standard error. The last
line counts the inputs; the exit status is 1 where one differs, or where memory grows with the input.
"""
import os
import random
import subprocess
import sys

from inputs import history
from runs import cases, differences, run_each


def peak(command, data):
    """What the program prints, and its peak memory in KiB, read while it waits for more input: a wrapper's own memory would hide it."""
    with subprocess.Popen([command], stdin=subprocess.PIPE, stdout=subprocess.PIPE) as process:
        process.stdin.write(data)
        process.stdin.flush()
        with open(f"/proc/{process.pid}/status") as status:
            found = [int(line.split()[1]) for line in status if line.startswith("VmHWM")]
        process.stdin.close()
        return process.stdout.read(), found[0]


def main():
    directory, reference = sys.argv[1:3]
    count, wrong = 0, 0
    for program in ("curves", "price", "page"):
        command = os.path.join(directory, program)
        if not os.path.exists(command):
            sys.exit(f"{command} is not built")
        found = list(cases(program, reference))
        count += len(found)
        for case, written in differences(command, found):
            wrong += 1
            print(f"{program}: {case.name}: {written!r} and not {case.expected!r}")
    # Years of hours in constant memory: the peak may not grow with the input, whose size differs by 35 MB. The system counts pages in steps of
    # some hundred KiB.
    curves, rng = os.path.join(directory, "curves"), random.Random(20261116)
    small, large = history(2, 12, rng), history(50, 12, rng, times=20)
    (_, low), (printed, high) = peak(curves, small), peak(curves, large)
    if [printed] != run_each(reference, "curves", [large]):
        wrong += 1
        print("curves: 24000 hours: the outputs differ")
    count += 1
    print(f"curves on 48 hours and on 24000 hours ({len(large)} bytes): peak memory {low} and {high} KiB")
    if high > low + 1024:
        wrong += 1
        print("curves: peak memory grows with the input")
    print(f"programs: {count - wrong} of {count} inputs give what they must")
    sys.exit(1 if wrong else 0)


if __name__ == "__main__":
    main()
