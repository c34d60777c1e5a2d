#!/usr/bin/env python3
"""Makes wrong programs and sees that the inputs of programs.py tell each from the right one.

usage: wrong_mains.py REPOSITORY REFERENCE
A program's `main` has no contract, so a wrong one is proved as well as the right one. Each tests/wrong_mains/PROGRAM/*.edit is such a change of
the crate PROGRAM, in the form of a must-fail edit. It is made in a copy of the repository, which must have been proved, and the program is
proved and built there. The exit status is 1 where an edit does not fit, where its program is not built, or where no input tells it.
"""
import itertools
import os
import shutil
import subprocess
import sys
import tempfile
from concurrent.futures import ThreadPoolExecutor

from runs import cases, differences


def apply(edit, folder):
    """Makes the changes of an edit in a crate's folder."""
    file, old = None, None
    with open(edit) as lines:
        for line in lines.read().splitlines():
            word, _, rest = line.partition(": ")
            if word == "file":
                file = os.path.join(folder, rest)
            elif word == "old":
                old = rest
            elif word == "new":
                with open(file) as source:
                    text = source.read()
                if text.count(old) != 1:
                    sys.exit(f"{edit}: {old!r} stands {text.count(old)} times in {file}")
                with open(file, "w") as source:
                    source.write(text.replace(old, rest))
    if old is None:
        sys.exit(f"{edit}: it changes nothing")


def build(repository, copy, program, edit):
    """Proves and builds one wrong version of a program, which runs once on no input, and gives its command."""
    crate = os.path.join(copy, "crates", program)
    shutil.rmtree(crate)
    shutil.copytree(os.path.join(repository, "crates", program), crate, ignore=shutil.ignore_patterns("out"))
    apply(edit, crate)
    done = subprocess.run(["rt", "run"], cwd=crate, stdin=subprocess.DEVNULL, stdout=subprocess.PIPE, stderr=subprocess.STDOUT, text=True)
    if done.returncode != 0:
        print(done.stdout, end="")
        sys.exit(f"a wrong program is not built: {edit}")
    command = os.path.join(copy, f"{program}-{os.path.basename(edit)}")
    os.rename(os.path.join(crate, "out", program), command)
    return command


def main():
    repository, reference = sys.argv[1:3]
    folder = os.path.join(repository, "tests", "wrong_mains")
    programs = sorted(os.listdir(folder))
    edits = [sorted((program, os.path.join(folder, program, name)) for name in os.listdir(os.path.join(folder, program))) for program in programs]
    all_cases = {program: list(cases(program, reference)) for program in programs}
    told = True
    with tempfile.TemporaryDirectory() as copy:
        shutil.copy(os.path.join(repository, "crates.txt"), copy)
        # What the crates below are built to comes along; what their checks kept does not.
        shutil.copytree(os.path.join(repository, "crates"), os.path.join(copy, "crates"), ignore=shutil.ignore_patterns("incremental"))
        for together in itertools.zip_longest(*edits):
            together = [pair for pair in together if pair]
            with ThreadPoolExecutor() as pool:
                commands = list(pool.map(lambda pair: build(repository, copy, *pair), together))
            for (program, edit), command in zip(together, commands):
                name = f"{program}, {os.path.basename(edit)}"
                case, written = next(differences(command, all_cases[program]), (None, None))
                if case is None:
                    told = False
                    print(f"{name}: NOT TOLD by any of {len(all_cases[program])} inputs")
                else:
                    print(f"{name}: told by the input `{case.name}`: {written[0][:60]!r} and not {case.expected[0][:60]!r}")
    sys.exit(0 if told else 1)


if __name__ == "__main__":
    main()
