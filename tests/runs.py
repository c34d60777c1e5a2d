"""Runs a program on its inputs, whole, in parts and with a read that fails, and compares what it writes with what it must write.

What it must write comes from the second implementation, never from a program under test.
"""
import fcntl
import os
import random
import select
import socket
import subprocess
import sys
import termios
from collections import namedtuple
from concurrent.futures import ThreadPoolExecutor

import inputs

# An input with its name: `run` takes a command and gives what that wrote on standard output and standard error.
Case = namedtuple("Case", "name run expected")

PIPE = subprocess.PIPE


def run_each(reference, program, texts):
    """What the second implementation prints for each of many inputs, in one run."""
    joined = b"".join(len(text).to_bytes(8, "little") + text for text in texts)
    written = subprocess.run([reference, "each", program], input=joined, stdout=PIPE, check=True).stdout
    outputs, at = [], 0
    while at < len(written):
        end = at + 8 + int.from_bytes(written[at : at + 8], "little")
        outputs.append(written[at + 8 : end])
        at = end
    if len(outputs) != len(texts):
        sys.exit(f"{reference} each {program}: {len(outputs)} outputs for {len(texts)} inputs")
    return outputs


def whole(data):
    """Hands over the input at once."""

    def run(command):
        done = subprocess.run([command], input=data, stdout=PIPE, stderr=PIPE, check=True)
        return done.stdout, done.stderr

    return run


def read_up(pipe):
    """Waits until a program has read all that was written to its pipe; false where it has ended."""
    closed = select.poll()
    closed.register(pipe, 0)
    while int.from_bytes(fcntl.ioctl(pipe, termios.FIONREAD, bytes(4)), sys.byteorder) > 0:
        if closed.poll(0):
            return False
        os.sched_yield()
    return True


def in_parts(parts):
    """Hands over each part once the one before has been read, so that no read gets bytes of two parts."""

    def run(command):
        with subprocess.Popen([command], stdin=PIPE, stdout=PIPE, stderr=PIPE, bufsize=0) as process:
            try:
                for part in parts:
                    process.stdin.write(part)
                    if not read_up(process.stdin.fileno()):
                        break
            except BrokenPipeError:
                pass  # it has ended at a refusal
            process.stdin.close()
            written = process.stdout.read(), process.stderr.read()
        return written

    return run


def failing(data):
    """Hands over bytes, after which the next read fails: our end of the connection is closed with a byte that nobody has read."""

    def run(command):
        ours, theirs = socket.socketpair()
        theirs.sendall(b"\n")
        with subprocess.Popen([command], stdin=theirs, stdout=PIPE, stderr=PIPE) as process:
            theirs.close()
            try:
                ours.sendall(data)
            except (BrokenPipeError, ConnectionResetError):
                pass  # it has ended at a refusal
            ours.close()
            written = process.stdout.read(), process.stderr.read()
        return written

    return run


def directory():
    """Standard input is a directory, whose first read fails."""

    def run(command):
        root = os.open("/", os.O_RDONLY)
        try:
            done = subprocess.run([command], stdin=root, stdout=PIPE, stderr=PIPE, check=True)
        finally:
            os.close(root)
        return done.stdout, done.stderr

    return run


def cases(program, reference):
    """Every input of a program: first those in parts, then those with a read that fails, then the whole ones."""
    rng = random.Random(20261115)
    cut = list(inputs.IN_PARTS[program](rng))
    outputs = run_each(reference, program, [b"".join(parts) for _, parts in cut])
    for (name, parts), output in zip(cut, outputs):
        yield Case(name, in_parts(parts), (output, b""))
    unread = b"", f"{program}: standard input could not be read\n".encode()
    yield Case("a directory", directory(), unread)
    stopped = list(inputs.FAILING[program](rng))
    outputs = run_each(reference, program, [data for _, data, _ in stopped])
    for (name, data, reached), output in zip(stopped, outputs):
        yield Case(f"a read that fails after {name}", failing(data), unread if reached else (output, b""))
    uncut = list(inputs.WHOLE[program](rng))
    outputs = run_each(reference, program, [data for _, data in uncut])
    for (name, data), output in zip(uncut, outputs):
        yield Case(name, whole(data), (output, b""))


def differences(command, all_cases):
    """Yields each case in which the program writes something else, with what it writes."""

    def compare(case):
        return case, case.run(command)

    with ThreadPoolExecutor(max_workers=2) as pool:
        for start in range(0, len(all_cases), 400):
            for case, written in pool.map(compare, all_cases[start : start + 400]):
                if written != case.expected:
                    yield case, written
