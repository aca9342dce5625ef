"""Runs the programs that are measured."""

import filecmp
import os
import subprocess
import sys
from dataclasses import dataclass

HERE = os.path.dirname(os.path.abspath(__file__))
XFRM = os.path.join(HERE, "..", "crates", "xfrm_cli", "out", "xfrm_cli")
BASELINE = os.path.join(HERE, "baseline", "target", "release", "baseline")


def both(words):
    """The two programs by name: `xfrm` as built here unless the words name another one."""
    programs = {"xfrm": os.path.abspath(words[0] if words else XFRM), "baseline": BASELINE}
    for path in programs.values():
        if not os.access(path, os.X_OK):
            sys.exit(f"there is no program {path}: see README.md")
    return programs


@dataclass
class Run:
    seconds: float  # of the processor, in the program and in the system for it
    system: float  # those in the system
    status: int
    written: str  # the file


def run(program, batch, written):
    with open(batch) as source, open(written, "w") as sink:
        child = subprocess.Popen([program, "one"], stdin=source, stdout=sink)
        _, status, used = os.wait4(child.pid, 0)
        child.returncode = os.waitstatus_to_exitcode(status)
    return Run(used.ru_utime + used.ru_stime, used.ru_stime, child.returncode, written)


def compare(batch, runs):
    """Ends where the programs differ, in what they wrote or in their status, or where one didn't end with status 0."""
    first = runs[0]
    for other in runs:
        if other.status != first.status or not filecmp.cmp(first.written, other.written, shallow=False):
            sys.exit(f"the programs differ on {batch}: statuses {first.status}, {other.status}; {first.written}, {other.written}")
    if first.status:
        sys.exit(f"status {first.status} on {batch}: see {first.written}")


def write_batch(path, lines):
    """Writes a batch and gives the number of its physical lines."""
    count = 0
    with open(path, "w") as batch:
        for line in lines:
            batch.write(line + "\n")
            count += 1 + line.count("\n")
    return count


def lines_of(path):
    with open(path, "rb") as file:
        return sum(block.count(b"\n") for block in iter(lambda: file.read(1 << 20), b""))
