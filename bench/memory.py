#!/usr/bin/env python3
"""The most memory that `xfrm one` and the baseline hold at once (peak resident set), at 1, 10 and 100 phases of equal size.

Each phase has the same text of nearly as many call lines as a phase may have: it fills both databases, asks them, lists them and
empties them. So what one phase needs is enough for all, and the script's status is 1 where `xfrm` needs a tenth more.

Usage: memory.py [PROGRAM] [--phases N,..] [--policies N]
"""

import argparse
import os
import random
import subprocess
import sys
import tempfile

import batches
import programs


def phase(policies):
    """The lines of a phase, of four workers."""
    tables = batches.Tables("mixed", policies, policies, random.Random(7))
    lines = [*tables.add_policies(), *tables.add_states(), "xfrm policy list", "xfrm state list"]
    left = batches.CALLS_OF_A_PHASE - len(lines) - 2
    lines += [*batches.flows(tables, left // 2), *batches.sends(tables, left // 8), *batches.packets(tables, left // 4)]
    lines += ["xfrm state flush", "xfrm policy flush"]
    return list(batches.in_phases(lines, workers=4))


def write(path, lines, phases):
    text = "".join(line + "\n" for line in lines)
    with open(path, "w") as batch:
        for k in range(phases):
            batch.write(("sync\n" if k else "") + text)


def peak(name, program, batch, folder):
    """Kibibytes, and the run. The small program `time` starts it, since a child's peak counts what its parent held."""
    told, written = os.path.join(folder, "told"), os.path.join(folder, name)
    with open(batch) as source, open(written, "w") as sink:
        command = ["/usr/bin/time", "-q", "-f", "%M", "-o", told, program, "one"]
        status = subprocess.run(command, stdin=source, stdout=sink).returncode
    with open(told) as answer:
        return int(answer.read()), programs.Run(0, 0, status, written)


def main():
    parser = argparse.ArgumentParser(description=__doc__.split("\n")[0])
    parser.add_argument("program", nargs="*", help="another program than the one that is built here")
    parser.add_argument("--phases", default="1,10,100")
    parser.add_argument("--policies", type=int, default=1000, help="and states, at most 4,096")
    words = parser.parse_args()
    named, lines, needed = programs.both(words.program), phase(words.policies), []
    print("| phases | input, KiB | xfrm, peak KiB | baseline, peak KiB |\n|---|---|---|---|")
    with tempfile.TemporaryDirectory() as folder:
        batch = os.path.join(folder, "phases.batch")
        for phases in map(int, words.phases.split(",")):
            write(batch, lines, phases)
            ours, other = (peak(name, program, batch, folder) for name, program in named.items())
            programs.compare(batch, [ours[1], other[1]])
            needed.append(ours[0])
            size = os.path.getsize(batch) // 1024
            print(f"| {phases} | {size:,} | {ours[0]:,} | {other[0]:,} |", flush=True)
    return int(max(needed) > 1.1 * needed[0])


if __name__ == "__main__":
    sys.exit(main())
