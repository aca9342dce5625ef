#!/usr/bin/env python3
"""Instructions a line of `xfrm one` and of the baseline, and the functions in which `xfrm` spends most of them.

Callgrind counts them: what the program itself executes, not the system for it. Counts of two runs differ by little, so a small
batch is enough. As in speed.py the setup's count is taken off.

Usage: instructions.py [PROGRAM] [--policies N] [--states N] [--lines N] [--kinds WORD] [--top N]
"""

import argparse
import collections
import os
import re
import subprocess
import sys
import tempfile

import batches
import programs

ROW = re.compile(r"^ *([0-9,]+) +\([ 0-9.]+%\) +(.*)$")


def count(program, batch, folder):
    """Instructions by function."""
    profile, written = os.path.join(folder, "profile"), os.path.join(folder, "written")
    command = ["valgrind", "-q", "--tool=callgrind", f"--callgrind-out-file={profile}", program, "one"]
    with open(batch) as source, open(written, "w") as sink:
        subprocess.run(command, stdin=source, stdout=sink, check=True)
    shown = ["callgrind_annotate", "--threshold=100", "--auto=no", profile]
    text = subprocess.run(shown, check=True, capture_output=True, text=True).stdout
    counts = collections.Counter()
    for found in filter(None, map(ROW.match, text.splitlines())):
        if found[2] != "PROGRAM TOTALS":
            counts[function(found[2])] += int(found[1].replace(",", ""))
    return counts


def function(place):
    """The plain name of a function, without its file, its program and what tells its instances apart."""
    name = re.sub(r" \[[^\]]*\]$", "", place)
    name = re.sub(r"^[^ ]*?:(?!:)", "", name)
    name = re.sub(r"::<#[0-9a-f]+>|'[0-9]+$", "", name)
    return re.sub(r"^_*(mem[a-z]+)_.*", r"\1", name)


def counts_of_part(program, kind, policies, states, lines, folder):
    """Instructions by function for the measured lines, and how many lines these are."""
    numbers, counts = [], []
    for some in (lines, 0):
        batch = os.path.join(folder, "some.batch")
        physical = programs.write_batch(batch, batches.make(kind, policies, states, some))
        counts.append(count(program, batch, folder))
        written = programs.lines_of(os.path.join(folder, "written"))
        numbers.append(written if kind == "lists" else physical)
    counts[0].subtract(counts[1])
    return counts[0], numbers[0] - numbers[1]


def main():
    parser = argparse.ArgumentParser(description=__doc__.split("\n")[0])
    parser.add_argument("program", nargs="*", help="another program than the one that is built here")
    parser.add_argument("--policies", type=int, default=1000)
    parser.add_argument("--states", type=int, default=1000)
    parser.add_argument("--lines", type=int, default=4000, help="to be counted in each batch, about")
    parser.add_argument("--kinds", default="", help="those alone that begin so")
    parser.add_argument("--top", type=int, default=5, help="functions to be named")
    words = parser.parse_args()
    named, tops = programs.both(words.program), []
    print(f"At {words.policies:,} policies and {words.states:,} states:\n")
    print("| kind | lines | xfrm, instructions a line | baseline, instructions a line | ratio |")
    print("|---|---|---|---|---|")
    with tempfile.TemporaryDirectory() as folder:
        for kind in filter(lambda kind: kind.startswith(words.kinds), batches.KINDS):
            totals = {}
            for name, path in named.items():
                counts, lines = counts_of_part(path, kind, words.policies, words.states, words.lines, folder)
                totals[name] = sum(counts.values()) / lines
                if name == "xfrm":
                    tops.append((kind, counts))
            ours, other = totals["xfrm"], totals["baseline"]
            print(f"| {kind} | {lines:,} | {ours:,.0f} | {other:,.0f} | {ours / other:.2f} |", flush=True)
    print("\n| kind | where xfrm spends most of them |\n|---|---|")
    for kind, counts in tops:
        total = sum(counts.values())
        top = (f"`{name}` {100 * some / total:.0f}%" for name, some in counts.most_common(words.top))
        print(f"| {kind} | {', '.join(top)} |")


if __name__ == "__main__":
    sys.exit(main())
