#!/usr/bin/env python3
"""What calls on the policies in words load and cost, at 100, 1,000 and 4,000 policies of the kinds of batches.py.

The program that answers them is words/main.rt.txt. It is built in a copy of the crates, beside the checkout's own, and the gate
knows nothing of it: its proofs take some minutes the first time. Loads are exact; nanoseconds are the best of some rounds.

Usage: words.py [--rounds N] [--keep FOLDER]
"""

import argparse
import os
import random
import shutil
import subprocess
import sys
import tempfile

import batches

HERE = os.path.dirname(os.path.abspath(__file__))
NAME = "words_bench"
LINE = f"{NAME}: xf_types xf_io xf_read xf_batch xf_beside\n"
SIZES = (100, 1000, 4000)
LINES = 8000


def build(folder):
    """The program, built in a copy of the crates."""
    top = os.path.join(HERE, "..")
    crates = os.path.join(folder, "crates")
    if not os.path.exists(crates):
        shutil.copytree(os.path.join(top, "crates"), crates)
    with open(os.path.join(top, "crates.txt")) as source, open(os.path.join(folder, "crates.txt"), "w") as sink:
        sink.write(source.read() + LINE)
    shutil.copy(os.path.join(top, "HANDLES"), folder)
    crate = os.path.join(crates, NAME)
    os.makedirs(os.path.join(crate, "src"), exist_ok=True)
    shutil.copy(os.path.join(HERE, "words", "main.rt.txt"), os.path.join(crate, "src", "main.rt"))
    built = subprocess.run(["rt", "run"], cwd=crate, stdin=subprocess.DEVNULL, capture_output=True, text=True)
    program = os.path.join(crate, "out", NAME)
    if not os.access(program, os.X_OK):
        sys.exit(built.stdout + built.stderr)
    return program


def measured(program, setup, lines):
    """Calls, loads and nanoseconds of the lines, which come in a phase of their own behind the setup."""
    text = "".join(line + "\n" for line in [*setup, "sync", *lines])
    written = subprocess.run([program], input=text, capture_output=True, text=True, check=True).stdout
    return [int(word) for word in written.splitlines()[-1].split()]


def kinds(shape, size):
    """The setup, and by name the lines that are measured over it: flows, and policies that leave and come back at the list's end."""
    draw = random.Random(1)
    tables = batches.Tables(shape, size, 0, draw)
    setup = list(tables.add_policies())
    flows = [f"flow out {draw.choice(tables.flows)}" for _ in range(LINES)]
    some = [draw.randrange(size) for _ in range(min(size, LINES // 2))]
    some = list(dict.fromkeys(some))
    deletes = ["xfrm policy delete " + tables.policies[i][0] for i in some]
    adds = [tables.add_policy(i) for i in some]
    last = [tables.add_policy(i).split(" priority ")[0] + " priority 5000" for i in some]
    return setup, {"first": (setup, flows), "delete": (setup, deletes), "insert": (setup + deletes, adds), "insert at the end": (setup + deletes, last)}


def main():
    parser = argparse.ArgumentParser(description=__doc__.split("\n")[0])
    parser.add_argument("--rounds", type=int, default=5)
    parser.add_argument("--keep", help="a folder in which the program is built and kept")
    words = parser.parse_args()
    with tempfile.TemporaryDirectory() as folder:
        program = build(os.path.abspath(words.keep) if words.keep else folder)
        print("| kind | policies | call | loads a call | nanoseconds a call |")
        print("|---|---|---|---|---|")
        for shape in ("exact", "host", "nets", "mixed"):
            for size in SIZES:
                for name, (setup, lines) in kinds(shape, size)[1].items():
                    rounds = [measured(program, setup, lines) for _ in range(words.rounds)]
                    calls, loads, span = min(rounds, key=lambda round: round[2])
                    print(f"| {shape} | {size:,} | {name} | {loads / calls:,.1f} | {span / calls:,.0f} |", flush=True)


if __name__ == "__main__":
    main()
