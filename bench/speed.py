#!/usr/bin/env python3
"""Lines a second of `xfrm one` and of the baseline, on batches of each kind.

Both run on the setup alone, and then with the measured lines behind it; the difference is what these lines cost. Each figure is
the best of the rounds, in which the programs run in turn, by the processor's time, which suffers less from other work on the
machine than the clock. They have to write the same, or the script ends.

Usage: speed.py [PROGRAM] [--rounds N] [--lines N] [--kinds WORD] [--sizes N,..]
"""

import argparse
import os
import tempfile

import batches
import programs

SIZES = {100: 100, 1000: 1000, 4000: 8000}  # policies: states


def measure(named, batch, folder, rounds):
    """The best run of each program."""
    all_runs = {name: [] for name in named}
    for _ in range(rounds):
        for name, path in named.items():
            all_runs[name].append(programs.run(path, batch, os.path.join(folder, name)))
        programs.compare(batch, [runs[-1] for runs in all_runs.values()])
    return {name: min(runs, key=lambda run: run.seconds) for name, runs in all_runs.items()}


class Setups:
    """The runs on setups, each measured once."""

    def __init__(self, named, folder, rounds):
        self.named, self.folder, self.rounds, self.known = named, folder, rounds, {}

    def get(self, kind, policies, states):
        shape, names, _ = batches.KINDS[kind]
        key = (shape, names, policies, states)
        if key not in self.known:
            batch = os.path.join(self.folder, "setup.batch")
            lines = programs.write_batch(batch, batches.make(kind, policies, states, 0))
            best = measure(self.named, batch, self.folder, self.rounds)
            self.known[key] = (lines, programs.lines_of(best["xfrm"].written), best)
        return self.known[key]


def short(ratio):
    return f"{ratio:.2f}" if ratio >= 0.1 else f"{ratio:.2g}"


def rate(lines, run, setup):
    """Lines a second, or None where the run lasted hardly longer than its setup, so that it tells nothing."""
    seconds = run.seconds - setup.seconds
    return lines / seconds if seconds > run.seconds / 20 else None


def shown(some):
    return f"{some:,.0f}" if some else "too few lines"


def row(kind, policies, setups, lines):
    states = SIZES.get(policies, policies)
    batch = os.path.join(setups.folder, "measured.batch")
    count = programs.write_batch(batch, batches.make(kind, policies, states, lines))
    setup_count, setup_written, setup = setups.get(kind, policies, states)
    best = measure(setups.named, batch, setups.folder, setups.rounds)
    measured = count - setup_count
    if kind == "lists":
        measured = programs.lines_of(best["xfrm"].written) - setup_written
    ours, other = (rate(measured, best[name], setup[name]) for name in ("xfrm", "baseline"))
    size = "none" if kind == "text" else f"{policies:,}, {states:,}"
    ratio = short(ours / other) if ours and other else ""
    print(f"| {kind} | {size} | {measured:,} | {shown(ours)} | {shown(other)} | {ratio} |", flush=True)


def main():
    parser = argparse.ArgumentParser(description=__doc__.split("\n")[0])
    parser.add_argument("program", nargs="*", help="another program than the one that is built here")
    parser.add_argument("--rounds", type=int, default=5)
    parser.add_argument("--lines", type=int, default=40_000, help="to be measured in each batch, about")
    parser.add_argument("--kinds", default="", help="those alone that begin so")
    parser.add_argument("--sizes", default="100,1000,4000", help="of the policies")
    words = parser.parse_args()
    named = programs.both(words.program)
    print("| kind | policies, states | lines | xfrm, lines a second | baseline, lines a second | ratio |")
    print("|---|---|---|---|---|---|")
    with tempfile.TemporaryDirectory() as folder:
        setups = Setups(named, folder, words.rounds)
        for kind in batches.KINDS:
            sizes = [int(size) for size in words.sizes.split(",")]
            for policies in sizes[:1] if kind == "text" else sizes:
                if kind.startswith(words.kinds):
                    row(kind, policies, setups, words.lines)


if __name__ == "__main__":
    main()
