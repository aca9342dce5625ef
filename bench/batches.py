#!/usr/bin/env python3
"""Makes batches of one kind of line, always the same ones: lines that set up the two databases, and the lines to be measured.

No line is bad, no reply is a refusal, no flow asks for a state, and `sync` stands where a phase is full. Policy i leads from
10.w to a host of its own, with w = i mod 4:
  exact   10.w.0.1/32 to the host/32: one bucket of the exact part
  host    10.w.0.0/16 to the host/32: the inexact part, no prefix in another
  nets    nested prefixes, some with a protocol and a port; no template
  mixed   a third of each
A policy that isn't of `nets` has one required esp template with a reqid of its own, which the state i alone suits.

Usage: batches.py KIND [--policies N] [--states N] [--lines N] [--setup] > some.batch
"""

import argparse
import itertools
import random
import sys

CALLS_OF_A_PHASE = 16_384
LISTS_OF_A_PHASE = 256
LINES_IN_A_ROW = 64  # of one worker


def address(number):
    return ".".join(str(number >> shift & 255) for shift in (24, 16, 8, 0))


def far(i):
    return address((172 << 24 | 16 << 16) + i)


def near(i):
    return f"10.{i % 4}.0.1"


def spi(i):
    return f"{65536 + i:#x}"


class Tables:
    """The policies and states of a batch, and for each policy a flow that it matches."""

    def __init__(self, shape, policies, states, draw):
        self.policies, self.flows, self.draw, self.nets = [], [], draw, set()
        for i in range(policies):
            form = ("exact", "host", "nets")[i % 3] if shape == "mixed" else shape
            selector, flow = self.net() if form == "nets" else self.host(i, form)
            template = f" tmpl proto esp reqid {i + 1}" if form != "nets" and i < states else ""
            self.policies.append((f"{selector} dir out", f" priority {draw.randrange(1000)}{template}"))
            self.flows.append(flow)
        self.states = [f"src {near(i)} dst {far(i)} proto esp spi {spi(i)}" for i in range(states)]

    def host(self, i, form):
        source = f"{near(i)}/32" if form == "exact" else f"10.{i % 4}.0.0/16"
        return f"src {source} dst {far(i)}/32", f"src {near(i)} dst {far(i)}"

    def net(self):
        """A selector that isn't used yet, and a flow that it matches."""
        draw = self.draw
        while True:
            source, source_length = (10 << 24) + draw.randrange(1 << 24), draw.choice((8, 16, 24, 24, 32))
            host, length = (203 << 24) + draw.randrange(1 << 24), draw.choice((12, 16, 20, 24, 24, 28))
            protocol = draw.choice((None, None, "tcp", "udp"))
            port = draw.choice((53, 80, 443, 500, 4500)) if protocol and draw.random() < 0.5 else None
            words = f"src {prefix(source, source_length)} dst {prefix(host, length)}"
            words += f" proto {protocol}" if protocol else ""
            words += f" dport {port}" if port else ""
            if words not in self.nets:
                self.nets.add(words)
                ports = f"sport {draw.randrange(1024, 65536)} dport {port or 8080}"
                return words, f"src {address(source)} dst {address(host)} proto {protocol or 'tcp'} {ports}"

    def add_policy(self, i):
        return "xfrm policy add " + "".join(self.policies[i])

    def add_state(self, i):
        return f"xfrm state add {self.states[i]} reqid {i + 1} mode transport replay-window 32"

    def add_policies(self):
        return map(self.add_policy, range(len(self.policies)))

    def add_states(self):
        return map(self.add_state, range(len(self.states)))


def prefix(host, length):
    return f"{address(host >> (32 - length) << (32 - length))}/{length}"


# The lines to be measured, of each kind: about so many


def fill_policies(tables, lines):
    for _ in range(max(1, lines // (len(tables.policies) + 1))):
        yield from tables.add_policies()
        yield "xfrm policy flush"


def change_policies(tables, lines):
    for _ in range(lines // 2):
        i = tables.draw.randrange(len(tables.policies))
        yield "xfrm policy delete " + tables.policies[i][0]
        yield tables.add_policy(i)


def fill_states(tables, lines):
    for _ in range(max(1, lines // (len(tables.states) + 1))):
        yield from tables.add_states()
        yield "xfrm state flush"


def change_states(tables, lines):
    for _ in range(lines // 2):
        i = tables.draw.randrange(len(tables.states))
        yield "xfrm state delete " + tables.states[i]
        yield tables.add_state(i)


def flows(tables, lines):
    for _ in range(lines):
        yield f"flow out {tables.draw.choice(tables.flows)}"


def sends(tables, lines):
    for _ in range(lines):
        yield f"send {tables.draw.choice(tables.flows)} len 100"


def packets(tables, lines):
    """A state's numbers rise, and about one packet in 16 comes twice."""
    numbers = [0] * len(tables.states)
    while lines > 0:
        i = tables.draw.randrange(len(numbers))
        numbers[i] += 1
        for _ in range(2 if tables.draw.random() < 1 / 16 else 1):
            yield f"packet {tables.states[i]} seq {numbers[i]} len 100"
            lines -= 1


def lists(tables, lines):
    """About so many records are written."""
    for _ in range(max(1, lines // (len(tables.policies) + len(tables.states) + 2))):
        yield "xfrm policy list"
        yield "xfrm state list"


def texts(tables, lines):
    """What costs reading and writing alone: over empty databases."""
    draw = tables.draw
    number, digits = draw.randrange, lambda length: f"{draw.getrandbits(4 * length):0{length}x}"
    for _ in range(lines // 10):
        yield f"# the gateway of site {number(1000)}, renewed on day {number(365)} \\"
        yield ""
        source = address(number(1 << 32))
        yield f"flow in src {source} dst 192.0.2.{number(256)} proto tcp sport {number(65536)} dport 443"
        yield f"flow fwd src 2001:db8::{digits(4)} dst 2001:db8:{digits(4)}:1::1 proto udp sport 500 dport 4500   # keys"
        yield f"'flow' out\tsrc \"10.0.0.{number(256)}\" dst 10.1.0.0 proto 47"
        yield "xfrm policy count"
        identity = f"dst 198.51.100.{number(256)} proto esp spi 0x{digits(6)}1"
        algorithms = f"auth 'hmac(sha256)' 0x{digits(64)} enc \"cbc(aes)\" 0x{digits(32)}"
        yield f"xfrm state add src 192.0.2.{number(256)} {identity} mode tunnel \\\n  reqid {number(1 << 32)} {algorithms}"
        yield f"xfrm state delete {identity}"
        yield "xfrm state count"


# Of each kind: the shape of its policies, what is set up, and the lines to be measured.
KINDS = {
    "policies": ("mixed", "", fill_policies),
    "policy changes": ("mixed", "policies", change_policies),
    "states": ("mixed", "", fill_states),
    "state changes": ("mixed", "states", change_states),
    "flows, exact": ("exact", "policies states", flows),
    "flows, host": ("host", "policies states", flows),
    "flows, nets": ("nets", "policies states", flows),
    "flows, mixed": ("mixed", "policies states", flows),
    "sends": ("mixed", "policies states", sends),
    "packets": ("mixed", "policies states", packets),
    "lists": ("mixed", "policies states", lists),
    "text": ("mixed", "", texts),
}


def setup_lines(tables, names):
    if "policies" in names:
        yield from tables.add_policies()
    if "states" in names:
        yield from tables.add_states()


def in_phases(calls, workers=1):
    """The call lines with the `sync` and `worker` lines that they need."""
    count, listed, worker = 0, 0, 0
    for line in calls:
        is_call, is_list = line and line[0] != "#", line.endswith(" list")
        if is_call and count == CALLS_OF_A_PHASE or is_list and listed == LISTS_OF_A_PHASE:
            yield "sync"
            count, listed, worker = 0, 0, 0
        if is_call and worker != count // LINES_IN_A_ROW % workers:
            worker = count // LINES_IN_A_ROW % workers
            yield f"worker {worker}"
        yield line
        count, listed = count + bool(is_call), listed + is_list


def make(kind, policies, states, lines):
    """The lines of a batch of this kind; with no lines to be measured the setup alone."""
    shape, names, measured = KINDS[kind]
    tables = Tables(shape, policies, states, random.Random(7))
    part = measured(tables, lines) if lines else ()
    return in_phases(itertools.chain(setup_lines(tables, names), part))


def main():
    parser = argparse.ArgumentParser(description=__doc__.split("\n")[0])
    parser.add_argument("kind", choices=KINDS)
    parser.add_argument("--policies", type=int, default=1000, help="at most 4,096")
    parser.add_argument("--states", type=int, default=1000, help="at most 8,192, and for sends no fewer than policies")
    parser.add_argument("--lines", type=int, default=10_000, help="to be measured, about")
    parser.add_argument("--setup", action="store_true", help="the setup alone")
    words = parser.parse_args()
    for line in make(words.kind, words.policies, words.states, 0 if words.setup else words.lines):
        sys.stdout.write(line + "\n")


if __name__ == "__main__":
    main()
