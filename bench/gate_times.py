#!/usr/bin/env python3
"""Tells how long the gate works at each crate: python3 bench/gate_times.py OUT [LOG], at the top of the repository.

Run by hand beside 'rt ci --anew' there, before it or while it runs, and until it is killed. Every ten seconds it writes the
table of docs/GATE.md to OUT, in processor minutes, user and system, of the gate that was begun last. LOG is the file that
the gate's output goes to, which tells how many functions a crate has. It reads /proc, so it needs Linux.
"""
import glob
import os
import re
import signal
import sys
import time

TICKS = os.sysconf("SC_CLK_TCK")
KINDS = ("proofs", "tests", "edits")


class Process:
    """One process: its parent, when it began, its own time, and that of the children that it has waited for."""

    def __init__(self, pid):
        with open(f"/proc/{pid}/stat") as file:
            words = file.read().rpartition(")")[2].split()
        self.pid, self.parent, self.began = pid, int(words[1]), int(words[19])
        self.own = sum(map(int, words[11:13]))
        self.waited = sum(map(int, words[13:15]))


def processes():
    found = {}
    for name in os.listdir("/proc"):
        if name.isdigit():
            try:
                found[int(name)] = Process(int(name))
            except (OSError, IndexError, ValueError):
                pass  # it has ended
    return found


def words_of(pid):
    try:
        with open(f"/proc/{pid}/cmdline") as file:
            return file.read().split("\0")
    except OSError:
        return []


def is_begun_here(pid):
    """The gate works on a copy of the tree, so where it was begun is what its environment says."""
    try:
        with open(f"/proc/{pid}/environ") as file:
            return f"PWD={os.getcwd()}" in file.read().split("\0")
    except OSError:
        return False


def is_gate(pid):
    words = words_of(pid)
    return is_begun_here(pid) and any(os.path.basename(rt) == "rt" and verb == "ci" for rt, verb in zip(words, words[1:]))


def work_of(words):
    """The crate that a process of the gate works at, and of what kind the work is; None where it isn't the prover."""
    if "--crate-name" not in words[:-1]:
        return None
    at = words.index("--crate-name")
    crate = words[at + 1]
    if "check" in words[:at]:
        return crate, "edits"
    return crate, "tests" if "--test" in words else "proofs"


class Gate:
    """A run of the gate: the ticks that were spent at each work, and the state at the last sample."""

    def __init__(self, process):
        self.pid, self.began = process.pid, process.began
        self.at, self.last = time.time(), time.time()
        self.spent, self.waited, self.total = {}, process.waited, 0
        self.works, self.running = {}, {}

    def is_of(self, process):
        return (self.pid, self.began) == (process.pid, process.began)

    def add(self, work, ticks):
        self.spent[work] = self.spent.get(work, 0) + ticks

    def sample(self, found):
        """Adds what each child of the gate spent since the last sample. A child that has ended since is in what the gate has
        waited for; what it spent last is shared by those that ended together."""
        children = {}
        for process in found.values():
            children.setdefault(process.parent, []).append(process)

        def ticks(process):
            return process.own + process.waited + sum(map(ticks, children.get(process.pid, [])))

        running = {}
        for child in children.get(self.pid, []):
            key = child.pid, child.began
            # what it works at is known once it runs the prover
            if self.works.get(key) is None:
                self.works[key] = work_of(words_of(child.pid))
            running[key] = max(ticks(child), self.running.get(key, 0))
        ended = [key for key in self.running if key not in running]
        waited = found[self.pid].waited
        last = waited - self.waited - sum(self.running[key] for key in ended)
        for key in running:
            self.add(self.works[key], running[key] - self.running.get(key, 0))
        for key in ended:
            self.add(self.works[key], max(last, 0) / len(ended))
        if not ended:
            self.add(None, max(last, 0))
        self.waited, self.running, self.last = waited, running, time.time()
        self.total = waited + found[self.pid].own + sum(running.values())


def crates():
    with open("crates.txt") as file:
        return [line.split(":")[0].split()[0] for line in file if line.strip() and not line.startswith("#")]


def functions(log):
    """How many functions each crate has, as the gate says."""
    told, crate = {}, None
    if log and os.path.exists(log):
        with open(log, errors="replace") as file:
            for line in file:
                if line.startswith("== "):
                    crate = line[3:].strip()
                count = re.match(r"logic=proved functions=(\d+)", line)
                if count and crate:
                    told[crate] = count[1]
    return told


def tests_in(crate):
    found = 0
    for path in glob.glob(f"crates/{crate}/src/**/*.rt", recursive=True):
        with open(path) as file:
            found += file.read().count("#[test]")
    return found


def minutes(ticks):
    return f"{ticks / TICKS / 60:.1f}" if ticks else "0"


def table(gate, log):
    lines = [
        "| crate | functions | must-fail edits | proofs | tests | edits |",
        "|---|---|---|---|---|---|",
    ]
    told = functions(log)
    tried = 0
    for crate in crates():
        count = told.get(crate, "")
        if crate.endswith("_tests"):
            count = f"{tests_in(crate)} test{'s' * (tests_in(crate) != 1)}"
        edits = len(glob.glob(f"crates/{crate}/must-fail/*.edit"))
        tried += edits
        times = " | ".join(minutes(gate.spent.get((crate, kind), 0)) for kind in KINDS)
        lines.append(f"| `{crate}` | {count} | {edits} | {times} |")
    sums = " | ".join(minutes(sum(ticks for work, ticks in gate.spent.items() if work and work[1] == kind)) for kind in KINDS)
    lines.append(f"| together | | {tried} | {sums} |")
    lines.append("")
    lines.append(f"minutes of the clock {(gate.last - gate.at) / 60:.1f}, of processors {minutes(gate.total)},")
    lines.append(f"of these {minutes(gate.spent.get(None, 0))} at links, at runs of tests and of programs, and at what else isn't the prover")
    return "\n".join(lines) + "\n"


def write(gate, out, log):
    if gate:
        with open(f"{out}.new", "w") as file:
            file.write(table(gate, log))
        os.replace(f"{out}.new", out)


def main():
    if not 2 <= len(sys.argv) <= 3 or not os.path.exists("crates.txt"):
        sys.exit("usage: python3 bench/gate_times.py OUT [LOG], at the top of the repository")
    out, log = sys.argv[1], sys.argv[2] if len(sys.argv) > 2 else None
    signal.signal(signal.SIGTERM, lambda *_: sys.exit(0))
    gate, written = None, 0.0
    try:
        while True:
            found = processes()
            if gate and gate.pid in found and gate.is_of(found[gate.pid]):
                gate.sample(found)
            else:
                begun = [it for pid, it in found.items() if is_gate(pid)]
                if begun:
                    write(gate, out, log)
                    gate = Gate(max(begun, key=lambda it: it.began))
            if gate and gate.pid in found and time.time() - written > 10:
                write(gate, out, log)
                written = time.time()
            time.sleep(1)
    except (KeyboardInterrupt, SystemExit):
        write(gate, out, log)


if __name__ == "__main__":
    main()
