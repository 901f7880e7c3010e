"""Measures the built program and the simulation written by hand beside one another, on one core. bench/run.sh runs it.

usage: beside.py CORE RUNS PROGRAM [BY_HAND]"""

import json
import os
import pathlib
import re
import shutil
import subprocess
import sys
import tempfile

import draw

# bits of the runs that are timed, and of those whose instructions are counted, which is slow
TIMED, COUNTED = 1_000_000, 100_000
FAULTS = "10,000 faults"

# the script's name, its nodes, and how it is drawn; what has faults is counted over all bits, since what a fault costs
# may depend on how many there are
CASES = [
    ("16 talkers, 90 % load", 16, lambda bits: draw.loaded(bits, 16)),
    ("8 talkers, 90 % load", 8, lambda bits: draw.loaded(bits, 8)),
    ("2 talkers, 90 % load", 2, lambda bits: draw.loaded(bits, 2)),
    ("16 idle talkers", 16, lambda bits: draw.idle(bits, 16)),
    ("2 idle talkers", 2, lambda bits: draw.idle(bits, 2)),
    (f"16 talkers, 90 % load, {FAULTS}", 16, draw.disturbed),
    (f"16 idle talkers, {FAULTS} that change nothing", 16, draw.idle_with_faults),
    ("16 idle controllers with 16 idle routes", 16, draw.gateway),
    ("3 segments of 4 talkers, 40 % load, with 6 controllers and routes", 18, draw.busy_gateway),
]

# of each pair the second has so many times as much
GROWTH = [
    ("bits, 16 idle talkers", 10, lambda: draw.idle(100_000, 16), lambda: draw.idle(TIMED, 16)),
    ("bits, 16 talkers, 90 % load", 10, lambda: draw.loaded(100_000, 16), lambda: draw.loaded(TIMED, 16)),
    ("nodes, idle", 10, lambda: draw.idle(TIMED, 1), lambda: draw.idle(TIMED, 10)),
    ("nodes, 90 % load", 8, lambda: draw.loaded(TIMED, 2), lambda: draw.loaded(TIMED, 16)),
    ("events, 16 talkers, 9 % and 90 % load", 10, lambda: draw.loaded(TIMED, 16, 9), lambda: draw.loaded(TIMED, 16)),
    ("faults, 16 talkers, 90 % load", 10, lambda: draw.disturbed(TIMED, 1_000), lambda: draw.disturbed(TIMED)),
    ("faults that change nothing, 16 idle talkers", 10, lambda: draw.idle_with_faults(TIMED, 1_000),
     lambda: draw.idle_with_faults(TIMED)),
]


class Measure:
    """The programs that are measured, each a column, and the place where scripts and reports are kept."""

    def __init__(self, core, runs, programs, folder):
        self.core, self.runs, self.programs = core, runs, programs
        self.script, self.report = pathlib.Path(folder) / "script", pathlib.Path(folder) / "report"
        self.counts = self.counter()

    def put(self, script):
        self.script.write_text(json.dumps(script, separators=(",", ":")))

    def run(self, words):
        """The processor time in seconds of these words with `run` behind them, and their standard error."""
        with self.script.open("rb") as script, self.report.open("wb") as report:
            words = ["taskset", "-c", self.core, *words, "run"]
            child = subprocess.Popen(words, stdin=script, stdout=report, stderr=subprocess.PIPE, text=True)
            told = child.stderr.read()
            _, status, usage = os.wait4(child.pid, 0)
        child.returncode = os.waitstatus_to_exitcode(status)
        if child.returncode != 0:
            sys.exit(f"{' '.join(words)} ended with status {child.returncode}: {told}")
        return usage.ru_utime + usage.ru_stime, told

    def times(self):
        """The best time of each program. They take turns, since the machine may change meanwhile; their reports must
        be the same."""
        best, reports = [None] * len(self.programs), set()
        for _ in range(self.runs):
            for place, program in enumerate(self.programs):
                time, _ = self.run([program])
                best[place] = min(time, best[place] or time)
                reports.add(self.report.read_bytes())
        if len(reports) > 1:
            sys.exit("the reports differ")
        return best

    def memories(self):
        """The greatest memory of each program, in kilobytes."""
        words = ["/usr/bin/env", "time", "-f", "%M"]
        return [int(self.run([*words, program])[1].split()[-1]) for program in self.programs]

    def counter(self):
        """The words that count instructions, with where their number stands; None where there are none."""
        perf = (["perf", "stat", "-x,", "-e", "instructions:u"], r"^(\d+),,instructions")
        callgrind = (["valgrind", "--tool=callgrind", "--callgrind-out-file=/dev/null"], r"Collected : (\d+)")
        self.put(draw.idle(100, 2))
        for words, pattern in (perf, callgrind):
            if shutil.which(words[0]) and re.search(pattern, self.run([*words, self.programs[0]])[1], re.MULTILINE):
                return words, pattern
        return None

    def instructions(self):
        words, pattern = self.counts
        return [int(re.search(pattern, self.run([*words, program])[1], re.MULTILINE)[1]) for program in self.programs]


def ratio(values):
    return [f"{values[0] / values[1]:.2f}"] if len(values) > 1 and values[1] else []


def row(*cells):
    print("| " + " | ".join(cells) + " |", flush=True)


def head(first, names, *columns):
    cells = [first]
    for column, with_ratio in columns:
        cells += [f"{column}, {names[0]}", *names[1:]] + (["ratio"] if with_ratio and len(names) > 1 else [])
    row(*cells)
    row(*["---"] * len(cells))


def beside(measure, names):
    counts = measure.counts is not None
    told = "instructions are not counted"
    if counts:
        told = f"{COUNTED:,} bits where {measure.counts[0][0]} counts instructions (all of them with faults)"
    print(f"\n{TIMED:,} bits where time is taken; {told}.\n")
    head("Script", names, ("ms", True), ("million node-bits a second", False),
         *([("instructions a node-bit", True)] if counts else []))
    for name, nodes, script in CASES:
        measure.put(script(TIMED))
        times = measure.times()
        cells = [name, *(f"{time * 1000:.0f}" for time in times), *ratio(times),
                 *(f"{nodes * TIMED / time / 1e6:.1f}" for time in times)]
        if counts:
            bits = TIMED if FAULTS in name else COUNTED
            measure.put(script(bits))
            numbers = [count / nodes / bits for count in measure.instructions()]
            cells += [*(f"{number:.1f}" for number in numbers), *ratio(numbers)]
        row(*cells)


def growth(measure, names):
    print("\nWhat more of one thing costs: time in ms, and memory in KB.\n")
    cells = ["More of"] + [cell for name in names for cell in (f"ms, {name}", "times", f"KB, {name}", "times")]
    row(*cells)
    row(*["---"] * len(cells))
    for name, times_as_much, less, more in GROWTH:
        found = []
        for script in (less(), more()):
            measure.put(script)
            found.append((measure.times(), measure.memories()))
        (few_times, few_memories), (many_times, many_memories) = found
        cells = [f"{times_as_much} times the {name}"]
        for place in range(len(names)):
            cells += [f"{few_times[place] * 1000:.0f} to {many_times[place] * 1000:.0f}",
                      f"{many_times[place] / few_times[place]:.1f}",
                      f"{few_memories[place]:,} to {many_memories[place]:,}",
                      f"{many_memories[place] / few_memories[place]:.1f}"]
        row(*cells)


def always_sending(measure, names):
    print("\n16 talkers that always have frames to send: lines and text of the report.\n")
    head("Bits", names, ("ms", True), ("million node-bits a second", False), ("KB of memory", False))
    for bits in (250_000, 500_000, 1_000_000):
        measure.put(draw.always_sending(bits))
        times, memories = measure.times(), measure.memories()
        text = measure.report.read_bytes()
        row(f"{bits:,}: {text.count(10):,} lines, {len(text) // 1024:,} KB",
            *(f"{time * 1000:.0f}" for time in times), *ratio(times),
            *(f"{16 * bits / time / 1e6:.1f}" for time in times), *(f"{memory:,}" for memory in memories))


def main():
    core, runs, *programs = sys.argv[1:]
    names = ["program", "by hand"][:len(programs)]
    with tempfile.TemporaryDirectory() as folder:
        measure = Measure(core, int(runs), programs, folder)
        print(f"Processor time on core {core}, the best of {runs} runs, reading and printing included.")
        beside(measure, names)
        growth(measure, names)
        always_sending(measure, names)


main()
