"""What bench/serial and bench/files share: rounds of several programs on one text, interleaved, and how they are shown."""
import filecmp
import os
import statistics
import subprocess
import sys
import time
from typing import NamedTuple

TOP = os.path.dirname(os.path.dirname(os.path.abspath(__file__)))
HEADING = "text      program  processor ms    spread  ratio   clock ms      spread  ratio  peak MiB"


class Run(NamedTuple):
    """Both times of one run in seconds, and its peak memory in MiB."""

    processor: float
    clock: float
    peak: float


class Program(NamedTuple):
    """A command, the folder that it runs in, and variables of its environment beside the caller's."""

    command: list
    folder: str
    settings: dict = {}


def built_umapsh():
    hello = os.path.join(TOP, "examples", "hello.workload")
    with open(hello, "rb") as text:
        subprocess.run([os.path.join(TOP, "umapsh"), "serial"], stdin=text, stdout=subprocess.DEVNULL, check=True)
    return [os.path.join(TOP, "crates", "umapsh", "out", "umapsh"), "serial"]


def built_yardstick(name, folder):
    program = os.path.join(folder, name)
    source = os.path.join(TOP, "bench", name + ".c")
    subprocess.run(["gcc", "-O2", "-pthread", "-o", program, source], check=True)
    return [program]


def write_texts(folder, *words):
    """In a process of its own: a child's peak memory counts from that of the process that starts it."""
    subprocess.run([os.path.join(TOP, "bench", "texts.py"), folder, *words], check=True)


def run(program, text, output):
    environment = {**os.environ, **program.settings}
    with open(text, "rb") as source, open(output, "wb") as sink:
        start = time.perf_counter()
        child = subprocess.Popen(program.command, stdin=source, stdout=sink, cwd=program.folder, env=environment)
        _, status, usage = os.wait4(child.pid, 0)
        took = time.perf_counter() - start
    if status != 0:
        sys.exit(f"{program.command[0]} ended with status {os.waitstatus_to_exitcode(status)} on {text}")
    return Run(usage.ru_utime + usage.ru_stime, took, usage.ru_maxrss / 1024)


def measure(name, programs, folder, rounds):
    """The runs of each program on a text, by the program's name. The replies of all must be equal."""
    text = os.path.join(folder, name + ".workload")
    outputs = {program: os.path.join(folder, program + ".replies") for program in programs}
    runs = {program: [] for program in programs}
    for _ in range(rounds):
        for each, program in programs.items():
            runs[each].append(run(program, text, outputs[each]))
    if not are_equal(outputs.values()):
        sys.exit(f"{name}: the programs wrote different replies")
    return runs


def are_equal(paths):
    first, *others = paths
    return all(filecmp.cmp(first, other, shallow=False) for other in others)


def summary(times, firsts):
    """A median with its spread, and the ratio of the first program's median to it."""
    median = statistics.median(times)
    spread = f"{1000 * min(times):.0f}-{1000 * max(times):.0f}"
    return f"{1000 * median:10.1f} {spread:>11} {statistics.median(firsts) / median:6.2f}"


def show(name, runs):
    """A line for each program. The first program is the one that the others are compared with."""
    first = next(iter(runs.values()))
    for program, own in runs.items():
        processor = summary([r.processor for r in own], [r.processor for r in first])
        clock = summary([r.clock for r in own], [r.clock for r in first])
        print(f"{name:<9} {program:<7} {processor} {clock} {max(r.peak for r in own):9.1f}")
