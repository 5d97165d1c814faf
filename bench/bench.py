#!/usr/bin/env python3
"""Times the built program beside mergecap, tcpdump and the same design in C, where these can be had.

Usage: bench/bench.py [ROUNDS]

It makes its captures in a temporary folder, in five sets: 80,000 frames of 60 to 1,514 bytes (64 MB) in one capture,
in four and in sixteen, and 880,000 frames of 60 bytes (67 MB, as many as one file may hold) in one and in four. The
tools take turns, ROUNDS times (9 where no number is given), so that what else the machine does falls on all alike. For
each it prints the median of the wall time and of the processor time (user and system together) with their ratios to
the medians of mergecap and of the same design in C, the pages that it faulted in, and the peak memory.

Each tool has one run before, which is not timed. One that refuses a set in it is named and left out of this set; what
the program and the same design in C write there is judged by judge.py, and the script ends where that is not good.

The same design is the program in same_design/, built with gcc if that is there. tcpdump takes one capture alone. Build
the program first (the script `iflib_run` at the top does it). Standard library only; no part of the gate.
"""

import glob
import os
import shutil
import statistics
import struct
import subprocess
import sys
import tempfile
import time
import typing

TOP = os.path.dirname(os.path.dirname(os.path.abspath(__file__)))
PROGRAM = os.path.join(TOP, "crates", "iflib_run", "out", "iflib_run")
HEADER = struct.pack("<IHHIIII", 0xA1B2C3D4, 2, 4, 0, 0, 262144, 1)
PEERS = ("mergecap", "same_design")


def generated(sender, count):
    """Frames whose lengths and bytes follow the generator: a linear congruence modulo 2^64."""
    x = 1 + sender
    for index in range(count):
        x = (6364136223846793005 * x + 1442695040888963407) % 2**64
        length = 60 + (x >> 33) % 1455
        eight = bytes(((x >> (8 * i)) + i) & 0xFF for i in range(8))
        yield index, (eight * (length // 8 + 1))[:length]


def small(sender, count):
    """Frames of 60 bytes."""
    frame = bytes(range(sender, sender + 60))
    for index in range(count):
        yield index, frame


class Set(typing.NamedTuple):
    """Captures that are sent together: how many, how many frames all have, and what makes the frames of one."""

    captures: int
    frames: int
    about: str
    make: typing.Callable


SETS = (
    Set(1, 80_000, "60 to 1,514 bytes", generated),
    Set(4, 80_000, "60 to 1,514 bytes", generated),
    Set(16, 80_000, "60 to 1,514 bytes", generated),
    Set(1, 880_000, "60 bytes", small),
    Set(4, 880_000, "60 bytes", small),
)


def write_capture(name, frames):
    with open(name, "wb") as out:
        out.write(HEADER)
        for index, frame in frames:
            out.write(struct.pack("<IIII", index, 0, len(frame), len(frame)))
            out.write(frame)


class Run(typing.NamedTuple):
    """One run: seconds on the clock and of the processor, pages faulted in, and peak memory in MB."""

    wall: float
    processor: float
    faults: int
    peak: float


def run(command):
    """The status of a run, and its figures."""
    start = time.perf_counter()
    child = os.fork()
    if child == 0:
        quiet = os.open(os.devnull, os.O_WRONLY)
        os.dup2(quiet, 1)
        os.dup2(quiet, 2)
        os.execv(command[0], command)
    _, status, usage = os.wait4(child, 0)
    wall = time.perf_counter() - start
    figures = Run(wall, usage.ru_utime + usage.ru_stime, usage.ru_minflt, usage.ru_maxrss / 1024)
    return os.waitstatus_to_exitcode(status), figures


def build_same_design(folder):
    """The same design in C, or nothing where there is no gcc."""
    if shutil.which("gcc") is None:
        return None
    target = os.path.join(folder, "same_design")
    sources = sorted(glob.glob(os.path.join(TOP, "bench", "same_design", "*.c")))
    flags = ["-O2", "-march=x86-64-v2", "-flto", "-pthread"]
    subprocess.run(["gcc", *flags, "-o", target, *sources], check=True)
    return target


def tools(captures, folder, same_design):
    """Each tool's name with its command."""
    wire, order = os.path.join(folder, "wire"), os.path.join(folder, "order")
    found = {"iflib_run": [PROGRAM, "send", "--wire", wire, "--order", order, *captures]}
    if same_design:
        found["same_design"] = [same_design, wire, order, *captures]
    mergecap = shutil.which("mergecap")
    if mergecap:
        found["mergecap"] = [mergecap, "-a", "-F", "pcap", "-w", os.path.join(folder, "merged"), *captures]
    tcpdump = shutil.which("tcpdump")
    if tcpdump and len(captures) == 1:
        found["tcpdump"] = [tcpdump, "-r", captures[0], "-w", os.path.join(folder, "copied")]
    return found


def serving(commands, captures, folder):
    """The tools that take these captures, by one run of each; what it wrote is judged."""
    wire, order = os.path.join(folder, "wire"), os.path.join(folder, "order")
    found = {}
    for name, command in commands.items():
        for written in filter(os.path.exists, (wire, order)):
            os.remove(written)
        status, _ = run(command)
        if status != 0:
            print(f"  {name} ended with {status}, and is left out")
            continue
        found[name] = command
        if name in ("iflib_run", "same_design"):
            judge(name, wire, order, captures)
    return found


def judge(name, wire, order, captures):
    """Judges what a tool wrote, in a process of its own: its memory would count as a peak of the runs to come."""
    script = os.path.join(TOP, "bench", "judge.py")
    command = [sys.executable, script, "--wire", wire, "--order", order, *captures]
    done = subprocess.run(command, capture_output=True, text=True, check=False)
    if done.returncode != 0:
        sys.exit(f"{name} wrote other files than it should: {done.stdout.strip()}")


def measure(one, rounds, folder, same_design):
    title = f"{one.frames:,} frames of {one.about} in {one.captures} {'capture' if one.captures == 1 else 'captures'}"
    captures = []
    for sender in range(one.captures):
        captures.append(os.path.join(folder, f"capture{sender}"))
        write_capture(captures[-1], one.make(sender, one.frames // one.captures))
    size = sum(map(os.path.getsize, captures)) / 2**20
    print(f"{title}: {size:.1f} MB")
    commands = serving(tools(captures, folder, same_design), captures, folder)
    runs = {name: [] for name in commands}
    for _ in range(rounds):
        for name, command in commands.items():
            status, figures = run(command)
            if status != 0:
                sys.exit(f"{name} ended with {status}")
            runs[name].append(figures)
    for name, all_runs in runs.items():
        faults = statistics.median(one_run.faults for one_run in all_runs)
        peak = max(one_run.peak for one_run in all_runs)
        print(
            f"  {name:11} wall {shown(runs, name, 'wall')}  processor {shown(runs, name, 'processor')}"
            f"  {faults:8.0f} pages  peak {peak:6.1f} MB, {peak / size:4.2f} of the captures"
        )
    for capture in captures:
        os.remove(capture)


def median(runs, name, what):
    return statistics.median(getattr(one, what) for one in runs[name])


def shown(runs, name, what):
    """A median in milliseconds, and its ratios to those of the peers."""
    found = median(runs, name, what)
    ratios = [f"{found / median(runs, peer, what):4.2f} times {peer}" for peer in PEERS if peer in runs and peer != name]
    return f"{found * 1000:7.1f} ms" + (f" ({', '.join(ratios)})" if ratios else "")


def main():
    rounds = int(sys.argv[1]) if len(sys.argv) > 1 else 9
    if not os.path.exists(PROGRAM):
        sys.exit("build the program first: ./iflib_run send --wire wire.pcap --order order.txt examples/sample.pcap")
    with tempfile.TemporaryDirectory() as folder:
        same_design = build_same_design(folder)
        for one in SETS:
            measure(one, rounds, folder, same_design)


if __name__ == "__main__":
    main()
