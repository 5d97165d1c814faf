#!/usr/bin/env python3
"""Runs the built program many times with several senders on few processors, and judges what each run wrote.

Usage: bench/many_runs.py [--runs N] [--senders N] [--processors LIST] [--policy P] [--kind K] [--draw] [--seed N]

It makes a capture for each sender (four where no number is given), and runs the program N times (1,000) on the two
lowest processors that it may use, or on those of the list, by `taskset`. Each run has a settings file of its own with
one of the two policies and one of the three kinds of adapter in turn, or the one policy or kind that is named. With
--draw each run's other settings are drawn too: small rings and pools, budgets, abdication, hangs, a link that goes
down, a flush, a start after the senders.

A run is a failure where it ends with another status than 0, takes longer than a minute, writes files that judge.py
does not find good, or prints other counters than its order text has lines. Each failure is told at once, and its files
are kept in a folder that is named. At the end stand, for each policy and kind, the runs, the failures, the median and
the longest time, and how often each fate and each reason stood in the order texts. The status is 0 where nothing
failed, and else 1.

Build the program first (the script `iflib_run` at the top does it). Standard library only; no part of the gate.
"""

import argparse
import collections
import itertools
import os
import random
import shutil
import statistics
import subprocess
import sys
import tempfile
import time

import bench
import judge

POLICIES = ("retry", "drop")
KINDS = ("legacy", "writeback", "generation")
SECONDS = 60
FRAMES = 1_500
COUNTERS = (
    "frames", "wire", "wire_bytes", "runt", "oversize", "no_buffers", "no_clusters", "too_many_segments", "reset", "flush"
)


def drawn_frames(source, count):
    """Frames most of which are short; a few have a length at which something changes, or are long."""
    for index in range(count):
        length = source.choice((60, 61, source.randrange(14, 1_515), source.randrange(14, 9_001)))
        if source.random() < 0.1:
            length = source.choice((0, 13, 14, 2_048, 2_049, 9_018, 9_019, 32_768, 65_536, 65_537))
        yield index, source.randbytes(length)


def standard_settings(policy, kind):
    """The settings of a run, a table of keys for each table."""
    return {"frames": {"policy": policy}, "adapter": {"kind": kind}}


def drawn_settings(source, policy, kind):
    """Settings that no rule over several keys refuses."""
    seg_bytes, max_frame = source.choice(((2_048, 65_536), (2_048, 9_018), (1_024, 65_536), (256, 9_018), (64, 1_514)))
    parts = -(-max_frame // seg_bytes)
    max_segs = source.choice((1, 2, 5, 32, 64))
    flushes = source.random() < 0.2
    return {
        "ring": {
            "size": source.choice((4, 5, 8, 64, 2_048)),
            "budget": source.choice((0, 1, 32, 65_535)),
            "abdicate": source.random() < 0.3,
        },
        "adapter": {
            "kind": kind,
            "descriptors": source.choice((max(8, max_segs + 4), max_segs + 30, 1_024)),
            "max_segs": max_segs,
            "doorbell_every": source.choice((1, 4, 32)),
            "turn_frames": source.choice((1, 7, 64)),
            "start": source.choice(("at_once", "after_senders")) if policy == "drop" else "at_once",
            "hang_after": source.choice((0, 0, 0, 1, 100)),
            "link_down_after": source.choice((0, 0, 0, 1, 100)),
            "link_down_turns": source.choice((1, 16)),
        },
        "frames": {"policy": policy, "max_frame": max_frame},
        "pool": {"clusters": source.choice((parts, parts + 10, 4_096)), "seg_bytes": seg_bytes},
        "stop": {"mode": "flush" if flushes else "drain", "after": source.choice((0, 1, 500)) if flushes else 0},
    }


def written(settings):
    """Settings as a TOML document."""
    lines = []
    for table, keys in settings.items():
        lines.append(f"[{table}]")
        for key, value in keys.items():
            text = f'"{value}"' if isinstance(value, str) else str(value).lower()
            lines.append(f"{key} = {text}")
    return ("\n".join(lines) + "\n").encode()


class Wrong(Exception):
    """Why a run is a failure."""


def counter_text(captures, order):
    """What a run prints that wrote this order text, and how often each fate and each reason stands in it."""
    accepted, away = order
    counts = collections.Counter(accepted.says) + collections.Counter(away.says)
    shown = dict(counts)
    shown["frames"] = sum(len(capture.lengths) for capture in captures)
    shown["wire_bytes"] = sum(
        captures[sender].lengths[index] for _, sender, index, fate, _ in accepted.rows() if fate == "wire"
    )
    return "".join(f"{name} {shown.get(name, 0)}\n" for name in COUNTERS), counts


def run_once(command, folder, captures):
    """One run in a folder that has its settings file: its time, and how often each fate and reason stands."""
    start = time.perf_counter()
    try:
        done = subprocess.run(command, cwd=folder, capture_output=True, timeout=SECONDS, check=False)
    except subprocess.TimeoutExpired as late:
        raise Wrong(f"it took longer than {SECONDS} seconds") from late
    seconds = time.perf_counter() - start
    if done.returncode != 0:
        raise Wrong(f"it ended with {done.returncode}: {done.stdout.decode().strip()}")
    try:
        settings, wire, order = (judge.read_file(os.path.join(folder, name)) for name in ("settings", "wire", "order"))
    except judge.Unfit as unfit:
        raise Wrong(str(unfit)) from unfit
    fault = judge.first_fault(judge.read_settings(settings), captures, wire, order)
    if fault is not None:
        raise Wrong("clause {}: {}".format(*fault))
    text, counts = counter_text(captures, judge.read_order(order))
    if done.stdout.decode() != text:
        raise Wrong("its counters are not those of its lines")
    return seconds, counts


class Results:
    """What the runs of one policy and kind came to."""

    def __init__(self):
        self.times, self.failures, self.counts = [], 0, collections.Counter()

    def text(self):
        runs = len(self.times) + self.failures
        times = "no times"
        if self.times:
            times = f"median {statistics.median(self.times) * 1000:.1f} ms, longest {max(self.times) * 1000:.1f} ms"
        lines = ", ".join(f"{name} {count}" for name, count in sorted(self.counts.items()))
        return f"{runs} runs, {self.failures} failures, {times}; {lines or 'no lines'}"


def keep(folder, number):
    """The files of a failure, in a folder of their own."""
    kept = tempfile.mkdtemp(prefix=f"many_runs_{number}_")
    shutil.copytree(folder, kept, dirs_exist_ok=True)
    return kept


def run_many(wanted, folder, names, captures, results):
    """All runs; the answer is how many failed."""
    source = random.Random(wanted.seed)
    command = ["taskset", "-c", wanted.processors, os.path.abspath(bench.PROGRAM), "send"]
    command += ["--settings", "settings", "--wire", "wire", "--order", "order", *names]
    turns = itertools.cycle(itertools.product(wanted.policies, wanted.kinds))
    for number, (policy, kind) in zip(range(wanted.runs), turns):
        settings = drawn_settings(source, policy, kind) if wanted.draw else standard_settings(policy, kind)
        for old in ("wire", "order"):
            if os.path.exists(os.path.join(folder, old)):
                os.remove(os.path.join(folder, old))
        with open(os.path.join(folder, "settings"), "wb") as out:
            out.write(written(settings))
        found = results[policy, kind]
        try:
            seconds, counts = run_once(command, folder, captures)
        except Wrong as wrong:
            found.failures += 1
            print(f"run {number}, {policy}, {kind}: {wrong}; its files are in {keep(folder, number)}", flush=True)
            continue
        found.times.append(seconds)
        found.counts += counts
    return sum(found.failures for found in results.values())


def read_words():
    parser = argparse.ArgumentParser(description="Runs the program many times, and judges each run.", allow_abbrev=False)
    parser.add_argument("--runs", type=int, default=1_000)
    parser.add_argument("--senders", type=int, default=4)
    parser.add_argument("--processors", default=",".join(map(str, sorted(os.sched_getaffinity(0))[:2])))
    parser.add_argument("--policy", choices=POLICIES, help="only this policy")
    parser.add_argument("--kind", choices=KINDS, help="only this kind of adapter")
    parser.add_argument("--draw", action="store_true", help="draw the other settings of each run")
    parser.add_argument("--seed", type=int, default=1, help="of captures and settings")
    wanted = parser.parse_args()
    wanted.policies = (wanted.policy,) if wanted.policy else POLICIES
    wanted.kinds = (wanted.kind,) if wanted.kind else KINDS
    return wanted


def main():
    wanted = read_words()
    if not os.path.exists(bench.PROGRAM):
        sys.exit("build the program first: ./iflib_run send --wire wire.pcap --order order.txt examples/sample.pcap")
    if shutil.which("taskset") is None:
        sys.exit("there is no taskset here")
    source = random.Random(wanted.seed)
    results = {pair: Results() for pair in itertools.product(wanted.policies, wanted.kinds)}
    with tempfile.TemporaryDirectory() as folder:
        names = [f"capture{sender}" for sender in range(wanted.senders)]
        for name in names:
            bench.write_capture(os.path.join(folder, name), drawn_frames(source, FRAMES))
        captures = [judge.read_capture(name, judge.read_file(os.path.join(folder, name))) for name in names]
        failures = run_many(wanted, folder, names, captures, results)
    print(f"{wanted.runs} runs of {wanted.senders} senders on the processors {wanted.processors}: {failures} failures")
    for (policy, kind), found in results.items():
        print(f"  {policy}, {kind}: {found.text()}")
    return 1 if failures else 0


if __name__ == "__main__":
    sys.exit(main())
