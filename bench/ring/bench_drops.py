#!/usr/bin/env python3
"""Times refusals of a full ring, while another thread has reserved the last place and does not publish.

Usage: bench/ring/bench_drops.py BEFORE [COUNT [ROUNDS]]

Makes a workspace out of the ring's crates of this checkout, and one out of those of the commit BEFORE, each with the
program in `drops.rt.txt`, and proves and builds both (this takes minutes). Then a thread is refused COUNT times
(20,000 where none is given), ROUNDS times (9), the programs in turn. It prints the time of one refusal, least and
median: that of a run of COUNT refusals less that of a run of none, by the number of refusals.

Standard library only; no part of the gate.
"""

import os
import statistics
import subprocess
import sys
import tempfile
import time

HERE = os.path.dirname(os.path.abspath(__file__))
sys.path.insert(0, os.path.dirname(HERE))
import workspace

LAYERS = ("ifl_base", "ifl_outside", "ifl_ringcore", "ifl_ring")
STANDS_ON = "core atomic_table ifl_base ifl_outside ifl_ringcore ifl_ring"
PROOFS = {"refusals/Invariants.antt": "drops-refusals-Invariants.antt.txt"}


def program(top, folder):
    """Builds the program over the crates of the checkout `top`."""
    os.makedirs(folder)
    proofs = {place: os.path.join(HERE, file) for place, file in PROOFS.items()}
    source = os.path.join(HERE, "drops.rt.txt")
    crate = workspace.make(folder, LAYERS, "bench_drops", STANDS_ON, source, proofs, top)
    return workspace.build(crate, ["10"])


def seconds(command, count):
    """How long a run of so many refusals takes. Each try has to be refused."""
    start = time.perf_counter()
    said = subprocess.run([command, str(count)], check=True, capture_output=True, text=True).stdout
    took = time.perf_counter() - start
    if int(said) != count:
        sys.exit(f"{said.strip()} of {count} tries were refused")
    return took


def main():
    if len(sys.argv) < 2:
        sys.exit(__doc__)
    before = sys.argv[1]
    count = int(sys.argv[2]) if len(sys.argv) > 2 else 20_000
    rounds = int(sys.argv[3]) if len(sys.argv) > 3 else 9
    with tempfile.TemporaryDirectory() as folder:
        old = os.path.join(folder, "old")
        subprocess.run(["git", "-C", workspace.TOP, "worktree", "add", "--detach", old, before], check=True)
        try:
            programs = {
                "now": program(workspace.TOP, os.path.join(folder, "now")),
                before: program(old, os.path.join(folder, "before")),
            }
            times = {name: [] for name in programs}
            for _ in range(rounds):
                for name, path in programs.items():
                    times[name].append((seconds(path, count) - seconds(path, 0)) / count * 1e6)
        finally:
            subprocess.run(["git", "-C", workspace.TOP, "worktree", "remove", "--force", old], check=True)
    for name, found in times.items():
        print(f"{name}: {min(found):.2f} µs a refusal (median {statistics.median(found):.2f})")
    print(f"ratio of the medians: {statistics.median(times[before]) / statistics.median(times['now']):.1f}")


if __name__ == "__main__":
    main()
