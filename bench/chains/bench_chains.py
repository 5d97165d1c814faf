#!/usr/bin/env python3
"""Times packets and pools beside plain Rust and beside the queue that a pool stands on.

Usage: bench/chains/bench_chains.py [COUNT [ROUNDS]]

Makes a workspace in a temporary folder out of `ifl_base`, `ifl_mbuf`, `ifl_pool` and the program in `main.rt.txt`,
proves and builds it (this takes minutes), and builds `main.rs` by rustc. Then it runs each of four loops COUNT times
(20,000,000 where no number is given), ROUNDS rounds (5), and prints the user time of one turn:

  packets   a packet of one segment from a sender's hands through a deque and a slot to a consumer's
  Rust      the same with boxed nodes in plain Rust
  pool      a pool's take and give by one pass
  queue     pop and push of `crossbeam_queue`'s bounded queue with the same clusters

Standard library only; no part of the gate.
"""

import os
import resource
import statistics
import subprocess
import sys
import tempfile

HERE = os.path.dirname(os.path.abspath(__file__))
sys.path.insert(0, os.path.dirname(HERE))
import workspace

LAYERS = ("ifl_base", "ifl_mbuf", "ifl_pool")
STANDS_ON = "crossbeam_queue crossbeam_utils atomic_table std_alloc core std_heap ifl_base ifl_mbuf ifl_pool"


def user_time(command):
    before = resource.getrusage(resource.RUSAGE_CHILDREN).ru_utime
    subprocess.run(command, stdout=subprocess.DEVNULL, check=True)
    return resource.getrusage(resource.RUSAGE_CHILDREN).ru_utime - before


def main():
    count = int(sys.argv[1]) if len(sys.argv) > 1 else 20_000_000
    rounds = int(sys.argv[2]) if len(sys.argv) > 2 else 5
    with tempfile.TemporaryDirectory() as folder:
        crate = workspace.make(folder, LAYERS, "bench_chains", STANDS_ON, os.path.join(HERE, "main.rt.txt"),
                               {"pool/Invariants.antt": os.path.join(HERE, "pool-Invariants.antt.txt")})
        built = workspace.build(crate, ["packets", "1"])
        plain = workspace.build_plain(os.path.join(HERE, "main.rs"), os.path.join(folder, "plain"))
        loops = {"packets": [built, "packets"], "Rust": [plain], "pool": [built, "pool"], "queue": [built, "queue"]}
        times = {name: [] for name in loops}
        for _ in range(rounds):
            for name, command in loops.items():
                times[name].append(user_time(command + [str(count)]) / count * 1e9)
    for name, rows in times.items():
        print(f"{name:8} {min(rows):6.1f} ns at least, median {statistics.median(rows):6.1f} ns")
    print(f"packets / Rust {min(times['packets']) / min(times['Rust']):.2f}, pool / queue {min(times['pool']) / min(times['queue']):.2f}")


if __name__ == "__main__":
    main()
