#!/usr/bin/env python3
"""Times packets that go through a transmit queue and its device beside the same steps in plain Rust.

Usage: bench/txq/bench_txq.py [COUNT [ROUNDS]]

Makes a workspace in a temporary folder out of the queue's crates and the program in `main.rt.txt`, proves and builds it
(this takes minutes), and builds `main.rs` by rustc, twice: with the orderings of the proved program, and with the weakest
that the steps allow. There one thread takes a cluster out of the pool, fills it with 60 bytes and offers it as a packet
of one segment to a queue over the writeback ring, turns the device, which emits it, and reclaims it, COUNT hundred
thousand times (20 where no number is given), on a ring of 1,024 slots, in batches of 1 and of 32 packets, with a doorbell
for each 4. Each 100,000 packets have a new ring, pool and log. Each program is run ROUNDS times (9), in turn. A line has
the user time of one packet, least and median, and the ratios of the medians and of the least times to plain Rust's.

Standard library only; no part of the gate.
"""

import os
import resource
import statistics
import subprocess
import sys
import tempfile

HERE = os.path.dirname(os.path.abspath(__file__))
sys.path.insert(0, os.path.dirname(HERE))
import workspace

BATCHES = (1, 32)
SLOTS = 1024
LAYERS = ("ifl_base", "ifl_outside", "ifl_mbuf", "ifl_pool", "ifl_ringcore", "ifl_ring", "ifl_desc", "ifl_writeback",
          "ifl_txq")
STANDS_ON = "ifl_base ifl_mbuf ifl_pool ifl_ring ifl_desc ifl_writeback ifl_txq"
PROOFS = ("emit_one/Answers", "turn/Invariants", "turn/Answers", "go_round/Invariants")


def user_time(command):
    before = resource.getrusage(resource.RUSAGE_CHILDREN).ru_utime
    subprocess.run(command, stdout=subprocess.DEVNULL, check=True)
    return resource.getrusage(resource.RUSAGE_CHILDREN).ru_utime - before


def compare(programs, batch, count, rounds):
    """The times of one packet in nanoseconds, for each program, round by round."""
    times = {name: [] for name in programs}
    for _ in range(rounds):
        for name, rows in times.items():
            command = [programs[name], str(SLOTS), str(batch), str(count)]
            rows.append(user_time(command) / count * 1e4)
    return times


def line(batch, times):
    """What is printed of one size of batches."""
    parts = [f"{name} {min(rows):.0f} ns (median {statistics.median(rows):.0f})" for name, rows in times.items()]
    ours = times["queue"]
    for name, rows in times.items():
        if name != "queue":
            middle = statistics.median(ours) / statistics.median(rows)
            parts.append(f"queue : {name} {middle:.2f} (least {min(ours) / min(rows):.2f})")
    return f"batches of {batch:2}: " + ", ".join(parts)


def main():
    count = int(sys.argv[1]) if len(sys.argv) > 1 else 20
    rounds = int(sys.argv[2]) if len(sys.argv) > 2 else 9
    with tempfile.TemporaryDirectory() as folder:
        proofs = {place + ".antt": os.path.join(HERE, place.replace("/", "-") + ".antt.txt") for place in PROOFS}
        crate = workspace.make(folder, LAYERS, "bench_txq", STANDS_ON, os.path.join(HERE, "main.rt.txt"), proofs)
        source = os.path.join(HERE, "main.rs")
        programs = {
            "queue": workspace.build(crate, [str(SLOTS), "1", "1"]),
            "Rust": workspace.build_plain(source, os.path.join(folder, "plain")),
            "least Rust": workspace.build_plain(source, os.path.join(folder, "least"), "--cfg", "least"),
        }
        for batch in BATCHES:
            print(line(batch, compare(programs, batch, count, rounds)), flush=True)


if __name__ == "__main__":
    main()
