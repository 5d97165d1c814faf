#!/usr/bin/env python3
"""Times frames that go round each adapter's ring beside the same words and slots in plain Rust.

Usage: bench/adapters/bench_adapters.py [COUNT [ROUNDS]]

Makes a workspace in a temporary folder out of `ifl_base`, `ifl_mbuf`, `ifl_desc`, the three adapters and the program in
`main.rt.txt`, proves and builds it (this takes minutes), and builds `main.rs` by rustc. There one thread posts a frame,
rings the doorbell, looks for it as the device, completes it, looks for it as the driver and takes it back, COUNT times
(5,000,000 where no number is given), with frames of one and of four descriptors, on rings of 8, 1,024 and 32,768 slots.
Each is run ROUNDS times (5), the programs in turn. A line has the user time of one frame, least and median, the ratio
of the medians to plain Rust's, and beside the legacy and the generation adapter the ratio to the writeback one.

Standard library only; no part of the gate.
"""

import os
import resource
import statistics
import subprocess
import sys
import tempfile

HERE = os.path.dirname(os.path.abspath(__file__))
sys.path.insert(0, os.path.dirname(HERE))
import workspace

KINDS = ("writeback", "legacy", "generation")
SIZES = (8, 1024, 32768)
LAYERS = ("ifl_base", "ifl_mbuf", "ifl_desc", "ifl_writeback", "ifl_legacy", "ifl_generation")
STANDS_ON = "ifl_base ifl_mbuf ifl_desc ifl_writeback ifl_legacy ifl_generation"
PROOFS = ("post_frame/Invariants", "post_frame/Answers", "emit_one/Answers", "emit_all/Invariants", "emit_all/Answers",
          "reclaim_all/Invariants", "go_round/Invariants")


def user_time(command):
    before = resource.getrusage(resource.RUSAGE_CHILDREN).ru_utime
    subprocess.run(command, stdout=subprocess.DEVNULL, check=True)
    return resource.getrusage(resource.RUSAGE_CHILDREN).ru_utime - before


def compare(programs, size, descriptors, count, rounds):
    """The times of one frame in nanoseconds, for each kind and program, round by round."""
    times = {(kind, name): [] for kind in KINDS for name in programs}
    for _ in range(rounds):
        for (kind, name), rows in times.items():
            command = [programs[name], kind, str(size), str(descriptors), str(count)]
            rows.append(user_time(command) / count * 1e9)
    return times


def lines(size, descriptors, times):
    """What is printed of one size and one number of descriptors."""
    middle = {key: statistics.median(rows) for key, rows in times.items()}
    for kind in KINDS:
        parts = []
        for name in ("ring", "Rust"):
            parts.append(f"{name} {min(times[kind, name]):.0f} ns (median {middle[kind, name]:.0f})")
        parts.append(f"ring : Rust {middle[kind, 'ring'] / middle[kind, 'Rust']:.2f}")
        if kind != "writeback":
            parts.append(f"{kind} : writeback {middle[kind, 'ring'] / middle['writeback', 'ring']:.2f}")
        yield f"{size:6} slots, {descriptors} descriptors, {kind:10} " + ", ".join(parts)


def main():
    count = int(sys.argv[1]) if len(sys.argv) > 1 else 5_000_000
    rounds = int(sys.argv[2]) if len(sys.argv) > 2 else 5
    with tempfile.TemporaryDirectory() as folder:
        proofs = {place + ".antt": os.path.join(HERE, place.replace("/", "-") + ".antt.txt") for place in PROOFS}
        crate = workspace.make(folder, LAYERS, "bench_adapters", STANDS_ON, os.path.join(HERE, "main.rt.txt"), proofs)
        programs = {
            "ring": workspace.build(crate, ["writeback", "8", "1", "1000"]),
            "Rust": workspace.build_plain(os.path.join(HERE, "main.rs"), os.path.join(folder, "plain")),
        }
        for size in SIZES:
            for descriptors in (1, 4):
                for line in lines(size, descriptors, compare(programs, size, descriptors, count, rounds)):
                    print(line, flush=True)


if __name__ == "__main__":
    main()
