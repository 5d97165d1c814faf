#!/usr/bin/env python3
"""Times the ring beside rings over plain atomics.

Usage: bench/ring/bench_ring.py [--busy] [COUNT [ROUNDS]]

Makes a workspace in a temporary folder out of the ring's crates and the program in `main.rt.txt`, proves and builds it
(this takes minutes), and builds three programs in Rust with nothing proved, by rustc:

- `main.rs` is the same machine with the same calls: the word, steps, waiting, batches, hand-over of items in a queue,
  answers and counters of the ring.
- The same file once more, which waits as FreeBSD's ring does: it reserves at once, and pauses until its turn.
- `bare.rs` is the least that can be called this machine: the word and its steps for one number at a time, which is
  passed by value, with no counters, no refusals' words and no abdication.

Then 1, 2, 4 and 8 threads put COUNT numbers in all (2,000,000 where none is given) into a ring of 2,048 places, whose
drainer counts them and adds them up, ROUNDS times (9), the programs in turn. It prints the time of one number, from
the start of the program to its end, least and median, and the ratios of the medians and of the least times. With --busy
an endless loop runs for each processor beside them. A run is given up after 20 seconds, and counts as those 20.

Standard library only; no part of the gate.
"""

import contextlib
import os
import signal
import statistics
import subprocess
import sys
import tempfile
import threading
import time

HERE = os.path.dirname(os.path.abspath(__file__))
sys.path.insert(0, os.path.dirname(HERE))
import workspace

LAYERS = ("ifl_base", "ifl_outside", "ifl_ringcore", "ifl_ring")
STANDS_ON = "core atomic_table ifl_base ifl_outside ifl_ringcore ifl_ring"
PROOFS = {
    "Counter/take/Invariants.antt": "Counter-take-Invariants.antt.txt",
    "put/Invariants.antt": "put-Invariants.antt.txt",
    "send/Invariants.antt": "send-Invariants.antt.txt",
}


LIMIT = 20


def seconds(command):
    start = time.perf_counter()
    with subprocess.Popen(command, stdout=subprocess.DEVNULL) as program:
        limit = threading.Timer(LIMIT, program.kill)
        limit.start()
        status = program.wait()
        took = time.perf_counter() - start
        limit.cancel()
    if status not in (0, -signal.SIGKILL):
        raise subprocess.CalledProcessError(status, command)
    return took


@contextlib.contextmanager
def endless_loops(count):
    """So many processes that do nothing but use a processor."""
    loops = [subprocess.Popen([sys.executable, "-c", "while True: pass"]) for _ in range(count)]
    try:
        yield
    finally:
        for loop in loops:
            loop.kill()
            loop.wait()


def compare(programs, producers, count, rounds):
    """The times of one number in nanoseconds, for each program, round by round."""
    times = {name: [] for name in programs}
    for _ in range(rounds):
        for name, program in programs.items():
            times[name].append(seconds([program, str(producers), str(count)]) / count * 1e9)
    return times


def line(producers, times):
    """What is printed of the times with so many threads."""
    least = {name: min(found) for name, found in times.items()}
    middle = {name: statistics.median(found) for name, found in times.items()}
    parts = [f"{name} {least[name]:.0f} ns (median {middle[name]:.0f})" for name in times]
    for name in list(times)[1:]:
        parts.append(f"ring : {name} {least['ring'] / least[name]:.2f} (medians {middle['ring'] / middle[name]:.2f})")
    return f"{producers} threads: " + ", ".join(parts)


def main():
    words = [word for word in sys.argv[1:] if word != "--busy"]
    loops = (os.cpu_count() or 1) if "--busy" in sys.argv else 0
    count = int(words[0]) if words else 2_000_000
    rounds = int(words[1]) if len(words) > 1 else 9
    with tempfile.TemporaryDirectory() as folder:
        proofs = {place: os.path.join(HERE, file) for place, file in PROOFS.items()}
        plain = os.path.join(HERE, "main.rs")
        crate = workspace.make(folder, LAYERS, "bench_ring", STANDS_ON, os.path.join(HERE, "main.rt.txt"), proofs)
        programs = {
            "ring": workspace.build(crate, ["1", "1000"]),
            "same calls": workspace.build_plain(plain, os.path.join(folder, "same")),
            "at once": workspace.build_plain(plain, os.path.join(folder, "at_once"), "--cfg", "reserves_at_once"),
            "bare": workspace.build_plain(os.path.join(HERE, "bare.rs"), os.path.join(folder, "bare")),
        }
        with endless_loops(loops):
            for producers in (1, 2, 4, 8):
                print(line(producers, compare(programs, producers, count, rounds)), flush=True)


if __name__ == "__main__":
    main()
