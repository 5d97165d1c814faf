#!/usr/bin/env python3
"""Compares the program's `trace` with a plain model of the ring's machine on random schedules.

Usage: bench/trace_differential.py [SCHEDULES [SEED]]

Writes SCHEDULES random schedules (10,000 where no number is given), most of whose events are legal, runs the
built program on each, and compares its status and all that it prints with this file's own model. It stops at
the first difference, and prints the schedule. Standard library only; no part of the gate.
"""

import os
import random
import subprocess
import sys
import tempfile

TOP = os.path.dirname(os.path.dirname(os.path.abspath(__file__)))
PROGRAM = os.path.join(TOP, "crates", "iflib_run", "out", "iflib_run")
FLAGS = {"idle": 0, "busy": 1, "stalled": 2, "abdicated": 3}
MAX_BATCH = 1


class Fault(Exception):
    """The first condition of an event that fails."""


def need(holds, condition):
    if not holds:
        raise Fault(condition)


class Machine:
    """The ring's numbers, which never wrap, and who has which of them."""

    def __init__(self, size, seats):
        self.size, self.seats = size, seats
        self.reserved = self.published = self.released = 0
        self.flag = "idle"
        self.reservations = {}
        self.consumer = None  # seat, known, total, budget, first flag
        self.counts = dict.fromkeys(("starts", "stalls", "restarts", "abdications", "enqueues", "drops"), 0)

    def word(self):
        parts = (self.reserved % self.size, self.published % self.size, self.released % self.size, FLAGS[self.flag])
        return sum(part << (16 * place) for place, part in enumerate(parts))

    def free(self):
        return self.size - 1 - (self.reserved - self.released)

    def drains(self, seat):
        return self.consumer is not None and self.consumer[0] == seat

    def apply(self, name, seat, number):
        need(seat < self.seats, "Seat")
        getattr(self, name)(seat, number)

    def look(self, seat, _):
        pass

    def asks_for_places(self, seat, n):
        need(1 <= n <= MAX_BATCH, "Count")
        need(not self.drains(seat), "Role")
        need(seat not in self.reservations, "Pending")

    def refuse(self, seat, n):
        self.asks_for_places(seat, n)
        need(n >= self.free(), "Room")
        self.counts["drops"] += n

    def reserve(self, seat, n):
        self.asks_for_places(seat, n)
        need(n < self.free(), "Room")
        self.reservations[seat] = (self.reserved, n)
        self.reserved += n

    def has_turn(self, seat):
        need(seat in self.reservations, "NoReservation")
        need(self.reservations[seat][0] == self.published, "Turn")

    def publish(self, seat):
        n = self.reservations.pop(seat)[1]
        self.published += n
        self.counts["enqueues"] += n

    def behind(self, seat, _):
        self.has_turn(seat)
        need(self.flag == "busy", "Flag")
        self.publish(seat)

    def elected(self, seat, budget):
        self.has_turn(seat)
        need(self.flag != "busy", "Flag")
        self.publish(seat)
        if self.flag == "idle":
            self.counts["starts"] += 1
        self.consumer = [seat, self.published, 0, budget, self.flag]
        self.flag = "busy"

    def abdicating(self, seat, _):
        self.has_turn(seat)
        self.publish(seat)
        if self.flag == "idle":
            self.flag = "abdicated"

    def advance(self, seat, n):
        need(self.drains(seat), "Role")
        _, known, total, budget, _ = self.consumer
        need(1 <= n <= 95, "Count")
        need(self.released + n <= known, "Known")
        need(self.released + n == known or n >= 64 or total + n >= budget, "Update")
        need(self.released + n < self.published, "Left")
        need(not (total + n >= budget and self.published < self.reserved), "Budget")
        self.released += n
        self.consumer[1] = self.published
        self.consumer[2] = total + n

    def leave(self, n, flag):
        _, _, total, _, first = self.consumer
        if flag == "stalled" and not (first == "stalled" and total + n == 0):
            self.counts["stalls"] += 1
        if first == "stalled" and total + n > 0:
            self.counts["restarts"] += 1
        if flag == "abdicated":
            self.counts["abdications"] += 1
        self.released += n
        self.flag = flag
        self.consumer = None

    def idle(self, seat, n):
        need(self.drains(seat), "Role")
        need(1 <= n <= 95, "Count")
        need(self.released + n <= self.consumer[1], "Known")
        need(self.released + n == self.published, "Left")
        self.leave(n, "idle")

    def abdicate(self, seat, n):
        need(self.drains(seat), "Role")
        _, known, total, budget, _ = self.consumer
        need(1 <= n <= 95, "Count")
        need(self.released + n <= known, "Known")
        need(total + n >= budget, "Budget")
        need(self.released + n < self.published, "Left")
        need(self.published < self.reserved, "Quiet")
        self.leave(n, "abdicated")

    def stall(self, seat, n):
        need(self.drains(seat), "Role")
        _, known, total, budget, _ = self.consumer
        need(n <= 63, "Count")
        need(self.released + n < known, "Known")
        need(n == 0 or total + n < budget, "Update")
        self.leave(n, "stalled")

    def takeover(self, seat, budget):
        need(not self.drains(seat), "Role")
        need(seat not in self.reservations, "Pending")
        need(self.flag in ("stalled", "abdicated"), "Flag")
        need(self.reserved == self.published, "Quiet")
        self.consumer = [seat, self.published, 0, budget, self.flag]
        self.flag = "busy"


WITH_NUMBER = ("refuse", "reserve", "elected", "advance", "idle", "abdicate", "stall", "takeover")
EVENTS = ("look", "refuse", "reserve", "reserve", "behind", "elected", "abdicating", "advance", "idle", "abdicate", "stall", "takeover")


def is_legal(machine, event):
    """Whether the event is legal now; the machine is left as it was."""
    kept = (machine.reserved, machine.published, machine.released, machine.flag, dict(machine.reservations),
            None if machine.consumer is None else list(machine.consumer), dict(machine.counts))
    try:
        machine.apply(*event)
        legal = True
    except Fault:
        legal = False
    (machine.reserved, machine.published, machine.released, machine.flag, machine.reservations,
     machine.consumer, machine.counts) = kept
    return legal


def some_event(source, machine):
    """An event that is legal, if a few tries find one; now and then any event."""
    event = None
    for _ in range(40):
        name = source.choice(EVENTS)
        seat = source.randrange(machine.seats + (source.random() < 0.02))
        number = source.choice((0, 1, 1, 1, 2, 3, 32, source.randrange(100)))
        event = (name, seat, number)
        if source.random() < 0.01 or is_legal(machine, event):
            break
    return event


def written(event):
    name, seat, number = event
    return f"{name} {seat} {number}" if name in WITH_NUMBER else f"{name} {seat}"


def make(source):
    """A schedule's text, with the status and the text that its replay has to give."""
    size = source.choice((4, 5, 8, 16, 64, 65536, source.randrange(4, 300)))
    seats = source.choice((1, 2, 3, 5, 9))
    machine = Machine(size, seats)
    lines, printed, status = [f"ring {size} {seats}"], [], 0
    for _ in range(source.randrange(60)):
        event = some_event(source, machine)
        lines.append(written(event))
        if status == 0:
            try:
                machine.apply(*event)
                printed.append(f"{machine.word():016x} {machine.flag}")
            except Fault as fault:
                printed.append(f"trace: line {len(lines)}: {fault}")
                status = 9
    text = "\n".join(lines) + "\n"
    if source.random() < 0.03:
        return spoiled(source, lines)
    if status == 0:
        printed.append(" ".join(f"{name} {count}" for name, count in machine.counts.items()))
    return text, status, "\n".join(printed) + "\n"


def spoiled(source, lines):
    """The schedule with one line that is not of the grammar."""
    at = source.randrange(len(lines))
    lines = list(lines)
    lines[at] = source.choice(("", "look", lines[at] + " ", lines[at].replace(" ", "  ", 1), "Look 0", "look 00", "look -1", "reserve 0 4294967296", "takeover 0 65536"))
    end = "\n"
    if lines[at] and source.random() < 0.3:
        lines, end = lines[: at + 1], ""
    return "\n".join(lines) + end, 9, f"trace: line {at + 1}: Line\n"


def main():
    schedules = int(sys.argv[1]) if len(sys.argv) > 1 else 10_000
    seed = int(sys.argv[2]) if len(sys.argv) > 2 else 1
    if not os.path.exists(PROGRAM):
        sys.exit("build the program first: ./iflib_run trace FILE")
    source = random.Random(seed)
    events = 0
    with tempfile.TemporaryDirectory() as folder:
        name = os.path.join(folder, "schedule")
        for number in range(schedules):
            text, status, printed = make(source)
            events += text.count("\n") - 1
            with open(name, "w", encoding="ascii") as out:
                out.write(text)
            done = subprocess.run([PROGRAM, "trace", name], capture_output=True, check=False)
            if (done.returncode, done.stdout.decode()) != (status, printed):
                print(f"schedule {number}:\n{text}\nwanted {status}:\n{printed}\ngot {done.returncode}:\n{done.stdout.decode()}")
                sys.exit(1)
    print(f"{schedules} schedules of {events} events: no difference")


if __name__ == "__main__":
    main()
