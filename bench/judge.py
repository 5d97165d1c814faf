#!/usr/bin/env python3
"""Judges the files that a run of `send` wrote, by the captures and the settings that it was given.

Usage: bench/judge.py --wire W --order O [--settings S] FILE...

It prints `good` and ends with status 0; or one line that names the first clause that fails, and ends with status 1;
or one line that says which of its inputs is none (a file that is not there, a FILE that is no capture, settings
that it cannot read), and ends with status 2. It knows nothing of the program: it reads the formats by itself.

The clauses, in the order in which they are tried:

1. The order text has its form: a line `accepted N` and N lines `S K FATE`, then a line `away M` and M lines
   `S K WHY`, and nothing behind them. FATE is wire, too_many_segments, reset or flush. WHY is runt, oversize,
   no_clusters, or no_buffers with a word of the ring, `HEAD TAIL CIDX FLAG`. Single spaces stand between words,
   numbers are decimal without leading zeros, S and K are below 2^32 and the three places below 65,536.
2. Every record of the captures stands in exactly one line, and no line names anything else. S counts the captures
   from 0, as they were given, and K the records of one capture from 0.
3. The accepted frames of each capture stand in the order of its records, and the away lines in the order of S and
   then of K.
4. A frame is a runt exactly where it has fewer than 14 bytes, and oversize exactly where it has at least 14 and more
   than `frames.max_frame`. A frame with too_many_segments has more than `adapter.max_segs` parts of 2,048 bytes; one
   with wire or reset has not.
5. no_buffers and no_clusters stand only where `frames.policy` is "drop", reset only where `adapter.hang_after` is
   above 0, and flush only where `stop.mode` is "flush".
6. The word of each no_buffers line is one of a ring of `ring.size` places in which no place was left to reserve: its
   three places are below `ring.size`, and at most one place lies between HEAD and CIDX, going round.
7. The wire file is exactly the written capture of the frames with fate wire, in the order of their lines.

Standard library only (Python 3.11 or later); no part of the gate.
"""

import argparse
import gc
import itertools
import re
import struct
import sys
import tomllib
import typing

HEADER_BYTES = 24
RECORD_BYTES = 16
MAX_CAPTURED = 262_144
WRITTEN_HEADER = struct.pack("<IHHIIII", 0xA1B2C3D4, 2, 4, 0, 0, MAX_CAPTURED, 1)
WRITTEN_RECORD = struct.Struct("<IIII")
CLUSTER_BYTES = 2_048
RUNT_BELOW = 14

COUNT = rb"(0|[1-9][0-9]{0,19})"
NUMBER = rb"(0|[1-9][0-9]{0,9})"
FATE = rb"(wire|too_many_segments|reset|flush)"
WORD = NUMBER + rb" " + NUMBER + rb" " + NUMBER + rb" (?:idle|busy|stalled|abdicated)"
ACCEPTED = re.compile(rb"accepted " + COUNT + rb"\n")
AWAY = re.compile(rb"^away " + COUNT + rb"\n", re.MULTILINE)
ACCEPTED_LINE = re.compile(rb"^" + NUMBER + rb" " + NUMBER + rb" " + FATE + rb"$", re.MULTILINE)
AWAY_LINE = re.compile(
    rb"^" + NUMBER + rb" " + NUMBER + rb" (?:(runt|oversize|no_clusters)|no_buffers " + WORD + rb")$", re.MULTILINE
)


class Unfit(Exception):
    """An input that cannot be judged by: it is not there, or is not what it has to be."""


class Fault(Exception):
    """What is wrong with the files of the run."""


class Settings(typing.NamedTuple):
    """What the clauses ask of a settings file, with the standard values."""

    ring_size: int = 2_048
    max_segs: int = 32
    hang_after: int = 0
    max_frame: int = 65_536
    policy: str = "retry"
    stop_mode: str = "drain"


# Each field of `Settings` with its table, its key and the values that it may have.
KEYS = {
    "ring_size": ("ring", "size", range(4, 65_537)),
    "max_segs": ("adapter", "max_segs", range(1, 65)),
    "hang_after": ("adapter", "hang_after", range(0, 1_000_001)),
    "max_frame": ("frames", "max_frame", range(14, 65_537)),
    "policy": ("frames", "policy", ("retry", "drop")),
    "stop_mode": ("stop", "mode", ("drain", "flush")),
}


def read_settings(text):
    """The settings that a TOML document sets; what it says beyond the keys above is not looked at."""
    try:
        document = tomllib.loads(text.decode("utf-8"))
    except (UnicodeDecodeError, tomllib.TOMLDecodeError) as error:
        raise Unfit("settings: text") from error
    found = {}
    for field, (table, key, values) in KEYS.items():
        part = document.get(table, {})
        if not isinstance(part, dict):
            raise Unfit(f"settings: {table}")
        if key not in part:
            continue
        value = part[key]
        kind = int if isinstance(values, range) else str
        if type(value) is not kind or value not in values:
            raise Unfit(f"settings: {table}.{key}")
        found[field] = value
    return Settings(**found)


class Capture(typing.NamedTuple):
    """The bytes of a capture's file, and where its records lie and how many bytes their frames have."""

    data: bytes
    record: struct.Struct
    nanoseconds: bool
    places: list
    lengths: list

    def written(self, index):
        """A record as it stands in a written capture: the lowest byte first, with microseconds."""
        at, length = self.places[index], self.lengths[index]
        end = at + RECORD_BYTES + length
        if self.record.format == WRITTEN_RECORD.format and not self.nanoseconds:
            return self.data[at:end]
        seconds, fraction, _, original = self.record.unpack_from(self.data, at)
        micros = fraction // 1_000 if self.nanoseconds else fraction
        return WRITTEN_RECORD.pack(seconds, micros, length, original) + self.data[at + RECORD_BYTES:end]


def read_capture(name, data):
    """The capture that a file's bytes are."""
    record, nanoseconds = form_of(name, data)
    places, lengths = [], []
    unpack, size, at = record.unpack_from, len(data), HEADER_BYTES
    while at < size:
        if size - at < RECORD_BYTES:
            raise Unfit(f"capture: {name} at {at}: RecordShort")
        length = unpack(data, at)[2]
        if length > MAX_CAPTURED:
            raise Unfit(f"capture: {name} at {at}: TooLong")
        if size - at - RECORD_BYTES < length:
            raise Unfit(f"capture: {name} at {at}: RecordShort")
        places.append(at)
        lengths.append(length)
        at += RECORD_BYTES + length
    return Capture(data, record, nanoseconds, places, lengths)


def form_of(name, data):
    """The form of a capture's file: how the numbers of its records lie, and whether it counts nanoseconds."""
    if len(data) < HEADER_BYTES:
        raise Unfit(f"capture: {name} at 0: Short")
    for order in "<>":
        magic, major, minor, _, _, _, link = struct.unpack_from(order + "IHHIIII", data)
        if magic not in (0xA1B2C3D4, 0xA1B23C4D):
            continue
        if (major, minor) != (2, 4):
            raise Unfit(f"capture: {name} at 4: Version")
        if link & 0xFFFF != 1:
            raise Unfit(f"capture: {name} at 20: Link")
        return struct.Struct(order + "IIII"), magic == 0xA1B23C4D
    raise Unfit(f"capture: {name} at 0: Magic")


class Lines(typing.NamedTuple):
    """The accepted lines or the away lines of an order text, a list for each word of a line."""

    first: int  # the number of the first line in the text, counted from 1
    senders: list
    indexes: list
    says: list
    words: list  # for no_buffers the three places of the ring's word

    def rows(self):
        """Each line: its number, the record that it names, what it says of it, and the ring's word."""
        return zip(itertools.count(self.first), self.senders, self.indexes, self.says, self.words)


class Run(typing.NamedTuple):
    """All that the clauses behind the first look at."""

    settings: Settings
    captures: list
    accepted: Lines
    away: Lines
    wire: bytes


def read_order(order):
    """Clause 1: the accepted lines and the away lines of an order text."""
    head = ACCEPTED.match(order)
    if head is None:
        raise Fault("line 1 is not of the form")
    turn = AWAY.search(order, head.end())
    if turn is None:
        raise Fault("there is no line that counts the away lines")
    accepted = read_lines(ACCEPTED_LINE, order[head.end() : turn.start()], int(head[1]), 2)
    away = read_lines(AWAY_LINE, order[turn.end() :], int(turn[1]), len(accepted.says) + 3)
    return accepted, away


def read_lines(form, text, count, first):
    """Lines of a form, as many as were announced."""
    found = form.findall(text)
    lines = text.split(b"\n")
    if lines.pop() != b"":
        raise Fault("the last line has no line feed")
    if len(found) != len(lines):
        bad = next(at for at, line in enumerate(lines) if form.fullmatch(line) is None)
        raise Fault(f"line {first + bad} is not of the form")
    if len(lines) != count:
        raise Fault(f"line {first - 1} announces {count} lines, and {len(lines)} stand behind it")
    if not found:
        return Lines(first, [], [], [], [])
    senders, indexes, says, *places = zip(*found)
    says = [word.decode() if word else "no_buffers" for word in says]
    words = list(zip(*(below(2**16, column, first) for column in places))) or [None] * count
    return Lines(first, below(2**32, senders, first), below(2**32, indexes, first), says, words)


def below(bound, column, first):
    """The numbers of a column, which have to be below the bound; where nothing stands, 0."""
    numbers = [int(text or 0) for text in column]
    if max(numbers) >= bound:
        bad = next(at for at, number in enumerate(numbers) if number >= bound)
        raise Fault(f"line {first + bad} has a number that is not below {bound}")
    return numbers


def each_once(run):
    """Clause 2."""
    seen = [bytearray(len(capture.places)) for capture in run.captures]
    for lines in (run.accepted, run.away):
        for number, sender, index, _, _ in lines.rows():
            if sender >= len(seen) or index >= len(seen[sender]):
                raise Fault(f"line {number} names {sender} {index}, which is no record")
            if seen[sender][index]:
                raise Fault(f"line {number} names {sender} {index} again")
            seen[sender][index] = 1
    for sender, marks in enumerate(seen):
        index = marks.find(0)
        if index >= 0:
            raise Fault(f"no line names {sender} {index}")


def in_order(run):
    """Clause 3."""
    last = [-1] * len(run.captures)
    for number, sender, index, _, _ in run.accepted.rows():
        if last[sender] > index:
            raise Fault(f"line {number} stands behind {sender} {last[sender]}")
        last[sender] = index
    before = (0, 0)
    for number, sender, index, _, _ in run.away.rows():
        if before > (sender, index):
            raise Fault(f"line {number} stands behind {before[0]} {before[1]}")
        before = (sender, index)


def by_length(run):
    """Clause 4."""
    max_frame, max_bytes = run.settings.max_frame, run.settings.max_segs * CLUSTER_BYTES
    lengths = [capture.lengths for capture in run.captures]
    for lines in (run.accepted, run.away):
        for number, sender, index, says, _ in lines.rows():
            length = lengths[sender][index]
            verdict = "runt" if length < RUNT_BELOW else "oversize" if length > max_frame else None
            too_many = length > max_bytes
            if (
                says != verdict and (verdict is not None or says in ("runt", "oversize"))
                or says == "too_many_segments" and not too_many
                or says in ("wire", "reset") and too_many
            ):
                raise Fault(f"line {number} says {says} of a frame of {length} bytes")


def by_settings(run):
    """Clause 5."""
    allowed = {
        "no_buffers": run.settings.policy == "drop",
        "no_clusters": run.settings.policy == "drop",
        "reset": run.settings.hang_after > 0,
        "flush": run.settings.stop_mode == "flush",
    }
    for lines in (run.accepted, run.away):
        for number, _, _, says, _ in lines.rows():
            if not allowed.get(says, True):
                raise Fault(f"line {number} says {says}, which the settings do not allow")


def without_room(run):
    """Clause 6."""
    size = run.settings.ring_size
    for number, _, _, says, word in run.away.rows():
        if says != "no_buffers":
            continue
        head, _, cidx = word
        if max(word) >= size:
            raise Fault(f"line {number} has a word that is none of a ring of {size} places")
        room = (cidx - head - 1) % size
        if room > 1:
            raise Fault(f"line {number} has a word of the ring with room for {room}")


def on_the_wire(run):
    """Clause 7."""
    wire, at = run.wire, len(WRITTEN_HEADER)
    if not wire.startswith(WRITTEN_HEADER):
        raise Fault("the wire does not begin with the header of a written capture")
    for number, sender, index, fate, _ in run.accepted.rows():
        if fate != "wire":
            continue
        record = run.captures[sender].written(index)
        if not wire.startswith(record, at):
            raise Fault(f"the wire has at {at} not the frame {sender} {index} of line {number}")
        at += len(record)
    if at != len(wire):
        raise Fault(f"the wire goes on at {at} behind its last frame")


# The clauses behind the first, each by its number. They look at a run whose order text has its form; from the third on
# they need that the second holds.
CLAUSES = {2: each_once, 3: in_order, 4: by_length, 5: by_settings, 6: without_room, 7: on_the_wire}


def first_fault(settings, captures, wire, order):
    """The first clause that fails and what is wrong, or None where all hold."""
    clause = 1
    try:
        accepted, away = read_order(order)
        run = Run(settings, captures, accepted, away, wire)
        for clause, check in CLAUSES.items():
            check(run)
    except Fault as fault:
        return clause, str(fault)
    return None


def read_file(name):
    try:
        with open(name, "rb") as file:
            return file.read()
    except OSError as error:
        raise Unfit(f"{name}: {error.strerror}") from error


def judge_files(wire, order, captures, settings=None):
    """`first_fault` of the files of these names."""
    return first_fault(
        Settings() if settings is None else read_settings(read_file(settings)),
        [read_capture(name, read_file(name)) for name in captures],
        read_file(wire),
        read_file(order),
    )


def main():
    parser = argparse.ArgumentParser(description="Judges the files that a run wrote.", allow_abbrev=False)
    parser.add_argument("--wire", required=True, help="the capture that the run wrote")
    parser.add_argument("--order", required=True, help="the order text that the run wrote")
    parser.add_argument("--settings", help="the settings file that the run was given, if any")
    parser.add_argument("captures", nargs="+", metavar="FILE", help="the captures that the run was given, in its order")
    names = parser.parse_args()
    gc.disable()  # all that is read is looked at until the end
    try:
        fault = judge_files(names.wire, names.order, names.captures, names.settings)
    except Unfit as unfit:
        print(unfit)
        return 2
    if fault is not None:
        print("clause {}: {}".format(*fault))
        return 1
    print("good")
    return 0


if __name__ == "__main__":
    sys.exit(main())
