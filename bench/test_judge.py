#!/usr/bin/env python3
"""Tests of judge.py: files that are good, and for each clause files at which it fails and no other does.

Usage: bench/test_judge.py

The files are made by hand here, and not by the program. Standard library only; no part of the gate.
"""

import os
import struct
import subprocess
import sys
import tempfile
import unittest

import judge

SCRIPT = os.path.abspath(judge.__file__)

# The header of a written capture as its bytes stand: magic, version 2.4, zone, accuracy, 262,144, Ethernet.
HEADER = bytes.fromhex("d4c3b2a1 02000400 00000000 00000000 00000400 01000000")

# Two captures of which the settings below leave nothing out: each fate and each reason stands once or twice.
ALL_KINDS = b"""
version = 1
[ring]
size = 8
[adapter]
max_segs = 1
hang_after = 1
[frames]
max_frame = 4000
policy = "drop"
[stop]
mode = "flush"
after = 2
"""
FIRST = (60, 13, 2_049, 4_001, 2_048, 14)
SECOND = (61, 3_000, 62, 63)
ALL_KINDS_ORDER = b"""accepted 6
1 0 wire
0 0 wire
0 2 too_many_segments
0 4 reset
1 1 flush
1 3 wire
away 4
0 1 runt
0 3 oversize
0 5 no_clusters
1 2 no_buffers 3 2 5 busy
"""


def frame(length):
    """A frame of this length, no two of whose bytes in a row are alike."""
    return bytes((at * 7 + length) % 256 for at in range(length))


def record(content, seconds=7, fraction=9, original=None, order="<"):
    original = len(content) if original is None else original
    return struct.pack(order + "IIII", seconds, fraction, len(content), original) + content


def capture(*lengths):
    """The written capture of frames of these lengths."""
    return HEADER + b"".join(record(frame(length)) for length in lengths)


def failing(captures, wire, order, settings=b""):
    """The numbers of all clauses that fail. The second has to hold for what names no record to be looked at further."""
    read = [judge.read_capture("f", data) for data in captures]
    given = judge.read_settings(settings)
    try:
        accepted, away = judge.read_order(order)
    except judge.Fault:
        return [1]
    run = judge.Run(given, read, accepted, away, wire)
    numbers = []
    for number, check in judge.CLAUSES.items():
        try:
            check(run)
        except judge.Fault:
            numbers.append(number)
    first = judge.first_fault(given, read, wire, order)
    assert (first[0] if first else None) == (numbers[0] if numbers else None)
    return numbers


class Good(unittest.TestCase):
    def test_plain(self):
        order = b"accepted 3\n0 0 wire\n0 2 wire\n0 3 wire\naway 1\n0 1 runt\n"
        self.assertEqual(failing([capture(60, 13, 14, 1_514)], capture(60, 14, 1_514), order), [])

    def test_nothing(self):
        self.assertEqual(failing([HEADER], HEADER, b"accepted 0\naway 0\n"), [])

    def test_each_fate_and_each_reason(self):
        wire = capture(61, 60, 63)
        self.assertEqual(failing([capture(*FIRST), capture(*SECOND)], wire, ALL_KINDS_ORDER, ALL_KINDS), [])

    def test_the_longest_frame_and_one_byte_more(self):
        order = b"accepted 1\n0 0 wire\naway 1\n0 1 oversize\n"
        self.assertEqual(failing([capture(65_536, 65_537)], capture(65_536), order), [])

    def test_four_forms(self):
        content = frame(60)
        wire = HEADER + record(content, 7, 9, 3_000)
        rest = "0004 00000000 00000000 0000ffff ffff0001"
        for magic, order, fraction in (("a1b2c3d4", ">", 9), ("a1b23c4d", ">", 9_999), ("4d3cb2a1", "<", 9_999)):
            header = bytes.fromhex(magic + "0002" + rest)
            if order == "<":
                header = bytes.fromhex(magic + "0200 0400 00000000 00000000 00000400 0100ffff")
            data = header + record(content, 7, fraction, 3_000, order)
            with self.subTest(magic=magic, order=order):
                self.assertEqual(failing([data], wire, b"accepted 1\n0 0 wire\naway 0\n"), [])

    def test_words_of_a_ring_without_room(self):
        for word in ("0 0 1 stalled", "0 5 2 idle", "7 7 0 busy", "7 0 1 abdicated", "6 6 7 busy"):
            order = f"accepted 0\naway 1\n0 0 no_buffers {word}\n".encode()
            with self.subTest(word=word):
                settings = b"ring.size = 8\nframes.policy = 'drop'"
                self.assertEqual(failing([capture(60)], HEADER, order, settings), [])


class FirstClause(unittest.TestCase):
    def test_texts_without_the_form(self):
        good = b"accepted 2\n0 0 wire\n0 1 wire\naway 0\n"
        self.assertEqual(failing([capture(60, 61)], capture(60, 61), good), [])
        for text in (
            b"",
            b"\n",
            good[:-1],
            good + b"\n",
            good + b"x",
            b"x" + good,
            b"\n" + good,
            good + b"away 0\n",
            good + b"0 2 runt\n",
            good.replace(b"\n", b"\r\n"),
            b"accepted 3\n0 0 wire\n0 1 wire\naway 0\n",
            b"accepted 1\n0 0 wire\n0 1 wire\naway 0\n",
            b"accepted 2\n0 0 wire\n0 1 wire\n",
            b"accepted 2\n0 0 wire\n0 1 wire\naway 1\n",
            b"accepted 02\n0 0 wire\n0 1 wire\naway 0\n",
            b"accepted  2\n0 0 wire\n0 1 wire\naway 0\n",
            b"accepted 2 \n0 0 wire\n0 1 wire\naway 0\n",
            b"accepted " + b"9" * 5_000 + b"\n0 0 wire\n0 1 wire\naway 0\n",
            b"Accepted 2\n0 0 wire\n0 1 wire\naway 0\n",
            b"accepted 2\n0 0 wire\n0 01 wire\naway 0\n",
            b"accepted 2\n0 0 wire\n0 +1 wire\naway 0\n",
            b"accepted 2\n0 0 wire\n0  1 wire\naway 0\n",
            b"accepted 2\n0 0 wire\n0 1 sent\naway 0\n",
            b"accepted 2\n0 0 wire\n0 1 runt\naway 0\n",
            b"accepted 2\n0 0 wire\n0 1 wire 0\naway 0\n",
            b"accepted 2\n0 0 wire\n4294967296 1 wire\naway 0\n",
            b"accepted 2\n0 0 wire\n0 4294967296 wire\naway 0\n",
            b"accepted 1\n0 0 wire\naway 1\n0 1 wire\n",
            b"accepted 1\n0 0 wire\naway 1\n0 1 no_buffers\n",
            b"accepted 1\n0 0 wire\naway 1\n0 1 no_buffers 0 0 1\n",
            b"accepted 1\n0 0 wire\naway 1\n0 1 no_buffers 0 0 1 full\n",
            b"accepted 1\n0 0 wire\naway 1\n0 1 no_buffers 0 65536 1 busy\n",
            b"accepted 1\n0 0 wire\naway 1\n0 1 no_clusters 0 0 1 busy\n",
        ):
            with self.subTest(text=text[:80]):
                self.assertEqual(failing([capture(60, 61)], capture(60, 61), text), [1])


class SecondClause(unittest.TestCase):
    def test_record_without_a_line(self):
        order = b"accepted 1\n0 0 wire\naway 0\n"
        self.assertEqual(failing([capture(60, 61)], capture(60), order), [2])

    def test_capture_without_a_line(self):
        order = b"accepted 1\n0 0 wire\naway 0\n"
        self.assertEqual(failing([capture(60), capture(61)], capture(60), order), [2])

    def test_record_with_two_lines(self):
        order = b"accepted 1\n0 0 wire\naway 2\n0 1 runt\n0 1 runt\n"
        self.assertEqual(failing([capture(60, 13)], capture(60), order), [2])
        order = b"accepted 3\n0 0 wire\n0 1 wire\n0 1 wire\naway 0\n"
        self.assertEqual(failing([capture(60, 61)], capture(60, 61, 61), order), [2])

    def test_line_of_no_record(self):
        for name in (b"0 2", b"1 0", b"4294967295 4294967295"):
            order = b"accepted 2\n0 0 wire\n0 1 wire\naway 1\n" + name + b" runt\n"
            fault = judge.first_fault(judge.Settings(), [judge.read_capture("f", capture(60, 61))], capture(60, 61), order)
            with self.subTest(name=name):
                self.assertEqual(fault[0], 2)


class ThirdClause(unittest.TestCase):
    def test_accepted_out_of_order(self):
        order = b"accepted 3\n0 1 wire\n1 0 wire\n0 0 wire\naway 0\n"
        self.assertEqual(failing([capture(60, 61), capture(62)], capture(61, 62, 60), order), [3])

    def test_away_out_of_order(self):
        order = b"accepted 1\n0 1 wire\naway 2\n0 2 runt\n0 0 runt\n"
        self.assertEqual(failing([capture(13, 60, 12)], capture(60), order), [3])
        order = b"accepted 0\naway 2\n1 0 runt\n0 0 runt\n"
        self.assertEqual(failing([capture(13), capture(12)], HEADER, order), [3])


class FourthClause(unittest.TestCase):
    def test_away_for_its_length(self):
        for length, why, settings in (
            (14, b"runt", b""),
            (13, b"oversize", b""),
            (65_536, b"oversize", b""),
            (65_537, b"runt", b""),
            (1_001, b"runt", b"frames.max_frame = 1000"),
            (1_000, b"oversize", b"frames.max_frame = 1000"),
            (13, b"no_clusters", b"frames.policy = 'drop'"),
            (65_537, b"no_buffers 0 0 1 busy", b"frames.policy = 'drop'"),
        ):
            order = b"accepted 0\naway 1\n0 0 " + why + b"\n"
            with self.subTest(length=length, why=why):
                self.assertEqual(failing([capture(length)], HEADER, order, settings), [4])

    def test_accepted_for_its_length(self):
        for length, settings in ((13, b""), (0, b""), (65_537, b""), (1_001, b"frames.max_frame = 1000")):
            order = b"accepted 1\n0 0 wire\naway 0\n"
            with self.subTest(length=length):
                self.assertEqual(failing([capture(length)], capture(length), order, settings), [4])

    def test_segments(self):
        settings = b"adapter.max_segs = 2\nadapter.hang_after = 1"
        for length, fate, fails in (
            (4_096, b"wire", []),
            (4_097, b"wire", [4]),
            (4_096, b"reset", []),
            (4_097, b"reset", [4]),
            (4_096, b"too_many_segments", [4]),
            (4_097, b"too_many_segments", []),
        ):
            order = b"accepted 1\n0 0 " + fate + b"\naway 0\n"
            wire = capture(length) if fate == b"wire" else HEADER
            with self.subTest(length=length, fate=fate):
                self.assertEqual(failing([capture(length)], wire, order, settings), fails)


class FifthClause(unittest.TestCase):
    def test_what_the_settings_do_not_allow(self):
        for order, settings in (
            (b"accepted 0\naway 1\n0 0 no_buffers 0 0 1 busy\n", b"frames.policy = 'drop'"),
            (b"accepted 0\naway 1\n0 0 no_clusters\n", b"frames.policy = 'drop'"),
            (b"accepted 1\n0 0 reset\naway 0\n", b"adapter.hang_after = 1"),
            (b"accepted 1\n0 0 flush\naway 0\n", b"stop.mode = 'flush'"),
        ):
            with self.subTest(order=order):
                self.assertEqual(failing([capture(60)], HEADER, order), [5])
                self.assertEqual(failing([capture(60)], HEADER, order, settings), [])


class SixthClause(unittest.TestCase):
    def test_words_of_a_ring_with_room_or_of_another(self):
        for word in ("0 0 0 busy", "0 0 3 stalled", "7 7 2 busy", "5 0 0 idle", "8 0 0 busy", "0 8 1 busy", "0 0 8 busy"):
            order = f"accepted 0\naway 1\n0 0 no_buffers {word}\n".encode()
            with self.subTest(word=word):
                settings = b"ring.size = 8\nframes.policy = 'drop'"
                self.assertEqual(failing([capture(60)], HEADER, order, settings), [6])


class SeventhClause(unittest.TestCase):
    def test_other_wires(self):
        read = capture(60, 61)
        order = b"accepted 2\n0 0 wire\n0 1 wire\naway 0\n"
        last = len(read) - 1
        for name, wire in (
            ("nothing", b""),
            ("half a header", HEADER[:12]),
            ("another snap length", HEADER[:16] + bytes.fromhex("ffff0000") + read[20:]),
            ("one frame less", capture(60)),
            ("one frame more", capture(60, 61, 61)),
            ("frames exchanged", capture(61, 60)),
            ("last byte changed", read[:last] + bytes([read[last] ^ 1])),
            ("last byte left out", read[:last]),
            ("one byte more", read + b"\0"),
            ("another second", HEADER + record(frame(60), seconds=8) + record(frame(61))),
            ("another fraction", HEADER + record(frame(60), fraction=8) + record(frame(61))),
            ("another original length", HEADER + record(frame(60), original=61) + record(frame(61))),
        ):
            with self.subTest(name=name):
                self.assertEqual(failing([read], wire, order), [7])

    def test_frame_that_was_not_sent(self):
        order = b"accepted 1\n0 0 flush\naway 0\n"
        self.assertEqual(failing([capture(60)], capture(60), order, b"stop.mode = 'flush'"), [7])

    def test_lines_in_another_order_than_the_wire(self):
        order = b"accepted 2\n1 0 wire\n0 0 wire\naway 0\n"
        self.assertEqual(failing([capture(60), capture(61)], capture(60, 61), order), [7])


class Inputs(unittest.TestCase):
    def test_no_captures(self):
        whole = capture(60)
        for place, data in (
            ("0: Short", HEADER[:23]),
            ("0: Magic", bytes(24)),
            ("4: Version", HEADER[:6] + b"\5" + HEADER[7:]),
            ("20: Link", HEADER[:20] + b"\2" + HEADER[21:]),
            ("100: RecordShort", whole + bytes(10)),
            ("100: TooLong", whole + struct.pack("<IIII", 0, 0, 262_145, 0)),
            ("24: RecordShort", whole[:-1]),
        ):
            with self.subTest(place=place), self.assertRaises(judge.Unfit) as raised:
                judge.read_capture("f", data)
            self.assertEqual(str(raised.exception), f"capture: f at {place}")

    def test_no_settings(self):
        for text in (b"\xff", b"[ring", b"ring = 8", b"ring.size = 3", b"ring.size = 8.0", b"ring.size = true",
                     b"ring.size = '8'", b"frames.policy = 'keep'", b"frames.policy = 1", b"stop.mode = ['flush']"):
            with self.subTest(text=text), self.assertRaises(judge.Unfit):
                judge.read_settings(text)


class Script(unittest.TestCase):
    def judged(self, files, *words):
        """The status and the text of the script in a folder with these files."""
        with tempfile.TemporaryDirectory() as folder:
            for name, data in files.items():
                with open(os.path.join(folder, name), "wb") as out:
                    out.write(data)
            done = subprocess.run([sys.executable, SCRIPT, *words], cwd=folder, capture_output=True, text=True, check=False)
            return done.returncode, done.stdout

    def test_statuses(self):
        files = {"f": capture(60, 1_001), "w": capture(60), "s": b"[frames]\nmax_frame = 1000\n",
                 "o": b"accepted 1\n0 0 wire\naway 1\n0 1 oversize\n"}
        names = ["--wire", "w", "--order", "o"]
        self.assertEqual(self.judged(files, *names, "--settings", "s", "f"), (0, "good\n"))
        self.assertEqual(self.judged(files, *names, "f"), (1, "clause 4: line 4 says oversize of a frame of 1001 bytes\n"))
        self.assertEqual(self.judged(files, *names, "o"), (2, "capture: o at 0: Magic\n"))
        self.assertEqual(self.judged(files, *names, "g"), (2, "g: No such file or directory\n"))


if __name__ == "__main__":
    unittest.main()
