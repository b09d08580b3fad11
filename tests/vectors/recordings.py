#!/usr/bin/env python3
"""Recorded sessions in the form FBS 001.000, in Python: recordings.py STDIN STDOUT

Writes the lines that `crates/recording_trial` is given to the first file, and what it has to print to the second. Both
come of the text of the form alone: this reads and writes recordings by itself, and shares no code with the crates. The
same seed always makes the same cases.
"""

import random
import struct
import sys
import zlib

LINE = b"FBS 001.000\n"
LONGEST_READ = 1 << 24
LONGEST_WRITTEN = 65_536
NO_RECORDING, TOO_LONG, GOES_BACK = (
    "1: the file does not begin as a recording does",
    "2: a block of the recording is too long",
    "3: the time of the recording goes back",
)


def block(data, time):
    """A block: its length, its data, zeros to a multiple of four, its time."""
    return struct.pack(">I", len(data)) + data + bytes(-len(data) % 4) + struct.pack(">I", time)


def shown(data):
    return data.hex() if len(data) <= 80 else f"{len(data)}/{zlib.adler32(data)}"


def read(file):
    """The blocks of a file, and how it ends."""
    blocks, at, last = [], len(LINE), 0
    if len(file) < at:
        return blocks, "cut off"
    if not file.startswith(LINE):
        return blocks, NO_RECORDING
    while at < len(file):
        if len(file) < at + 4:
            return blocks, "cut off"
        (count,) = struct.unpack_from(">I", file, at)
        if count > LONGEST_READ:
            return blocks, TOO_LONG
        end = at + 4 + (count + 3) // 4 * 4
        if len(file) < end + 4:
            return blocks, "cut off"
        (time,) = struct.unpack_from(">I", file, end)
        if time < last:
            return blocks, GOES_BACK
        blocks.append((time, file[at + 4 : at + 4 + count]))
        at, last = end + 4, time
    return blocks, "whole"


def write(said):
    """A recording of what was said: blocks of one time, each up to the bound."""
    file, waiting, now = LINE, b"", 0
    for time, data in said:
        time = max(time, now)
        if data and time != now:
            file, waiting = file + (block(waiting, now) if waiting else b""), b""
        if data:
            now, waiting = time, waiting + data
        while len(waiting) > LONGEST_WRITTEN:
            file, waiting = file + block(waiting[:LONGEST_WRITTEN], now), waiting[LONGEST_WRITTEN:]
    return file + (block(waiting, now) if waiting else b"")


def spelled(word):
    """The bytes of a word: parts HEX or HEX*COUNT between commas, and none in a word `-`."""
    parts = (it.partition("*") for it in word.split(",") if it != "-")
    return b"".join(bytes.fromhex(text) * int(count or 1) for text, _, count in parts)


def word_of(data):
    return data.hex() or "-"


class Cases:
    """Lines, and what is printed for each."""

    def __init__(self):
        self.lines, self.told = [], []

    def read(self, name, cut, word):
        blocks, end = read(spelled(word))
        self.lines.append(f"read {name} {cut} {word}")
        self.told.append(f"{name}:" + "".join(f" {time}={shown(data)}" for time, data in blocks) + f" {end}")

    def write(self, name, said):
        self.lines.append(f"write {name} " + " ".join(f"{time} {word}" for time, word in said))
        self.told.append(f"{name}: {shown(write([(time, spelled(word)) for time, word in said]))}")


def by_bounds(cases):
    """Blocks of the lengths at which something changes."""
    line = LINE.hex()
    for count in (0, 1, 2, 3, 4, 5, 65_535, 65_536, 65_537):
        head, tail = struct.pack(">I", count).hex(), bytes(-count % 4).hex() + "00000007"
        cases.read(f"block-of-{count}", 65_537, f"{line},{head},c3*{count},{tail}")
    cases.read("block-at-the-bound", 5, f"{line},01000000,c3*20")
    cases.read("block-above-the-bound", 5, f"{line},01000001,c3*20")
    for count in (1, 3, 4, 65_535, 65_536, 65_537, 131_072, 131_073):
        cases.write(f"said-{count}", [(9, f"5a*{count}")])
    cases.write("nothing-said", [])
    cases.write("latest-time", [(4_294_967_295, "01")])


def by_cuts(cases):
    """One recording, cut off at each byte, and in pieces of each length."""
    file = write([(0, b"RFB 003.008\n"), (3, b"\x01\x01"), (258, b"abcde")])
    for count in range(len(file) + 1):
        cases.read(f"first-{count}", 1 + count % 7, word_of(file[:count]))
    for cut in range(1, len(file) + 1):
        cases.read(f"pieces-of-{cut}", cut, file.hex())


def by_faults(cases):
    """Lines that differ in one byte, and times that go back."""
    good = LINE + block(b"abc", 5) + block(b"d", 5)
    for i in range(len(LINE)):
        cases.read(f"line-{i}", 64, (good[:i] + bytes([good[i] ^ 1]) + good[i + 1 :]).hex())
    cases.read("back", 64, (good + block(b"e", 4) + block(b"f", 9)).hex())
    cases.read("back-in-bytes", 1, (good + block(b"e", 4) + block(b"f", 9)).hex())
    cases.read("padding-of-ones", 3, (LINE + b"\0\0\0\1a\1\1\1\0\0\0\2" + block(b"b", 2)).hex())


def by_chance(cases, chance):
    for i in range(60):
        said, time = [], 0
        for _ in range(chance.randrange(1, 7)):
            time += chance.choice((0, 0, 1, 40, 1000))
            said.append((time, word_of(chance.randbytes(chance.randrange(0, 24)))))
        cases.write(f"written-{i}", said)
        file = write([(time, spelled(word)) for time, word in said])
        cases.read(f"read-{i}", chance.randrange(1, 40), file.hex())


def main():
    cases = Cases()
    by_bounds(cases)
    by_cuts(cases)
    by_faults(cases)
    by_chance(cases, random.Random(1))
    for name, lines in zip(sys.argv[1:3], (cases.lines, cases.told)):
        with open(name, "w", encoding="utf-8") as out:
            out.write("".join(f"{it}\n" for it in lines))


main()
