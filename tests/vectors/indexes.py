#!/usr/bin/env python3
"""Indexes of recorded sessions in the form FBI 001.000, in Python: indexes.py STDIN STDOUT

Writes the lines that `crates/recording_index_trial` is given to the first file, and what it has to print to the second.
Both come of the text of the form alone: this reads and writes indexes by itself, and shares no code with the crates.
The same seed always makes the same cases.
"""

import random
import struct
import sys

LINE = b"FBI 001.000\n"
NO_INDEX, TIME_BACK, PLACE_BACK = (
    "1: the file does not begin as an index does",
    "2: the time of the index goes back",
    "3: the place in the index goes back",
)


def entries(moments):
    return LINE + b"".join(struct.pack(">IQ", time, place) for time, place in moments)


def read(file):
    """The key moments of a file, or why it is no index."""
    if not (file.startswith(LINE) or LINE.startswith(file)):
        return NO_INDEX
    body, moments, last = file[len(LINE) :], [], (0, 0)
    for entry in struct.iter_unpack(">IQ", body[: len(body) // 12 * 12]):
        if entry[0] < last[0]:
            return TIME_BACK
        if entry[1] < last[1]:
            return PLACE_BACK
        moments.append(entry)
        last = entry
    return moments


def shown(moments):
    return "".join(f" {time}@{place}" for time, place in moments)


def hexed(data):
    return data.hex() or "-"


def chance(dice, count):
    """Key moments in order, of which some have the time or the place of the one before."""
    time = place = 0
    moments = []
    for _ in range(count):
        time = min(time + dice.choice([0, 1, 60_000, 1 << 20]), (1 << 32) - 1)
        place += dice.choice([0, 1, 1 << 16, 1 << 40])
        moments.append((time, place))
    return moments


def recording(dice, count):
    """A recording of so many blocks, each block's place, its time and its data."""
    file, blocks, time = b"FBS 001.000\n", [], 0
    for _ in range(count):
        data = dice.randbytes(dice.randrange(6))
        blocks.append((len(file), time, data))
        file += struct.pack(">I", len(data)) + data + bytes(-len(data) % 4) + struct.pack(">I", time)
        time += dice.choice([0, 7, 60_000])
    return file, blocks


def cases(dice):
    """Each line, and what is printed of it."""

    def reads(name, file):
        found = read(file)
        text = f" {found}" if isinstance(found, str) else shown(found)
        return f"read {name} {hexed(file)}", f"{name}:{text}"

    whole = entries([(0, 12), (60_000, 5_000), (120_001, (1 << 40) + 7)])
    for cut in range(len(whole) + 1):
        yield reads(f"cut-{cut}", whole[:cut])
    for at in range(len(LINE)):
        yield reads(f"line-{at}", whole[:at] + bytes([whole[at] ^ 1]) + whole[at + 1 :])
    yield reads("time-back", entries([(5, 12), (4, 13)]))
    yield reads("place-back", entries([(5, 13), (6, 12)]))
    yield reads("both-back", entries([(5, 13), (4, 12)]))
    yield reads("back-behind-others", entries([(1, 1), (2, 2), (3, 3), (2, 4)]))
    yield reads("equal", entries([(5, 13), (5, 13)]))
    yield reads("greatest", entries([((1 << 32) - 1, (1 << 64) - 1)]))
    yield reads("back-in-a-cut-entry", entries([(5, 13), (4, 12)])[:-1])
    for n in range(20):
        moments = chance(dice, dice.randrange(9))
        text = "".join(f" {time}@{place}" for time, place in moments)
        yield f"write write-{n}{text}", f"write-{n}: {entries(moments).hex()}"
        yield reads(f"read-{n}", entries(moments))
        for time in sorted({0, 1, 59_999, *(it[0] for it in moments), *(max(it[0], 1) - 1 for it in moments)}):
            early = [it for it in moments if it[0] <= time]
            found = shown(early[-1:]) or " none"
            yield f"at at-{n}-{time} {time} {entries(moments).hex()}", f"at-{n}-{time}:{found}"
    for n in range(12):
        file, blocks = recording(dice, dice.randrange(1, 7))
        keys = [it for it in range(len(blocks)) if dice.random() < 0.5]
        index = entries([(blocks[it][1], blocks[it][0]) for it in keys])
        text = "".join(
            f" at {blocks[it][1]}:" + "".join(f" {time}={data.hex()}" for _, time, data in blocks[it:])
            for it in keys
        )
        yield f"lead lead-{n} {file.hex()} {index.hex()}", f"lead-{n}:{text}"


def main():
    lines, told = zip(*cases(random.Random(1)))
    with open(sys.argv[1], "w", encoding="ascii") as out:
        out.write("".join(f"{line}\n" for line in lines))
    with open(sys.argv[2], "w", encoding="ascii") as out:
        out.write("".join(f"{line}\n" for line in told))


if __name__ == "__main__":
    main()
