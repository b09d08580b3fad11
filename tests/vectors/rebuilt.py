#!/usr/bin/env python3
"""Recordings and their key moments, in Python: rebuilt.py STDIN STDOUT

Writes the lines that `crates/rebuilt_index_trial` is given to the first file, and what it has to print to the second.
Both come of the texts of RFB, FBS 001.000 and FBI 001.000 alone: the host and its screen are those of `pictures.py`,
and which of its updates bring all of the screen is known here since they are made so. It shares no code with the
crates. The same seed always makes the same cases.
"""

import importlib.util
import os
import random
import struct
import sys

HERE = os.path.dirname(os.path.abspath(__file__))
spec = importlib.util.spec_from_file_location("pictures", os.path.join(HERE, "pictures.py"))
pictures = importlib.util.module_from_spec(spec)
spec.loader.exec_module(pictures)


class Recording:
    """A recording that grows, and the key moments that are to be found in it."""

    def __init__(self):
        self.file, self.moments, self.time = b"FBS 001.000\n", [], 0

    def block(self, said):
        self.file += struct.pack(">I", len(said)) + said + bytes(-len(said) % 4) + struct.pack(">I", self.time)

    def say(self, said, sizes=()):
        """Says this in blocks of these sizes, and the rest in one."""
        for size in sizes:
            self.block(said[:size])
            said = said[size:]
        self.block(said)

    def key(self):
        """A key moment stands here, unless the last one is less than a second ago."""
        if not self.moments or self.time - self.moments[-1][0] >= 1000:
            self.moments.append((self.time, len(self.file)))


def index(moments):
    return b"FBI 001.000\n" + b"".join(struct.pack(">IQ", time, place) for time, place in moments)


def whole(host):
    """All of the screen in a few rectangles, by any encoding but CopyRect, with a bright corner."""
    kinds, parts, top = [host.raw, host.rre, host.hextile], [], 0
    while top < host.h:
        height = host.rng.randint(1, host.h - top)
        parts.append((host.rng.choice(kinds), (0, top, host.w, height)))
        top += height
    corner = host.rng.randint(1, 0xFFFFFF)

    def dot():
        host.screen[host.w * host.h - 1] = corner
        return struct.pack(">HHHHi", host.w - 1, host.h - 1, 1, 1, 0) + struct.pack("<I", corner)

    host.update([lambda kind=kind, area=area: kind(*area) for kind, area in parts] + [dot])
    return host.messages[-1]


def some(host):
    """An update that leaves the bright corner alone, so that who knows nothing else doesn't show the screen."""

    def row():
        host.fill(0, 0, host.w, 1, 0x112233)
        return struct.pack(">HHHHiI", 0, 0, host.w, 1, 2, 0) + struct.pack("<I", 0x112233)

    host.update([row])
    return host.messages[-1]


def main():
    rng, lines, wants = random.Random(2032), [], []

    def case(name, most, recording, want=None):
        lines.append("%s %d %s" % (name, most, recording.file.hex()))
        moments = "".join(" %d@%d" % it for it in recording.moments)
        wants.append("%s:%s" % (name, " " + want if want else "%s %s" % (moments, index(recording.moments).hex())))

    def begun(w, h):
        host, recording = pictures.Host(rng, w, h), Recording()
        recording.say(pictures.hello(w, h), [12, 2, 4])
        return host, recording

    lines.append("# all of the screen every few seconds, in one block or cut into several; others between")
    for number in range(12):
        host, recording = begun(rng.randint(2, 40), rng.randint(2, 40))
        for turn in range(rng.randint(1, 6)):
            recording.time += rng.choice([0, 300, 1000, 4000])
            recording.key()
            said = whole(host)
            cuts = sorted(rng.randrange(len(said)) for _ in range(rng.choice([0, 0, 1, 3])))
            recording.say(said, [b - a for a, b in zip([0] + cuts, cuts)])
            for _ in range(rng.randint(0, 3)):
                recording.time += rng.choice([1, 40, 900])
                recording.say(some(host))
        case("whole-%d" % number, rng.choice([1, 7, 1000, 65536]), recording)

    lines.append("# a Bell, a text or another update before it, in the same block")
    host, recording = begun(20, 18)
    recording.key()
    recording.say(b"\x02" + whole(host))
    recording.time = 2000
    recording.key()
    recording.say(b"\x03\x00\x00\x00\x00\x00\x00\x02hi" + whole(host))
    recording.time = 4000
    recording.key()
    recording.say(some(host) + whole(host))
    recording.time = 6000
    recording.key()
    recording.say(whole(host), [5])
    case("news", 100, recording)

    lines.append("# all of the screen, but a part of it copied from what was there before; and copied within it")
    host, recording = begun(16, 16)
    recording.key()
    recording.say(whole(host))
    recording.time = 3000
    first = list(host.screen)
    host.update([lambda: host.rre(0, 0, 16, 8), lambda: host.copy(0, 8, 16, 8)])
    # The source is drawn by chance, and so this is a key moment only where it was painted anew or is black.
    source = struct.unpack(">HH", host.messages[-1][-4:])
    fresh = all(
        row < 8 or first[row * 16 + column] == 0
        for row in range(source[1], source[1] + 8)
        for column in range(16)
    )
    if fresh:
        recording.key()
    recording.say(host.messages[-1])
    recording.time = 6000
    recording.say(some(host))
    case("copies", 65536, recording)

    lines.append("# cut off anywhere: what isn't whole counts for nothing")
    host, recording = begun(6, 5)
    recording.time = 50
    recording.key()
    recording.say(whole(host))
    recording.time = 2050
    full = Recording()
    full.file, full.moments = recording.file, list(recording.moments)
    recording.key()
    recording.say(whole(host))
    for size in range(len(full.file), len(recording.file) + 1, 3):
        cut = Recording()
        cut.file = recording.file[:size]
        cut.moments = recording.moments if size >= len(recording.file) else full.moments
        case("cut-%d" % size, 65536, cut)
    for size in [0, 5, 12, 40]:
        cut = Recording()
        cut.file = recording.file[:size]
        case("begun-%d" % size, 3, cut)

    lines.append("# what is no recording, goes back, is too long, or is at fault")
    bad = Recording()
    bad.file = b"FBI 001.000\n"
    case("line", 65536, bad, "the file does not begin as a recording does")
    host, bad = begun(6, 5)
    bad.time = 70
    bad.say(whole(host))
    bad.time = 69
    bad.say(b"\x02")
    case("back", 65536, bad, "the time of the recording goes back")
    bad = Recording()
    bad.file += b"\x01\x00\x00\x01"
    case("long", 65536, bad, "a block of the recording is too long")
    host, bad = begun(6, 5)
    bad.say(b"\x09")
    case("message", 65536, bad, "the recorded session is at fault: unknown message type 9")
    bad = Recording()
    bad.say(b"RFB 003.003\n")
    case("version", 65536, bad, "the recorded session is at fault: the protocol version is not accepted")
    with open(sys.argv[1], "w", encoding="ascii") as out:
        out.write("".join(line + "\n" for line in lines))
    with open(sys.argv[2], "w", encoding="ascii") as out:
        out.write("".join(want + "\n" for want in wants))


if __name__ == "__main__":
    main()
