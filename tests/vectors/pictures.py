#!/usr/bin/env python3
"""Recorded sessions and the pictures that they show, in Python: pictures.py STDIN STDOUT

Writes the lines that `crates/recorded_picture_trial` is given to the first file, and what it has to print to the
second. Both come of the text of RFC 6143 alone: this writes what a host says and keeps the host's screen by itself, and shares
no code with the crates. The same seed always makes the same cases.
"""

import random
import struct
import sys

BAD_VERSION, NO_NONE, SECURITY_FAILED, BAD_SCREEN, UNKNOWN_MESSAGE, RECT_OUTSIDE, UNKNOWN_ENCODING = 1, 3, 4, 5, 6, 7, 8
SUBRECT_OUTSIDE, NO_BACKGROUND, NO_FOREGROUND, COPY_OUTSIDE, LINK_FAILED, LINK_ENDED = 9, 10, 11, 14, 21, 22


def hello(w, h, name=b"host", version=b"RFB 003.008\n", types=b"\x01", result=0):
    """What a host says up to its ServerInit (7.1 to 7.3). The pixel format isn't looked at."""
    init = struct.pack(">HH", w, h) + bytes(16) + struct.pack(">I", len(name)) + name
    return version + bytes([len(types)]) + types + struct.pack(">I", result) + init


def pixel(rng, colour):
    """32 bits, the least significant byte first, of which the upper 8 don't count."""
    return struct.pack("<I", colour | rng.randrange(256) << 24)


class Host:
    """A host: what it has said, as whole messages, and its screen after each of them."""

    def __init__(self, rng, w, h):
        self.rng, self.w, self.h = rng, w, h
        self.screen = [0] * (w * h)
        self.messages = []
        self.screens = [list(self.screen)]

    def say(self, message):
        self.messages.append(message)
        self.screens.append(list(self.screen))

    def colour(self):
        return self.rng.choice([0, 0xFFFFFF, 0x336699, self.rng.randrange(1 << 24)])

    def area(self):
        w, h = self.rng.randint(1, self.w), self.rng.randint(1, self.h)
        return self.rng.randint(0, self.w - w), self.rng.randint(0, self.h - h), w, h

    def fill(self, x, y, w, h, colour):
        for row in range(y, y + h):
            self.screen[row * self.w + x : row * self.w + x + w] = [colour] * w

    def raw(self, x, y, w, h):
        out = b""
        for row in range(y, y + h):
            for column in range(x, x + w):
                colour = self.colour()
                self.screen[row * self.w + column] = colour
                out += pixel(self.rng, colour)
        return struct.pack(">HHHHi", x, y, w, h, 0) + out

    def copy(self, x, y, w, h):
        sx, sy = self.rng.randint(0, self.w - w), self.rng.randint(0, self.h - h)
        before = list(self.screen)
        for row in range(h):
            for column in range(w):
                self.screen[(y + row) * self.w + x + column] = before[(sy + row) * self.w + sx + column]
        return struct.pack(">HHHHiHH", x, y, w, h, 1, sx, sy)

    def inner(self, w, h):
        iw, ih = self.rng.randint(1, w), self.rng.randint(1, h)
        return self.rng.randint(0, w - iw), self.rng.randint(0, h - ih), iw, ih

    def rre(self, x, y, w, h):
        background = self.colour()
        self.fill(x, y, w, h, background)
        count = self.rng.choice([0, 1, 3])
        out = struct.pack(">I", count) + pixel(self.rng, background)
        for _ in range(count):
            colour, (ix, iy, iw, ih) = self.colour(), self.inner(w, h)
            self.fill(x + ix, y + iy, iw, ih, colour)
            out += pixel(self.rng, colour) + struct.pack(">HHHH", ix, iy, iw, ih)
        return struct.pack(">HHHHi", x, y, w, h, 2) + out

    def hextile(self, x, y, w, h):
        out, background, foreground = b"", None, None
        for top in range(y, y + h, 16):
            for left in range(x, x + w, 16):
                tw, th = min(16, x + w - left), min(16, y + h - top)
                if self.rng.random() < 0.2:
                    out += bytes([1 | self.rng.choice([0, 2, 8])]) + self.raw(left, top, tw, th)[12:]
                    continue
                mask, fields = 0, b""
                if background is None or self.rng.random() < 0.5:
                    mask, background = mask | 2, self.colour()
                    fields += pixel(self.rng, background)
                self.fill(left, top, tw, th, background)
                kind = self.rng.choice(["plain", "one", "many"])
                if kind == "one" and (foreground is None or self.rng.random() < 0.5):
                    mask, foreground = mask | 4, self.colour()
                    fields += pixel(self.rng, foreground)
                if kind != "plain":
                    mask |= 8 if kind == "one" else 24
                    count = self.rng.choice([0, 1, 4])
                    fields += bytes([count])
                    for _ in range(count):
                        colour = foreground if kind == "one" else self.colour()
                        ix, iy, iw, ih = self.inner(tw, th)
                        self.fill(left + ix, top + iy, iw, ih, colour)
                        if kind == "many":
                            fields += pixel(self.rng, colour)
                        fields += bytes([ix << 4 | iy, (iw - 1) << 4 | (ih - 1)])
                out += bytes([mask]) + fields
        return struct.pack(">HHHHi", x, y, w, h, 5) + out

    def resize(self, w, h):
        """DesktopSize (7.8.2): what shows then is undefined, and here it is black."""
        self.screen = [0] * (self.w * self.h)
        return struct.pack(">HHHHi", 0, 0, w, h, -223)

    def update(self, rectangles):
        """A FramebufferUpdate; each rectangle is a call with an area."""
        parts = [part() for part in rectangles]
        self.say(b"\x00\x00" + struct.pack(">H", len(parts)) + b"".join(parts))

    def chance(self):
        """Any whole message."""
        kind = self.rng.randrange(10)
        if kind == 0:
            self.say(b"\x02")
        elif kind == 1:
            text = bytes(self.rng.randrange(256) for _ in range(self.rng.randint(0, 9)))
            self.say(b"\x03\x00\x00\x00" + struct.pack(">I", len(text)) + text)
        elif kind == 2:
            count = self.rng.randint(0, 2)
            self.say(b"\x01\x00" + struct.pack(">HH", 0, count) + bytes(6 * count))
        else:
            kinds = [self.raw, self.copy, self.rre, self.hextile]
            self.update([self.one(self.rng.choice(kinds)) for _ in range(self.rng.choice([0, 1, 1, 2, 4]))])

    def one(self, kind):
        area = self.area()
        return lambda: kind(*area)


def runs(colours):
    out, at = [], 0
    while at < len(colours):
        end = at
        while end < len(colours) and colours[end] == colours[at]:
            end += 1
        out.append("%06X" % colours[at] + ("*%d" % (end - at) if end - at > 1 else ""))
        at = end
    return ",".join(out)


class Cases:
    def __init__(self):
        self.lines, self.wants = [], []

    def remark(self, text):
        self.lines.append("# " + text)

    def case(self, end, cut, stream, want):
        self.lines.append("%s %d %s" % (end, cut, stream.hex() or "-"))
        self.wants.append(want)

    def shows(self, cut, stream, host, messages):
        self.case("end", cut, stream, "%d %d %s" % (host.w, host.h, runs(host.screens[messages])))

    def faulty(self, stream, fault, cut=65536):
        self.case("end", cut, stream, "fault %d" % fault)

    def whole(self, host, cut=65536, greeting=None):
        greeting = hello(host.w, host.h) if greeting is None else greeting
        self.shows(cut, greeting + b"".join(host.messages), host, len(host.messages))

    def every_cut(self, host):
        """The session, cut off at each byte: it shows all messages that are whole by then."""
        greeting = hello(host.w, host.h)
        stream = greeting + b"".join(host.messages)
        ends = [len(greeting)]
        for message in host.messages:
            ends.append(ends[-1] + len(message))
        for size in range(len(stream) + 1):
            if size < len(greeting):
                self.faulty(stream[:size], LINK_ENDED)
            else:
                self.shows(65536, stream[:size], host, sum(end <= size for end in ends) - 1)


def main():
    rng, out = random.Random(2027), Cases()

    out.remark("no message yet: black")
    out.whole(Host(rng, 3, 2))
    out.whole(Host(rng, 1, 1))
    out.remark("one update of each encoding, and messages that change nothing")
    for kind in ["raw", "rre", "hextile"]:
        host = Host(rng, 20, 18)
        host.update([lambda: getattr(host, kind)(0, 0, 20, 18)])
        out.whole(host)
    host = Host(rng, 8, 4)
    host.update([lambda: host.raw(0, 0, 8, 4)])
    host.update([lambda: host.copy(1, 0, 7, 3), lambda: host.copy(0, 1, 5, 3)])
    out.whole(host)
    host = Host(rng, 4, 2)
    host.update([lambda: host.raw(0, 0, 4, 2)])
    host.say(b"\x02")
    host.say(b"\x03\x00\x00\x00\x00\x00\x00\x02hi")
    host.say(b"\x01\x00\x00\x00\x00\x01" + bytes(6))
    host.update([])
    out.whole(host)
    out.remark("a new size of the host: black, and as large as before; then an update inside it")
    host = Host(rng, 6, 4)
    host.update([lambda: host.raw(0, 0, 6, 4)])
    host.update([lambda: host.resize(3, 2)])
    out.whole(host)
    host.update([lambda: host.raw(0, 0, 3, 2)])
    out.whole(host)
    out.remark("in pieces of 1, 2, 3 and 7 bytes")
    host = Host(rng, 17, 5)
    for _ in range(4):
        host.chance()
    for cut in [1, 2, 3, 7]:
        out.whole(host, cut)
    out.remark("cut off at each byte")
    host = Host(rng, 2, 2)
    host.update([lambda: host.raw(0, 0, 2, 1)])
    host.say(b"\x02")
    host.update([lambda: host.rre(0, 0, 2, 2), lambda: host.copy(0, 0, 1, 2)])
    host.update([lambda: host.hextile(0, 0, 2, 2)])
    out.every_cut(host)
    out.remark("the bytes of a host are at fault: its handshake")
    out.faulty(hello(2, 2, version=b"RFB 003.003\n"), BAD_VERSION)
    out.faulty(hello(2, 2, types=b"\x02"), NO_NONE)
    out.faulty(hello(2, 2, result=1), SECURITY_FAILED)
    out.faulty(hello(0, 2), BAD_SCREEN)
    out.faulty(hello(2, 4097), BAD_SCREEN)
    out.remark("its messages, behind one that is whole")
    host = Host(rng, 4, 3)
    host.update([lambda: host.raw(0, 0, 4, 3)])
    begun = hello(4, 3) + host.messages[0]
    one = b"\x00\x00\x00\x01"
    out.faulty(begun + b"\x07", UNKNOWN_MESSAGE)
    out.faulty(begun + one + struct.pack(">HHHHi", 0, 0, 4, 3, 16), UNKNOWN_ENCODING)
    out.faulty(begun + one + struct.pack(">HHHHi", 1, 0, 4, 3, 0), RECT_OUTSIDE)
    out.faulty(begun + one + struct.pack(">HHHHi", 0, 0, 5, 3, -223), BAD_SCREEN)
    out.faulty(begun + one + struct.pack(">HHHHiHH", 0, 0, 4, 3, 1, 1, 0), COPY_OUTSIDE)
    outside = bytes(8) + struct.pack(">HHHH", 1, 1, 2, 1)
    out.faulty(begun + one + struct.pack(">HHHHiI", 0, 0, 2, 2, 2, 1) + outside, SUBRECT_OUTSIDE)
    out.faulty(begun + one + struct.pack(">HHHHi", 0, 0, 2, 2, 5) + b"\x00", NO_BACKGROUND)
    out.faulty(begun + one + struct.pack(">HHHHi", 0, 0, 2, 2, 5) + b"\x0a" + bytes(4) + b"\x01", NO_FOREGROUND)
    out.remark("the link fails in place of ending")
    out.case("fail", 65536, begun, "fault %d" % LINK_FAILED)
    out.case("fail", 65536, begun[:20], "fault %d" % LINK_FAILED)
    out.remark("chance")
    for _ in range(40):
        host = Host(rng, rng.choice([1, 2, 5, 16, 17, 33]), rng.choice([1, 3, 16, 18]))
        for _ in range(rng.randint(1, 6)):
            host.chance()
        out.whole(host, rng.choice([1, 5, 64, 65536]), hello(host.w, host.h, name=b"x" * rng.choice([0, 3, 255, 300])))

    open(sys.argv[1], "w").write("\n".join(out.lines) + "\n")
    open(sys.argv[2], "w").write("\n".join(out.wants) + "\n")


if __name__ == "__main__":
    main()
