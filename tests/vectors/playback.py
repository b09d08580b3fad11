#!/usr/bin/env python3
"""Recordings that are played as links, in Python: playback.py STDIN STDOUT

Writes the lines that `crates/playback_trial` is given to the first file, and what it has to print to the second. Both
come of the texts of RFB and of the form FBS 001.000 alone: this plays recordings by itself, and shares no code with the
crates. The same seed always makes the same cases.
"""

import random
import struct
import sys

LINE = b"FBS 001.000\n"
HEARD = b"RFB 003.008\n" + bytes([1, 1, 0, 0, 0, 0])
LONGEST = 1 << 24
PIECE = 65_536
TEXTS = {
    1: "the file does not begin as a recording does",
    2: "a block of the recording is too long",
    3: "the time of the recording goes back",
    4: "the recorded session speaks a version of RFB that is not known",
    5: "the recorded session was refused",
    6: "the recorded session does not open without a password",
    7: "the recorded session was not let in",
    8: "the file of the recording can not be read",
}


class Bad(Exception):
    """The number of the reason why a recording can't be played on."""


class Later(Exception):
    """The next block's time hasn't come."""


class Over(Exception):
    """The file is over, or a block is too late."""


class File:
    """A file that plays answers. An interrupted call is made again."""

    def __init__(self, data, answers):
        self.data, self.place, self.answers = data, 0, list(answers)

    def answer(self):
        while True:
            answer = self.answers.pop(0) if self.answers else ""
            if answer == "x":
                raise Bad(8)
            if answer != "i":
                return int(answer) if answer else PIECE

    def read(self):
        count = min(self.answer(), PIECE)
        some = self.data[self.place:self.place + count]
        self.place += len(some)
        return some

    def go_to(self, place):
        answer = self.answers.pop(0) if self.answers else ""
        if answer in ("x", "i"):
            raise Bad(8)
        self.place = place


class Blocks:
    """The blocks of a file, one after another."""

    def __init__(self, file, begun=b""):
        self.file, self.bytes, self.last = file, begun, None

    def want(self, count):
        while len(self.bytes) < count:
            more = self.file.read()
            if not more:
                raise Over
            self.bytes += more

    def next(self):
        if self.last is None:
            self.want(12)
            if self.bytes[:12] != LINE:
                raise Bad(1)
            self.bytes, self.last = self.bytes[12:], 0
        self.want(4)
        length = struct.unpack(">I", self.bytes[:4])[0]
        if length > LONGEST:
            raise Bad(2)
        end = 4 + length + -length % 4
        self.want(end + 4)
        time = struct.unpack(">I", self.bytes[end:end + 4])[0]
        if time < self.last:
            raise Bad(3)
        said = self.bytes[4:4 + length]
        self.bytes, self.last = self.bytes[end + 4:], time
        return said, time


def opening(bytes_):
    """How many bytes the opening of a session has, or None where it isn't whole."""
    if len(bytes_) < 12:
        return None
    version, left = bytes_[:12], bytes_[12:]
    if version in (b"RFB 003.003\n", b"RFB 003.005\n"):
        if len(left) < 4:
            return None
        kind = struct.unpack(">I", left[:4])[0]
        if kind != 1:
            raise Bad(6 if kind else 5)
        return 16
    if version not in (b"RFB 003.007\n", b"RFB 003.008\n"):
        raise Bad(4)
    if not left:
        return None
    if not left[0]:
        raise Bad(5)
    if len(left) < 1 + left[0]:
        return None
    if 1 not in left[1:1 + left[0]]:
        raise Bad(6)
    end = 13 + left[0]
    if version[10:11] == b"7":
        return end
    if len(bytes_) < end + 4:
        return None
    if any(bytes_[end:end + 4]):
        raise Bad(7)
    return end + 4


def handshake(heard):
    """How many bytes the handshake of what is heard has, or None where it isn't whole or is at fault."""
    if len(heard) < 42:
        return None
    if not all(1 <= it <= 4096 for it in struct.unpack(">HH", heard[18:22])):
        return None
    end = 42 + struct.unpack(">I", heard[38:42])[0]
    return end if end <= len(heard) else None


class Link:
    """A link to a recording. `take` takes all that comes for now."""

    def __init__(self, data, answers, until, key):
        self.file = File(data, answers)
        self.blocks, self.until, self.key = Blocks(self.file), until, key
        self.held, self.said, self.is_open, self.heard = None, b"", False, b""
        self.shown, self.time, self.why, self.over, self.failed = 0, 0, None, False, 0

    def block(self, now):
        if self.held is None:
            self.held = self.blocks.next()
        said, time = self.held
        if self.until is not None and time > self.until:
            raise Over
        if time > now:
            raise Later(time)
        self.held, self.time = None, time
        return said

    def step(self, now):
        said = self.block(now)
        if self.is_open:
            self.heard += said
        else:
            self.said += said
            end = opening(self.said)
            if end is None:
                return
            self.is_open = True
            self.heard = HEARD + self.said[end:]
        if self.key is not None:
            end = handshake(self.heard)
            if end is not None:
                self.heard = self.heard[:end]
                self.file.go_to(self.key)
                self.blocks, self.held, self.key = Blocks(self.file, LINE), None, None

    def take(self, now):
        end = "end"
        try:
            while not self.over and self.why is None:
                self.step(now)
        except Later as later:
            end = f"waits {later.args[0]}"
        except Over:
            self.over = True
        except Bad as bad:
            self.why = bad.args[0]
        if self.why is not None:
            end = "failed"
            self.failed += 2
        taken = self.heard[self.shown:]
        self.shown = len(self.heard)
        return taken, end


def shown(data):
    if len(data) > 64:
        return f"{len(data)}#{sum(data)}"
    return data.hex()


def play(data, answers, until, key, acts):
    link, now, out = Link(data, answers, until, key), 0, []
    for act in acts:
        kind, _, word = act.partition(":")
        if kind == "a":
            taken, end = link.take(now)
            out += [shown(taken), end]
        elif kind == "p":
            now = int(word)
        elif kind == "g":
            out.append(f"+{len(word) // 2}")
        elif kind == "m":
            out.append(str(link.time))
        elif kind == "w":
            out.append("fine" if link.why is None else f"{link.why} {TEXTS[link.why]}")
        elif kind == "n":
            out.append(str(link.failed))
    return out


# ---- recordings


def block(said, time, padding=0):
    return struct.pack(">I", len(said)) + said + bytes([padding]) * (-len(said) % 4) + struct.pack(">I", time)


def recording(blocks):
    return LINE + b"".join(block(*it) for it in blocks)


def init(name=b"room", width=800, height=600):
    return struct.pack(">HH", width, height) + bytes(range(16)) + struct.pack(">I", len(name)) + name


OPENINGS = {
    "3.3": b"RFB 003.003\n" + bytes([0, 0, 0, 1]),
    "3.5": b"RFB 003.005\n" + bytes([0, 0, 0, 1]),
    "3.7": b"RFB 003.007\n" + bytes([1, 1]),
    "3.7-two": b"RFB 003.007\n" + bytes([2, 2, 1]),
    "3.8": b"RFB 003.008\n" + bytes([1, 1, 0, 0, 0, 0]),
    "3.8-many": b"RFB 003.008\n" + bytes([255] + [16] * 254 + [1, 0, 0, 0, 0]),
    "3.8-first": b"RFB 003.008\n" + bytes([3, 1, 2, 30, 0, 0, 0, 0]),
}
REFUSED = {
    "3.3-password": b"RFB 003.003\n" + bytes([0, 0, 0, 2]) + bytes(16),
    "3.3-refused": b"RFB 003.003\n" + bytes([0, 0, 0, 0, 0, 0, 0, 3]) + b"bye",
    "3.3-high": b"RFB 003.003\n" + bytes([1, 0, 0, 1]),
    "3.5-password": b"RFB 003.005\n" + bytes([0, 0, 0, 2]),
    "3.7-password": b"RFB 003.007\n" + bytes([1, 2]) + bytes(16),
    "3.7-refused": b"RFB 003.007\n" + bytes([0, 0, 0, 0, 1, 33]),
    "3.8-password": b"RFB 003.008\n" + bytes([2, 2, 16]),
    "3.8-refused": b"RFB 003.008\n" + bytes([0, 0, 0, 0, 0]),
    "3.8-not-passed": b"RFB 003.008\n" + bytes([1, 1, 0, 0, 0, 1]),
    "3.4": b"RFB 003.004\n" + bytes([0, 0, 0, 1]),
    "3.6": b"RFB 003.006\n" + bytes([0, 0, 0, 1]),
    "3.889": b"RFB 003.889\n" + bytes([1, 1, 0, 0, 0, 0]),
    "4.1": b"RFB 004.001\n" + bytes([1, 1, 0, 0, 0, 0]),
    "no-version": b"HTTP/1.1 400 Bad\r\n\r\n",
}


def hexed(data):
    """The bytes in hex. A long run of one byte is spelled by its count."""
    if len(data) > 200 and len(set(data)) == 1:
        return f"{data[:1].hex()}*{len(data)}"
    return data.hex()


class Cases:
    def __init__(self):
        self.lines, self.wanted = [], []

    def add(self, name, data, acts, answers="-", until=None, key=None, spelled=None):
        acts = acts.split()
        parts = [] if answers == "-" else answers.split(",")
        words = [name, "-" if until is None else str(until), "-" if key is None else str(key), answers]
        self.lines.append(" ".join(words + [spelled or hexed(data)] + acts))
        self.wanted.append(" ".join([name + ":"] + play(data, parts, until, key, acts)))


def add_openings(cases):
    for name, text in {**OPENINGS, **REFUSED}.items():
        whole = text + init()
        cases.add(f"opens-{name}", recording([(whole, 0), (b"\2", 0)]), "a:4096 w m")
        cases.add(f"bytes-{name}", recording([(bytes([it]), 0) for it in whole]), "a:1 w n")
        cases.add(f"apart-{name}", recording([(text, 5), (init(), 9)]), "a:7 p:4 a:7 p:5 a:7 p:8 a:7 p:9 a:7 m w")
        cut = rng.randrange(1, len(text))
        cases.add(f"cut-{name}", recording([(text[:cut], 0)]), "a:64 w")
        cases.add(f"kept-{name}", recording([(whole, 0), (b"\3\0\0\0", 7)]), "p:9 a:64 w", key=12)


def add_paces(cases):
    own = [(OPENINGS["3.8"][:12], 0), (b"\1\1", 3), (bytes(4), 4), (init(), 4), (b"abc", 100), (b"", 150), (b"defg", 200), (b"h", 200)]
    data = recording(own)
    cases.add("paces", data, "a:64 m p:3 a:64 m p:4 a:64 m p:99 a:64 m p:100 a:64 m p:200 a:64 m")
    cases.add("at-once", data, "p:1000000 a:64 m n w")
    cases.add("by-byte", data, "p:1000000 a:1")
    cases.add("stops", data, "p:100 a:64 p:0 a:64 p:150 a:64 p:100 a:64 p:300 a:64")
    cases.add("gives", data, "g:525642 a:64 g:00 p:500 a:64 g:0102 a:64")
    cases.add("greets-in-pieces", data, "p:4 a:5 m")
    late = recording([(OPENINGS["3.8"] + init(), 4_294_967_295), (b"z", 4_294_967_295)])
    cases.add("latest", late, "p:4294967294 a:64 p:4294967295 a:64 m")
    for until in (0, 3, 4, 99, 100, 149, 150, 199, 200, 5000):
        cases.add(f"until-{until}", data, "p:1000000 a:64 m w", until=until)
        cases.add(f"until-{until}-in-time", data, "a:64 p:120 a:64 m", until=until)
    for end in range(len(data) + 1):
        cases.add(f"cut-off-{end}", data[:end], "p:1000000 a:64 w", spelled=data[:end].hex() or None)


def add_faults(cases):
    head = recording([(OPENINGS["3.8"] + init(), 0), (b"one", 10)])
    cases.add("no-line", b"FBS 001.001\n" + head[12:], "a:64 w n")
    cases.add("too-long", head + struct.pack(">I", LONGEST + 1), "p:20 a:64 w n a:64 n")
    cases.add("long-enough", head + struct.pack(">I", LONGEST), "p:20 a:64 w")
    cases.add("back", head + block(b"two", 9) + block(b"three", 20), "p:20 a:64 w")
    cases.add("back-in-time", head + block(b"two", 9), "p:0 a:64 w p:20 a:64 w")
    cases.add("same-time", head + block(b"two", 10), "p:20 a:64 w")
    cases.add("padded", LINE + block(OPENINGS["3.8"] + init(), 0, 255) + block(b"one", 10, 7), "p:20 a:64 w")
    for name, answers in {
        "short": "1,2,3,4,5", "ones": ",".join("1" * 90), "interrupted": "i,5,i,i,40,i", "fails": "30,x", "fails-at-once": "x",
        "fails-late": "90,x", "ends-early": "80,0", "interrupted-to-end": "200,i,i", "fails-after": "200,x",
    }.items():
        cases.add(f"file-{name}", head, "a:64 w p:20 a:64 w n", answers=answers)


def add_keys(cases):
    first = [(OPENINGS["3.3"], 0), (init() + b"early", 1), (b"between", 50), (b"key", 100), (b"after", 200)]
    data = recording(first)
    place = len(recording(first[:3]))
    cases.add("key", data, "p:100 a:64 m p:200 a:64 m w", key=place)
    cases.add("key-by-byte", data, "p:200 a:1 m", key=place)
    cases.add("key-in-time", data, "a:64 p:1 a:64 p:99 a:64 p:150 a:64 p:300 a:64 m", key=place)
    cases.add("key-until", data, "p:300 a:64 m", key=place, until=150)
    cases.add("key-until-before", data, "p:300 a:64 m", key=place, until=60)
    cases.add("key-until-opening", data, "p:300 a:64 m", key=place, until=0)
    cases.add("key-first", data, "p:300 a:64 m", key=12)
    cases.add("key-end", data, "p:300 a:64 m w", key=len(data))
    cases.add("key-behind", data, "p:300 a:64 m w", key=len(data) + 1)
    cases.add("key-far-behind", data, "p:300 a:64 m w", key=2**64 - 1)
    cases.add("key-inside", data, "p:300 a:64 w", key=place + 1)
    cases.add("key-inside-2", data, "p:300 a:64 w", key=place + 3)
    cases.add("key-line", data, "p:300 a:64 w", key=0)
    for name in (b"", b"r", b"n" * 255, b"m" * 256, b"o" * 300, b"p" * 70_000):
        named = [(OPENINGS["3.8"] + init(name), 0), (b"rest", 1), (b"key", 9)]
        spelled = "+".join(hexed(it) for it in (
            LINE + struct.pack(">I", len(named[0][0])) + named[0][0][:42], name or b"", bytes(-len(named[0][0]) % 4) + bytes(4) + block(*named[1]) + block(*named[2]),
        ) if it)
        cases.add(f"name-{len(name)}", recording(named), "p:9 a:4096 m", key=len(recording(named[:2])), spelled=spelled)
        cases.add(f"name-{len(name)}-all", recording(named), "p:9 a:4096 m", spelled=spelled)
    for width, height in ((0, 600), (4096, 4096), (4097, 1), (1, 0), (1, 1), (1, 4097)):
        sized = [(OPENINGS["3.7"] + init(b"x", width, height), 0), (b"rest", 1), (b"key", 9)]
        cases.add(f"size-{width}-{height}", recording(sized), "p:9 a:64 m", key=len(recording(sized[:2])))
    for end in range(len(recording(first[:2])) - 60, len(data) + 1, 3):
        cases.add(f"key-cut-off-{end}", data[:end], "p:300 a:64 w", key=place)
    for name, answers in {"x-there": "500,x", "i-there": "500,i", "x-behind": "500,500,x", "small": "40,40,40,1,1,1,1,1", "ends": "500,1,0"}.items():
        cases.add(f"key-file-{name}", data, "p:300 a:64 w n", key=place, answers=answers)


def add_large(cases):
    head = OPENINGS["3.8"] + init()
    for count in (65_530, 65_536, 200_001):
        blocks = [(head, 0), (b"\x55" * count, 10), (b"!", 20)]
        spelled = "+".join((
            recording(blocks[:1]).hex(), struct.pack(">I", count).hex(), f"55*{count}", (bytes(-count % 4) + struct.pack(">I", 10) + block(*blocks[2])).hex(),
        ))
        cases.add(f"large-{count}", recording(blocks), "a:4096 p:10 a:4096 p:30 a:64", spelled=spelled)
        cases.add(f"large-{count}-short", recording(blocks), "p:30 a:1000 m", answers="1000,1,70000,3", spelled=spelled)


def add_chance(cases):
    for case in range(150):
        name, text = rng.choice(sorted(OPENINGS.items()))
        said = text + init(bytes(rng.randrange(256) for _ in range(rng.randrange(40)))) + bytes(rng.randrange(256) for _ in range(rng.randrange(120)))
        blocks, time = [], 0
        while said:
            count = rng.choice((1, 2, 5, 17, 40, 300))
            time += rng.choice((0, 0, 1, 30))
            blocks.append((said[:count], time))
            said = said[count:]
        data = recording(blocks)
        if rng.random() < 0.3:
            data = data[:rng.randrange(len(data))]
        if rng.random() < 0.2:
            place = rng.randrange(len(data))
            data = data[:place] + bytes([rng.randrange(256)]) + data[place + 1:]
        answers = ",".join(rng.choice(("1", "7", "20", "100", "i", "4")) for _ in range(rng.randrange(30))) or "-"
        acts = " ".join(f"p:{rng.randrange(time + 40)} a:{rng.choice((1, 3, 18, 64, 4096))}" for _ in range(4)) + f" p:{2**32} a:50 m w n"
        until = rng.choice((None, None, rng.randrange(time + 5)))
        key = rng.choice((None, len(recording(blocks[:rng.randrange(len(blocks) + 1)]))))
        cases.add(f"chance-{case}", data, acts, answers=answers, until=until, key=key, spelled=data.hex() or None)


rng = random.Random(38)


def main():
    cases = Cases()
    for add in (add_openings, add_paces, add_faults, add_keys, add_large, add_chance):
        add(cases)
    with open(sys.argv[1], "w", encoding="ascii") as file:
        file.writelines(line + "\n" for line in cases.lines)
    with open(sys.argv[2], "w", encoding="ascii") as file:
        file.writelines(line + "\n" for line in cases.wanted)


main()
