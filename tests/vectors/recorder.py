#!/usr/bin/env python3
"""Links to recorders, in Python: recorder.py STDIN STDOUT

Writes the lines that `crates/record_link_trial` is given to the first file, and what it has to print to the second.
Both come of the texts of RFB and of the two forms alone: this plays a recorder by itself, and shares no code with the
crates. The same seed always makes the same cases.
"""

import random
import struct
import sys

VERSION = b"RFB 003.008\n"
MOST = 65_536
FORMAT = bytes([0, 0, 0, 0, 32, 24, 0, 1, 0, 255, 0, 255, 0, 255, 16, 8, 0, 0, 0, 0])
ENCODINGS = struct.pack(">BxHIII", 2, 3, 5, 2, 0)


class File:
    """A file that plays answers, and the bytes that wait for it."""

    def __init__(self, line, answers):
        self.bytes, self.waiting, self.answers, self.broken, self.len = b"", line, list(answers), False, len(line)

    def write(self):
        while self.waiting and not self.broken:
            answer = self.answers.pop(0) if self.answers else None
            count = len(self.waiting)
            if answer is not None:
                count = min(count, int(answer.lstrip("x")))
            self.bytes += self.waiting[:count]
            if answer is not None and answer[0] == "x":
                self.broken = True
                return
            self.waiting = self.waiting[count:]
            if not count:
                return

    def add(self, data):
        assert not self.waiting
        self.waiting = data
        self.len += len(data)

    def is_clear(self):
        return not self.broken and not self.waiting


class Hello:
    """A viewer's side of a handshake without a password."""

    def __init__(self):
        self.out, self.size, self.bad = b"", None, False
        self.steps = self.all_steps()
        self.wanted = next(self.steps)
        self.come = b""

    def all_steps(self):
        version = yield 12
        good = version[:4] == b"RFB " and version[7:8] == b"." and version[11:] == b"\n"
        if not good or not (version[4:7] + version[8:11]).isdigit() or (version[4:7], version[8:11]) < (b"003", b"008"):
            raise ValueError
        self.out += VERSION
        types = yield from self.counted()
        if 1 not in types:
            raise ValueError
        self.out += b"\1"
        if (yield 4) != bytes(4):
            raise ValueError
        self.out += b"\1"
        size = struct.unpack(">HH", (yield 4))
        if not all(1 <= it <= 4096 for it in size):
            raise ValueError
        yield 16
        length = struct.unpack(">I", (yield 4))[0]
        if length:
            yield length
        self.size = size

    def counted(self):
        count = (yield 1)[0]
        if not count:
            length = struct.unpack(">I", (yield 4))[0]
            if length:
                yield min(length, 255)
            raise ValueError
        return (yield count)

    def hear(self, data):
        for byte in data:
            if self.bad or self.size:
                return
            self.come += bytes([byte])
            if len(self.come) == self.wanted:
                try:
                    self.wanted, self.come = self.steps.send(self.come), b""
                except StopIteration:
                    return
                except ValueError:
                    self.bad, self.out = True, b""


class Recorder:
    def __init__(self, every, times, answers, index_answers):
        self.file, self.index = File(b"FBS 001.000\n", answers), File(b"FBI 001.000\n", index_answers)
        self.every, self.times, self.hello = every, list(times), Hello()
        self.said, self.time, self.key, self.message = b"", 0, False, b""
        self.asked = self.answered = self.between = False
        self.key_time = self.failures = 0

    def now(self):
        return self.times.pop(0) if self.times else 0

    def write(self):
        self.file.write()
        self.index.write()

    def make_whole(self):
        self.write()
        if self.file.is_clear() and self.said:
            place = self.file.len
            padding = bytes(-len(self.said) % 4)
            self.file.add(struct.pack(">I", len(self.said)) + self.said + padding + struct.pack(">I", self.time))
            self.said = b""
            if self.key:
                self.index.add(struct.pack(">IQ", self.time, place))
                self.key = False
            self.write()

    def room(self, time):
        return MOST - len(self.said) if not self.said or self.time == time else 0

    def fail(self):
        self.failures += 1
        return "failed"

    def give(self, data):
        if self.hello.bad:
            return self.fail()
        time = max(self.now(), self.time)
        if not self.room(time):
            self.make_whole()
        if self.file.broken:
            return self.fail()
        kept = data[: self.room(time)]
        if not kept:
            self.between = False
            return "nothing"
        self.said, self.time = self.said + kept, time
        self.hello.hear(kept)
        self.answered, self.between = True, len(kept) == len(data)
        return f"+{len(kept)}"

    def ask(self):
        now = self.now()
        due = self.between and (not self.asked or max(now - self.key_time, 0) >= self.every)
        if self.hello.size is None or self.hello.out or self.message:
            return
        whole = self.file.is_clear() and not self.said
        if due and whole and not self.key and self.index.is_clear():
            self.key, self.key_time = True, now
            self.request(0)
        elif self.answered or not self.asked:
            self.request(1 if self.asked else 0)

    def request(self, incremental):
        first = b"" if self.asked else FORMAT + ENCODINGS
        self.message = first + struct.pack(">BBHHHH", 3, incremental, 0, 0, *self.hello.size)
        self.asked, self.answered = True, False

    def take(self, room):
        self.make_whole()
        if self.file.broken or self.hello.bad:
            return self.fail()
        self.ask()
        if self.hello.out:
            said, self.hello.out = self.hello.out[:room], self.hello.out[room:]
        else:
            said, self.message = self.message[:room], self.message[room:]
        return shown(said) if said else "silent"


def shown(data):
    return data.hex() if len(data) <= 64 else f"{len(data)}#{sum(data)}"


def read(file):
    """What the whole blocks of a file say, and how it ends."""
    text, at = "", 12
    while at + 4 <= len(file):
        size = struct.unpack_from(">I", file, at)[0]
        end = at + 4 + size + -size % 4 + 4
        if end > len(file):
            break
        text += f" {struct.unpack_from('>I', file, end - 4)[0]}={shown(file[at + 4 : at + 4 + size])}"
        at = end
    return text + (" whole" if at == len(file) and len(file) >= 12 else " cut off")


def read_index(file):
    entries = file[12 : len(file) // 12 * 12]
    return "".join(f" {time}@{place}" for time, place in struct.iter_unpack(">IQ", entries))


def case(name, every, times, answers, index_answers, acts):
    """A line, and what is printed of it. An act is a kind with bytes to give, or with a count to take."""
    recorder, words, said = Recorder(every, times, answers, index_answers), [], []
    for kind, what in acts:
        if kind == "g":
            words.append(f"g:{spelled(what)}")
            said.append(recorder.give(what))
        elif kind == "t":
            words.append(f"t:{what}")
            said.append(recorder.take(what))
        elif kind == "f":
            words.append("f")
            recorder.make_whole()
        else:
            words.append("n")
            said.append(str(recorder.failures))
    lists = (",".join(map(str, it)) or "-" for it in (times, answers, index_answers))
    line = " ".join([name, str(every), *lists, *words])
    told = "".join(f" {it}" for it in said)
    return line, f"{name}:{told} |{read(recorder.file.bytes)} |{read_index(recorder.index.bytes)}"


def spelled(data):
    return f"{data[:1].hex()}*{len(data)}" if len(data) > 64 and len(set(data)) == 1 else data.hex()


def handshake(width, height, types=b"\1", name=b"room"):
    init = struct.pack(">HH", width, height) + FORMAT[4:] + struct.pack(">I", len(name)) + name
    return [VERSION, bytes([len(types)]) + types, bytes(4), init]


def joined(width=800, height=600):
    """The acts of a handshake, and the first request."""
    acts = []
    for part in handshake(width, height):
        acts += [("g", part), ("t", 64)]
    return acts


def chance(dice, name):
    times, now = [], 0
    for _ in range(60):
        now += dice.choice([0, 0, 1, 40, 1000, -30])
        times.append(max(now, 0))
    few = [str(dice.choice([0, 1, 3, 12, 20, 100])) for _ in range(dice.randrange(12))]
    answers = few + (["x" + str(dice.choice([0, 5, 40]))] if dice.random() < 0.3 else [])
    index_answers = [str(dice.choice([0, 5, 12, 24])) for _ in range(dice.randrange(5))]
    index_answers += ["x3"] if dice.random() < 0.2 else []
    acts = []
    width, height, types = dice.choice([1, 640, 4096]), dice.choice([1, 480, 4096]), dice.choice([b"\1", b"\2\1"])
    for part in handshake(width, height, types):
        cut = dice.randrange(len(part) + 1)
        acts += [("g", it) for it in (part[:cut], part[cut:]) if it]
        acts += [("t", dice.choice([64, 5, 1]))] * dice.randrange(1, 4)
    for _ in range(dice.randrange(2, 12)):
        acts += [("g", dice.randbytes(dice.randrange(1, 30)))] * dice.randrange(1, 3)
        acts += [("t", dice.choice([64, 10, 3]))] * dice.randrange(1, 3)
    acts += [("f", None), ("n", None)]
    return case(name, dice.choice([0, 1000, 60_000]), times, answers, index_answers, acts)


def given(*parts):
    """Acts by which these are given, and all that the recorder says is taken after each."""
    return [act for part in parts for act in (("g", part), ("t", 64))]


def cases(dice):
    """Each line, and what is printed of it."""
    update, more, take, flush, count = bytes(range(20)), bytes(range(50, 57)), ("t", 64), ("f", None), ("n", None)
    hundreds, here = range(0, 2000, 100), [0] * 99
    yield case("joins", 60_000, hundreds, [], [], joined() + [count])
    yield case("asks-on", 60_000, hundreds, [], [], joined() + given(update) + [take] + given(more))
    late = [*range(0, 900, 100), 59_999, 59_999, 60_799, 60_800, 61_000, 61_100]
    yield case("key-moment", 60_000, late, [], [], joined() + given(update) + [take, take] + given(more))
    yield case("still", 1_000, range(0, 20_000, 500), [], [], joined() + [take] * 6 + given(update))
    each = [("g", bytes([it])) for part in handshake(3, 2) for it in part]
    yield case("byte-by-byte", 60_000, here, [], [], each + [("t", 1)] * 70)
    yield case("taken-in-parts", 60_000, here, [], [], joined()[:-1] + [("t", 7)] * 8)
    yield case("bad-version", 60_000, here, [], [], given(b"RFB 003.007\n", update) + [count])
    yield case("no-none", 60_000, here, [], [], given(VERSION, b"\1\2", update) + [count])
    yield case("refused", 60_000, here, [], [], given(VERSION, b"\0\0\0\0\3", b"no", b"!", update) + [count])
    yield case("no-screen", 60_000, here, [], [], given(*handshake(0, 9)) + [count])
    back = [("g", it) for it in (VERSION, b"\1\1", bytes(4), update)]
    yield case("time-goes-back", 60_000, [500, 400, 300, 600], [], [], back + [flush])
    yield case("fails-at-once", 60_000, here, ["x0"], [], given(VERSION, b"\1\1") + [count])
    yield case("fails-in-a-block", 60_000, hundreds, ["12", "x21"], [], given(VERSION, b"\1\1") + [count])
    none = [("g", VERSION), *given(b"\1\1"), ("g", b"\1\1"), flush, flush]
    yield case("takes-nothing", 60_000, range(0, 900, 10), ["0"] * 9, [], none)
    yield case("index-fails", 0, hundreds, [], ["x5"], joined() + given(update, more))
    slow = joined() + given(update, more, more) + [("g", more), flush]
    yield case("index-is-slow", 0, hundreds, [], ["12", "5", "0", "0"], slow)
    long = [("g", b"a" * 65_537), ("g", b"b"), take, ("g", b"c" * 65_536), flush]
    yield case("long", 60_000, [5] * 30, [], [], joined() + long)
    parts = [("g", b"a" * 65_530), ("g", b"b" * 9), *given(b"c" * 9), ("g", b"d" * 7), flush, flush]
    answers = ["12", "20", "16", "12", "40", "30000", "0", "0"]
    yield case("long-and-slow", 60_000, [5] * 30, answers, [], joined() + parts)
    for n in range(60):
        yield chance(dice, f"chance-{n}")


def main():
    lines, told = zip(*cases(random.Random(1)))
    with open(sys.argv[1], "w", encoding="ascii") as out:
        out.write("".join(f"{line}\n" for line in lines))
    with open(sys.argv[2], "w", encoding="ascii") as out:
        out.write("".join(f"{line}\n" for line in told))


if __name__ == "__main__":
    main()
