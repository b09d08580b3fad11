"""Random scripts for `reflectord replay`, and what they have to print.

What a viewer's turn prints is followed as a viewer would: it has to be the rectangles that are due, and after them the
area that was asked for has to show the host's screen in the viewer's pixel format.
"""

import re
import struct

import protocol
import streams

TILE = 16
NUMBER = rb"([1-9][0-9]*)"
HEX = rb"([0-9A-Fa-f]+(?: [0-9A-Fa-f]+)*)"
LINES = [
    ("host", re.compile(rb"host " + HEX)),
    ("raise", re.compile(rb"raise")),
    ("join", re.compile(rb"(open|greet) " + NUMBER + rb" (full|view)")),
    ("viewer", re.compile(rb"viewer " + NUMBER + rb" " + HEX)),
    ("turn", re.compile(rb"turn " + NUMBER)),
    ("input", re.compile(rb"input")),
    ("leave", re.compile(rb"leave " + NUMBER)),
    ("dropped", re.compile(rb"dropped " + NUMBER)),
    ("next", re.compile(rb"next")),
]
SCREEN = re.compile(rb"screen " + NUMBER + rb" " + NUMBER + rb" ([^\n]{1,255})")


# ---- random scripts


def words(data):
    text = data.hex().upper()
    return " ".join(text[at : at + 8] for at in range(0, len(text), 8))


def bytes_in_lines(rng, head, data):
    """Lines that send these bytes."""
    lines = []
    while data:
        count = rng.choice((len(data), len(data), rng.randint(1, 12)))
        lines.append(f"{head} {words(data[:count])}")
        data = data[count:]
    return lines


def viewer_bytes(rng, width, height):
    if rng.random() < 0.6:
        area = streams.inside(rng, width), streams.inside(rng, height)
        return struct.pack(">BBHHHH", 3, rng.randrange(2), area[0][0], area[1][0], area[0][1], area[1][1])
    if rng.random() < 0.3:
        return struct.pack(">BBHI", 4, rng.randrange(2), 0, rng.choice((65, 66, 97)))
    data = streams.client_message(rng)
    return streams.mutated(rng, data) if rng.random() < 0.02 else data


def script_line(rng, width, height):
    viewer = rng.randint(1, 2)
    kind = rng.randrange(22)
    if kind < 5:
        data = streams.host_message(rng, width, height)
        data = streams.mutated(rng, data) if rng.random() < 0.05 else data
        return bytes_in_lines(rng, "host", data)
    if kind < 7:
        return ["raise"]
    if kind < 13:
        return bytes_in_lines(rng, f"viewer {viewer}", viewer_bytes(rng, width, height))
    if kind < 18:
        return [f"turn {viewer}"]
    if kind < 19:
        return ["input"]
    if kind < 20:
        return [f"dropped {viewer}"]
    if kind < 21:
        return ["next"]
    again = [f"open {viewer} full"] if rng.random() < 0.9 else []
    return [f"leave {viewer}"] + again


def script(rng):
    width, height = rng.choice((1, 2, 17, 40)), rng.choice((1, 5, 18, 33))
    lines = [f"screen {width} {height} T"]
    for viewer in (1, 2):
        role = rng.choice(("full", "full", "view"))
        if rng.random() < 0.2:
            lines.append(f"greet {viewer} {role}")
            lines += bytes_in_lines(rng, f"viewer {viewer}", streams.viewer_hello(rng))
        else:
            lines.append(f"open {viewer} {role}")
    for _ in range(rng.randint(2, 25)):
        lines += script_line(rng, width, height)
    text = ("\n".join(lines) + rng.choice(("\n", ""))).encode()
    return streams.mutated(rng, text) if rng.random() < 0.1 else text


# ---- what a script comes to


class Viewer:
    def __init__(self, expected, number, greet, full):
        self.expected, self.number, self.greet, self.full = expected, number, greet, full
        self.data, self.told, self.taken = b"", 0, 0
        self.form, self.kind, self.copy = protocol.HOST_FORMAT, 0, False
        self.area, self.asked = None, False
        self.have = {}
        self.cut = None
        self.held = None
        self.inputs = []
        self.forget()

    def forget(self):
        width, height = self.expected.size
        self.have = {}
        self.held = [[None] * width for _ in range(height)]

    def hello(self):
        width, height = self.expected.size
        return protocol.viewer_hello(self.data, width, height, self.expected.name)

    def feed(self, data):
        """Takes bytes, and answers the fault, or 0."""
        self.data += data
        start = 0
        if self.greet:
            hello = self.hello()
            if not hello.whole:
                return hello.fault
            start = hello.end
        reading = protocol.client(self.data[start:])
        for message in reading.said[self.taken :]:
            self.take(message)
        self.taken = len(reading.said)
        return reading.fault

    def take(self, message):
        kind, *rest = message
        if kind == "format":
            self.form, self.asked = rest[0], True
            self.forget()
        elif kind == "encodings":
            # A script tells no sizes, so the last part says nothing here.
            self.kind, self.copy, _ = rest
        elif kind == "ask":
            self.ask(rest[0], *rest[1])
        elif self.full:
            self.press(message)

    def ask(self, incremental, x, y, w, h):
        width, height = self.expected.size
        right, low = min(width, x + w), min(height, y + h)
        if x >= right or y >= low:
            return
        self.asked = True
        if self.area:
            left, top, r, b = self.area
            self.area = min(x, left), min(y, top), max(right, r), max(low, b)
        else:
            self.area = x, y, right, low
        if not incremental:
            for tile in self.expected.tiles((x, y, right, low)):
                self.have.pop(tile, None)

    def press(self, message):
        """An input of a viewer with full control."""
        before, _ = protocol.allowed(self.inputs)
        self.inputs.append(message)
        passed, _ = protocol.allowed(self.inputs)
        self.expected.inputs += [(self.number, input) for input in passed[len(before) :]]

    def leave(self):
        _, releases = protocol.allowed(self.inputs)
        self.expected.inputs += [(self.number, input) for input in releases]

    def turn(self, printed):
        """Follows what a turn printed. It answers why that is wrong, or None."""
        stream = protocol.Stream(printed)
        if self.greet:
            hello = self.hello()
            said = b"".join(it for _, it in hello.said)[self.told :]
            self.told += len(said)
            if stream.take(len(said)) != said:
                return "another hello"
            if not hello.whole:
                return None if stream.at == len(printed) else "more than the hello"
        self.answer(stream)
        return None if stream.at == len(printed) else "bytes behind the answer"

    def answer(self, stream):
        e = self.expected
        number = self.cut[0] if self.cut else 0
        if not (e.tally > number or (self.area and self.asked)):
            return
        first, before = self.cut is None, self.cut
        self.cut, self.asked = (len(e.stamps), e.bells, e.text), False
        if not first and e.bells > before[1]:
            expect(stream, b"\2")
        if not first and e.text != before[2]:
            text = e.text[1]
            expect(stream, b"\3\0\0\0" + struct.pack(">I", len(text)) + text)
        runs = e.runs(self.area, self.have) if self.area else []
        if runs:
            self.update(stream, runs)

    def update(self, stream, runs):
        e, area = self.expected, self.area
        expect(stream, b"\0\0" + struct.pack(">H", len(runs)))
        for run in runs:
            self.rectangle(stream, run)
        left, top, right, low = area
        for y in range(top, low):
            shown = [protocol.tint(self.form, colour) for colour in e.screen.rows[y][left:right]]
            if self.held[y][left:right] != shown:
                raise Otherwise(f"row {y} of the area isn't the screen's")
        for tile in e.tiles(area):
            x, y, r, b = e.tile(tile)
            if left <= x and top <= y and r <= right and b <= low:
                self.have[tile] = len(e.stamps)
        self.area = None

    def rectangle(self, stream, run):
        x, y, right, low = run
        w, h = right - x, low - y
        expect(stream, struct.pack(">HHHH", x, y, w, h))
        encoding = stream.number(4)
        if encoding == 1 and self.copy:
            from_x, from_y = stream.number(2), stream.number(2)
            rows = [row[from_x : from_x + w] for row in self.held[from_y : from_y + h]]
        elif encoding == 0:
            values = protocol.pixels(self.form, stream.take(w * h * self.form[0] // 8))
            rows = [values[at : at + w] for at in range(0, w * h, w)]
        elif encoding == self.kind:
            rows = (protocol.hextile if encoding == 5 else protocol.rre)(stream, self.form, w, h).rows
        else:
            raise Otherwise(f"encoding {encoding}")
        for at, row in enumerate(rows):
            self.held[y + at][x:right] = row


class Otherwise(Exception):
    """What was printed isn't what has to be."""


def expect(stream, wanted):
    found = stream.take(len(wanted))
    if found != wanted:
        raise Otherwise(f"{found.hex()} in place of {wanted.hex()}")


class Expected:
    def __init__(self, text):
        self.text_of_script = text
        self.size = self.name = None
        self.host_data, self.host_fault = b"", 0
        self.screen, self.stamps, self.touched = None, [], {}
        self.put, self.tally, self.bells, self.text = 0, 0, 0, None
        self.viewers, self.inputs = {}, []
        self.strokes, self.dropped = protocol.Strokes(), {}

    # ---- the screen and its tiles

    def tile(self, tile):
        column, row = tile
        width, height = self.size
        return column * TILE, row * TILE, min(width, column * TILE + TILE), min(height, row * TILE + TILE)

    def tiles(self, area):
        """The tiles that an area meets, row after row."""
        left, top, right, low = area
        rows = range(top // TILE, (low + TILE - 1) // TILE)
        return [(c, r) for r in rows for c in range(left // TILE, (right + TILE - 1) // TILE)]

    def runs(self, area, have):
        """The rectangles that are due: in each row of tiles the longest runs, clipped to the area."""
        left, top, right, low = area
        runs = []
        for tile in self.tiles(area):
            if tile in have and self.touched.get(tile, 0) <= have[tile]:
                continue
            x, y, r, b = self.tile(tile)
            part = max(x, left), max(y, top), min(r, right), min(b, low)
            if runs and runs[-1][1] == part[1] and runs[-1][2] == part[0]:
                runs[-1] = runs[-1][0], part[1], part[2], part[3]
            else:
                runs.append(part)
        return runs

    def host(self, data):
        self.host_data += data
        stream = protocol.Stream(self.host_data)
        try:
            while stream.at < len(stream.data):
                message, self.screen = protocol.host_message(stream, self.screen)
                self.keep(message, self.host_data[: stream.at])
                self.host_data = self.host_data[stream.at :]
                stream = protocol.Stream(self.host_data)
        except protocol.Open:
            pass
        except protocol.Wrong as wrong:
            self.host_fault = wrong.number

    def keep(self, message, spelled):
        if message[0] not in ("update", "bell", "text"):
            return
        self.stamps.append(message[0])
        number = len(self.stamps)
        if message[0] == "bell":
            self.bells += 1
        elif message[0] == "text":
            self.text = number, message[1]
        else:
            for x, y, w, h in painted(spelled, self.size):
                for tile in self.tiles((x, y, x + w, y + h)) if w and h else []:
                    self.touched[tile] = number

    # ---- lines

    def check(self, found):
        """Why what a script printed, behind its status, isn't what it has to print; or None."""
        status, printed = found[0], found[1:]
        if printed and not printed.endswith(b"\n"):
            return "no whole line"
        self.printed = printed.split(b"\n")[:-1]
        try:
            wanted = self.play()
        except Otherwise as otherwise:
            return f"{otherwise}\n{self.text_of_script.decode(errors='replace')}\n{printed!r}"
        except (protocol.Open, protocol.Wrong) as broken:
            return f"no answer: {broken!r}\n{self.text_of_script.decode(errors='replace')}\n{printed!r}"
        if status != wanted or self.printed:
            return f"status {status}, wanted {wanted}; left: {self.printed}\n{self.text_of_script!r}"
        return None

    def prints(self, line):
        if not self.printed or self.printed[0] != line:
            raise Otherwise(f"{self.printed[:1]} in place of {line}")
        self.printed.pop(0)

    def play(self):
        lines = self.text_of_script.split(b"\n")
        if lines[-1] == b"":
            lines.pop()
        for number, line in enumerate(lines, 1):
            if not self.line(number, line):
                self.prints(b"line %d" % number)
                return 2
        return 3 if self.host_fault else 0

    def line(self, number, line):
        """Plays a line, and answers whether it may stand there."""
        try:
            line.decode()
        except UnicodeDecodeError:
            return False
        if number == 1:
            return self.first(line)
        for kind, form in LINES:
            match = form.fullmatch(line)
            if match:
                return getattr(self, f"play_{kind}")(*match.groups())
        return False

    def first(self, line):
        match = SCREEN.fullmatch(line)
        if not match or not all(len(it) <= 4 and int(it) <= 4096 for it in match.groups()[:2]):
            return False
        self.size, self.name = (int(match[1]), int(match[2])), match[3]
        self.screen = protocol.Grid(*self.size)
        return True

    def play_host(self, text):
        data = hex_bytes(text)
        if data is None:
            return False
        if not self.host_fault:
            self.host(data)
        if self.host_fault:
            self.prints(b"fault %d" % self.host_fault)
        return True

    def play_raise(self):
        self.tally = len(self.stamps)
        return True

    def play_join(self, how, viewer, role):
        if not is_viewer(viewer) or viewer in self.viewers:
            return False
        self.viewers[viewer] = Viewer(self, viewer, how == b"greet", role == b"full")
        return True

    def play_viewer(self, viewer, text):
        data = hex_bytes(text)
        if data is None or viewer not in self.viewers:
            return False
        fault = self.viewers[viewer].feed(data)
        if fault:
            self.prints(b"%s: fault %d" % (viewer, fault))
            self.viewers.pop(viewer).leave()
        return True

    def play_turn(self, viewer):
        if viewer not in self.viewers:
            return False
        if not self.printed or not self.printed[0].startswith(viewer + b": "):
            raise Otherwise(f"{self.printed[:1]} in place of a turn of {viewer}")
        shown = self.printed.pop(0)[len(viewer) + 2 :]
        why = self.viewers[viewer].turn(b"" if shown == b"-" else read_words(shown))
        if why:
            raise Otherwise(why)
        return True

    def play_input(self):
        data = b""
        for viewer, message in self.inputs:
            if self.strokes.passes(viewer, message):
                data += protocol.spelled(message)
            else:
                self.dropped[viewer] = self.dropped.get(viewer, 0) + 1
        self.inputs.clear()
        self.prints(b"host: " + (words(data).encode() or b"-"))
        return True

    def play_dropped(self, viewer):
        if not is_viewer(viewer):
            return False
        self.prints(b"%s: %d dropped" % (viewer, self.dropped.get(viewer, 0)))
        return True

    def play_next(self):
        """The next host begins behind a switch to black, unless the one before is at fault."""
        if self.host_fault:
            self.prints(b"fault %d" % self.host_fault)
            return True
        self.host_data, self.screen = b"", protocol.Grid(*self.size)
        self.stamps.append("switch")
        self.touched = dict.fromkeys(self.tiles((0, 0, *self.size)), len(self.stamps))
        return True

    def play_leave(self, viewer):
        if viewer not in self.viewers:
            return False
        self.viewers.pop(viewer).leave()
        return True


def is_viewer(text):
    return len(text) <= 2 and 1 <= int(text) <= 64


def hex_bytes(text):
    digits = text.replace(b" ", b"")
    return None if len(digits) % 2 else bytes.fromhex(digits.decode())


def read_words(text):
    """The bytes of a printed line, which stand there in words of four."""
    data = bytes.fromhex(text.decode())
    if words(data).encode() != text:
        raise Otherwise(f"{text} in place of {words(data)}")
    return data


def painted(spelled, size):
    """The rectangles of one whole update."""
    stream, screen = protocol.Stream(spelled), protocol.Grid(*size)
    stream.take(2)
    return [protocol.paint_rectangle(stream, screen) for _ in range(stream.number(2))]
