"""What RFC 6143 and docs/PROTOCOL.md say of each side's bytes, in the plainest form: whole streams, no pieces.

Each reader here takes a whole stream and answers a Reading: what it says of it, the fault with which it ends (0 for
none), and at how many bytes it ends: after the byte that shows the fault, or after all that it uses.
"""

import struct
from dataclasses import dataclass, field

VERSION = b"RFB 003.008\n"
HOST_FORMAT = bytes.fromhex("20180001 00FF00FF 00FF1008 00000000")
LONGEST_TEXT, LONGEST_NAME, LARGEST = 65536, 255, 4096
# The number of DesktopSize, which is -223 (7.8.2).
DESKTOP_SIZE = 0xFFFFFF21


class Open(Exception):
    """The stream ends before this field is whole."""


class Wrong(Exception):
    """The field read last is at fault."""

    def __init__(self, number):
        self.number = number


@dataclass
class Reading:
    said: list = field(default_factory=list)
    fault: int = 0
    end: int = 0
    whole: bool = False


class Stream:
    """A stream and how far it is read."""

    def __init__(self, data):
        self.data, self.at = data, 0

    def take(self, count):
        if self.at + count > len(self.data):
            raise Open
        self.at += count
        return self.data[self.at - count : self.at]

    def number(self, count):
        return int.from_bytes(self.take(count), "big")


def read(data, body, reading=None):
    """Reads a stream by `body`, which says what it finds as it goes."""
    reading = reading or Reading()
    stream = Stream(data)
    try:
        body(stream, reading)
        reading.whole, reading.end = True, stream.at
    except Open:
        reading.end = len(data)
    except Wrong as wrong:
        reading.fault, reading.end = wrong.number, stream.at
    return reading


# ---- pixel formats (7.4)


def channels(form):
    """The greatest value and the shift of red, green and blue."""
    return list(zip(struct.unpack(">HHH", form[4:10]), form[10:13]))


def is_accepted(form):
    if form[0] not in (8, 16, 32) or form[3] == 0:
        return False
    taken = 0
    for most, shift in channels(form):
        bits = most.bit_length()
        if most == 0 or most != 2**bits - 1 or shift + bits > form[0]:
            return False
        if taken & most << shift:
            return False
        taken |= most << shift
    return True


def pixels(form, data):
    """The pixel values that these bytes are."""
    size = form[0] // 8
    code = {1: "B", 2: "H", 4: "I"}[size]
    return list(struct.unpack(f"{'>' if form[2] else '<'}{len(data) // size}{code}", data))


def tint(form, colour):
    value = 0
    for (most, shift), component in zip(channels(form), (colour >> 16, colour >> 8 & 255, colour & 255)):
        value += (component * most + 127) // 255 << shift
    return value


# ---- handshakes (7.1 to 7.3)


def viewer_hello(data, width, height, name):
    """What is said to a viewer, after each of its fields."""

    def body(stream, reading):
        reading.said.append((0, VERSION))
        if stream.take(12) != VERSION:
            raise Wrong(1)
        reading.said.append((stream.at, b"\1\1"))
        if stream.take(1) != b"\1":
            raise Wrong(13)
        reading.said.append((stream.at, bytes(4)))
        stream.take(1)
        init = struct.pack(">HH", width, height) + HOST_FORMAT + struct.pack(">I", len(name)) + name
        reading.said.append((stream.at, init))

    return read(data, body)


def host_hello(data):
    """What is said to a host, after each of its fields; then whom it joined, or why it was refused."""

    def body(stream, reading):
        version = stream.take(12)
        form = version[:4] == b"RFB " and version[7:8] == b"." and version[11:] == b"\n"
        digits = version[4:7] + version[8:11]
        if not form or not all(48 <= digit <= 57 for digit in digits):
            raise Wrong(1)
        if (int(digits[:3]), int(digits[3:])) < (3, 8):
            raise Wrong(1)
        reading.said.append((stream.at, VERSION))
        count = stream.number(1)
        if count == 0:
            length = stream.number(4)
            reading.reason = stream.take(min(length, LONGEST_NAME))
            raise Wrong(2)
        if 1 not in stream.take(count):
            raise Wrong(3)
        reading.said.append((stream.at, b"\1"))
        if stream.number(4) != 0:
            raise Wrong(4)
        reading.said.append((stream.at, b"\1"))
        width, height = stream.number(2), stream.number(2)
        if not (1 <= width <= LARGEST and 1 <= height <= LARGEST):
            raise Wrong(5)
        stream.take(16)
        name = stream.take(stream.number(4))
        reading.joined = width, height, name[:LONGEST_NAME]

    reading = Reading()
    reading.joined = reading.reason = None
    return read(data, body, reading)


# ---- what a viewer sends (7.5)


def client_message(stream):
    kind = stream.number(1)
    if kind == 0:
        form = stream.take(19)[3:]
        if not is_accepted(form):
            raise Wrong(12)
        return "format", form[:2] + bytes([form[2] != 0, 1]) + form[4:13] + bytes(3)
    if kind == 2:
        stream.take(1)
        count = stream.number(2)
        listed = struct.unpack(f">{count}I", stream.take(4 * count))
        return "encodings", next((it for it in listed if it in (0, 2, 5)), 0), 1 in listed, DESKTOP_SIZE in listed
    if kind == 3:
        return "ask", stream.number(1) != 0, tuple(stream.number(2) for _ in range(4))
    if kind == 4:
        down = stream.number(1) != 0
        stream.take(2)
        return "key", down, stream.number(4)
    if kind == 5:
        return "pointer", stream.number(1), stream.number(2), stream.number(2)
    if kind == 6:
        stream.take(3)
        length = stream.number(4)
        text = stream.take(length)
        return ("text", text) if length <= LONGEST_TEXT else ("long text", length)
    raise Wrong(6)


def client(data):
    def body(stream, reading):
        reading.begun = 0
        while stream.at < len(data):
            reading.said.append(client_message(stream))
            reading.begun = stream.at

    return read(data, body)


MOST_KEYS = 64


class Strokes:
    """Which inputs pass: of a viewer none while another has a key or a button down."""

    def __init__(self):
        self.keys, self.buttons = {}, {}

    def passes(self, viewer, message):
        others = {*self.keys, *self.buttons} - {viewer}
        if any(self.keys.get(other) or self.buttons.get(other) for other in others):
            return False
        keys = self.keys.setdefault(viewer, set())
        if message[0] == "key":
            _, down, key = message
            if key not in keys and (not down or len(keys) == MOST_KEYS):
                return False
            (keys.add if down else keys.discard)(key)
        elif message[0] == "pointer":
            self.buttons[viewer] = message[1]
        return True


def allowed(messages):
    """What a viewer with full control brings to the host of its messages, and the releases where it has gone."""
    strokes, inputs = Strokes(), [message for message in messages if message[0] in ("key", "pointer", "text")]
    passed = [message for message in inputs if strokes.passes(None, message)]
    releases = [("key", False, key) for key in sorted(strokes.keys.get(None, ()))]
    places = [message[2:] for message in passed if message[0] == "pointer"]
    return passed, releases + ([("pointer", 0, *places[-1])] if strokes.buttons.get(None) else [])


def spelled(message):
    """The bytes of an input."""
    kind, *rest = message
    if kind == "key":
        return struct.pack(">BBHI", 4, rest[0], 0, rest[1])
    if kind == "pointer":
        return struct.pack(">BBHH", 5, *rest)
    return b"\6\0\0\0" + struct.pack(">I", len(rest[0])) + rest[0]


# ---- rectangles (7.7)


class Grid:
    """Pixel values, row after row, and the size that was told of last."""

    def __init__(self, width, height):
        self.width, self.height = width, height
        self.told = width, height
        self.rows = [[0] * width for _ in range(height)]

    def put(self, x, y, w, h, values):
        for row in range(h):
            self.rows[y + row][x : x + w] = values[row * w : row * w + w]

    def fill(self, x, y, w, h, value):
        for row in self.rows[y : y + h]:
            row[x : x + w] = [value] * w

    def part(self, x, y, w, h):
        return [value for row in self.rows[y : y + h] for value in row[x : x + w]]

    def colors(self):
        """The colours of each position."""
        return [[value & 0xFFFFFF for value in row] for row in self.rows]

    def colors_told(self):
        """The same as far as the size goes that was told of last, and black behind it."""
        across, down = self.told
        rows = self.colors()
        return [row[:across] + [0] * len(row[across:]) if y < down else [0] * len(row) for y, row in enumerate(rows)]

    def copy(self):
        other = Grid(0, 0)
        other.width, other.height, other.told = self.width, self.height, self.told
        other.rows = [list(row) for row in self.rows]
        return other


def pixel(stream, form):
    return pixels(form, stream.take(form[0] // 8))[0]


def rre(stream, form, w, h):
    grid = Grid(w, h)
    count = stream.number(4)
    grid.fill(0, 0, w, h, pixel(stream, form))
    for _ in range(count):
        value = pixel(stream, form)
        x, y, across, down = (stream.number(2) for _ in range(4))
        if x + across > w or y + down > h:
            raise Wrong(9)
        grid.fill(x, y, across, down, value)
    return grid


def hextile_tile(stream, form, w, h, carried):
    """One tile, and the background and foreground that it leaves behind."""
    tile = Grid(w, h)
    mask = stream.number(1)
    background, foreground = carried
    if mask & 1:
        tile.put(0, 0, w, h, pixels(form, stream.take(w * h * form[0] // 8)))
        return tile, carried
    if not mask & 2 and background is None:
        raise Wrong(10)
    if mask & 8 and not mask & 16 and not mask & 4 and foreground is None:
        raise Wrong(11)
    if mask & 2:
        background = pixel(stream, form)
    if mask & 4:
        foreground = pixel(stream, form)
    tile.fill(0, 0, w, h, background)
    for _ in range(stream.number(1) if mask & 8 else 0):
        value = pixel(stream, form) if mask & 16 else foreground
        place, size = stream.number(1), stream.number(1)
        x, y, across, down = place >> 4, place & 15, (size >> 4) + 1, (size & 15) + 1
        if x + across > w or y + down > h:
            raise Wrong(9)
        tile.fill(x, y, across, down, value)
    return tile, (background, foreground)


def hextile(stream, form, w, h):
    grid = Grid(w, h)
    carried = None, None
    for y in range(0, h, 16):
        for x in range(0, w, 16):
            across, down = min(16, w - x), min(16, h - y)
            tile, carried = hextile_tile(stream, form, across, down, carried)
            grid.put(x, y, across, down, tile.part(0, 0, across, down))
    return grid


def rectangle(data, encoding, form, w, h):
    def body(stream, reading):
        reading.grid = (hextile if encoding == 5 else rre)(stream, form, w, h)

    return read(data, body)


# ---- what a host sends (7.6)


def paint_rectangle(stream, screen):
    """Paints a rectangle, and answers which part of the screen it changes. A new size changes all of it."""
    x, y, w, h = (stream.number(2) for _ in range(4))
    is_outside = x + w > screen.width or y + h > screen.height
    if is_outside and (x or y):
        raise Wrong(7)
    encoding = stream.number(4)
    if is_outside:
        raise Wrong(5 if encoding == DESKTOP_SIZE else 7)
    if encoding == DESKTOP_SIZE:
        screen.fill(0, 0, screen.width, screen.height, 0)
        screen.told = w, h
        return 0, 0, screen.width, screen.height
    if encoding == 0:
        values = pixels(HOST_FORMAT, stream.take(4 * w * h))
    elif encoding == 1:
        from_x, from_y = stream.number(2), stream.number(2)
        if from_x + w > screen.width or from_y + h > screen.height:
            raise Wrong(14)
        values = screen.part(from_x, from_y, w, h)
    elif encoding == 2:
        values = rre(stream, HOST_FORMAT, w, h).part(0, 0, w, h)
    elif encoding == 5:
        values = hextile(stream, HOST_FORMAT, w, h).part(0, 0, w, h)
    else:
        raise Wrong(8)
    screen.put(x, y, w, h, [value & 0xFFFFFF for value in values])
    return x, y, w, h


def host_message(stream, screen):
    """One message: what it is, and the screen after it."""
    kind = stream.number(1)
    if kind == 0:
        stream.take(1)
        after = screen.copy()
        for _ in range(stream.number(2)):
            paint_rectangle(stream, after)
        return ("update",), after
    if kind == 1:
        stream.take(3)
        stream.take(6 * stream.number(2))
        return ("map",), screen
    if kind == 2:
        return ("bell",), screen
    if kind == 3:
        stream.take(3)
        length = stream.number(4)
        text = stream.take(length)
        return (("text", text) if length <= LONGEST_TEXT else ("long text",)), screen
    raise Wrong(6)


def host(data, width, height):
    """The host's messages, and the screen after the whole ones."""

    def body(stream, reading):
        reading.screen, reading.begun = Grid(width, height), 0
        while stream.at < len(data):
            message, reading.screen = host_message(stream, reading.screen)
            reading.said.append(message)
            reading.begun = stream.at

    return read(data, body)
