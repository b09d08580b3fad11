"""VNC hosts that paint as fast as they are asked and note what they show, and viewers that look at it."""

import contextlib
import itertools
import random
import socket
import struct
import threading
import time

import recorded

# What hosts paint; mixed takes the four in turn.
LOADS = ("small", "desktop", "scroll", "noise", "mixed")
# Neither is a multiple of a tile's side.
SIZE, SMALL_SIZE = (324, 202), (164, 98)
NAME = b"try-recordings"
# The number of the screen that viewers see before the host's first update.
BLACK = -1


def noise(width, height):
    pixels = bytearray(random.randbytes(4 * width * height))
    pixels[3::4] = bytes(width * height)
    return bytes(pixels)


def letters(width, height):
    """Cells of 8 by 16: two colours in most, some in an ink of their own."""
    screen = recorded.Screen(width, height)
    screen.fill(0, 0, width, height, b"\xf0\xf0\xf0\0")
    for x, y in itertools.product(range(0, width - 7, 8), range(0, height - 15, 16)):
        if random.randrange(4) == 0:
            continue
        ink = b"\x20\x20\x20\0" if random.randrange(12) else random.randbytes(3) + b"\0"
        for _ in range(4):
            left, top = x + random.randrange(5), y + random.randrange(12)
            screen.fill(left, top, random.randrange(1, 4), random.randrange(1, 4), ink)
    return bytes(screen.pixels)


class Load:
    """What a host paints, by its name: the rectangles of an update, each of a place and data, or of a copy's source."""

    def __init__(self, name, width, height):
        self.name, self.width, self.height = name, width, height
        self.area = (10, 7, width - 21, (height - 9) // 16 * 16)
        self.noises = [noise(width, height) for _ in range(4)]
        self.squares = [noise(64, 64) for _ in range(8)]
        self.pages = [letters(*self.area[2:]) for _ in range(8)]
        self.lines = [letters(self.area[2], 16) for _ in range(40)]

    def next(self, number):
        """The update of this number, from 1 on."""
        name = LOADS[number // 20 % 4] if self.name == "mixed" else self.name
        return getattr(self, name)(number)

    def small(self, number):
        x = number % 4 * ((self.width - 64) // 4) + 5
        y = number // 4 % 4 * ((self.height - 64) // 4) + 3
        return [((x, y, 64, 64), self.squares[number % 8])]

    def desktop(self, number):
        return [(self.area, self.pages[number % 8])]

    def scroll(self, number):
        """A page that moves up by a line, and a new line."""
        x, y, w, h = self.area
        return [((x, y, w, h - 16), (x, y + 16)), ((x, y + h - 16, w, 16), self.lines[number % 40])]

    def noise(self, number):
        return [((0, 0, self.width, self.height), self.noises[number % 4])]


class Host:
    """A VNC host of one client. After each update it notes the time before it was sent and the screen's checksum. Each
    update also paints its number, so that no two screens are the same. Now and then there is a bell and a text."""

    def __init__(self, load, size=SIZE, pause=0.0, room=None):
        self.name, self.size, self.pause = load, size, pause
        # What viewers see: the screen at the top left of the room, and black around it.
        self.shown = recorded.Screen(*(room or size))
        self.shown.fill(0, 0, *(room or size), bytes(4))
        self.load = None if load == "still" else Load(load, *size)
        self.screen = recorded.Screen(*size)
        self.screen.fill(0, 0, *size, b"\x40\x50\x60\0")
        # A reflector's screen is black before the host's first update.
        self.times, self.numbers, self.texts = [], {self.shown.sum(): BLACK}, []
        self.bells = 0
        self.is_painting, self.clients = True, 0
        self.asked, self.changed = threading.Event(), threading.Event()
        self.listener = socket.create_server(("127.0.0.1", 0))
        self.port = self.listener.getsockname()[1]
        threading.Thread(target=self.serve, daemon=True).start()

    def serve(self):
        with contextlib.suppress(OSError, struct.error):
            self.link, _ = self.listener.accept()
            self.clients += 1
            self.link.setsockopt(socket.IPPROTO_TCP, socket.TCP_NODELAY, 1)
            stream = self.link.makefile("rb")
            self.greet(stream)
            while kind := stream.read(1):
                self.hear(kind[0], stream)

    def greet(self, stream):
        self.link.sendall(recorded.VERSION)
        stream.read(12)
        self.link.sendall(b"\1\1")
        stream.read(1)
        self.link.sendall(bytes(4))
        stream.read(1)
        self.link.sendall(struct.pack(">HH", *self.size) + recorded.FORMAT + struct.pack(">I", len(NAME)) + NAME)

    def hear(self, kind, stream):
        """A client's message (RFC 6143, 7.5)."""
        if kind == 0:
            if stream.read(19)[3:16] != recorded.FORMAT[:13]:
                raise OSError("the client asks for another format")
        elif kind == 2:
            stream.read(4 * struct.unpack(">xH", stream.read(3))[0])
        elif kind == 3:
            self.answer(stream.read(9)[0])
        else:
            stream.read({4: 7, 5: 5}[kind])

    def answer(self, incremental):
        """The whole screen where that is asked for, or what the load paints next, if it still paints."""
        if not incremental:
            self.send([((0, 0, *self.size), bytes(self.screen.pixels))])
        elif self.is_painting and self.load:
            time.sleep(self.pause)
            self.send(self.load.next(len(self.times)))

    def send(self, rectangles):
        number = len(self.times)
        rectangles = [*rectangles, ((self.size[0] - 1, 0, 1, 1), number.to_bytes(3, "little") + b"\0")]
        message = struct.pack(">BxH", 0, len(rectangles))
        for place, what in rectangles:
            message += self.paint(place, what)
        self.shown.put(0, 0, *self.size, self.screen.pixels)
        self.numbers[self.shown.sum()] = number
        # From here on a reflector may have it.
        self.times.append(time.time())
        self.link.sendall(self.aside(number) + message)

    def paint(self, place, what):
        """Paints a rectangle on the screen, and spells it: Raw, or CopyRect where there is a source."""
        if len(what) != 2:
            self.screen.put(*place, what)
            return struct.pack(">4Hi", *place, 0) + what
        self.screen.put(*place, self.screen.cut(*what, *place[2:]))
        return struct.pack(">4Hi", *place, 1) + struct.pack(">HH", *what)

    def aside(self, number):
        """What is sent before an update of this number beside it."""
        if number % 40 == 20:
            self.bells += 1
            return b"\2"
        if number % 40 != 30:
            return b""
        self.texts.append(f"text {number}".encode())
        return struct.pack(">BxxxI", 3, len(self.texts[-1])) + self.texts[-1]

    def rest(self):
        """Paints no more, and lets viewers see the last update."""
        self.is_painting = False
        time.sleep(0.7)

    def break_off(self):
        """Ends the connection in the middle of an update, which isn't counted."""
        self.rest()
        half = self.size[1] // 2
        self.link.sendall(struct.pack(">BxH4Hi", 0, 1, 0, 0, *self.size, 0) + b"\x77" * (4 * half * self.size[0] + 5))

    def end(self):
        """Ends its side of the connection between two messages."""
        with contextlib.suppress(OSError, AttributeError):
            self.link.shutdown(socket.SHUT_WR)
        self.listener.close()


class PacedHost(Host):
    """A host that paints as many updates as it is let, as fast as it is asked for them, and then waits to be let more."""

    def __init__(self, *words, **more):
        self.left = threading.Semaphore(0)
        super().__init__(*words, **more)

    def let(self, count):
        if count:
            self.left.release(count)

    def answer(self, incremental):
        if incremental:
            self.left.acquire()
        super().answer(incremental)

    def rest(self):
        self.is_painting = False
        self.let(1)
        super().rest()


class Viewer:
    """A viewer that asks for Raw, looks on, and counts its updates."""

    def __init__(self, port):
        self.updates = 0
        self.link = socket.create_connection(("127.0.0.1", port), timeout=10)
        stream = self.link.makefile("rb")
        stream.read(12)
        self.link.sendall(recorded.VERSION)
        stream.read(stream.read(1)[0])
        self.link.sendall(b"\1")
        stream.read(4)
        self.link.sendall(b"\1")
        self.size = struct.unpack(">HH", stream.read(4))
        stream.read(16)
        stream.read(struct.unpack(">I", stream.read(4))[0])
        self.link.sendall(struct.pack(">BxHi", 2, 1, 0))
        threading.Thread(target=self.watch, args=(stream,), daemon=True).start()

    def watch(self, stream):
        with contextlib.suppress(OSError, struct.error, IndexError):
            while True:
                self.link.sendall(struct.pack(">BBHHHH", 3, self.updates > 0, 0, 0, *self.size))
                while (kind := stream.read(1)[0]) != 0:
                    if kind == 3:
                        stream.read(struct.unpack(">xxxI", stream.read(7))[0])
                count = struct.unpack(">xH", stream.read(3))[0]
                self.show([self.rectangle(stream) for _ in range(count)])
                self.updates += 1

    def rectangle(self, stream):
        *place, _ = struct.unpack(">4Hi", stream.read(12))
        return place, stream.read(4 * place[2] * place[3])

    def show(self, rectangles):
        """What is done with those of an update."""


class Keeper(Viewer):
    """A viewer that keeps its whole picture, as it is after its last update."""

    def __init__(self, port):
        self.screen, self.lock = None, threading.Lock()
        super().__init__(port)

    def show(self, rectangles):
        with self.lock:
            self.screen = self.screen or recorded.Screen(*self.size)
            for place, data in rectangles:
                self.screen.put(*place, data)

    def picture(self):
        """A copy of its picture."""
        with self.lock:
            return self.screen and self.screen.copy()
