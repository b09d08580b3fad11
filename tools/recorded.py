"""Reads recordings of sessions, their indexes, and the pictures that they show.

It is written from the text of the two forms (FBS 001.000, FBI 001.000) and of RFC 6143 alone, for Raw, RRE and Hextile
in 32 bits a pixel, and shares no code with the crates. `Wrong` says what is amiss with a file. A file that is cut off
is read up to its last whole block, and a session up to its last whole message.
"""

import bisect
import collections
import struct
import zlib

LINE, INDEX_LINE = b"FBS 001.000\n", b"FBI 001.000\n"
VERSION = b"RFB 003.008\n"
# 32 bits a pixel, little-endian, red in bits 16 to 23, green in 8 to 15, blue in 0 to 7 (RFC 6143, 7.4).
FORMAT = bytes.fromhex("20180001 00FF00FF 00FF1008 00000000")
RAW, RRE, HEXTILE = 0, 2, 5
IS_RAW, HAS_BACKGROUND, HAS_FOREGROUND, HAS_PARTS, IS_COLOURED = 1, 2, 4, 8, 16
UPDATE, BELL, CUT_TEXT = 0, 2, 3
# A pixel that was never painted; the fourth byte of one that was is 0.
UNPAINTED = b"\0\0\0\xff"

# Where a block begins in the file, its time in milliseconds, and where its data lies in what was said.
Block = collections.namedtuple("Block", "place time start end")
# Where a message ends in what was said, its kind, and the checksum of the picture that an update leaves, or a text.
Message = collections.namedtuple("Message", "start end kind value")


class Wrong(Exception):
    """A file isn't what it has to be."""


class Unfinished(Exception):
    """What was said ends within a message."""


class Recording:
    """All whole blocks of a file, what they say, and how many bytes of the file follow them."""

    def __init__(self, data):
        if data[: len(LINE)] != LINE[: len(data)]:
            raise Wrong(f"the first line is {bytes(data[:12])!r}")
        self.blocks, pieces, place, count = [], [], len(LINE), 0
        view, last = memoryview(data), 0
        while place + 4 <= len(data):
            (size,) = struct.unpack_from(">I", data, place)
            end = place + 4 + (size + 3) // 4 * 4 + 4
            if end > len(data):
                break
            (time,) = struct.unpack_from(">I", data, end - 4)
            if time < last:
                raise Wrong(f"the block at {place} has time {time}, after {last}")
            if any(view[place + 4 + size : end - 4]):
                raise Wrong(f"the block at {place} has padding that isn't 0")
            pieces.append(view[place + 4 : place + 4 + size])
            self.blocks.append(Block(place, time, count, count + size))
            place, count, last = end, count + size, time
        self.cut = max(0, len(data) - place)
        self.said = b"".join(pieces)
        self.ends = [block.end for block in self.blocks]

    def time_of(self, end):
        """The time of the last byte of a message that ends there."""
        return self.blocks[bisect.bisect_left(self.ends, end)].time

    def longest(self):
        return max((block.end - block.start for block in self.blocks), default=0)


def index_of(data):
    """The time and the place of each key moment, of all whole entries."""
    if data[: len(INDEX_LINE)] != INDEX_LINE[: len(data)]:
        raise Wrong(f"the first line of the index is {bytes(data[:12])!r}")
    whole = data[12 : 12 + max(0, len(data) - 12) // 12 * 12]
    entries = list(struct.iter_unpack(">IQ", whole))
    if entries != sorted(entries) or any(one[1] > other[1] for one, other in zip(entries, entries[1:])):
        raise Wrong("the index goes back")
    return entries


# ---- pictures


class Screen:
    """Pixels of four bytes, row after row."""

    def __init__(self, width, height):
        self.width, self.height = width, height
        self.pixels = bytearray(UNPAINTED * (width * height))
        # How high the highest subrectangle of RRE or Hextile was.
        self.highest = 0

    def put(self, x, y, w, h, data, at=0):
        stride, count = 4 * self.width, 4 * w
        place = y * stride + 4 * x
        for _ in range(h):
            self.pixels[place : place + count] = data[at : at + count]
            place, at = place + stride, at + count

    def fill(self, x, y, w, h, pixel):
        stride, row = 4 * self.width, pixel * w
        place, count = y * stride + 4 * x, len(row)
        for _ in range(h):
            self.pixels[place : place + count] = row
            place += stride

    def cut(self, x, y, w, h):
        stride = 4 * self.width
        starts = range(y * stride + 4 * x, (y + h) * stride + 4 * x, stride)
        return b"".join(self.pixels[start : start + 4 * w] for start in starts)

    def sum(self):
        return zlib.crc32(self.pixels)

    def copy(self):
        other = Screen(0, 0)
        other.width, other.height, other.pixels = self.width, self.height, bytearray(self.pixels)
        return other

    def unlike(self, other):
        """How many pixels differ, of two of one size."""
        if self.pixels == other.pixels:
            return 0
        return sum(self.pixels[at : at + 4] != other.pixels[at : at + 4] for at in range(0, len(self.pixels), 4))


def end_of(said, at, count):
    """Where so many bytes from there on end."""
    if at + count > len(said):
        raise Unfinished
    return at + count


def put_raw(said, at, screen, x, y, w, h):
    end = end_of(said, at, 4 * w * h)
    screen.put(x, y, w, h, said, at)
    return end


def put_rre(said, at, screen, x, y, w, h):
    end_of(said, at, 8)
    (count,) = struct.unpack_from(">I", said, at)
    screen.fill(x, y, w, h, said[at + 4 : at + 8])
    end = end_of(said, at + 8, 12 * count)
    for pixel, left, top, sw, sh in struct.iter_unpack(">4s4H", said[at + 8 : end]):
        if left + sw > w or top + sh > h:
            raise Wrong("a subrectangle lies outside its rectangle")
        screen.fill(x + left, y + top, sw, sh, pixel)
        screen.highest = max(screen.highest, sh)
    return end


def put_hextile(said, at, screen, x, y, w, h):
    colours = [None, None]
    for top in range(y, y + h, 16):
        for left in range(x, x + w, 16):
            at = put_tile(said, at, screen, left, top, min(16, x + w - left), min(16, y + h - top), colours)
    return at


def put_tile(said, at, screen, x, y, w, h, colours):
    """One tile of Hextile; colours are the background and the foreground that hold on."""
    at = end_of(said, at, 1)
    mask = said[at - 1]
    if mask & IS_RAW:
        return put_raw(said, at, screen, x, y, w, h)
    for place, flag in enumerate((HAS_BACKGROUND, HAS_FOREGROUND)):
        if mask & flag:
            at = end_of(said, at, 4)
            colours[place] = said[at - 4 : at]
    if colours[0] is None:
        raise Wrong("a tile has no background")
    screen.fill(x, y, w, h, colours[0])
    if not mask & HAS_PARTS:
        return at
    at = end_of(said, at, 1)
    size = 6 if mask & IS_COLOURED else 2
    if size == 2 and colours[1] is None:
        raise Wrong("a tile has no foreground")
    end = end_of(said, at, size * said[at - 1])
    parts = said[at:end]
    for part in range(0, len(parts), size):
        where, what = parts[part + size - 2], parts[part + size - 1]
        left, top, sw, sh = where >> 4, where & 15, (what >> 4) + 1, (what & 15) + 1
        if left + sw > w or top + sh > h:
            raise Wrong("a subrectangle lies outside its tile")
        screen.fill(x + left, y + top, sw, sh, parts[part : part + 4] if size == 6 else colours[1])
        screen.highest = max(screen.highest, sh)
    return end


ENCODINGS = {RAW: put_raw, RRE: put_rre, HEXTILE: put_hextile}


# ---- sessions


class Session:
    """What a server says to a viewer that it asks for nothing: the handshake of 3.8 (RFC 6143, 7.1 to 7.3), and then
    messages (7.6), of which each may be read."""

    def __init__(self, said):
        self.said = said
        end_of(said, 0, 42)
        if said[:12] != VERSION or said[12:14] != b"\1\1" or said[14:18] != bytes(4):
            raise Wrong(f"the handshake begins with {said[:18]!r}")
        self.width, self.height = struct.unpack_from(">HH", said, 18)
        if said[22:38] != FORMAT:
            raise Wrong(f"another pixel format, {said[22:38].hex()}")
        (count,) = struct.unpack_from(">I", said, 38)
        self.start = end_of(said, 42, count)
        self.name = said[42 : self.start]

    def messages(self, at=None):
        """Each whole message from there on, or behind the handshake, as a viewer sees it that begins there; `screen` is
        what it leaves."""
        self.screen, at = Screen(self.width, self.height), self.start if at is None else at
        while at < len(self.said):
            try:
                kind, end, value = self.message(at, self.screen)
            except Unfinished:
                return
            yield Message(at, end, kind, value)
            at = end

    def message(self, at, screen):
        kind = self.said[at]
        if kind == UPDATE:
            end = self.update(at, screen)
            return kind, end, screen.sum()
        if kind == BELL:
            return kind, at + 1, None
        if kind == CUT_TEXT:
            end_of(self.said, at, 8)
            end = end_of(self.said, at + 8, struct.unpack_from(">I", self.said, at + 4)[0])
            return kind, end, self.said[at + 8 : end]
        raise Wrong(f"a message of type {kind}")

    def update(self, at, screen):
        end = end_of(self.said, at, 4)
        for _ in range(struct.unpack_from(">H", self.said, at + 2)[0]):
            end_of(self.said, end, 12)
            x, y, w, h, encoding = struct.unpack_from(">HHHHi", self.said, end)
            if x + w > self.width or y + h > self.height:
                raise Wrong("a rectangle lies outside the screen")
            if encoding not in ENCODINGS:
                raise Wrong(f"encoding {encoding}, which wasn't asked for")
            end = ENCODINGS[encoding](self.said, end + 12, screen, x, y, w, h)
        return end
