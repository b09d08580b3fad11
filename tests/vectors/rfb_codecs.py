"""RRE and Hextile of RFC 6143 (7.7.3, 7.7.4), read and written, from the text of the RFC alone.

It shares no code with the crates. Grids are lists of pixel values, row after row. `read` takes any spelling; `write`
gives the spellings that docs/PROTOCOL.md ("Encodings") tells of the RFC's many, one in each form, or None where Raw has
no more bytes.
"""
import struct

RAW, RRE, HEXTILE = 0, 2, 5
TILE = 16


class Pixels:
    """A width in bytes and a byte order: all that a codec needs of a pixel format."""

    def __init__(self, size, big_endian):
        self.size = size
        self.code = {1: "B", 2: "H", 4: "I"}[size]
        self.order = ">" if big_endian else "<"

    def put(self, value):
        return struct.pack(self.order + self.code, value)

    def get(self, data, at):
        return struct.unpack_from(self.order + self.code, data, at)[0]

    def all(self, values):
        return struct.pack(f"{self.order}{len(values)}{self.code}", *values)


class Unfinished(Exception):
    """The data ends before its rectangle does."""


class Source:
    def __init__(self, pixels, data):
        self.pixels, self.data, self.at = pixels, data, 0

    def take(self, count):
        if self.at + count > len(self.data):
            raise Unfinished
        self.at += count
        return self.data[self.at - count:self.at]

    def u8(self):
        return self.take(1)[0]

    def u16(self):
        return struct.unpack(">H", self.take(2))[0]

    def u32(self):
        return struct.unpack(">I", self.take(4))[0]

    def pixel(self):
        return self.pixels.get(self.take(self.pixels.size), 0)


def fill(grid, width, x, y, w, h, value):
    for row in range(y, y + h):
        grid[row * width + x:row * width + x + w] = [value] * w


def read(encoding, pixels, w, h, data):
    """The grid that the data spells, and how many bytes of it were read."""
    source = Source(pixels, data)
    grid = [0] * (w * h)
    if encoding == RAW:
        grid = [source.pixel() for _ in range(w * h)]
    elif encoding == RRE:
        read_rre(source, w, h, grid)
    else:
        read_hextile(source, w, h, grid)
    return grid, source.at


def read_rre(source, w, h, grid):
    count = source.u32()
    fill(grid, w, 0, 0, w, h, source.pixel())
    for _ in range(count):
        value = source.pixel()
        x, y, sw, sh = source.u16(), source.u16(), source.u16(), source.u16()
        assert x + sw <= w and y + sh <= h
        fill(grid, w, x, y, sw, sh, value)


def read_hextile(source, w, h, grid):
    background = foreground = None
    for top in range(0, h, TILE):
        for left in range(0, w, TILE):
            tw, th = min(TILE, w - left), min(TILE, h - top)
            mask = source.u8()
            if mask & 1:
                for row in range(top, top + th):
                    for column in range(left, left + tw):
                        grid[row * w + column] = source.pixel()
                continue
            if mask & 2:
                background = source.pixel()
            if mask & 4:
                foreground = source.pixel()
            fill(grid, w, left, top, tw, th, background)
            for _ in range(source.u8() if mask & 8 else 0):
                value = source.pixel() if mask & 16 else foreground
                place, size = source.u8(), source.u8()
                x, y, sw, sh = place >> 4, place & 15, (size >> 4) + 1, (size & 15) + 1
                assert x + sw <= tw and y + sh <= th
                fill(grid, w, left + x, top + y, sw, sh, value)


def runs(grid, width, left, top, w, h, background):
    """Rows from the top and in a row from the left: the runs of one value other than the background."""
    found = []
    for y in range(h):
        row = grid[(top + y) * width + left:(top + y) * width + left + w]
        x = 0
        while x < w:
            end = x
            while end < w and row[end] == row[x]:
                end += 1
            if row[x] != background:
                found.append((row[x], x, y, end - x, 1))
            x = end
    return found


def joined(found):
    """Each run that the row above doesn't have, too, as high as the rows directly below it have it."""
    rows = {(value, x, y, count) for value, x, y, count, _ in found}
    tops = [run for run in found if (run[0], run[1], run[2] - 1, run[3]) not in rows]
    together = []
    for value, x, y, count, _ in tops:
        high = 1
        while (value, x, y + high, count) in rows:
            high += 1
        together.append((value, x, y, count, high))
    return together


def write(encoding, pixels, w, h, grid, join=False):
    """The rectangle's data, of the runs of rows or of joined runs, or None."""
    raw = pixels.all(grid)
    data = write_rre(pixels, w, h, grid, join) if encoding == RRE else write_hextile(pixels, w, h, grid, False)
    if join and encoding == HEXTILE:
        data = min(write_hextile(pixels, w, h, grid, True), data, key=len)
    return data if len(data) < len(raw) else None


def write_rre(pixels, w, h, grid, join):
    found = runs(grid, w, 0, 0, w, h, grid[0])
    if join:
        found = joined(found)
    data = struct.pack(">I", len(found)) + pixels.put(grid[0])
    return data + b"".join(pixels.put(value) + struct.pack(">4H", *place) for value, *place in found)


def write_hextile(pixels, w, h, grid, join):
    data = b""
    before = (None, None)  # the background and foreground that the tile directly before leaves
    for top in range(0, h, TILE):
        for left in range(0, w, TILE):
            tw, th = min(TILE, w - left), min(TILE, h - top)
            tile, before = write_tile(pixels, w, left, top, tw, th, grid, before, join)
            data += tile
    return data


def write_tile(pixels, width, left, top, w, h, grid, before, join):
    rows = [grid[(top + y) * width + left:(top + y) * width + left + w] for y in range(h)]
    shown = [value for row in rows for value in row]
    background = max(shown, key=shown.count) if join else shown[0]  # max: of several the first
    found = runs(grid, width, left, top, w, h, background)
    if join:
        found = joined(found)
    said_background, said_foreground = before
    values = {run[0] for run in found}
    mask, head = (0, b"") if said_background == background else (2, pixels.put(background))
    places = [bytes([x * 16 + y, (count - 1) * 16 + high - 1]) for _, x, y, count, high in found]
    if not found:
        tile, after = bytes([mask]) + head, (background, None)
    elif len(values) == 1:
        (value,) = values
        if said_foreground == value:
            mask |= 8
        else:
            mask, head = mask | 12, head + pixels.put(value)
        tile = bytes([mask]) + head + bytes([len(found) & 255]) + b"".join(places)
        after = (background, value)
    else:
        coloured = [pixels.put(run[0]) + place for run, place in zip(found, places)]
        tile = bytes([mask | 24]) + head + bytes([len(found) & 255]) + b"".join(coloured)
        after = (background, None)
    raw = bytes([1]) + b"".join(pixels.all(row) for row in rows)
    return (raw, (None, None)) if len(raw) <= len(tile) else (tile, after)
