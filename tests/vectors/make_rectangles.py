#!/usr/bin/env python3
"""Writes crates/codec_trial/data/rectangles, or joined: generated rectangles, spelled by rfb_codecs.py.

Each record is, with numbers most significant byte first: the encoding (1 byte); the pixel format (16 bytes, RFC 6143,
7.4); width and height (2 bytes each); what a writer has to answer (1 byte: 0 the rectangle is for reading alone, 1
exactly this data, 2 nothing, since Raw is as short); the length of the data (4 bytes); the data; the pixels in Raw.

usage: make_rectangles.py FILE [joined]: with that word all are to be written, of joined runs"""
import random
import struct
import sys

from rfb_codecs import HEXTILE, RRE, TILE, Pixels, fill, read, write

READ_ONLY, THIS, NOTHING = 0, 1, 2

# bits, depth, big-endian, the three maxima and the three shifts.
FORMATS = [
    (32, 24, 0, (255, 255, 255), (16, 8, 0)),
    (32, 24, 1, (255, 255, 255), (16, 8, 0)),
    (16, 16, 0, (31, 63, 31), (11, 5, 0)),
    (16, 16, 1, (31, 63, 31), (11, 5, 0)),
    (8, 8, 0, (7, 7, 3), (0, 3, 6)),
]


def format_bytes(form):
    bits, depth, big_endian, maxima, shifts = form
    return struct.pack(">4B3H3B3x", bits, depth, big_endian, 1, *maxima, *shifts)


def record(encoding, form, w, h, answer, data, pixels, grid):
    return struct.pack(">B16sHHBI", encoding, format_bytes(form), w, h, answer, len(data)) + data + pixels.all(grid)


def noise(rng, w, h, colours):
    return [rng.choice(colours) for _ in range(w * h)]


def lines_of_text(rng, w, h, colours):
    paper, ink = colours[0], colours[1]
    grid = [paper] * (w * h)
    for top in range(1, h - 7, 9):
        for left in range(1, w - 5, 6):
            glyph = rng.getrandbits(35) & rng.getrandbits(35)
            for k in range(35):
                if glyph >> k & 1:
                    grid[(top + k // 5) * w + left + k % 5] = ink
    return grid


def gradient(rng, w, h, colours):
    step = rng.randint(1, 8)
    return [colours[(x // step + y // step) % len(colours)] for y in range(h) for x in range(w)]


def boxes(rng, w, h, colours):
    grid = [colours[0]] * (w * h)
    for _ in range(rng.randint(0, 6)):
        x, y = rng.randrange(w), rng.randrange(h)
        fill(grid, w, x, y, rng.randint(1, w - x), rng.randint(1, h - y), rng.choice(colours))
    return grid


KINDS = [noise, lines_of_text, gradient, boxes]


def any_rre(rng, pixels, w, h, colours):
    """Some spelling in RRE: subrectangles of any size, also none, one over another."""
    count = rng.randint(0, 9)
    data = struct.pack(">I", count) + pixels.put(rng.choice(colours))
    for _ in range(count):
        x, y = rng.randint(0, w), rng.randint(0, h)
        data += pixels.put(rng.choice(colours)) + struct.pack(">4H", x, y, rng.randint(0, w - x), rng.randint(0, h - y))
    return data


def any_hextile(rng, pixels, w, h, colours):
    """Some spelling in Hextile, with colours carried wherever the RFC's words allow it and as far as ours do."""
    data, has_background, has_foreground = b"", False, False
    for top in range(0, h, TILE):
        for left in range(0, w, TILE):
            tw, th = min(TILE, w - left), min(TILE, h - top)
            if rng.random() < 0.1:
                data += bytes([1]) + pixels.all([rng.choice(colours) for _ in range(tw * th)])
                continue
            mask = rng.choice([0, 2, 4, 6, 8, 10, 12, 14, 16, 24, 26, 28, 30, 96])
            if not has_background:
                mask |= 2
            if mask & 24 == 8 and not has_foreground:
                mask |= 4
            data += bytes([mask])
            if mask & 2:
                data, has_background = data + pixels.put(rng.choice(colours)), True
            if mask & 4:
                data, has_foreground = data + pixels.put(rng.choice(colours)), True
            if mask & 8:
                data += any_subrectangles(rng, pixels, tw, th, colours, mask & 16)
    return data


def any_subrectangles(rng, pixels, tw, th, colours, coloured):
    count = rng.choice([0, 1, 2, 5, 40])
    data = bytes([count])
    for _ in range(count):
        x, y = rng.randrange(tw), rng.randrange(th)
        value = pixels.put(rng.choice(colours)) if coloured else b""
        data += value + bytes([x * 16 + y, rng.randrange(tw - x) * 16 + rng.randrange(th - y)])
    return data


def size(rng):
    return rng.choice([1, 2, 7, 15, 16, 17, 31, 32, 33, 40])


def written(encoding, form, w, h, grid, join):
    """The record of a rectangle that is to be written."""
    pixels = Pixels(form[0] // 8, form[2])
    data = write(encoding, pixels, w, h, grid, join)
    if data is None:
        return record(encoding, form, w, h, NOTHING, b"", pixels, grid)
    assert read(encoding, pixels, w, h, data) == (grid, len(data))
    return record(encoding, form, w, h, THIS, data, pixels, grid)


def of_rows(rng):
    records = []
    for turn in range(60):
        for encoding in (RRE, HEXTILE):
            form = FORMATS[turn % len(FORMATS)]
            pixels = Pixels(form[0] // 8, form[2])
            w, h = size(rng), size(rng)
            top = 1 << min(form[0], 24)
            colours = [rng.randrange(top) for _ in range(rng.choice([2, 3, 5, 200]))]
            for kind in (KINDS[turn % 4], KINDS[(turn + 1) % 4]):
                records.append(written(encoding, form, w, h, kind(rng, w, h, colours), False))
            data = (any_rre if encoding == RRE else any_hextile)(rng, pixels, w, h, colours)
            grid, used = read(encoding, pixels, w, h, data)
            assert used == len(data)
            records.append(record(encoding, form, w, h, READ_ONLY, data, pixels, grid))
    return records


def of_joined_runs(rng):
    records = []
    for turn in range(180):
        for encoding in (RRE, HEXTILE):
            form = FORMATS[turn % len(FORMATS)]
            w, h = size(rng), size(rng)
            top = 1 << min(form[0], 24)
            colours = [rng.randrange(top) for _ in range(rng.choice([2, 3, 5, 200]))]
            kind = (boxes, lines_of_text, boxes, noise, gradient, boxes)[turn % 6]
            records.append(written(encoding, form, w, h, kind(rng, w, h, colours), True))
    return records


def main():
    rng = random.Random(6143)
    records = of_joined_runs(rng) if sys.argv[2:] == ["joined"] else of_rows(rng)
    with open(sys.argv[1], "wb") as file:
        file.write(b"".join(records))
    print(f"{len(records)} rectangles")


if __name__ == "__main__":
    main()
