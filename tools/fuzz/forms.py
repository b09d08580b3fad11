"""What is written of a rectangle in RRE and in Hextile in either form, from docs/PROTOCOL.md ("Encodings"). Nothing here
is shared with the proved encoders."""

import collections
import struct

HEXTILE = 5


def spelled(form, value):
    """The bytes of a pixel value."""
    order, code = (">" if form[2] else "<"), {8: "B", 16: "H", 32: "I"}[form[0]]
    return struct.pack(order + code, value)


def rows_of(values, w):
    return [values[at : at + w] for at in range(0, len(values), w)]


def row_runs(row):
    """The longest parts of a row that have one value: where each begins and ends, and the value."""
    runs, at = [], 0
    for end in range(1, len(row) + 1):
        if end == len(row) or row[end] != row[at]:
            runs.append((at, end, row[at]))
            at = end
    return runs


def subrectangles(rows, background, joined):
    """Those that are written: x, y, width, height and value."""
    found = []
    above = {}
    for y, row in enumerate(rows):
        here = {}
        for run in row_runs(row):
            begin, end, value = run
            if value == background:
                continue
            if joined and run in above:
                here[run] = above[run]
                found[above[run]][3] += 1
            else:
                here[run] = len(found)
                found.append([begin, y, end - begin, 1, value])
        above = here
    return found


def most_frequent(values):
    counts = collections.Counter(values)
    most = max(counts.values())
    return next(value for value in values if counts[value] == most)


def rre(form, values, w, joined):
    found = subrectangles(rows_of(values, w), values[0], joined)
    out = struct.pack(">I", len(found)) + spelled(form, values[0])
    for x, y, across, down, value in found:
        out += spelled(form, value) + struct.pack(">4H", x, y, across, down)
    return out


def tile(form, values, w, joined, said):
    """A tile's bytes, and the background and foreground that the next may leave off."""
    background = most_frequent(values) if joined else values[0]
    found = subrectangles(rows_of(values, w), background, joined)
    colours = {value for *_, value in found}
    mask, head = 0, b""
    if said[0] != background:
        mask, head = 2, spelled(form, background)
    leaves = background, None
    if len(colours) == 1:
        (foreground,) = colours
        leaves = background, foreground
        mask |= 8
        if said[1] != foreground:
            mask, head = mask | 4, head + spelled(form, foreground)
    elif colours:
        mask |= 24
    out = bytes([mask]) + head
    if found:
        out += struct.pack(">H", len(found))[1:]
    for x, y, across, down, value in found:
        if len(colours) > 1:
            out += spelled(form, value)
        out += bytes([x << 4 | y, across - 1 << 4 | down - 1])
    raw = b"\x01" + b"".join(spelled(form, value) for value in values)
    return (raw, (None, None)) if len(raw) <= len(out) else (out, leaves)


def hextile_of(form, values, w, joined):
    rows, said, out = rows_of(values, w), (None, None), b""
    for y in range(0, len(rows), 16):
        for x in range(0, w, 16):
            part = [row[x : x + 16] for row in rows[y : y + 16]]
            data, said = tile(form, sum(part, []), len(part[0]), joined, said)
            out += data
    return out


def hextile(form, values, w, joined):
    of_rows = hextile_of(form, values, w, False)
    if not joined:
        return of_rows
    of_joined = hextile_of(form, values, w, True)
    return of_rows if len(of_rows) < len(of_joined) else of_joined


def written(encoding, form, values, w, joined):
    """A rectangle's data, or nothing where Raw has no more bytes."""
    data = (hextile if encoding == HEXTILE else rre)(form, values, w, joined)
    return data if len(data) < len(values) * form[0] // 8 else b""
