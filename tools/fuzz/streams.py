"""Random streams: well-formed ones, and such with a few bytes changed, cut out, doubled or put in."""

import struct

from protocol import DESKTOP_SIZE, HOST_FORMAT, VERSION

FORMATS = [
    HOST_FORMAT,
    bytes.fromhex("20180001 00FF00FF 00FF0008 10000000"),
    bytes.fromhex("20180101 00FF00FF 00FF1008 00000000"),
    bytes.fromhex("10100101 001F003F 001F0B05 00000000"),
    bytes.fromhex("10100001 001F003F 001F0B05 00000000"),
    bytes.fromhex("08080001 00070007 00030003 06000000"),
]


def some_bytes(rng, count):
    return rng.randbytes(count)


def small(rng, most):
    """A number up to `most`, often at an end."""
    return min(most, rng.choice((0, 1, most, rng.randint(0, most), rng.randint(0, most))))


def mutated(rng, data):
    """The stream itself, or one with some changes."""
    data = bytearray(data)
    for _ in range(rng.choice((0, 0, 1, 1, 2, 5))):
        if not data:
            break
        at = rng.randrange(len(data))
        change = rng.randrange(7)
        if change == 0:
            data[at] ^= 1 << rng.randrange(8)
        elif change == 1:
            data[at] = rng.choice((0, 1, 2, 5, 8, 16, 127, 255))
        elif change == 2:
            del data[at:]
        elif change == 3:
            del data[at : at + rng.randint(1, 8)]
        elif change == 4:
            data[at:at] = some_bytes(rng, rng.randint(1, 8))
        elif change == 5:
            data[at:at] = data[at : at + rng.randint(1, 40)]
        else:
            data[at : at + 4] = rng.choice((b"\xff" * 4, bytes(4), b"\x7f\xff\xff\xff", b"\x80\0\0\0", b"\0\1\0\1"))
    if rng.random() < 0.02:
        return some_bytes(rng, rng.randint(0, 60))
    return bytes(data)


def lengths(rng):
    """How long the pieces are."""
    choice = rng.randrange(4)
    if choice == 0:
        return b"\1"
    if choice == 1:
        return b"\xff"
    return bytes(rng.randint(1, 30) for _ in range(rng.randint(1, 6)))


def viewer_hello(rng):
    return mutated(rng, VERSION + b"\1" + some_bytes(rng, 1) + some_bytes(rng, rng.choice((0, 3))))


def host_hello(rng):
    version = rng.choice((VERSION, b"RFB 003.008\n", b"RFB 003.889\n", b"RFB 004.001\n", b"RFB 003.007\n"))
    if rng.random() < 0.15:
        reason = some_bytes(rng, rng.choice((0, 5, 254, 255, 256, 300)))
        return mutated(rng, version + b"\0" + struct.pack(">I", len(reason)) + reason)
    kinds = rng.choice((b"\1\1", b"\3\2\1\20", b"\2\2\1", b"\1\2"))
    size = struct.pack(">HH", rng.choice((1, 2, 640, 4096, 4097, 0)), rng.choice((1, 480, 4096)))
    name = some_bytes(rng, rng.choice((0, 1, 7, 254, 255, 256, 400)))
    init = size + some_bytes(rng, 16) + struct.pack(">I", len(name)) + name
    return mutated(rng, version + kinds + bytes(4) + init + some_bytes(rng, rng.choice((0, 9))))


def client_message(rng):
    kind = rng.choice((0, 2, 3, 3, 4, 5, 6))
    if kind == 0:
        return b"\0" + some_bytes(rng, 3) + rng.choice(FORMATS)
    if kind == 2:
        listed = [rng.choice((0, 1, 2, 5, 5, 7, 16, DESKTOP_SIZE)) for _ in range(rng.randint(0, 6))]
        return b"\2\0" + struct.pack(f">H{len(listed)}I", len(listed), *listed)
    if kind == 3:
        return b"\3" + some_bytes(rng, 9)
    if kind == 4:
        key = rng.choice((b"\0\0\0\x61", b"\0\0\xff\xe1", some_bytes(rng, 4)))
        return b"\4" + rng.choice((b"\0", b"\1", some_bytes(rng, 1))) + some_bytes(rng, 2) + key
    if kind == 5:
        return b"\5" + rng.choice((b"\0", b"\1", some_bytes(rng, 1))) + some_bytes(rng, 4)
    length = rng.choice((0, 1, 5, 30)) if rng.random() < 0.999 else rng.choice((65535, 65536, 65537))
    return b"\6\0\0\0" + struct.pack(">I", length) + some_bytes(rng, length)


def many_keys(rng):
    """Presses of more keys than may be held, and releases."""
    data = b""
    for number in range(90):
        down = rng.random() < 0.9
        data += struct.pack(">BBxxI", 4, down, number if down else rng.randrange(90))
    return data


def client(rng):
    return mutated(rng, b"".join(client_message(rng) for _ in range(rng.randint(1, 6))))


def pixel(rng, form):
    return rng.choice((bytes(4), b"\xff" * 4, some_bytes(rng, 4)))[: form[0] // 8]


def inside(rng, most):
    """Where something begins, and how long it is: mostly inside of `most`."""
    start = small(rng, most)
    return start, small(rng, most - start) + (rng.random() < 0.01)


def rre(rng, form, w, h):
    count = rng.randint(0, 5)
    data = struct.pack(">I", count) + pixel(rng, form)
    for _ in range(count):
        (x, across), (y, down) = inside(rng, w), inside(rng, h)
        data += pixel(rng, form) + struct.pack(">HHHH", x, y, across, down)
    return data


def hextile_tile(rng, form, w, h, first):
    mask = rng.choice((0, 1, 2, 6, 8, 10, 12, 14, 24, 26, 28, 30, rng.randrange(256)))
    if first and rng.random() < 0.95:
        mask |= 6
    if mask & 1:
        return bytes([mask]) + some_bytes(rng, w * h * form[0] // 8)
    data = bytes([mask])
    data += pixel(rng, form) if mask & 2 else b""
    data += pixel(rng, form) if mask & 4 else b""
    if not mask & 8:
        return data
    count = rng.choice((0, 1, 3))
    data += bytes([count])
    for _ in range(count):
        x, y = rng.randrange(w), rng.randrange(h)
        across, down = rng.randint(1, w - x), rng.randint(1, h - y)
        data += pixel(rng, form) if mask & 16 else b""
        data += bytes([x << 4 | y, across - 1 << 4 | down - 1])
    return data


def hextile(rng, form, w, h):
    data = b""
    for y in range(0, h, 16):
        for x in range(0, w, 16):
            data += hextile_tile(rng, form, min(16, w - x), min(16, h - y), not data)
    return data


def rectangle(rng):
    """An encoding, a format, a size, and what stands for such a rectangle."""
    encoding, form = rng.choice((2, 5)), rng.choice(FORMATS)
    w, h = rng.choice((1, 2, 15, 16, 17, 33)), rng.choice((1, 3, 16, 18))
    data = (hextile if encoding == 5 else rre)(rng, form, w, h)
    return encoding, form, w, h, mutated(rng, data + some_bytes(rng, rng.choice((0, 0, 4))))


def host_rectangle(rng, width, height):
    (x, w), (y, h) = inside(rng, width), inside(rng, height)
    encoding = rng.choice((0, 1, 2, 5, 5)) if rng.random() < 0.99 else rng.randrange(40)
    if rng.random() < 0.05:
        return struct.pack(">HHHHI", *rng.choice(((0, 0), (0, 0), (x, y))), w, h, DESKTOP_SIZE)
    head = struct.pack(">HHHHI", x, y, w, h, encoding)
    if encoding == 0:
        return head + some_bytes(rng, 4 * w * h)
    if encoding == 1:
        return head + struct.pack(">HH", small(rng, max(0, width - w)), small(rng, max(0, height - h)))
    if encoding == 2:
        return head + rre(rng, HOST_FORMAT, w, h)
    return head + hextile(rng, HOST_FORMAT, w, h)


def host_message(rng, width, height):
    kind = rng.choice((0, 0, 0, 0, 1, 2, 3))
    if kind == 0:
        count = rng.randint(0, 3)
        return struct.pack(">BBH", 0, 0, count) + b"".join(host_rectangle(rng, width, height) for _ in range(count))
    if kind == 1:
        count = rng.randint(0, 4)
        return struct.pack(">BBHH", 1, 0, 0, count) + some_bytes(rng, 6 * count)
    if kind == 2:
        return b"\2"
    length = rng.choice((0, 1, 9)) if rng.random() < 0.999 else rng.choice((65536, 65537))
    return b"\3\0\0\0" + struct.pack(">I", length) + some_bytes(rng, length)


def host(rng):
    """The size of a screen, and what its host sends."""
    width, height = rng.choice((1, 2, 16, 17, 20)), rng.choice((1, 5, 16, 18))
    return width, height, mutated(rng, b"".join(host_message(rng, width, height) for _ in range(rng.randint(1, 4))))


def values(rng):
    """An encoding, a format, a size, and pixels in Raw: a few colours in runs, or noise."""
    encoding, form = rng.choice((2, 5)), rng.choice(FORMATS)
    w, h = rng.choice((1, 8, 16, 17, 33)), rng.choice((1, 3, 16, 18))
    size = form[0] // 8
    few = [pixel(rng, form) for _ in range(rng.randint(1, 4))]
    data = b""
    while len(data) < w * h * size:
        data += rng.choice(few) * rng.randint(1, 40) if rng.random() < 0.97 else some_bytes(rng, size)
    return encoding, form, w, h, data[: w * h * size]
