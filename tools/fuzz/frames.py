"""Browsers at the web port of one `reflectord serve` over loopback: requests and frames, whole, wrong and mutated, in any
pieces, one connection a stream.

What a connection sends is read here by itself, and shares no code with the program: whether its request may open a
WebSocket, the data in its frames up to the first that may not be sent, and the code that answers that one (RFC 6455).
The host has to be sent what that data brings, with its releases, and nothing else; a stranger is never answered 101.
"""

import contextlib
import re
import socket
import struct
import subprocess
import time

import protocol
import serving
import streams

SIZE = 17, 5
KEY = b"dGhlIHNhbXBsZSBub25jZQ=="
GREETING = b"RFB 003.008\n\1\1" + bytes(4)
LONG = 10.0
running = None


class Run:
    """The program and its host, for all streams of a process."""

    def __init__(self, program):
        self.host = serving.Host(SIZE)
        self.port, full, view = serving.free_port(), serving.free_port(), serving.free_port()
        words = ["serve", "--host", f"127.0.0.1:{self.host.port}", "--full", str(full), "--view", str(view)]
        words += ["--web-full", str(self.port), "--full-places", "4"]
        self.child = subprocess.Popen([program, *words], stdout=subprocess.DEVNULL, stderr=subprocess.DEVNULL)
        self.host.join()
        serving.joined(view, SIZE, False)
        while not is_open(self.port):
            time.sleep(0.02)


def is_open(port):
    try:
        socket.create_connection(("127.0.0.1", port), timeout=1.0).close()
        return True
    except OSError:
        return False


def run_of(program):
    global running
    if running is None:
        running = Run(program)
    return running


def request(rng, port):
    """A request that opens a WebSocket, one that doesn't, or one that was mutated."""
    own = f"127.0.0.1:{port}".encode()
    fields = {
        b"Host": own, b"Upgrade": b"websocket", b"Connection": b"keep-alive, Upgrade", b"Origin": b"http://" + own,
        b"Sec-WebSocket-Key": KEY, b"Sec-WebSocket-Version": b"13",
    }
    for _ in range(rng.choice((0, 0, 0, 0, 0, 1))):
        name = rng.choice(sorted(fields))
        fields[name] = rng.choice((b"", b"stranger.example", b"http://stranger.example", b"8", b"websockets", own + b"0", KEY[1:]))
    if rng.random() < 0.1:
        del fields[rng.choice(sorted(fields))]
    names = list(fields)
    rng.shuffle(names)
    head = b"GET /websockify HTTP/1.1\r\n" + b"".join(name + b": " + fields[name] + b"\r\n" for name in names) + b"\r\n"
    return streams.mutated(rng, head) if rng.random() < 0.1 else head


def may_open(head, port):
    """Whether a request may be answered by 101. A mutated one that has other lines may not."""
    own = f"127.0.0.1:{port}".encode()
    lines = head.split(b"\r\n")
    if len(lines) < 3 or lines[-2:] != [b"", b""] or not re.fullmatch(rb"GET [!-~]+ HTTP/1\.1", lines[0]):
        return False
    found = {}
    for line in lines[1:-2]:
        name, colon, value = line.partition(b":")
        if colon:
            found.setdefault(name.strip().lower(), []).append(value.strip())
    tokens = [token.strip().lower() for value in found.get(b"connection", []) for token in re.split(rb"[ ,]", value)]
    return (
        found.get(b"host") == [own]
        and all(origin in (b"http://" + own, b"http://localhost:" + own[10:]) for origin in found.get(b"origin", []))
        and any(b"websocket" in value.lower() for value in found.get(b"upgrade", []))
        and b"upgrade" in tokens
        and found.get(b"sec-websocket-version") == [b"13"]
        and len(found.get(b"sec-websocket-key", [])) == 1
    )


def message(rng):
    """What a viewer types, points or pastes."""
    kind = rng.random()
    if kind < 0.6:
        return struct.pack(">BBxxI", 4, rng.randint(0, 1), rng.choice((0x61, 0x62, 0xFFE1)))
    if kind < 0.9:
        return struct.pack(">BBHH", 5, rng.choice((0, 0, 1, 4)), rng.randint(0, 20), rng.randint(0, 20))
    return struct.pack(">BxxxI", 6, 3) + rng.randbytes(3)


def frame(rng, opcode, payload, final=True, reserved=0, masked=True):
    size, bit = len(payload), 0x80 if masked else 0
    head = bytes([(0x80 if final else 0) | reserved | opcode])
    if size < 126:
        head += bytes([bit | size])
    elif size < 65536:
        head += bytes([bit | 126]) + struct.pack(">H", size)
    else:
        head += bytes([bit | 127]) + struct.pack(">Q", size)
    key = rng.randbytes(4) if masked else b""
    return head + key + (bytes(byte ^ key[at % 4] for at, byte in enumerate(payload)) if masked else payload)


def breach(rng, inside):
    """A frame that may not be sent, and the code that answers it."""
    kind = rng.choice(("no mask", "text", "bit", "opcode", "long control", "control in parts", "out of place"))
    if kind == "no mask":
        return frame(rng, 2, b"abc", masked=False), 1002
    if kind == "text" and not inside:
        return frame(rng, 1, b"abc"), 1003
    if kind == "bit":
        return frame(rng, 0 if inside else 2, b"abc", reserved=rng.choice((0x10, 0x20, 0x40))), 1002
    if kind == "long control":
        return frame(rng, rng.choice((8, 9, 10)), bytes(126)), 1002
    if kind == "control in parts":
        return frame(rng, rng.choice((8, 9, 10)), b"abc", final=False), 1002
    if kind == "out of place":
        return (frame(rng, 2, b"abc") if inside else frame(rng, 0, b"abc")), 1002
    return frame(rng, rng.choice((3, 4, 5, 6, 7, 11, 12, 13, 14, 15)), b"abc"), 1002


class Talk:
    """What a browser sends behind its handshake: the bytes, the data in them, its pings, and how it ends."""

    def __init__(self, rng):
        data = protocol.VERSION + b"\1\1" + b"".join(message(rng) for _ in range(rng.randint(0, 12)))
        self.sent, self.data, self.pings, self.code = b"", b"", [], None
        inside, stop = False, rng.random() < 0.4
        while data and self.code is None:
            count = rng.randint(0, min(len(data), rng.choice((1, 5, 40, 400))))
            final = rng.random() < 0.7
            self.sent += frame(rng, 0 if inside else 2, data[:count], final)
            self.data, data, inside = self.data + data[:count], data[count:], not final
            if rng.random() < 0.2:
                self.pings.append(rng.randbytes(rng.choice((0, 1, 20, 125))))
                self.sent += frame(rng, 9, self.pings[-1])
            if rng.random() < 0.1:
                self.sent += frame(rng, 10, rng.randbytes(rng.choice((0, 1, 125))))
            if stop and rng.random() < 0.2:
                wrong, self.code = breach(rng, inside)
                self.sent += wrong + rng.randbytes(rng.randint(0, 40))
        if self.code is None and rng.random() < 0.7:
            self.sent, self.code = self.sent + frame(rng, 8, struct.pack(">H", 1000)), 1000


def answered(stream):
    """The data, the pongs and the close code in what a browser is sent, or None where a frame isn't a server's."""
    data, pongs, code, at = b"", [], None, 0
    while at + 2 <= len(stream):
        first, size = stream[at], stream[at + 1]
        at += 2
        if size == 126:
            size, at = struct.unpack_from(">H", stream, at)[0], at + 2
        elif size > 126:
            return None
        payload, at = stream[at : at + size], at + size
        if code is not None or first not in (0x82, 0x88, 0x8A) or len(payload) < size:
            return None
        if first == 0x82:
            data += payload
        elif first == 0x8A:
            pongs.append(payload)
        else:
            code = struct.unpack(">H", payload[:2])[0]
    return data, pongs, code


def is_among(some, all_of):
    rest = iter(all_of)
    return all(any(one == other for other in rest) for one in some)


def greeting(data):
    """What the server's side of the handshake is, where this data has come."""
    name = struct.pack(">I", len(serving.NAME)) + serving.NAME
    whole = GREETING + struct.pack(">HH", *SIZE) + protocol.HOST_FORMAT + name
    return whole[: 12 if len(data) < 12 else 14 if len(data) < 13 else 18 if len(data) < 14 else len(whole)]


def head_of(link):
    """The head of an answer, or what came of it."""
    answer = b""
    with contextlib.suppress(OSError):
        while b"\r\n\r\n" not in answer and (more := link.recv(1)):
            answer += more
    return answer


def take_all(link):
    out = b""
    with contextlib.suppress(OSError):
        while more := link.recv(1 << 16):
            out += more
    return out


def is_sent(host, before, wanted):
    """Whether the host comes to be sent these inputs, and what it was sent."""
    until = time.monotonic() + LONG
    while True:
        inputs = serving.inputs_in(bytes(host.sent_to[before:]))
        if inputs == wanted or time.monotonic() > until:
            return inputs == wanted, inputs
        time.sleep(0.002)


def play(program, rng):
    """Why a connection isn't answered as it has to be, or None."""
    run = run_of(program)
    if run.child.poll() is not None:
        return f"the program has ended with {run.child.returncode}"
    head, talk = request(rng, run.port), Talk(rng)
    before = len(run.host.sent_to)
    link = socket.create_connection(("127.0.0.1", run.port), timeout=LONG)
    with link:
        with contextlib.suppress(OSError):
            serving.send(link, serving.in_pieces(rng, head))
        if b"\r\n\r\n" in head[:-4]:
            # Bytes that come behind a request, before its answer, open no link: whoever sent them is let go.
            with contextlib.suppress(OSError):
                link.shutdown(socket.SHUT_WR)
            take_all(link)
            return None
        if not may_open(head, run.port):
            with contextlib.suppress(OSError):
                link.shutdown(socket.SHUT_WR)
            answer = take_all(link)
            return f"{head!r} is answered {answer[:200]!r}" if b" 101 " in answer[:20] else None
        answer = head_of(link)
        if not answer.startswith(b"HTTP/1.1 101 "):
            return None
        with contextlib.suppress(OSError):
            serving.send(link, serving.in_pieces(rng, talk.sent))
            if talk.code is None:
                link.shutdown(socket.SHUT_WR)
        return judged(run.host, before, talk, take_all(link))


def judged(host, before, talk, stream):
    found = answered(stream)
    if found is None:
        return f"a browser is sent {stream!r}"
    data, pongs, code = found
    if data.startswith(protocol.VERSION + b"\0"):
        return None
    if data != greeting(talk.data)[: len(data)] or (talk.code in (None, 1000) and data != greeting(talk.data)):
        return f"a browser that says {talk.data!r} is told {data!r}"
    if not is_among(pongs, talk.pings) or (talk.code is not None and code != talk.code):
        return f"{talk.sent!r} is answered with pongs {pongs!r} and code {code}, not {talk.code}"
    passed, releases = protocol.allowed(protocol.client(talk.data[14:]).said)
    right, inputs = is_sent(host, before, passed + releases)
    return None if right else f"the host was sent {inputs}, by {talk.data!r}"
