"""A whole `reflectord serve` over loopback, fed with random and mutated bytes, in any pieces, from both sides.

A host and some viewers send what streams.py makes. One viewer more behaves well: what it is sent is read by
protocol.py, and has to become the picture that protocol.py reads in the host's own bytes. Where it takes new sizes it
has to be told the host's, and then sees nothing outside of it. The host is to be sent nothing but whole messages that
it may get, no input where all viewers only look on, and where one of them alone has full control a beginning of what
it may send, with its releases. At the end the program has the status and the fault that the host's bytes ask for.
"""

import contextlib
import os
import socket
import struct
import subprocess
import threading
import time

import protocol
import streams

LONGEST = 20.0
MOST_MEMORY = 500_000
STARTED = 60.0
NAME = b"fuzz"
ENCODINGS = (1, 5, 2, 0)

# A side rests this often, at most about, and this long each time.
RESTS = 20
REST = 0.001

# Each process takes ports of a block of its own, below those that the system gives to clients, one after another.
FIRST_PORT, BLOCK = 10_000, 200
ports_taken = 0


def in_pieces(rng, data):
    """Pieces that make up these bytes, and how long to wait behind each."""
    most = rng.choice((1, 7, 100, len(data) or 1))
    often = min(0.25, RESTS * (most + 1) / (2 * len(data) or 1))
    while data:
        count = rng.randint(1, most)
        yield data[:count], REST if rng.random() < often else 0.0
        data = data[count:]


def send(link, pieces):
    """Sends each piece by itself."""
    link.setsockopt(socket.IPPROTO_TCP, socket.TCP_NODELAY, 1)
    for piece, wait in pieces:
        link.sendall(piece)
        if wait:
            time.sleep(wait)


def take(link, count):
    data = b""
    while len(data) < count:
        more = link.recv(count - len(data))
        if not more:
            raise OSError("the link was closed")
        data += more
    return data


def take_all(link, into):
    """Takes what comes until the link ends, on a thread of its own."""

    def run():
        try:
            while True:
                try:
                    more = link.recv(1 << 16)
                except TimeoutError:
                    # nothing came for a while; what comes after that is taken too
                    continue
                if not more:
                    return
                into.extend(more)
        except OSError:
            return

    thread = threading.Thread(target=run, daemon=True)
    thread.start()
    return thread


def free_port():
    """The next port of this process's block that nobody has."""
    global ports_taken
    while True:
        port = FIRST_PORT + os.getpid() % 100 * BLOCK + ports_taken % BLOCK
        ports_taken += 1
        with contextlib.suppress(OSError):
            socket.create_server(("127.0.0.1", port)).close()
            return port


class Host:
    """A host that joins well, and then sends these bytes."""

    def __init__(self, size):
        self.size, self.link, self.thread = size, None, None
        self.listener = socket.create_server(("127.0.0.1", 0))
        self.listener.settimeout(STARTED)
        self.port = self.listener.getsockname()[1]
        self.sent_to = bytearray()

    def join(self):
        self.link, _ = self.listener.accept()
        self.listener.close()
        self.link.settimeout(LONGEST)
        self.link.sendall(protocol.VERSION + b"\1\1" + bytes(4))
        take(self.link, 14)
        init = struct.pack(">HH", *self.size) + protocol.HOST_FORMAT + struct.pack(">I", len(NAME)) + NAME
        self.link.sendall(init)
        self.thread = take_all(self.link, self.sent_to)

    def send(self, rng, data):
        with contextlib.suppress(OSError):
            send(self.link, in_pieces(rng, data))


class Viewer:
    """A viewer that behaves well, and keeps what it is sent behind its handshake. It takes new sizes, or it doesn't."""

    def __init__(self, port, size, takes_sizes):
        self.size, self.takes_sizes, self.sent_to = size, takes_sizes, bytearray()
        listed = ENCODINGS + (protocol.DESKTOP_SIZE,) * takes_sizes
        self.link = socket.create_connection(("127.0.0.1", port), timeout=LONGEST)
        self.link.setsockopt(socket.IPPROTO_TCP, socket.TCP_NODELAY, 1)
        take(self.link, 12)
        self.link.sendall(protocol.VERSION)
        take(self.link, take(self.link, 1)[0])
        self.link.sendall(b"\1")
        take(self.link, 4)
        self.link.sendall(b"\1")
        take(self.link, 20)
        take(self.link, struct.unpack(">I", take(self.link, 4))[0])
        self.link.sendall(b"\2\0" + struct.pack(f">H{len(listed)}I", len(listed), *listed))
        take_all(self.link, self.sent_to)

    def picture(self):
        """What it sees: the size that it was told, and the colours of each position."""
        reading = protocol.host(bytes(self.sent_to), *self.size)
        if reading.fault:
            return f"fault {reading.fault} in what a viewer is sent"
        return reading.screen.told, reading.screen.colors()

    def sees(self, screen):
        """Whether it comes to see this screen of the host. It asks for the whole screen until then."""
        wanted = (screen.told, screen.colors_told()) if self.takes_sizes else (self.size, screen.colors())
        until, wait = time.monotonic() + LONGEST, 0.001
        while time.monotonic() < until:
            self.link.sendall(struct.pack(">BBHHHH", 3, 0, 0, 0, *self.size))
            time.sleep(wait)
            wait = min(0.02, 2 * wait)
            seen = self.picture()
            if seen == wanted or isinstance(seen, str):
                return None if seen == wanted else seen
        return f"a viewer sees   {seen}\nthe host shows  {wanted}"


class BadViewer:
    """A viewer that sends any bytes, mostly behind a handshake that is well, and then closes its link, resets it, says
    that it sends no more, or stays."""

    def __init__(self, rng, port):
        self.port, self.link = port, None
        hello = protocol.VERSION + b"\1\1" if rng.random() < 0.8 else streams.viewer_hello(rng)
        self.data = hello + b"".join(streams.client(rng) for _ in range(rng.randint(0, 4)))
        self.data += streams.many_keys(rng) if rng.random() < 0.1 else b""
        self.end = rng.choice(("close", "close", "reset", "end", "stay"))
        self.reads = rng.random() < 0.7 and self.end != "reset"
        self.pieces = list(in_pieces(rng, self.data))
        self.thread = threading.Thread(target=self.run, daemon=True)

    def run(self):
        with contextlib.suppress(OSError):
            self.link = socket.create_connection(("127.0.0.1", self.port), timeout=1.0)
            if self.reads:
                take_all(self.link, bytearray())
            send(self.link, self.pieces)
            if self.end == "reset":
                self.link.setsockopt(socket.SOL_SOCKET, socket.SO_LINGER, struct.pack("ii", 1, 0))
            if self.end in ("close", "reset"):
                self.close()
            if self.end == "end":
                self.link.shutdown(socket.SHUT_WR)

    def close(self):
        """Closes its link, also where a thread still takes of it."""
        if self.link:
            with contextlib.suppress(OSError):
                if self.end != "reset":
                    self.link.shutdown(socket.SHUT_RDWR)
            self.link.close()

    def may_send(self):
        """Each list of inputs that it may bring to the host: what is allowed of some of its messages, and its
        releases."""
        reading = protocol.viewer_hello(self.data, 1, 1, NAME)
        messages = protocol.client(self.data[reading.end :]).said if reading.whole else []
        return [protocol.allowed(messages[:count]) for count in range(len(messages) + 1)]


def inputs_in(data):
    return [message for message in protocol.client(data).said if message[0] in ("key", "pointer", "text", "long text")]


def bad_inputs(sent, bad, full):
    """Why the inputs that the host was sent aren't such as it may be sent, or None. The viewer that behaves well sends
    none."""
    inputs = inputs_in(sent)
    in_control = [viewer for viewer in bad if viewer.port == full]
    if not in_control and inputs:
        return f"viewers that only look on reached the host: {inputs}"
    if len(in_control) != 1:
        return None
    for passed, releases in in_control[0].may_send():
        if inputs == (passed + releases)[: len(inputs)] and len(inputs) >= len(passed):
            return None
    if inputs == in_control[0].may_send()[-1][0][: len(inputs)]:
        return None
    return f"the host was sent {inputs}, by a viewer that sent {in_control[0].data!r}"


def peak_memory(pid):
    """The most memory that the program had, in KB."""
    with open(f"/proc/{pid}/status", encoding="ascii") as lines:
        return int(next(line for line in lines if line.startswith("VmHWM")).split()[1])


def outcome(child, data, size):
    """Why the program's end isn't the one that the host's bytes ask for, or None."""
    reading = protocol.host(data, *size)
    fault = reading.fault or (0 if reading.begun == len(data) else 22)
    try:
        _, said = child.communicate(timeout=LONGEST)
    except subprocess.TimeoutExpired:
        return "hangs at its end"
    if child.returncode != (3 if fault else 0):
        return f"status {child.returncode}, said {said[-2000:]!r}, where the host's bytes end with {fault}"
    if fault and f"fault {fault}".encode() not in said:
        return f"said {said[-2000:]!r} in place of fault {fault}"
    return None


def play(program, rng):
    """Why a run of the program differs from what it is to do, or None."""
    size = rng.choice((1, 2, 17, 40)), rng.choice((1, 5, 18, 33))
    data = b"".join(streams.host_message(rng, *size) for _ in range(rng.randint(1, 12)))
    data = streams.mutated(rng, data) if rng.random() < 0.3 else data
    host = Host(size)
    full, view = free_port(), free_port()
    only_looks = rng.random() < 0.3
    words = ["serve", "--host", f"127.0.0.1:{host.port}", "--full", str(full), "--view", str(view)]
    child = subprocess.Popen([program, *words], stdout=subprocess.DEVNULL, stderr=subprocess.PIPE)
    bad = []
    try:
        host.join()
        good = joined(view if rng.random() < 0.5 else full, size, rng.random() < 0.5)
        ports = [view if only_looks or rng.random() < 0.5 else full for _ in range(rng.randint(0, 3))]
        bad = [BadViewer(rng, port) for port in ports]
        for viewer in bad:
            viewer.thread.start()
        host.send(rng, data)
        for viewer in bad:
            viewer.thread.join(LONGEST)
        return judged(child, host, good, data) or bad_inputs(bytes(host.sent_to), bad, full)
    except OSError as error:
        return f"{error}, status {child.poll()}"
    finally:
        child.kill()
        child.wait()
        for viewer in bad:
            viewer.close()


def joined(port, size, takes_sizes):
    """A viewer, as soon as the port is open."""
    until = time.monotonic() + STARTED
    while True:
        try:
            return Viewer(port, size, takes_sizes)
        except ConnectionRefusedError:
            if time.monotonic() > until:
                raise
            time.sleep(0.02)


def judged(child, host, good, data):
    """Why the picture, the memory, the end or what the host was sent isn't as it has to be, or None."""
    reading = protocol.host(data, *host.size)
    if not reading.fault:
        why = good.sees(reading.screen)
        if why:
            return why
        memory = peak_memory(child.pid)
        if memory > MOST_MEMORY:
            return f"{memory} KB of memory"
    with contextlib.suppress(OSError):
        host.link.shutdown(socket.SHUT_WR)
    why = outcome(child, data, host.size)
    if why:
        return why
    host.thread.join(LONGEST)
    sent = bytes(host.sent_to)
    if protocol.client(sent).fault:
        return f"the host was sent {sent!r}"
    return None
