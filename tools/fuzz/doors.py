"""What browsers may send, before `crates/web_trial`: requests and frames, whole, wrong and mutated, in any pieces.

What is sent is read here by itself, and shares no code with the program: of frames the data up to the first that may not
be sent, and the code that answers that one (RFC 6455, sections 5.1 to 5.5 and 7.4.1); of requests which files they ask
for, and whether one may open a WebSocket (RFC 9112, sections 3 to 5; RFC 6455, sections 4.2 and 10.2). Of a request that
isn't plainly by that grammar only this is looked at: whether it opens a link or brings anything but a whole file.
"""

import base64
import hashlib
import re
import struct
import subprocess
import threading

import frames
import streams

HOST = b"127.0.0.1:6080"
HOSTS = HOST, b"lecture.example"
ORIGINS = b"http://127.0.0.1:6080", b"https://lecture.example"
FILES = {b"/vnc.html": b"<!DOCTYPE html>a page", b"/app/ui.js": b"let a;", b"/app/a b.css": b"p { }"}
START = b"vnc.html?autoconnect=true&reconnect=true&resize=scale&show_dot=true"
GUID = b"258EAFA5-E914-47DA-95CA-C5AB0DC85B11"
PATHS = [
    b"/", b"/vnc.html", b"/app/ui.js", b"/app/ui.js?a=b", b"/app/a%20b.css", b"/app/../vnc.html", b"/./vnc.html",
    b"//vnc.html", b"/app%2fui.js", b"/app/ui.j", b"/app/ui.jss", b"/%2e%2e/etc/passwd", b"/vnc.html/", b"/VNC.HTML",
    b"http://127.0.0.1:6080/vnc.html", b"/app",
]
LIST = re.compile(rb"[!-+.-~-]+(?:[ \t]*,[ \t]*[!-+.-~-]+)*")
METHODS = [b"GET"] * 6 + [b"HEAD", b"HEAD", b"POST", b"PUT", b"DELETE", b"OPTIONS", b"get", b"BREW"]

# So many streams are handed to the program at once.
TOGETHER = 200
child = None


def line(kind, lengths, stream):
    return b"%s %s %s\n" % (kind, lengths.hex().encode(), stream.hex().encode())


def asked(program, made):
    """What the program makes of each of these streams."""
    global child
    if child is None:
        child = subprocess.Popen([program], stdin=subprocess.PIPE, stdout=subprocess.PIPE)

    def write():
        child.stdin.write(b"".join(line(*one) for one in made))
        child.stdin.flush()

    writer = threading.Thread(target=write, daemon=True)
    writer.start()
    for _ in made:
        told = child.stdout.readline()
        if not told.endswith(b"\n"):
            raise OSError(f"the program has ended with {child.wait()}")
        yield told[:-1].split(b" ")
    writer.join()


# ---- frames


class Reading:
    """The data in frames, the pings, and the code that answers the end of them: None where nothing has ended them. Where
    a header isn't whole it may be refused already (`maybe`)."""

    def __init__(self, stream):
        self.data, self.pings, self.code, self.maybe = b"", [], None, False
        at, begun = 0, False
        while at < len(stream) and self.code is None:
            first, size = stream[at], stream[at + 1 : at + 2]
            opcode = first & 15
            if opcode in (3, 4, 5, 6, 7, 11, 12, 13, 14, 15):
                self.code = 1002
                break
            long = {126: 2, 127: 8}.get(size[0] & 127, 0) if size else 0
            end = at + 2 + long + (4 if size and size[0] & 128 else 0)
            if not size or end > len(stream):
                self.maybe = True
                break
            count = int.from_bytes(stream[at + 2 : at + 2 + long], "big") if long else size[0] & 127
            if (long == 2 and count < 126) or (long == 8 and not 65536 <= count < 1 << 63):
                self.code = 1002
                break
            self.code = refusal(first, bool(size[0] & 128), opcode, count, begun)
            if self.code is not None:
                break
            key, whole = stream[end - 4 : end], end + count <= len(stream)
            payload = bytes(byte ^ key[i % 4] for i, byte in enumerate(stream[end : end + count]))
            at = end + count
            if opcode < 3:
                self.data, begun = self.data + payload, not first & 128
            elif opcode == 9 and whole:
                self.pings.append(payload)
            elif opcode == 8 and whole:
                self.code = 1000


def refusal(first, masked, opcode, count, begun):
    """The code that answers a frame that may not be sent."""
    if first & 0x70 or not masked:
        return 1002
    if opcode >= 8:
        return 1002 if not first & 128 or count > 125 else None
    if opcode == 1:
        return 1003
    return 1002 if begun != (opcode == 0) else None


def some_lengths(rng):
    """Lengths of pieces. Where one is 0, nothing comes or goes for once."""
    lengths = streams.lengths(rng)
    return lengths + b"\0" if rng.random() < 0.2 else lengths


def talk(rng):
    """What a browser sends: at times with a long frame before it, or one behind it that announces more than comes."""
    sent = frames.Talk(rng).sent
    if rng.random() < 0.05:
        sent = frames.frame(rng, 2, rng.randbytes(rng.choice((125, 126, 127, 300, 2000)))) + sent
    if rng.random() < 0.05:
        size = rng.choice((125, 126, 65535, 65536, 1 << 20, (1 << 63) - 1, 1 << 63, (1 << 64) - 1))
        sent += struct.pack(">BBQ", 0x82, 0xFF, size) + rng.randbytes(4 + rng.randint(0, 100))
    return streams.mutated(rng, sent) if rng.random() < 0.4 else sent


def make_frames(rng):
    return b"frames", some_lengths(rng), talk(rng)


def judge_frames(made, told):
    """Why a stream of frames isn't read as it has to be, or None."""
    (_, lengths, sent), (taken, given, end, failures) = made, told
    reading, found = Reading(sent), frames.answered(bytes.fromhex(given.decode()))
    said = f"{sent.hex()} in pieces of {lengths.hex()}: taken {taken}, given {given}, {end}, failed {failures} times"
    if found is None or bytes.fromhex(taken.decode()) != reading.data:
        return said
    data, pongs, code = found
    codes = [reading.code] + [1002] * reading.maybe + [None] * (0 in lengths)
    ends = [b"failed" if one in (1002, 1003) else b"ended" for one in [reading.code] + [1002] * reading.maybe]
    if data != reading.data or code not in codes or end not in ends or not frames.is_among(pongs, reading.pings):
        return said
    if failures != (b"1" if end == b"failed" else b"0"):
        return said
    if code is None and 0 not in lengths and reading.pings and pongs[-1:] != reading.pings[-1:]:
        return said
    return None


# ---- requests


def plain(rng):
    """A request for a file, mostly."""
    fields = [b"Host: " + rng.choice((HOST, HOST, b"lecture.example", b"stranger.example"))]
    for _ in range(rng.choice((0, 0, 1, 2))):
        fields.append(rng.choice((
            b"Origin: http://stranger.example", b"Accept: */*", b"Content-Length: 0", b"Connection: keep-alive",
            b"Connection: close", b"Upgrade: h2c", b"Range: bytes=0-1", b"X: " + b"x" * rng.randint(0, 300),
        )))
    rng.shuffle(fields)
    return rng.choice(METHODS) + b" " + rng.choice(PATHS) + b" HTTP/1.1\r\n" + b"\r\n".join(fields) + b"\r\n\r\n"


def requests(rng):
    """Some requests, at last perhaps one that opens a link, and what follows it."""
    stream = b"".join(plain(rng) for _ in range(rng.choice((0, 0, 0, 1, 1, 2, 3))))
    if not stream or rng.random() < 0.7:
        stream += frames.request(rng, 6080)
        stream += rng.choice((b"", b"", b"", b"\x82\x80abcd", plain(rng)))
    return streams.mutated(rng, stream) if rng.random() < 0.2 else stream


class Request:
    """A request that is plainly by the grammar."""

    def __init__(self, method, target, fields):
        self.method, self.fields = method, fields
        form = re.fullmatch(rb"(http://127\.0\.0\.1:6080)?(/[A-Za-z0-9._~!$&'()*+,;=:@%/-]*)(\?[A-Za-z0-9._~=&/-]*)?", target)
        self.is_plain = form is not None
        self.is_absolute, self.path = (form[1] is not None, form[2]) if form else (False, b"")

    def values(self, name):
        return [value for other, value in self.fields if other == name]

    def names(self, name, token):
        return any(token in re.split(rb"[ \t]*,[ \t]*", value.lower()) for value in self.values(name))

    def is_sure(self):
        """Whether it is to be answered by the site, as it says."""
        bodies = self.values(b"transfer-encoding") + [size for size in self.values(b"content-length") if size != b"0"]
        hosts = self.values(b"host")
        are_lists = all(LIST.fullmatch(value) for name in (b"connection", b"upgrade") for value in self.values(name))
        few = all(len(self.values(name)) < 2 for name in (b"content-length", b"expect"))
        return (
            self.is_plain and not bodies and few and are_lists and not self.values(b"expect")
            and len(hosts) == 1 and re.fullmatch(rb"[A-Za-z0-9.-]+(:[0-9]+)?", hosts[0]) is not None
            and self.key_is() is not None
        )

    def key_is(self):
        """Whether its key is one: the base64 of 16 bytes. None where it is, but not as one is written."""
        keys = self.values(b"sec-websocket-key")
        if len(keys) != 1 or not re.fullmatch(rb"[A-Za-z0-9+/]{22}==", keys[0]):
            return False
        return True if base64.b64encode(base64.b64decode(keys[0])) == keys[0] else None

    def is_strangers(self):
        origins = self.values(b"origin")
        return self.values(b"host")[0] not in HOSTS or any(origin not in ORIGINS for origin in origins)

    def opens(self):
        return (
            not self.is_strangers() and self.method == b"GET" and not self.is_absolute and bool(self.key_is())
            and self.names(b"connection", b"upgrade") and self.values(b"sec-websocket-version") == [b"13"]
        )

    def answers(self):
        """The statuses that may answer it, and the body."""
        if self.names(b"upgrade", b"websocket"):
            return ([101] if self.opens() else [403] if self.is_strangers() else [400, 426]), b""
        if self.method not in (b"GET", b"HEAD"):
            return [405], b""
        if self.path == b"/":
            return [302], b""
        body = FILES.get(self.path)
        return ([404], b"") if body is None else ([200], body if self.method == b"GET" else b"")


def request_in(head):
    """The request that a head is, or None where it isn't plainly one."""
    lines = head[:-4].split(b"\r\n")
    start = re.fullmatch(rb"([!#$%&'*+.^_`|~0-9A-Za-z-]+) ([!-~]+) HTTP/1\.1", lines[0])
    fields = []
    for line in lines[1:]:
        field = re.fullmatch(rb"([!#$%&'*+.^_`|~0-9A-Za-z-]+):[ \t]*((?:[!-~](?:[ -~]*[!-~])?)?)[ \t]*", line)
        if field is None:
            return None
        fields.append((field[1].lower(), field[2]))
    return Request(start[1], start[2], fields) if start else None


class Asked:
    """What a stream asks: the answers that its first requests have, whether the rest is sure too, and whether the
    connection is let in."""

    def __init__(self, stream, lengths):
        self.answers, self.is_sure, self.is_let_in, self.rest = [], True, False, b""
        at = 0
        while True:
            end = stream.find(b"\r\n\r\n", at) + 4
            request = request_in(stream[at:end]) if end > 3 else None
            if at == len(stream):
                return
            if request is None or not request.is_sure():
                self.is_sure, self.rest = False, stream[at:]
                return
            statuses, body = request.answers()
            self.answers.append((statuses, body, request))
            if statuses == [101]:
                self.is_let_in = end == min(len(stream), piece_end(lengths, end))
                return
            if request.names(b"connection", b"close"):
                return
            at = end


def piece_end(lengths, end):
    """Where the piece ends that has the byte before `end`."""
    at = turn = 0
    while at < end:
        at, turn = at + max(1, lengths[turn % len(lengths)]), turn + 1
    return at


def responses(stream, methods):
    """The statuses, fields and bodies of responses to requests of these methods and others, or None where they aren't
    such. Of the others those have no body that are followed by a response."""
    found, at = [], 0
    while at < len(stream):
        end = stream.find(b"\r\n\r\n", at)
        lines = stream[at:end].split(b"\r\n")
        start = re.fullmatch(rb"HTTP/1\.[01] ([1-5][0-9][0-9]) [ -~]*", lines[0])
        if end < 0 or start is None:
            return None
        fields = {name.lower(): value.strip() for name, _, value in (line.partition(b":") for line in lines[1:])}
        status, at = int(start[1]), end + 4
        method = methods[len(found)] if len(found) < len(methods) else None
        has_body = status != 101 and method != b"HEAD"
        if method is None and (at == len(stream) or stream.startswith((b"HTTP/1.1 ", b"HTTP/1.0 "), at)):
            has_body = False
        count = int(fields.get(b"content-length", b"0")) if has_body else 0
        body, at = stream[at : at + count], at + count
        if len(body) < count:
            return None
        found.append((status, fields, body))
    return found


def is_guarded(fields):
    return (
        fields.get(b"cache-control") == b"no-store" and fields.get(b"x-content-type-options") == b"nosniff"
        and b"frame-ancestors 'none'" in fields.get(b"content-security-policy", b"")
    )


def is_right(answer, wanted):
    """Whether a response is one that is wanted."""
    (status, fields, body), (statuses, content, request) = answer, wanted
    if status not in statuses or body != content:
        return False
    if status == 101:
        return fields.get(b"sec-websocket-accept") == accept_of(request.values(b"sec-websocket-key")[0])
    return is_guarded(fields) and (status != 302 or fields.get(b"location") == START)


def accept_of(key):
    return base64.b64encode(hashlib.sha1(key + GUID).digest())


def is_harmless(answer, rest):
    """Whether what isn't plainly a request has such an answer: it opens a link only where one of its heads names a host
    that is listed and no origin that isn't, and brings nothing but whole files."""
    status, _, body = answer
    return any(map(may_open, re.split(rb"\r?\n\r?\n", rest))) if status == 101 else body in (b"", *FILES.values()) or status >= 400


def may_open(head):
    found = {b"host": [], b"origin": []}
    for line in re.split(rb"\r?\n", head):
        name, _, value = line.partition(b":")
        found.get(name.strip().lower(), []).append(value.strip())
    return any(host in HOSTS for host in found[b"host"]) and all(one in ORIGINS for one in found[b"origin"])


def make_requests(rng):
    return b"requests", streams.lengths(rng), requests(rng)


def judge_requests(made, told):
    """Why requests aren't answered as they have to be, or None."""
    (_, lengths, stream), (out, end) = made, told
    wanted = Asked(stream, lengths)
    found = responses(bytes.fromhex(out.decode()), [request.method for _, _, request in wanted.answers])
    said = f"{stream!r} in pieces of {lengths.hex()}: {bytes.fromhex(out.decode())!r}, {end}"
    if found is None or len(found) < len(wanted.answers):
        return said
    sure, more = found[: len(wanted.answers)], found[len(wanted.answers) :]
    if not all(map(is_right, sure, wanted.answers)) or not all(is_harmless(answer, wanted.rest) for answer in more):
        return said
    if wanted.is_sure and (more or end != (b"in" if wanted.is_let_in else b"out")):
        return said
    return said if end == b"in" and 101 not in [status for status, _, _ in found] else None


KINDS = {"frames": (make_frames, judge_frames), "requests": (make_requests, judge_requests)}


def differs(kind, program, rngs):
    """The number of the first of these streams of which the program doesn't make what it has to, and why; or None."""
    make, judge = KINDS[kind]
    made = [make(rng) for rng in rngs]
    for number, (one, told) in enumerate(zip(made, asked(program, made), strict=True)):
        why = judge(one, told)
        if why:
            return number, why
    return None
