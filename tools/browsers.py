"""What tools/try-browsers stands on: a headless Chromium, a VNC host whose picture is set, a client of WebSockets."""

import base64
import hashlib
import json
import os
import shutil
import socket
import struct
import subprocess
import tempfile
import threading
import time

import loopback

WIDTH, HEIGHT = 320, 208
# 32 bits a pixel, little-endian, red in bits 16 to 23, green in 8 to 15, blue in 0 to 7 (RFC 6143, 7.4).
FORMAT = bytes.fromhex("20180001 00FF00FF 00FF1008 00000000")
VERSION = b"RFB 003.008\n"
NAME = b"a lecture"

# noVNC's own object, and the pixels of its canvas.
RFB = "(await import(location.origin + '/app/ui.js')).default.rfb"
CANVAS = """(() => { const c = document.querySelector('#noVNC_container canvas'); if (!c) return null;
 const d = c.getContext('2d').getImageData(0, 0, c.width, c.height).data; let s = '';
 for (let i = 0; i < d.length; i += 8192) s += String.fromCharCode.apply(null, d.subarray(i, i + 8192));
 return [c.width, c.height, btoa(s)]; })()"""


class Host:
    """A VNC host on loopback whose picture is set from outside: Raw and CopyRect. One client at a time."""

    def __init__(self, port=0):
        self.rows = [bytearray(b"\x40\x30\x28\0" * WIDTH) for _ in range(HEIGHT)]
        self.lock = threading.Condition()
        self.asked, self.whole, self.waiting, self.extra = False, False, [], b""
        self.keys, self.pointers, self.texts = [], [], []
        self.link = None
        self.listener = socket.create_server(("127.0.0.1", port))
        self.port = self.listener.getsockname()[1]
        threading.Thread(target=self.serve, daemon=True).start()

    def changed(self, x, y, w, h):
        body = b"".join(bytes(row[4 * x:4 * (x + w)]) for row in self.rows[y:y + h])
        self.waiting.append(struct.pack(">HHHHi", x, y, w, h, 0) + body)
        self.lock.notify_all()

    def fill(self, x, y, w, h, red, green, blue):
        with self.lock:
            for row in self.rows[y:y + h]:
                row[4 * x:4 * (x + w)] = bytes((blue, green, red, 0)) * w
            self.changed(x, y, w, h)

    def noise(self, x, y, w, h):
        with self.lock:
            for row in self.rows[y:y + h]:
                row[4 * x:4 * (x + w)] = os.urandom(4 * w)
            self.changed(x, y, w, h)

    def dots(self, x, y, w, h, step=7):
        """Dots of several colours, which Hextile has in few bytes."""
        with self.lock:
            for at in range(y, y + h):
                for across in range(x, x + w, step):
                    self.rows[at][4 * across:4 * across + 4] = bytes(((at * 5) & 255, (across * 3) & 255, 200, 0))
            self.changed(x, y, w, h)

    def scroll(self, by):
        """The screen moves up, told as CopyRect."""
        with self.lock:
            for at in range(HEIGHT - by):
                self.rows[at][:] = self.rows[at + by]
            self.waiting.append(struct.pack(">HHHHiHH", 0, 0, WIDTH, HEIGHT - by, 1, 0, by))
            self.lock.notify_all()

    def equal_rows(self):
        """Rows of tiles that are equal, of which a reflector tells all but the first as copies."""
        self.noise(0, 64, WIDTH, 16)
        with self.lock:
            for at in range(64):
                self.rows[80 + at][:] = self.rows[64 + at % 16]
            self.changed(0, 80, WIDTH, 64)

    def say(self, text):
        """A cut text."""
        with self.lock:
            self.extra += struct.pack(">BxxxI", 3, len(text)) + text
            self.lock.notify_all()

    def plain(self):
        """The picture, red, green and blue of each pixel."""
        out = bytearray()
        with self.lock:
            for row in self.rows:
                for at in range(0, 4 * WIDTH, 4):
                    out += bytes((row[at + 2], row[at + 1], row[at]))
        return bytes(out)

    def read(self, count):
        out = b""
        while len(out) < count:
            more = self.link.recv(count - len(out))
            if not more:
                raise EOFError
            out += more
        return out

    def serve(self):
        while True:
            try:
                self.link, _ = self.listener.accept()
            except OSError:
                return
            try:
                self.meet()
            except (EOFError, OSError):
                pass
            self.link.close()

    def close(self):
        """The host goes."""
        self.listener.close()
        if self.link:
            try:
                self.link.shutdown(socket.SHUT_RDWR)
            except OSError:
                pass

    def meet(self):
        self.link.setsockopt(socket.IPPROTO_TCP, socket.TCP_NODELAY, 1)
        for says, hears in ((VERSION, 12), (b"\x01\x01", 1), (bytes(4), 1)):
            self.link.sendall(says)
            self.read(hears)
        self.link.sendall(struct.pack(">HH", WIDTH, HEIGHT) + FORMAT + struct.pack(">I", len(NAME)) + NAME)
        over = threading.Event()
        threading.Thread(target=self.answer, args=(self.link, over), daemon=True).start()
        try:
            self.hear()
        finally:
            over.set()

    def answer(self, link, over):
        try:
            while not over.is_set():
                message = b""
                with self.lock:
                    self.lock.wait_for(lambda: self.extra or (self.asked and (self.whole or self.waiting)), timeout=0.3)
                    message, self.extra = self.extra, b""
                    if self.asked and (self.whole or self.waiting):
                        if self.whole:
                            self.waiting = []
                            self.changed(0, 0, WIDTH, HEIGHT)
                        message += struct.pack(">BxH", 0, len(self.waiting)) + b"".join(self.waiting)
                        self.asked, self.whole, self.waiting = False, False, []
                if message:
                    link.sendall(message)
        except OSError:
            pass

    def hear(self):
        """Takes the client's messages (RFC 6143, 7.5)."""
        while True:
            kind = self.read(1)[0]
            if kind == 0:
                self.read(19)
            elif kind == 2:
                self.read(4 * struct.unpack(">xH", self.read(3))[0])
            elif kind == 3:
                incremental = self.read(9)[0]
                with self.lock:
                    self.asked, self.whole = True, self.whole or not incremental
                    self.lock.notify_all()
            elif kind == 4:
                self.keys.append(struct.unpack(">BxxI", self.read(7)))
            elif kind == 5:
                self.pointers.append(struct.unpack(">BHH", self.read(5)))
            elif kind == 6:
                self.texts.append(self.read(struct.unpack(">xxxI", self.read(7))[0]))
            else:
                raise OSError(f"a message of type {kind}")


def frame(opcode, payload, mask=True):
    """A client's frame (RFC 6455, section 5.2)."""
    key = os.urandom(4) if mask else b""
    size, bit = len(payload), 0x80 if mask else 0
    if size < 126:
        head = bytes((0x80 | opcode, bit | size))
    elif size < 65536:
        head = struct.pack(">BBH", 0x80 | opcode, bit | 126, size)
    else:
        head = struct.pack(">BBQ", 0x80 | opcode, bit | 127, size)
    body = bytes(byte ^ key[at % 4] for at, byte in enumerate(payload)) if mask else payload
    return head + key + body


def payloads(frames):
    """What a server's short frames carry, but for its close frame."""
    out = b""
    while len(frames) >= 2 and len(frames) >= 2 + frames[1]:
        out += frames[2:2 + frames[1]] if frames[0] & 15 < 8 else b""
        frames = frames[2 + frames[1]:]
    return out


def request(port, key="dGhlIHNhbXBsZSBub25jZQ==", host=None, origin=None, path="/websockify"):
    """A request that opens a WebSocket (RFC 6455, section 4.1)."""
    head = [f"GET {path} HTTP/1.1", f"Host: {host or f'127.0.0.1:{port}'}", "Upgrade: websocket",
            "Connection: Upgrade", f"Sec-WebSocket-Key: {key}", "Sec-WebSocket-Version: 13"]
    if origin:
        head.append(f"Origin: {origin}")
    return ("\r\n".join(head) + "\r\n\r\n").encode()


class WebClient:
    """A client of WebSockets that isn't a browser. Before its request it may say a proxy's header."""

    def __init__(self, port, host=None, origin=None, path="/websockify", timeout=20.0, source="127.0.0.1", before=b""):
        self.link = socket.create_connection(("127.0.0.1", port), timeout=timeout, source_address=(source, 0))
        self.link.setsockopt(socket.IPPROTO_TCP, socket.TCP_NODELAY, 1)
        key = base64.b64encode(os.urandom(16)).decode()
        self.link.sendall(before + request(port, key, host, origin, path))
        answer = b""
        while b"\r\n\r\n" not in answer:
            more = self.link.recv(4096)
            if not more:
                break
            answer += more
        self.head, self.kept = answer.split(b"\r\n\r\n", 1) if b"\r\n\r\n" in answer else (answer, b"")
        self.status = int(self.head.split(b" ")[1]) if self.head.startswith(b"HTTP/1.1 ") else 0
        accept = base64.b64encode(hashlib.sha1((key + "258EAFA5-E914-47DA-95CA-C5AB0DC85B11").encode()).digest())
        self.is_open = self.status == 101 and accept in self.head
        self.data, self.closed = b"", None

    def say(self, payload):
        self.link.sendall(frame(2, payload))

    def read(self, count):
        """The next bytes of messages. A close frame ends it."""
        while len(self.data) < count:
            while not self.frame():
                more = self.link.recv(65536)
                if not more:
                    raise EOFError
                self.kept += more
        out, self.data = self.data[:count], self.data[count:]
        return out

    def frame(self):
        """Takes the next frame, if it has come."""
        if len(self.kept) < 2:
            return False
        size, at = self.kept[1] & 127, 2
        if size == 126:
            size, at = int.from_bytes(self.kept[2:4].ljust(2, b"\xff"), "big"), 4
        elif size == 127:
            size, at = int.from_bytes(self.kept[2:10].ljust(8, b"\xff"), "big"), 10
        if len(self.kept) < at + size:
            return False
        opcode, payload = self.kept[0] & 15, self.kept[at:at + size]
        self.kept = self.kept[at + size:]
        if opcode == 8:
            self.closed = int.from_bytes(payload[:2], "big")
            raise EOFError
        if opcode == 9:
            self.link.sendall(frame(10, payload))
        else:
            self.data += payload
        return True

    def join(self):
        """Does a viewer's side of the handshake. It answers the size of the screen."""
        self.say(VERSION)
        self.read(12)
        self.read(self.read(1)[0])
        self.say(b"\x01")
        self.read(4)
        self.say(b"\x01")
        width, height = struct.unpack(">HH", self.read(4))
        self.read(16)
        self.read(struct.unpack(">I", self.read(4))[0])
        return width, height

    def close(self):
        self.link.close()


class Chromium:
    """A headless Chromium, spoken to over a pipe by its own protocol, so that it opens no port."""

    def __init__(self, *more):
        self.home = tempfile.mkdtemp(prefix="chromium-")
        to_read, to_write = os.pipe()
        from_read, from_write = os.pipe()

        def wire():
            loopback.with_parent()
            os.dup2(to_read, 103)
            os.dup2(from_write, 104)
            os.dup2(103, 3)
            os.dup2(104, 4)

        words = ["chromium", "--headless=new", "--no-sandbox", "--disable-gpu", "--remote-debugging-pipe",
                 f"--user-data-dir={self.home}", "--no-first-run", "--disable-background-networking",
                 "--disable-component-update", "--disable-sync", "--hide-scrollbars", "--proxy-server=direct://",
                 "--window-size=1000,700", *more, "about:blank"]
        environment = {name: value for name, value in os.environ.items() if "proxy" not in name.lower()}
        quiet = subprocess.DEVNULL
        self.child = subprocess.Popen(
            words, preexec_fn=wire, close_fds=False, stdin=quiet, stdout=quiet, stderr=quiet, env=environment)
        loopback.children.append(self.child)
        os.close(to_read)
        os.close(from_write)
        self.out, self.answers, self.events, self.number = os.fdopen(to_write, "wb", 0), {}, [], 0
        self.heard = threading.Condition()
        threading.Thread(target=self.listen, args=(from_read,), daemon=True).start()
        target = self.call("Target.createTarget", {"url": "about:blank"}, None)["targetId"]
        self.session = self.call("Target.attachToTarget", {"targetId": target, "flatten": True}, None)["sessionId"]
        for domain in ("Page", "Runtime", "Network", "Log"):
            self.call(domain + ".enable")

    def listen(self, pipe):
        kept = b""
        while piece := os.read(pipe, 1 << 20):
            *messages, kept = (kept + piece).split(b"\0")
            with self.heard:
                for message in map(json.loads, messages):
                    if "id" in message:
                        self.answers[message["id"]] = message
                    else:
                        self.events.append(message)
                self.heard.notify_all()

    def call(self, method, params=None, session="own"):
        with self.heard:
            self.number += 1
            number = self.number
        message = {"id": number, "method": method, "params": params or {}}
        if session == "own":
            message["sessionId"] = self.session
        self.out.write(json.dumps(message).encode() + b"\0")
        with self.heard:
            if not self.heard.wait_for(lambda: number in self.answers, timeout=60):
                raise RuntimeError(f"{method}: no answer")
            answer = self.answers.pop(number)
        if "error" in answer:
            raise RuntimeError(f"{method}: {answer['error']}")
        return answer["result"]

    def go(self, url):
        self.call("Page.navigate", {"url": url})

    def value(self, code):
        words = {"expression": code, "returnByValue": True, "awaitPromise": True}
        answer = self.call("Runtime.evaluate", words)
        if "exceptionDetails" in answer:
            raise RuntimeError(json.dumps(answer["exceptionDetails"])[:300])
        return answer["result"].get("value")

    def does(self, code):
        """Runs code in which `rfb` is noVNC's object."""
        return self.value(f"(async () => {{ const rfb = {RFB}; {code} }})()")

    def wait(self, code, seconds=30.0):
        """Whether that comes to be true."""

        def holds():
            try:
                return bool(self.value(code))
            except RuntimeError:
                return False

        return loopback.wait_until(holds, seconds, 0.05)

    def is_connected(self, seconds=30.0):
        state = "return rfb && rfb._rfbConnectionState === 'connected';"
        return self.wait(f"(async () => {{ const rfb = {RFB}; {state} }})()", seconds)

    def shows(self, host, seconds=6.0):
        """Whether the canvas comes to be the host's picture, each pixel of it. Else how many pixels differ."""
        until = time.monotonic() + seconds
        wrong = None
        while time.monotonic() < until:
            found = self.value(CANVAS)
            if found and found[:2] == [WIDTH, HEIGHT]:
                data, wanted = base64.b64decode(found[2]), host.plain()
                wrong = sum(
                    data[4 * at + 3] != 255 or data[4 * at:4 * at + 3] != wanted[3 * at:3 * at + 3]
                    for at in range(WIDTH * HEIGHT))
                if wrong == 0:
                    return 0
            time.sleep(0.1)
        return "no picture" if wrong is None else wrong

    def type(self, text):
        for letter in text:
            code = "Key" + letter.upper() if letter.isalpha() else "Digit" + letter
            words = {"key": letter, "code": code, "windowsVirtualKeyCode": ord(letter.upper())}
            self.call("Input.dispatchKeyEvent", {"type": "keyDown", "text": letter, **words})
            self.call("Input.dispatchKeyEvent", {"type": "keyUp", **words})

    def enter(self):
        words = {"key": "Enter", "code": "Enter", "windowsVirtualKeyCode": 13}
        self.call("Input.dispatchKeyEvent", {"type": "keyDown", "text": "\r", **words})
        self.call("Input.dispatchKeyEvent", {"type": "keyUp", **words})

    def shift(self, kind):
        words = {"key": "Shift", "code": "ShiftLeft", "windowsVirtualKeyCode": 16, "modifiers": 8}
        self.call("Input.dispatchKeyEvent", {"type": kind, **words})

    def mouse(self, kind, x, y, **more):
        """A mouse event at this position of the host's screen."""
        left, top, wide, high = self.value(
            "(() => { const b = document.querySelector('#noVNC_container canvas').getBoundingClientRect();"
            " return [b.left, b.top, b.width, b.height]; })()")
        where = {"x": left + x * wide / WIDTH, "y": top + y * high / HEIGHT}
        self.call("Input.dispatchMouseEvent", {"type": kind, **where, **more})

    def said(self):
        """What the console has of errors."""
        with self.heard:
            return [it["params"]["entry"]["text"] for it in self.events
                    if it["method"] == "Log.entryAdded" and it["params"]["entry"]["level"] == "error"]

    def close(self):
        loopback.end(self.child)
        shutil.rmtree(self.home, ignore_errors=True)
