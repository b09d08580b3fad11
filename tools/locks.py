"""What the tools that try ports with passwords share: files with passwords, answers to challenges, and newcomers."""

import socket
import struct
import subprocess
import time

import browsers

RIGHT, WRONG, OTHER = "fish1234", "fish4321", "bird5678"

VERSION = b"RFB 003.008\n"

# The list of one security type, VNC Authentication, and the choice of it (RFC 6143, 7.1.2).
TYPES, CHOICE = b"\1\2", b"\2"

CHALLENGE_LEN = 16

# What a newcomer says up to the end of its answer: a version, a choice, and sixteen bytes.
GREETING_LEN = len(VERSION) + len(CHOICE) + CHALLENGE_LEN

# The header of a proxy before a connection over IPv4 (version 2), up to its addresses and ports.
PROXY_HEAD = b"\r\n\r\n\0\r\nQUIT\n\x21\x11\0\x0C"


def seal(room, password):
    """A file as vncpasswd writes it."""
    path = room / f"sealed-{password}"
    done = subprocess.run(["vncpasswd", "-f"], input=password.encode(), capture_output=True, check=True, timeout=20)
    path.write_bytes(done.stdout)
    return path


def line(room, password):
    """A file with the password in its first line."""
    path = room / f"line-{password}"
    path.write_text(password + "\n")
    return path


def answer_to(challenge, password):
    """The answer of one who knows the password (RFC 6143, 7.2.2), by openssl. Each letter's bits are turned round."""
    key = bytes(int(f"{letter:08b}"[::-1], 2) for letter in password.encode()[:8].ljust(8, b"\0"))
    words = ["openssl", "enc", "-des-ecb", "-K", key.hex(), "-nopad", "-provider", "legacy", "-provider", "default"]
    return subprocess.run(words, input=challenge, capture_output=True, check=True, timeout=20).stdout


def proxy_header(address):
    """What a proxy says first of a connection from that address."""
    return PROXY_HEAD + socket.inet_aton(address) + socket.inet_aton("127.0.0.1") + struct.pack(">HH", 4711, 5900)


class TcpTalk:
    """A connection to a port over TCP, from an address of this machine."""

    def __init__(self, port, source="127.0.0.1", head=b"", timeout=20.0):
        self.link = socket.create_connection(("127.0.0.1", port), timeout=timeout, source_address=(source, 0))
        self.link.setsockopt(socket.IPPROTO_TCP, socket.TCP_NODELAY, 1)
        self.link.sendall(head)

    def say(self, payload):
        self.link.sendall(payload)

    def read(self, count):
        got = bytearray()
        while len(got) < count:
            more = self.link.recv(count - len(got))
            if not more:
                raise EOFError
            got += more
        return bytes(got)

    def close(self):
        self.link.close()


def talk(port, is_web, source="127.0.0.1", head=b"", timeout=20.0):
    """A newcomer's connection to a port: what it says goes over TCP, or in messages of a WebSocket."""
    if not is_web:
        return TcpTalk(port, source, head, timeout)
    link = browsers.WebClient(port, timeout=timeout, source=source, before=head)
    if not link.is_open:
        link.close()
        raise EOFError
    return link


def challenge_of(link):
    """What a newcomer is asked at a locked port, behind the versions."""
    if link.read(len(VERSION)) != VERSION:
        raise ValueError("another version")
    link.say(VERSION)
    if link.read(len(TYPES)) != TYPES:
        raise ValueError("another list of types")
    link.say(CHOICE)
    return link.read(CHALLENGE_LEN)


def result_of(link):
    """What a newcomer is told that has answered (RFC 6143, 7.1.3): `let in`, or the reason why not."""
    if struct.unpack(">I", link.read(4))[0] == 0:
        return "let in"
    return link.read(struct.unpack(">I", link.read(4))[0]).decode()


def init_of(link):
    """The size and the name of the screen, behind the result (RFC 6143, 7.3)."""
    link.say(b"\1")
    width, height, length = struct.unpack(">HH16xI", link.read(24))
    return width, height, link.read(length)


def join(port, is_web, password, source="127.0.0.1"):
    """A viewer's connection to a locked port, behind its handshake."""
    link = talk(port, is_web, source)
    link.say(answer_to(challenge_of(link), password))
    told = result_of(link)
    if told != "let in":
        link.close()
        raise RuntimeError(f"who knows the password is told: {told}")
    init_of(link)
    return link


def silence_of(link, seconds):
    """What comes of waiting at a link: `nothing`, `let go`, or the bytes that came."""
    link.link.settimeout(seconds)
    try:
        return repr(link.read(1))
    except TimeoutError:
        return "nothing"
    except (EOFError, OSError):
        return "let go"


def since(moment):
    return time.monotonic() - moment
