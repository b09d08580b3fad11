#!/usr/bin/env python3
"""Asks servers of libvncserver (libvncserver_host.c) for four pictures in Raw, RRE and Hextile, in each of five pixel
formats, and writes what they sent in RRE and Hextile, with what they sent in Raw for the same positions, as records for
reading: the form of make_rectangles.py. Where a rectangle ends is told by rfb_codecs.py; what its pixels are is told by
the server alone, and rfb_codecs.py has to find the same.

usage: ask_libvncserver.py PROGRAM FILE      PROGRAM: libvncserver_host, built by
       gcc -o libvncserver_host libvncserver_host.c -lvncserver   (Debian: libvncserver-dev)"""
import socket
import struct
import subprocess
import sys
import time

from make_rectangles import FORMATS, READ_ONLY, format_bytes, record
from rfb_codecs import HEXTILE, RAW, RRE, Pixels, Unfinished, read


class Server:
    def __init__(self, port):
        for _ in range(100):
            try:
                self.socket = socket.create_connection(("127.0.0.1", port))
                break
            except ConnectionRefusedError:
                time.sleep(0.05)
        self.seen = b""
        self.take(12)
        self.socket.sendall(b"RFB 003.008\n")
        self.take(self.take(1)[0])
        self.socket.sendall(b"\x01")
        assert self.take(4) == bytes(4)
        self.socket.sendall(b"\x01")
        self.w, self.h = struct.unpack(">2H", self.take(4))
        self.take(16)
        self.take(struct.unpack(">I", self.take(4))[0])

    def take(self, count):
        while len(self.seen) < count:
            self.more()
        taken, self.seen = self.seen[:count], self.seen[count:]
        return taken

    def more(self):
        piece = self.socket.recv(65536)
        assert piece
        self.seen += piece

    def update(self, encoding, form):
        """The rectangles of one update of the whole screen: encoding, x, y, w, h, data, grid."""
        pixels = Pixels(form[0] // 8, form[2])
        self.socket.sendall(b"\0\0\0\0" + format_bytes(form))
        self.socket.sendall(struct.pack(">BxHi", 2, 1, encoding))
        self.socket.sendall(struct.pack(">BB4H", 3, 0, 0, 0, self.w, self.h))
        kind, count = struct.unpack(">BxH", self.take(4))
        assert kind == 0
        found = []
        for _ in range(count):
            x, y, w, h, said = struct.unpack(">4Hi", self.take(12))
            while True:
                try:
                    grid, used = read(said, pixels, w, h, self.seen)
                    break
                except Unfinished:
                    self.more()
            found.append((said, x, y, w, h, self.take(used), grid))
        return found


def whole(server, rectangles):
    """The screen that Raw rectangles show."""
    screen = [None] * (server.w * server.h)
    for said, left, top, w, h, _, grid in rectangles:
        assert said == RAW
        for y in range(h):
            screen[(top + y) * server.w + left:(top + y) * server.w + left + w] = grid[y * w:y * w + w]
    return screen


def main():
    records, port = [], 5990
    for picture in range(4):
        process = subprocess.Popen([sys.argv[1], str(port), str(picture)], stderr=subprocess.DEVNULL, stdout=subprocess.DEVNULL)
        try:
            server = Server(port)
            for form in FORMATS:
                pixels = Pixels(form[0] // 8, form[2])
                shown = whole(server, server.update(RAW, form))
                for encoding in (RRE, HEXTILE):
                    for said, x, y, w, h, data, ours in server.update(encoding, form):
                        if said != encoding:
                            continue
                        grid = [shown[(y + r) * server.w + x + c] for r in range(h) for c in range(w)]
                        assert ours == grid
                        records.append(record(encoding, form, w, h, READ_ONLY, data, pixels, grid))
        finally:
            process.kill()
            process.wait()
        port += 1
    with open(sys.argv[2], "wb") as file:
        file.write(b"".join(records))
    print(f"{len(records)} rectangles")


main()
