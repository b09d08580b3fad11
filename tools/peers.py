"""Real VNC hosts and viewers, each on an X server of its own, and their pictures."""

import os
import re
import select
import struct
import subprocess

import loopback

PACKAGES = {
    "Xvnc": "tigervnc-standalone-server",
    "x0vncserver": "tigervnc-scraping-server",
    "x11vnc": "x11vnc",
    "qemu-system-x86_64": "qemu-system-x86",
    "Xvfb": "xvfb",
    "xtigervncviewer": "tigervnc-viewer",
    "gvncviewer": "gvncviewer",
    "xtightvncviewer": "xtightvncviewer",
    "ssvncviewer": "ssvnc",
    "xdotool": "xdotool",
    "xwd": "x11-apps",
    "xterm": "xterm",
    "xsetroot": "x11-xserver-utils",
}

# What the parts with passwords of tools/try-peers need besides.
LOCKED_PACKAGES = {
    "remmina": "remmina remmina-plugin-vnc",
    "dbus-run-session": "dbus-daemon",
    "vncpasswd": "tigervnc-tools",
    "openssl": "openssl",
}

WIDTH, HEIGHT = 640, 480

# A host may paint its pointer into its screen: this many pixels around it aren't compared.
POINTER = 40

# The viewer, its words for low colour with the steps of red, green and blue, and whether it only looks on.
CAST = [
    ("TigerVNC", None, False),
    ("gvncviewer", None, False),
    ("xtightvncviewer", None, False),
    ("ssvncviewer", None, False),
    ("TigerVNC", (("-AutoSelect=0", "-FullColor=0", "-LowColorLevel=2"), (7, 7, 3)), False),
    ("xtightvncviewer", (("-bgr233",), (7, 7, 3)), False),
    ("ssvncviewer", (("-bgr233",), (7, 7, 3)), False),
    ("TigerVNC", None, True),
]

# Viewers that listen, and are called by the reflector, and whether each only looks on.
CALLED = [("TigerVNC", False), ("xtightvncviewer", False), ("ssvncviewer", False), ("TigerVNC", True)]

COMMANDS = {
    "TigerVNC": ("xtigervncviewer", "-SecurityTypes=None", "-RemoteResize=0", "-MenuKey="),
    "gvncviewer": ("gvncviewer",),
    "xtightvncviewer": ("xtightvncviewer",),
    "ssvncviewer": ("ssvncviewer", "-noipv6"),
}


class Picture:
    """Rows of pixels of four bytes: blue, green, red, and a fourth that is 0."""

    def __init__(self, width, height, rows):
        self.width, self.height, self.rows = width, height, rows

    def offset_of(self, other):
        """Where the other stands in this one, by its most colourful row, or None."""
        best = max(range(other.height), key=lambda y: len(set(struct.iter_unpack("I", other.rows[y]))))
        for y in range(best, self.height - (other.height - best) + 1):
            at = self.rows[y].find(other.rows[best])
            if at >= 0 and at % 4 == 0:
                return at // 4, y - best
        return None

    def cut(self, x, y, width, height):
        return Picture(width, height, [row[4 * x : 4 * (x + width)] for row in self.rows[y : y + height]])

    def without(self, spot):
        """The same with a black square around the spot."""
        if spot is None:
            return self
        left, right = max(0, spot[0] - POINTER), min(self.width, spot[0] + POINTER)
        rows = [
            row[: 4 * left] + bytes(4 * (right - left)) + row[4 * right :] if abs(y - spot[1]) < POINTER else row
            for y, row in enumerate(self.rows)
        ]
        return Picture(self.width, self.height, rows)


def dump(display):
    """What xwd says of an X server. It fails where a window goes while it reads; then it is asked again."""
    for _ in range(5):
        words = ["xwd", "-root", "-silent", "-display", f":{display}"]
        done = subprocess.run(words, stdout=subprocess.PIPE, stderr=subprocess.DEVNULL, timeout=20)
        if done.returncode == 0:
            return done.stdout
        loopback.wait_until(lambda: False, 0.3)
    raise RuntimeError(f"xwd doesn't read display :{display}")


def from_x(display):
    """What an X server shows (the format of xwd)."""
    data = dump(display)
    head = struct.unpack(">25I", data[:100])
    width, height, line = head[4], head[5], head[12]
    size = head[11] // 8
    if size not in (3, 4) or head[7] != 0:
        raise RuntimeError("an X server whose pixels aren't three or four bytes, the lowest first")
    start = head[0] + 12 * head[19]
    rows = []
    for y in range(height):
        pixels = data[start + y * line : start + y * line + size * width]
        row = bytearray(4 * width)
        for part in range(3):
            row[part::4] = pixels[part::size]
        rows.append(bytes(row))
    return Picture(width, height, rows)


def from_ppm(path):
    data = path.read_bytes()
    found = re.match(rb"P6\s+(\d+)\s+(\d+)\s+255\s", data)
    width, height = int(found[1]), int(found[2])
    rows = []
    for y in range(height):
        line = data[found.end() + 3 * width * y : found.end() + 3 * width * (y + 1)]
        row = bytearray(4 * width)
        row[0::4], row[1::4], row[2::4] = line[2::3], line[1::3], line[0::3]
        rows.append(bytes(row))
    return Picture(width, height, rows)


def start_x(words):
    """An X server that picks its display by itself: its number."""
    ours, its = os.pipe()
    loopback.start([*words, "-displayfd", its], pass_fds=(its,))
    os.close(its)
    said = b""
    while not said.endswith(b"\n"):
        ready, _, _ = select.select([ours], [], [], 20)
        more = os.read(ours, 16) if ready else b""
        if not more:
            raise RuntimeError(f"{words[0]} didn't start")
        said += more
    os.close(ours)
    return int(said)


def environment(display):
    return {name: value for name, value in os.environ.items() if name != "XAUTHORITY"} | {"DISPLAY": f":{display}"}


def xdotool(display, *words):
    done = subprocess.run(
        ["xdotool", *map(str, words)], env=environment(display), capture_output=True, text=True, timeout=30
    )
    return done.stdout


class XHost:
    """A host whose screen is an X server's: letters, a noisy picture, and a terminal that shows what is typed."""

    spot = (300, 220)

    def __init__(self, room, port=None, is_bare=False):
        self.room, self.port = room, port or loopback.free_port()
        before = list(loopback.children)
        self.display = self.start()
        if not is_bare:
            self.furnish()
        self.children = [child for child in loopback.children if child not in before]
        if not loopback.wait_until(lambda: loopback.is_open(self.port), 20):
            raise RuntimeError(f"{self.name} doesn't listen")

    def furnish(self):
        more = {"env": environment(self.display)}
        noise = self.room / "noise.xbm"
        dots = ",\n".join(f"0x{(k * k * 31 + k * 7 >> 3) & 255:02x}" for k in range(512))
        noise.write_text(f"#define n_width 64\n#define n_height 64\nstatic char n_bits[] = {{\n{dots}}};\n")
        subprocess.run(["xsetroot", "-bitmap", noise, "-fg", "#c05a21", "-bg", "#1f4788"], check=True, timeout=20, **more)
        self.typed_file = self.room / "typed"
        self.typed_file.write_text("")
        letters = f"ls -la --color=always /usr /etc | head -30; stty raw echo; exec cat > {self.typed_file}"
        loopback.start(["xterm", "-geometry", "90x28+20+30", "-fn", "fixed", "-e", "sh", "-c", letters], **more)
        loopback.start(["xeyes", "-geometry", "+20+430"], **more)
        xdotool(self.display, "mousemove", 600, 60)
        loopback.wait_until(lambda: False, 2.0)

    def end(self):
        for child in self.children:
            loopback.end(child, 0.5)

    def picture(self):
        return from_x(self.display)

    def pointer(self):
        said = xdotool(self.display, "getmouselocation")
        return tuple(int(it) for it in re.findall(r"[xy]:(\d+)", said))

    def typed(self):
        return self.typed_file.read_text(errors="replace")


class Xvnc(XHost):
    name = "Xvnc"

    def start(self):
        return start_x(
            ["Xvnc", "-rfbport", str(self.port), "-SecurityTypes", "None", "-localhost", "-depth", "24", "-AlwaysShared"]
            + ["-geometry", f"{WIDTH}x{HEIGHT}", "-AcceptSetDesktopSize=0", "-nolisten", "tcp"]
        )


class Scraped(XHost):
    """A server that looks at another X server's screen."""

    def start(self):
        display = start_x(["Xvfb", "-screen", "0", f"{WIDTH}x{HEIGHT}x24", "-nolisten", "tcp"])
        loopback.start([*self.words, "-display", f":{display}", "-rfbport", self.port])
        return display


class X0vncserver(Scraped):
    name = "x0vncserver"
    words = ("x0vncserver", "-SecurityTypes", "None", "-localhost")


class X11vnc(Scraped):
    name = "x11vnc"
    words = ("x11vnc", "-localhost", "-forever", "-shared", "-nopw", "-quiet", "-noxdamage")


class Qemu:
    """A machine whose first sector shows each key that is typed; it has no mouse."""

    name = "QEMU"
    spot = (300, 200)

    # Hide the text cursor (int 10h, 01h); then for ever read a key (int 16h, 00h) and show it (int 10h, 0Eh).
    BOOT = bytes.fromhex("B401 B90020 CD10 31C0 CD16 B40E 31DB CD10 EBF4".replace(" ", ""))

    def __init__(self, room):
        self.room, number = room, loopback.free_port() - 5900
        self.port, self.shots = number + 5900, 0
        disk = room / "disk"
        disk.write_bytes(self.BOOT.ljust(510, b"\0") + b"\x55\xaa")
        self.child = loopback.start(
            ["qemu-system-x86_64", "-vnc", f"127.0.0.1:{number},share=force-shared", "-display", "none"]
            + ["-nodefaults", "-vga", "std", "-monitor", "stdio", "-drive", f"file={disk},format=raw,if=floppy"],
            stdin=subprocess.PIPE,
        )
        if not loopback.wait_until_open(self.port, self.child, 20):
            raise RuntimeError("QEMU doesn't listen")
        loopback.wait_until(lambda: False, 8.0)
        self.first = self.picture().rows

    def picture(self):
        self.shots += 1
        shot = self.room / f"shot{self.shots}.ppm"
        self.child.stdin.write(f"screendump {shot}\n".encode())
        self.child.stdin.flush()
        loopback.wait_until(shot.exists, 10)
        loopback.wait_until(lambda: False, 0.3)
        return from_ppm(shot)

    def pointer(self):
        return None

    def typed(self):
        """What is typed shows on the screen alone: by the screen, whether it is another than before, and which."""
        shown = self.picture().rows
        return "" if shown == self.first else f"hello {hash(tuple(shown))}"


HOSTS = {it.name: it for it in (Xvnc, X0vncserver, X11vnc, Qemu)}


class Viewer:
    """A viewer on an X server of its own, somewhat larger than the host's screen."""

    def __init__(self, kind, low, port, looks_on, room, more=()):
        self.low, self.looks_on, self.room = low, looks_on, room
        self.name = kind + (", low colour" if low else "") + (", looks on" if looks_on else "")
        self.display = start_x(["Xvfb", "-screen", "0", "1024x768x24", "-nolisten", "tcp", "-noreset"])
        self.server = loopback.children[-1]
        subprocess.run(["xsetroot", "-solid", "#102030"], env=environment(self.display), check=True, timeout=20)
        self.offset = None
        words = self.command(kind, port, more)
        self.child = loopback.start(words, env=environment(self.display) | self.own_environment())

    def command(self, kind, port, more):
        return [*COMMANDS[kind], *more, *(self.low[0] if self.low else ()), *self.where(kind, port)]

    def where(self, kind, port):
        """The words that say to which port it connects."""
        return (f"127.0.0.1:{port - 5900}" if kind == "gvncviewer" else f"127.0.0.1::{port}",)

    def own_environment(self):
        return {"HOME": str(self.room)}

    def shows(self, host, pointer):
        """Whether the host's picture stands in the viewer's window, but for the pointer."""
        shown = from_x(self.display)
        if self.low:
            return self.shows_low(shown, host, pointer)
        wanted = host.without(pointer)
        self.offset = self.find(shown, host, pointer)
        if self.offset is None:
            return False
        return shown.cut(*self.offset, host.width, host.height).without(pointer).rows == wanted.rows

    def find(self, shown, host, pointer):
        """Where the picture begins, by rows that the pointer isn't in."""
        top = 0 if pointer is None or pointer[1] >= host.height // 2 else host.height // 2
        bottom = top + host.height // 2 - POINTER
        found = shown.offset_of(host.cut(0, top, host.width, bottom - top))
        if found is None or found[1] < top or found[1] - top + host.height > shown.height:
            return None
        return found[0], found[1] - top

    def shows_low(self, shown, host, pointer):
        """In low colour: at the top left of the window, which is where these viewers begin their picture."""
        for offset in self.corners():
            cut = shown.cut(*offset, host.width, host.height)
            if len(cut.rows) == host.height and len(cut.rows[0]) == 4 * host.width:
                if self.is_low(cut.without(pointer), host.without(pointer)):
                    self.offset = offset
                    return True
        return False

    def corners(self):
        """The top left corners of all windows that are shown."""
        said = xdotool(self.display, "search", "--onlyvisible", "--name", ".*")
        found = set()
        for window in said.split():
            place = xdotool(self.display, "getwindowgeometry", window)
            at = re.search(r"Position: (-?\d+),(-?\d+)", place)
            if at and int(at[1]) >= 0 and int(at[2]) >= 0:
                found.add((int(at[1]), int(at[2])))
        return sorted(found)

    def is_low(self, cut, host):
        """Whether each of the host's colours is one colour here, within a step of each of its components."""
        colors = {}
        for ours, its in zip(cut.rows, host.rows):
            for (a,), (b,) in set(zip(struct.iter_unpack("4s", ours), struct.iter_unpack("4s", its))):
                if colors.setdefault(b, a) != a:
                    return False
        red, green, blue = (255 / most for most in self.low[1])
        return len(set(colors.values())) > 1 and all(
            abs(a[2] - b[2]) <= red and abs(a[1] - b[1]) <= green and abs(a[0] - b[0]) <= blue for b, a in colors.items()
        )

    def focus(self):
        """Without a window manager nobody else gives the window the keyboard."""
        for window in xdotool(self.display, "search", "--onlyvisible", "--name", ".+").split():
            xdotool(self.display, "windowfocus", window)

    def point(self, x, y):
        """Clicks there, and points there again: TigerVNC's viewer tells of the pointer from its first click on."""
        self.focus()
        left, top = self.offset or (0, 0)
        for words in (["click", "1"], []):
            for step in (-6, -3, 0):
                xdotool(self.display, "mousemove", left + x + step, top + y + step, *(words if step == 0 else []))
                loopback.wait_until(lambda: False, 0.2)

    def type(self, letters):
        self.focus()
        for letter in letters:
            xdotool(self.display, "key", letter)

    def end(self):
        loopback.end(self.child)
        loopback.end(self.server, 0.5)

    def windows(self):
        """The names of the windows that it shows."""
        found = xdotool(self.display, "search", "--onlyvisible", "--name", ".+").split()
        return [xdotool(self.display, "getwindowname", window).strip() for window in found]


class Listener(Viewer):
    """A viewer that waits at the port until it is connected to."""

    def __init__(self, kind, port, looks_on, room):
        super().__init__(kind, None, port, looks_on, room)
        self.name += ", called"
        if not loopback.wait_until_open(port, self.child, 20):
            raise RuntimeError(f"{self.name}: it doesn't listen")

    def where(self, kind, port):
        """TigerVNC's viewer takes a port, and the others a number that is added to 5500."""
        return "-listen", port if kind == "TigerVNC" else port - 5500


def version(package):
    done = subprocess.run(["dpkg-query", "-W", "-f=${Version}", package], capture_output=True, text=True)
    return done.stdout or "?"


def versions():
    """The packages of hosts and viewers, as Debian names their versions."""
    tools = ("xdotool", "x11-apps", "xterm", "x11-xserver-utils")
    names = [it for it in PACKAGES.values() if it not in tools] + ["remmina"]
    return ", ".join(f"{name} {version(name)}" for name in dict.fromkeys(names))
