"""Real viewers at ports that ask for a password: each with the right one, a wrong one, and none."""

import os
import pathlib
import re
import subprocess
import tempfile
import time

import locks
import loopback
import peers

# TigerVNC's viewer offers all that it has; its words for the others name None alone.
WORDS = {"TigerVNC": ("-SecurityTypes=TLSVnc,VncAuth,None",)}

# How a viewer is handed a password: in a file, by whoever types it where it asks, or not at all.
FILE, TYPED, NOT = "from a file", "typed", "none"

# What is tried: the way, and the password.
CASES = [(FILE, locks.RIGHT), (TYPED, locks.RIGHT), (FILE, locks.WRONG), (TYPED, locks.WRONG), (NOT, None)]


class Asked(peers.Viewer):
    """A viewer that is handed a password in one of these ways."""

    ways = (FILE, TYPED, NOT)

    # What it says besides, where it doesn't know the password.
    endings = {locks.WRONG: "", None: ""}

    def __init__(self, kind, port, way, password, room):
        self.kind, self.way, self.password = kind, way, password
        self.picture_before = None
        more = [*WORDS.get(kind, ()), *(["-passwd", locks.seal(room, password)] if way == FILE else [])]
        super().__init__(kind, None, port, False, room, more)

    def is_still(self):
        """Whether it shows a window, and what it showed half a second ago."""
        before, self.picture_before = self.picture_before, peers.from_x(self.display).rows
        time.sleep(0.5)
        return bool(self.windows()) and before == self.picture_before

    def hand_over(self):
        """Types the password, once the viewer asks."""
        if self.way == TYPED:
            loopback.wait_until(self.is_still, 30)
            self.focus()
            peers.xdotool(self.display, "type", "--delay", 50, self.password)
            peers.xdotool(self.display, "key", "Return")

    def has_asked(self):
        """Whether one that has no password shows that it wants one, or has given up."""
        return self.child.poll() is not None or self.is_still()

    def shows_some(self, host, pointer):
        """Whether some of the host's picture stands in the viewer's window."""
        return self.find(peers.from_x(self.display), host, pointer) is not None

    def ending(self):
        return ""


class Typed(Asked):
    """gvncviewer, which takes a password by its window alone."""

    ways = (TYPED, NOT)


class Remmina(Asked):
    """Remmina, which keeps a password in the file of its connection, by a key of its own."""

    def __init__(self, kind, port, way, password, room):
        self.home = pathlib.Path(tempfile.mkdtemp(dir=room))
        self.profile = self.home / "host.remmina"
        self.port, self.others = port, loopback.connections_to(port)
        super().__init__(kind, port, way, password, room)

    def own_environment(self):
        return {"HOME": str(self.home), "XDG_RUNTIME_DIR": str(self.home)}

    def hand_over(self):
        """It asks inside its window, some time after it has connected."""
        if self.way == TYPED:
            loopback.wait_until(lambda: loopback.connections_to(self.port) > self.others, 30)
            time.sleep(3.0)
        super().hand_over()

    def command(self, kind, port, more):
        self.profile.write_text(
            f"[remmina]\nname=host\nprotocol=VNC\nserver=127.0.0.1:{port}\nquality=9\ncolordepth=32\n"
            "viewmode=1\nscale=0\nwindow_width=1000\nwindow_height=740\n"
        )
        words = ["dbus-run-session", "--", "remmina"]
        if self.way == FILE:
            subprocess.run(
                [*words, "--update-profile", self.profile, "--set-option", f"password={self.password}"],
                env=peers.environment(self.display) | self.own_environment(),
                check=True,
                timeout=60,
                capture_output=True,
            )
        return [*words, "-c", self.profile]


class Relayed:
    """What connects to the locked port and is a server itself, with a viewer before it that is asked for nothing."""

    ways = (FILE, NOT)
    endings = Asked.endings

    def __init__(self, kind, port, way, password, room):
        self.kind, self.way, self.room = kind, way, room
        self.own = loopback.free_port()
        self.viewer = None
        self.start(port, password)

    def hand_over(self):
        """A viewer comes once it serves."""
        if loopback.wait_until(lambda: self.serves() or self.has_ended(), 30) and self.serves():
            # x11vnc compresses by JPEG if it may.
            self.viewer = peers.Viewer("TigerVNC", None, self.own, False, self.room, ["-NoJPEG=1"])

    def serves(self):
        return loopback.is_open(self.own)

    def has_asked(self):
        return self.has_ended()

    def shows(self, host, pointer):
        return bool(self.viewer) and self.viewer.shows(host, pointer)

    def shows_some(self, host, pointer):
        return bool(self.viewer)

    def ending(self):
        return ""

    def type(self, letters):
        self.viewer.type(letters)

    def end(self):
        if self.viewer:
            self.viewer.end()
        self.stop()


class Reflecting(Relayed):
    """x11vnc, which takes the password from its environment."""

    def start(self, port, password):
        environment = {name: value for name, value in os.environ.items() if name != "DISPLAY"}
        environment["HOME"] = str(self.room)
        if password:
            environment["X11VNC_REFLECT_PASSWORD"] = f"file:{locks.line(self.room, password)}"
        self.child = loopback.start(
            ["x11vnc", "-reflect", f"127.0.0.1:{port}", "-rfbport", self.own, "-localhost", "-forever", "-shared"]
            + ["-nopw", "-quiet"],
            env=environment,
        )

    def has_ended(self):
        return self.child.poll() is not None

    def stop(self):
        loopback.end(self.child)


class Second(Relayed):
    """A second reflectord, whose host is the first one's port."""

    program = None
    endings = {locks.WRONG: ", fault 4", None: ", fault 3"}

    def start(self, port, password):
        more = ["--host-password-file", locks.line(self.room, password)] if password else []
        self.reflector = loopback.Reflector(self.program, port, more=more)

    def serves(self):
        self.own = self.reflector.full
        return "host-joined" in self.reflector.said()

    def has_ended(self):
        return self.reflector.child.poll() is not None

    def ending(self):
        said = re.search(r"fault \d+", self.reflector.said())
        return f", {said[0]}" if said else ""

    def stop(self):
        self.reflector.end()


KINDS = {
    "TigerVNC": Asked,
    "gvncviewer": Typed,
    "xtightvncviewer": Asked,
    "ssvncviewer": Asked,
    "Remmina": Remmina,
    "x11vnc -reflect": Reflecting,
    "a second reflectord": Second,
}


class Attempt:
    """Locked ports before a host, one viewer that knows the password and stays, and others, one after another."""

    def __init__(self, host, program, room, table):
        self.host, self.room, self.table, self.letters = host, room, table, 0
        lock = locks.line(room, locks.RIGHT)
        self.reflector = loopback.Reflector(
            program, host.port, more=["--full-password-file", lock, "--view-password-file", lock]
        )
        if not self.reflector.wait():
            raise RuntimeError(f"the reflector doesn't serve {host.name}: {self.reflector.said()}")
        self.beside = Asked("TigerVNC", self.reflector.full, FILE, locks.RIGHT, room)
        if not self.shows(self.beside):
            raise RuntimeError("the viewer that stays doesn't show the host's picture")
        self.beside.point(*host.spot)

    def count(self, pattern):
        return len(re.findall(pattern, self.reflector.said()))

    def shows(self, viewer, seconds=60):
        return loopback.wait_until(lambda: viewer.shows(self.host.picture(), self.host.pointer()), seconds, 0.3)

    def is_served(self):
        """Whether the viewer that stays types, the host gets it, and the viewer shows what comes of it."""
        before = self.host.typed()
        letter = "abcdefghijklmnopqrstuvwxyz"[self.letters % 26]
        self.letters += 1
        self.beside.type(letter)
        reached = loopback.wait_until(lambda: self.host.typed() == before + letter, 10)
        return reached and self.shows(self.beside, 20)

    def looks_on(self, viewer):
        """Whether what a viewer types doesn't reach the host."""
        before = self.host.typed()
        viewer.type("q")
        time.sleep(1.0)
        return self.host.typed() == before

    def hand_over(self, viewer, role):
        """Hands the password over. What is typed before a busy viewer asks is lost, and is typed again."""
        before = self.refused(role) + self.entered()
        for _ in range(3):
            viewer.hand_over()
            if viewer.way != TYPED or loopback.wait_until(lambda: self.refused(role) + self.entered() > before, 15):
                return

    def let_in(self, viewer, role):
        """What a viewer shows that knows the password."""
        self.hand_over(viewer, role)
        if not self.shows(viewer):
            return "another picture, or none"
        if not self.is_served() or not self.shows(viewer):
            return "not what the one beside it types"
        if role == "view" and not self.looks_on(viewer):
            return "the host's picture, and it may type"
        return "the host's picture"

    def kept_out(self, viewer, role, refused, entered):
        """What a viewer shows that doesn't know the password, and whether the one beside it is served meanwhile."""
        self.hand_over(viewer, role)
        if viewer.way == NOT:
            has_come = loopback.wait_until(viewer.has_asked, 30)
        else:
            has_come = loopback.wait_until(lambda: self.refused(role) > refused, 30)
        for _ in range(3):
            if not self.is_served():
                return "nothing, but the one beside it isn't served"
            if viewer.shows_some(self.host.picture(), self.host.pointer()) or self.entered() != entered:
                return "some of the host's picture, or it has a place"
            time.sleep(0.5)
        told = self.refused(role) - refused
        if not has_come or (viewer.way == NOT) != (told == 0):
            return f"nothing, but {told} wrong passwords are in the log"
        return "nothing" + viewer.ending()

    def refused(self, role):
        return self.count(f"viewer-refused why=password role={role} ")

    def entered(self):
        return self.count("viewer-in ")

    def run(self, name, role, way, password):
        kind = KINDS[name]
        refused, entered = self.refused(role), self.entered()
        viewer = kind(name, getattr(self.reflector, role), way, password, self.room)
        try:
            if password == locks.RIGHT:
                found, wanted = self.let_in(viewer, role), "the host's picture"
            else:
                found, wanted = self.kept_out(viewer, role, refused, entered), "nothing" + kind.endings[password]
            what = {locks.RIGHT: f"right, {way}", locks.WRONG: f"wrong, {way}", None: "none"}[password]
            if self.reflector.child.poll() is not None:
                found = "the reflector ended"
            self.table.row(name, role, what, found, wanted)
        finally:
            viewer.end()
            settled = lambda: self.count("viewer-in ") - self.count("viewer-out ") == 1  # noqa: E731
            loopback.wait_until(settled, 10, 0.1)

    def end(self):
        self.beside.end()
        self.reflector.end()


class Table:
    """What was tried, what a viewer showed, and whether that is as it should be."""

    def __init__(self):
        self.is_right = True
        print("\n| Viewer | Port | Password | Shows |\n|---|---|---|---|", flush=True)

    def row(self, viewer, role, what, found, wanted):
        self.is_right = self.is_right and found == wanted
        port = {"full": "full control", "view": "looks on"}[role]
        print(f"| {viewer} | {port} | {what} | {found}{'' if found == wanted else f', NOT {wanted}'} |", flush=True)


def passwords(program, room):
    """Each viewer at both ports. Whether all is as it should be."""
    Second.program = program
    host, table = peers.Xvnc(room), Table()
    for name, kind in KINDS.items():
        # Each has a reflector of its own, since wrong passwords of one address are counted.
        attempt = Attempt(host, program, pathlib.Path(tempfile.mkdtemp(dir=room)), table)
        try:
            for role in ("full", "view"):
                for way, password in CASES:
                    if way in kind.ways:
                        attempt.run(name, role, way, password)
        finally:
            attempt.end()
    return table.is_right
