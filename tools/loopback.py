"""What the tools that try `reflectord serve` share: children that always end, ports of 127.0.0.1, figures of /proc."""

import atexit
import ctypes
import importlib.machinery
import importlib.util
import os
import pathlib
import random
import shutil
import signal
import subprocess
import sys
import tempfile
import time

TOP = pathlib.Path(__file__).resolve().parent.parent
children = []
used_ports = set()
libc = ctypes.CDLL(None, use_errno=True)


class Late(BaseException):
    """The time that the tool has is over."""


def need(packages):
    """Ends the tool with the names of the Debian packages that are missing: packages has a package for each program."""
    missing = sorted({package for program, package in packages.items() if not shutil.which(program)})
    if missing:
        sys.exit(f"missing: apt-get install {' '.join(missing)}")


def with_parent():
    """A child gets a session of its own, and ends with the tool."""
    os.setsid()
    libc.prctl(1, signal.SIGKILL)


def start(words, said=subprocess.DEVNULL, **more):
    """A child, which is ended at exit at the latest."""
    more = {"stdin": subprocess.DEVNULL, "stdout": said, "stderr": said} | more
    child = subprocess.Popen([str(word) for word in words], preexec_fn=with_parent, **more)
    children.append(child)
    return child


def end(child, grace=3.0):
    """Ends a child with all that it started."""
    for sign, seconds in ((signal.SIGTERM, grace), (signal.SIGKILL, 3.0)):
        if child.poll() is not None:
            break
        try:
            os.killpg(child.pid, sign)
            child.wait(seconds)
        except (ProcessLookupError, PermissionError, subprocess.TimeoutExpired):
            continue
    if child in children:
        children.remove(child)
    return child.returncode


@atexit.register
def end_all():
    for child in list(children):
        end(child, 0.5)


def end_after(seconds):
    """The tool ends by `Late` after so many seconds, and when it is told to end."""

    def late(number, _):
        raise Late(f"ended after {seconds} seconds" if number == signal.SIGALRM else "told to end")

    for sign in (signal.SIGALRM, signal.SIGTERM, signal.SIGHUP):
        signal.signal(sign, late)
    signal.alarm(int(seconds))


def is_open(port):
    """Whether something listens at the port."""
    for name in ("/proc/net/tcp", "/proc/net/tcp6"):
        for line in pathlib.Path(name).read_text().splitlines()[1:]:
            words = line.split()
            if words[3] == "0A" and int(words[1].rsplit(":", 1)[1], 16) == port:
                return True
    return False


def connections_to(port):
    """How many connections to the port of 127.0.0.1 there are."""
    lines = pathlib.Path("/proc/net/tcp").read_text().splitlines()[1:]
    return sum(line.split()[2].endswith(f":{port:04X}") and line.split()[3] == "01" for line in lines)


def free_port():
    """A port of 127.0.0.1 that nobody has, above those of X displays."""
    while True:
        port = random.randint(20000, 29999)
        if port not in used_ports and not is_open(port):
            used_ports.add(port)
            return port


def wait_until(true, seconds=15.0, step=0.02):
    """Whether it became true in that time."""
    last = time.monotonic() + seconds
    while not true():
        if time.monotonic() > last:
            return False
        time.sleep(step)
    return True


def wait_until_open(port, child, seconds=15.0):
    wait_until(lambda: is_open(port) or child.poll() is not None, seconds)
    return is_open(port) and child.poll() is None


def processor_seconds(pid):
    """What all its threads took of the processors."""
    spent = 0
    for thread in os.listdir(f"/proc/{pid}/task"):
        try:
            spent += int(pathlib.Path(f"/proc/{pid}/task/{thread}/schedstat").read_text().split()[0])
        except OSError:
            continue
    return spent / 1e9


def status(pid, field):
    """A number of /proc/PID/status: VmRSS and VmHWM in KiB, Threads."""
    for line in pathlib.Path(f"/proc/{pid}/status").read_text().splitlines():
        if line.startswith(field + ":"):
            return int(line.split()[1])
    return 0


def descriptors(pid):
    return len(os.listdir(f"/proc/{pid}/fd"))


def find_program(named):
    """The reflectord that is named, or the one that `rt run` built here."""
    program = pathlib.Path(named) if named else TOP / "crates" / "reflectord" / "out" / "reflectord"
    if not os.access(program, os.X_OK):
        sys.exit(f"{program}: no such program; tools/install builds one")
    return program.resolve()


class Reflector:
    """A reflectord that serves the host at the port of 127.0.0.1, or of the text."""

    def __init__(self, program, host, full_places=32, view_places=32, more=(), environment=None):
        self.full, self.view = free_port(), free_port()
        self.room = tempfile.TemporaryDirectory(prefix="reflectord-")
        self.log = pathlib.Path(self.room.name) / "log"
        with open(self.log, "wb") as said:
            self.child = start(
                [program, "serve", "--host", f"127.0.0.1:{host}" if isinstance(host, int) else host, "--full", self.full, "--view", self.view]
                + ["--full-places", full_places, "--view-places", view_places, "--log", *more],
                said,
                env=os.environ | (environment or {}),
            )
        self.pid = self.child.pid

    def wait(self):
        """Whether it serves its host."""
        wait_until_open(self.full, self.child)
        return wait_until(lambda: "host-joined" in self.said() or self.child.poll() is not None)

    def said(self):
        return self.log.read_text(errors="replace")

    def end(self):
        end(self.child)
        self.room.cleanup()


def load_demo():
    """tools/demo, whose host and viewer others use."""
    loader = importlib.machinery.SourceFileLoader("demo", str(TOP / "tools" / "demo"))
    demo = importlib.util.module_from_spec(importlib.util.spec_from_loader("demo", loader))
    loader.exec_module(demo)
    return demo


def build_load(room):
    """The host and viewers of bench/serve, built by gcc."""
    need({"gcc": "gcc"})
    if not pathlib.Path("/usr/include/zlib.h").exists():
        sys.exit("missing: apt-get install zlib1g-dev")
    program = pathlib.Path(room) / "load"
    sources = sorted((TOP / "bench" / "serve").glob("*.c"))
    subprocess.run(["gcc", "-O2", "-pthread", "-o", program, *sources, "-lz"], check=True)
    return program
