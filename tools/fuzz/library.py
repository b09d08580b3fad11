"""The proved readers, as `crates/c_trial` gives them to C, behind calls that take and answer bytes."""

import contextlib
import ctypes
import pathlib
import shutil
import subprocess
import tempfile

TOP = pathlib.Path(__file__).resolve().parents[2]
ROOM = 1 << 22


def build(folder, archive=None):
    """Links the static library, which is proved and built first unless it is named, as a shared one."""
    crate = TOP / "crates" / "c_trial"
    if not archive:
        subprocess.run(["rt", "lib"], cwd=crate, check=True, stdout=subprocess.DEVNULL)
        archive = crate / "out" / "libc_trial.a"
    kit = pathlib.Path(shutil.which("rt")).resolve().parents[1]
    shared = pathlib.Path(folder) / "c_trial.so"
    names = ["viewer_hello", "host_hello", "client", "host", "rectangle", "encode"]
    keep = [f"-Wl,-u,fuzz_{name}" for name in names]
    parts = [archive, kit / "c" / "liblibc_c.a"]
    subprocess.run(["gcc", "-O2", "-shared", "-fPIC", "-o", shared, *keep, *parts], check=True)
    return shared


class Library:
    def __init__(self, shared):
        self.code = ctypes.CDLL(str(shared))
        self.out = ctypes.create_string_buffer(ROOM)

    def call(self, name, *arguments):
        """Calls it with numbers and bytes. What it wrote down."""
        given = []
        for argument in arguments:
            if isinstance(argument, int):
                given.append(ctypes.c_uint32(argument))
            else:
                given += [argument, ctypes.c_size_t(len(argument))]
        function = getattr(self.code, f"fuzz_{name}")
        function.restype = ctypes.c_size_t
        length = function(*given, self.out, ctypes.c_size_t(ROOM))
        return ctypes.string_at(self.out, length)


def program(name="reflectord"):
    """The path of a program, which is proved and built first."""
    crate = TOP / "crates" / name
    words = ["rt", "run", "--", *(["replay"] if name == "reflectord" else [])]
    subprocess.run(words, cwd=crate, check=True, stdin=subprocess.DEVNULL, stderr=subprocess.DEVNULL)
    return crate / "out" / name


@contextlib.contextmanager
def built(archive=None):
    """The path of the shared library, which is there until the end of the block."""
    with tempfile.TemporaryDirectory(prefix="fuzz-") as folder:
        yield build(folder, archive)
