#!/usr/bin/env python3
"""Runs the gate on some processors, and says what it cost: bench/gate.py [--processors N] [WORD..]

The gate (`rt ci`, or the words, as `tools/gate-of CRATE..`, or `rt ci --anew` where the kit keeps what earlier runs
proved) runs in a copy of the last commit. Other guests of a machine slow it in two ways: they take its processors away
for a while, which the system counts as stolen, and they share what lies behind a processor, so that the same work takes
more of its time. So a check of a crate of one function runs beside the gate every 240 seconds, on the same processors.
The minutes are reckoned to a machine that nobody else uses: less what was stolen, and by how much longer that check
took than at its fastest, which is sought before the gate, too, or known (--fastest SECONDS).

Printed are the gate's last line, minutes, CPU minutes, how far the processors were idle and stolen, how long the check
took, the most memory that all checks held at one time, and for each crate the CPU seconds of its proof, its tests, its
wrong bodies and (of a program) its two builds, by sampling every two seconds, and the largest process. What is left of
the CPU minutes is runs of tests and programs, linking, and the kit's own work.
"""

import argparse
import collections
import os
import pathlib
import resource
import shutil
import subprocess
import sys
import tempfile
import threading
import time

KIT = pathlib.Path(shutil.which("rt")).resolve().parent.parent
PROBE = '//! One function.\n#![tactic(auto)]\n\n/// One.\npub fn one() -> u32 {\n    1\n}\n'
TICKS = os.sysconf("SC_CLK_TCK")


def probe(room):
    """The CPU seconds of a check of a crate of one function."""
    library = [f"--extern=std={KIT}/rlibs/std.rlib", f"-Ldependency={KIT}/rlibs"]
    logic = [f"--antt-project={KIT}/rattle/logic/antt-project.json", f"--logic-built={KIT}/logic_built"]
    words = ["--jobs=1", "--links=one=", "--crate-name=one", "src/lib.rt"]
    (room / "src").mkdir(exist_ok=True)
    (room / "src/lib.rt").write_text(PROBE)
    how = {"cwd": room, "stdout": subprocess.PIPE, "stderr": subprocess.STDOUT}
    ran = subprocess.Popen([KIT / "bin/rattle", "check", *library, *logic, *words], **how)
    said = ran.stdout.read().decode()
    _, status, used = os.wait4(ran.pid, 0)
    if status:
        sys.exit(f"bench/gate.py: the check failed: {said}")
    return used.ru_utime + used.ru_stime


def shares(processors):
    """The ticks that these processors were idle, that were stolen from them, and all."""
    rows = [it.split() for it in open("/proc/stat") if it.startswith(tuple(f"cpu{it} " for it in processors))]
    numbers = [[int(it) for it in row[1:9]] for row in rows]
    return sum(it[3] + it[4] for it in numbers), sum(it[7] for it in numbers), sum(map(sum, numbers))


def parents():
    """The parent of each process."""
    found = {}
    for process in pathlib.Path("/proc").glob("[0-9]*"):
        try:
            found[process.name] = (process / "stat").read_text().rpartition(")")[2].split()[1]
        except OSError:
            continue
    return found


def under(gate):
    """The processes that the gate has begun, which run now."""
    above = parents()

    def is_under(process):
        while process in above and process != str(gate):
            process = above[process]
        return process == str(gate)

    return [pathlib.Path("/proc", it) for it in above if is_under(it)]


class Samples:
    """What each check of the gate has used: the CPU seconds and the memory of each process, by its crate and what it
    does."""

    def __init__(self):
        self.used = {}
        self.together = 0

    def take(self, gate):
        held = 0
        for process in under(gate):
            try:
                words = (process / "cmdline").read_bytes().decode().split("\0")
                if "--crate-name" not in words:
                    continue
                crate = words[words.index("--crate-name") + 1]
                # rt checks a crate with an edit in a folder of this name.
                is_edited = (process / "cwd").readlink().name.startswith("rt-edit-")
                what = "edits" if is_edited else "tests" if "--test" in words else "proof"
                # A program's two builds take what its check proved.
                what = "programs" if "--crate-checked" in words else what
                ticks = (process / "stat").read_text().rpartition(")")[2].split()
                status = (process / "status").read_text()
                memory = status.partition("VmHWM:")[2].split()[0]
                held += int(status.partition("VmRSS:")[2].split()[0])
            except (OSError, IndexError):
                continue
            self.used[process.name, ticks[19]] = crate, what, (int(ticks[11]) + int(ticks[12])) / TICKS, int(memory)
        self.together = max(self.together, held)

    def print(self):
        print(f"together at most {self.together / 1000:,.0f} MB")
        rows = collections.defaultdict(lambda: collections.defaultdict(float))
        for crate, what, seconds, memory in self.used.values():
            rows[crate][what] += seconds
            rows[crate]["memory"] = max(rows[crate]["memory"], memory / 1000)
        kinds = "proof", "tests", "edits", "programs"
        print("CPU minutes:", ", ".join(f"{it} {sum(row[it] for row in rows.values()) / 60:.0f}" for it in kinds))
        for crate, row in sorted(rows.items()):
            print(f"| {crate} |", *(f"{row[it]:,.0f} |" for it in (*kinds, "memory")))


def run(room, words, processors):
    top = pathlib.Path(__file__).resolve().parent.parent
    subprocess.run(["git", "clone", "--quiet", top, room / "tree"], check=True)
    before = [probe(room) for _ in range(5)]
    samples, beside, is_over = Samples(), [], threading.Event()

    def watch():
        while not is_over.wait(words.every):
            beside.append(probe(room))

    was, began = shares(processors), time.monotonic()
    with open(room / "said", "w") as said:
        gate = subprocess.Popen(words.command or ["rt", "ci"], cwd=room / "tree", stdout=said, stderr=subprocess.STDOUT)
    watching = threading.Thread(target=watch)
    watching.start()
    while gate.poll() is None:
        samples.take(gate.pid)
        time.sleep(2)
    wall, now = time.monotonic() - began, shares(processors)
    is_over.set()
    watching.join()
    used = resource.getrusage(resource.RUSAGE_CHILDREN)
    report((room / "said").read_text(), wall, used.ru_utime + used.ru_stime - sum(before) - sum(beside))
    idle, stolen, ticks = (b - a for a, b in zip(was, now))
    fastest, mean = min([*before, *beside, words.fastest]), sum(beside) / max(len(beside), 1)
    print(f"{len(processors)} processors: idle {idle / ticks:.0%}, stolen {stolen / ticks:.0%}")
    print(f"the check: {fastest:.1f} CPU seconds at its fastest, {mean:.1f} beside the gate ({len(beside)} times)")
    if beside:
        alone = wall * (1 - stolen / ticks) * fastest / mean
        print(f"reckoned to a machine that nobody else uses: {alone / 60:.0f} minutes")
    samples.print()
    return gate.returncode


def report(said, wall, cpu):
    print("\n".join([it for it in said.splitlines() if "NOT" in it or "FAILED" in it] + said.splitlines()[-1:]))
    print(f"{wall / 60:.0f} minutes, {cpu / 60:.0f} CPU minutes")


def main():
    parser = argparse.ArgumentParser(description=__doc__, formatter_class=argparse.RawDescriptionHelpFormatter)
    parser.add_argument("--processors", type=int, default=2)
    parser.add_argument("--every", type=float, default=240)
    parser.add_argument("--fastest", type=float, default=float("inf"))
    parser.add_argument("command", nargs=argparse.REMAINDER, metavar="WORD")
    words = parser.parse_args()
    processors = sorted(os.sched_getaffinity(0))[: words.processors]
    os.sched_setaffinity(0, processors)
    with tempfile.TemporaryDirectory(prefix="gate-") as room:
        return run(pathlib.Path(room), words, processors)


if __name__ == "__main__":
    sys.exit(main())
