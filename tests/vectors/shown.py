#!/usr/bin/env python3
"""Recordings and the pictures that they show at times, in Python: shown.py FOLDER PICTURES

Makes, in the folder of `crates/show_trial`, the recordings in `data/` and the lines of `stdin`, and in the file
PICTURES the pictures that these lines ask for, in the form of `png_trial`'s lines. The recordings come of the texts of
RFB and of FBS 001.000 alone; the host and its screen are those of `pictures.py`. It shares no code with the crates.

    tools/try-png PICTURES FILES      compares the files that `show_trial` printed with the pictures
"""

import importlib.util
import os
import random
import struct
import sys

HERE = os.path.dirname(os.path.abspath(__file__))
spec = importlib.util.spec_from_file_location("pictures", os.path.join(HERE, "pictures.py"))
pictures = importlib.util.module_from_spec(spec)
spec.loader.exec_module(pictures)


def block(said, time):
    return struct.pack(">I", len(said)) + said + bytes(-len(said) % 4) + struct.pack(">I", time)


def opening(version, w, h):
    """What a host says up to ServerInit, by version (RFC 6143, 7.1 to 7.3, appendix A)."""
    init = struct.pack(">HH", w, h) + bytes(16) + struct.pack(">I", 4) + b"host"
    if version == 3:
        return b"RFB 003.003\n" + struct.pack(">I", 1) + init
    if version == 7:
        return b"RFB 003.007\n\x01\x01" + init
    return b"RFB 003.008\n\x01\x01" + bytes(4) + init


def main():
    folder = sys.argv[1]
    os.makedirs(folder + "/data", exist_ok=True)
    rng, lines, wants = random.Random(2031), [], []

    def save(name, content):
        open("%s/data/%s" % (folder, name), "wb").write(content)

    def ask(name, at, host, messages):
        lines.append("%s %s" % (name, at))
        wants.append("%d %d %s" % (host.w, host.h, pictures.runs(host.screens[messages])))

    def refuse(name, at):
        lines.append("%s %s" % (name, at))

    lines.append("# a message each second, in Raw, Hextile, RRE and CopyRect; the last one is cut off")
    host = pictures.Host(rng, 24, 20)
    for kind in [host.raw, host.hextile, host.rre, host.copy]:
        host.update([host.one(kind), host.one(kind)])
    host.update([lambda: host.hextile(0, 0, 24, 20)])
    content = b"FBS 001.000\n" + block(opening(8, 24, 20), 10)
    for count, message in enumerate(host.messages):
        content += block(message, 1000 * (count + 1))
    save("seconds.fbs", content[:-8])
    shown = [(10, 0), (999, 0), (1000, 1), (1001, 1), (2500, 2), (4000, 4), (4999, 4), (5000, 4), ("end", 4)]
    for at, messages in shown:
        ask("seconds.fbs", at, host, messages)
    lines.append("# messages cut into blocks anywhere: a message counts once its last block's time has come")
    for version in [3, 7, 8]:
        host = pictures.Host(rng, 9, 7)
        for _ in range(5):
            host.chance()
        stream = opening(version, 9, 7)
        ends = [len(stream)]
        for message in host.messages:
            stream += message
            ends.append(len(stream))
        content, at, time, shown = b"FBS 001.000\n", 0, 0, []
        while at < len(stream):
            size = rng.choice([1, 3, 10, 200])
            content += block(stream[at : at + size], time)
            at += size
            shown.append((time, at))
            time += rng.choice([0, 0, 5, 250])
        name = "version_3_%d.fbs" % version
        save(name, content)
        times = sorted({time for time, _ in shown})
        for asked in [times[len(times) // 2], times[-1] - 1, times[-1], "end"]:
            come = max([at for time, at in shown if asked == "end" or time <= asked] or [0])
            messages = sum(end <= come for end in ends) - 1
            if messages >= 0:
                ask(name, asked, host, messages)
    lines.append("# no screen yet, no recording, no file")
    refuse("seconds.fbs", 9)
    save("other.txt", b"a text of some length\n")
    refuse("other.txt", "end")
    refuse("none.fbs", "end")
    lines.append("# what no host may say, from second 2 on; a time that goes back")
    host = pictures.Host(rng, 3, 2)
    host.update([lambda: host.raw(0, 0, 3, 2)])
    begun = b"FBS 001.000\n" + block(opening(8, 3, 2), 0) + block(host.messages[0], 1000)
    save("fault.fbs", begun + block(b"\x09", 2000))
    ask("fault.fbs", 1999, host, 1)
    refuse("fault.fbs", 2000)
    faulty = host
    save("back.fbs", begun + block(b"\x02", 500))
    ask("back.fbs", 999, host, 0)
    refuse("back.fbs", "end")
    lines.append("# each two seconds: at 2 and 4, since at 0 there is no screen; a recording of an hour and two minutes")
    lines.append("seconds.fbs each 2")
    host = pictures.Host(rng, 5, 3)
    host.update([lambda: host.hextile(0, 0, 5, 3)])
    host.update([lambda: host.raw(1, 1, 3, 2)])
    late = b"FBS 001.000\n" + block(opening(8, 5, 3), 5000) + block(host.messages[0], 5999)
    save("late.fbs", late + block(host.messages[1], 3725000))
    lines.append("late.fbs each 1241")
    for second, messages in [("00-20-41", 1), ("00-41-22", 1), ("01-02-03", 1)]:
        lines.append("print ./%s.png" % second)
        wants.append("%d %d %s" % (host.w, host.h, pictures.runs(host.screens[messages])))
    lines.append("late.fbs each 3725")
    lines.append("print ./01-02-05.png")
    wants.append("%d %d %s" % (host.w, host.h, pictures.runs(host.screens[2])))
    lines.append("# a recording that is at fault at second 2: the pictures before that are there")
    refuse("fault.fbs", "each 1")
    host = faulty
    for second, messages in [("00-00-00", 0), ("00-00-01", 1)]:
        lines.append("print ./%s.png" % second)
        wants.append("%d %d %s" % (host.w, host.h, pictures.runs(host.screens[messages])))
    open(folder + "/stdin", "w").write("\n".join(lines) + "\n")
    open(sys.argv[2], "w").write("\n".join(wants) + "\n")


main()
