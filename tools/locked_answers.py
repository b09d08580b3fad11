"""What newcomers say at ports that ask for a password, byte by byte, and what they are told."""

import pathlib
import re
import struct
import tempfile
import threading
import time
import urllib.request

import browsers
import locks
import loopback

# The address of a proxy that is believed, and how many wrong answers of an address are too many within so many seconds.
PROXY = "127.0.0.2"
MOST_WRONG, MINUTE = 10, 60

# How many newcomers a port over TCP has at a time, and so have both ports for browsers.
SLOTS = 64

# Where the program looks whether a newcomer's time is over: so many seconds later at the latest, and some for a busy
# machine.
LATE = 1.5

TOLD = "wrong password, after 2 s"


class Port:
    """A port that asks for a password, and newcomers to it."""

    def __init__(self, number, role, is_web):
        self.number, self.role, self.is_web = number, role, is_web
        self.name = ("full control" if role == "full" else "looks on") + (", web" if is_web else "")
        self.password = locks.RIGHT if role == "full" else locks.OTHER
        self.wrong = locks.OTHER if role == "full" else locks.RIGHT

    def talk(self, source, head=b"", timeout=20.0):
        return locks.talk(self.number, self.is_web, source, head, timeout)


class Locked:
    """A reflector whose ports all ask for a password, each role for its own."""

    def __init__(self, program, host, room, full_places=4, view_places=4):
        self.web = {"full": loopback.free_port(), "view": loopback.free_port()}
        more = ["--full-password-file", locks.line(room, locks.RIGHT)]
        more += ["--view-password-file", locks.line(room, locks.OTHER)]
        more += ["--web-full", self.web["full"], "--web-view", self.web["view"], "--proxy-from", PROXY]
        self.metrics = loopback.free_port()
        more += ["--metrics", f"127.0.0.1:{self.metrics}"]
        self.reflector = loopback.Reflector(program, host.port, full_places, view_places, more)
        if not self.reflector.wait():
            raise RuntimeError(f"the reflector doesn't serve: {self.reflector.said()}")
        over_tcp = [Port(self.reflector.full, "full", False), Port(self.reflector.view, "view", False)]
        self.ports = over_tcp + [Port(number, role, True) for role, number in self.web.items()]

    def refused(self, why, source=""):
        return len(re.findall(rf"viewer-refused why={why} role=\w+ address={re.escape(source)}", self.reflector.said()))

    def refused_in_all(self):
        """How many were refused, by the numbers for machines."""
        with urllib.request.urlopen(f"http://127.0.0.1:{self.metrics}/metrics", timeout=10) as answer:
            text = answer.read().decode()
        return sum(int(it) for it in re.findall(r"^\w+_refused_total\{.*\} (\d+)$", text, re.MULTILINE))

    def end(self):
        self.reflector.end()


class Sources:
    """Addresses of this machine that nobody has come from."""

    def __init__(self):
        self.last = 0

    def next(self):
        self.last += 1
        return f"127.1.{self.last // 250}.{self.last % 250 + 1}"


def told(link, begin, least=2.0):
    """What one is told who has answered wrongly, after how long, and that nothing follows."""
    reason, passed = locks.result_of(link), locks.since(begin)
    follows = locks.silence_of(link, 5.0)
    right = least <= passed <= least + LATE
    after = f", after {least:.0f} s" if right else f", after {passed:.1f} s"
    return reason + after + ("" if follows == "let go" else f", and then {follows}")


def slowly(link, payload):
    for byte in payload:
        link.say(bytes([byte]))
        time.sleep(0.005)


# ---- what a newcomer says: each is given a port and an address, and says what came of it


def byte_by_byte(port, source):
    link = port.talk(source)
    link.read(len(locks.VERSION))
    slowly(link, locks.VERSION)
    link.read(len(locks.TYPES))
    slowly(link, locks.CHOICE)
    slowly(link, locks.answer_to(link.read(locks.CHALLENGE_LEN), port.password))
    said = locks.result_of(link)
    size = locks.init_of(link)[:2]
    link.close()
    return said if size == (browsers.WIDTH, browsers.HEIGHT) else f"{said}, to a screen of {size}"


def at_once(port, source):
    """How soon one is told who answers rightly."""
    link = port.talk(source)
    challenge = locks.challenge_of(link)
    begin = time.monotonic()
    link.say(locks.answer_to(challenge, port.password))
    said, passed = locks.result_of(link), locks.since(begin)
    locks.init_of(link)
    link.close()
    return said if passed < 1.0 else f"{said}, after {passed:.1f} s"


def other_ports_password(port, source):
    link = port.talk(source)
    answer = locks.answer_to(locks.challenge_of(link), port.wrong)
    begin = time.monotonic()
    link.say(answer)
    return told(link, begin)


def empty_password(port, source):
    link = port.talk(source)
    answer = locks.answer_to(locks.challenge_of(link), "")
    begin = time.monotonic()
    link.say(answer)
    return told(link, begin)


def of_another_newcomer(port, source):
    """The right answer to the challenge of one who waits beside this one."""
    other, link = port.talk(source), port.talk(source)
    answer = locks.answer_to(locks.challenge_of(other), port.password)
    challenge = locks.challenge_of(link)
    begin = time.monotonic()
    link.say(answer)
    said = told(link, begin)
    other.say(answer)
    said_to_other = locks.result_of(other)
    other.close()
    return f"{said}; the other is {said_to_other}" if challenge != answer else "the same challenge"


def before_the_challenge(port, source):
    """All at once, and nothing heard before: the right answer to the challenge of the one before."""
    other = port.talk(source)
    answer = locks.answer_to(locks.challenge_of(other), port.password)
    other.close()
    link = port.talk(source)
    begin = time.monotonic()
    link.say(locks.VERSION + locks.CHOICE + answer)
    heard = link.read(len(locks.VERSION) + len(locks.TYPES) + locks.CHALLENGE_LEN)
    said = told(link, begin)
    return said if heard[:14] == locks.VERSION + locks.TYPES else f"{said}, behind {heard[:14]}"


def one_bit_off(port, source):
    link = port.talk(source)
    answer = bytearray(locks.answer_to(locks.challenge_of(link), port.password))
    answer[-1] ^= 1
    begin = time.monotonic()
    link.say(bytes(answer))
    return told(link, begin)


def type_none(port, source):
    link = port.talk(source)
    link.read(len(locks.VERSION))
    link.say(locks.VERSION)
    link.read(len(locks.TYPES))
    link.say(b"\1")
    return locks.silence_of(link, 5.0)


def older_version(port, source):
    link = port.talk(source)
    link.read(len(locks.VERSION))
    link.say(b"RFB 003.003\n")
    return locks.silence_of(link, 5.0)


def after_a_minute(count):
    """One that says so many bytes of its answer, and no more, and when it is let go."""

    def stops(port, source):
        link = port.talk(source)
        challenge = locks.challenge_of(link)
        begin = time.monotonic()
        link.say(locks.answer_to(challenge, port.password)[:count])
        came = locks.silence_of(link, 60 + 5 * LATE)
        passed = locks.since(begin)
        return f"{came}, after {60 if 59.0 < passed < 60 + LATE else round(passed, 1)} s"

    return stops


SAYINGS = [
    ("the right answer, each byte alone", byte_by_byte, "let in"),
    ("the right answer at once", at_once, "let in"),
    ("the answer by the other role's password", other_ports_password, TOLD),
    ("the answer by an empty password", empty_password, TOLD),
    ("the right answer but for one bit", one_bit_off, TOLD),
    ("the answer to another newcomer's challenge", of_another_newcomer, f"{TOLD}; the other is let in"),
    ("an answer before the challenge", before_the_challenge, TOLD),
    ("the choice of type None", type_none, "let go"),
    ("version 3.3", older_version, "let go"),
    ("no answer", after_a_minute(0), "let go, after 60 s"),
    ("fifteen bytes of the right answer", after_a_minute(15), "let go, after 60 s"),
]


class Table:
    """What was said, what came of it at each port, and whether it is as it should be."""

    def __init__(self):
        self.is_right = True

    def head(self, *names):
        print("\n| " + " | ".join(names) + " |\n|" + "---|" * len(names), flush=True)

    def row(self, what, wanted, *found):
        self.is_right = self.is_right and all(it == wanted for it in found)
        cells = [it if it == wanted else f"{it}, NOT {wanted}" for it in found]
        print(f"| {what} | {' | '.join(cells)} |", flush=True)


def result_or_end(work):
    try:
        return work()
    except (EOFError, OSError, ValueError, struct.error) as why:
        return f"{type(why).__name__} {why}".strip()


def together(works):
    """What comes of these, which are done at the same time."""
    found = [None] * len(works)

    def do(at):
        found[at] = result_or_end(works[at])

    threads = [threading.Thread(target=do, args=(at,), daemon=True) for at in range(len(works))]
    for thread in threads:
        thread.start()
    for thread in threads:
        thread.join(120)
    return [str(it) for it in found]


def sayings(table, locked, sources):
    table.head("What a newcomer says", *(port.name for port in locked.ports))
    all_found = together(
        [lambda port=port, say=say: say(port, sources.next()) for _, say, _ in SAYINGS for port in locked.ports]
    )
    width = len(locked.ports)
    for at, (what, _, wanted) in enumerate(SAYINGS):
        table.row(what, wanted, *all_found[width * at : width * (at + 1)])


# ---- places


def places(table, program, room, sources):
    """Newcomers that don't answer hold no place; who answers rightly and finds none is told so."""
    host = browsers.Host()
    locked = Locked(program, host, room, 1, 1)
    try:
        found = {"waiting": [], "taken": []}
        for port in locked.ports:
            silent = [port.talk(sources.next()) for _ in range(10)]
            for link in silent:
                locks.challenge_of(link)
            inside = port.talk(sources.next())
            inside.say(locks.answer_to(locks.challenge_of(inside), port.password))
            found["waiting"].append(result_or_end(lambda: locks.result_of(inside)))
            locks.init_of(inside)
            late = port.talk(sources.next())
            late.say(locks.answer_to(locks.challenge_of(late), port.password))
            found["taken"].append(result_or_end(lambda: locks.result_of(late)))
            for link in (*silent, inside, late):
                link.close()
            served = len(found["taken"])
            loopback.wait_until(lambda: locked.reflector.said().count("viewer-out ") == served, 10)
        table.row("the right answer, while ten wait that don't answer, for one place", "let in", *found["waiting"])
        table.row("the right answer, while all places are taken", "all places are taken", *found["taken"])
    finally:
        locked.end()
        host.close()


def in_a_crowd(table, locked, sources):
    """One that was asked three seconds ago, and others that fill the porter's slots."""
    found = []
    for port in locked.ports:
        asked = port.talk(sources.next())
        locks.challenge_of(asked)
        time.sleep(3.0)
        crowd = [locks.TcpTalk(port.number, sources.next()) for _ in range(SLOTS - 1)]
        found.append(locks.silence_of(asked, 4.0))
        for link in (*crowd, asked):
            link.close()
        time.sleep(1.0)
    table.row(f"no answer for 3 s, and then {SLOTS - 1} more come that say nothing", "let go", *found)


# ---- guesses


def guess(port, source, head=b""):
    """What one is told who has guessed wrongly."""
    link = port.talk(source, head)
    try:
        link.say(locks.answer_to(locks.challenge_of(link), locks.WRONG))
        return locks.result_of(link)
    finally:
        link.close()


def guess_often(ports, source, count=MOST_WRONG, head=b""):
    """So many wrong answers at the same time, at these ports in turn: how many of them are told."""
    works = [lambda at=at: guess(ports[at % len(ports)], source, head) for at in range(count)]
    return together(works).count("wrong password")


def hears(port, source, head=b"", seconds=2.0):
    """Whether one that comes from there hears something."""
    try:
        link = locks.TcpTalk(port.number, source, head) if not port.is_web else port.talk(source, head, seconds)
    except TimeoutError:
        return "nothing"
    except EOFError:
        return "let go"
    came = locks.silence_of(link, seconds)
    link.close()
    return "asked" if came == repr(locks.VERSION[:1]) else came


def comes_in(port, source, head=b"", timeout=20.0):
    """What one is told who comes from there and knows the password."""
    try:
        link = port.talk(source, head, timeout)
        link.say(locks.answer_to(locks.challenge_of(link), port.password))
        return locks.result_of(link)
    except TimeoutError:
        return "nothing"


def in_turn(table, locked, sources):
    """Ten wrong answers of one address, one after another, at the port of full control."""
    full, view, web_full, web_view = locked.ports
    source, other = sources.next(), sources.next()
    early = full.talk(source)
    challenge = locks.challenge_of(early)
    begin, count = time.monotonic(), 0
    for _ in range(MOST_WRONG - 1):
        count += guess(full, source) == "wrong password"
    table.row("nine wrong answers, one after another", "9 told", f"{count} told")
    table.row("the next from there", "asked", hears(full, source))
    count += guess(full, source) == "wrong password"
    table.row("and a tenth", "10 told", f"{count} told")
    table.row("the next from there", "nothing", hears(full, source))
    early.say(locks.answer_to(challenge, full.password))
    table.row("the right answer of one from there that was asked before", "nothing", locks.silence_of(early, 2.0))
    early.close()
    table.row("one from elsewhere that knows the password", "let in", result_or_end(lambda: comes_in(full, other)))
    for name, port in (("looks on", view), ("full control, web", web_full), ("looks on, web", web_view)):
        found = result_or_end(lambda: comes_in(port, source))
        table.row(f"one from there that knows the password, at the port `{name}`", "let in", found)
    # The first was noted when it was heard, and is forgotten a minute later.
    loopback.wait_until(lambda: hears(full, source, b"", 0.5) == "asked", MINUTE + 10, 0.2)
    passed = locks.since(begin)
    table.row("the next from there is asked again, after the first", "60 s",
              "60 s" if MINUTE - 1 <= passed <= MINUTE + 2 * LATE else f"{passed:.1f} s")
    table.row("and one from there that knows the password", "let in", result_or_end(lambda: comes_in(full, source)))


def all_at_once(table, locked, sources):
    """Twenty wrong answers of one address at the same time."""
    full = locked.ports[0]
    source = sources.next()
    links = [full.talk(source) for _ in range(20)]
    answers = [locks.answer_to(locks.challenge_of(link), locks.WRONG) for link in links]
    for link, answer in zip(links, answers):
        link.say(answer)
    time.sleep(2.0 + 2 * LATE)
    count = 0
    for link in links:
        link.link.settimeout(0.1)
        count += result_or_end(lambda: locks.result_of(link)) == "wrong password"
        link.close()
    table.row("twenty wrong answers at the same time", "10 told", f"{count} told")
    table.row("of them in the log", "10", str(locked.refused("password", source + ":")))
    table.row("the next from there", "nothing", hears(full, source))


def of_browsers(table, locked, sources):
    """Both ports for browsers count together."""
    full, view, web_full, web_view = locked.ports
    source = sources.next()
    count = guess_often([web_full, web_view], source)
    table.row("five wrong answers at each port for browsers", "10 told", f"{count} told")
    for name, port in (("full control", web_full), ("looks on", web_view)):
        table.row(f"the next browser from there, `{name}`", "nothing", hears(port, source))
    for name, port in (("full control", full), ("looks on", view)):
        found = result_or_end(lambda: comes_in(port, source))
        table.row(f"one from there that knows the password, over TCP, `{name}`", "let in", found)


def of_a_proxy(table, locked, _sources):
    """Behind a proxy that is believed it is the address that its header tells."""
    for port, number in ((locked.ports[0], 7), (locked.ports[3], 17)):
        guesser, other = (locks.proxy_header(f"192.0.2.{at}") for at in (number, number + 1))
        count = guess_often([port], PROXY, MOST_WRONG, guesser)
        name = f"192.0.2.{number}"
        table.row(f"ten wrong answers of {name} by a proxy, `{port.name}`", "10 told", f"{count} told")
        # Its address is known only once the header has come.
        table.row(f"the next of {name}", "asked", hears(port, PROXY, guesser))
        found = result_or_end(lambda: comes_in(port, PROXY, guesser, 4.0))
        table.row(f"the next of {name}, which knows the password", "nothing", found)
        found = result_or_end(lambda: comes_in(port, PROXY, other))
        table.row(f"one of 192.0.2.{number + 1} that knows the password", "let in", found)


def tell_guesses(table, locked, sources):
    table.head("Of one address, within a minute", "Found")
    for part in (all_at_once, of_browsers, of_a_proxy, in_turn):
        part(table, locked, sources)
    table.row("the program goes on", "yes", "yes" if locked.reflector.child.poll() is None else "no")
    in_log = locked.reflector.said().count("viewer-refused ")
    table.row("refused, by the log and by the numbers for machines", str(in_log), str(locked.refused_in_all()))
    secrets = [it for it in (locks.RIGHT, locks.OTHER, locks.WRONG) if it in locked.reflector.said()]
    table.row("passwords in its log", "none", ", ".join(secrets) or "none")


def answers(program, room):
    """What newcomers of Python say, at all four ports. Whether all is as it should be."""
    table, sources, host = Table(), Sources(), browsers.Host()
    locked = Locked(program, host, pathlib.Path(tempfile.mkdtemp(dir=room)), 32, 32)
    try:
        sayings(table, locked, sources)
        in_a_crowd(table, locked, sources)
        places(table, program, room, sources)
        tell_guesses(table, locked, sources)
    finally:
        locked.end()
        host.close()
    return table.is_right
