"""The program as a process: where its answer goes, where its lines come from, what lies in the place of its files and its store."""

import os
import random
import resource
import signal
import socket
import sqlite3
import subprocess
import threading

from cases import LEAK, SHOWN, SHOWN_AFTER, TIGHT, U_SPEC, USAGE

# A line that changes the store, and one behind it.
LINES = 'open a as User @1\nwrite a User @1 email "new"\nread a User @1 email\n'
REPLIES = 'ok version 1\nok\nok "new"\n'
CERT = "certificate 1\nduty 1\n"
STORE_WORDS = (("show",), ("check", "s.scm"), ("apply", "s.scm"), ("init", "u.spec"), ("serve",))
FILE_WORDS = ((("check", "u.spec", "s.scm"), "accepted obligations 1\n"), (("gen", "2"), "gen 2 commands 2 obligations 12 accepted\nloosened leak command 2 field Note.t2 right read\n"))  # fmt: skip


def closed_pipe():
    end, start = os.pipe()
    os.close(end)
    return start


# Outputs that take nothing: how each is had, and what a child does before it begins.
OUTPUTS = {
    "a full device": (lambda: os.open("/dev/full", os.O_WRONLY), None),
    "a closed pipe": (closed_pipe, None),
    "a file opened to be read": (lambda: os.open(os.devnull, os.O_RDONLY), None),
    "no output": (lambda: os.open(os.devnull, os.O_WRONLY), lambda: os.close(1)),
}


def outputs(cases):
    """An answer that cannot be written: 11, and the store holds what was to be stored where the command was carried out."""
    for what, (output, before) in OUTPUTS.items():

        def run(folder, *words, **how):
            end = output()
            got = folder.run(*words, stdout=end, stderr=subprocess.DEVNULL, preexec_fn=before, **how)
            os.close(end)
            return got

        folder = cases.folder()
        for words in ((), ("check", "u.spec", "s.scm"), ("check", "u.spec", "leak.scm"), ("check", "u.spec", "nowhere"), ("gen", "2"), ("prove", "u.spec", "s.scm"), ("recheck", "u.spec", "s.scm", "s.scm"), ("impact", "u.spec", "s.scm"), ("show",)):  # fmt: skip
            cases.same(f"{what}: {' '.join(words)}", run(folder, *words), (11, ""))
        cases.same(f"{what}: init", run(folder, "init", "u.spec", "d.txt"), (11, ""))
        cases.same(f"{what}: init stored what it was to", folder.shown(), (0, SHOWN))
        cases.same(f"{what}: show", run(folder, "show"), (11, ""))
        cases.same(f"{what}: check SCRIPT", run(folder, "check", "s.scm"), (11, ""))
        cases.same(f"{what}: apply of a leak", run(folder, "apply", "leak.scm"), (11, ""))
        cases.same(f"{what}: a leak changed nothing", folder.shown(), (0, SHOWN))
        cases.same(f"{what}: serve without lines", run(folder, "serve"), (0, ""))
        cases.same(f"{what}: serve of lines without a reply", run(folder, "serve", input="\n # none\n\n"), (0, ""))
        cases.same(f"{what}: serve ends at its first reply", run(folder, "serve", input=LINES), (11, ""))
        cases.same(f"{what}: the line behind it was not answered", folder.shown(), (0, SHOWN))
        cases.same(f"{what}: apply", run(folder, "apply", "s.scm"), (11, ""))
        cases.same(f"{what}: apply stored what it was to", folder.shown(), (0, SHOWN_AFTER))


def cut_outputs(cases):
    """An output that takes a front: 11, and the front is one of the whole answer."""
    folder = cases.folder()
    for words, whole in FILE_WORDS:
        for room in range(len(whole)):
            with open(folder.at("out"), "wb") as out:
                got = folder.run(*words, stdout=out, stderr=subprocess.DEVNULL, preexec_fn=lambda: limited(room))
            with open(folder.at("out"), "rb") as out:
                cases.same(f"a file with room for {room} bytes: {words[0]}", (got, out.read().decode()), ((11, ""), whole[:room]))
    for closed in range(4):
        lost_readers(cases, closed)
    folder = cases.folder({"w.spec": "static Visitor\n" * 1 + "".join(f"model M{i} {{\n  create: none,\n  delete: none,\n}}\n" for i in range(64))})
    cases.same("init", folder.run("init", "w.spec"), (0, "ok version 1\n"))
    whole = folder.shown()[1]
    for size in (1, 100, 1000):
        end, start = os.pipe()
        child = folder.start("show", stdout=start)
        os.close(start)
        front = os.read(end, size)
        os.close(end)
        ended = child.wait()
        cases.same(f"a pipe closed after {size} bytes: a front of the answer", whole.encode().startswith(front), True)
        cases.same(f"a pipe closed after {size} bytes: the status", ended in (0, 11), True)


def lost_readers(cases, answered):
    """Somebody reads the replies to so many lines, and goes: the next line is answered to nobody, and no further one is."""
    folder = cases.folder().filled()
    lines = ["open a as User @1"] + [f'write a User @1 email "{i}"' for i in range(1, 6)]
    child = folder.start("serve", stdin=subprocess.PIPE)
    for line in lines[:answered]:
        child.stdin.write(line.encode() + b"\n")
        child.stdin.flush()
        child.stdout.readline()
    child.stdout.close()
    feed(child, [line.encode() + b"\n" for line in lines[answered:]])
    cases.same(f"a reader who goes after {answered} lines", child.wait(), 11)
    email = f"{answered}" if answered else "a@x"
    cases.same(f"a reader who goes after {answered} lines: what is stored", folder.shown(), (0, SHOWN.replace("a@x", email)))


def limited(room):
    """Files grow to so many bytes at most, and a write beyond is an error."""
    signal.signal(signal.SIGXFSZ, signal.SIG_IGN)
    resource.setrlimit(resource.RLIMIT_FSIZE, (room, room))


def feed(child, pieces):
    """Gives the child its input, up to where it takes no more."""
    try:
        for piece in pieces:
            child.stdin.write(piece)
        child.stdin.close()
    except BrokenPipeError:
        pass


def served(folder, pieces):
    """What `serve` answers to an input that comes in pieces."""
    child = folder.start("serve", stdin=subprocess.PIPE)
    feeder = threading.Thread(target=feed, args=(child, pieces))
    feeder.start()
    output = child.stdout.read().decode()
    child.wait()
    feeder.join()
    child.stdout.close()
    return child.returncode, output


MOST_INPUT = 1_073_741_824


def filling(first, fill, last, size):
    """An input of so many bytes: the first ones, then a line over and over, cut, then the last ones."""
    yield first
    left = size - len(first) - len(last)
    block = fill * ((1 << 20) // len(fill))
    while left > 0:
        yield block[:left]
        left -= len(block)
    yield last


def inputs(cases):
    """Inputs of `serve` that cannot be read, that never end a line, and that are too long."""
    folder = cases.folder().filled()
    with open("/dev/zero", "rb") as zero:
        cases.same("an input of zeros without an end", folder.run("serve", stdin=zero), (14, ""))
    for what, before in (("no input", lambda: os.close(0)), ("no input and no error output", lambda: (os.close(0), os.close(2)))):
        cases.same(f"{what}: serve", folder.run("serve", preexec_fn=before), (10, ""))
        cases.same(f"{what}: the store stays", folder.shown(), (0, SHOWN))
        cases.same(f"{what}: show", folder.run("show", preexec_fn=before), (0, SHOWN))
        cases.same(f"{what}: check", folder.run("check", "u.spec", "s.scm", preexec_fn=before), (0, "accepted obligations 1\n"))
    for what, end in (("a folder", os.open(folder.path, os.O_RDONLY)), ("a file opened to be written", os.open(os.devnull, os.O_WRONLY))):
        cases.same(f"{what} as the input", folder.run("serve", stdin=end), (10, ""))
        os.close(end)
    cases.same("an empty input", folder.run("serve"), (0, ""))
    first, last, comment = LINES.encode(), b"\nclose a\n", b"#" * 65_535 + b"\n"
    for what, pieces, wanted in (
        ("lines, and then no line end", filling(first, b"x", b"", MOST_INPUT + 5), (14, REPLIES)),
        ("comments, as many bytes as may be", filling(first, comment, last, MOST_INPUT - 1), (0, REPLIES + "ok\n")),
        ("comments, one byte more", filling(first, comment, last, MOST_INPUT), (14, REPLIES + "ok\n")),
        ("comments without an end", filling(first, comment, b"", 2 * MOST_INPUT), (14, REPLIES)),
        ("one line of all that may come", filling(b"", b"y", b"", MOST_INPUT - 1), (0, "bad line 65536\n")),
        ("a line in pieces, and the writer stops", (bytes((b,)) for b in b"open a as User @1"), (0, "ok version 1\n")),
    ):
        cases.same(what, served(cases.folder().filled(), pieces), wanted)


def shelves(cases):
    """What lies in the place of a specification or a script."""
    folder = cases.folder()
    os.symlink("loop", folder.at("loop"))
    os.symlink("nowhere", folder.at("dangling"))
    os.mkdir(folder.at("folder"))
    folder.put("closed", U_SPEC)
    os.chmod(folder.at("closed"), 0)
    listening = socket.socket(socket.AF_UNIX)
    listening.bind(folder.at("socket"))
    for name, wanted in (
        ("nowhere", (3, "missing nowhere\n")), ("dangling", (3, "missing dangling\n")), ("folder", (3, "missing folder\n")),
        ("u.spec/more", (3, "missing u.spec/more\n")), ("/dev/zero", (14, "too long /dev/zero\n")), ("/dev/null", (0, "accepted obligations 0\n")),
        ("loop", (10, "")), ("closed", (10, "")), ("socket", (10, "")), ("/proc/self/mem", (10, "")), ("n" * 256, (10, "")), ("n" * 255, (3, "missing " + "n" * 255 + "\n")),
        ("n" * 4096, (10, "")), ("n" * 4097, (2, USAGE)), (b"\xff", (2, USAGE)), ("", (2, USAGE)), ("-", (2, USAGE)),
    ):  # fmt: skip
        cases.same(f"a script that is {short_name(name)}", folder.run("check", "u.spec", name), wanted)
    cases.same("a specification that is empty", folder.run("check", "/dev/null", "/dev/null"), (0, "accepted obligations 0\n"))
    # One file may be open beside the standard ones: the loader's, then a text. The store has two.
    cases.same("one open file: check", folder.run("check", "u.spec", "s.scm", preexec_fn=lambda: few_files(4)), (0, "accepted obligations 1\n"))
    cases.same("one open file: show", folder.filled().run("show", preexec_fn=lambda: few_files(4)), (12, ""))
    listening.close()


def short_name(name):
    return name if len(name) < 40 else f"a name of {len(name)} bytes"


def few_files(count):
    resource.setrlimit(resource.RLIMIT_NOFILE, (count, count))


def written(path, pieces):
    """Writes into the pipe, and closes it."""
    with open(path, "wb", buffering=0) as end:
        for piece in pieces:
            end.write(piece)


def pipes(cases):
    """A specification that is a pipe, whose writer stops: what came before is the text."""
    text = U_SPEC.encode()
    for what, pieces, wanted in (
        ("whole, byte for byte", [bytes((b,)) for b in text], (0, "accepted obligations 1\n")),
        ("nothing", [], (5, "s.scm: command 1: unknown at 0\n")),
        ("a front", [text[:60]], (4, "slow: not grammar at token 13\n")),
        ("a front of a text", [text, b"static Visitor # ", b"\xe2\x82"], (4, f"slow: not text at {len(text) + 17}\n")),
        ("zeros without an end", (b"\0" * 65536 for _ in range(100)), (14, "too long slow\n")),
    ):
        folder = cases.folder()
        os.mkfifo(folder.at("slow"))
        folder.own(folder.at("slow"))
        child = folder.start("check", "slow", "s.scm")
        try:
            written(folder.at("slow"), pieces)
        except BrokenPipeError:
            pass
        output = child.communicate()[0].decode()
        cases.same(f"a pipe that gives {what}", (child.returncode, output), wanted)


def stores(cases):
    """What lies in the place of the store: a fault of the store, which prints nothing and changes nothing."""
    random.seed(1)
    noise = random.randbytes(20_000)
    for what, text in (
        ("one byte", b"\0"), ("random bytes", noise), ("few random bytes", noise[:99]), ("a page of random bytes", noise[:4096]),
        ("the front of a database, and random bytes", b"SQLite format 3\0" + noise), ("a text", SHOWN), ("another database", of_sqlite("CREATE TABLE t (x)")),
        ("a database in UTF-16", of_sqlite("PRAGMA encoding = 'UTF-16'", "CREATE TABLE t (x)")), ("a database of the same names", of_sqlite("CREATE TABLE head (x)")),
    ):  # fmt: skip
        folder = cases.folder()
        folder.put("scooter.db", text)
        refused(cases, folder, what)
        with open(folder.at("scooter.db"), "rb") as file:
            cases.same(f"{what}: it stays", file.read() == (text if isinstance(text, bytes) else text.encode()), True)
    folder = cases.folder()
    os.mkdir(folder.at("scooter.db"))
    refused(cases, folder, "a folder")
    folder = cases.folder()
    os.symlink("scooter.db", folder.at("scooter.db"))
    refused(cases, folder, "a loop of links")
    folder = cases.folder()
    folder.put("scooter.db", b"")
    for words in STORE_WORDS[:3] + STORE_WORDS[4:]:
        cases.same(f"an empty file: {words[0]}", folder.run(*words), (9, "store is empty\n"))
    cases.same("an empty file: init", folder.run("init", "u.spec", "d.txt"), (0, "ok version 1\n"))
    cases.same("an empty file: what init stored", folder.shown(), (0, SHOWN))
    for what, mode in (("may not be written", 0o444), ("may not be read", 0)):
        folder = cases.folder().filled()
        change_modes(folder, mode)
        refused(cases, folder, f"a store that {what}")
        change_modes(folder, 0o644)
        cases.same(f"a store that {what}: it stays", folder.shown(), (0, SHOWN))
    for begin in ("BEGIN EXCLUSIVE", "BEGIN IMMEDIATE"):
        folder = cases.folder().filled()
        other = sqlite3.connect(folder.at("scooter.db"), isolation_level=None)
        other.execute(begin)
        refused(cases, folder, f"a store that SQLite holds by {begin}")
        other.execute("ROLLBACK")
        other.close()
        own_all(folder)
        cases.same(f"a store that SQLite held by {begin}: it stays", folder.shown(), (0, SHOWN))


# Rows that are no store, by what SQLite does to a good one.
BROKEN = (
    "UPDATE head SET spec = 'model'", "UPDATE head SET version = 0", "DELETE FROM head", "UPDATE model SET name = 'Ghost'", "UPDATE model SET next = 1", "INSERT INTO record VALUES ('Ghost', 1, '{}')",
    "UPDATE record SET line = '{}' WHERE id = 2", "UPDATE record SET line = replace(line, '@1', '@9')", "INSERT INTO note VALUES (0, 1, 1, 'a b', NULL, 'read', '')", "DROP TABLE note", "CREATE TABLE more (x)",
)  # fmt: skip


def rows(cases):
    """Rows that are no store are a fault for each command that asks it."""
    for change in BROKEN:
        folder = cases.folder().filled()
        other = sqlite3.connect(folder.at("scooter.db"))
        other.execute(change)
        other.commit()
        other.close()
        own_all(folder)
        refused(cases, folder, change)


def change_modes(folder, mode):
    for name in os.listdir(folder.path):
        if name.startswith("scooter.db"):
            os.chmod(folder.at(name), mode)


def own_all(folder):
    for name in os.listdir(folder.path):
        folder.own(folder.at(name))


def of_sqlite(*statements):
    """The bytes of a database that SQLite makes."""
    path = f"/tmp/scooter-other-{os.getpid()}.db"
    other = sqlite3.connect(path)
    for statement in statements:
        other.execute(statement)
    other.commit()
    other.close()
    with open(path, "rb") as file:
        text = file.read()
    os.remove(path)
    return text


def refused(cases, folder, what):
    for words in STORE_WORDS:
        cases.same(f"{what}: {' '.join(words)}", folder.run(*words, input=LINES), (12, ""))
    for words, answer in FILE_WORDS:
        cases.same(f"{what}: {' '.join(words)}", folder.run(*words), (0, answer))


def full_disks(cases):
    """No room for the store: 12 and nothing printed, and it holds what it held or what was to be stored."""
    for script, after in ((TIGHT, SHOWN_AFTER), (LEAK, None)):
        for room in (*range(0, 40_000, 1_500), 65_536, 131_072):
            folder = cases.folder().filled()
            folder.put("now.scm", script)
            got = folder.run("apply", "now.scm", preexec_fn=lambda: limited(room))
            held = folder.shown()
            if after is None:
                cases.same(f"room for {room} bytes: a leak changes nothing", held, (0, SHOWN))
            elif got == (0, "applied obligations 1 version 2\n"):
                cases.same(f"room for {room} bytes: applied", held, (0, after))
            else:
                cases.same(f"room for {room} bytes: apply", got, (12, ""))
                cases.same(f"room for {room} bytes: what is stored", held in ((0, SHOWN), (0, after)), True)
    for room in range(0, 40_000, 1_500):
        folder = cases.folder()
        got = folder.run("init", "u.spec", "d.txt", preexec_fn=lambda: limited(room))
        held = folder.shown()
        wanted = ((0, SHOWN),) if got == (0, "ok version 1\n") else ((0, SHOWN), (9, "store is empty\n"))
        cases.same(f"room for {room} bytes: init", got[0] in (0, 12) and held in wanted, True)


PARTS = (outputs, cut_outputs, inputs, shelves, pipes, stores, rows, full_disks)
