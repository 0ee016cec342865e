"""Texts that are cut, changed by a byte, or made to break the program. What each comes to is worked out by grammar.py, or by hand beside it."""

import concurrent.futures
import os
import re

from cases import TOP, U_DATA, U_SPEC
from grammar import cause_of, place_of_request

EXCHANGES = (0x00, 0x22, 0x40, 0x7F, 0x80, 0xFF)
# Obligations of each command of examples/app.scm for each kind of principal; from the fifth on there are three kinds, before it two.
APP_OBLIGATIONS = (1, 1, 1, 0, 0, 0, 1, 1, 2, 0, 0, 1)


def example(name):
    with open(os.path.join(TOP, "examples", name), "rb") as file:
        return file.read()


def many(cases, rows):
    """Each row in a folder of its own lane: what it is, the words, the files that it needs, and what the words come to."""
    rows = list(rows)
    lanes = os.cpu_count() or 1

    def lane(first):
        folder = cases.folder({})
        out = []
        for what, words, files, wanted in rows[first::lanes]:
            for name, text in files.items():
                folder.put(name, text)
            out.append((what, folder.run(*words), wanted))
        return out

    with concurrent.futures.ThreadPoolExecutor(lanes) as pool:
        for answers in pool.map(lane, range(lanes)):
            for answer in answers:
                cases.same(*answer)


def served(cases, what, lines, wanted, files=None):
    """What a session over U's data answers to the lines: the replies."""
    folder = cases.folder()
    for name, text in (files or {}).items():
        folder.put(name, text)
    text = b"".join(line + b"\n" for line in lines)
    cases.same(what, folder.filled().run("serve", input=text), (0, "".join(reply + "\n" for reply in wanted if reply is not None)))


def accepted(commands):
    """What a check of so many commands of examples/app.scm answers."""
    kinds = 3 if commands >= 5 else 2
    return 0, f"accepted obligations {kinds * sum(APP_OBLIGATIONS[:commands])}\n"


def script_rows(spec, texts):
    for what, text, whole in texts:
        cause = cause_of(text, "script")
        yield what, ("check", "a.spec", "s.scm"), {"a.spec": spec, "s.scm": text}, whole if cause is None else (4, f"s.scm: {cause}\n")


def script_fronts(cases):
    """Each front of the script of examples/: whole commands are accepted, and any other front is refused where it ends."""
    spec, script = example("app.spec"), example("app.scm")
    ends = [found.start() for found in re.finditer(rb"\n", script)]
    texts = []
    for size in range(len(script) + 1):
        # A command is whole once its last parenthesis is there, at the end of its line.
        texts.append((f"the first {size} bytes of app.scm", script[:size], accepted(sum(end <= size for end in ends))))
    many(cases, script_rows(spec, texts))


def script_exchanges(cases):
    """Each byte of the script of examples/ exchanged for another."""
    spec, script = example("app.spec"), example("app.scm")
    texts = (
        (f"byte {at} of app.scm exchanged for {byte:#04x}", script[:at] + bytes((byte,)) + script[at + 1 :], accepted(12))
        for at in range(len(script))
        for byte in EXCHANGES
    )
    many(cases, script_rows(spec, texts))


def spec_fronts(cases):
    """Each front of a specification: where it is one, the script names what is not there yet, or is fine."""

    def rows():
        text = U_SPEC.encode()
        for size in range(len(text) + 1):
            cause = cause_of(text[:size], "spec")
            wanted = (4, f"f.spec: {cause}\n") if cause else (0, "accepted obligations 0\n")
            yield f"the first {size} bytes of a specification", ("check", "f.spec", "e.scm"), {"f.spec": text[:size], "e.scm": b""}, wanted

    many(cases, rows())


def data_fronts(cases):
    """Each front of data, and each byte of data exchanged: a refused text stores nothing."""
    text = U_DATA.encode()
    spec = {"u.spec": U_SPEC}
    rows = []
    for size in range(len(text) + 1):
        cause = cause_of(text[:size], "database")
        if cause:
            rows.append((f"the first {size} bytes of data", ("init", "u.spec", "f.txt"), {**spec, "f.txt": text[:size]}, (4, f"f.txt: {cause}\n")))
    whole = 0
    for size in range(len(text) + 1):
        if cause_of(text[:size], "database") is None:
            folder = cases.folder({**spec, "f.txt": text[:size]})
            cases.same(f"the first {size} bytes of data", folder.run("init", "u.spec", "f.txt"), (0, "ok version 1\n"))
            held = U_DATA if size > 1 else "User @1 {\n}\n"
            cases.same(f"the first {size} bytes of data, shown", folder.shown(), (0, "version 1\n" + U_SPEC + held))
            whole += 1
    cases.same("fronts of data that are data: nothing, and all with or without the last line end", whole, 3)
    for at in range(len(text)):
        for byte in EXCHANGES:
            changed = text[:at] + bytes((byte,)) + text[at + 1 :]
            cause = cause_of(changed, "database")
            if cause:
                rows.append((f"byte {at} of data exchanged for {byte:#04x}", ("init", "u.spec", "f.txt"), {**spec, "f.txt": changed}, (4, f"f.txt: {cause}\n")))
    many(cases, rows)


REQUESTS = (
    b"open z as User @2", b"open z as Visitor", b"renew z", b"close z", b"read z User @1 email", b'find z User {isAdmin: true, email != "c", age >= -5}', b"find z User {}",
    b'write z User @2 email "c\\x01\\"@x"', b"write z User @2 manager @1", b'create z User {email: "n", age: 1, isAdmin: false, secret: "", manager: self}',
    b"delete z User @1", b'migrate "t\\x41.scm"', b"read z User @1 email # again",
)  # fmt: skip


def request_fronts(cases):
    """Each front of each request: a line that is none is refused where it ends. No session `z` is there, so the others find none, but for `open`."""
    lines, wanted = [], []
    for request in REQUESTS:
        for size in range(len(request) + 1):
            line = request[:size]
            lines.append(line)
            place = place_of_request(line)
            words = line.split()
            if place is not None:
                wanted.append(f"bad line {place}")
            elif not words or words[0].startswith(b"#"):
                wanted.append(None)
            elif words[0] == b"open":
                # A static, or a model without its number, is not there; and a record that is not there is no principal.
                number = line.partition(b"@")[2]
                wanted.append("ok version 1" if number else f"unknown {line.index(words[3])}")
            elif words[0] == b"migrate":
                wanted.append("missing tA.scm")
            else:
                wanted.append("no session")
        if request.startswith(b"open z as User"):
            lines.append(b"close z")
            wanted.append("ok")
    served(cases, "each front of each request", lines, wanted)


def request_exchanges(cases):
    """Each byte of each request exchanged: where the line is none any more, the place says so."""
    lines, wanted = [], []
    for request in REQUESTS:
        for at in range(len(request)):
            for byte in EXCHANGES:
                line = request[:at] + bytes((byte,)) + request[at + 1 :]
                place = place_of_request(line)
                if place is not None:
                    lines.append(line)
                    wanted.append(f"bad line {place}")
    served(cases, f"{len(lines)} requests that are spoiled by a byte", lines, wanted)


def certificate_fronts(cases):
    """Each front of a certificate lacks the line that would come next; one that is longer has a line too many."""
    spec, script = example("groups.spec"), example("minutes-mended.scm")
    files = {"g.spec": spec, "m.scm": script}
    folder = cases.folder(files)
    status, text = folder.run("prove", "g.spec", "m.scm")
    cases.same("a certificate", (status, text[:14]), (0, "certificate 1\n"))
    text = text.encode()
    lines = text.count(b"\n")

    def rows():
        for size in range(len(text)):
            front = text[:size]
            yield f"the first {size} bytes of a certificate", ("recheck", "g.spec", "m.scm", "c"), {**files, "c": front}, (16, f"c: bad line {front.count(10) + 1}\n")
        yield "a whole certificate", ("recheck", "g.spec", "m.scm", "c"), {**files, "c": text}, (0, "certified obligations 1\n")
        for more in (b"\n", b"x", b"\0", b"end\n", text):
            yield f"a certificate and {more[:9]!r}", ("recheck", "g.spec", "m.scm", "c"), {**files, "c": text + more}, (16, f"c: bad line {lines + 1}\n")
        for byte in (0x00, 0x20, 0x40, 0x7F, 0x80, 0xFF):
            for at in range(len(text)):
                line = text[:at].count(10) + 1
                if text[at] == byte:
                    continue
                changed = text[:at] + bytes((byte,)) + text[at + 1 :]
                yield f"byte {at} of a certificate exchanged for {byte:#04x}", ("recheck", "g.spec", "m.scm", "c"), {**files, "c": changed}, (16, f"c: bad line {line}\n")

    many(cases, rows())


MILLION = 1_000_000


def openings(cases):
    """A million openings, and no end: of parentheses, lists, comments and texts, as a whole file and where an expression stands."""
    spec = b"principal model User {create: public, delete: none, email: Text {read: public, write: none}}"
    head = b"User::UpdateFieldPolicy(email, {read: u -> "
    rows = []
    for opening in (b"(", b"[", b"{", b"((", b"if ", b"!", b"!(", b"match ", b"[(", b"User::Find({email: (", b"some(", b"-", b"u.", b"u+", b"#", b"#\n", b'"', b'"\n', b'""', b'"\\', b"@", b"::", b"\xc3", b"\xc3\xa9", b" "):
        text = opening * (MILLION // len(opening))
        for form, name, words in (("script", "s.scm", ("check", "u.spec", "s.scm")), ("spec", "u.spec", ("check", "u.spec", "s.scm"))):
            for where, whole in (("", text), (" in a policy", head + text)):
                files = {"u.spec": spec, "s.scm": b""}
                files[name] = whole
                cause = cause_of(whole, form)
                wanted = (4, f"{name}: {cause}\n") if cause else (0, "accepted obligations 0\n")
                rows.append((f"a million of {opening!r} as a {form}{where}", words, files, wanted))
        for where, whole in (("", text), (" as a value", b"User @2 {@1 {email: " + text)):
            cause = cause_of(whole, "database")
            wanted = (4, f"d.txt: {cause}\n") if cause else (0, "ok version 1\n")
            rows.append((f"a million of {opening!r} as data{where}", ("init", "u.spec", "d.txt"), {"u.spec": spec, "d.txt": whole}, wanted))
    for what, words, files, wanted in rows:
        cases.same(what, cases.folder(files).run(*words), wanted)
    lines, replies = [], []
    for opening in (b"(", b"[", b"{", b"some(", b"#", b'"', b"@", b"\xc3", b" "):
        for head in (b"", b"write z User @1 email ", b"find z User {email: "):
            for size in (65_536, 65_537, 200_000):
                line = head + opening * size
                line = line[:size]
                place = 65_536 if size > 65_536 else place_of_request(line)
                lines.append(line)
                replies.append(None if place is None else f"bad line {place}")
    served(cases, "lines of openings", lines, replies)


PARTS = (script_fronts, script_exchanges, spec_fronts, data_fronts, request_fronts, request_exchanges, certificate_fronts, openings)
