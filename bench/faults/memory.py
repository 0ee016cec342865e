"""Memory that is refused: each request of a run for memory in turn. This part asks for a C compiler, `cc`, and is left out where there is none.

A library that is loaded before the program counts its requests and refuses the one whose number stands in the environment. Every
request is tried, or with STEP=7 in the environment every seventh.
"""

import concurrent.futures
import os
import shutil
import subprocess
import tempfile

from cases import SHOWN, SHOWN_AFTER, U_FILES
from texts import example

LIBRARY = r"""
#include <stdio.h>
#include <stdlib.h>
extern void *__libc_malloc(size_t size);
extern void *__libc_realloc(void *old, size_t size);
static long refused = -1, count = 0;
static int is_refused(void) {
    if (refused < 0) { const char *text = getenv("REFUSED"); refused = text ? atol(text) : 0; }
    return ++count == refused;
}
void *malloc(size_t size) { return is_refused() ? 0 : __libc_malloc(size); }
void *realloc(void *old, size_t size) { return is_refused() ? 0 : __libc_realloc(old, size); }
__attribute__((destructor)) static void tell(void) {
    const char *path = getenv("COUNTED");
    FILE *file = path ? fopen(path, "w") : 0;
    if (file) { fprintf(file, "%ld", count); fclose(file); }
}
"""

ROW_12 = (
    "User::AddField(tmp: Text {read: none, write: none}, u -> u.secret)\nUser::RemoveField(secret)\n"
    "User::AddField(secret: Text {read: public, write: none}, u -> u.tmp)\n"
)
# The lines of a session and their replies; the third, the seventh and the thirteenth change what is stored.
SESSION = (
    ("open a as User @2", "ok version 1"), ("read a User @1 email", 'ok "a@x"'), ('migrate "s.scm"', "applied obligations 1 version 2"), ("read a User @1 email", "stale 1 2"),
    ("renew a", "ok version 2"), ("read a User @1 email", "denied email"), ('write a User @2 email "c@x"', "ok"), ("read a User @2 email", 'ok "c@x"'), ("open b as User @1", "ok version 2"),
    ("find b User {isAdmin: true}", "ok [@1]"), ('find b User {email: "c@x"}', "ok []"), ("write b User @1 age 5", "denied age"),
    ('create b User {email: "n", age: 1, isAdmin: false, secret: "", manager: self}', "ok @3"), ("delete b User @1", "denied delete"), ("open b as User @2", "taken"), ("close b", "ok"),
    ("read b User @1 email", "no session"), ("read a User @9 email", "no record"),
)  # fmt: skip
WRITTEN = SHOWN_AFTER.replace("b@x", "c@x")
CREATED = WRITTEN.replace("User @3", "User @4").replace('manager: @1}\n}\n', 'manager: @1}\n  @3 {email: "n", age: 1, isAdmin: false, secret: "", manager: @3}\n}\n')


def shown_after(lines):
    return SHOWN if lines < 3 else SHOWN_AFTER if lines < 7 else WRITTEN if lines < 13 else CREATED


class Refusing:
    """Runs of words in folders, in which one request for memory is refused."""

    def __init__(self, cases, place):
        self.cases = cases
        self.library = os.path.join(place, "refusing.so")
        with open(os.path.join(place, "refusing.c"), "w", encoding="utf-8") as file:
            file.write(LIBRARY)
        subprocess.run(["cc", "-shared", "-fPIC", "-O1", "-o", self.library, file.name], check=True)
        os.chmod(place, 0o755)

    def run(self, folder, words, number, input=None):
        given = {**os.environ, "LD_PRELOAD": self.library, "REFUSED": str(number), "COUNTED": folder.at("counted")}
        return folder.run(*words, input=input, env=given)

    def requests(self, make, words, input=None):
        """How many requests there are where none is refused, and what the words come to."""
        folder = make()
        answer = self.run(folder, words, 0, input)
        with open(folder.at("counted"), encoding="ascii") as file:
            return int(file.read()), answer

    def each(self, what, make, words, is_right, input=None):
        """Every request, or each STEP-th, is refused in turn."""
        step = int(os.environ.get("STEP", "1"))
        count, whole = self.requests(make, words, input)
        lanes = os.cpu_count() or 1

        def one(number):
            folder = make()
            answer = self.run(folder, words, number, input)
            held = folder.shown() if os.path.exists(folder.at("scooter.db")) else None
            return number, answer, held

        refused = 0
        with concurrent.futures.ThreadPoolExecutor(lanes) as pool:
            for number, answer, held in pool.map(one, range(1, count + 1, step)):
                refused += answer[0] == 13
                self.cases.same(f"{what}, request {number} refused: {answer[0]} {held and held[0]}", is_right(answer, held, whole), True)
        print(f"  {what}: {count} requests, each {step}th of them refused: {refused} times 13", flush=True)


def refused_memory(cases):
    if shutil.which("cc") is None:
        print("  no C compiler: left out")
        return
    files = {**U_FILES, "flow.scm": ROW_12}
    application = {"a.spec": example("app.spec"), "a.scm": example("app.scm")}

    def new():
        return cases.folder(files)

    def filled():
        return new().filled()

    with tempfile.TemporaryDirectory() as place:
        refusing = Refusing(cases, place)
        refusing.each("a script that leaks by a field", new, ("check", "u.spec", "flow.scm"), looked)
        refusing.each("show", filled, ("show",), kept)
        refusing.each("check SCRIPT", filled, ("check", "flow.scm"), kept)
        refusing.each("apply of a leak", filled, ("apply", "leak.scm"), kept)
        refusing.each("apply", filled, ("apply", "s.scm"), applied)
        refusing.each("init", new, ("init", "u.spec", "d.txt"), initialised)
        refusing.each("serve", filled, ("serve",), served, input="".join(line + "\n" for line, _ in SESSION))
        refusing.each("prove", new, ("prove", "u.spec", "s.scm"), certified)
        refusing.each("the application of examples/", lambda: cases.folder(application), ("check", "a.spec", "a.scm"), looked)
        cases.same("gen 40, request 1,000 refused", refusing.run(cases.folder({}), ("gen", "40"), 1000), (13, ""))


# Whether an answer is right, with what `show` says of the store behind it (None where there is no file), beside the whole answer.


def looked(answer, held, whole):
    return held is None and is_same(answer, whole)


def kept(answer, held, whole):
    return held == (0, SHOWN) and is_same(answer, whole)


def applied(answer, held, whole):
    return (answer, held) in ((whole, (0, SHOWN_AFTER)), ((13, ""), (0, SHOWN)))


def certified(answer, held, whole):
    """At 13 a front of a certificate may be put out."""
    return held is None and (answer == whole or (answer[0] == 13 and whole[1].startswith(answer[1])))


def is_same(answer, whole):
    """The whole answer, or want of memory; where a leak is made smaller no more, it may be another one of the same command."""
    if whole[0] == 6 and answer[0] == 6:
        return answer[1].split("\n")[0] == whole[1].split("\n")[0] and answer[1].endswith("\nend\n")
    return answer in (whole, (13, ""))


def initialised(answer, held, whole):
    """Where `init` is refused nothing is stored: there is no file, or one that holds no table."""
    if answer == whole:
        return held == (0, SHOWN)
    return answer == (13, "") and held in (None, (9, "store is empty\n"))


def served(answer, held, whole):
    """At 13 the replies to some lines are put out, and what these leave is stored."""
    status, output = answer
    lines = output.count("\n")
    replies = "".join(reply + "\n" for _, reply in SESSION[:lines])
    return (answer == whole or status == 13) and output == replies and held == (0, shown_after(lines))


PARTS = (refused_memory,)
