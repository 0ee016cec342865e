"""What the parts of this bench share: the program, folders to run it in, and the count of what came out otherwise than it should."""

import os
import subprocess
import tempfile

TOP = os.path.dirname(os.path.dirname(os.path.dirname(os.path.abspath(__file__))))
NOBODY = 65534
SECONDS = 120

U_SPEC = """principal model User {
  create: public,
  delete: none,
  email: Text {read: public, write: u -> [u]},
  age: Int {read: none, write: none},
  isAdmin: Bool {read: public, write: none},
  secret: Text {read: u -> User::Find({isAdmin: true}), write: none},
  manager: Id(User) {read: u -> [u.manager], write: none},
}
"""
U_DATA = """User @3 {
  @1 {email: "a@x", age: 30, isAdmin: true, secret: "s1", manager: @1}
  @2 {email: "b@x", age: 20, isAdmin: false, secret: "s2", manager: @1}
}
"""
TIGHT = "User::UpdateFieldPolicy(email, {read: u -> [u]})\n"
LEAK = "User::UpdateFieldPolicy(email, {write: public})\n"
U_FILES = {"u.spec": U_SPEC, "d.txt": U_DATA, "s.scm": TIGHT, "leak.scm": LEAK}
USAGE = "usage: init SPEC [DATA], check [SPEC] SCRIPT, apply SCRIPT, show, serve, gen N, prove SPEC SCRIPT, recheck SPEC SCRIPT CERT, impact SPEC SCRIPT\n"
SHOWN = "version 1\n" + U_SPEC + U_DATA
SHOWN_AFTER = SHOWN.replace("version 1", "version 2").replace("email: Text {read: public", "email: Text {read: u -> [u]")


class Cases:
    """How many cases there were, and which came out otherwise."""

    def __init__(self, program):
        self.program, self.count, self.wrong = program, 0, []
        self.signals = 0

    def same(self, what, got, wanted):
        self.count += 1
        if isinstance(got, tuple) and isinstance(got[0], int) and got[0] < 0:
            self.signals += 1
        if got != wanted:
            self.wrong.append(what)
            print(f"WRONG: {what}\n  wanted {short(wanted)}\n  got    {short(got)}", flush=True)
        return got == wanted

    def folder(self, files=None):
        return Folder(self.program, U_FILES if files is None else files)


def short(value):
    text = repr(value)
    return text if len(text) < 500 else text[:300] + " .. " + text[-150:]


def bytes_of(text):
    return text if isinstance(text, bytes) else text.encode()


class Folder:
    """A new folder with files, and the program run in it. As root it is run as nobody, who may not write what is not hers."""

    def __init__(self, program, files):
        self.program = program
        self.kept = tempfile.TemporaryDirectory()
        self.path = self.kept.name
        self.user = {"user": NOBODY, "group": NOBODY, "extra_groups": []} if os.getuid() == 0 else {}
        self.own(self.path)
        for name, text in files.items():
            self.put(name, text)

    def at(self, name):
        return os.path.join(self.path, name)

    def own(self, path):
        if self.user:
            os.chown(path, NOBODY, NOBODY, follow_symlinks=False)

    def put(self, name, text):
        with open(self.at(name), "wb") as file:
            file.write(bytes_of(text))
        self.own(self.at(name))

    def start(self, *words, **how):
        """The program, started; `how` may have stdin, stdout and what is done in the child before it."""
        given = {"stdin": subprocess.DEVNULL, "stdout": subprocess.PIPE, "stderr": subprocess.STDOUT, **how}
        return subprocess.Popen([self.program, *words], cwd=self.path, **given, **self.user)

    def run(self, *words, input=None, **how):
        """The status, less than 0 where a signal ended it, and what it wrote."""
        if input is not None:
            how["stdin"] = subprocess.PIPE
        child = self.start(*words, **how)
        try:
            output = child.communicate(None if input is None else bytes_of(input), timeout=SECONDS)[0]
        except subprocess.TimeoutExpired:
            child.kill()
            child.communicate()
            return "no end", ""
        return child.returncode, "" if output is None else output.decode("utf-8", "backslashreplace")

    def filled(self):
        """The same with a store of version 1."""
        done = self.run("init", "u.spec", "d.txt")
        if done != (0, "ok version 1\n"):
            raise SystemExit(f"init: {done}")
        return self

    def shown(self):
        return self.run("show")
