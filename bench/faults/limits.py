"""Names, texts, numbers, counts and files at each limit and above it; numbers of records at both ends; names that differ in case alone.

What each comes to is written beside it, by the limits of docs/LANGUAGE.md and docs/FORMATS.md.
"""

import os
import sqlite3

from cases import U_DATA, U_SPEC
from texts import many

ACCEPTED = (0, "accepted obligations 0\n")
MOST_FILE, MOST_DATA, MOST_CERT = 1_048_576, 33_554_432, 268_435_456
FIELD = "Text {read: none, write: none}"


def spec_row(what, text, wanted):
    return what, ("check", "n.spec", "s.scm"), {"n.spec": text, "s.scm": ""}, wanted


def script_row(what, spec, text, wanted):
    return what, ("check", "n.spec", "s.scm"), {"n.spec": spec, "s.scm": text}, wanted


def data_row(what, spec, text, wanted):
    return what, ("init", "n.spec", "d.txt"), {"n.spec": spec, "d.txt": text}, wanted


def model(name, fields=()):
    return f"model {name} {{create: none, delete: none" + "".join(f", {field}" for field in fields) + "}"


def refused(name, text, cause, mark, skip=0):
    """The report of a cause at the place where the text has the mark, and so many bytes behind that."""
    return 4, f"{name}: {cause} at {text.encode().index(mark.encode()) + skip}\n"


def names(cases):
    """Names of 64 and 65 bytes, in each place where a name stands."""
    rows = []
    for size, fits in ((64, True), (65, False)):
        upper, lower = "N" * size, "n" * size
        for what, text in (
            ("a static", f"static {upper}"), ("a model", model(upper)), ("a field", model("M", [f"{lower}: {FIELD}"])),
            ("a variable", model("M", [f"f: Text {{read: {lower} -> none, write: none}}"])),
        ):  # fmt: skip
            mark = upper if upper in text else lower
            rows.append(spec_row(f"{what} of {size} bytes", text, ACCEPTED if fits else refused("n.spec", text, "too many name bytes", mark)))
        for what, text in (("a static", f"AddStatic({upper})"), ("a model", f"CreateModel({model(upper)})"), ("a field", f"M::AddField({lower}: {FIELD}, m -> \"\")")):
            mark = upper if upper in text else lower
            wanted = (0, None) if fits else refused("s.scm", text, "too many name bytes", mark)
            rows.append(script_row(f"{what} of {size} bytes in a script", model("M"), text, wanted if wanted[1] else ACCEPTED))
        text = f"{upper} @1 {{}}"
        rows.append(data_row(f"a model of {size} bytes in data", model("N" * 64), text, (0, "ok version 1\n") if fits else refused("d.txt", text, "too many name bytes", upper)))
    many(cases, (row for row in rows if row[1][0] == "check"))
    for what, words, files, wanted in rows:
        if words[0] == "init":
            cases.same(what, cases.folder(files).run(*words), wanted)
    lines = [f"open {'s' * 64} as User @1", f"open {'s' * 65} as User @1", f"read {'s' * 64} {'U' * 65} @1 email", f"read {'s' * 64} User @1 {'e' * 65}", f"read {'s' * 64} User @1 {'e' * 64}", f"read {'s' * 64} {'U' * 64} @1 email"]  # fmt: skip
    replies = ["ok version 1", "bad line 5", "bad line 70", "bad line 78", "unknown 78", "unknown 70"]
    answered(cases, "names of sessions, models and fields", cases.folder().filled(), lines, replies)


def answered(cases, what, folder, lines, replies):
    text = b"".join((line if isinstance(line, bytes) else line.encode()) + b"\n" for line in lines)
    status, output = folder.run("serve", input=text)
    got = output.split("\n")
    for number, (line, reply, one) in enumerate(zip(lines, replies, got)):
        cases.same(f"{what}: line {number + 1}, {line[:60]!r}", one, reply)
    cases.same(f"{what}: all lines", (status, len(got)), (0, len(replies) + 1))


def literals(cases):
    """Texts of 4,096 bytes after their escapes, and of one byte more; numbers at both ends and beyond."""
    spec = model("M", [f"f: {FIELD}"])
    head = 'M::WeakenFieldPolicy(f, {read: none}, "'
    rows = []
    for what, one, fits, over in (
        ("letters", "a", 4096, 4097), ("escapes of two bytes", "\\n", 4096, 4097), ("escapes of four bytes", "\\x7f", 4096, 4097), ("characters of two bytes", "\u00e9", 2048, 2049),
    ):  # fmt: skip
        rows.append(script_row(f"a reason of {fits} {what}", spec, head + one * fits + '")', ACCEPTED))
        rows.append(script_row(f"a reason of {over} {what}", spec, head + one * over + '")', (4, f"s.scm: too many text bytes at {len(head) - 1}\n")))
    whole = "principal model P {create: none, delete: none, n: Int {read: none, write: none}}"
    for number, wanted in (
        ("0", 0), ("9223372036854775807", 0), ("9223372036854775808", "token"), ("9223372036854775809", "bad number"), ("18446744073709551616", "bad number"), ("1" * 1000, "bad number"),
        ("-1", 0), ("-9223372036854775808", 0), ("-9223372036854775809", "bad number"), ("-0", "token"), ("00", "bad number"), ("01", "bad number"),
    ):  # fmt: skip
        head = "P::AddField(m: Int {read: none, write: none}, p -> "
        place = len(head) + number.startswith("-")
        # A number that is no literal of the grammar is refused at its own token, which is 19 or, behind a minus, 20.
        report = ACCEPTED if wanted == 0 else (4, f"s.scm: not grammar at token {19 + number.startswith('-')}\n" if wanted == "token" else f"s.scm: {wanted} at {place}\n")
        rows.append(script_row(f"the number {number[:20]} in a script", whole, head + number + ")", report))
    many(cases, rows)
    for number, wanted in (
        ("9223372036854775807", (0, "ok version 1\n")), ("-9223372036854775808", (0, "ok version 1\n")), ("9223372036854775808", (4, "d.txt: not grammar at token 9\n")),
        ("-9223372036854775809", (4, "d.txt: bad number at 14\n")), ("-0", (4, "d.txt: not grammar at token 10\n")), ("007", (4, "d.txt: bad number at 13\n")),
    ):  # fmt: skip
        cases.same(f"the number {number} in data", cases.folder({"n.spec": whole, "d.txt": f"P @2 {{@1 {{n: {number}}}}}"}).run("init", "n.spec", "d.txt"), wanted)
    lines = ["open a as User @1", 'write a User @1 email "' + "x" * 4096 + '"', 'write a User @1 email "' + "x" * 4097 + '"', "read a User @1 age", "write a User @1 age 9223372036854775808", "write a User @1 age 9223372036854775809", "write a User @1 age -9223372036854775808"]  # fmt: skip
    replies = ["ok version 1", "ok", "bad line 22", "denied age", "bad line 20", "bad line 20", "denied age"]
    answered(cases, "literals of requests", cases.folder().filled(), lines, replies)


def statics(count):
    return "".join(f"static S{i}\n" for i in range(count))


def models(count):
    return "".join(model(f"M{i}") + "\n" for i in range(count))


def fields(count):
    return model("M", [f"f{i}: {FIELD}" for i in range(count)])


def counts(cases):
    """As many statics, models, fields, commands and sessions as may be, and one more."""
    rows = [
        spec_row("64 statics", statics(64), ACCEPTED),
        spec_row("65 statics", statics(65), refused("n.spec", statics(65), "too many statics", "static S64")),
        spec_row("64 models", models(64), ACCEPTED),
        spec_row("65 models", models(65), refused("n.spec", models(65), "too many models", "model M64")),
        spec_row("64 fields", fields(64), ACCEPTED),
        spec_row("65 fields", fields(65), refused("n.spec", fields(65), "too many fields", "f64")),
        script_row("a 65th static by a script", statics(64), "AddStatic(New)", (5, "s.scm: command 1: crowded at 10\n")),
        script_row("a 65th model by a script", models(64), f"CreateModel({model('New')})", (5, "s.scm: command 1: crowded at 18\n")),
        script_row("a 65th field by a script", fields(64), f"M::AddField(new: {FIELD}, m -> \"\")", (5, "s.scm: command 1: crowded at 12\n")),
    ]
    again = "AddStatic(New)RemoveStatic(New)"
    rows.append(script_row("256 commands", statics(1), again * 128, ACCEPTED))
    rows.append(script_row("257 commands", statics(1), again * 128 + "AddStatic(Late)", refused("s.scm", again * 128 + "AddStatic(Late)", "too many commands", "AddStatic(Late)")))
    many(cases, rows)
    lines = [f"open s{i} as User @1" for i in range(1025)] + ["close s7", "open more as User @1", "open least as User @2"]
    answered(cases, "sessions", cases.folder().filled(), lines, ["ok version 1"] * 1024 + ["full sessions", "ok", "ok version 1", "full sessions"])


def sizes(cases):
    """Files and lines of as many bytes as may be, and of one more."""
    rows = []
    for size, wanted in ((MOST_FILE, ACCEPTED), (MOST_FILE + 1, (14, "too long n.spec\n"))):
        rows.append(spec_row(f"a specification of {size} bytes", "static S" + " " * (size - 8), wanted))
        report = (14, "too long s.scm\n") if size > MOST_FILE else ACCEPTED
        rows.append(script_row(f"a script of {size} bytes", statics(1), "#" * size, report))
    many(cases, rows)
    for size, wanted in ((MOST_DATA, (0, "ok version 1\n")), (MOST_DATA + 1, (14, "too long d.txt\n"))):
        cases.same(f"data of {size} bytes", cases.folder({"n.spec": models(1), "d.txt": "M0 @1 {}" + "\n" * (size - 8)}).run("init", "n.spec", "d.txt"), wanted)
    for size, wanted in ((MOST_CERT, (16, "c: bad line 1\n")), (MOST_CERT + 1, (14, "too long c\n"))):
        folder = cases.folder({"n.spec": models(1), "s.scm": "", "c": ""})
        os.truncate(folder.at("c"), size)
        cases.same(f"a certificate of {size} bytes", folder.run("recheck", "n.spec", "s.scm", "c"), wanted)
    lines = [b"#" + b"x" * 65_535, b"#" + b"x" * 65_536, b"close a" + b" " * 65_529, b"close a" + b" " * 65_529 + b"\r"]
    status, output = cases.folder().filled().run("serve", input=b"\n".join(lines) + b"\n")
    cases.same("lines of 65,536 and 65,537 bytes", (status, output), (0, "bad line 65536\nno session\nbad line 65536\n"))


def levels(cases):
    """64 levels of expressions and sets, 1,024 tokens of an outermost one, and one more, in each form that nests."""
    spec = "principal model P {create: none, delete: none, ok: Bool {read: public, write: none}, of: Option(Id(P)) {read: public, write: none}, friends: Set(Id(P)) {read: public, write: none}}"
    head = "P::AddField(x: Bool {read: none, write: none}, p -> "
    update = "P::UpdateFieldPolicy(ok, {read: p -> "
    # Beside each form, how many of it may be; and where the first of level 65 begins with one more, counted from the last opening's end.
    forms = (
        ("parentheses", head, "(", "p.ok", ")", 63, 0), ("negations", head, "!(", "p.ok", ")", 63, 0), ("conditions", head, "if ", "p.ok", " then true else false", 63, 0),
        ("choices", head, "if p.ok then ", "true", " else false", 63, -len("p.ok then ")), ("sets in parentheses", update, "(", "[p]", ")", 62, 1), ("sets of choices", update, "if p.ok then ", "[p]", " else none", 62, 1),
        ("sets after in", head, "p in {P::Find({ok: ", "p.ok", "})}", 31, 0),
    )  # fmt: skip
    rows = []
    for what, begin, opening, inner, closing, most, place in forms:
        for count in (most, most + 1):
            text = begin + opening * count + inner + closing * count + (")" if begin == head else "})")
            wanted = None if count == most else refused("s.scm", text, "too deep", opening * count, len(opening) * count + place)
            rows.append(script_row(f"{count} {what}", spec, text, wanted))
    for what, words, files, wanted in rows:
        status, output = cases.folder(files).run(*words)
        if wanted is None:
            cases.same(f"{what}: no refusal of the text", status in (0, 5, 6, 7, 8, 13), True)
        else:
            cases.same(what, (status, output), wanted)
    fits = update + " + ".join(["none"] * 512) + "})"
    over = update + " + ".join(["none"] * 513) + "})"
    many(cases, [
        script_row("a set of 1,023 tokens", spec, fits, (0, "accepted obligations 1\n")),
        script_row("a set of 1,025 tokens", spec, over, (4, f"s.scm: too many tokens at {len(over) - 6}\n")),
        script_row("a set of 1,024 tokens and no end", spec, update + " + ".join(["none"] * 512) + " + ", (4, f"s.scm: not grammar at token {11 + 1024}\n")),
    ])  # fmt: skip
    for depth, wanted in ((63, "wrong shape"), (64, "too deep")):
        text = "P @2 {@1 {ok: " + "[" * depth + "["
        place = len("P @2 {@1 {ok: ")
        closed = text + "]" * (depth + 1) + ", of: none, friends: []}}"
        report = (5, f"d.txt: wrong shape at {place}\n") if depth == 63 else (4, f"d.txt: too deep at {place + 64}\n")
        cases.same(f"a value of {depth + 1} levels", cases.folder({"n.spec": spec, "d.txt": closed}).run("init", "n.spec", "d.txt"), report)
    folder = cases.folder({"n.spec": spec.replace("create: none", "create: public").replace("write: none", "write: public"), "d.txt": "P @2 {@1 {ok: true, of: none, friends: []}}"})
    cases.same("init", folder.run("init", "n.spec", "d.txt"), (0, "ok version 1\n"))
    line = "write a P @1 of "
    lines = ["open a as P @1", line + "some(" * 63 + "none" + ")" * 63, line + "some(" * 64 + "none" + ")" * 64, line + "some(@1)", "read a P @1 of"]
    answered(cases, "values of 64 and 65 levels", folder, lines, ["ok version 1", "wrong shape of", f"bad line {len(line) + 5 * 64}", "ok", "ok some(@1)"])


N_SPEC = "static V\nprincipal model N {\n  create: public,\n  delete: public,\n  to: Option(Id(N)) {read: public, write: public},\n}\n"
LAST_ID, LAST_NEXT = 9223372036854775806, 9223372036854775807


def ids(cases):
    """Numbers of records: 0, the last one, and those beyond it, in data and in requests."""
    for text, wanted in (
        ("N @0 {}", (5, "d.txt: bad id at 3\n")), ("N @1 {}", (0, "ok version 1\n")), (f"N @{LAST_NEXT} {{}}", (0, "ok version 1\n")), (f"N @{LAST_NEXT + 1} {{}}", (5, "d.txt: bad id at 3\n")),
        (f"N @{LAST_NEXT + 2} {{}}", (4, "d.txt: bad number at 3\n")), (f"N @{2**64} {{}}", (4, "d.txt: bad number at 3\n")), ("N @00 {}", (4, "d.txt: bad number at 3\n")),
        ("N @2 {@0 {to: none}}", (5, "d.txt: bad id at 7\n")), ("N @2 {@1 {to: none}}", (0, "ok version 1\n")), ("N @1 {@1 {to: none}}", (5, "d.txt: bad id at 7\n")), ("N @2 {@2 {to: none}}", (5, "d.txt: bad id at 7\n")),
        (f"N @{LAST_NEXT} {{@{LAST_ID} {{to: none}}}}", (0, "ok version 1\n")), (f"N @{LAST_NEXT} {{@{LAST_NEXT} {{to: none}}}}", (5, "d.txt: bad id at 25\n")),
        (f"N @{LAST_NEXT} {{@{2**63} {{to: none}}}}", (5, "d.txt: bad id at 25\n")), (f"N @{LAST_NEXT} {{@{2**64} {{to: none}}}}", (4, "d.txt: bad number at 25\n")),
        ("N @2 {@1 {to: some(@0)}}", (5, "d.txt: dangling at 20\n")), ("N @2 {@1 {to: some(@1)}}", (0, "ok version 1\n")), ("N @2 {@1 {to: some(@2)}}", (5, "d.txt: dangling at 20\n")),
        (f"N @2 {{@1 {{to: some(@{LAST_NEXT})}}}}", (5, "d.txt: dangling at 20\n")), (f"N @2 {{@1 {{to: some(@{2**63})}}}}", (5, "d.txt: dangling at 20\n")), (f"N @2 {{@1 {{to: some(@{2**63 + 1})}}}}", (4, "d.txt: bad number at 20\n")),
        ("N @3 {@1 {to: none} @1 {to: none}}", (5, "d.txt: twice at 21\n")), ("N @1 {} N @1 {}", (5, "d.txt: twice at 8\n")),
    ):  # fmt: skip
        cases.same(f"data {text}", cases.folder({"n.spec": N_SPEC, "d.txt": text}).run("init", "n.spec", "d.txt"), wanted)
    folder = cases.folder({"n.spec": N_SPEC, "d.txt": f"N @{LAST_ID} {{@1 {{to: none}}}}"})
    cases.same("init", folder.run("init", "n.spec", "d.txt"), (0, "ok version 1\n"))
    lines, replies = ["open a as V"], ["ok version 1"]
    for number, reply in (("0", "no record"), (str(LAST_NEXT), "no record"), (str(2**63), "no record"), (str(2**63 + 1), None), (str(2**64), None), ("01", None)):
        for head, tail, other in (("read a N @", " to", None), ("write a N @", " to none", None), ("delete a N @", "", None), ("open b as N @", "", "no record")):
            lines.append(head + number + tail)
            replies.append(f"bad line {len(head)}" if reply is None else reply)
        head = "write a N @1 to some(@"
        lines.append(head + number + ")")
        replies.append(f"bad line {len(head)}" if reply is None else f"dangling to @{number}")
    lines += ["create a N {to: some(self)}", "create a N {to: none}", f"create a N {{to: some(@{LAST_ID})}}", f"read a N @{LAST_ID} to", f"delete a N @{LAST_ID}", "create a N {to: none}"]
    replies += [f"ok @{LAST_ID}", "ids spent", "ids spent", f"ok some(@{LAST_ID})", "ok", "ids spent"]
    answered(cases, "numbers of records", folder, lines, replies)
    cases.same("the last number is spent", folder.shown(), (0, "version 1\n" + N_SPEC + f"N @{LAST_NEXT} {{\n  @1 {{to: none}}\n}}\n"))
    for version, words, wanted in ((LAST_NEXT, ("apply", "e.scm"), (9, "version is spent\n")), (LAST_ID, ("apply", "e.scm"), (0, f"applied obligations 0 version {LAST_NEXT}\n")), (0, ("show",), (12, ""))):
        folder.put("e.scm", "")
        change = sqlite3.connect(folder.at("scooter.db"))
        change.execute("UPDATE head SET version = ?", (version,))
        change.commit()
        change.close()
        for name in os.listdir(folder.path):
            folder.own(folder.at(name))
        cases.same(f"version {version}: {words[0]}", folder.run(*words), wanted)


TWINS = """principal model User {
  create: public,
  delete: none,
  name: Text {read: public, write: public},
  nAme: Text {read: public, write: none},
}
principal model USER {
  create: public,
  delete: none,
  naMe: Id(User) {read: public, write: public},
}
"""


def twins(cases):
    """Two fields, and two models, whose names differ in case alone."""
    data = 'User @2 {\n  @1 {name: "low", nAme: "up"}\n}\nUSER @3 {\n  @1 {naMe: @1}\n  @2 {naMe: @1}\n}\n'
    folder = cases.folder({"n.spec": TWINS, "d.txt": data, "s.scm": "User::RemoveField(nAme)\nUSER::AddField(NAME: Text {read: none, write: none}, u -> \"\")\n", "f.scm": "User::RemoveField(nAme)\nUSER::AddField(nAME: Text {read: public, write: none}, u -> u.naMe.name)\n"})  # fmt: skip
    cases.same("init", folder.run("init", "n.spec", "d.txt"), (0, "ok version 1\n"))
    cases.same("show", folder.shown(), (0, "version 1\n" + TWINS + data))
    lines = ["open a as User @1", "open A as USER @2", "open b as USER @2", 'write a User @1 name "x"', 'write b User @1 nAme "y"', "read b User @1 name", "read b User @1 nAme", "read b User @1 NAME", "read b USER @1 name", "read b USER @2 naMe", "find a USER {naMe: @1}"]  # fmt: skip
    replies = ["ok version 1", "bad line 5", "ok version 1", "ok", "denied nAme", 'ok "x"', 'ok "up"', "bad line 15", "unknown 15", "ok @1", "ok [@1, @2]"]
    answered(cases, "names that differ in case", folder, lines, replies)
    cases.same("a field with the name of a constant", folder.run("check", "s.scm"), (4, "s.scm: not grammar at token 10\n"))
    cases.same("apply", folder.run("apply", "f.scm"), (0, "applied obligations 4 version 2\n"))
    after = TWINS.replace("  nAme: Text {read: public, write: none},\n", "").replace("  naMe: Id(User) {read: public, write: public},\n", "  naMe: Id(User) {read: public, write: public},\n  nAME: Text {read: public, write: none},\n")  # fmt: skip
    cases.same("show after it", folder.shown(), (0, "version 2\n" + after + 'User @2 {\n  @1 {name: "x"}\n}\nUSER @3 {\n  @1 {naMe: @1, nAME: "x"}\n  @2 {naMe: @1, nAME: "x"}\n}\n'))


def large_sets(cases):
    """One record with 64 sets of 20,000 ids."""
    fields = ",\n".join(f"  s{i}: Set(Id(N)) {{read: public, write: public}}" for i in range(64))
    spec = f"static V\nmodel N {{\n  create: public,\n  delete: public,\n}}\nmodel M {{\n  create: public,\n  delete: public,\n{fields},\n}}\n"
    every = "[" + ", ".join(f"@{i}" for i in range(1, 20_001)) + "]"
    alone = "M @2 {@1 {" + ", ".join(f"s{i}: {every}" for i in range(64)) + "}}"
    cases.same("sets of ids that are not there", cases.folder({"n.spec": spec, "d.txt": alone}).run("init", "n.spec", "d.txt"), (5, f"d.txt: dangling at {alone.index('@1,') + 1}\n"))
    # 20,000 records are all that there may be, this one among them.
    held = "[" + ", ".join(f"@{i}" for i in range(1, 20_000)) + "]"
    records = "N @20000 {\n" + "".join(f"  @{i} {{}}\n" for i in range(1, 20_000)) + "}\n"
    row = "  @1 {" + ", ".join(f"s{i}: {held}" for i in range(64)) + "}\n"
    folder = cases.folder({"n.spec": spec, "d.txt": records + "M @2 {\n" + row + "}\n", "s.scm": "M::RemoveField(s63)\n"})
    cases.same("20,000 records and 64 sets", folder.run("init", "n.spec", "d.txt"), (0, "ok version 1\n"))
    cases.same("shown", folder.shown() == (0, "version 1\n" + spec + records + "M @2 {\n" + row + "}\n"), True)
    lines = ["open a as V", "create a N {}", "read a M @1 s63", "delete a N @7", "write a M @1 s0 []", "read a M @1 s0", 'migrate "s.scm"', "renew a", "read a M @1 s62", "delete a M @1", "delete a N @7", "create a N {}"]
    replies = ["ok version 1", "full records", f"ok {held}", "referenced M @1 s0", "ok", "ok []", "applied obligations 0 version 2", "ok version 2", f"ok {held}", "ok", "ok", "ok @20000"]
    answered(cases, "a session over them", folder, lines, replies)
    over = records.replace("N @20000 {\n", "N @20001 {\n  @20000 {}\n") + "M @2 {\n" + row + "}\n"
    cases.same("20,001 records", cases.folder({"n.spec": spec, "d.txt": over}).run("init", "n.spec", "d.txt"), (5, "d.txt: full records\n"))
    weights(cases, spec)


def weights(cases, spec):
    """Data of a weight just within the limit, and one above it."""
    records = "N @4001 {" + " ".join(f"@{i} {{}}" for i in range(1, 4_001)) + "}"
    for more, wanted in ((0, (0, "ok version 1\n")), (1, (5, "d.txt: full weight\n"))):
        # An id of a set weighs 8, and the set 1: 1,048 sets of 4,000 ids, 39 without an id and one of 2,168 weigh 33,554,432.
        sizes = [4_000] * 1_048 + [0] * 39 + [2_168 + more]
        texts = {size: "[" + ", ".join(f"@{i}" for i in range(1, size + 1)) + "]" for size in set(sizes)}
        rows = ["{" + ", ".join(f"s{i}: {texts[size]}" for i, size in enumerate(sizes[at : at + 64])) + "}" for at in range(0, 1_088, 64)]
        text = records + " M @99 {" + " ".join(f"@{i + 1} {row}" for i, row in enumerate(rows)) + "}"
        cases.same(f"data of {33_554_432 + 8 * more} in weight", cases.folder({"n.spec": spec, "d.txt": text}).run("init", "n.spec", "d.txt"), wanted)


PARTS = (names, literals, counts, sizes, levels, ids, twins, large_sets)
