"""The deepest and longest trees that the limits allow, through every stage: read, typed, measured, written as a formula, decided, proved,
printed, stored, loaded again, migrated, evaluated. Each run has a stack of 8 MB, and once more the one that this shell gives.

Each form is a set that holds just the record itself (of user 1), in canonical spelling, so that each answer is known.
"""

import resource

MEGABYTES = 8


def chain(first, middle, last, count):
    return first + middle * count + last


def nested(opening, inner, closing, count):
    return opening * count + inner + closing * count


def numbered(opening, inner, closing, count):
    """The same, where each opening has a variable of its own."""
    return "".join(opening.replace("#", str(i)) for i in range(count)) + inner + closing * count


def forms():
    """A name, the set, and the set as it is printed where that is another."""
    return (
        ("62 parentheses", nested("(", "[u]", ")", 62), "[u]"),
        ("choices in the last branch", nested("if u.no then none else ", "[u]", "", 62), None),
        ("choices in the first branch", nested("if u.yes then ", "[u]", " else none", 62), None),
        ("matches", numbered("match u.of with none -> none | some x# -> ", "[u]", "", 62), None),
        ("sets over sets", numbered("P::Find({n: 1}).flat_map(x# -> ", "[u]", ")", 62), None),
        ("a sum of 509", chain("none", " + none", " + [u]", 508), None),
        ("a difference of 509", chain("[u]", " - none", " - none", 508), None),
        ("a sum in parentheses, to the right", nested("none + (", "none + [u]", ")", 61), None),
        ("a list of 511", "[" + ", ".join(["u"] * 511) + "]", None),
        ("14 maps", "P::Find({n: 1})" + "".join(f".map(x{i} -> x{i}.p)" for i in range(14)), None),
        ("111 maps", "P::Find({n: 1})" + "".join(f".map(x{i} -> x{i}.p)" for i in range(111)), None),
        ("a path of 509 fields", "[u" + ".p" * 509 + "]", None),
        ("252 filters", "P::Find({" + ", ".join(["n: 1"] * 252) + "})", None),
        ("a chain of ||", "if " + "u.no || " * 250 + "u.yes then [u] else none", None),
        ("a chain of &&", "if " + "u.yes && " * 250 + "u.yes then [u] else none", None),
        ("negations", "if " + nested("!(", "!u.no", ")", 60) + " then [u] else none", None),
        ("a choice of options", "match " + nested("if u.no then u.of else ", "u.of", "", 61) + " with none -> none | some x -> [u]", None),
    )


# Sets whose size doubles with each level, so that no policy may be them.
DOUBLING = (
    ("choices in the condition", nested("if ", "u.yes", " then true else false", 61), "if ", " then [u] else none"),
    ("sets after in", nested("u in {if ", "u.yes", " then [u] else none}", 30), "if ", " then [u] else none"),
    ("equal flags", nested("(", "u.yes", ") == u.yes", 30), "if ", " then [u] else none"),
)

SPEC = """static V
principal model P {{
  create: public,
  delete: none,
  n: Int {{read: public, write: none}},
  yes: Bool {{read: public, write: none}},
  no: Bool {{read: public, write: none}},
  of: Option(Id(P)) {{read: public, write: none}},
  p: Id(P) {{read: public, write: none}},
  s: Text {{read: {}, write: {}}},
}}
"""
DATA = """P @3 {
  @1 {n: 1, yes: true, no: false, of: some(@1), p: @1, s: "one"}
  @2 {n: 2, yes: true, no: false, of: some(@2), p: @2, s: "two"}
}
"""
# Each field of user 1 is for user 1; what is not there, or is another's, is for nobody.
LINES = """open a as P @1
open b as P @2
open v as V
read a P @1 s
read b P @1 s
read v P @1 s
write a P @1 s "new"
write b P @1 s "no"
find a P {s: "new"}
find b P {s: "new"}
"""
REPLIES = 'ok version {v}\nok version {v}\nok version {v}\nok "one"\ndenied s\ndenied s\nok\ndenied s\nok [@1]\nok []\n'
# On a database each `map` of a chain takes its records anew, so that these are not evaluated in any time.
NOT_EVALUATED = ("111 maps",)
# A path of 509 fields makes more terms than may be: two variables, the constant, and those of the path.
TOO_LARGE = {"a path of 509 fields": "too large command 1 field P.s right read kind P terms 512"}


def stacked():
    resource.setrlimit(resource.RLIMIT_STACK, (MEGABYTES << 20, resource.getrlimit(resource.RLIMIT_STACK)[1]))


def deep_sets(cases):
    for what, text, printed in forms():
        for how, before in (("8 MB", stacked), ("given", None)):
            through(cases, f"{what}, stack {how}", what, text, printed or text, before)


def through(cases, what, form, text, printed, before):
    closed, opened, deep = SPEC.format("none", "none"), SPEC.format("public", "public"), SPEC.format(f"u -> {text}", f"u -> {text}")
    shown = SPEC.format(f"u -> {printed}", f"u -> {printed}")
    update = f"P::UpdateFieldPolicy(s, {{read: u -> {text}, write: u -> {text}}})\n"
    folder = cases.folder({"closed": closed, "open": opened, "deep": deep, "d.txt": DATA, "update": update, "more": "P::AddField(t: Int {read: none, write: none}, u -> u.n)\n"})

    def run(*words, **how):
        return folder.run(*words, preexec_fn=before, **how)

    # Nobody is in a set but the record itself, so the static gains nothing, and nobody does where everybody was allowed.
    large = TOO_LARGE.get(form)
    for spec, wanted in (("closed", (6, "leak command 1 field P.s right read")), ("open", (0, "accepted obligations 4"))):
        status, output = run("check", spec, "update")
        line = output.split("\n")[0]
        if large:
            cases.same(f"{what}: check of {spec}", (status, line.split(" nodes")[0]), (8, large))
        else:
            cases.same(f"{what}: check of {spec}", (status, line), wanted)
    status, output = run("prove", "open", "update")
    cases.same(f"{what}: prove", (status, output[:14]), (8, "too large comm") if large else (0, "certificate 1\n"))
    if not large:
        folder.put("c", output)
        cases.same(f"{what}: recheck", run("recheck", "open", "update", "c"), (0, "certified obligations 4\n"))
    cases.same(f"{what}: init", run("init", "deep", "d.txt"), (0, "ok version 1\n"))
    cases.same(f"{what}: show", run("show"), (0, "version 1\n" + shown + DATA))
    if form not in NOT_EVALUATED:
        cases.same(f"{what}: serve", run("serve", input=LINES), (0, REPLIES.format(v=1)))
    cases.same(f"{what}: apply over it", run("apply", "more"), (0, "applied obligations 2 version 2\n"))
    folder = cases.folder({"open": opened, "d.txt": DATA, "update": update})
    cases.same(f"{what}: init of the other", run("init", "open", "d.txt"), (0, "ok version 1\n"))
    if not large:
        cases.same(f"{what}: apply", run("apply", "update"), (0, "applied obligations 4 version 2\n"))
        cases.same(f"{what}: show after apply", run("show"), (0, "version 2\n" + shown + DATA))
    if not large and form not in NOT_EVALUATED:
        cases.same(f"{what}: serve after apply", run("serve", input=LINES), (0, REPLIES.format(v=2)))


def doubling(cases):
    """Sizes that double with each level stay at 1,000,000."""
    for what, inner, head, tail in DOUBLING:
        for how, before in (("8 MB", stacked), ("given", None)):
            text = head + inner + tail
            script = f"P::UpdateFieldPolicy(s, {{read: u -> {text}}})"
            folder = cases.folder({"n.spec": SPEC.format("none", "none"), "s.scm": script})
            cases.same(f"{what}, stack {how}", folder.run("check", "n.spec", "s.scm", preexec_fn=before), (5, f"s.scm: command 1: expanded 1000000 at {script.index(text)}\n"))


def added(cases):
    """Added fields, each written out by the one before it. Where a walk through them is deeper than may be, the answer is want of memory."""
    for how, before in (("8 MB", stacked), ("given", None)):
        for what, body, count in (
            ("each the one before", "u.{}", 58), ("each a choice of the one before", "if u.yes then u.{} else false", 58), ("each the one before in 200 ||", "u.{}" + " || u.no" * 200, 58),
            ("each the one before by a match", "match u.of with none -> u.{0} | some x -> u.{0}", 30), ("each the one before twice", "u.{0} == u.{0}", 20),
        ):  # fmt: skip
            names = ["yes"] + [f"a{i}" for i in range(count)]
            script = "".join(f"P::AddField({new}: Bool {{read: none, write: none}}, u -> {body.format(old)})\n" for old, new in zip(names, names[1:]))
            folder = cases.folder({"n.spec": SPEC.format("none", "none"), "d.txt": DATA, "s.scm": script})
            status, output = folder.run("check", "n.spec", "s.scm", preexec_fn=before)
            right = (status == 0 and output.startswith("accepted obligations ")) or (status == 13 and output == "") or (status == 5 and " expanded " in output)
            cases.same(f"fields, {what}, stack {how}: {status} {output[:60]!r}", right, True)


PARTS = (deep_sets, doubling, added)
