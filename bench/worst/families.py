"""The families of inputs, each made from its description at three sizes.

A case has the texts for `check`, and where it is one gain, the same as SMT-LIB, or as clauses for minisat: there are values of the row's
fields for which the new policy allows and the old one does not. What is no field of the row, as a level of a user, is a function there.
"""

import importlib.machinery
import importlib.util
import os
import random
import sys
from itertools import combinations
from string import ascii_uppercase
from typing import NamedTuple, Optional

from terms import Term, below, equal, every, field, negated, number, pieces, some, text, within

sys.dont_write_bytecode = True
TOP = os.path.dirname(os.path.dirname(os.path.dirname(os.path.abspath(__file__))))
PUBLIC = "{read: public, write: none}"
HIDDEN = "{read: none, write: none}"
HEAD = "  create: none,\n  delete: none,\n"
WIDTH, NARROW = 60, 40
SEED = 40


class Case(NamedTuple):
    spec: str
    script: str
    smt: Optional[str] = None
    clauses: Optional[list] = None
    variables: int = 0


class Family(NamedTuple):
    name: str
    aim: str
    sizes: tuple
    make: object


def other(name):
    """Another script of bench/, as a module."""
    folder = os.path.join(TOP, "bench")
    if folder not in sys.path:
        sys.path.append(folder)
    loader = importlib.machinery.SourceFileLoader("bench_" + name.partition(".")[0], os.path.join(folder, name))
    made = importlib.util.module_from_spec(importlib.util.spec_from_loader(loader.name, loader))
    loader.exec_module(made)
    return made


def model(name, fields, principal=False, secret=None):
    lines = [f"  {name}: {kind} {PUBLIC},\n" for name, kind in fields]
    if secret is not None:
        lines.append(f"  secret: Text {{read: {secret}, write: none}},\n")
    return f"{'principal ' if principal else ''}model {name} {{\n{HEAD}{''.join(lines)}}}\n"


def statics(count):
    names = list(ascii_uppercase) + [a + b for a in ascii_uppercase for b in "abcdefgh"]
    return names[:count]


def named(names):
    return "".join(f"static {name}\n" for name in names)


class Row:
    """A record `d` of `Doc` with fields of these kinds, those beyond the width in records that it names."""

    def __init__(self, kinds, width=WIDTH):
        self.more, self.terms, self.kinds = {}, {}, {}
        for name, kind in kinds:
            rest = len(self.terms) // width
            place = f"d.{name}" if rest == 0 else f"d.m{rest}.{name}"
            self.more.setdefault(rest, []).append((name, kind))
            self.terms[name], self.kinds[name] = Term(place, name), kind

    def spec(self, old):
        """The models, with the old policy of reading in `Doc`."""
        others = [rest for rest in self.more if rest]
        fields = self.more[0] + [(f"m{rest}", f"Id(More{rest})") for rest in others]
        return model("Doc", fields, secret=old) + "".join(model(f"More{rest}", self.more[rest]) for rest in others)

    def constants(self):
        sorts = {"Bool": "Bool", "Int": "Int", "Text": "String"}
        for name, kind in self.kinds.items():
            yield f"(declare-fun {name} () {sorts.get(kind, kind.replace('Id(', '').replace(')', '').replace('Set(', 'SetOf'))})"


def allowed(condition):
    return f"d -> if {condition.ours} then public else none"


def refused(condition):
    return f"d -> if {condition.ours} then none else public"


def updated(new):
    return f"Doc::UpdateFieldPolicy(secret, {{read: {new}}})\n"


def problem(lines, formulas):
    asked = ["(push 1)", *(f"(assert {formula.smt})" for formula in formulas), "(check-sat)", "(pop 1)"]
    return "\n".join(["(set-logic ALL)", *lines, *asked]) + "\n"


USER_INT = ["(declare-sort User 0)", "(declare-fun level (User) Int)"]


# Initialisers.


def chain(part, count):
    """So many parts, by their numbers, joined by `||`."""
    return " || ".join(part(n) for n in range(count))


def uses(count, name="a"):
    return chain(lambda _: f"u.{name}", count)


def repeated_uses(count):
    """One initialiser, which 128 commands add and 128 remove; there is nobody, so no obligation."""
    add = f"User::AddField(b: Bool {HIDDEN}, u -> {uses(count)})\nUser::RemoveField(b)\n"
    return Case(model("User", [("a", "Bool")]), add * 128)


def compared(count):
    """20 initialisers of so many comparisons."""
    compares = chain(lambda n: f"u.n == {n}", count)
    return Case(model("User", [("n", "Int")]), "".join(f"User::AddField(b{n}: Bool {HIDDEN}, u -> {compares})\n" for n in range(20)))


def flows(count, people):
    """One initialiser, which so many statics may read as they may read what it uses."""
    names = statics(people)
    spec = named(names) + model("User", [("a", "Bool")])
    return Case(spec, f"User::AddField(b: Bool {PUBLIC}, u -> {uses(count)})\n")


def added_depth(count):
    """So many added fields of 151 `||`, each of the one before."""
    adds, before = [], "a"
    for n in range(count):
        adds.append(f"User::AddField(b{n}: Bool {PUBLIC}, u -> u.{before} || {uses(151)})\n")
        before = f"b{n}"
    return Case(model("User", [("a", "Bool")]), "".join(adds))


# Order.


def references(count, kind="User"):
    return Row([(f"r{n}", f"Id({kind})") for n in range(1, count + 1)])


def rising(count):
    """Records by their numbers, and the old policy denies only where levels rise with the numbers."""
    row = references(count)
    numbers = every(equal(field(term, "n"), number(n)) for n, term in enumerate(row.terms.values()))
    old = "d -> User::Find({}).flat_map(x -> User::Find({n > x.n}).flat_map(y -> if x.level < y.level then none else public))"
    spec = model("User", [("level", "Int"), ("n", "Int")], True) + row.spec(old)
    rise = Term("", "(forall ((x User) (y User)) (=> (< (n x) (n y)) (< (level x) (level y))))")
    lines = USER_INT + ["(declare-fun n (User) Int)", *row.constants()]
    return Case(spec, updated(allowed(numbers)), problem(lines, [numbers, rise]))


def pairwise(count):
    """Records of different names, and the old policy denies only where no two users have one level."""
    row = references(count)
    names = every(equal(field(term, "name"), text(name)) for name, term in row.terms.items())
    old = "d -> User::Find({}).flat_map(x -> User::Find({level: x.level}).flat_map(y -> if x == y then none else public))"
    spec = model("User", [("level", "Int"), ("name", "Text")], True) + row.spec(old)
    differ = Term("", "(forall ((x User) (y User)) (=> (= (level x) (level y)) (= x y)))")
    lines = USER_INT + ["(declare-fun name (User) String)", *row.constants()]
    return Case(spec, updated(allowed(names)), problem(lines, [names, differ]))


# Pigeons: one more than there are holes.


def nested(holes):
    """So many nested searches, each for a level from 1 to the number of holes that no record outside has."""
    made, facts, lines = "public", [], []
    for n in range(holes + 1, 0, -1):
        others = "".join(f", level != p{k}.level" for k in range(1, n))
        made = f"User::Find({{level >= 1, level <= {holes}{others}}}).flat_map(p{n} -> {made})"
        level = f"(level p{n})"
        lines.append(f"(declare-fun p{n} () User)")
        facts += [f"(<= 1 {level})", f"(<= {level} {holes})", *(f"(not (= {level} (level p{k})))" for k in range(1, n))]
    spec = model("User", [("level", "Int")], True) + model("Doc", [], secret="none")
    return Case(spec, updated(f"d -> {made}"), problem(USER_INT + lines, [Term("", fact) for fact in facts]))


def by_references(holes):
    """Each pigeon refers to one of the holes, and no two to one."""
    pigeons = [(f"p{n}", "Id(Hole)") for n in range(1, holes + 2)]
    row = Row(pigeons + [(f"h{n}", "Id(Hole)") for n in range(1, holes + 1)])
    terms = row.terms
    homes = every(some(equal(terms[p], terms[f"h{n}"]) for n in range(1, holes + 1)) for p, _ in pigeons)
    shared = some(equal(terms[a], terms[b]) for (a, _), (b, _) in combinations(pigeons, 2))
    spec = named(["S"]) + model("Hole", []) + row.spec(allowed(shared))
    lines = ["(declare-sort Hole 0)", *row.constants()]
    return Case(spec, updated(allowed(homes)), problem(lines, [homes, negated(shared)]), pigeon_clauses(holes), (holes + 1) * holes)


def pigeon_clauses(holes):
    """Each pigeon is in a hole, and no two are in one."""
    pigeons, places = range(1, holes + 2), range(1, holes + 1)
    at = lambda p, h: (p - 1) * holes + h  # noqa: E731
    alone = [[-at(p, h), -at(q, h)] for h in places for p, q in combinations(pigeons, 2)]
    return [[at(p, h) for h in places] for p in pigeons] + alone


def two_of(terms):
    """Two of these hold, or more."""
    if len(terms) == 2:
        return [every(terms)]
    half = len(terms) // 2
    left, right = terms[:half], terms[half:]
    return [every([some(left), some(right)])] + [part for side in (left, right) if len(side) > 1 for part in two_of(side)]


def by_bools(holes):
    """A Bool field for each pigeon in each hole."""
    row = Row([(f"p{p}h{h}", "Bool") for p in range(1, holes + 2) for h in range(1, holes + 1)], NARROW)
    at = lambda p, h: row.terms[f"p{p}h{h}"]  # noqa: E731
    homes = [some(at(p, h) for h in range(1, holes + 1)) for p in range(1, holes + 2)]
    shared = [part for h in range(1, holes + 1) for part in two_of([at(p, h) for p in range(1, holes + 2)])]
    return from_facts(row, homes + [negated(part) for part in shared], pigeon_clauses(holes))


def from_facts(row, facts, clauses):
    """The facts in added fields that nobody may read, and the new policy allows where all of them hold."""
    adds, held = [], []
    for n, chain in enumerate(pieces(facts, every)):
        adds.append(f"Doc::AddField(held{n}: Bool {HIDDEN}, d -> {chain.ours})\n")
        held.append(Term(f"d.held{n}", ""))
    return Case(named(["S"]) + row.spec("none"), "".join(adds) + updated(allowed(every(held))), problem(row.constants(), facts), clauses, len(row.terms))


def random_clauses(count, seed=SEED):
    """Random clauses of three, 4.26 for each Bool field."""
    dice = random.Random(seed)
    row = Row([(f"x{n}", "Bool") for n in range(1, count + 1)], NARROW)
    clauses = [[n if dice.random() < 0.5 else -n for n in dice.sample(range(1, count + 1), 3)] for _ in range(int(count * 4.26))]
    literal = lambda n: row.terms[f"x{n}"] if n > 0 else negated(row.terms[f"x{-n}"])  # noqa: E731
    return from_facts(row, [some(literal(n) for n in clause) for clause in clauses], clauses)


# Equality.


def parted(row, facts, apart, lines):
    """Facts, less than half of them in the old policy, which allows where they fail and where what stands apart says so."""
    half = len(facts) * 6 // 11
    new, rest = every(facts[:half]), every(facts[half:])
    spec = row.spec(f"d -> {apart.ours} + (if {rest.ours} then none else public)")
    return spec, updated(allowed(new)), problem(lines + list(row.constants()), [new, rest, Term("", apart.smt)])


TWO = "if x == y then none else public"
USER_TEXT = ["(declare-sort User 0)", "(declare-fun name (User) String)"]


def in_sets(count):
    """So many records are in a set field, no two of one text."""
    row = Row([("all", "Set(Id(User))")] + [(f"r{n}", "Id(User)") for n in range(1, count + 1)])
    whole, *terms = row.terms.values()
    apart = Term(
        f"User::Find({{}}).flat_map(x -> if x in d.all then User::Find({{name: x.name}}).flat_map(y -> if y in d.all then ({TWO}) else none) else none)",
        "(forall ((x User) (y User)) (=> (and (in x all) (in y all) (= (name x) (name y))) (= x y)))",
    )
    lines = USER_TEXT + ["(declare-sort SetOfUser 0)", "(declare-fun in (User SetOfUser) Bool)"]
    spec, script, smt = parted(row, [within(term, whole) for term in terms], apart, lines)
    return Case(model("User", [("name", "Text")], True) + spec, script, smt)


def texts(count):
    """So many records by their numbers, no two of one text."""
    row = references(count)
    numbers = [equal(field(term, "n"), number(n)) for n, term in enumerate(row.terms.values())]
    apart = Term(
        f"User::Find({{}}).flat_map(x -> User::Find({{name: x.name}}).flat_map(y -> {TWO}))",
        "(forall ((x User) (y User)) (=> (= (name x) (name y)) (= x y)))",
    )
    spec, script, smt = parted(row, numbers, apart, USER_TEXT + ["(declare-fun n (User) Int)"])
    return Case(model("User", [("name", "Text"), ("n", "Int")], True) + spec, script, smt)


# Many obligations.


def policies(count):
    """32 commands with both rights, 64 statics, and one policy of so many comparisons."""
    names = statics(64)
    compares = chain(lambda n: f"d.n == {n}", count)
    policy = f"d -> if {compares} then [{names[0]}] else none"
    spec = named(names) + model("Doc", [("n", "Int")], secret=policy).replace("write: none},\n}", f"write: {policy}}},\n}}")
    return Case(spec, f"Doc::UpdateFieldPolicy(secret, {{read: {policy}, write: {policy}}})\n" * 32)


def kinds(count):
    """So many models of principals of which no policy speaks, with the Robot of `gen`, and 64 commands on one field."""
    check = other("check")
    spec = check.grown_spec(1).replace("model Group", "".join(model(f"P{n}", [], True) for n in range(count - 1)) + "model Group", 1)
    updates = (check.grown_policy("group: k.group" + f", level >= {n}" * n.bit_length()) for n in range(64))
    return Case(spec, "".join(f"Note::UpdateFieldPolicy(t1, {{read: {policy}}})\n" for policy in updates))


def nested_sets(count):
    """A command for each of so many fields, with both rights under three nested searches: what `gen` makes."""
    check, smtlib = other("check"), other("smtlib.py")
    spec, script = check.grown_spec(count), check.grown_script(count, False)
    declarations, found = smtlib.obligations(spec, script)
    return Case(spec, script, smtlib.text_of(declarations, [formula for *_, formula in found]))


def nested_leak(count):
    """A leak by so many nested `flat_map`s."""
    made = f"[u{count}]"
    for n in range(count, 0, -1):
        made = f"User::Find({{n: 1}}).flat_map(u{n} -> {made})"
    spec = model("User", [("n", "Int")], True) + model("Doc", [], secret="none")
    return Case(spec, updated(f"d -> {made}"))


def flows_of(people):
    return lambda count: flows(count, people)


FAMILIES = [
    Family("uses: one initialiser of so many, added 128 times", "0.1 s", (63, 127, 255), repeated_uses),
    Family("comparisons: 20 initialisers of so many", "linear", (40, 80, 160), compared),
    Family("flows: uses that 64 statics may read", "0.5 s", (63, 127, 255), flows_of(64)),
    Family("flows: uses that one static may read", "0.01 s at 128", (64, 128, 255), flows_of(1)),
    Family("depth: added fields of 151 `||`, each of the one before", "no 13 at 20", (5, 10, 20), added_depth),
    Family("rising: records whose levels rise", "0.1 s", (15, 30, 60), rising),
    Family("pairwise: records no two of one level", "0.5 s", (25, 50, 100), pairwise),
    Family("pigeons by nested searches: holes", "1 s", (5, 6, 7), nested),
    Family("pigeons by references: holes", "2 times minisat", (6, 7, 8), by_references),
    Family("pigeons by Bool fields: holes", "2 times minisat", (7, 8, 9), by_bools),
    Family("random clauses: Bool fields", "2 times minisat", (150, 170, 190), random_clauses),
    Family("sets: records in one, of different texts", "0.3 s", (45, 90, 175), in_sets),
    Family("texts: records of different texts", "0.3 s", (50, 100, 196), texts),
    Family("policies: comparisons in one, 4,096 obligations", "0.2 s", (40, 80, 166), policies),
    Family("kinds: models that no policy speaks of, 64 commands", "0.05 s", (15, 30, 60), kinds),
    Family("nested sets: fields of `gen`", "0.02 s at 40", (10, 20, 40), nested_sets),
    Family("leaks: nested `flat_map`s", "none yet", (10, 20, 42), nested_leak),
]
