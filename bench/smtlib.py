#!/usr/bin/env python3
"""Writes the obligations of a script as SMT-LIB, one `check-sat` each: smtlib.py SPEC SCRIPT.

It reads the two texts as they are given to `scooter check`, in a part of the language: fields of
`Int`, `Text` and `Id(M)`, policies of lists, `+`, `-`, `Find`, `map` and `flat_map`, filters by
references and `>=`, and scripts of `UpdateFieldPolicy`. Of all else it says that it cannot.

What is written is what an obligation says, word for word. A model is a sort with a predicate
`in.M`, the records that there are, which may be none; a field is a function that takes a record to
one that there is, or to a number of 64 bits. A gain is: there is a record, and a principal of the
kind, whom the policy after the command allows the right and the policy before it does not. So
`unsat` is an obligation that holds, and `sat` a leak. (A database is finite, and a model of the
clauses need not be; for these formulas, whose quantifiers refer along the models without a cycle,
each that has a model has a finite one.)
"""

import re
import sys

TOKEN = re.compile(r"\s*(::|->|>=|[A-Za-z][A-Za-z0-9_]*|-?[0-9]+|[-+{}()\[\],.:])")
RIGHTS = ("read", "write")


class Reader:
    """A text, token by token."""

    def __init__(self, text):
        self.tokens = []
        text, at = text.rstrip(), 0
        while at < len(text):
            found = TOKEN.match(text, at)
            if not found:
                sys.exit(f"cannot: {text[at:at + 40]!r}")
            self.tokens.append(found[1])
            at = found.end()
        self.at = 0

    def ends(self):
        return self.at == len(self.tokens)

    def next(self):
        return None if self.ends() else self.tokens[self.at]

    def take(self, *wanted):
        token = self.next()
        if wanted and token not in wanted or token is None:
            sys.exit(f"cannot: {token!r} at token {self.at}")
        self.at += 1
        return token

    def takes(self, token):
        if self.next() == token:
            self.at += 1
            return True
        return False

    def listed(self, part, end):
        """Parts with commas between and maybe behind them, up to the end."""
        parts = []
        while not self.takes(end):
            parts.append(part())
            if not self.takes(","):
                self.take(end)
                break
        return parts

    def name(self):
        token = self.take()
        if not token[0].isalpha():
            sys.exit(f"cannot: {token!r} for a name")
        return token

    def path(self):
        names = [self.name()]
        while self.takes("."):
            names.append(self.name())
        return names

    def filter(self):
        field = self.name()
        return (field, self.take(":", ">="), self.path() if self.next()[0].isalpha() else int(self.take()))

    def set(self):
        part = self.part()
        while self.next() in ("+", "-"):
            part = (self.take(), part, self.part())
        return part

    def part(self):
        if self.takes("("):
            inside = self.set()
            self.take(")")
            return inside
        if self.takes("["):
            return ("list", self.listed(self.path, "]"))
        model = self.name()
        if model in ("public", "none"):
            return (model,)
        self.take("::")
        self.take("Find")
        self.take("(")
        self.take("{")
        filters = self.listed(self.filter, "}")
        self.take(")")
        if not self.takes("."):
            return ("find", model, filters)
        how = self.take("map", "flat_map")
        self.take("(")
        variable = self.name()
        self.take("->")
        body = ("list", [self.path()]) if how == "map" else self.set()
        self.take(")")
        return ("over", model, filters, variable, body)

    def policy(self):
        if self.next() in ("public", "none"):
            return None, (self.take(),)
        variable = self.name()
        self.take("->")
        return variable, self.set()

    def right(self):
        name = self.name()
        self.take(":")
        return name, self.policy()

    def rights(self):
        self.take("{")
        return dict(self.listed(self.right, "}"))


class Spec:
    """Statics, principals, the types of fields, and the policy of each right on a field."""

    def __init__(self, text):
        self.statics, self.principals, self.fields, self.policies = [], [], {}, {}
        reader = Reader(text)
        while not reader.ends():
            word = reader.take("static", "principal", "model")
            if word == "static":
                self.statics.append(reader.name())
                continue
            if word == "principal":
                reader.take("model")
            model = reader.name()
            if word == "principal":
                self.principals.append(model)
            self.fields[model] = {}
            reader.take("{")
            reader.listed(lambda: self.member(reader, model), "}")

    def member(self, reader, model):
        name = reader.name()
        reader.take(":")
        if name in ("create", "delete"):
            reader.policy()
            return
        kind = reader.take("Int", "Text", "Id")
        if kind == "Id":
            reader.take("(")
            kind = reader.name()
            reader.take(")")
        self.fields[model][name] = kind
        for right, policy in reader.rights().items():
            self.policies[model, name, right] = policy


class Writer:
    """Formulas of a specification. Variables stand for a model and a term of SMT-LIB."""

    def __init__(self, spec):
        self.spec, self.count = spec, 0

    def fresh(self):
        self.count += 1
        return f"v{self.count}"

    def path(self, names, variables):
        model, term = variables[names[0]]
        for name in names[1:]:
            model, term = self.spec.fields[model][name], f"({model}.{name} {term})"
        return model, term

    def meets(self, model, term, filters, variables):
        """The record is there and meets the filters."""
        facts = [f"(in.{model} {term})"]
        for field, sign, value in filters:
            kind, found = self.spec.fields[model][field], f"({model}.{field} {term})"
            if isinstance(value, int):
                wanted = str(value) if value >= 0 else f"(- {-value})"
            else:
                other, wanted = self.path(value, variables)
                if other != kind:
                    sys.exit("cannot: a filter of two types")
            facts.append(f"({'=' if sign == ':' else sign} {found} {wanted})")
        return f"(and {' '.join(facts)})"

    def holds(self, what, who, variables):
        """The set holds the principal, a static's name alone or a model and a term."""
        if what[0] in ("public", "none"):
            return "true" if what[0] == "public" else "false"
        if what[0] in ("+", "-"):
            left, right = (self.holds(part, who, variables) for part in what[1:])
            return f"(or {left} {right})" if what[0] == "+" else f"(and {left} (not {right}))"
        if what[0] == "list":
            return f"(or false {' '.join(self.is_item(names, who, variables) for names in what[1])})"
        if what[0] == "find":
            return self.meets(what[1], who[1], what[2], variables) if who[0] == what[1] else "false"
        _, model, filters, variable, body = what
        term = self.fresh()
        there = self.meets(model, term, filters, variables)
        inside = self.holds(body, who, {**variables, variable: (model, term)})
        return f"(exists (({term} {model})) (and {there} {inside}))"

    def is_item(self, names, who, variables):
        if len(names) == 1 and names[0] in self.spec.statics:
            return "true" if who == (names[0],) else "false"
        model, term = self.path(names, variables)
        return f"(= {term} {who[1]})" if len(who) == 2 and who[0] == model else "false"

    def allows(self, policy, model, row, who):
        variable, what = policy
        return self.holds(what, who, {variable: (model, row)})

    def declarations(self):
        for model in self.spec.fields:
            yield f"(declare-sort {model} 0)"
            yield f"(declare-fun in.{model} ({model}) Bool)"
        for model, fields in self.spec.fields.items():
            for field, kind in fields.items():
                if kind == "Text":
                    continue
                yield f"(declare-fun {model}.{field} ({model}) {kind})"
                value = f"({model}.{field} x)"
                there = f"(in.{kind} {value})"
                if kind == "Int":
                    there = f"(and (<= (- {2 ** 63}) {value}) (< {value} {2 ** 63}))"
                yield f"(assert (forall ((x {model})) (=> (in.{model} x) {there})))"

    def gain(self, before, after, model, kind):
        """Some principal of the kind gains the right on some record."""
        row = self.fresh()
        who = (kind,) if kind in self.spec.statics else (kind, self.fresh())
        bound = [(row, model)] + ([(who[1], kind)] if len(who) == 2 else [])
        there = " ".join(f"(in.{m} {t})" for t, m in bound)
        names = " ".join(f"({t} {m})" for t, m in bound)
        new, old = (self.allows(policy, model, row, who) for policy in (after, before))
        return f"(exists ({names}) (and {there} {new} (not {old})))"


def obligations(spec_text, script_text):
    """The declarations, and of each obligation the command, the field, the right, the kind and the formula."""
    spec = Spec(spec_text)
    writer = Writer(spec)
    reader = Reader(script_text)
    found, command = [], 0
    while not reader.ends():
        command += 1
        model = reader.name()
        reader.take("::")
        reader.take("UpdateFieldPolicy")
        reader.take("(")
        field = reader.name()
        reader.take(",")
        rights = reader.rights()
        reader.take(")")
        for right in RIGHTS:
            if right not in rights:
                continue
            before = spec.policies[model, field, right]
            for kind in spec.statics + spec.principals:
                formula = writer.gain(before, rights[right], model, kind)
                found.append((command, f"{model}.{field}", right, kind, formula))
            spec.policies[model, field, right] = rights[right]
    return list(writer.declarations()), found


def text_of(declarations, formulas):
    lines = ["(set-logic ALL)", *declarations]
    for formula in formulas:
        lines += ["(push 1)", f"(assert {formula})", "(check-sat)", "(pop 1)"]
    return "\n".join(lines) + "\n"


def main():
    texts = []
    for name in sys.argv[1:]:
        with open(name, encoding="utf-8") as text:
            texts.append(text.read())
    declarations, found = obligations(*texts)
    sys.stdout.write(text_of(declarations, [formula for *_, formula in found]))


if __name__ == "__main__":
    main()
