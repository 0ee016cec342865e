"""Expressions that are written in three ways: as the language has them, as SMT-LIB, and in numbers for minisat."""

import re
from typing import NamedTuple

TOKEN = re.compile(r'"[^"]*"|::|->|==|!=|<=|>=|&&|\|\||[A-Za-z][A-Za-z0-9_]*|[0-9]+|\S')
MOST_TOKENS = 1_024


class Term(NamedTuple):
    ours: str
    smt: str


def tokens(text):
    return len(TOKEN.findall(text))


def number(value):
    return Term(str(value), str(value) if value >= 0 else f"(- {-value})")


def text(value):
    return Term(f'"{value}"', f'"{value}"')


def equal(left, right):
    return Term(f"{left.ours} == {right.ours}", f"(= {left.smt} {right.smt})")


def below(left, right):
    return Term(f"{left.ours} < {right.ours}", f"(< {left.smt} {right.smt})")


def within(one, whole):
    """The record is in the set field."""
    return Term(f"{one.ours} in {whole.ours}", f"(in {one.smt} {whole.smt})")


def field(record, name):
    return Term(f"{record.ours}.{name}", f"({name} {record.smt})")


def negated(part):
    inside = part.ours if re.fullmatch(r"[\w.]+", part.ours) else f"({part.ours})"
    return Term(f"!{inside}", f"(not {part.smt})")


def every(parts):
    return joined("&&", "and", parts)


def some(parts):
    return joined("||", "or", parts)


def joined(sign, word, parts):
    parts = list(parts)
    if len(parts) == 1:
        return parts[0]
    return Term(f" {sign} ".join(closed(part.ours, sign) for part in parts), f"({word} {' '.join(part.smt for part in parts)})")


def closed(text, sign):
    """The part of a chain: `&&` and comparisons stand in a `||` as they are, and comparisons in a `&&`."""
    return f"({text})" if "||" in text or sign == "&&" and "&&" in text else text


def pieces(parts, join):
    """The parts, in as few chains as 1,024 tokens allow each."""
    chain = []
    for part in parts:
        if chain and tokens(join(chain + [part]).ours) > MOST_TOKENS:
            yield join(chain)
            chain = []
        chain.append(part)
    yield join(chain)
