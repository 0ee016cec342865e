"""Families of rules that `serve` asks: a specification, data and lines at three sizes."""

from families import Family, model

START = "open s as User @1\nread s Doc @1 secret\n"


def people(spec):
    return model("User", [("boss", "Id(User)")], True) + model("Doc", [("owner", "Id(User)")], secret=spec)


def stored(records):
    users = "".join(f"  @{n} {{boss: @{records}}}\n" for n in range(1, records + 1))
    return f"User @{records + 1} {{\n{users}}}\nDoc @2 {{\n  @1 {{owner: @1, secret: \"s\"}}\n}}\n"


def maps(count):
    """A chain of so many `map`s, over two users whose boss is the second, asked by the first."""
    return people("d -> User::Find({})" + "".join(f".map(u{n} -> u{n}.boss)" for n in range(count))), stored(2), START


def flat_maps(count):
    """So many nested `flat_map`s over two users."""
    made = "none"
    for n in range(count, 0, -1):
        made = f"User::Find({{}}).flat_map(u{n} -> {made})"
    return people(f"d -> {made}"), stored(2), START


FAMILIES = [
    Family("maps: a chain in a session, two records", "0.01 s at 111", (18, 20, 22), maps),
    Family("flat_maps: nested in a session, two records", "0.01 s at 60", (14, 16, 18), flat_maps),
]
