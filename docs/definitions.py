#!/usr/bin/env python3
"""Makes docs/DEFINITIONS.md of the `specs/Public.antt` files of all crates.

Usage: docs/definitions.py [--check]

Each definition that a Public.antt lists gets a row: its name, the comment that stands above it, its file, and the
public contracts that cite it, or else the listed definitions that do. docs/definitions.txt has words for those that
stand in groups, or have no comment of their own. With --check nothing is written, and the status is 1 where the page
is not up to date.
"""

import os
import re
import sys

TOP = os.path.dirname(os.path.dirname(os.path.abspath(__file__)))
PAGE = os.path.join(TOP, "docs", "DEFINITIONS.md")
WORDS = os.path.join(TOP, "docs", "definitions.txt")
LAYERS = {
    "text": "Texts and trees", "type": "Types", "data": "Databases, and what scripts mean on them", "duty": "Obligations and their formulas",
    "form": "Formulas and terms", "ground": "Formulas over terms", "solve": "Clauses", "decide": "Verdicts on formulas",
    "check": "Verdicts on scripts", "store": "The store", "door": "The door",
    "certify": "Certificates", "impact": "What weakenings newly allow", "online": "Online migrations", "app": "The program",
}
PROGRAM = {"link_arena": "solve", "scooter": "app"}
IMPORT = re.compile(r"^\s*(?:ghost |pub )*use Rattle\.(\w+)\.specs\.([\w.]+?)(?:\.\{([^}]*)\}| as (\w+))?;?\s*$")
NAME = r"[^\s(){}\[\],;.:]+"
MOST_CITING = 6


def read(path):
    with open(path, encoding="utf-8") as file:
        return file.read().split("\n")


def layer_of(crate):
    return PROGRAM.get(crate, crate.split("_")[0])


def crates():
    """The crates of crates.txt, by layers; in a layer each after those that it stands on."""
    below = {}
    for line in read(os.path.join(TOP, "crates.txt")):
        found = re.match(r"(\w+)[^:#]*:(.*)", line)
        if found:
            below[found.group(1)] = found.group(2).split()
    ordered = []

    def take(crate):
        if crate in below and crate not in ordered:
            for other in below[crate]:
                if layer_of(other) == layer_of(crate):
                    take(other)
            ordered.append(crate)

    for layer in LAYERS:
        for crate in below:
            if layer_of(crate) == layer:
                take(crate)
    return ordered


def is_for_tests(crate):
    return crate.endswith(("_tests", "_bench", "_trial"))


def imports(lines):
    """What a file calls the definitions that it imports: (crate, module, name) by local name; modules by alias."""
    names, aliases = {}, {}
    for line in lines:
        found = IMPORT.match(line)
        if not found:
            continue
        crate, module, listed, alias = found.groups()
        if alias:
            aliases[alias] = (crate, module)
        for item in (listed or "").split(","):
            parts = item.strip().split(" as ")
            if parts[0]:
                names[parts[-1]] = (crate, module, parts[0])
    return names, aliases


def handed_on(all_crates):
    """Where the names come from that a file of `specs/` hands on by `pub use`: (crate, module, name) by the name there."""
    found = {}
    for crate in all_crates:
        specs = os.path.join(TOP, "crates", crate, "specs")
        for path in files_below(specs, ".antt"):
            module = os.path.relpath(path, specs)[:-5].replace(os.sep, ".")
            names, _ = imports([line for line in read(path) if line.startswith("pub use ")])
            found.update({(crate, module, name): origin for name, origin in names.items() if origin[0] != crate})
    return found


def cited_in(text, names, aliases):
    """The definitions that a piece of a file speaks of."""
    found = set()
    for word in re.findall(r"[\w.⨾◌'-]+", text):
        if word in names:
            found.add(names[word])
        head, dot, rest = word.partition(".")
        if head in names:
            found.add(names[head])
        if dot and head in aliases:
            found.add(aliases[head] + (rest.split(".")[0],))
    return found


# ---- what is listed, and its words


def listed(crate):
    """The definitions of a crate that its Public.antt lists: (module, name), in its order."""
    path = os.path.join(TOP, "crates", crate, "specs", "Public.antt")
    if not os.path.exists(path):
        return
    for line in read(path):
        found = IMPORT.match(line)
        if found and found.group(1) == crate:
            for item in found.group(3).split(","):
                yield found.group(2), item.strip().split(" as ")[0]


def heads(lines):
    """Where each definition of a file begins: (line, name). Fields of records and makers of types are none."""
    inside = None
    for at, line in enumerate(lines):
        if not line.strip() or line.strip().startswith("--"):
            continue
        indent = len(line) - len(line.lstrip())
        if inside is not None and indent > inside:
            continue
        inside = None
        found = re.match(rf"\s*((?:(?:pub|abbrev|unfoldable|data|record|mutual) )+)({NAME})", line)
        if found:
            if "data " in found.group(1) or "record " in found.group(1):
                inside = indent
            yield at, found.group(2)


def place_of(name, lines):
    """The line where a definition begins, and whether it is a maker of a data type."""
    for at, found in heads(lines):
        if found == name:
            return at, False
    for at, line in enumerate(lines):
        if re.match(rf"\s*{re.escape(name)}(?: {NAME})* : ", line):
            return at, True
    return None, False


def comment_above(lines, at):
    """The comment right above a line, in one line."""
    words = []
    while at > 0 and lines[at - 1].strip().startswith("--") and not lines[at - 1].strip().startswith("-- ----"):
        at -= 1
        words.insert(0, lines[at].strip()[2:].strip())
    return " ".join(words)


def type_of_maker(lines, at):
    """The name of the data type that a maker stands in."""
    for line in reversed(lines[:at]):
        found = re.match(rf"\s*pub data ({NAME})", line)
        if found:
            return found.group(1)
    return None


def groups_given(complaints):
    """The rows of docs/definitions.txt: by (crate, module, name) the names of its group and their words."""
    groups = {}
    for line in read(WORDS):
        found = re.match(r"(\w+)\.([\w.]+) ([^:]+): (.*)", line)
        if found:
            crate, module, names, text = found.groups()
            for name in names.split():
                if (crate, module, name) in groups:
                    complaints.append(f"docs/definitions.txt has {crate}.{module}.{name} twice")
                groups[crate, module, name] = (names.split(), text)
    return groups


def words_in_file(name, lines):
    """The words that a definition has in its file; a maker's are those of its type, if it has none."""
    at, is_maker = place_of(name, lines)
    words = comment_above(lines, at) if at is not None else ""
    return words or (f"a form of `{type_of_maker(lines, at)}`" if is_maker else "")


def rows_of(crate, groups, complaints):
    """The rows of a crate, in the order of its Public.antt: module, names, words."""
    rows, files, in_rows = [], {}, set()
    names_listed = list(listed(crate))
    for module, name in names_listed:
        path = os.path.join(TOP, "crates", crate, "specs", *module.split(".")) + ".antt"
        lines = files.setdefault(path, read(path))
        names, words = groups.get((crate, module, name), ([name], ""))
        if words and name == names[0]:
            complaints += [
                f"docs/definitions.txt has {crate}.{module}.{it}, which Public.antt does not list"
                for it in names if (module, it) not in names_listed
            ]
        words = words or words_in_file(name, lines)
        if not words:
            complaints.append(f"no words for {crate}.{module}.{name}: write a comment above it")
        if (module, name) in in_rows:
            continue
        in_rows.update((module, it) for it in names)
        if rows and rows[-1][0] == module and rows[-1][2] == words:
            rows[-1][1].extend(names)
        else:
            rows.append((module, list(names), words))
    return rows


# ---- who cites


def end_of_contract(lines, at):
    """The line behind the contract of the function that begins at a line: its body, or what stands next."""
    indent = len(lines[at]) - len(lines[at].lstrip())
    has_clauses = False
    for end in range(at, len(lines)):
        line = lines[end]
        has_clauses = has_clauses or line.strip().startswith(("ensures", "requires"))
        if not has_clauses and line.rstrip().endswith(("{", "{}", ";")):
            return end + 1
        if end > at and line.strip() and len(line) - len(line.lstrip()) <= indent and not line.strip().startswith(")"):
            return end
    return len(lines)


def contracts(lines):
    """The items of a file with what their contracts say: (name, text), of what callers see."""
    owner, is_seen = "", False
    for at, line in enumerate(lines):
        block = re.match(r"(?:pub )?(?:trait|impl)\b(?:<.*?>)?\s*(.*?)\s*(?:where.*)?\{", line)
        if block:
            head = re.sub(r"<.*?>", "", block.group(1)).split(": ")[0].strip()
            owner = head.split(" for ")[-1].strip()
            is_seen = line.startswith("pub trait") or " for " in head
            end = next((n for n in range(at, len(lines)) if lines[n].startswith("}")), at)
            yield owner, "\n".join(it for it in lines[at:end] if it.strip().startswith("ghost ") and " use " not in it)
        elif line.startswith("}"):
            owner, is_seen = "", False
        item = re.match(r"\s*(pub )?(?:final )?(?:const )?fn (\w+)", line)
        if item and (item.group(1) or is_seen):
            name = f"{owner}::{item.group(2)}" if owner else item.group(2)
            yield name, "\n".join(lines[at:end_of_contract(lines, at)])


def files_below(folder, ending):
    for root, folders, names in os.walk(folder):
        folders.sort()
        for name in sorted(names):
            if name.endswith(ending):
                yield os.path.join(root, name)


def citing_contracts(all_crates):
    """By definition, the public contracts that cite it: (crate, name)."""
    citing, origins = {}, handed_on(all_crates)
    for crate in all_crates:
        for path in files_below(os.path.join(TOP, "crates", crate, "src"), ".rt"):
            lines = read(path)
            names, aliases = imports(lines)
            for item, text in contracts(lines):
                for what in cited_in(text, names, aliases):
                    what = origins.get(what, what)
                    found = citing.setdefault(what, [])
                    if (crate, item) not in found and (what[0] == crate or not is_for_tests(crate)):
                        found.append((crate, item))
    return {what: found for what, found in citing.items() if found}


def definitions_in(lines):
    """The definitions of a file, each with its text but for comments."""
    starts = list(heads(lines))
    for (at, name), (end, _) in zip(starts, starts[1:] + [(len(lines), None)]):
        yield name, "\n".join(line for line in lines[at:end] if not line.strip().startswith("--"))


def citing_definitions(all_crates):
    """By definition, the definitions that cite it."""
    citing, origins = {}, handed_on(all_crates)
    for crate in all_crates:
        specs = os.path.join(TOP, "crates", crate, "specs")
        for path in files_below(specs, ".antt"):
            module = os.path.relpath(path, specs)[:-5].replace(os.sep, ".")
            lines = read(path)
            names, aliases = imports(lines)
            names.update({name: (crate, module, name) for _, name in heads(lines)})
            for name, text in definitions_in(lines):
                for what in cited_in(text, names, aliases):
                    what = origins.get(what, what)
                    if what != (crate, module, name):
                        citing.setdefault(what, []).append((crate, module, name))
    return citing


def cited_further(what, by_contract, by_definition, shown):
    """The listed definitions that cite one, or through others that are not listed; and the contracts that cite these."""
    found, seen, waiting = [], {what}, [what]
    while waiting:
        for other in by_definition.get(waiting.pop(0), []):
            if other in seen:
                continue
            seen.add(other)
            if other in shown:
                found.append((other[0], other[2]))
            elif other in by_contract:
                found += by_contract[other]
            else:
                waiting.append(other)
    return found


def said(found, crate):
    """Those that cite, of this crate first, by crates."""
    found = sorted(found, key=lambda it: it[0] != crate)
    by_crate = {}
    for of, name in found[:MOST_CITING]:
        by_crate.setdefault(of, []).append(f"`{name}`")
    parts = [", ".join(names) + ("" if of == crate else f" of {of}") for of, names in by_crate.items()]
    more = len(found) - MOST_CITING
    return "; ".join(parts) + (f"; and {more} more" if more > 0 else "")


def cited_by(crate, module, names, by_contract, by_definition, shown):
    keys = [(crate, module, name) for name in names]
    found = [it for key in keys for it in by_contract.get(key, [])]
    if not found:
        found = [it for key in keys for it in cited_further(key, by_contract, by_definition, shown) if it[1] not in names]
    return said(list(dict.fromkeys(found)), crate) or "-"


# ---- the page


def about(crate):
    """What the crate's README says first."""
    lines = read(os.path.join(TOP, "crates", crate, "README.md"))
    words = " ".join(" ".join(lines[1:]).split())
    return re.split(r"(?<=[.:])\s", words)[0].rstrip(".:")


HEAD = """# Definitions

What the public contracts speak in: what a reader has to believe. The page is made by `docs/definitions.py` of the files `specs/Public.antt`, which list the definitions of each crate; the words
are those above each definition. Where no public contract cites a definition itself, the last column has the definitions that do; `-` where nothing does yet.

The promise of the program is `Headline` (app_files, `Headline.antt`), and over a store `StoreHeadline` (app_store, `Headline.antt`). They rest on `IsSecure` and `IsStepSecure` (data_meaning, `Secure.antt`), those on `GainAt` and `FlowAt` (`Gain.antt`), and
those on `allows`, `touched` and `run_to` (`Meaning.antt`, `Touched.antt`, `Run.antt`). Who reads these has read what an answer means.

Layers and crates stand in the order of the data (`ARCHITECTURE.md`). FILE is `crates/CRATE/specs/FILE.antt`.
"""


def is_listed(key, rows):
    crate, module, name = key
    return any(of == module and name in names for of, names, _ in rows.get(crate, []))


def page(complaints):
    all_crates = crates()
    groups = groups_given(complaints)
    rows = {crate: rows_of(crate, groups, complaints) for crate in all_crates}
    complaints += [f"docs/definitions.txt has {'.'.join(key)}, which is no definition" for key in groups if not is_listed(key, rows)]
    shown = {(crate, module, name) for crate in rows for module, names, _ in rows[crate] for name in names}
    by_contract, by_definition = citing_contracts(all_crates), citing_definitions(all_crates)
    lines, layer = [HEAD], None
    for crate in all_crates:
        if not rows[crate]:
            continue
        if layer_of(crate) != layer:
            layer = layer_of(crate)
            lines += [f"## {LAYERS[layer]}", ""]
        lines += [f"### {crate}", "", f"{about(crate)}.", "", "| definition | says | FILE | cited by |", "|---|---|---|---|"]
        for module, names, words in rows[crate]:
            quoted = ", ".join(f"`{name}`" for name in names)
            cited = cited_by(crate, module, names, by_contract, by_definition, shown)
            cells = (quoted, words.rstrip("."), module.replace(".", "/"), cited)
            lines.append("| " + " | ".join(cell.replace("|", "\\|") for cell in cells) + " |")
        lines.append("")
    return "\n".join(lines).rstrip("\n") + "\n"


def main():
    complaints = []
    text = page(complaints)
    for complaint in complaints:
        print(f"definitions: {complaint}", file=sys.stderr)
    if "--check" in sys.argv[1:]:
        with open(PAGE, encoding="utf-8") as file:
            if file.read() != text:
                complaints.append("not up to date")
                print("definitions: docs/DEFINITIONS.md is not up to date; run docs/definitions.py", file=sys.stderr)
        return 1 if complaints else 0
    with open(PAGE, "w", encoding="utf-8") as file:
        file.write(text)
    return 1 if complaints else 0


if __name__ == "__main__":
    sys.exit(main())
