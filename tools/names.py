#!/usr/bin/env python3
"""Checks the names of the sources: what docs/ARCHITECTURE.md's map says of crates, and a few rules that a reader leans on.

    tools/names.py

1. Each crate begins with a prefix of the map, or is a program of it; crates.txt and the table of crates list all, in the order of `ls`.
2. No definition of specs/ is one bare verb ("Ends", "Took"): its name has its subject too ("ReadingEnds").
3. No clause is labelled few, some, small, many, long, all or left: a label names its fact.
4. The name of a type stands in one crate: struct, enum, trait and type of src/, and types of specs/. A definition that models a type of its
   own crate under its name counts once.

The status is 1 if a name breaks a rule; each is printed with its place.
"""
import collections
import pathlib
import re

import command_line

TOP = pathlib.Path(__file__).resolve().parent.parent
CRATES = TOP / "crates"
MAP = TOP / "docs" / "ARCHITECTURE.md"
LIST = TOP / "crates.txt"

LABELS = "few some small many long all left".split()
LABEL = re.compile(rf"^\s*(?:requires|ensures)\*? ({'|'.join(LABELS)}) \{{")
ROW = re.compile(r"^\| `(\w+)` \|", re.MULTILINE)
MAP_ENDS = "## Where to begin reading"
DEFINITION = re.compile(r"^(?:(abbrev|unfoldable) )?(?:pub )?(?:(record|data) )?([A-Z][A-Za-z0-9]*)(?![A-Za-z0-9_'.])(.*)$")
TYPE = re.compile(r"^(?:pub(?:\(crate\))? )?(?:ghost )?(?:struct|enum|trait|type) ([A-Z][A-Za-z0-9]*)\b")

# One word that ends like a verb and is none.
NOUNS = set("Address Class Counts Files Front Items Kind Known Object Options Over Packets Parts Pieces Rules Targets Terms Totals Traffic Use".split())
# Bare verbs and participles that don't end in s or ed.
IRREGULAR = set("Begin Begun Broke Broken Came Come End Find Fit Follow Gave Give Go Heard Made Make Read Rise Run Sent Suit Take Told Took Went"
                " Wrote".split())


def words(name):
    return len(re.findall("[A-Z]", name))


def is_bare_verb(name):
    return words(name) == 1 and name not in NOUNS and (name in IRREGULAR or re.search("[^s]s$|ed$", name) is not None)


def is_type(kind, name, rest):
    """Whether a definition of specs is a type of values: it has no parameter that is a value."""
    if kind not in ("record", "data"):
        return words(name) == 1 and re.match(r"\s*:\s*Type \d\s*$", rest) is not None
    head = rest.split(" where")[0]
    parameters = re.findall(r"[({]([^(){}:]*):([^(){}]*)[)}]", head)
    return all(re.match(r"\s*Type", of) for _, of in parameters) and "→" not in re.sub(r"[({][^(){}]*[)}]", "", head)


def lines(crate, pattern):
    for path in sorted(crate.glob(pattern)):
        for number, line in enumerate(path.read_text(encoding="utf-8").splitlines(), 1):
            yield f"{path.relative_to(TOP)}:{number}", line


def definitions(crate):
    """The definitions of a crate's specs: place, kind, name and what follows it."""
    for place, line in lines(crate, "specs/**/*.antt"):
        found = DEFINITION.match(line)
        if found and (found[1] or found[2]):
            yield place, found[2] or "function", found[3], found[4]


def out_of_order(what, names):
    for before, name in zip(names, names[1:]):
        if name < before:
            yield f"{what}: {name} stands behind {before}: the order is that of ls"
            return


def of_crates(crates):
    """What the map, the table and crates.txt say otherwise than the folders."""
    prefixes, table = MAP.read_text(encoding="utf-8").split(MAP_ENDS)
    prefixes = ROW.findall(prefixes)
    names = [crate.name for crate in crates]
    for name in names:
        if not any(name == prefix or prefix.endswith("_") and name.startswith(prefix) for prefix in prefixes):
            yield f"crates/{name}: no prefix of the map in {MAP.name}"
    rows = [name for name in ROW.findall(table) if name in names]
    yield from (f"{MAP.name}: no row for {name}" for name in names if name not in rows)
    yield from out_of_order(MAP.name, rows)
    yield from out_of_order(LIST.name, [line.split(":")[0] for line in LIST.read_text(encoding="utf-8").splitlines() if not line.startswith("#")])


def of_definitions(crates):
    """Bare verbs."""
    for crate in crates:
        for place, _, name, _ in definitions(crate):
            if is_bare_verb(name):
                yield f"{place}: {name} is a bare verb: say of what"


def of_labels(crates):
    for crate in crates:
        for place, line in lines(crate, "src/**/*.rt"):
            found = LABEL.match(line)
            if found:
                yield f"{place}: a clause is labelled {found[1]}: name its fact"


def of_types(crates):
    stands = collections.defaultdict(set)
    for crate in crates:
        for _, kind, name, rest in definitions(crate):
            if is_type(kind, name, rest):
                stands[name].add(crate.name)
        for _, line in lines(crate, "src/**/*.rt"):
            found = TYPE.match(line)
            if found:
                stands[found[1]].add(crate.name)
    for name, places in sorted(stands.items()):
        if len(places) > 1:
            yield f"the type {name} stands in several crates: " + ", ".join(sorted(places))


def main():
    command_line.parser(__doc__).parse_args()
    crates = sorted(path for path in CRATES.iterdir() if path.is_dir())
    wrong = [line for check in (of_crates, of_definitions, of_labels, of_types) for line in check(crates)]
    print(*wrong, f"names: {len(crates)} crates, {len(wrong)} wrong", sep="\n")
    return 1 if wrong else 0


if __name__ == "__main__":
    command_line.run(main)
