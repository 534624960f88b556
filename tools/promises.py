#!/usr/bin/env python3
"""Checks the tables of promises against the sources: that each function and each clause that a row cites is there, and that each
definition that it cites is reached from the clause that it cites.

    tools/promises.py
    tools/promises.py --uncited        and which public functions have clauses that no row cites

A table of promises is one whose header has a cell that begins with 'clause'. In a row's cell 'function' stand public functions
as `crate::function` or `crate::Type::function`; where a table has no such cells its header names one, and may name the clause that its
rows speak of ('clause `runs` of `drm_top::run`'). In a row's cell 'clause' stand

    `name`          a clause 'ensures name'
    `Name`          a definition of crates/*/specs that a clause rests on
    `Name.field`    a field of such a record
    its clause      the only clause, which has no name

of each function of the row; or, if they differ, of one function after another, with ';' between. A definition has to be reached from a
clause that the row names, or from the header's; where neither names one, from any of the function. Of what a run of a command comes to
(`CommandRun`) the cases of those commands count that the row names in its first cell, or else those of the row before it. A row whose
last cell is 'test' has, in a cell 'shown by', files or crates that have to be there. The status is 1 if a row cites what isn't there.
"""
import dataclasses
import functools
import re

import command_line
from definitions import CRATES, TOP, definitions, functions, reached

DOCUMENTS = ["docs/PROMISES.md", "docs/PROVED.md"]

FIELD = re.compile(r"^\s+pub (\w+)\s*:", re.MULTILINE)
CITED = re.compile(r"`([^`]+)`")
# The definition that has a case for each command.
BY_COMMAND = "CommandRun"


# ---- what a row may cite

@functools.cache
def words(start, commands):
    """The definitions and the fields that are reached from these, where only the cases of these commands count, if there are any."""
    found = set()
    for file, name in reached(start, (BY_COMMAND, commands) if commands else None):
        found |= {f"{name}.{field}" for field in FIELD.findall(definitions(file)[name][0])}
        found |= {name} if name[0].isupper() else set()
    return found


@functools.cache
def commands():
    """The words of the commands: the variants of what a command line asks for."""
    source = CRATES / "drm_words" / "src" / "request.rt"
    return set(map(str.lower, re.findall(r"^    (\w+)(?: \{|,)$", source.read_text(encoding="utf-8"), re.MULTILINE))) if source.is_file() else set()


# ---- what the tables cite

@dataclasses.dataclass
class Row:
    line: int
    names: list
    clause: str
    is_proved: bool
    # The clause that the header names, and the commands of which the row speaks.
    header: str | None
    commands: frozenset


def rows(document):
    """The rows of a document's tables of promises."""
    columns = None
    for number, line in enumerate(command_line.text(TOP / document).splitlines(), 1):
        cells = [cell.strip() for cell in line.split("|")[1:-1]]
        if not line.startswith("|"):
            columns = None
        elif columns is None:
            columns, spoken = cells, frozenset()
            clause = next((k for k, cell in enumerate(cells) if cell.startswith(("clause", "what was tried"))), None)
            named = next((k for k, cell in enumerate(cells) if cell.startswith(("function", "shown by"))), clause)
            given = CITED.findall(cells[named]) if clause is not None and named == clause else []
            header = given[0] if len(given) > 1 else None
        elif clause is not None and not set(line) <= set("|-: "):
            spoken = frozenset(word.split()[0] for word in CITED.findall(cells[0]) if word.split()[0] in commands()) or spoken
            yield Row(number, given[-1:] or CITED.findall(cells[named]), cells[clause], cells[-1] != "test", header, spoken)


def functions_cited(names):
    """The functions of these names, whose crate may stand with the first of several alone; None for what isn't there."""
    crate = None
    for name in names:
        first, _, rest = name.partition("::")
        if (CRATES / first).is_dir() and rest:
            crate, name = first, rest
        yield (f"{crate}::{name}", functions(crate).get(name)) if crate else (name, None)


def complaints(row, cited):
    """What is wrong with a row that is proved; which functions it cites goes to `cited`."""
    groups = row.clause.split(";")
    if len(groups) == 1:
        groups *= len(row.names)
    if not row.names or len(groups) != len(row.names):
        yield f"{len(row.names)} functions, and clauses of {len(groups)}"
        return
    for (name, function), group in zip(functions_cited(row.names), groups):
        cited.add(name)
        if function is None:
            yield f"{name} is no public function"
            continue
        given, unnamed = CITED.findall(group), "its clause" in group
        if not given and not unnamed:
            yield f"no clause of {name}"
        if unnamed and list(function.clauses) != [""]:
            yield f"{name} has not one clause without a name"
        if row.header and row.header not in function.clauses:
            yield f"{name} has no {row.header}"
        yield from unreached(row, name, function, given)


def unreached(row, name, function, given):
    """What a row cites of a function that is neither a clause of it nor reached from those that it cites."""
    clauses = frozenset(word for word in given if word in function.clauses)
    labels = clauses | ({row.header} if row.header else set())
    there = words(frozenset(function.start(labels or None)), row.commands)
    for word in given:
        if word not in clauses and word not in there:
            yield f"{name} has no {word}" + (f" in {', '.join(sorted(labels))}" if labels else "")


def missing(names):
    """What a row that is tested names and isn't there."""
    return [f"no file or crate {name}" for name in names if not (TOP / name).exists() and not (CRATES / name).is_dir()]


def main():
    parser = command_line.parser(__doc__)
    parser.add_argument("--uncited", action="store_true", help="print which public functions with clauses no row cites")
    options = parser.parse_args()
    wrong, cited = 0, set()
    for document in DOCUMENTS:
        many = 0
        for row in rows(document):
            many += 1
            for complaint in complaints(row, cited) if row.is_proved else missing(row.names):
                command_line.complain(f"{document}:{row.line}: {complaint}")
                wrong += 1
        if not many:
            command_line.complain(f"{document}:1: no table of promises")
            wrong += 1
        print(f"{document}: {many} promises")
    if options.uncited:
        for crate in sorted(path.parent.name for path in CRATES.glob("*/src")):
            for name, function in functions(crate).items():
                if function.clauses and f"{crate}::{name}" not in cited:
                    print(f"uncited: {crate}::{name}: {', '.join(label or '(no name)' for label in function.clauses)}")
    return 1 if wrong else 0


if __name__ == "__main__":
    command_line.run(main)
