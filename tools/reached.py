#!/usr/bin/env python3
"""Tells how large the definitions are that a definition, the clauses of a source file, or one clause of a function rest on: the files that
are reached by imports, and their lines.

    tools/reached.py crates/recv_report/specs/Headline.antt
    tools/reached.py --check docs/BELIEVED.md README.md
    tools/reached.py --write docs/BELIEVED.md

Counted are the lines of definitions and comments, without imports and empty ones, crate by crate. What the toolchain's own
library defines, and the types that the code declares, aren't counted; of the toolchain's other crates those are named whose
definitions are reached.

A list of what is believed has a table behind each line "Reached from `FILE`:", with the files of each crate, and their number and
lines below it; behind "Reached from `FILE`, but not from `OTHER`:" with those that FILE adds to what OTHER reaches. In the place of a
file may stand "clause `NAME` of `crate::function`", or a pattern of files. With --check each list is compared with what is
reached, and each "N files of M crates with L lines" of the documents behind it with these sums; with --write the list is made anew.
"""
import collections
import itertools
import pathlib
import re
import sys

import command_line
from definitions import functions

TOP = pathlib.Path(__file__).resolve().parent.parent
IMPORT = re.compile(r"^\s*(?:ghost |pub )?use Rattle\.(\w+)\.specs\.([\w.]+)", re.MULTILINE)
PLACE = r"(?:clause `\w+` of )?`[^`]+`"
LISTED = re.compile(rf"^Reached from ({PLACE})(?:, but not from ({PLACE}))?:\n(?:\n\|.*(?:\n\|.*)*\n\n.*\n)?", re.MULTILINE)
CLAUSE = re.compile(r"clause `(\w+)` of `(\w+)::([\w:]+)`")
SUMS = re.compile(r"([\d,]+)\s+files\s+of\s+(\d+)\s+crates,?\s+with\s+([\d,]+)\s+lines")
# The library of the toolchain: numbers, lists, finite maps and the like.
LIBRARY = {"std", "core", "io", "libc", "os", "std_alloc", "std_collections", "std_heap", "std_io"}


def file_of(crate, path):
    """The file that defines a path of a crate's specs, if the repository has it."""
    parts = path.strip(".").split(".")
    for count in range(len(parts), 0, -1):
        found = TOP / "crates" / crate / "specs" / pathlib.Path(*parts[:count]).with_suffix(".antt")
        if found.is_file():
            return found
    return None


def begins(place):
    """The files with which a place of a list begins."""
    clause = CLAUSE.fullmatch(place)
    if not clause:
        files = sorted(TOP.glob(place.strip("`")))
        return files or sys.exit(f"no file {place}")
    name, crate, function = clause.groups()
    found = functions(crate).get(function) if (TOP / "crates" / crate).is_dir() else None
    if not found or name not in found.clauses:
        sys.exit(f"no {place}")
    return sorted({file for file, _ in found.clauses[name] if file.is_file()})


def reached(start):
    """All files of definitions that are reached from these, and the toolchain's crates that they name."""
    found, left, others = set(), list(start), set()
    while left:
        file = left.pop()
        if file not in found:
            found.add(file)
            for crate, path in IMPORT.findall(file.read_text(encoding="utf-8")):
                others |= set() if (TOP / "crates" / crate).is_dir() else {crate}
                left += filter(None, [file_of(crate, path)])
    return {file for file in found if file.suffix == ".antt"}, others - LIBRARY


def lines_of(file):
    return sum(1 for line in file.read_text(encoding="utf-8").splitlines() if line.strip() and not line.startswith(("use ", "pub use ")))


def by_crate(files):
    """The files of each crate, crates and files by name."""
    crates = collections.defaultdict(list)
    for file in sorted(files):
        crates[file.relative_to(TOP).parts[1]].append(file)
    return dict(sorted(crates.items()))


def name_of(file):
    """The path of a file within the specs of its crate."""
    return "`" + "/".join(file.relative_to(TOP).with_suffix("").parts[3:]) + "`"


def section(start, other):
    """What a list says of a place, beside what another one reaches: the line that names it, the table of what is reached, and the sums."""
    files, toolchain = reached(begins(start))
    known, named_before = reached(begins(other)) if other else (set(), set())
    crates = by_crate(files - known)
    rows = [f"| `{crate}` | {', '.join(map(name_of, some))} |" for crate, some in crates.items()]
    count, lines = sum(map(len, crates.values())), sum(lines_of(file) for some in crates.values() for file in some)
    sums = f"{count:,} files of {len(crates)} crates, with {lines:,} lines of definitions and comments"
    beside = ", ".join(f"`{crate}`" for crate in sorted(toolchain - named_before))
    sums += f"; beside them definitions of the toolchain's {beside}." if beside else "."
    named = f"Reached from {start}, but not from {other}:" if other else f"Reached from {start}:"
    return "\n".join([named, "", "| crate | files of its `specs` |", "|---|---|", *rows, "", sums, ""])


def made_anew(text):
    return LISTED.sub(lambda found: section(found[1], found[2]), text)


def compare(file):
    """Ends the run where a list isn't what is reached, or where there is none, or one of an unknown form. Answers the sums."""
    text = file.read_text(encoding="utf-8")
    for old, new in itertools.zip_longest(text.splitlines(), made_anew(text).splitlines(), fillvalue="(nothing)"):
        if old != new:
            sys.exit(f"{file}: not what is reached: run tools/reached.py --write {file}\n  there: {old}\n  now:   {new}")
    lists, begun = len(LISTED.findall(text)), len(re.findall("^Reached from", text, re.MULTILINE))
    if not lists or lists != begun:
        sys.exit(f"{file}: {begun} lines begin a list, and {lists} are of the form that is known")
    print(f"{file}: {lists} lists are what is reached")
    return set(SUMS.findall(text))


def compare_sums(file, sums):
    """Ends the run where a document has other sums, or none."""
    there = SUMS.findall(file.read_text(encoding="utf-8"))
    for some in there or [("no",) * 3]:
        if some not in sums:
            sys.exit(f"{file}: {some[0]} files of {some[1]} crates with {some[2]} lines are no list's sums")
    print(f"{file}: {len(there)} sums are those of lists")


def tell(start):
    files, toolchain = reached([start])
    crates = by_crate(files)
    for crate, some in crates.items():
        print(f"{crate}: {len(some)} files, {sum(map(lines_of, some))} lines")
    print(f"all: {len(files)} files of {len(crates)} crates, {sum(map(lines_of, files))} lines")
    if toolchain:
        print(f"beside them of the toolchain: {', '.join(sorted(toolchain))}")


def main():
    parser = command_line.parser(__doc__)
    what = parser.add_mutually_exclusive_group(required=True)
    what.add_argument("definition", metavar="FILE", nargs="?", type=command_line.file)
    what.add_argument("--check", metavar="LIST", nargs="+", type=command_line.file)
    what.add_argument("--write", metavar="LIST", type=command_line.file)
    given = parser.parse_args()
    if given.check:
        first, *others = map(pathlib.Path, given.check)
        sums = compare(first)
        for other in others:
            compare_sums(other, sums)
    elif given.write:
        file = pathlib.Path(given.write)
        file.write_text(made_anew(file.read_text(encoding="utf-8")), encoding="utf-8")
    else:
        tell(pathlib.Path(given.definition).resolve())


if __name__ == "__main__":
    main()
