#!/usr/bin/env python3
"""Measures how fast `encode`, `syndromes`, `solve` and `solve_spaced` of rs_erase are, beside libfec and, over many words, ISA-L;
and `crc16` of drm_bits.

It writes a temporary folder with copies of drm_bits, gf_field and rs_erase, and a program that calls them; `rt run` proves and builds
that program, once by LLVM and once by Rattle's own compiler. The programs of the peers are built by gcc where their headers
are there (Debian's libfec-dev and libisal-dev). All run one after the other, some rounds of them, and the best figure of each
counts. What is printed is a table in Markdown, and whether all programs made the same parity.

    tools/code_speed.py [--rounds N] [--before TREE]

With --before the same is built of another tree of this repository, and runs by turns with the others; where it has no
`solve_spaced`, `solve` is measured in its place. It ends with 1 if two programs disagree.
"""

import argparse
import pathlib
import shutil
import subprocess
import sys
import tempfile

import code_programs
import command_line
import turns

TOP = pathlib.Path(__file__).resolve().parent.parent

# What a row is called, and the rows of libfec with which it is compared.
ROWS = [
    ("encode, chunks of 207 bytes", "encode 207", "encode 207"),
    ("encode, chunks of 190 bytes", "encode 190", "encode 207"),
    ("syndromes", "syndromes", "syndromes"),
    ("solve, 48 erasures", "solve 48", "solve 48"),
    ("solve_spaced, 48 erasures, 64 words a pattern", "solve spaced 48", "solve 48"),
    ("crc16, packets of 4,090 bytes", "check", None),
]
PEERS = ("libfec", "ISA-L")


def write_crates(tree, folder):
    """A repository of its own: the three crates of this tree, and the program."""
    crates = folder / "crates"
    for name in ("drm_bits", "gf_field", "rs_erase"):
        shutil.copytree(tree / "crates" / name, crates / name, ignore=shutil.ignore_patterns("out"))
    program = crates / "code_speed"
    source = crates / "rs_erase" / "src"
    spaced = code_programs.BY_SPACED if (source / "zech_sums.rt").exists() else code_programs.BY_NONE
    (program / "src").mkdir(parents=True)
    (program / "src" / "main.rt").write_text(code_programs.main(spaced), encoding="utf-8")
    (program / "proofs" / "are_places").mkdir(parents=True)
    (program / "proofs" / "are_places" / "Invariants.antt").write_text(code_programs.INVARIANT, encoding="utf-8")
    (folder / "crates.txt").write_text("drm_bits:\ngf_field:\nrs_erase: gf_field\ncode_speed: drm_bits gf_field rs_erase\n")
    return program


def built_of(tree, folder):
    """The programs of this tree, by LLVM and by Rattle's own compiler."""
    program = write_crates(tree, folder)
    return [built_by_rt(program, words, folder / name) for name, words in (("by_llvm", []), ("by_rattle", ["--backend", "rattle"]))]


def built_by_rt(program, options, to):
    """The program, as `rt run` builds it."""
    done = subprocess.run(["rt", "run", *options], cwd=program, capture_output=True, text=True)
    if done.returncode != 0:
        sys.exit(f"{done.stdout}\n{done.stderr}\nrt run failed")
    shutil.copy(program / "out" / "code_speed", to)
    return to


def built_by_gcc(folder, name, source, library):
    """A peer's program, or none where the library isn't there."""
    text, made = folder / f"{name}.c", folder / name
    text.write_text(source, encoding="utf-8")
    done = subprocess.run(["gcc", "-O2", str(text), "-o", str(made), library], capture_output=True, text=True)
    if done.returncode != 0:
        print(f"{name} is left out: {done.stderr.splitlines()[0]}", file=sys.stderr)
        return None
    return made


def figures(made, best, sums):
    """Runs a program once: the better figure of each of its rows, and what each row sums up to."""
    for line in subprocess.run([str(made)], capture_output=True, text=True, check=True).stdout.splitlines():
        row, rate, total = line.split(",")
        best[row] = max(best.get(row, 0.0), float(rate))
        sums[row] = total


def tree(word):
    """The path of a tree of this repository."""
    if not pathlib.Path(word, "crates", "rs_erase").is_dir():
        raise argparse.ArgumentTypeError(f"{word} is no tree of this repository")
    return pathlib.Path(word).resolve()


def programs(folder, before):
    """The programs by their names: of the peers, of this tree, and of the one before, if it's given."""
    made = {
        "libfec": built_by_gcc(folder, "libfec", code_programs.LIBFEC, "-lfec"),
        "ISA-L": built_by_gcc(folder, "isal", code_programs.ISAL, "-lisal"),
    }
    made["LLVM"], made["Rattle"] = built_of(TOP, folder / "now")
    if before:
        made["LLVM before"], made["Rattle before"] = built_of(before, folder / "before")
    return {name: path for name, path in made.items() if path}


def rows(best, before):
    """The table's lines."""
    heads = "| body | MB/s | to libfec | by Rattle's own compiler | libfec | ISA-L, many words |"
    yield heads + (" before | times | by Rattle's own before | times |" if before else "")
    yield "|---|---|---|---|---|---|" + ("---|---|---|---|" if before else "")
    for title, name, peer in ROWS:
        ours, own, fec, isal = best["LLVM"][name], best["Rattle"][name], best.get("libfec", {}).get(peer), best.get("ISA-L", {}).get(name)
        cells = [title, f"{ours:.0f}", f"{ours / fec:.0f}" if fec else "", f"{own:.0f}", f"{fec:.1f}" if fec else "", f"{isal:.0f}" if isal else ""]
        if before:
            old, old_own = best["LLVM before"][name], best["Rattle before"][name]
            cells += [f"{old:.0f}", f"{ours / old:.2f}", f"{old_own:.0f}", f"{own / old_own:.2f}"]
        yield "| " + " | ".join(cells) + " |"


def agree(sums):
    """Whether all programs made the same parity, and those of the trees the same of everything."""
    ours = [made for name, made in sums.items() if name not in PEERS]
    return all(made == ours[0] for made in ours) and all(made["words"] == ours[0]["words"] for made in sums.values())


def main():
    parser = command_line.parser(__doc__)
    parser.add_argument("--rounds", type=command_line.number(1, 10_000_000), default=3, metavar="N", help="how often each program runs")
    parser.add_argument("--before", type=tree, metavar="TREE", help="a tree of this repository, as it was before")
    given = parser.parse_args()
    with tempfile.TemporaryDirectory() as temporary:
        made = programs(pathlib.Path(temporary), given.before)
        best, sums = {name: {} for name in made}, {name: {} for name in made}
        surroundings = turns.Surroundings()
        for _round in range(given.rounds):
            for name, path in made.items():
                figures(path, best[name], sums[name])
    print("\n".join(rows(best, given.before)))
    same = agree(sums)
    print(f"\nThe best of {given.rounds} rounds, by turns. {surroundings.said()}\nThe programs made {'the same' if same else 'DIFFERENT'} words.")
    return 0 if same else 1


if __name__ == "__main__":
    command_line.run(main)
