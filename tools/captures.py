#!/usr/bin/env python3
"""Times `show`, `receive` and `convert` of long captures beside tshark, with the most memory that they hold.

    tools/captures.py PROGRAM [--mib N] [--less N] [--rounds N] [--room FOLDER]
    tools/captures.py PROGRAM --before PROGRAM [--mib N] [--less N] [--turns N] [--room FOLDER]

PROGRAM is crates/drmcast/out/drmcast. `serve` writes captures of about so many MiB (1,024), and of fewer (16), under `plain` and
under `pft 2 1400`. Each packet has 4,090 bytes, and in the first of each three a block comes on top. A row has the
capture, its bytes, the best time of the rounds (of the long capture one), the rate, and the most memory of any round, by GNU time (in
Debian the package `time`). What is printed goes to /dev/null. tshark reads the shorter captures, as UDP in a file. MB is 10^6 bytes,
MiB 2^20. Then a capture under each of five carries is carried to each other and back, and is to be the first one again; status 1
where one isn't.

With --before the program before and the program now run by turns, over the same captures, tshark beside them on the shorter ones. A
row has the rates by the least processor time of the turns (11; of tshark 3, and of the long captures one), how many times they are,
and the memory. Status 1 where they write something else.
"""
import os
import pathlib
import shutil
import subprocess
import sys
import tempfile
import time

import command_line
import turns
from datagrams import datagrams, pcap

MIB = 1 << 20
COMMANDS = (["show"], ["receive"], ["convert", "plain"], ["convert", "pft:2:1400"])
CARRIES = ("plain", "pft 0 1400", "pft 1 128", "pft 2 1400", "pft 5 1500")
# Bytes of the datagrams of a super frame.
SUPER_FRAME = {"plain": 12_337, "pft 2 1400": 15_996}
# What tshark is to print: all that it reads, or of each AF packet, carried whole or put together, whether its check value is right.
PRINTED = {
    "tshark, all that it reads in them": ["-O", "dcp-etsi,dcp-pft,dcp-af,dcp-tpl"],
    "tshark, whether each packet is right": ["-Y", "dcp-af.crc_ok", "-T", "fields", "-e", "dcp-af.crc_ok"],
}

PLAN = """drmplan 1
carry {carry}
first 0 0
length {length}
config 0 0
mode B
occupancy 3
depth long
msc 0
sdc 0
protection 0 1
room 32
service 123456 0 0 5 audio 3 0
stream 0 4004 fill 55
audio 0 0 0 1 0 3 0 0 0
label 0 Radio Nord
"""


def serve(program, folder, carry, size):
    """Writes a capture of about this size, and answers its path."""
    path = f"{folder}/it.capture"
    pathlib.Path(folder, "it.plan").write_text(PLAN.format(carry=carry, length=max(1, size // SUPER_FRAME[carry])))
    with open(path, "wb") as out:
        subprocess.run([program, "serve", f"{folder}/it.plan"], stdout=out, check=True)
    return path


def timed(words, path, folder, rounds):
    """The best time of a command that reads this file, and the most memory that it held, in KiB."""
    best, most = None, 0
    for _ in range(rounds):
        with open(path, "rb") as capture:
            start = time.perf_counter()
            ran = subprocess.run(["time", "-f", "%M", "-o", f"{folder}/memory", *words], stdin=capture, stdout=subprocess.DEVNULL, stderr=subprocess.DEVNULL)
            took = time.perf_counter() - start
        if ran.returncode:
            sys.exit(f"{' '.join(words)} ended with {ran.returncode}")
        best = took if best is None else min(best, took)
        most = max(most, int(pathlib.Path(folder, "memory").read_text().split()[-1]))
    return best, most


def row(what, carry, size, took, memory):
    print(f"| {what} | `{carry}` | {size / 1e6:.1f} | {took:.2f} | {size / took / 1e6:.1f} | {memory / 1024:.1f} |", flush=True)


def tshark(path, carry, folder):
    """Rows of tshark on the same datagrams."""
    pcap(f"{folder}/it.pcap", (part for part, _, _ in datagrams(pathlib.Path(path).read_bytes())))
    for what, words in PRINTED.items():
        row(what, carry, os.path.getsize(path), *timed(["tshark", "-n", "-r", f"{folder}/it.pcap", *words], path, folder, 1))


def compared(programs, folder, sizes):
    """What two programs are to do with captures of these sizes in MiB, and tshark with the first of them."""
    beside = shutil.which("tshark") is not None
    printed = dict(zip(("show", "receive"), PRINTED.values()))
    for carry in SUPER_FRAME:
        for mib in sizes:
            path = serve(programs[-1], folder, carry, mib * MIB)
            usual = mib == sizes[0]
            if beside and usual:
                pcap(f"{folder}/it.pcap", (part for part, _, _ in datagrams(pathlib.Path(path).read_bytes())))
            for command in COMMANDS:
                words = printed.get(command[0]) if beside and usual else None
                peer = ("tshark", "-n", "-r", f"{folder}/it.pcap", *words) if words else ()
                what = f"`{' '.join(command)}` of `{carry}`"
                yield turns.Job(what, tuple(command), path, os.path.getsize(path), peer, 0 if usual else 1)


def convert(program, capture, carry):
    """The capture under this carry."""
    words = [program, "convert", carry.replace(" ", ":")]
    return subprocess.run(words, input=capture, stdout=subprocess.PIPE, check=True).stdout


def to_and_fro(program, folder):
    """How many captures aren't what they were, carried from each carry to each other and back."""
    plan = PLAN.format(carry="{carry}", length=50)
    served = {}
    for carry in CARRIES:
        pathlib.Path(folder, "it.plan").write_text(plan.format(carry=carry))
        served[carry] = subprocess.run([program, "serve", f"{folder}/it.plan"], stdout=subprocess.PIPE, check=True).stdout
    wrong = 0
    for one in CARRIES:
        for other in CARRIES:
            there = convert(program, served[one], other)
            wrong += there != served[other] or convert(program, there, one) != served[one]
    print(f"\n{len(CARRIES) ** 2} captures carried to another carry and back, {wrong} differ from what is served under it")
    return wrong


def main():
    words = command_line.parser(__doc__)
    words.add_argument("program", type=command_line.program)
    words.add_argument("--mib", type=command_line.number(1, 10_000_000), default=1024)
    words.add_argument("--less", type=command_line.number(1, 10_000_000), default=16)
    words.add_argument("--rounds", type=command_line.number(1, 10_000_000), default=3)
    words.add_argument("--room", help="where the captures are written for the time of the run")
    turns.options(words)
    given = words.parse_args()
    program = os.path.abspath(given.program)
    if given.before:
        with tempfile.TemporaryDirectory(dir=given.room) as folder:
            programs = [given.before, program]
            differ = turns.table(compared(programs, folder, (given.less, given.mib)), programs, folder, given.turns)
            return differ or to_and_fro(program, folder) > 0
    beside = shutil.which("tshark") is not None
    print("| what | carry | MB | seconds | MB/s | MiB held |\n|---|---|---|---|---|---|")
    with tempfile.TemporaryDirectory(dir=given.room) as folder:
        for carry in SUPER_FRAME:
            for mib in (given.less, given.mib):
                path = serve(program, folder, carry, mib * MIB)
                size = os.path.getsize(path)
                for command in COMMANDS:
                    rounds = given.rounds if mib == given.less else 1
                    row(f"`{' '.join(command)}`", carry, size, *timed([program, *command], path, folder, rounds))
                if beside and mib == given.less:
                    tshark(path, carry, folder)
        wrong = to_and_fro(program, folder)
    if not beside:
        print("\ntshark isn't here: its rows are left out")
    return wrong > 0


if __name__ == "__main__":
    command_line.run(main)
