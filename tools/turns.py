"""Commands by turns: what each takes of the processor, the most memory that it holds, and what else is at work meanwhile. What the
scripts that compare two programs share."""
import hashlib
import math
import os
import pathlib
import resource
import subprocess
import sys
import tempfile
from typing import NamedTuple

import bars
import command_line

ROUNDS = 11
# A peer takes long, so it runs in the first of the turns alone.
PEER_ROUNDS = 3
MOST_ROUNDS = 10_000_000
# Done, and done with something lost or damaged.
ENDED_WELL = (0, 7)
HEAD = (
    "| what | MB | before, MB/s | now, MB/s | times | tshark, MB/s | times | before, MiB held | now |\n"
    "|---|---|---|---|---|---|---|---|---|"
)


class Job(NamedTuple):
    """What both programs are to do: what a row calls it, the words behind the program's name, the file that they read, the bytes
    by which the rate goes, the words of a peer that does the same, and how many turns there are, if not as many as usual."""

    what: str
    words: tuple
    given: str = os.devnull
    size: int = 0
    peer: tuple = ()
    turns: int = 0


def options(parser):
    """The options of a script that compares two programs."""
    parser.add_argument("--before", type=command_line.program, metavar="PROGRAM", help="the program before, which runs by turns with the other")
    parser.add_argument("--turns", type=command_line.number(1, MOST_ROUNDS), default=ROUNDS, help=f"how often each runs beside the other ({ROUNDS})")


def ended(process):
    """Waits for a child, and answers what it took of the processor, in seconds, in the program and in the system."""
    _, status, took = os.wait4(process.pid, 0)
    process.returncode = os.waitstatus_to_exitcode(status)
    return took.ru_utime + took.ru_stime


def used(words, folder, given=os.devnull, out=os.devnull, err=os.devnull):
    """What a command takes of the processor, in seconds; a status that tells of a failure ends the script."""
    with open(pathlib.Path(folder, given), "rb") as source, open(out, "wb") as sink, open(err, "wb") as faults:
        process = subprocess.Popen(words, cwd=folder, stdin=source, stdout=sink, stderr=faults)
        took = ended(process)
    if process.returncode not in ENDED_WELL:
        sys.exit(f"{' '.join(words)} ended with {process.returncode}")
    return took


def least(commands, rounds):
    """The least that each of the commands takes in so many rounds, in each of which they run one after another."""
    best = [math.inf] * len(commands)
    for _ in range(rounds):
        for place, command in enumerate(commands):
            best[place] = min(best[place], command())
    return best


def held(words, folder, given=os.devnull):
    """The most memory that a command holds, in MiB, by GNU time (in Debian the package `time`): what the system says of a child of
    ours is at least what we held."""
    with tempfile.NamedTemporaryFile() as memory:
        used(["time", "-f", "%M", "-o", memory.name, *words], folder, given)
        return int(memory.read().split()[-1]) / 1024


def written(words, folder, given=os.devnull):
    """What a command writes to standard output, by its digest."""
    with open(pathlib.Path(folder, given), "rb") as source:
        with subprocess.Popen(words, cwd=folder, stdin=source, stdout=subprocess.PIPE, stderr=subprocess.DEVNULL) as process:
            return hashlib.file_digest(process.stdout, "sha256").digest()


def row(job, programs, folder, rounds):
    """Prints a row: the rates of the program before, of the one now and of the peer, and the memory that both programs hold.
    Answers how many times as fast the one now is, and whether both write the same."""
    words = [[program, *job.words] for program in programs] + ([list(job.peer)] if job.peer else [])
    commands = [lambda each=each: used(each, folder, job.given) for each in words]
    many = job.turns or rounds
    few = min(many, PEER_ROUNDS)
    first, rest = least(commands, few), least(commands[:2], many - few)
    times = [min(first[0], rest[0]), min(first[1], rest[1]), *first[2:]]
    before, now, *peer = times
    memory = [held(each, folder, job.given) for each in words[:2]]
    rates = [f"{job.size / took / 1e6:.1f}" if job.size else f"{took * 1e3:.1f} ms" for took in times]
    beside = [rates[2], f"{peer[0] / now:.1f}"] if peer else ["", ""]
    cells = [job.what, f"{job.size / 1e6:.1f}" if job.size else "", rates[0], rates[1], f"{before / now:.2f}", *beside]
    print("| " + " | ".join(cells + [f"{mib:.2f}" for mib in memory]) + " |", flush=True)
    return before / now, len({written(each, folder, job.given) for each in words[:2]}) == 1


def table(jobs, programs, folder, rounds, picture=None):
    """Prints the rows of these jobs, the program before being the first one, on what they were measured, and which jobs' output
    isn't the same; answers whether there is one. Where a file is named for it, the table is drawn there too."""
    surroundings = Surroundings()
    print(HEAD)
    rows = [(job.what, *row(job, programs, folder, rounds)) for job in jobs]
    differ = [what for what, _, alike in rows if not alike]
    if picture:
        pathlib.Path(picture).write_text(bars.drawing("How many times as fast as the program before", [each[:2] for each in rows]), encoding="utf-8")
    print(f"\nProcessor time, the least of {rounds} turns (a peer's of {min(rounds, PEER_ROUNDS)}). {surroundings.said()}")
    print(f"Both programs wrote the same{f', but for {differ}' if differ else ''}.", flush=True)
    return bool(differ)


def processor():
    """What the machine calls its processor, its clock, and how many there are."""
    wanted = {"model name": "an unnamed processor", "cpu MHz": "0"}
    for line in pathlib.Path("/proc/cpuinfo").read_text(encoding="ascii").splitlines():
        name, _, value = line.partition(":")
        if name.strip() in wanted:
            wanted[name.strip()] = value.strip()
    return f"{wanted['model name']} at {float(wanted['cpu MHz']) / 1000:.1f} GHz, {os.cpu_count()} processors"


def own_seconds():
    """What this script and its children have taken of the processors."""
    return sum(part.ru_utime + part.ru_stime for part in map(resource.getrusage, (resource.RUSAGE_SELF, resource.RUSAGE_CHILDREN)))


def machine_seconds():
    """What all processes have taken of the processors, what other machines have, and all that there was."""
    line = pathlib.Path("/proc/stat").read_text(encoding="ascii").splitlines()[0]
    user, nice, system, idle, wait, interrupts, soft, stolen = [int(field) / os.sysconf("SC_CLK_TCK") for field in line.split()[1:9]]
    busy = user + nice + system + interrupts + soft
    return busy, stolen, busy + stolen + idle + wait


class Surroundings:
    """What else is at work from when this is made."""

    def __init__(self):
        self.load, self.own, self.machine = os.getloadavg()[0], own_seconds(), machine_seconds()

    def said(self):
        """The machine, the load at both ends, and the others' share in between, in a sentence or two."""
        busy, stolen, whole = (after - before for before, after in zip(self.machine, machine_seconds()))
        others = max(0.0, busy - (own_seconds() - self.own))
        return (
            f"{processor()}; the load was {self.load:.1f} at the start and {os.getloadavg()[0]:.1f} at the end. "
            f"Other processes took {100 * others / whole:.0f} % of the processors, other machines {100 * stolen / whole:.0f} %."
        )
