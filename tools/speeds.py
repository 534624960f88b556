#!/usr/bin/env python3
"""Times serving and receiving in one run, beside tshark on the same datagrams where it is installed.

    tools/speeds.py PROGRAM [--super-frames N] [--rounds N] [--seed N]
    tools/speeds.py PROGRAM --before PROGRAM [--super-frames N] [--turns N] [--seed N] [--picture FILE]

PROGRAM is crates/drmcast/out/drmcast. Served is a stream of 480 bytes a frame, which a usual channel carries, of 1,044, the most that any
carries, and of 4,004, which none does; in the first packet of each three a block comes on top. The
stream is one byte again and again, and in the rows that say so 4 MB of a file, the most that a schedule reads.
What is received has lost random fragments of each packet, by a seed, or is shuffled: the datagrams of three packets stand in random order.
Rows with always the same fragments lost say so.
A row has the bytes of the datagrams that were served, or that came, the best time of the rounds and the rate. `air` serves and
receives in one process; the row behind it is what is left of its time without that of `serve` for the same datagrams. The last
rows are sessions over the loopback, at an even pace, of two lengths, with the most memory that the receiver held, by GNU time
(in Debian the package `time`); and one of 16 addresses, which holds their reports. MB is 10^6 bytes.

With --before the program before and the program now run by turns, and tshark beside them. A row has the bytes of the datagrams that
were served, or that came; the rates by the least processor time of the turns (11; of tshark, and of 16 addresses, 3), and how many
times they are; and the most memory that each program holds. What is printed goes to /dev/null. Then come the other commands, with
milliseconds in place of rates. Status 1 where the programs write something else. --picture draws the table's ratios as bars (SVG).
"""
import itertools
import os
import pathlib
import random
import shutil
import subprocess
import sys
import tempfile
import time

import command_line
import turns
from datagrams import datagrams, pcap

# Bytes of a stream in a frame: what a usual channel carries, the most that any does, and more.
STREAM, LARGE_STREAM, LONG_STREAM = 480, 1044, 4004
# Packets of a hundred bytes or so.
SHORT_STREAM = 20
# So many packets are shuffled among one another.
SHUFFLED = 3
# A stream's file has so many bytes at the most.
MOST_FILE = 4_194_304
MOST_SCRIPT = 262_144
MOST_DELIVERIES = 100_000
ADDRESSES = [f"127.0.0.1:{port}" for port in range(50123, 50139)]
# What is served: under which carry, and of how many bytes a frame.
SERVED = tuple((carry, stream) for stream in (STREAM, LARGE_STREAM, LONG_STREAM) for carry in ("plain", "pft 0", "pft 2", "pft 4", "pft 5")) + (
    ("plain", SHORT_STREAM), ("pft 2", SHORT_STREAM))
# What is received: under which carry, of how many bytes a frame, how many fragments of each packet are lost, and in which way.
RANDOM, SAME, IN_ORDER, MIXED = "random fragments of each packet lost", "of each packet's fragments lost, always the first", "nothing lost", "nothing lost, shuffled"
RECEIVED = tuple((carry, stream, lost, way) for stream in (STREAM, LARGE_STREAM, LONG_STREAM) for carry, lost, way in (
    ("pft 2", 2, RANDOM), ("pft 2", 0, MIXED), ("pft 4", 4, RANDOM), ("pft 2", 0, IN_ORDER), ("plain", 0, IN_ORDER))) + (
    ("pft 2", SHORT_STREAM, 2, RANDOM), ("plain", SHORT_STREAM, 0, IN_ORDER),
    ("pft 2", LONG_STREAM, 2, SAME), ("pft 5", LONG_STREAM, 0, IN_ORDER), ("pft 5", LONG_STREAM, 5, SAME))
# Frames and addresses of the sessions over the loopback.
SESSIONS = ((300, 1), (3000, 1), (1200, 16))
TSHARK = ("tshark", "-n", "-Y", "dcp-af.crc_ok", "-T", "fields", "-e", "dcp-af.crc_ok", "-r")

PLAN = """drmplan 1
carry {carry}
first 0 0
length {length}
config 0 0
mode B
occupancy 3
depth long
msc 0
sdc 0
protection 0 1
room 32
service 123456 0 0 5 audio 3 0
stream 0 {stream} {content}
audio 0 0 0 1 0 3 0 0 0
label 0 Radio Nord
"""


def schedule(carry, length, content="fill 55", stream=LONG_STREAM):
    return PLAN.format(carry=carry, length=length, stream=stream, content=content)


def timed(words, folder, out=os.devnull, rounds=1):
    """The best time of a command, and its last status."""
    best, status = None, None
    for _ in range(rounds):
        with open(f"{folder}/{out}" if out != os.devnull else out, "wb") as sink:
            start = time.perf_counter()
            status = subprocess.run(words, cwd=folder, stdout=sink, stderr=subprocess.DEVNULL).returncode
            took = time.perf_counter() - start
        best = took if best is None else min(best, took)
    return best, status


def row(what, size, took):
    print(f"| {what} | {size / 1e6:.1f} | {took:.2f} | {size / took / 1e6:.1f} |", flush=True)


def packets_of(capture):
    """The datagrams of each packet of a capture."""
    packets = []
    for datagram, _, index in datagrams(capture):
        if index == 0:
            packets.append([])
        packets[-1].append(datagram)
    return packets


def arriving(packets, lost, way, seed):
    """What is left of packets on their way: of each the numbers of the datagrams that come; and all that come, in their order, each by the
    number of its packet and its own."""
    chance = random.Random(seed)
    come = []
    for packet in packets:
        gone = chance.sample(range(len(packet)), lost) if way == RANDOM else range(lost)
        come.append([index for index in range(len(packet)) if index not in gone])
    order = []
    for first in range(0, len(packets), SHUFFLED):
        some = [(number, index) for number in range(first, min(first + SHUFFLED, len(packets))) for index in come[number]]
        if way == MIXED:
            chance.shuffle(some)
        order += some
    return come, order


def name_of(carry, stream):
    return f"{carry} {stream}"


def chosen(folder, name, lost, way, most, seed):
    """A script that takes what comes, its datagrams, and of how many packets. As many packets as a script may deliver, and as its text may
    name where datagrams are named."""
    packets = packets_of(pathlib.Path(folder, f"{name}.capture").read_bytes())[:most]
    named = lost > 0 or way == MIXED
    lines, left, room = [], [], MOST_SCRIPT - len("feed\n")
    many = len(packets) if not named else min(len(packets), room // (len("take 99999 99\n") * max(map(len, packets))) // SHUFFLED * SHUFFLED)
    many = min(many, MOST_DELIVERIES // max(map(len, packets)))
    _, order = arriving(packets[:many], lost, way, seed)
    left = [packets[number][index] for number, index in order]
    lines = [f"take {number} {index}" for number, index in order] if named else [f"packets 0 {many - 1}"]
    script = f"{name}.script"
    pathlib.Path(folder, script).write_text("\n".join(["feed"] + lines) + "\n")
    return script, left, many


def tshark(folder, name, wanted):
    """The time in which tshark puts the packets together and compares their check values."""
    pcap(f"{folder}/{name}.pcap", wanted)
    return timed([*TSHARK, f"{name}.pcap"], folder, "tshark.txt")[0]


def session(program, folder, frames, many=1):
    """A receiver over the loopback at so many addresses, with a server that sends a frame every two milliseconds: the last line of
    its report and its memory."""
    pathlib.Path(folder, "session.plan").write_text(schedule("pft 2 1400", frames // 3))
    to = ",".join(ADDRESSES[:many])
    words = ["time", "-f", "%M", "-o", "memory", program, "receive", to, "--first", "0", "--frames", str(frames)]
    with open(f"{folder}/report", "wb") as report:
        receiver = subprocess.Popen(words, cwd=folder, stdout=report)
        time.sleep(0.3)
        subprocess.run([program, "serve", "session.plan", "--to", to, "--pace", "2" if many == 1 else "20"], cwd=folder, check=True)
        receiver.wait()
    last = pathlib.Path(folder, "report").read_text().splitlines()[-1]
    memory = int(pathlib.Path(folder, "memory").read_text().split()[-1]) / 1024
    at = "" if many == 1 else f" at {many} addresses"
    return f"a receiver of {frames:,} frames{at} over UDP holds {memory:.2f} MiB: `{last}`"


def lossy(folder, name, lost, way, seed):
    """Writes what comes of a capture, also for tshark; answers the file's name."""
    packets = packets_of(pathlib.Path(folder, f"{name}.capture").read_bytes())
    left = [packets[number][index] for number, index in arriving(packets, lost, way, seed)[1]]
    path = f"{name}.{lost}.{way}.capture"
    pathlib.Path(folder, path).write_bytes(b"".join(left))
    pcap(f"{folder}/{path}.pcap", left)
    return path


def how(lost, way):
    return f"{lost} {way}" if lost else way


def of_stream(stream):
    return f"a stream of {stream:,} bytes"


def serving(program, folder, length):
    """What is served: of one byte again and again, of a file, and of standard input."""
    from_file = MOST_FILE // (3 * LONG_STREAM)
    audio = random.Random(1).randbytes(LONG_STREAM * 3 * from_file)
    pathlib.Path(folder, "audio.bin").write_bytes(audio)
    schedules = [(name_of(carry, stream), carry, length, "fill 55", stream) for carry, stream in SERVED]
    schedules += [(f"{carry} from a file", carry, from_file, "file audio.bin", LONG_STREAM) for carry in ("plain", "pft 2")]
    for name, carry, frames, content, stream in schedules:
        text = schedule(carry if carry == "plain" else f"{carry} 1400", frames, content, stream)
        pathlib.Path(folder, f"{name}.plan").write_text(text)
        with open(f"{folder}/{name}.capture", "wb") as capture:
            subprocess.run([program, "serve", f"{name}.plan"], cwd=folder, stdout=capture, check=True)
        kind = " from a file" if content != "fill 55" else ""
        yield turns.Job(f"`serve` under `{carry}`{kind}, {of_stream(stream)}", ("serve", f"{name}.plan"), size=os.path.getsize(f"{folder}/{name}.capture"))
    yield turns.Job("`serve --live 0` under `pft 2`, of the same bytes", ("serve", "pft 2 from a file.plan", "--live", "0"), "audio.bin",
                    os.path.getsize(f"{folder}/pft 2 from a file.capture"))
    sent = name_of("pft 2", LARGE_STREAM)
    for many, rounds in ((1, 0), (len(ADDRESSES), turns.PEER_ROUNDS)):
        what = f"`serve --to` {many} address{'es' if many > 1 else ''}, where nobody listens, under `pft 2`, {of_stream(LARGE_STREAM)}"
        words = ("serve", f"{sent}.plan", "--to", ",".join(ADDRESSES[:many]))
        yield turns.Job(what, words, size=os.path.getsize(f"{folder}/{sent}.capture"), turns=rounds)


def receiving(folder, beside, seed):
    """What is received of these captures, and tshark on the same datagrams where none is lost, since it doesn't recover."""
    for carry, stream, lost, way in RECEIVED:
        path = lossy(folder, name_of(carry, stream), lost, way, seed)
        peer = (*TSHARK, f"{path}.pcap") if beside and not lost else ()
        yield turns.Job(f"`receive` under `{carry}`, {of_stream(stream)}, {how(lost, way)}", ("receive", "--first", "0"), path, os.path.getsize(f"{folder}/{path}"), peer)
    path = f"{name_of('plain', SHORT_STREAM)}.capture"
    yield turns.Job(f"`show` under `plain`, {of_stream(SHORT_STREAM)}", ("show",), path, os.path.getsize(f"{folder}/{path}"))
    for name in ("plain", "pft 2"):
        path = f"{name_of(name, LARGE_STREAM)}.capture"
        yield turns.Job(f"`convert` of `{name}` to `pft 2`, {of_stream(LARGE_STREAM)}", ("convert", "pft:2:1400"), path, os.path.getsize(f"{folder}/{path}"))


def others(folder):
    """The other commands, one of each."""
    examples = pathlib.Path(__file__).resolve().parent.parent / "examples"
    plan, script = "pft 2 from a file.plan", "all.script"
    pathlib.Path(folder, script).write_text(f"feed\npackets 0 {MOST_FILE // LONG_STREAM // 3 * 3 - 1}\n")
    pathlib.Path(folder, "units").write_bytes((500).to_bytes(4, "big").join([b""] + [bytes(500)] * 2000))
    for words, given in (
        (("fac",), examples / "fac.bin"),
        (("check", plan), os.devnull),
        (("air", plan, script), os.devnull),
        (("exercise", "100"), os.devnull),
        (("pack", "0", "97"), "units"),
        (("unpack", "0", "0", "97"), f"{name_of('plain', LONG_STREAM)}.capture"),
        (("texts", "0"), f"{name_of('plain', LONG_STREAM)}.capture"),
    ):
        yield turns.Job(f"`{' '.join(words)}`", words, given)


def compared(programs, folder, length, rounds, seed, picture):
    """Two programs by turns, over the schedules' captures and all other commands."""
    beside = shutil.which("tshark") is not None
    jobs = itertools.chain(serving(programs[-1], folder, length), receiving(folder, beside, seed), others(folder))
    differ = turns.table(jobs, programs, folder, rounds, picture)
    if beside:
        pcap(f"{folder}/none.pcap", [])
        print(f"tshark takes {turns.used([*TSHARK, 'none.pcap'], folder):.2f} s of no datagrams, which its rates are measured with.")
    for what, program in zip(("before", "now"), programs):
        for frames, many in SESSIONS:
            print(f"\n{what}: {session(program, folder, frames, many)}", flush=True)
    return differ


def served(program, folder, length, rounds):
    """Prints how fast captures are served, and answers the time of each."""
    alone = {}
    for job in serving(program, folder, length):
        took, status = timed([program, *job.words], folder, rounds=rounds) if job.given == os.devnull else (None, 0)
        if status:
            sys.exit(f"serve ended with {status}")
        if took:
            alone[job.words[1].removesuffix(".plan")] = took
            row(job.what, job.size, took)
    return alone


def received(program, folder, length, rounds, seed, alone):
    """Prints how fast `air` is, and what is left of it without serving."""
    for carry, stream, lost, way in RECEIVED:
        name = name_of(carry, stream)
        script, left, packets = chosen(folder, name, lost, way, 3 * length, seed)
        size = sum(map(len, left))
        took, status = timed([program, "air", f"{name}.plan", script], folder, "report", rounds)
        if status not in (0, 7):
            sys.exit(f"air ended with {status}")
        row(f"`air` under `{carry}`, {of_stream(stream)}, {how(lost, way)}", size, took)
        row("receiving alone", size, took - alone[name] * packets / (3 * length))
        if shutil.which("tshark") and carry != "plain" and not lost:
            row("tshark on these datagrams", size, tshark(folder, name, left))


def main():
    words = command_line.parser(__doc__)
    words.add_argument("program", type=command_line.program)
    words.add_argument("--super-frames", type=command_line.number(1, 10_000_000), default=2000)
    words.add_argument("--rounds", type=command_line.number(1, 10_000_000), default=3)
    words.add_argument("--seed", type=command_line.number(0, 10_000_000), default=1, help="of what is lost, and of the order (1)")
    words.add_argument("--picture", metavar="FILE", help="where the table of both programs is drawn, as SVG")
    turns.options(words)
    given = words.parse_args()
    program, length = os.path.abspath(given.program), given.super_frames
    with tempfile.TemporaryDirectory() as folder:
        if given.before:
            return compared([given.before, program], folder, length, given.turns, given.seed, given.picture)
        print("| what | MB of datagrams | seconds | MB/s |\n|---|---|---|---|")
        received(program, folder, length, given.rounds, given.seed, served(program, folder, length, given.rounds))
        for frames, many in SESSIONS:
            print(f"| {session(program, folder, frames, many)} | | | |", flush=True)
    if not shutil.which("tshark"):
        print("\ntshark isn't here: its rows are left out")
    return 0


if __name__ == "__main__":
    command_line.run(main)
