#!/usr/bin/env python3
"""Times a station: live streams beside files, and sixteen addresses beside one; and watches a live server's memory.

    tools/station_speed.py PROGRAM [--super-frames N] [--rounds N] [--minutes M]

PROGRAM is crates/drmcast/out/drmcast. The schedule is that of speeds.py, with packets of 4,090 bytes under `pft 2`. The first rows
write captures to /dev/null: of a stream that is one byte again and again, of a file, as many frames of it as 4 MiB have, and of the
same bytes by a pipe. The next ones send over the loopback at no pace, where nobody listens: to one address and to sixteen, with the
processor's time in the program (where packets are built and coded) and in the system (where datagrams are sent). MB is 10^6 bytes of
the datagrams that are made. With --minutes a server with a live stream from a pipe runs for so long at no pace, to an address where
nobody listens, again and again where a schedule ends; the row has the least and the most memory that it held, sampled ten times a second.
"""
import os
import pathlib
import random
import resource
import subprocess
import sys
import tempfile
import threading
import time

import command_line
from speeds import LONG_STREAM, MOST_FILE, schedule

CARRY = "pft 2 1400"
PORTS = range(50130, 50146)


def used(words, folder, given=None):
    """What a command takes by the clock, and of the processor in the program and in the system."""
    before = resource.getrusage(resource.RUSAGE_CHILDREN)
    start = time.perf_counter()
    run = subprocess.Popen(words, cwd=folder, stdin=subprocess.PIPE if given else subprocess.DEVNULL, stdout=subprocess.DEVNULL)
    if given:
        with run.stdin:
            run.stdin.write(given)
    status = run.wait()
    took = time.perf_counter() - start
    after = resource.getrusage(resource.RUSAGE_CHILDREN)
    if status:
        sys.exit(f"{' '.join(words)} ended with {status}")
    return took, after.ru_utime - before.ru_utime, after.ru_stime - before.ru_stime


def best(words, folder, rounds, given=None):
    return min(used(words, folder, given) for _ in range(rounds))


def row(what, size, times):
    took, own, system = times
    print(f"| {what} | {size / 1e6:.1f} | {took:.2f} | {own:.2f} | {system:.2f} | {size / took / 1e6:.0f} |", flush=True)


def capture_size(program, folder, name):
    with subprocess.Popen([program, "serve", name], cwd=folder, stdout=subprocess.PIPE) as run:
        return sum(len(part) for part in iter(lambda: run.stdout.read(1 << 20), b""))


def memory(process):
    """In KiB, what a process holds, or None where it has ended."""
    try:
        for line in pathlib.Path(f"/proc/{process}/status").read_text(encoding="utf-8").splitlines():
            if line.startswith("VmRSS:"):
                return int(line.split()[1])
    except (FileNotFoundError, ProcessLookupError):
        pass
    return None


def feed(pipe):
    piece = bytes(1 << 16)
    try:
        while True:
            pipe.write(piece)
    except (BrokenPipeError, ValueError):
        pass


def watched(program, folder, minutes):
    """The memory of a live server, from half a second after each start on."""
    held, frames, end = [], 0, time.monotonic() + 60 * minutes
    pathlib.Path(folder, "long.plan").write_text(schedule(CARRY, 1_000_000), encoding="utf-8")
    words = [program, "serve", "long.plan", "--live", "0", "--to", f"127.0.0.1:{PORTS[0]}"]
    while time.monotonic() < end:
        run = subprocess.Popen(words, cwd=folder, stdin=subprocess.PIPE)
        threading.Thread(target=feed, args=(run.stdin,), daemon=True).start()
        time.sleep(0.5)
        while time.monotonic() < end and run.poll() is None:
            now = memory(run.pid)
            if now:
                held.append(now)
            time.sleep(0.1)
        if run.poll() is None:
            run.kill()
        run.wait()
        frames += 1
    print(f"| a live server of {minutes} minutes at no pace, {frames} start(s), holds {min(held) / 1024:.2f} to {max(held) / 1024:.2f} MiB | | | | | |", flush=True)


def main():
    words = command_line.parser(__doc__)
    words.add_argument("program", type=command_line.program)
    words.add_argument("--super-frames", type=command_line.number(1, 1_000_000), default=2000)
    words.add_argument("--rounds", type=command_line.number(1, 1000), default=3)
    words.add_argument("--minutes", type=command_line.number(0, 1_000), default=0)
    given = words.parse_args()
    program, length, rounds = os.path.abspath(given.program), given.super_frames, given.rounds
    from_file = MOST_FILE // (3 * LONG_STREAM)
    content = random.Random(1).randbytes(LONG_STREAM * 3 * from_file)
    with tempfile.TemporaryDirectory() as folder:
        pathlib.Path(folder, "audio.bin").write_bytes(content)
        for name, frames, kind in (("fill.plan", length, "fill 55"), ("file.plan", from_file, "file audio.bin"), ("own.plan", from_file, "fill 55")):
            pathlib.Path(folder, name).write_text(schedule(CARRY, frames, kind), encoding="utf-8")
        print("| what | MB of datagrams | seconds | in the program | in the system | MB/s |\n|---|---|---|---|---|---|")
        fill, file = capture_size(program, folder, "fill.plan"), capture_size(program, folder, "file.plan")
        row("`serve`, one byte again and again", fill, best([program, "serve", "fill.plan"], folder, rounds))
        row("`serve` from a file", file, best([program, "serve", "file.plan"], folder, rounds))
        row("`serve --live 0` of the same bytes from a pipe", file, best([program, "serve", "own.plan", "--live", "0"], folder, rounds, content))
        live = (content * (length // from_file + 1))[: 3 * LONG_STREAM * length]
        row("`serve --live 0`, as many frames as the first row", fill, best([program, "serve", "fill.plan", "--live", "0"], folder, rounds, live))
        addresses = [f"127.0.0.1:{port}" for port in PORTS]
        for many in (1, 16):
            to = ",".join(addresses[:many])
            row(f"`serve --to` {many} address{'es' if many > 1 else ''}", fill, best([program, "serve", "fill.plan", "--to", to], folder, rounds))
        if given.minutes:
            watched(program, folder, given.minutes)


if __name__ == "__main__":
    command_line.run(main)
