#!/usr/bin/env python3
"""Times a gateway over the loopback, beside a receiver of the same datagrams.

    tools/gate_speed.py crates/drmcast/out/drmcast [--super-frames N]
    tools/gate_speed.py PROGRAM --before PROGRAM [--super-frames N] [--turns N]

The packets have 4,090 bytes, and come in fragments of which five may be lost: with none lost, and with five of each. The fragments of a
packet are sent at once up to the one with which it can be recovered, the rest when something of it has come out: the first datagram that
the gateway sends, or its line of the report. A row has the time between the fragment that was needed and that, in the middle and at the most of all
packets, and how many datagrams a second of the program's own processor time are taken.

With --before the program before and the program now run by turns. A row has the most datagrams a second of the turns (11), how many
times they are, and the shortest time in the middle, of each.
"""
import functools
import os
import pathlib
import socket
import statistics
import subprocess
import tempfile
import time
from typing import NamedTuple

import command_line
import turns
from datagrams import datagrams
from fragments import needed
from speeds import schedule

LOST = 5
FROM, TO = ("127.0.0.1", 50131), ("127.0.0.1", 50132)
WAIT_SECONDS = 10
START_SECONDS = 0.3
MOST_BYTES = 65536
HEAD_OF_ONE = "| what | µs, in the middle | µs, at the most | datagrams a second |\n|---|---|---|---|"
HEAD_OF_TWO = "| what | before, datagrams a second | now | times | before, µs in the middle | now |\n|---|---|---|---|---|---|"


def packets(program, folder, super_frames, lost):
    """The fragments of each packet, without the first few."""
    pathlib.Path(folder, "gate.plan").write_text(schedule(f"pft {LOST} 1400", super_frames))
    capture = subprocess.run([program, "serve", "gate.plan"], cwd=folder, stdout=subprocess.PIPE, check=True).stdout
    found = []
    for datagram, _, index in datagrams(capture):
        if index == 0:
            found.append([])
        if index >= lost:
            found[-1].append(datagram)
    return found


def delays(sender, wanted, comes):
    """How long after the fragment with which it can be recovered something comes of each packet."""
    for packet in wanted:
        enough = needed(packet)
        for datagram in packet[:enough]:
            sender.sendto(datagram, FROM)
        sent = time.perf_counter()
        comes()
        yield time.perf_counter() - sent
        for datagram in packet[enough:]:
            sender.sendto(datagram, FROM)


class Measured(NamedTuple):
    """What one run took: seconds of the processor, and after the fragment of each packet that was needed."""

    used: float
    took: list


def measured(process, wanted, comes):
    with socket.socket(socket.AF_INET, socket.SOCK_DGRAM) as sender:
        took = list(delays(sender, wanted, comes))
    return Measured(turns.ended(process), took)


def gate(program, wanted):
    with socket.socket(socket.AF_INET, socket.SOCK_DGRAM) as listener:
        listener.bind(TO)
        listener.settimeout(WAIT_SECONDS)
        words = [program, "gate", "{}:{}".format(*FROM), "{}:{}".format(*TO), "pft:1:1400", "--first", "0", "--frames", str(len(wanted))]
        process = subprocess.Popen(words, stdout=subprocess.DEVNULL)
        time.sleep(START_SECONDS)

        def comes():
            # the first fragment of a packet has the index 0; what is left of the packet before goes by
            while listener.recv(MOST_BYTES)[4:7] != bytes(3):
                pass
        return measured(process, wanted, comes)


def receive(program, wanted):
    words = [program, "receive", "{}:{}".format(*FROM), "--first", "0", "--frames", str(len(wanted))]
    with subprocess.Popen(words, stdout=subprocess.PIPE) as process:
        time.sleep(START_SECONDS)
        process.stdout.readline()
        return measured(process, wanted, process.stdout.readline)


def row(program, command, wanted, lost):
    """Prints what one run of the program took."""
    used, took = command(program, wanted)
    rate = sum(map(len, wanted)) / used
    what = f"`{command.__name__}`, {lost} of each packet lost"
    print(f"| {what} | {statistics.median(took) * 1e6:.0f} | {max(took) * 1e6:.0f} | {rate:,.0f} |", flush=True)


def compared(programs, command, wanted, lost, rounds):
    """Prints what two programs take by turns."""
    found = [[], []]

    def run(place):
        found[place].append(command(programs[place], wanted))
        return found[place][-1].used

    used = turns.least([functools.partial(run, place) for place in range(len(programs))], rounds)
    rates = [sum(map(len, wanted)) / each for each in used]
    waits = [min(statistics.median(each.took) for each in runs) * 1e6 for runs in found]
    what = f"`{command.__name__}`, {lost} of each packet lost"
    print(f"| {what} | {rates[0]:,.0f} | {rates[1]:,.0f} | {used[0] / used[1]:.2f} | {waits[0]:.0f} | {waits[1]:.0f} |", flush=True)


def main():
    parser = command_line.parser(__doc__)
    parser.add_argument("program", type=command_line.program)
    parser.add_argument("--super-frames", type=command_line.number(1, 100_000), default=1000)
    turns.options(parser)
    given = parser.parse_args()
    program = os.path.abspath(given.program)
    surroundings = turns.Surroundings()
    print(HEAD_OF_TWO if given.before else HEAD_OF_ONE)
    with tempfile.TemporaryDirectory() as folder:
        for lost in (0, LOST):
            wanted = packets(program, folder, given.super_frames, lost)
            for command in (gate, receive):
                if given.before:
                    compared([given.before, program], command, wanted, lost, given.turns)
                else:
                    row(program, command, wanted, lost)
    print(f"\n{surroundings.said()}")


if __name__ == "__main__":
    command_line.run(main)
