#!/usr/bin/env python3
"""Runs the built program over random and mutated captures and datagrams.

    tools/hostile.py PROGRAM [--captures N] [--datagrams N] [--seed N] [--mib N]
    tools/hostile.py --costs PROGRAM [--before PROGRAM] [--turns N]
    tools/hostile.py --search N PROGRAM [--seed N]

PROGRAM is crates/drmcast/out/drmcast. A capture has up to 400 packets that `serve` wrote, of which some are altered: bits and bytes
of them, fields of their heads with the check value made right again or not, their numbers, their order; or packets of random
bytes, and perhaps another end. Each is shown, received twice (from a file and from a pipe in random pieces, which is to give the
same) and converted twice, some of them with a random --reach, in so many MiB of memory at the most (4; 0 for no bound, where a
sanitizer takes its own). Then as many datagrams of this kind as are told go to a receiver over the loopback. Each run has to end within a minute with a status that its
output calls for. What ends otherwise is named and its capture is kept in the current folder; the status is 1 then.

With --costs it measures instead what the dearest datagrams cost, in processor time beside a usual datagram of their bytes: one whose
number is far ahead, a packet with as many items as it can have, and fragments of chunks with one, two or eight bytes. What as many
bytes of report lines cost in a usual report is told apart, and how many times the usual datagram and these lines the hostile one
costs. With --before the program before runs by turns with it.

With --search it looks for the dearest fragments by itself: of so many kinds, drawn at random by the seed or near the dearest so far (bytes of
a chunk, fragments of a packet, their length, and which of them come), it prints the ten that cost most beside usual datagrams of their bytes.
"""
import os
import random
import re
import resource
import socket
import subprocess
import sys
import tempfile
import time

import command_line
import costs
import dearest
import turns
from datagrams import check_value, datagrams

PORT = 50227
PLAN = """drmplan 1
carry {carry}
first {first} 0
length 40
config 0 0
mode B
occupancy 3
depth long
msc 0
sdc 0
protection 0 1
room 44
service 123456 0 0 5 audio 3 0
stream 0 {size} fill 55
audio 0 0 0 1 0 3 0 0 0
label 0 Radio Nord
config 20 2
mode B
occupancy 3
depth short
msc 0
sdc 0
protection 0 1
room 44
service 123456 0 0 5 audio 3 0
stream 0 {size} fill 66
audio 0 0 0 1 0 3 0 0 0
"""
CARRIES = ("plain", "pft 0 200", "pft 2 1400", "pft 5 128")
STATUS_3 = re.compile(r"drmcast: (capture byte \d+: (sync|head-crc|too-large|head-cut|body-cut)|packet \d+: packet-size)")
BAD = re.compile(r"^(missing|bad) ", re.MULTILINE)


def checked(packet):
    """The packet with its check value made right: that of a fragment's head, or that of an AF packet."""
    if packet[:2] == b"PF" and len(packet) >= 14:
        flags = int.from_bytes(packet[10:12], "big")
        size = 12 + 2 * (flags >> 15) + 4 * (flags >> 14 & 1)
        return packet[:size] + check_value(packet[:size]) + packet[size + 2:]
    if packet[:2] == b"AF" and len(packet) >= 12:
        return packet[:-2] + check_value(packet[:-2])
    return packet


def flip(draw, packet):
    at = draw.randrange(len(packet))
    return packet[:at] + bytes([packet[at] ^ 1 << draw.randrange(8)]) + packet[at + 1:]


def overwrite(draw, packet):
    at = draw.randrange(len(packet))
    return packet[:at] + draw.randbytes(draw.randint(1, 4)) + packet[at + 1:]


def extreme(draw, packet):
    """A field of the head at its end, or beside it."""
    at, size = draw.choice(((2, 2), (2, 4), (4, 3), (7, 3), (10, 2), (12, 1), (13, 1)))
    value = draw.choice((0, 1, 2, 207, 208, 255, 4096, 4097, 65535, 65536, (1 << 8 * size) - 1)) % (1 << 8 * size)
    return packet[:at] + value.to_bytes(size, "big") + packet[at + size:]


def near(draw, packet):
    """Another number nearby, or seldom far away."""
    step = draw.choice((-9, -2, -1, 1, 2, 9, 40)) if draw.random() < 0.98 else draw.randrange(65536)
    number = (int.from_bytes(packet[2:4], "big") + step) % 65536
    return packet[:2] + number.to_bytes(2, "big") + packet[4:]


def resized(draw, packet):
    """Bytes more or less at the end, with the length in the head made to fit."""
    body = packet[:-draw.randint(1, 20)] if draw.random() < 0.5 else packet + draw.randbytes(draw.randint(1, 20))
    if body[:2] == b"AF" and len(body) >= 12:
        return body[:2] + (len(body) - 12).to_bytes(4, "big") + body[6:]
    return body


def altered(draw, packet):
    change = draw.choice((flip, overwrite, extreme, near, resized))
    packet = change(draw, packet) if len(packet) > 14 else packet
    return checked(packet) if draw.random() < 0.7 else packet


def noise(draw):
    head = draw.choice((b"AF", b"PF", b"", b"A", b"P"))
    return head + draw.randbytes(draw.choice((0, 1, 8, 10, 12, 14, 40, 300)))


def hostile(draw, packets):
    """Some packets one after another, of which some are altered."""
    start = draw.randrange(len(packets))
    taken = list(packets[start:start + draw.randint(1, 400)])
    if draw.random() < 0.4:
        keys = [k + draw.uniform(0, draw.choice((3, 30))) for k in range(len(taken))]
        taken = [packet for _, packet in sorted(zip(keys, taken))]
    rate = draw.choice((0, 0.01, 0.05, 0.2))
    return [altered(draw, packet) if draw.random() < rate else packet for packet in taken if draw.random() >= rate]


def reach(draw):
    """How far a datagram may be ahead, or nothing."""
    return ["--reach", str(draw.choice((1, 2, 8, 9, 40, 450, 32767)))] if draw.random() < 0.5 else []


class Program:
    """The program, with the most bytes of memory that it may take."""

    def __init__(self, path, memory):
        self.path, self.memory = os.path.abspath(path), memory

    def start(self, words, **streams):
        def bound():
            if self.memory:
                resource.setrlimit(resource.RLIMIT_DATA, (self.memory, self.memory))

        return subprocess.Popen([self.path, *words], preexec_fn=bound, stderr=subprocess.PIPE, **streams)


def ran(program, words, capture, pieces=None):
    """Status, output and error of the program over these bytes, by a file or by a pipe in pieces."""
    if pieces is None:
        with tempfile.TemporaryFile() as file:
            file.write(capture)
            file.seek(0)
            process = program.start(words, stdin=file, stdout=subprocess.PIPE)
            out, err = process.communicate(timeout=60)
        return process.returncode, out, err
    feeder = subprocess.Popen([sys.executable, "-c", FEEDER, str(pieces)], stdin=subprocess.PIPE, stdout=subprocess.PIPE)
    process = program.start(words, stdin=feeder.stdout, stdout=subprocess.PIPE)
    feeder.stdout.close()
    feeder.stdin.write(capture)
    feeder.stdin.close()
    out, err = process.communicate(timeout=60)
    feeder.wait()
    return process.returncode, out, err


FEEDER = """
import os, random, sys
draw, held = random.Random(int(sys.argv[1])), sys.stdin.buffer.read()
try:
    while held:
        size = draw.choice((1, 7, 100, 4096, 65536))
        held = held[os.write(1, held[:size]):]
except BrokenPipeError:
    pass
"""


def is_called_for(command, ended):
    """Whether the status is one that the output calls for."""
    status, out, err = ended
    told, lines = err.decode().splitlines(), out.decode() if command != "convert" else ""
    if status == 3:
        return bool(told) and STATUS_3.fullmatch(told[-1]) is not None
    if command == "convert":
        return status == (7 if told else 0) and all(BAD.match(line) for line in told)
    if told or status not in (0, 7):
        return False
    last = lines.splitlines()[-1].split(" ")
    if command == "receive":
        counts = dict(zip(last[2::2], map(int, last[3::2])))
        wrong = len(BAD.findall(lines))
        return counts["missing"] + counts["bad"] == wrong and counts["given"] == len(re.findall(r"^frame ", lines, re.MULTILINE)) and status == (7 if wrong else 0)
    return last[0] == "end" and status == (7 if BAD.search(lines) else 0)


def over_captures(program, draw, served, count):
    """Runs captures, and answers how many runs ended wrongly, and how many packets there were."""
    wrong, packets, statuses = 0, 0, {}
    for number in range(count):
        parts = hostile(draw, draw.choice(served))
        packets += len(parts)
        capture = b"".join(parts)
        if draw.random() < 0.3:
            capture = draw.choice((capture[:draw.randrange(len(capture) + 1)], capture + noise(draw)))
        options = ["--frames", str(draw.randint(1, 60))] if draw.random() < 0.3 else []
        options += reach(draw)
        received = None
        for words in (["show"], ["receive", *options], ["receive", *options], ["convert", "plain", *options], ["convert", "pft:2:1400", *options]):
            pieces = number if received else None
            ended = ran(program, words, capture, pieces if words[0] == "receive" else None)
            statuses[ended[0]] = statuses.get(ended[0], 0) + 1
            right = is_called_for(words[0], ended) and (words[0] != "receive" or received in (None, ended))
            received = ended if words[0] == "receive" else received
            if not right:
                wrong += 1
                with open(f"hostile-{number}.capture", "wb") as kept:
                    kept.write(capture)
                print(f"capture {number}, {' '.join(words)}: status {ended[0]}, {ended[2][-100:]!r}", flush=True)
    runs = 5 * count
    print(f"{runs} runs over {count} captures of {packets} packets, {wrong} ended wrongly; by status: {dict(sorted(statuses.items()))}", flush=True)
    return wrong


def over_a_socket(program, draw, served, count):
    """Sends datagrams to one receiver, and answers whether it ended as it may."""
    words = ["receive", f"127.0.0.1:{PORT}", "--idle", "20", *reach(draw)]
    with tempfile.TemporaryFile() as report:
        receiver = program.start(words, stdout=report)
        time.sleep(0.5)
        with socket.socket(socket.AF_INET, socket.SOCK_DGRAM) as link:
            sent = 0
            while sent < count:
                for datagram in hostile(draw, draw.choice(served)) + [noise(draw)]:
                    link.sendto(datagram, ("127.0.0.1", PORT))
                    sent += 1
                    if sent % 50 == 0:
                        time.sleep(0.001)
        _, err = receiver.communicate(timeout=300)
        report.seek(0)
        out = report.read()
    right = is_called_for("receive", (receiver.returncode, out, err))
    print(f"{sent} datagrams to one receiver: status {receiver.returncode}, {out[-120:].decode().splitlines()[-1]}")
    return not right


def main():
    words = command_line.parser(__doc__)
    words.add_argument("program", type=command_line.program)
    words.add_argument("--captures", type=command_line.number(1, 10_000_000), default=1000)
    words.add_argument("--datagrams", type=command_line.number(1, 10_000_000), default=100_000)
    words.add_argument("--seed", type=command_line.number(0, 10_000_000), default=1)
    words.add_argument("--mib", type=command_line.number(1, 10_000_000), default=4)
    words.add_argument("--costs", action="store_true", help="measure what the dearest datagrams cost")
    words.add_argument("--search", type=command_line.number(1, 10_000_000), metavar="N", help="look for the dearest fragments among so many kinds")
    turns.options(words)
    given = words.parse_args()
    if given.search:
        return dearest.search(given.program, given.seed, given.search)
    if given.costs:
        return costs.table(os.path.abspath(given.program), given.before, given.turns)
    program, draw, served = Program(given.program, given.mib << 20), random.Random(given.seed), []
    with tempfile.TemporaryDirectory() as folder:
        for carry in CARRIES:
            for first, size in ((0, 4), (65500, 1000)):
                with open(f"{folder}/it.plan", "w", encoding="ascii") as plan:
                    plan.write(PLAN.format(carry=carry, first=first, size=size))
                capture = subprocess.run([program.path, "serve", f"{folder}/it.plan"], stdout=subprocess.PIPE, check=True).stdout
                served.append([part for part, _, _ in datagrams(capture)])
    wrong = over_captures(program, draw, served, given.captures)
    wrong += over_a_socket(program, draw, served, given.datagrams) if given.datagrams else 0
    return wrong > 0


if __name__ == "__main__":
    command_line.run(main)
