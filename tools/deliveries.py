#!/usr/bin/env python3
"""Draws deliveries of a schedule at random, and compares the reports of `air` with those that they call for.

A delivery is some of the schedule's datagrams: some never come, some twice, and many in another order. What it calls for is
worked out here anew, from the definitions in FORMATS.md, and shares no code with the program: the frames are read out of
a plain capture, and of each packet it's counted what came before it was closed. It prints how many reports were compared, and
ends with 1 if one differs.
"""

import os
import random
import subprocess
import sys
import tempfile

import command_line
from datagrams import check_value

WINDOWS = (1, 2, 3, 4, 8, 64)
MOST_FEEDS = 16
# A script has so many bytes at the most, and a line of it so many.
MOST_TEXT = 262_144
LINE = len("take 9999 999\n")
PARITY = 48
MOST_DATA = 207


def packets(capture):
    """The AF packets of a plain capture."""
    while capture:
        size = 12 + int.from_bytes(capture[2:6], "big")
        yield capture[:size]
        capture = capture[size:]


def items(packet):
    """The TAG items of an AF packet: the bits and the bytes of each, by name."""
    if check_value(packet[:-2]) != packet[-2:]:
        sys.exit("a packet's check value differs")
    payload, found = packet[10:-2], {}
    while len(payload) >= 8:
        name, bits = payload[:4].decode(), int.from_bytes(payload[4:8], "big")
        size = (bits + 7) // 8
        found[name] = bits, payload[8:8 + size]
        payload = payload[8 + size:]
    return found


class Frame:
    """A frame of the schedule: what its line says behind its number, and what a receiver sees of it."""

    def __init__(self, packet):
        found = items(packet)
        description = found["sdci"][1]
        lengths = [int.from_bytes(description[k:k + 3], "big") for k in range(1, len(description), 3)]
        streams = [(found[f"str{k}"][1], length >> 12) for k, length in enumerate(lengths)]
        multiplex = b"".join(s[:a] for s, a in streams) + b"".join(s[a:] for s, a in streams)
        bits, block = found.get("sdc_", (0, b""))
        fac = found["fac_"][1]
        self.size = len(packet)
        self.line = (
            f"dlfc {int.from_bytes(found['dlfc'][1], 'big')} mode {'ABCD'[found['robm'][1][0]]} fac {fac.hex()} "
            f"sdc {block.hex()[:bits // 4] or '-'} mux {description.hex()} msc {multiplex.hex() or '-'}"
        )
        channel = int.from_bytes(fac[:3], "big") >> 4
        identity = channel >> 17 & 3
        self.position = identity % 3
        self.index = channel >> 2 & 7
        # all of the channel but the identity, the index and the last two bits
        self.signature = found["robm"][1], channel & ~(3 << 17) >> 5 << 5, description


class Shape:
    """How a packet of so many bytes is cut."""

    def __init__(self, size, carry):
        self.chunks = 0
        if carry == ["plain"]:
            self.count = 1
            return
        lost, mtu = map(int, carry[1:])
        if lost == 0:
            self.count = -(-size // (mtu - 14))
            return
        self.chunks = -(-size // MOST_DATA)
        self.word = -(-size // self.chunks) + PARITY
        most = min(PARITY * self.chunks // (lost + 1), mtu - 16)
        self.count = -(-self.chunks * self.word // most)

    def suffices(self, got):
        """Whether the packet can be made again of the fragments with these numbers."""
        if not self.chunks:
            return len(got) == self.count
        starts = range(0, self.chunks * self.word, self.word)
        return all(sum(place % self.count not in got for place in range(at, at + self.word)) <= PARITY for at in starts)


def called_for(frames, shapes, pairs, window):
    """The lines of the report of a delivery without the first one and the reason of its end, and whether no frame is missing."""
    lines, given, named, last, switched = [], 0, None, None, False
    for number, (frame, shape) in enumerate(zip(frames, shapes)):
        got = set()
        for packet, fragment in pairs:
            if packet >= number + window:
                break
            if packet == number:
                got.add(fragment)
        if named == number:
            lines.append(f"switch {number}")
            named, switched = None, True
        if shape.suffices(got):
            if last not in (None, frame.signature) and not switched:
                lines.append(f"resumed {number}")
            last, switched = frame.signature, False
            if frame.index:
                named = number - frame.position + 3 * frame.index
            lines.append(f"frame {number} {frame.line}")
            given += 1
        else:
            lines.append(f"missing {number} had {len(got)} of {shape.count if got else 0}")
    lines.append(f"given {given} missing {len(frames) - given} bad 0 refused 0")
    return lines, given == len(frames)


def delivery(shapes, draw):
    """Pairs of a packet and a fragment."""
    loss, gone, disorder = draw.choice((0, 0.05, 0.15, 0.3)), draw.choice((0, 0.1)), draw.choice((0, 5, 15, 40, 100))
    lost = {packet for packet in range(len(shapes)) if draw.random() < gone}
    pairs = [
        (packet, fragment)
        for packet, shape in enumerate(shapes)
        for fragment in range(shape.count)
        if packet not in lost and draw.random() >= loss
    ]
    pairs += draw.sample(pairs, len(pairs) // 20)
    keys = [packet * shapes[packet].count + fragment + draw.uniform(0, disorder) for packet, fragment in pairs]
    return [pair for _, pair in sorted(zip(keys, pairs))]


def main():
    parser = command_line.parser(__doc__)
    parser.add_argument("schedule", type=command_line.file)
    parser.add_argument("--program", type=command_line.program, default="drmcast", help="drmcast, where it isn't told")
    parser.add_argument("--scripts", type=command_line.number(1, 10_000_000), default=20, help="how many scripts of one feed or more; 20")
    parser.add_argument("--seed", type=command_line.number(0, 10_000_000), default=1, help="of the random numbers; 1")
    options = parser.parse_args()
    draw = random.Random(options.seed)

    def run(*words):
        return subprocess.run([options.program, *words], stdout=subprocess.PIPE)

    checked = run("check", options.schedule)
    if checked.returncode:
        # the program has told what is wrong
        return 1
    text = checked.stdout.decode()
    carry = next(line.split()[1:] for line in text.splitlines() if line.startswith("carry "))
    with tempfile.TemporaryDirectory() as folder:
        plain, script = os.path.join(folder, "plain.plan"), os.path.join(folder, "script")
        with open(plain, "w", encoding="utf-8") as file:
            file.write(text.replace(f"carry {' '.join(carry)}\n", "carry plain\n", 1))
        frames = [Frame(packet) for packet in packets(run("serve", plain).stdout)]
        shapes = [Shape(frame.size, carry) for frame in frames]
        datagrams = sum(shape.count for shape in shapes)
        most = min(MOST_FEEDS, MOST_TEXT // (LINE * (datagrams + datagrams // 20 + 1)))
        if most == 0:
            sys.exit("the schedule is too long: a script of all its datagrams would be")
        compared = different = 0
        for _ in range(options.scripts):
            window, feeds = draw.choice(WINDOWS), [delivery(shapes, draw) for _ in range(draw.randint(1, most))]
            with open(script, "w", encoding="utf-8") as file:
                for pairs in feeds:
                    file.write("feed\n" + "".join(f"take {packet} {fragment}\n" for packet, fragment in pairs))
            aired = run("air", options.schedule, script, "--window", str(window))
            reports = aired.stdout.decode().split("feed ")[1:]
            wanted = [called_for(frames, shapes, pairs, window) for pairs in feeds]
            for number, ((lines, _), report) in enumerate(zip(wanted, reports), 1):
                first, *rest, end = report.splitlines()
                compared += 1
                different += [first, *rest, end.split(" ", 2)[2]] != [str(number), *lines]
            is_clean = all(clean for _, clean in wanted)
            different += len(reports) != len(feeds) or aired.returncode != (0 if is_clean else 7)
    print(f"{compared} reports compared, {different} differ")
    return 1 if different or not compared else 0


if __name__ == "__main__":
    command_line.run(main)
