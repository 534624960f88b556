#!/usr/bin/env python3
"""Compares what `show` prints of captures with what tshark reads in the same bytes, packet by packet.

PROGRAM is drmcast, and each CAPTURE a file that `serve` wrote. Of a fragment are compared its byte, the number
of its packet, its own and their number, its length, its code and its addresses; of an AF packet its byte, number and length,
whether its check value counts, and the names and lengths of its items. Where tshark finds a check value that differs, `show`
is to say that the packet is bad. Each packet that differs is named, ten at the most, and then the status is 1.
"""
import subprocess
import sys
import tempfile

import command_line
from datagrams import datagrams, pcap

FIELDS = ("dcp-etsi.sync dcp-pft.seq dcp-pft.findex dcp-pft.fcount dcp-pft.len dcp-pft.fec dcp-pft.rsk dcp-pft.rsz dcp-pft.addr "
          "dcp-pft.source dcp-pft.dest dcp-pft.crc_ok dcp-af.seq dcp-af.len dcp-af.crcflag dcp-af.crc_ok dcp-tpl.tlv").split()
MOST_NAMED = 10


def item(spelling):
    """The line of an item that tshark cut out, from its bytes."""
    name, bits = spelling[:4], int.from_bytes(spelling[4:8], "big")
    if len(spelling) != 8 + (bits + 7) // 8:
        sys.exit(f"tshark cut an item of {bits} bits at {len(spelling)} bytes")
    text = "".join(chr(byte) if 0x21 <= byte <= 0x7E else f"\\x{byte:02x}" for byte in name)
    return f"tag {text} {bits}"


def lines_of(at, it):
    """What `show` is to print of a packet at this byte, as far as tshark tells it. Its fields are lists: a fragment that completes
    a packet has those of the packet too."""
    one = {name: values[0] for name, values in it.items() if values}
    if one["dcp-etsi.sync"] == "PF":
        if one["dcp-pft.crc_ok"] != "1":
            return [f"bad {at} pft head-crc"]
        code = f"{one['dcp-pft.rsk']} {one['dcp-pft.rsz']}" if one["dcp-pft.fec"] == "1" else "-"
        addresses = f"{one['dcp-pft.source']} {one['dcp-pft.dest']}" if one["dcp-pft.addr"] == "1" else "-"
        return [f"pft {at} seq {one['dcp-pft.seq']} index {one['dcp-pft.findex']} of {one['dcp-pft.fcount']} "
                f"len {one['dcp-pft.len']} fec {code} addr {addresses}"]
    checked = one["dcp-af.crcflag"] == "1"
    if checked and one["dcp-af.crc_ok"] != "1":
        return [f"bad {at} af crc"]
    head = f"af {at} seq {one['dcp-af.seq']} len {one['dcp-af.len']} crc {'yes' if checked else 'no'}"
    return [head] + [item(bytes.fromhex(tlv.replace(":", ""))) for tlv in it["dcp-tpl.tlv"]]


def read_by_tshark(parts, folder):
    """What tshark reads in each datagram, as the lines of `show`."""
    pcap(f"{folder}/it.pcap", parts)
    words = ["tshark", "-n", "-r", f"{folder}/it.pcap", "-T", "fields", "-E", "separator=/t", "-E", "aggregator=,"]
    for name in FIELDS:
        words += ["-e", name]
    ran = subprocess.run(words, stdout=subprocess.PIPE, stderr=subprocess.DEVNULL, check=True, text=True)
    at = 0
    for part, line in zip(parts, ran.stdout.splitlines(), strict=True):
        values = [value.split(",") if value else [] for value in line.split("\t")]
        yield lines_of(at, dict(zip(FIELDS, values, strict=True)))
        at += len(part)


def shown(program, path):
    """What `show` prints of each packet, without the lines of which tshark tells nothing."""
    with open(path, "rb") as capture:
        ran = subprocess.run([program, "show"], stdin=capture, stdout=subprocess.PIPE, text=True)
    packets = []
    for line in ran.stdout.splitlines():
        kind, at = line.split(" ")[:2]
        if kind in ("pft", "af") or kind == "bad" and not (packets and packets[-1][0].split(" ")[1] == at):
            packets.append([line])
        elif kind == "tag":
            packets[-1].append(line)
    return packets


def compare(program, path, folder):
    """Compares both readings of a capture, and answers how many packets differ."""
    with open(path, "rb") as capture:
        parts = [part for part, _, _ in datagrams(capture.read())]
    ours, theirs = shown(program, path), list(read_by_tshark(parts, folder))
    differ = [pair for pair in zip(ours, theirs) if pair[0] != pair[1]]
    for one, other in differ[:MOST_NAMED]:
        print(f"{path}: show prints {one}, and tshark reads {other}")
    differing = len(differ) + abs(len(ours) - len(theirs))
    items = sum(len(packet) - 1 for packet in theirs)
    print(f"{path}: {len(theirs)} packets with {items} items compared, {differing} differ")
    return differing


def main():
    parser = command_line.parser(__doc__)
    parser.add_argument("program", metavar="PROGRAM", type=command_line.program)
    parser.add_argument("captures", metavar="CAPTURE", nargs="+", type=command_line.file)
    options = parser.parse_args()
    with tempfile.TemporaryDirectory() as folder:
        sys.exit(sum([compare(options.program, path, folder) for path in options.captures]) > 0)


if __name__ == "__main__":
    command_line.run(main)
