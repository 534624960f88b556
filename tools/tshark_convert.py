#!/usr/bin/env python3
"""Compares the captures that `convert` writes with what tshark puts together from the same datagrams.

PROGRAM is crates/drmcast/out/drmcast, and each CAPTURE a file that `serve` wrote. It is converted to fragments under several
carries, and each of these and the CAPTURE itself to whole packets. tshark reads the fragments, and the numbers, lengths,
check values and items of the packets that it puts together have to be those of the whole packets, in order. Where one
differs it is named, and then the status is 1.
"""
import pathlib
import subprocess
import sys
import tempfile

import command_line
from datagrams import datagrams, pcap

CARRIES = ("pft:0:128", "pft:0:1500", "pft:1:300", "pft:2:1400", "pft:5:1500")
FIELDS = ("dcp-af.seq", "dcp-af.len", "dcp-af.crc", "dcp-af.crc_ok", "dcp-tpl.tlv")


def convert(program, capture, carry):
    """The capture under this carry, or nothing where it has a packet that is too long for it."""
    ran = subprocess.run([program, "convert", carry], input=capture, stdout=subprocess.PIPE, stderr=subprocess.PIPE, check=False)
    if ran.stderr.endswith(b": packet-size\n"):
        return None
    if ran.returncode:
        sys.exit(f"convert {carry} ended with {ran.returncode}: {ran.stderr.decode(errors='replace').strip()}")
    return ran.stdout


def packets(capture, folder):
    """What tshark reads of each AF packet in a capture, whole or put together."""
    pcap(f"{folder}/it.pcap", (part for part, _, _ in datagrams(capture)))
    words = ["tshark", "-n", "-r", f"{folder}/it.pcap", "-Y", "dcp-af", "-T", "fields", "-E", "separator=/t", "-E", "aggregator=,"]
    for name in FIELDS:
        words += ["-e", name]
    return subprocess.run(words, stdout=subprocess.PIPE, stderr=subprocess.DEVNULL, check=True, text=True).stdout.splitlines()


def main():
    parser = command_line.parser(__doc__)
    parser.add_argument("program", metavar="PROGRAM", type=command_line.program)
    parser.add_argument("captures", metavar="CAPTURE", nargs="+", type=command_line.file)
    options = parser.parse_args()
    program, differ = options.program, 0
    with tempfile.TemporaryDirectory() as folder:
        for path in options.captures:
            capture = pathlib.Path(path).read_bytes()
            whole = convert(program, capture, "plain")
            wanted = packets(whole, folder)
            for carry in CARRIES:
                converted = convert(program, capture, carry)
                if converted is None:
                    print(f"{path}: its packets are too long for {carry}", flush=True)
                    continue
                same = packets(converted, folder) == wanted and convert(program, converted, "plain") == whole
                differ += not same
                print(f"{path}: {len(wanted)} packets under {carry}: {'the same' if same else 'they differ'}", flush=True)
    sys.exit(differ > 0)


if __name__ == "__main__":
    command_line.run(main)
