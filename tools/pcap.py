#!/usr/bin/env python3
"""Goes between a capture, as `drmcast` reads and writes it, and files of packets, as tcpdump and Wireshark do.

    drmcast serve evening.plan | pcap.py write multiplex.pcap
    tcpdump -i eth0 -w link.pcap udp port 5000
    pcap.py read link.pcap --port 5000 | drmcast receive

`write` makes of each datagram a UDP packet over IPv4, so many milliseconds apart as `--every` says. `read` takes the UDP datagrams
out, in the order of the file: over Ethernet (with VLAN tags), Linux cooked captures (both versions), the BSD loopback, and raw IP;
of IPv4 and IPv6; and IP fragments put together, since a packet that is carried whole is longer than what an Ethernet carries. A
file that is no pcap (pcapng, say) is first made one by Wireshark's `editcap`. With `--port` those to or from this port are taken;
what is no packet, so that the reading of the capture would end there, is left out, and counted on standard error. So are packets
of which the file keeps less than there was: a snap length, which `tcpdump -s 0` doesn't have.
"""
import shutil
import struct
import subprocess
import sys

import command_line
from datagrams import datagrams, is_packet, pcap

ETHERNET, RAW, LINUX_COOKED, LINUX_COOKED_2, LOOPBACK, RAW_IPV4, RAW_IPV6 = 1, 101, 113, 276, 0, 228, 229
IPV4, IPV6, VLAN = 0x0800, 0x86DD, (0x8100, 0x88A8)
UDP, FRAGMENT = 17, 44


def as_pcap(path):
    """The bytes of a file of packets; of another kind than pcap as editcap turns it into one."""
    with open(path, "rb") as file:
        data = file.read()
    if data[:4] in (b"\xa1\xb2\xc3\xd4", b"\xd4\xc3\xb2\xa1", b"\xa1\xb2\x3c\x4d", b"\x4d\x3c\xb2\xa1"):
        return data
    if shutil.which("editcap") is None:
        sys.exit(f"{path}: no pcap, and there is no editcap (package wireshark-common) to make one of it")
    made = subprocess.run(["editcap", "-F", "pcap", path, "-"], capture_output=True, check=False)
    if made.returncode:
        sys.exit(f"{path}: editcap: {made.stderr.decode(errors='replace').strip()}")
    return made.stdout


def frames(data, path):
    """The kind of the link, the bytes of each frame, and whether these aren't all that it had."""
    order = ">" if data[0] == 0xA1 else "<"
    if len(data) < 24:
        sys.exit(f"{path}: the head of the file is cut")
    kind, at = struct.unpack(order + "I", data[20:24])[0] & 0xFFFF, 24
    while at + 16 <= len(data):
        held, had = struct.unpack(order + "II", data[at + 8:at + 16])
        yield kind, data[at + 16:at + 16 + held], held < had
        at += 16 + held


def snap_length(data):
    """How much of a packet the file keeps at most."""
    return struct.unpack((">" if data[0] == 0xA1 else "<") + "I", data[16:20])[0]


def past_tags(kind, rest):
    while kind in VLAN and len(rest) >= 4:
        kind, rest = int.from_bytes(rest[2:4], "big"), rest[4:]
    return rest if kind in (IPV4, IPV6) else b""


def network(kind, frame, path):
    """The IP packet in a frame, or nothing."""
    if kind == ETHERNET:
        return past_tags(int.from_bytes(frame[12:14], "big"), frame[14:])
    if kind == LINUX_COOKED:
        return past_tags(int.from_bytes(frame[14:16], "big"), frame[16:])
    if kind == LINUX_COOKED_2:
        return past_tags(int.from_bytes(frame[0:2], "big"), frame[20:])
    if kind == LOOPBACK:
        return frame[4:]
    if kind in (RAW, RAW_IPV4, RAW_IPV6):
        return frame
    sys.exit(f"{path}: frames of link type {kind} aren't read; Ethernet, Linux cooked, loopback and raw IP are")


class Fragments:
    """IP packets in pieces, which may come in any order."""

    def __init__(self):
        self.open = {}

    def whole(self, key, offset, more, piece):
        """The payload of the packet with this key, where this was its last piece that was lacking."""
        if offset == 0 and not more:
            return piece
        pieces = self.open.setdefault(key, {})
        pieces[offset] = (piece, more)
        at, joined = 0, b""
        while at in pieces:
            piece, more = pieces[at]
            joined, at = joined + piece, at + len(piece)
            if not more:
                del self.open[key]
                return joined
            if not piece:
                break
        return None


def is_udp(packet):
    """Whether a packet, or what there is of it, is UDP or a fragment that may be."""
    return packet[:1] and (packet[0] >> 4 == 4 and packet[9:10] == bytes([UDP]) or packet[0] >> 4 == 6 and packet[6:7] in (bytes([UDP]), bytes([FRAGMENT])))


def transport(packet, fragments):
    """The UDP packet of an IP packet, where it is one and whole."""
    if len(packet) >= 20 and packet[0] >> 4 == 4 and packet[9] == UDP:
        size, word = int.from_bytes(packet[2:4], "big"), int.from_bytes(packet[6:8], "big")
        return fragments.whole(packet[4:6] + packet[12:20], (word & 0x1FFF) * 8, bool(word & 0x2000), packet[(packet[0] & 15) * 4:size or None])
    if len(packet) >= 40 and packet[0] >> 4 == 6:
        end = 40 + int.from_bytes(packet[4:6], "big")
        if packet[6] == UDP:
            return packet[40:end]
        if packet[6] == FRAGMENT and packet[40:41] == bytes([UDP]):
            word = int.from_bytes(packet[42:44], "big")
            return fragments.whole(packet[44:48] + packet[8:40], word & 0xFFF8, bool(word & 1), packet[48:end])
    return None


def read(path, port):
    """Writes the datagrams in a file of packets as a capture."""
    fragments, taken, left_out, cut = Fragments(), 0, 0, 0
    data = as_pcap(path)
    for kind, frame, is_cut in frames(data, path):
        packet = network(kind, frame, path)
        cut += bool(is_cut and is_udp(packet))
        udp = transport(packet, fragments)
        if udp is None or len(udp) < 8 or (port is not None and port not in struct.unpack(">HH", udp[:4])):
            continue
        payload = udp[8:int.from_bytes(udp[4:6], "big") or None]
        if is_packet(payload):
            sys.stdout.buffer.write(payload)
            taken += 1
        else:
            left_out += 1
    print(f"{taken} datagrams, {left_out} others left out, {len(fragments.open)} in pieces that never became whole", file=sys.stderr)
    if cut:
        print(f"{cut} packets are cut, since the file keeps {snap_length(data)} bytes of each at most (its snap length); tcpdump -s 0 keeps them whole", file=sys.stderr)


def write(path, millis, port):
    """Writes the datagrams of a capture into a file of packets."""
    whole = sys.stdin.buffer.read()
    found = [datagram for datagram, _, _ in datagrams(whole)]
    if b"".join(found) != whole or not all(map(is_packet, found)):
        sys.exit("pcap.py: standard input is no capture, or is cut")
    pcap(path, found, millis, port)


def main():
    parser = command_line.parser(__doc__)
    parser.add_argument("what", choices=("read", "write"))
    parser.add_argument("file")
    parser.add_argument("--port", type=command_line.number(1, 65535), help="read: of this port alone; write: to this port (50001)")
    parser.add_argument("--every", type=command_line.number(0, 60_000), default=1, metavar="MS", help="write: milliseconds from one to the next (1)")
    options = parser.parse_args()
    if options.what == "read":
        read(options.file, options.port)
    else:
        write(options.file, options.every, options.port or 50001)


if __name__ == "__main__":
    command_line.run(main)
