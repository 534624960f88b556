"""The datagrams of a capture, their check value, where they come from, and how they are handed to tshark: what other scripts here share."""
import binascii
import socket
import struct
import sys

import command_line

MOST_BYTES = 65_536
RECEIVE_BUFFER_BYTES = 1 << 22
AF_HEAD_BYTES = 10


def check_value(data):
    """The CRC-16 of these bytes, as two bytes."""
    return (binascii.crc_hqx(data, 0xFFFF) ^ 0xFFFF).to_bytes(2, "big")


def head_size(flags):
    """How many bytes the head of a fragment has, by the word with its flags."""
    return 14 + 2 * (flags >> 15) + 4 * (flags >> 14 & 1)


def size_at(capture, at):
    """How many bytes the datagram that begins there has, by its own head."""
    if capture[at:at + 2] == b"AF":
        return 12 + int.from_bytes(capture[at + 2:at + 6], "big")
    flags = int.from_bytes(capture[at + 10:at + 12], "big")
    return head_size(flags) + (flags & 0x3FFF)


def is_packet(datagram):
    """Whether a capture may have it: its head is right, and says just as many bytes."""
    if datagram[:2] == b"AF":
        return len(datagram) >= AF_HEAD_BYTES and len(datagram) == size_at(datagram, 0) <= MOST_BYTES
    if datagram[:2] != b"PF" or len(datagram) < 14:
        return False
    head = head_size(int.from_bytes(datagram[10:12], "big"))
    return len(datagram) == size_at(datagram, 0) and check_value(datagram[:head - 2]) == datagram[head - 2:head]


def datagrams(capture):
    """Each datagram of a capture, with the number of its packet's fragments (1 of a whole packet) and its own."""
    at = 0
    while at < len(capture):
        count, index = 1, 0
        if capture[at:at + 2] != b"AF":
            index, count = int.from_bytes(capture[at + 4:at + 7], "big"), int.from_bytes(capture[at + 7:at + 10], "big")
        size = size_at(capture, at)
        yield capture[at:at + size], count, index
        at += size


def listen(address):
    """A socket for the datagrams that come to this address; a plain complaint ends the script if it can't be had."""
    listener = socket.socket(socket.AF_INET, socket.SOCK_DGRAM)
    try:
        listener.setsockopt(socket.SOL_SOCKET, socket.SO_RCVBUF, RECEIVE_BUFFER_BYTES)
        listener.bind(address)
    except OSError as fault:
        listener.close()
        command_line.complain(f"{address[0]}:{address[1]}: {fault.strerror}")
        sys.exit(1)
    return listener


def pcap(path, wanted, millis=1, port=50001):
    """Writes datagrams as UDP over IPv4 into a file that tshark reads, so many milliseconds apart."""
    with command_line.written_whole(path) as out:
        out.write(struct.pack("<IHHiIII", 0xA1B2C3D4, 2, 4, 0, 0, 65535, 101))
        for number, datagram in enumerate(wanted):
            at = number * millis
            udp = struct.pack(">HHHH", 50000, port, 8 + len(datagram), 0) + datagram
            ip = struct.pack(">BBHHHBBHII", 0x45, 0, 20 + len(udp), number & 0xFFFF, 0, 64, 17, 0, 0x7F000001, 0x7F000001)
            out.write(struct.pack("<IIII", at // 1000, at % 1000 * 1000, len(ip) + len(udp), len(ip) + len(udp)) + ip + udp)
