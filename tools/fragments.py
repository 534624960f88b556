"""Fragments of packets with a code (TS 102 821), quickly made, and how many of them are enough. The code itself is in `standards.py`."""
from datagrams import check_value

PARITY_BYTES = 48
WITH_CODE, LENGTH_BITS = 1 << 15, 0x3FFF


def fragment(number, index, count, chunk, payload):
    """A fragment of the packet with this number."""
    head = b"PF" + (number % 65_536).to_bytes(2, "big") + index.to_bytes(3, "big") + count.to_bytes(3, "big")
    head += (WITH_CODE | len(payload)).to_bytes(2, "big") + bytes([chunk, 0])
    return head + check_value(head) + payload


def places_enough(chunk, count, size, order):
    """How many of a packet's fragments are enough, where they come in this order: then at most 48 bytes of each chunk are missing.
    None if all are too few."""
    length = chunk + PARITY_BYTES
    chunks = count * size // length
    covered, lacking = [0] * chunks, chunks
    for taken, index in enumerate(order, 1):
        for place in range(index, chunks * length, count):
            covered[place // length] += 1
            lacking -= covered[place // length] == chunk
        if not lacking:
            return taken
    return None


def needed(packet):
    """How many of a packet's fragments are enough, where they come in the order of this list."""
    head = packet[0]
    flags, count = int.from_bytes(head[10:12], "big"), int.from_bytes(head[7:10], "big")
    if head[:2] != b"PF" or not flags & WITH_CODE:
        return len(packet)
    return places_enough(head[12], count, flags & LENGTH_BITS, [int.from_bytes(each[4:7], "big") for each in packet])
