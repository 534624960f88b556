"""Bytes by the words of the standards, for expected values of tests: written bit by bit and by long divisions, and unlike our crates on
purpose. ES 201 980 (FAC, SDC, packet mode, text messages), TS 102 820 (MDI), TS 102 821 (TAG, AF, PFT and its code).
"""

# ---- bits and check values


def number(value, width):
    """The bits of a number, the greatest first."""
    if not 0 <= value < 1 << width:
        raise ValueError(f"{value} has more than {width} bits")
    return [value >> place & 1 for place in range(width - 1, -1, -1)]


def fields(*pairs):
    """The bits of numbers, each with its width."""
    return [bit for value, width in pairs for bit in number(int(value), width)]


def bits_of(data):
    return [bit for byte in data for bit in number(byte, 8)]


def packed(bits):
    """The bytes of bits, the last one filled with zeros."""
    bits = bits + [0] * (-len(bits) % 8)
    return bytes(int("".join(map(str, bits[at:at + 8])), 2) for at in range(0, len(bits), 8))


def check(bits, polynomial):
    """The check value of bits: what remains of them, with zeros behind and the first ones turned over, by the polynomial; turned over."""
    width = len(polynomial) - 1
    left = bits + [0] * width
    left[:width] = [1 - bit for bit in left[:width]]
    for at in range(len(bits)):
        if left[at]:
            left[at:at + width + 1] = [a ^ b for a, b in zip(left[at:at + width + 1], polynomial)]
    return int("".join(str(1 - bit) for bit in left[len(bits):]), 2)


CHECK_8 = [1, 0, 0, 0, 1, 1, 1, 0, 1]  # x^8 + x^4 + x^3 + x^2 + 1
CHECK_16 = [1, 0, 0, 0, 1, 0, 0, 0, 0, 0, 0, 1, 0, 0, 0, 0, 1]  # x^16 + x^12 + x^5 + 1


def crc8(data):
    return check(bits_of(data), CHECK_8)


def crc16(data):
    return check(bits_of(data), CHECK_16)


def checked(data):
    """The bytes, and behind them their check value of 16 bits."""
    return bytes(data) + crc16(data).to_bytes(2, "big")


# ---- the Fast Access Channel and the Service Description Channel

CHANNEL = (1, 2, 4, 1, 2, 1, 4, 3, 2)
SERVICE = (24, 2, 1, 4, 1, 5, 1, 6)


def fac(channel, service):
    data = packed(fields(*zip(channel, CHANNEL), *zip(service, SERVICE)))
    return data + bytes([crc8(data)])


def application(short, stream, mode, enhancement, domain):
    """An application in packets (a number from 2^24 on: its unit flag, packet id and length of a packet) or as a stream."""
    front = [(short, 2), (stream, 2)]
    if mode < 1 << 24:
        return fields(*front, (0, 1), (mode, 3), (enhancement, 1), (domain, 3))
    return fields(*front, (1, 1), (mode >> 16 & 255, 1), (mode >> 8 & 255, 2), (enhancement, 1), (domain, 3), (mode & 255, 8))


def frequencies(sync, layer, restriction, region, *found):
    """Bytes of 256 and frequencies of 65,536 aren't there."""
    there = [value for value in (restriction, region) if value < 256]
    flags = fields((sync, 1), (layer, 1), (restriction < 256, 1), (region < 256, 1))
    return flags + bits_of(there) + fields(*((value, 16) for value in found if value < 65536))


def description(prot_a, prot_b, count, *parts):
    return fields((prot_a, 2), (prot_b, 2), *((part, 12) for part in parts[:2 * count]))


def by_widths(*widths):
    return lambda *values: fields(*zip(values, widths, strict=True))


BODIES = {
    0: description,
    1: by_widths(2, 2),
    3: frequencies,
    4: by_widths(4, 7, 11, 14),
    5: application,
    8: by_widths(17, 5, 6, 8),
    9: by_widths(2, 2, 2, 1, 2, 3, 1, 1, 5, 1),
    10: by_widths(1, 2, 4, 1, 2, 1, 4, 5),
    12: by_widths(2, 2, 24, 16),
}


def entity(version, kind, numbers, data):
    """An entity with the numbers and the bytes of its body."""
    body = BODIES[kind](*numbers) + bits_of(data)
    return packed(fields(((len(body) - 4) // 8, 7), (version, 1), (kind, 4)) + body)


def block(index, field, room):
    """A block with four zero bits in front, whose data field has so much room."""
    return checked(bytes([index]) + bytes(field) + bytes(room - len(field)))


def without_front(data):
    """The same without the four zero bits, filled behind."""
    return packed(bits_of(data)[4:])


# ---- frames and packets


def tag(name, value, bits=None):
    """An item, whose bits are those of its bytes unless told."""
    return name + (8 * len(value) if bits is None else bits).to_bytes(4, "big") + value


def multiplex(streams):
    """The streams of a frame, each with the length of its part A: the parts A, then the parts B."""
    return b"".join(data[:a] for data, a in streams) + b"".join(data[a:] for data, a in streams)


def af(sequence, payload, counts=True, minor=0, major=1, kind=b"T"):
    front = b"AF" + len(payload).to_bytes(4, "big") + sequence.to_bytes(2, "big") + bytes([counts << 7 | major << 4 | minor]) + kind
    return front + payload + (crc16(front + payload).to_bytes(2, "big") if counts else b"\0\0")


def data_packet(first, last, identity, continuity, useful, length, padded=None):
    """A packet of packet mode, whose data field has this length."""
    short = len(useful) < length if padded is None else padded
    body = bytes([len(useful)]) * short + useful
    return checked(packed(fields((first, 1), (last, 1), (identity, 2), (short, 1), (continuity, 3))) + body + bytes(length - len(body)))


def text_pieces(message, toggle):
    """The pieces of four bytes of a text message."""
    data, pieces = message.encode(), []
    segments = [data[at:at + 16] for at in range(0, len(data), 16)]
    for k, body in enumerate(segments):
        front = fields((toggle, 1), (k == 0, 1), (k == len(segments) - 1, 1), (0, 1), (len(body) - 1, 4), (0, 1), (k, 3), (0, 4))
        segment = checked(packed(front) + body)
        segment += bytes(-len(segment) % 4)
        pieces += [b"\xff" * 4] + [segment[at:at + 4] for at in range(0, len(segment), 4)]
    return pieces


# ---- the code, and packets cut into fragments


def times(a, b):
    """A product in the field of 256 elements, modulo x^8 + x^4 + x^3 + x^2 + 1."""
    product = 0
    for place in range(8):
        if b >> place & 1:
            product ^= a << place
    for place in range(14, 7, -1):
        if product >> place & 1:
            product ^= 0x11d << place - 8
    return product


def power(exponent):
    """2 to the exponent, where 2 to the 255 is 1."""
    value = 1
    for _ in range(exponent % 255):
        value = times(value, 2)
    return value


def inverse(element):
    return next(other for other in range(1, 256) if times(element, other) == 1)


def value_at(symbols, root):
    value = 0
    for symbol in symbols:
        value = times(value, root) ^ symbol
    return value


def generator():
    """The coefficients of the product of x - 2^i for i from 1 to 48, the greatest first."""
    product = [1]
    for i in range(1, 49):
        product = [a ^ times(b, power(i)) for a, b in zip(product + [0], [0] + product)]
    return product


GENERATOR = generator()


def parity(chunk):
    """The 48 bytes that make a code word of a chunk with zeros behind it."""
    left = list(chunk) + [0] * (255 - len(chunk))
    for at in range(207):
        if left[at]:
            front = left[at]
            left[at:at + 49] = [a ^ times(front, b) for a, b in zip(left[at:at + 49], GENERATOR)]
    return bytes(left[207:])


def ceiling(a, b):
    return -(-a // b)


def shape(length, losses, mtu):
    """How a packet is cut: number of fragments, their length, k and z, number of chunks."""
    if losses == 0:
        count = ceiling(length, mtu - 14)
        return count, ceiling(length, count), None, 0
    chunks = ceiling(length, 207)
    k = ceiling(length, chunks)
    coded = chunks * (k + 48)
    count = ceiling(coded, min(chunks * 48 // (losses + 1), mtu - 16))
    return count, ceiling(coded, count), (k, chunks * k - length), chunks


def parities(packet, k, chunks):
    packet = packet + bytes(chunks * k - len(packet))
    return [parity(packet[at:at + k]) for at in range(0, chunks * k, k)]


def fragment_head(sequence, index, count, length, code=None, addresses=None):
    """A fragment's header with its check value."""
    front = b"PF" + sequence.to_bytes(2, "big") + index.to_bytes(3, "big") + count.to_bytes(3, "big")
    front += (bool(code) << 15 | bool(addresses) << 14 | length).to_bytes(2, "big")
    front += bytes(code or ()) + b"".join(address.to_bytes(2, "big") for address in addresses or ())
    return checked(front)


def fragment(packet, losses, mtu, sequence, index):
    count, length, code, chunks = shape(len(packet), losses, mtu)
    if code is None:
        data = packet[index * length:(index + 1) * length]
    else:
        k = code[0]
        padded = packet + bytes(chunks * k - len(packet))
        coded = b"".join(padded[k * c:k * c + k] + tail for c, tail in enumerate(parities(packet, k, chunks)))
        data = (coded + bytes(count * length - len(coded)))[index::count]
    return fragment_head(sequence, index, count, len(data), code) + data
