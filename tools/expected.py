#!/usr/bin/env python3
"""Computes the expected values of the tests once more, by the words of the standards (standards.py), and compares them with what stands in
the tests' sources.

    tools/expected.py

The constants are read from the sources (literals.py). Of a table whose rows have what goes in beside what is expected, the latter is
computed of the former. It ends with 1 if a value differs.
"""
import sys

import command_line
import standards
from definitions import CRATES
from literals import source

# The service of the trial schedule, and its block: one stream of four bytes, and audio in it.
TRIAL_SERVICE = (0x123456, 0, 0, 5, 0, 3, 0, 0)
TRIAL_FIELD = standards.entity(0, 0, (0, 1, 1, 0, 4), b"") + standards.entity(0, 9, (0, 0, 0, 1, 0, 3, 0, 0, 0, 0), b"")
TRIAL_BLOCK = standards.block(0, TRIAL_FIELD, 9)


def trial_fac(identity, index=0):
    return standards.fac((0, identity, 3, 0, 0, 0, 4, index, 0), TRIAL_SERVICE)


def trial_frame(count, fac, block=None, mode=1):
    """The payload of a frame of the trial schedule."""
    items = [(b"*ptr", b"DMDI\0\0\0\0"), (b"dlfc", count.to_bytes(4, "big")), (b"fac_", fac), (b"sdci", b"\1\0\0\4"), (b"robm", bytes([mode]))]
    tags = [standards.tag(name, value) for name, value in items]
    if block:
        tags.append(standards.tag(b"sdc_", standards.without_front(block), 8 * len(block) - 4))
    return b"".join([*tags, standards.tag(b"str0", b"UUUU")])


FIRST_FRAME = trial_frame(0, trial_fac(3), TRIAL_BLOCK)
SECOND_FRAME = trial_frame(1, trial_fac(1))
THIRD_FRAME = trial_frame(2, trial_fac(2))


def plain(value):
    """Lists of bytes as bytes."""
    if isinstance(value, list) and all(isinstance(byte, int) and not isinstance(byte, bool) and byte < 256 for byte in value):
        return bytes(value)
    return [plain(one) for one in value] if isinstance(value, list) else value


class File:
    """A source file of tests, with what was compared in it."""

    def __init__(self, name):
        self.name, self.source, self.count, self.wrong = name, source(CRATES / name), 0, []

    def __getitem__(self, constant):
        return plain(self.source.constant(constant))

    def want(self, what, stands, computed):
        """Compares what stands there with what was computed."""
        self.count += 1
        if stands != computed:
            self.wrong.append(f"{self.name}: {what}: {stands!r} stands there, and {computed!r} is computed")

    def are(self, **computed):
        """Compares constants."""
        for name, value in computed.items():
            self.want(name, self[name], value)

    def rows(self, name, stands, computed):
        """Compares a column, or several, of a table."""
        for k, row in enumerate(self[name]):
            self.want(f"{name}, row {k}", stands(row), computed(row))


# ---- test_formats


def check_values(file):
    file.rows("VALUES", lambda row: row[1:], lambda row: (standards.crc8(plain(row[0])), standards.crc16(plain(row[0]))))


def label(text):
    return standards.entity(0, 1, (0, 0), text)


def blocks_read(file):
    block = standards.block(5, label(b"Radio"), 9)
    file.are(SECOND=block, FIRST=standards.without_front(block))
    for data, _, fault in file["NO_BLOCKS"]:
        if fault.word == "Crc":
            file.want("NO_BLOCKS, the check value", fault.computed, standards.crc16(plain(data)[:-2]))
    short = standards.block(5, label(b"Radi\xff"), 7)
    file.want("NO_BLOCKS, the label", plain(file["NO_BLOCKS"][-1][0]), standards.without_front(short))


def blocks_written(file):
    file.rows("BLOCKS", lambda row: plain(row[3]), lambda row: standards.without_front(standards.block(row[1], plain(row[0]), row[2])))


def greatest_blocks(file):
    block = standards.block(5, b"\x00\x34" * 511, 1023)
    first, text = standards.without_front(block), file.source.text
    for place in (1023, 1024, 1025):
        file.want(f"the first form, byte {place}", f"value[{place}] = {first[place]:#04x};" in text, True)
    for place in (1024, 1025):
        file.want(f"the second form, byte {place}", f"value[{place}] = {block[place]:#04x};" in text, True)


def parts_of(desc):
    return [number for part in desc.parts[:desc.count] for number in (part.a, part.b)]


def descriptions(file):
    file.rows("DESCRIPTIONS", lambda row: plain(row[0]),
              lambda row: standards.packed([0] * 4 + standards.description(row[1].prot_a, row[1].prot_b, row[1].count, *parts_of(row[1]))))
    buffer, spans = file["BUFFER"], file["IN_BUFFER"]
    streams = [(buffer[at:at + length], part_a) for at, length, part_a in zip(spans.at, spans.len, (1, 0, 3, 2))]
    places = list(range(len(buffer)))
    of_places = [(bytes(places[at:at + length]), part_a) for at, length, part_a in zip(spans.at, spans.len, (1, 0, 3, 2))]
    file.are(OF_BUFFER=standards.multiplex(streams), PLACES=standards.multiplex(of_places),
             ASSEMBLED=standards.multiplex([(file["SIDE_BY_SIDE"][:3], 2), (file["SIDE_BY_SIDE"][3:], 1)]) + b"\xaa\xaa")


def entities(file):
    for name in ("LABEL", "SEVERAL_SAID", "LISTS_SAID", "FOUR_STREAMS_SAID", "SERVICES_SAID"):
        said = b"".join(standards.entity(version, numbers[0], numbers[1:], data) for version, numbers, data in file.source.constant(name))
        of = {"LABEL": "RADIO"}.get(name, name.removesuffix("_SAID"))
        file.want(of, file[of], said)


def fast_access(file):
    file.rows("FACS", lambda row: plain(row[0]), lambda row: standards.fac(row[1], row[2]))


def frames(file):
    items = {b"info": (b"abc", None), b"Abcd": (b"\xff\xff", 12), b"tist": (bytes(range(8)), None), b"str3": (b"", None),
             b"str2": (b"", None), b"str1": (b"", None)}
    other = {name: standards.tag(name, value, bits) for name, (value, bits) in items.items()}
    another = [standards.tag(b"str0", b"UUUU"), standards.tag(b"sdc_", TRIAL_BLOCK), other[b"info"], standards.tag(b"robm", b"\1"), other[b"Abcd"],
               standards.tag(b"sdci", b"\1\0\0\4"), other[b"tist"], standards.tag(b"fac_", trial_fac(3)), other[b"str3"], other[b"str2"], other[b"str1"],
               standards.tag(b"dlfc", bytes(4)), standards.tag(b"*ptr", b"DMDI\0\1\0\2"), bytes([1, 2, 3, 4, 5])]
    file.are(FRAME=SECOND_FRAME, FIRST=FIRST_FRAME, ANOTHER=b"".join(another))
    file.want("WRONG_CRC", file["WRONG_CRC"].computed, trial_fac(1)[8])
    changed = bytearray(FIRST_FRAME[74:86])
    file.want("WRONG_BLOCK_CRC, computed", file["WRONG_BLOCK_CRC"].computed, standards.crc16(TRIAL_BLOCK[:-2]))
    changed[10] ^= 1
    file.want("WRONG_BLOCK_CRC, stands", file["WRONG_BLOCK_CRC"].stands, int.from_bytes(changed, "big") >> 4 & 0xffff)


def packets(file):
    file.are(EMPTY=standards.af(0, b""), WRITTEN=standards.af(0x1234, b"123456789") + b"\xee")
    checked = [(data, seq, payload, minor) for data, seq, counts, minor, payload in file["PACKETS"] if counts]
    for data, seq, payload, minor in checked:
        file.want(f"PACKETS, {seq:#x}", plain(data), standards.af(seq, plain(payload), True, minor))
    for data, fault in file["FAULTS"]:
        data = plain(data)
        if fault.word in ("Version", "Kind") and len(data) > 12:
            file.want(f"FAULTS, {fault}", data[-2:], standards.crc16(data[:-2]).to_bytes(2, "big"))
        if fault.word == "Crc":
            file.want(f"FAULTS, {fault}", fault.computed, standards.crc16(data[:-2]))


def tag_items(file):
    file.are(FRAME=SECOND_FRAME)
    file.want("ITEMS", b"".join(standards.tag(plain(item.name), plain(item.value), item.bits) for item in file["ITEMS"]), SECOND_FRAME)
    file.want("ITEMS, their places", [SECOND_FRAME[item.at - 8:item.at - 4] for item in file["ITEMS"]], [plain(item.name) for item in file["ITEMS"]])


# ---- test_data

UNIT = bytes([1, 2, 3, 4, 5])


def data_packets(file):
    hi = standards.data_packet(1, 1, 2, 0, b"Hi", 4)
    file.are(HI=hi, ONE_TO_FOUR=standards.data_packet(1, 0, 2, 1, UNIT[:4], 4), FIVE=standards.data_packet(0, 1, 2, 2, UNIT[4:], 4))
    filler = standards.checked(b"*\0www")
    file.want("PACKETS, the last", plain(file["PACKETS"][3][0]), filler)
    for data, fault in file["FAULTS"]:
        if fault.word == "Crc":
            file.want(f"FAULTS, {fault}", fault.computed, standards.crc16(plain(data)[:-2]))
        if fault.word == "Useful":
            file.want(f"FAULTS, {fault}", plain(data), standards.checked(plain(data)[:-2]))


def data_joining(file):
    file.are(UNIT=UNIT, HI_AGAIN=standards.data_packet(1, 1, 2, 2, b"Hi", 4), OTHER=standards.data_packet(1, 1, 1, 0, b"Hi", 4),
             FILLER=standards.checked(b"*\0www"), FIVE_BEHIND=standards.data_packet(0, 1, 2, 3, UNIT[4:], 4), EMPTY=standards.data_packet(1, 1, 2, 0, b"", 4))
    file.want("WRONG_IS", file["WRONG_IS"].computed, standards.crc16(file["WRONG"][:-2]))


def data_texts(file):
    file.are(HI=standards.text_pieces("Hi", 0), LONGER=standards.text_pieces("Radio Nord 12 Uhr", 1))
    file.want("START, HEAD, END", [file["START"], file["HEAD"], file["END"]], standards.text_pieces("Hi", 0))


# ---- test_code


def elements(file):
    file.rows("PRODUCTS", lambda row: row[2], lambda row: standards.times(row[0], row[1]))
    file.rows("INVERSES", lambda row: row[1], lambda row: standards.inverse(row[0]))
    file.rows("POWERS", lambda row: row[1], lambda row: standards.power(row[0]))


def chunk_of(row):
    return bytes((row.first + row.step * i) % 256 for i in range(row.length))


def words(file):
    file.rows("CODED", lambda row: plain(row.parity), lambda row: standards.parity(chunk_of(row)))
    word = bytes(range(1, 208)) + bytes(48)
    file.are(AT_ROOTS=bytes(standards.value_at(word, standards.power(i)) for i in range(1, 49)))


def code_of(code):
    return (code.k, code.z) if code else None


def shapes(file):
    file.rows("CASES", lambda row: (row[3], row[4], code_of(row[5]), row[6]), lambda row: standards.shape(*row[:3]))
    file.rows("OTHERS", lambda row: row[3], lambda row: row[0] * row[1] // (row[2].k + 48) if row[2] else 0)


def packet_of(length):
    return bytes((3 + 7 * i) % 256 for i in range(length))


def fragments_written(file):
    for name, length in (("PARITY_OF_12", 12), ("PARITY_OF_209", 209)):
        _, _, code, chunks = standards.shape(length, 5, 1400)
        file.want(name, file[name], b"".join(standards.parities(packet_of(length), code[0], chunks)))
    file.rows("FRAGMENTS_OF_12", lambda row: plain(row[1]), lambda row: standards.fragment(packet_of(12), 5, 1400, 0x1234, row[0]))

    def written(row):
        data = standards.fragment(packet_of(row[0]), row[1], 1400, row[2], row[3])
        return len(data), standards.crc16(data)

    file.rows("DATAGRAMS", lambda row: row[4:], written)
    for name, length, losses, sequence, index in (("HEAD_OF_110", 110, 2, 0, 0), ("HEAD_OF_90", 90, 2, 2, 8), ("HEAD_OF_1387", 1387, 0, 258, 1)):
        file.want(name, file[name], standards.fragment(packet_of(length), losses, 1400, sequence, index)[:len(file[name])])


def fragments_read(file):
    for head, length, (sequence, index, count), code, addresses in file["FRAGMENTS"]:
        pair = (addresses.source, addresses.dest) if addresses else None
        file.want(f"FRAGMENTS, {sequence:#x}", plain(head), standards.fragment_head(sequence, index, count, length, code_of(code), pair))
    for table in ("FAULTS", "FIRST_FAULTS"):
        for head, _, fault in file[table]:
            head = plain(head)
            if fault.word not in ("Sync", "HeadCut"):
                file.want(f"{table}, {head!r}", standards.checked(head[:-2]) == head, fault.word != "HeadCrc")


# ---- test_collector, test_schedule, test_gated_links


def collected_datagrams(file):
    file.are(EMPTY=standards.af(0, b""), OTHER_CODE=standards.fragment_head(0, 1, 10, 16, (109, 0)) + bytes(16),
             OF_PACKET_1=standards.fragment_head(1, 7, 9, 16, (89, 0)) + bytes(16))
    file.want("WRONG_CHECK", file["WRONG_CHECK"].holds[0].computed, standards.crc16(file["BROKEN"][:-2]))


def piece(index, count, data, sequence=1):
    return standards.fragment_head(sequence, index, count, len(data)) + data


def without_code(file):
    file.are(FIRST=piece(0, 3, b"Radio"), SECOND=piece(1, 3, b" Nord"), LAST=piece(2, 3, b" 12"), SHORT_FIRST=piece(0, 3, b"Radi"),
             SHORTEST_FIRST=piece(0, 3, b"Ra"), SHORT_SECOND=piece(1, 3, b" Nor"), LONGER_LAST=piece(2, 3, b"abcd"),
             EQUAL_LAST=piece(2, 3, b"abcde"), LONGEST_LAST=piece(2, 3, b"abcdef"), OF_FOUR=piece(3, 4, b"abc"), SINGLE=piece(0, 1, b"", 5))
    for k in range(4):
        file.want(f"EMPTY_{k}", file[f"EMPTY_{k}"], piece(k, 4, b"", 0))


def feeds(file):
    naming = trial_frame(1, trial_fac(2, 1))
    file.are(NAMING=standards.af(1, naming), SECOND=standards.af(1, SECOND_FRAME), FIRST=standards.af(0, FIRST_FRAME), NO_ITEMS=standards.af(0, b""))


def gated_packets(file):
    payloads = enumerate([FIRST_FRAME, SECOND_FRAME, THIRD_FRAME])
    file.are(PACKETS=[standards.af(number, payload) for number, payload in payloads])


def schedule_frames(file):
    for table in ("SPREAD_BLOCKS", "CLOCK_BLOCKS"):
        for frame, block in file[table]:
            front = standards.bits_of(plain(block))[:-4]
            computed = standards.check([0] * 4 + front[:-16], standards.CHECK_16)
            file.want(f"{table}, {frame}", int("".join(map(str, front[-16:])), 2), computed)
    file.rows("FACS", lambda row: row[1][8], lambda row: standards.crc8(plain(row[1])[:8]))


FILES = {
    "test_formats/src/check_values.rt": check_values,
    "test_formats/src/blocks_read.rt": blocks_read,
    "test_formats/src/blocks_written.rt": blocks_written,
    "test_formats/src/greatest_blocks.rt": greatest_blocks,
    "test_formats/src/descriptions.rt": descriptions,
    "test_formats/src/entities.rt": entities,
    "test_formats/src/fast_access.rt": fast_access,
    "test_formats/src/frames.rt": frames,
    "test_formats/src/packets.rt": packets,
    "test_formats/src/tag_items.rt": tag_items,
    "test_data/src/packets.rt": data_packets,
    "test_data/src/joining.rt": data_joining,
    "test_data/src/texts.rt": data_texts,
    "test_code/src/elements.rt": elements,
    "test_code/src/words.rt": words,
    "test_code/src/shapes.rt": shapes,
    "test_code/src/fragments_written.rt": fragments_written,
    "test_code/src/fragments_read.rt": fragments_read,
    "test_collector/src/datagrams.rt": collected_datagrams,
    "test_collector/src/without_code.rt": without_code,
    "test_collector/src/feeds.rt": feeds,
    "test_gated_links/src/packets.rt": gated_packets,
    "test_schedule/src/frames.rt": schedule_frames,
}


def main():
    command_line.parser(__doc__).parse_args()
    wrong, count = [], 0
    for name, compare in FILES.items():
        file = File(name)
        compare(file)
        wrong, count = wrong + file.wrong, count + file.count
    for complaint in wrong:
        command_line.complain(complaint)
    print(f"{count} values of {len(FILES)} files are what the standards' words give" if not wrong else f"{len(wrong)} of {count} values differ")
    return 1 if wrong else 0


if __name__ == "__main__":
    sys.exit(main())
