"""Looks for the fragments that cost a receiver most beside usual datagrams of their bytes: what `hostile.py --search` does."""
import functools
import itertools
import pathlib
import random
import subprocess
import tempfile
from typing import NamedTuple

import turns
from costs import MOST_RECEIVED
from datagrams import datagrams
from fragments import LENGTH_BITS, PARITY_BYTES, fragment, places_enough
from speeds import schedule
from standards import parity

MOST_COUNT, MOST_CHUNK = 4096, 207
# A usual datagram's fragments come from packets like these, so many of them.
USUAL_FRAMES = 100
# So many bytes of datagrams are tried at once, and at least so many packets: enough to be told from a start of the program.
BYTES, PACKETS = 200_000, 4
# Each candidate runs so often; the least counts. Those that are kept run once more, more often.
TRIES, LAST_TRIES = 2, 9
KEPT = 10
HEAD = "| bytes a chunk | fragments of a packet, by turns | bytes of a fragment | which come | how many | µs a datagram | usual ones of its bytes |\n|---|---|---|---|---|---|---|"


class Shape(NamedTuple):
    """Fragments of packets with a code. A chunk has `chunk` bytes before its parity; one packet after another has the next one of
    `counts` fragments, of `size` bytes each. What comes of each is runs of `run` neighbours, each run `gap` further on than the one
    before, from fragment `first` on: as many as are enough."""

    chunk: int
    counts: tuple
    size: int
    first: int
    run: int
    gap: int


# What was known to be dear: few bytes a chunk over many fragments, fragments shorter than their chunks are many, lengths by turns.
KNOWN = (
    Shape(1, (48,), 1003, 0, 1, 1), Shape(2, (25,), 1966, 0, 1, 1), Shape(8, (7,), 7021, 0, 1, 1),
    Shape(2, (100,), 491, 0, 2, 50), Shape(207, (4096,), 12, 0, 1, 2),
    Shape(2, (4096,), 12, 0, 1, 1), Shape(207, (16, 17, 18), 300, 0, 1, 2),
)


def order(shape, count):
    """The numbers of a packet's fragments, in the order in which they would come."""
    found = dict.fromkeys((shape.first + shape.gap * (i // shape.run) + i % shape.run) % count for i in range(count))
    return [*found, *(index for index in range(count) if index not in found)]


def enough(shape, count):
    """The numbers of the first fragments that are enough to recover the packet."""
    come = order(shape, count)
    return come[:places_enough(shape.chunk, count, shape.size, come)]


@functools.lru_cache(maxsize=None)
def code_word(chunk):
    """So many bytes at random, and their parity."""
    message = random.Random(chunk).randbytes(chunk)
    return message + parity(message)


@functools.lru_cache(maxsize=64)
def packet(shape, count):
    """The number and the payload of each fragment that comes of a packet, all chunks of which are one code word."""
    length = shape.chunk + PARITY_BYTES
    chunks = count * shape.size // length
    coded = (code_word(shape.chunk) * chunks).ljust(count * shape.size, b"\0")
    return [(index, coded[index::count]) for index in enough(shape, count)]


def is_taken(shape):
    """Whether a receiver takes such fragments: it refuses packets that are too long, and those without a chunk; a length has 14 bits."""
    return all(
        shape.chunk + PARITY_BYTES <= count * shape.size <= MOST_RECEIVED and 1 <= count <= MOST_COUNT for count in shape.counts
    ) and 1 <= shape.chunk <= MOST_CHUNK and shape.size <= LENGTH_BITS


def capture(shape):
    """Datagrams of such packets, with the numbers from 0 on, and how many datagrams there are."""
    found, size = [], 0
    for number, count in enumerate(itertools.cycle(shape.counts)):
        if size >= BYTES and number >= PACKETS:
            return found
        of_one = [fragment(number, index, count, shape.chunk, payload) for index, payload in packet(shape, count)]
        found += of_one
        size += sum(map(len, of_one))


def drawn(draw):
    """A shape at random."""
    while True:
        counts = tuple(draw.choice((draw.randint(2, 60), draw.randint(2, 400), draw.randint(2, MOST_COUNT))) for _ in range(draw.choice((1, 1, 2, 3))))
        most = MOST_RECEIVED // max(counts)
        size = most if draw.random() < 0.5 else draw.randint(1, most)
        chunk = draw.choice((draw.randint(1, 12), draw.randint(1, 48), draw.randint(1, MOST_CHUNK)))
        shape = Shape(chunk, counts, size, draw.randrange(min(counts)), draw.choice((1, 1, 2, 3, 8)), draw.randint(1, max(counts)))
        if is_taken(shape):
            return shape


def varied(draw, shape):
    """A shape near this one."""
    while True:
        new = drawn(draw)
        field = draw.choice(Shape._fields)
        value = getattr(new, field)
        if field in ("chunk", "size", "run", "gap") and draw.random() < 0.5:
            value = max(1, getattr(shape, field) + draw.choice((-2, -1, 1, 2)))
        found = shape._replace(**{field: value})
        if field == "counts":
            found = found._replace(size=min(shape.size, MOST_RECEIVED // max(value)))
        if is_taken(found):
            return found


class Measure:
    """What datagrams cost in a program, in processor time, beside usual ones of their bytes."""

    def __init__(self, program, folder):
        self.words, self.folder = [program, "receive", "--first", "0"], folder
        plan = pathlib.Path(folder, "usual.plan")
        plan.write_text(schedule("pft 2 1400", USUAL_FRAMES), encoding="ascii")
        served = subprocess.run([program, "serve", plan], stdout=subprocess.PIPE, check=True).stdout
        usual = [part for part, _, _ in datagrams(served)]
        self.start = self.least([], LAST_TRIES)
        self.usual = (self.least(usual, LAST_TRIES) - self.start) / sum(map(len, usual))

    def least(self, parts, tries):
        pathlib.Path(self.folder, "given").write_bytes(b"".join(parts))
        return turns.least([lambda: turns.used(self.words, self.folder, "given")], tries)[0]

    def of(self, shape, tries):
        """How many usual datagrams of its bytes one of these costs, and the seconds of one."""
        parts = capture(shape)
        took = self.least(parts, tries) - self.start
        return took / sum(map(len, parts)) / self.usual, took / len(parts)


def row(shape, times, seconds):
    come = enough(shape, shape.counts[0])
    shown = ", ".join(map(str, come[:4])) + (", ..." if len(come) > 4 else "")
    size = f"{shape.size:,}"
    cells = [shape.chunk, ", ".join(f"{count:,}" for count in shape.counts), size, shown, f"{len(come):,}", f"{seconds * 1e6:.1f}", f"{times:.1f}"]
    return "| " + " | ".join(map(str, cells)) + " |"


def search(program, seed, tries):
    """Prints the dearest shapes of so many that are tried; the known ones are among them."""
    draw, surroundings, kept, tried = random.Random(seed), turns.Surroundings(), {}, set()
    with tempfile.TemporaryDirectory() as folder:
        measure = Measure(program, folder)
        for number in range(tries):
            known = number < len(KNOWN)
            shape = KNOWN[number] if known else varied(draw, draw.choice(list(kept))) if kept and draw.random() < 0.6 else drawn(draw)
            # Runs and gaps can say the same in several ways.
            sent = (shape.chunk, shape.size, *((count, *enough(shape, count)) for count in shape.counts))
            if sent in tried:
                continue
            tried.add(sent)
            kept[shape] = measure.of(shape, TRIES)[0]
            for cheap in sorted(kept, key=kept.get)[:-KEPT]:
                del kept[cheap]
        found = {shape: measure.of(shape, LAST_TRIES) for shape in kept}
    print(HEAD)
    for shape in sorted(found, key=lambda each: -found[each][0]):
        print(row(shape, *found[shape]))
    print(f"\nThe dearest of {len(tried)} that were tried, by seed {seed}: processor time, the least of {LAST_TRIES} runs. {surroundings.said()}")
