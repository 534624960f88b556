"""What hostile datagrams cost beside usual ones of their bytes: the table of `hostile.py --costs`."""
import functools
import pathlib
import subprocess
import tempfile
from typing import NamedTuple

import turns
from datagrams import check_value, datagrams
from fragments import PARITY_BYTES, fragment
from speeds import schedule

HALF = 32_768
# As many as make a time that can be told from a start of the program.
USUAL, PACKETS, FRAGMENTS = 20_000, 10, 200
# A whole packet of a capture has so many bytes at the most, and one that a receiver takes.
MOST_PACKET, MOST_RECEIVED = 65_536, 49_152
HEAD_BYTES, CHECK_BYTES, ITEM_BYTES = 10, 2, 8
# So many items have as much text as is written at once, and some less.
FEW_ITEMS = 2_000
# A fragment that suffices has as many bytes as a packet may have chunks of one byte and its parity.
FRAGMENT_BYTES = MOST_RECEIVED // (1 + PARITY_BYTES)
HEAD = (
    "| what | bytes of a datagram | usual before, µs | hostile before, µs | times | usual now, µs | hostile now, µs | times "
    "| such lines in a usual report, µs (bytes) | times both |\n|---|---|---|---|---|---|---|---|---|---|"
)


class Case(NamedTuple):
    """What a row calls it, the words of the command, what comes in each capture before, hostile datagrams, usual ones, and usual
    ones with more report lines, by which the lines' own cost is known."""

    what: str
    words: tuple
    first: list
    hostile: list
    usual: list
    lined: list


def packet(number, payload=b""):
    """An AF packet with this payload."""
    body = b"AF" + len(payload).to_bytes(4, "big") + (number % 65_536).to_bytes(2, "big") + b"\x90T" + payload
    return body + check_value(body)


def items(count, size):
    """A payload of so many bytes: items without bits whose names have the longest text, and one item with the rest."""
    small = b"".join(bytes([0, 1 + i // 255, 0, 1 + i % 255]) + bytes(4) for i in range(count - 1))
    rest = size - len(small) - ITEM_BYTES
    return small + b"rest" + (8 * rest).to_bytes(4, "big") + bytes(rest)


def many_items(words, most):
    """Packets with as many items as they hold, as few as one, and some."""
    size = most - HEAD_BYTES - CHECK_BYTES
    hostile, usual, lined = ([packet(i, items(count, size)) for i in range(PACKETS)] for count in (size // ITEM_BYTES, 1, FEW_ITEMS))
    return Case(f"`{words[0]}` of a packet with {size // ITEM_BYTES:,} items", words, [], hostile, usual, lined)


def far_ahead(words, count):
    """Datagrams of 12 bytes, each with a number as far ahead as may be; usual ones have the next number, or the next but one."""
    hostile = [packet((HALF - 1) * i) for i in range(1, count + 1)]
    usual, lined = ([packet(step * i) for i in range(1, USUAL + 1)] for step in (1, 2))
    return Case(f"`{' '.join(words)}`, {count} datagram{'s' if count > 1 else ''} with a number far ahead", words, [packet(0)], hostile, usual, lined)


def sufficient(number, k):
    """A fragment with k bytes of each chunk of a packet, where a chunk has k bytes and its parity; k divides 48."""
    count, size = 1 + PARITY_BYTES // k, k * (FRAGMENT_BYTES // k)
    return fragment(number, number % count, count, k, bytes((number + 7 * i) % 256 for i in range(size)))


def small_chunks(program, folder, k):
    """Fragments of chunks with k bytes beside those that are served."""
    pathlib.Path(folder, "usual.plan").write_text(schedule("pft 2 1400", 100), encoding="ascii")
    served = subprocess.run([program, "serve", "usual.plan"], cwd=folder, stdout=subprocess.PIPE, check=True).stdout
    usual = [part for part, _, _ in datagrams(served)]
    words = ("receive", "--first", "0")
    what = f"`receive` of one fragment with {'one byte' if k == 1 else f'{k} bytes'} a chunk"
    return Case(what, words, [], [sufficient(i, k) for i in range(FRAGMENTS)], usual, [])


def cases(program, folder):
    receive = ("receive", "--first", "0")
    for words in (receive, ("convert", "plain", "--first", "0")):
        for count in (1, 60):
            yield far_ahead(words, count)
    yield many_items(("show",), MOST_PACKET)
    yield many_items(receive, MOST_RECEIVED)
    for k in (1, 2, 8):
        yield small_chunks(program, folder, k)


class Cost(NamedTuple):
    """In seconds: what one usual datagram of the hostile one's bytes costs, the hostile one, and as many bytes of report lines as
    it has more, where they come in a usual report."""

    usual: float
    hostile: float
    lines: float
    report: float


def report_bytes(words, folder, given):
    """How many bytes of report lines the command writes."""
    with tempfile.NamedTemporaryFile() as out, tempfile.NamedTemporaryFile() as faults:
        turns.used(words, folder, given, out.name, faults.name)
        sizes = [pathlib.Path(each.name).stat().st_size for each in (out, faults)]
    return sizes[words[1] == "convert"]


def cost(case, times, reports):
    """What is left of the times and of the reports without what each capture has."""
    size = sum(map(len, case.hostile)) / len(case.hostile)
    first_time, first_report = times["first"], reports["first"]

    def of_one(kind, found, first):
        held = getattr(case, kind)
        return (found[kind] - first) / sum(map(len, held)) * size if held else 0.0

    usual, hostile, lined = (of_one(kind, times, first_time) for kind in ("usual", "hostile", "lined"))
    usual_report, report, lined_report = (of_one(kind, reports, first_report) for kind in ("usual", "hostile", "lined"))
    a_byte = max(0.0, lined - usual) / (lined_report - usual_report) if lined_report > usual_report else 0.0
    more = max(0.0, report - usual_report) if case.lined else 0.0
    return Cost(usual, hostile, more * a_byte, more)


def measured(case, programs, folder, rounds):
    """What a case costs in each of the programs, which run by turns."""
    kinds = [kind for kind in ("first", "usual", "hostile", "lined") if kind == "first" or getattr(case, kind)]
    for kind in kinds:
        extra = [] if kind == "first" else getattr(case, kind)
        pathlib.Path(folder, kind).write_bytes(b"".join(case.first + extra))
    runs = [(kind, place) for kind in kinds for place in range(len(programs))]
    least = turns.least([functools.partial(turns.used, [programs[place], *case.words], folder, kind) for kind, place in runs], rounds)
    times = dict(zip(runs, least))
    reports = {kind: report_bytes([programs[-1], *case.words], folder, kind) for kind in kinds}
    return [cost(case, {kind: times[kind, place] for kind in kinds}, reports) for place in range(len(programs))]


def row(case, costs):
    """Prints a row: both programs, and the lines of the one now."""
    cells = [case.what, f"{sum(map(len, case.hostile)) / len(case.hostile):.0f}"]
    for each in costs if len(costs) > 1 else [None, *costs]:
        cells += [f"{each.usual * 1e6:.2f}", f"{each.hostile * 1e6:.1f}", f"{each.hostile / each.usual:.1f}"] if each else [""] * 3
    now = costs[-1]
    # The lines aren't taken from the cost: what is left would be the difference of two great numbers.
    cells += [f"{now.lines * 1e6:.1f} ({now.report:.0f})", f"{now.hostile / (now.usual + now.lines):.2f}"]
    print("| " + " | ".join(cells) + " |", flush=True)


def table(program, before, rounds):
    """Prints what each case costs."""
    programs = [before, program] if before else [program]
    surroundings = turns.Surroundings()
    print(HEAD)
    with tempfile.TemporaryDirectory() as folder:
        for case in cases(program, folder):
            row(case, measured(case, programs, folder, rounds))
    print(f"\nProcessor time of one datagram, the least of {rounds}, by turns. {surroundings.said()}")
