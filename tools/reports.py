"""The lines of a report, as `drmcast receive` and `air` print them: what other scripts here share."""
import re
import shutil
import sys
import tempfile

import command_line

# Each line of a report by its first word.
NUMBER = "[0-9]{1,10}"
LINES = {kind: re.compile(form.replace("N", NUMBER)) for kind, form in {
    "feed": "feed N",
    "switch": "switch N",
    "resumed": "resumed N",
    "frame": "frame N dlfc N mode [A-D] fac [0-9a-f]{18} sdc ([0-9a-f]+|-) mux [0-9a-f]+ msc ([0-9a-f]+|-)",
    "missing": "missing N had N of N",
    "bad": r"bad N \S+ \S+",
    "refused": r"refused N \S+ \S+",
    "end": "end [a-z]+ given N missing N bad N refused N",
}.items()}
ITEMS = ("frame", "missing", "bad")
# The count of frames begins again at 0 behind this many.
COUNTS = 1 << 32

FRAMES_A_SUPER_FRAME = 3


class NoReport(Exception):
    """A line that no report has."""


def frames_ahead(words):
    """How many frames ahead of this one the reconfiguration begins to which its FAC counts down; None if it counts down to none.

    ES 201 980, 6.3: bits 1 and 2 of the FAC say which frame of the super frame it is (0 and 3 are the first), bits 15 to 17 are the
    reconfiguration index.
    """
    fac = int(words[7], 16)
    identity, index = fac >> 69 & 3, fac >> 54 & 7
    return FRAMES_A_SUPER_FRAME * index - identity % 3 if index else None


def parsed(line, number):
    """The words of a line of a report; `number` is the line's, for the complaint."""
    form = LINES.get(line.partition(" ")[0])
    if form is None or not form.fullmatch(line):
        raise NoReport(f"line {number} is no line of a report: {line[:60]!r}")
    return line.split(" ")


class Feed:
    """A feed of a report in a file: where its lines stand, how many items it has, and by how much the count of frames is ahead of places."""

    def __init__(self, name, begin, number):
        self.name, self.begin, self.end, self.number = name, begin, begin, number
        self.items = 0
        self.ahead = None
        self.ended = False

    def note(self, words, number):
        """Takes one of its lines into account."""
        kind = words[0]
        if kind in ITEMS:
            if int(words[1]) != self.items:
                raise NoReport(f"line {number} has item {words[1]}, and item {self.items} is next")
            self.items += 1
        if kind == "frame" and self.ahead is None:
            self.ahead = (int(words[3]) - int(words[1])) % COUNTS
        self.ended = kind == "end"


class Report:
    """A report in a file, of which one line is held at a time. Standard input, `-`, or a pipe is kept in a file of its own until the end."""

    def __init__(self, path):
        self.path = path
        self.file = sys.stdin.buffer if path == "-" else open(path, "rb")
        if path == "-" or not self.file.seekable():
            kept = tempfile.TemporaryFile()
            shutil.copyfileobj(self.file, kept)
            self.file = kept
        self.feeds = list(self.found())

    def found(self):
        """Its feeds, in their order. A line that no report has is a complaint."""
        self.file.seek(0)
        feed, at = None, 0
        for number, raw in enumerate(self.file, 1):
            if not raw.endswith(b"\n"):
                command_line.complain(f"{self.path}: the last line is cut, and left out")
                break
            words = parsed(text_of(raw, number), number)
            if words[0] == "feed":
                if feed is not None:
                    yield feed
                feed = Feed(f"feed {words[1]}", at, number)
            elif feed is None:
                raise NoReport(f"line {number} stands before the first line of a feed")
            elif feed.ended:
                raise NoReport(f"line {number} stands behind the last line of its feed")
            else:
                feed.note(words, number)
            at += len(raw)
            feed.end = at
        if feed is not None:
            yield feed

    def items(self, feed):
        """Each item of a feed as its place, what stands before it (`switch`, `resumed` or nothing) and its words."""
        at, number, before = feed.begin, feed.number, ""
        while at < feed.end:
            self.file.seek(at)
            raw = self.file.readline()
            words = parsed(text_of(raw, number), number)
            at, number = at + len(raw), number + 1
            if words[0] in ITEMS:
                yield int(words[1]), before, words
                before = ""
            elif words[0] in ("switch", "resumed"):
                before = words[0]


def text_of(raw, number):
    """A line as text, without its end."""
    try:
        return raw.decode("ascii").removesuffix("\n")
    except UnicodeDecodeError:
        raise NoReport(f"line {number} is no line of a report") from None


def opened(path):
    """The report in a file, or of standard input where it is `-`. A plain complaint ends the script."""
    try:
        return Report(path)
    except NoReport as fault:
        sys.exit(f"{path}: {fault}")
