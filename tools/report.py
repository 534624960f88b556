#!/usr/bin/env python3
"""Compares the feeds of reports, and draws what was lost.

    report.py compare report.txt              # the feeds of one report of several addresses
    report.py compare nord.txt sued.txt       # or of several reports
    report.py losses report.txt > losses.svg  # frames that are missing or bad over time, one row a feed

Feeds are laid beside each other by the count of their frames (dlfc), so receivers may have started at different packets. Modulators of one
schedule agree in three things, and `compare` says of each feed where it differs from the others:

- of each frame that several give, FAC, SDC block and multiplex are the same bits; else it prints which frame, which piece and which byte;
- a reconfiguration is reported before the same frame by each that gave a frame of its countdown;
- if none misses a frame, all report the same.

Frames that some missed are counted apart from those whose bits differ, and so is what some alone
report after a missed countdown. The status is 0 if all that the feeds share is alike; 1 if bits differ, or a reconfiguration is reported
otherwise, or no item is in all feeds; and else 7, as of a report, if some missed what others have. `-` as a name is standard input; a pipe
is read to its end.
"""
import itertools
import sys

import command_line
import reports

SHOWN = 20
ALIKE, DIFFER, MISSED = 0, 1, 7
# The pieces of a frame's line: the word that has each, and its name.
PIECES = {3: "count", 5: "mode", 7: "FAC", 9: "SDC block", 11: "description", 13: "multiplex"}
BLOCK, IN_BYTES = 9, (7, 9, 11, 13)
# What is counted, in the order in which it is printed.
BITS, OTHERWISE = "frames whose bits differ", "reconfigurations reported otherwise"
LOST, ALONE = "frames that some missed", "switch or resumed of some alone, after a missed countdown"


class Row:
    """A feed under comparison: its name, its place among the counts of frames, and the last count that a frame of it counted down to."""

    def __init__(self, name, report, feed):
        self.name, self.report, self.feed = name, report, feed
        self.begin = 0
        self.announced = None

    def end(self):
        return self.begin + self.feed.items

    def items(self):
        """Each of its items by the common count, as (count, what stands before it, its words)."""
        for place, before, words in self.report.items(self.feed):
            yield self.begin + place, before, words

    def from_count(self, count):
        """Its items from this count on."""
        for at, before, words in self.items():
            if at >= count:
                yield before, words
            self.note(at, words)

    def note(self, at, words):
        """Takes note of the countdown that an item is part of."""
        ahead = reports.frames_ahead(words) if words[0] == "frame" else None
        if ahead is not None:
            self.announced = at + ahead


def in_bytes(text, piece):
    """The bytes of a piece in hexadecimal; the first one of a block is half a byte, its index."""
    begin = 1 if piece == BLOCK else 0
    return [] if text == "-" else [text[:begin]] * begin + [text[k:k + 2] for k in range(begin, len(text), 2)]


def first_difference(frames):
    """The first piece, and its byte, in which these frames differ, and what each has there; None if they are alike."""
    for piece, name in PIECES.items():
        texts = [words[piece] for words in frames]
        if len(set(texts)) > 1:
            break
    else:
        return None
    if piece not in IN_BYTES:
        return name, texts
    for at, there in enumerate(itertools.zip_longest(*[in_bytes(text, piece) for text in texts], fillvalue="none")):
        if len(set(there)) > 1:
            return f"{name}, byte {at}", there


def rows(paths):
    """The feeds of these reports, each with a name to tell it by, laid beside each other by their counts."""
    found = []
    for path in paths:
        report = reports.opened(path)
        found += [Row(feed.name if len(paths) == 1 else f"{path} {feed.name}", report, feed) for feed in report.feeds]
    if not found:
        sys.exit("report.py: there is no feed")
    known = [row.feed.ahead for row in found if row.feed.ahead is not None]
    for row in found:
        if row.feed.ahead is not None:
            half = reports.COUNTS // 2
            row.begin = (row.feed.ahead - known[0] + half) % reports.COUNTS - half
    return found


def shown(count, first):
    """The count of a frame as it is printed, where `first` is the one at 0."""
    return f"dlfc {(count + first) % reports.COUNTS}" if first is not None else f"item {count}"


class Comparison:
    """What feeds have at the items that are in all of them: what differs is printed, up to a limit, and counted."""

    def __init__(self, found):
        self.found = found
        self.first = next((row.feed.ahead for row in found if row.feed.ahead is not None), None)
        self.begin, self.end = max(row.begin for row in found), min(row.end() for row in found)
        self.common = max(0, self.end - self.begin)
        self.counts = dict.fromkeys((BITS, OTHERWISE, LOST, ALONE), 0)

    def run(self):
        """Compares, one item of each feed at a time, and gives the status."""
        if self.common:
            for at, items in zip(range(self.begin, self.end), zip(*[row.from_count(self.begin) for row in self.found])):
                self.frames(at, [words for _, words in items])
                self.reconfigurations(at, [before for before, _ in items])
        self.print_sums()
        if self.counts[BITS] or self.counts[OTHERWISE] or not self.common:
            return DIFFER
        return MISSED if self.counts[LOST] or self.counts[ALONE] else ALIKE

    def frames(self, at, items):
        """The item with this count, of each feed."""
        given = [words for words in items if words[0] == "frame"]
        found = first_difference(given) if given else None
        if found:
            where, there = found
            has = iter(there)
            self.note(BITS, at, where, [next(has) if words[0] == "frame" else words[0] for words in items])
        elif given and len(given) < len(items):
            self.note(LOST, at, "", ["given" if words[0] == "frame" else words[0] for words in items])

    def reconfigurations(self, at, befores):
        """What stands before it. A switch is due in a feed if and only if the last countdown of which it gave a frame was to this item."""
        if any((before == "switch") != (row.announced == at) for row, before in zip(self.found, befores)):
            self.note(OTHERWISE, at, "", [before or "nothing" for before in befores])
        elif len(set(befores)) > 1:
            self.note(ALONE, at, "", [before or "nothing" for before in befores])

    def note(self, what, at, where, there):
        """Counts an item in which feeds differ, and prints what each has there, the first of each kind."""
        self.counts[what] += 1
        if self.counts[what] <= SHOWN:
            print(", ".join([shown(at, self.first), where] if where else [shown(at, self.first)]) + ":")
            print("\n".join(f"  {row.name}: {text}" for row, text in zip(self.found, there)))

    def print_sums(self):
        for row in self.found:
            early, late = row.begin - min(row.begin for row in self.found), max(row.end() for row in self.found) - row.end()
            if early or late:
                print(f"{row.name} lacks {early} items at its beginning and {late} at its end")
        differing = [f"{what}: {count}" for what, count in self.counts.items() if count]
        print(f"{len(self.found)} feeds, {self.common} items in all of them" + ("" if differing or not self.common else ", alike"))
        print("".join(f"{line}\n" for line in differing), end="")


class Picture:
    """Losses over time as a picture: of each feed the share of items in each column that are missing or bad."""

    WIDTH, ROW = 960, 70

    def __init__(self, found):
        self.found = found
        self.begin = min(row.begin for row in found)
        self.most = max(1, max(row.end() for row in found) - self.begin)
        self.columns = min(self.WIDTH, self.most)

    def text(self):
        height = self.ROW * len(self.found) + 40
        parts = [f'<svg xmlns="http://www.w3.org/2000/svg" width="{self.WIDTH + 40}" height="{height}" font-family="sans-serif" font-size="12">',
                 '<rect width="100%" height="100%" fill="white"/>']
        for k, row in enumerate(self.found):
            parts += self.row(row, 20 + self.ROW * (k + 1) - 14)
        parts.append(f'<text x="20" y="{height - 6}">items 0 to {self.most - 1}; red: missing or bad; blue: a reconfiguration</text></svg>')
        return "\n".join(parts)

    def row(self, row, base):
        """The parts of one feed, above this line."""
        lost, held, marks = [0] * self.columns, [0] * self.columns, []
        for place, before, words in row.report.items(row.feed):
            column = (row.begin + place - self.begin) * self.columns // self.most
            held[column] += 1
            lost[column] += words[0] != "frame"
            if before and (not marks or marks[-1] != column):
                marks.append(column)
        name = row.name.replace("&", "&amp;").replace("<", "&lt;")
        yield f'<text x="20" y="{base - self.ROW + 26}">{name}: {sum(lost)} of {sum(held)} items missing or bad</text>'
        yield f'<line x1="20" y1="{base}" x2="{20 + self.WIDTH}" y2="{base}" stroke="#888"/>'
        wide = self.WIDTH / self.columns
        for column, (bad, all_of_it) in enumerate(zip(lost, held)):
            if bad:
                high = max(2, round((self.ROW - 36) * bad / all_of_it))
                yield f'<rect x="{20 + column * wide:.1f}" y="{base - high}" width="{wide:.1f}" height="{high}" fill="#c33"/>'
        for column in marks:
            x = 20 + column * wide
            yield f'<line x1="{x:.1f}" y1="{base}" x2="{x:.1f}" y2="{base - self.ROW + 34}" stroke="#36c"/>'


def main():
    parser = command_line.parser(__doc__)
    parser.add_argument("what", choices=("compare", "losses"))
    parser.add_argument("reports", nargs="+", metavar="REPORT")
    options = parser.parse_args()
    if options.what == "compare":
        return Comparison(rows(options.reports)).run()
    print(Picture(rows(options.reports)).text())
    return 0


if __name__ == "__main__":
    command_line.run(main)
