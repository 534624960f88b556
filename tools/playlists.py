"""A list of schedules, each with the moment when it begins: what `playout.py` sends, and `interleave.py` takes sizes from."""
import collections
import datetime
import functools
import re
import time

import fitting
import schedules

Entry = collections.namedtuple("Entry", "line begin name number count super_frames text")

BEGIN = re.compile(r"2\d{3}-\d\d-\d\dT\d\d:\d\d:\d\d(\.\d{1,3})?Z")
# The schedules of a list are looked at again with each change of one of them.
PARSED = 256
FIRST = re.compile(r"^first (\d+) (\d+)\nlength (\d+)$", re.MULTILINE)
FRAMES = schedules.FRAMES
NUMBERS, COUNTS = 1 << 16, 1 << 32
WRONG_LIST = 3
# The Modified Julian Date of the first day of 1970.
MJD_OF_1970, DAY_MILLIS, HOUR_MILLIS, MINUTE_MILLIS = 40_587, 86_400_000, 3_600_000, 60_000


@functools.lru_cache(maxsize=PARSED)
def parsed(text):
    """What is in a text."""
    return schedules.Schedule(text)


def millis(word):
    """The milliseconds since 1970 of a moment."""
    if not word.isascii() or not BEGIN.fullmatch(word):
        raise ValueError(f"{word} is no moment as 2026-12-24T18:00:00Z")
    at = datetime.datetime.fromisoformat(word[:19]).replace(tzinfo=datetime.timezone.utc)
    return round(at.timestamp()) * 1000 + int(word[20:-1].ljust(3, "0") if len(word) > 20 else 0)


def moment(at):
    """A moment as the list has it."""
    whole = datetime.datetime.fromtimestamp(at // 1000, datetime.timezone.utc).strftime("%Y-%m-%dT%H:%M:%S")
    return f"{whole}.{at % 1000:03}Z" if at % 1000 else f"{whole}Z"


def now():
    return time.time_ns() // 1_000_000


class Wrong(Exception):
    """What is wrong with a list, each fault by itself; `status` is that of the script."""

    def __init__(self, texts, status=WRONG_LIST):
        super().__init__("\n".join(texts))
        self.texts, self.status = texts, status


def named(path):
    """The lines of a list that say something: the number of each, its moment and its file as they are written."""
    try:
        with open(path, encoding="utf-8") as file:
            text = file.read()
    except UnicodeDecodeError as fault:
        raise Wrong([str(fault)]) from None
    for number, line in enumerate(text.split("\n"), 1):
        if line.strip() and not line.lstrip().startswith("#"):
            begin, _, name = line.strip().partition(" ")
            yield number, begin, name.strip()


class Checks:
    """What `drmcast` says of a schedule's file."""

    def __init__(self, program):
        self.program = program

    def schedule(self, name):
        """What `drmcast check` says: its status, the canonical text, and its complaint."""
        return schedules.checked(self.program, name)

    def unfit(self, name, text):
        """What doesn't fit its channel."""
        return fitting.unfit(self.program, name, text)


def entry(checks, number, begin, name):
    """The schedule that a line names, as `drmcast check` reads it."""
    if not name:
        raise Wrong([f"line {number} isn't a moment and a file: {begin[:60]}"])
    try:
        at = millis(begin)
    except ValueError as fault:
        raise Wrong([f"line {number}: {fault}"]) from None
    status, text, complaint = checks.schedule(name)
    if status:
        raise Wrong([f"line {number}: {name}: {'; '.join(complaint.splitlines())}"], status)
    found = FIRST.search(text)
    if found is None:
        raise Wrong([f"line {number}: {name}: {checks.program} check prints no schedule"])
    return Entry(number, at, name, *map(int, found.groups()), text)


def following(one, pace):
    """When the schedule behind this one begins, and its `first` line."""
    frames = FRAMES * one.super_frames
    return one.begin + frames * pace, f"first {(one.number + frames) % NUMBERS} {(one.count + frames) % COUNTS}"


def faults(entries, pace):
    """What is wrong between each schedule and the one before it."""
    for one, other in zip(entries, entries[1:]):
        end, first = following(one, pace)
        if other.begin != end:
            apart = abs(other.begin - end) / 1000
            what = "a gap" if other.begin > end else "an overlap"
            yield f"line {other.line}: {what} of {apart:g} s: {one.name} ends at {moment(end)}, and {other.name} begins at {moment(other.begin)}"
        if f"first {other.number} {other.count}" != first:
            yield f"line {other.line}: {other.name} has the line \"first {other.number} {other.count}\"; to go on from {one.name} it would be \"{first}\""


def streams_of(live):
    """The numbers of the streams in a list as 0 or 0,1; what isn't one says `drmcast` itself."""
    return [int(word) for word in live.split(",") if word.isascii() and word.isdigit()] if live else []


def faults_of_live(one, live):
    """The live streams that no configuration of a schedule has: their bytes would never be read."""
    for stream in streams_of(live):
        if not parsed(one.text).has(stream):
            yield f"line {one.line}: {one.name} has no stream {stream}, which --live names"


def changes_of_live(entries, live):
    """Where a live stream changes its size, which an encoder can't know."""
    for stream in streams_of(live):
        found = [(one.line, *size) for one in entries for size in schedules.sizes([(one.name, parsed(one.text))], stream)]
        for (_, before, where_before), (line, size, where) in zip(found, found[1:]):
            if size != before:
                yield f"line {line}: stream {stream} has {where}, and {where_before}; what feeds it has to change with it"


def warnings_of_clocks(one, pace):
    """Where the time in the SDC isn't the moment at which it is sent."""
    for place, config in enumerate(parsed(one.text).configurations, 1):
        if config.clock:
            mjd, hours, minutes = map(int, config.clock)
            said = (mjd - MJD_OF_1970) * DAY_MILLIS + hours * HOUR_MILLIS + minutes * MINUTE_MILLIS
            begins = one.begin + FRAMES * config.start * pace
            if said != begins // MINUTE_MILLIS * MINUTE_MILLIS:
                yield (f"line {one.line}: the clock line of configuration {place} of {one.name} says {moment(said)[:16]}, and it begins on air at {moment(begins)}; "
                       f"that would be \"clock {begins // DAY_MILLIS + MJD_OF_1970} {begins // HOUR_MILLIS % 24} {begins // MINUTE_MILLIS % 60}\"")


def faults_of_channels(one, checks):
    """What no modulator can send of a schedule."""
    for text in checks.unfit(one.name, one.text):
        yield f"line {one.line}: {one.name}: {text}"


def read(path, checks, pace, live=None, interleaved=False, fits=False):
    """The schedules of a list, and what is to be looked at though it is no fault; raises what is wrong. What `interleave.py` feeds has one
    size of each stream, so a change of it is a fault then; and with `fits` so is what a channel doesn't carry."""
    entries, found, unfit, status = [], [], [], 0
    try:
        listed = list(named(path))
    except Wrong as fault:
        listed, found = [], fault.texts
    for number, begin, name in listed:
        try:
            entries.append(entry(checks, number, begin, name))
            found += faults_of_live(entries[-1], live)
            unfit += faults_of_channels(entries[-1], checks)
        except Wrong as fault:
            found += fault.texts
            status = status or fault.status
    changes = list(changes_of_live(entries, live))
    if not found:
        found = list(faults(entries, pace)) + (changes if interleaved else []) + (unfit if fits else []) if entries else ["there is no schedule in it"]
    if found:
        raise Wrong([f"{path} {text}" for text in found], status or WRONG_LIST)
    warnings = [text for one in entries for text in warnings_of_clocks(one, pace)] + changes + unfit
    return entries, [f"{path} {text}" for text in warnings]
