#!/usr/bin/env python3
"""Puts an announcement, a label or another line on the air within seconds, in the schedule that a playout sends now.

    onair.py week.plan "label 0 Storm warning" --for 10m
    onair.py week.plan "raw 6 0 0 8f01" --for 10m --then "raw 6 0 0 8001" --without "label 0"

It asks the playout for the super frame on the air (--state, or where the units keep it), copies the block in force to the first super frame that is
still possible, and puts the line in there, and into each block that begins while it lasts. A label, and a language, take the place of that of the
same service; --without takes lines out meanwhile that begin with these words. Where it ends (--for: s, m or h; without it, never) a
block begins in which all is as it was before. The text is checked, compared with what is on the air, and saved by rename; the playout takes it at once.

A radio keeps a list (freq, when, raw 6, 7, 11 or 13) until another one comes. So what alarms radios has to end with a line that says so:
--then, the same with its switching flags 0, which stands in the block that ends it. Without --for it has no end; it is ended by the same words with
--without in place of it.

It prints from which super frame and moment on the change is on the air, once the playout has taken it; on a busy machine it may be tried again, from a
later one. The status is 3 if it can't be, and then the file is as it was.
"""
import argparse
import contextlib
import glob
import json
import os
import re
import sys
import tempfile
import time

import command_line
import followed
import playlists
import schedules
from schedules import FRAMES

REFUSED = 3
STATES = ("/var/lib/drmcast-playout/*/on-air", "/var/lib/drmcast-live/*/on-air")
# Lines of which a radio keeps what was sent last.
LISTS = re.compile(r"(freq|when|raw 0*(6|7|11|13)) ")
OF_SERVICE = ("label", "language")
UNITS = {"s": 1000, "m": 60_000, "h": 3_600_000}
# What looking and saving take, and how much longer than it takes a verdict is waited for.
SPARE_MILLIS, WAIT_SECONDS = 60, 5.0
# It is tried again where a busy machine took longer.
TIMES = (1, 3, 9)


class Cannot(Exception):
    """Why it can't be done."""


def lasting(word):
    """The milliseconds of 10m, 90s or 2h."""
    found = re.fullmatch(r"([0-9]{1,6})([smh])", word)
    if not found or not int(found[1]):
        raise argparse.ArgumentTypeError(f"{word} is no time as 10m, 90s or 2h")
    return int(found[1]) * UNITS[found[2]]


def entity(word):
    """A line of an entity, as a schedule has it."""
    if not word.split() or word.split()[0] not in schedules.ENTITIES or "\n" in word:
        raise argparse.ArgumentTypeError(f"{word} is no line of an entity: {', '.join(schedules.ENTITIES)}")
    return word


def records(folder):
    """What playouts have noted, newest first."""
    paths = [os.path.join(folder, "on-air")] if folder else [path for pattern in STATES for path in glob.glob(pattern)]
    found = []
    for path in paths:
        try:
            with open(path, encoding="utf-8") as file:
                found.append((os.stat(path).st_mtime, path, json.load(file)))
        except (OSError, ValueError) as fault:
            if folder:
                raise Cannot(f"{path}: {fault}") from None
    return sorted(found, key=lambda each: each[0], reverse=True)


def runs(record):
    """Whether the process is there that noted this."""
    try:
        os.kill(record["process"], 0)
    except ProcessLookupError:
        return False
    except OSError:
        # That of another user.
        pass
    return True


def records_of(options):
    """What the playouts have noted that send this schedule now, with where and when."""
    name = os.path.realpath(options.schedule)
    sent = [each for each in records(options.state) if os.path.realpath(each[2]["path"]) == name]
    if not sent:
        raise Cannot(f"no playout has {options.schedule} on the air" + (f", by {options.state}" if options.state else "; --state names its folder"))
    running = [each for each in sent if runs(each[2])]
    if not running:
        raise Cannot(f"the playout of {options.schedule} doesn't run; it wrote {sent[0][1]} at {playlists.moment(int(sent[0][0]) * 1000)}")
    return running


class Text:
    """A schedule's file, line by line as it stands."""

    def __init__(self, text):
        self.listed = text.split("\n")
        self.schedule = schedules.Schedule(text)
        if self.listed and text.split()[:2] == ["drmplan", "1"]:
            raise Cannot("the text is of version 1, which has no blocks: drmcast check prints it as version 2")

    def lines(self, block):
        """The lines of a block's entities as they stand."""
        return [line.text for line in block.entities]


def same_service(line, other):
    """Whether two lines say the same of one service, so that only one can stand."""
    words, others = line.split()[:2], other.split()[:2]
    return words[0] in OF_SERVICE and len(words) == 2 and words == others


def begins_with(line, words):
    """Whether a line begins with these words."""
    return line.split()[:len(words)] == words


def changed(lines, options):
    """A block's lines while it lasts."""
    without = [word.split() for word in options.without]
    left = [line for line in lines if not any(begins_with(line, words) for words in without)]
    if options.entity is None:
        return left
    return [line for line in left if not same_service(line, options.entity)] + [options.entity]


def ended(lines, options):
    """Those of the block that ends it."""
    return [line for line in lines if not any(same_service(line, then) for then in options.then)] + options.then


def pieces(start, end, config, first, last):
    """The blocks of a configuration with a change from `first` to below `last`, all counted from its start: for each super frame at which a block begins
    its lines, and whether it lasts, ends here, or neither. `end` is the configuration's own end."""
    at = {block.start: block for block in config.blocks}
    begins = sorted({*at, *(each for each in (max(first, 0), last) if each is not None and 0 <= each < end)})
    for begin in begins:
        block = at.get(begin) or config.block_at(begin)
        yield begin, block, begin in at, first <= begin and (last is None or begin < last), begin == last


def edited(text, options, first, last):
    """The text with the change from this super frame of the schedule on, up to another one (None: to its end)."""
    whole = Text(text)
    drop, put = set(), {}
    for place, config in enumerate(whole.schedule.configurations):
        end = whole.schedule.end_of(place) - config.start
        relative = None if last is None else last - config.start
        for begin, block, stands, lasts, ends in pieces(config.start, end, config, first - config.start, relative):
            lines = whole.lines(block)
            if lasts:
                lines = changed(lines, options)
            elif ends:
                lines = ended(lines, options)
            else:
                continue
            if stands:
                drop.update(line.number for line in block.entities)
                put.setdefault(block.number, []).extend(lines)
            else:
                before = config.block_at(begin)
                after = max([before.number, *(line.number for line in before.entities)])
                put.setdefault(after, []).extend([f"block {begin}", *lines])
    found = []
    for number, line in enumerate(whole.listed, 1):
        if number not in drop:
            found.append(line)
        found += put.get(number, [])
    return "\n".join(found)


def judging(record):
    """The milliseconds that it takes to check a change here and there, to ask for its channel, and to compare it up to where it differs."""
    return SPARE_MILLIS + 5 * record["loading"] + record["comparing"] * record["reached"] // 1_000_000


def first_possible(record, now, written, times=1):
    """The first super frame at which a change is on the air for certain: the playout looks, checks and compares it, and starts a server, which may take so
    many times as long as it should. What it has begun to send counts, which it wrote just before a super frame began; and the clock only before it has
    begun."""
    lasts, takes = FRAMES * record["pace"], times * (judging(record) + record["needs"])
    if record["reached"]:
        passed = min(max(0, now - written), lasts)
        return max(record["reached"], record["reached"] - 1 - (-(passed + takes) // lasts))
    return max(0, -((record["begin"] - now - takes) // lasts))


def refuse_fault(complaint, text):
    """Says what is wrong with the changed text, with the line that it has."""
    found = re.search(r"schedule line (\d+): (\S+)", complaint)
    line = text.split("\n")[int(found[1]) - 1] if found else ""
    helps = {"fit": "; --without takes out lines that can be missed meanwhile", "too-long": "; a configuration has at most 64 blocks"}
    raise Cannot(f"with it, {complaint}{f' ({line.strip()})' if line else ''}{helps.get(found[2], '') if found else ''}")


def planned(options, text, found, times):
    """The changed text, from which super frame on it is changed, and up to which."""
    record = found[0][2]
    first = max(first_possible(each, playlists.now(), int(written * 1000), times) for written, _, each in found)
    frames = None if options.lasts is None else -(-options.lasts // (FRAMES * record["pace"]))
    last = None if frames is None or first + frames >= record["super_frames"] else first + frames
    if first >= record["super_frames"]:
        raise Cannot(f"{options.schedule} ends with super frame {record['super_frames']}, before it could be on the air; the next schedule is the place")
    return edited(text, options, first, last), first, last


def save(options, text, before, folder):
    """Saves a text that is right in the place of the one before, by rename; gives the state of the file."""
    path = os.path.realpath(options.schedule)
    with tempfile.NamedTemporaryFile("w", dir=os.path.dirname(path), prefix=".onair-", suffix=".plan", encoding="utf-8", delete=False) as file:
        name = file.name
        file.write(text)
        file.flush()
        os.fsync(file.fileno())
    try:
        status, _, complaint = schedules.checked(options.program, name, folder)
        if status:
            refuse_fault(complaint, text)
        state = os.stat(path)
        os.chmod(name, state.st_mode & 0o777)
        with contextlib.suppress(PermissionError):
            os.chown(name, state.st_uid, state.st_gid)
        if command_line.text(path) != before:
            raise Cannot(f"{options.schedule} was changed meanwhile")
        # What came by rename has changed before it came; the kernel's clock for files takes steps of some milliseconds.
        os.utime(name, ns=(time.time_ns() - 20_000_000,) * 2)
        os.rename(name, path)
    finally:
        with contextlib.suppress(FileNotFoundError):
            os.unlink(name)
    return list(followed.mark(path))


def verdict(path, mark, seconds):
    """What the playout says of the saved file; None if it doesn't say anything in time."""
    until = time.monotonic() + seconds
    while time.monotonic() < until:
        try:
            with open(path, encoding="utf-8") as file:
                record = json.load(file)
        except (OSError, ValueError):
            record = {}
        if record.get("judged") == mark:
            return record
        time.sleep(0.01)
    return None


def arguments_of(words):
    parser = command_line.parser(__doc__)
    parser.add_argument("schedule", metavar="SCHEDULE", type=command_line.file)
    parser.add_argument("entity", metavar="ENTITY", nargs="?", type=entity, help="the line that is put in")
    parser.add_argument("--for", dest="lasts", type=lasting, metavar="TIME", help="how long it lasts, as 10m; without it, to the schedule's end")
    parser.add_argument("--then", type=entity, default=[], action="append", metavar="ENTITY", help="a line that stands in the block behind it")
    parser.add_argument("--without", default=[], action="append", metavar="ENTITY", help="take out lines that begin with these words meanwhile")
    parser.add_argument("--state", metavar="FOLDER", help="the playout's --state (those of the units)")
    parser.add_argument("--program", type=command_line.program, default="drmcast", help="the program (drmcast, by the path)")
    options = parser.parse_intermixed_args(words)
    if options.entity is None and not options.without:
        parser.error("there is neither an ENTITY nor a --without")
    if options.then and options.lasts is None:
        parser.error("--then goes with --for")
    if options.entity is not None and LISTS.match(options.entity + " ") and options.lasts is not None and not options.then:
        parser.error(f"a radio keeps \"{options.entity}\" until another one comes: --then \"..\", the same with its switching flags 0, ends it")
    return options


def said(options, record, first, last):
    """What is said of a change that was taken."""
    def moment(super_frame):
        return playlists.moment(record["begin"] + super_frame * FRAMES * record["pace"])
    until = f" until super frame {last}, {moment(last)}" if last is not None else ", without an end"
    return f"on air from super frame {first} of {options.schedule}, {moment(first)},{until}"


def refusals(options, found, mark):
    """Why the playouts don't take the saved file, each reason by itself; none if all take it."""
    texts = []
    for _, path, record in found:
        judged = verdict(path, mark, WAIT_SECONDS + 2 * judging(record) / 1000)
        if judged is None:
            raise Cannot(f"{options.schedule} is saved, and the playout hasn't said in {path} whether it takes it: its journal tells")
        texts += judged["refused"]
    return texts


def put(options):
    """Puts the change on the air, later where the playout took longer than it should; gives what is said of it."""
    text = before = command_line.text(os.path.realpath(options.schedule))
    for times in TIMES:
        found = records_of(options)
        new, first, last = planned(options, text, found, times)
        mark = save(options, new, before, found[0][2]["folder"])
        before = new
        texts = refusals(options, found, mark)
        if not texts:
            return said(options, found[0][2], first, last)
    save(options, text, before, found[0][2]["folder"])
    raise Cannot("; ".join(texts))


def main():
    options = arguments_of(sys.argv[1:])
    try:
        print(put(options))
        return 0
    except Cannot as fault:
        command_line.complain(fault)
        return REFUSED


if __name__ == "__main__":
    command_line.run(main)
