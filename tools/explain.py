#!/usr/bin/env python3
"""Explains what is wrong with a schedule: which line it is, what the reason means, how such a line is written, and what helps.

    explain.py evening.plan
    explain.py evening.plan --tell                                 # what a schedule says, in words
    explain.py evening.plan --program /opt/drmcast/bin/drmcast

It asks `drmcast check` for the first fault, and where there is none `drmcast capacity` for what the channel doesn't carry. SCHEDULE.md has
the rules. --tell says each configuration as an engineer would read it aloud:
mode, bandwidth, constellations, and of each service its kbit/s, coder and language. The status is that of `drmcast`:
7 where something doesn't fit.
"""
import os
import re
import sys

import command_line
import fitting
import schedule_faults
import schedule_told
import schedules

MEANINGS = {
    "utf8": "The line has bytes that are no UTF-8.",
    "word": "The first word is none that a line begins with, the number of words is wrong, or a word isn't one of those that may stand there.",
    "order": "The line stands in the wrong place, or the configuration starts at the wrong super frame.",
    "number": "A word isn't decimal digits, or isn't as many hexadecimal digits as it should be.",
    "range": "A number is outside its range, or a label, a name, a list or bytes are too long.",
    "twice": "The configuration has this setting already.",
    "missing": "Something that must be there isn't: in a configuration a setting from mode to room, a service, a stream or a block; or one of the first four lines, or the first config line.",
    "too-long": "A limit is passed: 16 configurations, 4 streams, 64 blocks, 64 entity lines of a block, 262,144 bytes of text, 4,194,304 bytes of a file.",
    "countdown": "The countdown isn't 0 for the first configuration, or is 0 for a later one, or reaches back before the start before it.",
    "block": "The first block must be 0. Each later one lies behind the one before it, and before the next configuration starts or the schedule ends.",
    "occupancy": "Modes C and D have the occupancies 3 and 5 alone.",
    "hierarchical": "msc 1 and 2 are hierarchical modulation, which isn't carried.",
    "services": "The services, their audio and app lines and their labels don't agree; in later blocks the audio and app lines are those of the first.",
    "fit": "There is no room in the SDC: for the entities of this block, or at a config line for the announcement of this configuration in the blocks before it.",
    "packet-size": "The first frame's packet gets too long for the way that packets are carried.",
    "content-short": "The file has fewer bytes than the stream takes until the next configuration starts.",
}
HELPS = {
    "word": "A name or a path with a space in it can't be written.",
    "order": "The first lines are drmplan, carry, first and length. In version 2 the lines from mode to clock come before the first block, the entity lines behind it.",
    "number": "Numbers have no sign, no point and no 0x.",
    "missing": "drmcast names the config line of the configuration in which something is missing.",
    "countdown": "A later configuration wants a countdown of 1 to 7 super frames.",
    "fit": "A larger room, shorter labels, fewer entities in the blocks before a start, or a longer countdown.",
    "packet-size": "Shorter streams, or fewer of them.",
    "services": "Each audio service has one audio line with its short id, each data service an app line.",
}


def looks(raw, whole):
    """What the eye doesn't see in a line, and often is the cause."""
    found = []
    if whole.startswith(b"\xef\xbb\xbf"):
        found.append("The file begins with a byte order mark; save it as UTF-8 without one.")
    if whole.startswith((b"\xff\xfe", b"\xfe\xff")):
        found.append("The file is UTF-16; save it as UTF-8.")
    if raw.endswith(b"\r"):
        found.append("The line ends with CR and LF, as on Windows; save it with LF alone (dos2unix does it).")
    if b"\t" in raw:
        found.append("There is a tab in the line; words are separated by spaces alone.")
    if b"\xc2\xa0" in raw:
        found.append("There is a no-break space in the line, which doesn't separate words.")
    try:
        raw.decode("utf-8")
    except UnicodeDecodeError as fault:
        found.append(f"Byte {fault.start + 1} of the line is 0x{raw[fault.start]:02x}; in Latin-1 it would be {raw.decode('latin-1')[fault.start]!r}. Save the file as UTF-8.")
    return found


def explain(path, number, reason):
    """Prints what is wrong in this line."""
    print(f"{path}, line {number}: {reason}")
    with open(path, "rb") as file:
        whole = file.read()
    listed = whole.split(b"\n")
    raw = listed[number - 1] if 1 <= number <= len(listed) else b""
    if raw or 1 <= number < len(listed):
        print(f"  {raw.decode('utf-8', 'backslashreplace')[:200]}")
    else:
        print("  (behind the last line)" if number else "  (the whole text)")
    print(MEANINGS.get(reason, "SCHEDULE.md says what this reason means."))
    said = looks(raw, whole) or list(schedule_faults.said(whole.decode("utf-8", "replace"), number, reason))
    helps = reason in HELPS and (reason != "word" or b" file " in raw)
    for text in said + ([HELPS[reason]] if helps else []):
        print(text)


def unreadable(path):
    """Prints which of the files that a schedule names can't be read, and why."""
    try:
        with open(path, "rb") as file:
            text = file.read().decode("utf-8", "replace")
    except OSError as fault:
        print(command_line.reason(fault))
        return
    for line in schedules.lines(text):
        if line.words[0] == "stream" and line.words[3:4] == ["file"]:
            try:
                with open(line.words[4], "rb") as opened:
                    opened.read(1)
            except OSError as fault:
                print(f"{path}, line {line.number}: {command_line.reason(fault)}")
    print(f"Files are looked for from the folder in which drmcast runs, here {os.getcwd()}.")


def main():
    parser = command_line.parser(__doc__)
    parser.add_argument("schedule", type=command_line.file)
    parser.add_argument("--tell", action="store_true", help="say in words what is in the schedule")
    parser.add_argument("--program", type=command_line.program, default="drmcast", help="the program (drmcast, by the path)")
    options = parser.parse_args()
    status, text, complaint = schedules.checked(options.program, options.schedule)
    found = re.search(r"schedule line (\d+): ([a-z0-9-]+)", complaint)
    if found:
        explain(options.schedule, int(found.group(1)), found.group(2))
    elif status == 4:
        unreadable(options.schedule)
    elif status:
        print(complaint)
    elif options.tell:
        for line in schedule_told.told(schedules.Schedule(text)):
            print(line)
    else:
        unfit = fitting.unfit(options.program, options.schedule, text)
        print(f"{options.schedule} has no fault" + (", and doesn't fit its channel:" if unfit else "."))
        for line in unfit:
            print(line)
        status = fitting.UNFIT if unfit else status
    sys.exit(status)


if __name__ == "__main__":
    command_line.run(main)
