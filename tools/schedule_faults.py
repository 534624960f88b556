"""What is wrong with a line of a schedule that `drmcast check` refused, in numbers: `explain.py` prints it."""
import os

import schedules

MOST_PACKET, MOST_SMALL_PACKET, SMALL_MTU = 32_768, 8_192, 256
# The first frame's packet beside the room and the streams, and of a stream beside its own bytes.
PACKET, PACKET_OF_STREAM = 86, 11
SHOWN = 4


def plural(count, name):
    return f"{count:,} {name}{'' if count == 1 else 's'}"


def said(text, number, reason):
    """What can be said of a reason at a line, sentence by sentence."""
    if reason in BY_TEXT:
        yield from BY_TEXT[reason](list(schedules.lines(text)), number)
    elif reason in BY_SCHEDULE:
        schedule = schedules.Schedule(text)
        for index, config in enumerate(schedule.configurations):
            lines = {config.number, *(each.number for each in config.streams), *(each.number for each in config.blocks)}
            if number in lines:
                yield from BY_SCHEDULE[reason](schedule, index, number)


# Of the lines alone, since a text with such a fault has no meaning.

def of_words(lines, number):
    """The word that is wrong, and how the line is written."""
    words = next((line.words for line in lines if line.number == number), [])
    forms = schedules.forms(words[0]) if words else []
    if not forms:
        yield f"A line begins with one of: {', '.join(schedules.first_words())}."
        return
    if words[0] == "block" and version(lines) == 1:
        yield "The text begins with drmplan 1, which has no blocks. Without its block lines drmcast check prints it as version 2, which has them."
        return
    form = min(forms, key=lambda each: (unlike(each, words), abs(len(each.split(" ")) - len(words))))
    wanted = list(schedules.form_words(form))
    if len(words) > len(wanted) or len(words) < len(wanted) - ("[" in form):
        yield f"{words[0]} has {plural(len(words) - 1, 'word')} behind it here, and {len(wanted) - 1} are wanted."
    else:
        faults = [(given, schedules.fault(word, given)) for word, given in zip(wanted, words)]
        yield from (f"{given[:60]}: {fault}." for given, fault in faults if fault)
    for form in forms:
        written, may_be = schedules.shown(form)
        yield f"It is written: {written}{': ' if may_be else ''}{may_be}."


def version(lines):
    first = lines[0].words if lines else []
    return int(first[1]) if first[:1] == ["drmplan"] and first[1:] in (["1"], ["2"]) else None


def unlike(form, words):
    """How many words of a line aren't those that stand in a form as they are."""
    wanted = list(schedules.form_words(form))
    return sum(not word.name and words[place:place + 1] != [word.kind] for place, word in enumerate(wanted))


def within(lines, number):
    """The lines of the configuration in which a line stands, up to that line; those of one that begins there are its own to the next."""
    before = [place for place, line in enumerate(lines) if line.words[0] == "config" and line.number <= number]
    if not before:
        return []
    rest = lines[before[-1]:]
    ends = [place for place, line in enumerate(rest) if place and line.words[0] == "config"]
    return rest[:ends[0]] if ends else rest


def of_twice(lines, number):
    own = within(lines, number)
    kind = next(line.words[0] for line in own if line.number == number)
    yield f"Line {next(line.number for line in own if line.words[0] == kind)} has it already."


def of_missing(lines, number):
    """What isn't there: in the configuration that begins at this line, or in the whole text."""
    kinds = [line.words[0] for line in lines]
    own = within(lines, number)
    if own and own[0].number == number:
        found = {line.words[0] for line in own}
        wanted = (*schedules.SETTINGS, "service", "stream", *(["block"] if version(lines) == 2 else []))
        absent = [kind for kind in wanted if kind not in found]
    else:
        absent = [kind for kind in (*schedules.FIRST_LINES, "config") if kind not in kinds][:1]
    if absent:
        yield f"There is no {' line, no '.join(absent)} line."


def of_order(lines, number):
    """Which line is wanted there; of a config line, its start."""
    place = next((place for place, line in enumerate(lines) if line.number == number), 0)
    line = lines[place] if lines else None
    if place < len(schedules.FIRST_LINES):
        yield f"Here the line {schedules.FIRST_LINES[place]} is wanted."
    elif line.words[0] == "config":
        starts = [int(each.words[1]) for each in lines if each.words[0] == "config" and each.number <= number]
        length = next(int(each.words[1]) for each in lines if each.words[0] == "length")
        behind = f"the configuration before it starts at {starts[-2]}" if len(starts) > 1 else "the first configuration starts at 0"
        yield f"It starts at super frame {starts[-1]}; {behind}, and the schedule has {plural(length, 'super frame')}."
    elif line.words[0] in schedules.ENTITIES and not any(each.words[0] == "block" for each in within(lines, number) if each.number < number):
        yield "An entity line stands behind a line block 0."


def of_too_long(lines, number):
    """Which limit is passed."""
    line = next((line for line in lines if line.number == number), None)
    kind = line.words[0] if line else "text"
    if kind == "stream" and line.words[3] == "file" and sum(each.words[0] == "stream" and each.number <= number for each in within(lines, number)) <= schedules.MOST[kind]:
        yield f"{size_of(line.words[4])}, and a file may have {schedules.MOST['file']:,} bytes."
    elif kind in schedules.ENTITIES:
        yield f"A block has at most {schedules.MOST['entity']} entity lines."
    else:
        yield {"config": "A schedule has at most {} configurations.", "stream": "A configuration has at most {} streams.", "block": "A configuration has at most {} blocks.",
               "text": "A text has at most {:,} bytes."}[kind].format(schedules.MOST[kind])


def size_of(name):
    """How long a file is."""
    try:
        return f"{name} has {plural(os.stat(name).st_size, 'byte')}"
    except OSError:
        return f"{name} can't be looked at"


BY_TEXT = {"word": of_words, "number": of_words, "range": of_words, "twice": of_twice, "missing": of_missing, "order": of_order, "too-long": of_too_long}


# Of the schedule, each line of which is right.

def of_fit(schedule, index, number):
    """The bytes of what has no room."""
    config = schedule.configurations[index]
    for block in config.blocks:
        taken = needed(config, block)
        if block.number == number and sum(taken.values()) > config.room():
            listed = ", ".join(f"{name} {size}" for name, size in taken.items())
            yield f"The room is {plural(config.room(), 'byte')}, and {sum(taken.values())} are needed: {listed}."
            return
    if index:
        yield from of_announcement(schedule, index)


def needed(config, block):
    """What stands in a block's data field, and how many bytes it takes."""
    taken = {"the streams": config.description()}
    if config.clock:
        taken["the clock"] = schedules.CLOCK
    for line in block.entities:
        taken[f"line {line.number} ({line.words[0]})"] = schedules.entity_size(line)
    return taken


def of_announcement(schedule, index):
    """What an announcement has, and what is free for it."""
    config, old = schedule.configurations[index], schedule.configurations[index - 1]
    parts = {"the streams": config.description(), "the next channel": schedules.NEXT_CHANNEL}
    for kind in ("audio", "app"):
        for line in config.blocks[0].of(kind):
            parts[f"line {line.number} ({kind})"] = schedules.entity_size(line)
    yield f"The announcement has these entities, none of which is cut: {', '.join(f'{name} {size}' for name, size in parts.items())} bytes."
    free = [f"{room} in super frame {at}" for at, room in free_rooms(old, config)]
    yield f"In the blocks before it are free, and are filled in this order: {', '.join(free)}."


def free_rooms(old, config):
    """The super frames of a countdown, and the bytes that the configuration before leaves free in the block of each."""
    for at in range(max(old.start, config.start - config.countdown), config.start):
        since = at - old.start
        taken = needed(old, old.block_at(since))
        if since % schedules.CLOCK_EVERY:
            taken.pop("the clock", None)
        yield at, old.room() - sum(taken.values())


def of_content(schedule, index, number):
    config = schedule.configurations[index]
    stream = next(each for each in config.streams if each.number == number)
    frames = schedules.FRAMES * (schedule.end_of(index) - config.start)
    yield f"The stream takes {plural(stream.size, 'byte')} in each of {plural(frames, 'frame')}, that is {frames * stream.size:,}; {size_of(stream.file)}."


def of_services(schedule, index, number):
    """The services that don't agree with their lines."""
    config = schedule.configurations[index]
    found = list(of_short_ids(config)) if number == config.number else []
    for block in config.blocks:
        if not found and block.number == number:
            found = list(of_block(config, block))
    yield from found[:SHOWN]


def of_short_ids(config):
    if len(config.services) > 4:
        yield f"There are {len(config.services)} services, and a multiplex has at most four."
    shorts = [line.words[2] for line in config.services]
    for short in sorted({int(short) for short in shorts if shorts.count(short) > 1}):
        lines = [str(line.number) for line in config.services if int(line.words[2]) == short]
        yield f"The services of the lines {' and '.join(lines)} have one short id, {short}."


def of_block(config, block):
    kinds = {int(line.words[2]): line.words[5] for line in config.services}
    shorts = {kind: [int(line.words[1]) for line in block.of(kind)] for kind in ("audio", "app", "label", "language")}
    for short, kind in kinds.items():
        count = shorts["audio"].count(short)
        if kind == "audio" and count != 1:
            yield f"The audio service with short id {short} has {plural(count, 'audio line')} in this block."
        if kind == "data" and short not in shorts["app"]:
            yield f"The data service with short id {short} has no app line in this block."
    for line in block.of("audio", "app", "label", "language"):
        kind, short = line.words[0], int(line.words[1])
        if short not in kinds or kind == "audio" and kinds[short] != "audio":
            yield f"Line {line.number}: no {'audio service' if kind == 'audio' else 'service'} has the short id {short}."
        if kind in ("audio", "app") and int(line.words[2]) >= len(config.streams):
            yield f"Line {line.number}: there is no stream {line.words[2]}; the streams are counted from 0, and there are {len(config.streams)}."
    for short in sorted({short for short in shorts["label"] if shorts["label"].count(short) > 1}):
        yield f"The service with short id {short} has more than one label in this block."
    for kind in ("audio", "app"):
        if [line.words for line in block.of(kind)] != [line.words for line in config.blocks[0].of(kind)]:
            yield f"The {kind} lines of this block aren't those of the configuration's first one."


def of_countdown(schedule, index, _):
    config = schedule.configurations[index]
    if index == 0:
        yield f"The countdown is {config.countdown}; nothing stands before the first configuration, so it is 0."
    else:
        before = schedule.configurations[index - 1].start
        yield f"It starts at super frame {config.start}, and is announced from {config.start - config.countdown} on; the configuration before it starts at {before}."


def of_block_numbers(schedule, index, number):
    config = schedule.configurations[index]
    place = next(place for place, block in enumerate(config.blocks) if block.number == number)
    before = f"the block before it has number {config.blocks[place - 1].start}" if place else "it is the first of its configuration"
    yield f"Here is number {config.blocks[place].start}; {before}, and the configuration has {plural(schedule.end_of(index) - config.start, 'super frame')}, counted from 0."


def of_packet(schedule, index, _):
    config = schedule.configurations[index]
    streams = sum(stream.size + PACKET_OF_STREAM for stream in config.streams)
    small = schedule.carry[0] == "pft" and int(schedule.carry[2]) < SMALL_MTU
    yield f"The packet has {PACKET + config.room() + streams:,} bytes: {PACKET}, the room of {config.room()}, and {streams:,} for the streams; it may have {MOST_SMALL_PACKET if small else MOST_PACKET:,}."


BY_SCHEDULE = {"fit": of_fit, "content-short": of_content, "services": of_services, "countdown": of_countdown, "block": of_block_numbers, "packet-size": of_packet}
