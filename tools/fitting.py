"""What `drmcast capacity` says that doesn't fit the channels of a schedule, and what would fit in its place."""
import re
import subprocess

import command_line
import schedules

UNFIT = 7
CONFIG = re.compile(r"config (\d+) cells (\d+) part-a (\d+) cells (-|\d+) part-b (\d+) of (-|\d+) sdc (\d+) of (\d+) rate \d+")
# By constellation and protection level: cells of part A are a multiple of the first number, and so many carry as many bits as the second.
MULTIPLES = {("0", "0"): (4, 12), ("0", "1"): (15, 54), ("0", "2"): (8, 34), ("0", "3"): (45, 212), ("3", "0"): (3, 6), ("3", "1"): (4, 10)}
NO_RATES = "protection level {level} has no code rates in 16-QAM: level 0 or 1, or msc 0"


def of_part_a(numbers, settings):
    _, cells, size, taken, *_ = numbers
    level = settings["protection"][0]
    if taken == "-":
        return f"part A has {int(size):,} bytes a frame, and " + NO_RATES.format(level=level)
    multiple, bits = MULTIPLES[settings["msc"][0], level]
    most = int(cells) // multiple * bits // 8
    return f"part A has {int(size):,} bytes a frame, which take {int(taken):,} of {int(cells):,} cells: at most {most:,} fit"


def of_part_b(numbers, settings):
    _, cells, first, taken, size, room, *_ = numbers
    if room == "-":
        return f"part B has {int(size):,} bytes a frame, and " + NO_RATES.format(level=settings["protection"][1])
    if taken == "-" or int(cells) < int(taken):
        return f"part B has {int(size):,} bytes a frame, and nothing is left for it behind part A"
    return (f"part B has {int(size):,} bytes a frame, and {int(room):,} fit{' behind part A' if int(first) else ''}: {int(size) - int(room):,} fewer in the streams, "
            "or a weaker protection, another constellation or a wider channel")


def of_block(numbers, _):
    size, room = map(int, numbers[6:])
    return f"an SDC block has {size:,} bytes, and in this channel just {room:,}: room {room}" + (", in which its entities have to fit" if size > room else "")


SAID = {("over", "part-a"): of_part_a, ("over", "part-b"): of_part_b, ("over", "sdc"): of_block, ("short", "sdc"): of_block}


def unfit(program, name, text):
    """What doesn't fit of the schedule in this file, whose text is this, a line for each thing; none where the program can't say."""
    ran = subprocess.run([program, "capacity", "--", name], stdin=subprocess.DEVNULL, stdout=subprocess.PIPE, stderr=subprocess.DEVNULL, check=False)
    if command_line.status_of(ran) != UNFIT:
        return []
    settings = {config.start: config.settings for config in schedules.Schedule(text).configurations}
    found, numbers = [], None
    for line in ran.stdout.decode("ascii", "replace").splitlines():
        config = CONFIG.fullmatch(line)
        words = line.split(" ")
        if config:
            numbers = config.groups()
        elif (words[0], words[-1]) in SAID:
            found.append(f"the configuration of super frame {words[1]}: {SAID[words[0], words[-1]](numbers, settings[int(words[1])])}")
    return found
