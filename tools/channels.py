#!/usr/bin/env python3
"""The table of SCHEDULE.md by which a channel is chosen: how many bytes each carries in a frame with one part, and in an SDC block.

    tools/channels.py                                       prints it
    tools/channels.py --write docs/SCHEDULE.md              puts it in the place of the table there
    tools/channels.py --check docs/SCHEDULE.md              status 1 if another one stands there

The numbers are those that `drmcast capacity` prints of a schedule for each row and column; kbit/s are cut, not rounded.
"""
import pathlib
import re
import subprocess
import sys
import tempfile

import command_line

KHZ = ("4.5", "5", "9", "10", "18", "20")
SIGNALS = [(mode, occupancy) for mode in "AB" for occupancy in range(6)] + [(mode, occupancy) for mode in "CD" for occupancy in (3, 5)]
QAM_64, QAM_16 = 0, 3
CODINGS = [(QAM_64, level) for level in range(4)] + [(QAM_16, level) for level in range(2)]
SDC_MODES = (0, 1)
BITS_A_BYTE, FRAMES_IN_TWO_SECONDS = 8, 5
FIRST_LINES = ("| mode and occupancy | 64-QAM, level 0 | level 1 | level 2 | level 3 | 16-QAM, level 0 | level 1 | SDC in 16-QAM | in 4-QAM |", "|---" * 9 + "|")
TABLE = re.compile("^" + re.escape(FIRST_LINES[0]) + r"\n(?:\|.*\n)*", re.MULTILINE)
PRINTED = re.compile(r"config 0 cells \d+ part-a 0 cells 0 part-b 1 of (\d+) sdc 9 of (\d+) rate 20\n")


def schedule(signal, coding, sdc_mode):
    """The smallest schedule of such a channel."""
    return f"""drmplan 2
carry plain
first 0 0
length 1
config 0 0
mode {signal[0]}
occupancy {signal[1]}
depth long
msc {coding[0]}
sdc {sdc_mode}
protection 0 {coding[1]}
room 9
service 123456 0 0 0 audio 0 0
stream 0 1 fill 00
block 0
audio 0 0 0 1 0 3 0 0 0
"""


def carried(program, signal, coding, sdc_mode):
    """The bytes of a frame's part B and of an SDC block, as the program prints them."""
    with tempfile.NamedTemporaryFile("w", suffix=".plan", encoding="ascii") as plan:
        plan.write(schedule(signal, coding, sdc_mode))
        plan.flush()
        ran = subprocess.run([program, "capacity", "--", plan.name], capture_output=True, text=True, check=False)
    found = PRINTED.match(ran.stdout)
    if not found:
        sys.exit(f"channels.py: {program} says of mode {signal[0]} and occupancy {signal[1]}: {(ran.stderr or ran.stdout).strip()}")
    return int(found[1]), int(found[2])


def cell(size):
    """Bytes a frame, and kbit/s of one decimal, cut."""
    tenths = size * BITS_A_BYTE * FRAMES_IN_TWO_SECONDS // 2 // 100
    return f"{size} ({tenths // 10}.{tenths % 10})"


def table(program):
    rows = list(FIRST_LINES)
    for signal in SIGNALS:
        parts = [cell(carried(program, signal, coding, 0)[0]) for coding in CODINGS]
        blocks = [str(carried(program, signal, CODINGS[0], mode)[1]) for mode in SDC_MODES]
        rows.append("| " + " | ".join([f"{signal[0]} {signal[1]}, {KHZ[signal[1]]} kHz", *parts, *blocks]) + " |")
    return "\n".join(rows) + "\n"


def main():
    parser = command_line.parser(__doc__)
    parser.add_argument("--program", type=command_line.program, default="drmcast", help="the program (drmcast, by the path)")
    place = parser.add_mutually_exclusive_group()
    place.add_argument("--write", metavar="FILE", type=command_line.file)
    place.add_argument("--check", metavar="FILE", type=command_line.file)
    options = parser.parse_args()
    made = table(options.program)
    path = options.write or options.check
    if path is None:
        print(made, end="")
        return 0
    text = command_line.text(path)
    stands = TABLE.findall(text)
    if len(stands) != 1:
        return f"channels.py: {path} has {len(stands)} such tables"
    if options.write:
        with command_line.written_whole(path) as out:
            out.write(TABLE.sub(lambda _: made, text).encode())
    elif stands[0] != made:
        return f"channels.py: the table of {path} isn't the one that the program gives: tools/channels.py --write {pathlib.Path(path)}"
    return 0


if __name__ == "__main__":
    command_line.run(main)
