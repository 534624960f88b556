#!/usr/bin/env python3
"""Cuts a file into units, as `drmcast pack` reads them: each a length of four bytes, and its bytes.

    units.py picture.pgm 550 --times 4 | drmcast pack 0 55 > picture.packets

The bytes come again with `drmcast unpack`, whose lines are `unit HEX`: sed -n 's/^unit //p' | xxd -r -p.
"""
import pathlib
import sys

import command_line

MOST_UNIT_BYTES = 65_535


def units(data, size):
    """The units of these bytes, with so many in each but the last."""
    for at in range(0, len(data), size):
        unit = data[at:at + size]
        yield len(unit).to_bytes(4, "big") + unit


def main():
    parser = command_line.parser(__doc__)
    parser.add_argument("file", type=command_line.file)
    parser.add_argument("size", type=command_line.number(1, MOST_UNIT_BYTES), help="the bytes of a unit")
    parser.add_argument("--times", type=command_line.number(1, 1_000_000), default=1, help="the whole file so many times (1)")
    options = parser.parse_args()
    data = pathlib.Path(options.file).read_bytes()
    for _ in range(options.times):
        for unit in units(data, options.size):
            sys.stdout.buffer.write(unit)


if __name__ == "__main__":
    command_line.run(main)
