#!/usr/bin/env python3
"""Makes the bytes of a stream whose last four bytes in each frame carry text messages (FORMATS.md), as `drmcast texts` reads them.

    messages.py messages.txt 484 300 > radio.stream

FILE has a message a line, each of 1 to 128 bytes; they come in turn, one every so many frames. What isn't theirs is one byte.
"""
import sys

import command_line
from datagrams import check_value

BODY_BYTES = 16
MOST_MESSAGE_BYTES = 128
PIECE_BYTES = 4


def segment(body, toggle, number, last):
    """One segment of a message, filled up to whole pieces."""
    head = bytes([toggle << 7 | (number == 0) << 6 | last << 5 | len(body) - 1, number << 4])
    checked = head + body
    whole = checked + check_value(checked)
    return whole + bytes(-len(whole) % PIECE_BYTES)


def pieces(message, toggle):
    """The pieces of a message."""
    bodies = [message[at:at + BODY_BYTES] for at in range(0, len(message), BODY_BYTES)]
    for number, body in enumerate(bodies):
        yield b"\xff" * PIECE_BYTES
        whole = segment(body, toggle, number, number + 1 == len(bodies))
        for at in range(0, len(whole), PIECE_BYTES):
            yield whole[at:at + PIECE_BYTES]


def stream(messages, size, frames, every, fill):
    """The bytes of the stream, frame by frame."""
    left = iter(())
    for frame in range(frames):
        if frame % every == 0:
            turn = frame // every
            left = pieces(messages[turn % len(messages)], turn % 2)
        yield bytes([fill]) * (size - PIECE_BYTES) + next(left, bytes([fill]) * PIECE_BYTES)


def main():
    parser = command_line.parser(__doc__)
    parser.add_argument("file", type=command_line.file)
    parser.add_argument("size", type=command_line.number(PIECE_BYTES, 8190), help="the bytes of the stream in a frame")
    parser.add_argument("frames", type=command_line.number(1, 3_000_000), help="how many frames")
    parser.add_argument("--every", type=command_line.number(1, 3_000_000), default=150, help="a message begins every so many frames (150, a minute)")
    parser.add_argument("--fill", type=command_line.number(0, 254), default=0, help="the byte that stands where no message is (0)")
    options = parser.parse_args()
    messages = [line.encode() for line in command_line.text(options.file).splitlines() if line]
    if not messages or any(len(message) > MOST_MESSAGE_BYTES for message in messages):
        sys.exit(f"messages.py: {options.file} has no message, or one of more than {MOST_MESSAGE_BYTES} bytes")
    if any(len(list(pieces(message, 0))) > options.every for message in messages):
        sys.exit(f"messages.py: {options.file} has a message that takes more than {options.every} frames")
    for frame in stream(messages, options.size, options.frames, options.every, options.fill):
        sys.stdout.buffer.write(frame)


if __name__ == "__main__":
    command_line.run(main)
