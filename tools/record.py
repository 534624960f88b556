#!/usr/bin/env python3
"""Writes the datagrams that come to an address to standard output, one after another: a capture, as `drmcast receive`, `show` and
`unpack` read it.

    record.py 127.0.0.1:5000 > evening.capture

It ends after so many seconds of silence, counted from the first datagram, or if none came for thirty seconds, or by Ctrl-C or
TERM. What is no packet would end the reading of the capture there: it is left out, and counted on standard error.
"""
import sys

import command_line
from datagrams import MOST_BYTES, is_packet, listen

WAIT_SECONDS = 30


def record(listener, silence, stop):
    """Writes what comes until it's silent; gives the numbers of datagrams that were written and left out."""
    came = left_out = 0
    while stop.waits(listener, silence if came or left_out else WAIT_SECONDS):
        datagram = listener.recv(MOST_BYTES)
        if is_packet(datagram):
            sys.stdout.buffer.write(datagram)
            came += 1
        else:
            left_out += 1
    sys.stdout.buffer.flush()
    return came, left_out


def main():
    parser = command_line.parser(__doc__)
    parser.add_argument("listen", metavar="ADDR", type=command_line.address)
    parser.add_argument("--silence", type=command_line.number(1, 86_400), default=3, metavar="SECONDS", help="end after so much silence (3)")
    options = parser.parse_args()
    stop = command_line.Stop()
    with listen(options.listen) as listener:
        came, left_out = record(listener, options.silence, stop)
    print(f"{came} datagrams, {left_out} others left out", file=sys.stderr)


if __name__ == "__main__":
    command_line.run(main)
