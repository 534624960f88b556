#!/usr/bin/env python3
"""Forwards UDP datagrams from one address to another, but for every N-th, from the K-th on.

    drop.py 127.0.0.1:6000 127.0.0.1:5000 10
    drop.py 127.0.0.1:6000 127.0.0.1:5000 10 3

It ends after three seconds of silence, counted from the first datagram, or if none came for thirty seconds, or by Ctrl-C or
TERM, and prints how many it forwarded and dropped.
"""
import socket

import command_line
from datagrams import MOST_BYTES, listen

WAIT_SECONDS = 30
SILENCE_SECONDS = 3


def forward(listener, sender, to, every, first, stop):
    """Forwards until it's silent; gives the numbers of datagrams that were forwarded and dropped."""
    came = dropped = 0
    while stop.waits(listener, SILENCE_SECONDS if came else WAIT_SECONDS):
        datagram = listener.recv(MOST_BYTES)
        came += 1
        if came >= first and (came - first) % every == 0:
            dropped += 1
        else:
            sender.sendto(datagram, to)
    return came - dropped, dropped


def main():
    parser = command_line.parser(__doc__)
    parser.add_argument("listen", metavar="FROM", type=command_line.address)
    parser.add_argument("to", metavar="TO", type=command_line.address)
    parser.add_argument("every", metavar="N", nargs="?", type=command_line.number(2, 1_000_000), default=10, help="every so many is dropped (10)")
    parser.add_argument("first", metavar="K", nargs="?", type=command_line.number(1, 1_000_000), help="the first one that is dropped (the N-th)")
    options = parser.parse_args()
    stop = command_line.Stop()
    with listen(options.listen) as listener, socket.socket(socket.AF_INET, socket.SOCK_DGRAM) as sender:
        forwarded, dropped = forward(listener, sender, options.to, options.every, options.first or options.every, stop)
    print(f"forwarded {forwarded} dropped {dropped}")


if __name__ == "__main__":
    command_line.run(main)
