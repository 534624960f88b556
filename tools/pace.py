#!/usr/bin/env python3
"""Times the pace of `serve --to`: no contract speaks of a clock.

It serves a schedule whose frames are one datagram each to a socket of its own, and compares when they came with PACE
milliseconds a frame, counted from the first. Printed are the mean of a frame, and how early and how late the worst one
came. Right is a mean within 0.1 ms of PACE, or of what three frames allow, and no frame more than 10 ms off; and without a
pace, frames that come at once. Else the status is 1. It looks for as long as --seconds says.
"""
import os
import pathlib
import socket
import subprocess
import sys
import tempfile
import time

import command_line

MOST_OFF_MILLIS = 10
# One service whose packets are carried whole; the scripts are installed without the examples.
PLAN = """drmplan 2
carry plain
first 0 0
length {length}
config 0 0
mode B
occupancy 3
depth long
msc 0
sdc 0
protection 0 1
room 64
service e0d201 0 0 5 audio 2 0
stream 0 1044 fill 00
block 0
audio 0 0 0 1 0 3 0 0 0
label 0 Radio Nord
"""


def plain_plan(folder, frames):
    """A schedule of so many frames, rounded up to super frames."""
    name = os.path.join(folder, "pace.plan")
    pathlib.Path(name).write_text(PLAN.format(length=(frames + 2) // 3), encoding="utf-8")
    return name


def moments(program, plan, pace, frames):
    """When each frame came, in milliseconds behind the first one."""
    with socket.socket(socket.AF_INET, socket.SOCK_DGRAM) as into:
        into.bind(("127.0.0.1", 0))
        into.settimeout(30)
        port = into.getsockname()[1]
        with subprocess.Popen([program, "serve", plan, "--to", f"127.0.0.1:{port}", "--pace", str(pace)]) as run:
            times = []
            try:
                for _ in range(frames):
                    into.recv(65535)
                    times.append(time.monotonic())
            except socket.timeout:
                sys.exit(f"pace.py: after {len(times)} frames nothing came for 30 seconds")
            finally:
                run.kill()
    return [(moment - times[0]) * 1000 for moment in times]


def main():
    parser = command_line.parser(__doc__)
    parser.add_argument("program", metavar="PROGRAM", type=command_line.program)
    parser.add_argument("pace", metavar="PACE", nargs="?", type=command_line.number(1, 10_000), default=200, help="milliseconds a frame (200)")
    parser.add_argument("--seconds", type=command_line.number(1, 86_400), default=2, help="how long to look (2)")
    options = parser.parse_args()
    frames = max(3, options.seconds * 1000 // options.pace + 1)
    with tempfile.TemporaryDirectory() as folder:
        plan = plain_plan(folder, frames)
        came = moments(options.program, plan, options.pace, frames)
        at_once = moments(options.program, plan, 0, 3)
    off = [moment - k * options.pace for k, moment in enumerate(came)]
    mean = came[-1] / (frames - 1)
    print(f"pace {options.pace}: {frames} frames, mean {mean:.3f} ms, earliest {min(off):+.2f} ms, latest {max(off):+.2f} ms; no pace: {at_once[-1]:.1f} ms for 3")
    right = abs(mean - options.pace) <= max(0.1, MOST_OFF_MILLIS / (frames - 1)) and max(map(abs, off)) <= MOST_OFF_MILLIS and at_once[-1] <= options.pace / 2
    sys.exit(0 if right else "pace.py: not the pace that was asked for")


if __name__ == "__main__":
    command_line.run(main)
