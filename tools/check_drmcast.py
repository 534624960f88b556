#!/usr/bin/env python3
"""A check for Nagios and its kin of a link that `watch.py --metrics FILE` watches, or of a `playout.py --metrics FILE`.

    check_drmcast.py /run/drmcast/nord/receive.prom --missing 10 --gap 30
    check_drmcast.py /run/drmcast-playout/nord/playout.prom --ahead 3600

It prints one line. Of a link its status is

    0  if the last frame came within the last S seconds,
    1  if it did, and in the last hour more than N frames were missing or bad, or none came for longer than S seconds, or datagrams come of
       which none gives a frame,
    2  if none has come for longer than S seconds, or none ever,
    3  if that can't be said: the file can't be read or is another one, or a word of the command line is wrong.

The file is written each five seconds, so S is 10 or more. It goes on saying when the last frame came if the watch itself has ended.

Of a playout it is 2 if the file is older than S seconds, as where the playout has ended, or if a schedule is due and no server sends it; and 1 if
the list ends within the next S seconds of --ahead.
"""
import sys
import time

import command_line
import metrics

OK, WARNING, CRITICAL, UNKNOWN = range(4)
NAMES = ("OK", "WARNING", "CRITICAL", "UNKNOWN")
WRONG_WORDS = 2


def judged(values, most_missing, most_gap, now):
    """The status, and what is said."""
    last, lost, longest = values["last_frame_timestamp_seconds"], values["recently_lost_frames"], values["longest_gap_seconds"]
    if last <= 0:
        return CRITICAL, "no frame yet" + (", though datagrams come: they are refused" if values["in_vain_seconds"] else "")
    gap, in_vain = max(0.0, now - last), values["in_vain_seconds"]
    said = f"last frame {gap:.0f} s ago, in the last hour {lost:.0f} lost and {longest:.1f} s the longest gap"
    if in_vain:
        said += f"; datagrams come, and none gives a frame since {in_vain:.0f} s: late or refused, as after a server that began again"
    if gap > most_gap:
        return CRITICAL, said
    return (WARNING if lost > most_missing or longest > most_gap or in_vain else OK), said


def judged_playout(values, least_ahead, most_gap, now):
    """The same of a playout."""
    age, left = max(0.0, now - values["playout_written_timestamp_seconds"]), values["playout_list_seconds"]
    if age > most_gap:
        return CRITICAL, f"the playout hasn't written for {age:.0f} s"
    state = "on air" if values["playout_on_air"] else "due, and not on air" if values["playout_due"] else "nothing is due"
    said = f"{state}, super frame {values['playout_super_frame']:.0f}, {left:.0f} s to the end of the list"
    if values["playout_due"] and not values["playout_on_air"]:
        return CRITICAL, said
    return (WARNING if left < least_ahead else OK), said


def arguments():
    parser = command_line.parser(__doc__)
    parser.add_argument("file", metavar="FILE")
    parser.add_argument("--missing", type=command_line.number(0, 1_000_000_000), default=0, metavar="N", help="so many lost frames an hour are right (0)")
    parser.add_argument("--gap", type=command_line.number(10, 1_000_000_000), default=30, metavar="S", help="so many seconds without a frame are right (30)")
    parser.add_argument("--ahead", type=command_line.number(0, 1_000_000_000), default=3600, metavar="S", help="the list of a playout is to go on for so many seconds (3600)")
    try:
        return parser.parse_args()
    except SystemExit as end:
        if end.code != WRONG_WORDS:
            raise
        print("DRMCAST UNKNOWN - the words of the command line are wrong")
        sys.exit(UNKNOWN)


def main():
    options = arguments()
    try:
        link, values = metrics.read(options.file)
    except (OSError, metrics.NoMetrics) as fault:
        print(f"DRMCAST UNKNOWN - {command_line.reason(fault) if isinstance(fault, OSError) else fault}")
        return UNKNOWN
    if "playout_on_air" in values:
        status, said = judged_playout(values, options.ahead, options.gap, time.time())
        data = {"failures": "playout_failures_total", "taken": "playout_changes_taken_total", "refused": "playout_changes_refused_total"}
    else:
        status, said = judged(values, options.missing, options.gap, time.time())
        data = {"given": "frames_given_total", "missing": "frames_missing_total", "bad": "frames_bad_total", "refused": "datagrams_refused_total"}
    performance = " ".join(f"{name}={values[metric]:.0f}c" for name, metric in data.items())
    print(f"DRMCAST {NAMES[status]} - {link}: {said} | {performance}")
    return status


if __name__ == "__main__":
    command_line.run(main, refused=UNKNOWN)
