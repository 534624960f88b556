#!/usr/bin/env python3
"""Watches a modulator: reads its reports as they come, and prints a line a minute.

    watch.py -- drmcast receive 0.0.0.0:5000 --window 16 --reach 450 --idle 600
    watch.py --metrics /run/drmcast/nord.prom -- drmcast receive 0.0.0.0:5000 --reach 450 --idle 600
    drmcast receive 0.0.0.0:5000 | watch.py --every 10 --format csv >> modulator.csv

A line has the time (UTC); how many frames were given, missing and bad since the line before; the longest time without a frame,
in seconds; how many reconfigurations began (switches), and how many of them had not been announced (resumed); and how many
datagrams were refused, which a report says at its end. A link on which nothing comes has no missing frames: the longest time
without a frame shows it, and it goes on over lines and over reports.

Datagrams that are late have no line in a report, so a server that began again at the beginning of its schedule looks like silence. But
silence ends a report, by the --idle of `drmcast receive`. Where a report of one address goes on for longer without a line, datagrams come
of which none gives a frame: that is said on standard error, once when it begins and once when it is over. The lines of `drmcast count`,
started again and again with a --limit, have the late datagrams: it is said if one has some and no frame.

--stamp prints each line of a report too, behind the moment at which it came.

A command behind `--` is started again after each report that it ends with status 0 or 7, so the counts and the gap go on. Any
other status ends the watch, with that status. Without a command, reports are read from standard input, to its end. At the end, also
by Ctrl-C or TERM, come a line of what has not had one and a line of all of it. The status is 7 if a frame was missing or bad, as
that of `drmcast`; 3 if what comes is no report; and 1 if the last report broke off.

--metrics writes what was counted to a file each five seconds, in the text format of Prometheus, as the node exporter reads it
(its name is to end with .prom) and `check_drmcast.py`. Frames given, missing and bad, refused datagrams, switches and resumed are
counters. The moment of the last frame (0 before the first one), the longest gap of the last hour, the frames lost in the last
hour and for how long datagrams have come in vain are gauges. A watch that is started again goes on from the last frame's moment in the file.
"""
import argparse
import collections
import csv
import datetime
import json
import os
import re
import shutil
import subprocess
import sys
import time

import command_line
import metrics
import reports

FIELDS = ("time", "given", "missing", "bad", "longest_gap", "switches", "resumed", "refused")
COUNTED = {"frame": "given", "missing": "missing", "bad": "bad", "switch": "switches", "resumed": "resumed"}
COUNT = re.compile("count given N missing N bad N refused N kept N repeated N late N".replace("N", "([0-9]{1,10})"))
REPORT_ENDED = (0, 7)
# How long the line of a frame may be late: a packet waits for at most 64 others, at 400 ms.
WINDOW_SECONDS, IDLE_SECONDS, TENTHS = 26.0, 5.0, 10
METRICS_SECONDS = 5.0
RECENT_SECONDS = 3600.0


class Counts:
    """What came in some time."""

    def __init__(self):
        self.given = self.missing = self.bad = self.switches = self.resumed = self.refused = 0
        self.longest_gap = 0.0

    def add(self, other):
        for name in FIELDS[1:]:
            if name != "longest_gap":
                setattr(self, name, getattr(self, name) + getattr(other, name))
        self.longest_gap = max(self.longest_gap, other.longest_gap)

    def row(self, word):
        """A line's values, by their names."""
        values = {name: getattr(self, name) for name in FIELDS[1:]}
        return {"time": word, **values, "longest_gap": round(self.longest_gap, 1)}


def as_text(values):
    return (f"{values['time']} given {values['given']} missing {values['missing']} bad {values['bad']} "
            f"longest gap {values['longest_gap']} s switches {values['switches']} resumed {values['resumed']} refused {values['refused']}")


class Printer:
    """Prints lines in the format that is asked for."""

    def __init__(self, kind):
        self.kind = kind
        self.csv = csv.writer(sys.stdout, lineterminator="\n")
        if kind == "csv":
            self.csv.writerow(FIELDS)

    def line(self, counts, word):
        values = counts.row(word)
        if self.kind == "csv":
            self.csv.writerow(values.values())
        else:
            print(json.dumps(values) if self.kind == "json" else as_text(values))
        sys.stdout.flush()


def now(exactness="seconds"):
    """This moment (UTC)."""
    return datetime.datetime.now(datetime.timezone.utc).isoformat(timespec=exactness).replace("+00:00", "Z")


def patience(command):
    """For how long the report of a command may go on without a line, though nothing came: None if that can't be said."""
    if "receive" not in command or any("," in word for word in command):
        return None
    given = [word.partition("=")[2] or following for word, following in zip(command, [*command[1:], ""]) if word.partition("=")[0] == "--idle"]
    idle = int(given[0]) / TENTHS if given and given[0].isdigit() else IDLE_SECONDS
    return max(idle, WINDOW_SECONDS) + IDLE_SECONDS


class Watch:
    """Counts the lines of reports, and how long no frame came. `last_moment` is when the last frame came before, 0 if none did; `patience`
    is how long a report goes on without a line at most, if nothing comes."""

    def __init__(self, every, last_moment=0.0, patience=None):
        self.part, self.whole = Counts(), Counts()
        self.recent = collections.deque(maxlen=max(1, round(RECENT_SECONDS / every)))
        self.last_moment = last_moment
        self.last_frame = time.monotonic() - (max(0.0, time.time() - last_moment) if last_moment else 0.0)
        self.lines = 0
        self.is_open = True
        self.patience, self.last_line = patience, None
        self.counts_in_vain = None

    def looks_at_gap(self):
        self.part.longest_gap = max(self.part.longest_gap, time.monotonic() - self.last_frame)

    def takes_count(self, given, missing, bad, refused, late):
        """Takes the line of a whole run of `drmcast count`."""
        if given:
            self.looks_at_gap()
            self.last_frame, self.last_moment = time.monotonic(), time.time()
        for name, count in (("given", given), ("missing", missing), ("bad", bad), ("refused", refused)):
            setattr(self.part, name, getattr(self.part, name) + count)
        if given or not late:
            self.counts_in_vain = None
        elif self.counts_in_vain is None:
            self.counts_in_vain = time.monotonic()
        self.is_open, self.last_line = False, None

    def in_vain(self):
        """For how long datagrams have come of which none gave a frame; 0.0 if that isn't so."""
        if self.counts_in_vain is not None:
            return max(0.001, time.monotonic() - self.counts_in_vain)
        if self.last_line is None or self.patience is None:
            return 0.0
        silent = time.monotonic() - self.last_line
        return silent if silent > self.patience else 0.0

    def take(self, line):
        self.lines += 1
        count = COUNT.fullmatch(line)
        if count:
            self.takes_count(*(int(count[place]) for place in (1, 2, 3, 4, 7)))
            return
        words = reports.parsed(line, self.lines)
        kind = words[0]
        if kind == "frame":
            self.looks_at_gap()
            self.last_frame, self.last_moment = time.monotonic(), time.time()
        if kind in COUNTED:
            setattr(self.part, COUNTED[kind], getattr(self.part, COUNTED[kind]) + 1)
        elif kind == "end":
            self.part.refused += int(words[-1])
        self.is_open = kind != "end"
        self.last_line = time.monotonic() if self.is_open else None

    def closes_part(self):
        self.looks_at_gap()
        self.whole.add(self.part)
        self.recent.append(self.part)
        part, self.part = self.part, Counts()
        return part

    def state(self):
        """All that was counted, what was of the last hour, and the moment of the last frame, by the names of the metrics."""
        self.looks_at_gap()
        whole, recent = Counts(), Counts()
        for counts, parts in ((whole, (self.whole, self.part)), (recent, (*self.recent, self.part))):
            for part in parts:
                counts.add(part)
        return {
            "frames_given_total": whole.given, "frames_missing_total": whole.missing, "frames_bad_total": whole.bad,
            "datagrams_refused_total": whole.refused, "switches_total": whole.switches, "resumed_total": whole.resumed,
            "last_frame_timestamp_seconds": round(self.last_moment, 3), "longest_gap_seconds": round(recent.longest_gap, 3),
            "recently_lost_frames": recent.missing + recent.bad, "in_vain_seconds": round(self.in_vain(), 3),
        }


class Following:
    """Reads reports from a descriptor, and prints lines and writes metrics whenever it is time."""

    def __init__(self, watch, printer, every, written, stop, stamps=False):
        self.watch, self.printer, self.every, self.written, self.stop, self.stamps = watch, printer, every, written, stop, stamps
        self.is_in_vain = False
        self.line_due = time.monotonic() + every
        self.metrics_due = time.monotonic()
        self.rest = b""

    def due(self):
        """Prints and writes what it is time for; gives in how many seconds the next is due."""
        at = time.monotonic()
        self.says_in_vain()
        if at >= self.line_due:
            self.printer.line(self.watch.closes_part(), now())
            self.line_due = max(self.line_due + self.every, at)
        if at >= self.metrics_due:
            self.written.write(self.watch.state())
            self.metrics_due = at + METRICS_SECONDS
        return max(0.0, min(self.line_due, self.metrics_due) - time.monotonic())

    def says_in_vain(self):
        """Says when datagrams begin to come of which none gives a frame, and when one does again."""
        in_vain = self.watch.in_vain()
        if bool(in_vain) != self.is_in_vain:
            self.is_in_vain = bool(in_vain)
            command_line.complain(f"datagrams come, and none has given a frame for {in_vain:.0f} s: they are late or refused, as after a server that began again; "
                                  "then the receiver is to be started again" if in_vain else "datagrams give frames again, or come no more")

    def takes(self, whole):
        """Takes these lines, and prints them with their moment if that is asked for."""
        moment = now("milliseconds") if self.stamps else ""
        for line in whole:
            text = line.decode("ascii", "replace")
            if self.stamps:
                print(f"{moment} {text}", flush=True)
            self.watch.take(text)

    def read(self, descriptor):
        """Reads to the end; or until a stop is asked for, and then what has come by then."""
        goes_on = True
        while goes_on:
            if self.stop.waits(descriptor, self.due()):
                goes_on = self.takes_piece(descriptor)
            else:
                goes_on = not self.stop.asked

    def takes_piece(self, descriptor):
        """Takes the whole lines of what can be read; gives whether it was not the end."""
        piece = os.read(descriptor, 1 << 16)
        *whole, self.rest = (self.rest + piece).split(b"\n")
        self.takes(whole)
        return bool(piece)


def follow_command(command, following):
    """Runs the command again and again; gives its status once that says more than that a report has ended."""
    while True:
        following.watch.is_open, following.watch.last_line, following.rest = True, None, b""
        with subprocess.Popen(command, stdin=subprocess.DEVNULL, stdout=subprocess.PIPE) as run:
            try:
                following.read(run.stdout.fileno())
            except BaseException:
                run.terminate()
                raise
            if following.stop.asked:
                run.terminate()
        status = command_line.status_of(run)
        if following.stop.asked or following.watch.is_open or status not in REPORT_ENDED:
            return status


def followed(command, following):
    """Follows what is to be watched to its end; gives the status of a command that failed, 3 if no report came, else 0."""
    try:
        if command:
            status = follow_command(command, following)
            return 0 if following.stop.asked or status in REPORT_ENDED else status
        following.read(sys.stdin.fileno())
        return 0
    except reports.NoReport as fault:
        command_line.complain(fault)
        return 3


def seconds(word):
    try:
        value = float(word)
    except ValueError:
        value = 0.0
    if not 0.1 <= value <= 86400:
        raise argparse.ArgumentTypeError(f"{word} is no number of seconds from 0.1 to 86400")
    return value


def arguments():
    words = sys.argv[1:]
    own, command = (words[:words.index("--")], words[words.index("--") + 1:]) if "--" in words else (words, [])
    parser = command_line.parser(__doc__)
    parser.usage = "%(prog)s [-h] [--every SECONDS] [--format {text,csv,json}] [--stamp] [--metrics FILE] [--link NAME] [-- COMMAND ..]"
    parser.add_argument("--every", type=seconds, default=60.0, metavar="SECONDS", help="a line so often (60)")
    parser.add_argument("--format", choices=("text", "csv", "json"), default="text", help="how a line is printed (text)")
    parser.add_argument("--stamp", action="store_true", help="print each line of a report too, with its moment")
    parser.add_argument("--metrics", metavar="FILE", help="write what was counted to this file")
    parser.add_argument("--link", metavar="NAME", help="the label `link` of the metrics (the name of their file, without .prom)")
    options, others = parser.parse_known_args(own)
    if others:
        parser.error(f"unrecognized arguments: {' '.join(others)}" + ("" if others[0].startswith("-") else "; a command stands behind --"))
    if options.stamp and options.format != "text":
        parser.error("--stamp goes with the format text")
    if command and shutil.which(command[0]) is None:
        parser.error(f"{command[0]} is no program")
    return options, command


def main():
    options, command = arguments()
    stop = command_line.Stop()
    written = metrics.Metrics(options.metrics, options.link)
    watch = Watch(options.every, written.last_moment(), patience(command))
    following = Following(watch, Printer(options.format), options.every, written, stop, options.stamp)
    status = followed(command, following)
    following.printer.line(watch.closes_part(), now())
    following.printer.line(watch.whole, "all")
    written.write(watch.state())
    if status:
        return status
    if watch.is_open and not stop.asked:
        return "watch.py: the report broke off: it has no last line"
    return 7 if watch.whole.missing or watch.whole.bad else 0


if __name__ == "__main__":
    command_line.run(main)
