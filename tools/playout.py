#!/usr/bin/env python3
"""Sends schedule after schedule to a modulator, each at its moment, and follows them while they are changed.

    playout.py week.list                                   # checks the list, and says what is on air now
    playout.py week.list --to 192.0.2.7:5000 --pace 400    # and sends it

The list has a line for each schedule: the moment when it begins, in UTC, and its file. Lines that begin with # say nothing.

    2026-12-24T18:00:00Z evening.plan
    2026-12-24T19:00:00Z night.plan

Each schedule begins when the one before it ends, 3 frames of its pace for each of its super frames later, and its `first` line goes on from
there, so that receivers run on. What isn't so is named, with the line or the moment that would be right, and nothing is sent. So is a live stream
that a schedule doesn't have. The words of the servers are tried, too. Named alone are a clock line that isn't the moment on air, a live
stream that changes its size, a reconfiguration between two schedules that can't be announced, and what doesn't fit a channel
(`drmcast capacity`), which with --fits is refused.

One `drmcast serve` sends at a time, and gets the bytes of all streams, frame by frame, from here: the schedule's own, or with --live those that
standard input has for these streams. A frame's live piece that is a second late is replaced by the schedule's own bytes; when standard input ends
they go out from then on. With --interleaved, if it comes from `interleave.py`, the playout ends instead, and a live stream that changes its size is
refused. If the playout is started within a schedule, or a server fails, it goes on at the next super frame; a failure that lasts is said once, and
that it is over.

The list, its schedules and their files are looked at every 50 milliseconds. What came by rename is taken at once, what else has changed when it
has stood still for half a second. The schedule on the air may change where it agrees with what was sent (`drmcast agree`): the next server takes
over at the first super frame that can be had, and no frame is lost or sent twice. What can't be taken is named, and what is on the air goes on.
Where the next schedule is a reconfiguration it is announced. --state names a folder for what lasts: after a start the playout knows what was sent.

An hour and ten minutes before the list ends it says so. --metrics writes what it does to a file each five seconds, in the text format of
Prometheus: whether something is due and is on air, the super frame, the seconds to the end of the list, servers that failed, and changes
that were taken and refused.

The status is 0 after Ctrl-C or TERM, and after a check alone; 3 if the list is wrong; 9 when it has ended, since nothing is on air then; 10 if
with --interleaved standard input has ended; and that of `drmcast` if it refuses a schedule or the words.
"""
import subprocess
import sys

import changes
import command_line
import followed
import follower
import lasting
import on_air
import playlists
from on_air import LIST_ENDED, UNREADABLE
from playlists import FRAMES, following, moment, now
from playout_told import FOR_GOOD, say

NO_SUPER_FRAME, WRONG_WORDS = "1000000", 2


def tell(entries, pace, at):
    """Says what is on air at this moment, and gives whether there is something now or later."""
    for one in entries:
        end, _ = following(one, pace)
        if at < one.begin:
            say(f"nothing is on air; {one.name} begins at {moment(one.begin)}")
            return True
        if at < end:
            say(f"on air: {one.name}, super frame {(at - one.begin) // (FRAMES * pace)} of {one.super_frames}, until {moment(end)}")
            return True
    say(f"nothing is on air; {entries[-1].name} ended at {moment(following(entries[-1], pace)[0])}")
    return False


def tried(options, name, folder=None):
    """Tries the words of a server now, and not when its moment has come: of a super frame that no schedule has nothing is sent. Gives the status
    that is for good."""
    words = [options.program, "serve", *(["--to", options.to, "--pace", str(options.pace)] if options.to else []), *(["--live", options.live] if options.live else []),
             "--from", NO_SUPER_FRAME, "--", name]
    asked = subprocess.run(words, cwd=folder, stdin=subprocess.DEVNULL, stdout=subprocess.DEVNULL, stderr=subprocess.PIPE, check=False)
    if asked.returncode:
        said = "; ".join(asked.stderr.decode(errors="replace").splitlines())
        command_line.complain(f"{' '.join(words[1:])}: {said}")
    return command_line.status_of(asked) if asked.returncode in FOR_GOOD else 0


def arguments_of(words):
    parser = command_line.parser(__doc__)
    parser.add_argument("list", metavar="LIST", type=command_line.file)
    parser.add_argument("--to", metavar="ADDR", help="send there, also to several, joined by commas; without it the list is checked alone")
    parser.add_argument("--pace", type=command_line.number(1, 10_000), default=400, metavar="MS", help="milliseconds a frame (400)")
    parser.add_argument("--live", metavar="LIST", help="streams that take their bytes from standard input, as 0 or 0,1")
    parser.add_argument("--interleaved", action="store_true", help="standard input comes from interleave.py; end when that does")
    parser.add_argument("--fits", action="store_true", help="refuse a schedule that its channel doesn't carry")
    parser.add_argument("--state", metavar="FOLDER", help="keep here what lasts over a start")
    parser.add_argument("--metrics", metavar="FILE", help="write what it does to this file")
    parser.add_argument("--link", metavar="NAME", help="the label `link` of the metrics (the name of their file, without .prom)")
    parser.add_argument("--moments", metavar="FILE", help="write when each piece was given, and when its frame was due, for trials")
    parser.add_argument("--program", type=command_line.program, default="drmcast", help="the program (drmcast, by the path)")
    options = parser.parse_args(words)
    if options.interleaved and not options.live:
        parser.error("--interleaved goes with --live")
    return options


def playout_of(options, entries, checks, seams, stop):
    """What sends these entries, and follows them."""
    lasts = lasting.Lasting(options.state, playlists.streams_of(options.live))
    copies = changes.Copies(options.program, lasts, seams)
    playing = on_air.Playout(options, entries, lasts, copies, stop)
    playing.follower = follower.Follower(options, checks.follows, checks, copies, playing.playing)
    return playing


def left_over(options):
    """What a playout before had on the air now, where the list can't be read: its entry, and where its copy is."""
    if options.to is None or options.state is None:
        return None
    lasts = lasting.Lasting(options.state, playlists.streams_of(options.live))
    record = lasts.record()
    one = lasts.left(record) if record and record["pace"] == options.pace else None
    if one is None or not one.begin <= now() < following(one, options.pace)[0]:
        return None
    return one, lasts.recorded(record, one)


def read(options, checks, seams):
    """The entries of the list, and what a server is tried with: a name, and the folder in which it holds. Where the list is wrong, and a playout
    before had something on the air, that goes on; raises what is wrong if nothing does."""
    try:
        entries, warnings = playlists.read(options.list, checks, options.pace, options.live, options.interleaved, options.fits)
        for text in [*warnings, *(f"{options.list} {text}" for text in seams.warnings(entries))]:
            command_line.complain(text)
        return entries, entries[0].name, None
    except playlists.Wrong as fault:
        for text in changes.said_of(fault):
            command_line.complain(text)
        left = left_over(options)
        if left is None or left[1] is None:
            raise
        say(f"{left[0].name} was on the air, and goes on as it was sent")
        return [left[0]], left[1].name, left[1].folder


def main():
    options = arguments_of(sys.argv[1:])
    checks = changes.KnownChecks(options.program, followed.Followed())
    checks.follows.takes(options.list)
    seams = changes.Seams(options.program)
    try:
        entries, name, folder = read(options, checks, seams)
    except playlists.Wrong as fault:
        return fault.status
    status = tried(options, name, folder) if options.to or options.live else 0
    if status:
        return status
    if not tell(entries, options.pace, now()):
        return LIST_ENDED
    if options.to is None:
        return 0
    playing = playout_of(options, entries, checks, seams, command_line.Stop())
    if not playing.lasts.is_ours():
        command_line.complain(f"{options.state}: another playout keeps there what lasts")
        return WRONG_WORDS
    try:
        playing.resumes()
    except changes.Refused as fault:
        for text in fault.texts:
            command_line.complain(text)
        return UNREADABLE
    playing.follower.start()
    return playing.run()


if __name__ == "__main__":
    command_line.run(main)
