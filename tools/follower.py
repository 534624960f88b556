"""Looks at the list and its schedules while a playout sends, judges what has changed, and hands over what can be taken."""
import collections
import os
import queue
import threading
import time

import changes
import command_line
import playlists

LOOK_SECONDS, PAUSE_SECONDS = 0.05, 1.0

# What a playout does at a moment: the entries from the one on air or waited for, the copy of the first that is sent, the copy of the second if
# there is one by now, the first super frame of the first entry of which nothing was sent, and one that can be had for certain.
Playing = collections.namedtuple("Playing", "entries copy ahead reached soon")

# What a playout can take in place of it: it holds for what was played when it was judged (`base`), and `copy` can be exchanged for the one on the air at
# super frame `last` at the latest, and at once if that is None, where nothing was sent. `said` is what is to be said when it is taken.
Change = collections.namedtuple("Change", "base entries copy ahead last said")

# How many milliseconds it takes to load a schedule, and how many nanoseconds the comparison of a super frame takes.
Pace = collections.namedtuple("Pace", "loading comparing")
LOADED = 3


class Refusal(collections.namedtuple("Refusal", "texts what")):
    """Why a change isn't taken, each reason by itself, and what goes on."""


class Follower(threading.Thread):
    """A thread beside the playout. What it finds is in `found`, and a byte is written to `wakes`; after a change it waits for the playout's verdict."""

    def __init__(self, options, follows, checks, copies, playing):
        super().__init__(daemon=True)
        self.options, self.follows, self.checks, self.copies, self.playing = options, follows, checks, copies, playing
        self.found, self.verdicts = queue.SimpleQueue(), queue.SimpleQueue()
        self.readable, self.wakes = os.pipe()
        os.set_blocking(self.wakes, False)
        self.refusals, self.last_refusals = [], []
        # Whether what has changed wasn't judged to the end.
        self.is_owed = False

    def run(self):
        does = self.measures
        while True:
            copy = self.playing().copy
            try:
                does()
                does = self.looks
                time.sleep(LOOK_SECONDS)
            except Exception as fault:  # pylint: disable=broad-except
                # Whatever it is, what is on the air goes on, and it is looked at again; it may be of a copy that is gone meanwhile.
                refusal = Refusal([f"{type(fault).__name__}: {fault}"], "what is there can't be judged")
                if refusal not in self.last_refusals and self.playing().copy is copy:
                    self.passes(refusal)
                self.last_refusals = [refusal]
                time.sleep(PAUSE_SECONDS)

    def measures(self):
        """Hands over how long it takes to load what is on the air, and to compare it, by which a change has to be ahead of its super frame; or that it can't be
        compared. The machine may have been busy with something else once."""
        copy = self.playing().copy
        loading = min(changes.load_seconds(self.options.program, copy) for _ in range(LOADED))
        began = time.monotonic()
        try:
            changes.agreed(self.options.program, copy, copy)
            self.passes(Pace(int(loading * 1000) + 1, int((time.monotonic() - began) * 1e9 / copy.content.schedule.length)))
        except changes.Refused as fault:
            self.passes(Refusal(fault.texts, "no change can be taken"))

    def paths(self, playing):
        """What is followed: the list, its schedules, and the files of what is sent now and next."""
        files = [path for one in playing.entries[:2] for path in changes.files_of(one.text)]
        return list(dict.fromkeys([self.options.list, *(one.name for one in playing.entries), *files]))

    def looks(self):
        playing = self.playing()
        if self.follows.changed(self.paths(playing)) or self.is_owed:
            self.is_owed = True
            self.judges_all()
            self.is_owed = False
        elif playing.ahead is None and len(playing.entries) > 1:
            ahead = self.copies.of(playing.entries, 1)
            self.hands_over(Change(playing.copy, playing.entries, playing.copy, ahead, 0, []))

    def judges_all(self):
        """Judges what is there now, and hands over what can be taken of it; once more if meanwhile something else is on the air."""
        while True:
            self.refusals = []
            playing = self.playing()
            change = self.judged(playing)
            if self.playing().copy is not playing.copy:
                continue
            for refusal in self.refusals:
                if refusal not in self.last_refusals:
                    self.passes(refusal)
            self.last_refusals = self.refusals
            if change is None or self.hands_over(change):
                return

    def passes(self, what):
        self.found.put(what)
        try:
            os.write(self.wakes, b"x")
        except BlockingIOError:
            pass

    def hands_over(self, change):
        """Gives whether it was taken or refused; else something else was on the air by then."""
        self.passes(change)
        return self.verdicts.get()

    def refuses(self, texts, what):
        self.refusals.append(Refusal(texts, what))

    def listed(self, playing):
        """What the list has now from the schedule on that is sent, which has to be there at its moment; None if it is wrong, which is said."""
        one = playing.entries[0]
        try:
            entries, warnings = playlists.read(self.options.list, self.checks, self.options.pace, self.options.live, self.options.interleaved, self.options.fits)
            at = [place for place, other in enumerate(entries) if is_same(one, other)]
            if not at:
                raise playlists.Wrong([f"{self.options.list} {one.name} of {playlists.moment(one.begin)} isn't in it as it was; what is on air or next changes by a new start alone"])
            return entries[at[0]:], warnings
        except OSError as fault:
            texts = [command_line.reason(fault)]
        except playlists.Wrong as fault:
            texts = list(changes.said_of(fault))
        self.refuses(texts, "the changed list is refused")
        return None, []

    def alone(self, playing):
        """The entries with the schedule on the air as it is now, where the list can't be taken: nothing that is wrong behind it keeps an alarm from the
        air. One that has become longer waits for the list."""
        one = playing.entries[0]
        try:
            now = playlists.entry(self.checks, one.line, playlists.moment(one.begin), one.name)
        except playlists.Wrong:
            return playing.entries
        same = (now.number, now.count, now.super_frames) == (one.number, one.count, one.super_frames)
        fits = not self.options.fits or not self.checks.unfit(now.name, now.text)
        return [now, *playing.entries[1:]] if same and fits else playing.entries

    def judged(self, playing):
        """The change that can be taken of what is there now; None if there is none. What can't be taken is in `refusals`."""
        entries, warnings = self.listed(playing)
        if entries is None:
            entries = self.alone(playing)
        try:
            copy, last = self.copied(playing, entries)
        except changes.Refused as fault:
            self.refuses(fault.texts, f"the changed {entries[0].name} is refused")
            if entries[0].super_frames != playing.entries[0].super_frames:
                return None
            # Of the list all else is taken.
            entries = [playing.entries[0], *entries[1:]]
            copy, last = playing.copy, 0
            if [one.text for one in entries[1:2]] != [one.text for one in playing.entries[1:2]]:
                copy, last = self.copied(playing, entries)
        ahead = self.ahead(playing, entries)
        if copy is playing.copy and ahead is playing.ahead and plain(entries) == plain(playing.entries):
            return None
        said = [*warnings, *(f"{self.options.list} {text}" for text in self.copies.seams.warnings(entries))]
        return Change(playing.copy, entries, copy, ahead, last, said)

    def ahead(self, playing, entries):
        """The copy of what is sent next; the one before where it can't be made."""
        try:
            return self.copies.of(entries, 1, playing.ahead) if len(entries) > 1 else None
        except changes.Refused as fault:
            self.refuses(fault.texts, f"the changed {entries[1].name} can't be copied")
            return playing.ahead

    def copied(self, playing, entries):
        """The copy that is to be sent, and at which super frame it can take over at the latest; None where nothing was sent."""
        if not playing.reached:
            return self.copies.of(entries, 0, playing.copy), None
        return self.copies.behind(entries, playing.copy, playing.reached, playing.soon)


def plain(entries):
    """Entries but for the lines on which they stand."""
    return [one._replace(line=0) for one in entries]


def is_same(one, other):
    """Whether two entries are of one schedule that begins at one moment with the same numbers."""
    return (one.begin, one.name, one.number, one.count) == (other.begin, other.name, other.number, other.count)
