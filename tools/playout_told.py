"""What a playout says, writes and notes of itself: where it is, when its list ends, and how its servers fail."""
import os
import time

import command_line
import metrics
import playlists
import sending
from playlists import FRAMES, following, moment, now

FOR_GOOD = (2, 3, 4)
START_MILLIS, LOADING_MILLIS, LOOK_SECONDS = 50, 100, 5.0
# When it is said that the list ends, in minutes before.
AHEAD_MINUTES = (60, 10)


def say(text):
    sending.say(now(), text)


def place(one, pace, at):
    """The super frame with which a schedule can be begun from this moment on, and its moment."""
    lasts = FRAMES * pace
    later = max(0, -((one.begin - at) // lasts))
    return later, one.begin + later * lasts


class Told(sending.Sending):
    """A playout's entries, the first of which is on air or waited for. `reached` is the first super frame of it of which nothing was sent, `loading` the
    milliseconds that it takes to load a schedule, which is measured soon, and `comparing` the nanoseconds that the comparison of a super frame takes."""

    def __init__(self, options, entries, lasts, copies, stop):
        super().__init__(options, stop)
        self.entries, self.lasts, self.copies = entries, lasts, copies
        self.written = metrics.Metrics(options.metrics, options.link, metrics.PLAYOUT_METRICS)
        self.reached, self.loading, self.comparing = 0, LOADING_MILLIS, 0
        self.is_fixed = self.on_air = False
        self.failures = self.taken = self.refused = 0
        self.said_end, self.said_seam = (0, 0), None
        self.due = time.monotonic()

    def now(self):
        return self.clock.now()

    def needs(self):
        """The milliseconds after which a server that is started now has loaded its schedule, in all likelihood."""
        return START_MILLIS + 2 * self.loading

    def end(self):
        return following(self.entries[-1], self.options.pace)[0]

    def last(self, entries=None):
        """The super frame before which the schedule on the air ends: where the next one begins, at the latest."""
        one, *behind = entries or self.entries
        return min([one.super_frames, *((other.begin - one.begin) // (FRAMES * self.options.pace) for other in behind[:1])])

    def begin(self):
        return self.entries[0].begin

    def meanwhile(self):
        """What is done each five seconds: says when the list ends, and writes what there is to see."""
        if time.monotonic() < self.due:
            return
        self.due = time.monotonic() + LOOK_SECONDS
        if not self.is_fixed:
            self.clock.read()
        self.says_end()
        self.says_seam()
        self.written.write(self.state())

    def says_end(self):
        """Says once an hour before the list's end, and once ten minutes, that it ends."""
        left = self.end() - self.now()
        passed = [minutes for minutes in AHEAD_MINUTES if 0 < left <= minutes * 60_000]
        if passed and self.said_end != (self.end(), min(passed)):
            self.said_end = (self.end(), min(passed))
            minutes = -(-left // 60_000)
            say(f"the list ends at {moment(self.end())}, in {minutes} minute{'' if minutes == 1 else 's'}; then nothing is on air")

    def says_seam(self):
        """Says once, an hour ahead, that the next schedule is a reconfiguration that isn't announced."""
        pair = tuple((one.begin, one.text) for one in self.entries[:2])
        if len(pair) < 2 or pair == self.said_seam or pair[1][0] - self.now() > playlists.HOUR_MILLIS:
            return
        self.said_seam = pair
        seam = self.copies.seams.known.get((pair[0][1], pair[1][1]))
        if seam and seam.why:
            command_line.complain(f"{self.options.list} {self.copies.seams.warning(*self.entries[:2], seam)}")

    def state(self):
        """What there is to see, by the names of the metrics."""
        one, at = self.entries[0], self.now()
        due = (at - one.begin) // (FRAMES * self.options.pace)
        return {
            "playout_due": int(one.begin <= at < following(one, self.options.pace)[0]), "playout_on_air": int(self.on_air),
            "playout_super_frame": min(max(due, 0), one.super_frames - 1),
            "playout_list_seconds": max(0.0, (self.end() - at) / 1000), "playout_failures_total": self.failures, "playout_changes_taken_total": self.taken,
            "playout_changes_refused_total": self.refused, "playout_written_timestamp_seconds": at / 1000,
        }

    def notes(self, **more):
        """Notes what lasts."""
        one, copy = self.entries[0], self.copy
        self.lasts.notes(begin=one.begin, name=one.name, path=os.path.abspath(one.name), folder=os.getcwd(), pace=self.options.pace, copy=copy.number, announces=copy.announces,
                         reached=self.reached, super_frames=self.last(), loading=self.loading, needs=self.needs(), comparing=self.comparing,
                         process=os.getpid(), **more)

    def says_announced(self):
        if self.copy.announces:
            _, name, countdown = self.copy.announces
            say(f"{name} is a reconfiguration, and is announced {countdown} super frame{'' if countdown == 1 else 's'} ahead")
        elif len(self.entries) > 1:
            seam = self.copies.seams.known.get((self.entries[0].text, self.entries[1].text))
            if seam and seam.countdown:
                command_line.complain(f"{self.entries[1].name} is a reconfiguration, and it is too late to announce it")

    def tells_failure(self, status):
        """Says that a server failed, and why; not again each second if the next one fails in the same way."""
        self.failures += 1
        before, self.fault = self.fault, (status, self.heard)
        if self.fault != before:
            if before is not None:
                self.passes_on(self.heard)
            again = "" if status in FOR_GOOD else "; one is begun each second, until one is on air again"
            command_line.complain(f"drmcast serve of {self.entries[0].name} ended with status {status}{again}")

    def recovers(self):
        """Says that a server is on air after one that failed."""
        if self.fault is not None:
            self.fault = None
            self.passes_on(self.server.heard if self.server else self.heard)
            say(f"on air again: {self.entries[0].name}")
