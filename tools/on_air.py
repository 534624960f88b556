"""What is on the air: the schedules of a list, one after another, each by a server that is exchanged where it changes."""
import os
import time

import changes
import command_line
import fed_server
import follower
import playout_told
from playlists import FRAMES, following, moment
from playout_told import FOR_GOOD, LOOK_SECONDS, place, say
from sending import Ended, Over

UNREADABLE, LIST_ENDED, INPUT_ENDED = 4, 9, 10
PLAYED = (0, 7)
RETRY_SECONDS = 1.0
# A server that begins later than this, and than the pace, is to catch up; and how often an exchange waits for a better moment.
MOST_LATE_SECONDS, MOST_POSTPONED = 0.1, 5


class Playout(playout_told.Told):
    """Sends the entries that are left, the first of which is on air or waited for."""

    def __init__(self, options, entries, lasts, copies, stop):
        super().__init__(options, entries, lasts, copies, stop)
        self.ahead = self.change = self.at = self.follower = None
        self.began, self.is_taking_over, self.postponed = 0.0, False, 0

    # What has changed.

    def others(self):
        return [self.follower.readable] if self.follower else []

    def comes(self, descriptor):
        """Something was found; it is taken with the next rest."""
        os.read(descriptor, 4096)

    def meanwhile(self):
        super().meanwhile()
        if self.follower and not self.is_taking_over:
            self.takes_found()

    def takes_found(self):
        """Takes what the follower has found. While one server takes over from another none is prepared: it would be in the place of that one."""
        while not self.follower.found.empty():
            found = self.follower.found.get()
            if isinstance(found, follower.Refusal):
                self.refuses(found)
            elif isinstance(found, follower.Pace):
                self.loading, self.comparing = found
                self.notes()
            else:
                self.plans(found)

    def playing(self):
        return follower.Playing(tuple(self.entries), self.copy, self.ahead, self.reached, self.soon())

    def soon(self):
        """The first super frame at which another server can be had for certain."""
        return max(self.reached, place(self.entries[0], self.options.pace, self.now() + self.needs())[0])

    def refuses(self, found):
        self.refused += 1
        for text in found.texts:
            command_line.complain(text)
        say(f"{found.what}; what is on the air goes on, and the list ends at {moment(self.end())}")
        self.notes(judged=self.judged(), refused=found.texts)

    def judged(self):
        """The state of the schedule's file that was judged last."""
        return self.follower.follows.taken.get(self.entries[0].name) if self.follower else None

    def plans(self, change):
        """Takes a change that changes nothing of what is on the air, or that comes where nothing is; or prepares the server that takes over."""
        if change.base is not self.copy or change.last is None and self.reached:
            # It was judged beside something that isn't on the air any more, or before anything was.
            self.follower.verdicts.put(False)
            return
        if change.copy is self.copy or self.server is None and (not self.reached or change.last >= self.reached):
            self.adopts(change)
            return
        at = min(self.soon(), change.last, self.last())
        if at < self.reached:
            self.comes_too_late(change)
        elif at == self.last() == change.entries[0].super_frames:
            # Nothing of it would be sent.
            self.adopts(change._replace(copy=self.copy))
        else:
            self.change, self.postponed = change, 0
            self.prepares(at)

    def refuses_change(self, change, text):
        self.refuses(follower.Refusal([text], f"the changed {change.entries[0].name} is refused"))
        self.follower.verdicts.put(True)

    def comes_too_late(self, change):
        self.refuses_change(change, changes.disagrees(change.copy, change.last, self.reached, self.soon()))

    def adopts(self, change):
        """Takes a change; the servers that are begun from now on are of it."""
        changed = follower.plain(change.entries) != follower.plain(self.entries)
        was, self.copy = self.copy, change.copy
        if was is not self.copy:
            was.content.close()
        self.entries, self.ahead = list(change.entries), change.ahead
        if changed or change.copy is not was:
            self.taken += 1
            for text in change.said:
                command_line.complain(text)
            say(f"the list has changed, and ends at {moment(self.end())}" if change.copy is was else
                f"{self.entries[0].name} has changed, and is sent as it is now from super frame {self.frame // FRAMES} on; the list ends at {moment(self.end())}")
            self.says_announced()
        if self.successor is not None and self.successor.copy is not self.ahead:
            self.drops_successor()
        self.notes(judged=self.judged(), refused=[])
        self.drops_copies()
        self.follower.verdicts.put(True)

    def drops_copies(self):
        """Removes the copies of which nothing is sent any more."""
        servers = [server for server in (self.server, self.successor) if server is not None]
        kept = {copy.number for copy in (self.copy, self.ahead, *(server.copy for server in servers)) if copy is not None}
        self.lasts.drops_all_but(kept)
        self.copies.forgets_all_but(kept)

    # Servers.

    def server_of(self, entries, copy, first, slow=False):
        """A server of a copy from a super frame on, which waits for its first piece."""
        until = self.last(entries)
        until = until if copy.announces or until < copy.entry.super_frames else None
        words = fed_server.words_of(self.options, copy.name, first, until, 0 if slow else None)
        return fed_server.Server(words, copy, FRAMES * first, slow)

    def prepares(self, at, slow=False):
        """Starts the server that takes over at this super frame: of the change, or of what is on the air."""
        self.drops_successor()
        self.at = at
        try:
            self.successor = self.server_of(*(self.change.entries, self.change.copy) if self.change else (self.entries, self.copy), at, slow)
        except OSError as fault:
            self.gives_up(command_line.reason(fault))

    def prepares_next(self):
        """Starts the server of the schedule behind; what can't be copied is said when its moment has come."""
        try:
            self.ahead = self.ahead or self.copies.of(self.entries, 1)
            self.successor = self.server_of(self.entries[1:], self.ahead, 0)
            self.at = self.last()
        except (changes.Refused, OSError):
            return

    def drops_successor(self):
        if self.successor is not None:
            self.successor.ends()
            self.successor = None

    def starts(self):
        """Begins a server at the super frame that is due, and not below the one that was reached; gives whether there is one."""
        while True:
            one, at, ahead = self.entries[0], self.now(), self.clock.ahead
            due, _ = place(one, self.options.pace, at if at <= one.begin else at + self.needs())
            self.frame = FRAMES * max(due, self.reached)
            if self.reached > due:
                say(f"super frame {self.reached} of {one.name} was reached, and {due} is due by the clock; it is waited for until {moment(one.begin + self.frame * self.options.pace)}")
            while time.monotonic() < self.moment(self.frame) - self.needs() / 1000 and self.frame < FRAMES * self.last() and self.clock.ahead == ahead:
                self.rest(min(self.moment(self.frame) - self.needs() / 1000, time.monotonic() + LOOK_SECONDS))
            if self.frame >= FRAMES * self.last():
                return False
            if self.clock.ahead == ahead:
                break
        self.is_fixed = True
        self.server = self.server_of(self.entries, self.copy, self.frame // FRAMES)
        self.says_begun()
        return True

    def says_begun(self):
        one = self.entries[0]
        if self.fault is None:
            say(f"begins: {one.name}, super frame {self.frame // FRAMES} of {one.super_frames}, until {moment(following(one, self.options.pace)[0])}")
            self.says_announced()
        self.on_air, self.began = True, time.monotonic()
        self.written.write(self.state())

    def feeds(self):
        """Gives the pieces of the schedule on the air to its end."""
        while True:
            if self.frame % FRAMES == 0:
                self.at_super_frame(self.frame // FRAMES)
                if self.frame >= FRAMES * self.last():
                    return
                self.reached = self.frame // FRAMES + 1
                self.notes()
            self.gives(self.frame)
            self.frame += 1
            if self.fault is not None and time.monotonic() - self.began > LOOK_SECONDS:
                self.recovers()

    def at_super_frame(self, number):
        """What is done before a super frame begins: another server takes over here, or is prepared for a later one."""
        if self.successor is not None and self.at == number and (self.change or number < self.last()):
            self.exchanges(number)
        near = -(-self.needs() // (FRAMES * self.options.pace)) + 1
        if self.successor is None and len(self.entries) > 1 and number >= self.last() - near:
            self.prepares_next()
        elif self.successor is None and self.server.begun is not None and number < self.last():
            self.catches_up()

    def catches_up(self):
        """A server keeps its moments from its first frame on, so one that began late stays late. Then one without a pace takes over, whose pieces
        come faster, and one with the pace again as soon as they are on time."""
        behind = time.monotonic() - self.moment(self.frame - 1)
        at = self.soon()
        if at < self.last() and (behind < self.pace / 2 if self.server.slow else self.lateness() > max(self.pace, MOST_LATE_SECONDS)):
            self.prepares(at, not self.server.slow)

    def exchanges(self, number):
        """Puts the successor in the place of the server, which has sent all frames before and nothing behind."""
        latest = min(self.change.last, self.last()) if self.change else self.last() - 1
        soon, status = max(self.soon(), number + 1), self.successor.status()
        is_ready = status is None and (self.successor.slow or not self.is_behind() and self.successor.is_waiting())
        if not is_ready and soon <= latest and self.postponed < MOST_POSTPONED:
            self.postponed += 1
            self.prepares(soon, self.successor.slow)
            return
        if status is not None and number < self.last():
            heard = self.successor.heard.decode(errors="replace").strip().replace("\n", "; ")
            self.gives_up(f"ended with status {status}: {heard}")
            return
        if not self.is_ended_before(number):
            self.begins_again(number, soon, latest)
            return
        self.server, self.successor = self.successor, None
        self.began = time.monotonic()
        change, self.change, self.postponed = self.change, None, 0
        if change:
            self.adopts(change)

    def is_ended_before(self, number):
        """Ends the server before a super frame, or waits for it where it ends there; gives whether it is certain that nothing behind was sent."""
        if number >= self.last():
            self.finishes()
            return True
        self.is_taking_over = True
        try:
            return self.ends_before(FRAMES * number)
        finally:
            self.is_taking_over = False

    def begins_again(self, number, soon, latest):
        """Goes on with what was on the air, from a super frame of which the first frame may have been sent: if so it is sent twice, and is the same. The
        change takes the next moment, if there is one."""
        self.drops_successor()
        self.server = self.server_of(self.entries, self.copy, number)
        if soon <= latest:
            self.prepares(soon)
        elif self.change:
            change, self.change, self.reached = self.change, None, number + 1
            self.comes_too_late(change)

    def gives_up(self, why):
        """Refuses a change whose server can't be had, or has ended where there is no time for another one."""
        self.drops_successor()
        change, self.change = self.change, None
        if change:
            self.refuses_change(change, f"drmcast serve of the changed {change.entries[0].name}: {why}")

    def is_behind(self):
        """Whether the server has frames to make up for, as after a halt; then another one would begin late."""
        return time.monotonic() - self.moment(self.frame) > self.pace + max(0.0, self.lateness())

    def finishes(self):
        """Waits for the end of the server, which has all its pieces; gives its status."""
        self.is_taking_over = True
        try:
            while True:
                self.rest(time.monotonic() + RETRY_SECONDS)
        except Ended:
            return self.closes()
        finally:
            self.is_taking_over = False

    def closes(self):
        """Takes the status of a server that has ended, and what it has said."""
        status = self.server.ended()
        said = self.server.ends()
        if self.fault is None:
            self.passes_on(said)
        self.heard = self.server.heard
        self.server, self.on_air = None, False
        return status

    def plays(self):
        """Sends the schedule on the air to its end; gives a status above 0 if it can't be sent at all."""
        while self.server is not None or self.starts():
            try:
                self.feeds()
                status = self.finishes()
            except Ended:
                status = self.closes()
            is_over = self.frame >= FRAMES * self.last()
            if status in PLAYED and is_over:
                self.recovers()
                return 0
            self.tells_failure(status)
            if status in FOR_GOOD:
                return status
            # One of several links may have failed; the others have the last frame by now.
            if is_over:
                self.fault = None
                return 0
            self.drops_successor()
            self.goes_back()
            pause = time.monotonic() + RETRY_SECONDS
            while time.monotonic() < pause:
                self.rest(pause)
        return 0

    def goes_back(self):
        """Takes a change that waited for its exchange where no server is at work any more."""
        change, self.change = self.change, None
        if change and change.last >= self.reached:
            self.adopts(change)
        elif change:
            self.comes_too_late(change)

    def moves_on(self):
        """Goes on with the schedule behind."""
        self.ahead = self.ahead or self.copies.of(self.entries, 1)
        if self.change:
            self.change = None
            self.drops_successor()
            self.follower.verdicts.put(False)
        self.copy.content.close()
        self.server, self.successor = self.successor, None
        self.entries, self.copy, self.ahead = self.entries[1:], self.server.copy if self.server else self.ahead, None
        self.frame = self.reached = 0
        if self.server is None and self.now() < self.begin() + FRAMES * self.options.pace:
            self.server = self.server_of(self.entries, self.copy, 0)
        self.notes()
        self.drops_copies()
        if self.server is not None:
            self.says_begun()

    def resumes(self):
        """Goes on where a playout before was, by what it has noted: with what was sent, as far as what is there now agrees with it."""
        at, record = self.now(), self.lasts.record()
        left = [one for one in self.entries if following(one, self.options.pace)[0] > at] or self.entries[-1:]
        noted = [place for place, one in enumerate(left) if record and (record["begin"], record["name"], record["pace"]) == (one.begin, one.name, self.options.pace)]
        self.entries = left[noted[0]:] if noted else left
        before = self.lasts.recorded(record, self.entries[0]) if noted else None
        if before is None:
            self.copy = self.copies.of(self.entries)
        else:
            self.reached = record["reached"]
            try:
                self.copy, _ = self.copies.behind(self.entries, before, self.reached, self.soon())
            except changes.Refused as fault:
                for text in fault.texts:
                    command_line.complain(text)
                say(f"{self.entries[0].name} isn't what was sent; that goes on")
                self.entries[0], self.copy = before.entry, before
        self.notes(judged=None, refused=[])
        self.drops_copies()

    def run(self):
        """Sends one schedule after another; gives the status of the script."""
        try:
            return self.sends_all()
        except Over:
            if self.stop.asked:
                say("stopped")
                return 0
            command_line.complain("standard input has lost its writer, so the live streams get nothing more")
            return INPUT_ENDED
        finally:
            self.on_air = False
            for server in (self.server, self.successor):
                if server is not None:
                    server.ends()
            self.written.write(self.state())

    def sends_all(self):
        while True:
            status = self.plays()
            if status:
                return status
            if len(self.entries) == 1:
                # What has come just now.
                self.rest(time.monotonic())
            if len(self.entries) == 1:
                say("the list has ended, and nothing is on air")
                return LIST_ENDED
            try:
                self.moves_on()
            except changes.Refused as fault:
                for text in fault.texts:
                    command_line.complain(text)
                return UNREADABLE
