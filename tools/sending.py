"""Sends frames at their moments: feeds a server with their pieces, and puts another one in its place where its place is known."""
import contextlib
import select
import sys
import time

import command_line
import pieces
from playlists import moment
from schedules import FRAMES

LATE_SECONDS, POLL_SECONDS = 1.0, 0.002
# What two clocks that are read one after the other may differ by, though none was set.
SET_SECONDS = 0.05
# A server that began late catches up four times as fast as the pace, as one does that was held up.
CATCH_UP = 4


class Over(Exception):
    """A wish to end, or the end of what feeds the live streams."""


class Ended(Exception):
    """A server has ended, and wasn't asked to."""


def say(at, text):
    print(f"{moment(at // 1000 * 1000)} {text}", flush=True)


class Clock:
    """The time of day, counted by the clock that nobody sets since it was last read: so what is on the air doesn't jump where the clock is set."""

    def __init__(self):
        self.ahead = time.time() - time.monotonic()

    def read(self):
        """Reads the time of day anew, which may have been set."""
        ahead = time.time() - time.monotonic()
        if abs(ahead - self.ahead) > SET_SECONDS:
            self.ahead = ahead

    def now(self):
        return int((time.monotonic() + self.ahead) * 1000)

    def at(self, millis):
        """A moment of the day by the clock that nobody sets."""
        return millis / 1000 - self.ahead


class Sending:
    """A server at work, if there is one, and the next one, which has loaded its text and waits for its first piece. `frame` is the frame of the schedule on
    the air whose piece is given next."""

    def __init__(self, options, stop):
        self.options, self.stop = options, stop
        self.clock = Clock()
        self.pace = options.pace / 1000
        self.encoder = pieces.Encoder(sys.stdin.fileno()) if options.live else None
        self.copy, self.frame = None, 0
        self.server, self.successor = None, None
        self.heard_of_late, self.live = True, None
        self.moments = open(options.moments, "a", encoding="ascii", buffering=1) if options.moments else None
        # What the last server said before it failed, with its status.
        self.fault, self.heard = None, b""

    def begin(self):
        """When the schedule on the air begins; that of a playout, as what follows."""
        raise NotImplementedError

    def meanwhile(self):
        """What is done while nothing is due."""

    def comes(self, descriptor):
        """Takes what came there."""

    def others(self):
        """The descriptors of what else is waited for."""
        return []

    def moment(self, frame):
        """When a frame of the schedule on the air is due, by the clock that nobody sets."""
        return self.clock.at(self.begin() + frame * self.options.pace)

    def lead(self):
        """How long before its frame's moment a piece is given."""
        return self.pace / 2

    def watched(self):
        """The descriptors that are waited for."""
        watched = {self.stop.readable: select.POLLIN, **{each: select.POLLIN for each in self.others()}}
        # The end of the one that waits is seen when it is wanted.
        servers = [server for server in (self.server, self.successor) if server is not None]
        watched.update({server.words_descriptor(): select.POLLIN for server in servers if not server.is_silent})
        if self.server is not None:
            watched[self.server.end_descriptor()] = select.POLLIN
        if self.encoder is not None:
            if self.encoder.reads(self.wanted()) and (self.server is not None or not self.encoder.is_file):
                watched[self.encoder.descriptor] = select.POLLIN
            elif self.options.interleaved:
                # Of the input it is only asked whether it has lost its writers.
                watched[self.encoder.descriptor] = 0
        return watched

    def wanted(self):
        """The bytes of live streams that the next frame has."""
        return self.copy.content.live_size(self.frame) if self.copy is not None else 0

    def rest(self, until):
        """Waits up to this moment, or until something came, and takes that."""
        self.meanwhile()
        poll = select.poll()
        watched = self.watched()
        for descriptor, events in watched.items():
            poll.register(descriptor, events)
        # A poll counts whole milliseconds, and would be over too early or too late by up to one.
        left = max(0.0, until - time.monotonic())
        ready = poll.poll(int(left * 1000))
        if not ready and left < 0.001:
            time.sleep(max(0.0, until - time.monotonic()))
        for descriptor, events in ready:
            self.takes(descriptor, events)
        if self.stop.asked:
            raise Over
        if self.server is not None and self.server.end_descriptor() in (each for each, _ in ready):
            raise Ended

    def takes(self, descriptor, events):
        if self.encoder is not None and descriptor == self.encoder.descriptor:
            self.encoder_comes(events)
        elif self.server is not None and descriptor == self.server.words_descriptor():
            self.hears(self.server)
        elif self.successor is not None and descriptor == self.successor.words_descriptor():
            self.successor.says()
        elif descriptor in self.others():
            self.comes(descriptor)

    def encoder_comes(self, events):
        size = self.wanted()
        if events & select.POLLIN or not self.options.interleaved:
            self.encoder.read(size)
        else:
            self.encoder.has_ended = True
        if self.server is None:
            self.encoder.drops_whole(size)
        if self.encoder.has_ended and self.options.interleaved:
            raise Over

    def hears(self, server):
        """Passes on what a server says, unless the one before it failed: then only what is new is said, at its end."""
        said = server.says()
        if self.fault is None:
            self.passes_on(said)

    def passes_on(self, said):
        with contextlib.suppress(OSError):
            sys.stderr.buffer.write(said)
            sys.stderr.buffer.flush()

    def live_piece(self, frame):
        """What came of the live streams for this frame; None if that was too late, or nothing comes any more. It is the same however often it is asked."""
        if self.live is None or self.live[0] != frame:
            self.live = frame, self.next_piece(frame)
        return self.live[1]

    def next_piece(self, frame):
        """The next live piece. An encoder is waited for up to a second once; then no frame waits until a whole piece is there again, so the frames are
        at their moments again."""
        size = self.copy.content.live_size(frame)
        if not size or self.encoder is None:
            return None
        until = self.moment(frame) + (LATE_SECONDS if self.encoder.is_awaited else 0)
        # What came while this was held up isn't late.
        while not self.encoder.is_whole(size) and not self.encoder.has_ended and (time.monotonic() < until or self.encoder.has_come()):
            self.rest(until)
        if self.encoder.is_whole(size):
            self.says_of_encoder("are back", frame, True)
            return self.encoder.taken(size)
        self.says_of_encoder("have ended, and are replaced" if self.encoder.has_ended else "are late, and are replaced", frame, False)
        self.encoder.is_replaced(size)
        return None

    def says_of_encoder(self, what, frame, in_time):
        if in_time != self.heard_of_late:
            command_line.complain(f"the live streams {what} from super frame {frame // FRAMES} of {self.copy.entry.name} on")
        self.heard_of_late = in_time

    def gives(self, frame):
        """Gives the server the piece of a frame: a little before its moment; but the first one at it, since a server begins at once."""
        server = self.server
        due = self.moment(frame) - (0 if server.begun is None or server.slow else self.lead())
        if server.slow and server.wrote is not None:
            due = max(due, server.wrote + self.pace / CATCH_UP)
        while time.monotonic() < due:
            self.rest(due)
        self.writes(server, self.copy.content.piece(frame, self.live_piece(frame)))
        server.has_whole()
        if self.moments:
            print(self.copy.entry.name, self.copy.entry.number + frame, f"{server.wrote:.4f} {self.moment(frame):.4f}", file=self.moments)

    def writes(self, server, data):
        """Writes all of it; a pipe that is full is waited for."""
        while data:
            try:
                data = server.takes(data)
            except BrokenPipeError:
                raise Ended from None
            if data:
                self.rest(time.monotonic() + POLL_SECONDS)

    def ends_before(self, frame):
        """Ends the server before this frame, with all before it sent; gives whether it is certain that nothing of this one was. The byte may be any, since
        the frame is never sent of it; but a piece of one byte is whole with it, and has to be the right one."""
        server = self.server
        size = self.copy.content.size(frame)
        try:
            self.writes(server, b"\0" if size > 1 else self.copy.content.piece(frame, self.live_piece(frame)))
            while server.lies_in_pipe():
                self.rest(max(self.moment(frame - 1), time.monotonic() + POLL_SECONDS))
        except Ended:
            # It has ended by itself: of this frame it has no piece.
            size = 0
        said = server.ends()
        if self.fault is None:
            self.passes_on(said)
        self.server = None
        # The frame of a piece of one byte may have been sent once its moment has come, which is never before this one.
        return size != 1 or time.monotonic() < server.begun + (frame - server.first) * self.pace

    def lateness(self):
        """By how much the server began behind its moment, in seconds."""
        return self.server.begun - self.moment(self.server.first)
