"""The piece of each frame of a schedule: its own content, and what comes of live streams in the place of theirs."""
import bisect
import os
import select
import stat

import schedules
from schedules import FRAMES


class Content:
    """The content of a schedule's streams, frame by frame. The names of its files hold from this folder on."""

    def __init__(self, text, folder, live):
        self.folder, self.live = folder, live
        self.schedule = schedules.Schedule(text)
        self.starts = [FRAMES * config.start for config in self.schedule.configurations]
        # The files of the configuration that was asked for last.
        self.opened, self.opened_for = {}, None

    def place(self, frame):
        """The configuration of a frame, and which of its frames this is."""
        at = bisect.bisect_right(self.starts, frame) - 1
        return self.schedule.configurations[at], frame - self.starts[at]

    def sizes(self, frame):
        return [stream.size for stream in self.place(frame)[0].streams]

    def size(self, frame):
        return sum(self.sizes(frame))

    def live_size(self, frame):
        """The bytes that its live streams take for this frame."""
        return sum(size for number, size in enumerate(self.sizes(frame)) if number in self.live)

    def close(self):
        for descriptor in self.opened.values():
            os.close(descriptor)
        self.opened = {}

    def own(self, frame, number):
        """What a stream has of itself in a frame."""
        config, behind = self.place(frame)
        stream = config.streams[number]
        if stream.file is None:
            return stream.fill * stream.size
        if self.opened_for is not config:
            self.close()
            self.opened_for = config
        if number not in self.opened:
            self.opened[number] = os.open(os.path.join(self.folder, stream.file), os.O_RDONLY)
        return os.pread(self.opened[number], stream.size, behind * stream.size)

    def piece(self, frame, came=None):
        """The bytes of all streams of a frame; the live ones have what came, or else their own."""
        found, at = [], 0
        for number, size in enumerate(self.sizes(frame)):
            if came is not None and number in self.live:
                found.append(came[at:at + size])
                at += size
            else:
                found.append(self.own(frame, number))
        return b"".join(found)

    def live_runs(self):
        """From which frame on the live streams have which sizes."""
        runs = []
        for start, config in zip(self.starts, self.schedule.configurations):
            sizes = tuple(config.streams[number].size if number < len(config.streams) else 0 for number in self.live)
            if not runs or runs[-1][1] != sizes:
                runs.append((start, sizes))
        return runs


class Encoder:
    """What comes of the live streams, cut into pieces. `held` is what came of the next one; `late` is how many bytes are still to come of one
    that was replaced. A piece that is waited for longer than a second is replaced, and none is waited for until a whole one is there again:
    were the pieces behind it dropped too, an encoder that writes all the time would never come back."""

    def __init__(self, descriptor):
        self.descriptor = descriptor
        self.held, self.late = b"", 0
        self.is_awaited, self.has_ended = True, False
        self.is_file = stat.S_ISREG(os.fstat(descriptor).st_mode)

    def reads(self, size):
        """Whether there is something to be read for a piece of so many bytes. Never more is, so that what writes is held up by its pipe."""
        return not self.has_ended and (self.late > 0 or len(self.held) < size)

    def has_come(self):
        """Whether there is something to be read now."""
        poll = select.poll()
        poll.register(self.descriptor, select.POLLIN)
        return bool(poll.poll(0))

    def read(self, size):
        """Takes what has come; asked where a read doesn't wait."""
        came = os.read(self.descriptor, self.late or size - len(self.held))
        if not came:
            self.has_ended = True
            self.held, self.late = b"", 0
        elif self.late:
            self.late -= len(came)
        else:
            self.held += came

    def is_whole(self, size):
        return not self.late and len(self.held) >= size

    def taken(self, size):
        """The piece that is whole."""
        came, self.held = self.held[:size], self.held[size:]
        self.is_awaited = True
        return came

    def is_replaced(self, size):
        """What came of the next piece is nobody's, nor is what will come of it."""
        if self.held:
            self.held, self.late = b"", size - len(self.held)
        self.is_awaited = False

    def drops_whole(self, size):
        """Drops a piece that is whole, where no server wants it. Of what begins later nothing is dropped, so the next frame has a whole piece."""
        if size and self.is_whole(size):
            self.held = self.held[size:]
