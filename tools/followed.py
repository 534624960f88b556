"""The files that a playout follows: which of them have changed, and may be read."""
import os
import time

STILL_SECONDS = 0.5


def mark(path):
    """What tells one state of a file from another; None if it isn't there."""
    try:
        state = os.stat(path)
    except OSError:
        return None
    return state.st_ino, state.st_size, state.st_mtime_ns, state.st_ctime_ns


def came_by_rename(before, after):
    """Whether a file took the place of another one whole. Then it is another one, and its state changed behind its last byte; what is written under a
    new file's own name has both moments in one."""
    return before is not None and before[0] != after[0] and after[3] > after[2]


class Followed:
    """The states in which files were taken. A file that came by rename is taken at once, another one when it has stood still for half a second; one that
    isn't there is waited for, since an editor may take it away before the next one comes."""

    def __init__(self, clock=time.monotonic):
        self.clock = clock
        self.taken, self.seen = {}, {}

    def takes(self, path):
        """Takes a file as it is now, without a look at what it was."""
        self.taken[path] = mark(path)

    def is_still(self, path):
        """Whether a file is as it was taken, so that what was read of it holds."""
        return mark(path) == self.taken.get(path)

    def moves(self, path):
        """Whether a file has changed, and may not be read yet."""
        now = mark(path)
        before = self.taken.get(path)
        return now is not None and now != before and not self.stands(path, before, now)

    def stands(self, path, before, now):
        """Whether a file that has changed may be read."""
        if came_by_rename(before, now):
            return True
        seen = self.seen.get(path)
        if seen is None or seen[0] != now:
            self.seen[path] = seen = now, self.clock()
        return self.clock() - seen[1] >= STILL_SECONDS

    def changed(self, paths):
        """Those that have changed and may be read, which are taken with this; those that weren't followed before count as changed."""
        found = []
        for path in paths:
            now = mark(path)
            if path not in self.taken:
                self.taken[path] = now
                found.append(path)
            elif now is not None and now != self.taken[path] and self.stands(path, self.taken[path], now):
                self.taken[path] = now
                self.seen.pop(path, None)
                found.append(path)
        return found
