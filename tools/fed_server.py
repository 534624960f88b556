"""A server whose streams are all live, and come through a pipe: how far it is is known by what it has taken of that.

`drmcast serve --live` reads the piece of a frame whole before it sends anything of the frame, and nothing of the next piece before all of the
frame is sent. So a server that has taken a byte of a piece has sent every frame before, and as long as it hasn't taken the last byte of it,
nothing of that frame or a later one. A pipe stands between: what is written isn't taken yet. But the kernel says how many bytes lie in the pipe
(FIONREAD), and it has only what was written and not yet read; the server reads straight from it, and never past its piece. So what was
written less what lies there is what was taken, however many pieces were written ahead, and nothing lies there if and only if the last byte that was
written is taken. To end a server at a frame, one byte of its piece is written as the last one, and when it is gone from the pipe the server waits
for the rest, which never comes.
"""
import fcntl
import os
import signal
import struct
import subprocess
import termios
import time

try:
    import ctypes
    LIBC = ctypes.CDLL(None, use_errno=True)
except (ImportError, MemoryError, OSError):
    # Where a unit's walls refuse it, systemd ends what is left of the unit itself.
    LIBC = None

ALL_STREAMS = "0,1,2,3"
PR_SET_PDEATHSIG = 1


def dies_with(parent):
    """What a process that was just started calls, so that it ends when its parent does, however that ends. The signal comes when the thread ends that
    started it, so servers are started by the main thread alone."""
    def begin():
        if LIBC is not None:
            LIBC.prctl(PR_SET_PDEATHSIG, signal.SIGKILL, 0, 0, 0)
        if os.getppid() != parent:
            os._exit(128 + signal.SIGKILL)
    return begin


class Server:
    """A server that sends a copy's frames from this one on. `begun` is when the first piece was whole, and `wrote` when the last one was, by the
    clock that nobody sets. It is `slow` if it began late, and has no pace: its pieces are what keeps it."""

    def __init__(self, words, copy, first, slow=False):
        self.copy, self.first, self.slow = copy, first, slow
        self.begun = self.wrote = None
        self.heard, self.is_silent = b"", False
        # It writes nothing to its output, which ends with it.
        self.process = subprocess.Popen(words, cwd=copy.folder, stdin=subprocess.PIPE, stdout=subprocess.PIPE, stderr=subprocess.PIPE, bufsize=0,
                                        preexec_fn=dies_with(os.getpid()))
        os.set_blocking(self.process.stdin.fileno(), False)

    def end_descriptor(self):
        """The descriptor that has an end when it has ended."""
        return self.process.stdout.fileno()

    def words_descriptor(self):
        """The descriptor from which it is heard; none once it will say nothing any more."""
        return None if self.is_silent else self.process.stderr.fileno()

    def lies_in_pipe(self):
        """The bytes that were written and not taken."""
        return struct.unpack("i", fcntl.ioctl(self.process.stdin.fileno(), termios.FIONREAD, b"\0\0\0\0"))[0]

    def takes(self, data):
        """Writes what the pipe has room for; gives the rest."""
        try:
            return data[os.write(self.process.stdin.fileno(), data):]
        except BlockingIOError:
            return data

    def has_whole(self):
        """Notes that a piece was written whole."""
        self.wrote = time.monotonic()
        self.begun = self.begun or self.wrote

    def is_waiting(self):
        """Whether it sleeps, as a server does that has loaded its schedule and reads its first piece. That is no promise, and nothing rests on it but
        that a change comes without a gap."""
        try:
            with open(f"/proc/{self.process.pid}/stat", encoding="ascii", errors="replace") as file:
                return file.read().rpartition(")")[2].split()[0] == "S"
        except OSError:
            return True

    def status(self):
        """That of a process that has ended, as a shell has it; None while it runs."""
        ended = self.process.poll()
        return ended if ended is None or ended >= 0 else 128 - ended

    def ended(self):
        """The status of one that ends by itself."""
        self.process.wait()
        return self.status()

    def ends(self):
        """Ends it, wherever it is; gives what it has said since it was heard."""
        self.process.kill()
        self.process.wait()
        said = self.says()
        for each in (self.process.stdin, self.process.stdout, self.process.stderr):
            each.close()
        return said

    def says(self):
        """Takes what it has said by now; asked when it has said something, or has ended."""
        said = os.read(self.process.stderr.fileno(), 1 << 16)
        self.heard += said
        self.is_silent = not said
        return said


def words_of(options, name, first, until=None, pace=None):
    """The words of a server: from a super frame on, to the end of its text, or up to another super frame."""
    return [options.program, "serve", "--to", options.to, "--pace", str(options.pace if pace is None else pace), "--live", ALL_STREAMS,
            *(["--from", str(first)] if first else []), *(["--until", str(until)] if until is not None else []), "--", name]
