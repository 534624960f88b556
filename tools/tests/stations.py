"""A program that stands in for `drmcast`, and a folder with schedules and a list for it: what the tests of a playout share."""
import contextlib
import os
import pathlib
import socket
import sys
import tempfile
import threading
import time
import unittest

import running

import playlists

STAND_IN = pathlib.Path(__file__).resolve().parent / "drmcast_stand_in.py"
PROGRAM = f"""#!/bin/sh
exec {sys.executable} -ISE {STAND_IN} {{folder}} "$@"
"""
PACE = 20
# That of a station whose frames are looked at.
AIR_PACE = 40
SUPER_FRAME = 3 * AIR_PACE


class Station(unittest.TestCase):
    def setUp(self):
        folder = tempfile.TemporaryDirectory()
        self.addCleanup(folder.cleanup)
        self.folder = pathlib.Path(folder.name)
        self.program = self.folder / "drmcast"
        self.program.write_text(PROGRAM.replace("{folder}", folder.name), encoding="ascii")
        self.program.chmod(0o755)

    def list(self, *lines):
        """A list of these lines, each a moment and a name, or as it stands."""
        texts = [line if isinstance(line, str) else f"{playlists.moment(line[0])} {line[1]}" for line in lines]
        self.folder.joinpath("it.list").write_text("\n".join(texts) + "\n", encoding="utf-8")

    def plan(self, name, number, count, super_frames, rest="config 0 0\nstream 0 484 fill 00\nstream 16 100 fill 00\n"):
        self.folder.joinpath(name).write_text(f"drmplan 2\ncarry plain\nfirst {number} {count}\nlength {super_frames}\n{rest}", encoding="ascii")

    def renamed(self, name, text):
        """Saves a file by rename."""
        new = self.folder / f"{name}.new"
        new.write_text(text, encoding="utf-8")
        # Its last change was a while ago, as of what an editor has checked.
        os.utime(new, (time.time() - 1,) * 2)
        new.rename(self.folder / name)

    def words(self, *more):
        return "playout.py", "it.list", "--program", self.program, "--pace", PACE, *more

    def ran(self, *more, given=""):
        return running.run(*self.words(*more), cwd=self.folder, given=given)

    def log(self):
        """When each server was begun, and its words."""
        path = self.folder / "log"
        lines = [line.split(" ") for line in path.read_text(encoding="ascii").splitlines()] if path.exists() else []
        return [(int(at) // 1_000_000, words) for at, *words in lines]


class Air:
    """What comes at a socket: the frames that the stand-in sends, with their moments."""

    def __init__(self, test):
        self.socket = socket.socket(socket.AF_INET, socket.SOCK_DGRAM)
        self.socket.bind(("127.0.0.1", 0))
        self.address = f"127.0.0.1:{self.socket.getsockname()[1]}"
        self.frames = []
        threading.Thread(target=self.hears, daemon=True).start()
        test.addCleanup(self.socket.close)

    def hears(self):
        with contextlib.suppress(OSError):
            while True:
                line = self.socket.recv(65_536).decode()
                number, rest = line.split(" ", 1)
                self.frames.append((time.monotonic(), int(number), rest))

    def moment(self, number):
        """When a frame came, in milliseconds since 1970."""
        at = next(at for at, each, _ in self.frames if each == number)
        return int((at - time.monotonic() + time.time()) * 1000)

    def numbers(self):
        return [number for _, number, _ in self.frames]

    def said(self):
        """What came, by the frames' numbers."""
        return {number: rest for _, number, rest in self.frames}

    def longest_gap(self):
        """In seconds."""
        moments = [at for at, _, _ in self.frames]
        return max(after - before for before, after in zip(moments, moments[1:]))


def plan(length, *blocks, first=0, mode="B", room=100, streams=("stream 0 4 fill 55",)):
    """A schedule whose blocks have these labels, each with the super frame that it begins with."""
    return "\n".join(["drmplan 2", "carry plain", f"first {first} {first}", f"length {length}", "config 0 0", f"mode {mode}", f"room {room}",
                      *streams, *(line for start, label in blocks for line in (f"block {start}", f"label 0 {label}"))]) + "\n"


class OnAir(Station):
    """A station whose frames are heard."""

    def setUp(self):
        super().setUp()
        self.air = Air(self)

    def starts(self, *more, **options):
        playing = running.start("playout.py", "it.list", "--program", self.program, "--pace", AIR_PACE, "--to", self.air.address, *more, cwd=self.folder, **options)
        self.addCleanup(self.ends, playing)
        return playing

    def ends(self, playing):
        if playing.poll() is None:
            playing.kill()
        for pipe in (playing.stdin, playing.stdout, playing.stderr):
            with contextlib.suppress(OSError):
                pipe.close()
        playing.wait()

    def has(self, number):
        running.until(lambda: number in self.air.numbers(), f"frame {number}")

    def assert_each_once(self, length):
        self.assertEqual(self.air.numbers(), list(range(length)))

    def ended(self, playing):
        """The complaints of a playout that ends with its list, and what it said."""
        out, err = playing.communicate(timeout=running.WAIT_SECONDS)
        self.assertEqual(playing.returncode, 9, err)
        return err.decode(), [line.partition(" ")[2] for line in out.decode().splitlines()]

    def labels(self):
        """The label of each frame that came."""
        return {number: rest.split(" ")[3] for number, rest in self.air.said().items()}

    def indices(self):
        """From which super frames up to a reconfiguration each frame that came is."""
        return {number: int(rest.split(" ")[0]) for number, rest in self.air.said().items()}

    def children(self, playing):
        """The processes that a playout has started, which are servers once it has begun."""
        path = f"/proc/{playing.pid}/task/{playing.pid}/children"
        with open(path, encoding="ascii") as file:
            return [int(each) for each in file.read().split()]
