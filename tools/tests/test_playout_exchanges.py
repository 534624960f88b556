"""`playout.py` where one server takes over from another: where a piece is one byte, where a frame may have been sent, and behind a halt."""
import contextlib
import io
import os
import signal
import threading
import time
import unittest

import running
import stations
from stations import plan

import changes
import command_line
import followed
import playlists
import playout


class Exchanges(stations.OnAir):
    def test_pieces_of_one_byte(self):
        begin = playlists.now() + 1500
        one = ("stream 0 1 fill 55",)
        self.renamed("a.plan", plan(16, (0, "one"), streams=one))
        self.list((begin, "a.plan"))
        playing = self.starts()
        self.has(3)
        self.renamed("a.plan", plan(16, (0, "one"), (13, "two"), streams=one))
        self.ended(playing)
        self.assertEqual(self.labels()[47], "two")
        numbers = self.air.numbers()
        self.assertEqual(numbers, sorted(set(numbers)))
        self.assertGreaterEqual(len(numbers), 45)

    def test_a_frame_that_may_have_been_sent(self):
        begin = playlists.now() + 500
        self.renamed("a.plan", plan(20, (0, "one")))
        self.list((begin, "a.plan"))
        self.addCleanup(os.chdir, os.getcwd())
        os.chdir(self.folder)
        options = playout.arguments_of(["it.list", "--to", self.air.address, "--pace", str(stations.AIR_PACE), "--program", str(self.program)])
        checks, seams = changes.KnownChecks(options.program, followed.Followed()), changes.Seams(options.program)
        playing = playout.playout_of(options, playlists.read("it.list", checks, stations.AIR_PACE)[0], checks, seams, command_line.Stop())
        self.addCleanup(playing.lasts.temporary.cleanup)
        self.addCleanup(playing.lasts.held.close)
        asked, ends_before = [], playing.ends_before

        def is_certain(frame):
            """Not the first time."""
            asked.append(frame)
            return ends_before(frame) and len(asked) > 1
        playing.ends_before = is_certain
        threading.Timer(1, self.renamed, ("a.plan", plan(20, (0, "one"), (18, "two")))).start()
        with contextlib.redirect_stdout(io.StringIO()):
            playing.resumes()
            playing.follower.start()
            self.assertEqual(playing.run(), 9)
        # The one before goes on, and the change takes the next moment.
        self.assertGreater(len(asked), 1)
        self.assert_each_once(60)
        self.assertEqual({number: label for number, label in self.labels().items() if (label == "two") != (number >= 54)}, {})

    def test_a_halt_before_an_exchange(self):
        begin = playlists.now() + 1500
        self.renamed("a.plan", plan(25, (0, "one")))
        self.list((begin, "a.plan"))
        playing = self.starts()
        self.has(3)
        self.renamed("a.plan", plan(25, (0, "one"), (16, "two")))
        running.until(lambda: len(self.children(playing)) > 1 and len(self.log()) > 1, "the server that takes over")
        playing.send_signal(signal.SIGSTOP)
        time.sleep(0.6)
        playing.send_signal(signal.SIGCONT)
        self.ended(playing)
        self.assert_each_once(75)
        for number, label in self.labels().items():
            self.assertEqual(label, "one" if number < 48 else "two", number)
        # In the end frames are at their moments again.
        self.assertLess(abs(self.air.moment(74) - (begin + 74 * stations.AIR_PACE)), 5 * stations.AIR_PACE)


if __name__ == "__main__":
    unittest.main()
