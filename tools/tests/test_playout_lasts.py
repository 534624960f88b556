"""`playout.py` over a start."""
import contextlib
import json
import os
import unittest

import running
import stations
from stations import plan

import playlists


class Lasts(stations.OnAir):
    def test_it_is_killed_and_goes_on(self):
        begin = playlists.now() + 1500
        self.renamed("a.plan", plan(1000, (0, "one")))
        self.list((begin, "a.plan"))
        playing = self.starts("--state", "state")
        self.has(10)
        [server] = self.children(playing)
        playing.kill()
        playing.communicate()
        running.until(lambda: not os.path.exists(f"/proc/{server}") or self.is_dead(server), "the server's end")
        sent = self.air.numbers()
        # One change behind what was sent, and one before it.
        reached = json.loads(self.folder.joinpath("state/on-air").read_text(encoding="ascii"))["reached"]
        self.assertLess(sent[-1], 3 * reached)
        for label, taken in (("later", True), ("before", False)):
            block = reached + 1 if taken else 1
            self.renamed("a.plan", plan(1000, (0, "one"), (block, label)))
            playing = self.starts("--state", "state")
            least = max(self.air.numbers()) + 1
            running.until(lambda: self.air.numbers()[-1] > max(least, 3 * (reached + 1)), "the label")
            running.stop(playing)
            self.assertEqual(self.labels()[self.air.numbers()[-1]], "later")
            reached = self.air.numbers()[-1] // 3
        numbers = self.air.numbers()
        self.assertEqual(numbers, sorted(set(numbers)))

    def test_a_start_with_a_schedule_that_is_wrong(self):
        begin = playlists.now() + 1500
        right = plan(200, (0, "one"))
        self.renamed("a.plan", right)
        self.list((begin, "a.plan"))
        with self.starts("--state", "state") as playing:
            self.has(3)
            playing.kill()
        self.air.frames.clear()
        self.renamed("a.plan", right + "wrong\n")
        with self.starts("--state", "state") as playing:
            running.until(lambda: self.air.frames, "a frame")
            # What comes next is taken from there on.
            later = self.air.numbers()[-1] // 3 + 12
            self.renamed("a.plan", plan(200, (0, "one"), (later, "two")))
            self.has(3 * later)
            status, out, err = running.stop(playing)
        self.assertEqual((status, self.labels()[3 * later - 1], self.labels()[3 * later]), (0, "one", "two"))
        self.assertIn("a.plan was on the air, and goes on as it was sent", out.decode())
        self.assertIn("it.list line 1: a.plan: drmcast: schedule line 11: fit", err)
        # By itself, and once it is over, a list that is wrong is refused.
        self.renamed("a.plan", right + "wrong\n")
        with self.starts() as playing:
            self.assertEqual(playing.wait(running.WAIT_SECONDS), 3)

    def test_a_super_frame_that_was_reached_is_waited_for(self):
        begin = playlists.now() - 10 * stations.SUPER_FRAME
        self.renamed("a.plan", plan(1000, (0, "one")))
        self.list((begin, "a.plan"))
        with self.starts("--state", "state") as playing:
            running.until(lambda: self.air.frames, "a frame")
            running.stop(playing)
        path = self.folder / "state/on-air"
        record = json.loads(path.read_text(encoding="ascii"))
        due = (playlists.now() - begin) // stations.SUPER_FRAME
        path.write_text(json.dumps({**record, "reached": due + 20}), encoding="ascii")
        self.air.frames.clear()
        with self.starts("--state", "state") as playing:
            running.until(lambda: self.air.frames, "a frame")
            _, out, _ = running.stop(playing)
        self.assertEqual(self.air.numbers()[0], 3 * (due + 20))
        self.assertRegex(out.decode(), rf"super frame {due + 20} of a.plan was reached, and [0-9]+ is due by the clock; it is waited for until")

    @staticmethod
    def is_dead(process):
        with contextlib.suppress(OSError), open(f"/proc/{process}/stat", encoding="ascii") as file:
            return file.read().rpartition(")")[2].split()[0] == "Z"
        return True


if __name__ == "__main__":
    unittest.main()
