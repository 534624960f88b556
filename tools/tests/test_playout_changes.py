"""`playout.py` while its list and its schedules change, with a program that stands in for `drmcast` and real sockets."""
import unittest

import running
import stations
from stations import plan

import playlists


class Changes(stations.OnAir):
    def test_changes_of_what_is_on_the_air(self):
        begin = playlists.now() + 1500
        self.renamed("a.plan", plan(40, (0, "one")))
        self.renamed("b.plan", plan(3, (0, "next"), first=120))
        self.list((begin, "a.plan"), (begin + 40 * stations.SUPER_FRAME, "b.plan"))
        playing = self.starts()
        self.has(3)
        self.renamed("a.plan", plan(40, (0, "one"), (20, "two")))
        self.has(45)
        # What was sent isn't so any more.
        self.renamed("a.plan", plan(40, (0, "three"), (20, "two")))
        self.has(60)
        # It is longer than the list has room for, until that is right.
        self.renamed("a.plan", plan(45, (0, "one"), (20, "two"), (40, "four")))
        self.has(75)
        self.renamed("b.plan", plan(3, (0, "next"), first=135))
        self.renamed("it.list", f"{playlists.moment(begin)} a.plan\n{playlists.moment(begin + 45 * stations.SUPER_FRAME)} b.plan\n")
        err, out = self.ended(playing)
        self.assert_each_once(144)
        for number, label in self.labels().items():
            self.assertEqual(label, "one" if number < 60 else "two" if number < 120 else "four" if number < 135 else "next", number)
        self.assertRegex(err, "a.plan: from super frame 0 on it disagrees with what was sent, up to super frame [0-9]+; a block from a later super frame on is the way")
        self.assertIn("an overlap of 0.6 s: a.plan ends at", err)
        self.assertEqual([line.partition(";")[0].partition(",")[0] for line in out if "change" in line],
                         ["a.plan has changed", "the changed a.plan is refused", "the changed list is refused", "a.plan has changed"])
        # One server for each text that was on the air, and more where one began late.
        self.assertGreaterEqual(len(self.log()), 4)

    def test_bad_texts_and_blocks_and_streams(self):
        begin = playlists.now() + 1500
        first = plan(60, (0, "one"), streams=("stream 0 4 fill 55", "stream 0 2 fill 66"))
        self.renamed("a.plan", first)
        self.list((begin, "a.plan"))
        playing = self.starts("--live", "1")
        self.has(3)
        for text, said in (("", "line 1: missing"), (first[:42], "line 5: missing"), (first + "wrong\n", "schedule line 12: fit"),
                           (plan(60, (0, "one"), (9, "two"), streams=("stream 0 4 fill 55", "stream 0 3 fill 66")), "on its live streams have 3 bytes a frame, and 2 as it is sent"),
                           (plan(60, *((each, f"at {each}") for each in range(65)), streams=("stream 0 4 fill 55",)), "block at super frame 64 is the 65th of its configuration"),
                           (first.replace("length 60", "length 2"), "it ends with super frame 2, and ")):
            self.renamed("a.plan", text)
            heard = b""
            while said.encode() not in heard:
                heard += playing.stderr.readline()
                self.assertIsNone(playing.poll())
            # A list that is wrong keeps no change of what is on the air away.
        self.renamed("it.list", "tomorrow b.plan\n")
        while b"tomorrow is no moment" not in playing.stderr.readline():
            self.assertIsNone(playing.poll())
        later = self.air.numbers()[-1] // 3 + 12
        self.renamed("a.plan", plan(60, (0, "one"), (later, "two"), streams=("stream 0 4 fill 55", "stream 0 2 fill 66")))
        self.has(3 * later + 1)
        running.stop(playing)
        self.assertEqual((self.labels()[3 * later - 1], self.labels()[3 * later]), ("one", "two"))
        self.assertEqual(self.air.numbers(), list(range(len(self.air.frames))))


if __name__ == "__main__":
    unittest.main()
