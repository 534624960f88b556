"""`playout.py`: what it says of a list, and of the words that its servers would get."""
import unittest

import running
import stations
from stations import PACE

import playlists


class Playlists(stations.Station):
    def test_moments(self):
        self.assertEqual(playlists.millis("2000-01-02T00:00:00Z"), 946_771_200_000)
        self.assertEqual(playlists.millis("2026-12-24T18:00:00.25Z"), playlists.millis("2026-12-24T18:00:00Z") + 250)
        for at in (946_684_800_000, 1_795_943_658_860, 1_795_943_658_007):
            self.assertEqual(playlists.millis(playlists.moment(at)), at)
        for word in ("1999-12-24T18:00:00Z", "2026-13-24T18:00:00Z", "2026-12-24 18:00", "2026-12-24T18:00:00", "2026-12-24T25:00:00Z", "18:00"):
            with self.assertRaises(ValueError, msg=word):
                playlists.millis(word)

    def test_what_is_on_air(self):
        hour = 3_600_000
        self.plan("a.plan", 0, 0, 3000 * 400 // PACE)
        begin = playlists.now() - hour // 2
        self.list((begin, "a.plan"))
        status, out, _ = self.ran()
        self.assertEqual(status, 0)
        self.assertRegex(out, rf" on air: a.plan, super frame 300\d\d of 60000, until {playlists.moment(begin + hour)}\n")
        self.list((begin - hour, "a.plan"))
        self.assertEqual(self.ran("--to", "127.0.0.1:9")[0], 9)

    def test_gaps_overlaps_and_first_lines(self):
        self.plan("a.plan", 65_530, 0, 10)
        self.plan("b.plan", 24, 30, 10)
        self.plan("c.plan", 54, 61, 10)
        begin = playlists.millis("2026-12-24T18:00:00Z")
        self.list((begin, "a.plan"), (begin + 1600, "b.plan"), (begin + 2100, "c.plan"))
        status, out, err = self.ran("--to", "127.0.0.1:9")
        self.assertEqual((status, out, self.log()), (3, "", []))
        self.assertEqual(err.splitlines(), [f"playout.py: it.list {text}" for text in (
            "line 2: a gap of 1 s: a.plan ends at 2026-12-24T18:00:00.600Z, and b.plan begins at 2026-12-24T18:00:01.600Z",
            "line 3: an overlap of 0.1 s: b.plan ends at 2026-12-24T18:00:02.200Z, and c.plan begins at 2026-12-24T18:00:02.100Z",
            'line 3: c.plan has the line "first 54 61"; to go on from b.plan it would be "first 54 60"')])

    def test_words_are_tried_before_the_moment(self):
        self.plan("a.plan", 0, 0, 10)
        self.list((playlists.now() + 3_600_000, "a.plan"))
        status, out, err = self.ran("--to", "localhost:5000")
        self.assertEqual((status, out, err), (2, "", "playout.py: serve --to localhost:5000 --pace 20 --from 1000000 -- a.plan: drmcast: words\n"))
        self.assertEqual(self.ran("--to", "127.0.0.1:9", "--interleaved")[0], 2)

    def test_live_streams_that_are_not_there(self):
        self.plan("a.plan", 0, 0, 10)
        self.plan("b.plan", 30, 30, 10, "config 0 0\nstream 0 500 fill 00\nconfig 5 2\nstream 0 484 fill 00\n")
        begin = playlists.millis("2026-12-24T18:00:00Z")
        self.list((begin, "a.plan"), (begin + 600, "b.plan"))
        status, out, err = self.ran("--live", "0,1,3")
        self.assertEqual((status, out, err.splitlines()), (3, "", [f"playout.py: it.list line {line}: {name} has no stream {stream}, which --live names"
                                                                  for line, name, stream in ((1, "a.plan", 3), (2, "b.plan", 1), (2, "b.plan", 3))]))
        status, _, err = self.ran("--live", "0")
        self.assertEqual((status, err.splitlines()), (0, [
            f"playout.py: it.list line 2: stream 0 has {size} bytes a frame in configuration {place} of b.plan, and {before}; what feeds it has to change with it"
            for size, place, before in ((500, 1, "484 bytes a frame in configuration 1 of a.plan"), (484, 2, "500 bytes a frame in configuration 1 of b.plan"))]))
        self.assertEqual(self.ran("--live", "0", "--interleaved")[::2], (3, err))

    def test_clocks(self):
        self.plan("a.plan", 0, 0, 10_000, "config 0 0\nclock 61398 18 0\nconfig 1000 2\nclock 61398 18 1\n")
        self.list("2026-12-24T18:00:12Z a.plan")
        self.assertEqual(self.ran()[::2], (0, ""))
        self.list("2026-12-24T18:01:00Z a.plan")
        status, _, err = self.ran()
        self.assertEqual((status, err.splitlines()), (0, [
            'playout.py: it.list line 1: the clock line of configuration 1 of a.plan says 2026-12-24T18:00, and it begins on air at 2026-12-24T18:01:00Z; that would be "clock 61398 18 1"',
            'playout.py: it.list line 1: the clock line of configuration 2 of a.plan says 2026-12-24T18:01, and it begins on air at 2026-12-24T18:02:00Z; that would be "clock 61398 18 2"']))

    def test_channels(self):
        rest = "config 0 0\nstream 0 484 fill 00\nmsc 0\nprotection 0 1\n"
        self.plan("a.plan", 0, 0, 10, rest)
        self.plan("b.plan", 30, 30, 10, rest + "# capacity config 0 cells 2337 part-a 0 cells 0 part-b 1049 of 1048 sdc 76 of 76 rate 20980\n# capacity over 0 part-b\n")
        begin = playlists.millis("2026-12-24T18:00:00Z")
        self.list((begin, "a.plan"), (begin + 600, "b.plan"))
        said = ("playout.py: it.list line 2: b.plan: the configuration of super frame 0: part B has 1,049 bytes a frame, and 1,048 fit: 1 fewer in the streams, "
                "or a weaker protection, another constellation or a wider channel\n")
        self.assertEqual(self.ran()[::2], (0, said))
        self.assertEqual(self.ran("--fits"), (3, "", said))

    def test_bad_lists(self):
        self.plan("wrong.plan", 0, 0, 10, "wrong")
        for line, status, said in (("18:00 a.plan", 3, "no moment"), ("2026-12-24T18:00:00Z", 3, "isn't a moment and a file"), ("# nothing", 3, "no schedule"),
                                   ("2026-12-24T18:00:00Z wrong.plan", 3, "drmcast: schedule line 5: fit"), ("\u00e4", 3, "isn't a moment")):
            self.list(line)
            found = self.ran("--to", "127.0.0.1:9")
            self.assertEqual((found[0], found[1], found[2].count("\n")), (status, "", 1), line)
            self.assertIn(said, found[2])
        self.folder.joinpath("it.list").write_bytes(b"\xff\n")
        self.assertEqual(self.ran()[0], 3)
        self.assertEqual(running.run("playout.py", "/nowhere", "--program", self.program)[0], 2)


if __name__ == "__main__":
    unittest.main()
