"""`playout.py` between two schedules of which the second is a reconfiguration."""
import re
import unittest

import stations
from stations import plan

import playlists


class Seams(stations.OnAir):
    def test_a_reconfiguration_between_two_schedules(self):
        begin = playlists.now() + 2000
        self.renamed("a.plan", plan(10, (0, "one")))
        self.renamed("b.plan", plan(10, (0, "two"), first=30, mode="C", room=3))
        self.renamed("c.plan", plan(3, (0, "three"), first=60, mode="B"))
        self.list((begin, "a.plan"), (begin + 10 * stations.SUPER_FRAME, "b.plan"), (begin + 20 * stations.SUPER_FRAME, "c.plan"))
        err, out = self.ended(self.starts())
        self.assertEqual(err, "")
        self.assert_each_once(69)
        # The second one's blocks have room for three super frames of it alone.
        for number, index in self.indices().items():
            at, within = divmod(number, 30)
            least = 7 if at == 0 else 3
            left = 10 - within // 3
            self.assertEqual(index, left if at < 2 and left <= least else 0, number)
        self.assertEqual([line for line in out if "announced" in line], ["b.plan is a reconfiguration, and is announced 7 super frames ahead",
                                                                         "c.plan is a reconfiguration, and is announced 3 super frames ahead"])
        self.assertLess(self.air.longest_gap(), 1)

    def test_a_reconfiguration_that_cannot_be_announced(self):
        begin = playlists.now() + 2000
        self.renamed("a.plan", plan(5, (0, "one"), room=0))
        self.renamed("b.plan", plan(2, (0, "two"), first=15, mode="C"))
        self.list((begin, "a.plan"), (begin + 5 * stations.SUPER_FRAME, "b.plan"))
        err, _ = self.ended(self.starts())
        warning = ("playout.py: it.list line 2: b.plan is a reconfiguration behind a.plan (mode), and isn't announced: with both in one text drmcast check says "
                   "\"fit: config 5 1\"; a larger room, fewer entities in the last blocks, or both in one schedule\n")
        # When the list is checked, and an hour ahead.
        self.assertEqual(err, warning * 2)
        self.assert_each_once(21)

    def test_a_reconfiguration_that_is_added_late(self):
        begin = playlists.now() + 2000
        length = 20
        self.renamed("a.plan", plan(length, (0, "one")))
        self.renamed("b.plan", plan(2, (0, "two"), first=3 * length, mode="C"))
        self.list((begin, "a.plan"))
        playing = self.starts()
        self.has(24)
        self.renamed("it.list", f"{playlists.moment(begin)} a.plan\n{playlists.moment(begin + length * stations.SUPER_FRAME)} b.plan\n")
        err, out = self.ended(playing)
        self.assert_each_once(3 * length + 6)
        # As long as there is time for.
        found = re.search("b.plan is a reconfiguration, and is announced ([0-9]) super frames? ahead", "\n".join(out))
        countdown = int(found[1]) if found else 0
        self.assertEqual(not found, "it is too late to announce it" in err)
        for number, index in self.indices().items():
            left = length - number // 3
            self.assertEqual(index, left if 0 < left <= countdown else 0, number)


if __name__ == "__main__":
    unittest.main()
