"""`playout.py` with an encoder that stalls, while its server is exchanged."""
import re
import time
import unittest

import running
import stations
from stations import plan

import playlists


class Encoder(stations.OnAir):
    def test_an_encoder_that_stalls(self):
        begin = playlists.now() + 1500
        self.renamed("a.plan", plan(60, (0, "one"), streams=("stream 0 4 fill 55", "stream 0 2 fill 66")))
        self.list((begin, "a.plan"))
        playing = self.starts("--live", "1")
        time.sleep(1.6)
        self.has_no_wait(playing, range(0, 20))
        # Half a piece, and nothing for a while; the rest of it is dropped.
        playing.stdin.write(bytes([20]))
        playing.stdin.flush()
        self.has(60)
        before = self.air.numbers()[-1]
        playing.stdin.write(bytes([20]))
        self.has_no_wait(playing, range(21, 30))
        self.renamed("a.plan", plan(60, (0, "one"), (50, "two"), streams=("stream 0 4 fill 55", "stream 0 2 fill 66")))
        self.has_no_wait(playing, range(30, 60))
        _, _, err = running.stop(playing)
        came = [bytes.fromhex(rest.rpartition(" ")[2])[4:] for _, _, rest in self.air.frames]
        live = [piece for piece in came if piece != b"\x66\x66"]
        written = [bytes([each, each]) for each in range(60) if each != 20]
        first = written.index(live[0])
        self.assertEqual(live, written[first:first + len(live)])
        self.assertGreater(len(live), 40)
        self.assertEqual(self.air.numbers(), list(range(len(came))))
        self.assertGreater(before, 50)
        said = re.findall("the live streams ([a-z, ]+) from", err)
        self.assertIn("are late, and are replaced", said)
        self.assertIn("are back", said)

    def has_no_wait(self, playing, pieces):
        """Writes such pieces, one for each frame."""
        for each in pieces:
            playing.stdin.write(bytes([each, each]))
            playing.stdin.flush()
            time.sleep(stations.AIR_PACE / 1000)


if __name__ == "__main__":
    unittest.main()
