"""`onair.py`: what it makes of a schedule, and an alarm on the air with a program that stands in for `drmcast`."""
import contextlib
import io
import json
import os
import re
import time
import unittest

import running
import stations

import onair
import playlists

HEAD = ["drmplan 2", "carry plain", "first 0 0", "length 60", "config 0 0", "mode B", "room 100", "stream 0 4 fill 55"]
ALARM, QUIET = "raw 6 0 0 8f01", "raw 6 0 0 8001"


class Texts(unittest.TestCase):
    def setUp(self):
        # What is there to be read stands in for the schedule and for the program.
        self.words = [__file__, "--program", "true"]

    def edited(self, lines, first, last, *words):
        given = onair.arguments_of([*self.words, *words])
        return onair.edited("\n".join(HEAD + lines) + "\n", given, first, last).splitlines()[len(HEAD):]

    def test_an_alarm_within_a_block(self):
        lines = ["block 0", "# the hour", "audio 0 0 0 1 0 3 0 0 0", "  label 0 Nord", "block 40", "audio 0 0 0 1 0 3 0 0 0", "label 0 Later"]
        self.assertEqual(self.edited(lines, 10, 20, ALARM, "--for", "10s", "--then", QUIET),
                         [*lines[:4], "block 10", lines[2], lines[3], ALARM, "block 20", lines[2], lines[3], QUIET, *lines[4:]])

    def test_a_label_over_a_block_that_begins(self):
        lines = ["block 0", "label 0 Nord", "label 1 Other", "block 15", "label 0 Later", "label 1 Other", "block 40", "label 0 Night"]
        self.assertEqual(self.edited(lines, 10, 20, "label 0 Storm", "--for", "10s"),
                         ["block 0", "label 0 Nord", "label 1 Other", "block 10", "label 1 Other", "label 0 Storm", "block 15", "label 1 Other", "label 0 Storm",
                          "block 20", "label 0 Later", "label 1 Other", "block 40", "label 0 Night"])

    def test_where_blocks_begin_and_end_already(self):
        lines = ["block 0", "label 0 Nord", "block 10", "label 0 Ten", "block 20", "label 0 Twenty"]
        self.assertEqual(self.edited(lines, 10, 20, ALARM, "--for", "10s", "--then", QUIET),
                         ["block 0", "label 0 Nord", "block 10", "label 0 Ten", ALARM, "block 20", "label 0 Twenty", QUIET])

    def test_without_an_end_and_over_configurations(self):
        more = ["config 30 2", "mode B", "room 100", "stream 0 4 fill 55", "block 0", "label 0 Second", "freq 0 0 - - 6085"]
        lines = ["block 0", "label 0 Nord", "freq 0 0 - - 3955", *more]
        self.assertEqual(self.edited(lines, 10, None, "--without", "freq 0"),
                         ["block 0", "label 0 Nord", "freq 0 0 - - 3955", "block 10", "label 0 Nord", *more[:-1]])
        self.assertEqual(self.edited(lines, 28, 33, "label 0 Storm", "--for", "5s"),
                         ["block 0", "label 0 Nord", "freq 0 0 - - 3955", "block 28", "freq 0 0 - - 3955", "label 0 Storm", *more[:5], "freq 0 0 - - 6085", "label 0 Storm",
                          "block 3", "label 0 Second", "freq 0 0 - - 6085"])

    def test_the_first_super_frame(self):
        record = {"pace": 400, "comparing": 0, "loading": 48, "needs": 450, "reached": 7, "begin": 100_000}
        for now, comparing, wanted in ((0, 0, 7), (450, 0, 7), (451, 0, 8), (0, 250_000_000, 9), (9000, 0, 8), (-9000, 0, 7)):
            self.assertEqual(onair.first_possible({**record, "comparing": comparing}, 50_000 + now, 50_000), wanted, now)
        for now, wanted in ((0, 0), (99_250, 0), (99_251, 1), (100_500, 2)):
            self.assertEqual(onair.first_possible({**record, "reached": 0}, now, 0), wanted, now)

    def test_words(self):
        for words in ((), ("label 0 x", "--for", "10"), ("label 0 x", "--for", "0m"), ("lable 0 x",), ("label 0 x", "--then", "label 0 y"), (ALARM, "--for", "1m"), ("freq 0 0 - - 5", "--for", "1m")):
            with self.subTest(words=words), contextlib.redirect_stderr(io.StringIO()) as said, self.assertRaises(SystemExit) as end:
                onair.arguments_of([*self.words, *words])
            self.assertEqual((end.exception.code, said.getvalue()[:6]), (2, "usage:"))
        self.assertEqual(onair.arguments_of([*self.words, ALARM, "--for", "2h", "--then", QUIET]).lasts, 7_200_000)
        self.assertEqual(onair.arguments_of([*self.words, ALARM]).lasts, None)


class Alarm(stations.OnAir):
    def onair(self, *words):
        return running.run("onair.py", "a.plan", *words, "--program", self.program, "--state", "state", cwd=self.folder)

    def test_an_alarm_on_the_air(self):
        begin = playlists.now() + 1500
        self.renamed("a.plan", stations.plan(70, (0, "Nord"), (60, "Night")))
        self.folder.joinpath("a.plan").chmod(0o640)
        self.list((begin, "a.plan"))
        playing = self.starts("--state", "state")
        self.has(9)
        began = time.monotonic()
        status, out, err = self.onair("label 0 Storm", "--for", "1s")
        self.assertEqual((status, err), (0, ""))
        first, last = map(int, re.search("from super frame ([0-9]+) of a.plan, .* until super frame ([0-9]+), ", out).groups())
        self.assertEqual(last - first, 9)
        self.has(3 * last + 1)
        labels = self.labels()
        for number, label in labels.items():
            self.assertEqual(label, "Storm" if first <= number // 3 < last else "Nord", number)
        at = next(at for at, number, _ in self.air.frames if number == 3 * first)
        # A second with the processors free; edge_playout.py looks at that.
        self.assertLess(at - began, 5)
        self.assertEqual(self.folder.joinpath("a.plan").stat().st_mode & 0o777, 0o640)
        self.assertEqual([path.name for path in self.folder.iterdir() if path.name.startswith(".onair")], [])
        before = self.folder.joinpath("a.plan").read_text(encoding="utf-8")
        for words, said in ((("wrong 0",), "is no line of an entity"), (("label 0 x", "--for", "1s", "--without", "label"), None)):
            status, _, err = self.onair(*words)
            self.assertEqual(status, 2 if said else 0, err)
        self.assertNotEqual(self.folder.joinpath("a.plan").read_text(encoding="utf-8"), before)
        running.stop(playing)
        status, _, err = self.onair("label 0 x")
        self.assertEqual((status, "doesn't run" in err), (3, True))

    def test_it_is_tried_again(self):
        begin = playlists.now() + 1500
        text = stations.plan(90, (0, "Nord"))
        self.renamed("a.plan", text)
        self.list((begin, "a.plan"))
        playing = self.starts("--state", "state")
        self.has(9)
        # A comparison takes longer than it should, so the first one comes too late.
        self.folder.joinpath("slow").write_text("1.2", encoding="ascii")
        status, out, err = self.onair("label 0 Storm", "--for", "10s")
        self.assertEqual((status, err), (0, ""))
        first = int(re.search("from super frame ([0-9]+) of a.plan", out)[1])
        self.has(3 * first)
        self.assertEqual([self.labels()[3 * first - 1], self.labels()[3 * first]], ["Nord", "Storm"])
        self.assertEqual(self.folder.joinpath("a.plan").read_text(encoding="utf-8").count("Storm"), 1)
        _, _, err = running.stop(playing)
        self.assertIn("disagrees with what was sent", err)

    def test_what_cannot_be(self):
        self.renamed("a.plan", stations.plan(70, (0, "Nord")))
        record = {"begin": playlists.now(), "name": "a.plan", "path": str(self.folder / "b.plan"), "folder": str(self.folder), "pace": 40, "copy": 1, "reached": 7, "loading": 10, "needs": 100, "comparing": 0, "super_frames": 70,
                  "process": os.getpid()}
        self.assertEqual(self.onair("label 0 x")[0], 3)
        full = stations.plan(70, *((each, "x") for each in range(64)))
        for path, more, text, said in (("b.plan", {}, None, "no playout has a.plan on the air"), ("a.plan", {"reached": 68}, None, "a.plan ends with super frame 70"),
                                       ("a.plan", {"process": 1 << 22}, None, "the playout of a.plan doesn't run"),
                                       ("a.plan", {"reached": 65}, full, "with it, drmcast: schedule line 137: too-long (block 66); a configuration has at most 64 blocks")):
            self.renamed("a.plan", text or stations.plan(70, (0, "Nord")))
            self.folder.joinpath("state").mkdir(exist_ok=True)
            self.folder.joinpath("state/on-air").write_text(json.dumps({**record, "path": str(self.folder / path), **more}), encoding="ascii")
            before = self.folder.joinpath("a.plan").read_bytes()
            status, _, err = self.onair("label 0 x")
            self.assertEqual((status, self.folder.joinpath("a.plan").read_bytes()), (3, before))
            self.assertRegex(err, said.replace("(", r"\(").replace(")", r"\)").replace("66", "6[0-9]"))


if __name__ == "__main__":
    unittest.main()
