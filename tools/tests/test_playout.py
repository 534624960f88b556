"""`playout.py`: when and with which words it runs a program that stands in for `drmcast`, and what it does meanwhile."""
import os
import re
import signal
import subprocess
import unittest

import running
import stations
from stations import PACE

import changes
import followed
import metrics
import on_air
import playlists
import playout
import playout_told


class Playout(stations.Station):
    FAILED = "playout.py: drmcast serve of a.plan ended with status 6; one is begun each second, until one is on air again"

    def setUp(self):
        super().setUp()
        self.air = stations.Air(self)

    def stopped_after(self, servers):
        """The status and the complaints of a playout that is stopped as soon as it has begun so many servers."""
        with running.start(*self.words("--to", "127.0.0.1:9"), cwd=self.folder) as playing:
            running.until(lambda: len(self.log()) == servers)
            status, _, err = running.stop(playing)
        return status, err

    def three(self, begin):
        """Three schedules one behind the other, of 5, 3 and 4 super frames."""
        number, count = 65_530, 4_294_967_290
        lines = []
        for name, super_frames in (("a.plan", 5), ("b.plan", 3), ("c.plan", 4)):
            self.plan(name, number, count, super_frames)
            lines.append((begin, name))
            number, count = (number + 3 * super_frames) % 65_536, (count + 3 * super_frames) % (1 << 32)
            begin += 3 * super_frames * PACE
        self.list("# three of them", "", *lines)
        return lines

    def test_where_a_schedule_is_begun(self):
        one = playlists.Entry(1, 10_000, "a", 0, 0, 100, "")
        for at, wanted in ((0, (0, 10_000)), (10_000, (0, 10_000)), (10_001, (1, 11_200)), (11_200, (1, 11_200)), (11_201, (2, 12_400))):
            self.assertEqual(playout_told.place(one, 400, at), wanted, at)

    def test_each_begins_at_its_moment(self):
        begin = playlists.now() + 1500
        lines = self.three(begin)
        # The first one's link failed, but it was served to its end.
        self.folder.joinpath("ending").write_text("6", encoding="ascii")
        status, out, err = self.ran("--to", self.air.address)
        self.assertEqual((status, err), (9, f"drmcast: link fault\n{self.FAILED}\n"))
        self.assertEqual([words[:-1] for _, words in self.log()], [["serve", "--to", self.air.address, "--pace", str(PACE), "--live", "0,1,2,3", "--"]] * 3)
        self.assertEqual(self.air.numbers(), [(65_530 + number) % 65_536 for number in range(36)])
        # Servers wait for their first pieces, which come at the moments.
        for number, (due, _) in zip((65_530, 9, 18), lines):
            self.assertGreaterEqual(self.air.moment(number), due)
        said = [line.partition(" ")[2] for line in out.splitlines()]
        self.assertEqual(said[0], f"nothing is on air; a.plan begins at {playlists.moment(begin)}")
        self.assertEqual([text for text in said if text.startswith("begins")],
                         [f"begins: {name}, super frame 0 of {count}, until {playlists.moment(at + count * 3 * PACE)}" for (at, name), count in zip(lines, (5, 3, 4))])
        self.assertEqual(said[-1], "the list has ended, and nothing is on air")

    def test_it_goes_on_within_a_schedule(self):
        self.plan("a.plan", 0, 0, 1000)
        begin = playlists.now() - 1000
        self.list((begin, "a.plan"))
        with running.start(*self.words("--to", self.air.address), cwd=self.folder) as playing:
            running.until(lambda: self.air.frames, "a frame")
            self.assertEqual(running.stop(playing)[0], 0)
        _, words = self.log()[0]
        later = int(words[words.index("--from") + 1])
        self.assertGreater(later, 16)
        self.assertEqual(self.air.numbers()[0], 3 * later)
        self.assertGreaterEqual(self.air.moment(3 * later), begin + later * 3 * PACE)
        self.assertEqual(words, ["serve", "--to", self.air.address, "--pace", str(PACE), "--live", "0,1,2,3", "--from", str(later), "--", "1/sent.plan"])

    def test_a_server_that_fails(self):
        self.plan("a.plan", 0, 0, 1000)
        self.list((playlists.now() - 1000, "a.plan"))
        self.folder.joinpath("failing").write_text("6", encoding="ascii")
        status, err = self.stopped_after(2)
        self.assertEqual((status, err), (0, f"drmcast: link fault\n{self.FAILED}\n"))
        first, second = (int(words[words.index("--from") + 1]) for _, words in self.log())
        # A second later, less what the first one had more time to begin.
        self.assertGreater(second, first + 10)
        self.folder.joinpath("failing").write_text("3", encoding="ascii")
        self.list((playlists.now() + 300, "a.plan"))
        status, out, _ = self.ran("--to", "127.0.0.1:9")
        self.assertEqual((status, "ended" in out), (3, False))

    def test_signals(self):
        for signalled in (signal.SIGTERM, signal.SIGINT):
            self.plan("a.plan", 0, 0, 1000)
            self.list((playlists.now() + 300, "a.plan"))
            count = len(self.log())
            with running.start(*self.words("--to", "127.0.0.1:9"), cwd=self.folder) as playing:
                running.until(lambda: len(self.log()) > count)
                status, out, err = running.stop(playing, signalled)
            self.assertEqual((status, err, out.decode().splitlines()[-1].partition(" ")[2]), (0, "", "stopped"))

    def test_its_end_and_what_it_does(self):
        self.plan("a.plan", 0, 0, 1000)
        self.list((playlists.now() - 1000, "a.plan"))
        path = self.folder / "it.prom"
        with running.start(*self.words("--to", "127.0.0.1:9", "--metrics", path), cwd=self.folder) as playing:
            running.until(lambda: len(self.log()) == 1 and path.exists())
            running.until(lambda: "playout_on_air" in path.read_text(encoding="ascii"))
            _, out, _ = running.stop(playing)
        self.assertRegex(out.decode(), r"Z the list ends at \S+, in 1 minute; then nothing is on air\n")
        values = dict(re.findall(r'^drmcast_playout_(\w+)\{link="it"\} (\S+)$', path.read_text(encoding="ascii"), re.MULTILINE))
        self.assertEqual(set(values), {name.removeprefix("playout_") for name in metrics.PLAYOUT_METRICS})
        self.assertEqual((values["on_air"], values["failures_total"], values["changes_taken_total"]), ("0", "0", "0"))
        self.assertLess(16, int(values["super_frame"]))
        self.assertAlmostEqual(float(values["list_seconds"]), 59, delta=5)

    def playing(self, begin):
        """A playout of this list by itself, whose servers nobody starts."""
        self.list(*begin)
        options = playout.arguments_of([str(self.folder / "it.list"), "--to", "127.0.0.1:9", "--pace", str(PACE), "--program", str(self.program)])
        checks = changes.KnownChecks(options.program, followed.Followed())
        entries, _ = playlists.read(options.list, checks, PACE)
        playing = playout.playout_of(options, entries, checks, changes.Seams(options.program), None)
        self.addCleanup(playing.lasts.temporary.cleanup)
        self.addCleanup(playing.lasts.held.close)
        return playing

    def test_an_hour_and_ten_minutes_ahead(self):
        said = []
        self.addCleanup(setattr, playout_told, "say", playout_told.say)
        playout_told.say = said.append
        self.plan("a.plan", 0, 0, 200_000)
        self.addCleanup(os.chdir, os.getcwd())
        os.chdir(self.folder)
        one = self.playing([(playlists.now(), "a.plan")])
        for minutes, wanted in ((61, []), (60, ["60"]), (59, []), (11, []), (10, ["10"]), (3, []), (-1, [])):
            one.now = lambda at=one.end() - minutes * 60_000: at
            one.says_end()
            self.assertEqual([re.search("in ([0-9]+) minutes", text)[1] for text in said], wanted, minutes)
            said.clear()

    def test_a_failure_that_lasts_is_said_once(self):
        said = []
        for owner, name in ((playout_told, "say"), (playout_told.command_line, "complain")):
            self.addCleanup(setattr, owner, name, getattr(owner, name))
            setattr(owner, name, said.append)
        self.plan("a.plan", 0, 0, 2000)
        self.addCleanup(os.chdir, os.getcwd())
        os.chdir(self.folder)
        one = self.playing([(playlists.now(), "a.plan")])
        one.passes_on = lambda text: said.append(text.decode()) if text else None
        failed = self.FAILED.removeprefix("playout.py: ")
        for words, status, wanted in ((b"link fault\n", 6, ["link fault\n", failed]), (b"link fault\n", 6, []), (b"link fault\n", 6, []),
                                      (b"no memory\n", 1, ["no memory\n", failed.replace("6", "1")]), (b"no memory\n", 1, []), (b"refused since\n", 0, ["refused since\n", "on air again: a.plan"]),
                                      (b"accepted again\n", 0, ["accepted again\n"])):
            one.heard = words
            if one.fault is None:
                one.passes_on(words)
            if status:
                one.tells_failure(status)
            else:
                one.recovers()
            self.assertEqual(said, wanted, (words, status))
            said.clear()
        self.assertEqual(one.failures, 5)

    def test_a_list_that_changes(self):
        said = []
        self.addCleanup(setattr, on_air, "say", on_air.say)
        on_air.say = said.append
        self.addCleanup(os.chdir, os.getcwd())
        os.chdir(self.folder)
        begin = playlists.now() + 60_000
        for name, number in (("a.plan", 0), ("b.plan", 6000 % 65536)):
            self.plan(name, number, number, 2000)
        one = self.playing([(begin, "a.plan")])
        one.resumes()
        for lines, left, refused in (([(begin, "a.plan")], 1, ""), ([(begin, "a.plan"), (begin + 120_000, "b.plan")], 2, ""),
                                     ([(begin, "a.plan"), (begin + 120_001, "b.plan")], 2, "it.list line 2: a gap of 0.001 s: a.plan ends at [^ ]+, and b.plan begins at"),
                                     ([(begin + 120_000, "b.plan")], 2, "it.list a.plan of [^ ]+ isn't in it as it was"), (["nothing"], 2, "can't decode byte 0xff"),
                                     (["# now", (begin, "a.plan")], 1, "")):
            self.list(*lines)
            if lines == ["nothing"]:
                self.folder.joinpath("it.list").write_bytes(b"\xff")
            one.follower.refusals, before, taken = [], len(one.entries), one.taken
            change = one.follower.judged(one.playing())
            if change:
                one.plans(change)
                self.assertTrue(one.follower.verdicts.get())
            self.assertEqual((len(one.entries), one.taken - taken), (left, int(left != before)), lines)
            self.assertRegex(" ".join(text for refusal in one.follower.refusals for text in refusal.texts), refused or "^$")
        self.assertEqual([text.partition(",")[0] for text in said], ["the list has changed"] * 2)

    def test_what_feeds_it_is_gone(self):
        self.plan("a.plan", 0, 0, 1000)
        self.list((playlists.now() - 1000, "a.plan"))
        words = running.words(*self.words("--to", "127.0.0.1:9", "--live", "0", "--interleaved"))
        with subprocess.Popen(words, cwd=self.folder, stdin=subprocess.PIPE, stdout=subprocess.PIPE, stderr=subprocess.PIPE) as playing:
            running.until(lambda: len(self.log()) == 1)
            out, err = playing.communicate(timeout=running.WAIT_SECONDS)
        self.assertEqual((playing.returncode, err), (10, b"playout.py: standard input has lost its writer, so the live streams get nothing more\n"))
        self.assertIn(b"begins: a.plan", out)


if __name__ == "__main__":
    unittest.main()
