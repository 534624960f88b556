"""`watch.py` over reports that come by a pipe and from a command, its file of metrics, and `check_drmcast.py`."""
import json
import pathlib
import re
import signal
import tempfile
import time
import unittest

import running

import metrics
import watch

REPORT = running.report(running.frame(0, 0), "missing 1 had 2 of 9", "switch 2", running.frame(2, 2), "resumed 3", running.frame(3, 3),
                        "bad 4 af crc", "refused 7 dcp sync", refused=20)
WHOLE = "given 3 missing 1 bad 1 longest gap G s switches 1 resumed 1 refused 20"


def of(text):
    """What a line says without its time and the gap."""
    return re.sub(r"gap [0-9.]+ s", "gap G s", text.partition(" ")[2])


class Pipe(unittest.TestCase):
    def test_each_count(self):
        status, out, err = running.run("watch.py", given=REPORT)
        self.assertEqual((status, err, [of(line) for line in out.splitlines()]), (7, "", [WHOLE] * 2))

    def test_formats(self):
        out = running.run("watch.py", "--format", "json", given=REPORT)[1]
        self.assertEqual({key: value for key, value in json.loads(out.splitlines()[1]).items() if key != "longest_gap"},
                         {"time": "all", "given": 3, "missing": 1, "bad": 1, "switches": 1, "resumed": 1, "refused": 20})
        out = running.run("watch.py", "--format", "csv", given=REPORT)[1]
        self.assertEqual(out.splitlines()[0], "time,given,missing,bad,longest_gap,switches,resumed,refused")

    def test_what_is_no_report_or_breaks_off(self):
        clean = running.report(running.frame(0, 0))
        self.assertEqual(running.run("watch.py", given=clean)[0], 0)
        for text, status, said in (("feed 1\n", 1, "broke off"), ("", 1, "broke off"), (clean[:-20], 1, "broke off"),
                                   ("hello\n", 3, "line 1 is no line of a report"), ("feed 1\nend idle\n", 3, "line 2"), (b"\xff\n", 3, "line 1")):
            with self.subTest(text=text):
                found = running.run("watch.py", given=text)
                self.assertEqual(found[0], status)
                self.assertIn(said, found[2])
                self.assertEqual(found[2].count("\n"), 1)

    def test_signals_print_what_was_counted(self):
        for signalled in (signal.SIGTERM, signal.SIGINT):
            with tempfile.TemporaryDirectory() as folder, running.start("watch.py", "--metrics", f"{folder}/it.prom") as watching:
                running.until(pathlib.Path(folder, "it.prom").exists)
                watching.stdin.write(REPORT.encode() + b"feed 1\n" + running.frame(0, 9).encode() + b"\n")
                watching.stdin.flush()
                status, out, err = running.stop(watching, signalled)
            self.assertEqual((status, err), (7, ""))
            self.assertEqual([of(line) for line in out.decode().splitlines()], ["given 4 missing 1 bad 1 longest gap G s switches 1 resumed 1 refused 20"] * 2)

    def test_no_room_and_no_reader(self):
        with open("/dev/full", "wb") as full:
            self.assertEqual(running.run("watch.py", given=REPORT, stdout=full)[::2], (1, "watch.py: standard output: No space left on device\n"))
        with running.start("watch.py") as watching:
            watching.stdout.close()
            watching.stdin.write(REPORT.encode())
            watching.stdin.close()
            self.assertEqual((watching.wait(running.WAIT_SECONDS), watching.stderr.read()), (141, b""))


class InVain(unittest.TestCase):
    """Datagrams of which none gives a frame."""

    def test_how_long_a_report_may_be_silent(self):
        for command, wanted in (("drmcast receive 0.0.0.0:5000 --idle 600", 65.0), ("drmcast receive 0.0.0.0:5000 --reach 450 --idle=600", 65.0), ("drmcast receive 0.0.0.0:5000", 31.0),
                                ("drmcast receive 0.0.0.0:5000,0.0.0.0:5001", None), ("drmpaths 0.0.0.0:5000,0.0.0.0:5001", None), ("", None)):
            self.assertEqual(watch.patience(command.split()), wanted, command)

    def test_a_report_that_goes_on_without_a_line(self):
        watched = watch.Watch(60.0, patience=0.0)
        self.assertEqual(watched.in_vain(), 0.0)
        watched.take("feed 1")
        time.sleep(0.01)
        self.assertGreater(watched.in_vain(), 0.005)
        watched.patience = 10.0
        self.assertEqual(watched.in_vain(), 0.0)
        watched.patience = 0.0
        watched.take("end idle given 0 missing 0 bad 0 refused 0")
        self.assertEqual(watched.in_vain(), 0.0)

    def test_lines_of_count(self):
        whole = "count given 150 missing 1 bad 0 refused 3 kept 2100 repeated 0 late 300\n"
        status, out, err = running.run("watch.py", given=whole)
        self.assertEqual((status, err, of(out.splitlines()[1])), (7, "", "given 150 missing 1 bad 0 longest gap G s switches 0 resumed 0 refused 3"))
        watched = watch.Watch(60.0)
        for line, in_vain in ((whole, False), ("count given 0 missing 0 bad 0 refused 0 kept 0 repeated 0 late 2400", True), (whole, False),
                              ("count given 0 missing 0 bad 0 refused 0 kept 0 repeated 0 late 0", False)):
            watched.take(line.rstrip("\n"))
            self.assertEqual(watched.in_vain() > 0, in_vain, line)

    def test_it_is_said_once(self):
        said = []
        self.addCleanup(setattr, watch.command_line, "complain", watch.command_line.complain)
        watch.command_line.complain = said.append
        watched = watch.Watch(60.0, patience=0.0)
        following = watch.Following(watched, None, 60.0, metrics.Metrics(None, None), None)
        for line in ("feed 1", None, running.frame(0, 0), "end idle given 1 missing 0 bad 0 refused 0", None):
            if line:
                watched.take(line)
            time.sleep(0.002)
            following.due()
        self.assertEqual([text.partition(",")[0] for text in said], ["datagrams come", "datagrams give frames again"])


class Stamps(unittest.TestCase):
    def test_each_line_has_its_moment(self):
        status, out, _ = running.run("watch.py", "--stamp", given=REPORT)
        stamped = [line for line in out.splitlines() if " longest gap " not in line]
        self.assertEqual((status, [line.partition(" ")[2] for line in stamped]), (7, REPORT.splitlines()))
        for line in stamped:
            self.assertRegex(line, r"^2\d{3}-\d\d-\d\dT\d\d:\d\d:\d\d\.\d{3}Z ")
        self.assertEqual(running.run("watch.py", "--stamp", "--format", "csv", given=REPORT)[0], 2)


class Command(unittest.TestCase):
    def script(self, text):
        """A program that does this."""
        path = pathlib.Path(self.folder.name, "receive")
        path.write_text(f"#!/bin/sh\ncd {self.folder.name}\n{text}", encoding="utf-8")
        path.chmod(0o755)
        return path

    def setUp(self):
        self.folder = tempfile.TemporaryDirectory()
        self.addCleanup(self.folder.cleanup)
        pathlib.Path(self.folder.name, "report").write_text(REPORT, encoding="ascii")

    def test_its_own_status(self):
        for status in (2, 6):
            command = self.script(f"echo feed 1; exit {status}")
            self.assertEqual(running.run("watch.py", "--", command)[0], status)
        self.assertEqual(running.run("watch.py", "--", self.script("kill -9 $$"))[0], 128 + signal.SIGKILL)
        self.assertEqual(running.run("watch.py", "--", self.script("exit 0"))[::2], (1, "watch.py: the report broke off: it has no last line\n"))
        self.assertEqual(running.run("watch.py", "--", "/nowhere/drmcast")[0], 2)

    def test_counts_and_gap_go_on_over_reports(self):
        silent = self.script("if [ -e begun ]; then sleep 0.4; echo feed 1; echo end idle given 0 missing 0 bad 0 refused 1; else cat report; touch begun; fi\nexit 7")
        with running.start("watch.py", "--every", 0.5, "--", silent) as watching:
            time.sleep(2.5)
            status, out, err = running.stop(watching)
        lines = out.decode().splitlines()
        self.assertEqual((status, err), (7, ""))
        self.assertIn("given 3 missing 1 bad 1", lines[-1])
        gaps = [float(re.search(r"gap ([0-9.]+)", line).group(1)) for line in lines[1:]]
        self.assertEqual(gaps, sorted(gaps))
        self.assertGreater(gaps[-1], 1.5)
        self.assertGreater(int(lines[-1].split()[-1]), 21)

    def test_the_command_ends_with_the_watch(self):
        running_on = self.script("echo $$ > pid; echo feed 1; exec sleep 60")
        with running.start("watch.py", "--", running_on) as watching:
            pid = pathlib.Path(self.folder.name, "pid")
            running.until(lambda: pid.exists() and pid.read_text(encoding="ascii").strip())
            self.assertEqual(running.stop(watching)[0], 0)
            self.assertFalse(pathlib.Path("/proc", pid.read_text(encoding="ascii").strip()).exists())

    def test_metrics(self):
        path = pathlib.Path(self.folder.name, 'no "rd.prom')
        self.assertEqual(running.run("watch.py", "--metrics", path, given=REPORT)[0], 7)
        link, values = metrics.read(path)
        self.assertEqual(link, r'no \"rd')
        wanted = {"frames_given_total": 3, "frames_missing_total": 1, "frames_bad_total": 1, "datagrams_refused_total": 20, "switches_total": 1,
                  "resumed_total": 1, "recently_lost_frames": 2}
        self.assertEqual({name: values[name] for name in wanted}, wanted)
        self.assertAlmostEqual(values["last_frame_timestamp_seconds"], time.time(), delta=10)
        self.assertEqual((path.stat().st_mode & 0o777, sorted(each.name for each in path.parent.iterdir())), (0o644, ['no "rd.prom', "report"]))

    def test_a_watch_goes_on_from_the_last_frame_of_its_file(self):
        path = pathlib.Path(self.folder.name, "it.prom")
        values = dict.fromkeys(metrics.METRICS, 0) | {"last_frame_timestamp_seconds": time.time() - 500}
        path.write_text(metrics.as_text("it", values), encoding="utf-8")
        out = running.run("watch.py", "--metrics", path, given="feed 1\nend idle given 0 missing 0 bad 0 refused 0\n")[1]
        self.assertRegex(out, r"\nall .* longest gap 50\d\.\d s", out)

    def test_metrics_that_cannot_be_written(self):
        status, _, err = running.run("watch.py", "--metrics", "/nowhere/it.prom", given=REPORT)
        self.assertEqual((status, err), (1, "watch.py: /nowhere/it.prom: No such file or directory\n"))


class Check(unittest.TestCase):
    def checked(self, *options, kinds=metrics.METRICS, **values):
        with tempfile.TemporaryDirectory() as folder:
            path = pathlib.Path(folder, "it.prom")
            now = time.time() - 2
            given = dict.fromkeys(kinds, 0) | {"last_frame_timestamp_seconds": now, "playout_written_timestamp_seconds": now, "playout_list_seconds": 5000} | values
            path.write_text(metrics.as_text("nord", given, kinds), encoding="utf-8")
            status, out, err = running.run("check_drmcast.py", path, *options)
        self.assertEqual((out.count("\n"), err), (1, ""))
        self.assertEqual(out.split()[1], ("OK", "WARNING", "CRITICAL", "UNKNOWN")[status])
        return status

    def test_each_status(self):
        limits = ("--missing", 5, "--gap", 30)
        self.assertEqual(self.checked(*limits), 0)
        self.assertEqual(self.checked(*limits, recently_lost_frames=5), 0)
        self.assertEqual(self.checked(*limits, recently_lost_frames=6), 1)
        self.assertEqual(self.checked(*limits, longest_gap_seconds=31), 1)
        self.assertEqual(self.checked(*limits, last_frame_timestamp_seconds=time.time() - 40), 2)
        self.assertEqual(self.checked(*limits, last_frame_timestamp_seconds=0), 2)
        self.assertEqual(self.checked(*limits, in_vain_seconds=70), 1)
        self.assertEqual(self.checked(*limits, in_vain_seconds=70, last_frame_timestamp_seconds=time.time() - 70), 2)

    def test_a_playout(self):
        for wanted, values in ((0, {}), (0, {"playout_due": 1, "playout_on_air": 1}), (2, {"playout_due": 1}), (1, {"playout_list_seconds": 3599}),
                               (2, {"playout_written_timestamp_seconds": time.time() - 40})):
            self.assertEqual(self.checked(kinds=metrics.PLAYOUT_METRICS, **values), wanted, values)

    def test_what_cannot_be_said(self):
        for words in (["/nowhere"], ["/dev/null"], [__file__], ["/"], [], [__file__, "--gap", "x"]):
            status, out, err = running.run("check_drmcast.py", *words)
            self.assertEqual((status, out.count("\n"), out.split()[1]), (3, 1, "UNKNOWN"), words)
            self.assertNotIn("Traceback", err)


if __name__ == "__main__":
    unittest.main()
