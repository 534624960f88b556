"""The command lines of the systemd units, run as systemd would run them, with programs that stand in for what they start."""
import contextlib
import os
import pathlib
import re
import shlex
import signal
import stat
import subprocess
import tempfile
import unittest

import running
import stations

import playlists

UNITS = running.TOP / "contrib/systemd"
INSTANCE = "nord"
# It prints its words, each in brackets.
PRINTS = "#!/bin/sh\nprintf '<%s>' \"$@\"\necho\n"


class Unit:
    """What runs a unit's lines for a test with a folder of its own."""

    folder = None

    def unit(self, name):
        """A unit for this instance, within the folder."""
        text = UNITS.joinpath(f"drmcast-{name}@.service").read_text(encoding="ascii")
        return text.replace("@PREFIX@", str(self.folder)).replace("/run/", f"{self.folder}/run/").replace("/var/lib/", f"{self.folder}/state/").replace("%i", INSTANCE)

    def environment(self, text, given):
        """Its environment, with what its file has."""
        own = [word for line in re.findall("^Environment=(.*)$", text, re.MULTILINE) for word in shlex.split(line)]
        return dict(word.split("=", 1) for word in own) | given

    def words(self, name, key="ExecStart", **given):
        """The words that systemd makes of such a line, and the environment that they are run in."""
        text = self.unit(name)
        environment = self.environment(text, given)
        found = []
        for word in shlex.split(re.search(f"^{key}=(.*)$", text, re.MULTILINE)[1]):
            whole = re.fullmatch(r"\$([A-Z]+)", word)
            if whole:
                found += shlex.split(environment.get(whole[1], ""))
            else:
                found.append(re.sub(r"\$\{([A-Z]+)\}|\$\$", lambda each: environment.get(each[1], "") if each[1] else "$", word))
        return found, environment

    def started(self, name, key="ExecStart", **given):
        words, environment = self.words(name, key, **given)
        return subprocess.Popen(words, cwd=self.folder, env=os.environ | environment, stdin=subprocess.DEVNULL, stdout=subprocess.PIPE, stderr=subprocess.PIPE, text=True,
                                start_new_session=True)

    def ran(self, name, key="ExecStart", **given):
        """The status, and what was written."""
        with self.started(name, key, **given) as unit:
            status = unit.wait(running.WAIT_SECONDS)
            self.ends(unit)
            out, err = unit.communicate(timeout=running.WAIT_SECONDS)
        return status, out, err

    def ends(self, unit):
        """What systemd does with what is left of a unit whose first process has ended."""
        with contextlib.suppress(ProcessLookupError):
            os.killpg(unit.pid, signal.SIGKILL)

    def live(self, **given):
        return {"LIST": "it.list", "TO": "127.0.0.1:9", "FILL": "--late 1000 --fill 55", "OPTIONS": ""} | given


class Lines(Unit, unittest.TestCase):
    def setUp(self):
        folder = tempfile.TemporaryDirectory()
        self.addCleanup(folder.cleanup)
        self.folder = pathlib.Path(folder.name)
        for name in ("bin/drmcast", "bin/drmpaths", "lib/drmcast/playout.py", "lib/drmcast/interleave.py", "lib/drmcast/watch.py"):
            self.program(name, PRINTS)
        self.folder.joinpath(f"run/drmcast-live/{INSTANCE}").mkdir(parents=True)

    def program(self, name, text):
        """A program that does this."""
        path = self.folder / name
        path.parent.mkdir(parents=True, exist_ok=True)
        path.write_text(text, encoding="utf-8")
        path.chmod(0o755)

    def test_words_of_the_programs(self):
        to = {"TO": "192.0.2.7:5000,192.0.2.8:5000"}
        for name, given, wanted in (
                ("serve", to, "serve --to 192.0.2.7:5000,192.0.2.8:5000 --pace 400 -- nord.plan"),
                ("serve", to | {"PLAN": "my.plan", "PACE": "40", "OPTIONS": "--from 3"}, "serve --to 192.0.2.7:5000,192.0.2.8:5000 --pace 40 --from 3 -- my.plan"),
                ("gate", to | {"FROM": "0.0.0.0:5000", "CARRY": "plain", "OPTIONS": "--window 16"}, "gate --window 16 -- 0.0.0.0:5000 192.0.2.7:5000,192.0.2.8:5000 plain"),
                ("playout", to | {"LIST": "week.list"}, f"--program {self.folder}/bin/drmcast --metrics {self.folder}/run/drmcast-playout/nord/playout.prom --link nord "
                                                        f"--state {self.folder}/state/drmcast-playout/nord --to 192.0.2.7:5000,192.0.2.8:5000 --pace 400 -- week.list"),
                ("paths", {"AT": "192.0.2.7:5000,198.51.100.7:5000", "OPTIONS": "--window 64"}, "192.0.2.7:5000,198.51.100.7:5000 --window 64"),
                ("receive", {"AT": "0.0.0.0:5000", "OPTIONS": "--window 16"}, f"--metrics {self.folder}/run/drmcast/nord/receive.prom --link nord -- {self.folder}/bin/drmcast "
                                                                              "receive 0.0.0.0:5000 --window 16")):
            with self.subTest(name=name):
                status, out, err = self.ran(name, **given)
                self.assertEqual((status, out, err), (0, "".join(f"<{word}>" for word in wanted.split(" ")) + "\n", ""))

    def test_statuses_of_one_program(self):
        for name, program in (("serve", "bin/drmcast"), ("gate", "bin/drmcast"), ("paths", "bin/drmpaths"), ("playout", "lib/drmcast/playout.py"), ("receive", "lib/drmcast/watch.py")):
            self.program(program, "#!/bin/sh\nexit 9\n")
            self.assertEqual(self.ran(name, TO="a", LIST="a", FROM="a", CARRY="a", AT="a")[0], 9, name)

    def test_sections_that_they_name(self):
        for path in UNITS.iterdir():
            for section, document in re.findall(r'see "([^"]+)" in ([A-Z]+\.md)', path.read_text(encoding="ascii").replace("\n# ", " ")):
                self.assertRegex(running.TOP.joinpath("docs", document).read_text(encoding="utf-8"), rf"(?m)^#+ {re.escape(section)}$", path.name)

    def test_a_schedule_that_began_is_not_begun_again(self):
        for name, restarts, kept in (("serve", "no", None), ("playout", "on-failure", "2 3 4 9"), ("live", "on-failure", "2 3 4 9")):
            text = self.unit(name)
            found = re.search("^RestartPreventExitStatus=(.*)$", text, re.MULTILINE)
            self.assertEqual((re.search("^Restart=(.*)$", text, re.MULTILINE)[1], found and found[1]), (restarts, kept), name)

    def test_fifos(self):
        run = f"{self.folder}/run/drmcast-live/{INSTANCE}"
        self.assertEqual(self.ran("live", "ExecStartPre")[0], 0)
        self.assertEqual(self.ran("live", "ExecStartPre", PIECES=f"1:484:{run}/1.fifo 2:{run}/2:0.fifo")[0], 0)
        self.assertEqual([path.name for path in sorted(pathlib.Path(run).iterdir()) if stat.S_ISFIFO(path.stat().st_mode)], ["0.fifo", "1.fifo", "2:0.fifo"])
        self.assertNotEqual(self.ran("live", "ExecStartPre")[0], 0)

    def test_words_of_a_live_station(self):
        run = f"{self.folder}/run/drmcast-live/{INSTANCE}"
        self.program("lib/drmcast/interleave.py", "#!/bin/sh\nprintf '<%s>' \"$@\" > said\n")
        self.program("lib/drmcast/playout.py", PRINTS.replace("printf", "cat > rest; printf", 1))
        status, out, err = self.ran("live", **self.live(PACE="40", LIVE="0,1", OPTIONS="--reach 3"))
        self.assertEqual((status, err), (0, ""))
        self.assertEqual(self.folder.joinpath("said").read_text(encoding="ascii"), "".join(f"<{word}>" for word in [
            "--program", f"{self.folder}/bin/drmcast", "--list", "it.list", "--pace", "40", "--late", "1000", "--fill", "55", "--", f"0:{run}/0.fifo"]))
        self.assertEqual(out.strip(), "".join(f"<{word}>" for word in [
            "--program", f"{self.folder}/bin/drmcast", "--interleaved", "--live", "0,1", "--to", "127.0.0.1:9", "--pace", "40", "--metrics", f"{run}/playout.prom", "--link", "nord",
            "--state", f"{self.folder}/state/drmcast-live/nord", "--reach", "3", "--", "it.list"]))

    def test_statuses_of_a_live_station(self):
        for interleave, playout, wanted in (("exec cat /dev/zero", "exit 9", 9), ("exec cat /dev/zero", "kill -9 $$", 137), ("exit 3", "cat > rest; exit 10", 3),
                                            ("exit 2", "cat > rest; exit 10", 2), ("kill -9 $$", "cat > rest; exit 10", 10), ("exit 7", "cat > rest; exit 10", 10),
                                            ("exit 0", "exit 0", 0)):
            self.program("lib/drmcast/interleave.py", f"#!/bin/sh\n{interleave}\n")
            self.program("lib/drmcast/playout.py", f"#!/bin/sh\n{playout}\n")
            self.assertEqual(self.ran("live", **self.live())[0], wanted, (interleave, playout))


class Station(Unit, stations.Station):
    """A live station with the scripts that its unit starts; `drmcast` alone is another."""

    def setUp(self):
        super().setUp()
        for folder in ("bin", "lib", f"run/drmcast-live/{INSTANCE}"):
            self.folder.joinpath(folder).mkdir(parents=True)
        self.program.rename(self.folder / "bin/drmcast")
        self.folder.joinpath("lib/drmcast").symlink_to(running.TOOLS)
        self.assertEqual(self.ran("live", "ExecStartPre")[0], 0)

    def on_air(self):
        """A station whose server has begun."""
        self.plan("a.plan", 0, 0, 1000)
        self.list((playlists.now() - 1000, "a.plan"))
        station = self.started("live", **self.live(PACE=str(stations.PACE)))
        self.addCleanup(station.communicate, timeout=running.WAIT_SECONDS)
        self.addCleanup(self.ends, station)
        running.until(self.log, "a server")
        return station

    def child(self, station, script):
        """The process of a script among those that a station started."""
        for process in pathlib.Path(f"/proc/{station.pid}/task/{station.pid}/children").read_text(encoding="ascii").split():
            if script.encode() in pathlib.Path(f"/proc/{process}/cmdline").read_bytes():
                return int(process)
        raise AssertionError(f"{script} isn't running")

    def test_either_script_dies(self):
        for script, status in (("interleave.py", 10), ("playout.py", 137)):
            station = self.on_air()
            os.kill(self.child(station, script), signal.SIGKILL)
            self.assertEqual(station.wait(running.WAIT_SECONDS), status, script)
            self.folder.joinpath("log").unlink()

    def test_a_list_with_two_sizes(self):
        self.plan("a.plan", 0, 0, 10)
        self.plan("b.plan", 30, 30, 10, "config 0 0\nstream 0 500 fill 00\n")
        begin = playlists.now() + 3_600_000
        self.list((begin, "a.plan"), (begin + 600, "b.plan"))
        status, _, err = self.ran("live", **self.live(PACE=str(stations.PACE)))
        self.assertEqual((status, self.log()), (3, []))
        # Whichever script comes first says it.
        self.assertIn("stream 0 has 500 bytes a frame in configuration 1 of b.plan, and 484 bytes a frame in configuration 1 of a.plan", err)


if __name__ == "__main__":
    unittest.main()
