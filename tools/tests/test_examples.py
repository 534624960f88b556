"""The schedules of `examples`: they fit their channels by the built program, and say of languages, clocks, frequencies and applications
what a radio understands. The table of SCHEDULE.md by which a channel is chosen is the program's."""
import os
import pathlib
import shutil
import subprocess
import tempfile
import unittest

import running

import fitting
import schedules

PLANS = sorted(running.TOP.joinpath("examples").glob("*.plan"))
PROGRAM = os.environ.get("DRMCAST") or str(running.TOP / "crates/drmcast/out/drmcast")
# The FAC's code of a language, by the SDC's.
LANGUAGES = {"656e67": 5, "646575": 7}
MINUTE_SUPER_FRAMES = 50
DAB_APPLICATION = "1"


def schedule(path):
    return schedules.Schedule(path.read_text(encoding="utf-8"))


class Examples(unittest.TestCase):
    def each(self):
        self.assertTrue(PLANS)
        for path in PLANS:
            for config in schedule(path).configurations:
                with self.subTest(path=path.name, config=config.start):
                    yield config

    def entities(self, config, kind):
        return [line.words for block in config.blocks for line in block.of(kind)]

    def test_languages_agree(self):
        for config in self.each():
            codes = {line.words[2]: int(line.words[4]) for line in config.services}
            for words in self.entities(config, "language"):
                self.assertEqual(codes[words[1]], LANGUAGES[words[2].lower()])

    def test_frequencies_and_applications(self):
        for config in self.each():
            for words in self.entities(config, "freq"):
                self.assertEqual((words[1], "+" in words[5]), ("0", False))
            for words in self.entities(config, "app"):
                self.assertEqual(words[7] if words[3] == "packet" else words[5], DAB_APPLICATION)

    def test_clocks_are_the_minutes_of_their_super_frames(self):
        for path in PLANS:
            clocks = [(config.start, list(map(int, config.clock))) for config in schedule(path).configurations if config.clock]
            for start, (_, hours, minutes) in clocks:
                _, (_, first_hours, first_minutes) = clocks[0]
                later = (start - clocks[0][0]) // MINUTE_SUPER_FRAMES
                self.assertEqual(60 * hours + minutes, 60 * first_hours + first_minutes + later, path.name)


@unittest.skipUnless(os.access(PROGRAM, os.X_OK), "there is no built program here")
class Channels(unittest.TestCase):
    def test_examples_fit(self):
        with tempfile.TemporaryDirectory() as name:
            folder = pathlib.Path(name)
            with open(folder / "units", "wb") as units:
                subprocess.run(running.words("units.py", running.TOP / "examples/picture.pgm", 550, "--times", 4), stdout=units, check=True)
            for words, given, made in ((running.words("messages.py", running.TOP / "examples/messages.txt", 484, 300), os.devnull, "radio.stream"),
                                       ([PROGRAM, "pack", "0", "55"], folder / "units", "picture.packets")):
                with open(given, "rb") as taken, open(folder / made, "wb") as out:
                    subprocess.run(words, stdin=taken, stdout=out, check=True)
            for path in PLANS:
                with self.subTest(path=path.name):
                    shutil.copy(path, folder)
                    ran = subprocess.run([PROGRAM, "capacity", path.name], cwd=folder, capture_output=True, text=True, check=False)
                    self.assertEqual((ran.returncode, ran.stderr), (0, ""), ran.stdout)

    def test_the_table_of_channels(self):
        self.assertEqual(running.run("channels.py", "--program", PROGRAM, "--check", running.TOP / "docs/SCHEDULE.md"), (0, "", ""))

    def test_what_fits_as_part_a(self):
        plan = ("drmplan 2\ncarry plain\nfirst 0 0\nlength 1\nconfig 0 0\nmode {}\noccupancy {}\ndepth long\nmsc {}\nsdc 0\nprotection {} 0\nroom {}\n"
                "service 123456 0 0 5 audio 3 0\nstream {} 0 fill 00\nblock 0\naudio 0 0 0 1 0 3 0 0 0\n")
        for mode, occupancy, room, cells in (("B", 3, 76, 2337), ("A", 5, 207, 6118), ("D", 3, 33, 1226)):
            for (msc, level), (multiple, bits) in fitting.MULTIPLES.items():
                most = cells // multiple * bits // 8
                for size, status in ((most, 0), (most + 1, 7)):
                    with self.subTest(mode=mode, msc=msc, level=level, size=size), tempfile.NamedTemporaryFile("w", suffix=".plan") as file:
                        file.write(plan.format(mode, occupancy, msc, level, room, size))
                        file.flush()
                        self.assertEqual(subprocess.run([PROGRAM, "capacity", file.name], stdout=subprocess.DEVNULL, check=False).returncode, status)


if __name__ == "__main__":
    unittest.main()
