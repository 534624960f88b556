"""`report.py`: feeds laid beside each other by the count of their frames, in little memory."""
import os
import pathlib
import resource
import subprocess
import tempfile
import unittest
import xml.dom.minidom

import running

FRAMES = [running.frame(k, k + 100) for k in range(30)]
COUNTS = 1 << 32


def reconfigured(first=0, missed=()):
    """Items of four super frames from item `first` on, the last two of a new configuration; the second one counts down to it.

    A receiver gives the `switch` if it missed not all of the countdown and begins before the change, and else a `resumed`.
    """
    warned, lines = False, []
    for count in range(first, 12):
        place, index = count - first, int(3 <= count < 6)
        # The FAC: which frame of the super frame it is, and the reconfiguration index.
        fac = int(running.FAC, 16) & ~(3 << 69 | 7 << 54) | (count % 3 or 3) << 69 | index << 54
        if count == 6 and place and warned:
            lines.append(f"switch {place}")
        warned |= bool(index) and count not in missed
        lines.append(f"missing {place} had 0 of 0" if count in missed
                     else running.frame(place, count, "55555555" if count < 6 else "66666666").replace(running.FAC, f"{fac:018x}"))
    return lines


class Compare(unittest.TestCase):
    def setUp(self):
        folder = tempfile.TemporaryDirectory()
        self.addCleanup(folder.cleanup)
        self.folder = pathlib.Path(folder.name)

    def compared(self, *texts):
        """The status and the lines of a comparison of these reports, which are a.txt, b.txt and so on."""
        names = []
        for name, text in zip("abc", texts):
            self.folder.joinpath(f"{name}.txt").write_text(text, encoding="ascii")
            names.append(f"{name}.txt")
        status, out, err = running.run("report.py", "compare", *names, cwd=self.folder)
        self.assertEqual(err, "")
        return status, out.splitlines()

    def test_alike(self):
        self.assertEqual(self.compared(running.report(*FRAMES), running.report(*FRAMES)), (0, ["2 feeds, 30 items in all of them, alike"]))

    def test_receivers_that_started_apart(self):
        late = [running.frame(k, k + 103) for k in range(27)]
        self.assertEqual(self.compared(running.report(*FRAMES), running.report(*late)),
                         (0, ["b.txt feed 1 lacks 3 items at its beginning and 0 at its end", "2 feeds, 27 items in all of them, alike"]))

    def test_the_count_begins_again(self):
        one = [running.frame(k, (COUNTS - 4 + k) % COUNTS) for k in range(10)]
        other = [running.frame(k, k) for k in range(6)]
        self.assertEqual(self.compared(running.report(*one), running.report(*other))[0], 0)
        other[3] = running.frame(3, 3, "55556655")
        status, lines = self.compared(running.report(*one), running.report(*other))
        self.assertEqual((status, lines[:3]), (1, ["dlfc 3, multiplex, byte 2:", "  a.txt feed 1: 55", "  b.txt feed 1: 66"]))
        self.assertEqual(lines[-2:], ["2 feeds, 6 items in all of them", "frames whose bits differ: 1"])

    def test_the_piece_and_its_byte(self):
        for old, new, where, there in ((f"fac {running.FAC}", "fac 6608ce0d2010a101ec", "FAC, byte 7", ["00", "01"]), ("sdc -", "sdc 3", "SDC block, byte 0", ["none", "3"]),
                                       ("mux 01", "mux 02", "description, byte 0", ["01", "02"]), ("mode B", "mode C", "mode", ["B", "C"]),
                                       ("msc 55555555", "msc 555555", "multiplex, byte 3", ["55", "none"])):
            status, lines = self.compared(running.report(*FRAMES[:2]), running.report(FRAMES[0], FRAMES[1].replace(old, new)))
            self.assertEqual((status, lines[0], [line.split(": ")[1] for line in lines[1:3]]), (1, f"dlfc 101, {where}:", there))
        block = [frame.replace("sdc -", "sdc 0abcd") for frame in FRAMES[:2]]
        self.assertEqual(self.compared(running.report(*block), running.report(block[0], block[1].replace("cd", "ce")))[1][0], "dlfc 101, SDC block, byte 2:")

    def test_what_one_missed_counts_apart(self):
        some = ["missing 0 had 0 of 0", *FRAMES[1:5], "missing 5 had 3 of 9", *FRAMES[6:]]
        late = ["missing 0 had 1 of 9", *(running.frame(k, k + 102) for k in range(1, 28))]
        status, lines = self.compared(running.report(*some), running.report(*late), running.report(*FRAMES))
        self.assertEqual([line for line in lines if line.startswith("dlfc")], ["dlfc 102:", "dlfc 105:"])
        self.assertEqual(lines[1:4], ["  a.txt feed 1: given", "  b.txt feed 1: missing", "  c.txt feed 1: given"])
        self.assertEqual((status, lines[-2:]), (7, ["3 feeds, 28 items in all of them", "frames that some missed: 2"]))
        late[5] = running.frame(5, 107, "55555556")
        status, lines = self.compared(running.report(*some), running.report(*late), running.report(*FRAMES))
        self.assertEqual((status, lines[-3:]), (1, ["3 feeds, 28 items in all of them", "frames whose bits differ: 1", "frames that some missed: 2"]))

    def test_how_little_came_makes_no_difference(self):
        self.assertEqual(self.compared(running.report("missing 0 had 3 of 9", FRAMES[1]), running.report("missing 0 had 4 of 9", FRAMES[1]))[0], 0)

    def test_reconfigurations(self):
        whole = running.report(*reconfigured())
        self.assertEqual(self.compared(whole, running.report(*reconfigured(4))),
                         (0, ["b.txt feed 1 lacks 4 items at its beginning and 0 at its end", "2 feeds, 8 items in all of them, alike"]))
        # One frame of the countdown is enough; without it, or from the new configuration on, nothing can be reported.
        self.assertEqual(self.compared(whole, running.report(*reconfigured(missed=(3, 5, 6))))[1][-1], "frames that some missed: 3")
        status, lines = self.compared(whole, running.report(*reconfigured(missed=(3, 4, 5))))
        self.assertEqual((status, lines[-2:]), (7, ["frames that some missed: 3", "switch or resumed of some alone, after a missed countdown: 1"]))
        self.assertEqual(lines[-6:-3], ["dlfc 6:", "  a.txt feed 1: switch", "  b.txt feed 1: nothing"])
        status, lines = self.compared(whole, running.report(*reconfigured(6)))
        self.assertEqual((status, lines[-1]), (7, "switch or resumed of some alone, after a missed countdown: 1"))
        # A report that no receiver of the schedule makes: the switch a frame late, or none although the countdown was given.
        late = reconfigured()
        late[6:8] = late[7], "switch 7"
        for wrong, count in ((late, 2), ([line for line in reconfigured() if line != "switch 6"], 1)):
            status, lines = self.compared(whole, running.report(*wrong))
            self.assertEqual((status, lines[-1]), (1, f"reconfigurations reported otherwise: {count}"))

    def test_nothing_in_common(self):
        self.assertEqual(self.compared(running.report(*FRAMES), running.report(running.frame(0, 5000)))[0], 1)
        self.assertEqual(self.compared(running.report(), running.report()), (1, ["2 feeds, 0 items in all of them"]))

    def test_standard_input_and_several_feeds(self):
        text = running.report(*FRAMES) + running.report(*FRAMES).replace("feed 1", "feed 2")
        self.assertEqual(running.run("report.py", "compare", "-", given=text)[:2], (0, "2 feeds, 30 items in all of them, alike\n"))

    def test_pipes(self):
        read, write = os.pipe()
        with open(write, "w", encoding="ascii") as out:
            out.write(running.report(*FRAMES))
        self.addCleanup(os.close, read)
        status, out, err = running.run("report.py", "compare", f"/dev/fd/{read}", "-", given=running.report(*FRAMES), pass_fds=(read,))
        self.assertEqual((status, out, err), (0, "2 feeds, 30 items in all of them, alike\n", ""))

    def test_bad_input(self):
        for text, said in (("hello\n", "line 1 is no line"), ("switch 3\n", "before the first line"), ("feed 1\n" + FRAMES[1] + "\n", "item 0 is next"),
                           (running.report() + FRAMES[0] + "\n", "behind the last line"), (b"feed 1\n\xff\n", "line 2"), ("", "there is no feed")):
            status, out, err = running.run("report.py", "losses", "-", given=text)
            self.assertEqual((status, out, err.count("\n")), (1, "", 1), text)
            self.assertIn(said, err)
        self.assertEqual(running.run("report.py", "compare", "/nowhere")[::2], (1, "report.py: /nowhere: No such file or directory\n"))
        with open("/dev/full", "wb") as full:
            self.assertEqual(running.run("report.py", "losses", "-", given=running.report(*FRAMES), stdout=full)[::2],
                             (1, "report.py: standard output: No space left on device\n"))

    def test_a_report_that_is_still_written(self):
        status, out, err = running.run("report.py", "losses", "-", given="feed 1\n" + FRAMES[0] + "\n" + FRAMES[1][:40])
        self.assertEqual((status, err), (0, "report.py: -: the last line is cut, and left out\n"))
        self.assertIn("0 of 1 items missing or bad", out)

    def test_a_picture_is_xml(self):
        self.folder.joinpath("a&b.txt").write_text(running.report("missing 0 had 0 of 0", *FRAMES[1:5], "switch 5", FRAMES[5]), encoding="ascii")
        status, out, _ = running.run("report.py", "losses", "a&b.txt", cwd=self.folder)
        self.assertEqual(status, 0)
        marks = xml.dom.minidom.parseString(out).getElementsByTagName("line")
        self.assertEqual(sum(mark.getAttribute("stroke") == "#36c" for mark in marks), 1)

    def test_memory_is_bounded(self):
        with open(self.folder / "long.txt", "w", encoding="ascii") as out:
            out.write("feed 1\n" + "".join(running.frame(k, k, "55" * 10_000) + "\n" for k in range(2_500)))
        most = 32 << 20
        ran = subprocess.run(running.words("report.py", "compare", self.folder / "long.txt", self.folder / "long.txt"), stdout=subprocess.PIPE, check=False,
                             preexec_fn=lambda: resource.setrlimit(resource.RLIMIT_DATA, (most, most)), timeout=running.WAIT_SECONDS)
        self.assertEqual((ran.returncode, ran.stdout), (0, b"2 feeds, 2500 items in all of them, alike\n"))


if __name__ == "__main__":
    unittest.main()
