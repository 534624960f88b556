"""`explain.py` over a program that stands in for `drmcast`, what it says of each reason, and its tables beside those of SCHEDULE.md."""
import pathlib
import re
import tempfile
import unittest

import running

import schedule_faults
import schedule_told
import schedules

# It names the fault that a comment asks for, or prints the text; `capacity` prints the lines that comments say, with 7 if there are some.
PROGRAM = """#!/bin/sh
for name; do :; done
fault=$(sed -n 's/^# fault //p' "$name")
if [ "$fault" = read ]; then
    echo "drmcast: read fault" >&2
    echo "drmcast: gone.bin: No such file or directory (2)" >&2
    exit 4
fi
if [ -n "$fault" ]; then
    echo "drmcast: schedule line $fault" >&2
    exit 3
fi
[ "$1" = capacity ] || exec cat "$name"
sed -n 's/^# capacity //p' "$name"
! grep -q '^# capacity' "$name" || exit 7
"""
ONE = """drmplan 2
carry pft 2 1400
first 0 0
length 150
config 0 0
mode B
occupancy 3
depth long
msc 0
sdc 0
protection 0 1
room 64
service e0d201 0 0 5 audio 3 0
stream 0 1044 fill 00
block 0
audio 0 0 0 1 0 3 0 0 0
label 0 Radio  Nord
language 0 656e67 6762
"""
# A second configuration, with a data service, behind the lines of the first one.
SECOND = """config 100 2
mode C
occupancy 5
depth short
msc 3
sdc 1
protection 0 0
room 40
service e0d201 0 0 5 audio 3 0
service e0d203 1 0 0 data 0 0
stream 10 90 file news.bin
clock 61372 18 30
block 0
audio 0 0 3 0 2 3 1 0 0
app 1 0 sync 0 1 0102
freq 1 0 - ff 6085,+9700
block 50
audio 0 0 3 0 2 3 1 0 0
app 1 0 sync 0 1 0102
raw 14 0 0 010203
"""


def said(text, number, reason):
    return list(schedule_faults.said(text, number, reason))


def changed(number, line, text=ONE):
    """A text with another line there."""
    lines = text.split("\n")
    lines[number - 1] = line
    return "\n".join(lines)


class Tables(unittest.TestCase):
    def setUp(self):
        self.document = running.TOP.joinpath("docs/SCHEDULE.md").read_text(encoding="utf-8")

    def test_each_line_is_that_of_the_document(self):
        rows = re.findall(r"^\| `([a-z]+(?: [^`]+)?)`( and maybe HEX)? \| ", self.document.partition("## What can be wrong")[0], re.MULTILINE)
        forms = [schedules.shown(form)[0] for form in schedules.FORMS.split("\n") if form]
        self.assertEqual(["".join(row) for row in rows], ["drmplan 2", *forms[1:]])

    def test_numbers_have_the_ranges_of_the_document(self):
        for form in schedules.FORMS.split("\n"):
            for word in schedules.form_words(form) if form else ():
                if re.fullmatch(r"\d+-\d{2,}", word.kind):
                    self.assertTrue(re.search(rf"\| `{form.split(' ')[0]} .*\b{schedules.said_of(word.kind)}\b", self.document), form)

    def test_codes_are_those_of_the_document(self):
        for words, title in ((schedule_told.LANGUAGES, "LANGUAGE of `service`"), (schedule_told.PROGRAMMES, "DESCRIPTOR of an audio service, its programme type")):
            row = self.document.partition(f"| {title} | ")[2].partition(" |")[0]
            self.assertEqual(row, ", ".join(f"{number} {word}" for number, word in enumerate(words)))

    def test_limits_are_those_of_the_document(self):
        for wanted in (f"more than {schedules.MOST['text']:,} bytes", f"more than {schedules.MOST['file']:,} bytes",
                       f"more than {schedule_faults.MOST_PACKET:,} bytes, or more than {schedule_faults.MOST_SMALL_PACKET:,} under"):
            self.assertTrue(wanted in self.document, wanted)


class Words(unittest.TestCase):
    def test_the_word_that_is_wrong_and_the_form(self):
        for number, line, reason, wanted in (
                (9, "msc 5", "range", ["5: N is 0 to 3.", "It is written: msc N: N 0 to 3."]),
                (9, "msc x", "number", ["x: N is 0 to 3.", "It is written: msc N: N 0 to 3."]),
                (6, "mode E", "word", ["E: M is A or B or C or D.", "It is written: mode M: M A or B or C or D."]),
                (11, "protection 0", "word", ["protection has 1 word behind it here, and 2 are wanted.", "It is written: protection A B: A 0 to 3; B 0 to 3."])):
            self.assertEqual(said(changed(number, line), number, reason), wanted, line)
        for number, line, wanted in ((2, "carry pft 6 1400", "6: M is 0 to 5."), (2, "carry pft 2 1600", "1600: MTU is 128 to 1,500."), (2, "carry whole", "whole: where plain stands."),
                                     (14, "stream 0 1044 fill 5", "5: HH is 2 hexadecimal digits."), (14, "stream 0 x file a", "x: B is 0 to 4,095."),
                                     (16, "audio 0 0 0 1 0 9 0 0 0", "9: RATE is 0 to 7."), (13, "service e0d201 0 0 16 audio 3 0", "16: LANGUAGE is 0 to 15."),
                                     (18, "language 0 656e 6762", "656e: HEX6 is 6 hexadecimal digits.")):
            self.assertEqual(said(changed(number, line), number, "range")[0], wanted)

    def test_the_limit_that_a_label_or_a_list_goes_past(self):
        for line, wanted in (("label 0 Radio Nord und Mitte", "Radio Nord und Mitte: TEXT is 1 to 16 characters in at most 64 bytes, and here are 20 in 20."),
                             ("label 0  ", " : TEXT is 1 to 16 characters in at most 64 bytes, and here are 1 in 1."),
                             (f"freq 1 0 - - {','.join(['6085'] * 17)}", f"{','.join(['6085'] * 17)[:60]}: LIST is 1 to 16 numbers of 0 to 32,767, joined by commas, and here are 17."),
                             (f"raw 14 0 0 {'00' * 128}", f"{'0' * 60}: BYTES is two hexadecimal digits a byte, at most 127 bytes, or - for none, and here are 128."),
                             (f"stream 0 4 file {'n' * 256}", f"{'n' * 60}: NAME is a name without a space, of at most 255 bytes, and here are 256.")):
            self.assertEqual(said(changed(17, line), 17, "range")[0], wanted)

    def test_first_words(self):
        self.assertEqual(said(changed(12, "romm 64"), 12, "word"), [f"A line begins with one of: {', '.join(schedules.first_words())}."])
        self.assertIn("drmplan 1, which has no blocks", said(changed(1, "drmplan 1"), 15, "word")[0])

    def test_what_is_there_twice_or_not_at_all(self):
        self.assertEqual(said(ONE + "mode C\n", 19, "twice"), ["Line 6 has it already."])
        self.assertEqual(said(ONE + SECOND.replace("room 40", "mode B"), 26, "twice"), ["Line 20 has it already."])
        self.assertEqual(said(changed(12, "") + SECOND, 5, "missing"), ["There is no room line."])
        self.assertEqual(said("drmplan 2\nconfig 0 0\nmode B\n", 2, "missing"), ["There is no occupancy line, no depth line, no msc line, no sdc line, no protection line, no room line, "
                                                                              "no service line, no stream line, no block line."])
        self.assertEqual(said("", 1, "missing"), ["There is no drmplan line."])
        self.assertEqual(said("drmplan 2\ncarry plain\nfirst 0 0\nlength 3\n", 5, "missing"), ["There is no config line."])

    def test_lines_in_the_wrong_place(self):
        self.assertEqual(said("drmplan 2\nlength 9\n", 2, "order"), ["Here the line carry is wanted."])
        self.assertEqual(said(ONE + SECOND.replace("config 100", "config 150"), 19, "order"),
                         ["It starts at super frame 150; the configuration before it starts at 0, and the schedule has 150 super frames."])
        self.assertEqual(said(changed(15, "label 0 Radio"), 15, "order"), ["An entity line stands behind a line block 0."])

    def test_limits(self):
        for kind, wanted in (("config", "A schedule has at most 16 configurations."), ("stream 0 4 fill 00", "A configuration has at most 4 streams."),
                             ("block", "A configuration has at most 64 blocks."), ("label 0 x", "A block has at most 64 entity lines.")):
            self.assertEqual(said("drmplan 2\nconfig 0 0\n" + f"{kind}\n" * 70, 72, "too-long"), [wanted])
        self.assertEqual(said(ONE, 0, "too-long"), ["A text has at most 262,144 bytes."])
        self.assertEqual(said(changed(14, "stream 0 4 file /nowhere"), 14, "too-long"), ["/nowhere can't be looked at, and a file may have 4,194,304 bytes."])


class Sums(unittest.TestCase):
    def test_room(self):
        self.assertEqual(said(changed(12, "room 27"), 15, "fit"), [
            "The room is 27 bytes, and 29 are needed: the streams 5, line 16 (audio) 4, line 17 (label) 13, line 18 (language) 7."])
        both = ONE + SECOND.replace("room 40", "room 14")
        self.assertEqual(said(both, 31, "fit"), ["The room is 14 bytes, and 26 are needed: the streams 5, the clock 5, line 32 (audio) 4, line 33 (app) 5, line 34 (freq) 7."])
        self.assertEqual(said(both, 35, "fit"), ["The room is 14 bytes, and 24 are needed: the streams 5, the clock 5, line 36 (audio) 4, line 37 (app) 5, line 38 (raw) 5."])

    def test_room_of_version_1(self):
        text = "\n".join(line for line in changed(1, "drmplan 1").replace("room 64", "room 27").split("\n") if not line.startswith("block"))
        self.assertEqual(len(said(text, 5, "fit")), 1)

    def test_room_of_an_announcement(self):
        self.assertEqual(said(changed(12, "room 33") + SECOND, 19, "fit"), [
            "The announcement has these entities, none of which is cut: the streams 5, the next channel 4, line 32 (audio) 4, line 33 (app) 5 bytes.",
            "In the blocks before it are free, and are filled in this order: 4 in super frame 98, 4 in super frame 99."])

    def test_content(self):
        with tempfile.TemporaryDirectory() as folder:
            path = pathlib.Path(folder, "news.bin")
            path.write_bytes(bytes(1000))
            self.assertEqual(said(ONE + SECOND.replace("news.bin", str(path)), 29, "content-short"), [
                f"The stream takes 100 bytes in each of 150 frames, that is 15,000; {path} has 1,000 bytes."])
        self.assertEqual(said(changed(14, "stream 0 1044 file /nowhere"), 14, "content-short"), [
            "The stream takes 1,044 bytes in each of 450 frames, that is 469,800; /nowhere can't be looked at."])

    def test_services(self):
        for line, place, wanted in (("label 0 x", 15, "The audio service with short id 0 has 0 audio lines in this block."),
                                    ("audio 0 1 0 1 0 3 0 0 0", 15, "Line 16: there is no stream 1; the streams are counted from 0, and there are 1."),
                                    ("audio 1 0 0 1 0 3 0 0 0", 15, "The audio service with short id 0 has 0 audio lines in this block.")):
            self.assertEqual(said(changed(16, line), place, "services")[0], wanted)
        self.assertEqual(said(changed(18, "language 1 656e67 6762"), 15, "services"), ["Line 18: no service has the short id 1."])
        self.assertEqual(said(changed(18, "label 0 Nord"), 15, "services"), ["The service with short id 0 has more than one label in this block."])
        self.assertEqual(said(ONE + SECOND.replace("203 1", "203 0"), 19, "services"), ["The services of the lines 27 and 28 have one short id, 0."])
        self.assertEqual(said(ONE + SECOND[::-1].replace("app 1 0"[::-1], "label 1 "[::-1], 1)[::-1], 35, "services")[0], "The data service with short id 1 has no app line in this block.")
        self.assertEqual(said(ONE + "block 9\naudio 0 0 3 1 0 3 0 0 0\n", 19, "services"), ["The audio lines of this block aren't those of the configuration's first one."])

    def test_starts(self):
        self.assertEqual(said(changed(5, "config 0 1"), 5, "countdown"), ["The countdown is 1; nothing stands before the first configuration, so it is 0."])
        self.assertEqual(said(ONE + SECOND.replace("config 100 2", "config 3 5"), 19, "countdown"), [
            "It starts at super frame 3, and is announced from -2 on; the configuration before it starts at 0."])
        self.assertEqual(said(ONE + SECOND.replace("block 50", "block 51"), 35, "block"), [
            "Here is number 51; the block before it has number 0, and the configuration has 50 super frames, counted from 0."])

    def test_packets(self):
        self.assertEqual(said(changed(14, "stream 4095 3992 fill 55").replace("1400", "255"), 5, "packet-size"), [
            "The packet has 8,248 bytes: 86, the room of 64, and 8,098 for the streams; it may have 8,192."])


class Script(unittest.TestCase):
    def setUp(self):
        folder = tempfile.TemporaryDirectory()
        self.addCleanup(folder.cleanup)
        self.folder = pathlib.Path(folder.name)
        self.folder.joinpath("drmcast").write_text(PROGRAM, encoding="ascii")
        self.folder.joinpath("drmcast").chmod(0o755)

    def ran(self, text, *more):
        self.folder.joinpath("it.plan").write_bytes(text if isinstance(text, bytes) else text.encode())
        return running.run("explain.py", "it.plan", "--program", "./drmcast", *more, cwd=self.folder)

    def test_a_fault(self):
        status, out, err = self.ran(changed(9, "msc 5") + "# fault 9: range\n")
        self.assertEqual((status, err, out.splitlines()[:2], out.splitlines()[3:]), (3, "", ["it.plan, line 9: range", "  msc 5"], ["5: N is 0 to 3.", "It is written: msc N: N 0 to 3."]))
        self.assertIn("There is a tab in the line", self.ran("drmplan\t2\n# fault 1: word\n")[1])
        self.assertIn("Byte 9 of the line is 0xfc", self.ran(b"label 0 \xfc\n# fault 1: utf8\n")[1])

    def test_no_fault_and_files(self):
        self.assertEqual(self.ran(ONE), (0, "it.plan has no fault.\n", ""))
        status, out, _ = self.ran(changed(14, "stream 0 4 file gone.bin") + "# fault read\n")
        self.assertEqual((status, out.splitlines()[0]), (4, "it.plan, line 14: gone.bin: No such file or directory"))

    def test_what_does_not_fit(self):
        for printed, wanted in (
                ("config 0 cells 2337 part-a 0 cells 0 part-b 1049 of 1048 sdc 77 of 76 rate 20980\nover 0 part-b\nover 0 sdc",
                 ["part B has 1,049 bytes a frame, and 1,048 fit: 1 fewer in the streams, or a weaker protection, another constellation or a wider channel",
                  "an SDC block has 77 bytes, and in this channel just 76: room 76, in which its entities have to fit"]),
                ("config 0 cells 2337 part-a 900 cells 2400 part-b 4 of 0 sdc 64 of 76 rate 18080\nover 0 part-a\nover 0 part-b\nshort 0 sdc",
                 ["part A has 900 bytes a frame, which take 2,400 of 2,337 cells: at most 876 fit", "part B has 4 bytes a frame, and nothing is left for it behind part A",
                  "an SDC block has 64 bytes, and in this channel just 76: room 76"]),
                ("config 0 cells 1844 part-a 10 cells - part-b 4 of 0 sdc 32 of 32 rate 280\nover 0 part-a\nover 0 part-b",
                 ["part A has 10 bytes a frame, and protection level 0 has no code rates in 16-QAM: level 0 or 1, or msc 0",
                  "part B has 4 bytes a frame, and nothing is left for it behind part A"]),
                ("config 0 cells 1844 part-a 10 cells 9 part-b 4 of - sdc 32 of 32 rate 280\nover 0 part-b",
                 ["part B has 4 bytes a frame, and protection level 1 has no code rates in 16-QAM: level 0 or 1, or msc 0"])):
            with self.subTest(printed=printed):
                status, out, err = self.ran(ONE + "".join(f"# capacity {line}\n" for line in printed.split("\n")))
                self.assertEqual((status, err, out.splitlines()), (7, "", ["it.plan has no fault, and doesn't fit its channel:"] + [f"the configuration of super frame 0: {line}" for line in wanted]))

    def test_a_schedule_in_words(self):
        status, out, err = self.ran(ONE + SECOND, "--tell")
        self.assertEqual((status, err, out.splitlines()), (0, "", [
            "150 super frames, 0:03:00; packets in fragments of at most 1,400 bytes, any 2 of which may be lost; the first one has the number 0, its frame the count 0.",
            "Configuration 1, from super frame 0 (0:00:00) to 99:",
            "  mode B, 10 kHz, long interleaving, MSC 64-QAM, SDC 16-QAM, protection 0 for parts A and 1 for parts B, 64 bytes for the SDC's entities",
            "  stream 0: 20.88 kbit/s, 0 bytes a frame in part A and 1,044 in part B, one repeated byte",
            '  service 0 (e0d201), "Radio  Nord", audio in AAC, mono, 24 kHz, with SBR, stream 0, information, language English, by its language line eng, country gb',
            "Configuration 2, from super frame 100 (0:02:00) to 149, announced 2 super frames before:",
            "  mode C, 20 kHz, short interleaving, MSC 16-QAM, SDC 4-QAM, protection 0 for parts A and 0 for parts B, 40 bytes for the SDC's entities",
            "  its start is at 2026-11-28 18:30 UTC by its clock",
            "  stream 0: 2 kbit/s, 10 bytes a frame in part A and 90 in part B, from news.bin",
            "  service 0 (e0d201), audio in xHE-AAC, mode 2, rate 3, SBR 0, with text messages, stream 0, information, language English",
            "  service 1 (e0d203), data with application 0, stream 0, synchronous, language not specified",
            "  other frequencies 6085, +9700 kHz",
            "  from its super frame 50 (0:01:00) on: an entity of type 14"]))


if __name__ == "__main__":
    unittest.main()
