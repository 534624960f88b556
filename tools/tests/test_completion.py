"""The completion for Bash, as a shell with a terminal has it."""
import os
import pty
import select
import subprocess
import tempfile
import time
import unittest

import running

DONE = "@done@"


def typed(shell, text):
    os.write(shell, text.encode())


def answer(shell, mark):
    """What the shell prints up to this mark."""
    out, end = b"", time.monotonic() + running.WAIT_SECONDS
    while mark.encode() not in out and time.monotonic() < end:
        if select.select([shell], [], [], 0.2)[0]:
            out += os.read(shell, 4096)
    return out.decode(errors="replace")


def has_terminals():
    """Whether a terminal can be had here."""
    try:
        for side in pty.openpty():
            os.close(side)
    except OSError:
        return False
    return True


@unittest.skipUnless(has_terminals(), "there are no terminals here")
class Completion(unittest.TestCase):
    """Each line is typed, then Tab; a function of the program's name prints the words."""

    @classmethod
    def setUpClass(cls):
        cls.folder = tempfile.TemporaryDirectory()
        cls.addClassCleanup(cls.folder.cleanup)
        open(os.path.join(cls.folder.name, "my evening.plan"), "w", encoding="ascii").close()
        cls.shell, side = pty.openpty()
        cls.bash = subprocess.Popen(["bash", "--norc", "--noprofile", "-i"], stdin=side, stdout=side, stderr=side, cwd=cls.folder.name, start_new_session=True,
                                   env={"PATH": os.environ["PATH"], "PS1": "", "TERM": "dumb", "INPUTRC": "/dev/null", "HOME": cls.folder.name})
        os.close(side)
        cls.addClassCleanup(cls.bash.wait)
        cls.addClassCleanup(cls.bash.kill)
        typed(cls.shell, f"bind 'set enable-bracketed-paste off'; source {running.TOP}/contrib/drmcast.bash; PS1=; "
                         "drmcast() { printf '<%s>' \"$@\"; echo; }; drmpaths() { drmcast \"$@\"; }; echo '@do''ne@'\n")
        answer(cls.shell, DONE)

    @classmethod
    def tearDownClass(cls):
        os.close(cls.shell)

    def completed(self, line):
        """The words of this line after a Tab."""
        typed(self.shell, line + "\t" + "\necho '@do''ne@'\n")
        out = answer(self.shell, DONE)
        words = [each for each in out.splitlines() if each.startswith("<")]
        self.assertTrue(words, out)
        return words[-1].strip("<>").split("><")

    def test_lines(self):
        for line, wanted in (("drmcast exer", ["exercise"]), ("drmcast convert pl", ["convert", "plain"]),
                             ("drmcast convert pft:2", ["convert", "pft:2:1400"]), ("drmcast convert pft:2:", ["convert", "pft:2:1400"]),
                             ("drmcast convert pft:3:14", ["convert", "pft:3:1400"]), ("drmcast convert pft:2:1400 --wi", ["convert", "pft:2:1400", "--window"]),
                             ("drmcast gate 127.0.0.1:5000 127.0.0.1:5001 pft:1:", ["gate", "127.0.0.1:5000", "127.0.0.1:5001", "pft:1:1400"]),
                             ("drmcast gate 127.0.0.1:5000 127.0.0.1:5001 pl", ["gate", "127.0.0.1:5000", "127.0.0.1:5001", "plain"]),
                             ("drmcast receive 0.0.0.0:5000 --id", ["receive", "0.0.0.0:5000", "--idle"]), ("drmcast serve --pa", ["serve", "--pace"]), ("drmcast serve --fr", ["serve", "--from"]),
                             ("drmcast serve --li", ["serve", "--live"]),
                             ("drmcast check my", ["check", "my evening.plan"]), ("drmcast cap", ["capacity"]), ("drmcast capacity my", ["capacity", "my evening.plan"]), ("drmcast agr", ["agree"]),
                             ("drmcast agree my", ["agree", "my evening.plan"]), ("drmcast agree other.plan my", ["agree", "other.plan", "my evening.plan"]),
                             ("drmcast show < my", ["show"]), ("drmcast convert plain < my", ["convert", "plain"]), ("drmpaths 127.0.0.1:5000,127.0.0.1:5001 --li", ["127.0.0.1:5000,127.0.0.1:5001", "--limit"])):
            with self.subTest(line=line):
                self.assertEqual(self.completed(line), wanted)


if __name__ == "__main__":
    unittest.main()
