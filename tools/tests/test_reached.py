"""`reached.py`: a list holds what is reached, and fails once a file of definitions comes, goes or grows."""
import pathlib
import shutil
import subprocess
import sys
import tempfile
import unittest

import running

LIST = "# Believed\n\nReached from `crates/top/src/run.rt`:\n"


class Reached(unittest.TestCase):
    def setUp(self):
        self.top = pathlib.Path(tempfile.mkdtemp())
        self.addCleanup(shutil.rmtree, self.top)
        (self.top / "tools").mkdir()
        for name in ("reached.py", "definitions.py", "command_line.py"):
            shutil.copy(running.TOOLS / name, self.top / "tools")
        self.put("top/src/run.rt", "ghost use Rattle.top.specs.Run.{IsRun};\n\npub fn run() {}\n")
        self.put("top/specs/Run.antt", "use Rattle.low.specs.Sums.{IsSum}\n\n-- a run\nabbrev pub IsRun : Type 0\nIsRun = IsSum\n")
        self.put("low/specs/Sums.antt", "abbrev pub IsSum : Type 0\nIsSum = ⊥\n")
        self.put("low/specs/Unread.antt", "abbrev pub IsUnread : Type 0\nIsUnread = ⊥\n")
        self.list = self.top / "LIST.md"
        self.list.write_text(LIST, encoding="utf-8")

    def put(self, path, text):
        file = self.top / "crates" / path
        file.parent.mkdir(parents=True, exist_ok=True)
        file.write_text(text, encoding="utf-8")

    def reached(self, *words):
        return subprocess.run([sys.executable, self.top / "tools" / "reached.py", *words], capture_output=True, text=True)

    def test_a_list_is_made_and_holds(self):
        self.assertEqual(self.reached("--check", self.list).returncode, 1)
        self.assertEqual(self.reached("--write", self.list).returncode, 0)
        text = self.list.read_text(encoding="utf-8")
        self.assertIn("| `low` | `Sums` |\n| `top` | `Run` |\n\n2 files of 2 crates, with 5 lines", text)
        self.assertEqual(self.reached("--check", self.list).returncode, 0)
        self.assertEqual(self.reached("--write", self.list).returncode, 0)
        self.assertEqual(self.list.read_text(encoding="utf-8"), text)

    def test_it_fails_once_a_file_comes_or_grows(self):
        self.reached("--write", self.list)
        self.put("low/specs/Sums.antt", "-- never\nabbrev pub IsSum : Type 0\nIsSum = ⊥\n")
        self.assertEqual(self.reached("--check", self.list).returncode, 1)
        self.put("low/specs/Sums.antt", "use Rattle.low.specs.Unread.{IsUnread}\n\nabbrev pub IsSum : Type 0\nIsSum = IsUnread\n")
        told = self.reached("--check", self.list)
        self.assertEqual(told.returncode, 1)
        self.assertIn("`Sums`, `Unread`", told.stderr)

    def test_a_clause_is_where_a_list_begins(self):
        self.put("top/src/run.rt", """ghost use Rattle.top.specs.Run.{IsRun};
ghost use Rattle.low.specs.Unread.{IsUnread};

pub fn run()
    ensures runs { IsRun }
    ensures other { IsUnread }
{}
""")
        self.list.write_text("Reached from clause `runs` of `top::run`:\n", encoding="utf-8")
        self.assertEqual(self.reached("--write", self.list).returncode, 0)
        self.assertIn("| `low` | `Sums` |\n| `top` | `Run` |\n\n2 files of 2 crates", self.list.read_text(encoding="utf-8"))
        self.list.write_text("Reached from clause `walks` of `top::run`:\n", encoding="utf-8")
        self.assertIn("no clause `walks` of `top::run`", self.reached("--check", self.list).stderr)

    def test_what_is_passed_on_is_followed(self):
        self.put("low/specs/Sums.antt", "pub use Rattle.low.specs.Unread.{IsUnread}\n\nabbrev pub IsSum : Type 0\nIsSum = ⊥\n")
        self.assertIn("low: 2 files, 4 lines", self.reached(self.top / "crates" / "top" / "specs" / "Run.antt").stdout)

    def test_the_toolchains_crates_are_named(self):
        self.put("low/specs/Sums.antt", "use Rattle.std.specs.Prelude.{ℕ}\nuse Rattle.hex.specs.Digits.{IsHex}\n\nabbrev pub IsSum : Type 0\nIsSum = IsHex\n")
        self.reached("--write", self.list)
        self.assertIn("beside them definitions of the toolchain's `hex`.", self.list.read_text(encoding="utf-8"))

    def test_several_files_by_a_pattern_and_what_they_add(self):
        self.list.write_text("Reached from `crates/low/specs/*.antt`, but not from `crates/top/src/run.rt`:\n", encoding="utf-8")
        self.assertEqual(self.reached("--write", self.list).returncode, 0)
        self.assertIn("| `low` | `Unread` |\n\n1 files of 1 crates, with 2 lines", self.list.read_text(encoding="utf-8"))

    def test_a_document_without_a_list_or_with_an_unknown_one_fails(self):
        self.list.write_text("# Believed\n", encoding="utf-8")
        self.assertIn("0 lines begin a list", self.reached("--check", self.list).stderr)
        self.list.write_text(LIST + "\nReached from nowhere:\n", encoding="utf-8")
        self.reached("--write", self.list)
        self.assertIn("2 lines begin a list, and 1 are of the form that is known", self.reached("--check", self.list).stderr)

    def test_sums_of_another_document(self):
        self.reached("--write", self.list)
        other = self.top / "README.md"
        other.write_text("It rests on 2 files of 2\ncrates with 5 lines of them.\n", encoding="utf-8")
        self.assertEqual(self.reached("--check", self.list, other).returncode, 0)
        for text in ("It rests on 3 files of 2 crates with 5 lines.\n", "It rests on nothing.\n"):
            other.write_text(text, encoding="utf-8")
            self.assertIn("are no list's sums", self.reached("--check", self.list, other).stderr)

    def test_a_file_of_definitions_is_told(self):
        told = self.reached(self.top / "crates" / "top" / "specs" / "Run.antt")
        self.assertEqual(told.stdout, "low: 1 files, 2 lines\ntop: 1 files, 3 lines\nall: 2 files of 2 crates, 5 lines\n")


if __name__ == "__main__":
    unittest.main()
