"""`promises.py`: a row holds if its function and its clauses are in the sources, and fails once one of them is renamed or goes."""
import pathlib
import shutil
import subprocess
import sys
import tempfile
import unittest

import running

SOURCE = """ghost use Rattle.low.specs.Sums.{IsSum, Counts};
ghost use Rattle.low.specs.Passing.{IsPassedOn};

pub fn pass()
    ensures { IsPassedOn }
{}

pub fn add(a: u8, b: u8) -> u16
    ensures sum { IsSum a b result }
    ensures counted { Counts a b
        result }
{
    u16::from(a) + u16::from(b)
}

pub fn law()
    ensures { IsLaw }
{}

fn hidden() -> u8
    ensures one { result ≡ 1 }
{
    1
}

pub trait Shelf {
    fn load(&mut self)
        ensures cause { self.new ≡ self.old };
}
"""
DEFINITIONS = """use Rattle.std.specs.Prelude.{ℕ}

abbrev pub IsSum : ℕ → ℕ → ℕ → Type 0
IsSum a b c = a + b ≡ c

pub record Counts (a b c : ℕ) : Type 0 where
  pub few : c < 511
  pub is : IsSum a b c
"""
PASSING = """pub use Rattle.low.specs.Sums.{IsSum as IsPassedOn}
"""
RUN = """ghost use Rattle.low.specs.Command.{CommandRun};

pub fn run()
    ensures runs { CommandRun request }
{}
"""
REQUEST = """pub enum Request {
    Check,
    Serve {
        pace: u32,
    },
}
"""
COMMAND = """use Rattle.low.specs.Sums.{IsSum, Counts}

abbrev pub CommandRun : Request → Type 0
CommandRun Check = IsChecked
CommandRun (Serve pace) =
    Counts 0 0 pace

abbrev pub IsChecked : Type 0
IsChecked = IsSum 0 0 0
"""
ROW = "| {} | {} | proof |"
OTHER = "| promise | shown by | what was tried | by |\n|---|---|---|---|\n| runs | `low` | a try | test |\n"


class Rows(unittest.TestCase):
    def setUp(self):
        folder = tempfile.TemporaryDirectory()
        self.addCleanup(folder.cleanup)
        self.top = pathlib.Path(folder.name)
        for part in ("tools", "docs", "crates/low/src", "crates/low/specs"):
            self.top.joinpath(part).mkdir(parents=True)
        for script in ("promises.py", "definitions.py", "command_line.py"):
            shutil.copy(running.TOOLS / script, self.top / "tools" / script)
        self.write("crates/low/src/sums.rt", SOURCE)
        self.write("crates/low/specs/Sums.antt", DEFINITIONS)
        self.write("crates/low/specs/Passing.antt", PASSING)

    def write(self, name, text):
        self.top.joinpath(name).write_text(text, encoding="utf-8")

    def complaints(self, *rows, header="| promise | function | clause | by |"):
        """What is said of a table with these rows, without its names of files."""
        table = "\n".join([header, "|---|---|---|---|", *(f"| adds {row}" for row in rows), ""])
        self.write("docs/PROMISES.md", table)
        self.write("docs/PROVED.md", OTHER)
        ran = subprocess.run([sys.executable, self.top / "tools/promises.py"], capture_output=True, text=True, timeout=20, check=False)
        said = [line.split(": ", 2)[2] for line in ran.stderr.splitlines()]
        self.assertEqual(ran.returncode, 1 if said else 0, ran.stderr)
        return said

    def test_what_is_there(self):
        self.assertEqual(self.complaints(ROW.format("`low::add`", "`sum`, `counted`, `IsSum`, `Counts`, `Counts.few`"),
                                         ROW.format("`low::add`", "`Counts`"),
                                         ROW.format("`low::pass`", "`IsSum`, its clause"),
                                         ROW.format("`low::law`", "its clause"),
                                         ROW.format("`low::add`, `law`, `Shelf::load`", "`sum`; its clause; `cause`")), [])

    def test_a_clause_that_is_renamed(self):
        self.write("crates/low/src/sums.rt", SOURCE.replace("ensures sum", "ensures total"))
        self.assertEqual(self.complaints(ROW.format("`low::add`", "`sum`")), ["low::add has no sum"])

    def test_a_function_that_goes(self):
        self.write("crates/low/src/sums.rt", SOURCE.replace("pub fn add", "pub(crate) fn add"))
        self.assertEqual(self.complaints(ROW.format("`low::add`", "`sum`")), ["low::add is no public function"])
        self.assertEqual(self.complaints(ROW.format("`low::hidden`", "`one`")), ["low::hidden is no public function"])
        self.assertEqual(self.complaints(ROW.format("`high::add`", "`sum`")), ["high::add is no public function"])

    def test_a_definition_that_is_renamed(self):
        self.write("crates/low/specs/Sums.antt", DEFINITIONS.replace("pub few", "pub small"))
        self.assertEqual(self.complaints(ROW.format("`low::add`", "`Counts.few`")), ["low::add has no Counts.few"])
        self.write("crates/low/specs/Sums.antt", DEFINITIONS.replace("Counts", "Holds"))
        self.assertEqual(self.complaints(ROW.format("`low::add`", "`Counts`")), ["low::add has no Counts"])

    def test_each_function_of_a_row(self):
        self.assertEqual(self.complaints(ROW.format("`low::add`, `law`", "`sum`")), ["low::law has no sum"])
        self.assertEqual(self.complaints(ROW.format("`low::add`, `law`", "`sum`; its clause; `sum`")), ["2 functions, and clauses of 3"])
        self.assertEqual(self.complaints(ROW.format("`low::add`", "its clause")), ["low::add has not one clause without a name"])
        self.assertEqual(self.complaints(ROW.format("`low::add`", "")), ["no clause of low::add"])
        self.assertEqual(self.complaints(ROW.format("", "`sum`")), ["0 functions, and clauses of 0"])

    def test_a_function_of_the_header(self):
        header = "| promise | clause of `low::add` | by |"
        self.assertEqual(self.complaints("| `sum` | proof |", header=header), [])
        self.assertEqual(self.complaints("| `some` | proof |", header=header), ["low::add has no some"])

    def test_a_definition_of_another_clause(self):
        self.assertEqual(self.complaints(ROW.format("`low::add`", "`sum`, `Counts.few`")), ["low::add has no Counts.few in sum"])
        self.assertEqual(self.complaints(ROW.format("`low::add`", "`counted`, `IsSum`")), [])

    def test_a_clause_of_the_header(self):
        header = "| promise | clause `sum` of `low::add` | by |"
        self.assertEqual(self.complaints("| `IsSum` | proof |", header=header), [])
        self.assertEqual(self.complaints("| `Counts` | proof |", header=header), ["low::add has no Counts in sum"])
        self.assertEqual(self.complaints("| `counted`, `Counts` | proof |", header=header), [])
        header = "| promise | clause `total` of `low::add` | by |"
        self.assertEqual(self.complaints("| `sum` | proof |", header=header), ["low::add has no total"])

    def test_the_commands_of_a_row(self):
        self.top.joinpath("crates/drm_words/src").mkdir(parents=True)
        self.write("crates/drm_words/src/request.rt", REQUEST)
        self.write("crates/low/src/run.rt", RUN)
        self.write("crates/low/specs/Command.antt", COMMAND)
        header = "| promise | clause `runs` of `low::run` | by |"
        self.assertEqual(self.complaints("of any command | `IsChecked`, `Counts.few` | proof |", header=header), [])
        self.assertEqual(self.complaints("what `check` does | `IsChecked`, `IsSum` | proof |", header=header), [])
        self.assertEqual(self.complaints("what `check` does | `IsChecked` | proof |", "it does | `Counts.few` | proof |", header=header),
                         ["low::run has no Counts.few in runs"])
        self.assertEqual(self.complaints("what `check` does | `IsSum` | proof |", "of `serve --to` | `Counts.few` | proof |", header=header), [])
        self.assertEqual(self.complaints("of `serve --to` | `IsChecked` | proof |", header=header), ["low::run has no IsChecked in runs"])

    def test_what_is_tested(self):
        header = "| promise | shown by | what was tried | by |"
        self.assertEqual(self.complaints("| `tools/promises.py`, `low` | a try | test |", header=header), [])
        self.assertEqual(self.complaints("| `tools/gone.py` | a try | test |", header=header), ["no file or crate tools/gone.py"])

    def test_no_table(self):
        self.assertEqual(self.complaints("| `sum` | proof |", header="| promise | what | by |"), ["no table of promises"])


if __name__ == "__main__":
    unittest.main()
