"""`names.py`: a tree whose names follow the rules passes, and each name that breaks one is named with its place."""
import pathlib
import shutil
import subprocess
import sys
import tempfile
import unittest

import running

MAP = """# Architecture

| prefix | layer |
|---|---|
| `dcp_` | packets |
| `runner` | the program |

## Where to begin reading

| crate | does |
|---|---|
| `dcp_high` | more |
| `dcp_low` | less |
| `runner` | runs |
"""
LIST = "# crates\ndcp_high: dcp_low\ndcp_low:\nrunner: dcp_high\n"
SOURCE = """pub struct Fragment;

pub fn read(bytes: &[u8]) -> Fragment
    ensures in_range { length bytes.now < 9 }
{
    Fragment
}
"""
DEFINITIONS = """abbrev pub ReadingEnds : ℕ → Type 0
ReadingEnds n = n ≡ 0

pub record Counts (n : ℕ) : Type 0 where
  pub few : n < 9
"""


class Names(unittest.TestCase):
    def setUp(self):
        folder = tempfile.TemporaryDirectory()
        self.addCleanup(folder.cleanup)
        self.top = pathlib.Path(folder.name)
        for part in ("tools", "docs", "crates/dcp_low/src", "crates/dcp_low/specs", "crates/dcp_high/src", "crates/runner/src"):
            self.top.joinpath(part).mkdir(parents=True)
        for script in ("names.py", "command_line.py"):
            shutil.copy(running.TOOLS / script, self.top / "tools" / script)
        self.write("docs/ARCHITECTURE.md", MAP)
        self.write("crates.txt", LIST)
        self.write("crates/dcp_low/src/low.rt", SOURCE)
        self.write("crates/dcp_low/specs/Low.antt", DEFINITIONS)

    def write(self, name, text):
        self.top.joinpath(name).write_text(text, encoding="utf-8")

    def wrong(self):
        """What is said of the tree, without the last line, which counts it."""
        ran = subprocess.run([sys.executable, self.top / "tools/names.py"], capture_output=True, text=True, timeout=20, check=False)
        said = ran.stdout.splitlines()
        self.assertEqual((ran.returncode, said[-1]), (1 if said[1:] else 0, f"names: 3 crates, {len(said) - 1} wrong"), ran.stderr)
        return said[:-1]

    def test_a_tree_that_follows_the_rules(self):
        self.assertEqual(self.wrong(), [])

    def test_a_bare_verb(self):
        self.write("crates/dcp_low/specs/Low.antt", DEFINITIONS.replace("ReadingEnds", "Ends"))
        self.assertEqual(self.wrong(), ["crates/dcp_low/specs/Low.antt:1: Ends is a bare verb: say of what"])
        self.write("crates/dcp_low/specs/Low.antt", DEFINITIONS.replace("ReadingEnds", "Took"))
        self.assertEqual(self.wrong(), ["crates/dcp_low/specs/Low.antt:1: Took is a bare verb: say of what"])

    def test_a_label_that_names_a_size(self):
        self.write("crates/dcp_low/src/low.rt", SOURCE.replace("in_range", "small"))
        self.assertEqual(self.wrong(), ["crates/dcp_low/src/low.rt:4: a clause is labelled small: name its fact"])

    def test_a_type_in_two_crates(self):
        self.write("crates/dcp_high/src/high.rt", "pub(crate) enum Fragment {}\n")
        self.assertEqual(self.wrong(), ["the type Fragment stands in several crates: dcp_high, dcp_low"])

    def test_a_crate_that_the_map_lacks(self):
        self.write("docs/ARCHITECTURE.md", MAP.replace("| `dcp_` | packets |\n", ""))
        self.assertEqual(self.wrong(), [f"crates/{name}: no prefix of the map in ARCHITECTURE.md" for name in ("dcp_high", "dcp_low")])
        self.write("docs/ARCHITECTURE.md", MAP.replace("| `dcp_low` | less |\n", ""))
        self.assertEqual(self.wrong(), ["ARCHITECTURE.md: no row for dcp_low"])

    def test_another_order(self):
        self.write("crates.txt", "dcp_low:\ndcp_high: dcp_low\nrunner: dcp_high\n")
        self.assertEqual(self.wrong(), ["crates.txt: dcp_high stands behind dcp_low: the order is that of ls"])


if __name__ == "__main__":
    unittest.main()
