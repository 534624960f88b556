"""`expected.py`: the tests' values are what is computed, and one that is changed is named; `literals.py`: constants as values."""
import pathlib
import shutil
import subprocess
import sys
import tempfile
import unittest

import running

sys.path.insert(0, str(running.TOOLS))
import literals  # noqa: E402  (it stands among the tools)

CONSTANTS = """use crate::other::{SHARED};

// Not this one: const NONE: u8 = 0;
const BYTES: &[u8] = b"a\\0\\x41\\\\";
const ROWS: &[(u8, Option<Kind>, &str)] = &[
    (0x1f, Some(Kind::Of { at: 1, list: [7; 2] }), "x"),
    (1_0, None, "y"), // the last
];
const REPEATED: [u8; 3] = [b'\\n'; 3];
const NAMED: &Pair = &Pair(true, SHARED);
"""


class Literals(unittest.TestCase):
    def setUp(self):
        folder = tempfile.TemporaryDirectory()
        self.addCleanup(folder.cleanup)
        top = pathlib.Path(folder.name)
        (top / "one.rt").write_text(CONSTANTS, encoding="utf-8")
        (top / "other.rt").write_text("pub(crate) const SHARED: u32 = u32::MAX;\n", encoding="utf-8")
        self.source = literals.Source(top / "one.rt")

    def test_constants(self):
        self.assertEqual(self.source.constant("BYTES"), b"a\0A\\")
        rows = self.source.constant("ROWS")
        self.assertEqual([row[0] for row in rows], [31, 10])
        self.assertEqual((rows[0][1].word, rows[0][1].at, rows[0][1].list, rows[1][1]), ("Of", 1, [7, 7], None))
        self.assertEqual(self.source.constant("REPEATED"), [10] * 3)
        self.assertEqual(self.source.constant("NAMED").holds, (True, 2**32 - 1))

    def test_what_is_no_constant(self):
        with self.assertRaises(KeyError):
            self.source.constant("NONE")


class Expected(unittest.TestCase):
    def setUp(self):
        folder = tempfile.TemporaryDirectory()
        self.addCleanup(folder.cleanup)
        self.top = pathlib.Path(folder.name)
        (self.top / "tools").mkdir()
        for name in ("expected.py", "standards.py", "literals.py", "definitions.py", "command_line.py"):
            shutil.copy(running.TOOLS / name, self.top / "tools")
        for crate in running.TOOLS.parent.glob("crates/test_*"):
            shutil.copytree(crate / "src", self.top / "crates" / crate.name / "src")

    def ran(self):
        return subprocess.run([sys.executable, self.top / "tools" / "expected.py"], capture_output=True, text=True, timeout=120, check=False)

    def test_all_and_one_that_is_changed(self):
        ran = self.ran()
        self.assertEqual((ran.returncode, ran.stderr), (0, ""))
        file = self.top / "crates" / "test_code" / "src" / "elements.rt"
        file.write_text(file.read_text(encoding="utf-8").replace("(0x53, 0xca, 0x8f)", "(0x53, 0xca, 0x8e)"), encoding="utf-8")
        ran = self.ran()
        self.assertEqual(ran.returncode, 1)
        self.assertIn("PRODUCTS, row 5: 142 stands there, and 143 is computed", ran.stderr)


if __name__ == "__main__":
    unittest.main()
