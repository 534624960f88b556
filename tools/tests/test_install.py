"""`contrib/install.sh` into a folder of its own, the units that it writes, and the version that stands in several places."""
import os
import pathlib
import re
import shutil
import subprocess
import tempfile
import unittest

import running

CONTRIB = running.TOP / "contrib"
VERSION = running.TOP.joinpath("VERSION").read_text(encoding="ascii").strip()
UNITS = sorted(path.name for path in CONTRIB.joinpath("systemd").glob("*.service"))


def anchors(text):
    """What a link into a document may name: its headings, as a browser of the repository spells them."""
    plain = re.sub(r"^```.*?^```", "", text, flags=re.DOTALL | re.MULTILINE)
    return {re.sub(r"[^\w\- ]", "", heading.lower()).replace(" ", "-") for heading in re.findall("^#+ (.*)$", plain, re.MULTILINE)}


def dead_links(*folders):
    """The links of the documents in these folders that lead nowhere."""
    for document in sorted(path for folder in folders for path in folder.glob("*.md")):
        text = document.read_text(encoding="utf-8")
        for target in re.findall(r"\]\(([^)\s]+)\)", re.sub(r"^```.*?^```|`[^`\n]*`(?!\])", "", text, flags=re.DOTALL | re.MULTILINE)):
            name, _, anchor = target.partition("#")
            path = document.parent / name if name else document
            if not target.startswith("http") and not (path.exists() and (not anchor or anchor in anchors(path.read_text(encoding="utf-8")))):
                yield f"{document.name}: {target}"


class Install(unittest.TestCase):
    def setUp(self):
        folder = tempfile.TemporaryDirectory()
        self.addCleanup(folder.cleanup)
        self.folder = pathlib.Path(folder.name)
        self.built = self.folder / "built"
        self.built.mkdir()
        for name in ("drmcast", "drmpaths"):
            self.built.joinpath(name).write_text("#!/bin/sh\n", encoding="ascii")
            self.built.joinpath(name).chmod(0o755)

    def installed(self, *words, prefix):
        """The status and the complaint of an installation to this prefix."""
        ran = subprocess.run([CONTRIB / "install.sh", *words], env={**os.environ, "PREFIX": str(prefix), "DESTDIR": str(self.folder / "dest")},
                             stdout=subprocess.PIPE, stderr=subprocess.PIPE, text=True, check=False, timeout=running.WAIT_SECONDS)
        return ran.returncode, ran.stderr

    def test_refusals(self):
        for words, prefix, said in ((["a", "b"], "/usr", "usage"), ([self.folder], "/usr", "isn't there"), ([self.built], "usr", "full path"), ([self.built], "", "full path"),
                                    ([self.built], '/a"b', "quote"), ([self.built], "/a\nb", "new line"), ([self.built], "/a%b", "%")):
            with self.subTest(words=words, prefix=prefix):
                status, err = self.installed(*words, prefix=prefix)
                self.assertNotEqual(status, 0)
                self.assertIn(said, err)
        self.assertFalse(self.folder.joinpath("dest").exists())

    def test_prefixes(self):
        for prefix in ("/usr/local", "/opt/a b & c:d"):
            with self.subTest(prefix=prefix):
                self.assertEqual(self.installed(self.built, prefix=prefix), (0, ""))
                root = pathlib.Path(f"{self.folder}/dest{prefix}")
                self.assertTrue(os.access(root / "bin/drmcast", os.X_OK))
                self.assertEqual(sorted(path.name for path in root.joinpath("lib/systemd/system").iterdir()), UNITS)
                for name in UNITS:
                    begun = re.findall('^ExecStart=.*$', root.joinpath("lib/systemd/system", name).read_text(encoding="utf-8"), re.MULTILINE)
                    self.assertEqual(len(begun), 1)
                    for path in re.findall('"(/[^"]*)"', begun[0]):
                        self.assertTrue(path.startswith(prefix + "/"), begun)
                        self.assertTrue(os.access(f"{self.folder}/dest{path}", os.X_OK), path)
                    self.assertNotIn("@PREFIX@", root.joinpath("lib/systemd/system", name).read_text(encoding="utf-8"))

    def test_documents(self):
        self.assertEqual(self.installed(self.built, prefix="/usr/local"), (0, ""))
        root = self.folder / "dest/usr/local"
        documents = root / "share/doc/drmcast"
        self.assertEqual(list(dead_links(documents, running.TOP, running.TOP / "docs")), [])
        # A link that leads somewhere in both is still one.
        tour, readme = (documents.joinpath(name).read_text(encoding="utf-8") for name in ("TOUR.md", "README.md"))
        for link, text in (("examples/one-service.plan", tour), ("../../../lib/drmcast/drop.py", tour), ("SCHEDULE.md#codes", readme)):
            self.assertIn(f"]({link})", text)
        # What their sessions run is there.
        sessions = re.findall(r"^[$>] (.*)$", tour + documents.joinpath("WIRESHARK.md").read_text(encoding="utf-8"), re.MULTILINE)
        for folder, path in (("tools", "lib/drmcast"), ("examples", "share/doc/drmcast/examples")):
            needed = {name for line in sessions for name in re.findall(rf"\b{folder}/([\w.-]+)", line)}
            self.assertEqual([name for name in sorted(needed) if not root.joinpath(path, name).exists()], [])

    def test_scripts_run_where_they_are_installed(self):
        self.assertEqual(self.installed(self.built, prefix="/usr"), (0, ""))
        folder = self.folder / "dest/usr/lib/drmcast"
        scripts = [path for path in folder.iterdir() if os.access(path, os.X_OK)]
        self.assertGreaterEqual(len(scripts), 10)
        for path in scripts:
            ran = subprocess.run([path, "--help"], stdout=subprocess.PIPE, stderr=subprocess.PIPE, text=True, check=False, timeout=running.WAIT_SECONDS)
            self.assertEqual((ran.returncode, ran.stderr), (0, ""), path)
            self.assertIsNone(re.search(r"\b(tools|crates|docs|contrib)/", path.read_text(encoding="utf-8")), path)

    @unittest.skipUnless(shutil.which("systemd-analyze"), "there is no systemd-analyze here")
    def test_units_are_right(self):
        self.assertEqual(self.installed(self.built, prefix=self.folder / "a b & c:d"), (0, ""))
        installed = pathlib.Path(f"{self.folder}/dest{self.folder}/a b & c:d")
        installed.rename(self.folder / "a b & c:d")
        # systemd-analyze itself can't look in a folder with a colon.
        units = shutil.copytree(self.folder / "a b & c:d/lib/systemd/system", self.folder / "units")
        paths = [units / name for name in UNITS]
        for words in (["verify", "--man=no", "--recursive-errors=no"], ["security", "--offline=yes", "--threshold=15"]):
            ran = subprocess.run(["systemd-analyze", *words, *paths], stdout=subprocess.PIPE, stderr=subprocess.STDOUT, text=True, check=False, timeout=running.WAIT_SECONDS)
            self.assertEqual(ran.returncode, 0, ran.stdout)


class Version(unittest.TestCase):
    def test_it_was_released(self):
        changes = running.TOP.joinpath("CHANGELOG.md").read_text(encoding="utf-8")
        self.assertEqual(len(re.findall(rf"^## {re.escape(VERSION)} \(\d{{4}}-\d\d-\d\d\)$", changes, re.MULTILINE)), 1)

    def test_the_manual_pages_have_it(self):
        for name in ("drmcast", "drmpaths"):
            first = running.TOP.joinpath("docs", f"{name}.1").read_text(encoding="ascii").splitlines()[0]
            self.assertRegex(first, rf'^\.TH {name.upper()} 1 "\d{{4}}-\d\d-\d\d" "drmcast {re.escape(VERSION)}" "User Commands"$')

    def test_units_have_the_same_walls(self):
        walls = [path.read_text(encoding="ascii").partition("DynamicUser=yes\n")[2] for path in CONTRIB.joinpath("systemd").glob("*.service")]
        self.assertTrue(walls[0])
        self.assertEqual(len(set(walls)), 1)


if __name__ == "__main__":
    unittest.main()
