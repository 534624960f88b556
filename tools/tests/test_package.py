"""`contrib/debian-package.sh` with a program of the system in the place of ours: its version, its date, and its documents."""
import gzip
import os
import pathlib
import re
import shutil
import subprocess
import tempfile
import time
import unittest

import running
import test_install

NEEDED = ("dpkg-deb", "dpkg-shlibdeps", "strip", "true")


@unittest.skipUnless(all(map(shutil.which, NEEDED)), f"{', '.join(NEEDED)} aren't all here")
class Package(unittest.TestCase):
    @classmethod
    def setUpClass(cls):
        folder = tempfile.TemporaryDirectory()
        cls.addClassCleanup(folder.cleanup)
        cls.folder = pathlib.Path(folder.name)
        for name in ("drmcast", "drmpaths"):
            shutil.copy(shutil.which("true"), cls.folder / name)
        environment = {name: value for name, value in os.environ.items() if name != "SOURCE_DATE_EPOCH"}
        cls.ran = subprocess.run([running.TOP / "contrib/debian-package.sh", "."], cwd=cls.folder, env=environment, stdout=subprocess.PIPE, stderr=subprocess.STDOUT, text=True,
                                 check=False)
        cls.packages = list(cls.folder.glob("*.deb"))
        for package in cls.packages:
            subprocess.run(["dpkg-deb", "--extract", package, cls.folder / "root"], check=True)

    def setUp(self):
        self.assertEqual(self.ran.returncode, 0, self.ran.stdout)
        self.documents = self.folder / "root/usr/share/doc/drmcast"

    def test_version_and_date(self):
        version = test_install.VERSION
        released = re.search(rf"(?m)^## {re.escape(version)} \((.*)\)$", running.TOP.joinpath("CHANGELOG.md").read_text(encoding="utf-8"))[1]
        self.assertRegex(self.packages[0].name, rf"^drmcast_{re.escape(version)}_\w+\.deb$")
        changes = gzip.decompress(self.documents.joinpath("changelog.gz").read_bytes()).decode()
        day = time.strftime("%a, %d %b %Y", time.strptime(released, "%Y-%m-%d"))
        self.assertRegex(changes, rf"^drmcast \({re.escape(version)}\) ")
        self.assertIn(f"  {day} 00:00:00 +0000\n", changes)
        manual = gzip.decompress(self.folder.joinpath("root/usr/share/man/man1/drmcast.1.gz").read_bytes()).decode("ascii")
        self.assertIn(f'"{released}" "drmcast {version}"', manual.splitlines()[0])

    def test_documents(self):
        self.assertEqual(list(test_install.dead_links(self.documents)), [])
        self.assertIn("](copyright)", self.documents.joinpath("README.md").read_text(encoding="utf-8"))
        self.assertIn("2026", self.documents.joinpath("copyright").read_text(encoding="utf-8"))


if __name__ == "__main__":
    unittest.main()
