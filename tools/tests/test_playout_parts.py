"""The parts of `playout.py` by themselves: which files have changed, the pieces of frames, an encoder's bytes, joined texts, and the notes of what lasts."""
import contextlib
import io
import os
import pathlib
import tempfile
import unittest

import running  # pylint: disable=unused-import
from stations import plan

import changes
import fed_server
import followed
import joined
import lasting
import pieces
import playlists
import schedules


class Folder(unittest.TestCase):
    def setUp(self):
        folder = tempfile.TemporaryDirectory()
        self.addCleanup(folder.cleanup)
        self.folder = pathlib.Path(folder.name)


class Followed(Folder):
    def setUp(self):
        super().setUp()
        self.at = 0.0
        self.path = str(self.folder / "a.plan")
        self.follows = followed.Followed(lambda: self.at)

    def changed(self, after=0.0):
        self.at += after
        return self.follows.changed([self.path])

    def test_written_in_place(self):
        self.assertEqual(self.changed(), [self.path])
        pathlib.Path(self.path).write_text("one", encoding="ascii")
        self.assertEqual(self.changed(), [])
        self.assertTrue(self.follows.moves(self.path))
        self.assertEqual(self.changed(0.4), [])
        pathlib.Path(self.path).write_text("another", encoding="ascii")
        # It has moved since, so it has to stand still anew.
        self.assertEqual((self.changed(0.4), self.changed(0.4)), ([], []))
        self.assertEqual((self.changed(0.2), self.changed(1)), ([self.path], []))

    def test_by_rename_and_gone(self):
        pathlib.Path(self.path).write_text("one", encoding="ascii")
        self.follows.takes(self.path)
        new = self.folder / "new"
        new.write_text("two", encoding="ascii")
        os.utime(new, (0, 0))
        new.rename(self.path)
        self.assertEqual((self.changed(), self.changed()), ([self.path], []))
        os.unlink(self.path)
        self.assertEqual((self.changed(), self.changed(9)), ([], []))
        # One that is written anew under its own name isn't whole yet.
        pathlib.Path(self.path).write_text("three", encoding="ascii")
        self.assertEqual((self.changed(), self.changed(0.5)), ([], [self.path]))

    def test_what_came_by_rename(self):
        for before, after, wanted in (((1, 5, 10, 10), (2, 5, 20, 30), True), ((1, 5, 10, 10), (2, 5, 20, 20), False), ((1, 5, 10, 10), (1, 5, 20, 30), False), (None, (2, 5, 20, 30), False)):
            self.assertEqual(followed.came_by_rename(before, after), wanted, (before, after))


class Pieces(Folder):
    TEXT = "\n".join(["drmplan 2", "carry plain", "first 0 0", "length 4", "config 0 0", "stream 1 1 fill 55", "stream 0 2 file x.bin", "config 2 1", "stream 0 3 fill 66"])

    def test_content(self):
        self.folder.joinpath("x.bin").write_bytes(bytes(range(12)))
        content = pieces.Content(self.TEXT, self.folder, [1])
        self.assertEqual([content.piece(frame) for frame in (0, 5, 6)], [b"\x55\x55\0\x01", b"\x55\x55\x0a\x0b", b"\x66\x66\x66"])
        self.assertEqual((content.piece(1, b"ab"), content.piece(6, b"")), (b"\x55\x55ab", b"\x66\x66\x66"))
        self.assertEqual([content.live_size(frame) for frame in (0, 5, 6, 11)], [2, 2, 0, 0])
        self.assertEqual(content.live_runs(), [(0, (2,)), (6, (0,))])
        content.close()

    def test_an_encoder(self):
        read, write = os.pipe()
        self.addCleanup(os.close, read)
        encoder = pieces.Encoder(read)
        os.write(write, b"aabbb")
        encoder.read(2)
        self.assertEqual((encoder.is_whole(2), encoder.reads(2), encoder.taken(2)), (True, False, b"aa"))
        # Half of one that is late, whose rest is dropped.
        encoder.read(2)
        self.assertEqual((encoder.is_whole(2), encoder.taken(2)), (True, b"bb"))
        encoder.read(2)
        encoder.is_replaced(2)
        self.assertEqual((encoder.held, encoder.late, encoder.is_awaited), (b"", 1, False))
        os.write(write, b"bcc")
        encoder.read(2)
        self.assertEqual(encoder.late, 0)
        encoder.read(2)
        self.assertEqual((encoder.taken(2), encoder.is_awaited), (b"cc", True))
        # Nothing of it had come: the next piece is kept.
        encoder.is_replaced(2)
        os.write(write, b"dde")
        encoder.read(2)
        encoder.drops_whole(2)
        encoder.read(2)
        self.assertEqual(encoder.held, b"e")
        self.assertFalse(encoder.has_come())
        os.close(write)
        encoder.read(2)
        self.assertEqual((encoder.has_ended, encoder.held, encoder.reads(2)), (True, b"", False))


def entry(text, name="a.plan", begin=0):
    number, count, length = map(int, playlists.FIRST.search(text).groups())
    return playlists.Entry(1, begin, name, number, count, length, text)


class Joined(unittest.TestCase):
    def test_what_differs(self):
        one = plan(5, (0, "one"))
        for other, wanted in ((plan(9, (0, "two"), room=80), []), (plan(9, (0, "one"), mode="C"), ["mode"]), (plan(9, (0, "one"), streams=("stream 0 5 fill 55",)), ["streams"]),
                              (plan(9, (0, "one"), streams=("stream 0 4 file x",)), []), (one + "service e0d201 0 0 5 audio 2 0\n", ["services"]),
                              (one + "audio 0 0 0 1 0 3 0 0 0\n", ["audio lines"]), (one + "app 0 0 sync 0 1 0002\n", ["app lines"]), (one + "raw 14 0 0 01\n", ["raw lines of type 2 or 14"]),
                              (one + "raw 6 0 0 01\n", [])):
            self.assertEqual(joined.differences(*map(schedules.Schedule, (one, other))), wanted, other)

    def test_one_text_of_both(self):
        one, other = plan(5, (0, "one")), plan(9, (0, "two"), first=15, mode="C") + "config 4 2\nmode B\nstream 0 4 fill 55\nblock 0\n"
        text = joined.text_of(one, other, 3).splitlines()
        self.assertEqual([line for line in text if line.startswith(("first", "length", "config", "mode"))],
                         ["first 0 0", "length 14", "config 0 0", "mode B", "config 5 3", "mode C", "config 9 2", "mode B"])
        self.assertTrue(joined.can_be_joined(one, other))
        self.assertFalse(joined.can_be_joined(one, other.replace("carry plain", "carry pft 1 200")))


class Lasts(Folder):
    def setUp(self):
        super().setUp()
        self.addCleanup(os.chdir, os.getcwd())
        os.chdir(self.folder)
        self.lasts = self.lasting()

    def lasting(self):
        made = lasting.Lasting("state", [1])
        self.addCleanup(made.held.close)
        return made

    def test_copies(self):
        self.folder.joinpath("x.bin").write_bytes(b"one")
        one = entry(plan(5, (0, "one"), streams=("stream 0 3 file x.bin", "stream 0 4 fill 55")))
        other = entry(plan(2, (0, "two"), first=15, mode="C", streams=("stream 0 3 file x.bin", "stream 0 4 fill 66")), "b.plan", 600)
        copy = self.lasts.copied(one, other, 2)
        self.folder.joinpath("x.bin").write_bytes(b"two")
        again = self.lasts.copied(one)
        self.assertEqual([line for line in copy.text.splitlines() if line.startswith(("length", "config", "stream"))],
                         ["length 7", "config 0 0", "stream 0 3 file 1/7", "stream 0 4 fill 55", "config 5 2", "stream 0 3 file 1/14", "stream 0 4 fill 66"])
        compared = self.lasts.texts.joinpath(copy.compared).read_text(encoding="ascii")
        self.assertEqual([line for line in compared.splitlines() if line.startswith("stream")],
                         ["stream 0 3 file 1/7", "stream 0 4 fill 00", "stream 0 3 file 1/14", "stream 0 4 fill 00"])
        self.assertEqual((copy.content.own(0, 0), again.content.own(0, 0)), (b"one", b"two"))
        self.assertEqual((copy.announces, again.announces), ((600, "b.plan", 2), None))
        self.lasts.notes(begin=0, name="a.plan", pace=40, copy=1, reached=3, announces=copy.announces)
        found = self.lasting()
        self.assertTrue(self.lasts.is_ours())
        self.assertFalse(found.is_ours())
        before = found.recorded(found.record(), one)
        self.assertEqual((before.entry, before.text, before.announces), (one, copy.text, copy.announces))
        found.drops_all_but({1})
        self.assertEqual(sorted(each.name for each in found.texts.iterdir()), ["1", "2"])
        for each in (copy, again, before):
            each.content.close()

    def test_notes_that_cannot_be_read(self):
        self.assertIsNone(self.lasts.record())
        for text in ("", "{", "[]", "7", '{"begin": 0}'):
            self.folder.joinpath("state/on-air").write_text(text, encoding="ascii")
            self.assertIsNone(self.lasts.record(), text)
        self.assertIsNone(self.lasts.recorded({"copy": 9}, entry(plan(5, (0, "one")))))

    def test_a_disk_that_is_full(self):
        self.lasts.folder.joinpath("on-air").mkdir()
        with contextlib.redirect_stderr(io.StringIO()) as said:
            self.lasts.notes(reached=1)
            self.lasts.notes(reached=2)
        self.assertEqual(said.getvalue().count("a start wouldn't know of it"), 1)

    def test_live_streams_keep_their_sizes(self):
        copies = [self.lasts.copied(entry(text + more)) for text in (plan(9, (0, "one"), streams=("stream 0 4 fill 55", "stream 0 2 fill 66")),)
                  for more in ("", "config 5 1\nstream 0 4 fill 55\nstream 0 3 fill 66\nblock 0\n", "config 5 1\nstream 0 7 fill 55\nstream 0 2 fill 66\nblock 0\n")]
        changes.refuse_live(copies[0], copies[2], 0)
        with self.assertRaises(changes.Refused) as refused:
            changes.refuse_live(copies[0], copies[1], 3)
        self.assertIn("from super frame 5 on its live streams have 3 bytes a frame, and 2 as it is sent", refused.exception.texts[0])


class Servers(unittest.TestCase):
    def test_what_lies_in_a_pipe(self):
        class Copy:
            folder = "/"
        server = fed_server.Server(["head", "-c", "3"], Copy, 0)
        self.assertEqual((server.takes(b"ab"), server.takes(b"")), (b"", b""))
        while server.lies_in_pipe():
            pass
        self.assertIsNone(server.status())
        server.takes(b"cdef")
        self.assertEqual(server.ended(), 0)
        # It reads ahead of what it prints, as `drmcast` doesn't; what lies there wasn't taken.
        self.assertLessEqual(server.lies_in_pipe(), 3)
        server.ends()


if __name__ == "__main__":
    unittest.main()
