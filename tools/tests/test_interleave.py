"""`interleave.py` over files and FIFOs: encoders that are late, that stop within a piece and come back, and fillers."""
import contextlib
import io
import os
import pathlib
import signal
import tempfile
import unittest

import running

import interleave

# A test waits for its frames, not for moments: what has to be late is never written, what has to be in time waits for this long.
LONG, SHORT = 20_000, 50


def pieces(stream, size, count, first=0):
    """Pieces of a stream, each of which has its letter and its own number in every byte."""
    return b"".join(bytes([0x10 * (stream + 10) + (first + k) % 16]) * size for k in range(count))


class Interleave(unittest.TestCase):
    def setUp(self):
        folder = tempfile.TemporaryDirectory()
        self.addCleanup(folder.cleanup)
        self.folder = pathlib.Path(folder.name)

    def file(self, name, content):
        path = self.folder / name
        path.write_bytes(content)
        return path

    def fifo(self, name):
        path = self.folder / name
        os.mkfifo(path)
        return path

    def encoder(self, path):
        """An encoder that writes into a FIFO as soon as it is read."""
        def is_read():
            try:
                self.descriptor = os.open(path, os.O_WRONLY | os.O_NONBLOCK)
            except OSError:
                return False
            return True
        running.until(is_read, "a reader")
        opened = open(self.descriptor, "wb", buffering=0)
        self.addCleanup(opened.close)
        return opened

    def started(self, *words):
        script = running.start("interleave.py", *words)
        self.addCleanup(script.wait)
        self.addCleanup(script.kill)
        for pipe in (script.stdin, script.stdout, script.stderr):
            self.addCleanup(pipe.close)
        return script

    def said(self, script):
        """What it says on standard error to its end, without its name; and its status."""
        lines = script.stderr.read().decode().splitlines()
        return [line.removeprefix("interleave.py: ") for line in lines], script.wait(running.WAIT_SECONDS)

    def test_files_in_the_order_of_their_streams(self):
        a, b = self.file("a", pieces(0, 3, 2)), self.file("b:c", pieces(2, 2, 2))
        with self.started(f"2:2:{b}", f"0:3:{a}") as script:
            self.assertEqual(script.stdout.read(), bytes.fromhex("a0a0a0c0c0a1a1a1c1c1"))
            self.assertEqual(self.said(script), (["2 frames; replaced 0 of stream 0, 0 of stream 2"], 0))

    def test_a_pace_adds_nothing_to_files(self):
        a, b = self.file("a", pieces(0, 3, 9)), self.file("b", pieces(1, 1, 9))
        with self.started(f"0:3:{a}", f"1:1:{b}", "--pace", 1) as script:
            self.assertEqual(len(script.stdout.read()), 36)
            self.assertEqual(self.said(script), (["9 frames; replaced 0 of stream 0, 0 of stream 1"], 0))

    def test_a_file_that_ends_is_replaced_without_its_cut_piece(self):
        a, b = self.file("a", pieces(0, 3, 1) + b"xx"), self.file("b", pieces(1, 2, 3))
        with self.started(f"0:3:{a}", f"1:2:{b}", "--fill", "5a", "--late", LONG) as script:
            self.assertEqual(script.stdout.read(), bytes.fromhex("a0a0a0b0b05a5a5ab1b15a5a5ab2b2"))
            self.assertEqual(self.said(script), (["stream 0 has ended, and is replaced from frame 1 on", "3 frames; replaced 2 of stream 0, 0 of stream 1"], 7))

    def test_fillers_of_a_file(self):
        a, b, silence = self.file("a", b""), self.file("b", pieces(1, 1, 3)), self.file("silence", b"1122")
        with self.started(f"0:2:{a}", f"1:1:{b}", "--fill-file", f"0:{silence}") as script:
            self.assertEqual(script.stdout.read(), b"11\xb022\xb111\xb2")
        for content, word in ((b"11222", "0:{}"), (b"", "0:{}"), (b"1122", "3:{}"), (b"1122", "{}")):
            path = self.file("silence", content)
            self.assertIn(running.run("interleave.py", f"0:2:{a}", "--fill-file", word.format(path))[0], (1, 2), (content, word))

    def test_a_frame_waits_for_its_pieces(self):
        a, b = self.fifo("a"), self.fifo("b")
        with self.started(f"0:3:{a}", f"1:2:{b}", "--late", LONG, "--frames", 2) as script:
            one, other = self.encoder(a), self.encoder(b)
            one.write(pieces(0, 3, 1) + b"\xa1")
            other.write(pieces(1, 2, 1)[:1])
            other.write(pieces(1, 2, 1)[1:])
            self.assertEqual(script.stdout.read(5), bytes.fromhex("a0a0a0b0b0"))
            other.write(pieces(1, 2, 2, 1))
            one.write(b"\xa1\xa1")
            self.assertEqual(script.stdout.read(), bytes.fromhex("a1a1a1b1b1"))
            self.assertEqual(self.said(script), (["2 frames; replaced 0 of stream 0, 0 of stream 1"], 0))

    def test_an_encoder_that_stops_within_a_piece_and_goes_on(self):
        a, b = self.fifo("a"), self.fifo("b")
        with self.started(f"0:3:{a}", f"1:2:{b}", "--late", SHORT, "--fill", "ff") as script:
            one, other = self.encoder(a), self.encoder(b)
            other.write(b"\xb0")
            one.write(pieces(0, 3, 1))
            self.assertEqual(script.stdout.read(5), bytes.fromhex("a0a0a0ffff"))
            one.write(pieces(0, 3, 2, 1))
            self.assertEqual(script.stdout.read(10), bytes.fromhex("a1a1a1ffffa2a2a2ffff"))
            # The rest of the replaced piece is dropped, and half of the next one isn't used before it is whole.
            other.write(b"\xb0\xb1")
            one.write(pieces(0, 3, 1, 3))
            self.assertEqual(script.stdout.read(5), bytes.fromhex("a3a3a3ffff"))
            other.write(b"\xb1")
            self.assertEqual(script.stdout.read(5), bytes.fromhex("ffffffb1b1"))
            status, _, err = running.stop(script)
        self.assertEqual(status, 7)
        self.assertEqual([line.removeprefix("interleave.py: ") for line in err.splitlines()], [
            "stream 1 is late, and is replaced from frame 0 on", "stream 0 is late, and is replaced from frame 4 on", "stream 1 is back from frame 4 on",
            "5 frames; replaced 1 of stream 0, 4 of stream 1"])

    def test_a_writer_that_goes_within_a_piece(self):
        path = self.fifo("a")
        source = interleave.Source(0, 4, path)
        self.addCleanup(lambda: os.close(source.descriptor))
        for k in range(3):
            with self.encoder(path) as encoder:
                encoder.write(pieces(0, 4, 1, k) + b"xx")
                source.read()
                self.assertEqual(source.piece(k), pieces(0, 4, 1, k))
                source.read()
                self.assertEqual(source.held, b"xx")
            source.read()
            self.assertEqual((source.held, source.late, source.has_ended), (b"", 0, False))

    def test_with_a_pace_nobody_has_to_write(self):
        a = self.fifo("a")
        with self.started(f"0:2:{a}", "--late", 1, "--pace", 10) as script:
            encoder = self.encoder(a)
            encoder.write(b"aa")
            self.assertEqual(script.stdout.read(6), b"aa\0\0\0\0")
            status, out, _ = running.stop(script)
        self.assertEqual((status, len(out) % 2), (7, 0))

    def test_it_ends_behind_a_whole_frame(self):
        a, b = self.fifo("a"), self.fifo("b")
        for signalled in (signal.SIGTERM, signal.SIGINT):
            with self.started(f"0:3:{a}", f"1:2:{b}", "--late", LONG) as script:
                one, other = self.encoder(a), self.encoder(b)
                one.write(pieces(0, 3, 2))
                other.write(pieces(1, 2, 1) + b"\xb1")
                self.assertEqual(script.stdout.read(5), bytes.fromhex("a0a0a0b0b0"))
                status, out, err = running.stop(script, signalled)
                one.close()
                other.close()
            self.assertEqual((status, out, err), (0, b"", "interleave.py: 1 frames; replaced 0 of stream 0, 0 of stream 1\n"))

    def test_nothing_comes_at_first(self):
        a = self.fifo("a")
        with self.started(f"0:2:{a}", "--late", 20) as script:
            self.assertEqual(script.stderr.readline().decode(), f"interleave.py: nothing has come yet of stream 0 ({a}); until then nothing is sent\n")
            self.encoder(a).write(b"aa")
            self.assertEqual(script.stdout.read(2), b"aa")

    def test_a_server_that_has_gone(self):
        a = self.fifo("a")
        with self.started(f"0:2:{a}") as script:
            self.encoder(a)
            script.stdout.close()
            self.assertEqual(self.said(script), (["0 frames; replaced 0 of stream 0"], 141))

    def test_sizes_of_the_schedules(self):
        program, a, b = self.file("drmcast", b"#!/bin/sh\nfor name; do :; done\nexec cat \"$name\""), self.file("a", pieces(0, 3, 2)), self.file("b", pieces(1, 2, 2))
        program.chmod(0o755)
        both = b"config 0 0\nstream 1 2 fill 00\nstream 0 2 fill 00\n"
        one, other = self.file("one.plan", both), self.file("other.plan", both + b"config 9 2\nstream 0 3 file x\n")
        listed = self.file("it.list", f"2026-12-24T18:00:00Z {one}\n# and\n2026-12-24T19:00:00Z {other}\n".encode())
        checks = "--program", program
        with self.started(f"0:{a}", f"1:2:{b}", "--schedule", one, *checks) as script:
            self.assertEqual(script.stdout.read(), bytes.fromhex("a0a0a0b0b0a1a1a1b1b1"))
            self.assertEqual(self.said(script)[1], 0)
        for words, said in (((f"0:{a}", "--list", listed), None), ((f"0:4:{a}", "--schedule", one), f"stream 0 has 3 bytes a frame in configuration 1 of {one}, and 4 bytes a frame here"),
                            ((f"0:{a}", f"1:{b}", "--list", listed), f"stream 1 has 0 bytes a frame in configuration 2 of {other}, and 2 bytes a frame in configuration 1 of {one}"),
                            ((f"2:{a}", "--schedule", other), f"stream 2 has 0 bytes a frame in configuration 1 of {other}")):
            with self.subTest(words=words):
                status, out, err = running.run("interleave.py", *words, *checks)
                self.assertEqual((status, out) if said else status, (3, "") if said else 0)
                self.assertIn(f"interleave.py: {said}\n" if said else "2 frames", err)
        program.write_text("#!/bin/sh\necho 'drmcast: schedule line 7: fit' >&2; exit 3\n", encoding="ascii")
        self.assertEqual(running.run("interleave.py", f"0:{a}", "--schedule", one, *checks), (3, "", f"interleave.py: {one}: drmcast: schedule line 7: fit\n"))
        self.assertEqual(running.run("interleave.py", f"0:{a}", "--schedule", one, "--program", "/nowhere/drmcast")[0], 2)

    def test_words(self):
        a = self.file("a", b"")
        for words in ((), ("a",), ("0:1",), ("4:1:{a}",), ("0:0:{a}",), ("0:8191:{a}",), ("0:1:/nowhere",), ("0:1:/dev/null",), ("0:1:{a}", "0:2:{a}"), ("0:{a}",), ("0:",),
                      ("0:1:{a}", "--fill", "0"), ("0:1:{a}", "--fill", "0x"), ("0:1:{a}", "--fill", " 00"), ("0:1:{a}", "--late", "0"), ("0:1:{a}", "--frames", "0")):
            with self.subTest(words=words), contextlib.redirect_stderr(io.StringIO()) as said, self.assertRaises(SystemExit) as end:
                interleave.arguments_of([word.format(a=a) for word in words])
            self.assertEqual((end.exception.code, said.getvalue()[:6]), (2, "usage:"))
        self.assertEqual(running.run("interleave.py")[0], 2)


if __name__ == "__main__":
    unittest.main()
