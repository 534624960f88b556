"""What a capture may have, and what `record.py`, `drop.py` and `pcap.py` make of what comes."""
import pathlib
import signal
import socket
import subprocess
import tempfile
import unittest

import running

import datagrams

NO_PACKETS = [b"x", b"", b"PF", b"AF", b"PF" + bytes(30), b"AF" + bytes(11), running.fragment(3) + b"x", running.fragment(3)[:-1]]


def af(length):
    """An AF packet by its head."""
    return b"AF" + length.to_bytes(4, "big") + bytes(6 + length)


class Packets(unittest.TestCase):
    def test_what_a_capture_may_have(self):
        for packet in (running.fragment(7), running.fragment(7, b""), af(0), af(100), af(65_524)):
            self.assertTrue(datagrams.is_packet(packet), packet[:20])
        for datagram in (*NO_PACKETS, af(65_525), af(100)[:-1]):
            self.assertFalse(datagrams.is_packet(datagram), datagram[:20])

    def test_a_fragment_with_a_code_and_addresses(self):
        head = b"PF" + bytes(8) + (0xC000 | 5).to_bytes(2, "big") + bytes([201, 1]) + bytes(4)
        whole = head + datagrams.check_value(head) + b"bytes"
        self.assertTrue(datagrams.is_packet(whole))
        self.assertFalse(datagrams.is_packet(whole[:15] + b"x" + whole[16:]))


class Record(unittest.TestCase):
    def recorded(self, end):
        """What is recorded of three packets and others, where `end` ends the recording."""
        port = running.free_port()
        with running.start("record.py", f"127.0.0.1:{port}", "--silence", 1) as recording, \
                socket.socket(socket.AF_INET, socket.SOCK_DGRAM) as sender:
            running.until(lambda: running.is_bound(port))
            for sequence in range(3):
                for datagram in (running.fragment(sequence), *NO_PACKETS):
                    sender.sendto(datagram, ("127.0.0.1", port))
            if end is None:
                out, err = recording.communicate(timeout=running.WAIT_SECONDS)
                return recording.returncode, out, err.decode()
            return running.stop(recording, end)

    def test_silence_and_signals_lose_nothing(self):
        wanted = b"".join(map(running.fragment, range(3)))
        for end in (None, signal.SIGTERM, signal.SIGINT):
            with self.subTest(end=end):
                self.assertEqual(self.recorded(end), (0, wanted, f"3 datagrams, {3 * len(NO_PACKETS)} others left out\n"))

    def test_an_address_that_is_taken(self):
        with socket.socket(socket.AF_INET, socket.SOCK_DGRAM) as taken:
            taken.bind(("127.0.0.1", 0))
            address = f"127.0.0.1:{taken.getsockname()[1]}"
            self.assertEqual(running.run("record.py", address), (1, "", f"record.py: {address}: Address already in use\n"))
            status, out, err = running.run("drop.py", address, "127.0.0.1:9")
            self.assertEqual((status, out, err), (1, "", f"drop.py: {address}: Address already in use\n"))

    def test_no_room(self):
        port = running.free_port()
        with open("/dev/full", "wb") as full:
            recording = subprocess.Popen(running.words("record.py", f"127.0.0.1:{port}", "--silence", 1), stdout=full, stderr=subprocess.PIPE)
        with recording, socket.socket(socket.AF_INET, socket.SOCK_DGRAM) as sender:
            running.until(lambda: running.is_bound(port))
            sender.sendto(running.fragment(0), ("127.0.0.1", port))
            # Its own end, since a signal may come while it ends.
            _, err = recording.communicate(timeout=running.WAIT_SECONDS)
        self.assertEqual((recording.returncode, err), (1, b"record.py: standard output: No space left on device\n"))


class Drop(unittest.TestCase):
    def test_every_third_and_a_signal(self):
        listen = running.free_port()
        with socket.socket(socket.AF_INET, socket.SOCK_DGRAM) as into, socket.socket(socket.AF_INET, socket.SOCK_DGRAM) as sender:
            into.bind(("127.0.0.1", 0))
            into.settimeout(running.WAIT_SECONDS)
            with running.start("drop.py", f"127.0.0.1:{listen}", f"127.0.0.1:{into.getsockname()[1]}", 3) as dropping:
                running.until(lambda: running.is_bound(listen))
                for k in range(6):
                    sender.sendto(bytes([k]), ("127.0.0.1", listen))
                self.assertEqual([into.recv(10) for _ in range(4)], [b"\0", b"\1", b"\3", b"\4"])
                self.assertEqual(running.stop(dropping, signal.SIGINT), (0, b"forwarded 4 dropped 2\n", ""))


class Pcap(unittest.TestCase):
    def test_there_and_back(self):
        capture = b"".join(running.fragment(k) for k in range(5))
        with tempfile.TemporaryDirectory() as folder:
            path = f"{folder}/it.pcap"
            self.assertEqual(running.run("pcap.py", "write", path, given=capture), (0, "", ""))
            out = f"{folder}/it.capture"
            with open(out, "wb") as file:
                status, _, err = running.run("pcap.py", "read", path, stdout=file)
            self.assertEqual((status, pathlib.Path(out).read_bytes()), (0, capture))
            self.assertEqual(err, "5 datagrams, 0 others left out, 0 in pieces that never became whole\n")

    def test_what_is_no_packet_is_left_out(self):
        with tempfile.TemporaryDirectory() as folder:
            datagrams.pcap(f"{folder}/it.pcap", [running.fragment(0), *NO_PACKETS, running.fragment(1)])
            with open(f"{folder}/it.capture", "wb") as file:
                status, _, err = running.run("pcap.py", "read", f"{folder}/it.pcap", stdout=file)
            self.assertEqual(pathlib.Path(f"{folder}/it.capture").read_bytes(), running.fragment(0) + running.fragment(1))
            self.assertEqual((status, err), (0, f"2 datagrams, {len(NO_PACKETS)} others left out, 0 in pieces that never became whole\n"))

    def test_a_snap_length(self):
        with tempfile.TemporaryDirectory() as folder:
            path = pathlib.Path(folder, "it.pcap")
            datagrams.pcap(path, [running.fragment(0), running.fragment(1, bytes(100))])
            # The second packet without its last bytes, as a snap length of 64 leaves it: 20 + 8 + 14 + 100 bytes are 142.
            whole = path.read_bytes()
            head, first = whole[:16] + (64).to_bytes(4, "little") + whole[20:24], 16 + 28 + len(running.fragment(0))
            second = whole[24 + first:]
            path.write_bytes(head + whole[24:24 + first] + second[:8] + (64).to_bytes(4, "little") + second[12:16] + second[16:16 + 64])
            status, out, err = running.run("pcap.py", "read", path)
        self.assertEqual((status, out[:2], err.splitlines()), (0, "PF", [
            "1 datagrams, 1 others left out, 0 in pieces that never became whole",
            "1 packets are cut, since the file keeps 64 bytes of each at most (its snap length); tcpdump -s 0 keeps them whole"]))

    def test_bad_input_writes_nothing(self):
        with tempfile.TemporaryDirectory() as folder:
            path = pathlib.Path(folder, "it.pcap")
            status, _, err = running.run("pcap.py", "write", path, given=running.fragment(0) + b"x")
            self.assertEqual((status, err, path.exists()), (1, "pcap.py: standard input is no capture, or is cut\n", False))
            status, _, err = running.run("pcap.py", "write", f"{folder}/nowhere/it.pcap", given=running.fragment(0))
            self.assertEqual((status, err), (1, f"pcap.py: {folder}/nowhere/it.pcap: No such file or directory\n"))
            self.assertEqual(running.run("pcap.py", "write", "/dev/full", given=running.fragment(0))[0], 1)
            self.assertEqual(list(pathlib.Path(folder).iterdir()), [])
            self.assertEqual(running.run("pcap.py", "read", f"{folder}/none")[::2], (1, f"pcap.py: {folder}/none: No such file or directory\n"))


if __name__ == "__main__":
    unittest.main()
