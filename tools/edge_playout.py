#!/usr/bin/env python3
"""Runs `playout.py` over real sockets while its list and its schedules change, and while it is killed, stopped and starved, as no contract can say.

    tools/edge_playout.py PROGRAM

For a minute a station is on the air at a pace of 40 milliseconds, with an encoder. Its schedule gets another label from a later block on, a new
configuration, and a change that disagrees with what was sent; it becomes longer than its list has room for, until that is right; the playout is
killed and started again, and stopped for two seconds just before its server is exchanged; the encoder stalls for a while; and the next schedule is
a reconfiguration. One receiver hears all of it. Its report has to be that of the schedule as it is in the end, announcement included: each frame
once, nothing missing but where the playout was killed, each byte of the encoder once and in its order, and no gap above twice the pace but
where the playout's own moments (--moments), the encoder's stall or a busy machine explain it.

An alarm by `onair.py` is on the air within a second. --quick leaves the minute out and has the alarm and a change of two seconds alone. Status 1
where something isn't as it should be.
"""
import contextlib
import os
import pathlib
import re
import signal
import socket
import subprocess
import sys
import tempfile
import threading
import time

import command_line
import joined
import playlists

PACE = 40
SUPER_FRAME = 3 * PACE
TOOLS = pathlib.Path(__file__).resolve().parent
# The bytes of the live stream and of the other one in a frame.
LIVE, OWN = 20, 40
# From where on the pieces of the next encoder are counted.
OF_ENCODER = 10_000
LENGTH, LONGER, NEXT = 420, 450, 40
STALL_SECONDS, HALT_SECONDS = 1.6, 2.0


def configuration(start, countdown, mode, blocks, file="own.bin"):
    """The lines of a configuration with these blocks, each a super frame and a label."""
    return [f"config {start} {countdown}", f"mode {mode}", "occupancy 3", "depth long", "msc 0", "sdc 0", "protection 0 1", f"room {76 if mode == 'B' else 68}",
            "service e0d201 0 0 5 audio 2 0", f"stream 0 {LIVE} fill aa", f"stream 0 {OWN} file {file}",
            *(line for start, label in blocks for line in (f"block {start}", "audio 0 0 0 1 0 3 0 0 0", f"label 0 {label}"))]


def plan(length, *configurations, first=0):
    return "\n".join(["drmplan 2", "carry pft 2 256", f"first {first} {first}", f"length {length}", *(line for each in configurations for line in each)]) + "\n"


class Encoder(threading.Thread):
    """Writes a piece each frame, in which its number stands again and again; stalls when it is asked to."""

    def __init__(self, pipe):
        super().__init__(daemon=True)
        self.pipe, self.written, self.stalls_until, self.stalls = pipe, 0, 0.0, []

    def run(self):
        due = time.monotonic()
        with contextlib.suppress(OSError):
            while True:
                due += PACE / 1000
                time.sleep(max(0.0, due - time.monotonic()))
                if time.monotonic() < self.stalls_until:
                    time.sleep(self.stalls_until - time.monotonic())
                    due = time.monotonic()
                self.pipe.write(self.written.to_bytes(4, "big") * (LIVE // 4))
                self.pipe.flush()
                self.written += 1

    def stall(self, seconds):
        self.stalls_until = time.monotonic() + seconds
        self.stalls.append((time.monotonic(), self.stalls_until))


class Machine(threading.Thread):
    """Notes when this process was kept from the processor."""

    def __init__(self):
        super().__init__(daemon=True)
        self.busy = []

    def run(self):
        while True:
            before = time.monotonic()
            time.sleep(0.005)
            if time.monotonic() - before > 0.015:
                self.busy.append((before, time.monotonic()))


class Modulator:
    """A receiver, and a socket beside it that notes when each frame came first."""

    def __init__(self, program, frames):
        self.socket = socket.socket(socket.AF_INET, socket.SOCK_DGRAM)
        self.socket.bind(("127.0.0.1", 0))
        with socket.socket(socket.AF_INET, socket.SOCK_DGRAM) as free:
            free.bind(("127.0.0.1", 0))
            port = free.getsockname()[1]
        self.to = f"127.0.0.1:{port},127.0.0.1:{self.socket.getsockname()[1]}"
        self.came, self.twice, self.seen = {}, [], set()
        self.run = subprocess.Popen([program, "receive", f"127.0.0.1:{port}", "--first", "0", "--frames", str(frames), "--window", "64", "--idle", "100"],
                                    stdout=subprocess.PIPE, text=True)
        self.report, self.lines = [], []
        self.reading = threading.Thread(target=self.reads, daemon=True)
        self.reading.start()
        threading.Thread(target=self.hears, daemon=True).start()

    def reads(self):
        for line in self.run.stdout:
            self.lines.append((time.monotonic(), line))
            self.report.append(line)

    def hears(self):
        with contextlib.suppress(OSError):
            while True:
                data = self.socket.recv(65_536)
                number, fragment = int.from_bytes(data[2:4], "big"), int.from_bytes(data[4:7], "big")
                if (number, fragment) in self.seen:
                    self.twice.append((number, fragment))
                self.seen.add((number, fragment))
                self.came.setdefault(number, time.monotonic())

    def until(self, number):
        """Waits for a frame."""
        end = time.monotonic() + 30
        while not any(each >= number for each in list(self.came)):
            if time.monotonic() > end:
                raise RuntimeError(f"frame {number} didn't come; {sorted(self.came)[-3:]}")
            time.sleep(0.01)

    def has_ended(self):
        self.run.wait(60)
        self.reading.join(10)
        return self.report


class Station:
    """A folder with a list and its schedules, and the playout that sends them."""

    def __init__(self, program, folder, frames):
        self.program, self.folder = program, pathlib.Path(folder)
        self.modulator = Modulator(program, frames)
        self.said = open(self.folder / "said", "ab")
        self.playing = self.encoder = None
        self.encoders = []
        self.kills = []

    def saves(self, name, text):
        """Saves a file by rename."""
        new = self.folder / f"{name}.new"
        new.write_text(text, encoding="utf-8")
        time.sleep(0.01)
        new.rename(self.folder / name)

    def lists(self, *entries):
        self.saves("it.list", "".join(f"{playlists.moment(at)} {name}\n" for at, name in entries))

    def starts(self, *more, live=True):
        words = [sys.executable, TOOLS / "playout.py", "it.list", "--program", self.program, "--pace", str(PACE), "--to", self.modulator.to, "--state", "state",
                 "--moments", "moments", *(["--live", "0"] if live else []), *more]
        self.playing = subprocess.Popen(words, cwd=self.folder, stdin=subprocess.PIPE, stdout=self.said, stderr=self.said)
        if live:
            self.encoder = Encoder(self.playing.stdin)
            self.encoder.written = OF_ENCODER * len(self.encoders)
            self.encoders.append(self.encoder)
            self.encoder.start()

    def kills_and_starts(self):
        began = time.monotonic()
        self.playing.kill()
        self.playing.wait()
        self.starts()
        self.kills.append((began, time.monotonic() + 2.0))

    def text(self):
        return (self.folder / "said").read_text(encoding="utf-8")

    def until_said(self, pattern):
        end = time.monotonic() + 30
        while not re.search(pattern, self.text()):
            if time.monotonic() > end:
                raise RuntimeError(f"\"{pattern}\" wasn't said:\n{self.text()}")
            time.sleep(0.01)

    def close(self):
        for each in (self.playing, self.modulator.run):
            if each is not None and each.poll() is None:
                each.kill()
        self.modulator.socket.close()
        self.said.close()

    def checked_in(self, names):
        """What `drmcast check` prints of these schedules."""
        return [subprocess.run([self.program, "check", name], cwd=self.folder, stdout=subprocess.PIPE, check=True, text=True).stdout for name in names]

    def wanted(self, texts):
        """The reports of these texts as they stand, each with the frames that are sent of it."""
        found = []
        for text, frames in texts:
            (self.folder / "wanted.plan").write_text(text, encoding="utf-8")
            capture = subprocess.run([self.program, "serve", "wanted.plan"], cwd=self.folder, stdout=subprocess.PIPE, check=True).stdout
            report = subprocess.run([self.program, "receive"], input=capture, stdout=subprocess.PIPE, check=False).stdout.decode().splitlines()
            found += [line.split(" ")[4:] for line in report if line.startswith("frame ")][:frames]
        return found


def masked(words):
    """The words of a frame behind its count, without the bytes of the live stream."""
    return words[:-1] + [words[-1][2 * LIVE:]]


def live_bytes(words):
    return bytes.fromhex(words[-1][:2 * LIVE])


def faults_of_frames(report, wanted, lost):
    """What isn't as it should be in a report: frames that differ, and missing ones that may not be missing."""
    items = [line.split(" ") for line in report if line.startswith(("frame ", "missing ", "bad "))]
    if len(items) != len(wanted):
        yield f"{len(items)} frames of {len(wanted)}"
    for words in items:
        number = int(words[1])
        if words[0] != "frame":
            if number not in lost:
                yield f"{' '.join(words).strip()}"
        elif number < len(wanted) and masked([each.strip() for each in words[4:]]) != masked(wanted[number]):
            yield f"frame {number} is another: {' '.join(words)[:120]}"


def faults_of_encoder(report):
    """The encoder's pieces come once, each in its order, from the first that a server took on."""
    last = -1
    for line in report:
        if line.startswith("frame "):
            data = live_bytes(line.split(" ")[4:])
            number = int.from_bytes(data[:4], "big")
            if data == b"\xaa" * LIVE:
                continue
            if data != data[:4] * (LIVE // 4):
                yield f"a piece is of two: {data.hex()}"
            if number <= last:
                yield f"piece {number} behind {last}"
            # What an encoder wrote before its server began was dropped.
            if last >= 0 and number // OF_ENCODER == last // OF_ENCODER and number > last + 1:
                yield f"{number - last - 1} pieces of the encoder are lost behind {last}"
            last = number


def faults_of_moments(station, machine):
    """The gaps between frames above twice the pace that nothing explains."""
    came = sorted((number, at) for number, at in station.modulator.came.items())
    due = {}
    for line in (station.folder / "moments").read_text(encoding="ascii").splitlines():
        _, number, given, moment = line.split(" ")
        due[int(number)] = float(given) - float(moment)
    why = station.kills + machine.busy + [(at, until + 1.5) for encoder in station.encoders for at, until in encoder.stalls]
    for (_, before), (number, at) in zip(came, came[1:]):
        explained = any(begin < at and end > before - PACE / 1000 for begin, end in why) or due.get(number, 0) > PACE / 1000
        if at - before > 2 * PACE / 1000 and not explained:
            yield f"a gap of {at - before:.3f} s before frame {number}"



def first_plan(label="one", blocks=(), length=LENGTH, second=()):
    """The schedule on the air, by what has changed of it."""
    more = [configuration(200, 5, "C", second, "other.bin")] if second else []
    return plan(length, configuration(0, 0, "B", [(0, label), *blocks]), *more)


def changes_for_a_minute(station):
    """What happens to the station while it is on the air; gives the frames that the kill may have cost."""
    begin = playlists.now() + 1500
    for name in ("own.bin", "other.bin"):
        (station.folder / name).write_bytes(os.urandom(OWN * 3 * (LONGER + NEXT)))
    station.saves("a.plan", first_plan())
    station.saves("b.plan", plan(NEXT, configuration(0, 0, "B", [(0, "next")]), first=3 * LENGTH))
    station.lists((begin, "a.plan"), (begin + LENGTH * SUPER_FRAME, "b.plan"))
    station.starts()
    modulator = station.modulator
    modulator.until(30)
    station.saves("a.plan", first_plan(blocks=[(60, "two")]))
    station.until_said("a.plan has changed")
    modulator.until(120)
    station.saves("a.plan", first_plan(blocks=[(60, "two")], second=[(0, "three")]))
    modulator.until(240)
    station.saves("a.plan", first_plan("another", [(60, "two")], second=[(0, "three")]))
    station.until_said("disagrees with what was sent")
    modulator.until(300)
    station.saves("a.plan", first_plan(blocks=[(60, "two")], length=LONGER, second=[(0, "three")]))
    station.until_said("an overlap of")
    station.saves("b.plan", plan(NEXT, configuration(0, 0, "B", [(0, "next")]), first=3 * LONGER))
    station.lists((begin, "a.plan"), (begin + LONGER * SUPER_FRAME, "b.plan"))
    station.until_said(rf"the list ends at {playlists.moment((begin + (LONGER + NEXT) * SUPER_FRAME) // 1000 * 1000)[:19]}")
    modulator.until(700)
    killed = (playlists.now() - begin) // PACE
    station.kills_and_starts()
    modulator.until(850)
    station.saves("a.plan", first_plan(blocks=[(60, "two")], length=LONGER, second=[(0, "three"), (100, "four")]))
    halts_at_exchange(station)
    modulator.until(1060)
    station.encoder.stall(STALL_SECONDS)
    return range(killed - 3, killed + 2000 // PACE)


def halts_at_exchange(station):
    """Stops the playout as soon as the server that takes over waits beside the one at work."""
    children = pathlib.Path(f"/proc/{station.playing.pid}/task/{station.playing.pid}/children")
    def servers():
        with contextlib.suppress(OSError):
            return sum(b"serve" in pathlib.Path(f"/proc/{child}/cmdline").read_bytes() for child in children.read_text(encoding="ascii").split())
        return 0
    end = time.monotonic() + 10
    while servers() < 2 and time.monotonic() < end:
        time.sleep(0.001)
    time.sleep(0.1)
    began = time.monotonic()
    station.playing.send_signal(signal.SIGSTOP)
    time.sleep(HALT_SECONDS)
    station.playing.send_signal(signal.SIGCONT)
    station.kills.append((began, time.monotonic() + 1.0))


def a_minute(program, folder, machine):
    with contextlib.closing(Station(program, folder, 3 * (LONGER + NEXT))) as station:
        lost = changes_for_a_minute(station)
        report = station.modulator.has_ended()
        station.playing.wait(30)
        one, other = station.checked_in(["a.plan", "b.plan"])
        texts = [(joined.text_of(one, other, joined.MOST_COUNTDOWN), 3 * LONGER), (other, 3 * NEXT)]
        found = list(faults_of_frames(report, station.wanted(texts), lost))
        found += faults_of_encoder(report)
        found += faults_of_moments(station, machine)
        found += [f"{len(station.modulator.twice)} datagrams came twice"] if station.modulator.twice else []
        switches = [line.strip() for line in report if line.startswith(("switch ", "resumed "))]
        found += [] if switches == ["switch 600", f"switch {3 * LONGER}"] else [f"reconfigurations: {switches}"]
        found += [] if station.playing.returncode == 9 else [f"status {station.playing.returncode}"]
        missing = [line for line in report if line.startswith("missing ")]
        told = f"{len(missing)} frames are missing, of the kill"
        return told, found, station.text()


def a_change(program, folder, machine):
    """A label from a later block on, and an alarm, with the time that it took."""
    length = 60
    with contextlib.closing(Station(program, folder, 3 * length)) as station:
        (station.folder / "own.bin").write_bytes(os.urandom(OWN * 3 * length))
        begin = playlists.now() + 1000
        station.saves("a.plan", plan(length, configuration(0, 0, "B", [(0, "one")])))
        station.lists((begin, "a.plan"))
        station.starts(live=False)
        station.modulator.until(3)
        station.saves("a.plan", plan(length, configuration(0, 0, "B", [(0, "one"), (20, "two")])))
        station.until_said("a.plan has changed")
        station.modulator.until(70)
        began = time.monotonic()
        ran = subprocess.run([sys.executable, TOOLS / "onair.py", "a.plan", "label 0 Alarm", "--for", "1s", "--state", "state", "--program", program], cwd=folder,
                             stdout=subprocess.PIPE, stderr=subprocess.STDOUT, check=False)
        report = station.modulator.has_ended()
        alarm = b"Alarm".hex()
        first = next((at for at, line in station.modulator.lines if alarm in line), None)
        found = [] if ran.returncode == 0 and first is not None else [f"onair.py: {ran.returncode}: {ran.stdout.decode()}"]
        took = (first or began) - began
        found += [f"the alarm was on the air after {took:.2f} s"] if took > 1 else []
        found += faults_of_frames(report, station.wanted([(station.checked_in(["a.plan"])[0], 3 * length)]), ())
        found += faults_of_moments(station, machine)
        return f"an alarm on the air after {took:.2f} s", found, station.text() + ran.stdout.decode()


def main():
    parser = command_line.parser(__doc__)
    parser.add_argument("program", metavar="PROGRAM", type=command_line.program)
    parser.add_argument("--quick", action="store_true", help="without the minute")
    options = parser.parse_args()
    machine = Machine()
    machine.start()
    failed = 0
    for trial in [a_change] + ([] if options.quick else [a_minute]):
        with tempfile.TemporaryDirectory() as folder:
            told, found, said = trial(options.program, folder, machine)
        print(f"{trial.__name__}: {told}; {len(found)} faults")
        for text in found[:20]:
            print(f"  {text}")
        if found:
            print(said)
        failed += bool(found)
    return int(failed > 0)


if __name__ == "__main__":
    command_line.run(main)
