"""Stands in for `drmcast` in the tests of a playout: small texts, and datagrams that a test can read. The first word is the folder of its notes.

`check` prints the lines of a text that say something, `capacity` those that comments say. A frame's datagram is a line: its number, the super frames up to
a reconfiguration that is announced, the entities in force, and the bytes of its streams. `serve` reads pieces and sends as `drmcast serve --live` does, and
notes when it was begun with which words. Once it fails at its beginning with the status in the file `failing`, and once at its end with that in
`ending`, if they are there; and `agree` once takes the seconds in `slow`.
"""
import os
import socket
import sys
import time

MOST_BLOCKS = 64


def fails(line, status=3):
    sys.stderr.write(f"drmcast: {line}\n")
    sys.exit(status)


class Config:
    def __init__(self, start, countdown):
        self.start, self.countdown = start, countdown
        self.streams, self.blocks, self.room = [], [], 100


class Text:
    """A schedule, as far as these tests look at it."""

    def __init__(self, name):
        try:
            with open(name, encoding="utf-8") as file:
                raw = file.read()
        except OSError:
            fails("read fault", 4)
        self.raw = raw.split("\n")
        self.lines = [(number, line.split()) for number, line in enumerate(self.raw, 1) if line.strip() and not line.startswith("#")]
        self.configs, self.first, self.length = [], 0, 0
        for number, words in self.lines:
            self.takes(number, words)
        if not self.length or not self.configs:
            fails(f"schedule line {len(self.raw)}: missing")
        for one, other in zip(self.configs, self.configs[1:]):
            if other.countdown > other.start - one.start or one.room < other.countdown:
                fails(f"schedule line {other.line}: {'countdown' if other.countdown > other.start - one.start else 'fit'}")

    def takes(self, number, words):
        kind = words[0]
        if kind == "wrong":
            fails(f"schedule line {number}: fit")
        if kind == "first":
            self.first = int(words[1])
        elif kind == "length":
            self.length = int(words[1])
        elif kind == "config":
            self.configs.append(Config(int(words[1]), int(words[2])))
            self.configs[-1].line = number
        elif kind == "room":
            self.configs[-1].room = int(words[1])
        elif kind == "stream":
            self.configs[-1].streams.append((int(words[1]) + int(words[2]), words[3], words[4]))
            if words[3] == "file" and not os.path.exists(words[4]):
                fails("read fault", 4)
        elif kind == "block":
            self.configs[-1].blocks.append((int(words[1]), []))
            if len(self.configs[-1].blocks) > MOST_BLOCKS:
                fails(f"schedule line {number}: too-long")
        elif kind in ("label", "raw", "audio", "app"):
            self.configs[-1].blocks[-1][1].append(" ".join(words))

    def config(self, frame):
        return [config for config in self.configs if 3 * config.start <= frame][-1]

    def own(self, frame):
        config = self.config(frame)
        behind = frame - 3 * config.start
        found = b""
        for size, kind, what in config.streams:
            if kind == "fill":
                found += bytes.fromhex(what) * size
            else:
                with open(what, "rb") as file:
                    file.seek(behind * size)
                    found += file.read(size)
        return found

    def datagram(self, frame, piece):
        config, at = self.config(frame), frame // 3
        index = [other.start - at for other in self.configs if other.start - other.countdown <= at < other.start]
        entities = [entities for number, entities in config.blocks if number <= at - config.start]
        return f"{(self.first + frame) % 65536} {index[0] if index else 0} {';'.join(entities[-1] if entities else [])} {piece.hex()}".encode()


def piece_of(size):
    """A piece that is read as `drmcast` reads it: no byte behind it is; None if input ended."""
    found = b""
    while len(found) < size:
        came = os.read(0, size - len(found))
        if not came:
            return None
        found += came
    return found


def serve(folder, words):
    options, name, rest = {"--from": "0", "--until": "1000000", "--pace": "0", "--to": None, "--live": None}, words[-1], words[:-1]
    while rest and rest[0] != "--":
        options[rest[0]] = rest[1]
        rest = rest[2:]
    addresses = []
    for word in options["--to"].split(",") if options["--to"] else []:
        host, _, port = word.rpartition(":")
        if not host.replace(".", "").isdigit():
            fails("words", 2)
        addresses.append((host, int(port)))
    text = Text(name)
    first, end = int(options["--from"]), min(int(options["--until"]), text.length)
    if first >= end:
        return
    with open(f"{folder}/log", "a", encoding="ascii") as log:
        log.write(f"{time.time_ns()} serve {' '.join(words)}\n")
    ends_with(folder, "failing")
    send(text, 3 * first, 3 * end, addresses, int(options["--pace"]) / 1000)
    ends_with(folder, "ending")


def send(text, first, end, addresses, pace):
    began = last = None
    with socket.socket(socket.AF_INET, socket.SOCK_DGRAM) as out:
        for frame in range(first, end):
            piece = piece_of(sum(size for size, _, _ in text.config(frame).streams)) or text.own(frame)
            now = time.monotonic()
            began = began or now
            due = max(began + (frame - first) * pace, (last or now) + pace / 4 if frame > first else now)
            time.sleep(max(0.0, due - now))
            last = time.monotonic()
            for address in addresses:
                out.sendto(text.datagram(frame, piece), address)


def ends_with(folder, name):
    path = f"{folder}/{name}"
    if os.path.exists(path):
        with open(path, encoding="ascii") as file:
            status = int(file.read())
        os.unlink(path)
        fails("link fault", status)


def wait_once(folder, name):
    path = f"{folder}/{name}"
    if os.path.exists(path):
        with open(path, encoding="ascii") as file:
            seconds = float(file.read())
        os.unlink(path)
        time.sleep(seconds)


def agree(one, other):
    least = min(one.length, other.length)
    same = next((frame // 3 for frame in range(3 * least) if one.datagram(frame, one.own(frame)) != other.datagram(frame, other.own(frame))), least)
    print(f"agree {same} of {one.length} and {other.length}")


def main():
    folder, command, *words = sys.argv[1:]
    if command == "serve":
        serve(folder, words)
    elif command == "agree":
        wait_once(folder, "slow")
        agree(*map(Text, words[-2:]))
    elif command == "check":
        for _, line in Text(words[-1]).lines:
            print(" ".join(line))
    elif command == "capacity":
        said = [line[11:] for line in Text(words[-1]).raw if line.startswith("# capacity ")]
        print("\n".join(said))
        sys.exit(7 if any(line.startswith("over") for line in said) else 0)


if __name__ == "__main__":
    main()
