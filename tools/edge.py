#!/usr/bin/env python3
"""Runs a built program over cases, as a process: words, files, standard input, and links over real sockets.

PROGRAM is crates/drmcast/out/drmcast, or drmpaths for its cases, and CASES are files of crates/test_cases/data (docs/CASES.md). A case
is run where a process can do what it says: nothing of the outside fails, and no link is idle at a certain answer. Its addresses
become ports of 127.1.2.3, whose four numbers differ. Where silence ends a run, it is a second of it, and a file has no folder in
its name.
Each case that ends otherwise is named, with what differs. Status 1 where one does. A case over sockets that differs is tried
twice more, with nothing beside it, since the system may drop a datagram or come late on a busy machine.

On standard error the program writes lines of its own behind what a case says: which word is wrong, behind `words`; which address, file or
stream it was, behind a fault; and when sends to an address are refused and accepted again. A case is compared without these lines. What
they say is tried by itself (LINES).
"""
import concurrent.futures
import pathlib
import re
import socket
import subprocess
import sys
import tempfile
import threading
import time

import command_line

HOST = "127.1.2.3"
# as /proc/net/udp writes it
HOST_DIGITS = "".join(f"{int(number):02X}" for number in reversed(HOST.split(".")))
IDLE = "10"
MOST_DATAGRAMS = 400
# as many bytes as are sent at once and a socket surely keeps up with
MOST_BYTES = 1_000_000
# what may be written about an address at any moment
REFUSALS = re.compile(rb"^\w+: [\d.]+:\d+: (refused since \S+: .*|accepted again, \d+ datagrams lost)\n", re.MULTILINE)
# the line behind a refusal of the words, and the lines behind a fault of the outside
WORDS, FAULTS = 2, (4, 5, 6)
FAILING = re.compile(r"-(fails|room|piece)$|^(failed|idle|out-prefix|differs)$")
ADDRESS = re.compile(r"\d+\.\d+\.\d+\.\d+:\d+")


def append(piece, keyword, rest, lets):
    if keyword == "|":
        piece += rest.encode() + b"\n"
    elif keyword == ".":
        piece += rest.encode()
    elif keyword == "x":
        piece += bytes.fromhex(rest)
    elif keyword == "*":
        count, byte = rest.split(" ")
        piece += bytes.fromhex(byte) * int(count)
    elif keyword == "+":
        count, byte = rest.split(" ")
        piece += bytes((int(byte, 16) + k) % 256 for k in range(int(count)))
    elif keyword == "%":
        first, last, text = rest.split(" ", 2)
        for k in range(int(first), int(last) + 1):
            piece += text.replace("#", str(k)).encode() + b"\n"
    else:
        piece += lets[rest]


class Case:
    def __init__(self, place, name):
        self.place, self.name = place, name
        self.words, self.files, self.input = [], {}, bytearray()
        self.status, self.out, self.err = None, bytearray(), bytearray()
        self.links, self.sent, self.asks = {}, {}, set()

    def targets(self):
        """The addresses to which the program sends: over a link that `gate` receives from, its first address, nothing goes."""
        words = [word.decode(errors="replace") for word in self.words]
        source = next((word for word in words if words[0] == "gate" and ADDRESS.fullmatch(word)), None)
        return [at for at in self.sent if at != source]


def cases_of(path):
    """The cases of a file, in order."""
    lets, lists, case, piece, group = {}, {}, None, None, None
    for number, line in enumerate(pathlib.Path(path).read_text().split("\n"), 1):
        if not line or line.startswith("#"):
            continue
        keyword, _, rest = line.partition(" ")
        if keyword in "|.x*+%@":
            append(piece, keyword, rest, lets)
        elif keyword in "<>":
            piece = bytearray.fromhex(rest)
            group.append(piece)
        elif keyword == "of":
            name, *places = rest.split(" ")
            first, last = (int(places[0]), int(places[-1]) + 1) if places else (0, None)
            group += lists[name][first:last]
        elif keyword == "let":
            piece = lets[rest] = bytearray()
        elif keyword == "list":
            group = lists[rest] = []
        elif keyword == "case":
            if case:
                yield case
            case = Case(f"{path}:{number}", rest)
        else:
            case.asks.add(keyword)
            if keyword == "words":
                case.words = [bytearray(word.encode()) for word in rest.split(" ")]
            elif keyword == "word":
                piece = bytearray(rest.encode())
                case.words.append(piece)
            elif keyword == "file":
                piece = case.files[rest] = bytearray()
            elif keyword in ("input", "out", "err"):
                piece = getattr(case, keyword)
            elif keyword == "link":
                group = case.links[rest] = []
            elif keyword == "sent":
                group = case.sent[rest] = []
            elif keyword == "status":
                case.status = int(rest)
    if case:
        yield case


def can_run(case):
    """Whether a process can do what the case says."""
    # how its reads are cut makes no difference
    if any(FAILING.search(it) for it in case.asks - {"input-piece"}) or case.status == 6:
        return False
    if any("/" in name or len(name) > 255 for name in case.files) or any(len(word) > 100_000 or b"\0" in word for word in case.words):
        return False
    datagrams = [it for link in [*case.links.values(), *case.sent.values()] for it in link]
    if len(datagrams) > MOST_DATAGRAMS or any(len(it) > 65_507 for it in datagrams) or sum(map(len, datagrams)) > MOST_BYTES:
        return False
    # a port serves one case at a time, and one socket of it
    named = [it for word in case.words for it in ADDRESS.findall(word.decode())]
    return len(named) == len(set(named)) and (set(named) == set(case.links) or case.status == 2)


class Ports:
    """Ports of the host that nobody has, each given once, for the program to bind."""

    def __init__(self):
        self.lock, self.next = threading.Lock(), 20_001

    def take(self):
        while True:
            with self.lock:
                port, self.next = self.next, self.next + 1
            with socket.socket(socket.AF_INET, socket.SOCK_DGRAM) as it:
                try:
                    it.bind((HOST, port))
                    return port
                except OSError:
                    pass


PORTS = Ports()


def are_bound(ports):
    with open("/proc/net/udp", encoding="ascii") as it:
        text = it.read()
    return all(f"{HOST_DIGITS}:{port:04X}" in text for port in ports)


def bring(ran, links, ports):
    """Sends each link's datagrams to its port, once all these ports are bound."""
    end = time.monotonic() + 10
    while ran.poll() is None and not are_bound([ports[at] for at in links]):
        if time.monotonic() > end:
            return
        time.sleep(0.002)
    with socket.socket(socket.AF_INET, socket.SOCK_DGRAM) as it:
        for at, datagrams in links.items():
            for k, datagram in enumerate(datagrams):
                it.sendto(datagram, (HOST, ports[at]))
                if k % 16 == 15:
                    time.sleep(0.002)


def gather(listening, got, is_ended):
    """Takes what comes, until nothing more does once the run has ended."""
    listening.settimeout(0.05)
    while True:
        ended = is_ended.is_set()
        try:
            got.append(listening.recv(65_536))
        except TimeoutError:
            if ended:
                return


def words_of(program, case, ports):
    words = [ADDRESS.sub(lambda it: f"{HOST}:{ports[it[0]]}" if it[0] in ports else it[0], word.decode()) for word in case.words]
    commands = 0 if pathlib.Path(program).name == "drmpaths" else 1
    if (commands and words[:1] not in (["receive"], ["count"], ["gate"])) or not ports:
        return words
    for at, word in enumerate(words):
        if word == "--idle":
            words[at + 1] = IDLE
            return words
        if word.startswith("--idle="):
            words[at] = f"--idle={IDLE}"
            return words
    return [*words[:commands], "--idle", IDLE, *words[commands:]]


def is_said(name, case, err):
    """Whether standard error has what the case says, and behind it what this program adds for its status."""
    err = REFUSALS.sub(b"", err)
    if not err.startswith(case.err):
        return False
    added = err[len(case.err):].splitlines(keepends=True)
    if not all(it.startswith(f"{name}: ".encode()) and it.endswith(b"\n") for it in added):
        return False
    return len(added) == 1 if case.status == WORDS else not added or case.status in FAULTS


def differences(program, case):
    """What of a run differs from what the case says."""
    targets = case.targets()
    ports = {at: PORTS.take() for at in case.links if at not in targets}
    got, is_ended = {at: [] for at in targets}, threading.Event()
    with tempfile.TemporaryDirectory() as room:
        for name, data in case.files.items():
            pathlib.Path(room, name).write_bytes(data)
        workers, sockets = [], []
        for at in targets:
            listening = socket.socket(socket.AF_INET, socket.SOCK_DGRAM)
            listening.bind((HOST, 0))
            ports[at] = listening.getsockname()[1]
            sockets.append(listening)
            workers.append(threading.Thread(target=gather, args=(listening, got[at], is_ended)))
        ran = subprocess.Popen([program, *words_of(program, case, ports)], cwd=room, stdin=subprocess.PIPE, stdout=subprocess.PIPE, stderr=subprocess.PIPE)
        if any(case.links.values()):
            workers.append(threading.Thread(target=bring, args=(ran, {at: it for at, it in case.links.items() if at not in targets}, ports)))
        for it in workers:
            it.start()
        try:
            out, err = ran.communicate(bytes(case.input), timeout=90)
        except subprocess.TimeoutExpired:
            ran.kill()
            out, err = ran.communicate()
        is_ended.set()
        for it in workers:
            it.join()
        for it in sockets:
            it.close()
    said = [f"status {ran.returncode}"] if ran.returncode != case.status else []
    said += ["out"] if out != case.out else []
    said += ["err"] if not is_said(pathlib.Path(program).name, case, err) else []
    return said + [f"sent {at}" for at in targets if got[at] != case.sent[at]]


# What is said behind a refusal of the words or a fault, by the words: the last line of standard error. Expected is what this system says.
LINES = {
    "drmcast": {
        "": "no words: a command comes first, one of fac check capacity agree serve receive count air show convert gate pack unpack texts exercise",
        "serv it": "serv: a command comes first, one of fac check capacity agree serve receive count air show convert gate pack unpack texts exercise",
        "show l.cap": "l.cap: show reads standard input: < l.cap",
        "receive l.cap": "l.cap: ADDRS: an address is four numbers and a port, as 192.0.2.7:5000; 1 to 16 of them, all different, are joined by "
                         "commas; a capture comes on standard input: < l.cap",
        "check": "check: NAME is missing: the name of a file",
        "check a b": "b: check takes no further word",
        "serve a --to 127.0.0.1:1 127.0.0.1:2": "127.0.0.1:2: serve takes no further word; several addresses, or streams, are one word, joined by commas",
        "serve a --live 0 1": "1: serve takes no further word; several addresses, or streams, are one word, joined by commas",
        "air a": "a: SCRIPT is missing: the name of a file",
        "serve a --to localhost:5000": "localhost:5000: --to: an address is four numbers and a port, as 192.0.2.7:5000; 1 to 16 of them, all "
                                       "different, are joined by commas",
        "serve a --to 127.0.0.1": "127.0.0.1: --to: an address is four numbers and a port, as 192.0.2.7:5000; 1 to 16 of them, all different, "
                                  "are joined by commas",
        "serve a --pace 10001": "10001: --pace: a number from 0 to 10000",
        "serve a --window 8": "--window: the options of serve are --to --pace --from --until --live",
        "fac --window=8": "--window=8: fac has no options",
        "serve a --pace 1 --pace 2": "--pace: this option is given twice",
        "serve a --pace": "--pace: this option has a value behind it",
        "serve a -p 1": "-p: the options of serve are --to --pace --from --until --live",
        "serve a --live 1,0": "1,0: --live: streams are numbers from 0 to 3, rising, joined by commas",
        "convert pft 2 1400": "pft: this is one word: pft:2:1400",
        "convert pft:9:1400": "pft:9:1400: CARRY: packets are carried plain, or pft:M:MTU with M 0 to 5 and MTU 128 to 1500, as pft:2:1400",
        "unpack 1 1": "1: LENGTH is missing: a number from 1 to 255",
        "check nosuch.plan": "nosuch.plan: No such file or directory (2)",
        "check .": ".: Is a directory (21)",
        "check a\nb": "a\\x0ab: No such file or directory (2)",
        "receive 203.0.113.1:5000": "203.0.113.1:5000: Cannot assign requested address (99)",
    },
    "drmpaths": {
        "": "drmpaths: ADDRS is missing: an address is four numbers and a port, as 192.0.2.7:5000; 2 to 4 of them, all different, are joined by commas",
        "127.0.0.1:5000": "127.0.0.1:5000: ADDRS: an address is four numbers and a port, as 192.0.2.7:5000; 2 to 4 of them, all different, are "
                          "joined by commas",
        "127.0.0.1:1,127.0.0.1:2 --limit 1000001": "1000001: --limit: a number from 1 to 1000000",
        "203.0.113.1:5000,203.0.113.2:5000": "203.0.113.1:5000: Cannot assign requested address (99)",
    },
}


def other_lines(program):
    """Each of the words behind which something else is said, or nothing; and a full disk and a closed stream."""
    name = pathlib.Path(program).name
    with tempfile.TemporaryDirectory() as room:
        for words, line in LINES[name].items():
            ran = subprocess.run([program, *words.split(" ")] if words else [program], cwd=room, stdin=subprocess.DEVNULL, capture_output=True, check=False)
            said = ran.stderr.decode(errors="replace").splitlines()
            if len(said) != 2 or said[1] != f"{name}: {line}":
                yield f"{name} {words}: {said}"
    if name == "drmcast":
        with open("/dev/full", "wb") as full:
            ran = subprocess.run([program, "fac"], input=bytes.fromhex("26084e0d2010a10012"), stdout=full, stderr=subprocess.PIPE, check=False)
        if ran.stderr != b"drmcast: write fault\ndrmcast: standard output: No space left on device (28)\n":
            yield f"drmcast fac > /dev/full: {ran.stderr}"
        ran = subprocess.run(["sh", "-c", '"$0" fac <&-', program], capture_output=True, check=False)
        if ran.stderr != b"drmcast: read fault\ndrmcast: standard input: Bad file descriptor (9)\n":
            yield f"drmcast fac <&-: {ran.stderr}"


def main():
    parser = command_line.parser(__doc__)
    parser.add_argument("program", metavar="PROGRAM", type=command_line.program)
    parser.add_argument("cases", metavar="CASES", nargs="+", type=command_line.file)
    options = parser.parse_args()
    program = options.program
    whole = [case for path in options.cases for case in cases_of(path)]
    cases = [case for case in whole if can_run(case)]
    with concurrent.futures.ThreadPoolExecutor(24) as pool:
        found = list(pool.map(lambda case: differences(program, case), cases))
    failed = 0
    for case, said in zip(cases, found):
        for _ in range(2):
            said = differences(program, case) if said and case.links else said
        if said:
            failed += 1
            print(f"{case.place}: {case.name}: {', '.join(said)}")
    for each in other_lines(program):
        failed += 1
        print(f"a line of standard error: {each}")
    print(f"edge: {len(cases) - failed} passed, {failed} failed, {len(whole) - len(cases)} skipped")
    sys.exit(failed > 0)


main()
