"""Two hosts in network namespaces of their own, one link apart, and what a report and standard error say of what crossed it."""
import concurrent.futures
import contextlib
import ctypes
import datetime
import itertools
import os
import re
import socket
import subprocess
import time

FRAMES = 150
HERE, THERE = "10.77.0.1", "10.77.0.2"
REFUSED = re.compile(r"drmcast: (?P<at>[\d.:]+): refused since (?P<since>\d{4}-\d\d-\d\dT\d\d:\d\d:\d\dZ): (?P<reason>[^()]+) \(\d+\)")
ACCEPTED = re.compile(r"drmcast: (?P<at>[\d.:]+): accepted again, (?P<lost>\d+) datagrams lost")
# what Linux has and Python's module doesn't name
CLONE_NEWNET = 0x40000000
NUMBERS = itertools.count()


class Network:
    """Two namespaces with an address each, one link apart."""

    def __init__(self):
        name = f"edge{os.getpid()}-{next(NUMBERS)}"
        self.here, self.there = f"{name}-here", f"{name}-there"

    def __enter__(self):
        for name in (self.here, self.there):
            subprocess.run(["ip", "netns", "add", name], check=True)
        self.runs(self.here, f"ip link add here type veth peer name there netns {self.there}")
        for name, device, at in ((self.here, "here", HERE), (self.there, "there", THERE)):
            self.runs(name, f"ip address add {at}/30 dev {device}")
            self.runs(name, f"ip link set {device} up")
            self.runs(name, "ip link set lo up")
        time.sleep(0.2)
        return self

    def __exit__(self, *_):
        for name in (self.here, self.there):
            subprocess.run(["ip", "netns", "del", name], check=False)

    def runs(self, name, command):
        words = command.split() if isinstance(command, str) else command
        subprocess.run(["ip", "netns", "exec", name, *words], check=True)

    @contextlib.contextmanager
    def reports(self, name, *words):
        """A program in a namespace, and all that it will have printed, which is read meanwhile: a full pipe would halt it."""
        with self.starts(name, *words) as run, concurrent.futures.ThreadPoolExecutor(1) as reader:
            waits_for_socket(run)
            yield reader.submit(run.stdout.read)

    @contextlib.contextmanager
    def starts(self, name, *words):
        """A program in a namespace, which is gone afterwards."""
        with subprocess.Popen(["ip", "netns", "exec", name, *words], stdout=subprocess.PIPE, stderr=subprocess.PIPE, text=True) as run:
            try:
                yield run
            finally:
                run.kill()


def waits_for_socket(run):
    """Until a program has bound port 5000 or 5001, for ten seconds. Before it has entered its namespace it has other sockets."""
    for _ in range(100):
        with open(f"/proc/{run.pid}/net/udp", encoding="ascii") as it:
            if re.search(r":138[89] ", it.read()):
                return
        time.sleep(0.1)


def sockets_in(name, addresses):
    """Sockets that receive at addresses of a namespace, made by a thread that has entered it."""
    def make():
        with open(f"/run/netns/{name}", encoding="ascii") as it:
            if ctypes.CDLL(None, use_errno=True).setns(it.fileno(), CLONE_NEWNET):
                raise OSError(ctypes.get_errno(), "setns")
        made = []
        for at in addresses:
            made.append(socket.socket(socket.AF_INET, socket.SOCK_DGRAM))
            made[-1].setsockopt(socket.SOL_SOCKET, socket.SO_RCVBUF, 1 << 22)
            made[-1].bind(at)
        return made
    with concurrent.futures.ThreadPoolExecutor(1) as pool:
        return pool.submit(make).result()


def joins(net, name, device, group):
    """Has the kernel of a namespace join a group, as docs/OPERATION.md says."""
    net.runs(name, f"ip address add {group}/32 dev {device} autojoin")


def missing_of(report):
    """The numbers of the frames that a report misses."""
    return [int(it) for it in re.findall(r"^missing (\d+)", report, re.MULTILINE)]


def complaints_of(report, frames=FRAMES):
    """What is wrong with a report of frames of which one stretch is lost, and the others came in time."""
    end = re.search(r"^end (\w+) given (\d+) missing (\d+) bad 0 refused 0$", report, re.MULTILINE)
    if end is None:
        return [f"the report ends with {report.splitlines()[-1:]}"]
    given, missing = int(end[2]), int(end[3])
    lost = missing_of(report)
    said = [] if given + missing == frames else [f"{given} given and {missing} missing of {frames}"]
    said += [] if lost and lost == list(range(lost[0], lost[-1] + 1)) else [f"lost were {lost}"]
    return said + ([] if lost and lost[-1] < frames - 10 else ["nothing came once it was mended"])


def complaints_of_lines(text, at, lost):
    """What is wrong with lines that say that sends to an address were refused, and are accepted again, so many datagrams later."""
    refused = [it for it in map(REFUSED.fullmatch, text.splitlines()) if it]
    accepted = [it for it in map(ACCEPTED.fullmatch, text.splitlines()) if it]
    if len(text.splitlines()) != 2 or [len(refused), len(accepted)] != [1, 1]:
        return [f"standard error has {text.splitlines()}"]
    said = [] if refused[0]["at"] == accepted[0]["at"] == at else [f"the lines name {refused[0]['at']} and {accepted[0]['at']}"]
    return said + ([] if int(accepted[0]["lost"]) == lost else [f"{accepted[0]['lost']} lost by the line, {lost} by the report"])


def seconds_ago(line):
    """How long ago the moment in a line was."""
    since = datetime.datetime.fromisoformat(REFUSED.fullmatch(line)["since"].replace("Z", "+00:00"))
    return (datetime.datetime.now(datetime.timezone.utc) - since).total_seconds()
