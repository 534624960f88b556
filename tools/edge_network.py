#!/usr/bin/env python3
"""Runs the built program where the network and the streams fail for a while, as no contract can say.

    sudo tools/edge_network.py PROGRAM

A server, a gateway and a receiver go on while a route, an address or an interface is gone or a packet filter drops what is sent, for half
a second or for more than a minute, and say on standard error when that began and when it ended; a modulator whose route comes late is
served from then on, and one whose line is stuck keeps fifteen others from no moment; a single address that is wrong from the beginning
ends the run at once. A group's address is sent to and received at where the kernel joins it (docs/OPERATION.md, "By multicast"). After a halt a server's
frames go out at most four times as fast as the pace until they are on time; streams that don't block are waited for. What needs a network is tried in network namespaces of its own, which want root, `ip` and `tc` (iproute2) and
`nft` (nftables), and is skipped where one of these isn't there. It takes about 90 seconds, most of them a network that is down for 66;
--quick leaves that out. Status 1 where one of the trials fails.
"""
import concurrent.futures
import contextlib
import fcntl
import itertools
import os
import selectors
import shutil
import signal
import socket
import subprocess
import sys
import tempfile
import threading
import time

import command_line
import pace
from networks import ACCEPTED, FRAMES, HERE, REFUSED, THERE, Network, complaints_of, complaints_of_lines, joins, missing_of, seconds_ago
from networks import sockets_in, waits_for_socket

PACE = 20
# a second address of the receiver's, to which no route leads at first
LATE = "10.99.0.1"
# groups of multicast
GROUP, OTHER_GROUP = "239.1.2.3", "239.1.2.4"
# the ends of a link of its own, which is stuck
NEAR, STUCK = "10.78.0.1", "10.78.0.2"
ROUTE = f"{THERE}/32"
FILTER = "add table ip edge; add chain ip edge out { type filter hook output priority 0; }; add rule ip edge out ip daddr " + f"{THERE} drop"
# what breaks, by which commands in the server's namespace, and what mends it
TROUBLES = {
    "the routes are flushed": (["ip route flush table main"], [f"ip route add 10.77.0.0/30 dev here src {HERE}"]),
    "a route prohibits": ([f"ip route add prohibit {ROUTE}"], [f"ip route del prohibit {ROUTE}"]),
    "a route is unreachable": ([f"ip route add unreachable {ROUTE}"], [f"ip route del unreachable {ROUTE}"]),
    "a route is a black hole": ([f"ip route add blackhole {ROUTE}"], [f"ip route del blackhole {ROUTE}"]),
    "the interface is down": (["ip link set here down"], ["ip link set here up"]),
    "the address is gone": ([f"ip address del {HERE}/30 dev here"], [f"ip address add {HERE}/30 dev here"]),
    "a packet filter drops": ([["nft", FILTER]], ["nft delete table ip edge"]),
}
# more of them would keep one another from their moments
SIDE_BY_SIDE = 4
SECONDS_DOWN = 66
# what Linux has and Python's modules don't name
IP_RECVTTL = 12


def plan_of(folder, frames=FRAMES):
    return pace.plain_plan(folder, frames)


def serves(program, plan, to, millis=PACE):
    return [program, "serve", plan, "--to", to, "--pace", str(millis)]


def sends_through(program, folder, breaks, mends, gateway=False, receiver=False):
    """A server goes on while its network is gone for half a second; so does a gateway, and a receiver whose network is gone."""
    plan = plan_of(folder)
    with Network() as net, contextlib.ExitStack() as runs:
        # the receiver's interface is the server's other end
        report = runs.enter_context(net.starts(net.there, program, "receive", f"{THERE}:5000", "--first", "0", "--frames", str(FRAMES), "--idle", "30"))
        to, ended = f"{THERE}:5000", []
        if gateway:
            to = f"{HERE}:5001"
            ended.append(runs.enter_context(net.starts(net.here, program, "gate", to, f"{THERE}:5000", "plain", "--first", "0", "--frames", str(FRAMES), "--idle", "30")))
        for run in (report, *ended):
            waits_for_socket(run)
        ended.append(runs.enter_context(net.starts(net.here, *serves(program, plan, to))))
        lines = list(itertools.islice(report.stdout, 20))
        for command in breaks:
            net.runs(net.there if receiver else net.here, command)
        time.sleep(0.5)
        for command in mends:
            net.runs(net.there if receiver else net.here, command)
        text = "".join([*lines, *report.stdout])
        said = [f"status {run.returncode}" for run in ended if run.wait(30)]
        if not receiver:
            said += complaints_of_lines(ended[0].stderr.read(), f"{THERE}:5000", len(missing_of(text)))
    return said + complaints_of(text)


def fails_at_once(program, folder):
    """A single address to which there is no route is a fault at the first send."""
    with Network() as net, net.starts(net.here, *serves(program, plan_of(folder), f"{LATE}:5000")) as run:
        start = time.monotonic()
        status, lines = run.wait(30), run.stderr.read()
        wanted = f"drmcast: link fault\ndrmcast: {LATE}:5000: Network is unreachable (101)\n"
        return ([] if status == 6 else [f"status {status}"]) + ([] if time.monotonic() - start < 5 else ["late"]) + ([] if lines == wanted else [lines])


def is_down_for_long(program, folder):
    """A gateway's modulator whose network is down for more than a minute is served again when it is back; the monitor beside it misses nothing."""
    millis = 200
    frames = (SECONDS_DOWN + 14) * 1000 // millis // 3 * 3
    receives = [program, "receive", "--first", "0", "--frames", str(frames), "--idle", "900"]
    with Network() as net, contextlib.ExitStack() as runs:
        modulator = runs.enter_context(net.starts(net.there, *receives, f"{THERE}:5000"))
        monitor = runs.enter_context(net.reports(net.here, *receives, "127.0.0.1:5001"))
        gate = runs.enter_context(net.starts(net.here, program, "gate", f"{HERE}:5001", f"{THERE}:5000,127.0.0.1:5001", "plain",
                                             "--first", "0", "--frames", str(frames), "--idle", "900"))
        for run in (modulator, gate):
            waits_for_socket(run)
        server = runs.enter_context(net.starts(net.here, *serves(program, plan_of(folder, frames), f"{HERE}:5001", millis)))
        seen = list(itertools.islice(modulator.stdout, 10))
        net.runs(net.here, "ip link set here down")
        first = gate.stderr.readline()
        said = [] if seconds_ago(first.strip()) < 2 else [f"late: {first}"]
        time.sleep(SECONDS_DOWN)
        net.runs(net.here, "ip link set here up")
        text, whole = "".join([*seen, *modulator.stdout]), monitor.result()
        said += [f"status {run.returncode}" for run in (server, gate) if run.wait(30)]
        said += complaints_of_lines(first + gate.stderr.read(), f"{THERE}:5000", len(missing_of(text)))
        said += [] if f"end frames given {frames} missing 0 bad 0 refused 0" in whole else [f"the monitor: {whole.splitlines()[-1:]}"]
    return said + complaints_of(text, frames)


def route_comes_late(program, folder):
    """Of two modulators one has a route from the second second on: it is served from then on, the other all along."""
    receives = [program, "receive", "--first", "0", "--frames", str(FRAMES), "--idle", "50"]
    with Network() as net, contextlib.ExitStack() as runs:
        net.runs(net.there, f"ip address add {LATE}/32 dev there")
        early = runs.enter_context(net.reports(net.there, *receives, f"{THERE}:5000"))
        late = runs.enter_context(net.reports(net.there, *receives, f"{LATE}:5000"))
        server = runs.enter_context(net.starts(net.here, *serves(program, plan_of(folder), f"{THERE}:5000,{LATE}:5000")))
        time.sleep(1)
        net.runs(net.here, f"ip route add {LATE}/32 via {THERE}")
        text, whole = late.result(), early.result()
        said = [f"status {server.returncode}"] if server.wait(30) else []
        said += complaints_of_lines(server.stderr.read(), f"{LATE}:5000", len(missing_of(text)))
        said += [] if f"end frames given {FRAMES} missing 0 bad 0 refused 0" in whole else [f"the first modulator: {whole.splitlines()[-1:]}"]
    return said + complaints_of(text)


def tells_the_end(program, folder):
    """Of a network that is away for three seconds the end is told ten seconds behind the beginning, while the server goes on."""
    frames, millis = 300, 50
    with Network() as net, contextlib.ExitStack() as runs:
        server = runs.enter_context(net.starts(net.here, *serves(program, plan_of(folder, frames), f"{THERE}:5000", millis)))
        time.sleep(1)
        net.runs(net.here, f"ip route add prohibit {ROUTE}")
        first = server.stderr.readline()
        began = time.monotonic()
        time.sleep(3)
        net.runs(net.here, f"ip route del prohibit {ROUTE}")
        second = server.stderr.readline()
        passed, goes_on = time.monotonic() - began, server.poll() is None
        said = [] if REFUSED.fullmatch(first.strip()) and ACCEPTED.fullmatch(second.strip()) else [f"standard error has {first!r} and {second!r}"]
        said += [] if 9.5 < passed < 11 and goes_on else [f"after {passed:.1f} seconds"]
        status, rest = server.wait(30), server.stderr.read()
    return said + ([] if status == 0 else [f"status {status}"]) + ([] if not rest else [f"and {rest!r}"])


# Four streams of so many bytes make 169 fragments of 256 bytes.
WIDE_PLAN = """drmplan 2
carry pft 1 256
first 0 0
length {length}
config 0 0
mode B
occupancy 3
depth long
msc 0
sdc 0
protection 0 1
room 76
service e0d201 0 0 5 audio 0 0
stream 4060 4080 fill 00
stream 4060 4080 fill 00
stream 4060 4080 fill 00
stream 4060 4080 fill 00
block 0
audio 0 0 0 1 0 3 0 0 0
"""


def first_moments(sockets, frames):
    """When the first fragment of each frame came, by socket; until every frame has, or nothing more comes for five seconds."""
    moments = {it: {} for it in sockets}
    with selectors.DefaultSelector() as chosen:
        for it in sockets:
            chosen.register(it, selectors.EVENT_READ)
        while any(len(it) < frames for it in moments.values()):
            ready = chosen.select(5)
            if not ready:
                break
            now = time.monotonic()
            for key, _ in ready:
                number = int.from_bytes(key.fileobj.recv(65_536)[2:4], "big")
                moments[key.fileobj].setdefault(number, now)
    return list(moments.values())


def one_is_stuck(program, folder):
    """Of sixteen modulators one has a line that takes nothing: the fifteen others get each frame of 169 fragments at its moment."""
    frames, millis = 30, 200
    name = os.path.join(folder, "wide.plan")
    with open(name, "w", encoding="utf-8") as plan:
        plan.write(WIDE_PLAN.format(length=frames // 3))
    with Network() as net, contextlib.ExitStack() as runs:
        net.runs(net.here, f"ip link add near type veth peer name stuck netns {net.there}")
        for space, device, at in ((net.here, "near", NEAR), (net.there, "stuck", STUCK)):
            net.runs(space, f"ip address add {at}/30 dev {device}")
            net.runs(space, f"ip link set {device} up")
        net.runs(net.here, "tc qdisc add dev near root tbf rate 8bit burst 1600 limit 100000000")
        addresses = [(THERE, 5000 + k) for k in range(15)]
        sockets = [runs.enter_context(it) for it in sockets_in(net.there, addresses)]
        words = [f"{ip}:{port}" for ip, port in [*addresses[:7], (STUCK, 5000), *addresses[7:]]]
        server = runs.enter_context(net.starts(net.here, *serves(program, name, ",".join(words), millis)))
        moments = first_moments(sockets, frames)
        status, lines = server.wait(30), server.stderr.read().splitlines()
    said = [] if status == 0 else [f"status {status}"]
    said += [] if all(len(it) == frames for it in moments) else [f"frames {[len(it) for it in moments]}"]
    off = max((abs(it[k] - it[0] - k * millis / 1000) for it in moments for k in it if 0 in it), default=0)
    said += [] if off < 0.1 else [f"{off * 1000:.0f} ms off"]
    refused = [it for it in map(REFUSED.fullmatch, lines) if it]
    return said + ([] if refused and all(it["at"] == f"{STUCK}:5000" for it in refused) else [f"standard error has {lines}"])


def goes_to_a_group(program, folder, gateway=False):
    """A group's address is received at, and sent to over a route, with a gateway between two groups too; the membership survives that the interface is down."""
    receives = [program, "receive", f"{OTHER_GROUP if gateway else GROUP}:5000", "--first", "0", "--frames", str(FRAMES), "--idle", "50"]
    with Network() as net, contextlib.ExitStack() as runs:
        net.runs(net.here, "ip route add 239.0.0.0/8 dev here")
        net.runs(net.there, "ip route add 239.0.0.0/8 dev there")
        joins(net, net.there, "there", GROUP)
        at = net.there
        if gateway:
            joins(net, net.here, "here", OTHER_GROUP)
            gate = runs.enter_context(net.starts(net.there, program, "gate", f"{GROUP}:5000", f"{OTHER_GROUP}:5000", "pft:1:1400",
                                                 "--first", "0", "--frames", str(FRAMES), "--idle", "50"))
            waits_for_socket(gate)
            at = net.here
        modulator = runs.enter_context(net.starts(at, *receives))
        waits_for_socket(modulator)
        server = runs.enter_context(net.starts(net.here, *serves(program, plan_of(folder), f"{GROUP}:5000")))
        if gateway:
            whole = modulator.stdout.read()
            said = [] if f"end frames given {FRAMES} missing 0 bad 0 refused 0" in whole else [f"{whole.splitlines()[-1:]}"]
        else:
            seen = list(itertools.islice(modulator.stdout, 20))
            for state in ("down", "up"):
                net.runs(net.there, f"ip link set there {state}")
                time.sleep(0.3)
            said = complaints_of("".join([*seen, *modulator.stdout]))
        return said + ([f"status {server.returncode}"] if server.wait(30) else [])


def hears_no_group(program, folder):
    """Without membership a receiver has no frame and status 0; a second receiver of one group and port on one host is a link fault."""
    receives = [program, "receive", f"{GROUP}:5000", "--first", "0"]
    with Network() as net, contextlib.ExitStack() as runs:
        net.runs(net.here, "ip route add 239.0.0.0/8 dev here")
        first = runs.enter_context(net.starts(net.there, *receives, "--idle", "20"))
        waits_for_socket(first)
        second = runs.enter_context(net.starts(net.there, *receives))
        said = [f"the second one: status {second.returncode}"] if second.wait(30) != 6 else []
        lines = second.stderr.read()
        said += [] if lines == f"drmcast: link fault\ndrmcast: {GROUP}:5000: Address already in use (98)\n" else [lines]
        server = runs.enter_context(net.starts(net.here, *serves(program, plan_of(folder, 30), f"{GROUP}:5000")))
        text = first.stdout.read()
        said += [] if text.endswith("end idle given 0 missing 0 bad 0 refused 0\n") else [text]
        return said + [f"status {run.returncode}" for run in (first, server) if run.wait(30)]


def has_time_to_live(program, folder):
    """What goes to a group has a time to live of 1, and of 16 by a packet filter."""
    chain = "add table ip drmcast; add chain ip drmcast out { type filter hook output priority mangle; }; add rule ip drmcast out ip daddr 239.0.0.0/8 ip ttl set 16"
    said = []
    with Network() as net:
        net.runs(net.here, "ip route add 239.0.0.0/8 dev here")
        joins(net, net.there, "there", GROUP)
        [into] = sockets_in(net.there, [(GROUP, 5000)])
        with into:
            into.settimeout(10)
            into.setsockopt(socket.IPPROTO_IP, IP_RECVTTL, 1)
            for wanted in (1, 16):
                with net.starts(net.here, *serves(program, plan_of(folder, 3), f"{GROUP}:5000")):
                    _, about, _, _ = into.recvmsg(65_536, 1024)
                lives = [int.from_bytes(data[:4], sys.byteorder) for _, kind, data in about if kind == socket.IP_TTL]
                said += [] if lives == [wanted] else [f"a time to live of {lives}, not {wanted}"]
                if wanted == 1:
                    net.runs(net.here, ["nft", chain])
    return said


def catches_up(program, folder):
    """After a halt of two seconds frames go out at most four times as fast as the pace, and are on time in the end."""
    millis, frames = 40, 150
    with socket.socket(socket.AF_INET, socket.SOCK_DGRAM) as into:
        into.bind(("127.0.0.1", 0))
        into.settimeout(10)
        with subprocess.Popen(serves(program, plan_of(folder, frames), f"127.0.0.1:{into.getsockname()[1]}", millis)) as run:
            halts = threading.Thread(target=halt, args=(run, 1, 2))
            halts.start()
            try:
                moments = [came_at(into) for _ in range(frames)]
            finally:
                halts.join()
                run.kill()
    # the frame at which the halt came may be followed at once, and a busy machine may bring one late
    quick = min((after - before) * 1000 for before, after in zip(moments, moments[10:]))
    late = (moments[-1] - moments[0]) * 1000 - millis * (frames - 1)
    return ([] if quick > 8 * millis / 4 else [f"ten frames in {quick:.1f} ms"]) + ([] if abs(late) < millis else [f"{late:.0f} ms late in the end"])


def came_at(into):
    into.recv(65_536)
    return time.monotonic()


def halt(run, after, seconds):
    time.sleep(after)
    run.send_signal(signal.SIGSTOP)
    time.sleep(seconds)
    run.send_signal(signal.SIGCONT)


def never_blocks(descriptor):
    fcntl.fcntl(descriptor, fcntl.F_SETFL, fcntl.fcntl(descriptor, fcntl.F_GETFL) | os.O_NONBLOCK)


def waits_to_write(program, folder):
    """A pipe that is full and doesn't block is waited for."""
    words = [program, "serve", plan_of(folder, 3000)]
    wanted = subprocess.run(words, stdout=subprocess.PIPE, check=True).stdout
    read, write = os.pipe()
    never_blocks(write)
    with subprocess.Popen(words, stdout=write) as run, open(read, "rb", buffering=0) as pipe:
        os.close(write)
        time.sleep(0.5)
        got = b"".join(iter(lambda: pipe.read(4096), b""))
    return ([] if run.returncode == 0 else [f"status {run.returncode}"]) + ([] if got == wanted else [f"{len(got)} bytes of {len(wanted)}"])


def waits_to_read(program, folder):
    """A pipe that is empty and doesn't block is waited for."""
    capture = subprocess.run([program, "serve", plan_of(folder)], stdout=subprocess.PIPE, check=True).stdout
    wanted = subprocess.run([program, "receive"], input=capture, stdout=subprocess.PIPE, check=True).stdout
    read, write = os.pipe()
    never_blocks(read)
    with open(os.path.join(folder, "report"), "w+b") as report:
        with subprocess.Popen([program, "receive"], stdin=read, stdout=report) as run, open(write, "wb", buffering=0) as pipe:
            os.close(read)
            time.sleep(0.5)
            with contextlib.suppress(BrokenPipeError):
                for at in range(0, len(capture), 5000):
                    time.sleep(0.05)
                    pipe.write(capture[at:at + 5000])
        report.seek(0)
        got = report.read()
    return ([] if run.returncode == 0 else [f"status {run.returncode}"]) + ([] if got == wanted else ["another report"])


def trials(program, quick):
    """Each trial by its name; None where it can't be run."""
    can = os.geteuid() == 0 and all(map(shutil.which, ("ip", "tc", "nft")))
    def network(trial, *words, **options):
        return (lambda folder: trial(program, folder, *words, **options)) if can else None
    for name, (breaks, mends) in TROUBLES.items():
        yield f"serve, {name}", network(sends_through, breaks, mends)
    yield "gate, a route prohibits", network(sends_through, *TROUBLES["a route prohibits"], gateway=True)
    yield "receive, the interface is down", network(sends_through, ["ip link set there down"], ["ip link set there up"], receiver=True)
    yield "serve, no route from the beginning", network(fails_at_once)
    yield "serve, a route that comes late", network(route_comes_late)
    yield "serve, away for three seconds", network(tells_the_end)
    yield "serve, one of sixteen links is stuck", network(one_is_stuck)
    yield "multicast, the interface is down", network(goes_to_a_group)
    yield "multicast, a gateway", network(goes_to_a_group, gateway=True)
    yield "multicast, no membership", network(hears_no_group)
    yield "multicast, the time to live", network(has_time_to_live)
    if not quick:
        yield f"gate, down for {SECONDS_DOWN} seconds", network(is_down_for_long)
    yield "serve, a halt", lambda folder: catches_up(program, folder)
    yield "standard output doesn't block", lambda folder: waits_to_write(program, folder)
    yield "standard input doesn't block", lambda folder: waits_to_read(program, folder)


def tried(trial):
    with tempfile.TemporaryDirectory() as folder:
        try:
            return trial(folder)
        except (OSError, subprocess.SubprocessError) as fault:
            return [str(fault)]


def main():
    parser = command_line.parser(__doc__)
    parser.add_argument("program", metavar="PROGRAM", type=command_line.program)
    parser.add_argument("--quick", action="store_true", help="without the trial that takes a minute")
    options = parser.parse_args()
    every = list(trials(options.program, options.quick))
    wanted = [(name, trial) for name, trial in every if trial]
    with concurrent.futures.ThreadPoolExecutor(SIDE_BY_SIDE) as pool:
        answers = list(pool.map(tried, [trial for _, trial in wanted]))
    for (name, _), said in zip(wanted, answers):
        if said:
            print(f"{name}: {', '.join(said)}")
    for name, trial in every:
        if trial is None:
            print(f"{name}: skipped, since it needs root, ip, tc and nft")
    failed = sum(map(bool, answers))
    print(f"edge_network: {len(wanted) - failed} passed, {failed} failed, {len(every) - len(wanted)} skipped")
    sys.exit(failed > 0)


if __name__ == "__main__":
    main()
