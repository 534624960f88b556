"""Runs the scripts as processes, as whoever uses them does: what the tests here share."""
import pathlib
import signal
import socket
import subprocess
import sys
import time

TOOLS = pathlib.Path(__file__).resolve().parent.parent
TOP = TOOLS.parent
sys.path.insert(0, str(TOOLS))
WAIT_SECONDS = 20

FAC = "6608ce0d2010a100ec"


def frame(place, count, content="55555555"):
    """The line of a frame in a report."""
    return f"frame {place} dlfc {count} mode B fac {FAC} sdc - mux 01000004 msc {content}"


def report(*lines, reason="input", refused=0):
    """A report with these lines of items and what stands before them."""
    given, missing, bad = (sum(line.startswith(kind) for line in lines) for kind in ("frame ", "missing ", "bad "))
    return "\n".join(["feed 1", *lines, f"end {reason} given {given} missing {missing} bad {bad} refused {refused}", ""])


def words(script, *rest):
    return [sys.executable, str(TOOLS / script), *map(str, rest)]


def run(script, *rest, given="", **options):
    """A script's whole run: its status, and what it wrote to standard output and standard error."""
    options.setdefault("stdout", subprocess.PIPE)
    ran = subprocess.run(words(script, *rest), input=given.encode() if isinstance(given, str) else given, stderr=subprocess.PIPE,
                         timeout=WAIT_SECONDS, check=False, **options)
    return ran.returncode, (ran.stdout or b"").decode(errors="replace"), ran.stderr.decode(errors="replace")


def start(script, *rest, **options):
    """A script that goes on running, with pipes to it and from it."""
    return subprocess.Popen(words(script, *rest), stdin=subprocess.PIPE, stdout=subprocess.PIPE, stderr=subprocess.PIPE, **options)


def stop(running, signalled=signal.SIGTERM):
    """Sends a signal to a script; gives its status and what it wrote."""
    running.send_signal(signalled)
    out, err = running.communicate(timeout=WAIT_SECONDS)
    return running.returncode, out, err.decode(errors="replace")


def until(holds, what="what is waited for"):
    """Waits until this holds."""
    end = time.monotonic() + WAIT_SECONDS
    while not holds():
        if time.monotonic() > end:
            raise AssertionError(f"{what} didn't come")
        time.sleep(0.02)


def free_port():
    with socket.socket(socket.AF_INET, socket.SOCK_DGRAM) as taken:
        taken.bind(("127.0.0.1", 0))
        return taken.getsockname()[1]


def is_bound(port):
    """Whether somebody listens at this port of the loopback."""
    return f"0100007F:{port:04X}" in pathlib.Path("/proc/net/udp").read_text(encoding="ascii")


def fragment(sequence, payload=b"twelve bytes"):
    """The one fragment of a packet, without a code."""
    import datagrams
    head = b"PF" + sequence.to_bytes(2, "big") + (0).to_bytes(3, "big") + (1).to_bytes(3, "big") + len(payload).to_bytes(2, "big")
    return head + datagrams.check_value(head) + payload
