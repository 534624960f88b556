"""What the scripts here share of a command line: its words, its end, and files that are written whole. A wrong word gets a plain complaint."""
import argparse
import contextlib
import errno
import os
import select
import shutil
import signal
import stat
import sys
import time

SIGNALLED = 128
NO_ROOM = (errno.ENOSPC, errno.EDQUOT, errno.EFBIG, errno.EIO)


def parser(description):
    """A parser whose help is this text as it stands."""
    return argparse.ArgumentParser(description=description, formatter_class=argparse.RawDescriptionHelpFormatter)


def program(word):
    """The path of a program, which is also looked for where programs are."""
    found = shutil.which(word)
    if found is None:
        raise argparse.ArgumentTypeError(f"{word} is no program")
    return os.path.abspath(found)


def file(word):
    """The name of a file that can be read."""
    if not os.path.isfile(word) or not os.access(word, os.R_OK):
        raise argparse.ArgumentTypeError(f"{word} is no file that can be read")
    return word


def number(least, most):
    """A number within these bounds, of digits alone."""
    def of(word):
        if not (word.isascii() and word.isdigit()) or not least <= int(word) <= most:
            raise argparse.ArgumentTypeError(f"{word} is no number from {least} to {most}")
        return int(word)
    return of


def address(word):
    """A host and a port."""
    host, _, port = word.rpartition(":")
    if not host or not (port.isascii() and port.isdigit()) or not 1 <= int(port) <= 65535:
        raise argparse.ArgumentTypeError(f"{word} is no address as 127.0.0.1:5000")
    return host, int(port)


def text(path):
    """What is in a file of text; a plain complaint ends the script if it isn't UTF-8."""
    with open(path, encoding="utf-8") as opened:
        try:
            return opened.read()
        except UnicodeDecodeError as fault:
            complain(f"{path}: {fault}")
            sys.exit(1)


def complain(message):
    """A line on standard error that names the script."""
    with contextlib.suppress(OSError):
        print(f"{os.path.basename(sys.argv[0])}: {message}", file=sys.stderr, flush=True)


def reason(fault):
    """What the system says is wrong, and with what. A disk without room for standard output comes without a name."""
    name = fault.filename or ("standard output" if fault.errno in NO_ROOM else None)
    said = fault.strerror or str(fault)
    return f"{name}: {said}" if name else said


def ending(main, refused):
    """Calls `main`, and gives the status with which the script ends, or the text of its complaint."""
    try:
        return main()
    except SystemExit as end:
        return end.code
    except KeyboardInterrupt:
        return SIGNALLED + signal.SIGINT
    except BrokenPipeError:
        return SIGNALLED + signal.SIGPIPE
    except OSError as fault:
        complain(reason(fault))
        return refused


def run(main, refused=1):
    """Runs a script. Ctrl-C, TERM, a reader that has gone, and what the system refuses end it without a traceback.

    Its status is what `main` gives; 130 and 143 after Ctrl-C and TERM, and 141 if nobody reads its output any more, as a shell
    says them; and `refused` with a complaint after any other refusal.
    """
    signal.signal(signal.SIGTERM, lambda signalled, _: sys.exit(SIGNALLED + signalled))
    sys.stdin = sys.stdin or open(os.devnull, encoding="ascii")
    sys.stderr = sys.stderr or open(os.devnull, "w", encoding="ascii")
    if sys.stdout is None:
        complain("standard output is closed")
        sys.exit(refused)
    # A name that the system's letters don't have is printed by its bytes.
    sys.stdout.reconfigure(errors="backslashreplace")
    status = ending(main, refused)
    if isinstance(status, str):
        with contextlib.suppress(OSError):
            print(status, file=sys.stderr, flush=True)
        status = refused
    flushed = ending(sys.stdout.flush, refused)
    if flushed:
        # Python tries once more as it ends; then the rest goes nowhere.
        os.dup2(os.open(os.devnull, os.O_WRONLY), sys.stdout.fileno())
    sys.exit(status or flushed)


def status_of(ran):
    """The status of a program that has ended, as a shell has it: a signal is 128 and its number."""
    return ran.returncode if ran.returncode >= 0 else SIGNALLED - ran.returncode


class Stop:
    """A wish to end, by Ctrl-C or TERM, that is waited for beside what a script reads; so it ends with its work done and counted.

    What has come by then can still be read, for a second at the most. Whoever repeats the wish ends the script at once.
    """

    GRACE_SECONDS = 1.0

    def __init__(self):
        self.asked = False
        self.until = None
        self.readable, written = os.pipe()
        os.set_blocking(written, False)
        signal.set_wakeup_fd(written, warn_on_full_buffer=False)
        for each in (signal.SIGINT, signal.SIGTERM):
            signal.signal(each, self.note)

    def note(self, signalled, _):
        self.asked, self.until = True, time.monotonic() + self.GRACE_SECONDS
        signal.signal(signalled, signal.SIG_DFL)

    def waits(self, source, seconds):
        """Waits so long at most for something to read there (None waits for the wish alone); gives whether there is something."""
        until = None if seconds is None else time.monotonic() + seconds
        watched = [self.readable] if source is None else [self.readable, source]
        while not self.asked:
            left = None if until is None else max(0.0, until - time.monotonic())
            ready, _, _ = select.select(watched, [], [], left)
            if source in ready:
                return True
            if self.readable in ready:
                os.read(self.readable, 4096)
            elif not ready:
                return False
        return source is not None and bool(select.select([source], [], [], 0)[0]) and time.monotonic() < self.until


@contextlib.contextmanager
def written_whole(path):
    """A file to write bytes to, which takes its place under this name once all is written; until then the one before it stays.

    What is no usual file, as a pipe or a device, is written as it is.
    """
    try:
        usual = stat.S_ISREG(os.stat(path).st_mode)
    except FileNotFoundError:
        usual = True
    if not usual:
        with open(path, "wb") as out:
            yield out
        return
    new = f"{path}.{os.getpid()}.new"
    try:
        with open(new, "wb") as out:
            yield out
        os.replace(new, path)
    except BaseException as fault:
        with contextlib.suppress(OSError):
            os.unlink(new)
        if isinstance(fault, OSError) and fault.filename in (None, new):
            raise type(fault)(fault.errno, fault.strerror, path) from None
        raise
