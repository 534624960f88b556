#!/usr/bin/env python3
"""Puts the bytes of several encoders into one pipe, frame by frame, as `drmcast serve --live` reads them.

    mkfifo nord.fifo sued.fifo
    interleave.py 0:484:nord.fifo 1:560:sued.fifo | drmcast serve station.plan --live 0,1 --to 192.0.2.7:5000 --pace 400

    interleave.py --schedule station.plan 0:nord.fifo 1:sued.fifo | drmcast serve station.plan --live 0,1 --to 192.0.2.7:5000 --pace 400

Each word is a stream of the schedule, how many bytes it has in a frame (both its parts), and the FIFO or file that they come from. With
--schedule the bytes are those that `drmcast check` says, and with --list those of the schedules in a list of `playout.py`; then they need not
be given, and if they are given and are others, or aren't the same everywhere, that is named, and nothing is written: the server would take
other bytes for each stream than its own. A frame has one piece of each, in the order of the streams' numbers, and is written when all of them
have come.

An encoder that stops doesn't stop the others. If a piece isn't whole a second (--late) after the first one of its frame, another one is
written in its place: a byte again and again (--fill), or the next piece of a file (--fill-file), whose bytes are used from its
beginning again after its end. Until this stream has a whole piece again, it isn't waited for. If all encoders stop, nothing is
written, and the server waits; with --pace a frame is begun so long after the one before it, whether anything came or not. The
first frame is begun when a first whole piece of any stream has come; until then nothing is written.

A piece is written whole or not at all. If a part of one had come when it was replaced, the rest is dropped as it comes, so the next piece
begins where the encoder began it. That one, and those behind it, are kept until they are whole. When an encoder closes its FIFO, what
it left of a piece is dropped too; whoever opens the FIFO next begins a piece.

It ends after --frames, by Ctrl-C or TERM, if nobody reads any more, or when all bytes come from files and all of these have ended.
Which streams are replaced, from which frame on, is said on standard error, and at the end how many frames were written. The status
is 7 if a piece was replaced, or 141 if nobody reads any more; and 3, or that of `drmcast check`, if the schedules are wrong or the streams aren't theirs.
"""
import argparse
import itertools
import os
import re
import select
import stat
import sys
import time

import command_line
import playlists
import schedules

MOST_STREAMS, MOST_BYTES = 4, 8190
REPLACED, OTHER_STREAMS = 7, 3


class Source:
    """The bytes of one encoder, cut into pieces. `held` has what came of the next piece; `late` is how many bytes are still to come of a
    piece that was replaced."""

    def __init__(self, stream, size, name):
        self.stream, self.size, self.name = stream, size, name
        self.held, self.late = b"", 0
        self.is_awaited, self.has_ended = True, False
        self.fillers, self.filled = None, 0
        self.is_file = stat.S_ISREG(os.stat(name).st_mode)
        self.descriptor = self.opened()

    def opened(self):
        # Without a writer, a FIFO could be opened only when one comes.
        return os.open(self.name, os.O_RDONLY | os.O_NONBLOCK)

    def is_whole(self):
        return len(self.held) == self.size

    def reads(self):
        return not self.is_whole() and not self.has_ended

    def read(self):
        """Takes what has come, to the end of a piece at most."""
        while self.reads():
            try:
                came = os.read(self.descriptor, self.late or self.size - len(self.held))
            except BlockingIOError:
                return
            if not came:
                self.writer_has_gone()
                return
            if self.late:
                self.late -= len(came)
            else:
                self.held += came

    def writer_has_gone(self):
        """What it left of a piece is nobody's. A FIFO that is opened anew waits for the next writer; the old one would say again and again
        that there is none. The new one is opened first, so that a writer who comes meanwhile finds a reader."""
        self.held, self.late = b"", 0
        self.has_ended = self.is_file
        if not self.is_file:
            old, self.descriptor = self.descriptor, self.opened()
            os.close(old)

    def piece(self, frame):
        """The piece of this frame: what came, if it is whole, else a filler."""
        was_awaited, self.is_awaited = self.is_awaited, self.is_whole()
        if was_awaited != self.is_awaited:
            why = "is back" if self.is_awaited else "has ended, and is replaced" if self.has_ended else "is late, and is replaced"
            command_line.complain(f"stream {self.stream} {why} from frame {frame} on")
        if self.is_awaited:
            came, self.held = self.held, b""
            return came
        # Were the pieces behind it dropped too, an encoder that writes all the time would never come back.
        if was_awaited and self.held:
            self.held, self.late = b"", self.size - len(self.held)
        self.filled += 1
        return next(self.fillers)


class Interleaving:
    """Writes frames. `written` is when the last one was; a frame is begun by its first whole piece, or by the pace."""

    def __init__(self, sources, late, pace, stop):
        self.sources, self.late, self.pace, self.stop = sources, late, pace, stop
        self.written = None
        self.frames = 0

    def wait(self, until):
        """Reads what comes up to this moment; None waits until something comes."""
        poll = select.poll()
        poll.register(self.stop.readable, select.POLLIN)
        # Of the output it is only asked whether it has lost its reader.
        poll.register(sys.stdout.fileno(), 0)
        reading = {source.descriptor: source for source in self.sources if source.reads()}
        for descriptor in reading:
            poll.register(descriptor, select.POLLIN)
        left = None if until is None else max(0.0, until - time.monotonic()) * 1000
        for descriptor, _ in poll.poll(left):
            if descriptor == sys.stdout.fileno():
                raise BrokenPipeError
            if descriptor in reading:
                reading[descriptor].read()

    def begins(self):
        """When the next frame is begun if nothing comes; None if it isn't."""
        return None if self.pace is None or self.written is None else self.written + self.pace

    def is_begun(self):
        begins = self.begins()
        return begins is not None and time.monotonic() >= begins or any(source.is_whole() for source in self.sources)

    def have_ended(self):
        """Whether nothing can come any more."""
        return all(source.has_ended and not source.is_whole() for source in self.sources)

    def await_first(self):
        """Waits for the first piece, and says so where none comes in time: until then the server sends nothing."""
        until = time.monotonic() + self.late
        while not self.is_begun() and not self.have_ended() and not self.stop.asked:
            if time.monotonic() >= until:
                command_line.complain("nothing has come yet of " + ", ".join(f"stream {each.stream} ({each.name})" for each in self.sources) + "; until then nothing is sent")
                return
            self.wait(until)

    def has_frame(self):
        """Waits for the next frame; gives whether there is one."""
        self.wait(time.monotonic())
        if self.written is None:
            self.await_first()
        while not self.is_begun() and not self.have_ended() and not self.stop.asked:
            self.wait(self.begins())
        if self.have_ended() or self.stop.asked:
            return False
        until = time.monotonic() + self.late
        # Once more for what has come by now, also of a stream that isn't waited for.
        self.wait(time.monotonic())
        while any(source.reads() and source.is_awaited for source in self.sources) and time.monotonic() < until:
            if self.stop.asked:
                return False
            self.wait(until)
        return True

    def run(self, most):
        """Writes so many frames at most."""
        while self.frames < most and not self.stop.asked and self.has_frame():
            frame = b"".join(source.piece(self.frames) for source in self.sources)
            sys.stdout.buffer.write(frame)
            sys.stdout.buffer.flush()
            self.written = time.monotonic()
            self.frames += 1


def encoder(word):
    """A stream, its bytes in a frame (None if they aren't given), and where they come from."""
    stream, _, rest = word.partition(":")
    size, _, name = rest.partition(":") if re.match("[0-9]+:", rest) else ("", "", rest)
    if not name:
        raise argparse.ArgumentTypeError(f"{word} is neither STREAM:BYTES:NAME, as 0:484:radio.fifo, nor STREAM:NAME")
    number = command_line.number(0, MOST_STREAMS - 1)(stream)
    try:
        kind = os.stat(name).st_mode
    except OSError as fault:
        makes = f"; mkfifo {name} makes a FIFO" if isinstance(fault, FileNotFoundError) else ""
        raise argparse.ArgumentTypeError(command_line.reason(fault) + makes) from None
    if not stat.S_ISREG(kind) and not stat.S_ISFIFO(kind):
        raise argparse.ArgumentTypeError(f"{name} is neither a FIFO nor a file")
    return number, command_line.number(1, MOST_BYTES)(size) if size else None, name


def byte(word):
    """A byte of two hexadecimal digits."""
    try:
        value = bytes.fromhex(word)
    except ValueError:
        value = b""
    if len(value) != 1 or len(word) != 2:
        raise argparse.ArgumentTypeError(f"{word} isn't a byte as 00 or a5")
    return value


def fill_file(word):
    """A stream, and the file of its fillers."""
    stream, _, name = word.partition(":")
    return command_line.number(0, MOST_STREAMS - 1)(stream), command_line.file(name)


def fillers(size, byte_value, name):
    """A stream's fillers, one after another, without end."""
    if name is None:
        return itertools.repeat(byte_value * size)
    with open(name, "rb") as opened:
        pieces = opened.read()
    if not pieces or len(pieces) % size:
        sys.exit(f"{name} isn't made of pieces of {size} bytes: it has {len(pieces)}")
    return itertools.cycle([pieces[at:at + size] for at in range(0, len(pieces), size)])


def named_schedules(parser, options):
    """The schedules that the command line names, each with its name, as `drmcast check` reads them; a refusal ends the script."""
    try:
        names = options.schedule + [name for _, _, name in (playlists.named(options.list) if options.list else ())]
    except playlists.Wrong as fault:
        command_line.complain(f"{options.list}: {fault}")
        sys.exit(fault.status)
    try:
        program = command_line.program(options.program) if names else ""
    except argparse.ArgumentTypeError as fault:
        parser.error(str(fault))
    for name in dict.fromkeys(names):
        status, text, complaint = schedules.checked(program, name)
        if status:
            command_line.complain(f"{name}: {'; '.join(complaint.splitlines())}")
            sys.exit(status)
        yield name, schedules.Schedule(text)


def faults_of_sizes(named, sources):
    """Where the schedules have another size of a stream than is given, or than somewhere else."""
    for stream, size, _ in sources:
        wanted = None if size is None else (size, f"{size} bytes a frame here")
        for found in schedules.sizes(named, stream):
            wanted = wanted or found
            if found[0] != wanted[0] or not found[0]:
                yield f"stream {stream} has {found[1]}" + (f", and {wanted[1]}" if found is not wanted else "")
                break


def sized(parser, options):
    """The sources with their bytes in a frame."""
    named = list(named_schedules(parser, options))
    found = list(faults_of_sizes(named, options.sources))
    for text in found:
        command_line.complain(text)
    if found:
        sys.exit(OTHER_STREAMS)
    return [(stream, next(schedules.sizes(named, stream), (size,))[0], name) for stream, size, name in options.sources]


def sources_of(parser, options):
    """The sources by their streams' numbers, each with its fillers."""
    streams = [stream for stream, _, _ in options.sources]
    files = dict(options.fill_file)
    if len(set(streams)) < len(streams):
        parser.error("a stream stands there twice")
    if not options.schedule and options.list is None and any(size is None for _, size, _ in options.sources):
        parser.error("each word is STREAM:BYTES:NAME, or there is a --schedule or a --list that has the bytes")
    if set(files) - set(streams):
        parser.error(f"stream {min(set(files) - set(streams))} has a file of fillers, but no bytes")
    found = []
    for stream, size, name in sorted(sized(parser, options)):
        filler = fillers(size, options.fill, files.get(stream))
        found.append(Source(stream, size, name))
        found[-1].fillers = filler
    return found


def arguments_of(words):
    """The options of these words, and the sources that they name, which are open."""
    parser = command_line.parser(__doc__)
    parser.add_argument("sources", metavar="STREAM:BYTES:NAME", nargs="+", type=encoder)
    parser.add_argument("--schedule", type=command_line.file, default=[], action="append", metavar="NAME", help="take the bytes from this schedule")
    parser.add_argument("--list", type=command_line.file, metavar="LIST", help="and from those in this list of playout.py")
    parser.add_argument("--program", default="drmcast", help="the program that checks them (drmcast, by the path)")
    parser.add_argument("--late", type=command_line.number(1, 3_600_000), default=1000, metavar="MS", help="replace a piece that is so late (1000)")
    parser.add_argument("--fill", type=byte, default=b"\0", metavar="HH", help="with this byte (00)")
    parser.add_argument("--fill-file", type=fill_file, default=[], action="append", metavar="STREAM:FILE", help="or with the pieces of this file")
    parser.add_argument("--pace", type=command_line.number(1, 3_600_000), metavar="MS", help="begin a frame so long after the one before it at the latest")
    parser.add_argument("--frames", type=command_line.number(1, 1 << 32), default=sys.maxsize, metavar="N", help="end after N frames")
    options = parser.parse_args(words)
    return options, sources_of(parser, options)


def main():
    options, sources = arguments_of(sys.argv[1:])
    stop = command_line.Stop()
    interleaving = Interleaving(sources, options.late / 1000, options.pace and options.pace / 1000, stop)
    try:
        interleaving.run(options.frames)
    finally:
        counts = ", ".join(f"{each.filled} of stream {each.stream}" for each in sources)
        command_line.complain(f"{interleaving.frames} frames; replaced {counts}")
    return REPLACED if any(each.filled for each in sources) else 0


if __name__ == "__main__":
    command_line.run(main)
