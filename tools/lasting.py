"""What lasts of a playout: copies of the texts that it sends, with their files, and how far it has come. After a start it goes on from there.

A server reads a copy, so what is on the air doesn't change with a file that somebody writes, and a change can be compared with what was sent. The
record says which copy is sent, and the first super frame of which nothing was: this is written before the first frame of the super frame before it
goes out. It isn't forced to the disk each time, so after a power failure it may be half a minute old.
"""
import contextlib
import fcntl
import json
import os
import pathlib
import shutil
import tempfile
import threading

import command_line
import followed
import joined
import pieces
import playlists

# The texts of a copy: the schedule as it was read, what the servers send, and that with nothing in its live streams, which is compared.
READ, SENT, COMPARED = "read.plan", "sent.plan", "compared.plan"
KEY = "made-of"
RECORD, HELD = "on-air", "held"


class Copy:
    """A copy of a schedule as it is sent. `entry` is its line of the list, with the text that `drmcast check` printed of it, and `announces` the one
    behind it, and the countdown, if it has the next schedule behind it as well, up to which alone it is sent."""

    def __init__(self, folder, number, entry, live, announces=None):
        self.number, self.entry, self.announces = number, entry, announces
        self.name, self.compared = f"{number}/{SENT}", f"{number}/{COMPARED}"
        self.folder = folder
        self.text = folder.joinpath(self.name).read_text(encoding="utf-8")
        self.content = pieces.Content(self.text, folder, live)


class Lasting:
    """The folder of what lasts; one that is gone with the playout if none is given."""

    def __init__(self, folder, live):
        self.live = live
        self.temporary = tempfile.TemporaryDirectory() if folder is None else None
        self.folder = pathlib.Path(folder if folder is not None else self.temporary.name).absolute()
        self.folder.mkdir(parents=True, exist_ok=True)
        self.held = open(self.folder / HELD, "w", encoding="ascii")
        self.texts = self.folder / "texts"
        self.texts.mkdir(exist_ok=True)
        self.known = {}
        self.values = {}
        self.lock = threading.Lock()
        self.failed = False
        self.number = max((int(each.name) for each in self.texts.iterdir() if each.name.isdigit()), default=0)

    def is_ours(self):
        """Whether no other playout holds the folder; from then on this one does, until it ends."""
        try:
            fcntl.flock(self.held, fcntl.LOCK_EX | fcntl.LOCK_NB)
            return True
        except OSError:
            return False

    def record(self):
        """What the playout before has noted; None if there is nothing, or nothing that can be read."""
        try:
            with open(self.folder / RECORD, encoding="utf-8") as file:
                found = json.load(file)
            return found if {"begin", "name", "pace", "copy", "reached"} <= set(found) else None
        except (OSError, ValueError, TypeError):
            return None

    def notes(self, **values):
        """Notes what is new; where the disk refuses, what is on the air goes on, and it is said once."""
        self.values.update(values)
        try:
            with command_line.written_whole(str(self.folder / RECORD)) as out:
                # Whoever may read the folder may ask what is on the air.
                os.fchmod(out.fileno(), 0o644)
                out.write(json.dumps(self.values).encode())
            self.failed = False
        except OSError as fault:
            if not self.failed:
                command_line.complain(f"{command_line.reason(fault)}; what is on the air goes on, and a start wouldn't know of it")
            self.failed = True

    def left(self, record):
        """The entry that a record names, by its copy; None if that isn't there."""
        with contextlib.suppress(OSError, KeyError, ValueError, AttributeError):
            text = self.texts.joinpath(str(record["copy"]), READ).read_text(encoding="utf-8")
            return playlists.Entry(0, record["begin"], record["name"], *map(int, playlists.FIRST.search(text).groups()), text)
        return None

    def recorded(self, record, entry):
        """The copy that a record names, of this entry; None if it isn't there whole."""
        with contextlib.suppress(OSError, KeyError, ValueError, AttributeError):
            before = self.left(record)._replace(line=entry.line)
            announces = record.get("announces")
            found = Copy(self.texts, record["copy"], before, self.live, tuple(announces) if announces else None)
            if self.texts.joinpath(found.compared).exists():
                return found
        return None

    def notes_key(self, copy, key):
        """Notes what a copy was made of: its texts, and the states of its files."""
        with contextlib.suppress(OSError), open(self.texts / str(copy.number) / KEY, "w", encoding="utf-8") as file:
            json.dump(key, file)

    def key(self, copy):
        """What a copy was made of, as it was noted; None if it wasn't."""
        with contextlib.suppress(OSError, ValueError, TypeError), open(self.texts / str(copy.number) / KEY, encoding="utf-8") as file:
            texts, countdown, files = json.load(file)
            return tuple(texts), countdown, tuple((path, tuple(mark)) for path, mark in files)
        return None

    def file(self, name, folder, place):
        """A copy of a file of content; where it was copied before, and is as it was then, that one by another name."""
        path = os.path.abspath(name)
        mark = followed.mark(path)
        to = folder / str(place)
        before = self.known.get((path, mark))
        with contextlib.suppress(OSError):
            # The copy of a change that was refused is gone.
            if before is not None:
                os.link(before, to)
                return to
        shutil.copyfile(path, to)
        with open(to, "rb") as file:
            os.fsync(file.fileno())
        self.known[path, mark] = to
        return to

    def copied(self, entry, following=None, countdown=0):
        """A copy of an entry's schedule; with the one behind it, which it announces by so many super frames."""
        with self.lock:
            return self.copied_alone(entry, following, countdown)

    def copied_alone(self, entry, following, countdown):
        self.number += 1
        folder = self.texts / str(self.number)
        folder.mkdir()
        text = joined.text_of(entry.text, following.text, countdown) if following else entry.text
        sent, compared, number = [], [], 0
        for line in text.splitlines():
            words = line.split(" ")
            if words[0] == "config":
                number = 0
            if words[0] != "stream":
                sent.append(line)
                compared.append(line)
                continue
            if words[3] == "file":
                words[4] = f"{self.number}/{self.file(words[4], folder, len(sent)).name}"
            sent.append(" ".join(words))
            compared.append(" ".join([*words[:3], "fill", "00"] if number in self.live else words))
            number += 1
        for name, lines in ((READ, entry.text.splitlines()), (SENT, sent), (COMPARED, compared)):
            with open(folder / name, "w", encoding="utf-8") as file:
                file.write("\n".join(lines) + "\n")
                file.flush()
                os.fsync(file.fileno())
        return Copy(self.texts, self.number, entry, self.live, (following.begin, following.name, countdown) if following else None)

    def drops(self, copy):
        """Removes a copy that isn't to be sent."""
        shutil.rmtree(self.texts / str(copy.number), ignore_errors=True)

    def drops_all_but(self, kept):
        """Removes the copies that nothing is sent of any more; one that was made just now is asked for later."""
        numbers = {str(self.number), *map(str, kept)}
        for each in self.texts.iterdir():
            if each.name not in numbers:
                shutil.rmtree(each, ignore_errors=True)
        self.known = {key: to for key, to in self.known.items() if to.parent.name in numbers}
