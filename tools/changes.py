"""What is checked of a change before it is taken: `drmcast check` and `capacity` of what changed, the sizes of live streams, and how far what is on
the air agrees with it. And which announcement a schedule has of the one behind it."""
import collections
import functools
import re
import subprocess
import tempfile
import time

import command_line
import followed
import joined
import playlists
import schedules
from schedules import FRAMES

AGREE = re.compile(r"agree (\d+) of (\d+) and (\d+)\n")
BLOCKS = schedules.MOST["block"]

# How a schedule is a reconfiguration behind another one, the countdown that announces it, and why there is none. `differs` is empty if it is none.
Seam = collections.namedtuple("Seam", "differs countdown why")
NO_SEAM = Seam([], 0, "")


class Refused(Exception):
    """Why a change isn't taken, each reason by itself."""

    def __init__(self, *texts):
        super().__init__("\n".join(texts))
        self.texts = list(texts)


@functools.lru_cache(maxsize=playlists.PARSED)
def files_of(text):
    """The files that a text names, which is asked each time when files are looked at."""
    return tuple(line.words[4] for line in schedules.lines(text) if line.words[0] == "stream" and line.words[3] == "file")


class KnownChecks(playlists.Checks):
    """What `drmcast` says of schedules, asked again only where one or its files have changed. One that is being written is what it was."""

    def __init__(self, program, follows):
        super().__init__(program)
        self.follows, self.known, self.channels = follows, {}, {}

    def holds(self, marks):
        return all(followed.mark(path) == was or self.follows.moves(path) for path, was in marks.items())

    def schedule(self, name):
        if name in self.known and self.holds(self.known[name][0]):
            return self.known[name][1]
        before = {name: followed.mark(name)}
        answer = super().schedule(name)
        if answer[0]:
            return answer
        before.update({path: followed.mark(path) for path in files_of(answer[1])})
        self.known[name] = before, answer
        return answer

    def unfit(self, name, text):
        if self.channels.get(name, ("",))[0] != text:
            self.channels[name] = text, super().unfit(name, text)
        return self.channels[name][1]


class Seams:
    """What stands between two schedules of a list."""

    def __init__(self, program):
        self.program, self.known = program, {}

    def between(self, one, other):
        if (one.text, other.text) not in self.known:
            self.known[one.text, other.text] = self.seam(one, other)
        return self.known[one.text, other.text]

    def seam(self, one, other):
        differs = joined.differences(playlists.parsed(one.text), playlists.parsed(other.text))
        if not differs:
            return NO_SEAM
        if not joined.can_be_joined(one.text, other.text):
            return Seam(differs, 0, "they have another carry or another version")
        for countdown in range(joined.MOST_COUNTDOWN, 0, -1):
            why = self.fault(joined.text_of(one.text, other.text, countdown))
            if why is None:
                return Seam(differs, countdown, "")
        return Seam(differs, 0, f"with both in one text drmcast check says \"{why}\"")

    def fault(self, text):
        """What is wrong with a text whose files are looked for from here; None if nothing is."""
        with tempfile.NamedTemporaryFile("w", suffix=".plan", encoding="utf-8") as file:
            file.write(text)
            file.flush()
            status, _, complaint = schedules.checked(self.program, file.name)
        found = re.search(r"schedule line (\d+): (\S+)", complaint)
        if not status:
            return None
        return f"{found[2]}: {text.splitlines()[int(found[1]) - 1]}" if found and 0 < int(found[1]) <= text.count("\n") else complaint

    def warnings(self, entries):
        """Which reconfigurations between schedules can't be announced. What isn't asked here is forgotten."""
        pairs = list(zip(entries, entries[1:]))
        self.known = {(one.text, other.text): self.between(one, other) for one, other in pairs}
        return [self.warning(one, other, self.between(one, other)) for one, other in pairs if self.between(one, other).why]

    @staticmethod
    def warning(one, other, seam):
        return (f"line {other.line}: {other.name} is a reconfiguration behind {one.name} ({', '.join(seam.differs)}), and isn't announced: {seam.why}; "
                "a larger room, fewer entities in the last blocks, or both in one schedule")


def agreed(program, one, other):
    """The super frame below which two copies send the same."""
    ran = subprocess.run([program, "agree", "--", one.compared, other.compared], cwd=one.folder, stdin=subprocess.DEVNULL, stdout=subprocess.PIPE, stderr=subprocess.PIPE, check=False)
    found = AGREE.fullmatch(ran.stdout.decode(errors="replace"))
    if ran.returncode or not found:
        said = "; ".join(ran.stderr.decode(errors="replace").splitlines()) or f"status {command_line.status_of(ran)}"
        raise Refused(f"{other.entry.name}: drmcast agree: {said}")
    return int(found[1])


def load_seconds(program, copy):
    """How long it takes to load a copy."""
    began = time.monotonic()
    subprocess.run([program, "check", "--", copy.name], cwd=copy.folder, stdin=subprocess.DEVNULL, stdout=subprocess.DEVNULL, stderr=subprocess.DEVNULL, check=False)
    return time.monotonic() - began


def live_streams(copy):
    """From which frame on the live streams of a copy have which sizes, up to where it is sent."""
    return [run for run in copy.content.live_runs() if run[0] < FRAMES * copy.entry.super_frames]


def size_at(runs, frame):
    return [sizes for start, sizes in runs if start <= frame][-1]


def refuse_live(before, after, reached):
    """Refuses what changes the size of a live stream from what is to be sent: whoever feeds it doesn't know."""
    was, now = live_streams(before), live_streams(after)
    end = FRAMES * min(before.entry.super_frames, after.entry.super_frames)
    for frame in sorted({FRAMES * reached, *(start for start, _ in was + now)}):
        if FRAMES * reached <= frame < end and size_at(was, frame) != size_at(now, frame):
            raise Refused(f"{after.entry.name}: from super frame {frame // FRAMES} on its live streams have {', '.join(map(str, size_at(now, frame)))} bytes a frame, "
                          f"and {', '.join(map(str, size_at(was, frame)))} as it is sent; what feeds them doesn't know, so that changes with a new start alone")


def disagrees(copy, same, reached, soon):
    """What is said of a change that comes too late: where it differs from what was sent, and what can be done. `soon` is a super frame that can be
    had for certain."""
    entry = copy.entry
    if same >= entry.super_frames:
        return f"{entry.name}: it ends with super frame {same}, and {reached} is reached"
    config = copy.content.place(FRAMES * min(soon, entry.super_frames - 1))[0]
    return (f"{entry.name}: from super frame {same} on it disagrees with what was sent, up to super frame {reached}; a block from a later super frame on is the "
            f"way: from {soon} on that is block {max(0, soon - config.start)} of the configuration at {config.start}")


def too_many_blocks(name, number):
    """What is said where this line of a schedule's file is the 65th block of its configuration; None if it is none."""
    try:
        with open(name, encoding="utf-8") as file:
            listed = list(schedules.lines(file.read()))
    except (OSError, UnicodeDecodeError):
        return None
    start = None
    for line in listed:
        start = int(line.words[1]) if line.words[0] == "config" and line.words[1].isdigit() else start
        if line.number == number and line.words[0] == "block" and start is not None and line.words[1].isdigit():
            return (f"{name}: the block at super frame {start + int(line.words[1])} is the 65th of its configuration, which has {BLOCKS} at the most; "
                    "what comes later can be the list's next schedule")
    return None


def said_of(fault):
    """What is said of a list that is wrong, with what to do about a 65th block."""
    for text in fault.texts:
        yield text
        found = re.search(r"line \d+: (.*): drmcast: schedule line (\d+): too-long", text)
        more = too_many_blocks(found[1], int(found[2])) if found else None
        if more:
            yield more


class Copies:
    """Makes copies of what is to be sent, each with its announcement of the next one."""

    def __init__(self, program, lasts, seams):
        self.program, self.lasts, self.seams = program, lasts, seams
        self.keys = {}

    def key(self, entries, at, countdown):
        """What a copy is made of: it is made anew where that is something else."""
        shown = entries[at:at + (2 if countdown else 1)]
        files = [path for one in shown for path in files_of(one.text)]
        return tuple(one.text for one in shown), countdown, tuple((path, followed.mark(path)) for path in files)

    def made(self, entries, at, countdown, kept=None):
        """A copy of this entry with so long a countdown; the one that is there if it is of the same."""
        key = self.key(entries, at, countdown)
        if kept is not None and (self.keys.get(kept.number) or self.lasts.key(kept)) == key:
            return kept
        try:
            copy = self.lasts.copied(entries[at], entries[at + 1] if countdown else None, countdown)
        except OSError as fault:
            raise Refused(f"{entries[at].name}: {command_line.reason(fault)}") from None
        if self.key(entries, at, countdown) != key:
            raise Refused(f"{entries[at].name}: a file of it changed while it was copied")
        self.keys[copy.number] = key
        self.lasts.notes_key(copy, key)
        return copy

    def forgets_all_but(self, numbers):
        """Forgets what copies were made of that are gone."""
        self.keys = {number: key for number, key in self.keys.items() if number in numbers}

    def of(self, entries, at=0, kept=None):
        """A copy of an entry as it is sent, where nothing of it was."""
        seam = self.seams.between(entries[at], entries[at + 1]) if len(entries) > at + 1 else NO_SEAM
        return self.made(entries, at, seam.countdown, kept)

    def behind(self, entries, sent, reached, soon):
        """A copy that can take the place of what is sent, and the super frame below which both are the same; the countdown is shorter if what was
        sent is in the way of a long one."""
        seam = self.seams.between(entries[0], entries[1]) if len(entries) > 1 else NO_SEAM
        length = entries[0].super_frames
        end = min(length, sent.entry.super_frames)
        for countdown in range(seam.countdown, -1, -1):
            copy = self.made(entries, 0, countdown, sent)
            if copy is sent:
                return sent, length
            try:
                refuse_live(sent, copy, reached)
                same = agreed(self.program, sent, copy)
            except Refused:
                self.lasts.drops(copy)
                raise
            # A shorter countdown helps where the announcement alone is in the way.
            if same >= soon or not countdown or same < end - joined.MOST_COUNTDOWN:
                break
            self.lasts.drops(copy)
        if same < reached:
            self.lasts.drops(copy)
            raise Refused(disagrees(copy, same, reached, soon))
        return copy, same
