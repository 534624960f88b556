"""The schedule that announces the one behind it: one text of both, whose frames are sent up to the seam.

Where two schedules follow one another with another mode or another channel, a receiver is told of it by a countdown in the frames before. A
schedule by itself has none to a schedule of another file. So both are joined: the length is that of both together, and behind the
configurations of the first stand those of the second, each start raised by the first one's length, and the first of them with a countdown. Up
to the seam the joined schedule is sent, which differs from the first one in the countdown alone, and from there the second by itself.
"""
import schedules

MOST_COUNTDOWN = 7
# The settings that a receiver is told of: `room` isn't among them.
TOLD = ("mode", "occupancy", "depth", "msc", "sdc", "protection")
ANNOUNCED_TYPES = ("2", "14")


def lines_of(blocks, kind):
    return [line.words for block in blocks for line in block.of(kind)]


def raw_lines(blocks):
    """The raw lines of what belongs to a configuration, and can't be another without one."""
    return [words for words in lines_of(blocks, "raw") if words[1] in ANNOUNCED_TYPES]


def differences(before, after):
    """In what the first configuration of a schedule is another than the last one of the schedule before it."""
    old, new = before.configurations[-1], after.configurations[0]
    found = [name for name in TOLD if old.settings.get(name) != new.settings.get(name)]
    if [(it.a, it.b) for it in old.streams] != [(it.a, it.b) for it in new.streams]:
        found.append("streams")
    if [line.words for line in old.services] != [line.words for line in new.services]:
        found.append("services")
    for kind in ("audio", "app"):
        if lines_of(old.blocks[:1], kind) != lines_of(new.blocks[:1], kind):
            found.append(f"{kind} lines")
    if raw_lines(old.blocks[-1:]) != raw_lines(new.blocks[:1]):
        found.append("raw lines of type 2 or 14")
    return found


def head_and_rest(text):
    """The lines of a canonical text before its first configuration, and all others."""
    listed = text.splitlines()
    at = next(number for number, line in enumerate(listed) if line.startswith("config "))
    return listed[:at], listed[at:]


def shared(head):
    """What two heads have to have in common: all but the numbers and the length."""
    return [line for line in head if not line.startswith(("first ", "length "))]


def can_be_joined(one, other):
    """Whether two texts have one carry and one version."""
    return shared(head_and_rest(one)[0]) == shared(head_and_rest(other)[0])


def text_of(one, other, countdown):
    """The canonical text of two of them, the second one announced by so many super frames."""
    head, rest = head_and_rest(one)
    first, behind = schedules.Schedule(one).length, schedules.Schedule(other).length
    found = [f"length {first + behind}" if line.startswith("length ") else line for line in head] + rest
    announced = countdown
    for line in head_and_rest(other)[1]:
        if line.startswith("config "):
            _, start, own = line.split(" ")
            line = f"config {int(start) + first} {announced or own}"
            announced = None
        found.append(line)
    return "\n".join(found) + "\n"
