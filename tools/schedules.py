"""The text of a schedule: how each of its lines is written, and what stands in a text. What other scripts here share.

`drmcast check` is what says whether a text is right; here only what it accepted is taken apart, or the line that it refused.
"""
import collections
import re
import subprocess

import command_line

# Each line as SCHEDULE.md has it: its first word, the words that stand as they are, and the others by name with what they may be.
FORMS = """
drmplan VERSION:1|2
carry plain
carry pft M:0-5 MTU:128-1500
first SEQ:0-65535 DLFC:0-4294967295
length N:1-1000000
config START:0-999999 COUNTDOWN:0-7
mode M:A|B|C|D
occupancy N:0-5
depth D:long|short
msc N:0-3
sdc N:0-1
protection A:0-3 B:0-3
room N:0-1023
service ID:hex6 SHORT:0-3 CA:0-1 LANGUAGE:0-15 KIND:audio|data DESCRIPTOR:0-31 DCA:0-1
stream A:0-4095 B:0-4095 fill HH:hex2
stream A:0-4095 B:0-4095 file NAME:name
clock MJD:0-131000 HOURS:0-23 MINUTES:0-59
block N:0-999999
label SHORT:0-3 TEXT:label
freq SYNC:0-1 LAYER:0-1 REST:hex2- REGION:hex2- LIST:frequencies
when ID:0-15 DAY:0-127 START:0-2047 DURATION:0-16383
app SHORT:0-3 STREAM:0-3 sync ENH:0-1 DOMAIN:0-7 BYTES:bytes126
app SHORT:0-3 STREAM:0-3 packet UNIT:0-1 PID:0-3 ENH:0-1 DOMAIN:0-7 LENGTH:0-255 BYTES:bytes125
audio SHORT:0-3 STREAM:0-3 CODING:0-3 SBR:0-1 MODE:0-3 RATE:0-7 TEXT:0-1 ENH:0-1 CODER:0-31 [HEX:bytes125]
language SHORT:0-3 HEX6:hex6 HEX4:hex4
raw TYPE:2|6|7|11|13|14|15 VERSION:0-1 NIBBLE:0-15 BYTES:bytes127
"""
FIRST_LINES = ("drmplan", "carry", "first", "length")
SETTINGS = ("mode", "occupancy", "depth", "msc", "sdc", "protection", "room")
ENTITIES = ("label", "freq", "when", "app", "audio", "language", "raw")
MOST = {"config": 16, "stream": 4, "block": 64, "entity": 64, "text": 262_144, "file": 4_194_304}
MOST_LABEL, MOST_LABEL_BYTES, MOST_FREQUENCIES, MOST_FREQUENCY, MOST_NAME_BYTES = 16, 64, 16, 32_767, 255
FRAMES, FRAME_MILLIS = 3, 400
# The bytes of an SDC entity's head, of a clock, and of the parameters of the next channel; and how often a clock is sent.
HEAD, CLOCK, NEXT_CHANNEL, CLOCK_EVERY = 2, 5, 4, 50

Line = collections.namedtuple("Line", "number words text")
Word = collections.namedtuple("Word", "name kind")


def form_words(form):
    """The words of a form; what stands as it is has no name, and what may be left out stands in brackets."""
    for word in form.split(" "):
        name, _, kind = word.strip("[]").partition(":")
        yield Word(name if kind else "", kind or name)


def shown(form):
    """A form as it is printed, and what its words may be."""
    words = list(form_words(form))
    said = [f"{word.name} {said_of(word.kind)}" for word in words if word.name]
    text = " ".join(word.name or word.kind for word in words)
    return text.replace(" HEX", " and maybe HEX") if "[" in form else text, "; ".join(said)


def first_words():
    """What lines begin with, in the order of the forms."""
    return list(dict.fromkeys(form.split(" ")[0] for form in FORMS.split("\n") if form))


def forms(first):
    """The forms of the lines that begin with this word."""
    return [form for form in FORMS.split("\n") if form.split(" ")[0] == first]


def said_of(kind):
    """What a word of this kind may be."""
    if re.fullmatch(r"\d+-\d+", kind):
        return "{:,} to {:,}".format(*map(int, kind.split("-")))
    if "|" in kind:
        return " or ".join(kind.split("|"))
    digits = re.fullmatch(r"(hex|bytes)(\d+)(-?)", kind)
    if digits is None:
        return {"name": f"a name without a space, of at most {MOST_NAME_BYTES} bytes",
                "label": f"1 to {MOST_LABEL} characters in at most {MOST_LABEL_BYTES} bytes",
                "frequencies": f"1 to {MOST_FREQUENCIES} numbers of 0 to {MOST_FREQUENCY:,}, joined by commas"}[kind]
    if digits[1] == "bytes":
        return f"two hexadecimal digits a byte, at most {digits[2]} bytes, or - for none"
    return f"{digits[2]} hexadecimal digits{' or -' if digits[3] else ''}"


def fault(word, given):
    """What is wrong with a word that is given for this one; None if nothing is."""
    kind = word.kind
    if not word.name:
        return None if given == kind else f"where {kind} stands"
    if re.fullmatch(r"\d+-\d+", kind):
        least, most = map(int, kind.split("-"))
        return None if re.fullmatch("[0-9]{1,10}", given) and least <= int(given) <= most else f"{word.name} is {said_of(kind)}"
    if "|" in kind:
        choices = kind.split("|")
        same = [given.lstrip("0") or "0", given] if choices[0].isdigit() else [given]
        return None if set(same) & set(choices) else f"{word.name} is {said_of(kind)}"
    if kind == "label":
        size = len(given.encode())
        right = given.strip(" ") and len(given) <= MOST_LABEL and size <= MOST_LABEL_BYTES
        return None if right else f"{word.name} is {said_of(kind)}, and here are {len(given)} in {size}"
    if kind == "name":
        return None if len(given.encode()) <= MOST_NAME_BYTES else f"{word.name} is {said_of(kind)}, and here are {len(given.encode())}"
    if kind == "frequencies":
        listed = given.split(",")
        right = len(listed) <= MOST_FREQUENCIES and all(re.fullmatch(r"\+?[0-9]{1,10}", each) and int(each) <= MOST_FREQUENCY for each in listed)
        return None if right else f"{word.name} is {said_of(kind)}, and here are {len(listed)}"
    return fault_of_digits(word, given)


def fault_of_digits(word, given):
    """The same of hexadecimal digits."""
    form, size, dash = re.fullmatch(r"(hex|bytes)(\d+)(-?)", word.kind).groups()
    if given == "-" and (dash or form == "bytes"):
        return None
    digits = re.fullmatch("[0-9a-fA-F]+", given)
    if form == "hex":
        return None if digits and len(given) == int(size) else f"{word.name} is {said_of(word.kind)}"
    if digits and len(given) % 2 == 0 and len(given) // 2 > int(size):
        return f"{word.name} is {said_of(word.kind)}, and here are {len(given) // 2}"
    return None if digits and len(given) % 2 == 0 else f"{word.name} is {said_of(word.kind)}"


def lines(text):
    """The lines of a text that say something."""
    for number, line in enumerate(text.split("\n"), 1):
        words = [word for word in line.split(" ") if word]
        if words and not words[0].startswith("#"):
            # A label is all behind one space, with its own spaces.
            label = re.match(" *label +[^ ]+ (.+)", line)
            if label:
                words = [*words[:2], label[1]]
            yield Line(number, words, line)


class Stream:
    """A stream of a configuration: the bytes of its parts, and its content, which is a file or else one byte again and again."""

    def __init__(self, line):
        self.number = line.number
        self.a, self.b = map(int, line.words[1:3])
        self.file = line.words[4] if line.words[3] == "file" else None
        self.fill = None if self.file else bytes.fromhex(line.words[4])
        self.size = self.a + self.b


class Block:
    """The entities that are sent from a super frame of their configuration on."""

    def __init__(self, number, start):
        self.number, self.start = number, start
        self.entities = []

    def of(self, *kinds):
        return [line for line in self.entities if line.words[0] in kinds]


class Configuration:
    """A configuration; of each setting it has the words behind its name."""

    def __init__(self, line):
        self.number = line.number
        self.start, self.countdown = map(int, line.words[1:3])
        self.settings, self.services, self.streams, self.blocks = {}, [], [], []
        self.clock = None

    def take(self, line):
        kind, *words = line.words
        if kind == "stream":
            self.streams.append(Stream(line))
        elif kind == "service":
            self.services.append(line)
        elif kind == "clock":
            self.clock = words
        elif kind == "block":
            self.blocks.append(Block(line.number, int(words[0])))
        elif kind in ENTITIES:
            if not self.blocks:
                # As in version 1, whose texts have no blocks.
                self.blocks.append(Block(self.number, 0))
            self.blocks[-1].entities.append(line)
        else:
            self.settings[kind] = words

    def room(self):
        return int(self.settings["room"][0])

    def description(self):
        """The bytes of the entity that describes the streams."""
        return HEAD + 3 * len(self.streams)

    def block_at(self, super_frame):
        """The block that is in force there, counted from the start of the configuration."""
        return [block for block in self.blocks if block.start <= super_frame][-1]


class Schedule:
    """A schedule, each line of which is right."""

    def __init__(self, text):
        self.carry, self.first, self.length, self.configurations = [], (0, 0), 0, []
        for line in lines(text):
            kind, *words = line.words
            if kind == "carry":
                self.carry = words
            elif kind == "first":
                self.first = tuple(map(int, words))
            elif kind == "length":
                self.length = int(words[0])
            elif kind == "config":
                self.configurations.append(Configuration(line))
            elif self.configurations:
                self.configurations[-1].take(line)

    def end_of(self, index):
        """The super frame behind the last one of a configuration."""
        following = self.configurations[index + 1:]
        return following[0].start if following else self.length

    def has(self, stream):
        """Whether a configuration has a stream of this number."""
        return any(stream < len(config.streams) for config in self.configurations)


def sizes(named, stream):
    """How many bytes a stream has in a frame of each configuration of these schedules, each a name and a schedule, and where that is so."""
    for name, schedule in named:
        for place, config in enumerate(schedule.configurations, 1):
            size = config.streams[stream].size if stream < len(config.streams) else 0
            yield size, f"{size} bytes a frame in configuration {place} of {name}"


def entity_size(line):
    """The bytes of an SDC entity, with its head."""
    kind, words = line.words[0], line.words[1:]
    if kind == "label":
        return HEAD + len(words[1].encode())
    if kind == "freq":
        return HEAD + (words[2] != "-") + (words[3] != "-") + 2 * len(words[4].split(","))
    fixed = {"when": 4, "language": 5, "audio": 2, "raw": 0, "app": 1 if "sync" in words else 2}[kind]
    digits = {"audio": words[9:], "raw": words[3:], "app": words[-1:]}.get(kind, [])
    return HEAD + fixed + sum(len(each) // 2 for each in digits if each != "-")


def checked(program, name, folder=None):
    """What `drmcast check` says of a schedule's file: its status, the canonical text, and what it complains. The files that it names are looked for from
    this folder on."""
    asked = subprocess.run([program, "check", "--", name], cwd=folder, stdin=subprocess.DEVNULL, stdout=subprocess.PIPE, stderr=subprocess.PIPE, check=False)
    return command_line.status_of(asked), asked.stdout.decode(errors="replace"), asked.stderr.decode(errors="replace").strip()
