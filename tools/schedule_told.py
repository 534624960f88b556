"""A schedule in words, as an engineer reads it aloud: `explain.py --tell` prints it. The codes are those of SCHEDULE.md."""
import datetime

import schedules

BANDWIDTHS = ("4.5", "5", "9", "10", "18", "20")
MSC = ("64-QAM", "hierarchical 64-QAM", "hierarchical 64-QAM", "16-QAM")
SDC = ("16-QAM", "4-QAM")
LANGUAGES = ("not specified", "Arabic", "Bengali", "Chinese", "Dutch", "English", "French", "German", "Hindi", "Japanese", "Javanese", "Korean", "Portuguese",
             "Russian", "Spanish", "other")
PROGRAMMES = ("none", "news", "current affairs", "information", "sport", "education", "drama", "culture", "science", "varied", "pop", "rock", "easy listening",
              "light classical", "serious classical", "other music", "weather", "finance", "children's", "social affairs", "religion", "phone in", "travel",
              "leisure", "jazz", "country", "national music", "oldies", "folk", "documentary")
CODINGS = {0: "AAC", 3: "xHE-AAC"}
AAC, AAC_MODES, AAC_RATES = 0, {0: "mono", 1: "parametric stereo", 2: "stereo"}, {1: 12, 3: 24, 5: 48}
# The Modified Julian Date of a day, and that day.
MJD_OF_DAY, DAY = 40_587, datetime.date(1970, 1, 1)


def told(schedule):
    """The sentences of a schedule, a line each."""
    carry = "carried whole" if schedule.carry[0] == "plain" else f"in fragments of at most {int(schedule.carry[2]):,} bytes, any {schedule.carry[1]} of which may be lost"
    yield f"{schedule.length:,} super frames, {lasts(schedule.length)}; packets {carry}; the first one has the number {schedule.first[0]}, its frame the count {schedule.first[1]}."
    for index, config in enumerate(schedule.configurations):
        announced = f", announced {config.countdown} super frames before" if config.countdown else ""
        yield f"Configuration {index + 1}, from super frame {config.start} ({lasts(config.start)}) to {schedule.end_of(index) - 1}{announced}:"
        yield from (f"  {text}" for text in of_configuration(config))


def lasts(super_frames):
    """A time as hours, minutes and seconds."""
    millis = super_frames * schedules.FRAMES * schedules.FRAME_MILLIS
    seconds = f"{millis // 1000 % 60:02}" + (f".{millis % 1000 // 100}" if millis % 1000 else "")
    return f"{millis // 3_600_000}:{millis // 60_000 % 60:02}:{seconds}"


def of_configuration(config):
    values = config.settings
    yield (f"mode {values['mode'][0]}, {BANDWIDTHS[int(values['occupancy'][0])]} kHz, {values['depth'][0]} interleaving, MSC {MSC[int(values['msc'][0])]}, "
           f"SDC {SDC[int(values['sdc'][0])]}, protection {values['protection'][0]} for parts A and {values['protection'][1]} for parts B, "
           f"{plural(config.room(), 'byte')} for the SDC's entities")
    if config.clock:
        mjd, hours, minutes = map(int, config.clock)
        yield f"its start is at {DAY + datetime.timedelta(mjd - MJD_OF_DAY)} {hours:02}:{minutes:02} UTC by its clock"
    for number, stream in enumerate(config.streams):
        content = f"from {stream.file}" if stream.file else "one repeated byte"
        yield f"stream {number}: {rate(stream.size)}, {plural(stream.a, 'byte')} a frame in part A and {stream.b:,} in part B, {content}"
    for line in config.services:
        yield of_service(line, config.blocks[0])
    for block in config.blocks:
        yield from of_block(block, block is not config.blocks[0])


def plural(count, name):
    return f"{count:,} {name}{'' if count == 1 else 's'}"


def rate(size):
    """The bit rate of so many bytes a frame; a frame lasts 400 ms, so a byte is 20 bit/s."""
    return f"{size * 8 / schedules.FRAME_MILLIS:g} kbit/s"


def of_service(line, block):
    """A service with what its lines in the first block of its configuration say."""
    identifier, short, scrambled, language, kind, descriptor, data_scrambled = line.words[1:]
    parts = [f"service {short} ({identifier})", *(f'"{each.words[2]}"' for each in block.of("label") if each.words[1] == short)]
    if kind == "audio":
        codings = [each.words for each in block.of("audio") if each.words[1] == short]
        programme = PROGRAMMES[int(descriptor)] if int(descriptor) < len(PROGRAMMES) else f"programme type {descriptor}"
        parts += [f"audio in {', '.join(coder(words))}, stream {words[2]}" for words in codings]
        parts += [] if programme == "none" else [programme]
    else:
        parts += [f"data with application {descriptor}", *(f"stream {each.words[2]}, {'in packets' if 'packet' in each.words else 'synchronous'}"
                                                           for each in block.of("app") if each.words[1] == short)]
    parts.append(f"language {LANGUAGES[int(language)]}")
    parts += [f"by its language line {spelt(each.words[2])}, country {spelt(each.words[3])}" for each in block.of("language") if each.words[1] == short]
    parts += ["scrambled"] if "1" in (scrambled, data_scrambled) else []
    return ", ".join(parts)


def coder(words):
    """What an audio line says of the coder."""
    coding, sbr, mode, sampling, text = map(int, words[3:8])
    yield CODINGS.get(coding, f"coding {coding}, which is reserved")
    if coding == AAC:
        yield AAC_MODES.get(mode, f"mode {mode}")
        yield f"{AAC_RATES[sampling]} kHz" if sampling in AAC_RATES else f"rate {sampling}"
        yield "with SBR" if sbr else "without SBR"
    else:
        yield f"mode {mode}, rate {sampling}, SBR {sbr}"
    if text:
        yield "with text messages"


def spelt(digits):
    """Letters out of their bytes; as digits if they are none."""
    letters = bytes.fromhex(digits)
    return letters.decode("ascii") if letters.isalpha() else digits


def of_block(block, is_later):
    """The frequencies of a block, and of a later one the labels too."""
    parts = [f'label of service {line.words[1]} "{line.words[2]}"' for line in block.of("label") if is_later]
    parts += [f"other frequencies {', '.join(line.words[5].split(','))} kHz" for line in block.of("freq")]
    parts += [f"an entity of type {line.words[1]}" for line in block.of("raw")]
    if parts:
        yield f"{f'from its super frame {block.start} ({lasts(block.start)}) on: ' if is_later else ''}{'; '.join(parts)}"
