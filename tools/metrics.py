"""What `watch.py` counts and `playout.py` does, as files in the text format of Prometheus, which `check_drmcast.py` reads."""
import os
import pathlib
import re

import command_line

PREFIX = "drmcast_"
# Each metric without its prefix, its type, and what it says.
METRICS = {
    "frames_given_total": ("counter", "Frames that came whole."),
    "frames_missing_total": ("counter", "Frames of which too little came in time."),
    "frames_bad_total": ("counter", "Packets that came and are no frame."),
    "datagrams_refused_total": ("counter", "Datagrams that are none of the multiplex, as the ends of reports say."),
    "switches_total": ("counter", "Reconfigurations that were announced."),
    "resumed_total": ("counter", "Reconfigurations whose announcement was lost."),
    "last_frame_timestamp_seconds": ("gauge", "When the last frame came, in seconds since 1970; 0 before the first one."),
    "longest_gap_seconds": ("gauge", "The longest time without a frame in the last hour."),
    "recently_lost_frames": ("gauge", "Frames that were missing or bad in the last hour."),
    "in_vain_seconds": ("gauge", "How long datagrams have come of which none gave a frame, as of a server that began again; else 0."),
}
# The same of a playout.
PLAYOUT_METRICS = {
    "playout_due": ("gauge", "1 if the list has a schedule at this moment, else 0."),
    "playout_on_air": ("gauge", "1 while a server sends, else 0."),
    "playout_super_frame": ("gauge", "The super frame that is due, of the schedule whose moment it is."),
    "playout_list_seconds": ("gauge", "The seconds to the end of the list; then nothing is on air."),
    "playout_failures_total": ("counter", "Servers that ended before their schedule did."),
    "playout_changes_taken_total": ("counter", "Changes of the list that were taken."),
    "playout_changes_refused_total": ("counter", "Changes of the list that were refused."),
    "playout_written_timestamp_seconds": ("gauge", "When this was written, in seconds since 1970."),
}
SAMPLE = re.compile(r'([a-z_]+)\{link="((?:[^"\\\n]|\\.)*)"\} ([0-9]+(?:\.[0-9]+)?(?:e[+-]?[0-9]+)?)')
MOST_BYTES = 65_536


class NoMetrics(Exception):
    """A file that isn't one of these."""


def as_text(link, values, kinds=METRICS):
    """The text of these values for a link."""
    label = link.replace("\\", "\\\\").replace('"', '\\"').replace("\n", "\\n")
    return "".join(f'# HELP {PREFIX}{name} {said}\n# TYPE {PREFIX}{name} {kind}\n{PREFIX}{name}{{link="{label}"}} {values[name]}\n'
                   for name, (kind, said) in kinds.items())


def read(path):
    """The link and the values that are in a file."""
    with open(path, "rb") as file:
        text = file.read(MOST_BYTES).decode("utf-8", "replace")
    found = [SAMPLE.fullmatch(line) for line in text.splitlines() if line and not line.startswith("#")]
    if not all(found):
        raise NoMetrics(f"{path} has a line that is no metric of watch.py or playout.py")
    values = {name[len(PREFIX):]: float(value) for name, _, value in (sample.groups() for sample in found) if name.startswith(PREFIX)}
    lacking = [name for name in (PLAYOUT_METRICS if "playout_on_air" in values else METRICS) if name not in values]
    if lacking:
        raise NoMetrics(f"{path} has no {PREFIX}{lacking[0]}")
    return found[0].group(2), values


class Metrics:
    """The file with the metrics of a link; nothing is written if `path` is None."""

    def __init__(self, path, link, kinds=METRICS):
        self.path, self.kinds = path, kinds
        self.link = link if link is not None else pathlib.Path(path or "").stem
        self.failed = False
        self.written = False

    def last_moment(self):
        """When the last frame came, by the file that is there; 0 if it doesn't say so."""
        try:
            return read(self.path)[1]["last_frame_timestamp_seconds"] if self.path else 0.0
        except (OSError, NoMetrics):
            return 0.0

    def write(self, values):
        """Writes these values. The first time a refusal is the script's end; later it goes on without, with one complaint."""
        if not self.path:
            return
        try:
            with command_line.written_whole(self.path) as out:
                os.fchmod(out.fileno(), 0o644)
                out.write(as_text(self.link, values, self.kinds).encode(errors="replace"))
        except OSError as fault:
            if not self.written:
                raise
            if not self.failed:
                command_line.complain(command_line.reason(fault))
            self.failed = True
            return
        self.written, self.failed = True, False
