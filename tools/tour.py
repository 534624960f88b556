#!/usr/bin/env python3
"""Runs the shell sessions of documents, and compares what they print with what the documents show.

A session is a block whose first line begins with '$ '. Its lines that begin so are commands, those that begin with '> '
go on with the command above, and all others are what that one prints, on both outputs; with --stdout on the standard
output alone. A block runs in one shell. All blocks of a document run in a folder of their own, in which the repository's
own files seem to stand, and which is removed at the end. One that has a TEXT in it is left out, and so is one with a command
'# needs PROGRAM' if there is no such program.

    tools/tour.py README.md docs/TOUR.md
    tools/tour.py docs/WIRESHARK.md --stdout --seconds 300

A session that waits for something that never comes is ended after so many seconds. It prints each command that prints something
else, and ends with 1 if there is one.
"""
import contextlib
import os
import pathlib
import re
import shutil
import signal
import subprocess
import tempfile

import command_line

TOP = pathlib.Path(__file__).resolve().parent.parent
SESSION = re.compile(r"^```\n(\$ .*?)^```$", re.DOTALL | re.MULTILINE)
NEEDS = re.compile(r"^\$ # needs (\S+)$", re.MULTILINE)
END = "--- end of command {} ---"
UNFINISHED = "(and doesn't end)"


def commands(session):
    """The commands of a session, each as its text and the lines that it is to print."""
    found = []
    for line in session.splitlines():
        if line.startswith("$ "):
            found.append([line[2:], []])
        elif line.startswith("> "):
            found[-1][0] += "\n" + line[2:]
        else:
            found[-1][1].append(line)
    return found


def output(script, errors, folder, seconds):
    """What a script prints in a shell of its own, which is ended after so many seconds, with all that it began."""
    shell = subprocess.Popen(["bash", "-c", script], cwd=folder, stdout=subprocess.PIPE, stderr=errors, encoding="utf-8", errors="replace",
                             start_new_session=True)
    try:
        return shell.communicate(timeout=seconds)[0]
    except subprocess.TimeoutExpired:
        os.killpg(shell.pid, signal.SIGKILL)
        return shell.communicate()[0]
    finally:
        with contextlib.suppress(ProcessLookupError):
            os.killpg(shell.pid, signal.SIGKILL)


def printed(texts, errors, folder, seconds):
    """What these commands print in one shell, as a list of lines for each."""
    ends = [END.format(k) for k in range(len(texts))]
    rest = output("".join(f"{text}\necho '{end}'\n" for text, end in zip(texts, ends)), errors, folder, seconds)
    lines = []
    for end in ends:
        came, found, rest = rest.partition(end + "\n")
        lines.append(came.splitlines() + ([] if found else [UNFINISHED]))
    return lines


def run(path, options):
    """Runs the sessions of a document, and gives how many commands printed something else."""
    errors = subprocess.DEVNULL if options.stdout else subprocess.STDOUT
    sessions = SESSION.findall(command_line.text(path))
    same = other = left_out = 0
    with tempfile.TemporaryDirectory() as folder:
        for entry in TOP.iterdir():
            pathlib.Path(folder, entry.name).symlink_to(entry)
        for session in sessions:
            parts = commands(session)
            absent = [name for name in NEEDS.findall(session) if shutil.which(name) is None]
            if absent:
                print(f"{path}: a session is left out, since {' and '.join(absent)} isn't installed", flush=True)
            if absent or any(text in session for text in options.without):
                left_out += len(parts)
                continue
            for (text, wanted), came in zip(parts, printed([text for text, _ in parts], errors, folder, options.seconds)):
                if came == wanted:
                    same += 1
                    continue
                other += 1
                print(f"$ {text}\nis to print\n  " + "\n  ".join(wanted) + "\nand prints\n  " + "\n  ".join(came))
    print(f"{path}: {same} commands print what it shows, {other} something else; {left_out} left out", flush=True)
    return other


def main():
    parser = command_line.parser(__doc__)
    parser.add_argument("documents", metavar="DOCUMENT", nargs="+", type=command_line.file)
    parser.add_argument("--stdout", action="store_true", help="compare the standard output alone")
    parser.add_argument("--seconds", type=command_line.number(1, 86_400), default=600, help="end a session after so long (600)")
    parser.add_argument("--without", action="append", default=[], metavar="TEXT", help="leave out the blocks with this text")
    options = parser.parse_args()
    return 1 if sum([run(path, options) for path in options.documents]) else 0


if __name__ == "__main__":
    command_line.run(main)
