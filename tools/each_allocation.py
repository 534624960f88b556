#!/usr/bin/env python3
"""Refuses each request for memory once: the first one in one run, the second in the next, and so on, until a run makes none more.

PROGRAM is crates/drmcast/out/drmcast. The command lines are of each command but a live receiver, over small inputs that stand
here. A run in which a request was refused has to end with 1 and its line on standard error, or as with ample memory; what came on
standard output is a front of the whole text then, and where the command makes its text before it writes, nothing. The requests
are malloc, calloc, realloc, aligned memory and mmap of the C library, from the start of main. It needs gcc and Linux.
"""
import os
import pathlib
import subprocess
import sys
import tempfile

import command_line
from datagrams import datagrams

SHIM = r"""
#define _GNU_SOURCE
#include <dlfcn.h>
#include <errno.h>
#include <stdlib.h>
#include <sys/mman.h>
#include <unistd.h>

static long count, refused_one;
static int told;

__attribute__((constructor)) static void begin(void)
{
    const char *one = getenv("REFUSED_ONE"), *to = getenv("TOLD");
    told = to ? atoi(to) : -1;
    count = 0;
    refused_one = one ? atol(one) : -1;
}

static int is_refused(void)
{
    if (refused_one < 0 || count++ != refused_one) return 0;
    errno = ENOMEM;
    return write(told, "x", 1) == 1;
}

extern void *__libc_malloc(size_t), *__libc_calloc(size_t, size_t), *__libc_realloc(void *, size_t), *__libc_memalign(size_t, size_t);
void *malloc(size_t n) { return is_refused() ? NULL : __libc_malloc(n); }
void *calloc(size_t m, size_t n) { return is_refused() ? NULL : __libc_calloc(m, n); }
void *realloc(void *p, size_t n) { return is_refused() ? NULL : __libc_realloc(p, n); }
void *memalign(size_t a, size_t n) { return is_refused() ? NULL : __libc_memalign(a, n); }
void *aligned_alloc(size_t a, size_t n) { return memalign(a, n); }
int posix_memalign(void **p, size_t a, size_t n) { *p = memalign(a, n); return *p ? 0 : ENOMEM; }
void *mmap(void *p, size_t n, int prot, int flags, int fd, off_t at)
{
    static void *(*next)(void *, size_t, int, int, int, off_t);
    if (!next) next = dlsym(RTLD_NEXT, "mmap");
    return is_refused() ? MAP_FAILED : next(p, n, prot, flags, fd, at);
}
"""

SMALL = """drmplan 1
carry pft 2 1400
first 0 0
length 1
config 0 0
mode B
occupancy 3
depth long
msc 0
sdc 0
protection 0 1
room 9
service 123456 0 0 5 audio 3 0
stream 0 4 fill 55
audio 0 0 0 1 0 3 0 0 0
"""
WITH_FILE = SMALL.replace("length 1", "length 3").replace("room 9", "room 32").replace("4 fill 55", "1000 file audio.bin") + "label 0 Radio Nord\n"
ROOMY = SMALL.replace("length 1", "length 9").replace("room 9", "room 24")
SECOND = ROOMY[ROOMY.index("config"):].replace("config 0 0", "config 5 2").replace("depth long", "depth short").replace("fill 55", "fill 66")

FILES = {
    "small.plan": SMALL.encode(),
    "file.plan": WITH_FILE.encode(),
    "audio.bin": bytes(k % 251 for k in range(9000)),
    "switch.plan": (ROOMY + SECOND).encode(),
    "whole.script": b"feed\npackets 0 2\n",
    "file.script": ("feed\n" + "".join(f"back {packet}\nback {packet}\n" for packet in range(9))).encode(),
}
FAC = bytes.fromhex("660801234560a1806d")
# The words, what is read, and whether the text may have begun when memory is found wanting.
RUNS = [
    ("fac", "fac.bin", False),
    ("check small.plan", None, False),
    ("check file.plan", None, False),
    ("serve small.plan", None, False),
    ("serve file.plan", None, False),
    ("serve small.plan --to 127.0.0.1:50219", None, False),
    ("serve file.plan --to 127.0.0.1:50219,127.0.0.1:50220", None, False),
    ("receive 127.0.0.1:50221 --idle 1", None, False),
    ("receive 127.0.0.1:50221,127.0.0.1:50222 --idle 1", None, False),
    ("gate 127.0.0.1:50223 127.0.0.1:50219,127.0.0.1:50220 pft:2:1400 --idle 1", None, False),
    ("air small.plan whole.script", None, False),
    ("air switch.plan switch.script", None, False),
    ("air file.plan file.script", None, False),
    ("convert plain", "small.pft", True),
    ("convert pft:2:1400", "small.pft", True),
    ("show", "small.pft", True),
    ("show", "small.af", True),
    ("receive", "small.pft", True),
    ("exercise 1", None, False),
    ("exercise 4", None, False),
]


def run(words, folder, name, refused=None):
    """Status, output, error, and whether a request was refused."""
    heard, told = os.pipe()
    environment = dict(os.environ)
    if refused is not None:
        environment.update(LD_PRELOAD=f"{folder}/shim.so", REFUSED_ONE=str(refused), TOLD=str(told))
    given = pathlib.Path(folder, name).read_bytes() if name else b""
    ran = subprocess.run(words, cwd=folder, input=given, stdout=subprocess.PIPE, stderr=subprocess.PIPE, env=environment, pass_fds=[told], timeout=60)
    os.close(told)
    with os.fdopen(heard, "rb") as pipe:
        was_refused = pipe.read() != b""
    return ran.returncode, ran.stdout, ran.stderr, was_refused


def with_losses(capture):
    """A script of three feeds over this capture: all of it; without two fragments of each packet; each packet backwards."""
    takes, number = [], -1
    for _, _, index in datagrams(capture):
        number += index == 0
        takes += [f"take {number} {index}\n"] if index > 1 else []
    backwards = [f"back {packet}\n" for packet in range(number + 1)]
    return "".join(["feed\n", f"packets 0 {number}\n", "feed\n", *takes, "feed\n", *backwards])


def is_promised(ample, ended, may_begin):
    """Whether the run ended as it may without memory."""
    status, out, err, _ = ended
    if (status, out, err) == ample[:3]:
        return True
    fits = ample[1].startswith(out) if may_begin else out == b""
    return status == 1 and err == b"drmcast: no memory\n" and fits


def main():
    parser = command_line.parser(__doc__)
    parser.add_argument("program", metavar="PROGRAM", type=command_line.program)
    program, runs, wrong = parser.parse_args().program, 0, 0
    with tempfile.TemporaryDirectory() as folder:
        for name, content in FILES.items():
            pathlib.Path(folder, name).write_bytes(content)
        pathlib.Path(folder, "fac.bin").write_bytes(FAC)
        pathlib.Path(folder, "shim.c").write_text(SHIM)
        subprocess.run(["gcc", "-O1", "-w", "-shared", "-fPIC", "-o", f"{folder}/shim.so", f"{folder}/shim.c", "-ldl"], check=True)
        for carry, name in (("pft 2 1400", "small.pft"), ("plain", "small.af")):
            pathlib.Path(folder, "it.plan").write_text(SMALL.replace("pft 2 1400", carry))
            pathlib.Path(folder, name).write_bytes(run([program, "serve", "it.plan"], folder, None)[1])
        script = with_losses(run([program, "serve", "switch.plan"], folder, None)[1])
        pathlib.Path(folder, "switch.script").write_text(script)
        for text, name, may_begin in RUNS:
            words, requests = [program, *text.split(" ")], 0
            ample = run(words, folder, name)
            while (ended := run(words, folder, name, requests))[3]:
                requests += 1
                if not is_promised(ample, ended, may_begin):
                    wrong += 1
                    print(f"{text}: request {requests} refused: status {ended[0]}, {len(ended[1])} bytes on out, {ended[2][:60]!r} on err")
            runs += requests
            print(f"{text}: {requests} requests, each refused once; with ample memory status {ample[0]}", flush=True)
    print(f"{runs} runs of {len(RUNS)} command lines, {wrong} ended otherwise than is promised")
    sys.exit(wrong > 0)


if __name__ == "__main__":
    command_line.run(main)
