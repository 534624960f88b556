#!/usr/bin/env python3
"""Runs a receiver to which every request for memory is refused from its first read of the link on.

PROGRAM is crates/drmcast/out/drmcast, and NAME a schedule, examples/switch.plan if it isn't given. Two receivers of one link
each are served alike over the loopback: to the second one the C library refuses malloc, calloc, realloc, aligned memory and
mmap once it has called recv, recvfrom or recvmsg. Their reports must be the same, and whole. It needs gcc and Linux.
"""
import os
import pathlib
import subprocess
import sys
import tempfile
import time

import command_line

PORT = 50211

SHIM = r"""
#define _GNU_SOURCE
#include <dlfcn.h>
#include <errno.h>
#include <stdlib.h>
#include <sys/mman.h>
#include <sys/socket.h>
#include <unistd.h>

static volatile int heard, refused;

static void tell(volatile int *once, const char *words)
{
    size_t n = 0;
    while (words[n]) n++;
    if (!*once && write(2, words, n) < 0) return;
    *once = 1;
}

static void hear(void) { tell(&heard, "shim: the link is read\n"); }
static void *refuse(void) { tell(&refused, "shim: memory is refused\n"); errno = ENOMEM; return NULL; }

#define NEXT(name) ((__typeof__(&name))dlsym(RTLD_NEXT, #name))

ssize_t recv(int s, void *b, size_t n, int f) { hear(); return NEXT(recv)(s, b, n, f); }
ssize_t recvfrom(int s, void *restrict b, size_t n, int f, struct sockaddr *restrict a, socklen_t *restrict l) { hear(); return NEXT(recvfrom)(s, b, n, f, a, l); }
ssize_t recvmsg(int s, struct msghdr *m, int f) { hear(); return NEXT(recvmsg)(s, m, f); }

extern void *__libc_malloc(size_t), *__libc_calloc(size_t, size_t), *__libc_realloc(void *, size_t), *__libc_memalign(size_t, size_t);
void *malloc(size_t n) { return heard ? refuse() : __libc_malloc(n); }
void *calloc(size_t m, size_t n) { return heard ? refuse() : __libc_calloc(m, n); }
void *realloc(void *p, size_t n) { return heard ? refuse() : __libc_realloc(p, n); }
void *memalign(size_t a, size_t n) { return heard ? refuse() : __libc_memalign(a, n); }
void *aligned_alloc(size_t a, size_t n) { return memalign(a, n); }
int posix_memalign(void **p, size_t a, size_t n) { *p = memalign(a, n); return *p ? 0 : ENOMEM; }
void *mmap(void *p, size_t n, int prot, int flags, int fd, off_t at) { return heard ? (refuse(), MAP_FAILED) : NEXT(mmap)(p, n, prot, flags, fd, at); }
"""


def report(program, schedule, port, shim):
    """The report of one receiver, and what its standard error says."""
    environment = dict(os.environ, LD_PRELOAD=shim) if shim else None
    words = [program, "receive", f"127.0.0.1:{port}", "--idle", "10"]
    receiver = subprocess.Popen(words, stdout=subprocess.PIPE, stderr=subprocess.PIPE, env=environment)
    time.sleep(0.5)
    subprocess.run([program, "serve", schedule.name, "--to", f"127.0.0.1:{port}", "--pace", "5"], cwd=schedule.parent, check=True)
    out, err = receiver.communicate(timeout=60)
    return receiver.returncode, out, err.decode()


def main():
    parser = command_line.parser(__doc__)
    parser.add_argument("program", metavar="PROGRAM", type=command_line.program)
    parser.add_argument("name", metavar="NAME", nargs="?", type=command_line.file, default="examples/switch.plan")
    options = parser.parse_args()
    program, schedule = options.program, pathlib.Path(options.name).absolute()
    with tempfile.TemporaryDirectory() as folder:
        source, shim = f"{folder}/shim.c", f"{folder}/shim.so"
        pathlib.Path(source).write_text(SHIM)
        subprocess.run(["gcc", "-O1", "-w", "-shared", "-fPIC", "-o", shim, source, "-ldl"], check=True)
        ample = report(program, schedule, PORT, None)
        refused = report(program, schedule, PORT + 1, shim)
    print(f"{len(ample[1].splitlines())} lines with ample memory, status {ample[0]}: {ample[1].splitlines()[-1].decode()}")
    print(f"{len(refused[1].splitlines())} lines with memory refused, status {refused[0]}; it said: {refused[2].strip()}")
    if "the link is read" not in refused[2]:
        sys.exit("no read of the link was seen, so nothing was refused")
    if refused[:2] != ample[:2]:
        sys.exit("the reports differ")
    print("both reports are alike, and " + ("memory was refused" if "refused" in refused[2] else "no memory was asked for after the first read"))


if __name__ == "__main__":
    command_line.run(main)
