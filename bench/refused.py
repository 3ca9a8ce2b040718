#!/usr/bin/env python3
"""Each allocation and each call of the system refused, one in each run, on the proved program itself.

usage: bench/refused.py PROGRAM

`rt try --fail-alloc N` of the kit refuses one allocation of one run, builds the program anew for it, and has no such word for files; so
this script compiles a small C library (with `cc`) that stands between the program and the C library by LD_PRELOAD, counts what the program
itself asks for, and refuses the Nth: memory, a thread, and the calls on files, these with EIO and with ENOMEM. Calls within the C library
(the ends of a thread, say) aren't refused. Calls on the planned faults of files in memory are tests of jx_transcode and jx_io.

Of each run is asked: it ends with its own status, line and file, or, refused memory, with 9 and `no memory` or nothing said; refused a call
on a file, with 7 and `read fault` or with 8 and nothing said, as the call belongs to input or output; after a refusal an older OUT is
untouched and nothing stands beside it; and what was written to a pipe in place of OUT by then is a front of the whole file. Runs in which
each read and write moves one byte give the same as others. Prints how many calls each run has, and what was answered.
"""
import os
import signal
import struct
import subprocess
import sys
import tempfile
from collections import Counter

SHIM = r"""
#define _GNU_SOURCE
#include <dlfcn.h>
#include <errno.h>
#include <fcntl.h>
#include <link.h>
#include <pthread.h>
#include <stdarg.h>
#include <stdatomic.h>
#include <stdint.h>
#include <stdio.h>
#include <stdlib.h>
#include <sys/mman.h>
#include <sys/stat.h>
#include <sys/syscall.h>
#include <unistd.h>

enum { MEMORY, THREAD, OPEN, READ, WRITE, SYNC, RENAME, UNLINK, LINK_READ, STAT, MODE, CLOSE, SEEK, KINDS };

static _Atomic uint64_t own[KINDS];
static _Atomic uint64_t *counts = own;
static uintptr_t low, high;
static int kind = -1, fault, is_short;
static uint64_t nth;

extern void *__libc_malloc(size_t), *__libc_calloc(size_t, size_t), *__libc_realloc(void *, size_t);

static int find(struct dl_phdr_info *info, size_t size, void *data) {
    for (int at = 0; at < info->dlpi_phnum; at++) {
        const ElfW(Phdr) *part = &info->dlpi_phdr[at];
        if (part->p_type == PT_LOAD && part->p_flags & PF_X) {
            low = info->dlpi_addr + part->p_vaddr;
            high = low + part->p_memsz;
        }
    }
    return 1; // the first one is the program
}

__attribute__((constructor)) static void begin(void) {
    const char *name = getenv("COUNTS"), *refuse = getenv("REFUSE"), *one = getenv("SHORT");
    if (name) {
        int fd = syscall(SYS_openat, AT_FDCWD, name, O_RDWR);
        void *page = mmap(0, sizeof own, PROT_READ | PROT_WRITE, MAP_SHARED, fd, 0);
        syscall(SYS_close, fd);
        if (page != MAP_FAILED) counts = page;
    }
    if (refuse) sscanf(refuse, "%d:%lu:%d", &kind, &nth, &fault);
    is_short = one && *one == '1';
    dl_iterate_phdr(find, 0);
}

// Counts a call from this place, and says whether it is the one to refuse.
static int refuses(int which, void *from) {
    uintptr_t place = (uintptr_t)from;
    if (place < low || place >= high) return 0;
    uint64_t number = atomic_fetch_add(&counts[which], 1) + 1;
    if (which != kind || number != nth) return 0;
    errno = which == MEMORY ? ENOMEM : fault;
    return 1;
}

#define REAL(name) ((__typeof__(&name))dlsym(RTLD_NEXT, #name))
#define FROM __builtin_return_address(0)

void *malloc(size_t size) { return refuses(MEMORY, FROM) ? 0 : __libc_malloc(size); }
void *calloc(size_t count, size_t size) { return refuses(MEMORY, FROM) ? 0 : __libc_calloc(count, size); }
void *realloc(void *old, size_t size) { return refuses(MEMORY, FROM) ? 0 : __libc_realloc(old, size); }
int posix_memalign(void **to, size_t align, size_t size) {
    return refuses(MEMORY, FROM) ? ENOMEM : REAL(posix_memalign)(to, align, size);
}
void *aligned_alloc(size_t align, size_t size) { return refuses(MEMORY, FROM) ? 0 : REAL(aligned_alloc)(align, size); }

int pthread_create(pthread_t *to, const pthread_attr_t *how, void *(*start)(void *), void *with) {
    return refuses(THREAD, FROM) ? EAGAIN : REAL(pthread_create)(to, how, start, with);
}

int open(const char *name, int flags, ...) {
    va_list rest;
    va_start(rest, flags);
    mode_t mode = flags & (O_CREAT | O_TMPFILE) ? va_arg(rest, mode_t) : 0;
    va_end(rest);
    return refuses(OPEN, FROM) ? -1 : syscall(SYS_openat, AT_FDCWD, name, flags, mode);
}

ssize_t read(int fd, void *to, size_t size) {
    return refuses(READ, FROM) ? -1 : syscall(SYS_read, fd, to, is_short && size > 1 ? 1 : size);
}

static ssize_t moved(int fd, const void *from, size_t size) { return syscall(SYS_write, fd, from, is_short && size > 1 ? 1 : size); }
ssize_t write(int fd, const void *from, size_t size) { return refuses(WRITE, FROM) ? -1 : moved(fd, from, size); }
ssize_t __write(int fd, const void *from, size_t size) { return refuses(WRITE, FROM) ? -1 : moved(fd, from, size); }

int fsync(int fd) { return refuses(SYNC, FROM) ? -1 : syscall(SYS_fsync, fd); }
int fdatasync(int fd) { return refuses(SYNC, FROM) ? -1 : syscall(SYS_fdatasync, fd); }
int rename(const char *from, const char *to) { return refuses(RENAME, FROM) ? -1 : syscall(SYS_rename, from, to); }
int unlink(const char *name) { return refuses(UNLINK, FROM) ? -1 : syscall(SYS_unlink, name); }
ssize_t readlink(const char *name, char *to, size_t size) {
    return refuses(LINK_READ, FROM) ? -1 : syscall(SYS_readlink, name, to, size);
}
int statx(int folder, const char *name, int flags, unsigned mask, struct statx *to) {
    return refuses(STAT, FROM) ? -1 : syscall(SYS_statx, folder, name, flags, mask, to);
}
int fchmod(int fd, mode_t mode) { return refuses(MODE, FROM) ? -1 : syscall(SYS_fchmod, fd, mode); }
int chmod(const char *name, mode_t mode) { return refuses(MODE, FROM) ? -1 : syscall(SYS_chmod, name, mode); }
int close(int fd) {
    if (!refuses(CLOSE, FROM)) return syscall(SYS_close, fd);
    syscall(SYS_close, fd);
    errno = fault;
    return -1;
}
off_t lseek(int fd, off_t by, int from) { return refuses(SEEK, FROM) ? -1 : syscall(SYS_lseek, fd, by, from); }
"""
KINDS = ("memory", "thread", "open", "read", "write", "sync", "rename", "unlink", "readlink", "stat", "mode", "close", "seek")
EIO, ENOMEM = 5, 12
OLDER = b"an older file\n"
MOST_SECONDS = 60

SMALL = bytes.fromhex(
    "FF4F FF51 0029 0000 00000001 00000001 00000000 00000000 00000001 00000001 00000000 00000000 0001 07 01 01"
    "FF52 000C 00 00 0001 00 00 04 04 00 01   FF5C 0004 40 40"
    "FF90 000A 0000 0000000F 00 01   FF93   00   FFD9"
)


def with_bodies(bodies, style):
    """The small file with a tile of one code-block for each of these packets."""
    data = bytearray(SMALL[:65])
    data[8:12] = struct.pack(">I", len(bodies))
    data[57] = style
    for tile, body in enumerate(bodies):
        data += struct.pack(">HHHIBB", 0xFF90, 10, tile, 14 + len(body), 0, 1) + b"\xff\x93" + body
    return bytes(data) + b"\xff\xd9"


ONE, FOUR = bytes.fromhex("C02103"), bytes.fromhex("C0741001")
RIGHT, WRONG = bytes.fromhex("C02101"), bytes.fromhex("C02103")
# what a run is called, its input, its words, and the status that it has by itself
RUNS = (
    ("SOP", SMALL, ["--sop"], 0),
    ("segment", with_bodies([ONE], 0), ["--style", "segment"], 0),
    ("terminate, 1 thread", with_bodies([FOUR], 0), ["--style", "terminate", "--threads", "1"], 0),
    ("terminate, 4 threads", with_bodies([FOUR], 0), ["--style", "terminate", "--threads", "4"], 0),
    ("eight terminated, 4 threads", with_bodies([FOUR] * 8, 0), ["--style", "terminate", "--threads", "4"], 0),
    ("two wrong of 8, 4 threads", with_bodies([WRONG if at in (3, 7) else RIGHT for at in range(8)], 32), ["--style", "none", "--threads", "4"], 6),
)


class Answer:
    """How a run ended: status, line, what stands under OUT and beside it, and how many calls of each kind it made."""

    def __init__(self, code, said, out, beside, counts):
        self.code, self.said, self.out, self.beside, self.counts = code, said, out, beside, counts


class Trial:
    def __init__(self, program, shim, folder, data, words):
        self.program, self.shim, self.folder, self.words = program, shim, folder, words
        self.inside = os.path.join(folder, "inside")
        os.mkdir(self.inside)
        self.source, self.target = os.path.join(self.inside, "in"), os.path.join(self.inside, "out")
        self.counts = os.path.join(folder, "counts")
        with open(self.source, "wb") as out:
            out.write(data)

    def run(self, refuse, short=False, pipe=False):
        with open(self.counts, "wb") as out:
            out.write(bytes(8 * len(KINDS)))
        if os.path.lexists(self.target):
            os.remove(self.target)
        reader = None
        if pipe:
            os.mkfifo(self.target)
            reader = os.open(self.target, os.O_RDWR | os.O_NONBLOCK)
        else:
            with open(self.target, "wb") as out:
                out.write(OLDER)
        where = {"LD_PRELOAD": self.shim, "COUNTS": self.counts, "REFUSE": refuse, "SHORT": "1" if short else "0"}
        words = [self.program, "transcode", self.source, self.target] + self.words
        run = subprocess.run(words, env=where, stdout=subprocess.PIPE, stderr=subprocess.DEVNULL, timeout=MOST_SECONDS)
        if pipe:
            try:
                out = os.read(reader, 1 << 20)
            except BlockingIOError:
                out = b""
            os.close(reader)
        else:
            with open(self.target, "rb") as there:
                out = there.read()
        beside = sorted(set(os.listdir(self.inside)) - {"in", "out"})
        for name in beside:
            os.remove(os.path.join(self.inside, name))
        with open(self.counts, "rb") as there:
            counts = struct.unpack(f"{len(KINDS)}Q", there.read())
        return Answer(run.returncode, run.stdout, out, beside, counts)


def allowed(kind, own):
    """The statuses that a run may end with where a call of a kind is refused."""
    if kind == "memory":
        return {own, 9}
    # (the mounts of OUT and of its folder are read too, and need not be known)
    if kind == "read":
        return {own, 7, 9}
    return {own, 7, 8, 9}


def faults(kind, errno, trial, alone, whole, answer, pipe):
    """What is wrong with an answer."""
    found = []
    if answer.code not in allowed(kind, alone.code) or (answer.code == 9 and kind != "memory" and errno != ENOMEM):
        found.append(f"status {answer.code}")
    lines = {alone.code: (alone.said,), 7: (b"read fault\n",), 8: (b"",), 9: (b"no memory\n", b"")}
    if answer.said not in lines.get(answer.code, ()):
        found.append(f"status {answer.code} said {answer.said!r}")
    if answer.beside and kind != "unlink":
        found.append(f"left {answer.beside}")
    if pipe:
        if not whole.startswith(answer.out):
            found.append(f"wrote {answer.out!r}")
        if answer.code == 0 and answer.out != whole:
            found.append("less was written")
        if answer.code == 7 and answer.out:
            found.append("something was written")
    elif answer.out != (whole if answer.code == 0 else OLDER):
        # the line couldn't be said of a file that was whole
        if not (answer.code in (8, 9) and alone.code == 0 and answer.out == whole):
            found.append(f"OUT is {answer.out!r}")
    return found


def tried(trial, name, own):
    """Refuses each call of a run; gives how many faults were found."""
    bad = 0
    alone, piped = trial.run("-1:0:0"), trial.run("-1:0:0", pipe=True)
    whole = piped.out
    if alone.code != own or (own == 0 and alone.out != whole):
        print(f"{name}: by itself status {alone.code}, {alone.said!r}")
        return 1
    for pipe in (False, True):
        slow = trial.run("-1:0:0", short=True, pipe=pipe)
        if (slow.code, slow.said, slow.out) != (alone.code, alone.said, whole if pipe or own == 0 else OLDER):
            bad += 1
            print(f"{name}: byte by byte status {slow.code}, {slow.said!r}")
    for place, kind in enumerate(KINDS):
        for errno in ((ENOMEM,) if kind in ("memory", "thread") else (EIO, ENOMEM)):
            for pipe in (False, True):
                bad += each(trial, name, place, kind, errno, pipe, alone, whole)
    return bad


def each(trial, name, place, kind, errno, pipe, alone, whole):
    """Refuses the first, the second, .. call of a kind until a run meets none."""
    bad, answers, number = 0, Counter(), 0
    while True:
        number += 1
        try:
            answer = trial.run(f"{place}:{number}:{errno}", pipe=pipe)
        except subprocess.TimeoutExpired:
            print(f"{name}: {kind} {number}: no end")
            return bad + 1
        if answer.counts[place] < number:
            break
        answers[answer.code] += 1
        found = faults(kind, errno, trial, alone, whole, answer, pipe)
        if found:
            bad += 1
            print(f"{name}: {kind} {number} {'of memory' if errno == ENOMEM else ''}{' to a pipe' if pipe else ''}: {'; '.join(found)}")
    if number > 1:
        told = ", ".join(f"{code}: {answers[code]}" for code in sorted(answers))
        print(f"{name} | {kind} | {'ENOMEM' if errno == ENOMEM else 'EIO'} | {'pipe' if pipe else 'file'} | {number - 1} | {told}", flush=True)
    return bad


def main():
    if len(sys.argv) != 2:
        sys.exit(__doc__)
    bad = 0
    with tempfile.TemporaryDirectory() as work:
        source, shim = os.path.join(work, "shim.c"), os.path.join(work, "shim.so")
        with open(source, "w") as out:
            out.write(SHIM)
        subprocess.run(["cc", "-O2", "-shared", "-fPIC", "-o", shim, source, "-ldl", "-lpthread"], check=True)
        print("run | call | refused with | OUT | calls | status: runs")
        for at, (name, data, words, own) in enumerate(RUNS):
            folder = os.path.join(work, str(at))
            os.mkdir(folder)
            bad += tried(Trial(os.path.abspath(sys.argv[1]), shim, folder, data, words), name, own)
    print(f"{bad} faults")
    sys.exit(1 if bad else 0)


if __name__ == "__main__":
    signal.signal(signal.SIGPIPE, signal.SIG_DFL)
    main()
