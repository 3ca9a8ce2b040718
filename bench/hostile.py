#!/usr/bin/env python3
"""Damaged codestreams through `PROGRAM transcode` with random options.

usage: bench/hostile.py PROGRAM [-n COUNT] [-j JOBS] [-s SEED] [-k KEPT] [FOLDER ..]

The files are those of the folders (.j2k, .j2c, .jpc, in subfolders too, but bad_*) and generated ones (bench/generated.py). A damage is a cut, some
bits or bytes that are changed, put in or left out, a segment or a tile-part that is moved, doubled or left out, a number of a segment that is
set to one of its ends, or the front of one file before the back of another; one file in twenty has none. COUNT is 1000 where it isn't said,
JOBS 1, SEED 1. The same SEED and folders give the same files and options, whatever JOBS.

Of each run is asked: that it ends with a status of docs/user/statuses.md, and within a minute; that the line on standard output is the status's, and
the text on standard error says the same numbers; that after a refusal OUT is as before, absent or an older file, and nothing stands beside
it; that a file without damage violates nothing; and that a file which was written is read again with as many code-blocks. What fails is
printed, its input is kept in the folder KEPT, and the end status is 1. Then come how often each status and rule came, and the slowest ten.
Python's standard library is needed.
"""
import argparse
import multiprocessing
import os
import random
import re
import shutil
import signal
import sys
import tempfile
import time
from collections import Counter

sys.dont_write_bytecode = True
sys.path.insert(0, os.path.dirname(os.path.abspath(__file__)))
from generated import generated

MOST_SECONDS = 60
OLDER = b"an older file\n"
LINES = {
    0: re.compile(rb"done: ([0-9]+) blocks, ([0-9]+) bytes\n"),
    2: re.compile(rb"words\n"),
    3: re.compile(rb"rule ([1-9]|[12][0-9]|3[01]|37) at ([0-9]+)\n"),
    4: re.compile(rb"limit ([134567]): ([0-9]+)\n"),
    5: re.compile(rb"choice ([1-7]) at ([0-9]+)\n"),
    6: re.compile(rb"block ([0-9]+)\n"),
    9: re.compile(rb"no memory\n"),
}
TOLD = {
    2: lambda line: b"Usage: ",
    3: lambda line: b" at byte %s:\n" % line[2],
    4: lambda line: b"(limit %s)" % line[1],
    5: lambda line: b"choice %s)\n" % line[1],
    6: lambda line: b"code-block %s " % line[1],
    9: lambda line: b"memory",
}
ENDS = (0, 1, 0x7F, 0x80, 0xFE, 0xFF)
STYLES = ("bypass", "reset", "terminate", "causal", "segment")


def segments(data):
    """Where the marker segments of the main header begin and end."""
    found, at = [], 2
    while at + 4 <= len(data) and data[at] == 0xFF and data[at + 1] != 0x90:
        size = 2 + int.from_bytes(data[at + 2:at + 4], "big")
        found.append((at, min(at + size, len(data))))
        at += size
    return found


def tile_parts(data):
    """Where the tile-parts begin and end."""
    parts = segments(data)
    found, at = [], parts[-1][1] if parts else 2
    while at + 12 <= len(data) and data[at:at + 2] == b"\xff\x90":
        size = int.from_bytes(data[at + 6:at + 10], "big") or len(data) - 2 - at
        found.append((at, min(at + size, len(data))))
        if size < 12:
            break
        at += size
    return found


def cut(data, rand, files):
    del data[rand.randrange(len(data)):]


def bits_changed(data, rand, files):
    for _ in range(rand.randint(1, 8)):
        data[rand.randrange(len(data))] ^= 1 << rand.randrange(8)


def bytes_changed(data, rand, files):
    for _ in range(rand.randint(1, 4)):
        data[rand.randrange(len(data))] = rand.choice(ENDS)


def bytes_moved(data, rand, files):
    at = rand.randrange(len(data))
    if rand.random() < 0.5:
        del data[at:at + rand.randint(1, 8)]
    else:
        data[at:at] = bytes(rand.choice(ENDS) for _ in range(rand.randint(1, 8)))


def header_changed(data, rand, files):
    at = rand.randrange(min(len(data), 200))
    data[at] = rand.choice(ENDS + (data[at] + 1 & 255, data[at] - 1 & 255))


def piece_moved(data, rand, files):
    parts = segments(data) if rand.random() < 0.6 else tile_parts(data)
    if not parts:
        return
    low, high = rand.choice(parts)
    piece = bytes(data[low:high])
    how = rand.randrange(3)
    if how < 2:
        del data[low:high]
    if how > 0:
        ends = [end for _, end in segments(data) + tile_parts(data)]
        at = rand.choice([2] + ends)
        data[at:at] = piece


def number_at_end(data, rand, files):
    parts = segments(data) + [(low, min(low + 12, high)) for low, high in tile_parts(data)]
    if not parts:
        return
    low, high = rand.choice(parts)
    size = rand.choice((1, 2, 4))
    if high - low < 2 + size:
        return
    at = rand.randrange(low + 2, high - size + 1)
    now = int.from_bytes(data[at:at + size], "big")
    most = (1 << 8 * size) - 1
    value = rand.choice((0, 1, most, most - 1, most // 2, most // 2 + 1, now + 1, now - 1, now * 2)) & most
    data[at:at + size] = value.to_bytes(size, "big")


def joined(data, rand, files):
    _, other = rand.choice(files)
    del data[rand.randrange(len(data)):]
    data += other[rand.randrange(len(other)):]


DAMAGES = (cut, bits_changed, bytes_changed, bytes_moved, header_changed, piece_moved, number_at_end, joined)


def options(rand):
    """Words behind the names."""
    words = []
    if rand.random() < 0.5:
        words += ["--order", rand.choice(("keep", "lrcp", "rlcp", "rpcl", "pcrl", "cprl"))]
    if rand.random() < 0.3:
        words += ["--precincts", rand.choice(("keep", "max", "7x7", "7x7,8x8", "3x3", "15x1", "0x0", "0x0,1x1", "6x6,5x5,4x4"))]
    if rand.random() < 0.4:
        words += ["--layers", rand.choice(("keep", "one", "cuts:1", "cuts:1,4,7,10", "cuts:220", "planes:1", "planes:3", "planes:74", "ten"))]
    if rand.random() < 0.5:
        names = [name for name in STYLES if rand.random() < 0.4]
        words += ["--style", "+".join(names) if names else rand.choice(("keep", "none"))]
    if rand.random() < 0.3:
        words += ["--tile-parts", rand.choice(("none", "r", "l", "c"))]
    for flag in ("--sop", "--eph", "--plt"):
        if rand.random() < 0.3:
            words.append(flag)
    if rand.random() < 0.4:
        words += ["--threads", str(rand.choice((1, 2, 4, 64))), "--window", str(rand.choice((1, 2, 64, 1024)))]
        words += ["--window-bytes", str(rand.choice((1, 100, 4096, 268435456)))]
    if rand.random() < 0.02:
        words.append(rand.choice(("--up", "--threads=0", "--style=none+none", "third", "--layers")))
    return words


class Runner:
    """Runs of the program in a folder of their own."""

    def __init__(self, program, folder):
        self.program, self.folder = program, folder
        self.source, self.target = os.path.join(folder, "in"), os.path.join(folder, "out")
        self.pid = 0
        signal.signal(signal.SIGALRM, lambda *_: os.kill(self.pid, signal.SIGKILL))

    def run(self, source, target, words):
        """The status, what was said and told, and the seconds."""
        said, told = os.path.join(self.folder, "said"), os.path.join(self.folder, "told")
        flags = os.O_WRONLY | os.O_CREAT | os.O_TRUNC
        actions = [(os.POSIX_SPAWN_OPEN, 1, said, flags, 0o600), (os.POSIX_SPAWN_OPEN, 2, told, flags, 0o600)]
        before = time.monotonic()
        self.pid = os.posix_spawn(self.program, [self.program, "transcode", source, target] + words, {}, file_actions=actions)
        signal.setitimer(signal.ITIMER_REAL, MOST_SECONDS)
        _, status, _ = os.wait4(self.pid, 0)
        signal.setitimer(signal.ITIMER_REAL, 0)
        took = time.monotonic() - before
        texts = []
        for name in (said, told):
            with open(name, "rb") as text:
                texts.append(text.read())
            os.remove(name)
        return os.waitstatus_to_exitcode(status), texts[0], texts[1], took

    def one(self, files, seed, number):
        rand = random.Random(f"{seed} {number}")
        name, data = rand.choice(files) if files and rand.random() < 0.7 else ("generated", generated(rand))
        damage = rand.choice(DAMAGES) if rand.random() < 0.95 else None
        data = bytearray(data)
        if damage:
            damage(data, rand, files or [(name, bytes(data))])
        with open(self.source, "wb") as out:
            out.write(data)
        older = rand.random() < 0.5
        if older:
            with open(self.target, "wb") as out:
                out.write(OLDER)
        words = options(rand)
        code, said, told, took = self.run(self.source, self.target, words)
        faults = self.faults(code, said, told, older, damage)
        if code == 0 and not faults:
            faults = self.read_again(said)
        rule = LINES[3].fullmatch(said)
        label = f"rule {int(rule[1]):2}" if rule else ""
        for other in os.listdir(self.folder):
            if other != "in":
                os.remove(os.path.join(self.folder, other))
        return number, f"{name} {damage.__name__ if damage else 'whole'} {' '.join(words)}", code, label, took, faults

    def faults(self, code, said, told, older, damage):
        if code not in LINES:
            return [f"status {code}, said {said!r}"]
        line = LINES[code].fullmatch(said)
        if not line:
            return [f"status {code} said {said!r}"]
        faults = []
        left = sorted(os.listdir(self.folder))
        if left != (["in", "out"] if older or code == 0 else ["in"]):
            faults.append(f"status {code} left {left}")
        elif code == 0 and os.path.getsize(self.target) != int(line[2]):
            faults.append("another number of bytes")
        elif code != 0 and older:
            with open(self.target, "rb") as out:
                if out.read() != OLDER:
                    faults.append("the older file was changed")
        if told != b"" if code == 0 else TOLD[code](line) not in told or not told.endswith(b"\n"):
            faults.append(f"told {told!r}")
        if damage is None and code in (3, 4):
            faults.append(f"a whole file is refused: {said!r}")
        return faults

    def read_again(self, said):
        code, again, _, _ = self.run(self.target, os.devnull, [])
        if code != 0 or LINES[0].fullmatch(again)[1] != LINES[0].fullmatch(said)[1]:
            return [f"{said!r} is read again as {again!r}"]
        return []


def job(program, files, seed, numbers, kept, pipe):
    """Runs the files of these numbers, and tells of each."""
    with tempfile.TemporaryDirectory() as folder:
        runner = Runner(program, folder)
        for number in numbers:
            answer = runner.one(files, seed, number)
            if answer[-1] and kept:
                shutil.copy(runner.source, os.path.join(kept, f"{seed}-{number}.j2k"))
            pipe.send(answer)
    pipe.send(None)


def read_files(folders):
    files = []
    for folder in folders:
        for where, names, here in os.walk(folder):
            names.sort()
            for name in sorted(here):
                if name.endswith((".j2k", ".j2c", ".jpc")) and not name.startswith("bad_"):
                    with open(os.path.join(where, name), "rb") as source:
                        data = source.read()
                    if len(data) > 16:
                        files.append((name, data))
    return files


def answers(program, files, given):
    """The answers of all jobs as they come."""
    pipes = []
    for first in range(given.jobs):
        ours, theirs = multiprocessing.Pipe(False)
        numbers = range(first, given.count, given.jobs)
        multiprocessing.Process(target=job, args=(program, files, given.seed, numbers, given.kept, theirs)).start()
        theirs.close()
        pipes.append(ours)
    while pipes:
        for pipe in multiprocessing.connection.wait(pipes):
            try:
                answer = pipe.recv()
            except EOFError:
                sys.exit("a job ended by itself")
            if answer is None:
                pipes.remove(pipe)
            else:
                yield answer


def main():
    parser = argparse.ArgumentParser(add_help=True)
    parser.add_argument("program")
    parser.add_argument("folders", nargs="*")
    parser.add_argument("-n", "--count", type=int, default=1000)
    parser.add_argument("-j", "--jobs", type=int, default=1)
    parser.add_argument("-s", "--seed", default="1")
    parser.add_argument("-k", "--kept", default="")
    given = parser.parse_intermixed_args()
    if given.kept:
        os.makedirs(given.kept, exist_ok=True)
    files = read_files(given.folders)
    statuses, rules, slow, bad = Counter(), Counter(), [], 0
    before = time.monotonic()
    for number, label, code, rule, took, faults in answers(os.path.abspath(given.program), files, given):
        statuses[code] += 1
        rules[rule] += 1
        slow = sorted(slow + [(took, number, label)], reverse=True)[:10]
        if faults:
            bad += 1
            print(f"{number} {label}: {'; '.join(faults)}", flush=True)
    took = time.monotonic() - before
    print(f"{given.count} files from {len(files)} and generated ones, seed {given.seed}, in {took:.0f} s: {bad} faults")
    print(", ".join(f"status {code}: {statuses[code]}" for code in sorted(statuses)))
    print(", ".join(f"{rule}: {rules[rule]}" for rule in sorted(rules) if rule))
    for seconds, number, label in slow:
        print(f"{seconds:.3f} s  {number} {label}")
    sys.exit(1 if bad else 0)


if __name__ == "__main__":
    main()
