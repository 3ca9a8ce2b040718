#!/usr/bin/env python3
"""Times the program on a picture whose code-blocks have 220 pieces each, all of them empty.

usage: bench/pieces.py PROGRAM [PROGRAM ..]

Makes two files in a temporary folder: one tile of 512 by 512 and of 1,024 by 1,024, code-blocks of 4 by 4 in one precinct, 74 planes,
each coding pass terminated, 164 passes in the first layer and 56 in the second. Runs each program on each of them in turn, three times:
`PROGRAM transcode IN OUT`, and reading alone, which is the same run with precincts that are refused once all is read (`--precincts 1x1`,
choice 2). Prints the medians of the seconds by the clock and of the processor, and the most memory that a run took, beside the file.
Only Python's standard library is needed.
"""

import itertools
import os
import statistics
import struct
import subprocess
import sys
import tempfile
import time

SIDES = (512, 1024)
RUNS = 3
LAYERS = (164, 56)


class Bits:
    """The bits of a packet header: after a byte FF comes a bit 0 (T.800 B.10.1)."""

    def __init__(self):
        self.bytes = bytearray()
        self.held = self.count = 0
        self.room = 8

    def bit(self, bit):
        self.held = self.held * 2 + bit
        self.count += 1
        if self.count == self.room:
            self.bytes.append(self.held)
            self.room = 7 if self.held == 0xFF else 8
            self.held = self.count = 0

    def number(self, number, count):
        for place in range(count - 1, -1, -1):
            self.bit(number >> place & 1)

    def zeros(self, count):
        while count and (self.count or self.room == 7):
            self.bit(0)
            count -= 1
        self.bytes.extend(bytes(count // 8))
        self.number(0, count % 8)

    def end(self):
        while self.count:
            self.bit(0)
        if self.bytes and self.bytes[-1] == 0xFF:
            self.bytes.append(0)
        return bytes(self.bytes)


def put_leaf(bits, seen, wide, x, y):
    """A leaf of a tag tree whose numbers are all 0: a bit 1 for each node from the root down that wasn't told before."""
    level = (wide - 1).bit_length()
    for up in range(level, -1, -1):
        node = (up, x >> up, y >> up)
        if node not in seen:
            seen.add(node)
            bits.bit(1)


def packet(wide, passes, trees):
    """A packet in which each block has so many passes, each a segment of no bytes."""
    bits = Bits()
    bits.bit(1)
    for y, x in itertools.product(range(wide), range(wide)):
        if trees is None:
            bits.bit(1)
        else:
            for seen in trees:
                put_leaf(bits, seen, wide, x, y)
        bits.number(511, 9)
        bits.number(passes - 37, 7)
        bits.zeros(1 + 3 * passes)
    return bits.end()


def segment(code, body):
    return bytes([0xFF, code]) + struct.pack(">H", 2 + len(body)) + body


def codestream(side):
    wide = side // 4
    data = packet(wide, LAYERS[0], (set(), set())) + packet(wide, LAYERS[1], None)
    siz = segment(0x51, struct.pack(">H8IH", 0, side, side, 0, 0, side, side, 0, 0, 1) + bytes([7, 1, 1]))
    cod = segment(0x52, struct.pack(">BBHB", 0, 0, len(LAYERS), 0) + bytes([0, 0, 0, 4, 1]))
    # seven guard bits and an exponent of 31 make 37 planes, and the region's shift as many
    qcd = segment(0x5C, bytes([7 << 5, 31 << 3]))
    rgn = segment(0x5E, bytes([0, 0, 37]))
    sot = segment(0x90, struct.pack(">HIBB", 0, 14 + len(data), 0, 1))
    return b"\xFF\x4F" + siz + cod + qcd + rgn + sot + b"\xFF\x93" + data + b"\xFF\xD9"


def timed(words):
    """Seconds by the clock and of the processor, the most memory in KiB, and what was said."""
    with tempfile.TemporaryFile() as said:
        to_file = [(os.POSIX_SPAWN_DUP2, said.fileno(), 1), (os.POSIX_SPAWN_OPEN, 2, os.devnull, os.O_WRONLY, 0)]
        start = time.monotonic()
        pid = os.posix_spawnp(words[0], words, os.environ, file_actions=to_file)
        _, _, used = os.wait4(pid, 0)
        seconds = time.monotonic() - start
        said.seek(0)
        return seconds, used.ru_utime + used.ru_stime, used.ru_maxrss, said.read().decode().strip()


def main(words):
    if not words:
        sys.exit(__doc__)
    if words[0] == "--file":
        with open(words[2], "wb") as file:
            file.write(codestream(int(words[1])))
        return
    with tempfile.TemporaryDirectory() as folder:
        source, target = os.path.join(folder, "in.j2k"), os.path.join(folder, "out.j2k")
        for side in SIDES:
            # (in a process of its own, since one that Python starts begins with Python's memory)
            subprocess.run([sys.executable, __file__, "--file", str(side), source], check=True)
            size = os.path.getsize(source)
            print(f"{side} by {side}, {(side // 4) ** 2:,} code-blocks; {size:,} bytes")
            for program, (name, more) in itertools.product(words, [("reading alone", ["--precincts", "1x1"]), ("writing too", [])]):
                runs = [timed([program, "transcode", source, target, *more]) for _ in range(RUNS)]
                clock, processor = (statistics.median(run[place] for run in runs) for place in (0, 1))
                most = max(run[2] for run in runs)
                print(f"    {name}: {clock:.3f} s, {processor:.3f} s of the processor, {most:,} KiB, {most * 1024 / size:.1f} of the file; {program}: {runs[0][3]}", flush=True)


if __name__ == "__main__":
    main(sys.argv[1:])
