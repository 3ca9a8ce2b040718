#!/usr/bin/env python3
"""Searches small codestreams of extreme counts for those that cost the program most.

usage: bench/shapes.py PROGRAM [-n COUNT] [-t SECONDS] [-s SEED] [-b BYTES] [-k KEPT]

Draws codestreams of at most BYTES (100,000): so many tiles, components, resolutions, precincts, layers, code-blocks, tile-parts, progression
changes and headers of tiles' own as fit, all packets empty, and options to rewrite them with; one in ten has too little tile data. One in eight
has headers of many layers over one precinct of many code-blocks instead, of which few are included, all in layer 0. One in eight is a pair for
`same`: the same zeros in code-blocks of two sizes that cross. It stops after COUNT files or SECONDS (600), or when it is told to end. The same SEED (1) gives the same files. Prints how often each status came, and the ten that took
most processor seconds and the ten that took most memory, with what was drawn; the inputs of the dearest are kept in the folder KEPT, where one
is named. A run may take a minute. Python's standard library is needed.
"""

import argparse
import os
import random
import signal
import struct
import subprocess
import sys
import tempfile
import time
from collections import Counter

MOST_SECONDS = 60
MOST_PACKETS = 90_000


def segment(code, body):
    return bytes([0xFF, code]) + struct.pack(">H", 2 + len(body)) + body


def up(value, by):
    return -(-value // by)


class Shape:
    """What is drawn of one codestream, and its bytes."""

    def __init__(self, pick, most):
        self.tiles = (pick.choice((1, 1, 2, 16, 200)), pick.choice((1, 1, 2, 16, 200)))
        self.side = pick.choice((1, 1, 2, 5, 16, 64, 300, 4096))
        self.at = pick.choice((0, 0, 1, 3))
        self.comps = pick.choice((1, 1, 3, 16, 257, 4000, 16384))
        self.factor = pick.choice((1, 1, 1, 2, 255))
        self.levels = pick.choice((0, 0, 1, 2, 5, 32))
        self.precinct = pick.choice((15, 15, 8, 3, 1, 0))
        self.layers = pick.choice((1, 1, 2, 50, 1000, 65535))
        self.block = pick.choice((0, 0, 2, 4))
        self.order = pick.randrange(5)
        self.parts = pick.choice((1, 1, 1, 3, 60, 255))
        self.own = pick.choice(("", "", "", "rgn", "coc", "cod", "qcc"))
        self.changes = pick.choice((0, 0, 0, 1, 8, 32, 250, 7000))
        self.ends = pick.choice(("alike", "alike", "comps", "levels"))
        self.cut = pick.randrange(10) == 0
        self.options = self.drawn_options(pick)
        self.bytes = self.codestream(most)

    def drawn_options(self, pick):
        words = []
        for name, values in (
            ("--order", ("rpcl", "pcrl", "cprl", "rlcp", "lrcp")),
            ("--precincts", ("max", "1x1", "2x2,3x3")),
            ("--layers", ("one", "cuts:1", "planes:1", "cuts:1,2,3,4,5")),
            ("--tile-parts", ("r", "l", "c")),
            ("--style", ("terminate", "reset+segment", "none")),
        ):
            if pick.randrange(3) == 0:
                words += [name, pick.choice(values)]
        return words + [name for name in ("--sop", "--eph", "--plt") if pick.randrange(3) == 0]

    def precincts(self, tile):
        """How many precincts a component has in a tile, in all resolutions."""
        count = 0
        for level in range(self.levels + 1):
            spans = []
            for axis in (0, 1):
                low, high = self.span(tile, axis)
                low, high = (up(up(it, self.factor), 1 << level) for it in (low, high))
                spans.append(up(high, 1 << self.precinct) - (low >> self.precinct) if high > low else 0)
            count += spans[0] * spans[1]
        return count

    def span(self, tile, axis):
        index = tile % self.tiles[0] if axis == 0 else tile // self.tiles[0]
        low = self.side * index
        return max(low, self.at), max(low + self.side, self.at)

    def shape_bytes(self):
        own = bytes([self.precinct * 17]) * (self.levels + 1)
        return bytes([self.levels, self.block, self.block, 0, 1]) + (b"" if self.precinct == 15 else own)

    def cod(self):
        return segment(0x52, struct.pack(">BBHB", self.precinct != 15, self.order, self.layers, 0) + self.shape_bytes())

    def named(self, comp):
        return struct.pack(">H" if self.comps > 256 else ">B", comp)

    def own_header(self, tile):
        comp = self.named(tile % self.comps)
        quant = bytes([0x40]) + bytes([0x40]) * (3 * self.levels + 1)
        return {
            "": b"",
            "rgn": segment(0x5E, comp + bytes([0, 0])),
            "coc": segment(0x53, comp + bytes([self.precinct != 15]) + self.shape_bytes()),
            "cod": self.cod(),
            "qcc": segment(0x5D, comp + quant),
        }[self.own]

    def main_header(self):
        high = [self.side * it for it in self.tiles]
        siz = struct.pack(">H8IH", 0, *high, self.at, self.at, self.side, self.side, 0, 0, self.comps)
        siz += bytes([7, self.factor, self.factor]) * self.comps
        changes = b""
        if self.changes:
            wide = self.comps > 256
            end = min(self.comps, 16384 if wide else 255)
            changes = segment(0x5F, b"".join(self.entry(it, end, wide) for it in range(self.changes)))
        quant = bytes([0x40]) + bytes([0x40]) * (3 * self.levels + 1)
        return b"\xFF\x4F" + segment(0x51, siz) + self.cod() + segment(0x5C, quant) + changes

    def entry(self, number, end, wide):
        """A progression change: the first covers all, later ones the same or less."""
        top = 33 - number % 33 if self.ends == "levels" else 33
        if self.ends == "comps":
            end -= number % end
        return struct.pack(">BHHBHB" if wide else ">BBHBBB", 0, 0, self.layers, top, end, self.order)

    def codestream(self, most):
        """The bytes, or nothing where they would be too many or can't be had."""
        count = self.tiles[0] * self.tiles[1]
        if self.at >= self.side or count > 65535 or len(self.own_header(0)) * count > most or 3 * self.comps > 49000:
            return b""
        out, packets = [self.main_header()], 0
        for tile in range(count):
            here = self.precincts(tile) * self.comps * self.layers
            packets += here
            if packets > MOST_PACKETS or 14 * (tile + 1) * self.parts + packets > most:
                return b""
            left = here // 2 if self.cut else here
            for part in range(self.parts):
                header = self.own_header(tile) if part == 0 else b""
                data = left // (self.parts - part)
                left -= data
                sot = struct.pack(">HIBB", tile, 14 + len(header) + data, part, self.parts)
                out.append(segment(0x90, sot) + header + b"\xFF\x93" + bytes(data))
        whole = b"".join(out) + b"\xFF\xD9"
        return whole if len(whole) <= most else b""

    def words(self, source, target):
        return ["transcode", source, target, *self.options]

    def told(self):
        names = "tiles side at comps factor levels precinct layers block order parts own changes ends cut".split()
        return " ".join(f"{name} {getattr(self, name)}" for name in names) + " " + " ".join(self.options)


class Headers:
    """What is drawn of one precinct whose packets have headers, and its bytes."""

    def __init__(self, pick, most):
        self.wide, self.high = (pick.choice((1, 2, 30, 256, 2048)) for _ in (0, 1))
        self.layers = pick.choice((2, 50, 1000, 65535))
        self.options = ["--layers", "keep"] if pick.randrange(2) else []
        count = min(pick.choice((1, 1, 3, 40)), self.wide * self.high)
        self.included = sorted(divmod(at, self.wide) for at in pick.sample(range(self.wide * self.high), count))
        self.sizes = [(self.wide, self.high)]
        while self.sizes[-1] != (1, 1):
            self.sizes.append(tuple(up(it, 2) for it in self.sizes[-1]))
        self.bytes = self.codestream(most)

    def way(self, down, across):
        return [(level, down >> level, across >> level) for level in reversed(range(len(self.sizes)))]

    def headers(self):
        """The bits of the first packet's header, and those of each later one (T.800 B.10)."""
        settled = {node for block in self.included for node in self.way(*block)}
        below = {(level - 1, 2 * y + j, 2 * x + i) for level, y, x in settled if level for j in (0, 1) for i in (0, 1)}
        beside = {(level, y, x) for level, y, x in below - settled if x < self.sizes[level][0] and y < self.sizes[level][1]}
        bits, seen, zeros = [1], set(), set()
        for block in sorted({(y << level, x << level) for level, y, x in beside} | set(self.included)):
            for node in self.way(*block):
                if node not in seen:
                    seen.add(node)
                    bits.append(int(node in settled))
                if node not in settled:
                    break
            else:
                fresh = set(self.way(*block)) - zeros
                zeros |= fresh
                bits += [1] * len(fresh) + [0, 0, 0, 0, 1]
        return bits, [1] + [0] * (len(self.included) + len(beside))

    def codestream(self, most):
        first, later = map(packed, self.headers())
        data = first + b"\x03" * len(self.included)
        if len(data) + len(later) * (self.layers - 1) > most - 100:
            return b""
        data += later * (self.layers - 1)
        siz = struct.pack(">H8IH", 0, *(4 * self.wide, 4 * self.high, 0, 0) * 2, 1) + bytes([7, 1, 1])
        cod = struct.pack(">BBHB", 0, 0, self.layers, 0) + bytes([0, 0, 0, 0, 1])
        sot = struct.pack(">HIBB", 0, 14 + len(data), 0, 1)
        head = b"\xFF\x4F" + segment(0x51, siz) + segment(0x52, cod) + segment(0x5C, b"\x40\x40")
        return head + segment(0x90, sot) + b"\xFF\x93" + data + b"\xFF\xD9"

    def words(self, source, target):
        return ["transcode", source, target, *self.options]

    def told(self):
        return f"blocks {self.wide} by {self.high} layers {self.layers} included {len(self.included)} " + " ".join(self.options)


def packed(bits):
    """The bytes of a header, with a 0 stuffed after each FF (T.800 B.10.1)."""
    out, room, now = bytearray(), 8, 0
    for bit in bits:
        room -= 1
        now |= bit << room
        if room == 0:
            out.append(now)
            room, now = 7 if now == 0xFF else 8, 0
    if room < 8:
        out.append(now)
    return bytes(out)


class Crossed:
    """Two codestreams of one component without anything in it, in code-blocks of two sizes, for `same`."""

    def __init__(self, pick, most):
        sizes = [(x, y) for x in range(2, 11) for y in range(2, 11) if x + y <= 12]
        self.size = (1 << pick.randrange(2, 14), 1 << pick.randrange(2, 14))
        self.blocks = (pick.choice(sizes), pick.choice(sizes))
        self.passes = pick.choice((0, 0, 1, 10, 109))
        self.threads = pick.choice((1, 2, 4, 64))
        self.bytes, self.other = (self.codestream(block, most) for block in self.blocks)
        if not self.other:
            self.bytes = b""

    def packet(self, across, down):
        """One packet, in which each code-block is included with all passes, without a byte and a zero plane (T.800, B.10)."""
        if self.passes == 0:
            return b"\0"
        more = self.passes
        count = "0" if more == 1 else "10" if more == 2 else "11" + format(more - 3, "02b") if more < 6 else ""
        count = count or ("1111" + format(more - 6, "05b") if more < 37 else "1" * 9 + format(more - 37, "07b"))
        count += "0" + "0" * (2 + more.bit_length())
        height = (max(across, down) - 1).bit_length()
        bits = ["1"]
        for y in range(down):
            for x in range(across):
                # the nodes of both tag trees whose first code-block this is
                own = min(height, *((it & -it).bit_length() - 1 for it in (x, y) if it), 99)
                bits.append("11" * (own + 1) + count)
        bits, out, at = "".join(bits), bytearray(), 0
        while at < len(bits) or out[-1] == 0xFF:
            room = 7 if out and out[-1] == 0xFF else 8
            out.append(int(bits[at : at + room].ljust(room, "0") or "0", 2))
            at += room
        return bytes(out)

    def codestream(self, block, most):
        across, down = (up(it, 1 << by) for it, by in zip(self.size, block))
        if across * down > (8 * most // (3 + self.passes.bit_length()) if self.passes else 1 << 22):
            return b""
        data = self.packet(across, down)
        siz = struct.pack(">H8IHBBB", 0, *self.size, 0, 0, *self.size, 0, 0, 1, 7, 1, 1)
        cod = struct.pack(">BBHBBBBBB", 0, 0, 1, 0, 0, block[0] - 2, block[1] - 2, 0, 1)
        head = b"\xFF\x4F" + segment(0x51, siz) + segment(0x52, cod) + segment(0x5C, bytes([0xE0, 31 << 3]))
        whole = head + segment(0x90, struct.pack(">HIBB", 0, 14 + len(data), 0, 1)) + b"\xFF\x93" + data + b"\xFF\xD9"
        return whole if len(whole) <= most else b""

    def words(self, source, target):
        with open(target, "wb") as file:
            file.write(self.other)
        return ["same", source, target, "--threads", str(self.threads)]

    def told(self):
        return f"same: {self.size} blocks {self.blocks} passes {self.passes} threads {self.threads}"


def run(program, words):
    """Processor seconds, KiB and status of one run."""
    null = os.open(os.devnull, os.O_WRONLY)
    actions = [(os.POSIX_SPAWN_DUP2, null, 1), (os.POSIX_SPAWN_DUP2, null, 2)]
    pid = os.posix_spawnp("timeout", ["timeout", str(MOST_SECONDS), program, *words], os.environ, file_actions=actions)
    _, status, used = os.wait4(pid, 0)
    os.close(null)
    return used.ru_utime + used.ru_stime, used.ru_maxrss, os.waitstatus_to_exitcode(status)


def main():
    words = argparse.ArgumentParser(usage=__doc__)
    words.add_argument("program")
    for name, default in (("-n", 10**9), ("-t", 600), ("-s", 1), ("-b", 100_000)):
        words.add_argument(name, type=int, default=default)
    words.add_argument("-k")
    asked = words.parse_args()
    pick, end, seen, found = random.Random(asked.s), time.monotonic() + asked.t, Counter(), []
    with tempfile.TemporaryDirectory() as folder:
        source, target = os.path.join(folder, "in.j2k"), os.path.join(folder, "out.j2k")
        signal.signal(signal.SIGTERM, lambda *_: asked.__setattr__("n", 0))
        while sum(seen.values()) < asked.n and time.monotonic() < end:
            shape = pick.choice((Headers, Crossed, *(Shape,) * 6))(pick, asked.b)
            if not shape.bytes:
                continue
            with open(source, "wb") as file:
                file.write(shape.bytes)
            seconds, most, status = run(asked.program, shape.words(source, target))
            seen[status] += 1
            found.append((seconds, most, len(shape.bytes), status, shape.told(), shape.bytes))
            found = sorted({it for by in (0, 1) for it in sorted(found, key=lambda it: -it[by])[:10]}, key=lambda it: -it[0])
    print("status:", ", ".join(f"{status} {count} times" for status, count in sorted(seen.items())))
    for title, by in (("most seconds", 0), ("most memory", 1)):
        print(title)
        for at, it in enumerate(sorted(found, key=lambda it: -it[by])[:10]):
            print(f"  {it[0]:.3f} s {it[1]:,} KiB, {it[2]:,} bytes, status {it[3]}: {it[4]}")
            if asked.k:
                os.makedirs(asked.k, exist_ok=True)
                with open(os.path.join(asked.k, f"{title.split()[1]}_{at}.j2k"), "wb") as file:
                    file.write(it[5])


if __name__ == "__main__":
    main()
