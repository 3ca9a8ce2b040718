#!/usr/bin/env python3
"""Times the program, and takes its memory, on files that are extreme in one respect: a sliver beside a large tile, a long coding pass, many
layers, many tile-parts, many precincts; and on a picture whose blocks are kept and coded anew, in one tile and in many.

usage: bench/extremes.py PROGRAM [PROGRAM ..]

Makes the files in a temporary folder and runs each program on each of them in turn, three times. Where a row says "reading alone" the run is
the same with precincts that are refused once all is read (`--precincts 1x1`, choice 2). Prints medians of processor seconds and of seconds by
the clock, and the most memory of a run, beside that of the smallest codestream, also in files. The picture is coded by Debian's OpenJPEG tools
(libopenjp2-tools); without them its rows are left out. Debian's `time` and Python's standard library are needed.
"""

import itertools
import os
import shutil
import statistics
import struct
import subprocess
import sys
import tempfile

sys.path.insert(0, os.path.dirname(os.path.abspath(__file__)))
from pieces import Bits, put_leaf, segment, timed
from regroup import made_picture

RUNS = 3


def siz(x1, y1, x0, y0, tile):
    return segment(0x51, struct.pack(">H8IH", 0, x1, y1, x0, y0, *tile, 0, 0, 1) + bytes([7, 1, 1]))


def cod(order=0, layers=1, levels=0, block=4, style=0, precinct=None):
    """The coding style; blocks of 2^(block + 2) by as many."""
    sizes = b"" if precinct is None else bytes([precinct * 17]) * (levels + 1)
    return segment(0x52, struct.pack(">BBHB", precinct is not None, order, layers, 0) + bytes([levels, block, block, style, 1]) + sizes)


def qcd(levels, guard=2, exponent=8):
    return segment(0x5C, bytes([guard << 5]) + bytes([exponent << 3]) * (3 * levels + 1))


def codestream(headers, parts):
    """`parts` are the data of each tile-part: the tile, its number and count among those of the tile, and its bytes."""
    tiles = [segment(0x90, struct.pack(">HIBB", tile, 14 + len(data), part, count)) + b"\xFF\x93" + data for tile, part, count, data in parts]
    return b"\xFF\x4F" + b"".join(headers) + b"".join(tiles) + b"\xFF\xD9"


def coded(length):
    """Bytes of a segment, with no FF among them."""
    return bytes(at * 37 % 251 for at in range(min(length, 251))) * (length // 251 + 1)


def packet_of_ones(wide, high, length):
    """A packet of blocks with one coding pass and so many bytes each, in one band."""
    bits, seen, planes = Bits(), set(), set()
    bits.bit(1)
    side = max(wide, high)
    for y, x in itertools.product(range(high), range(wide)):
        put_leaf(bits, seen, side, x, y)
        put_leaf(bits, planes, side, x, y)
        # one pass; Lblock as many bits as the length has
        bits.bit(0)
        for _ in range(length.bit_length() - 3):
            bits.bit(1)
        bits.bit(0)
        bits.number(length, max(3, length.bit_length()))
    return bits.end() + coded(length)[:length] * (wide * high)


def sliver():
    """A tile of one column, and one of 4,096 by 4,096 with 4,096 blocks of 4,000 bytes."""
    headers = [siz(8192, 4096, 4095, 0, (4096, 4096)), cod(), qcd(0)]
    return codestream(headers, [(0, 0, 1, b"\0"), (1, 0, 1, packet_of_ones(64, 64, 4000))])


def no_sliver():
    """The second tile alone."""
    return codestream([siz(4096, 4096, 0, 0, (4096, 4096)), cod(), qcd(0)], [(0, 0, 1, packet_of_ones(64, 64, 4000))])


def long_pass():
    """One block of one coding pass in 100,000,000 bytes."""
    return codestream([siz(64, 64, 0, 0, (64, 64)), cod(), qcd(0)], [(0, 0, 1, packet_of_ones(1, 1, 100_000_000))])


def a_pass_a_layer(side):
    """220 layers, in each of which each block of 4 by 4 has one more coding pass, terminated and empty."""
    wide = side // 4

    def packet(layer):
        bits, seen, planes = Bits(), set(), set()
        bits.bit(1)
        for y, x in itertools.product(range(wide), range(wide)):
            if layer:
                bits.bit(1)
            else:
                put_leaf(bits, seen, wide, x, y)
                put_leaf(bits, planes, wide, x, y)
            # one pass, Lblock as it was, no byte
            bits.number(0, 5)
        return bits.end()

    # seven guard bits and an exponent of 31 make 37 planes, and the region's shift as many
    rgn = segment(0x5E, bytes([0, 0, 37]))
    headers = [siz(side, side, 0, 0, (side, side)), cod(layers=220, block=0, style=4), qcd(0, 7, 31), rgn]
    return codestream(headers, [(0, 0, 1, b"".join(map(packet, range(220))))])


def many_layers():
    """65,535 layers of 64 precincts without a pass."""
    headers = [siz(512, 512, 0, 0, (512, 512)), cod(layers=65535, precinct=6), qcd(0)]
    return codestream(headers, [(0, 0, 1, b"\0" * (65535 * 64))])


def many_parts():
    """255 layers of 4,096 precincts without a pass, in 255 tile-parts."""
    headers = [siz(4096, 4096, 0, 0, (4096, 4096)), cod(layers=255, precinct=6), qcd(0)]
    return codestream(headers, [(0, part, 255, b"\0" * 4096) for part in range(255)])


def many_precincts(order):
    """Precincts of 2 by 2 in six resolutions of 1,024 by 512, one packet each, without a pass."""
    count = sum((1024 >> down) * (512 >> down) // 4 for down in range(6))
    headers = [siz(1024, 512, 0, 0, (1024, 512)), cod(order, levels=5, precinct=1), qcd(5)]
    return codestream(headers, [(0, 0, 1, b"\0" * count)])


READING = ("reading alone", ["--precincts", "1x1"])
FILES = [
    ("a sliver of one column and a tile of 4,096 blocks", sliver, [("written", [])]),
    ("that tile alone", no_sliver, [("written", [])]),
    ("a block of one coding pass in 100,000,000 bytes", long_pass, [("kept", []), ("coded anew", ["--style", "segment"]), ("coded anew, terminated", ["--style", "terminate"])]),
    ("256 blocks of 220 passes in 220 layers", lambda: a_pass_a_layer(64), [READING, ("written", []), ("one layer", ["--layers", "one"])]),
    ("4,096 blocks of 220 passes in 220 layers", lambda: a_pass_a_layer(256), [READING, ("written", [])]),
    ("65,535 layers of 64 precincts", many_layers, [READING, ("written", [])]),
    ("255 layers of 4,096 precincts in 255 tile-parts", many_parts, [READING, ("written", []), ("in 255 tile-parts", ["--tile-parts", "l"])]),
    *[(f"174,720 precincts, {name}", lambda order=order: many_precincts(order), [("written", [])]) for order, name in enumerate(("LRCP", "RLCP", "RPCL", "PCRL", "CPRL"))],
]
ANEW = [(f"coded anew, {threads} threads", ["--style", "terminate", "--threads", threads]) for threads in ("1", "4", "64")]


def memory_of(words):
    """The most memory in KiB of one run, by Debian's `time`, since a process that Python starts begins with Python's own."""
    ran = subprocess.run(["/usr/bin/time", "-q", "-f", "%M", *words], stdout=subprocess.DEVNULL, stderr=subprocess.PIPE)
    return int(ran.stderr.decode().split()[-1])


def smallest():
    return codestream([siz(1, 1, 0, 0, (1, 1)), cod(), qcd(0)], [(0, 0, 1, b"\0")])


def pictures(folder):
    """The picture of bench/recode.py, in one tile and in tiles of 256 by 256: names and files."""
    if not shutil.which("opj_compress"):
        return
    picture = os.path.join(folder, "in.ppm")
    made_picture(picture)
    for name, words in (("a picture of 2,048 by 1,536 in one tile", []), ("the same in 48 tiles", ["-t", "256,256"])):
        source = os.path.join(folder, "picture.j2k")
        subprocess.run(["opj_compress", "-i", picture, "-o", source, *words], stdout=subprocess.DEVNULL, check=True)
        yield name, source


def made(folder):
    """Each file's name, its path, and what is run on it."""
    source = os.path.join(folder, "in.j2k")
    for place, (name, _, runs) in enumerate(FILES):
        # (in a process of its own, since one that Python starts begins with Python's memory)
        subprocess.run([sys.executable, __file__, "--file", str(place), source], check=True)
        yield name, source, runs
    for name, source in pictures(folder):
        yield name, source, [("kept", []), *ANEW]


def main(words):
    if not words:
        sys.exit(__doc__)
    if words[0] == "--file":
        with open(words[2], "wb") as file:
            file.write(FILES[int(words[1])][1]() if words[1].isdigit() else smallest())
        return
    with tempfile.TemporaryDirectory() as folder:
        target, least = os.path.join(folder, "out.j2k"), os.path.join(folder, "least.j2k")
        subprocess.run([sys.executable, __file__, "--file", "smallest", least], check=True)
        for name, source, runs in made(folder):
            size = os.path.getsize(source)
            print(f"{name}; {size:,} bytes")
            for program, (what, more) in itertools.product(words, runs):
                base = memory_of([program, "transcode", least, target])
                found = [timed([program, "transcode", source, target, *more]) for _ in range(RUNS)]
                seconds = statistics.median(run[1] for run in found)
                clock = statistics.median(run[0] for run in found)
                most = memory_of([program, "transcode", source, target, *more]) - base
                print(f"    {what}: {seconds:.3f} s of the processor, {clock:.3f} by the clock; {most:,} KiB, {most * 1024 / size:.2f} files; {program}: {found[0][3]}", flush=True)


if __name__ == "__main__":
    main(sys.argv[1:])
