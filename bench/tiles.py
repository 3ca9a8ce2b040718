#!/usr/bin/env python3
"""Times the program on files of many tiles and components without samples, some with tile headers of their own.

usage: bench/tiles.py [--short] [--same] PROGRAM [PROGRAM ..]

Makes the files in a temporary folder, runs each program on each of them in turn (`PROGRAM transcode IN OUT --sop`), three times
each, and prints the medians of processor seconds and the most memory of a run. With --same each is compared with itself in place of that,
and with files whose headers say the same in other segments. --short leaves the largest files out. A run may take 600 s.
Only Python's standard library is needed.
"""

import os
import resource
import struct
import subprocess
import sys
import tempfile
import time

MOST_SECONDS = 600
LEVELS = 32


def segment(code, body):
    return bytes([0xFF, code]) + struct.pack(">H", 2 + len(body)) + body


def siz(tiles, factors):
    """Tiles of 1 by 1 in a row from (1, 1) on, so that a component has a sample only where both factors are 1."""
    body = struct.pack(">H8IH", 0, 1 + tiles, 2, 1, 1, 1, 1, 1, 1, len(factors))
    return segment(0x51, body + b"".join(bytes([7, factor, factor]) for factor in factors))


def cod(levels):
    return segment(0x52, struct.pack(">BBHB", 1, 0, 1, 0) + bytes([levels, 4, 4, 0, 1]) + bytes([0x55]) * (levels + 1))


def qcd(levels):
    return segment(0x5C, bytes([0x40]) + bytes([0x40]) * (3 * levels + 1))


def rgn(comps, comp):
    return segment(0x5E, struct.pack(">H" if comps > 256 else ">B", comp) + bytes([0, 0]))


def coc(comps, comp, levels):
    return segment(0x53, struct.pack(">H" if comps > 256 else ">B", comp) + bytes([1, levels, 4, 4, 0, 1]) + bytes([0x55]) * (levels + 1))


def codestream(tiles, factors, levels, own, data=b"", more=b""):
    head = siz(tiles, factors) + cod(levels) + qcd(levels) + more
    parts = []
    for tile in range(tiles):
        header = own(tile)
        length = 14 + len(header) + len(data)
        parts.append(segment(0x90, struct.pack(">HIBB", tile, length, 0, 1)) + header + b"\xFF\x93" + data)
    return b"\xFF\x4F" + head + b"".join(parts) + b"\xFF\xD9"


def bare(tiles, comps):
    return codestream(tiles, [255] * comps, 0, lambda tile: b"")


def one_sampled(tiles, comps):
    """The first component has a sample in each tile, so no tile is empty as a whole."""
    return codestream(tiles, [1] + [255] * (comps - 1), 0, lambda tile: b"", b"\0")


def own_region(tiles, comps):
    return codestream(tiles, [255] * comps, LEVELS, lambda tile: rgn(comps, 0))


def own_regions(tiles, comps):
    """No two tiles one after another have the same header."""
    return codestream(tiles, [255] * comps, LEVELS, lambda tile: rgn(comps, tile % comps))


def own_coding(tiles, comps):
    return codestream(tiles, [255] * comps, LEVELS, lambda tile: cod(LEVELS))


# what stands in the file, how it is made, whether it is left out of a short run
FILES = [
    ("4,096 by 4,096, no header of a tile's own", lambda: bare(4096, 4096), False),
    ("the same, but the first component has samples", lambda: one_sampled(4096, 4096), False),
    ("4,096 by 4,096, an RGN in each tile's header", lambda: own_region(4096, 4096), False),
    ("the same, each of another component", lambda: own_regions(4096, 4096), False),
    ("1,024 by 1,024, a COD in each tile's header", lambda: own_coding(1024, 1024), False),
    ("16,384 by 16,384, no header of a tile's own", lambda: bare(16384, 16384), True),
    ("the same, but the first component has samples", lambda: one_sampled(16384, 16384), True),
    ("16,384 by 16,384, an RGN in each tile's header", lambda: own_region(16384, 16384), True),
    ("65,535 by 16,384, an RGN in each tile's header", lambda: own_region(65535, 16384), True),
]


def deep(tiles, comps):
    return codestream(tiles, [255] * comps, LEVELS, lambda tile: b"")


def with_coc(tiles, comps):
    """The same regions, beside a COC in the main header that says what COD says."""
    return codestream(tiles, [255] * comps, LEVELS, lambda tile: rgn(comps, tile % comps), more=coc(comps, 0, LEVELS))


def coding_and_regions(tiles, comps):
    return codestream(tiles, [255] * comps, LEVELS, lambda tile: cod(LEVELS) + rgn(comps, tile % comps))


# what is compared beside each file with itself: two files that say the same
PAIRS = [
    ("4,096 by 4,096, an RGN in each tile's header, each of another component; a COC in one main header", own_regions, with_coc, 4096, 4096),
    ("1,024 by 1,024, a COD in each tile's header of one", own_coding, deep, 1024, 1024),
    ("1,024 by 1,024, an RGN in each tile's header, each of another component, with a COD in one", coding_and_regions, own_regions, 1024, 1024),
]


def run(words):
    """Processor seconds, the most memory in KiB, and what was said."""
    before = resource.getrusage(resource.RUSAGE_CHILDREN)
    process = subprocess.Popen(words, stdin=subprocess.DEVNULL, stdout=subprocess.PIPE, stderr=subprocess.STDOUT)
    end = time.monotonic() + MOST_SECONDS
    try:
        said, _ = process.communicate(timeout=max(1, end - time.monotonic()))
    except subprocess.TimeoutExpired:
        process.kill()
        process.communicate()
        said = f"over {MOST_SECONDS} s".encode()
    after = resource.getrusage(resource.RUSAGE_CHILDREN)
    seconds = after.ru_utime + after.ru_stime - before.ru_utime - before.ru_stime
    return seconds, after.ru_maxrss, said.decode(errors="replace").strip()


def measure(programs, words):
    """Runs each program with these words three times, once where it takes long."""
    for program in programs:
        runs = []
        for _ in range(3):
            runs.append(run([program, *words]))
            if runs[-1][0] > 20:
                break
        seconds = sorted(one[0] for one in runs)[len(runs) // 2]
        memory = max(one[1] for one in runs)
        said = runs[0][2].splitlines()[0] if runs[0][2] else ""
        print(f"    {seconds:8.3f} s  {memory:9,} KiB so far  {program}: {said}", flush=True)


def write(path, data):
    with open(path, "wb") as file:
        file.write(data)
    return path


def main():
    words = sys.argv[1:]
    programs = [word for word in words if word not in ("--short", "--same")]
    if not programs:
        sys.exit(__doc__)
    with tempfile.TemporaryDirectory() as folder:
        source = os.path.join(folder, "in.j2k")
        target = os.path.join(folder, "out.j2k")
        for name, make, large in FILES:
            if large and "--short" in words:
                continue
            write(source, make())
            print(f"{name}; {os.path.getsize(source):,} bytes")
            measure(programs, ["same", source, source] if "--same" in words else ["transcode", source, target, "--sop"])
        for name, make, other, tiles, comps in PAIRS if "--same" in words else []:
            write(source, make(tiles, comps))
            write(target, other(tiles, comps))
            print(f"{name}; {os.path.getsize(source):,} and {os.path.getsize(target):,} bytes")
            measure(programs, ["same", source, target])


if __name__ == "__main__":
    main()
