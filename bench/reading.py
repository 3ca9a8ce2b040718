#!/usr/bin/env python3
"""Times the program on files whose headers are small and whose tiles, components, precincts or layers are many.

usage: bench/reading.py PROGRAM [PROGRAM ..]

Makes the files in a temporary folder, runs each program on each of them in turn (`PROGRAM transcode IN OUT --sop`), three
times each, and prints the medians in seconds beside what the program said. Files of many code-blocks are also read alone: the
same run with precincts that are refused once all is read (`--precincts 1x1`, choice 2). Only Python's standard library is needed.
"""

import itertools
import os
import struct
import subprocess
import sys
import tempfile
import time

MOST_SECONDS = 300


def segment(code, body):
    return bytes([0xFF, code]) + struct.pack(">H", 2 + len(body)) + body


def siz(x1, y1, x0, y0, tw, th, tx, ty, comps, factor):
    body = struct.pack(">H8IH", 0, x1, y1, x0, y0, tw, th, tx, ty, comps)
    return segment(0x51, body + bytes([7, factor, factor]) * comps)


def cod(layers, levels, xcb=4, ycb=4):
    return segment(0x52, struct.pack(">BBHB", 0, 0, layers, 0) + bytes([levels, xcb, ycb, 0, 1]))


def coc(comp, levels):
    return segment(0x53, struct.pack(">HB", comp, 0) + bytes([levels, 4, 4, 0, 1]))


def qcd(levels):
    return segment(0x5C, bytes([0x40]) + bytes([0x40]) * (3 * levels + 1))


def poc(entries, comps):
    entry = struct.pack(">BHHBHB", 0, 0, 1, 33, comps, 0)
    return segment(0x5F, entry * entries)


def tile_part(tile, data):
    return segment(0x90, struct.pack(">HIBB", tile, 14 + len(data), 0, 1)) + b"\xFF\x93" + data


def codestream(headers, parts):
    return b"\xFF\x4F" + b"".join(headers) + b"".join(parts) + b"\xFF\xD9"


def no_samples(tiles, comps):
    """Tiles of 1 by 1 in a row whose components have no sample; every tile-part is empty."""
    headers = [siz(1 + tiles, 2, 1, 1, 1, 1, 1, 1, comps, 255), cod(1, 0), qcd(0)]
    return codestream(headers, [tile_part(tile, b"") for tile in range(tiles)])


def many_entries():
    headers = [siz(2, 2, 1, 1, 1, 1, 1, 1, 16384, 255), cod(1, 32), qcd(32), poc(728, 16384)]
    return codestream(headers, [tile_part(0, b"")])


def many_blocks(layers, packet):
    headers = [siz(4096, 4096, 0, 0, 4096, 4096, 0, 0, 1, 1), cod(layers, 0, 0, 0), qcd(0)]
    return codestream(headers, [tile_part(0, packet * layers)])


def many_coc():
    headers = [siz(1, 1, 0, 0, 1, 1, 0, 0, 16384, 1), cod(1, 5), qcd(5)]
    headers += [coc(comp, 5) for comp in range(16384)]
    return codestream(headers, [tile_part(0, b"\0" * (6 * 16384))])


FILES = [
    ("16,384 tiles of 16,384 components without a sample", lambda: no_samples(16384, 16384)),
    ("4,096 tiles of 4,096 components without a sample", lambda: no_samples(4096, 4096)),
    ("16,384 empty components, 32 levels, 728 entries of POC", many_entries),
    ("2^20 code-blocks in one precinct, 655 layers, packets 80", lambda: many_blocks(655, b"\x80")),
    ("2^20 code-blocks in one precinct, 65,535 layers, packets 00", lambda: many_blocks(65535, b"\0")),
    ("16,384 components with a COC each, six resolutions", many_coc),
]


def timed(program, source, target, words):
    start = time.monotonic()
    try:
        run = subprocess.run(
            [program, "transcode", source, target, *words],
            capture_output=True,
            timeout=MOST_SECONDS,
        )
        said = run.stdout.decode().strip()
    except subprocess.TimeoutExpired:
        said = f"over {MOST_SECONDS} s"
    return time.monotonic() - start, said


def main():
    programs = sys.argv[1:]
    if not programs:
        sys.exit(__doc__)
    with tempfile.TemporaryDirectory() as folder:
        source = os.path.join(folder, "in.j2k")
        target = os.path.join(folder, "out.j2k")
        for name, make in FILES:
            data = make()
            with open(source, "wb") as file:
                file.write(data)
            print(f"{name}; {len(data):,} bytes")
            alone = [["--precincts", "1x1"]] if "code-blocks" in name else []
            for program, words in itertools.product(programs, [["--sop"], *alone]):
                runs = []
                for _ in range(3):
                    runs.append(timed(program, source, target, words))
                    if runs[-1][0] > 20:
                        break
                seconds = sorted(seconds for seconds, _ in runs)[len(runs) // 2]
                said = runs[0][1].splitlines()[0] if runs[0][1] else ""
                print(f"    {seconds:8.3f} s  {program} {' '.join(words)}: {said}", flush=True)


if __name__ == "__main__":
    main()
