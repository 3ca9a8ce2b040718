#!/usr/bin/env python3
"""Times the program on large files, beside `cp`, and says how much memory it takes.

usage: bench/large.py PROGRAM [--picture PICTURE.ppm | --deep] [--most MIB] [--regroup] [--ends] FOLDER

A picture (RGB; without one it is made as bench/regroup.py makes it, 8 bits, or with --deep of 16 bits a sample, 12 of them noise, so that a
code-block has some 4 KB) is coded without loss by Debian's opj_compress (libopenjp2-tools)
in tiles of 256 by 256, and its tiles are repeated to pictures of 6 by 5, 16 by 16, 32 by 32, 64 by 64, 88 by 88 and 128 by 128 tiles, from
4 MB to over 2 GiB, as far as --most goes. Of each size: medians of three runs in turn of `cp`, of `cp` and `sync` of the copy (the program
brings its file to the disk before it has its name, `cp` doesn't), and of `transcode --order rpcl --plt`, elapsed seconds, and the most memory
in parts of the file. Then the largest: every code-block is coded anew by four workers, `same` compares what was
written with the file, OpenJPEG reads its headers and decodes its first and its last tile (not with --regroup). A file of one tile is
regrouped for its memory.

With --ends it does nothing but tell files of 2^32 - 1 and of 2^32 bytes apart, which are sparse: the first has no SOC (rule 15), and to
`boxes` isn't JP2 (rule 36), the second passes limit 1, by `transcode`, `boxes`, `show` and `same`.

FOLDER needs room for four times the largest file, and the machine memory for one and a half (for 4 GiB with --ends). Ends with 1 where an
answer isn't as it should be. Python's standard library and Debian's `time` are needed.
"""

import os
import random
import re
import statistics
import struct
import subprocess
import sys
import time

sys.path.insert(0, os.path.dirname(os.path.abspath(__file__)))
from regroup import made_picture

SIDE = 256
SHAPES = ((6, 5), (16, 16), (32, 32), (64, 64), (88, 88), (128, 128))
RUNS = 3
LIMIT = ["--limit-bytes", "4294967295"]
SOT = 0xFF90


def deep_picture(path):
    """Draws a picture of 2,048 by 1,536, RGB, 16 bits: shades with noise of 12 bits."""
    random.seed(1)
    noise = [random.randrange(4096) for _ in range(65536)]
    at = 0
    with open(path, "wb") as file:
        file.write(b"P6\n2048 1536\n65535\n")
        for y in range(1536):
            row = []
            for x in range(2048):
                for base in (x * 16 + y * 5, x * 3 + y * 20, (x + y) * 12):
                    row.append(base + noise[at & 65535])
                    at += 7919
            file.write(struct.pack(f">{len(row)}H", *row))


def tile_parts(data):
    """The main header, and each tile-part, of a codestream whose tile-parts say their length."""
    at = 2
    while struct.unpack_from(">H", data, at)[0] != SOT:
        at += 2 + struct.unpack_from(">H", data, at + 2)[0]
    main, parts = data[:at], []
    while struct.unpack_from(">H", data, at)[0] == SOT:
        long = struct.unpack_from(">I", data, at + 6)[0]
        parts.append(data[at : at + long])
        at += long
    return main, parts


def repeated(data, wide, high, path):
    """Writes the codestream of wide by high tiles, which are those of the data in turn."""
    main, parts = tile_parts(data)
    main = bytearray(main)
    # Xsiz and Ysiz (A.5.1)
    struct.pack_into(">II", main, 8, wide * SIDE, high * SIDE)
    with open(path, "wb") as file:
        file.write(main)
        for tile in range(wide * high):
            part = bytearray(parts[tile % len(parts)])
            struct.pack_into(">H", part, 4, tile)
            file.write(part)
        file.write(b"\xff\xd9")
    return os.path.getsize(path)


def run(words, wanted=0):
    """Elapsed seconds, KiB of memory and the standard output of a run that has to end with this status."""
    before = time.monotonic()
    ran = subprocess.run(["/usr/bin/time", "-f", "kib %M"] + words, capture_output=True, check=False)
    after = time.monotonic()
    if ran.returncode != wanted:
        sys.exit(f"{' '.join(words)} ended with {ran.returncode}, not {wanted}: {ran.stdout.decode()} {ran.stderr.decode()}")
    kib = int(re.findall(r"^kib (\d+)", ran.stderr.decode(), re.M)[-1])
    return after - before, kib, ran.stdout.decode()


def measured(program, source, out):
    """Medians of `cp`, of `cp` and `sync`, and of regrouping in turn, and the most memory of the last."""
    copies, synced, regroupings, memory = [], [], [], 0
    for _ in range(RUNS):
        for name in (out, out + ".cp"):
            if os.path.exists(name):
                os.remove(name)
        copies.append(run(["cp", source, out + ".cp"])[0])
        os.remove(out + ".cp")
        synced.append(run(["sh", "-c", 'cp "$0" "$1" && sync "$1"', source, out + ".cp"])[0])
        seconds, kib, _ = run([program, "transcode", source, out, "--order", "rpcl", "--plt", *LIMIT])
        regroupings.append(seconds)
        memory = max(memory, kib)
    os.remove(out + ".cp")
    return *(statistics.median(seconds) for seconds in (copies, synced, regroupings)), memory


def largest(program, source, path, tiles):
    """What is done with the largest file beside regrouping it."""
    size = os.path.getsize(source)
    out = path("recoded.j2k")
    for words in (["transcode", source, out, "--style", "terminate", "--threads", "4", *LIMIT], ["same", source, out, "--threads", "4", *LIMIT]):
        seconds, kib, said = run([program, *words])
        print(f"{words[0]} {' '.join(words[3:])}: {seconds:.2f} s, {kib * 1024 / size:.2f} of the file in memory; it says {said.strip()!r}", flush=True)
    run(["opj_dump", "-i", out])
    for tile in (0, tiles - 1):
        seconds, _, _ = run(["opj_decompress", "-i", out, "-o", path("tile.ppm"), "-t", str(tile)])
        print(f"opj_decompress -t {tile}: {seconds:.2f} s, {os.path.getsize(path('tile.ppm'))} bytes", flush=True)


def ends(program, path):
    """Files of 2^32 - 1 and of 2^32 bytes."""
    out = path("out.j2k")
    for size, status, line in ((2**32 - 1, 3, "rule 15 at 0"), (2**32, 4, "limit 1: 4294967296")):
        name = path("sparse.j2k")
        with open(name, "wb") as file:
            file.truncate(size)
        for words in (["transcode", name, out], ["boxes", name], ["show", name], ["same", name, name]):
            # to `boxes` the first isn't JP2
            wanted = (status, "rule 36 at 0" if words[0] == "boxes" and status == 3 else line)
            ran = subprocess.run([program, *words, *LIMIT], capture_output=True, check=False)
            told = (ran.returncode, ran.stdout.decode().split("\n")[0])
            print(f"{size} bytes, {words[0]}: status {told[0]}, {told[1]!r}", flush=True)
            if told != wanted:
                sys.exit(f"wanted {wanted}")
            if os.path.exists(out):
                sys.exit("a file was written")
        os.remove(name)


def main(words):
    picture, most = None, 1 << 40
    said = {name: name in words for name in ("--ends", "--deep", "--regroup")}
    words = [word for word in words if word not in said]
    for name in ("--picture", "--most"):
        if name in words:
            at = words.index(name)
            value = words[at + 1]
            del words[at : at + 2]
            if name == "--picture":
                picture = value
            else:
                most = int(value) << 20
    if len(words) != 2:
        sys.exit(__doc__)
    program, folder = words

    def path(name):
        return os.path.join(folder, name)

    if said["--ends"]:
        ends(program, path)
        return
    if picture is None:
        picture = path("in.ppm")
        (deep_picture if said["--deep"] else made_picture)(picture)
    coding = ["opj_compress", "-i", picture, "-o"]
    subprocess.run([*coding, path("tiled.j2k"), "-t", f"{SIDE},{SIDE}"], stdout=subprocess.DEVNULL, check=True)
    subprocess.run([*coding, path("one.j2k")], stdout=subprocess.DEVNULL, check=True)
    with open(path("tiled.j2k"), "rb") as file:
        data = file.read()
    _, kib, _ = run([program, "transcode", path("one.j2k"), path("out.j2k"), "--order", "rpcl", "--plt"])
    print(f"one tile, {os.path.getsize(path('one.j2k'))} bytes: {kib * 1024 / os.path.getsize(path('one.j2k')):.2f} of the file in memory", flush=True)
    last = None
    for wide, high in SHAPES:
        size = repeated(data, wide, high, path("next.j2k"))
        if size > most:
            break
        os.replace(path("next.j2k"), path("in.j2k"))
        last = wide * high
        copy, synced, regroup, kib = measured(program, path("in.j2k"), path("out.j2k"))
        print(f"{wide} by {high} tiles, {size} bytes: cp {copy:.3f} s, cp and sync {synced:.3f} s, regrouping {regroup:.3f} s, {regroup / copy:.2f} and {regroup / synced:.2f} of them, {size / regroup / 1e6:.0f} MB a second, {kib * 1024 / size:.3f} of the file in memory", flush=True)
    if last and not said["--regroup"]:
        largest(program, path("in.j2k"), path, last)


if __name__ == "__main__":
    main(sys.argv[1:])
