#!/usr/bin/env python3
"""Times the program on JP2 files of many boxes, and of the largest content.

usage: bench/boxes.py [--runs N] PROGRAM [PROGRAM ..]
       bench/boxes.py --long BYTES PROGRAM

Makes in a temporary folder a JP2 file with so many empty boxes before the codestream's, one with so many in its JP2 header box (`jp2h`), and
ones whose codestream's box goes up to the file's end and has so many bytes (a small codestream, and zeros behind its end). Runs each program
on each of them in turn, five times or N: `PROGRAM boxes IN` and `PROGRAM transcode IN OUT`. Prints the medians of the processor's seconds,
and the most memory that a run took beside that of the smallest file, in files. Python's standard library
and `/usr/bin/time` are needed.

With --long it makes one file, whose codestream's box has so many bytes (say 1073741900, over 2^30) and stands before another box, and looks
at what is written of it. The machine needs memory for three such files. Ends with 1 where it isn't as it should be.
"""

import os
import statistics
import subprocess
import sys
import tempfile

SIGNATURE = bytes.fromhex("0000000C6A5020200D0A870A")
TYPE = bytes.fromhex("00000014667479706A703220000000006A703220")
SMALL = bytes.fromhex(
    "FF4FFF510029000000000001000000010000000000000000000000010000000100000000000000000001070101"
    "FF52000C00000001000004040001FF5C00044040FF90000A00000000000F0001FF9300FFD9"
)
FEW = (25000, 100000, 400000)
INNER = (16384, 65535)
LONG = (1 << 24, 1 << 26, (1 << 28) - 44)


def box(kind, content, length=None):
    length = 8 + len(content) if length is None else length
    return length.to_bytes(4, "big") + kind + content


def files():
    """Yields names of files and their bytes."""
    front = SIGNATURE + TYPE
    yield "the smallest", front + box(b"jp2c", SMALL)
    for count in FEW:
        yield f"{count:,} boxes before the codestream's", front + box(b"free", b"") * count + box(b"jp2c", SMALL)
    for count in INNER:
        yield f"{count:,} boxes in jp2h", front + box(b"jp2h", box(b"free", b"") * count) + box(b"jp2c", SMALL)
    for count in LONG:
        yield f"a content of {count - 40 - len(front):,} bytes up to the end", front + box(b"jp2c", SMALL.ljust(count - 8 - len(front), b"\0"), 0)


def long_box(count, program):
    """Returns whether a file whose codestream's box has so many bytes is written without those behind the codestream's end."""
    front, behind = SIGNATURE + TYPE, box(b"free", b"behind")
    with tempfile.TemporaryDirectory() as folder:
        source, out = os.path.join(folder, "in.jp2"), os.path.join(folder, "out.jp2")
        with open(source, "wb") as file:
            file.write(front + box(b"jp2c", SMALL, count))
            file.seek(len(front) + count)
            file.write(behind)
        ran = subprocess.run([program, "transcode", source, out, "--limit-bytes", "4294967295"], stdin=subprocess.DEVNULL, capture_output=True, check=False)
        made = b""
        if ran.returncode == 0:
            with open(out, "rb") as file:
                made = file.read()
    holds = made == front + box(b"jp2c", SMALL) + behind
    print(f"a box of {count:,} bytes: {'as it should be' if holds else f'{ran.returncode} {ran.stdout} {len(made)} bytes'}")
    return holds


def run(words):
    """The processor's seconds of a run, and the most memory in KiB."""
    ran = subprocess.run(["/usr/bin/time", "-f", "%U %S %M", *words], stdin=subprocess.DEVNULL, stdout=subprocess.DEVNULL, stderr=subprocess.PIPE, check=True)
    user, system, memory = ran.stderr.split()[-3:]
    return float(user) + float(system), int(memory)


def main(words):
    runs = 5
    if words[:1] == ["--long"] and len(words) == 3:
        sys.exit(0 if long_box(int(words[1]), words[2]) else 1)
    if words[:1] == ["--runs"]:
        runs, words = int(words[1]), words[2:]
    if not words:
        sys.exit(__doc__)
    least = {}
    with tempfile.TemporaryDirectory() as folder:
        source, out = os.path.join(folder, "in.jp2"), os.path.join(folder, "out.jp2")
        for name, data in files():
            with open(source, "wb") as file:
                file.write(data)
            size = len(data)
            for program in words:
                for command in (["boxes", source], ["transcode", source, out]):
                    found = [run([program] + command) for _ in range(runs)]
                    seconds = statistics.median(time for time, _ in found)
                    memory = max(memory for _, memory in found)
                    beside = memory - least.setdefault((program, command[0]), memory)
                    print(f"{name}, {size:,} bytes: {program} {command[0]}: {seconds:.3f} s, {beside:,} KiB, {beside * 1024 / size:.2f} files")


if __name__ == "__main__":
    main(sys.argv[1:])
