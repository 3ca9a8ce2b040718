#!/usr/bin/env python3
"""Times the program against decoding and coding anew with Debian's OpenJPEG tools (libopenjp2-tools), side by side.

usage: bench/regroup.py PROGRAM [PICTURE.ppm]

Without a picture one of 2,048 by 1,536 is made (smooth shades with noise, RGB, 8 bits). It is coded without loss; then, in turn and five
times each, `opj_decompress` and `opj_compress` on one thread, and the program with no option, with all three flags, and with another order and
tile-parts are run on the file. Prints medians of processor seconds, the program's part of the other two together, and the most memory that each took beside what
the program takes for the smallest codestream. Python's standard library and Debian's `time` are needed.
"""

import os
import random
import statistics
import subprocess
import sys
import tempfile

WIDE, HIGH = 2048, 1536
RUNS = 5
SMALL = bytes.fromhex(
    "FF4FFF5100290000000000010000000100000000000000000000000100000001000000000000000000010701 01"
    "FF52000C00000001000004040001FF5C00044040FF90000A00000000000F0001FF9300FFD9".replace(" ", "")
)


def made_picture(path):
    random.seed(1)
    rows = bytearray()
    noise = [random.randrange(24) for _ in range(65536)]
    at = 0
    for y in range(HIGH):
        for x in range(WIDE):
            for base in ((x * 7 + y * 3) >> 6, (x * 2 + y * 9) >> 6, (x + y) >> 4):
                rows.append((base + noise[at & 65535]) & 255)
                at += 7919
    with open(path, "wb") as file:
        file.write(b"P6\n%d %d\n255\n" % (WIDE, HIGH) + rows)


def timed(words):
    """Processor seconds of one run."""
    null = os.open(os.devnull, os.O_WRONLY)
    to_null = [(os.POSIX_SPAWN_DUP2, null, 1), (os.POSIX_SPAWN_DUP2, null, 2)]
    pid = os.posix_spawnp(words[0], words, os.environ, file_actions=to_null)
    _, status, used = os.wait4(pid, 0)
    os.close(null)
    if status:
        sys.exit(f"{' '.join(words)} ended with {status}")
    return used.ru_utime + used.ru_stime


def memory_of(words):
    """The most memory in KiB of one run, by Debian's `time`, since a process that Python starts begins as its copy."""
    ran = subprocess.run(["/usr/bin/time", "-f", "%M"] + words, stdout=subprocess.DEVNULL, stderr=subprocess.PIPE, check=True)
    return int(ran.stderr.decode().split()[-1])


def main(words):
    if not words:
        sys.exit(__doc__)
    program = words[0]
    with tempfile.TemporaryDirectory() as folder:
        def path(name):
            return os.path.join(folder, name)

        picture = words[1] if len(words) > 1 else path("in.ppm")
        if len(words) < 2:
            made_picture(picture)
        subprocess.run(["opj_compress", "-i", picture, "-o", path("in.j2k")], stdout=subprocess.DEVNULL, check=True)
        with open(path("small.j2k"), "wb") as file:
            file.write(SMALL)
        runs = {
            "opj_decompress": ["opj_decompress", "-threads", "1", "-i", path("in.j2k"), "-o", path("back.ppm")],
            "opj_compress": ["opj_compress", "-threads", "1", "-i", picture, "-o", path("again.j2k")],
            "jx": [program, "transcode", path("in.j2k"), path("out.j2k")],
            "jx --sop --eph --plt": [program, "transcode", path("in.j2k"), path("out.j2k"), "--sop", "--eph", "--plt"],
            "jx --order rpcl --plt --tile-parts r": [program, "transcode", path("in.j2k"), path("out.j2k"), "--order", "rpcl", "--plt", "--tile-parts", "r"],
            "jx, smallest": [program, "transcode", path("small.j2k"), path("out.j2k")],
        }
        found = {name: [] for name in runs}
        for _ in range(RUNS):
            for name, command in runs.items():
                found[name].append(timed(command))
        memory = {name: memory_of(command) for name, command in runs.items()}
        size = os.path.getsize(path("in.j2k"))
        print(f"the file has {size} bytes")
        seconds = {name: statistics.median(list_) for name, list_ in found.items()}
        both = seconds["opj_decompress"] + seconds["opj_compress"]
        for name in runs:
            beside = (memory[name] - memory["jx, smallest"]) * 1024 / size
            print(f"{name}: {seconds[name]:.4f} s, {seconds[name] / both:.5f} of both, memory {memory[name]} KiB, {beside:.2f} of the file beside the smallest")


if __name__ == "__main__":
    main(sys.argv[1:])
