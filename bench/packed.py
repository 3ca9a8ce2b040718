#!/usr/bin/env python3
"""Times the program on tiles whose packet headers stand in PPM or PPT, beside the same tiles with each header in place.

usage: bench/packed.py [-n RUNS] PROGRAM

Makes four files in a temporary folder: 65,535 tiles of one sample with 256 PPM, and 4,096 with a PPT each; and both
with each header in place. A tile has one packet, of one code-block with a byte. All four are run in turn (`PROGRAM
transcode IN OUT --threads 1`), RUNS times, 5 unless it is given. Of each it prints the least processor seconds and the
most memory, with their shares of those in place. It compares what is written of both files of a pair. Ends with status
1 if that differs, or if a share is above 1.1. Only Python's standard library is needed.
"""

import os
import struct
import subprocess
import sys
import tempfile

MOST = 1.1
SEGMENTS = 256
HEAD, DATA = b"\xc0\x21", b"\x03"
CODING = bytes.fromhex("00000001000004040001")


def segment(code, body):
    return struct.pack(">BBH", 0xFF, code, len(body) + 2) + body


def front(tiles):
    """SOC, SIZ of so many tiles in a row, COD and QCD without levels."""
    siz = struct.pack(">HIIIIIIIIHBBB", 0, tiles, 1, 0, 0, 1, 1, 0, 0, 1, 7, 1, 1)
    return b"\xff\x4f" + segment(0x51, siz) + segment(0x52, CODING) + segment(0x5C, b"\x40\x40")


def parts(tiles, header, data):
    """A tile-part of each tile, and EOC."""
    behind = header + b"\xff\x93" + data
    size = 12 + len(behind)
    heads = (struct.pack(">HIBB", tile, size, 0, 1) for tile in range(tiles))
    return b"".join(segment(0x90, head) + behind for head in heads) + b"\xff\xd9"


def in_place(tiles):
    return front(tiles) + parts(tiles, b"", HEAD + DATA)


def in_ppm(tiles):
    shares = (struct.pack(">I", len(HEAD)) + HEAD) * tiles
    step = -(-len(shares) // SEGMENTS)
    packed = b"".join(segment(0x60, bytes([at // step]) + shares[at : at + step]) for at in range(0, len(shares), step))
    return front(tiles) + packed + parts(tiles, b"", DATA)


def in_ppt(tiles):
    return front(tiles) + parts(tiles, segment(0x61, b"\0" + HEAD), DATA)


def cost(program, source, out):
    """Runs the program once; returns its processor seconds and its memory in MB."""
    words = [program, "transcode", source, out, "--threads", "1"]
    with subprocess.Popen(words, stdin=subprocess.DEVNULL, stdout=subprocess.DEVNULL) as run:
        _, status, used = os.wait4(run.pid, 0)
        run.returncode = os.waitstatus_to_exitcode(status)
    if run.returncode:
        sys.exit(f"{source}: status {run.returncode}")
    return used.ru_utime + used.ru_stime, used.ru_maxrss / 1000


def content(path):
    with open(path, "rb") as file:
        return file.read()


def best(costs):
    """The least seconds and the most memory of some runs."""
    return min(seconds for seconds, _ in costs), max(memory for _, memory in costs)


def main(words):
    runs = 5
    if words[:1] == ["-n"] and words[1:2] and words[1].isdigit() and int(words[1]):
        runs, words = int(words[1]), words[2:]
    if len(words) != 1:
        sys.exit(__doc__)
    wrong = 0
    with tempfile.TemporaryDirectory() as folder:
        files = {"PPM": in_ppm(65535), "PPM, in place": in_place(65535)}
        files.update({"PPT": in_ppt(4096), "PPT, in place": in_place(4096)})
        costs = {name: [] for name in files}
        for name, data in files.items():
            with open(os.path.join(folder, name), "wb") as file:
                file.write(data)
        for _ in range(runs):
            for name, found in costs.items():
                found.append(cost(words[0], os.path.join(folder, name), os.path.join(folder, f"{name}.out")))
        for name in ("PPM", "PPT"):
            (seconds, memory), (before, held) = best(costs[name]), best(costs[f"{name}, in place"])
            shares = (seconds / before, memory / held)
            print(f"{name}: {seconds:.2f} s, in place {before:.2f} s: {shares[0]:.2f}")
            print(f"{name}: {memory:.1f} MB, in place {held:.1f} MB: {shares[1]:.2f}")
            wrong += max(shares) > MOST
            if content(os.path.join(folder, f"{name}.out")) != content(os.path.join(folder, f"{name}, in place.out")):
                print(f"{name}: another file is written than with headers in place")
                wrong += 1
    return 1 if wrong else 0


if __name__ == "__main__":
    sys.exit(main(sys.argv[1:]))
