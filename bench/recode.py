#!/usr/bin/env python3
"""Times coding every block anew against decoding and coding with Debian's OpenJPEG tools (libopenjp2-tools), side by side.

usage: bench/recode.py PROGRAM [PICTURE.ppm]

Without a picture one of 2,048 by 1,536 is made (smooth shades with noise, RGB, 8 bits). It is coded without loss; then, in turn and five
times each, `opj_decompress` and `opj_compress` on 1, 2 and 4 threads, and the program with a style in which every block is coded anew, with
`--threads` 1, 2 and 4, are run on the file; on 8 and 16 threads too, and with another causal bit on one, by which each block is decoded first
and then coded. Then the picture is coded in other ways (lossy at 16:1, code-blocks of other sizes, each style of code-blocks), and three times
each both tools, which code it in that way again, and the program on one thread are run. Prints medians of elapsed and of processor seconds, and
the program's part of the other two together, on as many threads and on one. Python's standard library is needed.
"""

import os
import statistics
import subprocess
import sys
import tempfile
import time

sys.path.insert(0, os.path.dirname(os.path.abspath(__file__)))
from regroup import RUNS, made_picture

THREADS = ("1", "2", "4")
MORE = ("8", "16")
# how the picture is coded, and the style that is asked of the program
KINDS = (
    ("lossy, 16:1", ["-I", "-r", "16"], "terminate"),
    ("code-blocks of 4 by 4", ["-b", "4,4"], "terminate"),
    ("of 1,024 by 4", ["-b", "1024,4"], "terminate"),
    ("of 32 by 32", ["-b", "32,32"], "terminate"),
    ("bypass", ["-M", "1"], "terminate"),
    ("reset", ["-M", "2"], "terminate"),
    ("terminate", ["-M", "4"], "reset"),
    ("causal", ["-M", "8"], "terminate+causal"),
    ("predictable", ["-M", "16"], "terminate"),
    ("segment", ["-M", "32"], "terminate"),
)


def timed(words):
    """Elapsed and processor seconds of one run."""
    null = os.open(os.devnull, os.O_WRONLY)
    to_null = [(os.POSIX_SPAWN_DUP2, null, 1), (os.POSIX_SPAWN_DUP2, null, 2)]
    before = time.monotonic()
    pid = os.posix_spawnp(words[0], words, os.environ, file_actions=to_null)
    _, status, used = os.wait4(pid, 0)
    after = time.monotonic()
    os.close(null)
    if status:
        sys.exit(f"{' '.join(words)} ended with {status}")
    return after - before, used.ru_utime + used.ru_stime


def by_kind(program, picture, path):
    """The tools and the program on the picture coded in each other way."""
    for name, options, style in KINDS:
        coded = path("kind.j2k")
        subprocess.run(["opj_compress", "-i", picture, "-o", coded, *options], stdout=subprocess.DEVNULL, check=True)
        runs = (
            ["opj_decompress", "-threads", "1", "-i", coded, "-o", path("back.ppm")],
            ["opj_compress", "-threads", "1", "-i", picture, "-o", path("again.j2k"), *options],
            [program, "transcode", coded, path("out.j2k"), "--style", style, "--threads", "1"],
        )
        found = [[timed(command)[1] for command in runs] for _ in range(3)]
        back, again, jx = (statistics.median(column) for column in zip(*found))
        print(f"{name} ({os.path.getsize(coded)} bytes): tools {back:.3f} and {again:.3f} s of the processor, jx --style {style} {jx:.3f}; {jx / (back + again):.3f} of both", flush=True)


def main(words):
    if not words:
        sys.exit(__doc__)
    program = words[0]
    with tempfile.TemporaryDirectory() as folder:
        def path(name):
            return os.path.join(folder, name)

        picture = words[1] if len(words) > 1 else path("in.ppm")
        if len(words) < 2:
            made_picture(picture)
        subprocess.run(["opj_compress", "-i", picture, "-o", path("in.j2k")], stdout=subprocess.DEVNULL, check=True)
        runs = {"jx, blocks kept": [program, "transcode", path("in.j2k"), path("out.j2k")]}
        for n in THREADS:
            runs[f"opj_decompress, {n}"] = ["opj_decompress", "-threads", n, "-i", path("in.j2k"), "-o", path("back.ppm")]
            runs[f"opj_compress, {n}"] = ["opj_compress", "-threads", n, "-i", picture, "-o", path("again.j2k")]
            for style in ("terminate", "reset+segment"):
                runs[f"jx --style {style}, {n}"] = [program, "transcode", path("in.j2k"), path("out.j2k"), "--style", style, "--threads", n]
        for n in MORE:
            runs[f"jx --style terminate, {n}"] = [program, "transcode", path("in.j2k"), path("out.j2k"), "--style", "terminate", "--threads", n]
        runs["jx --style causal, 1"] = [program, "transcode", path("in.j2k"), path("out.j2k"), "--style", "causal", "--threads", "1"]
        found = {name: [] for name in runs}
        for _ in range(RUNS):
            for name, command in runs.items():
                found[name].append(timed(command))
        elapsed = {name: statistics.median(one for one, _ in list_) for name, list_ in found.items()}
        used = {name: statistics.median(one for _, one in list_) for name, list_ in found.items()}
        print(f"the file has {os.path.getsize(path('in.j2k'))} bytes; elapsed and processor seconds")
        alone = elapsed["opj_decompress, 1"] + elapsed["opj_compress, 1"]
        for name in runs:
            n = name.rsplit(", ", 1)[1]
            both = elapsed[f"opj_decompress, {n}"] + elapsed[f"opj_compress, {n}"] if n in THREADS else alone
            print(f"{name}: {elapsed[name]:.3f} s, {used[name]:.3f} s; {elapsed[name] / both:.3f} of both on as many threads, {elapsed[name] / alone:.3f} of both on one", flush=True)
        by_kind(program, picture, path)


if __name__ == "__main__":
    main(sys.argv[1:])
