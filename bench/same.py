#!/usr/bin/env python3
"""Times the comparison of two files against reading them, and against decoding both with Debian's OpenJPEG tools (libopenjp2-tools).

usage: bench/same.py PROGRAM [PICTURE.ppm]

Without a picture one of 2,048 by 1,536 is made (smooth shades with noise, RGB, 8 bits). It is coded without loss, and transcoded to another
order with tile-parts, by which every block is kept, and to another style, by which every block is coded anew. Then, in turn and five times
each, the program reads each of the three files alone (`--precincts 1x1`, which is refused once all is read), `opj_decompress` decodes each of
them on one thread, and `jx same` compares the first with each of the others on 1, 2 and 4 threads; the same of code-blocks of 32 by 32 and of
a file with loss at 16:1, three times each, on one thread. Prints medians of elapsed and of processor seconds, a comparison's part of the reading of both
and of the decoding of both, and the most memory of each comparison in sizes of both files, beside what the program takes for the smallest
codestream. Wanted are at most twice the reading of both where blocks are kept, and at most 0.9 of the decoding of both where all are coded
anew, on one thread. Ends with status 1 where a comparison doesn't say `same`. Python's standard library and Debian's `time` are needed.
"""

import os
import statistics
import subprocess
import sys
import tempfile
import time

sys.path.insert(0, os.path.dirname(os.path.abspath(__file__)))
from regroup import RUNS, SMALL, made_picture, memory_of

THREADS = ("1", "2", "4")
FEW = 3
# how the picture is coded otherwise
KINDS = (("code-blocks of 32 by 32", ["-b", "32,32"]), ("lossy, 16:1", ["-I", "-r", "16"]))
# what is made of a file, and with which options
MADE = {"regrouped": ["--order", "rpcl", "--plt", "--tile-parts", "r"], "recoded": ["--style", "terminate"]}
READ_ONLY = ["--precincts", "1x1"]
REFUSED = 5


def timed(words, wanted=0):
    """Elapsed and processor seconds of one run, which has to end with this status."""
    null = os.open(os.devnull, os.O_WRONLY)
    to_null = [(os.POSIX_SPAWN_DUP2, null, 1), (os.POSIX_SPAWN_DUP2, null, 2)]
    before = time.monotonic()
    pid = os.posix_spawnp(words[0], words, os.environ, file_actions=to_null)
    _, status, used = os.wait4(pid, 0)
    after = time.monotonic()
    os.close(null)
    if os.waitstatus_to_exitcode(status) != wanted:
        sys.exit(f"{' '.join(words)} ended with {os.waitstatus_to_exitcode(status)}, not {wanted}")
    return after - before, used.ru_utime + used.ru_stime


def medians(runs, times):
    """Medians of elapsed and of processor seconds of each run, by its name; a run is its words and the status that it ends with."""
    found = {name: [] for name in runs}
    for _ in range(times):
        for name, (words, wanted) in runs.items():
            found[name].append(timed(words, wanted))
    return {name: [statistics.median(column) for column in zip(*list_)] for name, list_ in found.items()}


def made_files(program, picture, path, options):
    """The picture's file, and the files that are made of it, by their names."""
    files = {"coded": path("coded.j2k")}
    subprocess.run(["opj_compress", "-i", picture, "-o", files["coded"], *options], stdout=subprocess.DEVNULL, check=True)
    for name, words in MADE.items():
        files[name] = path(f"{name}.j2k")
        subprocess.run([program, "transcode", files["coded"], files[name], *words], stdout=subprocess.DEVNULL, check=True)
    return files


def compare(program, files, path, threads, times):
    """Times one set of files, and prints what it took."""
    runs = {}
    for name, file in files.items():
        runs[f"reading, {name}"] = ([program, "transcode", file, path("out.j2k"), *READ_ONLY], REFUSED)
        runs[f"opj_decompress, {name}"] = (["opj_decompress", "-threads", "1", "-i", file, "-o", path("back.ppm")], 0)
    for name in MADE:
        for n in threads:
            runs[f"same, {name}, {n}"] = ([program, "same", files["coded"], files[name], "--threads", n], 0)
    took = medians(runs, times)
    for name in runs:
        print(f"  {name}: {took[name][0]:.4f} s, {took[name][1]:.4f} s of the processor", flush=True)
    smallest = memory_of([program, "same", path("small.j2k"), path("small.j2k")])
    for name in MADE:
        reading = took["reading, coded"][1] + took[f"reading, {name}"][1]
        decoding = took["opj_decompress, coded"][1] + took[f"opj_decompress, {name}"][1]
        size = os.path.getsize(files["coded"]) + os.path.getsize(files[name])
        for n in threads:
            elapsed, used = took[f"same, {name}, {n}"]
            memory = memory_of([program, "same", files["coded"], files[name], "--threads", n])
            print(
                f"  same, {name}, {n}: {used / reading:.2f} of reading both, {used / decoding:.3f} of decoding both, {elapsed:.4f} s elapsed,"
                f" memory {(memory - smallest) * 1024 / size:.2f} of both files beside the smallest",
                flush=True,
            )


def main(words):
    if not words:
        sys.exit(__doc__)
    program = words[0]
    with tempfile.TemporaryDirectory() as folder:
        def path(name):
            return os.path.join(folder, name)

        picture = words[1] if len(words) > 1 else path("in.ppm")
        if len(words) < 2:
            made_picture(picture)
        with open(path("small.j2k"), "wb") as file:
            file.write(SMALL)
        for name, options, threads, times in (("without loss", [], THREADS, RUNS), *((name, options, ("1",), FEW) for name, options in KINDS)):
            files = made_files(program, picture, path, options)
            print(f"{name}: " + ", ".join(f"{what} {os.path.getsize(file)} bytes" for what, file in files.items()), flush=True)
            compare(program, files, path, threads, times)


if __name__ == "__main__":
    main(sys.argv[1:])
