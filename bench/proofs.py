#!/usr/bin/env python3
"""proofs.py FOLDER [COUNT] [--since SECONDS]: what each function took of the last check of a crate.

FOLDER is the crate's, after `rt check --jobs 1` there (with `--test` where the tests are wanted too). The
times are those at which the files in its out/incremental were written: each took what lies between it and the
one before, by the clock, so nothing else should be at work. A check over what an earlier one left writes only
what changed; with --since (seconds since 1970, as `date +%s` says them before it) only that is counted.

For each function: all its seconds, those of its steps (which the toolchain writes, and which grow with calls x
values that must be dropped x ways out), those of the proof over them (where it is the longer one, a tactic
searches), and the megabytes of the steps. Lines without steps are files of lemmas and definitions.
"""
import argparse
import collections
import os
import re

PARTS = "Lts|Proof|Code|Statement|Key|Kinds|TheLink|Layout|Named|Tie|Goals|Answers|Reads|Invariants"


def written(folder, crate, since):
    """The time, name and size of each file of the crate's that was written since then, in the order of times."""
    files = []
    for at, _, names in os.walk(f"{folder}/out/incremental"):
        for name in names:
            if name.startswith(f"Rattle-{crate}") and name.endswith(".oantt"):
                found = os.stat(f"{at}/{name}")
                if found.st_mtime > since:
                    files.append((found.st_mtime, name, found.st_size))
    return sorted(files)


def main():
    words = argparse.ArgumentParser(description=__doc__, formatter_class=argparse.RawDescriptionHelpFormatter)
    words.add_argument("folder")
    words.add_argument("count", nargs="?", type=int, default=25)
    words.add_argument("--since", type=float, default=0)
    words = words.parse_args()
    crate = os.path.basename(os.path.abspath(words.folder))
    files = written(words.folder, crate, words.since)
    if not files:
        raise SystemExit(f"nothing was written in {words.folder}/out/incremental")
    took = collections.defaultdict(lambda: [0.0, 0.0, 0.0, 0.0])
    kinds = collections.Counter()
    before = files[0][0]
    for at, name, size in files:
        kind = "steps" if ".Lts." in name else "proofs" if ".Proof." in name else "other"
        short = name[len(f"Rattle-{crate}") + 1 : -len(".oantt")]
        row = took[re.sub(rf"\.({PARTS})(\.Mir)?(\.decls)?$", "", short)]
        row[0] += at - before
        row[1] += (at - before) * (kind == "steps")
        row[2] += (at - before) * (kind == "proofs")
        if name.endswith(".Lts.oantt"):
            row[3] = max(row[3], size / 1e6)
        kinds[kind] += at - before
        before = at
    print(f"{crate}: {sum(kinds.values()):.0f} s, of them", ", ".join(f"{of} {kinds[of]:.0f}" for of in ("steps", "proofs", "other")))
    print("   all  steps  proof    MB")
    for name, row in sorted(took.items(), key=lambda it: -it[1][0])[: words.count]:
        print("{:6.1f} {:6.1f} {:6.1f} {:5.2f}".format(*row), name)


if __name__ == "__main__":
    main()
