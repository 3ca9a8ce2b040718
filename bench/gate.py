#!/usr/bin/env python3
"""How long a first build and a gate take on so many free processors, by simulation.

usage: bench/gate.py [--lanes N] [--slower F] [--take NAME=MINUTES] [--apart NAME:USER,USER] [--changed NAME] [LOG ..]

Minutes of proofs, of tests' proofs and of edits come by crate from the table "Times" of docs/proof/times.md. LOGs have lines that end with
`NAME: proof passed in S s` (or `tests`, or `edits`); these take the place of the table's, divided by F, by which the machine and what ran
beside made them longer (1). With `--changed` just this crate and those above it are counted, over what is kept of the rest. Two words say
what a change would do, and may stand several times: `--take` sets a crate's proof (or NAME:tests, NAME:edits), and by `--apart` only these
users wait for a crate's proof, as where its definitions stand in a crate below.

Each step takes one processor. A crate's proof waits for those of the crates below it, its tests for the same, its edits for its proof and its
tests; free processors take the step with the longest chain of steps behind it, as `rt ci` does. Building, running, rows and waiting for memory
aren't counted, nor that rt gives a step several processors where others are free. Prints the sums, the longest chain, the dearest crates and
the time by the clock, for the crates of the program alone (what `./jx` builds) and for all.
"""

import argparse
import heapq
import os
import re

TOP = os.path.dirname(os.path.dirname(os.path.realpath(__file__)))


def graph():
    """Returns the crates below each crate."""
    with open(os.path.join(TOP, "crates.txt"), encoding="utf-8") as file:
        found = re.findall(r"^(jx_\w+)[^:\n]*:(.*)$", file.read(), re.M)
    return {name: [it for it in below.split() if it.startswith("jx_")] for name, below in found}


def above(below, name):
    """Returns a crate and those that stand on it."""
    found = {name}
    while True:
        more = {it for it in below if found & set(below[it])} - found
        if not more:
            return found
        found |= more


def table():
    """Returns the minutes that docs/proof/times.md has of each step. A row of several crates is parted evenly."""
    took = {}
    with open(os.path.join(TOP, "docs", "proof", "times.md"), encoding="utf-8") as file:
        times = file.read().partition("## Times")[2].partition("**Where a check's time goes**")[0]
    for line in times.splitlines():
        names, numbers = re.findall(r"`(jx_\w+)`", line), [float(it) for it in re.findall(r"\| ([0-9.]+) (?=\|)", line)]
        for name in names if line.startswith("|") else []:
            if len(numbers) == 4:
                took[name, "proof"] = numbers[0] / len(names)
                took[name, "edits"] = (numbers[2] + numbers[3]) / len(names)
            elif len(numbers) == 1:
                took[name, "tests"] = numbers[0]
    return took


def logged(paths, slower):
    """Returns the minutes that logs have of each step: the last of each."""
    took = {}
    for path in paths:
        with open(path, encoding="utf-8", errors="replace") as file:
            for name, what, seconds in re.findall(r"(jx_\w+): (proof|tests|edits) passed in ([0-9.]+) s$", file.read(), re.M):
                took[name, what] = float(seconds) / 60 / slower
    return took


def needed(below):
    """Returns the crates of the program, all that it stands on."""
    found, left = set(), ["jx_tool"]
    while left:
        name = left.pop()
        if name not in found:
            found.add(name)
            left += below[name]
    return found


def steps(below, took, whole):
    """Returns the steps, each with its minutes and the steps that it waits for."""
    found = {}
    names = below if whole else needed(below)
    for name in names:
        proofs = [(it, "proof") for it in below[name]]
        found[name, "proof"] = (took.get((name, "proof"), 0), proofs)
        if whole and (name, "tests") in took:
            found[name, "tests"] = (took[name, "tests"], proofs)
        if whole and (name, "edits") in took:
            found[name, "edits"] = (took[name, "edits"], [(name, "proof"), *[(name, "tests")] * ((name, "tests") in found)])
    return found


def behind(found):
    """Returns of each step its own minutes and those of the longest chain that waits for it, and the step that goes on with it."""
    waiting = {key: [] for key in found}
    for key, (_, below) in found.items():
        for it in below:
            waiting[it].append(key)
    length, following = {}, {}

    def of(key):
        if key not in length:
            following[key] = max(waiting[key], key=of, default=None)
            length[key] = found[key][0] + (length[following[key]] if following[key] else 0)
        return length[key]

    for key in found:
        of(key)
    return length, following


def clock(found, lanes):
    """Returns when the last step ends."""
    length, _ = behind(found)
    left, ended, running, now = set(found), set(), [], 0.0
    while left or running:
        ready = sorted((key for key in left if all(it in ended for it in found[key][1])), key=lambda key: (-length[key], key))
        for key in ready[: lanes - len(running)]:
            left.remove(key)
            heapq.heappush(running, (now + found[key][0], key))
        now, key = heapq.heappop(running)
        ended.add(key)
    return now


def show(title, found, lanes, names):
    length, following = behind(found)
    key = max(length, key=length.get)
    chain = []
    whole = length[key]
    while key:
        chain.append(f"{key[0]}{'' if key[1] == 'proof' else ' (' + key[1] + ')'} {found[key][0]:.1f}")
        key = following[key]
    print(f"{title}: {sum(it[0] for it in found.values()):.1f} processor minutes, {clock(found, lanes):.1f} by the clock on {lanes}, {clock(found, 64):.1f} on as many as there is work for")
    for what in ("proof", "tests", "edits"):
        total = sum(it[0] for key, it in found.items() if key[1] == what)
        dear = sorted((key for key in found if key[1] == what), key=lambda key: -found[key][0])[:8]
        if total:
            print(f"  {what}: {total:.1f}; the dearest:", ", ".join(f"{name} {found[name, what][0]:.1f}" for name, _ in dear))
    print(f"  longest chain, {whole:.1f}:", ", ".join(chain))
    unknown = [name for name in names if not found[name, "proof"][0]]
    if unknown:
        print("  no figure of:", ", ".join(sorted(unknown)))


def main():
    words = argparse.ArgumentParser(description=__doc__, formatter_class=argparse.RawDescriptionHelpFormatter)
    words.add_argument("logs", nargs="*")
    words.add_argument("--lanes", type=int, default=4)
    words.add_argument("--slower", type=float, default=1)
    words.add_argument("--take", action="append", default=[])
    words.add_argument("--apart", action="append", default=[])
    words.add_argument("--changed")
    words = words.parse_args()
    below = graph()
    took = {**table(), **logged(words.logs, words.slower)}
    for it in words.take:
        name, _, minutes = it.partition("=")
        name, _, what = name.partition(":")
        took[name, what or "proof"] = float(minutes)
    if words.changed:
        changed = above(below, words.changed)
        took = {key: minutes for key, minutes in took.items() if key[0] in changed}
    for it in words.apart:
        name, _, users = it.partition(":")
        for user in set(below) - set(users.split(",")):
            below[user] = [other for other in below[user] if other != name]
    show("first build", steps(below, took, False), words.lanes, needed(below))
    show("gate", steps(below, took, True), words.lanes, [name for name in below if not name.endswith("_tests")])


if __name__ == "__main__":
    main()
