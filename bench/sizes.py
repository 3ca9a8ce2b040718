#!/usr/bin/env python3
"""Counts what makes the text long or hard to take in, of the crates of the program alone (without references and tests).

usage: python3 bench/sizes.py [--list WHAT] [CRATE..]

Says lines of source, of definitions and of proofs; functions by their number of parameters (`self` isn't one), from seven on; functions of
over 40 lines; files of over 400; lines of over 120, 160 and 200 columns; and files of proofs that cite another crate's proofs. With --list
it lists one of these: parameters, long, files, wide, cited. `git stash`, or a clone of an older commit, gives the figures of before.
"""

import collections
import glob
import os
import re
import sys

TOP = os.path.dirname(os.path.dirname(os.path.realpath(__file__)))
APART = ("_tests", "_plain", "_memory")
FUNCTION = re.compile(r"^\s*(?:pub(?:\([a-z]+\))? )?(?:unsafe )?fn (\w+)")


def crates():
    """Returns the names of the program's crates."""
    with open("crates.txt", encoding="utf-8") as file:
        names = re.findall(r"^(jx_\w+)", file.read(), re.M)
    return [name for name in names if not name.endswith(APART) and name != "jx_generate"]


def lines_of(path):
    """Returns a file's lines."""
    with open(path, encoding="utf-8") as file:
        return file.read().splitlines()


def parameters(text):
    """Counts the parameters between the parentheses that a text begins with, but for `self`."""
    depth, start, found = 0, 0, []
    for at, char in enumerate(text):
        if char in "(<[{":
            depth += 1
        elif char in ")]}" or (char == ">" and text[at - 1] not in "-="):
            depth -= 1
        if (depth == 1 and char == ",") or depth == 0:
            found.append(text[start + 1 : at].strip())
            start = at
        if depth == 0:
            break
    return sum(1 for it in found if it and not re.match(r"^&?(?:'\w+ )?(?:mut )?self$", it))


def functions(lines):
    """Yields each function: its name, its first line, how many parameters it has, and how many lines its body has."""
    for at, line in enumerate(lines):
        found = FUNCTION.match(line)
        if not found:
            continue
        rest = "\n".join(lines[at:])
        begin = rest.index(found[1]) + len(found[1])
        if rest[begin] == "<":
            depth = 0
            for to in range(begin, len(rest)):
                depth += (rest[to] == "<") - (rest[to] == ">" and rest[to - 1] not in "-=")
                if depth == 0:
                    begin = to + 1
                    break
        indent = re.match(r"\s*", line)[0]
        body = next((to for to in range(at, len(lines)) if lines[to] == indent + "{"), None)
        end = next((to for to in range(at, len(lines)) if lines[to].rstrip(",") == indent + "}"), at)
        yield found[1], at + 1, parameters(rest[begin:]), end - body - 1 if body is not None and body < end else end - at


def main():
    words = sys.argv[1:]
    what = words[words.index("--list") + 1] if "--list" in words else ""
    named = [word for word in words if word.startswith("jx_")]
    os.chdir(TOP)
    counts = collections.Counter()
    for crate in named or crates():
        for path in sorted(glob.glob(f"crates/{crate}/**/*", recursive=True)):
            if not path.endswith((".rt", ".antt")) or "/out/" in path:
                continue
            lines = lines_of(path)
            kind = "source" if path.endswith(".rt") else path.split("/")[2]
            counts[f"lines of {kind}"] += len(lines)
            if len(lines) > 400:
                counts["files of over 400 lines"] += 1
                if what == "files":
                    print(f"{path}: {len(lines)}")
            for at, line in enumerate(lines):
                for columns in (120, 160, 200):
                    counts[f"{kind}: lines of over {columns} columns"] += len(line) > columns
                if what == "wide" and len(line) > 160 and kind == "source":
                    print(f"{path}:{at + 1}: {len(line)}")
            if kind == "source":
                for name, line, count, long in functions(lines):
                    counts["functions"] += 1
                    counts["functions of seven parameters and more"] += count >= 7
                    counts["functions of nine parameters and more"] += count >= 9
                    counts["functions of over 40 lines"] += long > 40
                    if what == "parameters" and count >= 7:
                        print(f"{path}:{line}: {name}, {count}")
                    if what == "long" and long > 40:
                        print(f"{path}:{line}: {name}, {long}")
            elif kind == "proofs":
                others = set(re.findall(r"use Rattle\.(jx_\w+)\.proofs\.", "\n".join(lines))) - {crate}
                counts["files of proofs that cite another crate's"] += bool(others)
                if what == "cited" and others:
                    print(f"{path}: {' '.join(sorted(others))}")
    for name in sorted(counts):
        print(f"{counts[name]:>8,}  {name}")


if __name__ == "__main__":
    main()
