"""A crate that stands beside the repository's, in a copy of it, for bench/passes.py and tests/forms."""

import os
import shutil
import subprocess

TOP = os.path.dirname(os.path.dirname(os.path.abspath(__file__)))


def below(names):
    """The crates of these names and all that they stand on, in the order of crates.txt, and what else these stand on."""
    with open(os.path.join(TOP, "crates.txt")) as file:
        lines = {line.split(":")[0].split()[0]: line.split(":")[1].split() for line in file if line.strip()}
    wanted = set(names)
    for name in names:
        wanted.update(one for one in lines[name] if one in lines)
    return [name for name in lines if name in wanted]


def copy(root, name, uses, files):
    """Makes a copy of the repository's crates in the folder `root`, gives it the libraries that `rt ci` kept (scripts/prime), and adds a
    crate of this name over the crates that it uses, with these files, by path. Returns the crate's folder."""
    shutil.copytree(os.path.join(TOP, "crates"), os.path.join(root, "crates"), ignore=shutil.ignore_patterns("out", "must-fail"))
    shutil.copytree(os.path.join(TOP, "scripts"), os.path.join(root, "scripts"))
    for file in ("HANDLES", "crates.txt"):
        shutil.copy(os.path.join(TOP, file), root)
    subprocess.run([os.path.join(root, "scripts", "prime")], stdout=subprocess.DEVNULL, check=False)
    with open(os.path.join(root, "crates.txt"), "a") as file:
        file.write(f"{name}: {' '.join(below(uses))} anyhow\n")
    folder = os.path.join(root, "crates", name)
    for path, text in files.items():
        path = os.path.join(folder, path)
        os.makedirs(os.path.dirname(path), exist_ok=True)
        with open(path, "w", encoding="utf8") as file:
            file.write(text)
    return folder
