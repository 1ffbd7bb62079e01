#!/usr/bin/env python3
"""Sees that the compiler refuses each misuse of the unit in tests/misuses/.

    python3 tests/try_misuses.py

The prover is not asked: a misuse is no program, so it cannot be a must-fail edit of a crate. A file there names a
source file, one of its lines, the line in its place, and the error that the compiler has to give. Each check works
on a copy; that the crate compiles as it stands is seen by its proof. Nothing is printed where all is well.
"""
import shutil
import subprocess
import sys
import tempfile
from concurrent.futures import ThreadPoolExecutor
from pathlib import Path

TOP = Path(__file__).resolve().parent.parent


def read_misuse(path):
    return dict(line.split(": ", 1) for line in path.read_text().splitlines())


def compile_crate(folder):
    ran = subprocess.run(["rt", "try", "--test"], cwd=folder, stdin=subprocess.DEVNULL, stdout=subprocess.PIPE, stderr=subprocess.STDOUT, text=True)
    return ran.stdout


def try_misuse(path):
    """What to say of it; nothing where the compiler refuses the misuse as it has to."""
    misuse = read_misuse(path)
    with tempfile.TemporaryDirectory() as room:
        top = Path(room)
        shutil.copytree(TOP / "crates", top / "crates", ignore=shutil.ignore_patterns("out"))
        shutil.copy(TOP / "crates.txt", top)
        source = top / misuse["file"]
        text = source.read_text()
        if text.count(misuse["old"]) != 1:
            return [f"misuse {path.stem}: {misuse['file']} does not have once: {misuse['old']}"]
        source.write_text(text.replace(misuse["old"], misuse["new"]))
        said = compile_crate(top / Path(misuse["file"]).parents[1])
    if f": error[{misuse['refused']}]: " in said and "run=none" in said:
        return []
    return [f"{said}misuse {path.stem}: the compiler does not refuse it with {misuse['refused']}"]


def main():
    misuses = sorted((TOP / "tests/misuses").glob("*.edit"))
    # the gate has two cores
    with ThreadPoolExecutor(2) as pool:
        told = [line for lines in pool.map(try_misuse, misuses) for line in lines]
    told += [] if misuses else ["there is no misuse in tests/misuses/"]
    print("\n".join(told), end="\n" if told else "")
    return 1 if told else 0


if __name__ == "__main__":
    sys.exit(main())
