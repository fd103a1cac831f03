#!/usr/bin/env python3
"""Makes a repository for a program that measures, beside this one: its files stand in bench/crates/NAME as a crate's do, with
.txt at their ends, since the toolchain takes .rt and .antt in the crates of crates.txt alone. What each stands on says
bench/crates/uses.txt, in the form of crates.txt.

Usage: bench/programs.py --check [NAME..]    compiles the programs (all if none is named) with checks and without proof, and says
                                             of each whether that goes; the last line is 'N passed, M failed'
"""

import argparse
import contextlib
import os
import re
import shutil
import subprocess
import sys
import tempfile
from concurrent.futures import ThreadPoolExecutor

sys.dont_write_bytecode = True
HERE = os.path.dirname(os.path.realpath(__file__))
sys.path.insert(0, os.path.join(os.path.dirname(HERE), "tests"))
from places import ROOT, below, crates

PROGRAMS = os.path.join(HERE, "crates")


def uses():
    """What each program stands on, by its name."""
    return crates(os.path.join(PROGRAMS, "uses.txt"))


def put(name, folder):
    """Writes a program's crate into a folder."""
    for inner, _, files in os.walk(os.path.join(PROGRAMS, name)):
        to = os.path.join(folder, os.path.relpath(inner, PROGRAMS))
        os.makedirs(to, exist_ok=True)
        for file in files:
            shutil.copyfile(os.path.join(inner, file), os.path.join(to, file.removesuffix(".txt")))


@contextlib.contextmanager
def made(name, is_built=True):
    """The folder of the program's crate in a repository of its own, with the crates that it stands on: as they are built here,
    so that nothing is proved again, or else their sources alone."""
    low, known = below(*uses()[name]), crates()
    with tempfile.TemporaryDirectory(dir=os.path.dirname(ROOT) if is_built else None) as work:
        to = os.path.join(work, "crates")
        os.mkdir(to)
        for crate in low:
            if is_built:
                subprocess.run(["cp", "-al", os.path.join(ROOT, "crates", crate), to], check=True)
            else:
                shutil.copytree(os.path.join(ROOT, "crates", crate), os.path.join(to, crate), ignore=shutil.ignore_patterns("out"))
        put(name, to)
        with open(os.path.join(work, "crates.txt"), "w", encoding="utf-8") as file:
            file.writelines(f"{crate}: {' '.join(known.get(crate, uses().get(crate)))}\n" for crate in [*low, name])
        yield os.path.join(to, name)


def said(name, *words):
    """What `rt` with these words prints in the program's crate; how far it is goes to standard error."""
    with made(name, is_built=words[0] == "run") as folder:
        ran = subprocess.run(["rt", *words], cwd=folder, stdout=subprocess.PIPE, text=True, check=False)
    if ran.returncode:
        sys.exit(f"{name}: rt {' '.join(words)} ends with status {ran.returncode}")
    return ran.stdout


def compiles(name):
    """Whether the program compiles. It is then run for a second, and ended: how it ends says nothing."""
    with made(name, is_built=False) as folder:
        ran = subprocess.run(["rt", "try", "--seconds", "1"], cwd=folder, stdin=subprocess.DEVNULL, stdout=subprocess.PIPE, stderr=subprocess.STDOUT, text=True, check=False)
    is_well = re.search(r"(?m)^run=(?!none)", ran.stdout) is not None
    print(f"{name}: {'compiles' if is_well else ran.stdout[-1500:]}", flush=True)
    return is_well


def main():
    parser = argparse.ArgumentParser(description=__doc__, formatter_class=argparse.RawDescriptionHelpFormatter)
    parser.add_argument("--check", action="store_true", required=True, help="says of each program whether it compiles")
    parser.add_argument("names", metavar="NAME", nargs="*", help="these programs alone")
    names = parser.parse_args().names or uses()
    with ThreadPoolExecutor(len(os.sched_getaffinity(0))) as pool:
        results = list(pool.map(compiles, names))
    print(f"{results.count(True)} passed, {results.count(False)} failed")
    sys.exit(False in results)


if __name__ == "__main__":
    main()
