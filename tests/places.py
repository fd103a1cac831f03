"""Where things stand: the repository, its crates, the program that is built of them, and a schema."""

from __future__ import annotations

import os
import re
import shutil
import subprocess
import sys
from collections.abc import Iterator, Sequence

ROOT = os.path.dirname(os.path.dirname(os.path.realpath(__file__)))
PROGRAM = os.path.join(ROOT, "crates", "ovsdbd", "out", "ovsdbd")
NET = os.path.join(ROOT, "crates", "ovsdbd", "data", "net.json")
CACHE = os.environ.get("XDG_CACHE_HOME") or os.path.join(os.path.expanduser("~"), ".cache")
FOLDER = os.path.join(CACHE, "ovsdbd", re.sub(r"\W+", "-", ROOT).strip("-"))  # what is kept of this clone's builds
GENERATED = ("declared", "contracts")  # what the toolchain makes of code, below a crate's specs


def service_environment() -> dict[str, str]:
    """The variables by which the Debian package's service has freed memory go back to the system (mallopt(3))."""
    with open(os.path.join(ROOT, "packaging", "ovsdbd@.service"), encoding="utf-8") as file:
        return dict(re.findall(r"(MALLOC_\w+)=(\d+)", file.read()))


def build() -> None:
    """Proves and builds the program where that is due. Where it can't be, this ends with status 1."""
    if subprocess.run([os.path.join(ROOT, "ovsdbd"), "--help"], stdout=subprocess.DEVNULL, check=False).returncode:
        sys.exit(1)


def kit() -> str:
    """The toolchain's folder, in which its guide stands."""
    ran = subprocess.run(["rt", "doc"], stdout=subprocess.PIPE, text=True, check=True)
    return os.path.dirname(ran.stdout.strip())


def crates(path: str = os.path.join(ROOT, "crates.txt")) -> dict[str, list[str]]:
    """What each crate stands on that crates.txt, or a file of its form, names: by its name, lowest first."""
    with open(path, encoding="utf-8") as file:
        lines = [line.partition(":") for line in file if not line.startswith("#") and line.strip()]
    return {name.strip(): below.split() for name, _, below in lines}


def below(*names: str) -> list[str]:
    """These crates with all of the repository that they stand on, lowest first."""
    uses = crates()
    found: set[str] = set()
    left = list(names)
    while left:
        name = left.pop()
        if name in uses and name not in found:
            found.add(name)
            left += uses[name]
    return [name for name in uses if name in found]


def sources(crate: str, parts: Sequence[str] = ("src", "specs", "proofs")) -> Iterator[str]:
    """The folders and files that a crate is proved and built from."""
    for part in parts:
        for folder, folders, files in os.walk(os.path.join(crate, part)):
            folders.sort()
            yield folder
            yield from (os.path.join(folder, file) for file in sorted(files))


def copy_crates(folder: str, names: Sequence[str]) -> None:
    """Makes a repository of these crates alone, as they stand but for their wrong edits and what was made of them."""
    for name in names:
        crate = os.path.join(ROOT, "crates", name)
        left_out = lambda at, _, crate=crate: {"out", "must-fail"} if at == crate else set()
        shutil.copytree(crate, os.path.join(folder, "crates", name), ignore=left_out)
    with open(os.path.join(ROOT, "crates.txt"), encoding="utf-8") as file:
        lines = [line for line in file if line.partition(":")[0].strip() in names]
    with open(os.path.join(folder, "crates.txt"), "w", encoding="utf-8") as file:
        file.writelines(lines)
    shutil.copy(os.path.join(ROOT, "HANDLES"), folder)
    os.mkdir(os.path.join(folder, ".git"))  # by which the toolchain knows the top of a repository
