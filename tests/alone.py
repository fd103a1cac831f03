"""Definitions and lemmas with no code: a repository of these alone is checked in seconds, before a library is built."""

from __future__ import annotations

import functools
import os
import re
import shutil
from collections.abc import Collection, Iterable

from places import ROOT, crates

WITH_CODE = ("odb_atoms",)  # what lemmas of nearly all crates need goes through its code
OF_CODE = re.compile(r"\bRattle\.(odb_\w+)\.(?:specs\.(?:declared|contracts)|proofs\.[\w.+-]*(?:Goals|Given|TheSendSync))\b")
PATHS = re.compile(r"\bRattle(?:\.[\w+-]+)+")


def modules(folder: str) -> dict[str, str]:
    """The files of specs/ and proofs/ of all crates, by the names that imports give them."""
    found = {}
    for at, folders, files in os.walk(folder):
        folders[:] = [it for it in folders if it != "out"]
        for file in files:
            name, _, part = os.path.relpath(f"{at}/{file}", folder).partition("/")
            if file.endswith(".antt") and part.startswith(("specs/", "proofs/")):
                found[f"Rattle.{name}.{part[:-len('.antt')].replace('/', '.')}"] = f"{at}/{file}"
    return found


def read(file: str) -> str:
    with open(file, encoding="utf-8") as it:
        return it.read()


@functools.cache
def imports_of(file: str) -> tuple[set[str], set[str]]:
    """What a file of the repository imports, and the crates whose code it speaks of."""
    text = read(file)
    return {*PATHS.findall(text)}, {*OF_CODE.findall(text)} - {*WITH_CODE}


def crate_in(file: str) -> str:
    return os.path.relpath(file, f"{ROOT}/crates").partition("/")[0]


def needed(named: dict[str, str], start: Iterable[str], whole: Collection[str] = ()) -> set[str]:
    """The files that these files import, near and far, with themselves; of whole crates no further."""
    left = list(start)
    seen: set[str] = set()
    while left:
        file = left.pop()
        if file in seen:
            continue
        seen.add(file)
        for path in imports_of(file)[0] if crate_in(file) not in whole else ():
            while path and path not in named:
                path = path.rpartition(".")[0]
            left += [named[path]] if path else []
    return seen


def list_modules(of: str, to: str, file: str = "Lib.antt", inside: str = "") -> None:
    """Copies the list of a folder's modules, and those of the folders in it, with those alone that the copy has."""
    here = f"{to}/{inside}"
    lines = read(f"{of}/{file}").splitlines(keepends=True)

    def is_there(line: str) -> bool:
        named = re.match(r"(?:pub )?mod (\w+)", line)
        return named is None or os.path.isfile(f"{here}/{named[1]}.antt") or os.path.isdir(f"{here}/{named[1]}")

    write(f"{to}/{file}", "".join(filter(is_there, lines)))
    for name in os.listdir(here):
        if os.path.isdir(f"{here}/{name}"):
            list_modules(of, to, os.path.normpath(f"{inside}/{name}.antt").lstrip("/"), f"{inside}/{name}".lstrip("/"))


def write(path: str, text: str) -> None:
    """Writes a file, unless it says this already."""
    os.makedirs(os.path.dirname(path), exist_ok=True)
    if not os.path.isfile(path) or read(path) != text:
        with open(path, "w", encoding="utf-8") as it:
            it.write(text)


def write_alone(to: str, files: Collection[str], whole: Collection[str] = ()) -> None:
    """Writes a repository of these files, with no code but that of whole crates. What it had else goes."""
    kept = {f"{to}/{os.path.relpath(it, ROOT)}" for it in files}
    for file in modules(f"{to}/crates").values() if os.path.isdir(f"{to}/crates") else ():
        if file not in kept and crate_in(f"{ROOT}/{os.path.relpath(file, to)}") not in whole:
            os.remove(file)
    for file in files:
        if crate_in(file) not in whole:
            write(f"{to}/{os.path.relpath(file, ROOT)}", read(file))
    names = {crate_in(it) for it in files}
    for name in names:
        made_whole(to, name) if name in whole else without_code(to, name)
    uses = crates()
    lines = (f"{it}: {' '.join(below for below in uses[it] if below not in uses or below in names)}\n" for it in uses if it in names)
    write(f"{to}/crates.txt", "".join(lines))
    write(f"{to}/HANDLES", read(f"{ROOT}/HANDLES"))
    os.makedirs(f"{to}/.git", exist_ok=True)


def without_code(to: str, name: str) -> None:
    folder = f"{to}/crates/{name}"
    for part in ("specs", "proofs"):
        if os.path.isdir(f"{folder}/{part}"):
            list_modules(f"{ROOT}/crates/{name}/{part}", f"{folder}/{part}")
    write(f"{folder}/src/lib.rt", "//! Definitions.\n#![tactic(auto)]\n")


def made_whole(to: str, name: str) -> None:
    shutil.copytree(f"{ROOT}/crates/{name}", f"{to}/crates/{name}", ignore=shutil.ignore_patterns("out", "must-fail"), dirs_exist_ok=True)


def lemmas_of(names: Collection[str]) -> tuple[set[str], set[str]]:
    """The definitions and lemmas of these crates that need no code, and those that do."""
    named = modules(f"{ROOT}/crates")
    mine = [it for name, it in named.items() if name.split(".")[1] in names and not it.endswith("/Lib.antt")]

    def needs_code(file: str) -> bool:
        return any(imports_of(it)[1] for it in needed(named, [file], WITH_CODE) if crate_in(it) not in WITH_CODE)

    left_out = {it for it in mine if needs_code(it)}
    return needed(named, [it for it in mine if it not in left_out], WITH_CODE), left_out
