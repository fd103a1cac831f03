"""What a bench measured, kept as JSON for bench/plot: the figures of each server, with the machine, the versions and the command.

    figures.word(parser)                       adds --json FILE to the words of a bench
    figures.words_of(__doc__)                  reads the words of a bench of one program
    figures.keep(words.json, "serve", results) writes the file, where one was named; results are {server: {what: figures}}
"""

from __future__ import annotations

import argparse
import datetime
import json
import os
import shlex
import subprocess
import sys
from collections.abc import Mapping, Sequence
from typing import Any, Union

sys.path.insert(0, os.path.join(os.path.dirname(os.path.dirname(os.path.realpath(__file__))), "tests"))
from daemon import SERVER
from places import PROGRAM, ROOT


Figures = Union[float, Sequence[float]]


def word(parser: argparse.ArgumentParser) -> None:
    parser.add_argument("--json", metavar="FILE", help="writes what was measured there, for bench/plot")


def words_of(doc: str) -> argparse.Namespace:
    parser = argparse.ArgumentParser(description=doc.split("\n", maxsplit=1)[0])
    parser.add_argument("program", metavar="PROGRAM", nargs="?", default=PROGRAM)
    word(parser)
    return parser.parse_args()


def said(*words: str) -> str:
    """The first line that a command prints, '' where it isn't there or fails."""
    try:
        return subprocess.run(words, cwd=ROOT, capture_output=True, text=True, check=True).stdout.partition("\n")[0].strip()
    except (OSError, subprocess.CalledProcessError):
        return ""


def machine() -> dict[str, Any]:
    with open("/proc/cpuinfo") as file:
        names = [line.partition(":")[2].strip() for line in file if line.startswith("model name")]
    with open("/proc/meminfo") as file:
        memory = int(file.readline().split()[1])
    return {"processor": names[0] if names else "unknown", "cores": len(os.sched_getaffinity(0)), "memory": f"{memory / 1048576:.0f} GiB", "kernel": os.uname().release}


def versions() -> dict[str, str]:
    changed = said("git", "status", "--porcelain", "crates")
    found = {"ovsdbd": said("git", "rev-parse", "--short", "HEAD") + (" with changes" if changed else "")}
    if SERVER:
        found["ovsdb-server"] = said(SERVER, "--version").rpartition(" ")[2]
    return found


def numbers(given: Figures) -> list[float]:
    return list(given) if isinstance(given, Sequence) else [given]


def keep(path: str | None, bench: str, results: Mapping[str, Mapping[str, Figures]]) -> None:
    """Writes what was measured. How busy the machine was stands beside it: it was busy with the bench itself too."""
    if not path:
        return
    whats = dict.fromkeys(what for result in results.values() for what in result)
    data = {
        "bench": bench,
        "command": shlex.join([os.path.relpath(os.path.realpath(sys.argv[0]), ROOT), *sys.argv[1:]]),
        "date": datetime.date.today().isoformat(),
        "machine": machine(),
        "versions": versions(),
        "figures": {what: {server: numbers(result[what]) for server, result in results.items() if what in result} for what in whats},
    }
    os.makedirs(os.path.dirname(os.path.abspath(path)), exist_ok=True)
    with open(path, "w", encoding="utf-8") as file:
        json.dump(data, file, indent=1)
        file.write("\n")
