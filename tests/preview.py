"""The preview: the program compiled with checks and not proved, once for the sources as they are, and kept below ~/.cache/ovsdbd.

`rt try` compiles a program, runs it for a minute, and keeps nothing. So it is handed a schema that is a pipe: the process that
opens it for reading is the program, and waits for what nobody writes. What that was started by is read from /proc, its file is
copied, and `rt try` is ended.
"""

from __future__ import annotations

import contextlib
import errno
import fcntl
import hashlib
import json
import os
import shutil
import subprocess
import sys
import tempfile
import time
from collections.abc import Iterator
from typing import Any

from places import FOLDER, ROOT, below, copy_crates, crates, sources

KEPT = os.path.join(FOLDER, "preview")
PROGRAM = os.path.join(KEPT, "ovsdbd")
NOTE = os.path.join(KEPT, "note.json")  # of what the program was made, and the words in front of it


def of_sources(root: str) -> str:
    """The sum of the kit's version, of what each crate stands on, and of all code that the program is compiled from."""
    version, names = subprocess.Popen(["rt", "version"], stdout=subprocess.PIPE), below("ovsdbd")
    whole = hashlib.sha256(repr([(name, crates()[name]) for name in names]).encode())
    for name in names:
        for path in filter(os.path.isfile, sources(os.path.join(root, "crates", name), ["src"])):
            with open(path, "rb") as file:
                whole.update(repr((os.path.relpath(path, root), file.read())).encode())
    whole.update(version.communicate()[0])
    return whole.hexdigest()


def command() -> list[str]:
    """The words that start the preview. Where it isn't compiled of the sources as they are, it is now; where it can't be, this
    ends with status 1."""
    os.makedirs(KEPT, exist_ok=True)
    with open(os.path.join(KEPT, "lock"), "w") as lock:
        fcntl.flock(lock, fcntl.LOCK_EX)
        note = noted()
        if note.get("sources") != of_sources(ROOT):
            note = compiled()
    return [*note["before"], PROGRAM]


def noted() -> dict[str, Any]:
    """What is noted of the program that is kept, {} where none is."""
    with contextlib.suppress(OSError, ValueError), open(NOTE) as file:
        return dict(json.load(file)) if os.path.exists(PROGRAM) else {}
    return {}


def compiled() -> dict[str, Any]:
    """Compiles a copy of the sources and keeps the program, and returns what is noted of it."""
    sys.stderr.write("ovsdbd: a preview: compiled with checks, once, which takes 3 to 5 minutes; nothing is proved\n")
    with contextlib.suppress(FileNotFoundError):
        os.remove(NOTE)
    with tempfile.TemporaryDirectory() as room:
        copy = os.path.join(room, "copy")
        copy_crates(copy, below("ovsdbd"))
        note = {"sources": of_sources(copy), "before": tried(os.path.join(copy, "crates", "ovsdbd"), room)}
    with open(NOTE, "w") as file:
        json.dump(note, file)
    return note


def tried(crate: str, room: str) -> list[str]:
    """Lets `rt try` run the program until that waits, copies it, and returns the words in front of it."""
    pipe = os.path.join(room, "schema")
    os.mkfifo(pipe)
    asked = ["script", "--schema", pipe]
    with tempfile.TemporaryFile("w+", errors="replace") as said:
        how: dict[str, Any] = {"cwd": crate, "stdin": subprocess.DEVNULL, "stdout": said, "stderr": subprocess.STDOUT}
        trying = subprocess.Popen(["rt", "try", "--", *asked], **how)
        try:
            with writer(pipe, trying):
                return copied(reader(pipe, trying), asked)
        except LookupError:
            said.seek(0)
            sys.exit(f"{said.read()}ovsdbd: not compiled")
        finally:
            trying.terminate()
            trying.wait()


@contextlib.contextmanager
def writer(pipe: str, trying: subprocess.Popen[bytes]) -> Iterator[None]:
    """An end of the pipe for writing, from when a process has opened the other for reading."""
    while True:
        try:
            end = os.open(pipe, os.O_WRONLY | os.O_NONBLOCK)
            break
        except OSError as error:
            if error.errno != errno.ENXIO or trying.poll() is not None:
                raise LookupError from None
            time.sleep(0.1)
    try:
        yield
    finally:
        os.close(end)


def reader(pipe: str, trying: subprocess.Popen[bytes]) -> str:
    """The folder in /proc of the process that has the pipe open for reading."""
    while trying.poll() is None:
        for process in filter(str.isdigit, os.listdir("/proc")):
            with contextlib.suppress(OSError):
                opened = [os.readlink(f"/proc/{process}/fd/{it}") for it in os.listdir(f"/proc/{process}/fd")]
                if pipe in opened and int(process) != os.getpid():
                    return f"/proc/{process}"
        time.sleep(0.1)
    raise LookupError


def copied(process: str, asked: list[str]) -> list[str]:
    """Copies the program of a process that was started with the words asked for, and returns the words in front of it."""
    with open(f"{process}/cmdline") as file:
        words = file.read().split("\0")[:-1]
    if words[-len(asked) :] != asked:
        raise LookupError
    *before, program = words[: -len(asked)]
    new = PROGRAM + ".new"
    shutil.copy2(os.path.join(os.readlink(f"{process}/cwd"), program), new)
    os.replace(new, PROGRAM)
    return before
