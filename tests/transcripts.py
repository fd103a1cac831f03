"""The store of transcripts: its files, their notation (docs/PROTOCOL.md, 17.1) and their schemas.

A file transcripts/SECTION-title-in-words.txt has head lines `key: value`, an empty line, and lines that go in (`> `)
and that are printed (`< `). Keys of the head:

    title      what the transcript shows
    schema     the schema's name: transcripts/schemas/NAME.json
    section    the section of docs/PROTOCOL.md whose rule it shows
    served     `no` where it needs what the program doesn't serve yet
    computed   `no`, and why, where crates/odb_examples has no example of it
    fault      the fault of the schema; then no line follows

Bytes that are no UTF-8 stand as they are.
"""

from __future__ import annotations

import json
import os
import re
import sys
from collections.abc import Sequence
from typing import NoReturn

from places import ROOT

STORE = os.path.join(ROOT, "transcripts")
KEYS = ("title", "schema", "section", "served", "computed", "fault")
NAMED_ALONE = ("unknown method", "unknown database", "unknown monitor", "canceled")
OPENED = ["!open A", "!open B", "!open C"]


def read_text(path: str) -> str:
    with open(path, encoding="utf-8", errors="surrogateescape", newline="") as file:
        return file.read()


class Transcript:
    """A file of the store. `lines` are those after its head, of which `first` is the number of the first."""

    def __init__(self, path: str) -> None:
        self.path = os.path.relpath(path)
        self.name = os.path.basename(path)[: -len(".txt")]
        head, _, body = read_text(path).partition("\n\n")
        self.head = dict(self.pair(line) for line in head.rstrip("\n").split("\n"))
        self.lines = body.split("\n")[:-1]
        self.first = head.count("\n") + 3
        self.check(body)

    def wrong(self, why: str, line: int = 1) -> NoReturn:
        sys.exit(f"{self.path}:{line}: {why}")

    def pair(self, line: str) -> tuple[str, str]:
        key, colon, value = line.partition(": ")
        if not colon or key not in KEYS:
            self.wrong(f"a line of the head is 'key: value', with a key of {', '.join(KEYS)}: {line}")
        return key, value

    def check(self, body: str) -> None:
        for key in ("title", "schema", "section"):
            if key not in self.head:
                self.wrong(f"the head has no {key}")
        if not self.name.startswith(self.section + "-"):
            self.wrong(f"the file's name begins with its section, {self.section}-")
        if not os.path.exists(self.schema_path):
            self.wrong(f"there is no {os.path.relpath(self.schema_path)}")
        if bool(self.lines) == bool(self.fault) or body and not body.endswith("\n"):
            self.wrong("a transcript has lines, each with its line feed, or else a fault")
        for number, line in enumerate(self.lines, self.first):
            if line[:2] not in ("> ", "< "):
                self.wrong("a line goes in (`> `) or is printed (`< `)", number)

    @property
    def title(self) -> str:
        return self.head["title"]

    @property
    def schema(self) -> str:
        return self.head["schema"]

    @property
    def section(self) -> str:
        return self.head["section"]

    @property
    def fault(self) -> str | None:
        return self.head.get("fault")

    @property
    def is_served(self) -> bool:
        return self.head.get("served") != "no"

    @property
    def is_computed(self) -> bool:
        return not self.head.get("computed", "").startswith("no")

    @property
    def schema_path(self) -> str:
        return os.path.join(STORE, "schemas", self.schema + ".json")

    @property
    def database(self) -> str:
        return str(json.loads(read_text(self.schema_path))["name"])

    def whole(self) -> list[str]:
        """The lines in full, each with its first two characters."""
        database = self.database
        return [line[:2] + (command(database, line[2:]) if line[0] == ">" else printed(line[2:])) for line in self.lines]


def chapters(section: str) -> list[int]:
    """A key to sort sections by."""
    return [int(part) for part in section.split(".")]


def store(names: Sequence[str] = (), section: str | None = None) -> list[Transcript]:
    """The transcripts of the store, or those that are named, or those of a section and of the ones below it."""
    paths = names or [os.path.join(STORE, name) for name in os.listdir(STORE) if name.endswith(".txt")]
    found = [Transcript(path) for path in paths]
    if section:
        found = [it for it in found if (it.section + ".").startswith(section + ".")]
    return sorted(found, key=lambda it: (chapters(it.section), it.name))


# ---- the notation


def in_full(line: str) -> str:
    """A line with its identifiers in full."""
    line = re.sub(r'"U(\d+)"', lambda found: f'"00000000-0000-4000-8000-{int(found[1]):012x}"', line)
    return re.sub(r'"V(\d+)"', lambda found: f'"00000000-0000-0000-0000-{int(found[1]):012x}"', line)


def is_word(text: str) -> bool:
    return re.match(r"[A-Za-z]", text) is not None


def command(database: str, line: str) -> str:
    """A line that goes in, in full, from its short form."""
    line = in_full(line)
    session, _, rest = line.partition(" ")
    method, _, rest = rest.partition(" ")
    if not is_word(session) or not is_word(method) or not rest:
        return line
    number, _, params = rest.partition(" ")
    if method == "transact":
        params = f'["{database}"{"," + params if params else ""}]'
    return f'{session} {{"method":"{method}","params":{params},"id":{number}}}'


def printed(line: str) -> str:
    """A line that is printed, in full, from its short form."""
    line = in_full(line)
    session, _, rest = line.partition(" ")
    kind, _, rest = rest.partition(" ")
    number, _, text = rest.partition(" ")
    if kind == "reply":
        return f'{session} {{"error":null,"id":{number},"result":{text}}}'
    if kind == "error":
        error = f'"{text}"' if text in NAMED_ALONE else f'{{"error":"{text}"}}'
        return f'{session} {{"error":{error},"id":{number},"result":null}}'
    if is_word(kind):
        return f'{session} {{"id":null,"method":"{kind}","params":{rest}}}'
    return line


def in_short(line: str) -> str:
    """A printed line in its short form, where it has one."""
    line = re.sub(r'"00000000-0000-4000-8000-([0-9a-f]{12})"', lambda found: f'"U{int(found[1], 16)}"', line)
    line = re.sub(r'"00000000-0000-0000-0000-([0-9a-f]{12})"', lambda found: f'"V{int(found[1], 16)}"', line)
    forms = [
        (r'(\w+) \{"error":null,"id":([^ ]+?),"result":(.*)\}', r"\1 reply \2 \3"),
        (r'(\w+) \{"error":\{"error":"([a-z -]+)"\},"id":([^ ]+),"result":null\}', r"\1 error \3 \2"),
        (r'(\w+) \{"error":"([a-z ]+)","id":([^ ]+),"result":null\}', r"\1 error \3 \2"),
        (r'(\w+) \{"id":null,"method":"([a-z0-9]+)","params":(.*)\}', r"\1 \2 \3"),
    ]
    for whole, short in forms:
        made = re.sub(whole, short, line) if re.fullmatch(whole, line) else line
        if made != line and printed(made) == printed(line):
            return made
    return line
