"""A client of any OVSDB server (RFC 7047): messages on a stream, and a copy of a whole database that is kept as it changes.

The copy is folded from `monitor_cond` of every table (ovsdb-server(7), 4.1.12). As a strict client it refuses what doesn't
fit: a table, column or row that it doesn't know, a row that it has already. Then it begins anew, and says why.
"""

from __future__ import annotations

import collections
import json
import os
import queue
import re
import socket
import threading
import time
from typing import Any, Union

PATIENCE = 10
PAUSES = (0.5, 1, 2, 4)
MARKS = re.compile(rb'["\\{}]')
Place = Union[str, tuple[str, int]]
Events = queue.Queue[tuple[str, Any]]


class Fault(Exception):
    """What is wrong, in words for whoever looks."""


def address(remote: str) -> tuple[socket.AddressFamily, Place]:
    """A socket's family and address of `tcp:HOST:PORT`, `tcp:[HOST]:PORT` or `unix:PATH`."""
    tcp = re.fullmatch(r"tcp:(?:\[([^\]]+)\]|([^:\[\]]+)):(\d{1,5})", remote)
    if tcp and int(tcp[3]) < 65536:
        return (socket.AF_INET6 if tcp[1] else socket.AF_INET), (tcp[1] or tcp[2], int(tcp[3]))
    if remote.startswith("unix:/"):
        return socket.AF_UNIX, remote[5:]
    raise Fault(f"{remote!r} is no server: tcp:HOST:PORT, or unix:/PATH")


def connect(remote: str) -> socket.socket:
    family, place = address(remote)
    found = socket.socket(family)
    found.settimeout(PATIENCE)
    try:
        found.connect(place)
    except OSError as wrong:
        found.close()
        raise Fault(f"{remote}: {wrong.strerror or wrong}") from None
    if family != socket.AF_UNIX:
        found.setsockopt(socket.IPPROTO_TCP, socket.TCP_NODELAY, 1)
    return found


class Framer:
    """Cuts a stream into messages, each from its `{` to its `}`."""

    def __init__(self) -> None:
        self.data, self.looked, self.deep, self.in_text = bytearray(), 0, 0, False

    def feed(self, more: bytes) -> list[bytes]:
        """The messages that are whole now."""
        self.data += more
        found: list[bytes] = []
        start, place = 0, self.looked
        while True:
            mark = MARKS.search(self.data, place)
            if not mark:
                place = len(self.data)
                break
            place, byte = mark.end(), mark[0]
            if byte == b"\\":
                if place == len(self.data):
                    place -= 1  # what it stands before comes later
                    break
                place += 1
            elif byte == b'"':
                self.in_text = not self.in_text
            elif not self.in_text:
                self.deep += 1 if byte == b"{" else -1
                if self.deep == 0:
                    found.append(bytes(self.data[start:place]).strip())
                    start = place
        del self.data[:start]
        self.looked = place - start
        return found


class Connection:
    """A connection to a server. Each message comes with its text."""

    def __init__(self, remote: str) -> None:
        self.remote, self.socket = remote, connect(remote)
        self.framer, self.numbers = Framer(), 0
        self.ready: collections.deque[bytes] = collections.deque()

    def __enter__(self) -> Connection:
        return self

    def __exit__(self, *_: object) -> None:
        self.close()

    def close(self) -> None:
        self.socket.close()

    def send(self, message: Any) -> None:
        try:
            self.socket.sendall(json.dumps(message, separators=(",", ":")).encode())
        except OSError as wrong:
            raise Fault(f"{self.remote}: {wrong.strerror or wrong}") from None

    def receive(self, seconds: float = PATIENCE) -> tuple[Any, str] | None:
        """The next message and its text; None where none comes in time. Echo requests are answered."""
        self.socket.settimeout(seconds)
        while True:
            while not self.ready:
                try:
                    more = self.socket.recv(262144)
                except socket.timeout:
                    return None
                except OSError as wrong:
                    raise Fault(f"{self.remote}: {wrong.strerror or wrong}") from None
                if not more:
                    raise Fault(f"{self.remote}: the server closed the connection")
                self.ready.extend(self.framer.feed(more))
            text = self.ready.popleft().decode("utf-8", "replace")
            try:
                message = json.loads(text)
            except ValueError:
                raise Fault(f"{self.remote}: it isn't JSON: {text[:80]}") from None
            if message.get("method") != "echo":
                return message, text
            self.send({"id": message.get("id"), "error": None, "result": message.get("params")})

    def ask(self, method: str, *params: Any) -> tuple[Any, str]:
        """The reply's result and text. Notifications that come before it are dropped."""
        self.numbers += 1
        self.send({"id": self.numbers, "method": method, "params": list(params)})
        while True:
            came = self.receive()
            if came is None:
                raise Fault(f"{self.remote}: no reply to {method} in {PATIENCE} s")
            message, text = came
            if message.get("id") == self.numbers and "method" not in message:
                if message.get("error") is not None:
                    raise Fault(f"{method}: {json.dumps(message['error'])}")
                return message.get("result"), text

    def schema(self, database: str | None = None) -> Any:
        """The schema of the database, or of the first one that isn't the server's own."""
        if database is None:
            names = [name for name in self.ask("list_dbs")[0] if not name.startswith("_")]
            if not names:
                raise Fault(f"{self.remote}: it has no database")
            database = names[0]
        return self.ask("get_schema", database)[0]


# ---- values


def base(column: Any) -> tuple[Any, Any, float]:
    """The type of a column: its key, its value or None, and the most elements that it has."""
    kind = column["type"] if isinstance(column["type"], dict) else {"key": column["type"]}
    most = kind.get("max", 1)
    return kind["key"], kind.get("value"), float("inf") if most == "unlimited" else most


def default(column: Any) -> Any:
    """The value of a column that nobody gave (RFC 7047, 5.2.1)."""
    key, value, _ = base(column)
    kind = column["type"] if isinstance(column["type"], dict) else {}
    atoms: dict[str, Any] = {"integer": 0, "real": 0.0, "boolean": False, "string": "", "uuid": ["uuid", "00000000-0000-0000-0000-000000000000"]}

    def atom(of: Any) -> Any:
        return atoms[of["type"] if isinstance(of, dict) else of]

    if kind.get("min", 1) == 0:
        return ["map", []] if value is not None else ["set", []]
    return ["map", [[atom(key), atom(value)]]] if value is not None else atom(key)


def elements(value: Any) -> list[Any]:
    """The elements of a set, or the pairs of a map."""
    found: list[Any] = value[1] if isinstance(value, list) and value[:1] in (["set"], ["map"]) else [value]
    return found


def printed(found: list[Any]) -> Any:
    """A set in RFC 7047's notation: of one element the atom alone."""
    return found[0] if len(found) == 1 else ["set", found]


def changed(column: Any, old: Any, difference: Any) -> Any:
    """A value with a difference of `update2` applied."""
    _, value, most = base(column)
    if most == 1:
        return difference
    if value is not None:
        pairs = {json.dumps(key): [key, each] for key, each in elements(old)}
        for key, each in elements(difference):
            name = json.dumps(key)
            if name in pairs and pairs[name][1] == each:
                del pairs[name]
            else:
                pairs[name] = [key, each]
        return ["map", list(pairs.values())]
    ours, theirs = elements(old), elements(difference)
    return printed([it for it in ours if it not in theirs] + [it for it in theirs if it not in ours])


class Copy(threading.Thread):
    """A copy of a database that is kept, whatever becomes of the server.

    `listen()` gives a queue of events: ("up", None), ("down", why) and ("rows", [[table, uuid, row or None, columns that
    changed], ..]).
    """

    def __init__(self, remote: str, database: str | None = None) -> None:
        super().__init__(daemon=True)
        address(remote)
        self.remote, self.database, self.lock = remote, database, threading.Lock()
        self.schema: Any = None
        self.tables: dict[str, dict[str, Any]] = {}
        self.why, self.is_up = "not connected yet", False
        self.listeners: list[Events] = []
        self.told, self.refused, self.reconnects = 0, 0, -1
        self.moments: collections.deque[float] = collections.deque()

    def run(self) -> None:
        tries = 0
        while True:
            try:
                with Connection(self.remote) as connection:
                    self.follow(connection)
            except (Fault, OSError, KeyError, TypeError, AttributeError, ValueError) as wrong:
                tries = 0 if self.is_up else tries + 1
                self.down(wrong)
            time.sleep(PAUSES[min(tries, len(PAUSES) - 1)])

    def down(self, wrong: Exception) -> None:
        with self.lock:
            self.is_up, self.why = False, str(wrong) if isinstance(wrong, Fault) else f"{type(wrong).__name__}: {wrong}"
            self.tell("down", self.why)

    def follow(self, connection: Connection) -> None:
        """Folds what comes until the connection ends."""
        schema = connection.schema(self.database)
        asked = {table: [{"columns": sorted(it["columns"])}] for table, it in schema["tables"].items()}
        first, _ = connection.ask("monitor_cond", schema["name"], ["look"], asked)
        with self.lock:
            self.schema, self.tables = schema, {table: {} for table in schema["tables"]}
            self.fold(first)
            self.is_up, self.reconnects = True, self.reconnects + 1
            self.tell("up", None)
        is_quiet = False
        while True:
            came = connection.receive(PATIENCE / 2)
            if came is None:
                if is_quiet:
                    raise Fault(f"{self.remote}: nothing came for {PATIENCE} s")
                connection.send({"id": "look", "method": "echo", "params": []})
            elif came[0].get("method") == "update2" and came[0]["params"][0] == ["look"]:
                with self.lock:
                    self.told += 1
                    self.moments.append(time.monotonic())
                    self.tell("rows", self.fold(came[0]["params"][1]))
            is_quiet = came is None

    def fold(self, updates: Any) -> list[list[Any]]:
        """Takes table updates in, and gives what changed."""
        found = []
        for table, rows in updates.items():
            if table not in self.tables:
                raise Fault(f"refused: an update of {table!r}, which no monitor is of")
            for uuid, change in rows.items():
                found.append([table, uuid, *self.fold_row(table, uuid, change)])
        return found

    def fold_row(self, table: str, uuid: str, change: Any) -> tuple[Any, list[str]]:
        """Takes a row update in: the row or None, and the columns that changed."""
        ((kind, given),) = change.items()
        rows, columns = self.tables[table], self.schema["tables"][table]["columns"]
        if (uuid in rows) != (kind in ("modify", "delete")):
            self.refused += 1
            raise Fault(f"refused: {kind} of a row of {table} that {'is' if uuid in rows else 'was never'} there: {uuid}")
        if kind == "delete":
            del rows[uuid]
            return None, []
        if not set(given) <= set(columns):
            self.refused += 1
            raise Fault(f"refused: {table} has no column {', '.join(sorted(set(given) - set(columns)))}")
        if kind == "modify":
            rows[uuid] = {**rows[uuid], **{name: changed(columns[name], rows[uuid][name], each) for name, each in given.items()}}
            return rows[uuid], sorted(given)
        rows[uuid] = {name: given.get(name, default(column)) for name, column in columns.items()}
        return rows[uuid], sorted(columns)

    def tell(self, kind: str, data: Any) -> None:
        for each in self.listeners:
            each.put((kind, data))

    def listen(self) -> Events:
        """A queue of what happens from now on."""
        events: Events = queue.Queue()
        self.listeners.append(events)
        return events

    def rate(self, seconds: float = 10) -> float:
        """Notifications a second, of the last seconds."""
        with self.lock:
            begin = time.monotonic() - seconds
            while self.moments and self.moments[0] < begin:
                self.moments.popleft()
            return len(self.moments) / seconds


def listening_process(remote: str) -> int | None:
    """The process of this machine that listens there, or None: it may be another machine's, or another user's."""
    family, place = address(remote)
    try:
        if family == socket.AF_UNIX:
            with open("/proc/net/unix") as file:
                nodes = {line.split()[6] for line in file if line.split()[-1] == place}
        elif place[0] not in ("127.0.0.1", "localhost", "::1"):
            return None
        else:
            nodes = set()
            for name in ("tcp", "tcp6"):
                with open(f"/proc/net/{name}") as file:
                    nodes |= {parts[9] for parts in map(str.split, file) if parts[3] == "0A" and int(parts[1].rsplit(":", 1)[1], 16) == place[1]}
        wanted = {f"socket:[{node}]" for node in nodes}
        for number in filter(str.isdigit, os.listdir("/proc")):
            try:
                if any(os.readlink(f"/proc/{number}/fd/{each}") in wanted for each in os.listdir(f"/proc/{number}/fd")):
                    return int(number)
            except OSError:
                continue
    except OSError:
        pass
    return None
