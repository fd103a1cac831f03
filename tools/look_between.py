"""Stands between clients and a server: shows what each session does, and writes it as a script that `ovsdbd script` plays.

What goes either way is handed on as it comes. Of each session its monitors with their conditions, its locks, the transactions
that wait, bytes and round trips are kept. A script (docs/PROTOCOL.md, 15.1) has the messages of all sessions in the order in
which they went to the server; beside it, in FILE.sent, stands what each session was sent. In both identifiers have the numbers
that the script gives them, and what stands in the order of identifiers stands in that of the numbers.

The two are alike byte for byte where the server was an ovsdbd with empty tables when the recording began, and where a commit
was told to other sessions before the next one came (a server tells commits that follow each other fast as one). The rows of a
`select` without `_uuid` are left in the order in which they came.
"""

import collections
import json
import re
import socket
import threading
import time

from look_client import Fault, Framer, connect

UUID = re.compile(r"[0-9a-f]{8}(?:-[0-9a-f]{4}){3}-[0-9a-f]{12}", re.I)
KEPT = 1000  # round trips of a session


def compact(value):
    return json.dumps(value, separators=(",", ":"), ensure_ascii=False, sort_keys=True)


def commit_in(message):
    """The identifier of the commit that a message names, or None."""
    if message.get("method") == "update3":
        return message["params"][1]
    result = message.get("result")
    is_since = isinstance(result, list) and len(result) == 3 and isinstance(result[0], bool)
    return result[1] if is_since and isinstance(result[1], str) else None


def of_tables(requests):
    """Which rows of which tables the requests of a monitor ask for."""
    found = {}
    for table, asked in requests.items():
        one = asked[0] if isinstance(asked, list) and asked else asked
        found[table] = one.get("where") if isinstance(one, dict) else None
    return found


class Record:
    """A script as it is written, and what was sent beside it."""

    def __init__(self, path):
        try:
            self.script, self.sent = open(path, "w", encoding="utf-8"), open(path + ".sent", "w", encoding="utf-8")
        except OSError as wrong:
            raise Fault(f"can't write {path}: {wrong.strerror}") from None
        self.lines, self.open_inserts, self.inserts, self.numbers, self.begun = [], set(), 0, {}, time.monotonic()

    def line(self, text, file=None):
        self.lines.append((file or self.script, text))

    def moment(self):
        return int(1000 * (time.monotonic() - self.begun))

    def took(self, session, text, message):
        """A message of a session went to the server."""
        method, params = message.get("method"), message.get("params")
        operations = [it for it in params[1:] if isinstance(it, dict)] if method == "transact" and isinstance(params, list) else []
        if any(it.get("op") == "wait" and it.get("timeout") for it in operations):
            self.line(f"!tick {self.moment()}")
        self.line(f"{session.name} {text}".replace("\n", " "))
        here = [place for place, it in enumerate(params[1:]) if isinstance(it, dict) and it.get("op") == "insert"] if operations and "id" in message else []
        if here and message["id"] is not None:
            numbers = {place: self.inserts + count for count, place in enumerate(here, 1)}
            self.inserts += len(here)
            key = (session.name, compact(message["id"]))
            self.open_inserts.add(key)
            session.inserts[key[1]] = numbers
        self.write()

    def gave(self, session, text, message):
        """A session was sent a message by the server."""
        results = message.get("result") if "method" not in message else None
        name = compact(message.get("id"))
        if isinstance(results, list):
            for place, number in session.inserts.get(name, {}).items():
                if place < len(results) and isinstance(results[place], dict) and "uuid" in results[place]:
                    self.numbers[results[place]["uuid"][1].lower()] = f"00000000-0000-4000-8000-{number:012x}"
            if any(isinstance(it, dict) and it.get("error") == "timed out" for it in results) and session.asked.get(name, ("", 0, 0))[2]:
                self.line(f"!tick {max(self.moment(), session.asked[name][2])}")
        commit = commit_in(message)
        if commit is not None:  # the word of a script's run is 0
            self.numbers[commit.lower()] = "00000000-0000-0000" + commit[18:]
        if "method" not in message and session.inserts.pop(name, None) is not None:
            self.open_inserts.discard((session.name, name))
        self.line((session.name, text), self.sent)
        self.write()

    def renumbered(self, text):
        return UUID.sub(lambda it: self.numbers.get(it[0].lower(), it[0]), text)

    def sorted(self, value):
        """A value in which what stands in the order of identifiers stands in that of their numbers."""
        if isinstance(value, dict):
            return {name: self.sorted(each) for name, each in value.items()}
        if not isinstance(value, list):
            return value
        value = [self.sorted(each) for each in value]
        if len(value) == 2 and value[0] in ("set", "map") and isinstance(value[1], list):
            keys = [each if value[0] == "set" else each[:1][0] for each in value[1] if isinstance(each, list) and each]
            if keys and len(keys) == len(value[1]) and all(isinstance(key, list) and key[:1] == ["uuid"] for key in keys):
                value[1].sort(key=lambda each: each[1] if value[0] == "set" else each[0][1])
        elif value and all(isinstance(each, dict) and isinstance(each.get("_uuid"), list) for each in value):
            value.sort(key=lambda each: each["_uuid"][1])
        return value

    def written(self, text):
        """What was sent, in the script's identifiers."""
        if compact(json.loads(text)) != text:  # another server's print: its order is left
            return self.renumbered(text)
        return compact(self.sorted(json.loads(self.renumbered(text))))

    def write(self, at_end=False):
        """Writes all lines of which the identifiers are known: each insert before them was answered."""
        if self.open_inserts and not at_end:
            return
        for file, text in self.lines:
            print(self.renumbered(text) if isinstance(text, str) else f"{text[0]} {self.written(text[1])}", file=file)
        self.lines.clear()
        self.script.flush()
        self.sent.flush()


class Session:
    """What was seen of a connection."""

    def __init__(self, name, peer):
        self.name, self.peer, self.is_open = name, peer, True
        self.bytes, self.monitors, self.locks, self.asked, self.inserts = {">": 0, "<": 0}, {}, {}, {}, {}
        self.times, self.changes = collections.deque(maxlen=KEPT), {}

    def took(self, message, moment):
        """A message that goes to the server."""
        method, name = message.get("method"), compact(message.get("id"))
        params = message.get("params") if isinstance(message.get("params"), list) else []
        if method is None or message.get("id") is None:
            return
        waits = [it["timeout"] for it in params[1:] if method == "transact" and isinstance(it, dict) and it.get("op") == "wait" and isinstance(it.get("timeout"), int)]
        self.asked[name] = (method, time.monotonic(), moment + max(waits) if waits else 0)
        self.changes[name] = (method, params)

    def gave(self, message):
        """A message that goes to the client."""
        name, method = compact(message.get("id")), message.get("method")
        if method in ("locked", "stolen"):
            self.locks[str(message["params"][0])] = "owned" if method == "locked" else "stolen"
        if method is not None or name not in self.asked:
            return
        self.times.append(time.monotonic() - self.asked.pop(name)[1])
        asked, params = self.changes.pop(name)
        if message.get("error") is None:
            self.change(asked, params, message.get("result"))

    def change(self, method, params, result):
        """What a request that was served changes of the session."""
        if method in ("monitor", "monitor_cond", "monitor_cond_since"):
            self.monitors[compact(params[1])] = of_tables(params[2])
        elif method == "monitor_cond_change":
            tables = self.monitors.pop(compact(params[0]), {})
            self.monitors[compact(params[1])] = {**tables, **of_tables(params[2])}
        elif method == "monitor_cancel":
            self.monitors.pop(compact(params[0]), None)
        elif method in ("lock", "steal"):
            self.locks[str(params[0])] = "owned" if result.get("locked") else "asked for"
        elif method == "unlock":
            self.locks.pop(str(params[0]), None)

    def seen(self):
        """What is shown of it."""
        now, times = time.monotonic(), sorted(self.times)
        return {
            "name": self.name,
            "peer": self.peer,
            "is_open": self.is_open,
            "monitors": [{"id": name, "of": [table + (f" where {compact(where)}" if where else "") for table, where in tables.items()]} for name, tables in self.monitors.items()],
            "locks": [f"{lock} ({state})" for lock, state in sorted(self.locks.items())],
            "waiting": [f"id {name}: {now - begun:.1f} s" for name, (method, begun, _) in self.asked.items() if method == "transact"] if self.is_open else [],
            "sent": f"{self.bytes['>']:,}",
            "received": f"{self.bytes['<']:,}",
            "latency": f"{1000 * times[len(times) // 2]:.2f}, {1000 * times[-1]:.2f} ms" if times else "",
        }


class Between:
    """Listens on a port of the loopback, and connects each client of it to the server."""

    def __init__(self, remote, port, script=None):
        self.remote, self.lock, self.sessions = remote, threading.RLock(), []
        self.record = Record(script) if script else None
        try:
            self.listener = socket.create_server(("127.0.0.1", port))
        except OSError as wrong:
            raise Fault(f"can't listen on 127.0.0.1:{port}: {wrong.strerror}") from None
        self.port = self.listener.getsockname()[1]
        threading.Thread(target=self.accept, daemon=True).start()

    def accept(self):
        while True:
            client, peer = self.listener.accept()
            try:
                server = connect(self.remote)
            except Fault:
                client.close()  # as a server that isn't there would
                continue
            server.settimeout(None)
            client.setsockopt(socket.IPPROTO_TCP, socket.TCP_NODELAY, 1)
            with self.lock:
                session = Session(f"s{len(self.sessions) + 1}", f"{peer[0]}:{peer[1]}")
                self.sessions.append(session)
                if self.record:
                    self.record.line(f"!open {session.name}")
            for one, other, way in ((client, server, ">"), (server, client, "<")):
                threading.Thread(target=self.hand_on, args=(session, one, other, way), daemon=True).start()

    def hand_on(self, session, one, other, way):
        framer = Framer()
        try:
            while True:
                data = one.recv(262144)
                if not data:
                    break
                with self.lock:
                    self.look(session, way, data, framer)
                other.sendall(data)
        except OSError:
            pass
        self.end(session, one, other, way)

    def look(self, session, way, data, framer):
        session.bytes[way] += len(data)
        for text in framer.feed(data):
            text = text.decode("utf-8", "surrogateescape")
            try:
                message = json.loads(text)
            except ValueError:
                message = {}
            if way == ">":
                session.took(message, self.record.moment() if self.record else 0)
                if self.record and "method" in message:
                    self.record.took(session, text, message)
            else:
                if self.record:
                    self.record.gave(session, text, message)
                session.gave(message)

    def end(self, session, one, other, way):
        """One side has ended: the other is told so, and where it is the server's, the session is over."""
        for each, how in ((other, socket.SHUT_WR), (one, socket.SHUT_RD)):
            try:
                each.shutdown(how if way == ">" else socket.SHUT_RDWR)
            except OSError:
                pass
        if way == "<":
            with self.lock:
                session.is_open = False
                if self.record:
                    self.record.line(f"!close {session.name}")
                    self.record.write()

    def seen(self):
        with self.lock:
            return [session.seen() for session in self.sessions[-200:]]

    def close(self):
        """Writes what is left of the script."""
        with self.lock:
            if self.record:
                self.record.write(at_end=True)
