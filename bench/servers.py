"""The servers that benches measure, ours and ovsdb-server where that is installed, with clients that take as little time as
Python lets them. A bench sets SCHEMA; both servers listen on the loopback over it.

ovsdb-server is Debian's package openvswitch-switch; tests/daemon.py says how it is found. It asks a client that says nothing
for 5 seconds whether it is there, and leaves it after 10; so it does where it was too busy to hear the answer. A bench that
keeps it as busy measures `Patient`, which doesn't ask.
"""

from __future__ import annotations

import argparse
import json
import multiprocessing
import os
import resource
import shlex
import subprocess
import sys
import time
from collections.abc import Iterable, Sequence
from multiprocessing.connection import Connection
from multiprocessing.synchronize import Event, Semaphore
from typing import Any, Union

import figures  # which finds tests/
import daemon
from daemon import SERVER, TOOL
from places import PROGRAM, service_environment

SCHEMA: dict[str, Any] = {"name": "bench", "version": "1.0.0", "tables": {"T": {"columns": {"k": {"type": "integer"}, "v": {"type": "integer"}}, "isRoot": True}}}
WINDOW = 32
OPENS, CLOSES = b"{}"
NO_BRACKETS = bytes({*range(256)} - {OPENS, CLOSES})
ROOM = memoryview(bytearray(1 << 20))


def schema_in(folder: str) -> str:
    path = os.path.join(folder, "schema.json")
    with open(path, "w") as file:
        json.dump(SCHEMA, file)
    return path


class Ours(daemon.Daemon):
    """The program, in the environment that the Debian package's service and `./ovsdbd` give it."""

    def __init__(self, folder: str, command: Sequence[str], words: Sequence[str] = ()) -> None:
        variables = (f"{name}={value}" for name, value in service_environment().items())
        super().__init__(["env", *variables, *command], schema_in(folder), words=words)


class Theirs(daemon.OvsdbServer):
    def __init__(self, folder: str, _command: Sequence[str], words: Sequence[str] = ()) -> None:
        super().__init__(schema_in(folder))


REMOTES = {
    "name": "Remotes",
    "version": "1.0.0",
    "tables": {
        "All": {"columns": {"remotes": {"type": {"key": {"type": "uuid", "refTable": "Remote"}}}}, "isRoot": True},
        "Remote": {"columns": {"target": {"type": "string"}, "inactivity_probe": {"type": {"key": "integer", "min": 0, "max": 1}}}},
    },
}


class Patient(Theirs):
    """ovsdb-server, which doesn't ask its clients whether they are there: a second database says how it listens."""

    def listening(self) -> list[str]:
        schema, database = (os.path.join(self.folder.name, name) for name in ("remotes.json", "remotes"))
        with open(schema, "w") as file:
            json.dump(REMOTES, file)
        remote = {"op": "insert", "table": "Remote", "uuid-name": "it", "row": {"target": "ptcp:0:127.0.0.1", "inactivity_probe": 0}}
        every = {"op": "insert", "table": "All", "row": {"remotes": ["named-uuid", "it"]}}
        for words in (["create", database, schema], ["transact", database, json.dumps(["Remotes", remote, every])]):
            subprocess.run([TOOL, *words], stdout=subprocess.DEVNULL, check=True)
        return ["--remote=db:Remotes,All,remotes", database]


Kind = Union[type[Ours], type[Theirs]]


def kinds(theirs: type[Theirs] = Theirs) -> list[Kind]:
    """The servers that are there. Where ovsdb-server isn't, it says so."""
    if SERVER and TOOL:
        return [Ours, theirs]
    print("ovsdb-server isn't installed (Debian's package openvswitch-switch): nothing is beside ours")
    return [Ours]


def words(parser: argparse.ArgumentParser) -> argparse.Namespace:
    """Reads the words of a bench, with `--command COMMAND` and `--json FILE`; the command is given as its words. As many
    connections may be open as the system lets a process have."""
    parser.add_argument("--command", help="measures this command in the place of the built program")
    figures.word(parser)
    found = parser.parse_args()
    found.command = shlex.split(found.command) if found.command else [PROGRAM]
    hard = resource.getrlimit(resource.RLIMIT_NOFILE)[1]
    resource.setrlimit(resource.RLIMIT_NOFILE, (hard, hard))
    return found


class Client(daemon.Client):
    """A connection that counts replies, without reading what they say."""

    def __init__(self, port: int) -> None:
        super().__init__(port)
        self.socket.settimeout(None)
        self.deep = 0

    def ended(self, data: bytes) -> int:
        """How many messages end in this piece. What is measured has no brackets in its texts."""
        count = 0
        for byte in data.translate(None, NO_BRACKETS):
            if byte == OPENS:
                self.deep += 1
            else:
                self.deep -= 1
                count += self.deep == 0
        return count

    def ask(self, data: bytes) -> None:  # type: ignore[override]
        """Sends a request, and waits for the end of the next message."""
        self.send(data)
        count = 0
        while not count:
            count += self.ended(self.socket.recv(65536))

    def skip(self, data: bytes, ends: tuple[bytes, ...]) -> None:
        """Sends a request, and waits until what comes ends in one of these, which the message has nowhere else: so a large one costs
        the client no more than to receive it."""
        self.send(data)
        longest, last = max(map(len, ends)), b""
        while not last.endswith(ends):
            count = self.socket.recv_into(ROOM)
            last = (last + bytes(ROOM[max(0, count - longest) : count]))[-longest:]

    def reply(self, data: bytes) -> Any:
        """The reply, where ovsdb-server may ask in between whether the client is there."""
        self.send(data)
        return self.message()


class Bystander:
    """A process that asks for an echo, waits for so many seconds after the reply, and asks again, until it is ended."""

    def __init__(self, port: int, pause: float = 0.005) -> None:
        self.times, kept = multiprocessing.Pipe(duplex=False)
        self.over, begun = multiprocessing.Event(), multiprocessing.Event()
        multiprocessing.Process(target=echoes, args=(port, pause, begun, self.over, kept), daemon=True).start()
        begun.wait()

    def end(self) -> list[float]:
        """How long each echo took, in seconds, the shortest first."""
        self.over.set()
        return sorted(self.times.recv())


def echoes(port: int, pause: float, begun: Event, over: Event, kept: Connection) -> None:
    client, times = Client(port), []
    while not over.is_set():
        start = time.perf_counter()
        client.ask(b'{"id":"e","method":"echo","params":[]}')
        times.append(time.perf_counter() - start)
        begun.set()
        time.sleep(pause)
    kept.send(times)


def request(number: Any, method: str, params: Any) -> bytes:
    return json.dumps({"id": number, "method": method, "params": params}).encode()


def rows(port: int, count: int) -> list[str]:
    """Puts rows into the table, and returns their identifiers."""
    client = Client(port)
    found: list[str] = []
    for start in range(0, count, 100):
        inserts = [{"op": "insert", "table": "T", "row": {"k": k}} for k in range(start, min(count, start + 100))]
        found += [one["uuid"][1] for one in client.reply(request(1, "transact", ["bench", *inserts]))["result"]]
    return found


def update(number: int, row: str) -> bytes:
    return request(number, "transact", ["bench", {"op": "update", "table": "T", "where": [["_uuid", "==", ["uuid", row]]], "row": {"v": number}}])


def load(port: int, row: str, count: int, ready: Semaphore, start: Event) -> None:
    """Updates a row so many times, 32 of them in flight."""
    client = Client(port)
    data = [update(number, row) for number in range(count)]
    ready.release()
    start.wait()
    sent, got = WINDOW, 0
    client.socket.sendall(b"".join(data[:WINDOW]))
    while got < count:
        more = client.ended(client.socket.recv(65536))
        got += more
        if sent < count and more:
            client.socket.sendall(b"".join(data[sent : sent + more]))
            sent += more


def throughput(port: int, ids: Sequence[str], clients: int, count: int) -> float:
    ready, start = multiprocessing.Semaphore(0), multiprocessing.Event()
    them = [multiprocessing.Process(target=load, args=(port, ids[n % len(ids)], count // clients, ready, start)) for n in range(clients)]
    for one in them:
        one.start()
    for _ in them:
        ready.acquire()
    begun = time.time()
    start.set()
    for one in them:
        one.join()
    return clients * (count // clients) / (time.time() - begun)


def latency(client: Client, data: Iterable[bytes]) -> tuple[float, float]:
    times = []
    for each in data:
        begun = time.perf_counter()
        client.ask(each)
        times.append(time.perf_counter() - begun)
    times.sort()
    return 1e6 * times[len(times) // 2], 1e6 * times[len(times) * 99 // 100]


def status(pid: int) -> tuple[float, int]:
    """Seconds of processor and bytes of resident memory."""
    with open(f"/proc/{pid}/stat") as file:
        parts = file.read().rsplit(")", 1)[1].split()
    return (int(parts[11]) + int(parts[12])) / os.sysconf("SC_CLK_TCK"), int(parts[21]) * os.sysconf("SC_PAGE_SIZE")


def idle(pid: int, seconds: float) -> float:
    before = status(pid)[0]
    time.sleep(seconds)
    return 100 * (status(pid)[0] - before) / seconds


class Found(dict[str, Sequence[float]]):
    """What was measured, which is said at once, as a run takes minutes."""

    def __setitem__(self, name: str, figures: Sequence[float]) -> None:
        super().__setitem__(name, figures)
        print(f"{name}: {', '.join(f'{figure:.1f}' for figure in figures)}", file=sys.stderr, flush=True)
