"""What C's and Python's libraries of Open vSwitch are sent, and what they take, as they begin and as they come back after a cut,
for bench/resume: over rows of OVN's Southbound, one in twenty of which concern the Python client.

C's library is ovsdb-server as a relay, which copies all tables. Python's stands in python3-openvswitch.
"""

from __future__ import annotations

import contextlib
import importlib.util
import json
import os
import subprocess
import sys
import tempfile
import time
from collections.abc import Sequence
from typing import Any, Union

import servers
from daemon import SERVER, SHARE, USR, free_ports
from proxy import Proxy

SOUTHBOUND = os.path.join(SHARE, "ovn", "ovn-sb.ovsschema")
PYTHON = os.path.join(USR, "lib", "python3", "dist-packages")
DATAPATHS, COMMITS, PATIENCE = 20, 50, 300
LOOK = 0.05  # seconds
WAYS = {"ovsdbd serve": (), "ovsdbd serve --server-database": ("--server-database",)}

# Says each time that its newest row is another one: how many rows it has, the seconds of processor and the bytes that it took.
IDL = """
import resource, sys, uuid
import ovs.db.idl, ovs.poller
helper = ovs.db.idl.SchemaHelper(sys.argv[2])
helper.register_columns("Logical_Flow", ["logical_datapath", "match", "actions", "priority"])
idl = ovs.db.idl.Idl(sys.argv[1], helper)
idl.cond_change("Logical_Flow", [["logical_datapath", "==", ["uuid", sys.argv[3]]]])
newest = None
while True:
    idl.run()
    marks = [row.actions for row in idl.tables["Logical_Flow"].rows.values() if row.priority == 65535]
    if marks and marks[0] != newest:
        newest = marks[0]
        used = resource.getrusage(resource.RUSAGE_SELF)
        print(newest, len(idl.tables["Logical_Flow"].rows), used.ru_utime + used.ru_stime, used.ru_maxrss * 1024, flush=True)
    poller = ovs.poller.Poller()
    idl.wait(poller)
    poller.block()
"""


def are_there() -> bool:
    """Whether the schema, the server and Python's library are installed."""
    has_python = os.path.isdir(os.path.join(PYTHON, "ovs")) or importlib.util.find_spec("ovs") is not None
    return bool(SERVER) and os.path.exists(SOUTHBOUND) and has_python


def transact(*operations: Any) -> bytes:
    return servers.request(1, "transact", ["OVN_Southbound", *operations])


def flow(datapath: str, number: int, priority: int = 1, actions: str = "next;") -> Any:
    row = {"logical_datapath": ["uuid", datapath], "pipeline": "ingress", "table_id": number % 30, "priority": priority, "match": f"ip4.dst == 10.{number >> 16}.{number >> 8 & 255}.{number & 255}", "actions": actions}
    return {"op": "insert", "table": "Logical_Flow", "row": row}


def fill(client: servers.Client, rows: int) -> Any:
    """Inserts the datapaths, so many flows, and the one that is marked; returns the first datapath, to which that belongs."""
    inserts = [{"op": "insert", "table": "Datapath_Binding", "row": {"tunnel_key": key + 1}} for key in range(DATAPATHS)]
    datapaths = [one["uuid"][1] for one in client.reply(transact(*inserts))["result"]]
    for first in range(0, rows, 1000):
        client.ask(transact(*[flow(datapaths[number % DATAPATHS], number) for number in range(first, min(rows, first + 1000))]))
    client.ask(transact(flow(datapaths[0], rows, 65535, "mark0")))
    return datapaths[0]


def mark(client: servers.Client, number: int) -> None:
    """Changes the marked row."""
    change = {"op": "update", "table": "Logical_Flow", "where": [["priority", "==", 65535]], "row": {"actions": f"mark{number}"}}
    client.ask(transact(change))


class Python:
    """A client with Python's library and a condition on one datapath."""

    name = "Python's library, conditions"

    def __init__(self, remote: str, datapath: str) -> None:
        path = os.pathsep.join([PYTHON, os.environ.get("PYTHONPATH", "")])
        self.process = subprocess.Popen([sys.executable, "-c", IDL, remote, SOUTHBOUND, datapath], stdout=subprocess.PIPE, text=True, env={**os.environ, "PYTHONPATH": path})

    def wait(self, wanted: str) -> tuple[float, int]:
        """Waits until it has the mark; returns its seconds of processor and its bytes then."""
        for line in self.process.stdout or ():
            newest, _, spent, memory = line.split()
            if newest == wanted:
                return float(spent), int(memory)
        raise OSError("the client ended")

    def end(self) -> None:
        self.process.kill()
        self.process.communicate()


class Relay:
    """A client with C's library: a relay, which copies all."""

    name = "C's library (a relay), all tables"

    def __init__(self, remote: str, _datapath: str) -> None:
        (self.port,) = free_ports(1)
        words = [SERVER, "--no-chdir", f"--remote=ptcp:{self.port}:127.0.0.1", "--unixctl=none", f"relay:OVN_Southbound:{remote}"]
        self.process = subprocess.Popen(words, stderr=subprocess.DEVNULL)

    def has(self, wanted: str) -> bool:
        select = {"op": "select", "table": "Logical_Flow", "where": [["priority", "==", 65535], ["actions", "==", wanted]], "columns": ["actions"]}
        # Until it has a copy it knows no such database.
        with contextlib.suppress(OSError, KeyError, TypeError), servers.Client(self.port) as client:
            return bool(client.reply(transact(select))["result"][0]["rows"])
        return False

    def wait(self, wanted: str) -> tuple[float, int]:
        end = time.monotonic() + PATIENCE
        while not self.has(wanted):
            if time.monotonic() > end:
                raise OSError("the relay isn't in step")
            time.sleep(LOOK)
        return servers.status(self.process.pid)

    def end(self) -> None:
        self.process.kill()
        self.process.wait()


Library = Union[Python, Relay]


def measure(command: Sequence[str], kind: type[Library], rows: int, words: Sequence[str]) -> dict[str, float]:
    """What a client is sent and takes as it begins, and as it comes back after some commits."""
    with open(SOUTHBOUND, encoding="utf-8") as file:
        servers.SCHEMA = json.load(file)
    found: dict[str, float] = {}
    with contextlib.ExitStack() as ends:
        server = ends.enter_context(servers.Ours(ends.enter_context(tempfile.TemporaryDirectory()), command, words))
        writer, proxy = ends.enter_context(servers.Client(server.port)), ends.enter_context(Proxy(server.port))
        client = kind(proxy.remote, fill(writer, rows))
        ends.callback(client.end)
        client.wait("mark0")
        found["sent as it begins (bytes)"] = sum(proxy.sent)
        # Python's library knows no commit's identifier before its first notification.
        mark(writer, 1)
        spent, _ = client.wait("mark1")
        before = sum(proxy.sent)
        proxy.cut()
        for number in range(2, COMMITS + 2):
            mark(writer, number)
        begun = time.monotonic()
        again, memory = client.wait(f"mark{COMMITS + 1}")
        found["sent as it comes back (bytes)"] = sum(proxy.sent) - before
        found["in step after it was cut off (s)"] = time.monotonic() - begun
        found["its processor meanwhile (s)"] = again - spent
        found["its memory (MB)"] = memory / 1e6
    return found


def compare(command: Sequence[str], rows: int) -> dict[str, dict[str, tuple[float]]]:
    """The figures of both libraries, without and with the database `_Server`."""
    results: dict[str, dict[str, tuple[float]]] = {way: {} for way in WAYS}
    kinds: list[type[Library]] = [Python, Relay]
    for kind in kinds:
        for way, words in WAYS.items():
            results[way].update({f"{kind.name}, {rows:,} rows: {what}": (figure,) for what, figure in measure(command, kind, rows, words).items()})
    for what in results["ovsdbd serve"]:
        print(f"{what:78}" + " | ".join(f"{result[what][0]:14,.2f}" for result in results.values()), flush=True)
    return results
