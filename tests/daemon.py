"""A daemon, ovsdb-server, other programs of Open vSwitch and a client, for tests and benches that let them talk to each other.
Each process is ended by its id.

OVSDB_CLIENT names ovsdb-client where it isn't in the path; the other programs and the schemas are looked for beside it too,
so that unpacked packages do. OVSDB_SERVER and OVSDB_TOOL name those two programs.
"""

from __future__ import annotations

import codecs
import contextlib
import json
import os
import re
import shutil
import signal
import socket
import struct
import subprocess
import tempfile
import threading
import time
from collections.abc import Callable, Collection, Iterator, Mapping, Sequence
from typing import Any, TypeVar

from places import NET, PROGRAM

CLIENT = os.environ.get("OVSDB_CLIENT") or shutil.which("ovsdb-client") or "/usr/bin/ovsdb-client"
USR = os.path.dirname(os.path.dirname(os.path.realpath(CLIENT)))
PLACES = [os.path.join(USR, place) for place in ("bin", "sbin", os.path.join("lib", "openvswitch-switch"))]
PATH = os.pathsep.join([*PLACES, os.environ.get("PATH", ""), "/usr/sbin"])
SHARE = os.path.join(USR, "share")
PATIENCE = 20
S = TypeVar("S", bound="Served")
C = TypeVar("C", bound="Client")


class Wrong(Exception):
    """What isn't as it should be."""


def found(program: str) -> str | None:
    """Where a program is, or None."""
    return shutil.which(program, path=PATH)


SERVER = os.environ.get("OVSDB_SERVER") or found("ovsdb-server") or ""
TOOL = os.environ.get("OVSDB_TOOL") or found("ovsdb-tool") or ""


def lacking(packages: Mapping[str, Collection[str]]) -> list[str]:
    """The packages, by name, of whose programs and files some aren't there."""
    return [name for name, needed in packages.items() if not all(os.path.exists(it) if "/" in it else found(it) for it in needed)]


def free_ports(count: int) -> list[int]:
    """So many ports of the loopback that nobody has."""
    held = [socket.create_server(("127.0.0.1", 0)) for _ in range(count)]
    ports = [each.getsockname()[1] for each in held]
    for each in held:
        each.close()
    return ports


def until(is_so: Callable[[], object], what: str) -> None:
    """Waits until it is so, for a bounded time."""
    end = time.monotonic() + PATIENCE
    while not is_so():
        if time.monotonic() > end:
            raise Wrong(f"not so after {PATIENCE} s: {what}")
        time.sleep(0.02)


def is_running(pid: int) -> bool:
    try:
        with open(f"/proc/{pid}/stat") as file:
            return file.read().rpartition(")")[2].split()[0] not in "ZX"
    except OSError:
        return False


def end(pid: int) -> None:
    """Ends a process that isn't a child of this one, and waits until it is gone."""
    for number in (signal.SIGTERM, signal.SIGKILL):
        for _ in range(100):
            if not is_running(pid):
                return
            with contextlib.suppress(ProcessLookupError):
                os.kill(pid, number)
            time.sleep(0.02)


@contextlib.contextmanager
def bounded(process: subprocess.Popen[Any]) -> Iterator[None]:
    """Ends a process that takes too long to say what is waited for."""
    timer = threading.Timer(2 * PATIENCE, process.kill)
    timer.start()
    try:
        yield
    finally:
        timer.cancel()


class Served:
    """A process that serves on a port of the loopback (0: not yet), and is ended with what is done in it."""

    def __init__(self, process: subprocess.Popen[Any]) -> None:
        self.process, self.port = process, 0

    def __enter__(self: S) -> S:
        return self

    def __exit__(self, *_: object) -> None:
        self.end()

    @property
    def address(self) -> str:
        return f"127.0.0.1:{self.port}"

    @property
    def remote(self) -> str:
        return f"tcp:{self.address}"

    def connect(self) -> Client:
        return Client(self.port)

    def end(self) -> None:
        self.process.terminate()
        self.process.communicate()


class Daemon(Served):
    """A daemon that runs, on a port of its own where none is named."""

    name = "ovsdbd"

    def __init__(self, command: Sequence[str] = (PROGRAM,), schema: str = NET, port: int = 0, words: Sequence[str] = ()) -> None:
        started = [*command, "serve", "--schema", schema, "--listen", f"127.0.0.1:{port}", *words]
        super().__init__(subprocess.Popen(started, stdout=subprocess.PIPE, stderr=subprocess.PIPE, text=True))
        assert self.process.stdout
        with bounded(self.process):
            self.line: str = self.process.stdout.readline().rstrip("\n")
        address = re.fullmatch(r"listening 127\.0\.0\.1:(\d+)", self.line)
        if not address:
            self.process.kill()
            raise Wrong(f"no address: {self.line!r} {self.process.communicate()[1]}")
        self.port = int(address[1])


class OvsdbServer(Served):
    """ovsdb-server over a new database of the schema, which goes with it."""

    name = "ovsdb-server"

    def __init__(self, schema: str = NET) -> None:
        self.folder = tempfile.TemporaryDirectory()
        database, log = (os.path.join(self.folder.name, name) for name in ("db", "log"))
        made = subprocess.run(self.made(database, schema), capture_output=True, text=True, check=False)
        if made.returncode:
            self.folder.cleanup()
            raise Wrong(made.stderr.strip())
        words = [SERVER, *self.listening(), "--no-chdir", f"--unixctl={self.folder.name}/ctl", f"--log-file={log}", "-vfile:info", "-vconsole:off", database]
        super().__init__(subprocess.Popen(words, stdout=subprocess.DEVNULL, stderr=subprocess.DEVNULL))
        try:
            until(lambda: self.listens(log), "ovsdb-server listens")
        except Wrong:
            self.end()
            raise

    def made(self, database: str, schema: str) -> list[str]:
        """The command that makes the file of the database."""
        return [TOOL, "create", database, schema]

    def listening(self) -> list[str]:
        """The words by which it listens."""
        return ["--remote=ptcp:0:127.0.0.1"]

    def listens(self, log: str) -> bool:
        if os.path.exists(log):
            with open(log, errors="replace") as file:
                port = re.search(r"listening on port (\d+)", file.read())
            self.port = int(port[1]) if port else 0
        return self.port != 0

    def end(self) -> None:
        super().end()
        self.folder.cleanup()


class Client:
    """A connection by TCP to a port, or to a Unix socket by its path, and what came that wasn't looked at yet."""

    def __init__(self, place: int | str) -> None:
        self.socket = socket.socket(socket.AF_UNIX if isinstance(place, str) else socket.AF_INET)
        self.socket.settimeout(PATIENCE)
        self.socket.connect(place if isinstance(place, str) else ("127.0.0.1", place))
        if not isinstance(place, str):
            self.socket.setsockopt(socket.IPPROTO_TCP, socket.TCP_NODELAY, 1)
        self.bytes, self.text = codecs.getincrementaldecoder("utf-8")("surrogateescape"), ""
        self.numbers, self.syncs = 0, 0
        self.notified: list[Any] = []

    def __enter__(self: C) -> C:
        return self

    def __exit__(self, *_: object) -> None:
        self.socket.close()

    def send(self, data: Any) -> None:
        """Sends bytes as they are, and all else as JSON."""
        self.socket.sendall(data if isinstance(data, bytes) else json.dumps(data).encode())

    def request(self, method: str, params: Any, number: Any) -> None:
        self.send({"method": method, "params": params, "id": number})

    def more(self) -> bool:
        """Takes in what comes next, and says whether the stream goes on."""
        got = self.socket.recv(65536)
        self.text += self.bytes.decode(got)
        return bool(got)

    def message(self) -> Any:
        """The next message that is no echo request, which is answered."""
        while True:
            try:
                came, place = json.JSONDecoder().raw_decode(self.text)
            except ValueError:
                try:
                    if self.more():
                        continue
                except socket.timeout:
                    raise Wrong(f"nothing more came: {self.text!r}") from None
                raise Wrong(f"the stream ended: {self.text!r}") from None
            self.text = self.text[place:]
            if came.get("method") != "echo":
                return came
            self.send({"id": came["id"], "error": None, "result": came["params"]})

    def ask(self, method: str, *params: Any) -> Any:
        """The result of a request. Notifications that come before it are kept."""
        self.numbers += 1
        self.request(method, list(params), self.numbers)
        while True:
            came = self.message()
            if came.get("id") == self.numbers:
                if came.get("error") is not None:
                    raise Wrong(f"{method}: {json.dumps(came['error'])}")
                return came["result"]
            self.notified.append(came)

    def notification(self) -> Any:
        return self.notified.pop(0) if self.notified else self.message()

    def sync(self) -> None:
        """What was sent before has been taken in, and nothing but what was looked at came."""
        self.syncs += 1
        self.request("echo", [], f"sync {self.syncs}")
        came = self.message()
        if came != {"error": None, "id": f"sync {self.syncs}", "result": []}:
            raise Wrong(f"it isn't expected: {json.dumps(came)}")

    def at_end(self) -> bool:
        """Whether the server closes the connection, and sends nothing before."""
        try:
            while self.more():
                pass
        except ConnectionResetError:
            pass
        except socket.timeout:
            return False
        return not self.text

    def end(self) -> None:
        """Ends the stream, and waits until the server has ended the session."""
        self.socket.shutdown(socket.SHUT_WR)
        if not self.at_end():
            raise Wrong(f"the end: {self.text!r}")
        self.socket.close()

    def reset(self) -> None:
        """Ends the connection at once, as when the process of a client is killed."""
        self.socket.setsockopt(socket.SOL_SOCKET, socket.SO_LINGER, struct.pack("ii", 1, 0))
        self.socket.close()
