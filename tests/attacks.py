"""Attacks on the daemon over TCP, for `tests/hostile`. Through each of them two sessions go on, one that commits and is replied to and
one that follows its commits, and each is sent exactly what it would be sent without the attack. After it the daemon runs, takes in
others, and has as many file descriptors as before.

Each attack is a function that takes the command of the program and raises Wrong, or OSError, where something isn't as it should be.
"""

import contextlib
import json
import os
import random
import re
import resource
import signal
import socket
import subprocess
import sys
import tempfile
import threading
import time
from concurrent.futures import ThreadPoolExecutor

import daemon
from daemon import PATIENCE, Wrong, until

INTEGER = {"columns": {"n": {"type": "integer"}}}
LARGE = {"columns": {"n": {"type": "integer"}, "s": {"type": {"key": "string", "min": 0, "max": "unlimited"}}}}
SCHEMA = {"name": "hst", "version": "1.0.0", "tables": {"Large": LARGE, **{name: INTEGER for name in ("Counters", "Quiet", "Witnesses")}}}
UUID = re.compile(rb"[0-9a-f]{8}(-[0-9a-f]{4}){3}-[0-9a-f]{12}")


# ---- The daemon, and its peers


class Peer(daemon.Client):
    """A client that may break off anywhere."""

    def rest(self):
        """All that comes until the daemon ends the stream, in bytes."""
        came = [self.text.encode()]
        with contextlib.suppress(ConnectionResetError):
            while came[-1] or len(came) == 1:
                came.append(self.socket.recv(65536))
        return b"".join(came)

    def say(self, data):
        """Sends bytes. The daemon may have ended the stream by then."""
        with contextlib.suppress(BrokenPipeError, ConnectionResetError):
            self.socket.sendall(data)

    def half_close(self):
        with contextlib.suppress(OSError):
            self.socket.shutdown(socket.SHUT_WR)

    def close(self):
        self.socket.close()


class Witnesses:
    """A session that commits, and one that follows its commits."""

    def __init__(self, port):
        self.port, self.steps = port, 0
        self.busy, self.follower = Peer(port), Peer(port)
        if self.busy.ask("echo") != [] or self.follower.ask("monitor", "hst", "m", {"Witnesses": {"columns": ["n"]}}) != {}:
            raise Wrong("rows that nobody inserted")

    def step(self):
        """One more commit: its reply and the follower's update are all that the two are sent, and a copy of all rows is complete."""
        self.steps += 1
        insert = {"op": "insert", "table": "Witnesses", "row": {"n": self.steps}}
        select = {"op": "select", "table": "Witnesses", "where": [["n", "==", self.steps]], "columns": ["_uuid", "n"]}
        inserted, selected = self.busy.ask("transact", "hst", insert, select)
        row = inserted["uuid"][1]
        if selected != {"rows": [{"_uuid": ["uuid", row], "n": self.steps}]}:
            raise Wrong(f"step {self.steps}: {selected}")
        told = self.follower.notification()
        if told != {"id": None, "method": "update", "params": ["m", {"Witnesses": {row: {"new": {"n": self.steps}}}}]}:
            raise Wrong(f"step {self.steps}: the follower was told {json.dumps(told)}")

    def end(self):
        """Nothing else came, and another session finds each of the rows."""
        self.step()
        if self.busy.ask("echo", 1) != [1] or self.follower.ask("echo", 2) != [2] or self.busy.notified or self.follower.notified:
            raise Wrong(f"more came: {self.busy.notified} {self.follower.notified}")
        with Peer(self.port) as other:
            rows = other.ask("transact", "hst", {"op": "select", "table": "Witnesses", "where": [], "columns": ["n"]})[0]["rows"]
            if sorted(row["n"] for row in rows) != list(range(1, self.steps + 1)):
                raise Wrong(f"{len(rows)} of {self.steps} rows")
        self.busy.socket.close()
        self.follower.socket.close()


@contextlib.contextmanager
def serving(command, words=()):
    """A daemon, with these words too, and its witnesses. In the end it still runs, and nothing is left of the attackers."""
    with tempfile.NamedTemporaryFile("w", suffix=".json") as file:
        json.dump(SCHEMA, file)
        file.flush()
        with daemon.Daemon(command, file.name, words=words) as served:
            pid = served.process.pid
            with Peer(served.port) as first:
                first.ask("echo", 0)
                idle = descriptors(pid) - 1
            witnesses = Witnesses(served.port)
            try:
                yield served, witnesses
                witnesses.end()
            except (Wrong, OSError) as error:
                if served.process.poll() is not None:
                    raise Wrong(f"the daemon ended: status {served.process.returncode}, {served.process.stderr.read()!r}") from error
                raise
            until(lambda: descriptors(pid) == idle, f"the daemon has {idle} file descriptors when all have gone")


@contextlib.contextmanager
def attended(witnesses):
    """The witnesses go on all the while."""
    done, wrong = threading.Event(), []

    def go_on():
        try:
            while not done.is_set():
                witnesses.step()
                done.wait(0.002)
        except (Wrong, OSError, LookupError, TypeError) as error:
            wrong.append(error)

    thread = threading.Thread(target=go_on)
    thread.start()
    try:
        yield
    finally:
        done.set()
        thread.join()
    if wrong:
        raise Wrong(f"a witness: {type(wrong[0]).__name__}: {wrong[0]}")


def descriptors(pid):
    """How many file descriptors a process has."""
    return len(os.listdir(f"/proc/{pid}/fd"))


def more_files():
    """As many file descriptors as are allowed, for this process and the daemon."""
    _, most = resource.getrlimit(resource.RLIMIT_NOFILE)
    resource.setrlimit(resource.RLIMIT_NOFILE, (min(most, 20_000), most))


def insert(number):
    """A transaction that commits one row."""
    operation = {"op": "insert", "table": "Counters", "row": {"n": number}}
    return json.dumps({"method": "transact", "params": ["hst", operation], "id": ["x\\\"}\u00e9{", number]}, ensure_ascii=False).encode()


def counted(port, table="Counters"):
    """How many rows a table has."""
    with Peer(port) as peer:
        return len(peer.ask("transact", "hst", {"op": "select", "table": table, "where": [], "columns": ["_uuid"]})[0]["rows"])


# ---- Bytes that are no messages


def requests(draw):
    """Requests whose answers don't rest on what other sessions do."""
    lock, number = f"{draw.getrandbits(64):016x}", draw.randrange(1000)
    insert_row = {"op": "insert", "table": "Counters", "row": {"n": number}, "uuid-name": "a"}
    named = {"op": "insert", "table": "Counters", "row": {"n": ["set", [number]]}}
    quiet = {"Quiet": {"columns": ["n"], "select": {"initial": True, "modify": False}}}
    calls = [
        ("echo", [number, "\u00e9", {"a": [None, True]}]), ("list_dbs", []), ("get_schema", ["hst"]), ("zzz", []),
        ("lock", [lock]), ("unlock", [lock]), ("steal", [lock]), ("cancel", [number]),
        ("transact", ["hst", insert_row, named]), ("transact", ["hst", {"op": "comment", "comment": "x" * 40}, {"op": "abort"}]),
        ("transact", ["hst", {"op": "assert", "lock": lock}, {"op": "commit", "durable": True}]), ("transact", ["hst"]),
        ("monitor", ["hst", number, quiet]), ("monitor_cond", ["hst", [number], {"Quiet": [{"where": [["n", "<", 5]]}]}]),
        ("monitor_cond_change", [number, [number], {"Quiet": [{"where": [True]}]}]), ("monitor_cancel", [number]),
        ("monitor_cond_since", ["hst", [number], {"Quiet": [{"columns": ["n"]}]}, "ffffffff-ffff-ffff-ffff-ffffffffffff"]),
    ]
    for method, params in draw.choices(calls, k=draw.randrange(1, 13)):
        yield {"method": method, "params": params, "id": draw.randrange(100)}


OTHERS = [None, True, -1, 1 << 62, [], {}, [[[]]], {"a": None}, ["uuid", "x"], ["set", [1, "a"]], ["named-uuid", "a"]]


def with_another(draw, value):
    """The value with another in the place of one of its parts."""
    if draw.random() < 0.3 or not isinstance(value, (list, dict)) or not value:
        return draw.choice([*OTHERS, f"{draw.getrandbits(64):016x}" * 20])  # no two ask for one lock
    parts = value.copy()
    place = draw.choice(list(parts)) if isinstance(parts, dict) else draw.randrange(len(parts))
    parts[place] = with_another(draw, parts[place])
    return parts


def drawn(draw, length):
    return bytes(draw.choices(range(256), k=length))


def with_other_bytes(draw, text):
    """The text with a place in which it is cut, doubled or changed."""
    at, length = draw.randrange(len(text)), draw.randrange(1, 9)
    new = draw.choice([b"", text[at : at + 2 * length], drawn(draw, length), draw.choice([b'"', b"{", b"}", b"[", b"\\", b"1e9", b"\xff"])])
    return text[:at] + new + text[at + length :]


def mangled(draw, request):
    """The text of a request, as it is, or with other members, or with other bytes."""
    way = draw.random()
    for _ in range(draw.randrange(1, 4) if way < 0.4 else 0):
        request["params"] = with_another(draw, request["params"])
    text = json.dumps(request).encode()
    return with_other_bytes(draw, text) if 0.4 <= way < 0.55 else text


def messages_of_the_limit(command):
    """A message of as many bytes as --max-message says is taken, however it is cut, and one more byte ends the connection, and no other;
    64 MiB are taken where that is said, and not else."""

    def message(length):
        return b'{"method":"echo","params":["' + b"a" * (length - 41) + b'"],"id":1234}'

    for words, limit, tried in ((("--max-message", "1000"), 1_000, (1_000, 1_001)), (("--max-message", "67108864"), 1 << 26, (1 << 26,)), ((), 1 << 24, (1 << 24, (1 << 24) + 1, 1 << 26))):
        with serving(command, words) as (served, witnesses), attended(witnesses):
            for length in tried:
                with Peer(served.port) as peer, Peer(served.port) as other:
                    text = message(length)
                    peer.say(text[:700])
                    peer.say(text[700:])
                    peer.half_close()
                    came = peer.rest()
                    if len(came) != (length - 41 + len('{"error":null,"id":1234,"result":[""]}') if length <= limit else 0):
                        raise Wrong(f"with a limit of {limit} a message of {length} bytes gives {len(came)} bytes")
                    other.ask("echo", 1)
            if tried[-1] > limit and f"longer than {limit} bytes" not in served.process.stderr.readline():
                raise Wrong("standard error says nothing")


def attack(number):
    """What a peer sends: mangled requests, or any bytes. No line feed, which would end a script's line."""
    draw = random.Random(number)
    if number % 8 == 0:
        data = draw.choice([b"", b"{", b'{"', b" "]) + drawn(draw, draw.randrange(1, 20_000))
    else:
        data = b"".join(mangled(draw, request) for request in requests(draw))
    return data.replace(b"\n", b"\r")


def printed_for(command, made):
    """What a script prints for each of these attacks alone, and whether its stream has a fault."""
    lines = [b"!open s%d\ns%d %s\n!close s%d\n" % (it, it, data, it) for it, data in enumerate(made)]
    with tempfile.NamedTemporaryFile("w", suffix=".json") as file:
        json.dump(SCHEMA, file)
        file.flush()
        ran = subprocess.run([*command, "script", "--schema", file.name], input=b"".join(lines), stdout=subprocess.PIPE, timeout=120, check=True)
    found = [(b"", False)] * len(made)
    for line in ran.stdout.splitlines():
        name, _, text = line.partition(b" ")
        before, _ = found[int(name[1:])]
        if text != b"!gone":
            found[int(name[1:])] = (before, True) if text.startswith(b"!fault") else (before + text, False)
    return found


def random_and_mangled_bytes(command, count=600):
    """Many peers send bytes by chance. Each is sent what a script prints for its bytes, and its stream ends at a fault, or at its own end."""
    made = [attack(number) for number in range(count)]
    wanted = printed_for(command, made)
    with serving(command) as (served, witnesses), attended(witnesses):

        def carry_out(number):
            text, faulty = wanted[number]
            with Peer(served.port) as peer:
                peer.say(made[number])
                if not faulty:
                    peer.half_close()
                came = peer.rest()
            return None if UUID.sub(b"U", came) == UUID.sub(b"U", text) else f"attack {number}: {came[:300]!r} and not {text[:300]!r}"

        with ThreadPoolExecutor(32) as pool:
            wrong = next(filter(None, pool.map(carry_out, range(count))), None)
    if wrong:
        raise Wrong(wrong)


def a_message_cut_at_every_byte(command):
    """Peers that stand in mid-message at each of its bytes. Those who send the rest are answered; those who end or are killed commit nothing."""
    message = insert(7)
    with serving(command) as (served, witnesses):
        for end in (Peer.half_close, Peer.reset, None):
            with attended(witnesses), contextlib.ExitStack() as cut:
                peers = [cut.enter_context(Peer(served.port)) for _ in message]
                for at, peer in enumerate(peers):
                    peer.say(message[:at])
                for at, peer in enumerate(peers):
                    if end:
                        end(peer)
                    else:
                        peer.say(message[at:])
                if end == Peer.half_close and any(peer.rest() for peer in peers):
                    raise Wrong("a part of a message was answered")
                if not end and any("uuid" not in peer.message()["result"][0] for peer in peers):
                    raise Wrong("a message in two parts wasn't taken")
        if counted(served.port) != len(message):
            raise Wrong(f"{counted(served.port)} commits, and not {len(message)}")


# ---- Many peers


def peers_that_say_nothing(command, count=1_000):
    """A crowd connects and says nothing, and then each asks once."""
    more_files()
    with serving(command) as (served, witnesses), contextlib.ExitStack() as crowd:
        with attended(witnesses):
            peers = [crowd.enter_context(Peer(served.port)) for _ in range(count)]
            until(lambda: descriptors(served.process.pid) >= count, "each is taken in")
        witnesses.step()
        with attended(witnesses):
            for peer in peers:
                peer.send({"method": "echo", "params": [], "id": 1})
            if any(peer.message() != {"error": None, "id": 1, "result": []} for peer in peers):
                raise Wrong("another reply")


def all_seats(command):
    """4,096 sessions are open. One more is closed at once, and one more is taken in when one has gone."""
    more_files()
    with serving(command) as (served, witnesses), contextlib.ExitStack() as crowd:
        with attended(witnesses):
            peers = [crowd.enter_context(Peer(served.port)) for _ in range(4_094)]
            for peer in peers:
                if peer.ask("echo") != []:
                    raise Wrong("another reply")
            with Peer(served.port) as late:
                if late.rest():
                    raise Wrong("a session beyond 4,096")
            peers.pop().reset()
            until(lambda: is_taken_in(served.port), "a session for one that has gone")


def too_many_sessions(command):
    """A connection beyond 4,096 is closed at once, and standard error says so, with the address."""
    more_files()
    with serving(command) as (served, witnesses), contextlib.ExitStack() as crowd:
        peers = [crowd.enter_context(Peer(served.port)) for _ in range(4_094)]
        # Each is asked, since where the system's queue was full one that came earlier may be taken in after the late one.
        if any(peer.ask("echo") != [] for peer in peers):
            raise Wrong("another reply")
        late = crowd.enter_context(Peer(served.port))
        with daemon.bounded(served.process):
            said, name = served.process.stderr.readline(), late.socket.getsockname()
        if late.rest() or said != f"ovsdbd: closed {name[0]}:{name[1]} (and 0 more): 4096 sessions are open\n":
            raise Wrong(f"a session beyond 4,096: {said!r}")
        peers.pop().reset()
        until(lambda: is_taken_in(served.port), "a session for one that has gone")


def is_taken_in(port):
    with Peer(port) as peer, contextlib.suppress(Wrong, OSError):
        return peer.ask("list_dbs") == ["hst"]
    return False


def peers_that_come_and_go(command, count=2_000):
    """Peers come and go at once, some in mid-message, some with a lock, some in the midst of a reply, or after it."""
    large = json.dumps({"method": "echo", "params": ["a" * 300_000], "id": 1}).encode()

    def visit(number):
        with Peer(served.port) as peer:
            if number % 10 == 0:
                peer.say(large)
                peer.socket.recv(100)
            elif number % 10 == 5:
                for byte in insert(number)[:40]:
                    peer.say(bytes([byte]))
            elif number % 5 == 1:
                peer.reset()
            elif number % 5 == 2:
                peer.say(insert(number)[: number % 80])
                peer.reset()
            elif number % 5 == 3:
                peer.say(b'{"method":"lock","params":["L"],"id":1}{"method":"ec')
                peer.reset()
            elif number % 5 == 4 and peer.ask("transact", "hst", {"op": "insert", "table": "Counters", "row": {}}) is None:
                raise Wrong("no reply")

    with serving(command) as (served, witnesses), attended(witnesses):
        with ThreadPoolExecutor(16) as pool:
            list(pool.map(visit, range(count)))
        until(lambda: is_free(served.port, "L"), "the lock is free when all have gone")
        if counted(served.port) != count // 5:
            raise Wrong(f"{counted(served.port)} commits, and not {count // 5}")


def is_free(port, lock):
    with Peer(port) as peer:
        return peer.ask("lock", lock) == {"locked": True}


def peers_20000_that_come_and_go(command):
    """The same with 20,000."""
    peers_that_come_and_go(command, 20_000)


def waiting(number):
    """A transaction that waits for ever."""
    wait = {"op": "wait", "table": "Quiet", "where": [], "columns": ["n"], "until": "==", "rows": [{"n": number}]}
    return json.dumps({"method": "transact", "params": ["hst", wait], "id": number}).encode()


def peers_that_go_at_busy(command):
    """A peer with a lock has 254 to 600 transactions wait, of which those after the 256th meet Busy, and goes. The next in line has its lock
    within a second, however it went, and whatever patience the daemon has."""
    for words in ((), ("--probe", "2000", "--stall", "3000")):
        with serving(command, words) as (served, witnesses), attended(witnesses):
            for count in (254, 256, 257, 258, 600):
                for leave in (Peer.close, Peer.reset, Peer.half_close):
                    gone_with_lock(served.port, count, leave)


def gone_with_lock(port, count, leave):
    """A peer takes a lock, has so many transactions wait, and goes."""
    with Peer(port) as holder, Peer(port) as heir:
        if holder.ask("lock", "L") != {"locked": True} or heir.ask("lock", "L") != {"locked": False}:
            raise Wrong("another owner")
        holder.say(b"".join(map(waiting, range(count))))
        time.sleep(0.1)
        leave(holder)
        heir.socket.settimeout(1)
        if heir.notification() != {"id": None, "method": "locked", "params": ["L"]}:
            raise Wrong("told something else")
        heir.ask("unlock", "L")


def half_closed_at_busy(command):
    """A peer has 255 transactions wait and asks 400 more times, which meets Busy again and again, and then ends its side: each is answered
    that can be."""
    echo = b"".join(b'{"method":"echo","params":[],"id":%d}' % number for number in range(400))
    with serving(command) as (served, witnesses), attended(witnesses), Peer(served.port) as peer:
        peer.say(b"".join(map(waiting, range(255))) + echo)
        peer.half_close()
        if peer.rest() != b"".join(b'{"error":null,"id":%d,"result":[]}' % number for number in range(400)):
            raise Wrong("other replies")


def probed_at_busy(command):
    """With --probe a peer at Busy that answers is kept, and one that says nothing is cut off, so that the next has its lock."""
    with serving(command, ("--probe", "500")) as (served, witnesses), attended(witnesses), contextlib.ExitStack() as crowd:
        alive, still, heir = (crowd.enter_context(Peer(served.port)) for _ in range(3))
        for peer, lock in ((alive, "A"), (still, "S")):
            peer.ask("lock", lock)
            heir.ask("lock", lock)
            peer.say(b"".join(map(waiting, range(300))))
        answering = threading.Thread(target=until_its_end, args=(alive,))
        answering.start()
        for _ in range(40):
            time.sleep(0.1)
            heir.ask("echo")
        if heir.notified != [{"id": None, "method": "locked", "params": ["S"]}]:
            raise Wrong(f"after 4 s the next in line was told {heir.notified}")
        heir.notified.clear()
        alive.half_close()
        answering.join()
        if heir.notification() != {"id": None, "method": "locked", "params": ["A"]}:
            raise Wrong("told something else")


def until_its_end(peer):
    """Answers what the daemon asks, until it ends the stream."""
    with contextlib.suppress(Wrong, OSError):
        peer.message()


def half_closed_under_load(command, count=500):
    """Peers that watch a row of 13,000 elements, which five others change, end their side and read nothing for a while. Each is sent a
    beginning of whole messages, and its stream ends; those that are killed meanwhile are gone at once."""
    more_files()
    row = {"op": "insert", "table": "Large", "row": {"s": ["set", [f"{number:05}" for number in range(13_000)]]}}
    with serving(command, ("--threads", "4")) as (served, witnesses):
        with Peer(served.port) as first, contextlib.ExitStack() as crowd:
            first.ask("transact", "hst", row)
            crowd.enter_context(changing(served.port))
            peers = [crowd.enter_context(Peer(served.port)) for _ in range(count)]
            for peer in peers:
                peer.say(b'{"method":"monitor","params":["hst",null,{"Large":{}}],"id":1}')
                peer.half_close()
            for peer in peers[::3]:
                peer.reset()
            with ThreadPoolExecutor(8) as pool:
                left = [peer for at, peer in enumerate(peers) if at % 3]
                if not all(pool.map(ends_whole, left)):
                    raise Wrong("a stream ended in the midst of a message, or not at all")
        witnesses.step()


@contextlib.contextmanager
def changing(port, count=5):
    """So many others change the rows of a table all the while."""
    done = threading.Event()
    change = {"op": "mutate", "table": "Large", "where": [], "mutations": [["n", "+=", 1]]}

    def change_all():
        with Peer(port) as peer, contextlib.suppress(Wrong, OSError):
            while not done.is_set():
                peer.ask("transact", "hst", change)

    threads = [threading.Thread(target=change_all) for _ in range(count)]
    for thread in threads:
        thread.start()
    try:
        yield
    finally:
        done.set()
        for thread in threads:
            thread.join()


def ends_whole(peer):
    """Whether the stream ends after a message that is whole."""
    last = b""
    with contextlib.suppress(ConnectionResetError, socket.timeout):
        while True:
            came = peer.socket.recv(1 << 20)
            if not came:
                return last.endswith(b"}")
            last = came
    return False


HOLDER = """
import socket, sys, time
port, count = int(sys.argv[1]), int(sys.argv[2])
peers = [socket.create_connection(("127.0.0.1", port)) for _ in range(count)]
for it, peer in enumerate(peers):
    peer.sendall(b'{"method":"lock","params":["L%d"],"id":1}' % it)
    peer.recv(4096)
    peer.sendall(b'{"method":"transact","params":["hst",{"op":"ins')
print("held", flush=True)
time.sleep(600)
"""


def killed_holders_of_locks(command, count=100):
    """A process whose sessions hold a lock each is killed, each of them in mid-message. Each heir is told, once."""
    with serving(command) as (served, witnesses), attended(witnesses), contextlib.ExitStack() as heirs:
        with subprocess.Popen([sys.executable, "-c", HOLDER, str(served.port), str(count)], stdout=subprocess.PIPE) as holder:
            if holder.stdout.readline() != b"held\n":
                raise Wrong("the holders didn't get their locks")
            waiting = [heirs.enter_context(Peer(served.port)) for _ in range(count)]
            for it, heir in enumerate(waiting):
                if heir.ask("lock", f"L{it}") != {"locked": False}:
                    raise Wrong(f"lock {it} isn't held")
            os.kill(holder.pid, signal.SIGKILL)
        for it, heir in enumerate(waiting):
            if heir.notification() != {"id": None, "method": "locked", "params": [f"L{it}"]}:
                raise Wrong(f"heir {it} was told something else")
            if heir.ask("echo") != [] or heir.notified:
                raise Wrong(f"heir {it} was told more: {heir.notified}")
        if counted(served.port):
            raise Wrong("a part of a message was committed")


# ---- Too little of something


@contextlib.contextmanager
def limited(served, what, most):
    """The daemon may have so much and no more."""
    soft, hard = resource.prlimit(served.process.pid, what)
    resource.prlimit(served.process.pid, what, (most, hard))
    try:
        yield
    finally:
        resource.prlimit(served.process.pid, what, (soft, hard))


def too_few_file_descriptors(command):
    """More peers connect than the daemon has file descriptors for. The rest wait, and are served as others go, or when it may have more."""
    with serving(command) as (served, witnesses), attended(witnesses), contextlib.ExitStack() as crowd:
        files = descriptors(served.process.pid)
        with limited(served, resource.RLIMIT_NOFILE, files + 10):
            peers = [crowd.enter_context(Peer(served.port)) for _ in range(40)]
            for peer in peers:
                peer.say(b'{"method":"list_dbs","params":[],"id":1}')
            answered(peers[:10])
            until(lambda: descriptors(served.process.pid) == files + 10, "no file descriptor is left")
            for peer in peers[:10]:
                peer.socket.close()
            answered(peers[10:20])
        answered(peers[20:])


def answered(peers):
    """Each is sent the reply to its request."""
    for peer in peers:
        if peer.message() != {"error": None, "id": 1, "result": ["hst"]}:
            raise Wrong("another reply")


# The other arenas of the allocator have address space in store, which counts as had.
ONE_ARENA = ("env", "MALLOC_ARENA_MAX=1")


def too_little_address_space(command):
    """The daemon may have hardly more memory than it has. What asks for much is refused, and its session ends; what asks for little is served."""
    more_files()
    large = b'{"method":"echo","params":["' + b"a" * 12_000_000 + b'"],"id":1}'
    with serving([*ONE_ARENA, *command]) as (served, witnesses):
        witnesses.step()
        with limited(served, resource.RLIMIT_AS, size(served.process.pid) + (4 << 20)):
            for _ in range(20):
                with Peer(served.port) as peer:
                    peer.say(large)
                    if peer.rest():
                        raise Wrong("a message of 12 MB was taken with 4 MB")
                witnesses.step()
        with limited(served, resource.RLIMIT_AS, size(served.process.pid) + (1 << 20)), contextlib.ExitStack() as crowd:
            peers = [crowd.enter_context(Peer(served.port)) for _ in range(3_000)]
            for peer in peers:
                peer.say(b'{"method":"list_dbs","params":[],"id":1}')
            for peer in peers:
                peer.half_close()
            came = {peer.rest() for peer in peers}
            if b"" not in came or came - {b"", b'{"error":null,"id":1,"result":["hst"]}'}:
                raise Wrong(f"none of 3,000 was refused with 1 MB, or something else came: {came}")
            witnesses.step()
        with Peer(served.port) as peer:
            peer.say(large)
            if len(json.dumps(peer.message())) < 12_000_000:
                raise Wrong("memory isn't there again")


def too_little_for_a_reply(command):
    """The daemon has no memory for a first reply of 13 MB. Its session ends within seconds, which the log says, and the others go on all
    the while."""
    rows = [{"op": "insert", "table": "Large", "row": {"s": ["set", [f"{number:0100}" for number in range(1_300)]]}}] * 10
    monitor = b'{"method":"monitor","params":["hst","m",{"Large":{}}],"id":1}'
    with serving([*ONE_ARENA, *command], ["--log"]) as (served, witnesses):
        with Peer(served.port) as first:
            for _ in range(10):
                first.ask("transact", "hst", *rows)
        with attended(witnesses), limited(served, resource.RLIMIT_AS, size(served.process.pid) + (4 << 20)), Peer(served.port) as peer:
            peer.socket.settimeout(5)
            peer.say(monitor)
            if peer.rest():
                raise Wrong("a reply of 13 MB was made with 4 MB")
        with daemon.bounded(served.process):
            while not (said := served.process.stderr.readline()).endswith(" is closed: memory ran out\n"):
                if not said:
                    raise Wrong("standard error doesn't say why")
        with Peer(served.port) as peer:
            peer.say(monitor)
            peer.half_close()
            if len(peer.rest()) < 13_000_000:
                raise Wrong("memory isn't there again")


def costly(draw):
    """A request that takes much memory, or little."""
    insert_row = {"op": "insert", "table": "Counters", "row": {"n": 1}}
    select = {"op": "select", "table": "Counters", "where": []}
    calls = [
        ("transact", ["hst", *[insert_row] * draw.randrange(1, 3000)]), ("transact", ["hst", insert_row]), ("transact", ["hst", select]),
        ("monitor", ["hst", "m", {"Counters": {}}]), ("lock", [f"L{draw.randrange(10)}"]), ("echo", ["x" * draw.randrange(1, 3_000_000)]),
    ]
    method, params = draw.choice(calls)
    return json.dumps({"method": method, "params": params, "id": 1}).encode()


def are_whole(text):
    """Whether these are messages, each whole."""
    text, place = text.decode(), 0
    with contextlib.suppress(ValueError):
        while place < len(text):
            _, place = json.JSONDecoder().raw_decode(text, place)
    return place == len(text)


def memory_that_comes_and_goes(command, rounds=20):
    """Again and again the daemon may have a little more memory than it has, and up to 30 peers ask for much or little. Each is sent whole messages, or none."""
    draw, refused = random.Random(5), 0
    with serving([*ONE_ARENA, *command]) as (served, witnesses):
        for _ in range(rounds):
            room = draw.choice([0, 16, 64, 128, 256, 512, 1024, 2048, 4096]) << 10
            with limited(served, resource.RLIMIT_AS, size(served.process.pid) + room), contextlib.ExitStack() as crowd:
                peers = [crowd.enter_context(Peer(served.port)) for _ in range(draw.randrange(1, 30))]
                for peer in peers:
                    peer.say(costly(draw))
                for peer in peers:
                    peer.half_close()
                came = [peer.rest() for peer in peers]
            refused += came.count(b"")
            if not all(map(are_whole, came)):
                raise Wrong("a part of a message came")
            witnesses.step()
            with Peer(served.port) as peer:
                peer.ask("transact", "hst", {"op": "delete", "table": "Counters", "where": []})
    if not refused:
        raise Wrong("nothing was refused")


def memory_that_comes_and_goes_for_long(command):
    """The same for 500 rounds."""
    memory_that_comes_and_goes(command, 500)


def size(pid):
    """The address space of a process, in bytes."""
    with open(f"/proc/{pid}/statm") as file:
        return int(file.read().split()[0]) * resource.getpagesize()


def standard_output_closed(command):
    """Nobody reads what the daemon prints any more, once it has said where it listens."""
    with serving(command) as (served, witnesses):
        served.process.stdout.close()
        for _ in range(20):
            witnesses.step()
            with Peer(served.port) as peer:
                peer.say(b"x")
                if peer.rest():
                    raise Wrong("something came for a byte that is no message")


def no_standard_output(command):
    """A daemon that can't say where it listens ends with status 1."""
    with tempfile.NamedTemporaryFile("w", suffix=".json") as file:
        json.dump(SCHEMA, file)
        file.flush()
        words = ["sh", "-c", 'exec "$@" >&-', "sh", *command, "serve", "--schema", file.name, "--listen", "127.0.0.1:0"]
        ran = subprocess.run(words, stdout=subprocess.DEVNULL, stderr=subprocess.PIPE, text=True, timeout=PATIENCE, check=False)
    if (ran.returncode, ran.stderr) != (1, "ovsdbd: write failed\n"):
        raise Wrong(f"status {ran.returncode}, {ran.stderr!r}")


CHECKS = [
    random_and_mangled_bytes, messages_of_the_limit, a_message_cut_at_every_byte, peers_that_say_nothing, too_many_sessions, peers_that_come_and_go,
    peers_that_go_at_busy, half_closed_at_busy, probed_at_busy, half_closed_under_load, killed_holders_of_locks,
    too_few_file_descriptors, too_little_address_space, too_little_for_a_reply, memory_that_comes_and_goes, standard_output_closed, no_standard_output,
]
LONG = [all_seats, peers_20000_that_come_and_go, memory_that_comes_and_goes_for_long]
