"""The page and the figures of tools/look, on HTTP.

    /          the page (look_page.html)
    /events    server-sent events: `state`, the whole copy; `rows`, what changed; `down`
    /raw       server-sent events: the texts that a monitor of ?table=T&where=CONDITIONS is sent, as they come
    /sessions  what tools/look --between saw of each session, as JSON
    /metrics   figures for Prometheus
"""

import http.server
import json
import os
import queue
import time
import urllib.parse

from look_client import Connection, Fault, base, listening_process

PAGE = os.path.join(os.path.dirname(os.path.realpath(__file__)), "look_page.html")
SHOWN = 1000  # rows of a table that a page is sent at first
HOSTS = ("127.0.0.1", "localhost", "[::1]")


def described(schema):
    """Of each table its columns, and of each column the tables that its keys and values refer to."""
    def refers(of):
        return of.get("refTable") if isinstance(of, dict) else None

    found = {}
    for table, it in schema["tables"].items():
        found[table] = {name: [refers(base(column)[0]), refers(base(column)[1])] for name, column in sorted(it["columns"].items())}
    return found


def state(copy):
    """What a page is sent first. The copy's lock is held."""
    tables = {}
    for table, rows in copy.tables.items():
        first = dict(list(rows.items())[:SHOWN])
        tables[table] = {"count": len(rows), "rows": first}
    return {"remote": copy.remote, "up": copy.is_up, "why": copy.why, "database": copy.schema and copy.schema["name"], "columns": copy.schema and described(copy.schema), "tables": tables}


def figures(copy):
    """The text of /metrics."""
    lines, labels = [], f'server="{copy.remote}"'

    def add(name, kind, text, *samples):
        lines.extend([f"# HELP {name} {text}", f"# TYPE {name} {kind}"])
        lines.extend(f"{name}{{{each}}} {value}" for each, value in samples)

    took = None
    try:
        with Connection(copy.remote) as connection:
            begun = time.perf_counter()
            connection.ask("echo")
            took = time.perf_counter() - begun
    except (Fault, OSError):
        pass
    add("ovsdb_up", "gauge", "Whether the server answers an echo.", (labels, int(took is not None)))
    if took is not None:
        add("ovsdb_echo_seconds", "gauge", "Round trip of an echo.", (labels, f"{took:.6f}"))
    with copy.lock:
        database = f'{labels},database="{copy.schema["name"]}"' if copy.schema else labels
        counts = [(f'{database},table="{table}"', len(rows)) for table, rows in sorted(copy.tables.items())]
        told, reconnects, refused = copy.told, max(copy.reconnects, 0), copy.refused
    add("ovsdb_rows", "gauge", "Rows of a table.", *counts)
    add("ovsdb_commits_told_total", "counter", "Notifications of a monitor of all tables; commits that are told together count once.", (database, told))
    add("ovsdb_commits_per_second", "gauge", "The same a second, over the last 10 seconds.", (database, copy.rate()))
    add("ovsdb_reconnects_total", "counter", "How often the server was found again.", (labels, reconnects))
    add("ovsdb_refused_total", "counter", "Notifications that didn't fit the copy.", (labels, refused))
    process = listening_process(copy.remote)
    try:
        with open(f"/proc/{process}/status") as file:
            status = dict(line.split(":", 1) for line in file if ":" in line)
        add("ovsdb_resident_bytes", "gauge", "Resident memory of the server's process.", (labels, int(status["VmRSS"].split()[0]) * 1024))
        add("ovsdb_threads", "gauge", "Threads of the server's process.", (labels, int(status["Threads"])))
    except (OSError, KeyError, ValueError):
        pass  # it is no process of this machine that may be looked at
    return "\n".join([*lines, ""])


class Handler(http.server.BaseHTTPRequestHandler):
    """One request of a browser. `copy` and `between` are set by serve()."""

    copy, between = None, None

    def log_message(self, *_):
        pass

    def do_GET(self):
        host = self.headers.get("Host", "").rpartition(":")[0] or self.headers.get("Host", "")
        url = urllib.parse.urlsplit(self.path)
        given = dict(urllib.parse.parse_qsl(url.query))
        answers = {"/": self.page, "/events": self.events, "/metrics": self.metrics, "/sessions": self.sessions, "/raw": self.raw}
        if host not in HOSTS:
            self.answer(403, "text/plain", "only this machine is served")
        elif url.path not in answers:
            self.answer(404, "text/plain", "there is no such page")
        else:
            try:
                answers[url.path](given)
            except (BrokenPipeError, ConnectionResetError):
                pass

    def answer(self, status, kind, text):
        data = text.encode()
        self.send_response(status)
        self.send_header("Content-Type", f"{kind}; charset=utf-8")
        self.send_header("Content-Length", str(len(data)))
        self.end_headers()
        self.wfile.write(data)

    def page(self, _):
        with open(PAGE, encoding="utf-8") as file:
            self.answer(200, "text/html", file.read())

    def metrics(self, _):
        self.answer(200, "text/plain", figures(self.copy))

    def sessions(self, _):
        self.answer(200, "application/json", json.dumps(self.between.seen() if self.between else None))

    def stream(self):
        self.send_response(200)
        self.send_header("Content-Type", "text/event-stream")
        self.send_header("Cache-Control", "no-store")
        self.end_headers()

    def event(self, kind, data):
        text = data if isinstance(data, str) else json.dumps(data)
        self.wfile.write(f"event: {kind}\n{''.join(f'data: {line}' + chr(10) for line in text.splitlines() or [''])}\n".encode())
        self.wfile.flush()

    def events(self, _):
        self.stream()
        with self.copy.lock:
            events, first = self.copy.listen(), state(self.copy)
        try:
            self.event("state", first)
            while True:
                try:
                    kind, data = events.get(timeout=15)
                except queue.Empty:
                    self.event("quiet", "")
                    continue
                if kind == "up":
                    with self.copy.lock:
                        data = state(self.copy)
                    self.event("state", data)
                elif kind == "rows":
                    counts = {table: len(self.copy.tables.get(table, ())) for table, *_ in data}
                    self.event("rows", {"rows": data, "counts": counts})
                else:
                    self.event(kind, data)
        finally:
            self.copy.listeners.remove(events)

    def raw(self, given):
        """A monitor of its own, whose texts are handed on."""
        self.stream()
        try:
            table, where = given.get("table", ""), given.get("where", "").strip()
            try:
                conditions = json.loads(where) if where else []
            except ValueError as wrong:
                raise Fault(f"the condition isn't JSON: {wrong}") from None
            if not isinstance(conditions, list):
                raise Fault('conditions are an array: [["name","==","br0"]]')
            if conditions and not isinstance(conditions[0], (list, bool)):
                conditions = [conditions]
            with Connection(self.copy.remote) as connection:
                name = connection.schema(self.copy.database)["name"]
                _, text = connection.ask("monitor_cond", name, "raw", {table: [{"where": conditions}]})
                self.event("text", text)
                while True:
                    came = connection.receive(15)
                    self.event("text" if came else "quiet", came[1] if came else "")
        except Fault as wrong:
            self.event("fault", str(wrong))


class Server(http.server.ThreadingHTTPServer):
    daemon_threads = True

    def handle_error(self, *_):
        pass


def serve(copy, between, port):
    """The HTTP server, which listens already."""
    handler = type("Bound", (Handler,), {"copy": copy, "between": between})
    try:
        return Server(("127.0.0.1", port), handler)
    except OSError as wrong:
        raise Fault(f"can't listen on 127.0.0.1:{port}: {wrong.strerror}") from None
