#!/usr/bin/env python3
"""Plays the transcripts of the store to ovsdb-server, and prints where its answers differ from those that stand in them.

Usage: tests/peers.py [--all] [WORD]      with WORD: the transcripts alone that have it in their titles
                                          with --all: what is the same is printed too

Each is played to a new database. ovsdb-server (Debian's package openvswitch-switch) listens on 127.0.0.1. Without it
nothing is compared, and the exit status is 0. OVSDB_SERVER and OVSDB_TOOL name the programs where they aren't in the path.

Answers are compared for each session apart, as JSON. Before that identifiers are renamed (inserted rows U1, U2, ..
as the transcripts number them, others X1, X2, .. as they come), and the rows of a `select`, the members of a set and
the pairs of a map are sorted, as the other server's identifiers are random. A moment of a script is 250 milliseconds of its life.
Transcripts that hold back what a session is sent (`!hold`), wait for longer than 1,000 moments, or have other sessions
than A, B and C or a fault of the schema are left out, and counted: nothing of the other server corresponds to them.
"""

import argparse
import json
import re
import select
import socket
import sys
import time

from daemon import SERVER, TOOL, OvsdbServer, Wrong
from transcripts import store

QUIET = 0.02  # seconds without a byte after which the other server is taken to have said all
PATIENCE = 1  # seconds that the first byte may take where a reply is due
MOMENT = 0.25
UUID = re.compile(r"[0-9a-f]{8}-[0-9a-f]{4}-[0-9a-f]{4}-[0-9a-f]{4}-[0-9a-f]{12}")
ZERO = "00000000-0000-0000-0000-000000000000"


def is_alike(transcript):
    """Whether something of the other server corresponds to all that goes in."""
    others = r"> (!hold|!tick \d{5}|!open [^ABC]|!close [^ABC]|[^ABC!])"
    return transcript.lines and not any(re.match(others, line) for line in transcript.whole())


def inserted(number):
    """The identifier of a script's insert of this number."""
    return "00000000-0000-4000-8000-%012x" % number


class Identifiers:
    """The numbers of inserted rows: each member of a `transact` that is an insert has one. One with an identifier of its
    own keeps that."""

    def __init__(self):
        self.count = 0
        self.asked = {}
        self.real = {}

    def ask(self, session, text):
        """Numbers the inserts of a request, and puts in the other server's own identifiers."""
        try:
            request = json.loads(text)
            inserts = [i for i, op in enumerate(request["params"][1:]) if isinstance(op, dict) and op.get("op") == "insert"]
            if request["method"] == "transact":
                numbers = {i: self.count + n for n, i in enumerate(inserts, 1) if "uuid" not in request["params"][1 + i]}
                self.asked[session, json.dumps(request["id"])] = numbers
                self.count += len(inserts)
        except (ValueError, KeyError, TypeError):
            pass
        return UUID.sub(lambda found: self.real.get(found.group(0), found.group(0)), text)

    def answer(self, session, message):
        """Notes the identifiers that a reply tells."""
        for place, number in self.asked.get((session, json.dumps(message.get("id"))), {}).items():
            result = message.get("result")
            if isinstance(result, list) and place < len(result) and "uuid" in (result[place] or {}):
                self.real[inserted(number)] = result[place]["uuid"][1]


def settled(value):
    """A JSON value whose selected rows, members of sets and pairs of maps are sorted."""
    if isinstance(value, dict):
        value = {key: settled(value[key]) for key in sorted(value)}
        if isinstance(value.get("rows"), list):
            value["rows"].sort(key=json.dumps)
        return value
    if isinstance(value, list):
        value = [settled(member) for member in value]
        if len(value) == 2 and value[0] in ("set", "map") and isinstance(value[1], list):
            value[1].sort(key=json.dumps)
    return value


def renamed(messages, names):
    """The messages of one side as texts, with identifiers renamed."""
    others = {}

    def name(found):
        text = found.group(0)
        if text == ZERO:
            return text
        return names.get(text) or others.setdefault(text, "X%d" % (len(others) + 1))

    lines = []
    for message in messages:
        text = UUID.sub(lambda found: names.get(found.group(0), found.group(0)), message)
        try:
            text = json.dumps(settled(json.loads(text)), separators=(",", ":"))
        except ValueError:
            pass
        lines.append(UUID.sub(name, text))
    return lines


def ours(transcript):
    """The answers that stand in the transcript, by their sessions."""
    answers = {}
    for line in transcript.whole():
        session, _, message = line[2:].partition(" ")
        if line.startswith("< ") and message not in ("!gone", "!open"):
            answers.setdefault(session, []).append("!closed" if message.startswith("!fault") else message)
    names = {inserted(number): "U%d" % number for number in range(1, 100)}
    return {session: renamed(messages, names) for session, messages in answers.items()}


class Theirs:
    """ovsdb-server over a new database, with a connection for each session."""

    def play(self, transcript):
        try:
            with OvsdbServer(transcript.schema_path) as server:
                self.port = server.port
                self.begin()
                for line in transcript.whole():
                    if line.startswith("> "):
                        self.put(line[2:])
                return self.end()
        except Wrong as wrong:
            return {"schema": [str(wrong)]}

    def begin(self):
        self.sockets, self.read, self.answers, self.identifiers = {}, {}, {}, Identifiers()
        for session in "ABC":
            self.open(session)
        self.latest = 0

    def open(self, session):
        self.sockets[session] = socket.create_connection(("127.0.0.1", self.port), timeout=10)
        self.read[session] = ""

    def put(self, line):
        word, _, rest = line.partition(" ")
        if word == "!tick":
            self.wait(int(rest))
        elif word == "!open":
            self.open(rest)
        elif word == "!close" and rest in self.sockets:
            self.sockets.pop(rest).close()
        elif word in self.sockets:
            try:
                self.sockets[word].sendall(self.scaled(self.identifiers.ask(word, rest)).encode("utf-8", "surrogateescape"))
            except OSError:
                pass
        due = '"id":' in rest and '"id":null' not in rest and '"op":"wait"' not in rest
        self.hear(PATIENCE if due else QUIET)

    def scaled(self, text):
        """A request whose timeouts are in the other server's milliseconds."""
        return re.sub(r'("timeout":)([1-9]\d{0,2})\b', lambda m: m.group(1) + str(int(int(m.group(2)) * MOMENT * 1000)), text)

    def wait(self, moment):
        """Lets as many moments pass as there are since the latest one, and a little more."""
        if moment > self.latest:
            time.sleep((moment - self.latest) * MOMENT + QUIET)
            self.latest = moment

    def hear(self, patience):
        """Reads until nobody is told anything for a while."""
        while True:
            ready, _, _ = select.select(list(self.sockets.values()), [], [], patience)
            if not ready:
                return
            patience = QUIET
            for session in [s for s in self.sockets if self.sockets[s] in ready]:
                self.take(session)

    def take(self, session):
        try:
            piece = self.sockets[session].recv(1 << 20).decode("utf-8", "surrogateescape")
        except OSError:
            piece = ""
        if not piece:
            self.answers.setdefault(session, []).append("!closed")
            self.sockets.pop(session).close()
            return
        text = self.read[session] + piece
        while text:
            try:
                message, end = json.JSONDecoder().raw_decode(text)
            except ValueError:
                break
            if message.get("method") == "echo":  # asks whether we are there, after five seconds of silence
                self.sockets[session].sendall(b'{"error":null,"id":"echo","result":[]}')
            else:
                self.identifiers.answer(session, message)
                self.answers.setdefault(session, []).append(text[:end])
            text = text[end:].lstrip()
        self.read[session] = text

    def end(self):
        for connection in self.sockets.values():
            connection.close()
        names = {real: "U%d" % int(number[-12:], 16) for number, real in self.identifiers.real.items()}
        return {session: renamed(messages, names) for session, messages in self.answers.items()}


def plain(line):
    """A message without the texts that say more of its errors, and with each error as its name."""
    try:
        message = json.loads(line)
    except ValueError:
        return line
    if "method" not in message:
        message["error"], message["result"] = error(message.get("error")), message.get("result")
    if isinstance(message.get("result"), list):
        message["result"] = [error(part) if isinstance(part, dict) and "error" in part else part for part in message["result"]]
    return json.dumps(message, sort_keys=True)


def error(value):
    return value["error"] if isinstance(value, dict) and "error" in value else value


def compare(ours, theirs):
    """How the answers differ: 'same', 'words' where errors' details alone do, or 'differs'."""
    if ours == theirs:
        return "same"
    sessions = set(ours) | set(theirs)
    if all([plain(line) for line in ours.get(s, [])] == [plain(line) for line in theirs.get(s, [])] for s in sessions):
        return "words"
    return "differs"


def show(ours, theirs):
    for session in sorted(set(ours) | set(theirs)):
        mine, other = ours.get(session, []), theirs.get(session, [])
        for place in range(max(len(mine), len(other))):
            a = mine[place] if place < len(mine) else "(nothing)"
            b = other[place] if place < len(other) else "(nothing)"
            if plain(a) != plain(b):
                print("  %s ours   %s\n  %s theirs %s" % (session, a[:600], session, b[:600]))


def is_there():
    """Whether the other server and its tool are there. Where they aren't it says so."""
    if SERVER and TOOL:
        return True
    print("skipped: ovsdb-server isn't installed (Debian's package openvswitch-switch)")
    return False


def main():
    sys.stdout.reconfigure(errors="backslashreplace")
    parser = argparse.ArgumentParser(description=__doc__, formatter_class=argparse.RawDescriptionHelpFormatter)
    parser.add_argument("--all", action="store_true", help="what is the same is printed too")
    parser.add_argument("word", metavar="WORD", nargs="?", default="", help="the transcripts alone that have it in their titles")
    words = parser.parse_args()
    if not is_there():
        return
    counts = {"same": 0, "words": 0, "differs": 0}
    theirs, found = Theirs(), store()
    alike = [it for it in found if is_alike(it)]
    for transcript in alike:
        if words.word not in transcript.title:
            continue
        sides = ours(transcript), theirs.play(transcript)
        kind = compare(*sides)
        counts[kind] += 1
        if kind == "differs" or words.all:
            print("%s: %s (%s)" % (kind, transcript.title, transcript.section))
            show(*sides)
    print("%d left out" % (len(found) - len(alike)))
    print("%(same)d the same, %(words)d but for what errors say besides their names, %(differs)d different" % counts)


if __name__ == "__main__":
    main()
