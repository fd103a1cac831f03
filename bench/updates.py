#!/usr/bin/env python3
"""Measures updates and selects a second of processor through the script, on databases of several sizes.

usage: bench/updates.py [--json FILE] [PROGRAM]

PROGRAM is the built program, `crates/ovsdbd/out/ovsdbd` if none is named. --json FILE writes what was measured there. Each
figure is the difference of two runs: rows and calls, and the rows alone. A call is a transaction of one operation, whose
`where` names the row's `_uuid`. The tables: C is root, with no reference and no index; Port isn't root, and each row is named
by one of Bridge, which has an index.

Last seen, 2026-11-25, on 4 cores of a slow machine, all other work stopped:
  rows        update C      select C      update Bridge   rename Bridge   update Port   select Port
  100         55,700        84,362        87,117          56,376          111,984       70,997
  1,000       51,434        84,474        92,372          52,914          83,105        73,375
  10,000      107,112       65,677        53,820          47,175          125,194       144,443
"""
import json
import os
import resource
import subprocess
import sys
import tempfile

sys.dont_write_bytecode = True
sys.path.insert(0, os.path.dirname(os.path.realpath(__file__)))
import figures

WORDS = figures.words_of(__doc__)
PROGRAM = WORDS.program
SCHEMA = {"name": "d", "version": "1.0.0", "tables": {
    "C": {"isRoot": True, "columns": {"n": {"type": "integer"}, "s": {"type": "string"}}},
    "Bridge": {"isRoot": True, "indexes": [["name"]], "columns": {
        "name": {"type": "string"}, "n": {"type": "integer"},
        "port": {"type": {"key": {"type": "uuid", "refTable": "Port"}, "min": 0}}}},
    "Port": {"columns": {"n": {"type": "integer"}, "peer": {
        "type": {"key": {"type": "uuid", "refTable": "Port", "refType": "weak"}, "min": 0}}}}}}
CHUNK = 50


def call(*operations):
    return "A " + json.dumps({"method": "transact", "params": ["d", *operations], "id": 0}, separators=(",", ":"))


def insert(table, number):
    if table == "C":
        return [{"op": "insert", "table": "C", "row": {"n": number, "s": "row"}}]
    return [{"op": "insert", "table": "Port", "row": {"n": number}, "uuid-name": f"p{number}"},
            {"op": "insert", "table": "Bridge", "row": {"name": f"br{number}", "port": ["named-uuid", f"p{number}"]}}]


def filled(table, rows):
    lines = ["!open A"]
    for first in range(0, rows, CHUNK):
        lines.append(call(*(it for number in range(first, min(rows, first + CHUNK)) for it in insert(table, number))))
    return lines


def run(lines):
    """The seconds of processor that a run takes, and what it printed."""
    with tempfile.TemporaryDirectory() as folder:
        schema, text = f"{folder}/schema", f"{folder}/in"
        with open(schema, "w") as file:
            json.dump(SCHEMA, file)
        with open(text, "w") as file:
            file.write("\n".join(lines) + "\n")
        with open(text) as file:
            before = resource.getrusage(resource.RUSAGE_CHILDREN)
            done = subprocess.run([PROGRAM, "script", "--schema", schema], stdin=file, capture_output=True, text=True)
            after = resource.getrusage(resource.RUSAGE_CHILDREN)
            return after.ru_utime + after.ru_stime - before.ru_utime - before.ru_stime, done.stdout


def uuid_of(printed, table):
    """Of the row that was inserted last into the table."""
    last = json.loads([line for line in printed.splitlines() if '"result"' in line][-1].split(" ", 1)[1])["result"]
    return last[-1 if table != "Port" else -2]["uuid"][1]


def operation(kind, table, uuid, number):
    where = [["_uuid", "==", ["uuid", uuid]]]
    if kind == "select":
        return {"op": "select", "table": table, "where": where, "columns": ["n"]}
    row = {"name": f"new{number}"} if kind == "rename" else {"n": number}
    return {"op": "update", "table": table, "where": where, "row": row}


def main():
    kinds = [("update", "C"), ("select", "C"), ("update", "Bridge"), ("rename", "Bridge"), ("update", "Port"), ("select", "Port")]
    print(f"{'rows':>8}" + "".join(f"{kind + ' ' + table:>16}" for kind, table in kinds))
    kept = {}
    for rows in (100, 1000, 10000):
        cells = []
        for kind, table in kinds:
            lines = filled(table, rows)
            alone, printed = run(lines)
            uuid = uuid_of(printed, table)
            calls = 20
            while True:
                more = [call(operation(kind, table, uuid, number)) for number in range(calls)]
                took = run(lines + more)[0] - alone
                if took > 0.3 + alone / 5 or calls > 20000:
                    break
                calls *= 4
            kept[f"{kind} {table}, {rows:,} rows (a second of processor)"] = calls / max(took, 1e-9)
            cells.append(f"{calls / max(took, 1e-9):>16,.0f}")
        print(f"{rows:>8,}" + "".join(cells), flush=True)
    figures.keep(WORDS.json, "updates", {"ovsdbd script": kept})


main()
