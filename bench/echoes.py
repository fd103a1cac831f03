#!/usr/bin/env python3
"""Measures an echo through the script, by the microseconds of processor, with 1 and with 4,000 sessions open.

usage: bench/echoes.py [--json FILE] [PROGRAM]

PROGRAM is the built program, `crates/ovsdbd/out/ovsdbd` if none is named. --json FILE writes what was measured
there. Each figure is the difference of two runs: sessions and echoes, and the sessions alone. The echoes come from one
session, and from all in turn.

Last seen, 2026-11-25, four runs, all other work stopped, which differ by half: 3 to 7 us with 1 session; with 4,000 of them
0.5, 0.9, 1.1 and 2.8 of that where one sends, and 1.8, 2.1, 2.1 and 4.9 where all do: a name is looked up by a walk over the
names. When every session was drained after each line it was 8 and 964 us.
"""
import os
import resource
import subprocess
import sys

sys.dont_write_bytecode = True
sys.path.insert(0, os.path.dirname(os.path.realpath(__file__)))
import figures
from places import NET

WORDS = figures.words_of(__doc__)
PROGRAM = WORDS.program
ECHO = '{"method":"echo","params":["a"],"id":0}'
COUNT = 20_000


def seconds(lines):
    """The processor's time of a run."""
    before = resource.getrusage(resource.RUSAGE_CHILDREN)
    ran = subprocess.run([PROGRAM, "script", "--schema", NET], input="\n".join(lines) + "\n", capture_output=True, text=True)
    after = resource.getrusage(resource.RUSAGE_CHILDREN)
    assert ran.returncode == 0, ran.stderr
    return after.ru_utime + after.ru_stime - before.ru_utime - before.ru_stime


def echo(sessions, senders):
    opened = [f"!open s{number}" for number in range(sessions)]
    echoes = [f"s{number % senders} {ECHO}" for number in range(COUNT)]
    return (seconds(opened + echoes) - seconds(opened)) / COUNT * 1_000_000


one = echo(1, 1)
kept = {"an echo, 1 session (us)": one}
for sessions, senders in ((4_000, 1), (4_000, 4_000)):
    many = echo(sessions, senders)
    kept[f"an echo, {sessions:,} sessions, {senders:,} of them send (us)"] = many
    print(f"{sessions:,} sessions, {senders:,} of them send: {many:.1f} us an echo, {many / one:.2f} of {one:.1f} us with 1 session")
figures.keep(WORDS.json, "echoes", {"ovsdbd script": kept})
