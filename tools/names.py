"""Names that lead somewhere, and mean one thing: of types, in documents, and of the steps of machines (for tools/anchors)."""

import functools
import glob
import os
import re

from places import ROOT, below, crates
from transcripts import read_text

PAGES = ["docs/*.md", "*.md", "*/README.md", "crates/*/README.md"]
CODE = ["crates/*/src/**/*.rt"]
NAMED_BY = ["crates/*/*/**/*.*", "tests/**/*", "tools/*", "bench/**/*", "packaging/*", "ovsdbd", "test"]
LEFT_OUT = re.compile(r"/(?:out|__pycache__|figures)/")
CODED = re.compile(r"`((?:\w+::)*)(\w+)(?:\(\))?`")
STEPS = re.compile(r"\b[Ss]teps?:? (`.*|(?:those of|what) .*)")

# Types that stand twice, where one crate stands on the other: the upper one, and what tells the two apart. A new type gets
# another name; who renames one of these takes its line out.
TWICE = {
    "Change": "odb_request: of a filter; odb_monitor: of a row",
    "Key": "odb_interest: by what a session is looked up; odb_tables: an identifier in a hash map",
    "Reference": "odb_integrity: with the column that makes it; odb_atoms: as the type has it",
    "Select": "odb_request: kinds of change (RFC 7047, 4.1.5, <monitor-select>); odb_json: the operation (5.2.2)",
}

# Names in documents that are the toolchain's.
OF_THE_TOOLCHAIN = {"after_borrow": "of std's io, in a proof"}

# Steps, and stages at which one goes on, that no comment and no contract of the code names, and why.
UNNAMED = {
    "goes_on": "the pump's next step: comments name the stage",
    "loop_goes_on": "the loop's next step: comments name the stage",
    "peer_takes": "the peer's",
    "peer_sends": "the peer's",
    "peer_ends": "the peer's",
    "peer_goes": "the peer's",
    "calls_another": "of another session, what `giver_goes_on` is of this one",
    "owes": "whatever a hold of the lock makes owed",
    "nears": "whatever a hold of the lock makes due sooner",
    "gives_all": "any round that gives all that is owed",
    "flushes": "no comment has it yet: `Ring::flush`",
    "meets_busy": "no comment has it yet: a submit that is answered Busy",
}


def files(patterns):
    found = {path for it in patterns for path in glob.glob(os.path.join(ROOT, it), recursive=True)}
    return sorted(path for path in found if os.path.isfile(path) and not LEFT_OUT.search(path))


def crate_of(path):
    return os.path.relpath(path, os.path.join(ROOT, "crates")).partition("/")[0]


# ---- types


def defined():
    """The structs and enums of all crates: the crate, whether others see it, and the name."""
    for path in files(CODE):
        for found in re.finditer(r"^ *pub(\(crate\))? (?:struct|enum) (\w+)", read_text(path), re.M):
            yield crate_of(path), not found[1], found[2]


def twice():
    """The types of a crate that have the name of one that it can see, and lines of TWICE that are of none."""
    types, found = list(defined()), set()
    for upper, _, name in types:
        for lower, is_seen, other in types:
            if name == other and is_seen and lower != upper and lower in below(upper):
                found.add(name)
                if name not in TWICE:
                    yield f"{upper}: its type {name} has the name of one of {lower}, which it can see"
    yield from (f"tools/names.py: {name} stands once, and no longer in TWICE" for name in sorted({*TWICE} - found))


# ---- names in documents


@functools.cache
def words():
    """All words of the repository's code, definitions, proofs, tests and tools, with those of their files' names."""
    found = set()
    for path in files(NAMED_BY):
        if not path.endswith((".md", "/tools/names.py")):
            found.update(re.findall(r"\w+", os.path.relpath(path, ROOT)), re.findall(r"\w+", read_text(path)))
    return found


@functools.cache
def members():
    """What stands in each type of the crates: its functions, variants and fields."""
    found = {}
    for path in files(CODE):
        owner = ""
        for line in read_text(path).splitlines():
            head = re.match(r"(?:unsafe )?impl(?:<.*?>)? (?:[^{]* for )?(\w+)|(?:pub(?:\(crate\))? )?(?:struct|enum|trait) (\w+)", line)
            owner = (head[1] or head[2]) if head else "" if line.startswith("}") else owner
            inside = re.match(r" {4}(?:pub(?:\(crate\))? )?(?:const )?(?:unsafe )?(?:fn |ghost |const |type )?(\w+)", line)
            if owner and inside:
                found.setdefault(owner, set()).add(inside[1])
    return found


def lost(owner, name):
    """What is wrong with a name, '' where it is somewhere."""
    if name in OF_THE_TOOLCHAIN:
        return ""
    if owner and owner not in words() or name not in words():
        return "is in no file"
    return "isn't in that type" if owner in members() and name not in members()[owner] else ""


def nowhere():
    """The names in code marks of documents, of the form `Type::call` or `some_name`, that lead nowhere."""
    for path in files(PAGES):
        text = read_text(path)
        for found in CODED.finditer(text):
            owner, name = found[1].split("::")[-2] if found[1] else "", found[2]
            why = lost(owner, name) if owner or re.match("[a-z].*_", name) else ""
            if why:
                yield f"{os.path.relpath(path)}:{text.count(chr(10), 0, found.start()) + 1}: {found[0]} {why}"


# ---- steps of machines


def steps():
    """The steps of the machines of odb_waking, and the stages at which a thread goes on."""
    for path in files(["crates/odb_waking/specs/*.antt"]):
        for found in re.finditer(r"^pub data (?:Step|Stage) .*\n((?:  .*\n)+)", read_text(path), re.M):
            yield from re.findall(r"^  (\w+) :", found[1], re.M)


def named_steps():
    """The names in the comments `Step: ..` and `Steps: ..` of the threads' code, and the stages that its contracts ask for."""
    for path in files(["crates/ovsdbd/src/**/*.rt", "crates/odb_hub/src/**/*.rt", "crates/odb_waking/src/**/*.rt"]):
        text = read_text(path)
        if "odb_waking.specs" in text:
            yield from re.findall(r"\w+", " ".join(re.findall(r"^ *(?:requires|ensures) .*", text, re.M)))
        for comment in re.findall(r"(?:^ *///.*\n)+", text, re.M):
            for found in STEPS.finditer(re.sub(r"\s*///\s*", " ", comment)):
                yield from re.findall(r"`(\w+)`", found[1])


def unnamed():
    """The steps that no comment and no contract of the code names, and lines of UNNAMED that are of none."""
    lacking = set(steps()) - set(named_steps())
    yield from (f"odb_waking: no comment of the code names its step {it}, as in `Step: ..`, and no contract" for it in sorted(lacking - {*UNNAMED}))
    yield from (f"tools/names.py: {it} is named, or no step, and no longer in UNNAMED" for it in sorted({*UNNAMED} - lacking))
