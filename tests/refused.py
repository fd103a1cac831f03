#!/usr/bin/env python3
"""Tries code that uses a mark, a seat or a round in a way that the types rule out, and says what of it isn't refused.

usage: tests/refused.py

Each file of tests/refused is a module of which one line is wrong, and names in a comment the error that it has to get. Its twin is
the same module without that line, in which there has to be none. The front end alone looks at them, over the libraries that
`rt all check`, or the gate, left in crates/*/out: nothing is proved. It ends with the first of its passes that finds errors, so
what was refused is taken out and the rest is looked at again. The last line is 'N passed, M failed', and the status is 1 where one
failed.
"""

import argparse
import glob
import os
import re
import subprocess
import sys
import tempfile

sys.dont_write_bytecode = True
import places

MARK = re.compile(r" *// \[([a-z0-9-]+)\]$", re.M)
ERROR = re.compile(r"^src/(\w+)\.rt:(\d+):\d+: error\[([a-z0-9-]+)\]", re.M)


def cases():
    """The text of each module, by its name, and of each twin."""
    for path in sorted(glob.glob(f"{places.ROOT}/tests/refused/*.rt.txt")):
        name = os.path.basename(path)[: -len(".rt.txt")]
        with open(path, encoding="utf-8") as file:
            text = file.read()
        yield name, text
        yield f"{name}_twin", "".join(line for line in text.splitlines(True) if not MARK.search(line))


def wanted(text):
    """The line of a module that is to be refused, and the error."""
    found = MARK.search(text)
    return text.count("\n", 0, found.start()) + 1, found[1]


def command(kit, modules):
    """A check of the crate in the current folder by the front end alone."""
    built = sorted(glob.glob(f"{places.ROOT}/crates/*/out/rlib/*.rlib"))
    used = {name for text in modules.values() for name in re.findall(r"(?m)^use (odb_\w+)::", text)}
    externs = [f"std={kit}/rlibs/std.rlib", *(f"{name}={places.ROOT}/crates/{name}/out/rlib/{name}.rlib" for name in sorted(used))]
    words = [f"{kit}/bin/rattle", "check", "--crate-name", "refused", "src/lib.rt", "-L", f"dependency={kit}/rlibs"]
    words += [word for each in externs for word in ("--extern", each)]
    words += [word for each in built for word in ("-L", f"dependency={os.path.dirname(each)}")]
    words += ["--antt-project", f"{kit}/rattle/logic/antt-project.json", "--logic-built", f"{kit}/logic_built"]
    return [*words, "--jobs", "1", "--only", ""]


def looked_at(kit, modules):
    """The errors of a crate of these modules, by module, as lines and names, or a text that says why there are none."""
    with tempfile.TemporaryDirectory() as folder:
        os.mkdir(f"{folder}/src")
        for name, text in {**modules, "lib": "".join(f"mod {name};\n" for name in modules)}.items():
            with open(f"{folder}/src/{name}.rt", "w", encoding="utf-8") as file:
                file.write(text)
        ran = subprocess.run(command(kit, modules), cwd=folder, capture_output=True, text=True, check=False)
    found = {}
    for name, line, error in ERROR.findall(ran.stdout + ran.stderr):
        found.setdefault(name, []).append((int(line), error))
    if not found and ran.returncode:
        raise SystemExit(f"the front end ended with status {ran.returncode}: {(ran.stdout + ran.stderr)[-600:]}")
    return found


def main():
    argparse.ArgumentParser(description=__doc__, formatter_class=argparse.RawDescriptionHelpFormatter).parse_args()
    kit, modules = places.kit(), dict(cases())
    left, failed = dict(modules), []
    while True:
        found = looked_at(kit, left)
        if not found:
            break
        for name, errors in found.items():
            must = [] if name.endswith("_twin") else [wanted(left[name])]
            if errors != must:
                failed.append(f"{name}: {errors} and not {must}")
            del left[name]
    failed += [f"{name}: isn't refused" for name in left if not name.endswith("_twin")]
    for each in failed:
        print(each)
    print(f"{len(modules) - len(failed)} passed, {len(failed)} failed")
    sys.exit(bool(failed))


main()
