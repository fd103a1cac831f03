"""OVN's northd between a Northbound and a Southbound, and what tests and benches ask of them. Debian's packages ovn-central and
ovn-common have the programs and the schemas.
"""

import contextlib
import os
import subprocess
import tempfile

from daemon import PATIENCE, SHARE, Client, Wrong, found

SCHEMAS = [os.path.join(SHARE, "ovn", f"ovn-{each}.ovsschema") for each in ("nb", "sb")]


@contextlib.contextmanager
def northd(northbound, southbound):
    """OVN's northd between two servers, which finds either again within a second."""
    with tempfile.TemporaryDirectory() as folder:
        words = [found("ovn-northd"), "--no-chdir", "--verbose=console:off", f"--unixctl={folder}/ctl", f"--log-file={folder}/log", f"--ovnnb-db={northbound}", f"--ovnsb-db={southbound}"]
        process = subprocess.Popen(words, env={**os.environ, "OVN_RUNDIR": folder}, stdout=subprocess.DEVNULL, stderr=subprocess.DEVNULL)
        try:
            yield process
        finally:
            process.terminate()
            process.wait()


def nbctl(remote, *words, patience=PATIENCE):
    """Runs ovn-nbctl on a Northbound."""
    ran = subprocess.run([found("ovn-nbctl"), f"--db={remote}", f"--timeout={patience}", *words], capture_output=True, text=True, check=False)
    if ran.returncode:
        raise Wrong(f"ovn-nbctl: {ran.stderr}")


def add_port(switch, port):
    """The words that add a port to a switch, with an address of its own there."""
    name, address = f"s{switch}p{port}", f"02:00:{switch >> 8:02x}:{switch & 255:02x}:{port >> 8:02x}:{port & 255:02x} 10.{switch & 255}.{port >> 8}.{port & 255}"
    return ["--", "lsp-add", f"s{switch}", name, "--", "lsp-set-addresses", name, address]


def add_switches(remote, count, ports):
    """Adds logical switches with so many ports each to a Northbound, a switch at a time and 100 ports at most."""
    for switch in range(count):
        nbctl(remote, "ls-add", f"s{switch}")
        for first in range(0, ports, 100):
            words = [word for port in range(first, min(ports, first + 100)) for word in add_port(switch, port)]
            nbctl(remote, *words[1:])


def bindings(port):
    """How many ports a Southbound has."""
    with Client(port) as client:
        return len(client.ask("transact", "OVN_Southbound", {"op": "select", "table": "Port_Binding", "where": [], "columns": ["_uuid"]})[0]["rows"])
