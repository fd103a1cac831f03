"""Chassis of OVN, each of which says on a connection of its own what ovn-controller 23.03.1 says to its Southbound, as it was
recorded between the two; and a fleet of them in a few processes.

A chassis asks the database `_Server`, and then for the Southbound by `monitor_cond_since`; where the server has no `_Server`,
for its schema and by `monitor_cond`. It registers itself (Chassis, Chassis_Private, Encap), and changes its conditions: to what
names it, and to the bindings of its interfaces' ports. It claims these as they come (`chassis`), and changes its conditions to
all that has their datapaths: flows, bindings, multicast groups and so on. Then the ports are up (`up`), and it writes the
`nb_cfg` up to which it is in step. As there, one transaction and one change of conditions are under way at a time, a change has
all conditions of those tables that changed, and flows of datapath groups are for all.

Unlike there the members of a condition always come in one order, flows go to no switch, and there are no tunnels.
"""

import collections
import json
import multiprocessing
import os
import selectors
import sys
import time

sys.path.insert(0, os.path.dirname(os.path.realpath(__file__)))
import figures  # which finds tests/
from daemon import Client, Wrong

DATABASE = "OVN_Southbound"
MONITOR = ["monid", DATABASE]
SERVER_MONITOR = ["monid", "_Server"]
ZERO = "00000000-0000-0000-0000-000000000000"
PROCESSES = 3
PATIENCE = 300
DECODER = json.JSONDecoder()
COLUMNS = {
    "RBAC_Role": "name permissions",
    "Meter_Band": "action burst_size rate",
    "SB_Global": "connections ipsec nb_cfg options ssl",
    "Meter": "bands name unit",
    "HA_Chassis_Group": "ha_chassis name ref_chassis",
    "Address_Set": "addresses name",
    "BFD": "detect_mult disc dst_ip external_ids logical_port min_rx min_tx options src_port status",
    "Load_Balancer": "datapath_group datapaths external_ids name options protocol vips",
    "DNS": "datapaths external_ids records",
    "Logical_DP_Group": "datapaths",
    "SSL": "bootstrap_ca_cert ca_cert certificate private_key ssl_ciphers ssl_protocols",
    "Gateway_Chassis": "chassis name options priority",
    "IGMP_Group": "address chassis datapath ports",
    "Chassis_Private": "chassis name nb_cfg nb_cfg_timestamp",
    "Chassis_Template_Var": "chassis variables",
    "DHCPv6_Options": "code name type",
    "Mirror": "external_ids filter index name sink type",
    "Service_Monitor": "external_ids ip logical_port options port protocol src_ip src_mac status",
    "MAC_Binding": "datapath ip logical_port mac timestamp",
    "DHCP_Options": "code name type",
    "FDB": "dp_key mac port_key",
    "RBAC_Permission": "authorization insert_delete table update",
    "Port_Binding": "additional_chassis additional_encap chassis datapath encap gateway_chassis ha_chassis_group logical_port mac mirror_rules "
    "nat_addresses options parent_port port_security requested_additional_chassis requested_chassis tag tunnel_key type up virtual_parent",
    "Static_MAC_Binding": "datapath ip logical_port mac override_dynamic_mac",
    "IP_Multicast": "datapath enabled eth_src idle_timeout ip4_src ip6_src querier query_interval query_max_resp seq_no table_size",
    "Encap": "chassis_name ip options type",
    "HA_Chassis": "chassis priority",
    "Chassis": "encaps external_ids hostname name nb_cfg other_config transport_zones vtep_logical_switches",
    "Port_Group": "name ports",
    "Controller_Event": "chassis event_info event_type seq_num",
    "Multicast_Group": "datapath name ports tunnel_key",
    "Datapath_Binding": "external_ids load_balancers tunnel_key",
    "Logical_Flow": "actions controller_meter logical_datapath logical_dp_group match pipeline priority table_id tags",
}
NONE = ("DNS", "IGMP_Group", "MAC_Binding", "IP_Multicast", "Controller_Event", "Multicast_Group", "Logical_Flow")
FIRST = {
    **{table: [False] for table in NONE},
    "Logical_DP_Group": [True],
    "Chassis_Private": [True],
    "Port_Binding": [["type", "==", kind] for kind in ("l3gateway", "l2gateway", "chassisredirect", "external", "patch")],
}
MONITORED = {table: [{**({"where": FIRST[table]} if table in FIRST else {}), "columns": columns.split()}] for table, columns in COLUMNS.items()}
SERVER_MONITORED = {"Database": [{"columns": ["name", "model", "connected", "leader", "schema", "cid", "index"]}]}
EMPTY = (
    "ovn-bridge-mappings ovn-chassis-mac-mappings ovn-cms-options ovn-limit-lflow-cache ovn-memlimit-lflow-cache-kb "
    "ovn-trim-limit-lflow-cache ovn-trim-timeout-ms ovn-trim-wmark-perc-lflow-cache"
)
CONFIGURATION = {
    **dict.fromkeys("ct-no-masked-label mac-binding-timestamp ovn-ct-lb-related ovn-enable-lflow-cache port-up-notif".split(), "true"),
    **dict.fromkeys("is-interconn ovn-monitor-all".split(), "false"),
    **dict.fromkeys(EMPTY.split(), ""),
    "datapath-type": "system",
    "iface-types": "afxdp,afxdp-nonpmd,bareudp,dummy,dummy-internal,dummy-pmd,erspan,geneve,gre,gtpu,internal,ip6erspan,ip6gre,lisp,patch,stt,system,tap,vxlan",
}


def comment(text):
    return {"op": "comment", "comment": f"ovn-controller{text}"}


def update(table, row, columns):
    return {"op": "update", "table": table, "where": [["_uuid", "==", ["uuid", row]]], "row": columns}


def registration(name, address):
    """The operations that make a chassis of this name, whose tunnels end at an address."""
    chassis = {"name": name, "hostname": name, "other_config": ["map", sorted(CONFIGURATION.items())], "encaps": ["named-uuid", "encap"]}
    encap = {"ip": address, "options": ["map", [["csum", "true"]]], "chassis_name": name, "type": "geneve"}
    return [
        {"op": "insert", "table": "Chassis_Private", "uuid-name": "private", "row": {"name": name, "chassis": ["named-uuid", "chassis"]}},
        {"op": "insert", "table": "Chassis", "uuid-name": "chassis", "row": chassis},
        {"op": "insert", "table": "Encap", "uuid-name": "encap", "row": encap},
        comment(f"\novn-controller: registering chassis '{name}'"),
    ]


def members(column, function, rows):
    """The members of a condition that each name one of these rows."""
    return [[column, function, ["uuid", row]] for row in rows]


class Chassis(Client):
    """A chassis on a connection, with the interfaces that it has. It keeps the bindings that it sees, and how many rows of each
    table, and when the last flow came and its last port was up."""

    def __init__(self, port, name):
        super().__init__(port)
        self.name, self.interfaces, self.asked, self.is_told = name, set(), {}, False
        self.row, self.private, self.nb_cfg, self.wanted_nb_cfg = None, None, 0, 0
        self.ports, self.places, self.counts = {}, {}, collections.Counter()
        self.sent, self.acknowledged = FIRST, FIRST
        self.moments = {"flows": 0.0, "up": 0.0}
        self.call("get_schema", "_Server")

    def call(self, method, *params):
        """Sends a request whose reply comes later."""
        self.numbers += 1
        self.asked[self.numbers] = method, params
        self.request(method, list(params), self.numbers)

    def add(self, interfaces):
        """It has these interfaces too."""
        self.interfaces.update(interfaces)
        self.move()

    def hear(self):
        """Takes in what came, where a message ends with it."""
        data = self.socket.recv(1 << 20)
        if not data:
            raise Wrong(f"{self.name}: the server closed the connection")
        self.text += self.bytes.decode(data)
        place = 0
        while place < len(self.text) and self.text[-1] == "}":
            try:
                came, place = DECODER.raw_decode(self.text, place)
            except ValueError:
                break
            self.take(came)
        self.text = self.text[place:]
        self.move()

    def take(self, came):
        method = came.get("method")
        if method == "echo":
            self.send({"id": came["id"], "error": None, "result": came["params"]})
        elif method in ("update2", "update3"):
            if came["params"][0] == MONITOR:
                self.learn(came["params"][-1])
        elif method is None:
            self.replied(*self.asked.pop(came["id"]), came.get("result"), came.get("error"))

    def replied(self, method, params, result, error):
        """Goes on after a reply. A server may lack `_Server`; all else is served."""
        if error and params != ("_Server",):
            raise Wrong(f"{self.name}: {method}: {json.dumps(error)}")
        if method == "get_schema":
            self.ask_for_rows(params[0], has_failed=bool(error))
        elif method == "monitor_cond" and params[0] == "_Server":
            self.monitor("monitor_cond_since", ZERO)
        elif method in ("monitor_cond", "monitor_cond_since"):
            self.is_told = True
            self.learn(result[2] if method == "monitor_cond_since" else result)
        elif method == "monitor_cond_change":
            self.acknowledged = self.sent
        elif method == "transact" and any(it and it.get("error") for it in result):
            raise Wrong(f"{self.name}: {json.dumps(result)}")

    def ask_for_rows(self, database, has_failed):
        """Goes on after a schema."""
        if database == DATABASE:
            self.monitor("monitor_cond")
        elif has_failed:
            self.call("get_schema", DATABASE)
        else:
            self.call("monitor_cond", "_Server", SERVER_MONITOR, SERVER_MONITORED)

    def monitor(self, method, *since):
        self.call(method, DATABASE, MONITOR, MONITORED, *since)
        if since:
            self.call("set_db_change_aware", True)

    def learn(self, tables):
        """Takes in rows."""
        for table, rows in tables.items():
            keep = KEPT.get(table)
            for uuid, change in rows.items():
                ((kind, row),) = change.items()
                self.counts[table] += (kind in ("initial", "insert")) - (kind == "delete")
                if keep and row:
                    keep(self, uuid, row)
        if "Logical_Flow" in tables:
            self.moments["flows"] = time.monotonic()

    def keep_global(self, _, row):
        self.wanted_nb_cfg = row.get("nb_cfg", self.wanted_nb_cfg)

    def keep_chassis(self, uuid, row):
        if row.get("name") == self.name:
            self.row = uuid

    def keep_private(self, uuid, row):
        if row.get("name") == self.name:
            self.private = uuid
        if uuid == self.private:
            self.nb_cfg = row.get("nb_cfg", self.nb_cfg)

    def keep_port(self, uuid, row):
        port = self.ports.setdefault(uuid, {})
        port.update(row)
        self.places[port["logical_port"]] = uuid
        if row.get("up") is True and port["logical_port"] in self.interfaces:
            self.moments["up"] = time.monotonic()

    def bindings(self):
        """The bindings of its interfaces that it sees, by their identifiers."""
        places = [self.places[name] for name in sorted(self.interfaces) if name in self.places]
        return {place: self.ports[place] for place in places}

    def move(self):
        """Sends what is due: a transaction, a change of conditions, or both, where none of its kind is under way."""
        if not self.is_told:
            return
        methods, conditions = [method for method, _ in self.asked.values()], self.conditions()
        if "transact" not in methods:
            operations = self.due(conditions)
            if operations:
                self.call("transact", DATABASE, *operations)
        if "monitor_cond_change" not in methods and conditions != self.sent:
            changed = {table: [{"where": where}] for table, where in conditions.items() if where != self.sent.get(table)}
            self.sent = conditions
            self.call("monitor_cond_change", MONITOR, MONITOR, changed)

    def due(self, conditions):
        """The operations of the next transaction, if one is due: the ports are up where all that was asked for is there."""
        if not self.row:
            port = self.socket.getsockname()[1]  # which no other has, as no two tunnels end at one address
            return registration(self.name, f"172.16.{port >> 8}.{port & 255}")
        own, bindings = ["uuid", self.row], self.bindings()
        due = [update("Port_Binding", place, {"chassis": own}) for place, port in bindings.items() if port.get("chassis") != own]
        if not due and conditions == self.acknowledged:
            due = [update("Port_Binding", place, {"up": True}) for place, port in bindings.items() if port.get("up") is not True]
            if not due and self.private and self.nb_cfg != self.wanted_nb_cfg:
                due = [update("Chassis_Private", self.private, {"nb_cfg": self.wanted_nb_cfg, "nb_cfg_timestamp": int(1000 * time.time())})]
        return [*due, comment("")] if due else []

    def conditions(self):
        """Which rows it wants now, by tables."""
        if not self.row:
            return FIRST
        datapaths = sorted({port["datapath"][1] for port in self.bindings().values()})
        of_it, of_datapaths = members("chassis", "==", [self.row]), members("datapath", "==", datapaths)
        return {
            **FIRST,
            **dict.fromkeys(("Controller_Event", "IGMP_Group"), of_it),
            "Chassis_Template_Var": [["chassis", "==", self.name]],
            "Chassis_Private": [["name", "==", self.name]],
            "Logical_Flow": [["logical_dp_group", "!=", ["set", []]], *members("logical_datapath", "==", datapaths)],
            "Port_Binding": [*of_it, *self.ports_wanted(), *of_datapaths],
            "DNS": members("datapaths", "includes", datapaths) or [False],
            **dict.fromkeys(("Multicast_Group", "MAC_Binding", "IP_Multicast"), of_datapaths or [False]),
        }

    def ports_wanted(self):
        """The members by which it sees bindings that don't have its datapaths yet."""
        kinds = [["type", "==", kind] for kind in ("chassisredirect", "external", "patch")]
        gateways = [["options", "includes", ["map", [[f"{kind}-chassis", self.name]]]] for kind in ("l2gateway", "l3gateway")]
        names = [[column, "==", name] for name in sorted(self.interfaces) for column in ("logical_port", "parent_port")]
        return [*members("requested_chassis", "==", [self.row]), *kinds, *gateways, *names]

    def is_quiet(self):
        """Whether it waits for nothing."""
        return self.is_told and not self.asked

    def is_up(self):
        """Whether the ports of all of its interfaces are up."""
        ports = [self.ports.get(self.places.get(name), {}) for name in self.interfaces]
        return self.is_quiet() and all(port.get("up") is True for port in ports)

    def seen(self):
        """How many flows and bindings it has, and since when."""
        return self.counts["Logical_Flow"], self.counts["Port_Binding"], self.moments


KEPT = {"SB_Global": Chassis.keep_global, "Chassis": Chassis.keep_chassis, "Chassis_Private": Chassis.keep_private, "Port_Binding": Chassis.keep_port}


class Share:
    """The chassis of a process, in which all of them are read side by side."""

    def __init__(self, port, pipe):
        self.port, self.pipe, self.chassis, self.until = port, pipe, {}, None
        self.selector = selectors.DefaultSelector()
        self.selector.register(pipe, selectors.EVENT_READ, self.obey)

    def run(self):
        """Goes on until the fleet ends it."""
        while True:
            for key, _ in self.selector.select():
                key.data()
            if self.until and all(self.until(each) for each in self.chassis.values()):
                self.until = None
                self.pipe.send({name: each.seen() for name, each in self.chassis.items()})

    def obey(self):
        """Starts chassis, or gives them more interfaces, and answers later."""
        self.until, interfaces = self.pipe.recv()
        for name, added in interfaces.items():
            if name not in self.chassis:
                self.chassis[name] = Chassis(self.port, name)
                self.selector.register(self.chassis[name].socket, selectors.EVENT_READ, self.chassis[name].hear)
            self.chassis[name].add(added)


def share(port, pipe):
    Share(port, pipe).run()


class Fleet:
    """Chassis in a few processes, which end with what is done in it."""

    def __init__(self, port):
        self.port, self.pipes, self.processes, self.interfaces = port, [], [], {}
        for _ in range(PROCESSES):
            mine, its = multiprocessing.Pipe()
            self.processes.append(multiprocessing.Process(target=share, args=(port, its), daemon=True))
            self.processes[-1].start()
            its.close()
            self.pipes.append(mine)

    def __enter__(self):
        return self

    def __exit__(self, *_):
        for process in self.processes:
            process.terminate()
            process.join()

    def wait(self, until, interfaces):
        """Starts those of these chassis that it doesn't have, gives each these interfaces too, and waits until this is so of all of
        its chassis. It returns what each has seen."""
        for name, added in interfaces.items():
            self.interfaces[name] = [*self.interfaces.get(name, []), *added]
        for number, pipe in enumerate(self.pipes):
            here = list(self.interfaces)[number::PROCESSES]
            pipe.send((until, {name: added for name, added in interfaces.items() if name in here}))
        seen = {}
        for pipe in self.pipes:
            if not pipe.poll(PATIENCE):
                raise Wrong(f"not so of all chassis after {PATIENCE} s: {until.__name__}")
            seen |= pipe.recv()
        return seen

    def up(self, interfaces):
        """Waits until the ports of all interfaces are up."""
        return self.wait(Chassis.is_up, interfaces)

    def quiet(self, interfaces):
        """Waits until nothing that a chassis asked for is open."""
        return self.wait(Chassis.is_quiet, interfaces)

    def in_step(self):
        """Waits until each has the flows and bindings that the Southbound has for it, and returns when the last flow came, and when
        the last port was up."""
        end = time.monotonic() + PATIENCE
        while True:
            seen, due = self.quiet({}), wanted(self.port, self.interfaces)
            if all(seen[name][:2] == each for name, each in due.items()):
                return [max(moments[what] for _, _, moments in seen.values()) for what in ("flows", "up")]
            if time.monotonic() > end:
                raise Wrong(f"not in step after {PATIENCE} s: {[(name, each, seen[name]) for name, each in due.items() if seen[name][:2] != each][:5]}")
            time.sleep(0.2)


def wanted(port, interfaces):
    """How many flows and bindings each of these chassis is to have, by what stands in the Southbound."""
    columns = {"Logical_Flow": ["_uuid", "logical_datapath"], "Port_Binding": ["logical_port", "datapath"]}
    selects = [{"op": "select", "table": table, "where": [], "columns": of_it} for table, of_it in columns.items()]
    with Client(port) as client:
        flows, ports = (result["rows"] for result in client.ask("transact", DATABASE, *selects))
    flows_of = collections.Counter(row["logical_datapath"][1] if row["logical_datapath"][0] == "uuid" else "groups" for row in flows)
    ports_of = collections.Counter(row["datapath"][1] for row in ports)
    datapaths = {row["logical_port"]: row["datapath"][1] for row in ports}
    found = {}
    for name, names in interfaces.items():
        of_it = {datapaths[each] for each in names}
        found[name] = flows_of["groups"] + sum(flows_of[each] for each in of_it), sum(ports_of[each] for each in of_it)
    return found
