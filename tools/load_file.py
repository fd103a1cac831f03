"""Files that `ovsdbd serve --load` reads: rows as transactions that insert each under its own identifier.

At the end of a transaction a strong reference leads to a row, a row of a table that isn't a root has one that leads to it, and
rows don't clash in an index. So a row goes in after those that it needs, or with them; weak references that lead to a later one
are set by updates at the end. `_version` is of the server that had the row, and isn't kept.
"""

import contextlib
import json
import os

from look_client import base, default, elements

SIZE = 1_000_000  # bytes of a transaction, where rows that go in together have no more


def text(data):
    return json.dumps(data, separators=(",", ":"))


def sides(column):
    """Where the identifiers of rows stand in a column's elements: their place in a pair, None where there are none; their table; and whether they
    refer strongly."""
    key, value, _ = base(column)
    return [(None if value is None else place, side["refTable"], side.get("refType") != "weak") for place, side in enumerate((key, value)) if isinstance(side, dict) and "refTable" in side]


def comes_first(name, table):
    """Whether a column can't be set later: it refers strongly, is immutable, may not be empty, or is in an index."""
    column = table["columns"][name]
    least = column["type"].get("min", 1) if isinstance(column["type"], dict) else 1
    return any(is_strong for *_, is_strong in sides(column)) or not column.get("mutable", True) or least > 0 or any(name in index for index in table.get("indexes", []))


class Content:
    """The rows of a database: of each its table, its identifier, and the columns that aren't their defaults."""

    def __init__(self, schema, tables):
        self.name, self.schema = schema["name"], schema["tables"]
        has_root = any(table.get("isRoot") for table in self.schema.values())
        self.roots = {name for name, table in self.schema.items() if table.get("isRoot") or not has_root}
        self.refers = {of: {name: (sides(column), comes_first(name, table)) for name, column in table["columns"].items() if sides(column)} for of, table in self.schema.items()}
        defaults = {of: {name: default(column) for name, column in table["columns"].items()} for of, table in self.schema.items()}
        self.rows = {(of, uuid): {name: value for name, value in row.items() if value != defaults[of].get(name, value)} for of, rows in tables.items() for uuid, row in rows.items()}

    def targets(self, row, name):
        """The rows to which a row refers in a column, and whether strongly."""
        for place, table, is_strong in self.refers[row[0]][name][0]:
            for element in elements(self.rows[row][name]):
                yield (table, (element if place is None else element[place])[1]), is_strong

    def references(self, row):
        """The rows to which a row refers that have to be there at the end of its transaction, and whether strongly."""
        for name, (_, is_first) in self.refers[row[0]].items():
            if is_first and name in self.rows[row]:
                yield from (it for it in self.targets(row, name) if it[0] in self.rows)

    def keepers(self):
        """The rows that don't go by themselves: those of root tables, and others with one that keeps them, by a strong reference."""
        found = {row: None for row in self.rows if row[0] in self.roots}
        left = list(found)
        while left:
            row = left.pop()
            for target, is_strong in self.references(row):
                if is_strong and target not in found:
                    found[target] = row
                    left.append(target)
        return found

    def needs(self):
        """For each row those that have to be there at the end of its transaction."""
        keepers = self.keepers()
        return {row: [*(target for target, _ in self.references(row) if target in keepers), *([keeper] if keeper else [])] for row, keeper in keepers.items()}

    def insert(self, row, left_out=()):
        table, uuid = row
        return text({"op": "insert", "table": table, "uuid": uuid, "row": {name: value for name, value in self.rows[row].items() if name not in left_out}})

    def lines(self, most=SIZE):
        """The file's lines, a transaction each."""
        texts = {row: self.insert(row) for row in self.rows}
        parts = packed(([(row, len(texts[row]) + 1) for row in rows] for rows in ordered(self.needs())), most)
        places = {row: place for place, part in enumerate(parts) for row in part}
        late = []
        for place, part in enumerate(parts):
            for row in part:
                names = [name for name in self.refers[row[0]] if name in self.rows[row] and any(places.get(target, -1) > place for target, _ in self.targets(row, name))]
                if names:
                    late += [self.update(row, name) for name in names]
                    texts[row] = self.insert(row, names)
            yield self.line([texts.pop(row) for row in part])
        for updates in packed(([(update, len(update) + 1)] for update in late), most):
            yield self.line(updates)

    def update(self, row, name):
        return text({"op": "update", "table": row[0], "where": [["_uuid", "==", ["uuid", row[1]]]], "row": {name: self.rows[row][name]}})

    def line(self, operations):
        return f'{{"id":0,"method":"transact","params":[{text(self.name)},{",".join(operations)}]}}\n'


def packed(sets, most):
    """Joins sets, in order, into lists of at most so many bytes; one that has more stands alone."""
    parts, size = [], most
    for members in sets:
        more = sum(each for _, each in members)
        if size + more > most:
            parts.append([])
            size = 0
        parts[-1] += [member for member, _ in members]
        size += more
    return parts


def ordered(needs):
    """The rows in sets, each of rows that need each other, after those that it needs (Tarjan's algorithm)."""
    numbers, lowest, open_rows, is_open = {}, {}, [], set()

    def enter(row):
        numbers[row] = lowest[row] = len(numbers)
        open_rows.append(row)
        is_open.add(row)
        return row, iter(needs[row])

    for start in needs:
        path = [] if start in numbers else [enter(start)]
        while path:
            row, rest = path[-1]
            for other in rest:
                if other not in numbers:
                    path.append(enter(other))
                    break
                if other in is_open:
                    lowest[row] = min(lowest[row], numbers[other])
            else:
                path.pop()
                if path:
                    lowest[path[-1][0]] = min(lowest[path[-1][0]], lowest[row])
                if lowest[row] == numbers[row]:
                    found = [open_rows.pop()]
                    while found[-1] != row:
                        found.append(open_rows.pop())
                    is_open.difference_update(found)
                    yield found


def write(path, lines):
    """Writes a file whole: whoever opens it, also after a crash, finds all of the older or of the newer one."""
    new = path + ".new"
    with open(new, "w", encoding="ascii") as file:
        file.writelines(lines)
        file.flush()
        os.fsync(file.fileno())
    os.replace(new, path)
    with contextlib.suppress(OSError):
        folder = os.open(os.path.dirname(os.path.abspath(path)), os.O_RDONLY)
        try:
            os.fsync(folder)
        finally:
            os.close(folder)
