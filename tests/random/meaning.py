#!/usr/bin/env python3
"""What a script means, by the definitions and nothing else: `meaning.py < script` prints the lines that are due.

A plain program beside the engine: it has no bytecode, no machine and no trees of records, only lists of rows. Where an error line
may name any of several causes, all are printed, joined by a tab.
"""
import re
import sys

from items import Item, all_columns, column_named, columns_of, from_items, rows_of
from syntax import *
from values import *

MAX_COLUMNS = 100
# A dot line, what parts statements, or a statement, which a `;` ends outside a text.
PART = re.compile(r"^(\.[^\n]*?)\r?$|[ \t\n\f\r;]+|((?:[^;']|'[^']*')+)", re.M)


def rowid_column(declared):
    """The column that is the rowid: an INTEGER that alone is the PRIMARY KEY, by its own constraint, else by one of the table."""
    columns = [column for kind, column, held in declared if kind == "COLUMN"]
    keys = [(column, held) for kind, column, held in declared if kind == "PRIMARY"]
    alone = [held[0][0] for column, held in keys if len(held) == 1]
    found = [column for column, held in keys if column] + [c for name in alone for c in columns if same(c.name, name)]
    return next((c for c in found if c.is_integer), None)


class Table:
    """A row is its rowid, and then a value for each column. `key` is the place of the column that is the rowid, 0 where none is; the rows
    go by their rowids. What is unique has the places and collations of its columns."""

    def __init__(self, name, columns, key):
        self.name, self.columns, self.checks, self.rows = name, [Column("rowid", "INTEGER", True)] + columns, [], {}
        self.key, self.unique = self.columns.index(key) if key else 0, []

    def column_place(self, name):
        return next((place for place, c in enumerate(self.columns) if place > 0 and same(c.name, name)), None)

    def place(self, name):
        """Where a name stands in a row: that of a column, else one of the rowid."""
        found = self.column_place(name)
        return self.key if found is None and folded(name) in ROWID_NAMES else found

    def parts(self, held):
        """The places of columns that are named, and the collations that are written, or else the columns' own."""
        found = []
        for name, collation in held:
            place = self.column_place(name)
            if place is None:
                raise Refused("1: no such column: " + name)
            found.append((place, collation_named(collation) if collation else self.columns[place].collation))
        return found

    def rows_in_order(self):
        return [self.rows[rowid] for rowid in sorted(self.rows)]

    def fitted(self, given, rows):
        """The row of what is given for some places, beside these rows."""
        outs = [given[place] if place in given else c.default([]) for place, c in enumerate(self.columns)]
        row = all_good([turned(lambda v, c=c: store_as(c.affinity, v), out) for c, out in zip(self.columns, outs)])
        row[0] = row[self.key] = self.fixed(row[self.key], rows)
        if any(c.not_null and v is None for c, v in zip(self.columns, row)):
            raise Refused("19: NOT NULL constraint failed: " + self.name)
        for check in self.checks:
            if all_good([truth_of(check(row))]) == [0]:
                raise Refused("19: CHECK constraint failed: " + self.name)
        if row[0] in rows or any(are_alike(parts, row, other) for parts in self.unique for other in rows.values()):
            raise Refused("19: UNIQUE constraint failed: " + self.name)
        return row

    def fixed(self, rowid, rows):
        """The rowid: what is given, else one more than the largest."""
        if rowid is None:
            rowid = max(rows, default=0) + 1
            if not fits(rowid):
                raise Refused("13: table is full: " + self.name)
        if not isinstance(rowid, int):
            raise Refused(MISMATCH)
        return rowid


def are_alike(parts, a, b):
    """Whether two rows have the same values in these places, none of them NULL."""
    return all(a[place] is not None and key(collation, a[place]) == key(collation, b[place]) for place, collation in parts)


class Index:
    """An index by its name, the table that it is on, and what is unique of it, if it is."""

    def __init__(self, name, table, unique):
        self.name, self.table, self.unique = name, table, unique


def all_good(outs):
    """The values, unless one is bad."""
    causes = causes_of(outs)
    if causes:
        raise Refused(*causes)
    return outs


class Connection:
    """The tables and the indexes, by their names in lower case, how many rows the last INSERT put, and the last rowid."""

    def __init__(self):
        self.tables, self.indexes, self.changes, self.rowid = {}, {}, 0, 0

    def run(self, text):
        """The rows that are given, and the causes any of which may be named."""
        try:
            p = Parser(tokens_of(text), column_named)
            known = {"CREATE": self.create, "DROP": self.drop, "INSERT": self.insert, "VALUES": self.values, "SELECT": self.select}
            found = known.get(p.kind(), self.pragma)(p)
            if p.kind() != "end":
                raise NotYet
            return found
        except NotYet:
            return [], {"1: not built yet"}
        except Refused as why:
            return [], set(why.args)

    def dot_line(self, line):
        asked = {".changes": self.changes, ".rowid": self.rowid}
        return ([[asked[line]]], set()) if line in asked else ([], {"1: unknown dot line"})

    def table(self, name):
        if folded(name) not in self.tables:
            raise Refused("1: no such table: " + name)
        return self.tables[folded(name)]

    def create(self, p):
        p.expect("CREATE")
        if p.takes("UNIQUE"):
            p.expect("INDEX")
            return self.create_index(p, True)
        if p.takes("INDEX"):
            return self.create_index(p, False)
        p.expect("TABLE")
        unless_there = p.takes_all("IF", "NOT", "EXISTS")
        name = p.name()
        p.expect("(")
        declared = p.declarations()
        p.expect(")")
        end, key = p.at, rowid_column(declared)
        if unless_there and self.has(name):
            return [], set()
        self.be_free(name)
        table = Table(name, [column for kind, column, held in declared if kind == "COLUMN"], key)
        p.items = [Item(table, name, 0)]
        for number in range(len(declared)):
            self.declare(p, table, declared[number], declared[:number])
        p.at = end
        self.tables[folded(name)] = table
        return [], set()

    def create_index(self, p, unique):
        unless_there = p.takes_all("IF", "NOT", "EXISTS")
        name = p.name()
        p.expect("ON")
        on = p.name()
        p.expect("(")
        held = p.listed(p.key_column)
        p.expect(")")
        if p.kind() != "end":
            raise NotYet
        if unless_there and self.has(name):
            return [], set()
        self.be_free(name)
        table = self.table(on)
        parts, rows = table.parts(held), table.rows_in_order()
        if unique and any(are_alike(parts, a, b) for n, a in enumerate(rows) for b in rows[:n]):
            raise Refused("19: UNIQUE constraint failed: " + table.name)
        self.indexes[folded(name)] = Index(name, table, parts if unique else None)
        if unique:
            table.unique.append(parts)
        return [], set()

    def has(self, name):
        return folded(name) in self.tables or folded(name) in self.indexes

    def be_free(self, name):
        """Tables and indexes have their names in common."""
        if folded(name).startswith("sqlite_"):
            raise Refused("1: reserved name: " + name)
        for kind, named in ("table", self.tables), ("index", self.indexes):
            if folded(name) in named:
                raise Refused("1: %s already exists: %s" % (kind, named[folded(name)].name))

    def declare(self, p, table, declaration, before):
        """Each declaration may be refused in its turn, behind those in front of it."""
        kind, column, held = declaration
        if kind == "COLUMN":
            self.new_column(column, [c for k, c, h in before if k == kind])
        elif kind == "PRIMARY":
            if any(k == kind for k, c, h in before):
                raise Refused("1: misuse of: " + table.name)
            self.add_unique(table, column, held, table.key)
        elif kind == "UNIQUE":
            self.add_unique(table, column, held, None)
        elif kind == "COLLATE":
            collation_named(held)
        elif kind == "DEFAULT":
            column.default = p.held(held, False)
        elif kind == "CHECK":
            table.checks.append(p.held(held, True))

    def add_unique(self, table, column, held, rowid):
        """What a column's own constraint or one of the table makes unique, unless it is the rowid."""
        parts = table.parts([(column.name, None)] if column else held)
        if [place for place, collation in parts] != [rowid]:
            table.unique.append(parts)

    def new_column(self, column, before):
        there = [c.name for c in before if same(c.name, column.name)]
        if there:
            raise Refused("1: column already exists: " + there[0])
        if column.affinity == "REAL":
            raise Refused(REAL)
        if len(before) >= MAX_COLUMNS:
            raise Refused("1: limit of 100 columns")

    def drop(self, p):
        p.expect("DROP")
        if p.takes("INDEX"):
            return self.drop_index(p)
        p.expect("TABLE")
        if_there = p.takes_all("IF", "EXISTS")
        name = p.name()
        if not if_there:
            self.table(name)
        gone = self.tables.pop(folded(name), None)
        self.indexes = {n: index for n, index in self.indexes.items() if index.table is not gone}
        return [], set()

    def drop_index(self, p):
        if_there = p.takes_all("IF", "EXISTS")
        name = p.name()
        index = self.indexes.pop(folded(name), None)
        if index is None and not if_there:
            raise Refused("1: no such index: " + name)
        if index is not None and index.unique:
            index.table.unique = [parts for parts in index.table.unique if parts is not index.unique]
        return [], set()

    def pragma(self, p):
        """One does nothing, and there is no other."""
        if not same(p.name(), "PRAGMA"):
            raise NotYet
        name, value = p.name(), None
        if p.takes("="):
            value = p.name()
        elif p.takes("("):
            value = p.name()
            p.expect(")")
        if same(name, "foreign_keys") and value is not None and same(value, "OFF"):
            return [], set()
        raise Refused("1: no such pragma: " + name)

    def rows(self, p):
        """Rows of expressions, all as wide as the first."""
        p.expect("VALUES")
        widths = []

        def row():
            p.expect("(")
            found = p.listed(p.expr)
            p.expect(")")
            widths.append(len(found))
            if widths[-1] != widths[0]:
                raise Refused("1: wrong number of values: VALUES")
            return [e.value for e in found]
        return p.listed(row)

    def values(self, p):
        given = []
        for row in self.rows(p):
            values = [v([]) for v in row]
            causes = causes_of(values)
            if causes:
                return given, causes
            given.append(values)
        return given, set()

    def insert(self, p):
        """The source is computed as a whole, and a cause of any bad row may be named; then one row after another is put, or none is."""
        p.expect("INSERT")
        p.expect("INTO")
        table = self.table(p.name())
        places = range(1, len(table.columns))
        if p.takes("("):
            places = p.listed(lambda: self.place_named(table, p.name()))
            p.expect(")")
        if p.takes_all("DEFAULT", "VALUES"):
            places, rows = [], [[]]
        else:
            rows = self.rows(p)
            if len(rows[0]) != len(places):
                raise Refused("1: wrong number of values: " + table.name)
        source = [[v([]) for v in row] for row in rows]
        all_good([v for row in source for v in row])
        there = dict(table.rows)
        for values in source:
            # of a place that is named twice the first value counts
            row = table.fitted(dict(reversed(list(zip(places, values)))), there)
            there[row[0]] = row
        table.rows, self.changes, self.rowid = there, len(source), row[0]
        return [], set()

    def place_named(self, table, name):
        found = table.place(name)
        if found is None:
            raise Refused("1: no such column: " + name)
        return found

    def select(self, p):
        """Names are bound in the order FROM, WHERE, results; the text has the results first."""
        p.expect("SELECT")
        start, depth, first, names = p.at, 0, p.at, []
        while p.kind() != "end" and not (depth == 0 and p.kind() in ("FROM", "WHERE") and p.kind(-1) != "DISTINCT"):
            kind = p.next()[0]
            depth += {"(": 1, "CASE": 1, ")": -1, "END": -1}.get(kind, 0)
            if depth == 0 and kind == ",":
                first = p.at
            elif depth == 0 and kind in ("word", "name") and p.at - 1 > first and p.kind(-2) in ENDS:
                names.append((name_of(p.tokens[p.at - 1]), first))
        behind = p.at
        items, conjuncts = from_items(p, self.table) if p.takes("FROM") else ([], [])
        p.given = names
        conjuncts += p.expr().conjuncts if p.takes("WHERE") else []
        p.given = []
        if p.kind() != "end":
            raise NotYet
        end, p.at = p.at, start
        results = []
        for found in p.listed(lambda: self.result(p)):
            results += found
        if p.at != behind:
            raise NotYet
        p.at = end
        return self.shown(conjuncts, results, rows_of(items))

    def result(self, p):
        if p.takes("*"):
            if not p.items:
                raise Refused("1: misuse of: *")
            return all_columns(p.items)
        if p.kind() in ("word", "name") and p.kind(1) == "." and p.kind(2) == "*":
            name = p.name()
            p.at += 2
            if not any(same(item.shown, name) for item in p.items):
                raise Refused("1: no such table: " + name)
            return columns_of(p.items, name)
        found = p.expr().value
        p.alias()
        return [found]

    def shown(self, conjuncts, results, rows):
        given = []
        for row, carried in rows:
            outs = [truth_of(c(row)) for c in conjuncts]
            if any(not isinstance(t, Bad) and t != 1 for t in outs):
                continue
            values = [r(row) for r in results]
            causes = carried | causes_of(outs + values)
            if causes:
                return given, causes
            given.append(values)
        return given, set()


def lines_of(script):
    """A list for each line: what it may be."""
    connection, lines = Connection(), []
    for dot_line, statement in PART.findall(script):
        if not dot_line and not statement:
            continue
        given, causes = connection.dot_line(dot_line) if dot_line else connection.run(statement)
        lines += [[b"|".join(map(printed, row)).decode("latin-1")] for row in given]
        if causes:
            lines.append(sorted(("Error " + c).encode().decode("latin-1") for c in causes))
    return lines


if __name__ == "__main__":
    for line in lines_of(sys.stdin.read()):
        print("\t".join(line))
