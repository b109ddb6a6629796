#!/usr/bin/env python3
"""Runs the engine on random joins, with their indexes and without, in several orders: joins.py SQLSH [NUMBER [SEED]]

SQLSH is the built program, or what runs it; so many scripts are made from the seed. Each is run as it stands and once more without its
CREATE INDEX lines, both with the loops in the order that seems cheapest and as near as may be to three others
(SQLSH_JOIN_ORDER), and all runs must write the lines that the plain program of the definitions (meaning.py) gives, which makes each row of a
FROM in its nested order. The last line is 'N scripts, N failed'; the status is 1 where one failed.
"""
import random
import sys

from accesses import BAD, COLLATIONS, LARGE, ORDERS, OTHERS, TEXTS, TYPES, failure
from generate import Writer

SCRIPTS = 200
SEED = 20253
NAMES = ["a", "b", "c", "d"]
# So many rows of a FROM are looked at in one query, at most.
MOST_ROWS = 400


class Table:
    """A table: its name, its columns, that which is the rowid among them, and how many rows it gets."""

    def __init__(self, name, columns, key, rows):
        self.name, self.columns, self.key, self.rows = name, columns, key, rows


class Item:
    """A table in a FROM, by its name there, and the columns that its bare names bring."""

    def __init__(self, table, shown):
        self.table, self.shown, self.bare = table, shown, list(table.columns)

    def column(self, choose):
        name = choose.choice(self.table.columns * 4 + ["rowid"])
        return "%s.%s" % (self.shown, name)


class QualifiedWriter(Writer):
    """Texts of expressions over columns that are written with their items."""

    def column(self):
        return self.r.choice(self.columns)


class JoinWriter:
    """Statements about a few tables whose columns have names in common. Few values stand in them, so that most keys are found."""

    def __init__(self, choose):
        self.r, self.indexes = choose, 0
        self.tables = [self.new_table("t%d" % n) for n in range(choose.choice([1, 2, 2, 3, 3, 4]))]

    def weighed(self, *kinds):
        return self.r.choices([k for w, k in kinds], [w for w, k in kinds])[0]

    def new_table(self, name):
        columns = self.r.sample(NAMES, self.r.randrange(1, 4))
        key = self.weighed((2, None), (1, "id"), (1, columns[0]))
        return Table(name, columns + ["id"] * (key == "id"), key, self.weighed((1, 0), (3, self.r.randrange(1, 4)), (3, self.r.randrange(4, 9))))

    # ---- tables, indexes and rows

    def create(self, t):
        declared = [c + (" INTEGER PRIMARY KEY" if c == t.key else " " + self.r.choice(TYPES) + self.r.choice(COLLATIONS)) for c in t.columns]
        return "CREATE TABLE %s(%s)" % (t.name, ", ".join(" ".join(d.split()) for d in declared))

    def index(self):
        self.indexes += 1
        t = self.r.choice(self.tables)
        some = self.r.sample(t.columns, self.r.randrange(1, min(3, len(t.columns)) + 1))
        terms = ", ".join(c + self.r.choice(COLLATIONS) + self.r.choice(["", "", " ASC", " DESC"]) for c in some)
        return "CREATE INDEX i%d ON %s(%s)" % (self.indexes, t.name, terms)

    def stored(self):
        return self.weighed((12, str(self.r.randrange(-1, 4))), (3, self.r.choice(TEXTS)), (1.5, "NULL"), (0.3, "x'61'"), (0.3, self.r.choice(LARGE)))

    def rowid(self):
        return self.weighed((12, "NULL"), (6, str(self.r.randrange(-2, 9))))

    def inserts(self, t):
        for n in range(t.rows):
            row = ", ".join(self.rowid() if c == t.key else self.stored() for c in t.columns)
            yield "INSERT INTO %s(%s) VALUES(%s)" % (t.name, ", ".join(t.columns), row)

    # ---- queries

    def query(self):
        items, text, rows = [], "", 1
        for n in range(self.r.choice([2, 2, 2, 3, 3, 3, 4, 4, 5, 6])):
            item = Item(self.r.choice(self.tables), "s%d" % n)
            rows *= 1 + item.table.rows
            if rows > MOST_ROWS:
                break
            text += self.joined(items, item) if items else "%s AS %s" % (item.table.name, item.shown)
            items.append(item)
        where = [self.conjunct(items) for i in range(self.r.choice([0, 0, 1, 1, 2, 3]))]
        return "SELECT %s FROM %s%s" % (self.results(items), text, " WHERE " + " AND ".join(where) if where else "")

    def joined(self, items, item):
        """The item behind these, with the words of its join."""
        named = "%s%s %s" % (item.table.name, self.r.choice(["", " AS"]), item.shown)
        common = [c for c in item.bare if sum(c in other.bare for other in items) == 1]
        both = [c for c in item.bare if any(c in other.bare for other in items)]
        left = self.r.choice(["", "", "LEFT ", "LEFT OUTER "])
        word = left or self.r.choice(["", "INNER ", "CROSS "])
        kind = self.weighed((2, "natural" if both == common else "on"), (3, "using" if common else "on"), (6, "on"), (2, "none"), (0.3, "wrong"))
        if kind == "natural":
            item.bare = [c for c in item.bare if c not in common]
            return " NATURAL %sJOIN %s" % (word, named)
        if kind == "using":
            some = self.r.sample(common, self.r.randrange(1, len(common) + 1))
            item.bare = [c for c in item.bare if c not in some]
            return " %sJOIN %s USING (%s)" % (word, named, ", ".join(some))
        if kind == "on":
            ons = [self.conjunct(items + [item], item) for i in range(self.r.choice([1, 1, 2, 3]))]
            return " %sJOIN %s ON %s" % (word, named, " AND ".join(ons))
        if kind == "wrong":
            return " %sJOIN %s USING (%s)" % (word, named, self.r.choice(NAMES))
        return self.r.choice([", " + named, " %sJOIN %s" % (word, named)])

    def conjunct(self, items, about=None):
        """Of an item mostly, if one is given."""
        item = about if about and self.r.random() < 0.9 else self.r.choice(items)
        c = item.column(self.r)
        return self.weighed(
            (10, lambda: self.compared(c, self.r.choice(["=", "=", "=="]), self.other(items))),
            (3, lambda: self.compared(c, self.r.choice(ORDERS), self.other(items))),
            (1, lambda: self.compared(c, self.r.choice(OTHERS), self.other(items))),
            (1.5, lambda: "%s BETWEEN %s AND %s" % (c, self.other(items), self.other(items))),
            (1, lambda: "%s IN (%s, %s)" % (c, self.other(items), self.other(items))),
            (1, lambda: "(%s OR %s)" % (self.conjunct(items, about), self.conjunct(items, about))),
            (0.5, lambda: "NOT (%s)" % self.conjunct(items, about)),
            (1, lambda: "%s IS %sNULL" % (c, self.r.choice(["", "NOT "]))),
            (0.5, lambda: "(%s)" % QualifiedWriter(self.r, [i.column(self.r) for i in items]).expr(2)),
            (0.5, lambda: self.r.choice(["1.5", "NULL", "0", "1", "1", c])),
        )()

    def compared(self, c, op, k):
        """Either way round."""
        return "%s %s %s" % ((c, op, k) if self.r.random() < 0.6 else (k, op, c))

    def other(self, items):
        return self.weighed(
            (10, lambda: self.r.choice(items).column(self.r)),
            (4, lambda: str(self.r.randrange(-1, 4))),
            (1, lambda: self.r.choice(TEXTS)),
            (0.5, lambda: "%s COLLATE NOCASE" % self.r.choice(items).column(self.r)),
            (0.5, lambda: "%s + %d" % (self.r.choice(items).column(self.r), self.r.randrange(3))),
            (0.3, lambda: "NULL"),
            (0.5, lambda: self.r.choice(BAD)),
            (0.2, lambda: self.r.choice(LARGE)),
        )()

    def results(self, items):
        """The rowids tell which rows came, and in which order."""
        rowids = ", ".join(i.shown + ".rowid" for i in items)
        bare = [c for i in items for c in i.bare if sum(c in j.bare for j in items) == 1]
        return self.weighed((6, rowids), (3, rowids + ", *"), (1, "*"), (1, self.r.choice(items).shown + ".*, " + rowids),
                            (1, ", ".join([rowids] + bare)), (1, rowids + ", " + QualifiedWriter(self.r, [i.column(self.r) for i in items]).expr(2)),
                            (0.3, self.r.choice(NAMES + ["rowid"])))

    def script(self):
        kinds = [(9, self.query), (0.6, self.index), (0.3, lambda: "DROP INDEX IF EXISTS i%d" % self.r.randrange(self.indexes + 1))]
        found = [self.create(t) for t in self.tables] + [self.index() for i in range(self.r.randrange(3))]
        found += [s for t in self.tables for s in self.inserts(t)] + [self.index() for i in range(self.r.choice([0, 1, 2]))]
        return found + [self.weighed(*kinds)() for i in range(self.r.randrange(8, 16))]


def main():
    if len(sys.argv) < 2:
        sys.exit(__doc__)
    number, seed = (int(given or plain) for given, plain in zip((sys.argv[2:] + ["", ""])[:2], (SCRIPTS, SEED)))
    source, failed = random.Random(seed), 0
    for n in range(number):
        orders = [None] + [source.randrange(720) for i in range(3)]
        wrong = failure(sys.argv[1], JoinWriter(source).script(), orders)
        if wrong:
            failed += 1
            print("script %d of seed %d: %s" % (n, seed, wrong))
    print("%d scripts, %d failed" % (number, failed))
    sys.exit(1 if failed else 0)


if __name__ == "__main__":
    main()
