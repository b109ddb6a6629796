#!/usr/bin/env python3
"""Runs the engine on random searches, with their indexes and without: accesses.py SQLSH [NUMBER [SEED]]

SQLSH is the built program, or what runs it; so many scripts are made from the seed. Each is run as it stands and once more without its
CREATE INDEX lines, and both runs must write the lines that the plain program of the definitions (meaning.py) gives, which looks at every
row of a table. The last line is 'N scripts, N failed'; the status is 1 where one failed.
"""
import itertools
import random
import sys

from check import agrees, written
from generate import ALIKE, Writer
from meaning import lines_of

SCRIPTS = 200
SEED = 20252
TYPES = ["INTEGER", "INTEGER", "INT", "TEXT", "TEXT", "BLOB", "", "NUMERIC"]
COLLATIONS = ["", "", "", " COLLATE NOCASE", " COLLATE RTRIM", " COLLATE BINARY"]
LARGE = ["9223372036854775807", "-9223372036854775808", "9223372036854775806"]
TEXTS = ALIKE + ["'3'", "'-2'", "' 4 '", "'1.5'", "'x'", "''", "'9223372036854775808'"]
# What no row is equal to: what has no value, and what is too large for one.
BAD = ["1.5", "9223372036854775808", "-9223372036854775809", "9223372036854775807 + 1", "abs(-9223372036854775808)", "'1.5' + 1"]
ORDERS = ["<", "<=", ">", ">="]
OTHERS = ["<>", "!=", "IS", "IS NOT"]


class AccessWriter:
    """Statements about a table with a few indexes. Few values stand in it, so that most keys are found several times."""

    def __init__(self, choose):
        self.r = choose
        self.columns = ["a", "b", "c", "d"][:choose.randrange(1, 5)]
        self.key = choose.choice([None, "id", "id"])
        self.rows = self.weighed((1, range(1)), (2, range(4)), (4, range(4, 20)), (2, range(20, 60)))
        self.indexes = 0

    def weighed(self, *kinds):
        return self.r.choices([k for w, k in kinds], [w for w, k in kinds])[0]

    def maybe(self, likely, text):
        return [text] if self.r.random() < likely else []

    def named(self):
        """All columns, that which is the rowid among them, where one is."""
        return self.columns + [self.key] * (self.key is not None)

    # ---- the table and its indexes

    def create(self):
        declared = [("%s %s" % (c, self.r.choice(TYPES))).strip() + self.r.choice(COLLATIONS) for c in self.columns]
        if self.key:
            declared.insert(self.r.randrange(len(declared) + 1), "id INTEGER PRIMARY KEY")
        return "CREATE TABLE t(%s)" % ", ".join(declared + self.maybe(0.1, "UNIQUE" + self.terms(3)))

    def terms(self, most):
        some = self.r.sample(self.named(), self.r.randrange(1, min(most, len(self.named())) + 1))
        return "(%s)" % ", ".join(c + self.r.choice(COLLATIONS) for c in some)

    def index(self):
        self.indexes += 1
        some = self.r.sample(self.named(), self.r.randrange(1, min(3, len(self.named())) + 1))
        terms = ", ".join(c + self.r.choice(COLLATIONS) + self.r.choice(["", "", " ASC", " DESC"]) for c in some)
        return "CREATE INDEX i%d ON t(%s)" % (self.indexes, terms)

    def unique_index(self):
        return "CREATE UNIQUE INDEX IF NOT EXISTS v ON t%s" % self.terms(3)

    def drop_index(self):
        return "DROP INDEX IF EXISTS i%d" % self.r.randrange(self.indexes + 1)

    # ---- rows

    def stored(self):
        return self.weighed((8, str(self.r.randrange(-3, 6))), (4, self.r.choice(TEXTS)), (1, "NULL"), (0.5, "x'61'"), (0.5, self.r.choice(LARGE)))

    def rowid(self):
        return self.weighed((12, "NULL"), (6, str(self.r.randrange(-20, 60))), (0.2, self.r.choice(LARGE)))

    def row(self):
        return "(%s)" % ", ".join(self.rowid() if c == self.key else self.stored() for c in self.named())

    def insert(self, count):
        return "INSERT INTO t(%s) VALUES %s" % (", ".join(self.named()), ", ".join(self.row() for i in range(count)))

    def inserts(self):
        """A row that is refused takes with it what is put beside it."""
        left = self.r.choice(self.rows)
        while left:
            count = min(left, self.r.choice([1, 1, 2, 3]))
            left -= count
            yield self.insert(count)

    # ---- queries

    def query(self):
        results = self.weighed((6, "rowid, *"), (2, "rowid"), (1, "a AS y, rowid"), (1, "rowid, a + 9223372036854775805"),
                               (1, "oid, " + Writer(self.r, self.named()).expr(2)))
        given = "y" if " AS y" in results else None
        conjuncts = [self.conjunct(given) for i in range(self.r.choice([1, 1, 1, 2, 2, 3, 4]))]
        return "SELECT %s FROM t WHERE %s" % (results, " AND ".join(conjuncts))

    def conjunct(self, given):
        c = self.side(given)
        return self.weighed(
            (8, lambda: self.compared(c, self.r.choice(["=", "=", "=="]))),
            (5, lambda: self.compared(c, self.r.choice(ORDERS))),
            (1, lambda: self.compared(c, self.r.choice(OTHERS))),
            (3, lambda: "%s BETWEEN %s AND %s" % (c, self.key_for(c), self.key_for(c))),
            (0.5, lambda: "%s NOT BETWEEN %s AND %s" % (c, self.key_for(c), self.key_for(c))),
            (1, lambda: "%s IN (%s, %s)" % (c, self.key_for(c), self.key_for(c))),
            (1.5, lambda: "(%s OR %s)" % (self.conjunct(given), self.conjunct(given))),
            (0.5, lambda: "NOT (%s)" % self.conjunct(given)),
            (0.5, lambda: "(%s)" % Writer(self.r, self.named()).expr(2)),
            (0.5, lambda: self.r.choice(["1.5", "NULL", "0", "1", c])),
        )()

    def side(self, given):
        """What is looked for: a column mostly, or the rowid, or the result of this name."""
        name = self.r.choice(self.named() * 3 + ["rowid", "rowid", "oid", "t.rowid"] + [given] * (given is not None) * 6)
        collated = "%s COLLATE %s" % (name, self.r.choice(["NOCASE", "RTRIM", "BINARY"]))
        return self.weighed((12, name), (1, "+" + name), (1, "%s + 0" % name), (2, collated))

    def compared(self, c, op):
        """Either way round."""
        k = self.key_for(c)
        return "%s %s %s" % ((c, op, k) if self.r.random() < 0.7 else (k, op, c))

    def key_for(self, c):
        least, most = (-20, 30) if "id" in c else (-3, 6)
        return self.weighed(
            (8, lambda: str(self.r.randrange(most))),
            (3, lambda: str(self.r.randrange(least, 0))),
            (4, lambda: self.r.choice(TEXTS)),
            (0.5, lambda: "%s COLLATE NOCASE" % self.r.choice(TEXTS)),
            (1, lambda: "NULL"),
            (1, lambda: self.r.choice(BAD)),
            (0.5, lambda: self.r.choice(LARGE)),
            (0.8, lambda: self.r.choice(["x'61'", "'a' || 'b'", "TRUE"])),
            (1, lambda: "%d %s %d" % (self.r.randrange(6), self.r.choice("+-*/"), self.r.randrange(3))),
            (0.5, lambda: "CAST(%s AS %s)" % (self.r.choice(TEXTS), self.r.choice(["INTEGER", "TEXT", "BLOB"]))),
            (0.5, lambda: self.r.choice(self.named() + ["rowid"])),
        )()

    # ---- all of it

    def script(self):
        """The statements: indexes come before the rows, behind them and among the queries."""
        kinds = [(9, self.query), (0.4, lambda: self.insert(1)), (0.4, self.index), (0.4, self.drop_index)]
        found = [self.create()] + [self.index() for i in range(self.r.randrange(3))] + list(self.inserts())
        found += [self.index() for i in range(self.r.choice([0, 1, 1, 2]))] + self.maybe(0.2, self.unique_index())
        return found + [self.weighed(*kinds)() for i in range(self.r.randrange(12, 24))]


def text_of(statements):
    return "".join(s + ";\n" for s in statements)


def failure(program, statements, orders=(None,)):
    """What is wrong with the runs of a script, or None. Each is run in each of the orders of joins."""
    texts = [text_of(statements), text_of(s for s in statements if not s.startswith("CREATE INDEX"))]
    due = lines_of(texts[0])
    status = int(any(choices[0].startswith("Error ") for choices in due))
    for text, order in itertools.product(texts, orders):
        got = written(program, text, order)
        if got[0] != status or not agrees(due, got[1]):
            return "order %s, status %d, written %r of\n%s" % (order, *got, text)
    return None


def main():
    if len(sys.argv) < 2:
        sys.exit(__doc__)
    number, seed = (int(given or plain) for given, plain in zip((sys.argv[2:] + ["", ""])[:2], (SCRIPTS, SEED)))
    source, failed = random.Random(seed), 0
    for n in range(number):
        wrong = failure(sys.argv[1], AccessWriter(source).script())
        if wrong:
            failed += 1
            print("script %d of seed %d: %s" % (n, seed, wrong))
    print("%d scripts, %d failed" % (number, failed))
    sys.exit(1 if failed else 0)


if __name__ == "__main__":
    main()
