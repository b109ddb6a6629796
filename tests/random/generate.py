#!/usr/bin/env python3
"""Writes scripts of random expressions over a small table, of tables that come and go, of tables with constraints, and of keys
and indexes, each with the lines that the definitions give it.

`generate.py > scripts.jsonl` made the file beside it: a script a line, with a list for each line that is due, of what it may be.
"""
import json
import random

from meaning import lines_of

SCRIPTS = 300
TABLE_SCRIPTS = 100
CONSTRAINT_SCRIPTS = 100
INDEX_SCRIPTS = 100
SEED = 20251
NAMES = ["t", "T", '"u"', "[U]", "`v`", "é", "É", "sqlite_t"]
TYPES = ["INTEGER", "INT", "TEXT", "VARCHAR(10)", "BLOB", "NUMERIC", "", "CLOB", "DECIMAL(10, 5)"]
TEXTS = ["", "a", "A", "ab", "aB ", "b%", "5 apples", "12", " 7", "-3", "2.5", "x_y", "it''s", "[a-c]"]
BLOBS = ["x''", "x'61'", "X'3132'", "x'ff'", "x'C3A9'"]
NUMBERS = ["0", "1", "2", "3", "7", "12", "100", "9223372036854775807", "0x10", "0xffffffffffffffff"]
RARE = ["1.5", "9223372036854775808", "-9223372036854775808", "-(9223372036854775808)", "1e3"]
TESTS = ["=", "==", "<>", "!=", "<", "<=", ">", ">=", "IS", "IS NOT", "IS DISTINCT FROM", "IS NOT DISTINCT FROM"]
ONE = ["abs", "hex", "length", "lower", "upper", "ltrim", "rtrim", "trim", "quote", "typeof", "unicode", "char"]
TWO = ["instr", "ifnull", "nullif", "max", "min", "coalesce", "ltrim", "rtrim", "trim", "substr", "char"]
THREE = ["substr", "substring", "replace", "iif", "max", "min", "coalesce"]
ROWIDS = ["rowid", "oid", "_rowid_", "ROWID", "Oid", '"rowid"']
KEYS = ["INTEGER", "INTEGER", "integer", '"INTEGER"']
ALIKE = ["'a'", "'A'", "'a  '", "'ab'", "'AB'", "'Ab '"]
# What is refused of a CREATE TABLE, unless a table has the name.
WRONG_TABLES = [
    "w(a INTEGER, PRIMARY KEY(z))", "w(a INTEGER PRIMARY KEY, b INTEGER PRIMARY KEY)", "w(a INT PRIMARY KEY, b INTEGER PRIMARY KEY)",
    "w(a INTEGER PRIMARY KEY, PRIMARY KEY(z))", "w(a INTEGER, PRIMARY KEY(a COLLATE other))", "w(a DEFAULT (B), b)", "w(a DEFAULT (1 + rowid))",
    "w(a DEFAULT (x.a))", "w(a CHECK(z))", "w(a CHECK(nosuch(z)))", "w(a CHECK(abs(a, z)))", "w(a CHECK(w.a < x.a))", "w(a CHECK(z), a)",
    "w(a CHECK(b > 0), b DOUBLE)", "w(a DOUBLE CHECK(z))", "w(a COLLATE other)", "w(a CHECK(a COLLATE other = 1) COLLATE another)",
    "w(a CHECK(z), CHECK(y))", "w(a, CONSTRAINT k CHECK(y))", "sqlite_w(a CHECK(z))", "t(z CHECK(y))", "T(z UNIQUE, y DOUBLE)",
    "w(a UNIQUE, UNIQUE(z))", "w(a, b, UNIQUE(b COLLATE other, z))", "w(a, UNIQUE(a), UNIQUE(rowid))", "w(a UNIQUE PRIMARY KEY, PRIMARY KEY(a))",
]


class Writer:
    """Texts of random expressions over these columns of a table."""

    def __init__(self, choose, columns, table="t"):
        self.r, self.columns, self.table = choose, columns, table

    def literal(self):
        kinds = [(6, NUMBERS), (5, ["'%s'" % t for t in TEXTS]), (1, BLOBS), (2, ["NULL", "TRUE", "false"]), (0.5, RARE)]
        return self.r.choice(self.r.choices([k for w, k in kinds], [w for w, k in kinds])[0])

    def column(self):
        name = self.r.choice(self.columns)
        return self.r.choice([name, name, name.upper(), self.table + "." + name, '"%s"' % name])

    def expr(self, depth):
        if depth == 0 or self.r.random() < 0.1:
            return self.column() if self.columns and self.r.random() < 0.55 else self.literal()
        return self.r.choice([self.number, self.test, self.logic, self.text, self.call, self.chosen, self.other])(depth - 1)

    def operand(self, depth):
        inner = self.expr(depth)
        return inner if inner.replace("_", "a").isalnum() else "(%s)" % inner

    def number(self, d):
        op = self.r.choice(["+", "-", "*", "/", "%", "&", "|", "<<", ">>"])
        return "%s %s %s" % (self.operand(d), op, self.operand(d))

    def test(self, d):
        a = self.operand(d)
        return self.r.choice([
            lambda: "%s %s %s" % (a, self.r.choice(TESTS), self.operand(d)),
            lambda: "%s %sBETWEEN %s AND %s" % (a, self.negated(), self.operand(d), self.operand(d)),
            lambda: "%s %sIN (%s)" % (a, self.negated(), ", ".join(self.expr(d) for i in range(self.r.randrange(4)))),
            lambda: "%s %s" % (a, self.r.choice(["ISNULL", "NOTNULL", "NOT NULL", "IS TRUE", "IS NOT FALSE"])),
        ])()

    def negated(self):
        return self.r.choice(["", "", "NOT "])

    def logic(self, d):
        return self.r.choice([lambda: "%s AND %s" % (self.operand(d), self.operand(d)),
                              lambda: "%s OR %s" % (self.operand(d), self.operand(d)), lambda: "NOT %s" % self.operand(d)])()

    def text(self, d):
        return self.r.choice([
            lambda: "%s || %s" % (self.operand(d), self.operand(d)),
            lambda: "%s %sLIKE %s" % (self.operand(d), self.negated(), self.r.choice(["'%a%'", "'A_'", "'%5%'", self.operand(d)])),
            lambda: "%s LIKE %s ESCAPE '!'" % (self.operand(d), self.r.choice(["'%!%%'", "'!_'", self.operand(d)])),
            lambda: "%s %sGLOB %s" % (self.operand(d), self.negated(), self.r.choice(["'*a*'", "'[a-c]?'", "'[^a]*'", self.operand(d)])),
        ])()

    def call(self, d):
        names, count = self.r.choice([(ONE, 1), (TWO, 2), (THREE, 3)])
        return "%s(%s)" % (self.r.choice(names), ", ".join(self.expr(d) for i in range(count)))

    def chosen(self, d):
        operand = self.r.choice(["", self.operand(d) + " "])
        arms = " ".join("WHEN %s THEN %s" % (self.expr(d), self.expr(d)) for i in range(self.r.randrange(1, 3)))
        return "CASE %s%s%s END" % (operand, arms, self.r.choice(["", " ELSE " + self.expr(d)]))

    def other(self, d):
        return self.r.choice([
            lambda: "CAST(%s AS %s)" % (self.expr(d), self.r.choice(["INTEGER", "TEXT", "BLOB", "NUMERIC", "INTEGER", "TEXT"])),
            lambda: "%s COLLATE %s" % (self.operand(d), self.r.choice(["NOCASE", "RTRIM", "BINARY"])),
            lambda: "%s%s" % (self.r.choice(["-", "+", "~"]), self.operand(d)),
            lambda: "%s %s %s COLLATE %s" % (self.operand(d), self.r.choice(["=", "<", ">="]), self.operand(d), self.r.choice(["NOCASE", "RTRIM"])),
        ])()


def refused(choose, writer):
    """A statement whose names, numbers of values or types are refused, or one that is not."""
    return choose.choice(["SELECT z FROM t", "SELECT a FROM u", "SELECT *", "SELECT abs(a, 1) FROM t", "SELECT nosuch(a) FROM t",
                          "SELECT a COLLATE other FROM t", "CREATE TABLE T(x)", "CREATE TABLE sqlite_x(a)", "CREATE TABLE v(a, A)",
                          "CREATE TABLE v(a DOUBLE)", "INSERT INTO t VALUES(1)", "INSERT INTO u VALUES(1)",
                          "SELECT %s FROM t WHERE z" % writer.expr(1), "SELECT * FROM t"])


def script(choose):
    columns = ["a", "b", "c", "d"][:choose.randrange(2, 5)]
    writer = Writer(choose, columns)
    bare = Writer(choose, [])
    found = ["CREATE TABLE t(%s)" % ", ".join(("%s %s" % (c, choose.choice(TYPES))).strip() for c in columns)]
    for i in range(choose.randrange(1, 4)):
        rows = ["(%s)" % ", ".join(literal(choose, bare) for c in columns) for j in range(choose.randrange(1, 4))]
        found.append("INSERT INTO t VALUES %s" % ", ".join(rows))
    for i in range(6):
        results = ", ".join(writer.expr(choose.randrange(4)) for j in range(choose.randrange(1, 4)))
        where = " WHERE " + writer.expr(choose.randrange(1, 4)) if choose.random() < 0.5 else ""
        found.append("SELECT %s FROM t%s" % (results, where))
    found += ["SELECT %s" % bare.expr(3), refused(choose, writer), "SELECT * FROM t"]
    return ";\n".join(found) + ";\n"


def literal(choose, bare):
    """What may stand in VALUES: a literal, a number also behind a sign."""
    found = bare.literal()
    if found.startswith("-("):
        return "-9223372036854775808"
    return choose.choice(["", "", "-", "+"]) + found if found.isdigit() else found


class TableWriter:
    """Statements about a few tables, whose columns are mostly those that were created last under the name."""

    def __init__(self, choose):
        self.r, self.known = choose, {}

    def name(self):
        if self.known and self.r.random() < 0.85:
            return self.r.choice(list(self.known))
        return self.r.choice(NAMES[:-1] if self.r.random() < 0.9 else NAMES)

    def there(self, name):
        return self.known.get(name, ["a", "b"])

    def create(self):
        name = self.name()
        columns = self.r.sample(["a", "b", "c", "d", "é", "É"], self.r.randrange(1, 5)) + ["A"] * (self.r.random() < 0.1)
        self.known.setdefault(name, columns)
        words = ", ".join(("%s %s" % (c, self.r.choice(TYPES))).strip() for c in columns)
        return "CREATE TABLE %s%s(%s)" % (self.r.choice(["", "", "IF NOT EXISTS "]), name, words)

    def drop(self):
        name = self.name()
        self.known.pop(name, None)
        return "DROP TABLE %s%s" % (self.r.choice(["", "IF EXISTS "]), name)

    def row(self, width):
        return "(%s)" % ", ".join(Writer(self.r, []).expr(self.r.choice([0, 0, 0, 1, 2])) for i in range(width))

    def width(self, width):
        return width if self.r.random() < 0.9 else width + 1

    def insert(self):
        name = self.name()
        columns = self.there(name)
        if self.r.random() < 0.15:
            return "INSERT INTO %s DEFAULT VALUES" % name
        named = ""
        if self.r.random() < 0.5:
            columns = [self.r.choice(columns * 3 + ["z"]) for i in range(self.r.randrange(1, 4))]
            named = "(%s)" % ", ".join(columns)
        rows = ", ".join(self.row(self.width(len(columns))) for i in range(self.r.randrange(1, 4)))
        return "INSERT INTO %s%s VALUES %s" % (name, named, rows)

    def values(self):
        width = self.r.randrange(1, 4)
        return "VALUES %s" % ", ".join(self.row(self.width(width)) for i in range(self.r.randrange(1, 4)))

    def select(self):
        name = self.name()
        alias = self.r.choice(["", "", " AS x", " x", ' "t"'])
        shown = alias.split()[-1] if alias else name
        writer = Writer(self.r, self.there(name))
        results = [self.r.choice([
            lambda: "*", lambda: "%s.*" % self.r.choice([shown, shown, name]), lambda: "%s.%s" % (shown, self.r.choice(self.there(name))),
            lambda: writer.expr(self.r.randrange(3)) + self.r.choice(["", " AS y", " y", ' "a"']),
        ])() for i in range(self.r.randrange(1, 4))]
        where = " WHERE " + self.condition(name, results) if self.r.random() < 0.5 else ""
        return "SELECT %s FROM %s%s%s" % (", ".join(results), name, alias, where)

    def condition(self, name, results):
        """Over columns, and mostly the name of a result where one is there."""
        given = ["y"] * 6 if any(result.endswith(" y") for result in results) else ["y"]
        return Writer(self.r, self.there(name) * 3 + given).expr(self.r.randrange(3))

    def pragma(self):
        return self.r.choice(["PRAGMA foreign_keys=OFF", "PRAGMA Foreign_Keys(off)", "PRAGMA foreign_keys=yes", "PRAGMA other"])

    def script(self):
        kinds = [(3, self.create), (2, self.drop), (9, self.insert), (1, self.values), (6, self.select), (0.3, self.pragma)]
        found = [self.create(), self.create()]
        found += [self.r.choices([k for w, k in kinds], [w for w, k in kinds])[0]() for i in range(self.r.randrange(10, 30))]
        found += ["SELECT * FROM %s" % name for name in sorted(self.known)]
        return ";\n".join(found) + ";\n"


class ConstraintWriter:
    """Statements about tables with constraints, which most rows keep. Of each table its columns are known, and that which is the rowid."""

    def __init__(self, choose):
        self.r, self.known, self.least = choose, {}, choose.choice([-30, -3, -3, 1])

    def maybe(self, likely, text):
        return [text] if self.r.random() < likely else []

    def weighed(self, *kinds):
        return self.r.choices([k for w, k in kinds], [w for w, k in kinds])[0]

    def name(self):
        name = self.r.choice(list(self.known))
        return self.r.choice([name, name, name.upper()]), *self.known[name]

    # ---- CREATE TABLE

    def create(self):
        name = self.r.choice([n for n in ["t", "u", '"v w"', "[É]"] if n not in self.known])
        columns = ["a", "b", "c"][:self.r.randrange(1, 4)] + self.maybe(0.15, self.r.choice(ROWIDS[:3]))
        key = "id" if self.r.random() < 0.6 else None
        if key:
            columns.insert(self.r.randrange(len(columns)), key)
        own = self.r.random() < 0.6
        declared = [self.column(name, columns, c, c == key, own) for c in columns]
        rules = self.maybe(0.4, self.check(name, columns))
        if key and not own:
            rules.append("PRIMARY KEY(%s%s)" % (self.r.choice(["id", "ID"]), self.r.choice(["", "", " ASC", " COLLATE NOCASE"])))
        self.r.shuffle(rules)
        self.known[name] = columns, key
        return "CREATE TABLE %s%s(%s)" % (self.r.choice(["", "", "IF NOT EXISTS "]), name, ", ".join(declared + self.named(rules)))

    def named(self, rules):
        return [self.r.choice(["", "", "", "", "CONSTRAINT k "]) + rule for rule in rules]

    def column(self, name, columns, column, is_key, own):
        rules = self.maybe(0.2, "NOT NULL") + self.maybe(0.05, "NULL")
        for likely in 0.4, 0.3:
            rules += self.maybe(likely, "COLLATE " + self.r.choice(["NOCASE", "RTRIM", "nocase", "BINARY"]))
        for likely in (0.15 if is_key else 0.45), 0.05:
            rules += self.maybe(likely, "DEFAULT " + self.default())
        for likely in 0.3, 0.05:
            rules += self.maybe(likely, self.check(name, columns))
        if is_key and own:
            rules.append("PRIMARY KEY" + self.r.choice(["", "", " ASC"]))
        self.r.shuffle(rules)
        its_type = self.r.choice(KEYS if is_key else TYPES)
        return " ".join([column] + [its_type] * (its_type != "") + self.named(rules))

    def default(self):
        bare = Writer(self.r, [])
        return self.weighed((6, lambda: literal(self.r, bare)), (1, lambda: "-9223372036854775808"), (1, lambda: "- 3"), (1, lambda: "'12'"),
                            (2, lambda: "(%s)" % bare.expr(self.r.randrange(3))))()

    def check(self, name, columns):
        a, b = (self.r.choice([c, c.upper(), "%s.%s" % (name, c)]) for c in self.r.choices(columns, k=2))
        return "CHECK(%s)" % self.r.choice([
            "%s > -2" % a, "%s > -2" % a, "%s <> 'A'" % a, "%s <> 'A'" % a, "typeof(%s) <> 'blob'" % a, "length(%s) < 3" % a,
            "%s IS NOT %s" % (a, b), "%s <= %s" % (a, b), "%s NOT IN ('ab', 3)" % a, "%s BETWEEN -1 AND 50" % a,
            "'AB' COLLATE NOCASE <> %s" % a, "%s < %d" % (self.r.choice(ROWIDS), self.least + 14), "%s + 9223372036854775800 > 0" % a,
            "%s IS NOT NULL OR %s <> 4" % (a, b), "%s OR %s" % (Writer(self.r, columns, name).expr(2), a),
        ])

    def wrong(self):
        return "CREATE TABLE %s%s" % (self.r.choice(["", "", "IF NOT EXISTS "]), self.r.choice(WRONG_TABLES))

    def anew(self):
        """A table is dropped, and made anew."""
        name = self.r.choice(list(self.known))
        del self.known[name]
        return "DROP TABLE %s;\n%s" % (name, self.create())

    # ---- INSERT

    def rowid(self):
        number = str(self.r.randrange(self.least, self.least + 16))
        return self.weighed((9, number), (3, "NULL"), (1, "'%s'" % number), (0.6, "' %s '" % number), (0.6, "%s + 2" % number), (0.2, "TRUE"),
                            (0.6, "'x'"), (0.3, "x'35'"), (0.3, "''"), (0.2, "'1.5'"), (0.1, "1.5"), (0.1, "'9223372036854775808'"),
                            (0.25, "9223372036854775807"), (0.25, "-9223372036854775808"))

    def value(self, column, key):
        if column == key or column in ROWIDS:
            return self.rowid()
        bare = Writer(self.r, [])
        return self.weighed((5, lambda: literal(self.r, bare)), (3, lambda: str(self.r.randrange(5))), (3, lambda: self.r.choice(ALIKE)),
                            (2, lambda: "NULL"), (1, lambda: bare.expr(1)))()

    def insert(self):
        name, columns, key = self.name()
        named = ""
        if self.r.random() < 0.6:
            columns = self.r.sample(columns, self.r.randrange(1, len(columns) + 1))
            columns += self.maybe(0.35, self.r.choice(ROWIDS)) + self.maybe(0.05, self.r.choice(["a", "z"]))
            self.r.shuffle(columns)
            named = "(%s)" % ", ".join(columns)
        if self.r.random() < 0.06:
            return "INSERT INTO %s%s DEFAULT VALUES" % (name, self.r.choice(["", "", "", named]))
        rows = ["(%s)" % ", ".join(self.value(c, key) for c in columns) for i in range(self.r.choice([1, 1, 1, 2, 2, 3, 4]))]
        return "INSERT INTO %s%s VALUES %s" % (name, named, ", ".join(rows))

    # ---- SELECT, dot lines

    def select(self):
        name, columns, key = self.name()
        alias = self.r.choice(["", "", " AS x"])
        writer = Writer(self.r, columns + ["rowid", "oid"], "x" if alias else name)
        results = ", ".join(self.result(writer) for i in range(self.r.randrange(1, 4)))
        where = " AND ".join(self.condition(writer) for i in range(self.r.choice([0, 0, 1, 1, 2])))
        return "SELECT %s FROM %s%s%s" % (results, name, alias, " WHERE " + where if where else "")

    def result(self, writer):
        return self.weighed((4, lambda: self.r.choice(ROWIDS)), (2, lambda: "%s.%s" % (writer.table, self.r.choice(ROWIDS))), (3, lambda: "*"),
                            (1, lambda: writer.table + ".*"), (3, writer.column), (2, lambda: "typeof(%s)" % writer.column()),
                            (3, lambda: self.alike(writer.column())), (1, lambda: writer.expr(2)))()

    def alike(self, column):
        return "%s %s %s" % (column, self.r.choice(["=", "=", "<>", ">="]), self.r.choice(ALIKE))

    def condition(self, writer):
        rowid = self.r.choice(ROWIDS)
        return self.weighed((2, lambda: "%s %s %s" % (rowid, self.r.choice(TESTS), self.rowid())),
                            (1, lambda: "%s BETWEEN %s AND %s" % (rowid, self.rowid(), self.rowid())),
                            (1, lambda: "%s IN (%s, %s)" % (rowid, self.rowid(), self.rowid())),
                            (1, lambda: "%s %s %s" % (writer.column(), self.r.choice(TESTS), writer.literal())),
                            (1, lambda: self.alike(writer.column())), (1, lambda: writer.operand(2)))()

    def dot_line(self):
        return self.r.choice([".changes", ".rowid"] * 8 + [".tables"])

    def script(self, others=()):
        kinds = [(10, self.insert), (4, self.select), (3, self.dot_line), (0.8, self.wrong), (0.3, self.anew), *others]
        found = [self.create() for i in range(self.r.choice([1, 1, 2]))]
        found += [self.weighed(*kinds)() for i in range(self.r.randrange(12, 26))]
        for name, (columns, key) in self.known.items():
            found.append("SELECT %s FROM %s" % (", ".join(["rowid, *"] + [self.alike(c) for c in columns]), name))
        found += [".changes", ".rowid"]
        return "".join(text + ("\n" if text.startswith(".") else ";\n") for text in found)


class IndexWriter(ConstraintWriter):
    """Statements about tables with keys, and indexes that come and go."""

    def create(self):
        text = super().create()
        columns, key = self.known[list(self.known)[-1]]
        keys = ["UNIQUE" + self.parts(columns, [""]) for i in range(self.r.choice([0, 1, 1, 2]))]
        if not key and self.r.random() < 0.5:
            keys.append("PRIMARY KEY" + self.parts(columns, [""]))
        self.r.shuffle(keys)
        return "%s)" % ", ".join([text[:-1]] + self.named(keys))

    def column(self, name, columns, column, is_key, own):
        return super().column(name, columns, column, is_key, own) + self.r.choice([""] * 5 + [" UNIQUE"])

    def parts(self, columns, orders):
        collations = ["", "", "", " COLLATE NOCASE", " COLLATE RTRIM"]
        some = self.r.sample(columns, min(len(columns), self.r.choice([1, 1, 2, 2, 3])))
        return "(%s)" % ", ".join(c + self.r.choice(collations) + self.r.choice(orders) for c in some)

    def index(self):
        return self.r.choice(["i", "i", "j", "I", '"k"', "t", "sqlite_i"])

    def create_index(self):
        name, columns, key = self.name()
        columns = columns + self.maybe(0.1, self.r.choice(["z", "rowid"]))
        return "CREATE %sINDEX %s%s ON %s%s" % (self.r.choice(["", "UNIQUE "]), self.r.choice(["", "", "IF NOT EXISTS "]), self.index(),
                                                self.weighed((12, name), (1, "w")), self.parts(columns, ["", "", " ASC", " DESC"]))

    def drop_index(self):
        return "DROP INDEX %s%s" % (self.r.choice(["", "", "IF EXISTS "]), self.index())

    def script(self):
        return super().script([(2.5, self.create_index), (1, self.drop_index), (0.3, self.anew)])


# Each operand of a BETWEEN stands twice in what it means, and so do its causes.
NESTED = "SELECT 1.5" + " BETWEEN 0 AND 1" * 60 + ";\n"


def scripts():
    source = random.Random(SEED)
    found = [script(source) for number in range(SCRIPTS)] + [NESTED]
    found += [TableWriter(source).script() for number in range(TABLE_SCRIPTS)]
    found += [ConstraintWriter(source).script() for number in range(CONSTRAINT_SCRIPTS)]
    return found + [IndexWriter(source).script() for number in range(INDEX_SCRIPTS)]


if __name__ == "__main__":
    for text in scripts():
        print(json.dumps({"sql": text, "lines": lines_of(text)}))
