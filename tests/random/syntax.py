"""The text of a statement: its tokens, its expressions with what they come to over a row, and what CREATE TABLE declares."""
import re

from values import *

RESERVED = set("""ALL AND AS AUTOINCREMENT BETWEEN CASE CAST CHECK COLLATE COMMIT CONSTRAINT CREATE CROSS DEFAULT DELETE DISTINCT DROP ELSE END ESCAPE
EXCEPT EXISTS FALSE FILTER FROM FULL GLOB GROUP HAVING IF IN INDEX INNER INSERT INTERSECT INTO IS ISNULL JOIN LEFT LIKE LIMIT NATURAL NOT NOTNULL
NULL ON OR ORDER OUTER OVER PRIMARY RAISE RECURSIVE REFERENCES RETURNING RIGHT SAVEPOINT SELECT SET TABLE THEN TO TRANSACTION TRUE UNION UNIQUE
UPDATE USING VALUES WHEN WHERE WINDOW WITH""".split())
# What may stand in front of a result's name: AS, or the end of an expression.
ENDS = {"AS", "word", "name", "number", "text", "blob", ")", "END", "NULL", "TRUE", "FALSE", "ISNULL", "NOTNULL"}
ROWID_NAMES = ("rowid", "oid", "_rowid_")
COLLATIONS = ("BINARY", "NOCASE", "RTRIM")
# What a constraint begins with, of a table and of a column.
TABLE_RULES = ("CONSTRAINT", "PRIMARY", "UNIQUE", "CHECK")
COLUMN_RULES = TABLE_RULES + ("NOT", "NULL", "DEFAULT", "COLLATE")
TOKEN = re.compile(r"""\s+|(?P<text>'(?:[^']|'')*')|(?P<blob>[xX]'[0-9a-fA-F]*')|(?P<name>"(?:[^"]|"")*"|`(?:[^`]|``)*`|\[[^\]]*\])
|(?P<word>(?:[A-Za-z_]|[^\x00-\x7f])(?:[A-Za-z0-9_]|[^\x00-\x7f])*)|(?P<number>0[xX][0-9a-fA-F]+|(?:[0-9]+(?:\.[0-9]*)?|\.[0-9]+)(?:[eE][+-]?[0-9]+)?)
|(?P<sign>\|\||<<|>>|<=|>=|<>|==|!=|[-+*/%(),.;=<>&|~])""", re.X)


class NotYet(Exception):
    """The text has no statement that is built."""


class Refused(Exception):
    """Why a statement is refused: any of these causes may be named. Of its names the first refusal counts."""


def tokens_of(text):
    found, at = [], 0
    while at < len(text):
        m = TOKEN.match(text, at)
        if m is None:
            raise NotYet
        at = m.end()
        if m.lastgroup:
            word = m.group().upper()
            found.append((word, None) if m.lastgroup == "sign" or word in RESERVED else (m.lastgroup, m.group()))
    return found


def name_of(token):
    kind, text = token
    if kind == "word" or text[0] == "[":
        return text if kind == "word" else text[1:-1]
    return text[1:-1].replace(text[0] * 2, text[0])


def same(a, b):
    return folded(a) == folded(b)


def collation_named(name):
    found = next((c for c in COLLATIONS if same(c, name)), None)
    if found is None:
        raise Refused("1: no such collation: " + name)
    return found


def literal_of(kind, text):
    """A literal's value, or bad."""
    if kind == "text":
        return made(text[1:-1].replace("''", "'"))
    if kind == "blob":
        return made(bytes.fromhex(text[2:-1]))
    if kind == "number" and text[:2].lower() == "0x":
        n = int(text, 16)
        return signed(n) if n < 2 ** 64 else Bad(OVERFLOW)
    if kind == "number":
        return int(text) if text.isdigit() and fits(int(text)) else Bad(REAL)
    return {"NULL": None, "TRUE": 1, "FALSE": 0}[kind]


class Bound:
    """An expression: what it comes to at a row, its affinity, the collation of its COLLATE, that of the column that it is, its form, and its
    conjuncts at the top of WHERE."""

    def __init__(self, value, operands=(), affinity="NONE", form=None):
        self.value, self.affinity, self.form = value, affinity, form
        self.collation = next((o.collation for o in operands if o.collation), None)
        self.column = None
        self.conjuncts = [value]


def once(a):
    """The same, looked at once for each row: what stands twice in a rule would else double with each level."""
    seen = []

    def value(row):
        if not seen or seen[0] is not row:
            seen[:] = [row, a.value(row)]
        return seen[1]

    found = Bound(value, (), a.affinity, a.form)
    found.collation, found.column, found.conjuncts = a.collation, a.column, a.conjuncts
    return found


def sides_of(a, b):
    return Sides(a.affinity, b.affinity, a.collation or b.collation or a.column or b.column or "BINARY")


def over(f, *operands):
    return Bound(lambda row: f(*[o.value(row) for o in operands]), operands)


def compared(op, a, b):
    sides = sides_of(a, b)
    return over(lambda x, y: comparison(op, sides, x, y), a, b)


def negated(a):
    return over(negation, a)


def affinity_of(words):
    whole = [folded(w) for w in words]

    def mentions(*parts):
        return any(p in w for w in whole for p in parts)
    return ("INTEGER" if mentions("int") else "TEXT" if mentions("char", "clob", "text") else "BLOB" if mentions("blob") or not words
            else "REAL" if mentions("real", "floa", "doub") else "NUMERIC")


class Parser:
    """A statement's tokens, the items whose columns its names are, and whether columns may be named; `look_up` finds a column among the items.
    Names are bound while they are read, from left to right."""

    def __init__(self, tokens, look_up):
        self.tokens, self.at, self.items, self.given, self.names_columns, self.look_up = tokens, 0, [], [], True, look_up

    def kind(self, ahead=0):
        return self.tokens[self.at + ahead][0] if self.at + ahead < len(self.tokens) else "end"

    def next(self):
        if self.at == len(self.tokens):
            raise NotYet
        self.at += 1
        return self.tokens[self.at - 1]

    def takes(self, *kinds):
        if self.kind() in kinds:
            return self.next()[0]
        return None

    def takes_all(self, *kinds):
        found = all(self.kind(n) == kind for n, kind in enumerate(kinds))
        self.at += len(kinds) if found else 0
        return found

    def takes_word(self, word):
        """A word that is not reserved."""
        found = self.kind() == "word" and same(self.tokens[self.at][1], word)
        self.at += found
        return found

    def alias(self):
        """The name that a result or an item gets, if it gets one."""
        return self.name() if self.takes("AS") or self.kind() in ("word", "name") else None

    def expect(self, kind):
        if self.next()[0] != kind:
            raise NotYet

    def name(self):
        token = self.next()
        if token[0] not in ("word", "name"):
            raise NotYet
        return name_of(token)

    def listed(self, one):
        found = [one()]
        while self.takes(","):
            found.append(one())
        return found

    def level(self, below, ops, join):
        a = below()
        while True:
            op = self.takes(*ops)
            if op is None:
                return a
            a = join(op, a, below())

    # ---- expressions, from the loosest operator on

    def expr(self):
        return self.level(self.conjunction, ["OR"], lambda op, a, b: over(disjunction, a, b))

    def conjunction(self):
        def both(op, a, b):
            made_of = over(conjunction, a, b)
            made_of.conjuncts = a.conjuncts + b.conjuncts
            return made_of
        return self.level(self.negation, ["AND"], both)

    def negation(self):
        return negated(self.negation()) if self.takes("NOT") else self.equality()

    def equality(self):
        a = self.relation()
        while True:
            tested = self.test(a)
            if tested is None:
                return a
            a = tested

    def test(self, a):
        op = self.takes("=", "==", "<>", "!=", "IS", "ISNULL", "NOTNULL")
        if op in ("=", "=="):
            return compared("=", a, self.relation())
        if op in ("<>", "!="):
            return negated(compared("=", a, self.relation()))
        if op == "IS":
            return self.is_test(a)
        if op in ("ISNULL", "NOTNULL"):
            return over(lambda x: turned(lambda v: int((v is None) == (op == "ISNULL")), x), a)
        if self.kind() == "NOT" and self.kind(1) == "NULL":
            self.at += 2
            return over(lambda x: turned(lambda v: int(v is not None), x), a)
        if self.kind() == "NOT" and self.kind(1) in ("BETWEEN", "LIKE", "GLOB", "IN"):
            self.at += 1
            return negated(self.positive_test(a))
        return self.positive_test(a)

    def is_test(self, a):
        opposite = bool(self.takes("NOT"))
        if self.takes("DISTINCT"):
            self.expect("FROM")
            opposite = not opposite
        b = self.relation()
        sides = sides_of(a, b)
        if b.form in (True, False):
            found = Bound(lambda row: is_truth(int(b.form), a.value(row)), (a, b))
        else:
            found = over(lambda x, y: is_same(sides, x, y), a, b)
        return negated(found) if opposite else found

    def positive_test(self, a):
        op = self.takes("BETWEEN", "LIKE", "GLOB", "IN")
        if op == "BETWEEN":
            low = self.relation()
            self.expect("AND")
            return self.between(a, low, self.relation())
        if op == "LIKE":
            b = self.relation()
            return over(like_escaped, a, b, self.relation()) if self.takes("ESCAPE") else over(like, a, b)
        if op == "GLOB":
            return over(glob, a, self.relation())
        return self.member(a) if op == "IN" else None

    def between(self, a, low, high):
        a = once(a)
        above, below = compared(">=", a, low), compared("<=", a, high)
        found = Bound(lambda row: conjunction(above.value(row), below.value(row)), (a, low, high))
        found.conjuncts = [above.value, below.value]
        return found

    def member(self, a):
        self.expect("(")
        others = [] if self.kind() == ")" else self.listed(self.expr)
        self.expect(")")
        sides = Sides(a.affinity, "NONE", a.collation or a.column or "BINARY")

        def found_in(row):
            x = a.value(row)
            found = turned(lambda v: 0, x)
            for other in others:
                found = disjunction(found, comparison("=", sides, x, other.value(row)))
            return found
        return Bound(found_in, [a] + others)

    def relation(self):
        return self.level(self.bits, ["<", "<=", ">", ">="], compared)

    def bits(self):
        return self.level(self.sum, ["&", "|", "<<", ">>"], lambda op, a, b: over(lambda x, y: integers(op, x, y), a, b))

    def sum(self):
        return self.level(self.product, ["+", "-"], lambda op, a, b: over(lambda x, y: arithmetic(op, x, y), a, b))

    def product(self):
        def join(op, a, b):
            return over(lambda x, y: (integers if op == "%" else arithmetic)(op, x, y), a, b)
        return self.level(self.concatenation, ["*", "/", "%"], join)

    def concatenation(self):
        return self.level(self.collated, ["||"], lambda op, a, b: over(concatenation, a, b))

    def collated(self):
        a = self.signed()
        while self.takes("COLLATE"):
            found = Bound(a.value, (), a.affinity)
            found.collation = collation_named(self.name())
            a = found
        return a

    def signed(self):
        sign = self.takes("-", "+", "~")
        if sign is None:
            return self.primary()
        a = self.signed()
        if sign == "-" and a.form == "least":
            return Bound(lambda row: -(2 ** 63))
        found = over({"-": negative, "+": lambda x: x, "~": inverse}[sign], a)
        found.column = a.column if sign == "+" else None
        return found

    def primary(self):
        token = self.next()
        kind = token[0]
        if kind in ("text", "blob", "number", "NULL", "TRUE", "FALSE"):
            value = literal_of(*token)
            least = kind == "number" and token[1].isdigit() and int(token[1]) == 2 ** 63
            return Bound(lambda row: value, form="least" if least else {"TRUE": True, "FALSE": False}.get(kind))
        if kind == "(":
            a = self.expr()
            self.expect(")")
            return a
        if kind == "CAST":
            return self.cast()
        if kind == "CASE":
            return self.case()
        if kind in ("word", "name"):
            return self.named(name_of(token))
        raise NotYet

    def cast(self):
        self.expect("(")
        a = self.expr()
        self.expect("AS")
        words = self.type_words()
        self.expect(")")
        to = affinity_of(words)
        found = over(lambda x: turned(lambda v: cast(to, v), x), a)
        found.affinity, found.column = to, a.column
        return found

    def type_words(self):
        words = [self.name()]
        while self.kind() in ("word", "name"):
            words.append(self.name())
        if self.takes("("):
            self.listed(lambda: (self.takes("+", "-"), self.expect("number")))
            self.expect(")")
        return words

    def case(self):
        operand = None if self.kind() == "WHEN" else self.expr()
        arms = []
        while self.takes("WHEN"):
            condition = self.expr()
            self.expect("THEN")
            arms.append((condition, self.expr()))
        otherwise = self.expr() if self.takes("ELSE") else None
        self.expect("END")
        if not arms:
            raise NotYet
        tests = [(compared("=", operand, c) if operand else c) for c, v in arms]
        operands = ([operand] if operand else []) + [x for arm in arms for x in arm] + ([otherwise] if otherwise else [])

        def chosen(row, place=0):
            if place == len(arms):
                return otherwise.value(row) if otherwise else None
            return choice(tests[place].value(row), lambda: arms[place][1].value(row), lambda: chosen(row, place + 1))
        return Bound(chosen, operands)

    def named(self, name):
        if self.takes("."):
            return self.column(self.name(), name)
        if self.takes("("):
            return self.call(name)
        return self.column(name)

    def column(self, name, table=None):
        shown = name if table is None else table + "." + name
        if not self.names_columns:
            declared = [c.name for item in self.items for c in item.columns]
            raise Refused("1: misuse of: " + next((c for c in declared if same(c, name)), name))
        found = self.look_up(self.items, name, table)
        if found is not None:
            return found
        result = next((at for given, at in self.given if table is None and same(given, name)), None)
        if result is None:
            raise Refused("1: no such column: " + shown)
        return self.result_at(result)

    def result_at(self, at):
        """The expression of a result, which sees no names of results; it is one condition."""
        given, behind = self.given, self.at
        self.given, self.at = [], at
        found = self.expr()
        found.conjuncts = [found.value]
        self.given, self.at = given, behind
        return found

    def call(self, name):
        """A function's own refusals come before those of its arguments."""
        start, depth, given = self.at, 0, 0 if self.kind() == ")" else 1
        while depth >= 0:
            kind = self.next()[0]
            depth += {"(": 1, ")": -1}.get(kind, 0)
            given += kind == "," and depth == 0
        self.at = start
        found = FUNCTIONS.get(folded(name))
        if found is None:
            raise Refused("1: no such function: " + name)
        if given < found[1] or (found[2] is not None and given > found[2]):
            raise Refused("1: wrong number of values: " + folded(name))
        args = [] if self.kind() == ")" else self.listed(self.expr)
        self.expect(")")
        return self.called(found[0], args)

    def called(self, function, args):
        if function == "coalesce":
            def first(row):
                outs = (a.value(row) for a in args)
                return next((out for out in outs if out is not None), None)
            return Bound(first, args)
        if function == "iif":
            return Bound(lambda row: choice(args[0].value(row), lambda: args[1].value(row), lambda: args[2].value(row)), args)
        collation = next((a.collation or a.column for a in args if a.collation or a.column), "BINARY")
        if isinstance(function, str):
            return over(lambda *outs: on_all(lambda *vs: by_keys(function, collation, *vs), outs), *args)
        return over(lambda *outs: on_all(function, outs), *args)

    # ---- what CREATE TABLE declares

    def declarations(self):
        """In order of text, each column with its constraints behind it, then those of the table: the word of what is declared, the column
        that it is of, and what it holds. An expression is not read yet, since a CHECK may name columns behind it."""
        found, behind = self.column_declared(), False
        while self.takes(","):
            behind = behind or self.kind() in TABLE_RULES
            found += [self.table_rule()] if behind else self.column_declared()
        return found

    def column_declared(self):
        name, start = self.name(), self.at
        words = self.type_words() if self.kind() in ("word", "name") else []
        column = Column(name, affinity_of(words), self.at == start + 1 and same(words[0], "INTEGER"))
        found = [("COLUMN", column, None)]
        while self.kind() in COLUMN_RULES:
            found.append(self.column_rule(column))
        return found

    def rule(self):
        """The word of a constraint, behind its name, if it has one."""
        if self.takes("CONSTRAINT"):
            self.name()
        kind = self.next()[0]
        if kind == "PRIMARY" and not self.takes_word("KEY"):
            raise NotYet
        return kind

    def column_rule(self, column):
        kind, held = self.rule(), None
        if kind == "PRIMARY":
            self.takes_word("ASC")
            held = []
        elif kind == "NOT":
            self.expect("NULL")
            column.not_null = True
        elif kind == "CHECK":
            held = self.bracketed()
        elif kind == "DEFAULT":
            held = self.default()
        elif kind == "COLLATE":
            held = self.name()
            column.collation = next((c for c in COLLATIONS if same(c, held)), column.collation)
        elif kind not in ("NULL", "UNIQUE"):
            raise NotYet
        return kind, column, held

    def table_rule(self):
        kind = self.rule()
        if kind == "CHECK":
            return kind, None, self.bracketed()
        if kind not in ("PRIMARY", "UNIQUE"):
            raise NotYet
        self.expect("(")
        held = self.listed(self.key_column)
        self.expect(")")
        return kind, None, held

    def key_column(self):
        """Its name, and the collation that is written."""
        found = self.name(), self.name() if self.takes("COLLATE") else None
        if not self.takes_word("ASC"):
            self.takes_word("DESC")
        return found

    def default(self):
        """Where it begins: a literal, a number behind a sign, or an expression in brackets."""
        start = self.at
        if self.kind() == "(":
            return self.bracketed()
        if self.takes("+", "-"):
            self.expect("number")
        elif not self.takes("number", "text", "blob", "NULL", "TRUE", "FALSE"):
            raise NotYet
        return start

    def bracketed(self):
        """Where the bracket stands of an expression that is passed over."""
        start, depth = self.at, 1
        self.expect("(")
        while depth:
            depth += {"(": 1, ")": -1}.get(self.next()[0], 0)
        return start

    def held(self, start, names_columns):
        """What the expression of a constraint comes to."""
        self.at, self.names_columns = start, names_columns
        return self.signed().value


class Column:
    """A column: its affinity and collation, whether its type is INTEGER and nothing else, whether it may not be NULL, and its default."""

    def __init__(self, name, affinity, is_integer):
        self.name, self.affinity, self.is_integer = name, affinity, is_integer
        self.collation, self.not_null, self.default = "BINARY", False, lambda row: None
