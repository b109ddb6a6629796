"""The items of a FROM: what names mean in them, how they are joined, and the rows that come of it."""
from syntax import Bound, NotYet, Refused, ROWID_NAMES, compared, same
from values import *

MAX_ITEMS = 16


class Sight:
    """A column of an item as a name sees it: its name as declared, and whether USING or NATURAL joined it with one on the left."""

    def __init__(self, item, place, name):
        self.item, self.place, self.name, self.joined = item, place, name, False

    def bound(self):
        at, column = self.item.offset + self.place, self.item.table.columns[self.place]
        found = Bound(lambda row: row[at], affinity=column.affinity)
        found.column = column.collation
        return found


class Item:
    """A table by the name that it has in a FROM. Its rows stand in a row of the FROM from an offset on, each with its rowid in front. A
    LEFT JOIN has the conjuncts of its ON."""

    def __init__(self, table, shown, offset):
        self.table, self.shown, self.offset, self.ons, self.is_left = table, shown, offset, [], False
        self.columns = [Sight(self, place, c.name) for place, c in enumerate(table.columns) if place]
        self.rowid = Sight(self, table.key, "rowid")

    def width(self):
        return len(self.table.columns)

    def named(self, name):
        return [c for c in self.columns if same(c.name, name)]

    def rowids(self, name):
        """The rowid by one of its names, unless a column has the name."""
        return [self.rowid] if folded(name) in ROWID_NAMES and not self.named(name) else []

    def bare(self, name):
        return unjoined(self.named(name)) + self.rowids(name)

    def called(self, name, table):
        return self.named(name) + self.rowids(name) if same(self.shown, table) else []

    def values(self, columns):
        return [c.bound().value for c in columns]


def unjoined(columns):
    return [c for c in columns if not c.joined]


def one_of(name, found):
    if len(found) != 1:
        raise Refused(("1: ambiguous column name: " if found else "1: no such column: ") + name)
    return found[0]


def column_named(items, name, table):
    """The column that a name means, if any: two that no join made one are ambiguous."""
    found = [c for item in items for c in (item.bare(name) if table is None else item.called(name, table))]
    found = found[:1] + unjoined(found[1:])
    if len(found) > 1:
        declared = found[0].item.table.columns[found[0].place].name
        raise Refused("1: ambiguous column name: " + (declared if same(declared, name) else folded(name)))
    return found[0].bound() if found else None


def all_columns(items):
    return [v for item in items for v in item.values(unjoined(item.columns))]


def columns_of(items, table):
    return [v for item in items if same(item.shown, table) for v in item.values(item.columns)]


# ---- how items are joined

def join_words(p):
    """Whether a join is natural, and whether it is a LEFT JOIN; nothing where none follows."""
    if p.takes(","):
        return False, False
    natural = bool(p.takes("NATURAL"))
    word = p.takes("INNER", "CROSS", "LEFT")
    if word == "LEFT":
        p.takes("OUTER")
    if natural or word or p.kind() == "JOIN":
        p.expect("JOIN")
        return natural, word == "LEFT"
    return None


def using(names, left, right):
    """The columns of these names are equal; the right ones are joined with those on the left."""
    conjuncts = []
    for name in names:
        l = one_of(name, [c for item in left for c in unjoined(item.named(name))])
        r = one_of(name, right.named(name))
        conjuncts.append(compared("=", l.bound(), r.bound()).value)
        for c in right.named(name):
            c.joined = True
    return conjuncts


def common_names(left, right):
    return [c.name for c in right.columns if any(unjoined(item.named(c.name)) for item in left)]


def constraint(p, natural, left, right):
    """The conjuncts by which an item is joined."""
    if natural:
        if p.kind() in ("ON", "USING"):
            raise Refused("1: misuse of: NATURAL")
        return using(common_names(left, right), left, right)
    if p.takes("ON"):
        p.items = left + [right]
        return p.expr().conjuncts
    if p.takes("USING"):
        p.expect("(")
        names = p.listed(p.name)
        p.expect(")")
        return using(names, left, right)
    return []


def from_items(p, table_named):
    """The items of a FROM, and the conjuncts of each ON that is no LEFT JOIN's."""
    items, conjuncts, join = [], [], (False, False)
    while join is not None:
        if len(items) == MAX_ITEMS:
            raise Refused("1: limit of 16 items")
        table = table_named(p.name())
        item = Item(table, p.alias() or table.name, sum(i.width() for i in items))
        ons = constraint(p, join[0], items, item)
        item.is_left = join[1]
        item.ons = ons if item.is_left else []
        conjuncts += [] if item.is_left else ons
        items = items + [item]
        p.items = items
        join = join_words(p)
    return items, conjuncts


# ---- rows, each with the causes that it carries

def pairs(item, row, causes):
    """The row with each of the item's that no conjunct of its ON rejects; alone where there is none."""
    found = []
    for r in item.table.rows_in_order():
        outs = [truth_of(c(row + r)) for c in item.ons]
        if all(isinstance(t, Bad) or t == 1 for t in outs):
            found.append((row + r, causes | causes_of(outs)))
    return found or ([(row + [None] * item.width(), causes)] if item.is_left else [])


def rows_of(items):
    """In nested order, the leftmost item outermost."""
    rows = [([], set())]
    for item in items:
        rows = [pair for row, causes in rows for pair in pairs(item, row, causes)]
    return rows
