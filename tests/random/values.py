"""Values, causes, operators and functions as the definitions say (docs/MEANING.md), in plain Python.

A value is None, an int, a str or bytes. What an expression comes to is a value, or `Bad` with a set of causes. A cause is the text of
its error line. Nothing here is fast: each function is the definition, word by word.
"""
import re

MAX_VALUE_BYTES = 1_000_000
REAL = "1: REAL is not supported"
OVERFLOW = "1: integer overflow"
NOT_TEXT = "1: blob is not text"
ESCAPE = "1: ESCAPE must be one character"
TOO_BIG = "18: value longer than 1000000 bytes"
MISMATCH = "20: datatype mismatch"

SPACE = " \t\n\f\r"
DECIMAL = r"[+-]?(?:[0-9]+(?:\.[0-9]*)?|\.[0-9]+)(?:[eE][+-]?[0-9]+)?"
WHOLE = r"[+-]?[0-9]+"


class Bad:
    """What went wrong: any of these causes may be named."""

    def __init__(self, *causes):
        self.causes = frozenset(causes)

    @staticmethod
    def of(causes):
        bad = Bad()
        bad.causes = frozenset(causes)
        return bad


def causes_in(out):
    return out.causes if isinstance(out, Bad) else frozenset()


def causes_of(outs):
    return frozenset().union(*map(causes_in, outs))


def turned(f, out):
    return out if isinstance(out, Bad) else f(out)


def on_all(f, outs):
    """f of the values, or bad with the causes of all."""
    causes = causes_of(outs)
    return Bad.of(causes) if causes else f(*outs)


def fits(n):
    return -(2 ** 63) <= n < 2 ** 63


def in_range(n):
    return n if fits(n) else Bad(OVERFLOW)


def length_of(v):
    return len(v.encode()) if isinstance(v, str) else len(v) if isinstance(v, bytes) else 0


def made(v):
    return Bad(TOO_BIG) if length_of(v) > MAX_VALUE_BYTES else v


# ---- numbers in texts

def latin(v):
    """The bytes of a text or a blob, one character each, so that patterns see bytes."""
    return (v.encode() if isinstance(v, str) else v).decode("latin-1")


def integer_of(number):
    return int(number) if re.fullmatch(WHOLE, number) and fits(int(number)) else None


def text_kind(text):
    """'none', 'real', or the integer that the whole text spells."""
    trimmed = latin(text).strip(SPACE)
    if not re.fullmatch(DECIMAL, trimmed):
        return "none"
    n = integer_of(trimmed)
    return "real" if n is None else n


def number_prefix(v):
    """The integer of the longest beginning that is a number, 0 where there is none; None where it is no integer."""
    found = re.match(DECIMAL, latin(v).lstrip(SPACE))
    return integer_of(found.group()) if found else 0


def integer_prefix(v):
    found = re.match(WHOLE, latin(v).lstrip(SPACE))
    return max(-(2 ** 63), min(2 ** 63 - 1, int(found.group()))) if found else 0


# ---- casts and storing

def to_text(v):
    if isinstance(v, int):
        return str(v)
    if isinstance(v, bytes):
        try:
            return v.decode()
        except UnicodeDecodeError:
            return Bad(NOT_TEXT)
    return v


def to_blob(v):
    return v if v is None else str(v).encode() if isinstance(v, int) else v.encode() if isinstance(v, str) else v


def to_integer(v):
    return integer_prefix(v) if isinstance(v, (str, bytes)) else v


def to_number(v):
    if isinstance(v, (str, bytes)):
        n = number_prefix(v)
        return Bad(REAL) if n is None else n
    return v


def cast(affinity, v):
    return {"INTEGER": to_integer, "NUMERIC": to_number, "REAL": lambda v: Bad(REAL),
            "TEXT": to_text, "BLOB": to_blob, "NONE": lambda v: v}[affinity](v)


def store_as(affinity, v):
    if affinity in ("INTEGER", "NUMERIC") and isinstance(v, str):
        kind = text_kind(v)
        return v if kind == "none" else Bad(REAL) if kind == "real" else kind
    if affinity == "TEXT" and isinstance(v, int):
        return str(v)
    return v


def beside(other, own, v):
    """A side of a comparison, as its own affinity and that of the other side want it."""
    if other in ("INTEGER", "NUMERIC"):
        if own in ("INTEGER", "NUMERIC") or not isinstance(v, str):
            return v
        kind = text_kind(v)
        return kind if isinstance(kind, int) else v
    if other == "TEXT" and own == "NONE" and isinstance(v, int):
        return str(v)
    return v


# ---- comparing

def folded(text):
    return "".join(c.lower() if c.isascii() else c for c in text)


def key(collation, v):
    """Keys stand to one another as the values do under the collation: NULL, integers, texts, blobs."""
    if v is None:
        return (0,)
    if isinstance(v, int):
        return (1, v)
    if isinstance(v, bytes):
        return (3, v)
    return (2, {"BINARY": v, "NOCASE": folded(v), "RTRIM": v.rstrip(" ")}[collation].encode())


class Sides:
    """The affinities of both sides of a comparison, and its collation."""

    def __init__(self, left, right, collation):
        self.left, self.right, self.collation = left, right, collation


def side_keys(sides, a, b):
    return (key(sides.collation, beside(sides.right, sides.left, a)), key(sides.collation, beside(sides.left, sides.right, b)))


COMPARISONS = {"=": lambda k, l: k == l, "<": lambda k, l: k < l, "<=": lambda k, l: k <= l,
               ">": lambda k, l: k > l, ">=": lambda k, l: k >= l}


def comparison(op, sides, a, b):
    def compare(v, w):
        return None if v is None or w is None else int(COMPARISONS[op](*side_keys(sides, v, w)))
    return on_all(compare, [a, b])


def is_same(sides, a, b):
    return on_all(lambda v, w: int(side_keys(sides, v, w)[0] == side_keys(sides, v, w)[1]), [a, b])


# ---- truth

def truth_of(a):
    """NULL, 1 or 0, or bad."""
    n = turned(to_number, a)
    return n if isinstance(n, Bad) or n is None else int(n != 0)


def negation(a):
    t = truth_of(a)
    return t if isinstance(t, Bad) or t is None else 1 - t


def conjunction(a, b):
    """A false side decides, even beside one that is bad."""
    s, t = truth_of(a), truth_of(b)
    if (not isinstance(s, Bad) and s == 0) or (not isinstance(t, Bad) and t == 0):
        return 0
    return on_all(lambda v, w: None if v is None or w is None else 1, [s, t])


def disjunction(a, b):
    return negation(conjunction(negation(a), negation(b)))


def choice(condition, a, b):
    t = truth_of(condition)
    return t if isinstance(t, Bad) else a() if t == 1 else b()


def is_truth(wanted, a):
    return turned(lambda t: int(t == wanted), truth_of(a))


# ---- numbers, bits, texts

def quotient(a, b):
    return abs(a) // abs(b) * (1 if (a < 0) == (b < 0) else -1)


def signed(n):
    return (n + 2 ** 63) % 2 ** 64 - 2 ** 63


def shifted(a, n):
    """To the left by n places; to the right, where the sign fills, where n is negative."""
    if n >= 0:
        return signed(a << n) if n < 64 else 0
    return a >> min(-n, 63)


ARITHMETIC = {"+": lambda a, b: in_range(a + b), "-": lambda a, b: in_range(a - b), "*": lambda a, b: in_range(a * b),
              "/": lambda a, b: None if b == 0 else in_range(quotient(a, b))}
BITS = {"%": lambda a, b: None if b == 0 else a - b * quotient(a, b), "&": lambda a, b: a & b, "|": lambda a, b: a | b,
        "<<": shifted, ">>": lambda a, b: shifted(a, -b)}


def unless_null(f):
    return lambda *vs: None if None in vs else f(*vs)


def arithmetic(op, a, b):
    return on_all(unless_null(ARITHMETIC[op]), [turned(to_number, a), turned(to_number, b)])


def integers(op, a, b):
    return on_all(unless_null(BITS[op]), [turned(to_integer, a), turned(to_integer, b)])


def negative(a):
    return turned(unless_null(lambda n: in_range(-n)), turned(to_number, a))


def inverse(a):
    return turned(unless_null(lambda n: ~n), turned(to_integer, a))


def concatenation(a, b):
    return on_all(unless_null(lambda s, t: made(s + t)), [turned(to_text, a), turned(to_text, b)])


# ---- LIKE and GLOB

def like_pattern(pattern, escape):
    parts, i = [], 0
    while i < len(pattern):
        c = pattern[i]
        if escape is not None and c == escape:
            i += 1
            parts.append(re.escape(folded(pattern[i])) if i < len(pattern) else "(?!)")
        else:
            parts.append(".*" if c == "%" else "." if c == "_" else re.escape(folded(c)))
        i += 1
    return "".join(parts)


def is_like(text, pattern, escape=None):
    return int(re.fullmatch(like_pattern(pattern, escape), folded(text), re.S) is not None)


def glob_set(pattern, i):
    """The set that begins behind `[` at i: its test and where the pattern goes on, or None where it never ends."""
    negated = pattern[i:i + 1] == "^"
    i += negated
    ranges, first, prior = [], True, None
    while i < len(pattern):
        c, d = pattern[i], pattern[i + 1:i + 2]
        if c == "]" and not first:
            return (lambda x: any(a <= x <= b for a, b in ranges) != negated), i + 1
        if prior is not None and c == "-" and d not in ("", "]"):
            ranges.append((prior, d))
            prior, i = None, i + 2
            continue
        ranges.append((c, c))
        prior = None if first and c == "]" else c
        first, i = False, i + 1
    return None


def glob_parts(pattern):
    parts, i = [], 0
    while i < len(pattern):
        c = pattern[i]
        i += 1
        if c == "*":
            parts.append("run")
        elif c == "?":
            parts.append(lambda x: True)
        elif c == "[":
            found = glob_set(pattern, i)
            if found is None:
                return parts + [lambda x: False]
            parts.append(found[0])
            i = found[1]
        else:
            parts.append(lambda x, c=c: x == c)
    return parts


def matches(parts, text):
    if not parts:
        return text == ""
    if parts[0] == "run":
        return any(matches(parts[1:], text[i:]) for i in range(len(text) + 1))
    return text != "" and parts[0](text[0]) and matches(parts[1:], text[1:])


def like(a, b):
    return on_all(unless_null(is_like), [turned(to_text, a), turned(to_text, b)])


def glob(a, b):
    return on_all(unless_null(lambda t, p: int(matches(glob_parts(p), t))), [turned(to_text, a), turned(to_text, b)])


def like_escaped(a, b, c):
    one = turned(lambda t: t if t is None or len(t) == 1 else Bad(ESCAPE), turned(to_text, c))
    return on_all(unless_null(is_like), [turned(to_text, a), turned(to_text, b), one])


# ---- functions, of values of which none is bad

def number(v):
    return to_integer(v) or 0


def on_text(f, v):
    return turned(lambda t: None if t is None else f(t), to_text(v))


def char(*args):
    def one(v):
        n = number(v)
        return chr(n) if 0 <= n < 0x110000 and not 0xd800 <= n <= 0xdfff else "\ufffd"
    return made("".join(map(one, args)))


def absolute(v):
    return v if v is None else in_range(abs(v)) if isinstance(v, int) else Bad(REAL)


def length(v):
    return len(v) if isinstance(v, bytes) else on_text(len, v)


def trim(strip):
    def of(x, these=" "):
        return on_all(lambda t, u: strip(t, u), [to_text(x), to_text(these)])
    return unless_null(of)


def left_trimmed(t, these):
    return t.lstrip(these) if these else t


def right_trimmed(t, these):
    return t.rstrip(these) if these else t


def instr(x, y):
    if isinstance(x, bytes) and isinstance(y, bytes):
        return x.find(y) + 1
    return on_all(lambda s, t: s.find(t) + 1, [to_text(x), to_text(y)])


def part(xs, y, z):
    """Places count from 1, and from the end where y is negative; a negative length takes what stands in front."""
    start = len(xs) + y + 1 if y < 0 else y
    first, last = (start, len(xs) + 1) if z is None else (start + z, start) if z < 0 else (start, start + z)
    return xs[:0].join(xs[i:i + 1] for i in range(len(xs)) if first <= i + 1 < last)


def substr(x, y, z=None):
    z = None if z is None else number(z)
    return part(x, number(y), z) if isinstance(x, bytes) else on_text(lambda t: part(t, number(y), z), x)


def quote(v):
    return made("NULL" if v is None else str(v) if isinstance(v, int) else "'" + v.replace("'", "''") + "'" if isinstance(v, str)
                else "X'" + v.hex().upper() + "'")


def zeroblob(v):
    n = max(0, number(v))
    return Bad(TOO_BIG) if n > MAX_VALUE_BYTES else bytes(n)


def replace(x, y, z):
    def by(old):
        return x if old == "" else on_all(lambda s, new: made(s.replace(old, new)), [to_text(x), to_text(z)])
    return turned(by, to_text(y))


def type_of(v):
    return "null" if v is None else {int: "integer", str: "text", bytes: "blob"}[type(v)]


# name: (function of the values, the least and the most arguments)
FUNCTIONS = {
    "abs": (absolute, 1, 1), "char": (char, 1, None), "hex": (lambda v: made((to_blob(v) or b"").hex().upper()), 1, 1),
    "instr": (unless_null(instr), 2, 2), "length": (length, 1, 1), "lower": (lambda v: on_text(folded, v), 1, 1),
    "upper": (lambda v: on_text(lambda t: "".join(c.upper() if c.isascii() else c for c in t), v), 1, 1),
    "ltrim": (trim(left_trimmed), 1, 2), "rtrim": (trim(right_trimmed), 1, 2),
    "trim": (trim(lambda t, u: right_trimmed(left_trimmed(t, u), u)), 1, 2), "quote": (quote, 1, 1),
    "replace": (unless_null(replace), 3, 3), "substr": (unless_null(substr), 2, 3), "substring": (unless_null(substr), 2, 3),
    "typeof": (type_of, 1, 1), "unicode": (lambda v: on_text(lambda t: ord(t[0]) if t else None, v), 1, 1),
    "zeroblob": (zeroblob, 1, 1),
    # by keys under the collation
    "max": ("max", 2, None), "min": ("min", 2, None), "nullif": ("nullif", 2, 2),
    # in order, up to the one that decides
    "coalesce": ("coalesce", 2, None), "ifnull": ("coalesce", 2, 2), "iif": ("iif", 3, 3),
}


def by_keys(name, collation, *args):
    if name == "nullif":
        return None if key(collation, args[0]) == key(collation, args[1]) else args[0]
    if None in args:
        return None
    best = args[0]
    for v in args[1:]:
        if key(collation, v) > key(collation, best) if name == "max" else key(collation, v) < key(collation, best):
            best = v
    return best


def printed(v):
    return b"" if v is None else str(v).encode() if isinstance(v, int) else v.encode() if isinstance(v, str) else v
