"""Writes the table of rows of crates/key_table: its stdin, and its stdout with the standings that SQLite gives.

    python3 tests/keys/table.py            compares what stands there with what SQLite says today
    python3 tests/keys/table.py --write    writes both files anew

The format is that of the library key_lines. Rows are compared by SQLite's own ORDER BY with collations, DESC and NULLS FIRST or LAST. One
group is worked out by hand: texts with U+0000 under NOCASE, at which SQLite stops comparing, while here U+0000 is an ordinary character.
"""
import sqlite3
import sys
from pathlib import Path

CRATE = Path(__file__).resolve().parents[2] / "crates" / "key_table"

INTEGERS = [-(2**63), -(2**63) + 1, -256, -1, 0, 1, 255, 256, 2**31, 2**63 - 1]
TEXTS = ["", "a", "A", "a ", "a  b", "a b", "ab", "AB", "aB ", "b", " ", "  ", "[", "`", "z", "{", "é", "É", "\U0001f600", "\t", "a\t"]
ZEROS = ["\0", "\0\0", "\0a", "a\0", "a\0\0", "a\0b", "a\x01", "\x01"]
BLOBS = [b"", b"\0", b"\0\0", b"\0\xff", b"\0\xff\0", b"\x01", b"a", b"A", b"a ", b"\xfe", b"\xff", b"\xff\0", b"\xff\xff"]
SINGLES = [None] + INTEGERS + TEXTS + BLOBS
# parts that go into one another where they have no end
PAIRS = [
    ("", "b"), ("a", "b"), ("a", "a"), ("ab", ""), ("ab", "a"), ("a", None), ("a", -1), (None, "a"), (None, None), (-1, None),
    ("a\0", "b"), ("a", "\0b"), ("a\0\0", ""), ("", "a\0\0"), (b"a", "b"), (b"", b"ab"), (b"\0", b""), (b"", b"\0"), (b"\xff", b"a"),
    (b"\xff\xff", 0), (0, b"\xff\xff"), (2**63 - 1, "z"), (-(2**63), "z"), ("A", "B"), ("a ", "b"),
]
# U+0000 under NOCASE: by the bytes with the letters in one case, each row behind those in front of it, and rows of one list are equal
ZEROS_NOCASE = [["\0"], ["\0\0"], ["\0a", "\0A"], ["\x01"], ["a", "A"], ["a\0", "A\0"], ["A\0\0"], ["a\0b", "A\0B"], ["a\x01"]]


def word(value):
    if value is None:
        return "null"
    if isinstance(value, int):
        return str(value)
    if isinstance(value, bytes):
        return "blob:" + value.hex()
    plain = value.isalpha() and value.isascii() and value != "null"
    return value if plain else "text:" + value.encode().hex()


def term(place, part):
    options = part.split(",")
    direction = "DESC" if "desc" in options else "ASC"
    nulls = "LAST" if "nulls_last" in options else "FIRST"
    return f"c{place} COLLATE {options[0]} {direction} NULLS {nulls}"


def ranks(parts, rows):
    """The place of each row among those that differ, by SQLite."""
    base = sqlite3.connect(":memory:")
    columns = ", ".join(f"c{i}" for i in range(len(parts)))
    base.execute(f"CREATE TABLE t(n INTEGER PRIMARY KEY, {columns})")
    for n, row in enumerate(rows):
        base.execute(f"INSERT INTO t VALUES({', '.join('?' * (len(row) + 1))})", (n, *row))
    order = ", ".join(term(i, part) for i, part in enumerate(parts))
    return [r for (r,) in base.execute(f"SELECT r FROM (SELECT n, dense_rank() OVER (ORDER BY {order}) AS r FROM t) ORDER BY n")]


def signs(places):
    return ["  " + "".join("<" if a < b else "=" if a == b else ">" for b in places) for a in places]


def group(parts, rows, places):
    lines = ["by " + " ".join(parts)] + [" ".join(word(v) for v in row) for row in rows]
    return lines, signs(places)


def groups():
    single = [(v,) for v in SINGLES]
    for part in ["binary", "binary,desc", "binary,nulls_last", "binary,desc,nulls_last", "nocase", "nocase,desc", "rtrim", "rtrim,desc,nulls_last"]:
        yield "One part", group([part], single, ranks([part], single))
    for part in ["binary", "binary,desc", "rtrim"]:
        zeros = [(v,) for v in ZEROS]
        yield "Texts with U+0000", group([part], zeros, ranks([part], zeros))
    zeros = [((v,), place) for place, alike in enumerate(ZEROS_NOCASE) for v in alike]
    rows, places = [row for row, _ in zeros], [place for _, place in zeros]
    yield "The same under NOCASE, worked out by hand", group(["nocase"], rows, places)
    yield "The same descending", group(["nocase,desc"], rows, [-place for place in places])
    for parts in [["binary", "binary"], ["binary,desc", "binary"], ["binary", "binary,desc,nulls_last"], ["binary,nulls_last", "binary,desc"], ["rtrim,desc", "binary,nulls_last"]]:
        yield "Two parts", group(parts, PAIRS, ranks(parts, PAIRS))


def files():
    given, wanted = [], []
    for title, (lines, standings) in groups():
        given += ["-- " + title, *lines, ""]
        wanted += ["-- " + title, *lines, *standings, ""]
    return {"stdin": "\n".join(given) + "\n", "stdout": "\n".join(wanted) + "\n"}


def main():
    for name, text in files().items():
        path = CRATE / name
        if "--write" in sys.argv[1:]:
            path.write_text(text)
        elif path.read_text() != text:
            sys.exit(f"{path} is not what SQLite says")
    print("the table of keys is what SQLite says")


main()
