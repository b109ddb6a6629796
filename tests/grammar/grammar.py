#!/usr/bin/env python3
"""The grammar of the engine's SQL as text, made from the rules that it is proved against.

    grammar.py           prints the grammar
    grammar.py --check   fails where the grammar in docs/SQL.md is another one
    grammar.py --write   writes it there

The rules are those of crates/sql_grammar/specs. A rule that SHOWN names is printed under its name there, and every other one where it
is used. `[x]` may be left out, `{x}` stands any number of times, and `x,+` once or more with commas between.
"""
import pathlib
import re
import sys

TOP = pathlib.Path(__file__).resolve().parents[2]
SPECS = TOP / "crates" / "sql_grammar" / "specs"
TOKENS = TOP / "crates" / "sql_tree" / "src" / "token.rt"
DOCUMENT = TOP / "docs" / "SQL.md"
BEGIN, END = "<!-- grammar -->\n```\n", "```\n<!-- end of the grammar -->"

# the rules that are printed, with their names there
SHOWN = {
    "statement": "statement",
    "row_command": "rows",
    "query": "query",
    "common_table": "cte",
    "core": "core",
    "select": "select",
    "result": "result",
    "alias": "alias",
    "source": "source",
    "join": "join",
    "join_constraint": "on",
    "values": "values",
    "compound_op": "compound",
    "term": "term",
    "row_limit": "limit",
    "insert": "insert",
    "conflict_choice": "choice",
    "update": "update",
    "delete": "delete",
    "create": "create",
    "if_not_exists": "ine",
    "column": "column",
    "column_rule_of": "column-rule",
    "table_rule_of": "table-rule",
    "key_column": "key-column",
    "index_column": "index-column",
    "trigger_parts": "trigger",
    "inner_pieces": "pieces",
    "remove": "drop",
    "transaction": "transaction",
    "pragma": "pragma",
    "type_name": "type",
    "signed": "signed",
    "expr": "expr",
    "conjunction": "and",
    "negation": "not",
    "equality": "eq",
    "positive_test": "test",
    "relation": "rel",
    "bits": "bit",
    "sum": "sum",
    "product": "mul",
    "concatenation": "cat",
    "collated": "col",
    "signed_primary": "un",
    "primary": "prim",
    "case": "case",
}

SIGNS = {
    "LeftParen": '"("', "RightParen": '")"', "Comma": '","', "Semicolon": '";"', "Dot": '"."', "Star": '"*"', "Plus": '"+"',
    "Minus": '"-"', "Slash": '"/"', "Percent": '"%"', "Ampersand": '"&"', "Bar": '"|"', "Tilde": '"~"', "ShiftLeft": '"<<"',
    "ShiftRight": '">>"', "DoubleBar": '"||"', "Less": '"<"', "LessEqual": '"<="', "Greater": '">"', "GreaterEqual": '">="',
    "Equal": '"="', "DoubleEqual": '"=="', "LessGreater": '"<>"', "BangEqual": '"!="', "Text": "text", "Blob": "blob",
    "Number": "number", "Parameter": "parameter",
}
# rules that are printed as they are mostly written, which derives the same trees: factored_rules_derive_the_same
WRITTEN = {"result", "query", "primary", "signed_primary", "negation", "case"}
# sets of kinds that have a name of their own
SETS = {"names": "name", "all_words": "word", "argument_kinds": "token"}


def split(text):
    """The symbols of a term."""
    return re.findall(r"[()\[\]{}]|∷|[^\s()\[\]{}]+", text)


def parse(symbols):
    """A term as nested lists: a name, or a list of terms."""
    found = [[]]
    for symbol in symbols:
        if symbol == "(":
            found.append([])
        elif symbol == ")":
            last = found.pop()
            found[-1].append(last)
        else:
            found[-1].append(symbol)
    if len(found) != 1:
        raise ValueError("brackets")
    return found[0]


def definitions():
    """Each rule by its name, and what stands between brackets by the name of that."""
    rules, bodies = {}, {}
    for path in sorted(SPECS.glob("*.antt")):
        found = {}
        lines = path.read_text().split("\n")
        for i, line in enumerate(lines):
            begin = re.match(r"(?:unfoldable |abbrev )pub (\w+) :(.*→)? Of ", line)
            body = re.match(r"rules A name\.(\w+) = (.*)", line)
            if body:
                bodies[body.group(1)] = parse(split(body.group(2)))
            elif begin:
                j = i + 1
                text = []
                while j < len(lines) and lines[j].strip() and not lines[j].startswith("--"):
                    text.append(lines[j])
                    j += 1
                joined = " ".join(text)
                defined = re.match(re.escape(begin.group(1)) + r"((?: \w+)*) = (.*)", joined)
                if defined:
                    found[begin.group(1)] = (defined.group(1).split(), parse(split(defined.group(2))))
        if path.stem == "Written":
            found = {"written." + rule: (params, named(term, found)) for rule, (params, term) in found.items()}
        rules.update(found)
    return rules, bodies


def named(term, names):
    """The term with these names told apart from those of the grammar."""
    if isinstance(term, list):
        return [named(part, names) for part in term]
    return "written." + term if term in names else term


RULES, BODIES = definitions()


def keyword(kind):
    if kind in SIGNS:
        return SIGNS[kind]
    if kind in ("Word", "QuotedName"):
        return "name"
    return kind.upper()


def kinds(term):
    """The tokens of a set of kinds."""
    if isinstance(term, str):
        if term in SETS:
            return [SETS[term]]
        return kinds(literal_set(term))
    return [keyword(part.split(".")[1]) for part in term if isinstance(part, str) and part.startswith("kind.")]


def literal_set(name):
    for path in SPECS.glob("*.antt"):
        found = re.search(r"^" + name + r" = (.*)$", path.read_text(), re.M)
        if found:
            return parse(split(found.group(1)))
    raise KeyError(name)


# A rule's text with how tightly it binds: 0 for alternatives, 1 for parts in a row, 2 for what stands alone.
def tight(item):
    text, level = item
    return text if level == 2 or not text else "(" + text + ")"


def row(*items):
    parts = [text if level > 0 else "(" + text + ")" for text, level in items if text]
    if not parts:
        return "", 2
    return (" ".join(parts), 2 if len(parts) == 1 and all(level == 2 for text, level in items if text) else 1)


def choice(*items):
    texts = []
    for text, level in items:
        if text and text not in texts:
            texts.append(text)
    if not texts:
        return "", 2
    if any(not text for text, level in items):
        return "[" + " | ".join(texts) + "]", 2
    return (" | ".join(texts), 0) if len(texts) > 1 else (texts[0], 1)


def of_set(ks):
    found = kinds(ks)
    return choice(*[(k, 2) for k in found])


def bracketed(open_, name, close):
    inner = body(name)
    return row((open_, 2), inner, (close, 2))


def body(name):
    name = name.split(".")[-1]
    return render(BODIES[name], {})


def render(term, bound):
    """The text of a rule."""
    if isinstance(term, str):
        if term in bound:
            return bound[term]
        if not term.startswith("written."):
            term = term.split(".")[-1]
        elif term[len("written."):] in SHOWN:
            return SHOWN[term[len("written."):]], 2
        if term == "name":
            return "name", 2
        if term in SHOWN:
            return SHOWN[term], 2
        return render(RULES[term][1], {})
    head, args = term[0], term[1:]
    if isinstance(head, list):
        if not args:
            return render(head, bound)
        raise ValueError(term)
    return form(head, args, bound)


def form(head, args, bound):
    if head in ("seq",):
        return row(render(args[0], bound), render(args[1], bound))
    if head == "alt":
        return choice(*alternatives(["alt"] + args, bound))
    if head in ("to", "over"):
        return render(args[1], bound)
    if head == "with_tokens":
        return render(args[0], bound)
    if head == "pure":
        return "", 2
    if head == "tok":
        return of_set(args[1])
    if head == "many":
        return many(args[0], bound)
    if head == "until":
        return row(many(args[0], bound), many(args[2], bound))
    if head == "fork":
        return row(render(args[0], bound), render(args[2], bound))
    if head == "nest":
        return bracketed(" ".join(kinds(args[1])), args[2], " ".join(kinds(args[4])))
    if head in ("maybe", "given"):
        return optional(render(args[0], bound))
    if head == "after":
        return row((keyword(args[1].split(".")[1]), 2), render(args[2], bound))
    if head == "list_of":
        inner = render(args[0], bound)
        return tight(inner) + ",+", 2
    if head in ("in_brackets", "in_parentheses"):
        return bracketed('"("', args[0], '")"')
    if head == "suffixed":
        return row(render(args[0], bound), render(args[1], bound))
    if head == "infix_by":
        return row(of_set(args[0]), render(args[2], bound))
    if head in SHOWN:
        return SHOWN[head], 2
    if head in RULES:
        params, inner = RULES[head]
        return render(inner, {}) if params else render([inner] + args, bound)
    if not args:
        return render(head, bound)
    raise ValueError([head] + args)


def alternatives(term, bound):
    """All alternatives of a chain of them."""
    if isinstance(term, list) and len(term) == 1 and isinstance(term[0], list):
        return alternatives(term[0], bound)
    if isinstance(term, list) and term and term[0] == "alt":
        return alternatives(term[1], bound) + alternatives(term[2], bound)
    return [render(term, bound)]


def optional(item):
    text = item[0]
    if not text or (text.startswith("[") and text.endswith("]") and text.count("[") == 1):
        return text, 2
    return "[" + text + "]", 2


def many(term, bound):
    text = render(term, bound)[0]
    return ("{" + text + "}", 2) if text else ("", 2)


def folded(name, text):
    """A rule in lines of 100 characters at most."""
    lines, line = [], f"{name:<12} ="
    for word in text.split(" "):
        if len(line) + 1 + len(word) > 100:
            lines.append(line)
            line = " " * 14
        line += " " + word
    lines.append(line)
    return "\n".join(lines)


def grammar():
    lines = []
    for rule, name in SHOWN.items():
        params, term = RULES["written." + rule if rule in WRITTEN else rule]
        text = render(term, {})[0]
        lines.append(folded(name, text))
    return "\n".join(lines) + "\n"


def main():
    made = grammar()
    if len(sys.argv) == 1:
        sys.stdout.write(made)
        return 0
    text = DOCUMENT.read_text()
    begin, end = text.find(BEGIN), text.find(END)
    if begin < 0 or end < begin:
        print(f"{DOCUMENT}: no place for the grammar")
        return 1
    if sys.argv[1] == "--write":
        DOCUMENT.write_text(text[: begin + len(BEGIN)] + made + text[end:])
        return 0
    if text[begin + len(BEGIN) : end] != made:
        print(f"{DOCUMENT}: its grammar is not that of the rules; grammar.py --write writes it")
        return 1
    return 0


if __name__ == "__main__":
    sys.exit(main())
