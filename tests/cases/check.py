#!/usr/bin/env python3
"""Runs the engine on the cases: check.py SQLSH [FILE ..]

SQLSH is the built program, or what runs it; without files those of this folder that end in `.cases` are run, one process a case.
A file is blocks, parted by empty lines:

    # A block of comments alone says what follows, and where its values come from.

    # A comment in front of a case says what it shows.
    % words --budget 5          the words of the command line
    % status 3                  the exit status; without it 1 where a line begins with `Error `, else 0
    % escaped                   \\xNN is a byte, \\n, \\t and \\\\ are themselves, in all the lines below
    % repeated                  {1000:+ a } is `+ a ` so often, in all the lines below
    % no newline                the script's last line has none
    CREATE TABLE t(a);
    SELECT a FROM t;
    ----
    the lines that are written; (empty) stands for an empty line

    % select
    1 + 1, 2 => 2|2             each line is a SELECT of its own, run behind the others, and the one line that it must write

    % select FROM t WHERE a > 0
    % first CREATE TABLE t(a); INSERT INTO t VALUES(1);
    a + 1 => 2                  with these words behind what is selected, and these statements in front of them all

    % each
    SELECT 1 ORDER; => Error 1: syntax error at byte 14
                                each line is a script of its own, and the one line that it must write; nothing for none. Where lines are
                                escaped, \\n parts several of them

A value of a line may not end in white space; write it by an escape. The last line is 'N cases, N failed'; the status is 1 where one
failed.
"""
import pathlib
import re
import shlex
import subprocess
import sys

ESCAPE = re.compile(rb"\\(x[0-9a-fA-F]{2}|[nt\\])")
REPEATED = re.compile(rb"\{(\d+):([^}]*)\}")


def unescaped(text):
    """The bytes that a text with escapes stands for."""

    def byte_of(found):
        word = found[1]
        return bytes([int(word[1:], 16)]) if word[:1] == b"x" else {b"n": b"\n", b"t": b"\t", b"\\": b"\\"}[word]

    return ESCAPE.sub(byte_of, text)


def lines_to_bytes(lines, is_escaped):
    lines = [b"" if line == b"(empty)" else line for line in lines]
    return [unescaped(line) if is_escaped else line for line in lines]


def blocks_of(text):
    """The blocks of a file, each with the number of its first line."""
    block, start = [], 1
    for number, line in enumerate(text.split(b"\n") + [b""], 1):
        if line.strip():
            block.append(line.rstrip())
        else:
            if block:
                yield start, block
            block, start = [], number + 1


def pair_of(where, line, is_escaped):
    """The two sides of `left => right`."""
    left, arrow, right = line.partition(b" =>")
    if not arrow:
        sys.exit("%s: a line without `=>`: %s" % (where, line.decode("utf-8", "replace")))
    right = right[1:] if right.startswith(b" ") else right
    return lines_to_bytes([left, right], is_escaped)


def scripts_of(where, block):
    """What a block has run: the script, the lines that it must write, the words and the status, for each of its scripts."""
    options, at = {}, 0
    while at < len(block) and block[at][:1] in (b"#", b"%"):
        if block[at][:1] == b"%":
            name, _, value = block[at][1:].strip().decode().partition(" ")
            options["no newline" if name == "no" else name] = value
        at += 1
    body = block[at:]
    if not body:
        return
    if "repeated" in options:
        body = [REPEATED.sub(lambda found: found[2] * int(found[1]), line) for line in body]
    is_escaped = "escaped" in options
    words, status = shlex.split(options.get("words", "")), options.get("status")
    end = b"" if "no newline" in options else b"\n"
    if "each" in options:
        for line in body:
            script, wanted = pair_of(where, line, is_escaped)
            yield script + end, [wanted] if wanted else [], words, status
        return
    if "select" in options:
        pairs = [pair_of(where, line, is_escaped) for line in body]
        behind = (" " + options["select"]).rstrip().encode()
        script = [options.get("first", "").encode()] + [b"SELECT " + left + behind + b";" for left, _ in pairs]
        yield b"\n".join(script) + b"\n", [right for _, right in pairs], words, status
        return
    if b"----" not in body:
        sys.exit("%s: a case without `----`" % where)
    cut = body.index(b"----")
    script = b"\n".join(lines_to_bytes(body[:cut], is_escaped)) + end
    yield script, lines_to_bytes(body[cut + 1 :], is_escaped), words, status


def failure(program, script, lines, words, status):
    """What is wrong with a run, or None."""
    wanted = b"".join(line + b"\n" for line in lines)
    if status is None:
        status = int(b"\nError " in b"\n" + wanted)
    try:
        done = subprocess.run([program] + words, input=script, stdout=subprocess.PIPE, timeout=60)
    except subprocess.TimeoutExpired:
        return "no end in 60 seconds"
    if done.stdout == wanted and done.returncode == int(status):
        return None
    got, lines = done.stdout.split(b"\n"), wanted.split(b"\n")
    first = next((n for n, line in enumerate(lines) if n >= len(got) or got[n] != line), len(lines))
    there = got[first][:300] if first < len(got) else None
    due = lines[first][:300] if first < len(lines) else None
    return "status %d for %s; line %d is %r, and must be %r" % (done.returncode, status, first + 1, there, due)


def main():
    if len(sys.argv) < 2:
        sys.exit(__doc__)
    folder = pathlib.Path(__file__).resolve().parent
    files = [pathlib.Path(name) for name in sys.argv[2:]] or sorted(folder.glob("*.cases"))
    count = failed = 0
    for path in files:
        for number, block in blocks_of(path.read_bytes()):
            where = "%s:%d" % (path.name, number)
            for script, lines, words, status in scripts_of(where, block):
                count += 1
                wrong = failure(sys.argv[1], script, lines, words, status)
                if wrong is not None:
                    failed += 1
                    print("%s: %s\n%s" % (where, wrong, script[:2000].decode("utf-8", "replace")))
    print("%d cases, %d failed" % (count, failed))
    sys.exit(1 if failed or not count else 0)


if __name__ == "__main__":
    main()
