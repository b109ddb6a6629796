#!/usr/bin/env python3
"""Runs the engine on the random scripts: check.py SQLSH [SCRIPTS]

SQLSH is the built program, or what runs it. The lines that it writes must be those of scripts.jsonl, which must be those that the
plain program of the definitions (meaning.py) gives now. The last line is 'N scripts, N failed'; the status is 1 where one failed.
"""
import json
import os
import pathlib
import subprocess
import sys

from meaning import lines_of


def written(program, script, order=None):
    """What the program makes of a script, whose joins are in the order of a number, where one is given."""
    around = {**os.environ, "SQLSH_JOIN_ORDER": str(order)} if order is not None else None
    done = subprocess.run([program], input=script.encode(), stdout=subprocess.PIPE, timeout=60, env=around)
    return done.returncode, done.stdout


def agrees(due, got):
    """A row may hold line feeds, so the lines are taken off one after another."""
    for choices in due:
        line = next((c.encode("latin-1") + b"\n" for c in choices if got.startswith(c.encode("latin-1") + b"\n")), None)
        if line is None:
            return False
        got = got[len(line):]
    return got == b""


def failures(program, scripts):
    for number, line in enumerate(scripts):
        script = json.loads(line)
        status, got = written(program, script["sql"])
        refused = any(choices[0].startswith("Error ") for choices in script["lines"])
        if lines_of(script["sql"]) != script["lines"]:
            yield "script %d: the definitions give other lines than are stored" % number
        elif not agrees(script["lines"], got) or status != int(refused):
            yield "script %d: status %d, written %r\n%s" % (number, status, got, script["sql"])


def main():
    if len(sys.argv) < 2:
        sys.exit(__doc__)
    stored = pathlib.Path(sys.argv[2]) if len(sys.argv) > 2 else pathlib.Path(__file__).with_name("scripts.jsonl")
    scripts = stored.read_text().splitlines()
    failed = 0
    for failure in failures(sys.argv[1], scripts):
        failed += 1
        print(failure)
    print("%d scripts, %d failed" % (len(scripts), failed))
    sys.exit(1 if failed else 0)


if __name__ == "__main__":
    main()
