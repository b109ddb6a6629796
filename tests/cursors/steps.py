#!/usr/bin/env python3
"""Compares a cursor with a plain list under random steps: steps.py [SEED [STEPS]]

It makes a program of program.txt in a copy of eng_tree and eng_cursor, runs it without proofs (`rt try`) on that many steps (10,000 of seed 1
unless others are given), and compares what each move answers and the row that it leaves with a sorted list of keys and a place in it. Then it
prints how long 200,000 steps take over trees of 1,000 and of 100,000 pairs: a step takes as long in both. The test
command doesn't run it.
"""
import bisect
import pathlib
import random
import shutil
import subprocess
import sys
import tempfile

HERE = pathlib.Path(__file__).resolve().parent
CRATES = HERE.parents[1] / "crates"
MOVES = ["first", "last", "next", "prev", "next", "prev", "next", "prev", "ge", "gt", "le", "lt"]


def key_of(chance):
    return "".join(chance.choice("abc") for _ in range(chance.randint(1, 4)))


def lines_of(seed, count):
    """Changes come in runs, and behind each run the cursor is sought anew."""
    chance = random.Random(seed)
    lines = []
    while len(lines) < count:
        if chance.random() < 0.05:
            lines += [f"{chance.choice(['put', 'put', 'cut'])} {key_of(chance)}" for _ in range(chance.randint(1, 8))]
            lines.append(f"{chance.choice(['ge', 'gt', 'le', 'lt'])} {key_of(chance)}")
        else:
            move = chance.choice(MOVES)
            lines.append(f"{move} {key_of(chance)}" if move in ("ge", "gt", "le", "lt") else move)
    return lines[:count]


def moved(keys, place, move, key):
    """The place after a move, or None."""
    if move in ("next", "prev"):
        to = None if place is None else place + (1 if move == "next" else -1)
    else:
        low, high = bisect.bisect_left(keys, key), bisect.bisect_right(keys, key)
        to = {"first": 0, "last": len(keys) - 1, "ge": low, "gt": high, "le": high - 1, "lt": low - 1}[move]
    return to if to is not None and 0 <= to < len(keys) else None


def expected(lines):
    keys, place = [], None
    for line in lines:
        move, _, key = line.partition(" ")
        if move == "put":
            if key not in keys:
                bisect.insort(keys, key)
        elif move == "cut":
            if key in keys:
                keys.remove(key)
        else:
            place = moved(keys, place, move, key)
            yield "-" if place is None else "+" + keys[place]


def copy_crates(top):
    for name in ["eng_tree", "eng_cursor"]:
        shutil.copytree(CRATES / name, top / "crates" / name, ignore=shutil.ignore_patterns("out", "must-fail"))
    source = top / "crates" / "cursor_steps" / "src"
    source.mkdir(parents=True)
    shutil.copy(HERE / "program.txt", source / "main.rt")
    (top / "crates.txt").write_text("eng_tree:\neng_cursor: eng_tree\ncursor_steps: eng_cursor eng_tree\n")


def run(top, lines):
    done = subprocess.run(["rt", "try", "--seconds", "600"], cwd=top / "crates" / "cursor_steps", input="\n".join(lines) + "\n", stdout=subprocess.PIPE, text=True)
    return done.returncode, done.stdout.split("\n")[:-1]


def main(seed=1, count=10000):
    lines = lines_of(int(seed), int(count))
    with tempfile.TemporaryDirectory() as folder:
        top = pathlib.Path(folder)
        copy_crates(top)
        status, got = run(top, lines)
        due = list(expected(lines))
        for number, (a, b) in enumerate(zip(due, got)):
            if a != b:
                sys.exit(f"answer {number}: {b!r} where {a!r} is due")
        if status != 0 or len(due) != len(got):
            sys.exit(f"status {status}, {len(got)} answers where {len(due)} are due")
        print(f"{len(lines)} steps agree with a list ({len(due)} moves)")
        print("\n".join(run(top, ["walk 1000", "walk 100000"])[1]))


main(*sys.argv[1:])
