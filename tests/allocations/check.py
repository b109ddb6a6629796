"""Runs a test of an INSERT where each allocation in turn fails.

    python3 tests/allocations/check.py PROGRAM [TEST]

PROGRAM holds the tests of crates/top_tests, as `rt ci` leaves it (crates/top_tests/out/top_tests_tests). The test puts rows into tables, one with
each constraint among them, and checks that a statement which finds no memory leaves the table as it was. For k = 1, 2 .. the k-th
allocation of a run fails; each run must pass, or end because the test itself found no memory, until one comes to its end before its
k-th allocation. Needs a C compiler, and a program that takes its memory from the C library.
"""

import collections
import os
import pathlib
import subprocess
import sys
import tempfile

TEST = "connections::an_insert_puts_its_rows_or_changes_nothing"


def outcome(program, test, library, folder, at):
    """What the run came to whose allocation of this number failed, or None where it had no allocation of this number."""
    told = folder / "told"
    told.unlink(missing_ok=True)
    environment = dict(os.environ, LD_PRELOAD=str(library), FAIL_AT=str(at), TOLD_IN=str(told))
    done = subprocess.run([program, test], env=environment, capture_output=True, text=True, timeout=60)
    if not told.exists():
        return None
    if done.returncode == 0:
        return "passed"
    if "AllocError" in done.stderr:
        return "ended for want of memory"
    return "failed: status %d, %s" % (done.returncode, done.stderr.strip())


def main():
    if len(sys.argv) < 2:
        sys.exit(__doc__)
    program, test = os.path.abspath(sys.argv[1]), (sys.argv[2:] + [TEST])[0]
    counts, at = collections.Counter(), 0
    with tempfile.TemporaryDirectory() as made:
        folder = pathlib.Path(made)
        library = folder / "failing.so"
        source = pathlib.Path(__file__).resolve().parent / "failing.c"
        subprocess.run(["cc", "-O1", "-shared", "-fPIC", "-o", str(library), str(source)], check=True)
        while True:
            at += 1
            came = outcome(program, test, library, folder, at)
            if came is None:
                break
            counts[came] += 1
            if came.startswith("failed"):
                print("allocation %d: %s" % (at, came))
    print("%d allocations: %s" % (at - 1, ", ".join("%s %d" % pair for pair in sorted(counts.items()))))
    sys.exit(1 if at == 1 or not counts["passed"] or any(name.startswith("failed") for name in counts) else 0)


if __name__ == "__main__":
    main()
