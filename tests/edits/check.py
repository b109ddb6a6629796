#!/usr/bin/env python3
"""Tries the must-fail edits that the test command leaves out: check.py [CRATE ..]

The edits of a crate whose own proof takes long stand in tests/edits/CRATE, not in crates/CRATE/must-fail, since a whole run would prove
the crate a second time to begin them with. For each such crate, or for those that are named, they are put back in a scratch copy of the
repository, and `rt ci CRATE` tries them there: the prover must refuse each. Run it for a crate that has changed, or that stands on one that has.
The status is that of the first run that fails.
"""
import pathlib
import shutil
import subprocess
import sys
import tempfile

HERE = pathlib.Path(__file__).resolve().parent
ROOT = HERE.parent.parent


def copy_to(folder):
    """Copies the files of the repository as they stand, but for what it ignores."""
    words = ["git", "ls-files", "--cached", "--others", "--exclude-standard", "-z"]
    for name in subprocess.run(words, cwd=ROOT, stdout=subprocess.PIPE, check=True).stdout.decode().split("\0"):
        if name and (ROOT / name).is_file():
            (folder / name).parent.mkdir(parents=True, exist_ok=True)
            shutil.copy2(ROOT / name, folder / name)
    subprocess.run(["git", "init", "-q"], cwd=folder, check=True)


def main(names):
    kept = sorted(folder.name for folder in HERE.iterdir() if folder.is_dir())
    unknown = [name for name in names if name not in kept]
    if unknown:
        sys.exit(f"no edits of {unknown[0]} stand here; there are those of {', '.join(kept)}")
    with tempfile.TemporaryDirectory(prefix="edits-") as room:
        folder = pathlib.Path(room)
        copy_to(folder)
        for name in names or kept:
            shutil.copytree(HERE / name, folder / "crates" / name / "must-fail", dirs_exist_ok=True)
        return subprocess.run(["rt", "ci", *(names or kept)], cwd=folder).returncode


if __name__ == "__main__":
    sys.exit(main(sys.argv[1:]))
