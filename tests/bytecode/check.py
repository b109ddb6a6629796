#!/usr/bin/env python3
"""Fails when an opcode of crates/vm_code/src/op.rt has no paragraph in docs/BYTECODE.md, or a paragraph no opcode, or their order differs."""
import pathlib
import re
import sys

ROOT = pathlib.Path(__file__).resolve().parents[2]


def opcodes():
    """The variants of `Op`, in their order."""
    source = (ROOT / "crates/vm_code/src/op.rt").read_text()
    body = source[source.index("pub enum Op {"):]
    return re.findall(r"^    ([A-Z]\w*)(?: \{|,|\()", body, re.MULTILINE)


def paragraphs():
    """The opcodes that paragraphs begin with, in their order."""
    return re.findall(r"^\*\*(\w+)\*\*", (ROOT / "docs/BYTECODE.md").read_text(), re.MULTILINE)


def main():
    wanted, found = opcodes(), paragraphs()
    missing = [name for name in wanted if name not in found]
    strange = [name for name in found if name not in wanted]
    for name in missing:
        print(f"{name} has no paragraph in docs/BYTECODE.md")
    for name in strange:
        print(f"docs/BYTECODE.md has a paragraph on {name}, which is no opcode")
    if not missing and not strange and wanted != found:
        print("the paragraphs stand in another order than the opcodes, or one stands twice")
    if wanted != found or not wanted:
        sys.exit(1)
    print(f"{len(wanted)} opcodes, each with its paragraph")


if __name__ == "__main__":
    main()
