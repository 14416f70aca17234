#!/usr/bin/env python3
"""drop_table.py FROM TO

Copies a WebAssembly module without its section of tables. The linker writes a table for indirect calls with 64-bit
indices, which wasm-opt refuses; the proved code has no indirect call. A module that has elements for a table is
refused.
"""
import pathlib
import sys

TABLES, ELEMENTS = 4, 9


def number_at(data, at):
    """A number in LEB128, and where it ends."""
    number = shift = 0
    while True:
        byte = data[at]
        at += 1
        number |= (byte & 0x7f) << shift
        if byte < 0x80:
            return number, at
        shift += 7


def sections(data):
    """Each section's kind and all of its bytes."""
    at = 8
    while at < len(data):
        size, body = number_at(data, at + 1)
        yield data[at], data[at:body + size]
        at = body + size


def main():
    source, target = map(pathlib.Path, sys.argv[1:])
    data = source.read_bytes()
    found = list(sections(data))
    if any(kind == ELEMENTS for kind, _ in found):
        sys.exit(f"{source} has functions in a table")
    target.write_bytes(data[:8] + b"".join(section for kind, section in found if kind != TABLES))


if __name__ == "__main__":
    main()
