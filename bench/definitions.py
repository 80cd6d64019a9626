#!/usr/bin/env python3
"""Measures `check` and `format` of the built program on large definitions.

Usage: bench/definitions.py [PROGRAM]     (default: crates/varlink/out/varlink, built by ./varlink)

Each shape is made at two sizes, one ten times the other; the ratio of their times is printed, with
megabytes per second. Texts that are refused are among them: a text of 1 MiB of `(` or of `[]` is answered.
"""
import os
import subprocess
import sys
import tempfile
import time

TOP = os.path.dirname(os.path.dirname(os.path.abspath(__file__)))
LIMIT = 1_048_576


def methods(n):
    return "interface a.b\n" + "".join(f"\nmethod M{k}(a: int) -> (b: int)\n" for k in range(n))


def types(n):
    return "interface a.b\n" + "".join(f"\ntype T{k} (next: ?T{(k + 1) % n})\n" for k in range(n))


def fields(n):
    return "interface a.b\ntype T (" + ", ".join(f"f{k}: int" for k in range(n)) + ")\n"


def notes(n):
    return "#\n" * n + "interface a.b\n"


def one_note(n):
    return "interface a.b #" + "x" * n + "\n"


def notes_before_a_slot(n):
    return "interface a.b\ntype T (\n" + "# x\n" * n + "a: int)\n"


def brackets(n):
    return "interface a.b type T " + "(a: " * n


def prefixes(n):
    return "interface a.b type T (a: " + "[]" * n


SHAPES = [
    (methods, 10_000), (types, 10_000), (fields, 20_000), (notes, 500_000), (one_note, 1_048_000), (notes_before_a_slot, 30_000),
    (brackets, 260_000), (prefixes, 520_000),
]


def seconds(program, command, text):
    with tempfile.NamedTemporaryFile("w", suffix=".varlink") as file:
        file.write(text[:LIMIT])
        file.flush()
        begun = time.monotonic()
        done = subprocess.run([program, command, file.name], capture_output=True)
        return time.monotonic() - begun, done.returncode


def main():
    program = sys.argv[1] if len(sys.argv) > 1 else os.path.join(TOP, "crates/varlink/out/varlink")
    for shape, n in SHAPES:
        for command in ("check", "format"):
            text = shape(n)
            small, _ = seconds(program, command, shape(n // 10))
            large, status = seconds(program, command, text)
            size = min(len(text), LIMIT)
            print(f"{command} {shape.__name__} {n}: {size} bytes in {large:.3f} s, {size / large / 1e6:.1f} MB/s, "
                  f"status {status}, {large / small:.1f} times the time of a tenth")


main()
