#!/usr/bin/env python3
"""Measures `compat` of the built program on large definitions.

Usage: bench/compat.py [PROGRAM]     (default: crates/varlink/out/varlink, built by ./varlink)

Each shape is a pair of definitions, made at two sizes, one ten times the other; the ratio of their times is printed, the least of
five runs each. Types that use each other in a row or in a ring are compared with equal ones, and with such ones of which one
differs: the path to it has as many words as there are types.
"""
import os
import subprocess
import sys
import tempfile
import time

TOP = os.path.dirname(os.path.dirname(os.path.abspath(__file__)))
USER = "\nmethod M(x: T0) -> (x: T0)\n"


def row(n, last="v: int"):
    types = [f"type T{k} (next: T{k + 1})" for k in range(n - 1)] + [f"type T{n - 1} ({last})"]
    return "interface a.b\n" + "\n".join(types) + USER


def backward_row(n, last="v: int"):
    types = [f"type T{n - 1} ({last})"] + [f"type T{k} (next: T{k + 1})" for k in reversed(range(n - 1))]
    return "interface a.b\n" + "\n".join(types) + USER


def ring(n, last="v: int"):
    types = [f"type T{k} (next: ?T{(k + 1) % n}{', ' + last if k == n - 1 else ''})" for k in range(n)]
    return "interface a.b\n" + "\n".join(types) + USER


def methods(n, last="v: int"):
    return "interface a.b\n" + "".join(f"method M{k} (a: int) -> ()\n" for k in range(n - 1)) + f"method M{n - 1}({last}) -> ()\n"


def users(n, last="v: int"):
    """One type that all methods use."""
    return f"interface a.b\ntype T (a: (b: int), {last})\n" + "".join(f"method M{k} (a: T) -> ()\n" for k in range(n))


def fields(n, last="v: int"):
    return "interface a.b\nmethod M(" + "".join(f"f{k}: int, " for k in range(n - 1)) + f"{last}) -> ()\n"


def enum(n, last="v: int"):
    return "interface a.b\ntype T (" + ", ".join(f"e{k}" for k in range(n)) + f")\nmethod M(a: T, {last}) -> (a: T)\n"


SHAPES = [(row, 10_000), (backward_row, 10_000), (ring, 10_000), (methods, 10_000), (users, 10_000), (fields, 10_000), (enum, 10_000)]


def seconds(program, old, new):
    with tempfile.TemporaryDirectory() as folder:
        paths = [os.path.join(folder, name) for name in ("old", "new")]
        for path, text in zip(paths, (old, new)):
            with open(path, "w") as file:
                file.write(text)
        times = []
        for _ in range(5):
            begun = time.monotonic()
            done = subprocess.run([program, "compat", *paths], capture_output=True)
            times.append(time.monotonic() - begun)
        return min(times), done.returncode, (done.stdout or done.stderr).decode()


def main():
    program = sys.argv[1] if len(sys.argv) > 1 else os.path.join(TOP, "crates/varlink/out/varlink")
    floor, _, _ = seconds(program, "interface a.b", "interface a.b")
    print(f"compat of two empty definitions: {floor * 1000:.1f} ms")
    for shape, n in SHAPES:
        for last in ("v: int", "v: bool"):
            small, _, _ = seconds(program, shape(n // 10), shape(n // 10, last))
            large, status, line = seconds(program, shape(n), shape(n, last))
            print(f"compat {shape.__name__} {n}, {last}: {large:.3f} s, status {status}, {max(len(line.split()) - 5, 0)} words of path, "
                  f"{large / small:.1f} times the time of a tenth, {(large - floor) / max(small - floor, 1e-9):.1f} without the start")


main()
