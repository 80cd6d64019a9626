#!/usr/bin/env python3
"""Measures `sheet` of the built program on large sheets.

Usage: bench/sheets.py [PROGRAM]     (default: crates/varlink/out/varlink, built by ./varlink)

Each shape is made at two sizes, one ten times the other; the ratio of their times is printed, with megabytes per
second. Each sheet is accepted.
"""
import json
import os
import subprocess
import sys
import tempfile
import time

TOP = os.path.dirname(os.path.dirname(os.path.abspath(__file__)))
REPLY = {"reply": {"struct": {"b": {"register": ["total"]}}}}
ADD = {"steps": [{"set": "total", "to": {"sum": [{"register": ["total"]}, {"param": ["a"]}]}}], "outcome": REPLY}
TOTAL = {"name": "total", "scope": "a.b", "type": "int", "initial": 0}


def sheet(definitions, registers, rules):
    return json.dumps({"sheet": 1, "vendor": "Example", "product": "Large", "version": "1", "url": "https://example.org",
                       "interfaces": definitions, "registers": registers, "rules": rules}, separators=(",", ":"))


def methods(n):
    return "interface a.b\n" + "".join(f"\nmethod M{k}(a: int) -> (b: int)\n" for k in range(n))


def rules(n):
    return sheet([methods(n)], [TOTAL], {f"a.b.M{k}": ADD for k in range(n)})


def errors(n):
    definition = methods(1) + "".join(f"\nerror E{k} ()\n" for k in range(n))
    refuse = [{"need": {"less": [{"param": ["a"]}, {"const": k}]}, "else": f"E{k}", "with": {"struct": {}}} for k in range(n)]
    return sheet([definition], [TOTAL], {"a.b.M0": {"guards": refuse, "outcome": REPLY}})


def registers(n):
    return sheet([methods(1)], [TOTAL] + [{**TOTAL, "name": f"r{k}"} for k in range(n)], {})


def interfaces(n):
    return sheet([f"interface a.b{k}\n" for k in range(n)], [], {})


def deep_types(n):
    deep = "(x: " * 64 + "int" + ")" * 64
    return sheet([methods(1)], [{"name": f"r{k}", "scope": "a.b", "type": "?" + deep, "initial": None} for k in range(n)], {})


def items(n):
    many = {"name": "many", "scope": "a.b", "type": "[]int", "initial": []}
    step = {"set": "many", "to": {"list": [{"const": 1}] * n}}
    return sheet([methods(1)], [TOTAL, many], {"a.b.M0": {"steps": [step], "outcome": REPLY}})


def constant(n):
    text = {"name": "text", "scope": "a.b", "type": "string", "initial": ""}
    step = {"set": "text", "to": {"const": "x" * n}}
    return sheet([methods(1)], [TOTAL, text], {"a.b.M0": {"steps": [step], "outcome": REPLY}})


SHAPES = [
    (rules, 10_000), (errors, 10_000), (registers, 10_000), (interfaces, 10_000), (deep_types, 2_000), (items, 100_000), (constant, 1_048_576),
]


def seconds(program, text):
    with tempfile.NamedTemporaryFile("w", suffix=".json") as file:
        file.write(text)
        file.flush()
        begun = time.monotonic()
        done = subprocess.run([program, "sheet", file.name], capture_output=True)
        return time.monotonic() - begun, done.returncode, done.stderr


def main():
    program = sys.argv[1] if len(sys.argv) > 1 else os.path.join(TOP, "crates/varlink/out/varlink")
    for shape, n in SHAPES:
        small, _, _ = seconds(program, shape(n // 10))
        text = shape(n)
        large, status, line = seconds(program, text)
        print(f"sheet {shape.__name__} {n}: {len(text)} bytes in {large:.3f} s, {len(text) / large / 1e6:.1f} MB/s, "
              f"status {status} {line.decode()[:60].strip()}, {large / small:.1f} times the time of a tenth")


main()
