#!/usr/bin/env python3
"""Measures `session SHEET` of the built program over a pipe.

Usage: bench/sheet_session.py [PROGRAM]     (default: crates/varlink/out/varlink, built by ./varlink)

It prints calls per second of `Add`, and ratios within the run: `Note` on a long list over `Note` on a short one, `Add` of an
interface of many methods over one of few, and what a stream of many items takes of memory.
"""
import json
import os
import subprocess
import sys
import tempfile
import threading
import time

TOP = os.path.dirname(os.path.dirname(os.path.abspath(__file__)))
COUNT = os.path.join(TOP, "examples/count.json")
NAME = "org.example.count"
PIECE = 1 << 16


def call(method, parameters=None, **flags):
    return json.dumps({"method": method, "parameters": parameters or {}, **flags}, separators=(",", ":")).encode() + b"\0"


NOTE = call(NAME + ".Note", {"entry": {"name": "a", "amount": 1}, "tag": "t"})
ADD = call(NAME + ".Add", {"amount": 1})
LIST = call(NAME + ".List", more=True)


class Session:
    """A running session whose replies are counted and dropped."""

    def __init__(self, program, sheet):
        self.child = subprocess.Popen([program, "session", sheet], stdin=subprocess.PIPE, stdout=subprocess.PIPE)

    def run(self, message, count, replies=None):
        """Sends a call so many times, and gives the seconds until all replies are there."""
        piece = message * max(1, PIECE // len(message))
        many, begun = len(piece) // len(message), time.monotonic()
        sender = threading.Thread(target=self.send, args=(piece, count // many, message * (count % many)))
        sender.start()
        wanted = count if replies is None else replies
        while wanted > 0:
            wanted -= self.child.stdout.read1(PIECE).count(b"\0")
        sender.join()
        return time.monotonic() - begun

    def send(self, piece, times, rest):
        for _ in range(times):
            self.child.stdin.write(piece)
        self.child.stdin.write(rest)
        self.child.stdin.flush()

    def peak(self):
        """Peak memory in KiB so far."""
        with open(f"/proc/{self.child.pid}/status", encoding="ascii") as status:
            return next(int(line.split()[1]) for line in status if line.startswith("VmHWM"))

    def end(self):
        self.child.stdin.close()
        self.child.stdout.read()
        if self.child.wait() != 0:
            sys.exit(f"status {self.child.returncode}")


def adds(program):
    session = Session(program, COUNT)
    for count in (100_000, 1_000_000):
        seconds = session.run(ADD, count)
        print(f"Add: {count} calls in {seconds:.2f} s, {count / seconds:.0f} calls per second, peak {session.peak()} KiB")
    session.end()


def notes(program):
    session, took, noted = Session(program, COUNT), [], 0
    for length in (1_000, 1_000_000):
        session.run(NOTE, length - noted)
        took.append(session.run(NOTE, 100_000))
        noted = length + 100_000
        print(f"Note: 100000 calls on a list of {length} and more entries in {took[-1]:.2f} s")
    print(f"  the longer list takes {took[1] / took[0]:.2f} times as long (at most 1.3)")
    for _ in range(2):
        before, seconds = session.peak(), session.run(LIST, 1, noted + 1)
        print(f"List: a stream of {noted} items in {seconds:.2f} s, peak {before} KiB before it and {session.peak()} KiB after it")
    session.end()


def many_methods(count):
    definition = "interface a.b\n" + "".join(f"\nmethod M{k}(amount: int) -> (total: int)\n" for k in range(count))
    rule = {
        "steps": [{"set": "total", "to": {"sum": [{"register": ["total"]}, {"param": ["amount"]}]}}],
        "outcome": {"reply": {"struct": {"total": {"register": ["total"]}}}},
    }
    return json.dumps({
        "sheet": 1, "vendor": "Example", "product": "Many", "version": "1", "url": "https://example.org",
        "interfaces": [definition],
        "registers": [{"name": "total", "scope": "a.b", "type": "int", "initial": 0}],
        "rules": {f"a.b.M{k}": rule for k in range(count)},
    })


def methods(program):
    took = []
    for count in (10, 10_000):
        with tempfile.NamedTemporaryFile("w", suffix=".json") as sheet:
            sheet.write(many_methods(count))
            sheet.flush()
            session = Session(program, sheet.name)
            message = call(f"a.b.M{count // 2}", {"amount": 1})
            session.run(message, 1_000)
            took.append(session.run(message, 300_000))
            session.end()
        print(f"Add of an interface of {count} methods: 300000 calls in {took[-1]:.2f} s")
    print(f"  many methods take {took[1] / took[0]:.2f} times as long (at most 1.3)")


def main():
    program = sys.argv[1] if len(sys.argv) > 1 else os.path.join(TOP, "crates/varlink/out/varlink")
    adds(program)
    notes(program)
    methods(program)


main()
