#!/usr/bin/env python3
"""Measures `serve` of the built program over Unix sockets.

Usage: bench/serving.py [PROGRAM [CALLS]]     (default: crates/varlink/out/varlink, built by ./varlink, and 200,000 calls a run)

It prints one table: calls a second of `Add` on 1, 4, 16 and 64 connections, with as many workers, in turn (a call, then its reply)
and with 64 calls under way on each; what a call costs with 10 methods and with 10,000 in the sheet; and the resident memory of the
program at its start, with 64 idle connections, and after five times CALLS calls whose history is kept, and is not. Beside each
speed stand the 50th and the 99th percentile of the time of a call, those of an echo of the same bytes on the same machine, with
a thread for each connection, and how busy the caller was: near 100 % it is the caller that is measured. Of three runs the
fastest is told. A program is started anew for each row, since a history that is kept is limited.

It needs a C compiler as `cc` (Debian: gcc) and /proc, and builds bench/load.c and bench/echo.c in a temporary folder. Where
something is missing it says so, and ends with status 2.
"""
import json
import os
import shutil
import socket
import subprocess
import sys
import tempfile
import time

TOP = os.path.dirname(os.path.dirname(os.path.abspath(__file__)))
COUNT = os.path.join(TOP, "examples/count.json")
ADD = '{"method":"org.example.count.Add","parameters":{"amount":1}}'
WORK = "org.example.work"
UNDER_WAY = 64
FEW, MANY = 10, 10_000
WIDTHS = (54, 11, 9, 9, 11, 9, 9, 9, 8)


def missing(what):
    print(f"bench/serving.py: {what}", file=sys.stderr)
    sys.exit(2)


def build(folder, name):
    done = subprocess.run(["cc", "-O2", "-pthread", "-o", os.path.join(folder, name), os.path.join(TOP, "bench", name + ".c")])
    if done.returncode:
        missing(f"bench/{name}.c does not compile: gcc and the headers of the C library are needed (Debian: gcc, libc6-dev).")
    return os.path.join(folder, name)


def work_sheet(count):
    """A sheet of so many methods M1, M2, .., each of which adds to one register: the text of `work_sample`."""
    rule = {
        "steps": [{"set": "total", "to": {"sum": [{"register": ["total"]}, {"param": ["a"]}]}}],
        "outcome": {"reply": {"struct": {"b": {"register": ["total"]}}}},
    }
    methods = range(1, count + 1)
    return json.dumps({
        "sheet": 1, "vendor": "Example", "product": "Work", "version": "1", "url": "https://example.org",
        "interfaces": [f"interface {WORK}" + "".join(f"\n\nmethod M{k}(a: int) -> (b: int)" for k in methods) + "\n"],
        "registers": [{"name": "total", "scope": WORK, "type": "int", "initial": 0}],
        "rules": {f"{WORK}.M{k}": rule for k in methods},
    }, sort_keys=True, separators=(",", ":"))


class Server:
    """A running server at a socket of its own."""

    def __init__(self, folder, words):
        self.path = os.path.join(folder, "s")
        self.child = subprocess.Popen([word.replace("PATH", self.path) for word in words], stdout=subprocess.DEVNULL)
        for _ in range(2000):
            if self.child.poll() is not None:
                sys.exit(f"bench/serving.py: {words[0]} ended with {self.child.returncode}")
            try:
                with socket.socket(socket.AF_UNIX) as link:
                    link.connect(self.path)
                return
            except OSError:
                time.sleep(0.01)
        self.end()
        sys.exit(f"bench/serving.py: {words[0]} does not listen")

    def size(self):
        """Its resident memory in KiB."""
        with open(f"/proc/{self.child.pid}/status", encoding="ascii") as status:
            return next(int(line.split()[1]) for line in status if line.startswith("VmRSS"))

    def end(self):
        self.child.kill()
        self.child.wait()
        if os.path.exists(self.path):
            os.unlink(self.path)


class Bench:
    def __init__(self, program, calls, folder):
        self.program, self.calls, self.folder = program, calls, folder
        self.load, self.echo = build(folder, "load"), build(folder, "echo")

    def serve(self, sheet, workers, *options):
        return Server(self.folder, [self.program, "serve", "unix:PATH", sheet, "--workers", str(workers), *options])

    def run(self, server, links, under_way, calls, message):
        """Calls a second, the 50th and the 99th percentile in microseconds, and how busy the caller was, of one run."""
        words = [self.load, server.path, str(links), str(under_way), str(calls), message]
        done = subprocess.run(words, capture_output=True, text=True)
        if done.returncode:
            server.end()
            sys.exit(f"bench/serving.py: {links} connections, {under_way} under way: {done.stderr.strip()}")
        return tuple(float(number) for number in done.stdout.split())

    def fastest(self, server, links, under_way, message):
        try:
            return max(self.run(server, links, under_way, self.calls, message) for _ in range(3))
        finally:
            server.end()

    def speed(self, name, links, under_way, sheet=COUNT, message=ADD):
        """A row of speeds, beside those of the echo. Gives the calls a second."""
        ours = self.fastest(self.serve(sheet, links, "--forget"), links, under_way, message)
        floor = self.fastest(Server(self.folder, [self.echo, "PATH"]), links, under_way, message)
        row(name, f"{ours[0]:.0f}", f"{ours[1]:.1f}", f"{ours[2]:.1f}", f"{floor[0]:.0f}", f"{floor[1]:.1f}", f"{floor[2]:.1f}",
            f"{100 * ours[0] / floor[0]:.0f} %", f"{ours[3]:.0f} %")
        return ours[0]

    def connections(self):
        for links in (1, 4, 16, 64):
            for under_way, name in ((1, "in turn"), (UNDER_WAY, f"{UNDER_WAY} under way")):
                self.speed(f"{links} connection{'s' * (links > 1)}, {name}, calls/s", links, under_way)

    def methods(self):
        """Of sheets with few methods and with many."""
        costs = []
        for count in (FEW, MANY):
            sheet = os.path.join(self.folder, f"{count}.json")
            with open(sheet, "w", encoding="ascii") as file:
                file.write(work_sheet(count))
            message = json.dumps({"method": f"{WORK}.M{count // 2}", "parameters": {"a": 1}}, separators=(",", ":"))
            costs.append(1e6 / self.speed(f"{count} methods, {UNDER_WAY} under way, calls/s", 1, UNDER_WAY, sheet, message))
            row(f"{count} methods, microseconds a call", f"{costs[-1]:.2f}")
        row(f"{MANY} methods over {FEW}, times", f"{costs[1] / costs[0]:.2f}")

    def idle(self):
        server = self.serve(COUNT, 64, "--forget")
        row("memory at the start, 64 workers, KiB", server.size())
        words = [self.load, server.path, "64", "1", "0", ADD]
        with subprocess.Popen(words, stdin=subprocess.PIPE, stdout=subprocess.PIPE, text=True) as load:
            if load.stdout.readline() != "open\n":
                server.end()
                sys.exit("bench/serving.py: 64 connections cannot be opened")
            time.sleep(0.5)  # until each has its worker
            row("memory with 64 idle connections, KiB", server.size())
            load.stdin.close()
        server.end()

    def history(self):
        many = 5 * self.calls
        for name, options in (("is not kept", ["--forget"]), ("is kept", [])):
            server = self.serve(COUNT, 4, *options)
            self.run(server, 4, UNDER_WAY, many, ADD)
            row(f"memory after {many} calls, history {name}, KiB", server.size())
            server.end()


def row(name, *cells):
    print("".join([name.ljust(WIDTHS[0])] + [str(cell).rjust(width) for cell, width in zip(cells, WIDTHS[1:])]), flush=True)


def main():
    program = sys.argv[1] if len(sys.argv) > 1 else os.path.join(TOP, "crates/varlink/out/varlink")
    calls = int(sys.argv[2]) if len(sys.argv) > 2 else 200_000
    if not os.access(program, os.X_OK):
        missing(f"{program} is not built: run ./varlink first.")
    if shutil.which("cc") is None:
        missing("a C compiler is needed as cc (Debian: gcc).")
    if not os.path.exists("/proc/self/status"):
        missing("/proc is needed to tell how much memory a program has.")
    with tempfile.TemporaryDirectory() as folder:
        bench = Bench(program, calls, folder)
        row("", "varlink", "p50 us", "p99 us", "echo", "p50 us", "p99 us", "of echo", "caller")
        bench.connections()
        bench.methods()
        bench.idle()
        bench.history()


main()
