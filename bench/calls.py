#!/usr/bin/env python3
"""Measures `call` of the built program over a Unix socket.

Usage: bench/calls.py [PROGRAM]     (default: crates/varlink/out/varlink, built by ./varlink)

A service of the bench's own streams replies to one call. It prints how long `call --more` takes to pass on 100,000 and a
million of them, how long a plain copy of the same bytes from the same socket to the same place takes, the ratio, the peak
memory of each run, and what one call of one reply costs from start to end. With `--typed` the replies are read before. What
a run of no replies takes, which is mostly the start of a program, is taken off each time. Of seven runs the fastest is told.

It needs a C compiler as `cc` (Debian: gcc), and builds bench/copy.c in a temporary folder. Where there is none it says so, and
ends with status 2.
"""
import os
import shutil
import socket
import subprocess
import sys
import tempfile
import threading
import time

TOP = os.path.dirname(os.path.dirname(os.path.abspath(__file__)))
DEFINITION = b'{"parameters":{"description":"interface a.b method List() -> (done: bool, name: ?string)"}}\0'
REPLY = b'{"continues":true,"parameters":{"done":false,"name":"an entry"}}\0'
LAST = b'{"parameters":{"done":true}}\0'
RUNS = 7


def serve(path, many):
    """Serves one connection: the definition to the first of two messages, and the stream to the last."""
    listener = socket.socket(socket.AF_UNIX)
    listener.bind(path)
    listener.listen()
    blob = REPLY * 1000

    def run():
        link, _ = listener.accept()
        held = b""
        while b"\0" not in held:
            held += link.recv(4096)
        if b"GetInterfaceDescription" in held:
            link.sendall(DEFINITION)
            while held.count(b"\0") < 2:
                held += link.recv(4096)
        try:
            for _ in range(many // 1000):
                link.sendall(blob)
            link.sendall(LAST)
        except BrokenPipeError:
            pass
        link.close()
        listener.close()

    thread = threading.Thread(target=run)
    thread.start()
    return thread


def timed(words, path, many, out):
    thread = serve(path, many)
    begun = time.monotonic()
    child = subprocess.Popen(words, stdout=out)
    peak = [0]
    watch = threading.Thread(target=watched, args=(child.pid, peak))
    watch.start()
    status = child.wait()
    took = time.monotonic() - begun
    watch.join()
    thread.join()
    os.unlink(path)
    if status:
        sys.exit(f"bench/calls.py: {words[0]} ended with {status}")
    return took, peak[0]


def watched(pid, peak):
    """Keeps the greatest resident size that the program has had, as long as it runs."""
    while True:
        try:
            with open(f"/proc/{pid}/status") as status:
                sizes = [line for line in status if line.startswith("VmHWM")]
        except OSError:
            return
        if not sizes:
            return
        peak[0] = max(peak[0], int(sizes[0].split()[1]))
        time.sleep(0.005)


def least(words, path, many, out):
    """The least time of seven runs, and the greatest size."""
    runs = [timed(words, path, many, out) for _ in range(RUNS)]
    return min(run[0] for run in runs), max(run[1] for run in runs)


def built(folder):
    """The program that copies, built there."""
    copy = os.path.join(folder, "copy")
    if shutil.which("cc") is None or subprocess.run(["cc", "-O2", "-o", copy, os.path.join(TOP, "bench", "copy.c")]).returncode:
        print("bench/calls.py: a C compiler is needed as cc (Debian: gcc).", file=sys.stderr)
        sys.exit(2)
    return copy


def main():
    program = sys.argv[1] if len(sys.argv) > 1 else os.path.join(TOP, "crates/varlink/out/varlink")
    with tempfile.TemporaryDirectory() as folder:
        path = os.path.join(folder, "s")
        call = [program, "call", "--at", "unix:" + path]
        copy = [built(folder), path]
        plain = [*call, "--more", "a.b.List"]
        typed = [*call, "--typed", "--more", "a.b.List"]
        with open(os.path.join(folder, "out"), "wb") as out:
            starts = [least(words, path, 0, out)[0] for words in (copy, plain, typed)]
        for many in (100_000, 1_000_000):
            runs = []
            for words, start in zip((copy, plain, typed), starts):
                with open(os.path.join(folder, "out"), "wb") as out:
                    took, peak = least(words, path, many, out)
                runs.append((took - start, peak))
            with open(os.path.join(folder, "out"), "rb") as out:
                lines = out.read().count(b"\n")
            assert lines == RUNS * (many + 1), lines
            print(f"{many} replies: copy {runs[0][0]:.3f} s, " + ", ".join(
                f"{name} {took:.3f} s ({took / runs[0][0]:.1f} times, peak {peak} KiB)"
                for name, (took, peak) in zip(("call", "typed"), runs[1:])))
        begun, times = time.monotonic(), 50
        for _ in range(times):
            timed([*call, "a.b.List"], path, 0, subprocess.DEVNULL)
        print(f"one call of one reply: {(time.monotonic() - begun) / times * 1000:.1f} ms from start to end")


main()
