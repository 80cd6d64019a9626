#!/usr/bin/env python3
"""Measures `session` of the built program: calls and bytes per second, and peak memory.

Usage: bench/session.py [PROGRAM]     (default: crates/varlink/out/varlink, built by ./varlink)

It prints the figures of one run and the ratios within it: how much longer ten times the calls take,
and how much more memory they need.
"""
import os
import shutil
import subprocess
import sys
import tempfile
import time

TOP = os.path.dirname(os.path.dirname(os.path.abspath(__file__)))
CALL = b'{"method":"org.varlink.service.GetInfo"}'


def seconds_of(program, given):
    given.seek(0)
    begun = time.monotonic()
    with open(os.devnull, "wb") as nowhere:
        done = subprocess.run([program, "session"], stdin=given, stdout=nowhere)
    if done.returncode != 0:
        sys.exit(f"status {done.returncode}")
    return time.monotonic() - begun


def peak_of(program, given):
    """The program's peak memory in KiB, read once it has handled all and waits for more."""
    given.seek(0)
    with open(os.devnull, "wb") as nowhere:
        child = subprocess.Popen([program, "session"], stdin=subprocess.PIPE, stdout=nowhere)
        shutil.copyfileobj(given, child.stdin)
        child.stdin.flush()
        time.sleep(0.3)
        with open(f"/proc/{child.pid}/status", encoding="ascii") as status:
            peak = next(int(line.split()[1]) for line in status if line.startswith("VmHWM"))
        child.stdin.close()
        child.wait()
    return peak


def measure(program, name, pieces):
    """Seconds and peak memory in KiB of one session over these bytes."""
    with tempfile.TemporaryFile() as given:
        size = sum(given.write(piece) for piece in pieces)
        seconds, peak = seconds_of(program, given), peak_of(program, given)
    print(f"{name}: {size} bytes in {seconds:.3f} s, {size / seconds / 1e6:.1f} MB/s, peak {peak} KiB")
    return seconds, peak


def calls(program, count):
    chunk = (CALL + b"\0") * 1000
    seconds, peak = measure(program, f"{count} calls", (chunk for _ in range(count // 1000)))
    print(f"  {count / seconds:.0f} calls per second")
    return seconds, peak


def main():
    program = sys.argv[1] if len(sys.argv) > 1 else os.path.join(TOP, "crates/varlink/out/varlink")
    _, least = calls(program, 10_000)
    few, _ = calls(program, 100_000)
    many, most = calls(program, 1_000_000)
    padded = CALL + b" " * (1_048_576 - len(CALL)) + b"\0"
    measure(program, "one call padded to 1048576 bytes", [padded])
    measure(program, "100 such calls", (padded for _ in range(100)))
    print(f"ten times the calls take {many / few:.2f} times as long (at most 12)")
    print(f"a million calls need {most / least:.2f} times the memory of ten thousand (at most 1.2)")


main()
