#!/usr/bin/env python3
"""Counts the writes with which the built program answers calls that came in one piece.

Usage: checks/writes.py PROGRAM

Standard output is a socket that keeps each write apart. A hundred calls that come in one piece are answered by one write, and
two calls that come one after the other by two.
"""
import json
import os
import socket
import subprocess
import sys

CALL = b'{"method":"org.varlink.service.GetInfo"}\0'


def writes(program, pieces):
    """The writes that answer these pieces, each of which is sent once the replies to the one before are there."""
    ours, theirs = socket.socketpair(socket.AF_UNIX, socket.SOCK_SEQPACKET)
    ours.settimeout(20)
    ours.setsockopt(socket.SOL_SOCKET, socket.SO_RCVBUF, 1 << 20)
    child = subprocess.Popen([program, "session"], stdin=subprocess.PIPE, stdout=theirs)
    theirs.close()
    found = []
    try:
        for piece in pieces:
            os.write(child.stdin.fileno(), piece)
            left = piece.count(b"\0")
            while left > 0:
                found.append(ours.recv(1 << 20))
                left -= found[-1].count(b"\0")
                if not found[-1]:
                    break
    except socket.timeout:
        pass
    child.stdin.close()
    child.wait(20)
    return found


def main():
    program = os.path.abspath(sys.argv[1])
    wanted = [("a hundred calls in one piece", [CALL * 100], 1, 100), ("two calls, one after the other", [CALL, CALL], 2, 2)]
    failed = 0
    for name, pieces, count, replies in wanted:
        found = writes(program, pieces)
        texts = b"".join(found).split(b"\0")[:-1]
        right = len(found) == count and len(texts) == replies and all("parameters" in json.loads(text) for text in texts)
        if not right:
            failed += 1
            print(f"checks/writes.py: {name}: {len(found)} writes and {len(texts)} replies, wanted {count} and {replies}")
    print(f"writes: {len(wanted) - failed} passed, {failed} failed")
    sys.exit(failed > 0)


main()
