#!/usr/bin/env python3
"""A service for the checks of the built program: it says the same whatever it is asked.

Usage: checks/peer.py PATH SAYS..

It listens on a Unix socket at PATH, takes one connection for each SAYS in order, reads a message from it, says SAYS and closes
it. Each message goes to standard output, one a line. `~` stands for NUL.
"""
import os
import socket
import sys


def main():
    path, sayings = sys.argv[1], sys.argv[2:]
    listener = socket.socket(socket.AF_UNIX, socket.SOCK_STREAM)
    listener.settimeout(60)
    listener.bind(path + ".new")
    listener.listen()
    os.rename(path + ".new", path)  # whoever sees the socket is heard
    for says in sayings:
        link, _ = listener.accept()
        link.settimeout(60)
        message = b""
        while not message.endswith(b"\0"):
            piece = link.recv(4096)
            if not piece:
                break
            message += piece
        print(message.replace(b"\0", b"~").decode(), flush=True)
        if says:
            link.sendall(says.encode().replace(b"~", b"\0"))
        link.close()


main()
