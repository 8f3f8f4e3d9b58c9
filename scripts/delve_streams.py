#!/usr/bin/env python3
"""Delve's debug adapter over standard input and output: `dlv dap` itself listens for one client on a port.

    scripts/delve_streams.py
"""
import os
import socket
import subprocess
import sys
import threading


def pump(read, write, done):
    while part := read(65536):
        write(part)
    done()


def main():
    words = ["dlv", "dap", "--listen=127.0.0.1:0", "--check-go-version=false"]
    child = subprocess.Popen(words, stdin=subprocess.DEVNULL, stdout=subprocess.PIPE)
    # The line that says where it listens; what comes behind it is the program's.
    line = child.stdout.readline().decode()
    threading.Thread(target=child.stdout.read, daemon=True).start()
    with socket.create_connection(("127.0.0.1", int(line.rpartition(":")[2])), 30) as peer:
        peer.settimeout(None)
        ours = (lambda size: os.read(0, size)), peer.sendall, (lambda: peer.shutdown(socket.SHUT_WR))
        threading.Thread(target=pump, args=ours, daemon=True).start()
        pump(peer.recv, lambda part: os.write(1, part), lambda: None)
    child.kill()
    return child.wait()


if __name__ == "__main__":
    main()
    sys.stdout.flush()
    os._exit(0)
