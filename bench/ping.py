#!/usr/bin/env python3
"""Sends so many lines to `./sheet run`, each after the reply to the one before it, and tells how long that took."""
import pathlib
import subprocess
import sys
import time

rounds = int(sys.argv[1]) if len(sys.argv) > 1 else 50_000
program = pathlib.Path(__file__).resolve().parent.parent / "sheet"
with subprocess.Popen([program, "run"], stdin=subprocess.PIPE, stdout=subprocess.PIPE, bufsize=0) as peer:
    began = time.perf_counter()
    for _ in range(rounds):
        peer.stdin.write(b"get A1\n")
        reply = b""
        while not reply.endswith(b"\n"):
            reply += peer.stdout.read(64)
        assert reply == b"val \n", reply
    took = time.perf_counter() - began
    peer.stdin.close()
print(f"{rounds} lines, one at a time: {took:.2f} s, {took / rounds * 1e6:.1f} us a line")
