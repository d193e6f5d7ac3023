#!/usr/bin/env python3
"""Writes a chain of headers with an easy target to its output: `mined.py COUNT`. The bits are 207fffff, which about
every second hash meets."""
import hashlib
import sys

BITS = bytes.fromhex("ffff7f20")


def double(data):
    return hashlib.sha256(hashlib.sha256(data).digest()).digest()


def main():
    previous = bytes(32)
    out = sys.stdout.buffer
    for height in range(int(sys.argv[1])):
        root = height.to_bytes(32, "little")
        head = (1).to_bytes(4, "little") + previous + root + height.to_bytes(4, "little") + BITS
        nonce = 0
        while True:
            header = head + nonce.to_bytes(4, "little")
            hashed = double(header)
            if hashed[31] < 0x80:
                break
            nonce += 1
        out.write(header)
        previous = hashed


main()
