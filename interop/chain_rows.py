#!/usr/bin/env python3
"""Makes the rows of chains of headers, and the transcript that they are to have, by Python's integers and hashlib.

    interop/chain_rows.py [--write]

compares crates/ots_chain_rows/stdin and stdout with what this model makes; with --write it writes them. The program is
compared with the same files by `rt ci`. The headers of the long table are mined here, at the easiest target. It runs
nothing of this repository.
"""
import hashlib
import os
import re
import struct
import sys

CRATE = os.path.join(os.path.dirname(os.path.dirname(os.path.abspath(__file__))), "crates", "ots_chain_rows")

GENESIS = bytes.fromhex("01000000" + "00" * 32 + "3ba3edfd7a7b12b27ac72c3e67768f617fc81bc3888a51323a9fb8aa4b1e5e4a"
                        "29ab5f49ffff001d1dac2b7c")
NEXT = bytes.fromhex("010000006fe28c0ab6f1b372c1a6a246ae63f74f931e8365e15a089c68d6190000000000982051fd1e4ba744bbbe680e"
                     "1fee14677ba1a3c3540bf7b1cdb606e857233e0e61bc6649ffff001d01e36299")
EASY = 0x207fffff
BITS = [0x1d00ffff, 0x2100ffff, 0x02008000, 0x21010000, 0x20800001, 0x01000001, 0x00000000, 0x207fffff, 0x00ffffff,
        0x007fffff, 0x00000001, 0x01010000, 0x0100ffff, 0x017fffff, 0x01800000, 0x02000100, 0x020000ff, 0x027fffff,
        0x03000001, 0x037fffff, 0x03000000, 0x03800001, 0x04000001, 0x047fffff, 0x05009234, 0x1b0404cb, 0x1c7fff00,
        0x1e7fffff, 0x1f00ffff, 0x20000001, 0x20800000, 0x21000001, 0x217fffff, 0x2100ff00, 0x22000001, 0x220000ff,
        0x22000100, 0x227fffff, 0x23000001, 0x237fffff, 0x23000000, 0xff000001, 0xff7fffff, 0x01123456, 0x02123456,
        0x03123456, 0x04123456, 0x05123456]


def target(bits):
    """The number that compact bits stand for, or None where they stand for no target."""
    power, digits = bits >> 24, bits % 2 ** 23
    number = digits * 256 ** (power - 3) if power >= 3 else digits // 256 ** (3 - power)
    return number if not bits >> 23 & 1 and 0 < number < 2 ** 256 else None


def hash_of(header):
    return hashlib.sha256(hashlib.sha256(header).digest()).digest()


def check(first, headers):
    before = None
    for height, header in enumerate(headers, first):
        most = target(struct.unpack_from("<I", header, 72)[0])
        if before is not None and header[4:36] != hash_of(before):
            return f"broken at {height}: bad link"
        if most is None:
            return f"broken at {height}: bad bits"
        if int.from_bytes(hash_of(header), "little") > most:
            return f"broken at {height}: above target"
        before = header
    return f"whole {first} to {first + len(headers) - 1} tip {hash_of(before)[::-1].hex()}"


def mined(before, number, bits):
    """A header that meets the target, after another."""
    root = hashlib.sha256(b"root %d" % number).digest()
    for nonce in range(1 << 32):
        header = struct.pack("<I32s32sIII", 2, hash_of(before) if before else bytes(32), root, 1231006505 + number, bits, nonce)
        if int.from_bytes(hash_of(header), "little") <= target(bits):
            return header


def changed(header, place, bit):
    header = bytearray(header)
    header[place] ^= 1 << bit
    return bytes(header)


def read_pins(data):
    """The pins of a file's bytes, or the number of the first line that is none."""
    pins = []
    while data or not pins:
        line, end, data = data.partition(b"\n")
        found = re.fullmatch(rb"(0|[1-9][0-9]*) ([0-9a-f]{64})", line)
        if not end or len(pins) == 1024 or not found or int(found[1]) >= 2 ** 63:
            return len(pins) + 1
        pins.append((int(found[1]), bytes.fromhex(found[2].decode())[::-1]))
    return pins


def pins_answer(data):
    pins = read_pins(data)
    if isinstance(pins, int):
        return f"bad pins line {pins}"
    return f"pins {len(pins)} last {pins[-1][0]} {pins[-1][1].hex()}"


def failing(first, headers, pins):
    for height, wanted in pins:
        if not first <= height < first + len(headers) or hash_of(headers[height - first]) != wanted:
            return f"pin fails {height}"
    return "held"


ROWS, TOLD = [], []


def row(line, answer=None):
    ROWS.append(line)
    if not line.startswith("header "):
        TOLD.append(line)
    if answer is not None:
        TOLD.append(answer)


def table(first, headers):
    row(f"table {first}")
    for header in headers:
        row("header " + header.hex())
    row("check", check(first, headers) if headers else "no table")


def pins(lines, more=b""):
    """A file of these lines, each a text or a count and a text, and of more bytes after them."""
    row("pins")
    data = b""
    for line in lines:
        count, text = line if isinstance(line, tuple) else (1, line)
        row(f"line {count} {text}")
        data += (text.encode() + b"\n") * count
    if more:
        row("bytes " + more.hex())
    return data + more


def read(lines, more=b""):
    row("read", pins_answer(pins(lines, more)))


def pin(height, header):
    return f"{height} {hash_of(header)[::-1].hex()}"


def pin_rows():
    good = pin(0, GENESIS)
    hash_text = good[2:]
    row("# pins: a file of no line, of one and of two, and one whose last line has no line feed")
    read([])
    read([good])
    read([good, pin(1, NEXT)])
    read([], good.encode())
    read([good], good.encode())
    read([good], b"0")
    read([good], b"\n")
    row("# heights: the greatest, and one more; with a leading zero, a sign, none, and past 64 bits")
    for height in (2 ** 63 - 1, 2 ** 63, "00", "01", "+1", "-0", "", 2 ** 64, 10 ** 19, "1a", "\u0661"):
        read([f"{height} {hash_text}"])
    row("# hashes: an upper-case digit, one digit fewer and more, no digit, and what stands around them")
    for text in (hash_text.upper(), hash_text[:-1] + "F", hash_text[1:], hash_text + "0", hash_text[:-1] + "g", "",
                 hash_text + " ", " " + hash_text):
        read([f"0 {text}"])
    read(["", good])
    read([hash_text])
    read([good.replace(" ", "\t")])
    read([], good.encode() + b"\r\n")
    read([], (good + "\r\n").encode() * 2)
    read([good], b"\r\n")
    read([], b"\xff " + hash_text.encode() + b"\n")
    row("# the line that is told is the first bad one")
    read([good, good, "0", good, ""])
    read([(1023, good), "1 " + hash_text.upper(), good])
    row("# 1,024 lines, of which the last read begins within one, and one more line or byte")
    longest = f"{2 ** 63 - 1} {hash_text}"
    read([(1024, good)])
    read([(1024, longest)])
    read([(1025, good)])
    read([(1024, longest), good])
    read([(1024, good)], b"0")
    read([(2000, good)])
    row("# a line that does not end, as long as the longest one and longer")
    read([], longest.encode())
    read([], longest.encode() + b"0")
    read([good], b"0" * 1000)
    row("# a read that fails, the first one, the one that would find the end, and one of a long file")
    for lines, number in (([good], 1), ([good], 2), ([(1024, longest)], 2), ([(1024, longest)], 3), ([good], 3)):
        data = pins(lines)
        row(f"read {number}", "read fault" if number <= len(data) // 65536 + 2 else pins_answer(data))
    row("# a failed read is not told where a bad line came before it")
    pins(["0"])
    row("read 2", "bad pins line 1")
    row("# pins within the table, above it and below it, of another header, and not turned round")
    for first, headers in ((0, [GENESIS, NEXT]), (1, [NEXT])):
        table(first, headers)
        for lines in ([good], [pin(1, NEXT)], [pin(1, NEXT), good], [pin(2, NEXT)], [pin(1, GENESIS)],
                      [pin(1, NEXT), pin(2, NEXT), pin(0, NEXT)], ["0 " + hash_of(GENESIS).hex()],
                      ["1 " + hash_of(NEXT).hex()], [f"{2 ** 63 - 1} {hash_text}"], [(1023, pin(1, NEXT)), good]):
            row("compare", failing(first, headers, read_pins(pins(lines))))
    pins([])
    row("compare", "no table or no pins")


def rows():
    row("# targets: three of the public examples, and each power from 0 to 35 that matters, with digits at their edges")
    for bits in BITS:
        number = target(bits)
        row(f"target {bits:08x}", "none" if number is None else number.to_bytes(32, "big").hex())
    row("# the first two headers of Bitcoin")
    table(0, [GENESIS, NEXT])
    table(0, [GENESIS])
    table(1, [NEXT])
    table(2 ** 63 - 1, [GENESIS])
    row("# a header after itself is not linked")
    table(0, [GENESIS, GENESIS])
    row("# one with the bits of the smallest target is above it")
    table(0, [GENESIS[:72] + bytes.fromhex("01000003") + GENESIS[76:]])
    row("# no headers are no table, nor is a header that is cut")
    table(0, [])
    row("table 0")
    row("header " + GENESIS[:79].hex())
    row("check", "no table")
    row("# where a header is neither linked nor has a target, the link is told; where it has none, the bits")
    table(5, [NEXT, changed(GENESIS, 75, 7)])
    table(5, [GENESIS, changed(NEXT, 74, 7)])
    table(5, [changed(NEXT, 74, 7)])
    row("# a chain of 2,000 headers, and one bit changed in each field of a header in the middle")
    chain = []
    for number in range(2000):
        chain.append(mined(chain[-1] if chain else None, number, EASY))
    table(1000, chain)
    for place in (0, 4, 35, 36, 67, 68, 72, 74, 75, 76, 79):
        row(f"change 1000 {place} 3")
        row("check", check(1000, chain[:1000] + [changed(chain[1000], place, 3)] + chain[1001:]))
        row(f"change 1000 {place} 3")
    row("check", check(1000, chain))
    pin_rows()


def main():
    rows()
    made = {"stdin": "".join(line + "\n" for line in ROWS), "stdout": "".join(line + "\n" for line in TOLD)}
    status = 0
    for name, text in made.items():
        path = f"{CRATE}/{name}"
        if sys.argv[1:] == ["--write"]:
            with open(path, "w") as file:
                file.write(text)
            continue
        with open(path) as file:
            if file.read() != text:
                print(f"{name} is not what this model makes")
                status = 1
    sys.exit(status)


main()
