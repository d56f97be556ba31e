#!/usr/bin/env python3
"""Tests that the worked block of docs/TRACE.md is what `record` makes of its two events, and that `replay` reads it.

The bytes are taken from the page, the check is summed up here, and what the replay has to write is worked out by hand: the grant
writes VALID into an empty window, and nothing runs that could send.

Usage: trace.py RECORD REPLAY   (the programs)
"""
import pathlib
import re
import subprocess
import sys
import tempfile
import zlib

PAGE = pathlib.Path(__file__).resolve().parent.parent / 'docs' / 'TRACE.md'
SCRIPT = 'new 20000000 4096\ngrant 20000010\nsend 1518\n'
# the packet status word of the descriptor at 20000010 lies 1C hex bytes behind the window's start
GRANTED = bytes(0x1e) + b'\x01' + bytes(4096 - 0x1f)


def worked_block():
    """The 512 bytes that the page lists: an offset, then pairs of digits, `00 .. 00` for zeros up to the next offset."""
    part = PAGE.read_text().split('## A worked block')[1].split('## ')[0]
    block = bytearray(512)
    for offset, pairs in re.findall(r'^ +(\d+)  ((?:[0-9a-f]{2} )+)', part, re.M):
        data = bytes.fromhex(pairs)
        block[int(offset):int(offset) + len(data)] = data
    return bytes(block)


def run(program, *arguments, stdin=''):
    return subprocess.run([program, *arguments], input=stdin, capture_output=True, text=True, check=True).stdout


def main():
    if len(sys.argv) != 3:
        print('usage: trace.py RECORD REPLAY', file=sys.stderr)
        return 2
    block = worked_block()
    check = sum(byte * (position + 1) for position, byte in enumerate(block[:508])) % 65521
    failures = []
    if block[508:] != check.to_bytes(4, 'little'):
        failures.append(f'the page has another check than {check}')
    with tempfile.TemporaryDirectory() as folder:
        trace, memory = pathlib.Path(folder) / 'trace', pathlib.Path(folder) / 'memory'
        said = run(sys.argv[1], trace, memory, stdin=SCRIPT)
        if said != 'recorded 2 1\n':
            failures.append(f'record says {said!r}')
        if trace.read_bytes() != block:
            failures.append('record makes another block than the page has')
        if memory.read_bytes() != bytes(4096):
            failures.append('the image is not all zero')
        said = run(sys.argv[2], trace, memory)
        wanted = (f'window 20000000 4096\ngrant 0\nsend 3 -\nstate 0 00000000 0 00000000\n'
                  f'check {zlib.crc32(GRANTED):08x}\n')
        if said != wanted:
            failures.append(f'replay says {said!r}, not {wanted!r}')
    for failure in failures:
        print(f'trace.py: {failure}')
    if not failures:
        print('the worked block of docs/TRACE.md is recorded and replayed')
    return 1 if failures else 0


if __name__ == '__main__':
    sys.exit(main())
