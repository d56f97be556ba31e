#!/usr/bin/env python3
"""Runs the program verdict on frames and compares its whole output.

Usage: verdict.py PROGRAM
"""
import subprocess
import sys
import time

import frames

CASES = [
    ('empty input', b'', 0, 4),
    ('good frame of 64', frames.frame(64), 64, 0),
    ('good frame of 65', frames.frame(65), 65, 0),
    ('good frame of 1,000', frames.frame(1000), 1000, 0),
    ('good frame of 1,517', frames.frame(1517), 1517, 0),
    ('good frame of 1,518', frames.frame(1518), 1518, 0),
    ('3 bytes', b'\x02\x00\x00', 3, 4),
    ('63 bytes, right check', frames.frame(63), 63, 4),
    ('63 bytes, wrong check', frames.flipped(frames.frame(63), 0), 63, 4),
    ('1,519 bytes, right check', frames.frame(1519), 1519, 4),
    ('1,520 bytes', frames.frame(1520), 1519, 4),
    ('100,000 bytes', frames.frame(100000), 1519, 4),
    ('first bit wrong', frames.flipped(frames.frame(64), 0), 64, 5),
    ('last bit of the message wrong', frames.flipped(frames.frame(64), 479), 64, 5),
    ('last bit of the check wrong', frames.flipped(frames.frame(64), 511), 64, 5),
    ('check of the other byte order', frames.frame(64)[:60] + frames.frame(64)[:59:-1], 64, 5),
    ('check not complemented', frames.frame(64)[:60] + bytes(b ^ 255 for b in frames.frame(64)[60:]), 64, 5),
    ('64 zero bytes', bytes(64), 64, 5),
    ('wrong check and another station', frames.flipped(frames.frame(64, frames.OTHER), 100), 64, 5),
    ('another station', frames.frame(64, frames.OTHER), 64, 6),
    ('the station backwards', frames.frame(64, frames.REVERSED), 64, 6),
    ('FF FF FF FF FF FE', frames.frame(64, frames.NEARLY_BROADCAST), 64, 6),
    ('FE FF FF FF FF FF', frames.frame(64, b'\xfe' + b'\xff' * 5), 64, 6),
    ('a group address', frames.frame(64, frames.GROUP), 64, 6),
    ('broadcast', frames.frame(64, frames.BROADCAST), 64, 0),
    ('broadcast of 1,518', frames.frame(1518, frames.BROADCAST), 1518, 0),
]


def whole(program, data):
    """Answers for an input that is there at once. A longer input may find nobody reading its rest."""
    return subprocess.run([program], input=data, capture_output=True, timeout=20)


def in_parts(program, data, size):
    """Answers for an input that comes in parts, with a pause after each."""
    running = subprocess.Popen([program], stdin=subprocess.PIPE, stdout=subprocess.PIPE, stderr=subprocess.PIPE)
    for at in range(0, len(data), size):
        running.stdin.write(data[at:at + size])
        running.stdin.flush()
        time.sleep(0.01)
    out, err = running.communicate(timeout=20)
    return subprocess.CompletedProcess([program], running.returncode, out, err)


def main(program):
    passed = failed = 0
    for name, data, length, number in CASES:
        wanted = b'length %d\nverdict %d\n' % (length, number)
        runs = [(name, whole(program, data))]
        if 0 < len(data) <= 1518:
            runs.append((name + ', in parts', in_parts(program, data, 500)))
        for title, got in runs:
            if got.returncode == 0 and got.stdout == wanted and got.stderr == b'':
                passed += 1
            else:
                failed += 1
                print(f'FAILED: {title}: wanted {wanted!r}, got {got.stdout!r} {got.stderr!r}, status {got.returncode}')
    print(f'verdict: {passed} passed, {failed} failed')
    return 1 if failed or not passed else 0


if __name__ == '__main__':
    if len(sys.argv) != 2:
        sys.exit(__doc__)
    sys.exit(main(sys.argv[1]))
