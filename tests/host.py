#!/usr/bin/env python3
"""Runs the C bench host on frames in files and on standard input and compares its whole output.

Usage: host.py PROGRAM
"""
import pathlib
import random
import subprocess
import sys
import tempfile
import zlib

import frames

# why a frame is accepted, as the host words it, or nothing
OWN, BROADCAST, GROUP, ALL, NO = 'own address', 'broadcast', 'group', 'receive-all', None

# answers with all modes off, receive-all, all-multicast, and by a hash table with bit 3 alone
TO_STATION = [OWN, ALL, OWN, OWN]
TO_EVERYBODY = [BROADCAST, ALL, BROADCAST, BROADCAST]
TO_GROUP = [NO, ALL, GROUP, GROUP]
TO_OTHER_GROUP = [NO, ALL, GROUP, NO]
TO_OTHER = [NO, ALL, NO, NO]
TO_NOBODY = [NO, NO, NO, NO]
MODES = [[], ['-a'], ['-m'], ['-x', '-L', '8']]

# name, frame, check right, answers
CASES = [
    ('empty', b'', False, TO_NOBODY),
    ('three', b'\xff\xff\xff', False, TO_NOBODY),
    ('four-zeros', bytes(4), True, TO_NOBODY),
    ('five', frames.closed(b'\x02'), True, TO_NOBODY),
    ('five-of-broadcast', frames.BROADCAST[:5], False, TO_NOBODY),
    ('six', frames.STATION, False, TO_STATION),
    ('six-right', frames.closed(b'\x02\x00'), True, TO_OTHER),
    ('six-of-broadcast', frames.BROADCAST, False, TO_EVERYBODY),
    ('good-64', frames.frame(64), True, TO_STATION),
    ('good-1518', frames.frame(1518), True, TO_STATION),
    ('good-1519', frames.frame(1519), True, TO_STATION),
    ('big', frames.frame(3000000), True, TO_STATION),
    ('big-wrong', frames.flipped(frames.frame(3000000), 12345678), False, TO_STATION),
    ('wrong', frames.flipped(frames.frame(64), 400), False, TO_STATION),
    ('other-station', frames.frame(64, frames.OTHER), True, TO_OTHER),
    ('backwards', frames.frame(64, frames.REVERSED), True, TO_OTHER_GROUP),
    ('nearly-broadcast', frames.frame(64, frames.NEARLY_BROADCAST), True, TO_OTHER_GROUP),
    ('broadcast', frames.frame(64, frames.BROADCAST), True, TO_EVERYBODY),
    ('broadcast-wrong', frames.flipped(frames.frame(64, frames.BROADCAST), 400), False, TO_EVERYBODY),
    ('group', frames.frame(64, frames.GROUP), True, TO_GROUP),
    ('group-of-five', frames.GROUP[:5], False, TO_NOBODY),
    ('group-of-six', frames.GROUP, False, TO_GROUP),
]
RANDOM_MODES = [[], ['-a'], ['-m'], ['-a', '-m'], ['-x'], ['-x'], ['-x'], ['-a', '-x']]

# published values of the check
VECTORS = [
    (b'', 0x00000000),
    (b'a', 0xe8b7be43),
    (b'abc', 0x352441c2),
    (b'message digest', 0x20159d7f),
    (b'123456789', 0xcbf43926),
    (b'The quick brown fox jumps over the lazy dog', 0x414fa339),
    (bytes(32), 0x190a55ad),
    (b'\xff' * 32, 0xff6cab0b),
]

# groups, the 802.3 register that each leaves, x^31 as its highest bit, and their bit of the 64: from 32 on in the high register
HASHES = [
    ('01-80-C2-00-00-01', 0x0ed423f9, 3),
    ('01-00-5E-00-00-01', 0x7fa32d9b, 31),
    ('01-00-5E-00-00-FB', 0x3f7b3b21, 15),
    ('33-33-00-00-00-01', 0xf99baaba, 62),
    ('01-00-00-00-00-00', 0x9fb186a1, 39),
]
# what the hash has no say in, and why it is accepted; the broadcast would be bit 63
OTHERS = [('broadcast', BROADCAST), ('good-64', OWN), ('other-station', NO)]

# words, and what is written for the one file behind them: the rule asks for broadcast and groups before the station
STATIONS = [
    (['-s', '02-00-00-00-00-02', 'good-64'], NO),
    (['-s', '02-00-00-00-00-02', 'other-station'], OWN),
    (['-s', '02-00-00-00-00-02', '-a', 'other-station'], ALL),
    (['-s', 'ff-ff-ff-ff-ff-ff', 'broadcast'], BROADCAST),
    (['-s', 'ff-ff-ff-ff-ff-ff', '-a', 'broadcast'], ALL),
    (['-s', 'ff-ff-ff-ff-ff-ff', 'good-64'], NO),
    (['-s', '01-80-C2-00-00-01', 'group'], NO),
    (['-s', '01-80-C2-00-00-01', '-m', 'group'], GROUP),
    (['-s', '01-80-C2-00-00-01', '-x', 'group'], NO),
    (['-s', '01-80-C2-00-00-01', '-x', '-L', '8', 'group'], GROUP),
    (['-s', '01-80-C2-00-00-01', '-a', 'group'], ALL),
]

# words that are a usage error
BAD_WORDS = [
    ('a bad station', ['-s', '02-00-00-00-00', 'good-64']),
    ('a bad digit', ['-s', '02-00-00-00-00-0g', 'good-64']),
    ('no station', ['-s']),
    ('a bad option', ['-y']),
    ('two filter modes', ['-x', '-m', 'good-64']),
    ('two filter modes, the other way round', ['-m', '-a', '-x', 'good-64']),
    *((f'{option}: {title}', ['-x', option] + words) for option in ['-H', '-L'] for title, words in [
        ('no number', []),
        ('an empty number', ['', 'good-64']),
        ('nine digits', ['123456789', 'good-64']),
        ('nine digits, a zero first', ['000000001', 'good-64']),
        ('0x', ['0x1', 'good-64']),
        ('a bad digit', ['1g', 'good-64']),
        ('a sign', ['-1', 'good-64']),
        ('a blank', [' 1', 'good-64']),
    ]),
]


def line(name, data, right, answer):
    return (f"{name}: {len(data)} bytes, check {'right' if right else 'wrong'}, "
            f"{f'accepted: {answer}' if answer else 'not accepted'}\n")


def check_right(data):
    """The frame check, by zlib."""
    return len(data) >= 4 and zlib.crc32(data[:-4]) == int.from_bytes(data[-4:], 'little')


def reason(data, station, mode, table=0):
    """The address rule, written anew: the first line that takes a frame is why. The hash table has 64 bits, those of the high
    register first."""
    to = data[:6]
    if len(to) < 6:
        return NO
    if '-a' in mode:
        return ALL
    if to == frames.BROADCAST:
        return BROADCAST
    if to[0] & 1:
        return GROUP if '-m' in mode or '-x' in mode and table >> frames.hash_index(to) & 1 else NO
    return OWN if to == station else NO


def by_zlib(data):
    """The 802.3 register out of zlib's, which is kept the other way round and complemented at the end."""
    return int(f'{zlib.crc32(data) ^ 0xffffffff:032b}'[::-1], 2)


def hash_words(table):
    """The options that set a hash table."""
    return ['-H', f'{table >> 32:x}', '-L', f'{table & 0xffffffff:08X}']


def random_station(source):
    """Most are single addresses: a group and the broadcast address are never taken as the station's own."""
    first, rest = source.randrange(256), source.randbytes(5)
    return source.choice([frames.BROADCAST, bytes([first | 1]) + rest] + 4 * [bytes([first & 0xfe]) + rest])


def random_frame(source, station):
    """A frame of any length, near the rules' edges: some right, some damaged, some for others."""
    destination = source.choice([station, frames.BROADCAST, frames.GROUP, station[::-1], source.randbytes(6)])
    if source.random() < 0.3:
        destination = frames.flipped(destination, source.randrange(48))
    data = destination + source.randbytes(source.choice([0, 1, 4, 50, 54, source.randrange(2000)]))
    data = data[:source.choice([3, 5, 6, 7, len(data)])]
    data = frames.closed(data) if source.random() < 0.8 else data
    if data and source.random() < 0.3:
        data = frames.flipped(data, source.randrange(8 * len(data)))
    return data


class Tests:
    def __init__(self, program, folder):
        self.program, self.folder = program, folder
        self.passed = self.failed = 0

    def note(self, title, right, seen):
        if right:
            self.passed += 1
        else:
            self.failed += 1
            print(f'FAILED: {title}: {seen}')

    def write(self, name, data):
        (pathlib.Path(self.folder) / name).write_bytes(data)

    def expect(self, title, words, given, status, wanted):
        got = subprocess.run([self.program] + words, input=given, capture_output=True, cwd=self.folder, timeout=60)
        self.note(title, got.returncode == status and got.stdout.decode() == wanted,
                  f'wanted {wanted!r}, status {status}; got {got.stdout!r} {got.stderr!r}, status {got.returncode}')

    def cases(self):
        for name, data, *_ in CASES:
            self.write(name, data)
        for k, mode in enumerate(MODES):
            for name, data, right, answers in CASES:
                self.note(f'the rule on {name} {mode}', reason(data, frames.STATION, mode, 8) == answers[k], answers[k])
                self.expect(f'{name} {mode}', mode + [name], b'', 0, line(name, data, right, answers[k]))
                self.expect(f'{name} {mode}, standard input', mode, data, 0, line('-', data, right, answers[k]))
            everything = ''.join(line(name, data, right, answers[k]) for name, data, right, answers in CASES)
            self.expect(f'all files {mode}', mode + [name for name, *_ in CASES], b'', 0, everything)
        for message, check in VECTORS:
            data = message + check.to_bytes(4, 'little')
            self.expect(f'vector {message!r}', [], data, 0, line('-', data, True, reason(data, frames.STATION, [])))

    def hashed(self, title, mode, taken):
        """One run over a frame for each group, of which these are taken, and over what the hash has no say in."""
        wanted = [(name, GROUP if name in taken else NO) for name, *_ in HASHES] + OTHERS
        self.expect(f'{title} {mode}', mode + [name for name, _ in wanted], b'', 0,
                    ''.join(line(name, bytes(64), True, answer) for name, answer in wanted))

    def hashes(self):
        groups = [name for name, *_ in HASHES]
        for name, register, bit in HASHES:
            to = bytes.fromhex(name.replace('-', ''))
            self.write(name, frames.frame(64, to))
            self.note(f'register of {name}', frames.register(to) == register and frames.hash_index(to) == bit,
                      f'{frames.register(to):08x}')
        for bit in range(64):
            self.hashed(f'bit {bit} alone', ['-x'] + hash_words(1 << bit), [name for name, _, own in HASHES if own == bit])
            self.hashed(f'all bits but {bit}', ['-x'] + hash_words(~(1 << bit) & (1 << 64) - 1),
                        [name for name, _, own in HASHES if own != bit])
        self.hashed('all bits', ['-x', '-H', 'FFFFFFFF', '-L', 'ffffffff'], groups)
        self.hashed('no bit', ['-x', '-H', '0', '-L', '00000000'], [])
        self.hashed('no bit given', ['-x'], [])
        self.hashed('low register alone', ['-L', 'ffffffff', '-x'], groups[:3])
        self.hashed('high register alone', ['-H', 'ffffffff', '-x', '-x'], groups[3:])
        self.hashed("the groups' bits", ['-x', '-H', '40000080', '-L', '80008008'], groups)
        self.hashed("the groups' bits, registers exchanged", ['-x', '-H', '80008008', '-L', '40000080'], [])
        self.hashed('hash registers without the mode', hash_words((1 << 64) - 1), [])
        self.hashed('hash registers with all-multicast', ['-m'] + hash_words(0), groups)
        everything = groups + [name for name, _ in OTHERS]
        self.expect('receive-all and the hash', ['-a', '-x'] + everything, b'', 0,
                    ''.join(line(name, bytes(64), True, ALL) for name in everything))

    def randoms(self):
        source = random.Random(1518)
        met, decided, differing = dict.fromkeys([OWN, BROADCAST, GROUP, ALL, NO], 0), {NO: 0, GROUP: 0}, []
        for k in range(100):
            station, mode, table = random_station(source), source.choice(RANDOM_MODES), source.getrandbits(64)
            given = [random_frame(source, station) for _ in range(25)]
            wanted = ''
            for n, data in enumerate(given):
                self.write(f'random-{n}', data)
                answer = reason(data, station, mode, table)
                wanted += line(f'random-{n}', data, check_right(data), answer)
                met[answer] += 1
                if mode == ['-x'] and len(data) >= 6 and data[0] & 1 and data[:6] != frames.BROADCAST:
                    decided[answer] += 1
                differing += [data[:6].hex('-')] if frames.register(data[:6]) != by_zlib(data[:6]) else []
            self.expect(f'25 random frames, {k}', mode + ['-s', station.hex('-')] + hash_words(table)
                        + [f'random-{n}' for n in range(25)], b'', 0, wanted)
        self.note('registers of random frames', not differing, differing)
        self.note('random frames accepted for each reason, and not', min(met.values()) >= 50, met)
        self.note('random groups taken by the hash, and not', min(decided.values()) >= 50, decided)

    def words(self):
        good = frames.frame(64)
        for words, answer in STATIONS:
            self.expect(f'a station {words}', words, b'', 0, line(words[-1], good, True, answer))
        self.expect('a station of six different bytes', ['-s', 'A2-bc-DE-f0-12-34'], frames.frame(70, bytes.fromhex('a2bcdef01234')), 0,
                    line('-', bytes(70), True, OWN))
        self.expect('both modes', ['-a', '-m', 'group'], b'', 0, line('group', good, True, ALL))
        self.expect('a mode twice', ['-m', '-m', 'group'], b'', 0, line('group', good, True, GROUP))
        self.expect('a file and standard input', ['group', '-'], good, 0, line('group', good, True, NO) + line('-', good, True, OWN))
        self.expect('no option behind --', ['--', 'group', '-x'], b'', 1, line('group', good, True, NO))
        self.expect('no such file', ['missing', 'good-64'], b'', 1, line('good-64', good, True, OWN))
        for title, words in BAD_WORDS:
            self.expect(title, words, b'', 2, '')


def main(program):
    with tempfile.TemporaryDirectory() as folder:
        tests = Tests(str(pathlib.Path(program).resolve()), folder)
        tests.cases()
        tests.hashes()
        tests.randoms()
        tests.words()
        print(f'host: {tests.passed} passed, {tests.failed} failed')
        return 1 if tests.failed or not tests.passed else 0


if __name__ == '__main__':
    if len(sys.argv) != 2:
        sys.exit(__doc__)
    sys.exit(main(sys.argv[1]))
