#!/usr/bin/env python3
"""Tests that the worked file of docs/CAPTURE.md is a capture of its one frame, what `import_capture` makes of it, what
`export_capture` makes of a small day, that the capture of examples/recorded-day.txt is what the page shows of it, and that its way
to put the frames of a capture on a bench (tools/frame-lines) does so.

The page's bytes are held against a file that is packed here. The trace that is made of it is taken apart by docs/TRACE.md, and the
capture of the day, in which one frame is sent, two are delivered and one is lost, as tcpdump would read it. Each program has to
end with status 0 and to leave the files that were there and the one that it makes, and no other.

Usage: capture.py RECORD EXPORT IMPORT REPLAY   (the programs)
"""
import pathlib
import re
import struct
import subprocess
import sys
import tempfile
import zlib

ROOT = pathlib.Path(__file__).resolve().parent.parent
PAGE = (ROOT / 'docs' / 'CAPTURE.md').read_text()
# to all stations, from 02-00-00-00-00-01, EtherType 88B5
FRAME = bytes.fromhex('ffffffffffff' '020000000001' '88b5') + bytes(46)
# magic, version 2.4, time zone, accuracy, snap length, link type
HEADER = struct.pack('<IHHIIII', 0xa1b2c3d4, 2, 4, 0, 0, 65535, 1)

# one frame for the day that is delivered, one that is lost, and one that is delivered behind it
FIRST, LOST, SECOND = FRAME, FRAME[:14] + b'\x01' * 46, FRAME[:14] + b'\x02' * 1000
SENT = bytes.fromhex('ffffffffffff' '020000000001' '0806')


def closed(frame):
    """A frame with its check sequence behind it."""
    return frame + zlib.crc32(frame).to_bytes(4, 'little')


# A window of 4,096 bytes. A receive descriptor at 04000000: room for 1,536 bytes at 04000100, linked to itself with polling. A
# send descriptor at 04000800: the 14 bytes at 04000900, no next. The events have their numbers in front.
SCRIPT = f"""new 04000000 4096
poke 04000000 00460000000100040100000400000000
poke 04000800 0e000000000900040000000000000100
poke 04000900 {SENT.hex()}
# 0
write 1c 04000001
# 1
write 10 5
# 2
grant 04000000
# 3
frame {closed(FIRST).hex()}
# 4
write 3c 04000800
# 5
write 30 5
# 6
send 1518
# 7
frame {closed(LOST).hex()}
# 8
grant 04000000
# 9
frame {closed(SECOND).hex()}
"""
ANSWERS = ['write 0', 'write 0', 'grant 0', 'frame 0', 'write 0', 'write 0', f'send 0 {closed(SENT + bytes(46)).hex()}', 'frame 8',
           'grant 0', 'frame 0']
# the microseconds are the numbers of the events; what was sent is padded to 60
RECORDS = [(0, 3, FIRST), (0, 6, SENT + bytes(46)), (0, 9, SECOND)]


class Tests:
    def __init__(self, folder, record, export, import_, replay):
        self.folder = pathlib.Path(folder)
        self.record, self.export, self.import_, self.replay = record, export, import_, replay
        self.passed = self.failed = 0

    def expect(self, title, got, wanted):
        if got == wanted:
            self.passed += 1
        else:
            self.failed += 1
            print(f'FAILED: {title}: wanted {wanted!r}, got {got!r}')

    def run(self, program, *words, stdin='', makes=()):
        """What a program says; of the folder it may change the files that it makes, and nothing else."""
        path = pathlib.Path(program).resolve()
        before = self.files()
        done = subprocess.run([path, *words], cwd=self.folder, input=stdin, capture_output=True, text=True, timeout=60)
        title = ' '.join([path.name, *words])
        self.expect(f'{title}: its status and errors', (done.returncode, done.stderr), (0, ''))
        after = self.files()
        self.expect(f'{title}: the files that are there', sorted(after), sorted({*before, *makes}))
        self.expect(f'{title}: the files that it changes', sorted(name for name in before if before[name] != after.get(name)),
                    sorted(name for name in makes if name in before))
        return done.stdout

    def files(self):
        return {path.name: path.read_bytes() for path in self.folder.iterdir()}

    def file(self, name):
        return self.files().get(name, b'')

    def worked_file(self):
        """The file of the page, and the trace that is made of it."""
        packed = HEADER + struct.pack('<IIII', 0, 3, 60, 60) + FRAME
        page, gaps = worked_file(len(packed))
        self.expect('the page lists every byte once', gaps, [])
        self.expect('the worked file of the page', page.hex(' '), packed.hex(' '))
        (self.folder / 'worked.pcap').write_bytes(page)
        said = self.run(self.import_, 'worked.pcap', 'worked.trace', '20000000', '4096', makes=['worked.trace'])
        self.expect('what import_capture says of the worked file', said, 'imported 1\ntime 0 3\n')
        base, length, events = taken_apart(self.file('worked.trace'), self.expect)
        self.expect('the window of the imported trace', (base, length), (0x20000000, 4096))
        self.expect('the events of the imported trace', frames(events), [closed(FRAME)])
        check = on_page('A worked file', r' is ((?:[0-9A-F]{2} ?){4})')
        self.expect('the check sequence of the page', check, closed(FRAME)[-4:].hex(' ').upper())
        front, length = on_page('A worked file', r'03, ((?:[0-9A-F]{2} ){4})for (\d+) bytes') or ('', '0')
        self.expect('the front of the event of the page', (b'\x03' + bytes.fromhex(front), int(length)), (events[:5], 64))
        (self.folder / 'worked.memory').write_bytes(bytes(4096))
        said = self.run(self.replay, 'worked.trace', 'worked.memory')
        # nothing runs on a new bench, and no byte of the window is written
        wanted = f'window 20000000 4096\nframe 3\nstate 0 00000000 0 00000000\ncheck {zlib.crc32(bytes(4096)):08x}\n'
        self.expect('what replay says of the imported trace', said, wanted)

    def small_day(self):
        """A day recorded and replayed, its capture, and the trace that is made of that."""
        said = self.run(self.record, 'day.trace', 'day.memory', stdin=SCRIPT, makes=['day.trace', 'day.memory'])
        self.expect('what record says of the day', said.split(' ')[:2], ['recorded', str(len(ANSWERS))])
        said = self.run(self.replay, 'day.trace', 'day.memory')
        self.expect('what replay says of the day', said.splitlines()[1:1 + len(ANSWERS)], ANSWERS)
        said = self.run(self.export, 'day.trace', 'day.memory', 'day.pcap', makes=['day.pcap'])
        self.expect('what export_capture says of the day', said, f'exported {len(RECORDS)}\n')
        pcap = self.file('day.pcap')
        self.expect('the header of the capture', pcap[:24].hex(' '), HEADER.hex(' '))
        self.expect('the records of the capture', records(pcap[24:]), RECORDS)
        said = self.run(self.import_, 'day.pcap', 'again.trace', '0', '64', makes=['again.trace'])
        times = ''.join(f'time {seconds} {microseconds}\n' for seconds, microseconds, _ in RECORDS)
        self.expect('what import_capture says of the capture', said, f'imported {len(RECORDS)}\n{times}')
        base, length, events = taken_apart(self.file('again.trace'), self.expect)
        self.expect('the window of the trace made again', (base, length), (0, 64))
        self.expect('the events of the trace made again', frames(events), [closed(frame) for _, _, frame in RECORDS])

    def recorded_day(self):
        """The capture of the example, and what the page shows of it."""
        part = 'With other programs'
        script = (ROOT / 'examples' / 'recorded-day.txt').read_text()
        self.run(self.record, 'recorded.trace', 'recorded.memory', stdin=script, makes=['recorded.trace', 'recorded.memory'])
        said = self.run(self.export, 'recorded.trace', 'recorded.memory', 'recorded.pcap', makes=['recorded.pcap'])
        pcap = self.file('recorded.pcap')
        found = records(pcap[24:])
        times = [1_000_000 * seconds + microseconds for seconds, microseconds, _ in found]
        count = len(found)
        self.expect('what export_capture says of the recorded day', said, f'exported {count}\n')
        words = ['no', 'one', 'two', 'three', 'four', 'five', 'six', 'seven', 'eight', 'nine']
        self.expect('the frames in words', on_page(part, r'\.pcap`?: (\w+) frames'), words[count] if count < 10 else count)
        for title, pattern, number in [
                ('the number of packets', r'Number of packets: +(\d+)', count),
                ('the file size', r'File size: +(\d+) bytes', len(pcap)),
                ('the data size', r'Data size: +(\d+) bytes', sum(len(frame) for _, _, frame in found)),
                ('the first packet time', r'First packet time: +1970-01-01 00:00:00\.(\d{6})', times[0]),
                ('the last packet time', r'Last packet time: +1970-01-01 00:00:00\.(\d{6})', times[-1]),
                ('what is imported', r'`imported (\d+)`(?!,)', count)]:
            self.expect(f'{title} on the page', int(on_page(part, pattern) or -1), number)
        lines = re.findall(r'^ +(\d+) +(\d+\.\d{6}) (\S+) → (\S+) 0x(\S+) (\d+) ', section(part), re.M)
        shown = [(str(number), f'{(time - times[0]) / 1e6:.6f}', frame[6:12].hex(':'), frame[:6].hex(':'), frame[12:14].hex(),
                  str(len(frame))) for number, (time, (_, _, frame)) in enumerate(zip(times, found), 1)]
        self.expect('the lines of tshark on the page', lines, shown)
        said = self.run(self.import_, 'recorded.pcap', 'recorded.again', '0', '64', makes=['recorded.again'])
        times = ''.join(f'time 0 {time}\n' for time in times)
        self.expect('what import_capture says of the recorded day', said, f'imported {count}\n{times}')

    def on_the_bench(self):
        """The frames of a capture behind lines that set up a bench: the recipe of the page."""
        lines = self.run(ROOT / 'tools' / 'frame-lines', 'again.trace')
        self.expect('the lines of the frames', lines.splitlines(), [f'frame {closed(frame).hex()}' for _, _, frame in RECORDS])
        # the set-up of the small day, up to its first grant
        script = SCRIPT.split('# 3')[0] + lines
        self.run(self.record, 'bench.trace', 'bench.memory', stdin=script, makes=['bench.trace', 'bench.memory'])
        said = self.run(self.replay, 'bench.trace', 'bench.memory')
        # one grant for three frames
        self.expect('what the frames answer', said.splitlines()[4:7], ['frame 0', 'frame 8', 'frame 8'])
        # events of the other kinds are passed over
        lines = self.run(ROOT / 'tools' / 'frame-lines', 'day.trace')
        self.expect('the lines of the day', lines.splitlines(), [f'frame {closed(frame).hex()}' for frame in [FIRST, LOST, SECOND]])

    def refusals(self):
        """What is refused makes no file and leaves an old one; `run` tests that."""
        (self.folder / 'cut.pcap').write_bytes(HEADER + struct.pack('<IIII', 0, 0, 61, 61) + FRAME)
        (self.folder / 'old').write_bytes(b'old')
        # into an old file, a new one, and the file that was read
        for target in ['old', 'new', 'cut.pcap']:
            said = self.run(self.import_, 'cut.pcap', target, '0', '64')
            self.expect(f'what import_capture says of a cut record, into {target}', said, 'refused 35\n')
            said = self.run(self.import_, 'worked.pcap', target, '0', '60')
            self.expect(f'what import_capture says of no window, into {target}', said, 'refused 26\n')
            said = self.run(self.export, 'cut.pcap', 'worked.memory', target)
            self.expect(f'what export_capture says of no trace, into {target}', said, 'refused 17 0\n')
        self.expect('the old file', self.file('old'), b'old')


def section(title):
    """The part of the page below this title."""
    parts = PAGE.split(f'## {title}\n')
    return parts[1].split('\n## ')[0] if len(parts) == 2 else ''


def on_page(title, pattern):
    """What the one place of that part has that is of this form."""
    found = re.findall(pattern, section(title))
    return found[0] if len(found) == 1 else None


def worked_file(length):
    """The bytes that the page lists: an offset, then pairs of digits, `00 .. 00` for zeros up to the next offset; and where one is
    missing or stands there twice."""
    lines = re.findall(r'^ +(\d+)  ((?:[0-9a-f]{2} )+)(\.\.)?', section('A worked file'), re.M)
    data, gaps, end = bytearray(length), [], 0
    for place, (offset, pairs, more) in enumerate(lines):
        offset, pairs = int(offset), bytes.fromhex(pairs)
        if offset != end:
            gaps.append((end, offset))
        data[offset:offset + len(pairs)] = pairs
        following = int(lines[place + 1][0]) if place + 1 < len(lines) else length
        end = following if more else offset + len(pairs)
    return bytes(data), gaps + ([] if end == length else [(end, length)])


def taken_apart(trace, expect):
    """The base, the window's length and the bytes of the events of a trace, each block tested."""
    data = b''
    for place in range(0, max(len(trace), 1), 512):
        block = trace[place:place + 512].ljust(512, b'\0')
        number, used = struct.unpack_from('<HH', block)
        check = sum(byte * (position + 1) for position, byte in enumerate(block[:508])) % 65521
        last = place + 512 >= len(trace)
        title = f'block {place // 512}'
        expect(f'{title}: number, check and fill', (number, *struct.unpack('<I', block[508:]), block[4 + used:508].strip(b'\0')),
               (place // 512, check, b''))
        expect(f'{title}: used length', 1 <= used <= 504 if last else used == 504, True)
        data += block[4:4 + used]
    expect('the length of the trace', len(trace) % 512, 0)
    base, less_one = struct.unpack_from('<IH', data.ljust(6, b'\0'))
    return base, less_one + 1, data[6:]


def frames(events):
    """The frames of events that are frames alone."""
    found = []
    while events:
        if events[0] != 3 or len(events) < 5:
            return found + [('no frame event', events)]
        length, = struct.unpack_from('<I', events, 1)
        found.append(events[5:5 + length])
        events = events[5 + length:]
    return found


def records(data):
    """Seconds, microseconds and bytes of each record whose lengths are equal."""
    found = []
    while data:
        seconds, microseconds, captured, original = struct.unpack_from('<IIII', data.ljust(16, b'\0'))
        if captured != original or len(data) < 16 + captured:
            return found + [('no record', data)]
        found.append((seconds, microseconds, data[16:16 + captured]))
        data = data[16 + captured:]
    return found


def main(programs):
    with tempfile.TemporaryDirectory() as folder:
        tests = Tests(folder, *programs)
        tests.worked_file()
        tests.small_day()
        tests.recorded_day()
        tests.on_the_bench()
        tests.refusals()
        print(f'capture: {tests.passed} passed, {tests.failed} failed')
        return 1 if tests.failed or not tests.passed else 0


if __name__ == '__main__':
    if len(sys.argv) != 5:
        sys.exit(__doc__)
    sys.exit(main(sys.argv[1:]))
