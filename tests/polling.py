"""Short days about polling, for the test of the report: whether each engine runs, looks again or stops, and why.

The answers are those that documents 01 and 02 allow of engines; a bench would refuse some of these frames and sends for other
reasons. A frame or a sent frame is a broadcast of zeros, which every bench takes: its bytes say nothing here.
"""
FRAME = 'ff' * 6 + '00' * 58
# sixteen bytes of a frame that are a granted descriptor, its buffer at 400, its next at 200 with polling
DESCRIPTOR = '00460000000400000102000000000100'

NEW, START = ('new 0 4096', 'new 0'), ('write 10 5', 'write 0')
TAKEN, LOST, NOT_RUNNING = ((f'frame {FRAME}', f'frame {number}') for number in (0, 8, 3))
SENT, SENT_TOLD = ('send 1518', f'send 0 {FRAME}'), 'sent 64 bytes, to FF-FF-FF-FF-FF-FF, 0000'
SEND_START, NOT_SENT, SEND_NOT_RUNNING = ('write 30 5', 'write 0'), ('send 1518', 'send 8 -'), ('send 1518', 'send 3 -')
GOES_ON = 'goes on: its place and polling stay'


def texts(lines):
    """The script of some lines, and the output of their answers."""
    return [''.join(f'{line[part]}\n' for line in lines) for part in (0, 1)]


def put(at, following, linked=True, start=0x400):
    """The firmware writes a granted descriptor for 1,536 bytes."""
    words = [0x4600 if linked else 0x600, start, following, 0x10000]
    return f'poke {at:x} {b"".join(word.to_bytes(4, "little") for word in words).hex()}', 'poke ok'


def poke(at, word):
    return f'poke {at:x} {word.to_bytes(4, "little").hex()}', 'poke ok'


def write(offset, value, number=0):
    return f'write {offset:x} {value:x}', f'write {number}'


def looks_again(by, engine='receiving', at='frame'):
    return f'polling is on for this place, by {by}: {engine} looks again at the next {at}'


def stops(by, engine='receiving'):
    return f'polling is off for this place, by {by}: {engine} stops'


# by their names: each line with its answer and with all that the report says under it, the pairs of a burst left out
DAYS = {
    'a start without polling': [
        NEW,
        write(0x1c, 0x100),
        (*START, 'receiving starts at 00000100, polling off'),
        (*LOST, stops('RXNDAR')),
        ('state', 'state 0 00000100 0 00000000'),
        ('grant 100', 'grant 0'),
        (*NOT_RUNNING, 'receiving is stopped since line 4'),
        write(0x1c, 0x101),
        (*START, 'receiving starts at 00000100, polling on'),
        ('state', 'state 1 00000100 0 00000000'),
    ],
    # bit 1 is no polling; a start write to an engine that runs leaves both its place and its polling
    'a start with polling': [
        NEW,
        write(0x1c, 0x103),
        (*START, 'receiving starts at 00000100, polling on'),
        (*LOST, looks_again('RXNDAR')),
        (*LOST, looks_again('RXNDAR')),
        (*START, f'receiving {GOES_ON}'),
        (*write(0x10, 1), f'receiving {GOES_ON}'),
        write(0x1c, 0x200, 15),
        (*LOST, looks_again('RXNDAR')),
        (*write(0x10, 4), 'receiving stops'),
        (*write(0x10, 0), 'receiving stays stopped'),
        (*write(0x10, 1), 'receiving is not started by this'),
        (*NOT_RUNNING, 'receiving is stopped since line 10'),
        NEW,
        (*NOT_RUNNING, 'receiving was not started yet'),
        (*START, 'receiving starts at 00000000, polling off'),
    ],
    'bit 1 alone': [
        NEW,
        write(0x1c, 0x102),
        (*START, 'receiving starts at 00000100, polling off'),
        (*LOST, stops('RXNDAR')),
    ],
    # the bit as read at the move: what becomes of the next word later is nothing to the place, nor is what the register holds
    'moves': [
        NEW,
        put(0, 0x11),
        put(0x10, 0x02),
        write(0x1c, 0),
        (*START, 'receiving starts at 00000000, polling off'),
        TAKEN,
        poke(0x8, 0x10),
        poke(0x1c, 0),
        (*LOST, looks_again('the next word of the descriptor at 00000000')),
        ('grant 10', 'grant 0'),
        TAKEN,
        ('state', 'state 1 00000000 0 00000000'),
        poke(0x18, 0x01),
        (*START, f'receiving {GOES_ON}'),
        (*LOST, stops('the next word of the descriptor at 00000010')),
        (*NOT_RUNNING, 'receiving is stopped since line 15'),
    ],
    # of a write that passes the window's end nothing is written
    'a next word at the end of the window': [
        NEW,
        put(0xff0, 0x101),
        (f'poke ff8 {"00" * 9}', 'poke outside'),
        write(0x1c, 0xff0),
        (*START, 'receiving starts at 00000ff0, polling off'),
        TAKEN,
        (*LOST, looks_again('the next word of the descriptor at 00000ff0')),
    ],
    'a burst, and a ring': [
        NEW,
        put(0, 0x11),
        put(0x10, 0x01, start=0xa00),
        ('ring 2 0', 'ring yes'),
        write(0x1c, 1),
        (*START, 'receiving starts at 00000000, polling on'),
        poke(0x8, 0x10),
        ('ring 2 0', 'ring no', 'without polling: the next word of descriptor 1 of the ring'),
        poke(0x1c, 0),
        (f'burst 4 {FRAME} 0 64 0 64 0 65 0 64', 'burst 0 0 8 16 3',
         stops('the next word of descriptor 1 of the ring'), 'receiving is stopped since line 10'),
        poke(0x18, 0),
        ('ring 2 10', 'ring no', 'without polling: the next word of descriptor 2 of the ring, and 1 more'),
        ('ring 4 10', 'ring no', 'without polling: the next word of descriptor 2 of the ring, and 1 more'),
        # such a ring is not in the window, or no ring whatever its next words are
        ('ring 1 1000', 'ring no'),
        ('ring 1 ff4', 'ring no'),
        ('ring 1 12', 'ring no'),
        ('ring 0 10', 'ring no'),
        ('ring 33 10', 'ring no'),
        ('lend 60', 'lend'),
        ('ring 2 10', 'ring no'),
        ('lend 4096', 'lend'),
        ('ring 2 10', 'ring no', 'without polling: the next word of descriptor 2 of the ring, and 1 more'),
        ('new 0 60', 'new 1'),
        ('ring 1 0', 'ring no'),
    ],
    'sends': [
        NEW,
        put(0x100, 0x111),
        put(0x110, 0x120),
        put(0x120, 0x131),
        poke(0x10c, 0),
        poke(0x12c, 0),
        (*SEND_NOT_RUNNING, 'sending was not started yet'),
        write(0x3c, 0x101),
        (*SEND_START, 'sending starts at 00000100, polling on'),
        (*NOT_SENT, looks_again('TXNDAR', 'sending', 'send')),
        poke(0x10c, 0x10000),
        SENT,
        poke(0x11c, 0),
        ('run 4 8192', 'run 8 1 0 -', looks_again('the next word of the descriptor at 00000100', 'sending', 'send')),
        poke(0x11c, 0x10000),
        ('run 0 8192', 'run 0 0 0 -'),
        ('run 4097 8192', 'run 10 0 0 -'),
        ('send 0', 'send 9 -'),
        ('run 4 8192', f'run 8 2 64 {FRAME}', SENT_TOLD, stops('the next word of the descriptor at 00000110', 'sending')),
        ('run 4 8192', 'run 3 1 0 -', 'sending is stopped since line 19'),
        ('state', 'state 0 00000000 0 00000120'),
    ],
    # the end of a chain, a fault and a wrong length stop an engine whatever its polling
    'other stops': [
        NEW,
        put(0x100, 0x101, linked=False),
        write(0x1c, 0x101),
        write(0x3c, 0x101),
        (*START, 'receiving starts at 00000100, polling on'),
        TAKEN,
        (*NOT_RUNNING, 'receiving is stopped since line 6'),
        (*START, 'receiving starts at 00000100, polling on'),
        (f'frame {FRAME}', 'frame 7'),
        (*NOT_RUNNING, 'receiving is stopped since line 9'),
        (*SEND_START, 'sending starts at 00000100, polling on'),
        ('send 1518', 'send 12 -'),
        (*SEND_NOT_RUNNING, 'sending is stopped since line 12'),
        (*SEND_START, 'sending starts at 00000100, polling on'),
        ('run 4 8192', f'run 3 2 64 {FRAME}', SENT_TOLD, 'sending is stopped since line 15'),
    ],
    # the second descriptor is what the first frame brought
    'a frame over a descriptor': [
        NEW,
        put(0, 0x110, start=0x100),
        write(0x1c, 1),
        (*START, 'receiving starts at 00000000, polling on'),
        (f'frame {"ff" * 16}{DESCRIPTOR}{"00" * 32}', 'frame 0'),
        TAKEN,
        (*LOST, looks_again('the next word of the descriptor at 00000110')),
        ('state', 'state 1 00000200 0 00000000'),
    ],
    # the next word of the descriptor at 104 is the packet status of that at 100: the report does not follow what the device writes there
    'a next word by the device': [
        NEW,
        put(0x104, 0x1),
        ('grant 100', 'grant 0'),
        write(0x1c, 0x105),
        (*START, 'receiving starts at 00000104, polling on'),
        TAKEN,
        LOST,
        ('state', 'state 1 00010000 0 00000000'),
        LOST,
        (*START, 'receiving runs'),
        LOST,
        NOT_RUNNING,
        write(0x1c, 0x100),
        (*START, 'receiving starts at 00000100, polling off'),
    ],
    # the start word of the descriptor at 108 is the packet status of that at 100: where the frame lies is not known, nor then
    # what it left of the next descriptor
    'a start word by the device': [
        NEW,
        put(0x108, 0x201),
        put(0x200, 0x301),
        ('grant 100', 'grant 0'),
        write(0x1c, 0x109),
        (*START, 'receiving starts at 00000108, polling on'),
        TAKEN,
        (*LOST, looks_again('the next word of the descriptor at 00000108')),
        TAKEN,
        LOST,
        NOT_RUNNING,
    ],
    # nothing is known before the first `new`
    'a part of a day': [
        LOST,
        (*START, 'receiving runs'),
        LOST,
        (*write(0x10, 0), 'receiving is stopped from here on'),
        NOT_RUNNING,
        write(0x1c, 1),
        (*START, 'receiving starts at 00000000, polling on'),
        TAKEN,
        LOST,
        ('state', 'state 1 00000200 1 00000300'),
        SENT,
        NOT_SENT,
        SEND_NOT_RUNNING,
        write(0x3c, 0x21),
        (*write(0x30, 1), 'sending is not started by this'),
        (*SEND_START, 'sending starts at 00000020, polling on'),
    ],
}

# a line between a start with polling and a lost frame, its answer, and whether it is known behind it that receiving looks again:
# a line that was not taken changed nothing, but behind one that cannot be told nothing is known
BETWEEN = [
    ('line', 'line 0', True),
    ('lin', 'error 4', True),
    ('tock', 'tock 0', False),
    ('grant 0', 'grant 17', False),
    ('state', 'state 0 00000000 0 00000000', False),
]


def around(line, answer):
    """The script and the output around such a line, the lost frame on line 5."""
    return texts([NEW, write(0x1c, 1), START, (line, answer), LOST])


def fault(name, wanted, *lines):
    """As the others of the report's test."""
    return name, *texts(lines), wanted


# answers that the calls before do not allow, most of them as of a console to which polling is nothing
FAULTS = [
    fault('receiving goes on', '8, yet receiving is stopped since line 3', NEW, START, LOST, LOST),
    fault('sending goes on', 'line 4, answer to "send 1518": 8, yet sending is stopped since line 3',
          NEW, SEND_START, NOT_SENT, NOT_SENT),
    fault('a burst goes on', 'pair 2: 8, yet receiving is stopped since line 3',
          NEW, START, (f'burst 2 {FRAME} 0 64 0 64', 'burst 0 8 8')),
    fault('a run goes on', '0, yet sending is stopped since line 3',
          NEW, SEND_START, ('run 2 8192', f'run 0 2 128 {FRAME}{FRAME}')),
    fault('receiving stops', '3, yet receiving runs', NEW, write(0x1c, 1), START, LOST, NOT_RUNNING),
    fault('sending stops', '3, yet sending runs', NEW, write(0x3c, 1), SEND_START, NOT_SENT, SEND_NOT_RUNNING),
    fault('a state that runs', 'line 4, answer to "state": receiving runs, yet receiving is stopped since line 3',
          NEW, START, LOST, ('state', 'state 1 00000000 0 00000000')),
    fault('a state that is stopped', 'sending is stopped, yet sending runs',
          NEW, write(0x3c, 1), SEND_START, ('state', 'state 0 00000000 0 00000000')),
    fault('a state at another place', 'receiving has its place at 00000011, yet the calls led to 00000010',
          NEW, write(0x1c, 0x11), START, ('state', 'state 1 00000011 0 00000000')),
    fault('a register written too late', '0, yet receiving runs', NEW, START, write(0x1c, 0)),
    fault('a register that could be written', '15, yet sending was not started yet', NEW, write(0x3c, 0, 15)),
    fault('a ring without polling', 'yes, yet the next word of the descriptor at 00000010 is without polling',
          NEW, put(0, 0x11), put(0x10, 0, start=0xa00), ('ring 2 0', 'ring yes')),
]
