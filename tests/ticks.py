"""Short days about ticks and counters, for the test of the report: which ticks count, which set TX_TO, and what is counted.

The answers are worked out by hand from document 02 (Wish 9); the test also compares them with the console's, but those of the days
behind a fault, or without a new bench, which are there for what the report cannot know.
"""
import frames

FRAME = frames.frame(64, frames.BROADCAST).hex()
OTHER = frames.frame(64, frames.OTHER).hex()
# the 14 bytes of zeros at 900 as they are sent
SENT = frames.closed(bytes(60)).hex()
STOP = 4294967295

# ---- lines: each with its answer, the end of what the report says of it, '' for anything, and all that it says under it


def texts(lines):
    """The script of some lines, and the output of their answers."""
    return [''.join(f'{line[part]}\n' for line in lines) for part in (0, 1)]


def write(offset, value, *under, number=0):
    return f'write {offset:x} {value:x}', f'write {number}', '', *under


def read(offset, value):
    return f'read {offset:x}', f'read 0 {value:08x}', ''


def poke(at, *words):
    return f'poke {at:x} {b"".join(word.to_bytes(4, "little") for word in words).hex()}', 'poke ok', ''


def lend(length):
    return f'lend {length}', 'lend', ''


def tick(count, *under):
    return 'tick', 'tick 0', f'tick -> 0 done: the tick count is {count}', *under


def not_counted(why, was=0):
    return tick(0, f'not counted: {why}', *([f'the tick count is cleared, was {was}'] if was else []))


def refused(*stays):
    return ('tick', 'tick 11', "tick -> 11 refused: lent memory not of the window's length",
            *(f'the tick count stays {count}' for count in stays))


def fires(row, value, since=None):
    """A tick that sets TX_TO."""
    behind = f' since the time-out on line {since}' if since else ''
    return ('tick', 'tick 0', 'tick -> 0 done: TX_TO is set, the tick count is 0',
            f'the {row} tick in a row without a send{behind}, TXTOR is {value}')


def counters(delivered, lost, sent, count, *under, since=1):
    return ('counters', f'counters {delivered} {lost} {sent} {count}',
            f'counters -> {delivered} delivered, {lost} lost, {sent} sent; the tick count is {count}',
            *(under or [f'as counted from the answers since the new bench on line {since}']))


def send(*under):
    return 'send 1518', f'send 0 {SENT}', '', *under


def frame(number, *under, data=FRAME):
    return f'frame {data}', f'frame {number}', '', *under


CLEARED, STAYS = 'the tick count is cleared, was {}'.format, 'the tick count stays {}'.format
AT_ONCE = 'the tick count stays {}: the next tick that counts sets TX_TO'.format
NOT_GRANTED = 'the descriptor at 00000800 is not granted'
NEW = 'new 0 4096', 'new 0', ''
DESCRIPTOR = 0x0e, 0x900, 0, 0x10000
START, STARTS = write(0x30, 5), write(0x30, 5, 'sending starts at 00000800, polling on')
# a granted descriptor at 800 that ends its chain, and another that leads to itself
PLACED = [NEW, poke(0x800, *DESCRIPTOR), write(0x3c, 0x801)]
LOOPED = [NEW, poke(0x800, 0x400e, 0x900, 0x801, 0x10000), write(0x3c, 0x801)]
GRANT, RETURN = poke(0x80c, 0x10000), poke(0x80c, 0)
POLLS_THERE = 'polling is on for this place, by the next word of the descriptor at 00000000: receiving looks again at the next frame'
POLLS = 'polling is on for this place, by TXNDAR: sending looks again at the next send'

DAYS = {
    'a value of 3': [
        *PLACED, write(0x48, 3), STARTS,
        tick(1), tick(2), tick(3), read(8, 0x50001), counters(0, 0, 0, 3),
        fires('4th', 3), read(8, 0xd0001), counters(0, 0, 0, 0),
        # a status bit that stays set is nothing to the count
        tick(1), tick(2), tick(3), fires('4th', 3, 11), write(8, 0x80000), read(8, 0x50001), tick(1),
    ],
    'a value of 1': [*PLACED, write(0x48, 1), STARTS, tick(1), fires('2nd', 1), tick(1), fires('2nd', 1, 7), read(8, 0xd0001)],
    'a value of 0': [
        *PLACED, read(0x48, 0), STARTS, not_counted('TXTOR is 0'), not_counted('TXTOR is 0'), read(8, 0x50001), write(0x48, 0),
        not_counted('TXTOR is 0'), counters(0, 0, 0, 0),
    ],
    'rows': [*PLACED, write(0x48, 22), STARTS, *(tick(n) for n in range(1, 23)), fires('23rd', 22), write(0x48, 11),
             *(tick(n) for n in range(1, 12)), fires('12th', 11, 28)],
    # 16 bits; the most lets no tick of a short day fire
    'the register': [
        *PLACED, write(0x48, 0xffffffff), read(0x48, 0xffff), STARTS, tick(1), tick(2),
        write(0x48, 9, STAYS(2)), write(0x48, 0x10002, AT_ONCE(2)), read(0x48, 2), counters(0, 0, 0, 2), fires('3rd', 2), tick(1), tick(2),
        # a smaller value: the count stands above it until the next tick
        write(0x48, 1, AT_ONCE(2)), counters(0, 0, 0, 2), fires('3rd', 1, 13), tick(1),
        # 0, by its 16 bits, clears it at once
        write(0x48, 0xffff0000, CLEARED(1)), counters(0, 0, 0, 0), not_counted('TXTOR is 0'),
        write(0x48, 2), counters(0, 0, 0, 0), tick(1), tick(2), write(0x48, 0, CLEARED(2)), counters(0, 0, 0, 0),
        write(0x48, 2), tick(1), tick(2), fires('3rd', 2),
    ],
    'refused': [
        *PLACED, write(0x48, 1), STARTS, tick(1), lend(4092), refused(1), lend(4100), refused(1), lend(0), refused(1),
        counters(0, 0, 0, 1), read(8, 0x50001), lend(4096), fires('2nd', 1),
    ],
    'a send': [
        *LOOPED, write(0x48, 2), STARTS, tick(1), tick(2), send(CLEARED(2)), counters(0, 0, 1, 0),
        # returned by the send, then granted again
        not_counted(NOT_GRANTED), GRANT, tick(1), tick(2), send(CLEARED(2)), GRANT, send(), GRANT, tick(1),
        tick(2), fires('3rd', 2), send(), counters(0, 0, 4, 0),
    ],
    # refused sends leave the count; what they left of the engine counts at the next tick
    'refused sends': [
        *LOOPED, write(0x48, 9), STARTS, tick(1), tick(2),
        ('send 1517', 'send 9 -', ''), counters(0, 0, 0, 2), lend(60), ('send 1518', 'send 11 -', ''), lend(4096), tick(3),
        RETURN, ('send 1518', 'send 8 -', '', POLLS), counters(0, 0, 0, 3),
        GRANT, tick(4), RETURN, not_counted(NOT_GRANTED, 4), GRANT, tick(1),
        # 7 for the buffer, 12 for the length: sending stops
        poke(0x804, 0x902), ('send 1518', 'send 7 -', ''), counters(0, 0, 0, 1), not_counted('sending is stopped since line 24', 1),
        poke(0x804, 0x900), STARTS, tick(1), poke(0x800, 13), ('send 1518', 'send 12 -', ''), counters(0, 0, 0, 1),
        ('send 1518', 'send 3 -', '', 'sending is stopped since line 31'), counters(0, 0, 0, 1),
        not_counted('sending is stopped since line 31', 1),
    ],
    'step runs': [
        *LOOPED, write(0x48, 9), STARTS, tick(1),
        ('run 4097 8192', 'run 10 0 0 -', ''), ('run 0 8192', 'run 0 0 0 -', ''), ('run 4 0', 'run 9 1 0 -', ''), counters(0, 0, 0, 1),
        RETURN, ('run 4 8192', 'run 8 1 0 -', '', POLLS), counters(0, 0, 0, 1), GRANT, tick(2),
        ('run 4 8192', f'run 8 2 64 {SENT}', '', 'sent 64 bytes, to 00-00-00-00-00-00, 0000',
         'polling is on for this place, by the next word of the descriptor at 00000800: sending looks again at the next send',
         CLEARED(2)),
        counters(0, 0, 1, 0), GRANT, tick(1),
        ('run 1 8192', f'run 0 1 64 {SENT}', '', 'sent 64 bytes, to 00-00-00-00-00-00, 0000', CLEARED(1)), counters(0, 0, 2, 0),
        # two descriptors in a row, both sent by one run
        poke(0x810, *DESCRIPTOR), poke(0x808, 0x811), GRANT, tick(1),
        ('run 9 8192', f'run 3 3 128 {SENT}{SENT}', '', *['sent 64 bytes, to 00-00-00-00-00-00, 0000'] * 2,
         'sending is stopped since line 26', CLEARED(1)),
        counters(0, 0, 4, 0), not_counted('sending is stopped since line 26'),
    ],
    'what does not count': [
        *PLACED, write(0x48, 9), not_counted('sending was not started yet'), STARTS, tick(1),
        write(0x30, 1, 'sending goes on: its place and polling stay'), tick(2), write(0x30, 0, 'sending stops'),
        counters(0, 0, 0, 2), not_counted('sending is stopped since line 10', 2), STARTS, tick(1),
        # a byte of the status word
        ('poke 80e 00', 'poke ok', ''), not_counted(NOT_GRANTED, 1), ('poke 80e ff', 'poke ok', ''), tick(1),
        # the length, the buffer and the next word are nothing to a tick
        poke(0x800, 0x4000, 0xffffffff, 0xffffffff), tick(2),
        # every bit but VALID, and VALID alone
        poke(0x80c, 0xfffeffff), not_counted(NOT_GRANTED, 2), GRANT, tick(1),
    ],
    # all sixteen bytes must lie in the window
    'the window': [
        NEW, poke(0xff0, *DESCRIPTOR), poke(0xffc, 0x10000), write(0x48, 9), write(0x3c, 0xff0),
        write(0x30, 5, 'sending starts at 00000ff0, polling off'), tick(1), write(0x30, 0, 'sending stops'),
        write(0x3c, 0xff4), write(0x30, 5, 'sending starts at 00000ff4, polling off'),
        not_counted('the descriptor at 00000ff4 is not all in the window', 1), write(0x30, 0, 'sending stops'),
        write(0x3c, 0xfffffffc), write(0x30, 5, 'sending starts at fffffffc, polling off'),
        not_counted('the descriptor at fffffffc is not all in the window'),
        ('new 1000 4096', 'new 0', ''), poke(0x1000, *DESCRIPTOR), write(0x48, 9), write(0x3c, 0x1000),
        write(0x30, 5, 'sending starts at 00001000, polling off'), tick(1), write(0x30, 0, 'sending stops'),
        write(0x3c, 0xffc), write(0x30, 5, 'sending starts at 00000ffc, polling off'),
        not_counted('the descriptor at 00000ffc is not all in the window', 1),
    ],
    # what the device writes into the status word grants and returns a descriptor, too
    'granted by a call': [
        NEW, poke(0x800, 0x4600, 0x100, 0x801, 0), write(0x1c, 0x801), write(0x10, 5, 'receiving starts at 00000800, polling on'),
        write(0x3c, 0x801), write(0x48, 9), STARTS, not_counted(NOT_GRANTED), ('grant 800', 'grant 0', ''), tick(1),
        frame(0), counters(1, 0, 0, 1), not_counted(NOT_GRANTED, 1), ('grant 800', 'grant 0', ''), tick(1),
        # over the bit that is granted lies what a frame brings
        poke(0x804, 0x100), GRANT, poke(0x820, 0x4600, 0x7f4, 0x821, 0x10000), write(0x10, 0, 'receiving stops'),
        write(0x1c, 0x821), write(0x10, 5, 'receiving starts at 00000820, polling on'), tick(2),
    ],
    'counters': [
        NEW, counters(0, 0, 0, 0), frame(3, 'receiving was not started yet'), counters(0, 0, 0, 0),
        poke(0, 0x4600, 0x100, 0x1, 0), write(0x1c, 1), write(0x10, 5, 'receiving starts at 00000000, polling on'),
        frame(8, 'polling is on for this place, by RXNDAR: receiving looks again at the next frame'), counters(0, 1, 0, 0),
        frame(6, data=OTHER), frame(4, data='00'), counters(0, 1, 0, 0), ('grant 0', 'grant 0', ''), frame(0), counters(1, 1, 0, 0),
        ('grant 0', 'grant 0', ''), (f'burst 4 {FRAME} 0 64 0 64 0 65 0 63', 'burst 0 0 8 16 4', '', POLLS_THERE), counters(2, 2, 0, 0),
        ('burst 1 - 0 0 0 0', 'burst 16 99', ''), lend(60), frame(11), (f'burst 1 {FRAME} 0 64', 'burst 0 11', ''),
        lend(4096), counters(2, 2, 0, 0),
        # a send that meets 8 loses no frame
        write(0x3c, 0x801), poke(0x800, 0x400e, 0x900, 0x801, 0), STARTS, ('send 1518', 'send 8 -', '', POLLS), counters(2, 2, 0, 0),
        GRANT, send(), counters(2, 2, 1, 0),
        # 8 without polling stops receiving, and is a loss all the same
        write(0x10, 0, 'receiving stops'), write(0x1c, 0), write(0x10, 5, 'receiving starts at 00000000, polling off'),
        frame(8, 'polling is off for this place, by RXNDAR: receiving stops'), frame(3, 'receiving is stopped since line 36'),
        counters(2, 3, 1, 0),
    ],
    # all is 0 on a new bench, also where its window is not allowed
    'a new bench': [
        *LOOPED, write(0x48, 9), STARTS, send(), GRANT, tick(1), counters(0, 0, 1, 1),
        NEW, counters(0, 0, 0, 0, since=10), read(0x48, 0), *LOOPED[1:], STARTS, not_counted('TXTOR is 0'), write(0x48, 9),
        tick(1), send(CLEARED(1)), ('new 0 60', 'new 1', ''), counters(0, 0, 0, 0, since=20), read(0x48, 0),
        write(0x48, 1), write(0x3c, 0), write(0x30, 5, 'sending starts at 00000000, polling off'),
        not_counted('the descriptor at 00000000 is not all in the window'), lend(60), refused(0), counters(0, 0, 0, 0, since=20),
    ],
    'the line': [
        *PLACED, write(0x48, 1), write(4, 0x80000), STARTS, ('line', 'line 0', ''), tick(1), ('line', 'line 0', ''), fires('2nd', 1),
        ('line', 'line 1', ''), ('vread 0 8', 'vread 0 00000800', ''), tick(1), ('line', 'line 1', ''), write(8, 0x80000),
        ('line', 'line 0', ''), fires('2nd', 1, 10), ('line', 'line 1', ''), write(4, 0), ('line', 'line 0', ''), read(8, 0xd0001),
    ],
}

# of some of these days, rows of the totals, and of the last lines
TOTALS = {
    'a value of 3': ['ticks made 9', 'ticks refused 0', 'TX_TO set 2'],
    'refused': ['ticks made 2', 'ticks refused 3', 'TX_TO set 1'],
    'what does not count': ['ticks made 10', 'TX_TO set 0'],
}

# ---- where the report cannot know: the days begin with a fault, or without a new bench; none of the lines behind is a fault

FAULT = 'grant 0', 'grant 17', ''
COUNT_UNKNOWN, VALUE_UNKNOWN = 'what the tick count was is not known', 'what TXTOR holds is not known'
RUNS_UNKNOWN, GRANT_UNKNOWN = 'whether sending runs is not known', 'whether the descriptor at 00000800 is granted is not known'
WINDOW_UNKNOWN = 'whether the descriptor at 00000800 is in the window is not known'
MAY_SET = ', nor whether this sets TX_TO'
AT = 'state', 'state 0 00000000 1 00000800', ''


def unknown(why):
    return tick('not known', why)


def told(delivered, lost, sent, count, counted, since="the script's first line"):
    """Counters that are others than those counted, where that need not be a fault."""
    return counters(delivered, lost, sent, count, f'counted from the answers since {since}: {counted}')


# the start word of the descriptor at 108 is the packet status of that at 100: where a frame lies is not known behind a delivery, nor
# then what it left of any descriptor
LOST_TRACK = [NEW, poke(0x108, 0x4600, 0x400, 0x201, 0x10000), ('grant 100', 'grant 0', ''), write(0x1c, 0x109),
              write(0x10, 5, 'receiving starts at 00000108, polling on'), poke(0x800, *DESCRIPTOR), write(0x3c, 0x801)]
UNSURE = {
    'without a new bench': [
        unknown(RUNS_UNKNOWN + MAY_SET), refused(), AT, unknown(WINDOW_UNKNOWN + MAY_SET), write(0x48, 3),
        unknown(WINDOW_UNKNOWN + MAY_SET),
        RETURN, not_counted('the descriptor at 00000800 is not granted'), GRANT, unknown(WINDOW_UNKNOWN), unknown(WINDOW_UNKNOWN),
        unknown(WINDOW_UNKNOWN), unknown(WINDOW_UNKNOWN + MAY_SET), told(7, 8, 9, 2, '0 delivered, 0 lost, 0 sent'),
        unknown(WINDOW_UNKNOWN), write(0x48, 0), counters(0, 0, 0, 0, "as counted from the answers since the script's first line"),
        not_counted('TXTOR is 0'), write(0x30, 0, 'sending stops'), write(0x48, 3), not_counted('sending is stopped since line 19'),
    ],
    'a read of the register': [
        read(0x48, 0), not_counted('TXTOR is 0'), counters(0, 0, 0, 0, "as counted from the answers since the script's first line"),
    ],
    'a read that tells the value': [read(0x48, 3), unknown(RUNS_UNKNOWN + MAY_SET), read(0x48, 3)],
    'behind a fault': [
        *PLACED, write(0x48, 3), STARTS, tick(1), send(CLEARED(1)), FAULT, unknown(RUNS_UNKNOWN + MAY_SET), read(0x48, 0x1234),
        told(5, 0, 1, 77, '0 delivered, 0 lost, 1 sent', 'the new bench on line 1'),
        frame(0), counters(1, 0, 1, 77, 'as counted from the answers since the new bench on line 1'),
        NEW, counters(0, 0, 0, 0, since=14), not_counted('TXTOR is 0'),
    ],
    # the length that is lent is known, and that of the window is not
    'lent without a new bench': [lend(60), unknown(RUNS_UNKNOWN + MAY_SET), refused(), lend(4096), unknown(RUNS_UNKNOWN + MAY_SET)],
    'at their stop': [
        counters(STOP, 1, STOP, 0, "counted from the answers since the script's first line: 0 delivered, 0 lost, 0 sent",
                 'no further than 4,294,967,295: delivered and sent'),
    ],
    'a status word that a frame may lie over': [
        *LOST_TRACK, write(0x48, 2), STARTS, tick(1), frame(0), tick('not known', GRANT_UNKNOWN), tick('not known', GRANT_UNKNOWN + MAY_SET),
        ('line', 'line 0', ''), GRANT, tick('not known', COUNT_UNKNOWN), tick('not known', COUNT_UNKNOWN + MAY_SET), counters(1, 0, 0, 2),
        fires('3rd', 2), tick(1),
    ],
    # the same of one that a call granted; and a byte of the word the call wrote
    'granted by a call before': [
        *LOST_TRACK, RETURN, ('grant 800', 'grant 0', ''), write(0x48, 9), STARTS, tick(1), frame(0), tick('not known', GRANT_UNKNOWN),
    ],
    'a byte of a status word': [
        *LOOPED, RETURN, ('grant 800', 'grant 0', ''), write(0x48, 9), STARTS, tick(1), ('poke 80e 00', 'poke ok', ''),
        tick('not known', GRANT_UNKNOWN), RETURN, not_counted(NOT_GRANTED),
    ],
    # the count is 0 behind it whether the tick counts or not; TX_TO is in doubt, and from which time-out on the next row goes
    'a bit in doubt': [
        *LOST_TRACK, write(0x48, 1), write(4, 0x80000), STARTS, tick(1), fires('2nd', 1), write(8, 0x80000), tick(1), frame(0),
        tick(0, GRANT_UNKNOWN + MAY_SET), ('line', 'line 1', ''), read(8, 0xd8001), write(8, 0x80000), GRANT, counters(1, 0, 0, 0),
        tick(1), fires('2nd', 1),
    ],
    # every count that there can be is above
    'a later one': [
        *LOST_TRACK, write(0x48, 9), STARTS, frame(0), tick('not known', GRANT_UNKNOWN), GRANT, tick('not known', COUNT_UNKNOWN), write(0x48, 1),
        ('tick', 'tick 0', 'tick -> 0 done: TX_TO is set, the tick count is 0', 'a later tick in a row without a send, TXTOR is 1'),
        counters(1, 0, 0, 0),
    ],
}
UNSURE_TOTALS = {'without a new bench': ['ticks made 11', 'ticks refused 1', 'TX_TO set 0', 'not known 4 ticks that may have set TX_TO']}

# ---- answers that the rules do not allow: what is wrong, the lines before, the line with its wrong answer, and the fault

COUNTING = [*PLACED, write(0x48, 1), write(4, 0x80000), STARTS, tick(1)]
FIRED = [*COUNTING, tick(0)]
IN = [NEW, poke(0, 0x4600, 0x100, 0x1, 0x10000), write(0x1c, 1), write(0x10, 5)]
FRAMES = [*IN, frame(0), frame(8), frame(8), ('write 3c 800', 'write 0', ''), poke(0x800, *DESCRIPTOR), START, send()]
BENCH = 'the new bench on line 1'
WRONG = [
    ('a tick that is refused', COUNTING, refused(), '11, yet 4096 bytes are lent of a window of 4096'),
    ('a tick that is not refused', [*COUNTING, lend(4092)], tick(2), '0, yet 4092 bytes are lent of a window of 4096'),
    ('another refusal', COUNTING, ('tick', 'tick 3', ''), '3, yet a tick is refused by 11 alone'),
    ('a register that is not there', [NEW], ('write 48 1', 'write 2', ''), '2, yet TXTOR is modelled, and always written'),
    ('a register that is not read', [NEW], ('read 48', 'read 2 00000000', ''), '2, yet TXTOR is modelled, and always written'),
    ('a register that is not written', COUNTING, ('write 48 1', 'write 15', ''), '15, yet TXTOR is modelled'),
    ('a register that is read otherwise', COUNTING, read(0x48, 2), '00000002, yet by the calls before it is 00000001'),
    ('a register that keeps its upper half', [NEW, write(0x48, 0x10001)], read(0x48, 0x10001), '00010001, yet TXTOR has 16 bits'),
    ('a register at reset', [NEW], read(0x48, 1), '00000001, yet by the calls before it is 00000000'),
    ('a time-out that comes too early', COUNTING, read(8, 0xd0001), '000d0001, yet by the calls before: TX_TO not set'),
    ('a time-out that does not come', FIRED, read(8, 0x50001), '00050001, yet by the calls before: TX_TO set'),
    ('a time-out as RX_TO', FIRED, read(8, 0x50009), 'yet by the calls before: TX_TO set'),
    ('a time-out that does not interrupt', FIRED, ('line', 'line 0', ''), '0, yet set and enabled: TX_TO'),
    ('a time-out without a register', [*PLACED, START, write(4, 0x80000), tick(0)], ('line', 'line 1', ''), '1, yet no status bit'),
    ('a tick that did not count', COUNTING, counters(0, 0, 0, 0), f'a tick count of 0, followed 1, since {BENCH}'),
    ('a tick that counted twice', COUNTING, counters(0, 0, 0, 2), f'a tick count of 2, followed 1, since {BENCH}'),
    ('a count that did not start again', FIRED, counters(0, 0, 0, 2), f'a tick count of 2, followed 0, since {BENCH}'),
    ('a count that a send left', [*COUNTING, send()], counters(0, 0, 1, 1), 'a tick count of 1, followed 0'),
    ('a count that 0 in the register left', [*COUNTING, write(0x48, 0)], counters(0, 0, 0, 1), 'a tick count of 1, followed 0'),
    ('a count that the register cleared', [*COUNTING, write(0x48, 5)], counters(0, 0, 0, 0), 'a tick count of 0, followed 1'),
    ('a count that a refused tick changed', [*COUNTING, lend(0), refused()], counters(0, 0, 0, 2), 'a tick count of 2, followed 1'),
    ('a count of a send that is not granted', [*COUNTING, RETURN, tick(0)], counters(0, 0, 0, 1), 'a tick count of 1, followed 0'),
    ('a count that is kept where nothing waits', [*COUNTING, write(0x30, 0), tick(0)], counters(0, 0, 0, 1), 'followed 0'),
    ('a count of a new bench', [NEW], counters(0, 0, 0, 1), 'a tick count of 1, followed 0'),
    ('one delivered too many', FRAMES, counters(2, 2, 1, 0), f'2 delivered, counted 1, since {BENCH}'),
    ('one delivered too few', FRAMES, counters(0, 2, 1, 0), f'0 delivered, counted 1, since {BENCH}'),
    ('one lost too many', FRAMES, counters(1, 3, 1, 0), f'3 lost, counted 2, since {BENCH}'),
    ('none lost', FRAMES, counters(1, 0, 1, 0), f'0 lost, counted 2, since {BENCH}'),
    ('none sent', FRAMES, counters(1, 2, 0, 0), f'0 sent, counted 1, since {BENCH}'),
    ('two exchanged', FRAMES, counters(2, 1, 1, 0), f'2 delivered, counted 1; 1 lost, counted 2, since {BENCH}'),
    ('all different', FRAMES, counters(0, 1, 2, 3),
     '0 delivered, counted 1; 1 lost, counted 2; 2 sent, counted 1; a tick count of 3, followed 0'),
    ('counters at their stop', FRAMES, counters(STOP, 2, 1, 0), f'{STOP} delivered, counted 1'),
    ('counters above their stop', FRAMES, counters(1, STOP + 1, 1, 0), '4294967296, yet a counter stops at 4,294,967,295'),
    ('counters of the bench before', [*FRAMES, NEW], counters(1, 2, 1, 0),
     '1 delivered, counted 0; 2 lost, counted 0; 1 sent, counted 0'),
    ('a send that meets 8 as lost', [*PLACED, RETURN, START, ('send 1518', 'send 8 -', '')], counters(0, 1, 0, 0), '1 lost, counted 0'),
    ('a burst as one frame', [*IN, (f'burst 3 {FRAME} 0 64 0 64 0 64', 'burst 0 0 8 8', '')], counters(1, 1, 0, 0), '1 lost, counted 2'),
    ('a refused frame', [*IN, frame(6, data=OTHER)], counters(0, 1, 0, 0), '1 lost, counted 0'),
    ('the last step of a run', [*PLACED, START, ('run 4 8192', f'run 3 2 64 {SENT}', '')], counters(0, 0, 2, 0), '2 sent, counted 1'),
]
# behind one that is wrong, nothing is claimed
ANYTHING = [tick('not known', RUNS_UNKNOWN + MAY_SET), refused(), read(0x48, 0x77), read(8, 0), ('line', 'line 1', '')]


def fault(name, line, answer, wanted):
    """As the other faults of the report's test."""
    return name, *texts([NEW, (line, answer)]), wanted


def no_answer(name, line, answer):
    return fault(name, line, answer, f'line 2: "{answer}" does not answer "{line}"')


FAULTS = [
    no_answer('a tick without a number', 'tick', 'tick'),
    no_answer('a tick with two', 'tick', 'tick 0 0'),
    no_answer('a tick cut', 'tick', 'tic'),
    no_answer('a tick that answers a grant', 'tick', 'grant 0'),
    fault('a tick with no numbered result', 'tick', 'tick 17', '17 is no numbered result'),
    fault("a tick with a burst's number", 'tick', 'tick 16', '16 answers nothing but a burst'),
    no_answer('three counters', 'counters', 'counters 0 0 0'),
    no_answer('five counters', 'counters', 'counters 0 0 0 0 0'),
    no_answer('counters with a number', 'counters', 'counters'),
    no_answer('a counter below 0', 'counters', 'counters 0 -1 0 0'),
    no_answer('a counter with a zero in front', 'counters', 'counters 0 0 01 0'),
    no_answer('a counter in hexadecimal', 'counters', 'counters 0 0 0 a'),
    no_answer('a counter of eleven digits', 'counters', 'counters 10000000000 0 0 0'),
    no_answer('counters with two blanks', 'counters', 'counters 0 0  0 0'),
    ('a count above 16 bits', *texts([counters(0, 0, 0, 65536)]), 'a tick count of 65536, yet TXTOR has 16 bits'),
    ('a count where the register is 0', *texts([read(0x48, 0), counters(0, 0, 0, 5)]),
     'a tick count of 5, yet by the calls before it is 0'),
    ('one of two counts', *texts([*LOST_TRACK, write(0x48, 9), START, frame(0), tick(0), counters(1, 0, 0, 2)]),
     'a tick count of 2, followed 0 or 1, since the new bench on line 1'),
    fault('a tick with a word', 'tick 1', 'tick 0', '"tick 1" is no call known here'),
    fault('counters with a word', 'counters 0', 'counters 0 0 0 0', '"counters 0" is no call known here'),
]

# ---- what a line says by itself, before which nothing is known

WORDS = [
    (*write(0x48, 0)[:2], 'TXTOR (send time-out): no time-out, ticks are not counted'),
    (*write(0x48, 0x30000)[:2], 'TXTOR (send time-out): no time-out, ticks are not counted'),
    *((*write(0x48, n)[:2], f'TXTOR (send time-out): TX_TO at the {row} tick in a row without a send')
      for n, row in [(1, '2nd'), (2, '3rd'), (3, '4th'), (9, '10th'), (10, '11th'), (11, '12th'), (12, '13th'), (20, '21st'), (21, '22nd'),
                     (110, '111th'), (120, '121st'), (0xffff, '65536th'), (0x70001, '2nd')]),
    (*read(0x48, 1)[:2], 'TXTOR (send time-out) is 00000001: TX_TO at the 2nd tick in a row without a send'),
    (*write(0x48, 0)[:2], 'no time-out, ticks are not counted'),
    (*read(0x48, 0)[:2], 'TXTOR (send time-out) is 00000000: no time-out, ticks are not counted'),
    (*write(4, 0x80000)[:2], 'IER (interrupt enable): enables TX_TO'),
    (*write(8, 0x80000)[:2], 'ISR (interrupt status): clears TX_TO'),
]

# ---- the last lines of a report: the lines, whether the report has faults, and the rows behind the heading

AGREE, ASKED_NOT = f'The counters on line {{}} agree with the answers since {BENCH}.'.format, 'The script did not ask for the counters since '
DIFFER = f'The counters on line {{}} DIFFER from the answers since {BENCH}: {{}}.'.format
UNTOLD = 'Lines that could not be told are not counted.'


def table(device, report, *count):
    """The rows of the counters, of the device and of the report; of the tick count where the device told it."""
    rows = [f'frames {kind} {there} {here}' for kind, there, here in zip(('delivered', 'lost', 'sent'), device, report)]
    return ['device report', *rows, *(f'tick count {words}' for words in count)]


AT_FRAMES = len(FRAMES) + 1
LAST = {
    'they agree': ([*FRAMES, counters(1, 2, 1, 0)], 0, [*table([1, 2, 1], [1, 2, 1], '0 0'), AGREE(AT_FRAMES)]),
    'one differs': ([*FRAMES, counters(1, 2, 3, 0)], 1,
                    [*table([1, 2, 3], [1, 2, 1], '0 0'), DIFFER(AT_FRAMES, '3 sent, counted 1'), UNTOLD]),
    'all differ': ([*FRAMES, counters(2, 3, 4, 5)], 1,
                   [*table([2, 3, 4], [1, 2, 1], '5 0'),
                    DIFFER(AT_FRAMES, '2 delivered, counted 1; 3 lost, counted 2; 4 sent, counted 1; a tick count of 5, followed 0'),
                    UNTOLD]),
    'the tick count differs': ([*COUNTING, counters(0, 0, 0, 9)], 1,
                               [*table([0, 0, 0], [0, 0, 0], '9 1'),
                                DIFFER(len(COUNTING) + 1, 'a tick count of 9, followed 1'), UNTOLD]),
    'a tick count': ([*COUNTING, counters(0, 0, 0, 1)], 0, [*table([0, 0, 0], [0, 0, 0], '1 1'), AGREE(len(COUNTING) + 1)]),
    'frames behind them': ([*FRAMES, counters(1, 2, 1, 0), frame(8), frame(8), poke(0, 0x4600, 0x100, 1, 0x10000), frame(0),
                            GRANT, START, send()], 0,
                           [*table([1, 2, 1], [1, 2, 1], '0 0'), AGREE(AT_FRAMES),
                            'Behind that line, and not compared: 1 delivered, 2 lost, 1 sent.']),
    'only a tick behind them': ([*COUNTING, counters(0, 0, 0, 1), tick(0)], 0,
                                [*table([0, 0, 0], [0, 0, 0], '1 1'), AGREE(len(COUNTING) + 1)]),
    'the last of two': ([*IN, counters(0, 0, 0, 0), frame(0), counters(1, 0, 0, 0)], 0,
                        [*table([1, 0, 0], [1, 0, 0], '0 0'), AGREE(len(IN) + 3)]),
    # a fault is no end: behind it the report counts on from what it has
    'the first of two differs': ([*IN, counters(1, 0, 0, 0), frame(0), counters(2, 0, 0, 0)], 1,
                                 [*table([2, 0, 0], [1, 0, 0], '0 not known'), DIFFER(len(IN) + 3, '2 delivered, counted 1'), UNTOLD]),
    'not asked': (FRAMES, 0, [*table('---', [1, 2, 1]), f'{ASKED_NOT}{BENCH}.']),
    'an empty day': ([], 0, [*table('---', [0, 0, 0]), f"{ASKED_NOT}the script's first line."]),
    'asked of the bench before': ([*FRAMES, counters(1, 2, 1, 0), NEW, *IN[1:], frame(0)], 0,
                                  [*table('---', [1, 0, 0]), f'{ASKED_NOT}the new bench on line {AT_FRAMES + 1}.']),
    'of the last bench': ([*FRAMES, NEW, counters(0, 0, 0, 0)], 0,
                          [*table([0, 0, 0], [0, 0, 0], '0 0'),
                           f'The counters on line {AT_FRAMES + 1} agree with the answers since the new bench on line {AT_FRAMES}.']),
    'no bench, yet they agree': ([frame(0), counters(1, 0, 0, 7)], 0,
                                 [*table([1, 0, 0], [1, 0, 0], '7 not known'),
                                  "The counters on line 2 agree with the answers since the script's first line."]),
    'no bench': ([frame(0), counters(5, 0, 0, 7)], 0,
                 [*table([5, 0, 0], [1, 0, 0], '7 not known'),
                  "The counters on line 2 DIFFER from the answers since the script's first line: 5 delivered, counted 1."]),
    'a frame that could not be told': ([*IN, frame(17), counters(1, 0, 0, 0)], 1,
                                       [*table([1, 0, 0], [0, 0, 0], '0 not known'), DIFFER(len(IN) + 2, '1 delivered, counted 0'), UNTOLD]),
    'counters that could not be told': ([*FRAMES, ('counters', 'counters 1 2 1', '')], 1,
                                        [*table('---', [1, 2, 1]), f'No answer to counters could be told since {BENCH}.', UNTOLD]),
    'counters that could not be told, behind others': ([*FRAMES, counters(1, 2, 1, 0), ('counters', 'counters 1 2', '')], 1,
                                                       [*table([1, 2, 1], [1, 2, 1], '0 0'), AGREE(AT_FRAMES), UNTOLD]),
    'a line that was not taken': ([*IN, ('tic', f'error {len(IN) + 1}', ''), counters(0, 0, 0, 0)], 1,
                                  [*table([0, 0, 0], [0, 0, 0], '0 0'), AGREE(len(IN) + 2)]),
    'at their stop': ([counters(STOP, 0, STOP, 0)], 0,
                      [*table([STOP, 0, STOP], [0, 0, 0], '0 not known'),
                       "The counters on line 1 DIFFER from the answers since the script's first line: "
                       f'{STOP} delivered, counted 0; {STOP} sent, counted 0.',
                       'A counter goes no further than 4,294,967,295: delivered and sent.']),
}

# the report's own count, the device's counters, and whether they agree: a counter stops
STOPS = [
    ([STOP, 0, 0], [STOP, 0, 0], True),
    ([STOP + 1, 0, 0], [STOP, 0, 0], True),
    ([2 * STOP, STOP, STOP + 9], [STOP, STOP, STOP], True),
    ([STOP - 1, 0, 0], [STOP - 1, 0, 0], True),
    ([STOP - 1, 0, 0], [STOP, 0, 0], False),
    ([STOP, 0, 0], [STOP - 1, 0, 0], False),
    ([STOP + 1, 0, 0], [0, 0, 0], False),
]

# ---- examples/ticks.txt: what it says of ticks, and what it comes to

EXAMPLE = [
    'tick -> 0 done: the tick count is 0', 'not counted: TXTOR is 0',
    'tick -> 0 done: the tick count is 0', 'not counted: sending was not started yet',
    *(f'tick -> 0 done: the tick count is {n}' for n in (1, 2, 3)),
    "tick -> 11 refused: lent memory not of the window's length", STAYS(3),
    'tick -> 0 done: TX_TO is set, the tick count is 0', 'the 4th tick in a row without a send, TXTOR is 3',
    'tick -> 0 done: the tick count is 1', CLEARED(1),
    'tick -> 0 done: the tick count is 0', 'not counted: the descriptor at 20000810 is not granted',
    'tick -> 0 done: the tick count is 1', 'tick -> 0 done: the tick count is 2', CLEARED(2),
    'tick -> 0 done: the tick count is 0', 'not counted: sending is stopped since line 79',
]
EXAMPLE_TOTALS = ['ticks made 11', 'ticks refused 1', 'TX_TO set 1', 'frames delivered 2 128 bytes', 'frames lost 1 64 bytes',
                  'frames sent 2 128 bytes', 'interrupts taken 1', 'interrupts ended 1']
EXAMPLE_LAST = [*table([2, 1, 2], [2, 1, 2], '0 0'), 'The counters on line 94 agree with the answers since the new bench on line 9.']
