"""The words of a report: numbered results, registers, frames and descriptors."""
import zlib

# document 01, "Numbered results", the column "Given when"; from 16 on document 02
NUMBERS = [
    'done',
    'window not allowed',
    'register not modelled',
    'that engine is not running',
    'frame under 64 or over 1,518 bytes',
    'frame check sequence wrong',
    'address not for this station',
    'chain fault',
    'descriptor not granted',
    'output shorter than 1,518 bytes',
    'step allowance over 4,096',
    "lent memory not of the window's length",
    'send length under 14 or over 1,514',
    # for reading also: no frame to show
    'descriptor not at a multiple of 4 or not all in the window',
    'descriptor already granted',
    'next-descriptor register written while its engine runs',
    # of one pair of a burst; of a whole burst WHOLE_BURST
    "pair passes the store's end",
]
WHOLE_BURST = 'more than 64 pairs, or an answer list of another length'

# what a refusal changes, where it changes anything; what 8 does is in tell_frame, and in engines.py
LEAVES = {
    1: 'the reset state, no window',
    7: 'that engine stops',
    12: 'sending stops',
}

# the send time-out: its register, and the bits that it has
TIME_OUT, TIME_OUT_BITS = 0x48, 0xffff
# the filter registers
MAC_CONTROL, ADDRESS_HIGH, ADDRESS_LOW, HASH_HIGH, HASH_LOW = 0x400, 0x404, 0x408, 0x40c, 0x410
# offset: short name, name
REGISTERS = {
    0x04: ('IER', 'interrupt enable'),
    0x08: ('ISR', 'interrupt status'),
    0x10: ('RXSTR', 'receive start'),
    0x1c: ('RXNDAR', 'receive next descriptor'),
    0x30: ('TXSTR', 'send start'),
    0x3c: ('TXNDAR', 'send next descriptor'),
    TIME_OUT: ('TXTOR', 'send time-out'),
    MAC_CONTROL: ('MCR', 'MAC control'),
    ADDRESS_HIGH: ('MAH', 'MAC address high'),
    ADDRESS_LOW: ('MAL', 'MAC address low'),
    HASH_HIGH: ('MCHA', 'multicast hash high'),
    HASH_LOW: ('MCLA', 'multicast hash low'),
}

INTERRUPTS = [
    ('TX_CURR_DONE', 31, 31), ('MAC-802.3_INT', 28, 28), ('TX_MERR_INT', 25, 25), ('TX_DONE', 23, 23),
    ('TX_NEXT', 22, 22), ('TX_TO', 19, 19), ('TX_ENTRY', 18, 18), ('TX_FULL', 17, 17), ('TX_EMPTY', 16, 16),
    ('RX_CURR_DONE', 15, 15), ('RX_MERR_INT', 9, 9), ('RX_DONE', 7, 7), ('RX_NEXT', 6, 6), ('PACKET_LOST', 5, 5),
    ('RX_TO', 3, 3), ('RX_ENTRY', 2, 2), ('RX_FULL', 1, 1), ('RX_EMPTY', 0, 0),
]
STATUS_BITS = {name: 1 << bit for name, bit, _ in INTERRUPTS}

# fields by name, highest and lowest bit (docs/REGISTERS.md)
FIELDS = {
    'IER': INTERRUPTS,
    'ISR': INTERRUPTS,
    'RXSTR': [('DFETCH_DLY', 23, 8), ('COLL_SEEN', 7, 7), ('RUNT_FRAME', 6, 6), ('FILTER_FAIL', 5, 5),
              ('START_FETCH', 2, 2), ('DMA_EN', 0, 0)],
    'TXSTR': [('DFETCH_DLY', 23, 8), ('UNDER_RUN', 5, 5), ('START_FETCH', 2, 2), ('DMA_EN', 0, 0)],
    'MCR': [('RA', 31, 31), ('EN', 30, 30), ('PS', 25, 24), ('DRO', 23, 23), ('LM', 22, 21), ('FDM', 20, 20),
            ('AFM', 19, 17), ('PWF', 16, 16), ('VFM', 15, 15), ('ELC', 12, 12), ('DBF', 11, 11), ('DPR', 10, 10),
            ('RVFF', 9, 9), ('APR', 8, 8), ('BL', 7, 6), ('DCE', 5, 5), ('RVBE', 4, 4), ('TE', 3, 3), ('RE', 2, 2),
            ('RCFA', 0, 0)],
}

# filter modes that take groups, by their field of MAC control
MULTICAST_HASH, ALL_MULTICAST = 0b001, 0b101
MODES = {MULTICAST_HASH: 'multicast by hash', ALL_MULTICAST: 'all-multicast on'}

DMA_EN, START_FETCH, NEXT_ENABLE, VALID = 1 << 0, 1 << 2, 1 << 14, 1 << 16
# of the packet status word of a delivered frame: its length, and the bits of its reason
FRAME_LENGTH, MULTICAST_FRAME, BROADCAST_FRAME = 0x7ff, 1 << 27, 1 << 28
# why a frame is taken, in the order of document 02; those with a bit
OWN, BROADCAST_RULE, GROUP, RECEIVE_ALL = REASONS = 'own address', 'broadcast', 'group', 'receive-all'
REASON_BITS = {BROADCAST_RULE: BROADCAST_FRAME, GROUP: MULTICAST_FRAME}
# next-polling enable, of a next-descriptor register and of a descriptor's next word
NPOL_EN = 1 << 0
# how many bytes a descriptor has; words of it, by their first byte
DESCRIPTOR, NEXT_WORD, STATUS_WORD = 16, 8, 12
BROADCAST = b'\xff' * 6
LONGEST_TEXT = 52


def count(n, noun):
    """1 frame, 2 frames."""
    return f'{n} {noun}' if n == 1 else f'{n} {noun}s'


def nth(n):
    """1st, 2nd, 3rd, 4th."""
    return f'{n}{"th" if n // 10 % 10 == 1 else {1: "st", 2: "nd", 3: "rd"}.get(n % 10, "th")}'


def on(flag):
    return 'on' if flag else 'off'


def answer(number, done=''):
    """A numbered result: what was done, or the words of its refusal."""
    if number == 0:
        return f'0 done: {done}' if done else '0 done'
    left = f'; {LEAVES[number]}' if number in LEAVES else ''
    return f'{number} refused: {NUMBERS[number]}{left}'


def became(answers):
    """What became of a burst's pairs, by their answers."""
    delivered, lost, outside = (answers.count(number) for number in (0, 8, 16))
    refused = len(answers) - delivered - lost - outside
    return f'{delivered} delivered, {lost} lost, {refused} refused, {outside} outside'


# ---- registers

def register(offset):
    if offset not in REGISTERS:
        return f'the register at {offset:x}'
    short, name = REGISTERS[offset]
    return f'{short} ({name})'


def fields(short, value):
    """The fields of a register that are not 0, the highest first."""
    found = []
    for name, high, low in FIELDS[short]:
        field = value >> low & (1 << high - low + 1) - 1
        if field:
            found.append(name if high == low else f'{name}={field}')
    return ', '.join(found) or 'no bit set'


def receive_all(control):
    return control >> 31 & 1 == 1


def filter_mode(control):
    return control >> 17 & 7


def address_filter(control):
    """What the address rule takes from MAC control."""
    return f'receive-all {on(receive_all(control))}, {MODES.get(filter_mode(control), "all-multicast off")}'


def hashes(control, destination):
    """Whether the address rule asks the hash registers."""
    group = destination[0] & 1 == 1 and destination != BROADCAST
    return group and not receive_all(control) and filter_mode(control) == MULTICAST_HASH


def hash_place(destination):
    """Which hash register has a group's bit, its offset, and which bit that is, by the 802.3 register: zlib's is kept the
    other way round, and complemented at the end."""
    coefficients = f'{zlib.crc32(destination) ^ 0xffffffff:032b}'[::-1]
    return HASH_HIGH if coefficients[0] == '1' else HASH_LOW, int(coefficients[1:6], 2)


def hash_bit(destination):
    offset, bit = hash_place(destination)
    return f'{REGISTERS[offset][0]} bit {bit}'


def bits(value):
    """The bits that are set, the highest first."""
    found = [str(k) for k in reversed(range(32)) if value >> k & 1]
    if len(found) in (0, 32):
        return 'all bits set' if found else 'no bit set'
    return f'bit{"" if len(found) == 1 else "s"} {", ".join(found)} set'


def time_out(ticks):
    """What the send time-out says: so many ticks in a row are let pass."""
    return f'TX_TO at the {nth(ticks + 1)} tick in a row without a send' if ticks else 'no time-out, ticks are not counted'


def holds(offset, value):
    """What a register's value says."""
    short, _ = REGISTERS.get(offset, ('', ''))
    if short == 'MCR':
        return f'{fields(short, value)}; {address_filter(value)}'
    if short in FIELDS:
        return fields(short, value)
    if short == 'MAL':
        return f'the station address begins {hyphens(value.to_bytes(4, "little"))}'
    if short == 'MAH':
        return f'the station address ends {hyphens((value & 0xffff).to_bytes(2, "little"))}'
    if short in ('RXNDAR', 'TXNDAR'):
        return f'address {address(value):08x}, polling {on(polls(value))}'
    if short in ('MCHA', 'MCLA'):
        return bits(value)
    if short == 'TXTOR':
        return time_out(value & TIME_OUT_BITS)
    return 'not known to this report'


def takes(offset, value):
    """What a value does that is written to a register."""
    short, _ = REGISTERS.get(offset, ('', ''))
    if short == 'ISR':
        return f'clears {fields(short, value)}' if value else 'clears nothing'
    if short == 'IER':
        return f'enables {fields(short, value)}' if value else 'enables nothing'
    return holds(offset, value)


# ---- bytes

def hyphens(data):
    """02-00-00-00-00-01"""
    return data.hex('-').upper()


def text(data):
    """The line of text that bytes hold before their closing zeros, in quotation marks; nothing, where they hold no such."""
    line = data.rstrip(b'\0').removesuffix(b'\n')
    if not line or any(byte < 0x20 or 0x7e < byte for byte in line):
        return ''
    shown = line.decode('ascii')
    return f'"{shown}"' if len(shown) <= LONGEST_TEXT else f'"{shown[:LONGEST_TEXT]}.."'


def message(data, check, control=0):
    """A frame in a few words. Its last `check` bytes are its check sequence. With MAC control as a frame comes in, the bit
    is told that decides on it."""
    words = [count(len(data), 'byte')]
    if 14 + check <= len(data):
        to, kind = data[:6], data[12:14].hex().upper()
        words.append(f'to {hyphens(to)}' + (f' ({hash_bit(to)})' if hashes(control, to) else ''))
        words.append(f'{kind} {text(data[14:len(data) - check])}'.rstrip())
    return ', '.join(words)


# ---- descriptors

def address(value):
    """An address is taken with the low two bits cleared."""
    return value & 0xfffffffc


def polls(value):
    """Whether a next-descriptor register or a next word leads to its place with polling."""
    return value & NPOL_EN == NPOL_EN


def word(data, at):
    return int.from_bytes(data[at:at + 4], 'little')


def owner(status):
    """Who has a descriptor, by its packet status word."""
    return 'granted' if status & VALID else 'returned'


def delivered(length, reason):
    """The packet status word that a delivery leaves, None where the reason is not known."""
    return None if reason is None else length | REASON_BITS.get(reason, 0)


def status(value):
    """A packet status word: who has the descriptor, and, of one that is returned, what it says of a delivered frame."""
    said = [(f'length {value & FRAME_LENGTH}', FRAME_LENGTH), ('broadcast', BROADCAST_FRAME), ('multicast', MULTICAST_FRAME)]
    return ', '.join([owner(value)] + [words for words, bits in said if value & bits and not value & VALID])


def leads(following):
    """Where a next word leads."""
    return f'{address(following):08x} {"with" if polls(following) else "without"} polling'


def descriptor(data):
    """Sixteen bytes as a descriptor."""
    control, start, following, status = (word(data, at) for at in (0, 4, NEXT_WORD, STATUS_WORD))
    linked = f'next {leads(following)}' if control & NEXT_ENABLE else 'no next'
    return f'count {control & 0xfff}, start {start:08x}, {linked}, {owner(status)}'
