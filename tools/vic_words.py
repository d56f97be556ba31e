"""The words of the interrupt controllers: registers by RM0006 chapter 4's names, inputs by its Table 13."""
import wording

SLOTS = range(16)
# offset: short name behind VIC0_ or VIC1_, name
REGISTERS = {
    0x000: ('ISR', 'IRQ status'),
    0x004: ('FSR', 'FIQ status'),
    0x008: ('RINTSR', 'raw interrupt status'),
    0x00c: ('INTSR', 'interrupt select'),
    0x010: ('INTER', 'interrupt enable'),
    0x014: ('INTECR', 'interrupt enable clear'),
    0x018: ('SWINTR', 'software interrupt'),
    0x01c: ('SWINTCR', 'software interrupt clear'),
    0x020: ('PER', 'protection enable'),
    0x030: ('VAR', 'current vector address'),
    0x034: ('DVAR', 'default vector address'),
    **{0x100 + 4 * i: (f'VA{i}R', f'vector address {i}') for i in SLOTS},
    **{0x200 + 4 * i: (f'VC{i}R', f'vector control {i}') for i in SLOTS},
}
READ_ONLY = ('ISR', 'FSR', 'RINTSR')
# registers in which a bit of a write acts on the input of its number, and what the write does to it
ACTS = {'INTER': 'enables', 'INTECR': 'disables', 'SWINTR': 'raises', 'SWINTCR': 'no longer raises'}

# of a control
SLOT_ENABLE, SLOT_INPUT = 1 << 5, 0xf
INPUTS = 0xffff

SOURCES = [
    ['watchdog', 'software', 'debug receive', 'debug transmit', 'timer 0', 'timer 1', 'timer 2', 'timer 3',
     'USB high priority', 'USB low priority', 'SCU', 'ENET', 'DMA', 'CAN', 'motor control', 'ADC'],
    ['UART0', 'UART1', 'UART2', 'I2C0', 'I2C1', 'SSP0', 'SSP1', 'low voltage',
     'RTC', 'wake-up', 'wake-up group 0', 'wake-up group 1', 'wake-up group 2', 'wake-up group 3', 'USB resume', 'PFQ-BC'],
]
# ENET's line, by its controller and its input
ENET = 0, 11
# so many inputs are named, more are numbered only
NAMED_MOST = 4


def register(controller, offset):
    if offset not in REGISTERS:
        return f'the register of VIC{controller} at {offset:x}'
    short, name = REGISTERS[offset]
    return f'VIC{controller}_{short} ({name})'


def source(controller, number):
    """An input as Table 13 has it."""
    return f'VIC{controller}.{number} ({SOURCES[controller][number]})'


def inputs(controller, bits):
    """The inputs whose bits are set, the lowest first."""
    numbers = [number for number in range(16) if bits >> number & 1]
    if len(numbers) in (0, 16):
        return 'all inputs' if numbers else 'no input'
    named = [f'{number} ({SOURCES[controller][number]})' if len(numbers) <= NAMED_MOST else str(number) for number in numbers]
    return f'input{"" if len(numbers) == 1 else "s"} {", ".join(named)}'


def given(controller, value):
    """The inputs that are given as high; what is given for ENET's line does not count."""
    return inputs(controller, value & INPUTS & ~(1 << ENET[1] if controller == ENET[0] else 0))


def control(controller, slot, value):
    if value & SLOT_ENABLE:
        return f'slot {slot} enabled for {inputs(controller, 1 << (value & SLOT_INPUT))}'
    return f'slot {slot} disabled'


def leads(controller, offset, to):
    """What a vector address, or a default one, is for; nothing of another register."""
    short, _ = REGISTERS.get(offset, ('', ''))
    if short == 'DVAR':
        return f'requests of VIC{controller} without a slot lead {to}'
    return f'slot {slot_at(offset)} leads {to}' if short == f'VA{slot_at(offset)}R' else ''


def slot_at(offset):
    return offset // 4 % 16


def holds(controller, offset, value):
    """What a register's value says. What the current vector address says is told under the call; the two that clear hold
    nothing."""
    short, _ = REGISTERS.get(offset, ('', ''))
    if short == 'INTSR':
        return f'FIQ for {inputs(controller, value & INPUTS)}'
    if short == 'PER':
        return f'protection {wording.on(value & 1)}'
    if short == f'VC{slot_at(offset)}R':
        return control(controller, slot_at(offset), value)
    if short in (*READ_ONLY, 'INTER', 'SWINTR'):
        return inputs(controller, value & INPUTS)
    return leads(controller, offset, 'there')


def reads(controller, offset, value):
    """What a read tells."""
    said = holds(controller, offset, value)
    return f'{register(controller, offset)} is {value:08x}' + (f': {said}' if said else '')


def takes(controller, offset, value):
    """What a value does that is written to a register."""
    short, _ = REGISTERS.get(offset, ('', ''))
    if short in READ_ONLY:
        return 'read-only, nothing changes'
    if short in ACTS:
        return f'{ACTS[short]} {inputs(controller, value & INPUTS)}'
    if short == 'VAR':
        return f'says that an interrupt of VIC{controller} is served'
    return leads(controller, offset, f'to {value:08x}') or holds(controller, offset, value)


def writes(controller, offset, value):
    return f'{register(controller, offset)}: {takes(controller, offset, value)}'


def answer(told):
    """The answer as the console tells it: none, or controller, input and vector."""
    return f'{source(*told[:2])}, vector {told[2]:08x}' if told else 'none'
