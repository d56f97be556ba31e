"""The registers of one interrupt controller, by chapter 4's names, and what they make of the levels of its inputs."""
import dataclasses

import vic_words
from vic_words import INPUTS, SLOTS

# registers whose writes set bits of a register, and those whose writes clear them
SETS = ('INTER', 'SWINTR')
CLEARS = {'INTECR': 'INTER', 'SWINTCR': 'SWINTR'}
# the bits that are kept of those whose writes are stored
STORED = {'INTSR': INPUTS, 'PER': 1, 'DVAR': 0xffffffff,
          **{f'VA{i}R': 0xffffffff for i in SLOTS},
          **{f'VC{i}R': vic_words.SLOT_ENABLE | vic_words.SLOT_INPUT for i in SLOTS}}
# ranks of a controller: its slots, then its inputs without a slot
RANKS = 32


@dataclasses.dataclass(frozen=True)
class Request:
    """A request of an input, by a slot or, where that is None, without one."""
    controller: int
    number: int
    slot: int | None

    @property
    def rank(self):
        """Its place among all requests of both controllers, 0 the first."""
        return RANKS * self.controller + (len(SLOTS) + self.number if self.slot is None else self.slot)

    @property
    def name(self):
        return vic_words.source(self.controller, self.number)

    @property
    def by(self):
        return f"without a slot, by VIC{self.controller}'s default vector" if self.slot is None else f'by slot {self.slot}'


class Controller:
    def __init__(self, number):
        """As at reset."""
        self.number = number
        self.registers = {'INTER': 0, 'SWINTR': 0, **dict.fromkeys(STORED, 0)}

    def write(self, short, value):
        """A write to any register but the current vector address."""
        if short in SETS:
            self.registers[short] |= value & INPUTS
        if short in CLEARS:
            self.registers[CLEARS[short]] &= ~value
        if short in STORED:
            self.registers[short] = value & STORED[short]

    def read(self, short, inputs):
        """What any register but the current vector address holds, at these levels; the two that clear read 0."""
        if short == 'RINTSR':
            return inputs | self.registers['SWINTR']
        if short in ('ISR', 'FSR'):
            selected = self.registers['INTSR']
            return (self.read('RINTSR', inputs) & self.registers['INTER']
                    & (selected if short == 'FSR' else ~selected))
        return self.registers.get(short, 0)

    def slot(self, number):
        """The lowest slot that is enabled for an input."""
        wanted = vic_words.SLOT_ENABLE | number
        return next((i for i in SLOTS if self.registers[f'VC{i}R'] == wanted), None)

    def requests(self, inputs):
        raised = self.read('ISR', inputs)
        return [Request(self.number, n, self.slot(n)) for n in range(16) if raised >> n & 1]

    def vector(self, slot):
        """Where a slot leads, or what has none."""
        return self.registers['DVAR' if slot is None else f'VA{slot}R']
