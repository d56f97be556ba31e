"""The send time-out followed through a day: its register, the tick count, and the ticks that set TX_TO.

Both are known from a `new` on. Where the calls leave open whether a tick counted, the counts that it can have left are kept; None
stands for any. Behind a line that could not be told nothing is known until the register is written or read, and the count is
shown or cleared.
"""
import dataclasses

import engines
import wording
from engines import Contradiction
from wording import TIME_OUT, TIME_OUT_BITS, nth

WRONG_LENGTH = 11
TIMED_OUT = 'TX_TO'


def choice(possible):
    """The counts that there can be, in words."""
    return 'not known' if possible is None else ' or '.join(str(count) for count in sorted(possible))


@dataclasses.dataclass
class Counts:
    made: int = 0
    refused: int = 0
    # ticks that set TX_TO, and those of which that is not known
    timed_out: int = 0
    not_known: int = 0


class Ticks:
    def __init__(self, followed, line):
        """The engines, by which a tick counts or not, and ENET's line."""
        self.engines, self.line, self.counts = followed, line, Counts()
        # whether the last call set TX_TO
        self.event = ''
        self.forget()

    def forget(self):
        # what the register holds, and the counts that there can be
        self.value = self.possible = None
        # the line of the tick by which the count last started again
        self.since = None

    def reset(self):
        self.value, self.possible, self.since = 0, {0}, None

    @property
    def count(self):
        """The tick count, None where it is not known."""
        return next(iter(self.possible)) if self.possible and len(self.possible) == 1 else None

    def standing(self):
        return f'the tick count is {"not known" if self.count is None else self.count}'

    def follow(self, call):
        """What a call does to the tick count, or tells of it, in words; an answer that the rules do not allow is a
        contradiction."""
        self.event = ''
        follow = getattr(self, f'follow_{call.name}', None)
        return follow(call.line.at, *call.arguments, *call.answer) if follow else []

    # ---- what happens to the count

    def clear(self):
        """It is 0 from now on; what it was, where that is known and another."""
        was, self.possible, self.since = self.count, {0}, None
        return f'the tick count is cleared, was {was}' if was else ''

    def cleared(self):
        return [words for words in [self.clear()] if words]

    def rest(self, why):
        """A tick that does not count."""
        was = self.clear()
        return [f'not counted: {why}', *([was] if was else [])]

    def fire(self, at):
        """A tick that sets TX_TO."""
        row = 'a later' if self.count is None else f'the {nth(self.count + 1)}'
        since = f' since the time-out on line {self.since}' if self.since else ''
        self.event = TIMED_OUT
        self.counts.timed_out += 1
        self.line.set(TIMED_OUT)
        self.possible, self.since = {0}, at
        return [f'{row} tick in a row without a send{since}, TXTOR is {self.value}']

    def doubt(self, why):
        """A tick that may have set TX_TO."""
        self.counts.not_known += 1
        self.line.doubt(TIMED_OUT)
        return [f'{why}, nor whether this sets TX_TO']

    # ---- calls

    def follow_new(self, at, base, length, number):
        self.reset()
        return []

    def follow_tick(self, at, number):
        self.refusable(number)
        if number:
            self.counts.refused += 1
            return [] if self.count is None else [f'the tick count stays {self.count}']
        self.counts.made += 1
        if self.value == 0:
            return self.rest('TXTOR is 0')
        unsent, why = self.engines.unsent()
        if unsent is False:
            return self.rest(why)
        return self.counted(at, unsent, why)

    def refusable(self, number):
        """A tick is refused exactly where the memory that is lent has another length than the window."""
        if number not in (0, WRONG_LENGTH):
            raise Contradiction(f'{number}, yet a tick is refused by {WRONG_LENGTH} alone')
        lent, window = self.engines.lent, self.engines.memory
        if lent is not None and window.known() and (lent == window.length()) != (number == 0):
            raise Contradiction(f'{number}, yet {wording.count(lent, "byte")} are lent of a window of {window.length()}')

    def counted(self, at, unsent, why):
        """A tick that counts, as far as that is known."""
        sure = unsent and self.value is not None
        if not sure or self.count is None:
            self.since = None
        # a count from which the tick can go above the register, which is 1 or more where the tick counts
        above = None if self.possible is None else [count >= (self.value or 1) for count in self.possible]
        if sure and above and all(above):
            return self.fire(at)
        known, before = sure and self.count is not None, self.possible
        self.possible = None if before is None else {
            *(count + 1 for count in before if self.value is None or count < self.value),
            *([] if sure and not any(above) else [0])}
        if known:
            return []
        if unsent:
            why = f'what {"TXTOR holds" if self.value is None else "the tick count was"} is not known'
        return self.doubt(why) if above is None or any(above) else [why]

    def follow_send(self, at, room, number, data):
        return self.cleared() if number == 0 else []

    def follow_run(self, at, allowance, room, number, steps, length, data):
        return self.cleared() if engines.steps_sent(number, steps) else []

    def follow_write(self, at, offset, value, number):
        if offset != TIME_OUT:
            return []
        self.modelled(number)
        self.value = value & TIME_OUT_BITS
        if not self.value:
            return self.cleared()
        if not self.count:
            return []
        behind = ': the next tick that counts sets TX_TO' if self.count >= self.value else ''
        return [f'the tick count stays {self.count}{behind}']

    def follow_read(self, at, offset, number, value):
        if offset != TIME_OUT:
            return []
        self.modelled(number)
        if value > TIME_OUT_BITS:
            raise Contradiction(f'{value:08x}, yet TXTOR has 16 bits')
        if self.value not in (None, value):
            raise Contradiction(f'{value:08x}, yet by the calls before it is {self.value:08x}')
        self.value = value
        return [] if value else self.cleared()

    @staticmethod
    def modelled(number):
        if number:
            raise Contradiction(f'{number}, yet TXTOR is modelled, and always written')

    def follow_counters(self, at, delivered, lost, sent, count):
        if count > TIME_OUT_BITS:
            raise Contradiction(f'a tick count of {count}, yet TXTOR has 16 bits')
        if self.possible is not None and count not in self.possible:
            raise Contradiction(f'a tick count of {count}, yet by the calls before it is {choice(self.possible)}')
        self.possible = {count}
        return []
