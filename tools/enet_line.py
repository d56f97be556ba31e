"""ENET's interrupt line, by its status and enable registers, as far as the calls of a script tell these.

Nothing is known before the first `new`, nor behind a line that could not be told until the next one. Whether a chain has ended
is not always known: then its bit is in doubt, and so may be the line, until an answer tells it.
"""
import wording
from engines import Contradiction

ENABLE, STATUS = 0x04, 0x08
RESET_STATUS, WRITABLE = 0x00050001, sum(wording.STATUS_BITS.values())


class EnetLine:
    def __init__(self):
        self.forget()

    def forget(self):
        # a bit in doubt is 0 in the status
        self.status = self.enable = None
        self.doubtful = 0

    def reset(self):
        self.status, self.enable, self.doubtful = RESET_STATUS, 0, 0

    # ---- what the engines raise

    def set(self, name):
        if self.status is not None:
            self.status |= wording.STATUS_BITS[name]
            self.doubtful &= ~self.status

    def doubt(self, name):
        """A bit that may have been set; one that is set already is in no doubt."""
        if self.status is not None:
            self.doubtful |= wording.STATUS_BITS[name] & ~self.status

    # ---- the line

    def levels(self):
        """The levels that the line can have."""
        if self.status is None:
            return [False, True]
        if self.status & self.enable:
            return [True]
        return [False, True] if self.doubtful & self.enable else [False]

    def learn(self, high):
        """What a level that the line can have says of the bits in doubt."""
        if self.status is None or len(self.levels()) == 1:
            return
        candidates = self.doubtful & self.enable
        if not high:
            self.doubtful &= ~candidates
        elif candidates & candidates - 1 == 0:
            self.status |= candidates
            self.doubtful &= ~candidates

    # ---- calls

    def follow(self, call):
        """What a call changes, or tells; an answer that the calls before do not allow is a contradiction."""
        if call.name == 'new':
            self.reset()
        if self.status is None:
            return
        if call.name == 'write' and call.answer[0] == 0:
            self.write(*call.arguments)
        if call.name == 'read' and call.answer[0] == 0:
            self.read(call.arguments[0], call.answer[1])
        if call.name == 'line':
            self.told(call.answer[0] == 1)

    def write(self, offset, value):
        if offset == ENABLE:
            self.enable = value & WRITABLE
        if offset == STATUS:
            self.status &= ~value
            self.doubtful &= ~value

    def read(self, offset, value):
        if offset == ENABLE and value != self.enable:
            raise Contradiction(f'{value:08x}, yet by the calls before it is {self.enable:08x}')
        if offset != STATUS:
            return
        lacking, added = self.status & ~value, value & ~self.status & ~self.doubtful
        if lacking or added:
            named = wording.fields('ISR', lacking or added) if (lacking or added) & WRITABLE else 'a reserved bit'
            raise Contradiction(f'{value:08x}, yet by the calls before: {named} {"set" if lacking else "not set"}')
        self.status, self.doubtful = value, 0

    def told(self, high):
        if high not in self.levels():
            raise Contradiction('1, yet no status bit is set that is enabled' if high else
                                f'0, yet set and enabled: {wording.fields("ISR", self.status & self.enable)}')
        self.learn(high)
