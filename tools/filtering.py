"""Why a frame was taken: the address rule by the filter registers, as far as the calls of a script tell these.

Nothing is known before the first `new`, nor behind a line that could not be told until all five are written again; nothing is
said of a frame then.
"""
import wording
from engines import Contradiction, in_pair

# numbers that a frame gets only behind the address rule: it was taken
PASSED, NOT_TAKEN = (0, 7, 8), 6
# by offset: the value at reset
RESET = {wording.MAC_CONTROL: 0, wording.ADDRESS_HIGH: 0xffff, wording.ADDRESS_LOW: 0xffffffff,
         wording.HASH_HIGH: 0, wording.HASH_LOW: 0}


class Filter:
    def __init__(self):
        self.forget()

    def forget(self):
        self.values = dict.fromkeys(RESET)

    @property
    def control(self):
        """MAC control; 0, at which no bit of a hash is told, where it is not known."""
        return self.values[wording.MAC_CONTROL] or 0

    def reason(self, frame):
        """The rule that takes a frame, in words, '' where none does; None where the registers are not known."""
        if None in self.values.values():
            return None
        to = frame[:6]
        if len(to) < 6:
            return ''
        if wording.receive_all(self.control):
            return wording.RECEIVE_ALL
        if to == wording.BROADCAST:
            return wording.BROADCAST_RULE
        if to[0] & 1:
            return wording.GROUP if self.takes_group(to) else ''
        station = (self.values[wording.ADDRESS_LOW].to_bytes(4, 'little')
                   + (self.values[wording.ADDRESS_HIGH] & 0xffff).to_bytes(2, 'little'))
        return wording.OWN if to == station else ''

    def takes_group(self, to):
        mode = wording.filter_mode(self.control)
        if mode != wording.MULTICAST_HASH:
            return mode == wording.ALL_MULTICAST
        offset, bit = wording.hash_place(to)
        return self.values[offset] >> bit & 1 == 1

    def follow(self, call):
        """The reason of each frame that a call brings, in its order, or none. An answer that the registers do not allow is a
        contradiction."""
        if call.name == 'new':
            self.values = dict(RESET)
        if call.name == 'write' and call.answer[0] == 0 and call.arguments[0] in RESET:
            self.values[call.arguments[0]] = call.arguments[1]
        if call.name == 'frame':
            return [self.judged(call.arguments[0], call.answer[0])]
        if call.name == 'burst' and call.answer[0] == 0:
            _, store, places = call.arguments
            return [in_pair(k, self.judged, store[start:start + length], answer)
                    for k, ((start, length), answer) in enumerate(zip(places, call.answer[1]), 1)]
        return []

    def judged(self, frame, number):
        reason = self.reason(frame)
        if reason is None:
            return ''
        if number in PASSED and not reason:
            raise Contradiction(f'{number}, yet no address rule takes the frame')
        if number == NOT_TAKEN and reason:
            raise Contradiction(f'{number}, yet the frame is taken: {reason}')
        return reason
