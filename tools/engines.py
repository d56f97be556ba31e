"""Both engines followed through a day: whether each runs, its place, and whether polling is on there.

The bit of the word that led to a place holds for it, as read then: of the next-descriptor register at a start, of a descriptor's
next word at a move. All this is worked out from the calls and their answers. What they do not tell is None, and nothing is said
of it: nothing is known before the first `new`, nor behind a line that could not be told.
"""
import wording
from memory import Memory

# answers of a frame or a send that are given only by an engine that runs; 9, 10, 11 and 16 come before it is asked
BY_RUNNING = (0, 4, 5, 6, 7, 8, 12)
NOT_RUNNING, NOT_GRANTED, NEXT_WHILE_RUNNING = 3, 8, 15
# refusals that stop their engine, whatever its place
STOPPING = (7, 12)
# a sound ring has no more descriptors
RING_MOST = 32


class Contradiction(Exception):
    """An answer that the calls before it do not allow."""


def in_pair(k, follow, *frame):
    """What becomes of the frame of a burst's kth pair, which a contradiction names."""
    try:
        return follow(*frame)
    except Contradiction as contradiction:
        raise Contradiction(f'pair {k}: {contradiction}') from None


def steps_sent(number, steps):
    """How many frames a step run sent: the last step is the one that did not, where there is such."""
    return steps - 1 if number and steps else steps


class Engine:
    def __init__(self, name, register, awaits, line, bits):
        # its next-descriptor register; at what it looks again where polling is on
        self.name, self.register, self.awaits = name, register, awaits
        # ENET's status bits: of a frame received or sent, and of the end of a chain
        self.line, (self.frame_done, self.chain_done) = line, bits
        self.forget()

    def forget(self):
        # what was last written to the register
        self.following = None
        self.runs = self.place = self.polling = None
        # the descriptor whose next word led to the place; None for the register
        self.by = None
        # the line of the call that stopped it; 0 for none since the bench was made
        self.since = None

    def reset(self):
        self.forget()
        self.runs = False
        self.following = self.place = self.since = 0

    # ---- in words

    def standing(self):
        if self.runs:
            return f'{self.name} runs'
        if self.since == 0:
            return f'{self.name} was not started yet'
        return f'{self.name} is stopped' + (f' since line {self.since}' if self.since else '')

    def polled(self):
        """Whether polling is on, where it matters and is known."""
        return f', polling {wording.on(self.polling)}' if self.runs and self.polling is not None else ''

    # ---- what happens to it

    def stop(self, at):
        self.runs, self.since = False, at

    def lead(self, word, by=None):
        """A word leads to the next place."""
        self.by = by
        self.place = None if word is None else wording.address(word)
        self.polling = None if word is None else wording.polls(word)

    def start(self, value, at):
        """A start write, and what it does."""
        if not value & wording.DMA_EN:
            return self.clear(at)
        if self.runs:
            return f'{self.name} goes on: its place and polling stay'
        if not value & wording.START_FETCH:
            return f'{self.name} is not started by this'
        # where it may have run before, its place may have stayed
        self.lead(self.following if self.runs is False else None)
        self.runs = True
        return f'{self.name} starts at {self.place:08x}{self.polled()}' if self.place is not None else f'{self.name} runs'

    def clear(self, at):
        """DMA enable is cleared."""
        if self.runs:
            self.stop(at)
            return f'{self.name} stops'
        words = 'stays stopped' if self.runs is False else 'is stopped from here on'
        self.runs = False
        return f'{self.name} {words}'

    def move(self, control, following, at):
        """Behind a delivery or a send: on to the next place, or the end of the chain."""
        self.line.set(self.frame_done)
        if control is None:
            self.runs = self.since = None
            self.lead(None)
            self.line.doubt(self.chain_done)
        elif control & wording.NEXT_ENABLE:
            self.lead(following, self.place)
        else:
            self.stop(at)
            self.line.set(self.chain_done)

    def must(self, run, answer):
        """An answer says whether the engine ran until then."""
        if self.runs not in (None, run):
            raise Contradiction(f'{answer}, yet {self.standing()}')
        self.runs = run

    def answer(self, number):
        if number in BY_RUNNING or number == NOT_RUNNING:
            self.must(number != NOT_RUNNING, number)

    def refuse(self, number, named, at):
        """What a refusal leaves of the engine, and why."""
        if number in STOPPING:
            self.stop(at)
        if number == NOT_RUNNING and self.since is not None:
            return self.standing()
        if number != NOT_GRANTED:
            return ''
        if self.polling is None:
            self.runs = self.since = None
            return ''
        word = self.register if self.by is None else f'the next word of {named(self.by)}'
        if not self.polling:
            self.stop(at)
        left = f'looks again at the next {self.awaits}' if self.polling else 'stops'
        return f'polling is {wording.on(self.polling)} for this place, by {word}: {self.name} {left}'

    def show(self, runs, place):
        """What the console says of it."""
        self.must(runs == 1, f'{self.name} {"runs" if runs else "is stopped"}')
        if self.place not in (None, place):
            raise Contradiction(f'{self.name} has its place at {place:08x}, yet the calls led to {self.place:08x}')
        self.place = place


class Engines:
    def __init__(self, named, address_filter, line):
        """`named` gives a descriptor's words, by its address; the filter says why a frame is taken; the engines set status
        bits, by which ENET's line is known."""
        self.named, self.filter, self.line = named, address_filter, line
        self.receiving = Engine('receiving', 'RXNDAR', 'frame', line, ('RX_CURR_DONE', 'RX_DONE'))
        self.sending = Engine('sending', 'TXNDAR', 'send', line, ('TX_CURR_DONE', 'TX_DONE'))
        self.starts = {'RXSTR': self.receiving, 'TXSTR': self.sending}
        self.nexts = {'RXNDAR': self.receiving, 'TXNDAR': self.sending}
        self.forget()

    def forget(self):
        self.memory = Memory()
        # how many bytes are lent
        self.lent = None
        self.receiving.forget()
        self.sending.forget()

    def follow(self, call):
        """What a call does to the engines, in words: of a burst for each of its pairs, else one for the call, or none."""
        follow = getattr(self, f'follow_{call.name}', None)
        return follow(call.line.at, *call.arguments, *call.answer) if follow else []

    # ---- one frame, one send

    def receive(self, frame, number, at):
        engine = self.receiving
        engine.answer(number)
        if number == NOT_GRANTED:
            self.line.set('PACKET_LOST')
        if number:
            return engine.refuse(number, self.named, at)
        control, start, following = self.memory.descriptor(engine.place)
        if start is None:
            self.memory.lose_all()
        else:
            self.memory.put(start, frame)
            self.memory.deliver(engine.place, wording.delivered(len(frame), self.filter.reason(frame)))
        engine.move(control, following, at)
        return ''

    def send(self, number, at):
        engine = self.sending
        engine.answer(number)
        if number:
            return engine.refuse(number, self.named, at)
        control, _, following = self.memory.descriptor(engine.place)
        if engine.place is None:
            self.memory.lose_all()
        else:
            self.memory.hand(engine.place, False)
        engine.move(control, following, at)
        return ''

    def unsent(self):
        """Whether sending runs and has a granted descriptor in the window, None where that is not known, and why not."""
        place = self.sending.place
        named = 'its descriptor' if place is None else self.named(place)
        rules = [
            (self.sending.runs, self.sending.standing(), 'whether sending runs'),
            (None if place is None else self.memory.has(place), f'{named} is not all in the window',
             f'whether {named} is in the window'),
            (None if place is None else self.memory.grants(place), f'{named} is not granted', f'whether {named} is granted'),
        ]
        for holds, words, _ in rules:
            if holds is False:
                return False, words
        return next(((None, f'{words} is not known') for holds, _, words in rules if holds is None), (True, ''))

    # ---- calls

    def follow_new(self, at, base, length, number):
        self.memory = Memory(0, 0) if number else Memory(base, length, 0)
        self.lent = self.memory.length()
        self.receiving.reset()
        self.sending.reset()
        return []

    def follow_lend(self, at, length):
        self.lent = length
        return []

    def follow_write(self, at, offset, value, number):
        short, _ = wording.REGISTERS.get(offset, ('', ''))
        if short in self.starts and number == 0:
            return [self.starts[short].start(value, at)]
        if short in self.nexts and number in (0, NEXT_WHILE_RUNNING):
            self.nexts[short].must(number != 0, number)
            if number == 0:
                self.nexts[short].following = value
        return []

    def follow_grant(self, at, address, number):
        if number == 0:
            self.memory.hand(address, True)
        return []

    def follow_frame(self, at, data, number):
        return [self.receive(data, number, at)]

    def follow_burst(self, at, room, store, places, number, answers):
        return [in_pair(k, self.receive, store[start:start + length], answer, at)
                for k, ((start, length), answer) in enumerate(zip(places, answers), 1) if number == 0]

    def follow_send(self, at, room, number, data):
        return [self.send(number, at)]

    def follow_run(self, at, allowance, room, number, steps, length, data):
        sent = steps_sent(number, steps)
        for _ in range(sent):
            self.send(0, at)
        return [self.send(number, at) if sent < steps else '']

    def follow_ring(self, at, number, first, verdict):
        """A ring is sound only with polling in every next word. Where it is none whatever these are, nothing is said of them."""
        if not 1 <= number <= RING_MOST or first % 4 or self.lent not in (None, self.memory.length()):
            return []
        words = [(address, self.memory.word(address + wording.NEXT_WORD)) for address in self.memory.chain(first, number)]
        without = [address for address, word in words if word is not None and not wording.polls(word)]
        if not without:
            return []
        if verdict == 'yes':
            raise Contradiction(f'yes, yet the next word of {self.named(without[0])} is without polling')
        others = f', and {len(without) - 1} more' if len(without) > 1 else ''
        return [f'without polling: the next word of {self.named(without[0])}{others}']

    def follow_poke(self, at, address, data, verdict):
        if verdict == 'ok':
            self.memory.put(address, data)
        return []

    def follow_peek(self, at, address, length, verdict):
        """A delivered frame's packet status is its length and the bit of its reason."""
        word = self.memory.delivered.get(address - wording.STATUS_WORD)
        if word is not None and length == 4 and verdict != 'outside' and verdict != word.to_bytes(4, 'little').hex():
            raise Contradiction(f'{verdict}, yet the frame that was delivered there leaves {word.to_bytes(4, "little").hex()}, '
                                f'{wording.status(word)}')
        return []

    def follow_state(self, at, receives, receive_place, sends, send_place):
        self.receiving.show(receives, receive_place)
        self.sending.show(sends, send_place)
        return []
