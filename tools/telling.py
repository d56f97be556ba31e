"""What the calls of a bench day say in words, and what they come to."""
import dataclasses
import zlib

import counting
import enet_line
import engines
import filtering
import interrupts
import pairing
import ticks
import vic_words
import wording
from pairing import Fault
from wording import count, message

# calls whose answer begins with a numbered result
NUMBERED = {name for name, (_, answer) in pairing.FORMS.items() if answer[:1] == [pairing.NUMBER]}

# a burst has no more pairs, a step run no more steps; an answer before the call, which a refused burst leaves
PAIRS_MOST, STEPS_MOST, UNANSWERED = 64, 4096, 99
# of a delivered frame, where the filter registers are not known
NOT_KNOWN = 'reason not known'


@dataclasses.dataclass
class Told:
    """A call in words, and what the picture shows of it."""
    at: int
    asked: str
    answered: str = ''
    # further lines
    more: list = dataclasses.field(default_factory=list)
    # of a burst: its pairs in their order, each as a `Told` of its own
    parts: list = dataclasses.field(default_factory=list)
    # grants, delivered, lost, refused, sent, or a tick that set TX_TO; the answer's number; how many frames or grants
    kind: str = ''
    number: int = 0
    times: int = 1
    # grants made less frames delivered, after the call
    fill: int = 0


@dataclasses.dataclass
class Totals:
    calls: int = 0
    grants: int = 0
    bursts: int = 0
    bursts_refused: int = 0
    # of the bursts made: their pairs, and those of them that hold no frame
    pairs: int = 0
    outside: int = 0
    delivered: int = 0
    delivered_bytes: int = 0
    # by the reason for which they were taken
    reasons: dict = dataclasses.field(default_factory=dict)
    lost: int = 0
    lost_bytes: int = 0
    sent: int = 0
    sent_bytes: int = 0
    # by number
    frames_refused: dict = dataclasses.field(default_factory=dict)
    grants_refused: dict = dataclasses.field(default_factory=dict)


def add(counts, kind):
    counts[kind] = counts.get(kind, 0) + 1


def closed(data, n):
    """The first n bytes end with their check sequence."""
    return zlib.crc32(data[:n - 4]) == int.from_bytes(data[n - 4:n], 'little')


def frames_in(data, frames):
    """The bytes of a step run cut into its frames, each up to the first place where its check sequence is right; none,
    where that does not give as many."""
    found = []
    while data:
        end = next((n for n in range(64, min(len(data), 1518) + 1) if closed(data, n)), len(data))
        found.append(data[:end])
        data = data[end:]
    return found if len(found) == frames else []


def odd_pair(store, start, length, number):
    """What is wrong with the answer to one pair of a burst, or nothing."""
    if len(wording.NUMBERS) <= number:
        return f'{number} is no numbered result'
    outside = start + length > len(store)
    if outside != (number == 16):
        return f'{number}, yet the pair {"passes" if outside else "does not pass"} the end of the store'
    return ''


def odd_burst(room, store, places, number, answers):
    """What is wrong with the answer to a burst, or nothing. Only what passes here can be told pair by pair."""
    if len(answers) != room:
        return f'{count(room, "answer")} promised, {len(answers)} written'
    refused = len(places) > PAIRS_MOST or len(places) != room
    if number != (16 if refused else 0):
        return f'{number}, yet it has {count(len(places), "pair")} and room for {count(room, "answer")}'
    if refused:
        return '' if set(answers) <= {UNANSWERED} else f'refused, yet an answer is no longer {UNANSWERED}'
    wrong = [odd_pair(store, *place, answer) for place, answer in zip(places, answers)]
    return next((f'pair {at}: {words}' for at, words in enumerate(wrong, 1) if words), '')


def odd(call):
    """What is wrong with an answer of the right form, or nothing."""
    if call.name in NUMBERED and len(wording.NUMBERS) <= call.answer[0]:
        return f'{call.answer[0]} is no numbered result'
    if call.name == 'run' and call.answer[2] != len(call.answer[3]):
        return f'{count(call.answer[2], "byte")} promised, {len(call.answer[3])} written'
    if call.name == 'run' and call.answer[1] > min(call.arguments[0], STEPS_MOST):
        return f'{count(call.answer[1], "step")}, yet it may make no more than {min(call.arguments[0], STEPS_MOST)}'
    if call.name == 'peek' and call.answer[0] != 'outside' and len(pairing.bytes_of(call.answer[0])) != call.arguments[1]:
        return f'{count(call.arguments[1], "byte")} asked for, {len(pairing.bytes_of(call.answer[0]))} written'
    if call.name == 'burst':
        return odd_burst(*call.arguments, *call.answer)
    if call.name in NUMBERED and call.answer[0] == 16:
        return '16 answers nothing but a burst'
    return ''


class Day:
    """A script and its output, told one by one: headings, `Told` and faults."""

    def __init__(self, script, output):
        self.totals = Totals()
        self.filter = filtering.Filter()
        self.line = enet_line.EnetLine()
        self.engines = engines.Engines(self.the_descriptor, self.filter, self.line)
        self.ticks = ticks.Ticks(self.engines, self.line)
        self.counting = counting.Counting(self.ticks)
        self.interrupts = interrupts.Interrupts(self.line)
        self.forget()
        self.entries = [self.told(entry) for entry in pairing.entries(script, output)]
        self.calls = [entry for entry in self.entries if isinstance(entry, Told)]
        self.faults = [entry for entry in self.entries if isinstance(entry, Fault)]

    def forget(self):
        """A new bench has no ring yet."""
        # addresses: those of the ring last found sound, and those written as descriptors
        self.ring, self.descriptors = [], set()
        self.fill = 0

    def told(self, entry):
        if isinstance(entry, Fault) and entry.changed:
            self.lose_track()
        if not isinstance(entry, pairing.Call):
            return entry
        wrong, followed, reasons, others = odd(entry), [], [], []
        try:
            if not wrong:
                reasons, followed = self.filter.follow(entry), self.engines.follow(entry)
                others = self.counting.follow(entry) + self.ticks.follow(entry)
                self.line.follow(entry)
                others += self.interrupts.follow(entry)
        except engines.Contradiction as contradiction:
            wrong = str(contradiction)
        if wrong:
            self.lose_track()
            return Fault(f'line {entry.line.at}, answer to {pairing.quoted(entry.line.text)}: {wrong}')
        told = Told(entry.line.at, entry.line.text)
        getattr(self, f'tell_{entry.name}')(told, *entry.arguments, *entry.answer)
        for part, words in zip(told.parts or [told], followed):
            part.more += [words] if words else []
        for part, reason in zip(told.parts or [told], reasons):
            self.tell_reason(part, reason)
        told.more += others
        told.kind = told.kind or self.ticks.event or self.interrupts.event
        told.fill = self.fill
        self.totals.calls += 1
        return told

    def lose_track(self):
        """Behind a line that could not be told."""
        self.engines.forget()
        self.filter.forget()
        self.line.forget()
        self.ticks.forget()
        self.counting.forget()
        self.interrupts.forget()

    # ---- places

    def descriptor(self, address):
        if address in self.ring:
            return f'descriptor {self.ring.index(address) + 1} of the ring'
        return f'descriptor at {address:08x}'

    def the_descriptor(self, address):
        return f'{"" if address in self.ring else "the "}{self.descriptor(address)}'

    def meaning(self, address, data):
        """What bytes are that the firmware writes."""
        if len(data) == 4 and address - wording.STATUS_WORD in self.descriptors:
            at = self.the_descriptor(address - wording.STATUS_WORD)
            return f'packet status of {at}, {wording.owner(wording.word(data, 0))}'
        if len(data) == 4 and address - wording.NEXT_WORD in self.descriptors:
            at = self.the_descriptor(address - wording.NEXT_WORD)
            return f'next word of {at}, {wording.leads(wording.word(data, 0))}'
        if len(data) == wording.DESCRIPTOR:
            self.descriptors.add(address)
            return f'a descriptor, {wording.descriptor(data)}'
        return message(data, 0)

    def status(self, address, verdict, words):
        """A packet status word that the firmware reads, as far as `words` go."""
        at = self.the_descriptor(address - wording.STATUS_WORD)
        return f'packet status of {at}, {words(wording.word(pairing.bytes_of(verdict), 0))}'

    def engine(self, engine, runs, place):
        at = f'{place:08x}' + (f' ({self.descriptor(place)})' if place in self.ring else '')
        return f'{engine.name} {"runs" if runs else "is stopped"}, place {at}{engine.polled()}'

    # ---- calls

    def tell_new(self, told, base, length, number):
        self.forget()
        told.answered = wording.answer(number, f'a window of {length} bytes from {base:08x} on, all zero')

    def tell_lend(self, told, length):
        told.answered = f'lent from now on: {count(length, "byte")}'

    def tell_read(self, told, offset, number, value):
        told.answered = wording.answer(number, f'{wording.register(offset)} is {value:08x}: {wording.holds(offset, value)}')

    def tell_write(self, told, offset, value, number):
        told.answered = wording.answer(number, f'{wording.register(offset)}: {wording.takes(offset, value)}')

    def tell_line(self, told, high):
        told.answered = f'{high}: the interrupt line is {"high" if high else "low"}'

    def tell_grant(self, told, address, number):
        told.answered = wording.answer(number, f'{self.descriptor(address)} handed to the DMA')
        if number:
            add(self.totals.grants_refused, number)
            return
        told.kind = 'grants'
        self.totals.grants += 1
        self.fill += 1

    def tell_frame(self, told, data, number):
        told.asked = f'frame ({message(data, 4, self.filter.control)})'
        told.number = number
        if number == 0:
            told.kind, told.answered = 'delivered', '0 delivered'
            self.totals.delivered += 1
            self.totals.delivered_bytes += len(data)
            self.fill -= 1
        elif number == 8:
            told.kind, told.answered = 'lost', f'8 lost: {wording.NUMBERS[8]}; PACKET_LOST is set'
            self.totals.lost += 1
            self.totals.lost_bytes += len(data)
        else:
            told.kind, told.answered = 'refused', wording.answer(number)
            add(self.totals.frames_refused, number)

    def tell_reason(self, told, reason):
        """Why a delivered frame was taken."""
        if told.kind == 'delivered':
            told.answered += f': {reason}' if reason else ''
            add(self.totals.reasons, reason or NOT_KNOWN)

    def tell_burst(self, told, room, store, places, number, answers):
        told.asked = (f'burst ({count(len(places), "pair")}, a store of {count(len(store), "byte")}, '
                      f'room for {count(room, "answer")})')
        if number:
            told.kind, told.number, told.answered = 'refused', number, f'{number} refused: {wording.WHOLE_BURST}'
            self.totals.bursts_refused += 1
            return
        told.answered = f'0 done: {wording.became(answers)}'
        told.parts = [self.pair(told.at, store, *place, answer) for place, answer in zip(places, answers)]
        for place, part in enumerate(told.parts, 1):
            part.asked = f'pair {place}: {part.asked}'
        self.totals.bursts += 1
        self.totals.pairs += len(places)

    def pair(self, at, store, start, length, number):
        """One pair of a burst: a frame as one that comes by itself, or none where it is outside."""
        told = Told(at, f'{count(length, "byte")} from {start} on')
        if number == 16:
            told.kind, told.number, told.answered = 'refused', number, f'16 outside: {wording.NUMBERS[16]}'
            self.totals.outside += 1
        else:
            self.tell_frame(told, store[start:start + length], number)
        told.fill = self.fill
        return told

    def tell_send(self, told, room, number, data):
        told.answered = wording.answer(number, f'sent {message(data, 4)}')
        self.sent(told, 0 if number else 1, data)

    def tell_run(self, told, allowance, room, number, steps, length, data):
        frames = engines.steps_sent(number, steps)
        told.answered = (f'{count(steps, "step")}, {count(frames, "frame")} sent, {count(length, "byte")}; '
                         f'last answer {wording.answer(number)}')
        told.more = [f'sent {message(frame, 4)}' for frame in frames_in(data, frames)]
        self.sent(told, frames, data)

    def sent(self, told, frames, data):
        if frames:
            told.kind, told.times = 'sent', frames
        self.totals.sent += frames
        self.totals.sent_bytes += len(data)

    def tell_tick(self, told, number):
        told.answered = wording.answer(number, f'{"TX_TO is set, " if self.ticks.event else ""}{self.ticks.standing()}')

    def tell_show(self, told, address, number, data):
        told.answered = wording.answer(number, f'{self.descriptor(address)} holds {message(data, 0)}')
        if number == 13:
            told.answered += ', or no frame to show'

    def tell_ring(self, told, number, first, verdict):
        if verdict == 'no':
            told.answered = f'no: not a sound ring of {count(number, "descriptor")}'
            return
        self.ring = self.engines.memory.chain(first, number)
        told.answered = f'yes: a sound ring of {count(number, "descriptor")}, the first at {first:08x}'

    def tell_poke(self, told, address, data, verdict):
        told.asked = f'poke {address:08x} ({count(len(data), "byte")})'
        if verdict == 'outside':
            told.answered = 'outside the window: nothing is written'
            return
        told.answered = f'ok: {self.meaning(address, data)}'

    def tell_peek(self, told, address, length, verdict):
        if verdict == 'outside':
            told.answered = 'outside the window'
        elif length == 4 and address - wording.STATUS_WORD in self.engines.memory.delivered:
            told.answered = f'{verdict}: {self.status(address, verdict, wording.status)}'
        elif length == 4 and address - wording.STATUS_WORD in self.descriptors and not wording.text(pairing.bytes_of(verdict)):
            told.answered = f'{verdict}: {self.status(address, verdict, wording.owner)}'
        else:
            told.answered = wording.text(pairing.bytes_of(verdict)) or verdict

    def tell_check(self, told, value):
        told.answered = f"{value:08x}: CRC-32 of the window's bytes"

    def tell_state(self, told, receives, receive_place, sends, send_place):
        told.answered = (f'{self.engine(self.engines.receiving, receives, receive_place)}; '
                         f'{self.engine(self.engines.sending, sends, send_place)}')

    def tell_counters(self, told, delivered, lost, sent, tick_count):
        told.answered = f'{counting.named([delivered, lost, sent])}; the tick count is {tick_count}'

    # ---- interrupt controllers

    def tell_vread(self, told, controller, offset, number, value):
        told.answered = wording.answer(number, vic_words.reads(controller, offset, value))

    def tell_vwrite(self, told, controller, offset, value, number):
        told.answered = wording.answer(number, vic_words.writes(controller, offset, value))

    def tell_inputs(self, told, controller, value):
        told.answered = f'high at VIC{controller} from now on: {vic_words.given(controller, value)}'

    def tell_irq(self, told, answer):
        told.answered = f'IRQ: {vic_words.answer(answer)}'

    def tell_fiq(self, told, high):
        told.answered = f'{high}: FIQ is {"high" if high else "low"}'
