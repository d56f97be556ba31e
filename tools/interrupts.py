"""Both interrupt controllers followed through a day: the answer, and what is taken into service and ended.

They are known from a `new` on. What is in service is shown by no register, so behind a line that could not be told nothing is
known of them until the next `new`. ENET's line may be in doubt by itself: then an answer is allowed that the rules give at
either level, and it tells the level where only one of them gives it.
"""
import dataclasses

import vic_words
from controllers import Controller
from engines import Contradiction
from vic_words import ENET, INPUTS, REGISTERS

NOT_MODELLED = 2
# behind all ranks
BEHIND_ALL = 64
TAKEN, ENDED = 'taken', 'ended'


@dataclasses.dataclass
class Counts:
    # requests taken, by controller and input
    taken: dict = dataclasses.field(default_factory=dict)
    ended: int = 0
    # in service when a new bench was made
    dropped: int = 0
    deepest: int = 0
    # reads of VIC0_VAR that took nothing, and those of which that is not known
    nothing: int = 0
    not_known: int = 0


def names(requests):
    return ', '.join(request.name for request in requests)


class Interrupts:
    def __init__(self, line):
        self.line, self.counts = line, Counts()
        # what the last call did to what is in service
        self.event = ''
        self.forget()

    def forget(self):
        # both controllers, the levels given for their inputs, and what is in service, the last taken at the end
        self.pair = self.inputs = self.service = None

    def reset(self):
        self.counts.dropped += len(self.service or [])
        self.pair, self.inputs, self.service = [Controller(0), Controller(1)], [0, 0], []

    def follow(self, call):
        """What a call does to the controllers, or tells of them, in words; an answer that the rules do not allow is a
        contradiction."""
        self.event = ''
        follow = getattr(self, f'follow_{call.name}', None)
        return follow(*call.arguments, *call.answer) if follow else []

    # ---- the rules, at a level of ENET's line

    def levels(self, controller, line):
        """The levels of a controller's inputs."""
        if controller != ENET[0]:
            return self.inputs[controller]
        return self.inputs[controller] & ~(1 << ENET[1]) | line << ENET[1]

    def read(self, controller, short, line):
        return self.pair[controller].read(short, self.levels(controller, line))

    def requests(self, line):
        """The raised, enabled IRQ requests, the highest first."""
        found = [request for controller in self.pair for request in controller.requests(self.levels(controller.number, line))]
        return sorted(found, key=lambda request: request.rank)

    def answer(self, line):
        """The highest request above all in service, None where there is none. The last taken is the highest of these."""
        above = self.service[-1].rank if self.service else BEHIND_ALL
        return next((request for request in self.requests(line) if request.rank < above), None)

    def vector(self, request):
        """Where a request leads as the registers stand now; what is taken of none leads to VIC0's default vector."""
        return self.pair[request.controller].vector(request.slot) if request else self.pair[0].vector(None)

    # ---- what the console tells

    def allowed(self, told, right, expected):
        """The levels of ENET's line at which what was told is right, where there is one; else what was expected."""
        levels = self.line.levels()
        found = [level for level in levels if right(level)]
        if not found:
            raise Contradiction(f'{told}, yet by the calls before it is '
                                + ' or '.join(dict.fromkeys(expected(level) for level in levels)))
        if len(found) == 1:
            self.line.learn(found[0])
        return found

    @staticmethod
    def known(found, rule):
        """What a rule gives at these levels of ENET's line, in a list; an empty one, where that is more than one thing."""
        given = list(dict.fromkeys(rule(level) for level in found))
        return given if len(given) == 1 else []

    def answered(self, line):
        """The answer as the console has it: controller, input and vector."""
        request = self.answer(line)
        return (request.controller, request.number, self.vector(request)) if request else None

    def leads(self, line):
        """What a read of VIC0_VAR has to give, and why."""
        request = self.answer(line)
        why = f'the vector of {request.name}' if request else "VIC0's default vector, since there is no answer"
        return f'{self.vector(request):08x}, {why}'

    def masked(self, found):
        """Requests that what is in service masks, in words."""
        requests = self.known(found, lambda line: tuple(self.requests(line)))
        return [f'masked by {self.service[-1].name} in service: {names(*requests)}'] if self.service and any(requests) else []

    # ---- what is taken and ended

    def take(self, request):
        self.event = TAKEN
        place = request.controller, request.number
        self.counts.taken[place] = self.counts.taken.get(place, 0) + 1
        over = f', over {names(reversed(self.service))}' if self.service else ''
        self.service.append(request)
        self.counts.deepest = max(self.counts.deepest, len(self.service))
        return f'taken: {request.name} {request.by}{over}'

    def read_first(self, value):
        """A read of VIC0_VAR."""
        found = self.allowed(f'{value:08x}', lambda line: self.vector(self.answer(line)) == value, self.leads)
        answers = self.known(found, self.answer)
        if not answers:
            # one request or another, and no later answer tells which
            self.forget()
            self.counts.not_known += 1
            return ["what is taken is not known, since ENET's line is not"]
        if answers[0]:
            return [self.take(answers[0])]
        self.counts.nothing += 1
        return ["nothing is taken: there is no answer, so VIC0's default vector", *self.masked(found)]

    def read_second(self, value):
        """A read of VIC1_VAR, which changes nothing."""
        last = self.service[-1] if self.service else None
        right = self.vector(last) if last and last.controller == 1 else 0
        if not last:
            why = '0, since nothing is in service'
        elif last.controller == 1:
            why = f'the vector of {last.name}, the last taken'
        else:
            why = f'0, since the last taken, {last.name}, is not of VIC1'
        self.allowed(f'{value:08x}', lambda line: value == right, lambda line: f'{right:08x}, {why}')
        return [why]

    def end(self, controller):
        """A write of a current vector address."""
        if not self.service:
            return 'ends nothing: nothing is in service'
        last = self.service[-1]
        if last.controller != controller:
            return f'ends nothing: the last taken, {last.name}, is not of VIC{controller}'
        self.event = ENDED
        self.service.pop()
        self.counts.ended += 1
        return f'ended: {last.name}; ' + (f'in service again: {self.service[-1].name}' if self.service else 'nothing in service')

    # ---- calls

    def follow_new(self, base, length, number):
        dropped = names(reversed(self.service or []))
        self.reset()
        return [f'still in service until here: {dropped}'] if dropped else []

    def numbered(self, offset, number):
        """Whether the register is modelled, by the answer's number and by its offset."""
        if number != (0 if offset in REGISTERS else NOT_MODELLED):
            raise Contradiction(f'{number}, yet chapter 4 has {"a" if offset in REGISTERS else "no"} register at {offset:x}')
        return number == 0

    def follow_vread(self, controller, offset, number, value):
        if not self.numbered(offset, number):
            if value:
                raise Contradiction(f'{number} with the value {value:08x}')
            return []
        short, _ = REGISTERS[offset]
        if self.pair is None:
            return self.read_unknown() if (controller, short) == (0, 'VAR') else []
        if short == 'VAR':
            return self.read_second(value) if controller else self.read_first(value)
        self.allowed(f'{value:08x}', lambda line: self.read(controller, short, line) == value,
                     lambda line: f'{self.read(controller, short, line):08x}')
        return []

    def read_unknown(self):
        self.counts.not_known += 1
        return ['whether this takes an interrupt is not known']

    def follow_vwrite(self, controller, offset, value, number):
        if not self.numbered(offset, number):
            return []
        short, _ = REGISTERS[offset]
        if self.pair is None:
            return ['whether this ends an interrupt is not known'] if short == 'VAR' else []
        if short == 'VAR':
            return [self.end(controller)]
        self.pair[controller].write(short, value)
        return []

    def follow_inputs(self, controller, value):
        if self.pair is not None:
            self.inputs[controller] = value & INPUTS
        given = controller == ENET[0] and value >> ENET[1] & 1
        return [f"input {ENET[1]} is ENET's line, whatever is given here"] if given else []

    def follow_irq(self, told):
        if self.pair is None:
            return []
        found = self.allowed(vic_words.answer(told), lambda line: self.answered(line) == told,
                             lambda line: vic_words.answer(self.answered(line)))
        request, = self.known(found, self.answer)
        if not request:
            return self.masked(found)
        return [request.by + (f', above {self.service[-1].name} in service' if self.service else '')]

    def follow_fiq(self, told):
        if self.pair is None:
            return []
        found = self.allowed(told, lambda line: bool(self.fast(line)) == (told == 1),
                             lambda line: '1' if self.fast(line) else '0')
        raised = self.known(found, self.fast)
        return [f'selected for FIQ: {", ".join(*raised)}'] if any(raised) else []

    def fast(self, line):
        """The inputs with a raised, enabled request that is selected for FIQ."""
        return tuple(vic_words.source(controller, number) for controller in (0, 1) for number in range(16)
                     if self.read(controller, 'FSR', line) >> number & 1)
