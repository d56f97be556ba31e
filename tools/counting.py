"""The device's counters beside the report's own count: the frames delivered, lost and sent by the answers since the last `new`.

What a line that could not be told has counted is not known; behind it the counters may be others, until the next `new`.
"""
import dataclasses

import engines
import ticks
from engines import Contradiction

DELIVERED, LOST = 0, 8
KINDS = 'delivered', 'lost', 'sent'
# a counter stops there
STOP = 4294967295


def counted(call):
    """The frames that a call delivered, lost and sent, by its answer."""
    if call.name == 'frame':
        answers = call.answer
    elif call.name == 'burst':
        # a refused one leaves none of these numbers
        answers = call.answer[1]
    else:
        answers = []
    sent = 0
    if call.name == 'send':
        sent = engines.steps_sent(call.answer[0], 1)
    if call.name == 'run':
        sent = engines.steps_sent(*call.answer[:2])
    return [answers.count(DELIVERED), answers.count(LOST), sent]


def named(counts):
    """3 delivered, 0 lost, 1 sent"""
    return ', '.join(f'{n} {kind}' for n, kind in zip(counts, KINDS))


def stopped(counts):
    """The counters of these that have stopped."""
    return ' and '.join(kind for n, kind in zip(counts, KINDS) if n == STOP)


def shown(own):
    """What counters show of so many frames."""
    return [min(n, STOP) for n in own]


@dataclasses.dataclass
class Asked:
    """A `counters` line: what the device has, and what the report had counted and followed until then."""
    at: int
    device: list
    own: list
    tick_count: int
    # the tick counts that there could be, None for any
    possible: set | None

    def differing(self):
        """The counters that differ, in words."""
        found = [f'{there} {kind}, counted {here}'
                 for kind, there, here in zip(KINDS, self.device, shown(self.own)) if there != here]
        if self.possible is not None and self.tick_count not in self.possible:
            found.append(f'a tick count of {self.tick_count}, followed {ticks.choice(self.possible)}')
        return found


class Counting:
    def __init__(self, followed):
        """The ticks, by which the tick count is known."""
        self.ticks = followed
        self.begin(None)
        # before the first `new` there may be lines that are not in the script
        self.sure = False

    def begin(self, at):
        # the line of the last `new`, the last `counters` line since
        self.since, self.asked = at, None
        self.own = [0] * len(KINDS)
        # whether every line since then was told, and the counters are known by that
        self.whole = self.sure = True

    def forget(self):
        self.whole = self.sure = False

    def behind(self):
        """The frames behind the last `counters` line."""
        return [now - then for now, then in zip(self.own, self.asked.own)]

    def beginning(self):
        return f'the new bench on line {self.since}' if self.since else "the script's first line"

    def follow(self, call):
        """What a call counts, and of counters what the report has counted, in words; counters that differ are a contradiction."""
        if call.name == 'new':
            self.begin(call.line.at)
        self.own = [n + more for n, more in zip(self.own, counted(call))]
        if call.name != 'counters':
            return []
        *device, tick_count = call.answer
        self.asked = Asked(call.line.at, device, self.own, tick_count, self.ticks.possible)
        over = [n for n in device if n > STOP]
        if over:
            raise Contradiction(f'{over[0]}, yet a counter stops at {STOP:,}')
        differing = self.asked.differing()
        if differing and self.sure:
            raise Contradiction(f'{"; ".join(differing)}, since {self.beginning()}')
        since = f'counted from the answers since {self.beginning()}'
        return [f'{since}: {named(self.own)}' if differing else f'as {since}',
                *([f'no further than {STOP:,}: {stopped(device)}'] if stopped(device) else [])]
