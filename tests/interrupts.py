"""Short days about the interrupt controllers, for the test of the report: what is taken and ended, and what is not.

The answers are worked out by hand from document 02 (Wish 8) and RM0006 chapter 4; the test also compares them with the console's,
but those of the days of doubt, which are there for what the report cannot know.
"""
import frames

FRAME = frames.frame(64, frames.BROADCAST).hex()
NEW = 'new 0 4096', 'new 0'
# at reset RX_EMPTY is set, so that its enable bit alone moves ENET's line
ENET_HIGH, ENET_LOW = ('write 4 1', 'write 0'), ('write 4 0', 'write 0')
ENET, WATCHDOG, SOFTWARE, TIMER = 'VIC0.11 (ENET)', 'VIC0.0 (watchdog)', 'VIC0.1 (software)', 'VIC0.4 (timer 0)'
UART0, UART1, RTC = 'VIC1.0 (UART0)', 'VIC1.1 (UART1)', 'VIC1.8 (RTC)'
NO_ANSWER = "nothing is taken: there is no answer, so VIC0's default vector"
IN_DOUBT = "what is taken is not known, since ENET's line is not"


def texts(lines):
    """The script of some lines, and the output of their answers."""
    return [''.join(f'{line[part]}\n' for line in lines) for part in (0, 1)]


def put(controller, offset, value, *told):
    return f'vwrite {controller} {offset:x} {value:x}', 'vwrite 0', *told


def get(controller, offset, value, *told):
    return f'vread {controller} {offset:x}', f'vread 0 {value:08x}', *told


def inputs(controller, value, *told):
    return f'inputs {controller} {value:x}', 'inputs', *told


def irq(answer, *told):
    return 'irq', f'irq {answer}', *told


def fiq(high, *told):
    return 'fiq', f'fiq {high}', *told


def slot(controller, i, vector, control):
    return put(controller, 0x100 + 4 * i, vector), put(controller, 0x200 + 4 * i, control)


def vectors(first, second):
    """The default vectors."""
    return put(0, 0x34, first), put(1, 0x34, second)


def take(vector, *told):
    return get(0, 0x30, vector, *told)


def end(controller, *told):
    return put(controller, 0x30, 0, *told)


def taken(name, by, *over):
    return f'taken: {name} {by}' + (f', over {", ".join(over)}' if over else '')


def plain(controller):
    return f"without a slot, by VIC{controller}'s default vector"


def ended(name, again=None):
    return f'ended: {name}; ' + (f'in service again: {again}' if again else 'nothing in service')


def masked(name, *requests):
    return f'masked by {name} in service: {", ".join(requests)}'


NOT_OF = 'ends nothing: the last taken, {}, is not of VIC{}'.format
NOTHING_TO_END = 'ends nothing: nothing is in service'

# ---- by their names: each line with its answer and with all that the report says under it

# slot 2 for ENET, slot 1 for UART0; the default vectors are f000 and f100
SET_UP = [NEW, *slot(0, 2, 0xa000, 0x2b), *slot(1, 1, 0xb000, 0x20), *vectors(0xf000, 0xf100),
          put(0, 0x10, 0x813), put(1, 0x10, 0x103)]

DAYS = {
    "ENET's, taken, served and ended": [
        NEW,
        ('poke 0 00460000000400000100000000000100', 'poke ok'),
        ('write 1c 1', 'write 0'),
        ('write 10 5', 'write 0', 'receiving starts at 00000000, polling on'),
        ('write 8 50001', 'write 0'),
        ('write 4 8000', 'write 0'),
        *slot(0, 0, 0xa000, 0x2b),
        put(0, 0x10, 0x800),
        ('line', 'line 0'),
        irq('none'),
        (f'frame {FRAME}', 'frame 0'),
        ('line', 'line 1'),
        get(0, 0x08, 0x800),
        get(0, 0x00, 0x800),
        get(0, 0x04, 0),
        irq('0 11 0000a000', 'by slot 0'),
        take(0xa000, taken(ENET, 'by slot 0')),
        irq('none', masked(ENET, ENET)),
        ('read 8', 'read 0 00008000'),
        ('write 8 8000', 'write 0'),
        ('line', 'line 0'),
        irq('none'),
        get(0, 0x00, 0),
        end(0, ended(ENET)),
        take(0, NO_ANSWER),
        end(0, NOTHING_TO_END),
        end(1, NOTHING_TO_END),
        get(1, 0x30, 0, '0, since nothing is in service'),
    ],
    'nesting': [
        *SET_UP,
        inputs(1, 0x100),
        irq('1 8 0000f100', plain(1)),
        take(0xf100, taken(RTC, plain(1))),
        get(1, 0x30, 0xf100, f'the vector of {RTC}, the last taken'),
        inputs(1, 0x103),
        irq('1 0 0000b000', f'by slot 1, above {RTC} in service'),
        take(0xb000, taken(UART0, 'by slot 1', RTC)),
        # UART1 has no slot, and stands above RTC, but not above UART0
        irq('none', masked(UART0, UART0, UART1, RTC)),
        take(0xf000, NO_ANSWER, masked(UART0, UART0, UART1, RTC)),
        inputs(0, 0x10),
        irq('0 4 0000f000', f'{plain(0)}, above {UART0} in service'),
        take(0xf000, taken(TIMER, plain(0), UART0, RTC)),
        # without a slot the lower inputs come first; all of VIC0 come before VIC1
        put(0, 0x18, 0x2),
        take(0xf000, taken(SOFTWARE, plain(0), TIMER, UART0, RTC)),
        ENET_HIGH,
        take(0xa000, taken(ENET, 'by slot 2', SOFTWARE, TIMER, UART0, RTC)),
        get(1, 0x30, 0, f'0, since the last taken, {ENET}, is not of VIC1'),
        end(1, NOT_OF(ENET, 1)),
        end(0, ended(ENET, SOFTWARE)),
        take(0xa000, taken(ENET, 'by slot 2', SOFTWARE, TIMER, UART0, RTC)),
        ENET_LOW,
        end(0, ended(ENET, SOFTWARE)),
        put(0, 0x1c, 0x2),
        end(0, ended(SOFTWARE, TIMER)),
        inputs(0, 0),
        end(0, ended(TIMER, UART0)),
        # what 4.3 asks: both are written, and one of them ends it
        end(0, NOT_OF(UART0, 0)),
        end(1, ended(UART0, RTC)),
        irq('1 0 0000b000', f'by slot 1, above {RTC} in service'),
        inputs(1, 0x100),
        irq('none', masked(RTC, RTC)),
        end(0, NOT_OF(RTC, 0)),
        end(1, ended(RTC)),
        end(1, NOTHING_TO_END),
        irq('1 8 0000f100', plain(1)),
    ],
    # the rank then: later writes to controls do not move what is in service, but the vector at its rank is read as it stands
    'at its rank then': [
        *SET_UP,
        inputs(1, 1),
        take(0xb000, taken(UART0, 'by slot 1')),
        put(1, 0x204, 0x21),
        put(1, 0x200, 0x28),
        put(1, 0x104, 0xb111),
        get(1, 0x30, 0xb111, f'the vector of {UART0}, the last taken'),
        # UART0 has no slot any more, UART1 has that of UART0, RTC the one above
        inputs(1, 0x3),
        irq('none', masked(UART0, UART1, UART0)),
        inputs(1, 0x103),
        irq('1 8 00000000', f'by slot 0, above {UART0} in service'),
        take(0, taken(RTC, 'by slot 0', UART0)),
        get(1, 0x30, 0, f'the vector of {RTC}, the last taken'),
        end(1, ended(RTC, UART0)),
        inputs(1, 0),
        end(1, ended(UART0)),
        inputs(1, 0x3),
        irq('1 1 0000b111', 'by slot 1'),
        take(0xb111, taken(UART1, 'by slot 1')),
    ],
    # of two slots for an input the lower counts; a slot that is disabled is none, and no bit but 5 enables it
    'slots': [
        *SET_UP,
        ENET_HIGH,
        *slot(0, 15, 0xaf00, 0x2b),
        irq('0 11 0000a000', 'by slot 2'),
        put(0, 0x208, 0xffffff1b),
        irq('0 11 0000af00', 'by slot 15'),
        get(0, 0x208, 0xb),
        put(0, 0x23c, 0x2c),
        irq('0 11 0000f000', plain(0)),
        put(0, 0x23c, 0xffffffff),
        get(0, 0x23c, 0x2f),
        put(0, 0x23c, 0x3b),
        irq('0 11 0000af00', 'by slot 15'),
        # an input with a slot stands before all without one
        inputs(0, 0x1),
        take(0xaf00, taken(ENET, 'by slot 15')),
        irq('none', masked(ENET, ENET, WATCHDOG)),
        end(0, ended(ENET)),
        ENET_LOW,
        take(0xf000, taken(WATCHDOG, plain(0))),
    ],
    'selection, software and enable': [
        *SET_UP,
        fiq(0),
        ENET_HIGH,
        fiq(0),
        put(0, 0x0c, 0x800),
        fiq(1, f'selected for FIQ: {ENET}'),
        irq('none'),
        get(0, 0x00, 0),
        get(0, 0x04, 0x800),
        take(0xf000, NO_ANSWER),
        put(1, 0x0c, 0xffff0002),
        put(1, 0x18, 0xffff0002),
        fiq(1, f'selected for FIQ: {ENET}, {UART1}'),
        ENET_LOW,
        fiq(1, f'selected for FIQ: {UART1}'),
        put(1, 0x14, 0x2),
        fiq(0),
        get(1, 0x08, 0x2),
        get(1, 0x10, 0x101),
        get(1, 0x18, 0x2),
        put(1, 0x10, 0xffff0002),
        put(1, 0x0c, 0),
        fiq(0),
        irq('1 1 0000f100', plain(1)),
        put(1, 0x1c, 0x1),
        irq('1 1 0000f100', plain(1)),
        put(1, 0x1c, 0xffff),
        irq('none'),
        put(0, 0x18, 0x800),
        irq('none'),
        fiq(1, f'selected for FIQ: {ENET}'),
        put(0, 0x0c, 0),
        irq('0 11 0000a000', 'by slot 2'),
        fiq(0),
        ('line', 'line 0'),
    ],
    # input 11 of VIC0 is ENET's line alone
    'what is given for input 11': [
        NEW,
        inputs(0, 0xffff0fff, "input 11 is ENET's line, whatever is given here"),
        get(0, 0x08, 0x7ff),
        ENET_HIGH,
        get(0, 0x08, 0xfff),
        inputs(1, 0xffff0fff),
        get(1, 0x08, 0xfff),
        inputs(0, 0),
        get(0, 0x08, 0x800),
    ],
    'what is not there, or not written': [
        NEW,
        *((f'vread 0 {offset:x}', 'vread 2 00000000') for offset in (0x2, 0x24, 0x2c, 0x38, 0xfc, 0x140, 0x1fc, 0x240, 0x1030)),
        *((f'vwrite 1 {offset:x} ffffffff', 'vwrite 2') for offset in (0x1, 0x28, 0x140, 0x240, 0x1030)),
        *(put(1, offset, 0xffffffff) for offset in (0x00, 0x04, 0x08, 0x14, 0x1c)),
        *(get(1, offset, 0) for offset in (0x00, 0x04, 0x08, 0x0c, 0x10, 0x14, 0x18, 0x1c, 0x20, 0x34, 0x100, 0x13c, 0x200, 0x23c)),
        put(1, 0x20, 0xffffffff),
        get(1, 0x20, 1),
        put(1, 0x20, 0xfffffffe),
        get(1, 0x20, 0),
    ],
    # a new bench has new controllers, also where its window is not allowed
    'a new bench': [
        *SET_UP,
        inputs(1, 0x103),
        take(0xb000, taken(UART0, 'by slot 1')),
        ENET_HIGH,
        take(0xa000, taken(ENET, 'by slot 2', UART0)),
        (*NEW, f'still in service until here: {ENET}, {UART0}'),
        irq('none'),
        end(0, NOTHING_TO_END),
        get(1, 0x08, 0),
        *SET_UP[1:],
        inputs(1, 0x1),
        take(0xb000, taken(UART0, 'by slot 1')),
        ('new 0 60', 'new 1', f'still in service until here: {UART0}'),
        get(1, 0x10, 0),
        take(0, NO_ANSWER),
    ],
}

# of some of these days, rows of the totals
TOTALS = {
    "ENET's, taken, served and ended": ['interrupts taken 1', f'1 {ENET}', 'interrupts ended 1', 'still in service 0',
                                        'deepest nesting 1', 'nothing taken 1 VIC0_VAR read without an answer'],
    'nesting': ['interrupts taken 6', f'1 {SOFTWARE}', f'1 {TIMER}', f'2 {ENET}', f'1 {UART0}', f'1 {RTC}', 'interrupts ended 6',
                'still in service 0', 'deepest nesting 5', 'nothing taken 1 VIC0_VAR read without an answer'],
    'at its rank then': ['interrupts taken 3', 'interrupts ended 2', f'still in service 1 {UART1}', 'deepest nesting 2'],
    'a new bench': ['interrupts taken 3', 'interrupts ended 0', 'dropped 3 in service when a new bench was made',
                    'still in service 0', 'deepest nesting 2'],
}

# ---- what a line says by itself, before which nothing is known: the line, its answer, and how it is told

WORDS = [
    (*get(0, 0x00, 0x800), 'VIC0_ISR (IRQ status) is 00000800: input 11 (ENET)'),
    (*get(1, 0x04, 0x101), 'VIC1_FSR (FIQ status) is 00000101: inputs 0 (UART0), 8 (RTC)'),
    (*get(0, 0x08, 0), 'VIC0_RINTSR (raw interrupt status) is 00000000: no input'),
    (*get(0, 0x08, 0xffff), 'is 0000ffff: all inputs'),
    (*get(0, 0x08, 0x8421), 'is 00008421: inputs 0 (watchdog), 5 (timer 1), 10 (SCU), 15 (ADC)'),
    (*get(1, 0x08, 0x8425), 'is 00008425: inputs 0, 2, 5, 10, 15'),
    (*get(1, 0x0c, 0x2), 'VIC1_INTSR (interrupt select) is 00000002: FIQ for input 1 (UART1)'),
    (*get(1, 0x10, 0x8000), 'VIC1_INTER (interrupt enable) is 00008000: input 15 (PFQ-BC)'),
    (*get(0, 0x14, 0), '0 done: VIC0_INTECR (interrupt enable clear) is 00000000'),
    (*get(0, 0x18, 0x2), 'VIC0_SWINTR (software interrupt) is 00000002: input 1 (software)'),
    (*get(0, 0x1c, 0), '0 done: VIC0_SWINTCR (software interrupt clear) is 00000000'),
    (*get(0, 0x20, 1), 'VIC0_PER (protection enable) is 00000001: protection on'),
    (*get(1, 0x34, 0xf100), 'VIC1_DVAR (default vector address) is 0000f100: requests of VIC1 without a slot lead there'),
    (*get(0, 0x10c, 0xa000), 'VIC0_VA3R (vector address 3) is 0000a000: slot 3 leads there'),
    (*get(0, 0x20c, 0x2b), 'VIC0_VC3R (vector control 3) is 0000002b: slot 3 enabled for input 11 (ENET)'),
    (*get(1, 0x23c, 0x0b), 'VIC1_VC15R (vector control 15) is 0000000b: slot 15 disabled'),
    ('vread 0 24', 'vread 2 00000000', '2 refused: register not modelled'),
    (*put(0, 0x00, 1), 'VIC0_ISR (IRQ status): read-only, nothing changes'),
    (*put(0, 0x04, 1), 'VIC0_FSR (FIQ status): read-only, nothing changes'),
    (*put(0, 0x08, 1), 'VIC0_RINTSR (raw interrupt status): read-only, nothing changes'),
    (*put(0, 0x0c, 0xffff0001), 'VIC0_INTSR (interrupt select): FIQ for input 0 (watchdog)'),
    (*put(0, 0x10, 0x800), 'VIC0_INTER (interrupt enable): enables input 11 (ENET)'),
    (*put(0, 0x14, 0xffff0800), 'VIC0_INTECR (interrupt enable clear): disables input 11 (ENET)'),
    (*put(0, 0x18, 0x10), 'VIC0_SWINTR (software interrupt): raises input 4 (timer 0)'),
    (*put(0, 0x1c, 0x10), 'VIC0_SWINTCR (software interrupt clear): no longer raises input 4 (timer 0)'),
    (*put(0, 0x20, 0x2), 'VIC0_PER (protection enable): protection off'),
    (*put(0, 0x34, 0xf000), 'VIC0_DVAR (default vector address): requests of VIC0 without a slot lead to 0000f000'),
    (*put(1, 0x13c, 0xb000), 'VIC1_VA15R (vector address 15): slot 15 leads to 0000b000'),
    (*put(0, 0x200, 0x2b), 'VIC0_VC0R (vector control 0): slot 0 enabled for input 11 (ENET)'),
    (*put(0, 0x200, 0x1b), 'VIC0_VC0R (vector control 0): slot 0 disabled'),
    (*put(1, 0x30, 5), 'VIC1_VAR (current vector address): says that an interrupt of VIC1 is served'),
    ('vwrite 1 24 0', 'vwrite 2', '2 refused: register not modelled'),
    (*inputs(1, 0x100), 'high at VIC1 from now on: input 8 (RTC)'),
    (*inputs(0, 0x0810), 'high at VIC0 from now on: input 4 (timer 0)'),
    (*inputs(1, 0xffff0000), 'high at VIC1 from now on: no input'),
    (*irq('none'), 'IRQ: none'),
    (*irq('0 11 0000a000'), 'IRQ: VIC0.11 (ENET), vector 0000a000'),
    (*fiq(0), '0: FIQ is low'),
    (*fiq(1), '1: FIQ is high'),
    (*take(0x1000), 'VIC0_VAR (current vector address) is 00001000'),
]
# what is said under those whose effect is not known
MAY_TAKE, MAY_END = (f'whether this {does} an interrupt is not known' for does in ('takes', 'ends'))
NOT_KNOWN = {'vread 0 30': MAY_TAKE, 'vwrite 1 30 5': MAY_END}

# ---- answers that the rules do not allow: what is wrong, the lines before, the line with its wrong answer, and the fault

UART_IN_SERVICE = [*SET_UP, inputs(1, 0x103), take(0xb000)]
ENET_IN_SERVICE = [*UART_IN_SERVICE, ENET_HIGH, take(0xa000)]
RIGHT = 'yet by the calls before it is'
WRONG = [
    ('a vector of another', [*SET_UP, ENET_HIGH], take(0xf000), f'0000f000, {RIGHT} 0000a000, the vector of {ENET}'),
    ('a vector of a slot that is not enabled', [*SET_UP, put(0, 0x208, 0xb), ENET_HIGH], take(0xa000),
     f'0000a000, {RIGHT} 0000f000, the vector of {ENET}'),
    ('taken in place of none', SET_UP, take(0xa000),
     f"0000a000, {RIGHT} 0000f000, VIC0's default vector, since there is no answer"),
    ('none in place of taken', [*SET_UP, inputs(1, 1)], take(0xf000), f'0000f000, {RIGHT} 0000b000, the vector of {UART0}'),
    ('taken, though masked', UART_IN_SERVICE, take(0xf100), f"0000f100, {RIGHT} 0000f000, VIC0's default vector"),
    ('taken twice', ENET_IN_SERVICE, take(0xa000), f"0000a000, {RIGHT} 0000f000, VIC0's default vector"),
    ('masked, though above', [*UART_IN_SERVICE, ENET_HIGH], irq('none'), f'none, {RIGHT} {ENET}, vector 0000a000'),
    ('an answer, though masked', ENET_IN_SERVICE, irq('1 1 0000f100'), f'VIC1.1 (UART1), vector 0000f100, {RIGHT} none'),
    ('an answer of a lower rank', [*SET_UP, ENET_HIGH, inputs(0, 0x11)], irq('0 0 0000f000'),
     f'{WATCHDOG}, vector 0000f000, {RIGHT} {ENET}, vector 0000a000'),
    ('an answer of VIC1 before VIC0', [*SET_UP, inputs(0, 0x10), inputs(1, 1)], irq('1 0 0000b000'),
     f'{UART0}, vector 0000b000, {RIGHT} {TIMER}, vector 0000f000'),
    ('the higher input first', [*SET_UP, inputs(0, 0x11)], irq('0 4 0000f000'), f'{TIMER}, vector 0000f000, {RIGHT} {WATCHDOG}'),
    ('an answer with another vector', [*SET_UP, ENET_HIGH], irq('0 11 0000f000'), f'{RIGHT} {ENET}, vector 0000a000'),
    ('an answer at another input', [*SET_UP, ENET_HIGH], irq('0 12 0000a000'), f'{RIGHT} {ENET}, vector 0000a000'),
    ('an answer that is not enabled', [*SET_UP, inputs(0, 0x20)], irq('0 5 0000f000'), f'{RIGHT} none'),
    ('an answer that is for FIQ', [*SET_UP, put(0, 0x0c, 0x10), inputs(0, 0x10)], irq('0 4 0000f000'), f'{RIGHT} none'),
    ('masked by the rank now', [*UART_IN_SERVICE, put(1, 0x204, 0), put(1, 0x208, 0x28), inputs(1, 0x100)], irq('1 8 00000000'),
     f'{RTC}, vector 00000000, {RIGHT} none'),
    ('ended by the other controller', [*ENET_IN_SERVICE, end(1)], irq('0 11 0000a000'), f'{RIGHT} none'),
    ('not ended by its own', [*ENET_IN_SERVICE, end(0)], irq('none'), f'none, {RIGHT} {ENET}, vector 0000a000'),
    ('an outer one ended by both writes', [*ENET_IN_SERVICE, end(0), end(1), ENET_LOW], irq('none'),
     f'none, {RIGHT} {UART0}, vector 0000b000'),
    ('the second vector, though not of VIC1', ENET_IN_SERVICE, get(1, 0x30, 0xa000),
     f'0000a000, {RIGHT} 00000000, 0, since the last taken, {ENET}, is not of VIC1'),
    ('the second vector as it was', [*UART_IN_SERVICE, put(1, 0x104, 0xb111)], get(1, 0x30, 0xb000),
     f'0000b000, {RIGHT} 0000b111, the vector of {UART0}, the last taken'),
    ('the second vector of nothing', SET_UP, get(1, 0x30, 0xf100), f'0000f100, {RIGHT} 00000000, 0, since nothing is in service'),
    ('a FIQ that is an IRQ', [*SET_UP, ENET_HIGH], fiq(1), f'1, {RIGHT} 0'),
    ('no FIQ', [*SET_UP, put(0, 0x0c, 0x800), ENET_HIGH], fiq(0), f'0, {RIGHT} 1'),
    ('no FIQ of VIC1', [*SET_UP, put(1, 0x0c, 1), inputs(1, 1)], fiq(0), f'0, {RIGHT} 1'),
    ('an IRQ status that is masked', ENET_IN_SERVICE, get(0, 0x00, 0), f'00000000, {RIGHT} 00000800'),
    ('an IRQ status that is not enabled', [*SET_UP, inputs(0, 0xf7ff)], get(0, 0x00, 0xf7ff), f'0000f7ff, {RIGHT} 00000013'),
    ('a FIQ status that is an IRQ', [*SET_UP, ENET_HIGH], get(0, 0x04, 0x800), f'00000800, {RIGHT} 00000000'),
    ('a raw status without the line', [*SET_UP, ENET_HIGH], get(0, 0x08, 0), f'00000000, {RIGHT} 00000800'),
    ('a raw status of what was given for input 11', [*SET_UP, inputs(0, 0x800)], get(0, 0x08, 0x800),
     f'00000800, {RIGHT} 00000000'),
    ('a raw status without a software interrupt', [*SET_UP, put(1, 0x18, 4)], get(1, 0x08, 0), f'00000000, {RIGHT} 00000004'),
    ('an enable that was stored', SET_UP, get(0, 0x10, 0x13), f'00000013, {RIGHT} 00000813'),
    ('an upper half', [*SET_UP, put(0, 0x0c, 0xffffffff)], get(0, 0x0c, 0xffffffff), f'ffffffff, {RIGHT} 0000ffff'),
    ('a clear register that reads', [*SET_UP, put(0, 0x14, 1)], get(0, 0x14, 1), f'00000001, {RIGHT} 00000000'),
    ('a control with its bit 4', [*SET_UP, put(0, 0x200, 0x3b)], get(0, 0x200, 0x3b), f'0000003b, {RIGHT} 0000002b'),
    ('a register that is there', SET_UP, ('vread 0 30', 'vread 2 00000000'), '2, yet chapter 4 has a register at 30'),
    ('a register that is not there', SET_UP, get(0, 0x24, 0), '0, yet chapter 4 has no register at 24'),
    ('a write of what is not there', SET_UP, put(0, 0x140, 0), '0, yet chapter 4 has no register at 140'),
    ('another number', SET_UP, ('vwrite 0 100 0', 'vwrite 15'), '15, yet chapter 4 has a register at 100'),
    ('a value that was refused', SET_UP, ('vread 0 24', 'vread 2 00000001'), '2 with the value 00000001'),
    ('a line that is low', [*SET_UP, ENET_HIGH], ('line', 'line 0'), '0, yet set and enabled: RX_EMPTY'),
    ('a line that is high', SET_UP, ('line', 'line 1'), '1, yet no status bit is set that is enabled'),
    ('an enable of ENET', [*SET_UP, ENET_HIGH], ('read 4', 'read 0 00000000'), f'00000000, {RIGHT} 00000001'),
    ('a status of ENET that was cleared', [*SET_UP, ('write 8 1', 'write 0')], ('read 8', 'read 0 00050001'),
     '00050001, yet by the calls before: RX_EMPTY not set'),
    ('a status of ENET that was not cleared', SET_UP, ('read 8', 'read 0 00050000'),
     '00050000, yet by the calls before: RX_EMPTY set'),
    ('a status of ENET with a reserved bit', SET_UP, ('read 8', 'read 0 00050011'),
     '00050011, yet by the calls before: a reserved bit not set'),
]


def no_answer(name, line, answer):
    """As the other faults of the report's test."""
    return name, *texts([NEW, (line, answer)]), f'line 2: "{answer}" does not answer "{line}"'


# answers that are none of their form
FAULTS = [
    no_answer('an answer of no controller', 'irq', 'irq 2 0 00000000'),
    no_answer('an answer of no input', 'irq', 'irq 0 16 00000000'),
    no_answer('an answer without a vector', 'irq', 'irq 0 11'),
    no_answer('neither high nor low', 'fiq', 'fiq 2'),
    no_answer('inputs with a number', 'inputs 0 1', 'inputs 0'),
    no_answer('a read without a value', 'vread 0 8', 'vread 0'),
    ('no such controller', *texts([NEW, ('vread 2 8', 'vread 0 00000000')]), '"vread 2 8" is no call known here'),
]

# ---- ENET's line in doubt

# the control word of the descriptor at 10c is the packet status of that at 100, which the report does not follow: whether the
# second frame ends the chain is not known, nor then whether RX_DONE is set, which alone is enabled
DOUBT = [
    NEW,
    ('poke 100 00460000000400000d01000000000100', 'poke ok'),
    ('poke 110 000a00000100000000000100', 'poke ok'),
    ('write 1c 101', 'write 0'),
    ('write 10 5', 'write 0'),
    ('write 8 50001', 'write 0'),
    ('write 4 80', 'write 0'),
    *SET_UP[1:],
    (f'frame {FRAME}', 'frame 0'),
    (f'frame {FRAME}', 'frame 0'),
]
# the same descriptor is sent, what lies in its buffer: now TX_DONE is in doubt, too, and both are enabled
DOUBT_TWICE = [
    ('poke 118 00000100', 'poke ok'),
    ('write 3c 10d', 'write 0'),
    ('write 30 5', 'write 0', 'sending starts at 0000010c, polling on'),
    ('send 1518', f'send 0 {frames.closed(bytes.fromhex(FRAME)).hex()}'),
    ('write 4 800080', 'write 0'),
]
# by their names: the lines behind, and whether the last of them must be a fault; all before it are told
UNSURE = {
    'a line that is high': ([('line', 'line 1'), irq('0 11 0000a000', 'by slot 2')], False),
    'a line that is low': ([('line', 'line 0'), irq('none')], False),
    'a line that is high, yet no answer': ([('line', 'line 1'), irq('none')], True),
    'a line that is low, yet an answer': ([('line', 'line 0'), irq('0 11 0000a000')], True),
    'a status that has it': ([('read 8', 'read 0 00008080'), irq('0 11 0000a000', 'by slot 2')], False),
    'a status that does not': ([('read 8', 'read 0 00008000'), irq('none')], False),
    'a status that has it, yet no answer': ([('read 8', 'read 0 00008080'), irq('none')], True),
    'a status without the frame': ([('read 8', 'read 0 00000080')], True),
    'an answer': ([irq('0 11 0000a000', 'by slot 2'), ('line', 'line 1')], False),
    'no answer': ([irq('none'), ('line', 'line 0')], False),
    'an answer, and the line low': ([irq('0 11 0000a000', 'by slot 2'), ('line', 'line 0')], True),
    'no answer, and the line high': ([irq('none'), ('line', 'line 1')], True),
    'a third answer': ([irq('0 4 0000f000')], True),
    'a raw status': ([get(0, 0x08, 0x800), irq('0 11 0000a000', 'by slot 2')], False),
    'no raw status': ([get(0, 0x08, 0), irq('none')], False),
    'a raw status, yet no answer': ([get(0, 0x08, 0x800), irq('none')], True),
    'another raw status': ([get(0, 0x08, 0x801)], True),
    'a FIQ': ([put(0, 0x0c, 0x800), fiq(1, f'selected for FIQ: {ENET}'), ('line', 'line 1')], False),
    'no FIQ': ([put(0, 0x0c, 0x800), fiq(0), ('line', 'line 0')], False),
    'a FIQ, and the line low': ([put(0, 0x0c, 0x800), fiq(1, f'selected for FIQ: {ENET}'), ('line', 'line 0')], True),
    # one of VIC1 makes FIQ high at either level
    'a FIQ of another': ([put(0, 0x0c, 0x800), put(1, 0x0c, 1), inputs(1, 1), fiq(1), ('line', 'line 0')], False),
    'taken': ([take(0xa000, taken(ENET, 'by slot 2')), ('line', 'line 1'), end(0, ended(ENET))], False),
    'not taken': ([take(0xf000, NO_ANSWER), ('line', 'line 0'), end(0, NOTHING_TO_END)], False),
    'taken, and the line low': ([take(0xa000, taken(ENET, 'by slot 2')), ('line', 'line 0')], True),
    'another taken': ([take(0xb000)], True),
    # the same vector with and without: what is in service is not known from then on, until the next bench
    'taken or not': ([put(0, 0x108, 0xf000), take(0xf000, IN_DOUBT), irq('none'), get(0, 0x08, 0x1234), end(0, MAY_END),
                      take(0x1234, MAY_TAKE), get(1, 0x30, 5), fiq(1), NEW, take(0, NO_ANSWER)], False),
    # a line that is high does not tell which of two bits is set
    'one of two': ([*DOUBT_TWICE, ('line', 'line 1'), ('read 8', 'read 0 80008080')], False),
    'the other of two': ([*DOUBT_TWICE, irq('0 11 0000a000', 'by slot 2'), ('read 8', 'read 0 80808000')], False),
    'neither of two': ([*DOUBT_TWICE, ('line', 'line 0'), ('read 8', 'read 0 80008080')], True),
    # what is masked or not enabled in the controller is known all the same
    'not enabled there': ([put(0, 0x14, 0x800), irq('none'), take(0xf000, NO_ANSWER), irq('0 11 0000a000')], True),
    'under one in service': ([*slot(0, 0, 0xc000, 0x24), inputs(0, 0x10), take(0xc000, taken(TIMER, 'by slot 0')), irq('none'),
                              irq('0 11 0000a000')], True),
    # a bit that is cleared, or is not enabled in ENET, is in no doubt any more
    'cleared': ([('write 8 80', 'write 0'), irq('0 11 0000a000')], True),
    'not enabled': ([('write 4 0', 'write 0'), irq('0 11 0000a000')], True),
    'another enabled': ([('write 4 8000', 'write 0'), irq('none')], True),
}

# ---- behind a line that cannot be told, and before the first new, nothing is known

SILENT = [
    ('before the first new', [], 0),
    ('behind a fault', [*ENET_IN_SERVICE, ('grant 0', 'grant 17')], 1),
    ('behind a contradiction', [*ENET_IN_SERVICE, irq('0 11 0000a000')], 1),
    ('behind an unknown call', [*ENET_IN_SERVICE, ('tock', 'tock 0')], 1),
]
# no bench answers so; each is told, and none is a fault
ANYTHING = [irq('1 3 00001234'), irq('none'), fiq(1), fiq(0), get(0, 0x00, 0x1234), get(1, 0x10, 0xffff), get(1, 0x30, 0x77),
            ('line', 'line 1'), ('line', 'line 0'), ('read 8', 'read 0 00000000'), ('read 4', 'read 0 00000001')]
# a line that was not taken changes nothing
NOT_TAKEN = [*ENET_IN_SERVICE, ('irq 0', f'error {len(ENET_IN_SERVICE) + 1}')]

# ---- examples/interrupts.txt: what is taken and ended there, and what it comes to

EXAMPLE = [
    taken(ENET, 'by slot 0'),
    ended(ENET),
    # gone before it is taken
    NO_ANSWER,
    NOTHING_TO_END,
    # three in service, ended in turn; UART0's by the second of two writes
    taken(UART0, 'by slot 2'),
    taken(SOFTWARE, plain(0), UART0),
    taken(ENET, 'by slot 0', SOFTWARE, UART0),
    ended(ENET, SOFTWARE),
    ended(SOFTWARE, UART0),
    NOT_OF(UART0, 0),
    ended(UART0),
]
EXAMPLE_TOTALS = ['interrupts taken 4', f'1 {SOFTWARE}', f'2 {ENET}', f'1 {UART0}', 'interrupts ended 4', 'still in service 0',
                  'deepest nesting 3', 'nothing taken 1 VIC0_VAR read without an answer', 'frames delivered 3 192 bytes']
