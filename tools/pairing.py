"""A console script paired, line by line, with what the console wrote for it."""
import dataclasses
import re

HEX = r'([0-9A-Fa-f]{1,8})'
DECIMAL = r'([0-9]{1,8})'
PAIRS = r'(-|(?:[0-9A-Fa-f]{2})+)'
NUMBER = r'([0-9]{1,10})'
WORD = r'([0-9a-f]{8})'
BYTES = r'(-|(?:[0-9a-f]{2})+)'
FLAG = r'([01])'
# what a counter holds
COUNTER = r'(0|[1-9][0-9]{0,9})'
# lists, to the end of the line: of starts with their lengths, and of numbers
PLACES = r'((?: [0-9]{1,8} [0-9]{1,8})*)'
NUMBERS = r'((?: [0-9]{1,10})*)'
# the answer of the interrupt controllers: none, or controller, input and vector
REQUEST = r'(none|[01] (?:[0-9]|1[0-5]) [0-9a-f]{8})'

# name of a call: the words behind it in the script, and those behind it in the output
FORMS = {
    'new': ([HEX, DECIMAL], [NUMBER]),
    'lend': ([DECIMAL], []),
    'read': ([HEX], [NUMBER, WORD]),
    'write': ([HEX, HEX], [NUMBER]),
    'line': ([], [FLAG]),
    'grant': ([HEX], [NUMBER]),
    'frame': ([PAIRS], [NUMBER]),
    'burst': ([DECIMAL, PAIRS, PLACES], [NUMBER, NUMBERS]),
    'send': ([DECIMAL], [NUMBER, BYTES]),
    'run': ([DECIMAL, DECIMAL], [NUMBER, NUMBER, NUMBER, BYTES]),
    'tick': ([], [NUMBER]),
    'show': ([HEX], [NUMBER, BYTES]),
    'ring': ([DECIMAL, HEX], [r'(yes|no)']),
    'poke': ([HEX, PAIRS], [r'(ok|outside)']),
    'peek': ([HEX, DECIMAL], [r'(outside|-|(?:[0-9a-f]{2})+)']),
    'check': ([], [WORD]),
    'state': ([], [FLAG, WORD, FLAG, WORD]),
    'counters': ([], [COUNTER] * 4),
    'vread': ([FLAG, HEX], [NUMBER, WORD]),
    'vwrite': ([FLAG, HEX, HEX], [NUMBER]),
    'inputs': ([FLAG, HEX], []),
    'irq': ([], [REQUEST]),
    'fiq': ([], [FLAG]),
}

BASES = {HEX: 16, DECIMAL: 10, NUMBER: 10, WORD: 16, FLAG: 10, COUNTER: 10}
LONGEST_QUOTE = 40


@dataclasses.dataclass
class Heading:
    """A comment of the script: its first line, and the others."""
    title: str
    text: list
    # its place among the headings that have calls
    number: int = 0


@dataclasses.dataclass
class Line:
    """A line of the script that is to be answered."""
    at: int
    text: str


@dataclasses.dataclass
class Call:
    """A call and the console's answer to it, as values."""
    line: Line
    name: str
    arguments: list
    answer: list


@dataclasses.dataclass
class Fault:
    """What keeps a day from being told whole. After a last one nothing more is paired; one that changed nothing was a line
    that the console did not take."""
    words: str
    last: bool = False
    changed: bool = True


def printable(text):
    return ''.join(c if c.isprintable() else c.encode('unicode_escape').decode() for c in text)


def quoted(text):
    shown = printable(text)
    return f'"{shown}"' if len(shown) <= LONGEST_QUOTE else f'"{shown[:LONGEST_QUOTE]}.."'


def lines(data):
    """The lines of a file as the console counts them: by line feeds alone."""
    found = data.decode('utf-8', 'backslashreplace').split('\n')
    return found[:-1] if found[-1] == '' else found


def parts(script):
    """The headings of a script and the lines to be answered, in their order."""
    comment = []
    for at, text in enumerate(lines(script), 1):
        if text.startswith('#'):
            comment.append(printable(text[1:].strip()))
            continue
        if comment:
            yield Heading(comment[0], comment[1:])
            comment = []
        if text:
            yield Line(at, text)
    if comment:
        yield Heading(comment[0], comment[1:])


def bytes_of(text):
    return b'' if text == '-' else bytes.fromhex(text)


def value(form, text):
    if form in BASES:
        return int(text, BASES[form])
    if form in (PLACES, NUMBERS):
        numbers = [int(word) for word in text.split()]
        return list(zip(numbers[::2], numbers[1::2])) if form == PLACES else numbers
    if form == REQUEST:
        return None if text == 'none' else tuple(int(word, base) for word, base in zip(text.split(), (10, 10, 16)))
    return bytes_of(text) if form in (PAIRS, BYTES) else text


def values(name, forms, text):
    """The values in a line of this name and these forms, or None."""
    # each word of a list brings its own space
    words = [form if form in (PLACES, NUMBERS) else f' {form}' for form in forms]
    found = re.fullmatch(''.join([name] + words), text)
    return found and [value(form, word) for form, word in zip(forms, found.groups())]


def paired(line, answer):
    """A line and its answer as a call, or what is wrong with them."""
    if answer == f'error {line.at}':
        return Fault(f'line {line.at}: the console did not take {quoted(line.text)}', changed=False)
    name = line.text.split(' ')[0]
    asked, answered = FORMS.get(name, ([], []))
    arguments = values(name, asked, line.text) if name in FORMS else None
    if arguments is None:
        return Fault(f'line {line.at}: {quoted(line.text)} is no call known here, yet it was answered {quoted(answer)}')
    answers = values(name, answered, answer)
    if answers is None:
        return Fault(f'line {line.at}: {quoted(answer)} does not answer {quoted(line.text)}', last=True)
    return Call(line, name, arguments, answers)


def entries(script, output):
    """Headings, calls and faults, in the script's order."""
    answers = iter(lines(output))
    found, heading, headings = [], None, 0
    for part in parts(script):
        if isinstance(part, Heading):
            heading = part
            found.append(part)
            continue
        if heading and not heading.number:
            headings += 1
            heading.number = headings
        answer = next(answers, None)
        if answer is None:
            return found + [Fault(f'line {part.at}: the output ends before the answer to {quoted(part.text)}', last=True)]
        found.append(paired(part, answer))
        if isinstance(found[-1], Fault) and found[-1].last:
            return found
    left = len(list(answers))
    if left:
        found.append(Fault(f'the output goes on after the last call; lines left: {left}', last=True))
    return found
