"""A patch as text, a line to a stage, and back. Rests on form.py for what a stage has; README.md beside it describes the text."""
import math, re, struct

import form

POOLS = 'internal', 'external'
MARKS = {'absent': form.ABSENT, 'slot': form.SLOT, 'window-seconds': form.WINDOW_SECONDS}
DECIMAL = re.compile(r'-?\d+(\.\d+)?(e[+-]?\d+)?', re.ASCII)
BITS = re.compile(r'[0-9a-f]{16}')


def bits_of(number):
    return struct.unpack('<Q', struct.pack('<d', number))[0]


def number_of(bits):
    return struct.unpack('<d', struct.pack('<Q', bits))[0]


class Words:
    """The words of a line, taken from the front. What is no stage raises ValueError."""

    def __init__(self, line):
        self.words = line.split('#')[0].split()

    def take(self, what):
        if not self.words:
            raise ValueError(f'the line ends where {what} would stand')
        return self.words.pop(0)

    def expect(self, word):
        found = self.take(word)
        if found != word:
            raise ValueError(f'{found}, where {word} would stand')

    def one_of(self, known, what):
        word = self.take(what)
        if word not in known:
            raise ValueError(f'{word} is no {what}: {", ".join(known)}')
        return known.index(word)

    def whole(self, what, bound=1 << 32):
        word = self.take(what)
        if not (word.isascii() and word.isdecimal() and int(word) < bound):
            raise ValueError(f'{word} is no {what}: a whole number below {bound:,}')
        return int(word)

    def bits(self):
        digits = self.take('bits')
        if not BITS.fullmatch(digits):
            raise ValueError(f'{digits} are not 16 hex digits')
        return int(digits, 16)

    def parameter(self, name):
        self.expect(name)
        word = self.take(name)
        if word in MARKS:
            return (MARKS[word], self.whole('slot')) if word == 'slot' else (MARKS[word],)
        if word == 'bits':
            return form.FIXED, self.bits()
        if not DECIMAL.fullmatch(word) or not math.isfinite(float(word)):
            raise ValueError(f'{word} is no finite number')
        return form.FIXED, bits_of(float(word))

    def value(self, field):
        if isinstance(field, form.Choice):
            return self.one_of(field.words, field.name)
        if isinstance(field, form.Parameter):
            return self.parameter(field.name)
        self.expect(field.name)
        if isinstance(field, form.Number):
            return self.whole(field.name)
        external = self.one_of(POOLS, 'pool')
        return 2 * self.whole('index', 1 << 31) + external

    def stage(self):
        name = form.NAMES[self.one_of(form.NAMES, 'kind')]
        stage = name, [self.value(field) for field in form.fields(name)]
        if self.words:
            raise ValueError(f'{self.words[0]}, where the line would end')
        return stage


def stages_of(text):
    """The patch of a text; ValueError where it is none, with the line."""
    stages = []
    for place, line in enumerate(text.splitlines(), 1):
        words = Words(line)
        try:
            stages += [words.stage()] if words.words else []
        except ValueError as wrong:
            raise ValueError(f'line {place}: {wrong}') from None
    if len(stages) > form.STAGES:
        raise ValueError(f'{len(stages)} stages are more than {form.STAGES}')
    return stages


def fixed_words(bits):
    """The shortest decimals that give the bits back; the bits where none do."""
    number = number_of(bits)
    return repr(number) if math.isfinite(number) else f'bits {bits:016x}'


def value_words(field, value):
    if isinstance(field, form.Choice):
        return field.words[value]
    if isinstance(field, form.Number):
        return f'{field.name} {value}'
    if isinstance(field, form.Buffer):
        return f'{field.name} {POOLS[value % 2]} {value // 2}'
    mark, *behind = value
    if mark == form.FIXED:
        return f'{field.name} {fixed_words(*behind)}'
    word = next(word for word, known in MARKS.items() if known == mark)
    return ' '.join([field.name, word, *map(str, behind)])


def text_of(stages):
    """The patch in words, a line to a stage."""
    return ''.join(' '.join([name, *map(value_words, form.fields(name), values)]) + '\n' for name, values in stages)
