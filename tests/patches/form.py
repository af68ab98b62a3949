"""A patch file's bytes, written from document 02, requests One and Two: what a stage of each kind has in reading order, and its bytes.

A stage is its kind's name and a value to each of its fields. A value is a whole number; that of a parameter is its mark and what follows the
mark: nothing, the bits of an f64, or a slot. A buffer is twice its index, plus one if external."""
import collections, struct

VERSION = 1
STAGES = 32
ABSENT, FIXED, SLOT, WINDOW_SECONDS = range(4)

Choice = collections.namedtuple('Choice', 'name words')
Number = collections.namedtuple('Number', 'name')
Buffer = collections.namedtuple('Buffer', 'name')
Parameter = collections.namedtuple('Parameter', 'name')

WAVEFORM = Choice('waveform', ('Sin', 'Sin3', 'Triangle', 'Square', 'Sawtooth'))
MODULATION = Choice('modulation', ('ByPhase', 'ByFrequency'))
REFLECTANCE = Choice('reflectance', ('Positive', 'Negative'))
SIZE = Number('buffer_size')

# outputs and their levels: of every kind but Pan, and of Pan
ONE = ['output'], ['out_level']
PAIR = ['left_output', 'right_output'], ['left_level', 'right_level']

# by number: the kind's name, what stands before its inputs, how many those are, and its parameters behind the levels
KINDS = [
    ('Pass', [], 1, ''),
    ('Pow3', [], 1, ''),
    ('Clip', [], 1, 'limit'),
    ('LowPass', [], 1, 'cutoff'),
    ('LowPass2', [], 1, 'resonance quality'),
    ('HighPass', [], 1, 'cutoff'),
    ('HighPass2', [], 1, 'resonance quality'),
    ('BandPass', [], 1, 'center quality'),
    ('Notch', [], 1, 'center quality'),
    ('AllPass', [], 1, 'corner quality'),
    ('Oscillator', [WAVEFORM], 0, 'frequency phase'),
    ('ModulatedOscillator', [WAVEFORM, MODULATION], 1, 'frequency phase'),
    ('Waveguide', [REFLECTANCE, SIZE], 1, 'frequency cutoff feedback'),
    ('RingModulator', [], 2, ''),
    ('Pan', [], 1, 'left_gain right_gain'),
]
NAMES = [name for name, *_ in KINDS]


def fields(name):
    """What a stage of that kind has behind its kind, in reading order."""
    _, first, inputs, parameters = KINDS[NAMES.index(name)]
    outputs, levels = PAIR if name == 'Pan' else ONE
    return [*first, *[Buffer('input')] * inputs, *map(Buffer, outputs), *map(Parameter, [*levels, *parameters.split()])]


def number_bytes(number):
    """Groups of seven bits, low group first, as few as there can be."""
    groups = []
    while number > 0x7f:
        groups.append(number & 0x7f | 0x80)
        number >>= 7
    return bytes([*groups, number])


def parameter_bytes(mark, *behind):
    return number_bytes(mark) + b''.join(struct.pack('<Q', part) if mark == FIXED else number_bytes(part) for part in behind)


def bytes_of(stages):
    """The file of a patch."""
    file = number_bytes(VERSION) + number_bytes(len(stages))
    for name, values in stages:
        file += number_bytes(NAMES.index(name))
        for value in values:
            file += parameter_bytes(*value) if isinstance(value, tuple) else number_bytes(value)
    return file


class Refused(Exception):
    """A refusal's number, and the offset where what is at fault begins."""

    def __init__(self, number, offset):
        super().__init__(f'refused: {number} at {offset}')
        self.number, self.offset = number, offset


class Reader:
    def __init__(self, file):
        self.file, self.place = file, 0

    def number(self, known=range(1 << 32), refusal=None):
        """The next number; refused where it is not among the known ones."""
        start, number = self.place, 0
        for group in range(5):
            if self.place == len(self.file):
                raise Refused(20, start)
            byte = self.file[self.place]
            self.place += 1
            if group == 4 and byte > 0x0f:
                raise Refused(23, start)
            number |= (byte & 0x7f) << 7 * group
            if byte < 0x80:
                break
        if number not in known:
            raise Refused(refusal, start)
        return number

    def parameter(self):
        mark = self.number(range(4), 22)
        if mark == SLOT:
            return mark, self.number()
        if mark != FIXED:
            return mark,
        if self.place + 8 > len(self.file):
            raise Refused(20, self.place)
        self.place += 8
        return mark, *struct.unpack_from('<Q', self.file, self.place - 8)

    def value(self, field):
        if isinstance(field, Parameter):
            return self.parameter()
        return self.number(range(len(field.words)), 22) if isinstance(field, Choice) else self.number()

    def stage(self):
        name = NAMES[self.number(range(len(NAMES)), 22)]
        return name, [self.value(field) for field in fields(name)]


def stages_of(file):
    """The patch of a file, or Refused."""
    reader = Reader(file)
    reader.number(range(VERSION, VERSION + 1), 21)
    stages = [reader.stage() for _ in range(reader.number(range(STAGES + 1), 25))]
    if reader.place < len(file):
        raise Refused(24, reader.place)
    return stages
