"""Sort 1: every kind with each of its choices, over several windows each, with its state carried from one to the next."""
import itertools, math, random
from words import INFINITY, NAN, SIGN, bits, near, number

PLAIN, CLIP, FILTERS, OSCILLATOR, MODULATED, WAVEGUIDE, RING_MODULATOR, PAN = [0, 1], 2, range(3, 10), 10, 11, 12, 13, 14
WAVEFORMS, MODULATIONS, REFLECTANCES = range(5), range(2), range(2)
SECONDS, SLOT, FIXED, ABSENT = [3], lambda k: [2, k], lambda x: [1, bits(x)], [0]
ONE_POLES = (3, 5)
# the waveforms Sin and Sin3; BandPass, Notch and AllPass, which alone reach half a turn
SINES, UP_TO_HALF = range(2), range(7, 10)
# external 0 and 1 are inputs, internal 0 is the output; internal 1 isn't there
INPUT, OTHER, OUTPUT, NOWHERE = 1, 3, 0, 2
# a Pan writes external 1 too, left or right, and adds there to what is set
PANS = [[PAN, INPUT, OUTPUT, OTHER], [PAN, INPUT, OTHER, OUTPUT]]
PAN_PARAMETERS = 3
BUFFER_SIZE = 40
HOSTILE = {
    'zero and negative': [0, SIGN, bits(-1.0), bits(-440.0), bits(-1e-20)],
    'huge and subnormal': [bits(1e300), bits(-1e300), 1, SIGN | 1, bits(2.0 ** -1022), bits(2.0 ** 64)],
    'infinite and NaN': [INFINITY, INFINITY | SIGN, NAN],
}
WIDTH = bits(1 / 48000)
# flags of a session: answers include states and rings, and what each stage reaches
STATES, REACHES = 1, 2
# at this width the low-pass of a string has a delay of 0, of 1, of infinitely many and of about -1 samples, and of 0 at the last two
QUARTER = 0.25
CUTOFFS = [bits(8.0), bits(1 / math.pi), 0, bits(-8.0), INFINITY, NAN]


def kinds():
    """the words of a stage up to its parameters, how many of these follow out_level, and whether it has a ring; of all kinds but Pan"""
    for kind in PLAIN:
        yield [kind, INPUT, OUTPUT], 0, False
    yield [CLIP, INPUT, OUTPUT], 1, False
    for kind in FILTERS:
        yield [kind, INPUT, OUTPUT], 1 if kind in ONE_POLES else 2, False
    for waveform in WAVEFORMS:
        yield [OSCILLATOR, waveform, OUTPUT], 2, False
    for waveform, modulation in itertools.product(WAVEFORMS, MODULATIONS):
        yield [MODULATED, waveform, modulation, INPUT, OUTPUT], 2, False
    for reflectance in REFLECTANCES:
        yield [WAVEGUIDE, reflectance, BUFFER_SIZE, INPUT, OUTPUT], 3, True
    yield [RING_MODULATOR, INPUT, OTHER, OUTPUT], 0, False


def ordinary(kind, k):
    """a value that suits parameter k of a kind: a level, then frequencies, a quality, a feedback, a limit, a phase or gains"""
    if k == 0:
        return bits(random.uniform(0.1, 1.0))
    if kind == PAN:
        return bits(random.uniform(-1.0, 1.0))
    if kind == CLIP:
        return bits(random.uniform(-0.7, 0.7))
    if kind in FILTERS and k == 2:
        return bits(random.uniform(0.3, 4.0))
    if kind in (OSCILLATOR, MODULATED) and k == 2:
        return bits(random.random())
    if kind == WAVEGUIDE and k == 3:
        return bits(random.uniform(-1.0, 1.0))
    return bits(random.uniform(200.0, 12000.0))


def values_of(kind, count, hostile):
    values = [ordinary(kind, k) for k in range(count + 1)]
    if hostile:
        for k in random.sample(range(count + 1), random.randint(1, count + 1)):
            values[k] = random.choice(HOSTILE[hostile])
    return values


def window(n, width, values, prepared, hostile, order=(0,)):
    """prepare and set both inputs, then run some stages"""
    signal = lambda: [number() if hostile and random.random() < 0.1 else bits(random.uniform(-1, 1)) for _ in range(n)]
    return [2 | prepared, n, width, 2, *signal(), 2, *signal(), *values, len(order), *order]


def lent(stages, capacity, values, ring, flags=0):
    """one internal and two external buffers, silent and not stale, and new states"""
    head = [1, flags, 1, capacity, 2, capacity, capacity, 2 * capacity, capacity, values, ring, len(stages)]
    contents = [0] * (capacity + 2 * capacity + capacity + values + ring)
    return head + sum(stages, []) + contents + [0] * 32 + [0] * (32 * 11)


def session(stage, count, has_ring, windows, hostile):
    """every parameter is a slot but, now and then, out_level, or both levels of a Pan"""
    absent = (2 if stage[0] == PAN else 1) if random.random() < 0.3 else 0
    parameters = sum((ABSENT if k < absent else SLOT(k) for k in range(count + 1)), [])
    ring = BUFFER_SIZE + 1 if has_ring else 0
    body = []
    for at, n in enumerate(windows):
        width = random.choice([WIDTH, 0, SIGN, bits(-1 / 48000), NAN]) if hostile and at % 2 else WIDTH
        # not prepared, a window adds to what the one before has left
        body += window(n, width, values_of(stage[0], count, hostile), 0 if at == 2 else 1, hostile)
    return lent([stage + parameters], max(windows), count + 1, ring) + [len(windows)] + body


def sessions(stage, count, has_ring):
    yield session(stage, count, has_ring, [64, 0, 63, 1, 2, 64], None)
    yield session(stage, count, has_ring, [257, 257], None)
    for hostile in HOSTILE:
        yield session(stage, count, has_ring, [2, 33, 1, 0, 33], hostile)


def wired(source, levels):
    """Pans from one buffer into any two of four, one of which isn't there; each runs by itself, with samples and without"""
    parameters = levels + SLOT(2) + SLOT(3)
    pairs = itertools.product((OUTPUT, INPUT, OTHER, NOWHERE), repeat=2)
    stages = [[PAN, source, *outputs, *parameters] for outputs in pairs]
    windows = [window(n, WIDTH, values_of(PAN, PAN_PARAMETERS, None), 1, None, [k]) for k in range(len(stages)) for n in (2, 0)]
    return lent(stages, 2, PAN_PARAMETERS + 1, 0) + [len(windows)] + sum(windows, [])


def cases():
    for kind in kinds():
        yield from sessions(*kind)


def pans():
    """the same of Pan; then where it is refused with 5, 8, 6 or 7 and where it is not, for an input that is stale and one that isn't"""
    for stage in PANS:
        yield from sessions(stage, PAN_PARAMETERS, False)
    for source, left, right in itertools.product((INPUT, OUTPUT), (ABSENT, SLOT(0)), (ABSENT, SLOT(1))):
        yield wired(source, left + right)


def half_turns():
    """Sin and Sin3 at 0.5, 1.0 and -0.0 turns and next to these, and filters at half a turn, over the shortest input that shows the sign of
    the sine there, and over more; each stage runs by itself"""
    oscillators = [[OSCILLATOR, waveform, OUTPUT, *ABSENT, *FIXED(frequency), *ABSENT]
                   for waveform in SINES for frequency in (0.5, -1e-20, -1.0)]
    oscillators += [[MODULATED, waveform, modulation, INPUT, OUTPUT, *ABSENT, *FIXED(0.0), *ABSENT]
                    for waveform in SINES for modulation in MODULATIONS]
    filters = [[kind, INPUT, OUTPUT, *ABSENT, *FIXED(0.5), *FIXED(1.0)] for kind in UP_TO_HALF]
    # by phase, these are the turns; by frequency, the way leads over 0.5, 0.0, 1.0, 0.0 and -0.0 turns
    turns = [*map(bits, (0.5, -0.5, -1e-20, -1.0, -1.0))] + near(0.5) + near(1.0) + near(0.0)
    runs = [(stage, turns) for stage in range(len(oscillators))]
    runs += [(stage, signal) for stage in range(len(oscillators), len(oscillators + filters)) for signal in ([SIGN, SIGN], turns)]
    windows = [[3, len(signal), bits(1.0), 2, *signal, 0, 1, stage] for stage, signal in runs]
    yield lent(oscillators + filters, len(turns), 0, 0) + [len(windows)] + sum(windows, [])


def string(reflectance, size, frequency, cutoff, source=INPUT):
    return [WAVEGUIDE, reflectance, size, source, OUTPUT, *ABSENT, *frequency, *cutoff, *FIXED(0.5)]


def frequencies():
    """those of 1, 2 and 3 samples for either reflectance, next to these, and those at which a quotient turns"""
    whole = {factor / (QUARTER * samples) for factor in (1.0, 0.5) for samples in (1, 2, 3)}
    largest = INFINITY - 1
    return [word for x in sorted(whole) for word in near(x)] + [0, SIGN, INFINITY, INFINITY | SIGN, largest, largest | SIGN, NAN]


def reaching():
    """strings of 1 to 4 cells at every edge of what they reach, none of them at the place of its number; at other widths too"""
    sizes = range(4)
    strings = [string(reflectance, size, SLOT(0), SLOT(1)) for reflectance in REFLECTANCES for size in sizes]
    tunings = [(QUARTER, *tuning) for tuning in itertools.product(frequencies(), CUTOFFS)]
    tunings += itertools.product((0.0, -QUARTER, math.nan), (0, bits(2.0), INFINITY), (0, bits(8.0)))
    windows = [window(1, bits(width), tuning, 1, None, range(len(strings))[::-1]) for width, *tuning in tunings]
    yield lent(strings, 1, 2, sum(size + 1 for size in sizes) * len(REFLECTANCES), REACHES) + [len(windows)] + sum(windows, [])


def answering(x, source=INPUT):
    """a string that is within at a frequency of 4, below 0 at -4 and above 1 at 1"""
    return string(0, 2, FIXED(x), FIXED(8.0), source)


def in_order():
    """strings of each answer and a Pass, in orders of which some are refused, with samples and without, prepared or not, and in windows that
    are too long; then over too few cells, where nothing runs, with each flag; then as many strings as a patch has"""
    answers = within, below, above, none = [answering(x) for x in (4.0, -4.0, 1.0, math.nan)]
    faults = [answering(1.0, source) for source in (NOWHERE, OUTPUT)] + [string(0, 2, SLOT(0), FIXED(8.0))]
    stages = [within, below, [0, INPUT, OUTPUT, *ABSENT], above, none, *faults]
    orders = [[0, 1, 2, 3, 4], [4, 3, 2, 1, 0], [3, 4], [1], [2], [], [3, 3], [3, 5], [4, 3, 6], [3, 7], [3, 8]]
    first = window(3, bits(QUARTER), [], 1, None, orders[0])
    windows = [[prepared, n, bits(QUARTER), len(order), *order] for n in (3, 0, 1, 4) for order in orders for prepared in (1, 0)]
    few, cells = windows[:2 * len(orders)], 3 * 7
    yield lent(stages, 3, 0, cells, REACHES) + [1 + len(windows)] + first + sum(windows, [])
    for flags in range(STATES + REACHES + 1):
        yield lent(stages, 3, 0, cells - 1, flags) + [len(few)] + sum(few, [])
    most = range(32)
    windows = [window(1, bits(QUARTER), [], 1, None, order) for order in (most[::-1], most[::-3], most[31:], [])]
    yield lent(answers * 8, 1, 0, 3 * 32, REACHES) + [len(windows)] + sum(windows, [])


def reaches():
    yield from reaching()
    yield from in_order()
