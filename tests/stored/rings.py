"""Sorts 3 to 7: the parts of util.rs, 500 instances of each over 50 samples."""
import random
from words import INFINITY, NAN, NANS, SIGN, bits, number, sample

INSTANCES, SAMPLES = 500, 50
LENGTHS = [1, 2, 3, 7, 64]
LONGEST = 32768
FRACTIONS = [bits(x) for x in (-2.0, -0.25, -1e-300, 0.0, -0.0, 5e-324, 1e-20, 0.25, 0.5, 0.49999999999999994, 0.75, 1.0,
                               1.0000000000000002, 1.5, 1e300)] + [INFINITY, INFINITY | SIGN, NAN]
# more of them, for reads that tell what they reach
ENDS = [bits(-5e-324), bits(0.9999999999999999), *NANS]
RING, SOFT_CLIP, LOW_PASS, COMB, ALL_PASS = 3, 4, 5, 6, 7
# the last of each tells what it reaches
ADVANCE, ADVANCE_LENT, WRITE, DELAYED, DELAYED_FRACT, MUTE, DELAYED_TOLD = range(7)
PROCESS, PROCESS_FRACT, SILENCE, PROCESS_TOLD = range(4)


def fraction():
    return random.choice(FRACTIONS) if random.random() < 0.5 else bits(random.random())


def gain():
    return bits(random.uniform(-1, 1)) if random.random() < 0.8 else number()


def cutoff_and_rate():
    return [bits(random.uniform(0, 24000)), bits(48000.0)] if random.random() < 0.7 else [number(), number()]


def ring_of(instance):
    """length, position, cells; the last instance has the longest ring, silent but for its ends"""
    length = LENGTHS[instance % len(LENGTHS)]
    if instance == INSTANCES - 1:
        return [LONGEST, LONGEST - 2, sample()] + [0] * (LONGEST - 2) + [sample()]
    return [length, random.randrange(length)] + [sample() for _ in range(length)]


def turn():
    """one sample round a ring: it is advanced, read and written, as a comb does it"""
    read = [DELAYED_FRACT, fraction()] if random.random() < 0.8 else [DELAYED]
    return [random.choice([ADVANCE, ADVANCE_LENT])] + read + [WRITE, sample()]


def rings():
    for instance in range(INSTANCES):
        head = [RING, *ring_of(instance)]
        turns = [turn() for _ in range(SAMPLES)]
        yield head + [3 * SAMPLES + instance % 2] + sum(turns, []) + [MUTE] * (instance % 2)


def soft_clips():
    for instance in range(INSTANCES):
        linear_until = bits(0.9) if instance % 2 else random.choice([gain(), bits(1.0), 0, number()])
        yield [SOFT_CLIP, linear_until, SAMPLES] + [number() if random.random() < 0.5 else sample() for _ in range(SAMPLES)]


def low_passes():
    for _ in range(INSTANCES):
        samples = sum(([0, sample()] for _ in range(SAMPLES)), [])
        yield [LOW_PASS, *cutoff_and_rate(), sample(), SAMPLES + 4, 1, *samples, 2, *cutoff_and_rate(), 0, sample(), 3]


def response():
    return [0, gain()] if random.random() < 0.5 else [1, *cutoff_and_rate(), sample(), gain()]


def limit():
    return [0, gain()] if random.random() < 0.5 else [1, bits(0.9)]


def processed():
    return [PROCESS_FRACT, fraction(), sample()] if random.random() < 0.8 else [PROCESS, sample()]


def filters(sort, settings):
    """combs or all-passes; every eighth is muted at the end"""
    for instance in range(INSTANCES):
        muted = instance % 8 == 0
        operations = sum((processed() for _ in range(SAMPLES)), []) + [SILENCE] * muted
        yield [sort, *ring_of(instance), *settings(), SAMPLES + muted, *operations]


def refused():
    """a length or a position that is none, at each sort over a ring"""
    for sort, settings in ((RING, []), (COMB, [0, bits(0.5), 0, bits(1.0)]), (ALL_PASS, [bits(0.5)])):
        too_long = [(LONGEST + 1, 0)] if sort == RING else []
        for length, position in [(0, 0), (3, 3), (1, (1 << 64) - 1)] + too_long:
            operations = [DELAYED, MUTE, ADVANCE] if sort == RING else [PROCESS, bits(1.0), SILENCE, PROCESS_FRACT, 0, 0]
            yield [sort, length, position] + [bits(1.0)] * min(length, 3) + [0] * (length - 3) + settings + [3] + operations


def cases():
    yield from rings()
    yield from soft_clips()
    yield from low_passes()
    yield from filters(COMB, lambda: response() + limit())
    yield from filters(ALL_PASS, lambda: [gain()])
    yield from refused()


def told():
    """every fraction, asked without what it reaches and with it, at each sort over a ring, on rings of each length and on two that are refused"""
    for ring in [ring_of(instance) for instance in range(len(LENGTHS))] + [[0, 0], [1, 1, bits(1.0)]]:
        reads = [word for f in FRACTIONS + ENDS for word in (DELAYED_FRACT, f, DELAYED_TOLD, f)]
        steps = [word for f in FRACTIONS + ENDS for word in (PROCESS_FRACT, f, sample(), PROCESS_TOLD, f, sample())]
        for sort, settings, operations in ((RING, [], reads), (COMB, response() + limit(), steps), (ALL_PASS, [gain()], steps)):
            yield [sort, *ring, *settings, 2 * len(FRACTIONS + ENDS), *operations]
