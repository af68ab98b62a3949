"""Samples for the program levels, as their bits: the edges of what document 02's request Six tells apart, and random stretches of several
families, at all lengths around the program's buffer."""
import math, struct

BUFFER = 8192  # the samples of the 65,536 bytes that the program reads at a time
SIGN, INFINITY, ONE = 1 << 63, 0x7ff << 52, 0x3ff << 52

ZEROS = [0, SIGN]
# quiet and signalling, with payloads and without
NANS = [sign + magnitude for sign in ZEROS for magnitude in (INFINITY + 1, 0x7ff7dead0000beef, 0x7ff8000000000000, SIGN - 1)]
# the smallest and the largest subnormal, the smallest normal, 0.5, 1.0 and its neighbours, 2.0, the largest finite one, infinity
SIGNED = [sign + magnitude for sign in ZEROS
          for magnitude in (1, (1 << 52) - 1, 1 << 52, 0x3fe << 52, ONE - 1, ONE, ONE + 1, 0x400 << 52, INFINITY - 1, INFINITY)]
EDGES = ZEROS + NANS + SIGNED


def packed(samples):
    return struct.pack(f'<{len(samples)}Q', *samples)


def audio(chance, count):
    """A sine and some noise."""
    level, noise, turns = chance.uniform(0, 1.3), chance.choice([0, 0.1]), chance.uniform(0, 0.5)
    values = (level * math.sin(math.tau * turns * n) + noise * chance.uniform(-1, 1) for n in range(count))
    return list(struct.unpack(f'<{count}Q', struct.pack(f'<{count}d', *values)))


def edges(chance, count):
    return chance.choices(EDGES, k=count)


def neighbours(chance, count):
    """Close to a zero, to 1.0 and to infinity."""
    return [(chance.choice(ZEROS) + chance.choice((0, ONE, INFINITY)) + chance.randrange(-3, 4)) % (1 << 64) for _ in range(count)]


def any_bits(chance, count):
    return [chance.getrandbits(64) for _ in range(count)]


def far_signs(chance, count):
    """Signs far from each other, zeros and NaNs between them."""
    found = []
    while len(found) < count:
        found += [chance.choice(SIGNED), *chance.choices(ZEROS + NANS, k=chance.choice((0, 1, 2, 30, 3000)))]
    return found[:count]


FAMILIES = [audio, edges, neighbours, any_bits, far_signs]


def mixed(chance, count):
    found = []
    while len(found) < count:
        found += chance.choice(FAMILIES)(chance, chance.choice((1, 5, 2000)))
    return found[:count]


def length(chance):
    """A length: short, on or beside the edge of a buffer, or long."""
    sort = chance.randrange(8)
    if sort < 5:
        return chance.randrange((4, 12, 40, 200, 1000)[sort])
    if sort < 7:
        return BUFFER * chance.randrange(1, 5) + chance.randrange(-1, 2)
    return chance.randrange(40000)


def part_signs(chance, samples):
    """Has two signs lie on the two sides of each buffer's edge, with zeros and NaNs between them or with nothing."""
    for edge in range(BUFFER, len(samples), BUFFER):
        before, behind = chance.choice((0, 1, 9)), chance.choice((0, 1, 9, BUFFER))
        first, last = chance.choices(SIGNED, k=2)
        if edge + behind < len(samples):
            samples[edge - before - 1:edge + behind + 1] = [first, *chance.choices(ZEROS + NANS, k=before + behind), last]


def any_input(chance):
    """The bytes of an input; of one in six, some that end inside a sample."""
    samples = chance.choice([*FAMILIES, mixed])(chance, length(chance))
    if chance.randrange(2):
        part_signs(chance, samples)
    return packed(samples) + chance.randbytes(chance.randrange(1, 8) if chance.randrange(6) == 0 else 0)
