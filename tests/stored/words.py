"""Words and numbers that cases are made of: bits of f64, edges, and random numbers that are always the same."""
import random, struct

INFINITY, NAN = 0x7ff << 52, 0x7ff8 << 48
SIGN = 1 << 63


def bits(x):
    return struct.unpack('<Q', struct.pack('<d', x))[0]


def near(x, reach=1):
    """x and its neighbours, both signs"""
    return [bits(x) + step | sign for sign in (0, SIGN) for step in range(-reach if x else 0, reach + 1)]


NANS = [NAN, NAN | SIGN, INFINITY + 1, (1 << 64) - 1]
SMALL = near(0.0) + near(2.0 ** -1022, 2) + [bits(-1e-20), bits(1e-20), bits(2.0 ** -1074 * 77)]
TURNS = [word for k in range(1, 9) for word in near(k / 8)]
WHOLE = [word for x in (1.5, 2.0, 3.0, 1023.5, 2.0 ** 51, 2.0 ** 52, 2.0 ** 53, 2.0 ** 63, 2.0 ** 64) for word in near(x)]
LARGE = near(1e300) + [INFINITY - 1, INFINITY, INFINITY - 1 | SIGN, INFINITY | SIGN]
EDGES = SMALL + TURNS + WHOLE + LARGE + NANS


def number():
    """a random number: any bits, of any magnitude, about a turn, or about a whole number"""
    return random.choice([
        lambda: random.getrandbits(64),
        lambda: bits(random.choice([-1, 1]) * 10 ** random.uniform(-20, 20)),
        lambda: bits(random.uniform(-0.25, 1.25)),
        lambda: bits(random.randrange(-4096, 4096) / 8),
        lambda: random.choice(EDGES),
    ])()


def sample():
    """a sample of a sound: mostly of magnitude below 1"""
    return bits(random.uniform(-1, 1)) if random.random() < 0.9 else number()
