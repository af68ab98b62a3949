"""Sort 2: every function at edges and at random numbers."""
import itertools
from words import EDGES, INFINITY, NAN, SIGN, bits, number

ARITIES = [2, 2, 3, 1, 2, 1, 1, 1, 1, 1, 1, 1, 1]
ALL_PLUS_ZERO = 13
CALLS = 2000
FEW = [0, SIGN, 1, bits(0.5), bits(-0.5), bits(1.0), bits(-1.0), bits(3.0), bits(2.0 ** 53), INFINITY, INFINITY | SIGN, NAN]


def calls(arity):
    """edges in every combination of few, every edge in every place, and random numbers up to CALLS"""
    groups = [list(group) for group in itertools.product(FEW if arity > 1 else EDGES, repeat=arity)]
    groups += [[number() for _ in range(at)] + [edge] + [number() for _ in range(at + 1, arity)]
               for at in range(arity) for edge in EDGES]
    groups += [[number() for _ in range(arity)] for _ in range(CALLS - len(groups))]
    return groups


def case(function, words, count):
    return [2, function, count, *words]


def zeros():
    """lengths around the eight that are looked at together, with nothing else or one other word among the zeros"""
    for length in (0, 1, 7, 8, 9, 15, 16, 17, 24, 100):
        yield case(ALL_PLUS_ZERO, [0] * length, length)
        for other in (SIGN, 1, NAN, INFINITY, bits(1.0)):
            for at in {0, length // 2, length - 1} if length else ():
                words = [0] * length
                words[at] = other
                yield case(ALL_PLUS_ZERO, words, length)


def cases():
    for function, arity in enumerate(ARITIES):
        groups = calls(arity)
        yield case(function, itertools.chain(*groups), len(groups))
        yield case(function, [], 0)
    yield from zeros()
