"""The pitch of a struck string, from the samples that it puts out alone; and the keys of a piano, to name it by."""
import cmath, math

KEYS = [27.5 * 2 ** (key / 12) for key in range(88)]
NAMES = 'A', 'A♯', 'B', 'C', 'C♯', 'D', 'D♯', 'E', 'F', 'F♯', 'G', 'G♯'

# how many periods a stretch is long, how many the second begins after the first, and how many are enough for both
LONG, APART, ENOUGH = 4, 2, 8


def name(key):
    return f'{NAMES[key % 12]}{(key + 9) // 12}'


def cents(hertz, other):
    return 1200 * math.log2(hertz / other)


def place_of(hertz):
    """Where a pitch lies among the keys, in keys from the lowest."""
    return cents(hertz, KEYS[0]) / 100


def turned(stretch, frequency):
    """The part of a stretch that turns at about a frequency, weighed by a raised cosine."""
    weights = (1 - math.cos(math.tau * (place + 0.5) / len(stretch)) for place in range(len(stretch)))
    return sum(weight * sample * cmath.exp(-1j * math.tau * frequency * place)
               for place, (weight, sample) in enumerate(zip(weights, stretch)))


def frequency(samples):
    """In turns a sample: about one turn from the strike to its greatest return, put right by how far the fundamental turns
    between two stretches."""
    period = max(range(len(samples)), key=lambda place: abs(samples[place]))
    early, late = (turned(samples[start * period:(start + LONG) * period], 1 / period) for start in (1, 1 + APART))
    return (APART + cmath.phase(late / early) / math.tau) / (APART * period)
