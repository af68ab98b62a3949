"""How far document 01's sine lies from the platform's, and from the true one: the greatest distance in each bin of the turn."""
import math, random

import chart

BINS = 480
TURNS = 200
LEAST, BOUND = -60, -48
LEFT = 64
TITLE = 'How far our sine lies from others, over the turn'

# whole numbers of 2^-PLACES, in which the true sine is worked out
PLACES = 128
ONE = 1 << PLACES
TAU = 0x6487ed5110b4611a62633145c06e0e689481270 >> (152 - PLACES)


def true_sine(turn):
    """The sine of a turn, far closer than an f64 can be."""
    place = int(turn * 2 ** 64) << (PLACES - 64)
    half, place = divmod(place, ONE // 2)
    angle = min(place, ONE // 2 - place) * TAU >> PLACES
    term, total, square = angle, angle, angle * angle >> PLACES
    for n in range(2, 40, 2):
        term = -(term * square >> PLACES) // (n * (n + 1))
        total += term
    return -total if half else total


def from_true(number, turn):
    """How far a number lies from the true sine."""
    return abs(int(number * 2 ** 64) * (ONE >> 64) - true_sine(turn)) / ONE


def greatest(distances):
    """The middle of each bin, and the power of two of the greatest distance in it; just below the least where it is none."""
    bins = (max(distances[start:start + TURNS]) for start in range(0, len(distances), TURNS))
    return [((place + 0.5) / BINS, math.log2(most) if most else LEAST - 1) for place, most in enumerate(bins)]


def scales():
    """The plot with its grid, the sine itself for the eye, and the bound."""
    plot = chart.Plot(LEFT, 44, 888, 300, (0, 1), (LEAST - 1, BOUND + 1))
    eighths = [(k / 8, words) for k, words in enumerate(['0', '⅛', '¼', '⅜', '½', '⅝', '¾', '⅞', '1 turn'])]
    powers = [(power, chart.power_of_two(power)) for power in range(LEAST, BOUND + 2)]
    shape = [(k / 160, (LEAST + BOUND) / 2 + 4 * math.sin(math.tau * k / 160)) for k in range(161)]
    return plot, [*plot.grid(eighths, [(LEAST - 1, '0'), *powers]), plot.line(shape, 'shape'),
                  plot.line([(0, BOUND), (1, BOUND)], 'bound'),
                  chart.text(LEFT + 6, plot.place(0, BOUND)[1] - 6, 'the bound that is asked for', 'bound')]


def draw(replay):
    random.seed(1)
    turns = [(place + random.random()) / BINS for place in range(BINS) for _ in range(TURNS)]
    ours = replay.sine(turns)
    to_platform = [abs(number - math.sin(math.tau * turn)) for turn, number in zip(turns, ours)]
    to_true = [from_true(number, turn) for turn, number in zip(turns, ours)]
    platform, true = (math.log2(max(distances)) for distances in (to_platform, to_true))
    same = sum(distance == 0 for distance in to_platform) / len(turns)

    plot, parts = scales()
    powers = [chart.power_of_two(f'{power:.1f}') for power in (platform, true)]
    parts += [plot.dots(greatest(to_true), 'dots c'), plot.dots(greatest(to_platform), 'dots a'),
              chart.text(LEFT, 26, TITLE, 'title'),
              chart.text(LEFT, 390, f'● to the platform’s sine: up to {powers[0]}, the same {same:.0%} of the time', 'a'),
              chart.text(LEFT + 444, 390, f'● to the true sine: up to {powers[1]}', 'c'),
              chart.text(LEFT, 414, f'Greatest of {TURNS} random turns in each of {BINS} bins. In grey: the sine itself. '
                                    'The platform’s argument is the turn times TAU, rounded;'),
              chart.text(LEFT, 432, 'that rounding is what grows over the turn. Ours folds the turn into an eighth first.')]
    told = f'2^{platform:.2f} to the platform, 2^{true:.2f} to the true sine, the same {same:.1%}'
    return chart.document(984, 446, TITLE, parts), told
