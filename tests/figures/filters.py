"""The responses of the seven filters: the engine's answer to a single 1.0, transformed, beside the formulas of the Audio EQ
Cookbook, and beside their own formulas for the two filters of one pole."""
import cmath, math

import chart

RATE = 48000
CORNER = 1000.0
CUTOFFS = 250.0, 1000.0, 4000.0
QUALITIES = 0.5, 1.0, 4.0
LOWEST, HIGHEST = 20.0, 20000.0
LEFT, STEP = 44, 240


def one_pole(cutoff):
    """The share of a filter of one pole, omega / (1 + omega)."""
    omega = math.tau * cutoff / RATE
    return omega / (1 + omega)


def low_pass(cutoff):
    alpha = one_pole(cutoff)
    return (alpha,), (1, alpha - 1)


def high_pass(cutoff):
    alpha = 1 - one_pole(cutoff)
    return (alpha, -alpha), (1, -alpha)


def biquad(numerator):
    """The cookbook's filter whose numerator is worked out from cosine, sine and alpha."""
    def coefficients(quality):
        turn = math.tau * CORNER / RATE
        c, s = math.cos(turn), math.sin(turn)
        alpha = s / (2 * quality)
        return numerator(c, s, alpha), (1 + alpha, -2 * c, 1 - alpha)
    return coefficients


# name, kind of stage, formula by setting
FILTERS = [
    ('LowPass', 3, low_pass),
    ('HighPass', 5, high_pass),
    ('LowPass2', 4, biquad(lambda c, s, alpha: ((1 - c) / 2, 1 - c, (1 - c) / 2))),
    ('HighPass2', 6, biquad(lambda c, s, alpha: ((1 + c) / 2, -1 - c, (1 + c) / 2))),
    ('BandPass', 7, biquad(lambda c, s, alpha: (s / 2, 0, -s / 2))),
    ('Notch', 8, biquad(lambda c, s, alpha: (1, -2 * c, 1))),
    ('AllPass', 9, biquad(lambda c, s, alpha: (1 - alpha, -2 * c, 1 + alpha))),
]


def settings(formula):
    return CUTOFFS if formula in (low_pass, high_pass) else QUALITIES


def polynomial(coefficients, frequency):
    """The sum of the coefficients times powers of one sample's delay at a frequency."""
    delay = cmath.exp(-1j * math.tau * frequency / RATE)
    total = 0
    for coefficient in reversed(coefficients):
        total = total * delay + coefficient
    return total


def response(formula, setting, frequency):
    above, below = formula(setting)
    return polynomial(above, frequency) / polynomial(below, frequency)


def decibels(value):
    return 20 * math.log10(max(abs(value), 1e-12))


def degrees(value):
    """The phase, from 0 down to a whole turn behind."""
    phase = math.degrees(cmath.phase(value))
    return phase - 360 if phase > 1e-6 else phase


def frequencies(count):
    return [LOWEST * (HIGHEST / LOWEST) ** (step / (count - 1)) for step in range(count)]


def measured(replay):
    """The engine's impulse responses: for each setting, for each filter."""
    def stages(number):
        for _, kind, formula in FILTERS:
            setting = settings(formula)[number]
            yield (kind, setting) if formula in (low_pass, high_pass) else (kind, CORNER, setting)
    return [replay.impulse_responses(list(stages(number)), 1 / RATE) for number in range(3)]


# what is measured of a response, and the marks of its scale
MAGNITUDE = decibels, range(-48, 25, 12)
PHASE = degrees, range(-360, 1, 90)
HERTZ = [(20, '20'), (100, '100'), (1000, '1k'), (10000, '10k'), *((mark, '') for mark in (50, 200, 500, 2000, 5000, 20000))]
PANELS = [(name, number, MAGNITUDE) for number, (name, _, _) in enumerate(FILTERS)] + [('AllPass, phase', 6, PHASE)]


def panel(place, name, formula, responses, measure, marks):
    """One filter: a line for each formula, dots for the engine; and how far apart they are at the most."""
    left, top = LEFT + STEP * (place % 4), 36 + 226 * (place // 4)
    plot = chart.Plot(left, top, 196, 168, (LOWEST, HIGHEST), (marks[0], marks[-1]), logarithmic=True)
    labelled = place % 4 == 0 or measure is degrees
    labels = [(mark, str(mark).replace('-', '−') if labelled else '') for mark in marks]
    parts = [chart.text(left, top - 10, name, 'title'), *plot.grid(HERTZ, labels)]
    fine, coarse = sorted(frequencies(97) + [CORNER * 2 ** (step / 24) for step in range(-8, 9)]), frequencies(28)
    apart = 0
    for color, setting, samples in zip('abc', settings(formula), responses):
        dots = [(f, polynomial(samples, f)) for f in coarse]
        apart = max([apart, *(abs(h - response(formula, setting, f)) for f, h in dots)])
        parts.append(plot.line([(f, measure(response(formula, setting, f))) for f in fine], f'line {color}'))
        parts.append(plot.dots([(f, measure(h)) for f, h in dots], f'dots {color}'))
    return parts, apart


def legend(apart):
    keys = [('a', '● cutoff 250 Hz, or quality 0.5'), ('b', '● cutoff 1 kHz, or quality 1'),
            ('c', '● cutoff 4 kHz, or quality 4'), ('', 'resonance, center, corner: 1 kHz')]
    return [*(chart.text(LEFT + STEP * place, 482, words, color) for place, (color, words) in enumerate(keys)),
            chart.text(LEFT, 508, 'Decibels (degrees for the phase) over hertz, at 48,000 samples a second. '
                                  'Lines: the cookbook’s formulas, or those of one pole.'),
            chart.text(LEFT, 526, 'Dots: the engine’s answer to one sample of 1.0, transformed. '
                                  f'None lies further than {apart:.0e} from its formula.')]


def draw(replay):
    by_setting = measured(replay)
    drawn = [panel(place, name, FILTERS[number][2], [one[number] for one in by_setting], *measure)
             for place, (name, number, measure) in enumerate(PANELS)]
    apart = max(distance for _, distance in drawn)
    parts = [part for parts, _ in drawn for part in parts]
    return chart.document(984, 540, 'Responses of the seven filters', parts + legend(apart)), f'greatest distance {apart:.2e}'
