"""Which notes of a piano a string reaches, by the length of its ring: what the run answers, and the pitch that is heard."""
import collections, math

import chart, engine, pitch
from pitch import KEYS

RATES = 44100, 48000
LENGTHS = [64 << step for step in range(10)]
WAVEGUIDE, POSITIVE = 12, 0
CUTOFF, FEEDBACK = 8000.0, 0.99
ANSWERS = 'within', 'below 0', 'above 1', 'not a number'
WITHIN, ABOVE = ANSWERS.index('within'), ANSWERS.index('above 1')

# what a session has room for: buffers for strings to write, cells for their rings
BUFFERS, CELLS = 15, 131072

LEFT, KEY, ROW = 64, 7.5, 19
WIDTH, HEIGHT = len(KEYS) * KEY, len(LENGTHS) * ROW
PANEL = HEIGHT + 86
LOWEST, SOUNDS = LEFT + WIDTH + 14, LEFT + WIDTH + 66
TITLE = 'Which notes a string reaches'
STYLE = f'''<style>
.cells {{ stroke-width: {KEY - 2}; stroke-opacity: .8; fill: none }}
.keys {{ stroke: #8b949e; stroke-width: {KEY - 1}; stroke-opacity: .8; fill: none }}
.sounds {{ stroke-width: 2; fill: none }}
</style>'''

# what was found of a string: the run's answer about its reach, and the pitch that it sounds at
String = collections.namedtuple('String', 'answer hertz')


def strings(replay, rate, length):
    """The strings of all keys, each on a ring of that length."""
    room = min(BUFFERS, CELLS // length)
    for first in range(0, len(KEYS), room):
        asked = KEYS[first:first + room]
        stages = [((WAVEGUIDE, POSITIVE, length - 1), (hertz, CUTOFF, FEEDBACK)) for hertz in asked]
        windows = math.ceil(pitch.ENOUGH * rate / asked[0] / engine.CAPACITY)
        for samples, answer in replay.struck(stages, 1 / rate, length * len(asked), windows):
            yield String(answer, rate * pitch.frequency(samples))


def keys(row, answer):
    return [key for key, string in enumerate(row) if string.answer == answer]


def in_words(hertz):
    key = round(pitch.place_of(hertz))
    apart = round(pitch.cents(hertz, KEYS[key]))
    return f'{hertz:.1f} Hz, {pitch.name(key)} {"−" if apart < 0 else "+"} {abs(apart)} cents'


def marks(plot, rows):
    """A cell for each key within, a dot for each above 1, and a bar where these sound."""
    def places(answer):
        return [(key + 0.5, place + 0.5, row[key].hertz) for place, row in enumerate(rows) for key in keys(row, answer)]

    def strokes(points, kind, length):
        lines = sorted({f'M{round(x, 2):g} {y - length / 2:g}v{length}' for x, y in (plot.place(*point) for point in points)})
        return f'<path class="{kind}" d="{"".join(lines)}"/>'

    above = places(ABOVE)
    return [strokes([(x, y) for x, y, _ in places(WITHIN)], 'cells a', 12), plot.dots([(x, y) for x, y, _ in above], 'dots b'),
            strokes([(pitch.place_of(hertz) + 0.5, y) for _, y, hertz in above], 'sounds b', 16)]


def words(plot, place, row):
    """Beside a row: the ring's length, the lowest key within, and what those above 1 sound at."""
    base = plot.place(0, place + 0.5)[1] + 4
    sounds = sorted({in_words(row[key].hertz) for key in keys(row, ABOVE)})
    return [chart.text(LEFT - 6, base, f'{LENGTHS[place]:,}', anchor='end'),
            chart.text(LOWEST, base, pitch.name(min(keys(row, WITHIN)))),
            chart.text(SOUNDS, base, ' or '.join(sounds) or 'none is lower')]


def keyboard(top):
    """The keys under a panel, the black ones dark; with a name the lowest and each C."""
    black = [key for key in range(len(KEYS)) if '♯' in pitch.name(key)]
    between = [key for key in range(1, len(KEYS)) if key not in black and key - 1 not in black]
    edges = ''.join([f'M{LEFT} {top}h{WIDTH:g}v16h-{WIDTH:g}z', *(f'M{LEFT + key * KEY:g} {top}v16' for key in between),
                     *(f'M{LEFT + (key + 0.5) * KEY:g} {top + 10}v6' for key in black)])
    dark = ''.join(f'M{LEFT + (key + 0.5) * KEY:g} {top}v10' for key in black)
    return [f'<path class="grid" d="{edges}"/>', f'<path class="keys" d="{dark}"/>',
            *(chart.text(LEFT + (key + 0.5) * KEY, top + 31, pitch.name(key), anchor='middle')
              for key in (0, *range(3, len(KEYS), 12)))]


def panel(top, rate, rows):
    plot = chart.Plot(LEFT, top, WIDTH, HEIGHT, (0, len(KEYS)), (0, len(LENGTHS)))
    return [chart.text(LEFT, top - 10, f'{TITLE}, at {rate:,} samples a second', 'title'),
            chart.text(LEFT - 6, top - 10, 'ring', anchor='end'),
            chart.text(LOWEST, top - 10, 'lowest'), chart.text(SOUNDS, top - 10, 'lower ones sound at'),
            *plot.grid([(key, '') for key in range(3, len(KEYS), 12)], []), *keyboard(top + HEIGHT + 2),
            *marks(plot, rows), *(part for place, row in enumerate(rows) for part in words(plot, place, row))]


def example(rows, rate, key):
    """The shortest ring that reaches a key, in words."""
    length = next(length for length, row in zip(LENGTHS, rows) if row[key].answer == WITHIN)
    return f'{pitch.name(key)} at {rate:,} samples a second asks for a ring of {length:,}, that is, buffer_size {length - 1:,}.'


def legend(top, found, furthest):
    count = sum(len(row) for rows in found.values() for row in rows)
    return [chart.text(LEFT, top, f'■ within: sounds as asked, at most {furthest:.1f} cents away', 'a'),
            chart.text(LEFT + 444, top, '● above 1: the delay is held at the ring’s end, it sounds at the bar', 'b'),
            chart.text(LEFT, top + 24, 'Read up from a key to its first cell: ' + example(found[48000], 48000, 19)),
            chart.text(LEFT, top + 42, f'{count:,} strings, each struck by one sample: positive reflectance, '
                                       f'feedback {FEEDBACK}, cutoff {CUTOFF:,.0f} Hz, where the low-pass adds no delay.'),
            chart.text(LEFT, top + 60, 'Cells and dots are the run’s own answers; pitches are measured from the samples that '
                                       'the engine puts out.')]


def away(rows, answer):
    """How far each string with that answer sounds from its key, in cents."""
    return [abs(pitch.cents(row[key].hertz, KEYS[key])) for row in rows for key in keys(row, answer)]


def apart(row):
    """How far the strings of one ring that are above 1 sound from each other at the most, in cents."""
    pitches = [row[key].hertz for key in keys(row, ABOVE)]
    return pitch.cents(max(pitches), min(pitches)) if pitches else 0.0


def draw(replay):
    found = {rate: [list(strings(replay, rate, length)) for length in LENGTHS] for rate in RATES}
    rows = [row for of_rate in found.values() for row in of_rate]
    furthest = max(away(rows, WITHIN))
    parts = [part for place, rate in enumerate(RATES) for part in panel(36 + PANEL * place, rate, found[rate])]
    counts = ', '.join(f'{len(away(rows, answer))} {name}' for answer, name in enumerate(ANSWERS))
    told = (f'{counts}; within: at most {furthest:.2f} cents from the key; above 1: at least {min(away(rows, ABOVE)):.2f} cents '
            f'from it, and on one ring at most {max(map(apart, rows)):.2f} from each other')
    return chart.document(984, 2 * PANEL + 98, TITLE, [STYLE, *parts, *legend(2 * PANEL + 24, found, furthest)]), told
