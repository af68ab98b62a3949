"""How the time of a run grows over its stages, its window and the length of rings: what tests/bench/growth has measured, the engine beside
the Rust, divided by samples and stages."""
import csv, pathlib

import chart

TABLE = pathlib.Path(__file__).resolve().parents[2] / 'docs/figures/speed.csv'
KINDS = {'Waveguide': 'a', 'LowPass2': 'b', 'Pass': 'c'}
SIDES = 'engine', 'rust'
TITLE = 'What a sample of a stage takes, in nanoseconds'

# what grows, what it is called, its scale, its marks, and what stays as it is meanwhile
PANELS = [('stages', 'stages', (0, 32), False, (1, 8, 16, 24, 32), 'windows of {window}'),
          ('window', 'samples in a window', (1, 4096), True, (1, 8, 64, 512, 4096), '{stages} stages'),
          ('ring', 'slots of a ring', (64, 32768), True, (64, 512, 4096, 32768), '{stages} stages, windows of {window}')]
LEFT, STEP, TOP = 44, 314, 62
WIDTH, HEIGHT = 276, 224
NANOSECONDS = range(0, 17, 4)
STYLE = '''<style>
.rust { stroke-dasharray: 5 4 }
</style>'''


def measured():
    """The heads of the table by name, and its lines: numbers but for what grows and the kind."""
    lines = TABLE.read_text().splitlines()
    heads = dict(line[2:].split(': ', 1) for line in lines if line.startswith('# '))
    rows = list(csv.DictReader(line for line in lines if not line.startswith('#')))
    return heads, [{name: word if name in ('over', 'kind') else int(word) for name, word in row.items()} for row in rows]


def each(row, side):
    """Nanoseconds per sample and stage."""
    return row[side] / row['stages'] / row['window']


def panel(place, rows):
    over, name, scale, logarithmic, marks, meanwhile = PANELS[place]
    left = LEFT + STEP * place
    plot = chart.Plot(left, TOP, WIDTH, HEIGHT, scale, (NANOSECONDS[0], NANOSECONDS[-1]), logarithmic)
    rows = [row for row in rows if row['over'] == over and row['window']]
    parts = [chart.text(left, TOP - 14, f'over {name}; {meanwhile.format(**rows[-1])}'),
             chart.text(left + WIDTH / 2, TOP + HEIGHT + 34, name, anchor='middle'),
             *plot.grid([(mark, f'{mark:,}') for mark in marks], [(mark, str(mark)) for mark in NANOSECONDS])]
    for kind, color in KINDS.items():
        for side in SIDES:
            points = [(row[over], each(row, side)) for row in rows if row['kind'] == kind]
            parts.append(plot.line(points, f'line {color} {side}'))
            parts += [plot.dots(points, f'dots {color}')] if side == 'engine' else []
    return parts


def legend(heads, rows):
    empty = [row for row in rows if not row['window']]
    at_once = ['{:.1f}, {:.1f} and {:.1f}'.format(*(row[side] / 1000 for row in empty)) for side in SIDES]
    base = TOP + HEIGHT + 62
    keys = [('a', '● Waveguide'), ('b', '● LowPass2'), ('c', '● Pass'), ('', '●–● the engine'), ('', '– – the Rust, as a release')]
    return [*(chart.text(LEFT + 120 * place, base, words, color) for place, (color, words) in enumerate(keys)),
            chart.text(LEFT, base + 24, 'A run’s time, divided by its samples and stages. What a run and a stage take whatever the window weighs on few '
                                        'samples, and on one stage alone.'),
            chart.text(LEFT, base + 42, f'An empty window of {empty[0]["stages"]} stages takes the engine {at_once[0]} µs, the Rust {at_once[1]} µs. '
                                        'The 17th stage adds to what the 1st stored.'),
            chart.text(LEFT, base + 60, f'Measured on {heads["machine"]}; docs/figures/speed.csv says of what, and how.')]


def growth(rows, over, kind, side):
    """The time of a sample of the longest beside that of half as long or many: 1.00 where it is flat."""
    lines = [row for row in rows if (row['over'], row['kind']) == (over, kind)]
    last = lines[-1]
    half = next(row for row in lines if 2 * row[over] == last[over])
    return each(last, side) / each(half, side)


def draw(replay=None):
    """The figure, and what there is to tell of it. No replay is asked."""
    heads, rows = measured()
    parts = [part for place in range(len(PANELS)) for part in panel(place, rows)]
    told = ', '.join(f'{kind} over {over} {growth(rows, over, kind, "engine"):.2f}' for over, kind in
                     dict.fromkeys((row['over'], row['kind']) for row in rows))
    title = chart.text(LEFT, 24, TITLE, 'title')
    return chart.document(984, TOP + HEIGHT + 136, TITLE, [STYLE, title, *parts, *legend(heads, rows)]), f'the last doubling: {told}'
