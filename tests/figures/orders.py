"""How often two orders of the same stages end differently, by how many dependent stages changed places: what the oracle tells
(oracle orders, tests/oracle), as bars."""
import re, subprocess

import chart

PAIRS = re.compile(r'consistent pairs: (\d+), all equal')
ROW = re.compile(r'([\d to]+) dependent pairs? changed places: +(\d+), differently ([\d.]+) %')


def bar(place, words, share, count):
    top = 52 + 34 * place
    length = 560 * share / 100
    told = f'{share:.1f} % of {count:,}' if share else f'none of {count:,}'
    parts = [chart.text(276, top + 15, words, anchor='end'), chart.text(292 + length, top + 15, told)]
    return parts + ([f'<path class="bar a" d="M284 {top}h{length:.1f}v22h-{length:.1f}z"/>'] if share else
                    [f'<path class="shape" d="M284 {top}v22"/>'])


def told(replay, oracle):
    """What the oracle tells: rows of words, the share that ends differently in hundredths, and how many there were."""
    start, program = replay.command
    command = [oracle, 'orders', '--start', start, '--replay', program]
    text = subprocess.run(command, stdout=subprocess.PIPE, text=True, check=True).stdout
    yield 'all dependent pairs keep their sequence', 0, int(PAIRS.search(text)[1])
    for count, pairs, share in ROW.findall(text):
        changed = 'pair changes places' if count.strip() == '1' else 'pairs change places'
        yield f'{count.strip()} dependent {changed}', float(share), int(pairs)


def draw(replay, oracle):
    rows = list(told(replay, oracle))
    below = 52 + 34 * len(rows)
    parts = [chart.text(44, 26, 'Two orders of the same stages: how often they end differently', 'title'),
             *(part for place, row in enumerate(rows) for part in bar(place, *row)),
             chart.text(44, below + 22, 'Random patches of up to 32 stages over several windows, each run in two orders '
                                        'from the same start.'),
             chart.text(44, below + 40, 'Two stages depend on each other where one writes a buffer that the other reads or '
                                        'writes.')]
    shares = ', '.join(f'{share:g} %' for _, share, _ in rows)
    return chart.document(984, below + 56, 'How often two orders end differently', parts), shares
