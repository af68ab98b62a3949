#!/usr/bin/env python3
"""second.py <INPUT

The level report by a second reading of document 02, request Six, written from its text alone: what the program levels must print of the
bytes of its standard input. It reads samples as numbers and compares them as such, where the program goes by their bits."""
import math, struct, sys

MOST = 4294967295


def figures(samples):
    """The six figures of samples, the last as a number."""
    kept = [sample for sample in samples if not math.isnan(sample) and sample != 0]
    return (len(samples),
            sum(map(math.isnan, samples)),
            sum(map(math.isinf, samples)),
            sum(abs(sample) > 1.0 for sample in samples),
            sum((one < 0) != (next_one < 0) for one, next_one in zip(kept, kept[1:])),
            max((abs(sample) for sample in samples if math.isfinite(sample)), default=0.0))


def printed(data):
    """What the program prints of these bytes."""
    count, leftover = divmod(len(data), 8)
    if count > MOST:
        return '30\n'
    if leftover:
        return '34\n'
    *counts, largest = figures(struct.unpack(f'<{count}d', data))
    return ''.join(f'{figure}\n' for figure in counts) + struct.pack('>d', largest).hex() + '\n'


if __name__ == '__main__':
    sys.stdout.write(printed(sys.stdin.buffer.read()))
