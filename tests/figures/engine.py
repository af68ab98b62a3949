"""The engine, asked through a replay program: words in, words out (crates/replay/FORMAT.md)."""
import struct, subprocess, sys

CAPACITY = 4096
STATES = 32 * 11
ABSENT, FIXED = 0, 1
REACH = 2
SINE_TURNS = 11


def word(number):
    """A number as its word: a whole one by itself, an f64 by its bits."""
    return struct.pack('<Q' if isinstance(number, int) else '<d', number)


class Replay:
    def __init__(self, *command):
        self.command = [str(part) for part in command]

    def ask(self, case):
        """The words of the answer to one case, as bytes."""
        done = subprocess.run(self.command, input=b''.join(map(word, case)), stdout=subprocess.PIPE)
        if done.returncode or done.stdout.endswith(b'\xff' * 8):
            sys.exit(f'draw: {self.command[-1]} does not answer')
        return done.stdout

    def sine(self, turns):
        """Document 01's sine of each turn: sort 2."""
        answer = self.ask([2, SINE_TURNS, len(turns), *turns])
        return struct.unpack(f'<{len(turns)}d', answer)

    def impulse_responses(self, stages, width):
        """What each stage puts out where it reads 1.0 and then silence, for one window of the largest capacity. A stage is its
        kind and the numbers of its parameters behind out_level."""
        return [samples for samples, _ in self.struck([((kind,), parameters) for kind, *parameters in stages], width)]

    def struck(self, stages, width, rings=0, windows=1):
        """What each stage puts out where it reads 1.0 and then silence, over windows of the largest capacity, and the answer
        about its reach: sort 1. A stage is its words before the input, and the numbers of its parameters behind out_level. Each
        reads internal 0, which is stale from the second window on, and has a buffer of its own."""
        count = len(stages) + 1
        samples = count * CAPACITY
        patch = [word for place, (words, parameters) in enumerate(stages, 1)
                 for word in (*words, 0, 2 * place, ABSENT, *(part for number in parameters for part in (FIXED, number)))]
        marks = [0] + [1] * len(stages) + [0] * (32 - count)
        window = [CAPACITY, width, len(stages), *range(len(stages))]
        case = [1, REACH, count, CAPACITY, 0, 0, samples, 0, CAPACITY, 0, rings, len(stages), *patch,
                1.0, *[0] * (samples - 1), *[0] * CAPACITY, *[0] * rings, *marks, *[0] * STATES,
                windows, 0, *window, *[1, *window] * (windows - 1)]
        return heard(self.ask(case), len(stages), samples, windows)


def heard(answer, stages, samples, windows):
    """The samples that each stage put out over the windows of an answer, and what is told of its reach in the last."""
    size = 8 * (3 + samples + 32 + 32)
    if len(answer) != windows * size:
        sys.exit('draw: the answer has another length than it should')
    put_out, told = [[] for _ in range(stages)], ()
    for start in range(0, windows * size, size):
        number, = struct.unpack_from('<Q', answer, start)
        if number:
            sys.exit(f'draw: the run is refused with {number}')
        for place, one in enumerate(put_out, 1):
            one.extend(struct.unpack_from(f'<{CAPACITY}d', answer, start + 8 * (3 + place * CAPACITY)))
        told = struct.unpack_from('<32Q', answer, start + size - 8 * 32)
    return list(zip(put_out, told))
