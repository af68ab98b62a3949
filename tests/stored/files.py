"""Sort 10: patch files at the edges of document 02's format, with the stages of sessions.py."""
import struct
from sessions import PANS, PAN_PARAMETERS, kinds
from words import NANS

# absent, a fixed NaN that has all its bits set, a slot of two bytes, the window's seconds
PARAMETERS = [b'\0', b'\1' + struct.pack('<Q', NANS[-1]), b'\2\x80\1', b'\3']
# short ones at which versions, choices, marks, kinds and counts end; of each length, padded, too large, too long, cut short
NUMBERS = ['00', '01', '02', '03', '04', '05', '0d', '0e', '1f', '20', '21', '7f', '8001', 'ffff7f', '80808001', 'ffffffff0f', '8000', '81808000',
           '8080808000', '8080808010', 'ffffffff1f', '8080808080', '8080808080808000', '80', 'ffffffff']
# a modulated oscillator with a slot in phase: its version, count, kind, both choices, input, output, marks and the slot are numbers
NUMBERED = bytes([1, 1, 11, 4, 1, 1, 0, 0, 3, 2, 9])
# a Pan with a slot in its right gain, all numbers too; and the first kind that there isn't
PLACED, NO_KIND = bytes([1, 1, 14, 1, 0, 3, 0, 0, 3, 2, 9]), '0f'
MOST_STAGES, PASS = 32, bytes([0, 1, 0, 0])


def patches(stages):
    """one stage each; after four turns each parameter has had each mark"""
    return [b'\1\1' + bytes(stage) + b''.join(PARAMETERS[(turn + k) % len(PARAMETERS)] for k in range(count + 1))
            for stage, count in stages for turn in range(len(PARAMETERS))]


def cut(patch):
    return (patch[:length] for length in range(len(patch)))


def edges(patch, numbers):
    """each in the place of every number of a patch, and with nothing behind it"""
    for at in range(len(patch)):
        yield from (patch[:at] + bytes.fromhex(number) + patch[at + 1:] for number in numbers)
        yield from (patch[:at] + bytes.fromhex(number) for number in numbers)


def files():
    """every kind but Pan with each of its choices, and what is made of some of them"""
    whole = patches([(stage, count) for stage, count, _ in kinds()])
    longest = max(whole, key=len)
    yield from whole
    yield from cut(longest)
    yield from edges(NUMBERED, NUMBERS)
    for patch in (b'\1\0', longest):
        yield from (patch + bytes([length]) * length for length in range(1, 10))
    for count in (MOST_STAGES - 1, MOST_STAGES, MOST_STAGES + 1):
        yield from (bytes([1, count]) + PASS * there for there in (0, count - 1, count, count + 1))


def pan_files():
    whole = patches([(stage, PAN_PARAMETERS) for stage in PANS])
    yield from whole
    yield from cut(whole[0])
    yield from edges(PLACED, NUMBERS + [NO_KIND])


def case(file):
    words = -(-len(file) // 8)
    return [10, len(file), *struct.unpack(f'<{words}Q', file.ljust(8 * words, b'\xff'))]


def cases():
    return map(case, files())


def pans():
    return map(case, pan_files())
