"""Vectors of `units`, `little` and `samples`: entries of the program `vectors`, each with the lines that it prints."""
import string
import struct

from second.reader import mixed

# Document 01, "Refusal numbers", row by row, as document 02 has changed them.
REFUSALS = """\
1 length under 12 or over the limit
2 bytes 0-3 not `RIFF` or 8-11 not `WAVE`
3 8+R is not the length, where R is the RIFF size
4 a chunk's header, or its data, passes the end
5 a second `fmt `, `data`, `fact`, `cue ` or `plst`
6 `data` before any `fmt `
7 a `LIST` whose data starts with `wavl`
8 no `fmt ` or no `data`
9 channels, rate, tag or any rule of **fmt** below not met
10 sound data not whole frames or blocks
11 fact absent where needed, shorter than 4, or count wrong
12 cue table wrong
13 playlist wrong
14 lent output too small
15 an ADPCM block header holds an index out of range
16 song without frames, or its number listed with other sound
17 no place on the side
18 already listed, same sound: nothing to do
19 not a side
20 no such block
21 a wrong list of titles or title
"""


def hexed(data):
    return ''.join(f' {byte:02x}' for byte in data)


def refusals():
    """Each row of the table, and the largest number that each unit holds."""
    for row in REFUSALS.splitlines():
        number, meaning = row.split(' ', 1)
        yield struct.pack('<2H', len(meaning), int(number)) + meaning.encode(), [row]
    yield struct.pack('<2H', 0, 0), [f'frames {2**32 - 1} place {2**64 - 1} donation {2**32 - 1}']


def numbers():
    """The numbers at each place of 24 bytes, and past them."""
    data = bytes.fromhex('00ff807f0102030405060708f0e1d2c3b4a5968778695aff')
    padded = data + bytes(30)
    lines = []
    for at in list(range(26)) + [2**64 - 1]:
        if at + 4 <= len(data):
            small, large = struct.unpack_from('<H', data, at)[0], struct.unpack_from('<I', data, at)[0]
            lines.append(f'inside {at} u16 {small} u32 {large}')
        small, large = 0, 0
        if at < len(data):
            small, large = struct.unpack_from('<H', padded, at)[0], struct.unpack_from('<I', padded, at)[0]
        lines.append(f'anywhere {at} u16 {small} u32 {large}')
    yield data, lines


def put(before, at, piece):
    """A piece put into a buffer, as a number if it has two or four bytes; and the buffer then."""
    after = before[:at] + piece + before[at + len(piece):]
    return (struct.pack('<3H', len(before), len(piece), at) + before + piece, ['buffer' + hexed(after)]), after


def puts():
    """Pieces put into one buffer in turn, and runs of bytes copied, each into a buffer of its own."""
    buffer = b'\xaa' * 10
    for at, piece in [(10, b''), (3, b'side A'), (6, struct.pack('<I', 305419896)), (0, struct.pack('<I', 4294967295)),
                      (8, struct.pack('<H', 32768)), (1, struct.pack('<H', 258)),
                      (0, bytes.fromhex('00ff01807f0203040506'))]:
        vector, buffer = put(buffer, at, piece)
        yield vector
    # from 80 bytes on a copy takes the first few by themselves, and then 64 at a turn
    letters = string.ascii_lowercase + string.digits + string.ascii_uppercase + '-+'
    run = (letters + letters[::-1] + letters).encode()
    for copied in (run[:79], run[:80], run[:80] + b'.', run[:128], run[:128] + b'.', run[:150]):
        yield put(b'\xaa' * 160, 5, copied)[0]


def samples():
    """One sound, as 16-bit and as 8-bit PCM; what is held to 16 bits; all samples and all values of 8 bits."""
    borders = [0, 1, -1, 127, 128, -128, -129, 255, 256, -255, -256, -257, 12345, -12345,
               32766, 32767, -32766, -32767, -32768, 4660]
    # 71 samples and 143 bytes: the loop for 16 bits takes 32 samples at a turn, that for 8 bits 64 bytes, and both have
    # a rest.
    sound = borders + [k * 7919 % 65536 - 32768 for k in range(71 - len(borders))]
    data = struct.pack(f'<{len(sound)}h', *sound) + b'\x99'
    short = sound + [7] * (80 - len(sound))
    long = [(value - 128) * 256 for value in data] + [7] * (150 - len(data))
    one = struct.unpack_from('<h', data, 5)[0]
    lines = ['sixteen' + ''.join(f' {sample}' for sample in short),
             'eight' + ''.join(f' {sample}' for sample in long),
             'bytes' + hexed(struct.pack('<80h', *short) + b'\xaa' * 5),
             f'one {one}' + hexed(b'\xaa\xaa\xaa' + struct.pack('<h', one) + b'\xaa')]
    for value in [-2147483648, -32769, -32768, -32767, -1, 0, 1, 32766, 32767, 32768, 2147483647]:
        lines.append(f'held {value} {max(-32768, min(32767, value))}')
    every = [struct.unpack('<h', struct.pack('<H', bits))[0] for bits in range(65536)]
    lines.append(f'all samples {mixed(sample + 32768 for sample in every)} their bits {mixed(range(65536))}')
    lines.append(f'all values of 8 bits {mixed((value - 128) * 256 + 32768 for value in range(256))}')
    yield struct.pack('<H', len(data)) + data, lines
