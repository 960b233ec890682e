"""A second IMA coder, from document 01's text alone, to compare the library's programs with."""
import struct

from second.reader import demand

STEPS = [int(step) for step in """
7 8 9 10 11 12 13 14 16 17 19 21 23 25 28 31 34 37 41 45 50 55 60 66 73 80 88 97 107 118 130 143 157 173 190 209 230 253
279 307 337 371 408 449 494 544 598 658 724 796 876 963 1060 1166 1282 1411 1552 1707 1878 2066 2272 2499 2749 3024 3327
3660 4026 4428 4871 5358 5894 6484 7132 7845 8630 9493 10442 11487 12635 13899 15289 16818 18500 20350 22385 24623 27086
29794 32767""".split()]
CHANGES = [-1, -1, -1, -1, 2, 4, 6, 8]


def frames_in(align, channels):
    """Samples per block, of each channel."""
    return (align - 4 * channels) * 2 // channels + 1


def after(last, index, code):
    """The sample of a code, and the index after it."""
    step = STEPS[index]
    size = step // 8
    for bit, part in ((4, step), (2, step // 2), (1, step // 4)):
        size += part if code & bit else 0
    sample = last - size if code & 8 else last + size
    return max(-32768, min(32767, sample)), max(0, min(88, index + CHANGES[code % 8]))


def code_of(last, index, sample):
    """The code of a sample, and whether it is chased."""
    step, rest = STEPS[index], abs(sample - last)
    code, chased = 8 if sample < last else 0, rest >= 2 * step
    for bit, part in ((4, step), (2, step // 2)):
        if rest >= part:
            code, rest = code + bit, rest - part
    return code + (rest >= step // 4), chased


def words(data):
    """The data, four bytes at a time."""
    return [data[at:at + 4] for at in range(0, len(data), 4)]


def in_turn(parts):
    """One of each part in turn."""
    return [one for turn in zip(*parts) for one in turn]


def decode_channel(header, data):
    """The samples of one channel of a block; refusal 15."""
    last, index, _ = struct.unpack('<hBB', header)
    demand(index <= 88, 15)
    samples = [last]
    for byte in data:
        for code in (byte % 16, byte // 16):
            last, index = after(last, index, code)
            samples.append(last)
    return samples


def decode(block, channels):
    """The frames of a block, with its fill; refusal 15."""
    turns = [words(block)[channel::channels] for channel in range(channels)]
    return in_turn([decode_channel(header, b''.join(rest)) for header, *rest in turns])


def encode_channel(samples, frames):
    """The words of one channel, blocks of so many frames, and how many of its samples are chased."""
    coded, count, index = [], 0, 0
    for start in range(0, len(samples), frames):
        block = samples[start:start + frames]
        last, codes = block[0], []
        coded.append(struct.pack('<hBB', last, index, 0))
        for place in range(1, frames):
            code, chased = code_of(last, index, block[min(place, len(block) - 1)])
            count += chased and place < len(block)
            last, index = after(last, index, code)
            codes.append(code)
        coded += words(bytes(low + 16 * high for low, high in zip(codes[::2], codes[1::2])))
    return coded, count


def encode(sound, channels, align, room):
    """Refusals 1, 9, 10 and 14; the blocks of a sound, and the chased samples of its left and right channel."""
    demand(len(sound) <= 536870912, 1)
    demand(channels in (1, 2) and align % (4 * channels) == 0 and 8 * channels <= align <= 4096, 9)
    demand(len(sound) % channels == 0, 10)
    frames = frames_in(align, channels)
    demand(-(-len(sound) // channels // frames) * align <= room, 14)
    coded = [encode_channel(sound[channel::channels], frames) for channel in range(channels)]
    left, right = ([count for _, count in coded] + [0])[:2]
    return b''.join(in_turn([part for part, _ in coded])), left, right
