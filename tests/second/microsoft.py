"""A second Microsoft ADPCM decoder, from document 01's text alone, to compare the library's programs with."""
import struct

from second.reader import PAIRS, demand

GROWTHS = [230, 230, 230, 230, 307, 409, 512, 614, 768, 614, 512, 409, 307, 230, 230, 230]


def frames_in(align, channels):
    """Samples per block, of each channel."""
    return (align - 7 * channels) * 2 // channels + 2


def quotient(value):
    """A 256th, toward zero; Python's own division rounds down."""
    return value // 256 if value >= 0 else -(-value // 256)


def after(pair, delta, newer, older, nibble):
    """The sample of a nibble, and the delta after it."""
    first, second = PAIRS[2 * pair:2 * pair + 2]
    signed = nibble - 16 if nibble >= 8 else nibble
    sample = quotient(newer * first + older * second) + signed * delta
    return max(-32768, min(32767, sample)), max(16, min(2796202, quotient(delta * GROWTHS[nibble])))


def decode_channel(pair, delta, newer, older, nibbles):
    """The samples of one channel of a block; refusal 15. The delta of the header is taken as it stands."""
    demand(pair <= 6, 15)
    samples = [older, newer]
    for nibble in nibbles:
        sample, delta = after(pair, delta, samples[-1], samples[-2], nibble)
        samples.append(sample)
    return samples


def decode(block, channels):
    """The frames of a block, with its fill; refusal 15."""
    header = struct.unpack_from(f'<{channels}B{3 * channels}h', block)
    nibbles = [nibble for byte in block[7 * channels:] for nibble in (byte // 16, byte % 16)]
    parts = [decode_channel(*header[channel::channels], nibbles[channel::channels]) for channel in range(channels)]
    return [sample for frame in zip(*parts) for sample in frame]
