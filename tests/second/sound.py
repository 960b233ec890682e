"""A second decoder of whole files and of single blocks, from the text of documents 01 and 02 alone.

Reading is the second reader's, a block of IMA the second coder's, one of Microsoft the second decoder's of that.
"""
import struct

from second import ima as second_ima, microsoft as second_microsoft
from second.reader import demand, read

ADPCM = {2: second_microsoft.decode, 17: second_ima.decode}


def pcm(sound, bits):
    """The samples of PCM sound."""
    if bits == 16:
        return list(struct.unpack(f'<{len(sound) // 2}h', sound))
    return [(value - 128) * 256 for value in sound]


def decode(file, room):
    """Refusals 1 to 13, 21, 14 and 15; the frames of a file, and its sound."""
    (tag, channels, _, bits, align, _), frames, _, _, _, sound = read(file)
    demand(frames * channels <= room, 14)
    if tag == 1:
        return frames, pcm(sound, bits)
    blocks = [ADPCM[tag](sound[at:at + align], channels) for at in range(0, len(sound), align)]
    return frames, [sample for block in blocks for sample in block][:frames * channels]


def decode_block(file, block, room):
    """Refusals 1 to 13, 21, 20, 14 and 15; the frames of one block of a file, and its sound with the fill."""
    (tag, channels, _, _, align, samples), _, _, _, _, sound = read(file)
    demand(tag != 1 and block < len(sound) // align, 20)
    demand(samples * channels <= room, 14)
    return samples, ADPCM[tag](sound[block * align:(block + 1) * align], channels)
