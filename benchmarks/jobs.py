"""The jobs that are measured: the name that `measure` has for each, and what the tables call it."""

READS = {
    'read': 'read, no cues',
    'read-cues': 'read, 64 cues and 64 entries',
    'read-titles': 'read, 64 cues, 64 entries and 128 titles',
}
# Files with little sound, so that the tables and the titles count.
WRITES = {
    'write-cues': 'write 640 frames, 64 cues and 64 entries',
    'write-titles': 'write 640 frames, 64 cues, 64 entries and 128 titles',
}
# What is counted for each file, whatever its sound.
BY_FILE = {**READS, **WRITES}
CODECS = {
    'decode-ima-mono': 'decode IMA, mono',
    'decode-ima-stereo': 'decode IMA, stereo',
    'decode-microsoft-mono': 'decode Microsoft, mono',
    'decode-microsoft-stereo': 'decode Microsoft, stereo',
    'decode-pcm-8': 'decode 8-bit PCM',
    'encode-mono': 'encode IMA, mono',
    'encode-stereo': 'encode IMA, stereo',
}
# A sound whose samples are at a bound of 16 bits two times out of three.
CLIPPED = {
    'decode-ima-mono-clipped': 'decode IMA, mono, clipped noise',
    'decode-ima-stereo-clipped': 'decode IMA, stereo, clipped noise',
    'decode-microsoft-mono-clipped': 'decode Microsoft, mono, clipped noise',
    'decode-microsoft-stereo-clipped': 'decode Microsoft, stereo, clipped noise',
    'encode-mono-clipped': 'encode IMA, mono, clipped noise',
    'encode-stereo-clipped': 'encode IMA, stereo, clipped noise',
}
COPIES = {
    'decode-pcm-16': 'decode 16-bit PCM',
    'write': 'write 16-bit PCM',
    'add': 'add a song to a side',
}
# What must not look at the sound: files of the same size with other sound in them.
OTHER_SOUNDS = {
    'read-clipped': 'read, clipped noise',
    'read-ima': 'read, IMA',
    'read-microsoft': 'read, Microsoft',
}
GROWTH = {
    'read': 'read',
    'decode-pcm-16': 'decode 16-bit PCM',
    'decode-ima-stereo': 'decode IMA, stereo',
    'encode-stereo': 'encode IMA, stereo',
    'write': 'write 16-bit PCM',
    'add': 'add a song to a side',
}
TITLES = {**BY_FILE, **CODECS, **CLIPPED, **COPIES, **OTHER_SOUNDS}

PLAIN = 'gcc', 'clang'
# libsndfile adds no songs to a side, reads titles only up to the first note, and writes neither playlists nor titles.
NOT_OF_SNDFILE = 'add', 'read-titles', *WRITES


def contestants(operation):
    """Who does a job."""
    names = ['library', *PLAIN]
    if operation not in NOT_OF_SNDFILE:
        names.append('sndfile')
    if operation in COPIES:
        names += ['memcpy', 'memcpy by SSE2']
        names += ['sndfile by SSE2'] if operation not in NOT_OF_SNDFILE else []
    return names
