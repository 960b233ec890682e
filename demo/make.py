#!/usr/bin/env python3
"""Makes the songs and the empty side of `./wave demo`.

    demo/make.py        writes them beside this script

Each song is a row of notes, and each note a triangle wave that fades away. All of it is whole numbers, so every
machine makes the same files: 16-bit PCM, mono, 8,000 frames a second.
"""
import pathlib
import struct

HERE = pathlib.Path(__file__).resolve().parent
RATE = 8000
FRAMES = 400
LOUD = 12000

# The notes of each song, lower ones with more frames to a swing.
SONGS = {
    'harbour-song.wav': [30, 24, 20],
    'school-song.wav': [20, 20, 18, 20],
    'evening-song.wav': [16, 18, 20, 24, 30],
}


def swing(place, period):
    """A triangle wave between -period and period, which starts at 0."""
    place = (place + period // 4) % period
    return 4 * min(place, period - place) - period


def note(period):
    """The samples of one note."""
    return [LOUD * (FRAMES - place) // FRAMES * swing(place, period) // period for place in range(FRAMES)]


def wave(samples):
    """The WAVE file of a sound: a format of 16 bytes, and the sound."""
    sound = struct.pack(f'<{len(samples)}h', *samples)
    form = struct.pack('<4sIHHIIHH', b'fmt ', 16, 1, 1, RATE, 2 * RATE, 2, 16)
    body = b'WAVE' + form + struct.pack('<4sI', b'data', len(sound)) + sound
    return struct.pack('<4sI', b'RIFF', len(body)) + body


def files():
    """The bytes of each file, by its name."""
    made = {name: wave([sample for period in notes for sample in note(period)]) for name, notes in SONGS.items()}
    return {**made, 'empty-side.wav': wave([])}


if __name__ == '__main__':
    for file, content in files().items():
        (HERE / file).write_bytes(content)
