"""Files of other programs as songs, and what document 01 says of adding each to a side.

Each is added under the number 7, within a limit of 1,000,000 frames.
"""
from data.others import REPORTED, TITLED, WRITTEN
from second import reader as second_reader, side as second_side

NUMBER, LIMIT, ROOM = 7, 1000000, 65536

# A side, a song, and the answer by hand: a refusal's number, or the frames and the songs of the new side.
ONTO = [
    (WRITTEN / 'pcm16-stereo-songs.wav', REPORTED / 'ffmpeg-pcm16-stereo-bext-levl.wav', (1200, 4)),
    (WRITTEN / 'pcm16-stereo-songs.wav', REPORTED / 'ffmpeg-pcm16-stereo-title.wav', 9),
    # 64 songs; as a song it has the side's format.
    (WRITTEN / 'pcm16-mono-64-songs.wav', WRITTEN / 'pcm16-mono-64-songs.wav', 17),
    # Cues anywhere and no playlist; a cue that is played three times; no cue at all.
    (WRITTEN / 'pcm16-mono-cues.wav', REPORTED / 'ffmpeg-pcm16-mono.wav', 19),
    (WRITTEN / 'pcm16-mono-repeats.wav', REPORTED / 'ffmpeg-pcm16-mono.wav', 19),
    (WRITTEN / 'pcm16-mono.wav', REPORTED / 'ffmpeg-pcm16-mono.wav', 19),
    (REPORTED / 'sndfile-pcm16-mono-cues.wav', REPORTED / 'ffmpeg-pcm16-mono.wav', 19),
    (WRITTEN / 'ima-mono-short-block-songs.wav', REPORTED / 'sox-pcm16-mono.wav', 19),
    # A side with titles; songs with titles, and one whose titles are wrong.
    (TITLED / 'written-pcm16-mono-songs.wav', REPORTED / 'ffmpeg-pcm16-mono.wav', (701, 4)),
    (TITLED / 'written-pcm16-mono-songs.wav', TITLED / 'audio-wav-pcm16-mono-ltxt-put.wav', (600, 4)),
    (WRITTEN / 'pcm16-stereo-songs.wav', TITLED / 'gstreamer-pcm16-stereo-written.wav', (900, 4)),
    (TITLED / 'written-pcm16-mono-songs.wav', TITLED / 'audiofile-pcm16-stereo-even-text-refused.wav', 21),
]
# Songs that are at fault, by what is refused.
OF_SONG = 9, 21


def onto():
    """A label, the side and the song of each row of the table, whose answer must be the one by hand."""
    for side, song, said in ONTO:
        kind, made = second_side.check(side.read_bytes(), song.read_bytes(), NUMBER, LIMIT, ROOM)
        answer = made
        if kind == 'bytes':
            held = second_side.songs(made)
            answer = sum(listed.length for listed in held), len(held)
            if second_reader.titles(made) != second_reader.titles(side.read_bytes()):
                raise ValueError(f'{song.name} onto {side.name}: the titles are not those of the side')
        if answer != said:
            raise ValueError(f'{song.name} onto {side.name}: by hand it is {said}, the second way to add says {answer}')
        yield f'{song.name} onto {side.name}', side.read_bytes(), song.read_bytes()


def listed_after(listing):
    """The list of an empty side after a file was added whose own listing, by another program's report, is this."""
    first, *_ = listing.splitlines()
    if first.startswith('refused'):
        return [first]
    tag, _, _, bits, frames = map(int, first.split()[2::2])
    if (tag, bits) != (1, 16):
        return ['refused 9']
    return [first, f'cue {NUMBER} at 0', f'play {NUMBER} length {frames} times 1'] if frames else ['refused 16']
