"""The story of the song that fell off, as it must go: a song comes twice over a bad line, is put on the side once, and
the song after it keeps its place. Then the other refusals of adding, each on a side that stays as it is; titles, which
stay with their songs; and at last a side of 64 songs.

Beside each song stands what must come of it, worked out by hand from documents 01 and 02: a refusal's number, or the
bytes of the new side. The files are made by the second writer.
"""
from c.request import WORDS, words_of
from second import reader as second_reader, writer as second_writer
from second.writer import Record
from trying import expect
from vectors.side_files import size
from vectors.writer_records import list_size

ROOM = 8192
FORM = 1, 1, 8000, 16, 2, 1
TUNE = bytes(7 * place % 256 for place in range(512))


def part(start, frames):
    """So many frames of the tune from a byte on."""
    return TUNE[start:start + 2 * frames]


def song(start, frames, rate=8000):
    """A song that is a part of the tune."""
    return second_writer.write(Record((1, 1, rate, 16, 2, 1), frames, 0, [], 0, []), b'', part(start, frames), ROOM)


def titled_song(start, frames, name):
    """The same with a cue 7, and a label of this name."""
    record = Record(FORM, frames, 1, [(7, 0, 0)], 0, [], 1, [(0, name, 0, 4)])
    return second_writer.file_of(record, b'Song\0', part(start, frames))


class Story:
    """A side, an empty one where no other is given, and the songs that are sent to it."""

    def __init__(self, library, side=None):
        self.library = library
        self.titles, self.texts = [], b''
        self.side = library.ask('the empty side of the story', 'empty', 44, 1, 8000).buffer if side is None else side

    def send(self, said, file, number, limit, room=ROOM):
        """Sends a song; the side stays as it is where the song is refused."""
        label = f'song {number} of the story'
        answer = self.library.ask(label, 'add', room, self.side, file, number, limit)
        expect(f'{label}, by hand', answer.refusal or answer.n, said)
        if answer.refusal == 0:
            self.side = answer.buffer[:answer.n]

    def print_labels(self, *titles):
        """The side is written again with these titles, each a kind, a number and a text."""
        form, frames, cues, plays, _, sound = second_reader.read(self.side)
        self.titles, self.texts = second_reader.placed([(kind, number, text + b'\0') for kind, number, text in titles])
        record = words_of(form, frames, cues, plays, self.titles)
        made = self.library.ask('the labels of the story', 'write', ROOM, record, self.texts, sound)
        expect('the labels of the story, by hand', made.refusal, 0)
        self.side = made.buffer[:made.n]

    def has(self, *songs):
        """The side has these songs, each a number, the byte of the tune where it starts, and its frames; and the titles
        that were put on it."""
        places = [sum(frames for _, _, frames in songs[:turn]) for turn in range(len(songs))]
        cues = [(number, place, place) for (number, _, _), place in zip(songs, places)]
        record = words_of(FORM, sum(frames for _, _, frames in songs), cues,
                          [(number, frames, 1) for number, _, frames in songs], self.titles)
        label = f'the side of {len(songs)} songs in the story'
        read = self.library.ask(label, 'read', (WORDS, len(self.texts)), self.side)
        expect(label, (read.buffer, read.titles), (record, self.texts))
        sound = self.library.ask(label, 'sound', 1, self.side)
        place = int.from_bytes(sound.buffer, 'little')
        expect(f'{label}, its sound', self.side[place:place + sound.n],
               b''.join(part(start, frames) for _, start, frames in songs))


def three_songs(library):
    """With the second song twice there would be 80 frames, and no place for the third one."""
    story = Story(library)
    story.send(size(1, 20), song(0, 20), 101, 80)
    story.send(size(2, 50), song(50, 30), 102, 80)
    story.send(18, song(50, 30), 102, 80)
    story.send(size(3, 75), song(100, 25), 103, 80)
    story.has((101, 0, 20), (102, 50, 30), (103, 100, 25))
    return story


def at_the_limit(story):
    """A song of 6 frames where there is place for 5; then place for 6, without and with room for the new file."""
    story.send(17, song(150, 6), 104, 80)
    story.send(14, song(150, 6), 104, 81, size(4, 81) - 1)
    story.send(size(4, 81), song(150, 6), 104, 81, size(4, 81))
    story.has((101, 0, 20), (102, 50, 30), (103, 100, 25), (104, 150, 6))


def unlike_songs(story):
    """Songs that do not fit: a listed number with other sound, as long and shorter; no frame; another rate; no song."""
    story.send(16, song(1, 20), 101, 1000)
    story.send(16, song(0, 10), 101, 1000)
    story.send(16, song(0, 0), 105, 1000)
    story.send(9, song(200, 10, 11025), 105, 1000)
    story.send(3, song(200, 10)[:-1], 105, 1000)
    story.has((101, 0, 20), (102, 50, 30), (103, 100, 25), (104, 150, 6))


def no_side(library):
    """A song is no side."""
    Story(library, song(0, 20)).send(19, song(200, 10), 105, 1000)


def with_titles(library):
    """Titles stay when a song is added, none comes with it, and a song with a wrong one is not taken."""
    story = Story(library)
    story.send(size(1, 20), song(0, 20), 101, 1000)
    story.send(size(2, 50), titled_song(50, 30, 7), 102, 1000)
    story.has((101, 0, 20), (102, 50, 30))
    story.print_labels((0, 102, b'Waltz'), (1, 101, b'by heart'), (0, 101, b''))
    story.has((101, 0, 20), (102, 50, 30))
    titles = list_size(5, 8, 0)
    story.send(size(3, 75) + titles, titled_song(100, 25, 7), 103, 1000)
    story.has((101, 0, 20), (102, 50, 30), (103, 100, 25))
    story.send(21, titled_song(150, 6, 8), 104, 1000)
    story.send(18, song(50, 30), 102, 1000)
    story.send(14, song(150, 6), 104, 1000, size(4, 81) + titles - 1)
    story.send(size(4, 81) + titles, song(150, 6), 104, 1000, size(4, 81) + titles)
    story.has((101, 0, 20), (102, 50, 30), (103, 100, 25), (104, 150, 6))
    story.print_labels()
    story.send(size(5, 82), song(0, 1), 105, 1000)
    story.has((101, 0, 20), (102, 50, 30), (103, 100, 25), (104, 150, 6), (105, 0, 1))


def full_side(library):
    """Each song has as many frames as its number says; the first n numbers add up to n x (n + 1) / 2. On a full side no
    song has place; one that is listed needs none."""
    story = Story(library)
    for number in range(1, 65):
        story.send(size(number, number * (number + 1) // 2), song(number, number), number, 10000)
    story.has(*[(number, number, number) for number in range(1, 65)])
    story.send(17, song(65, 1), 65, 10000)
    story.send(18, song(1, 1), 1, 10000)
    story.send(18, song(64, 64), 64, 10000)


def the_story(library):
    """All of it."""
    story = three_songs(library)
    at_the_limit(story)
    unlike_songs(story)
    no_side(library)
    with_titles(library)
    full_side(library)
