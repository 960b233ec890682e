/* side SONG..: puts the songs of WAVE files on a new side, and prints the list of them.
 *
 * The side has the channels and the rate of the first song, and the songs get the numbers 1, 2 and so on. The
 * side is made in memory: its bytes are a WAVE file, to be written wherever you like.
 *
 *     cc -o side side.c -ltronalhet && ./side harbour-song.wav school-song.wav */
#include <tronalhet.h>

#include <inttypes.h>
#include <stdio.h>
#include <stdlib.h>

struct bytes {
    uint8_t *at;
    size_t count;
};

static void stop(const char *name, const char *why)
{
    fprintf(stderr, "%s %s\n", name, why);
    exit(1);
}

static struct bytes room_for(size_t count)
{
    struct bytes room = {malloc(count), count};
    if (room.at == NULL)
        stop("side", "lacks memory");
    return room;
}

static struct bytes read_file(const char *name)
{
    FILE *file = fopen(name, "rb");
    if (file == NULL)
        stop(name, "cannot be opened");
    long size = fseek(file, 0, SEEK_END) == 0 ? ftell(file) : -1;
    if (size < 1 || size > TRONALHET_MOST_BYTES)
        stop(name, "is empty, too long or no file");
    rewind(file);
    struct bytes content = room_for((size_t)size);
    if (fread(content.at, 1, content.count, file) != content.count)
        stop(name, "cannot be read");
    fclose(file);
    return content;
}

/* Ends the program where a song was refused. Every refusal has its name in the header. */
static void judge(const char *name, uint32_t refusal)
{
    switch (refusal) {
    case TRONALHET_ACCEPTED:
        return;
    case TRONALHET_NOT_WAVE:
        stop(name, "is not a WAVE file");
        return;
    case TRONALHET_FORMAT_WRONG:
        stop(name, "is not 16-bit PCM with the channels and the rate of the side");
        return;
    case TRONALHET_SONG_EMPTY_OR_DIFFERENT:
        stop(name, "has no sound");
        return;
    case TRONALHET_NO_PLACE_ON_SIDE:
        stop(name, "has no place: the side has 64 songs");
        return;
    default:
        stop(name, "is damaged or too long");
    }
}

/* A side without songs, in the format of a song. */
static struct bytes new_side(const char *name, struct bytes song)
{
    uint32_t record[TRONALHET_RECORD_WORDS];
    uint8_t titles[TRONALHET_MOST_TITLE_BYTES];
    judge(name, tronalhet_read(song.at, song.count, record, TRONALHET_RECORD_WORDS, titles, sizeof titles));
    struct bytes side = room_for(TRONALHET_EMPTY_BYTES);
    uint16_t channels = (uint16_t)record[TRONALHET_CHANNELS];
    judge(name, tronalhet_empty(channels, record[TRONALHET_RATE], side.at, side.count).refusal);
    return side;
}

/* The side with one song more; the old one is freed. */
static struct bytes add_song(struct bytes side, const char *name, struct bytes song, uint32_t number)
{
    struct bytes longer = room_for(side.count + song.count + TRONALHET_ADDED_BYTES);
    tronalhet_answer answer = tronalhet_add(side.at, side.count, song.at, song.count, number, UINT32_MAX,
                                            longer.at, longer.count);
    judge(name, answer.refusal);
    longer.count = answer.n;
    free(side.at);
    return longer;
}

/* On a side, entry i plays the song of cue i. */
static void print_songs(struct bytes side)
{
    uint32_t record[TRONALHET_RECORD_WORDS];
    uint8_t titles[TRONALHET_MOST_TITLE_BYTES];
    judge("side", tronalhet_read(side.at, side.count, record, TRONALHET_RECORD_WORDS, titles, sizeof titles));
    for (uint32_t i = 0; i < record[TRONALHET_CUES]; i++) {
        const uint32_t *cue = record + TRONALHET_FIRST_CUE + TRONALHET_CUE_WORDS * i;
        const uint32_t *entry = record + TRONALHET_FIRST_ENTRY + TRONALHET_ENTRY_WORDS * i;
        printf("song %" PRIu32 " at frame %" PRIu32 ", %" PRIu32 " frames\n", cue[TRONALHET_CUE_NAME],
               cue[TRONALHET_CUE_PLACE], entry[TRONALHET_ENTRY_LENGTH]);
    }
}

int main(int count, char **names)
{
    struct bytes side = {NULL, 0};
    if (count < 2)
        stop("usage:", "side SONG..");
    for (int i = 1; i < count; i++) {
        struct bytes song = read_file(names[i]);
        if (i == 1)
            side = new_side(names[i], song);
        side = add_song(side, names[i], song, (uint32_t)i);
        free(song.at);
    }
    print_songs(side);
    free(side.at);
    return 0;
}
