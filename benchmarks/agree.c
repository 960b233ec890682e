#include "agree.h"

#include "made.h"
#include "plain.h"
#include "second.h"
#include "tronalhet.h"

#include <stdio.h>
#include <stdlib.h>
#include <string.h>

enum { MOST_FRAMES = 3000, ROOM = 16 * MOST_FRAMES };

/* What stands in an output buffer before a job, so that a byte too many is seen. */
enum { UNTOUCHED = 0xA5 };

static uint8_t library_out[ROOM];
static uint8_t plain_out[ROOM];

static void clear(void)
{
    memset(library_out, UNTOUCHED, ROOM);
    memset(plain_out, UNTOUCHED, ROOM);
}

static bool same_out(void)
{
    return memcmp(library_out, plain_out, ROOM) == 0;
}

static bool decode_agrees(const struct made *made, size_t frames)
{
    struct made_file file = made_wave(made, frames, false);
    clear();
    tronalhet_answer answer = tronalhet_decode(file.bytes, file.count, (int16_t *)library_out, ROOM / 2);
    size_t decoded = plain_decode(file.bytes, file.count, (int16_t *)plain_out, ROOM / 2);
    free(file.bytes);
    return answer.refusal == 0 && answer.n == decoded && decoded == frames && same_out();
}

/* A header byte of the last block at its greatest value is taken, and one above is refused. */
static bool headers_agree(const struct made *made)
{
    size_t blocks = 3;
    struct made_file file = made_wave(made, blocks * made_block_frames(made), true);
    uint8_t *last = file.sound + (blocks - 1) * made->align;
    uint8_t *byte = made->format == MADE_IMA ? last + 4 * (made->channels - 1) + 2 : last + made->channels - 1;
    uint8_t greatest = made->format == MADE_IMA ? 88 : 6;
    bool agrees = true;
    for (int above = 0; above <= 1; above++) {
        *byte = (uint8_t)(greatest + above);
        clear();
        tronalhet_answer answer = tronalhet_decode(file.bytes, file.count, (int16_t *)library_out, ROOM / 2);
        size_t decoded = plain_decode(file.bytes, file.count, (int16_t *)plain_out, ROOM / 2);
        agrees = agrees && (answer.refusal == 0) == (above == 0) &&
                 (answer.refusal == 0 ? answer.n : SIZE_MAX) == decoded && same_out();
    }
    free(file.bytes);
    return agrees;
}

static bool encode_agrees(const struct made *made, size_t frames)
{
    int16_t *sound = made_sound(made, frames);
    uint32_t channels = made->channels;
    clear();
    tronalhet_coded coded = tronalhet_encode(sound, frames * channels, (uint16_t)channels,
                                             (uint16_t)made->align, library_out, ROOM);
    struct plain_coded plain = plain_encode(sound, frames, channels, made->align, plain_out);
    free(sound);
    return coded.refusal == 0 && coded.n == plain.bytes && coded.left == plain.chased[0] &&
           coded.right == plain.chased[1] && same_out();
}

static bool write_agrees(const struct made *made, size_t frames)
{
    int16_t *sound = made_sound(made, frames);
    uint32_t record[TRONALHET_RECORD_WORDS];
    uint8_t titles[MADE_TITLE_BYTES];
    size_t title_bytes = made_record(made, frames, record, titles);
    clear();
    tronalhet_answer answer = tronalhet_write(record, TRONALHET_RECORD_WORDS, titles, title_bytes,
                                              (const uint8_t *)sound, frames * made->align, library_out, ROOM);
    size_t written = plain_write(made->channels, MADE_RATE, (const uint8_t *)sound, frames * made->align,
                                 plain_out);
    free(sound);
    return answer.refusal == 0 && answer.n == written && same_out();
}

/* A record, and the texts of its titles with zeros behind them. */
struct tables {
    uint32_t record[TRONALHET_RECORD_WORDS];
    uint8_t titles[MADE_TITLE_BYTES];
};

/* A file with cues and titles is the same by both, and both read of it what was written. */
static bool tables_agree(const struct made *made, size_t frames)
{
    int16_t *sound = made_sound(made, frames);
    struct tables put = {{0}, {0}}, by_library = put, by_plain = put;
    size_t title_bytes = made_record(made, frames, put.record, put.titles), bytes = frames * made->align;
    clear();
    tronalhet_answer answer = tronalhet_write(put.record, TRONALHET_RECORD_WORDS, put.titles, title_bytes,
                                              (const uint8_t *)sound, bytes, library_out, ROOM);
    tronalhet_answer plain = second_write(put.record, TRONALHET_RECORD_WORDS, put.titles, title_bytes,
                                          (const uint8_t *)sound, bytes, plain_out, ROOM);
    free(sound);
    uint32_t refusal = tronalhet_read(library_out, answer.n, by_library.record, TRONALHET_RECORD_WORDS,
                                      by_library.titles, MADE_TITLE_BYTES);
    uint32_t plain_refusal = second_read(library_out, answer.n, by_plain.record, TRONALHET_RECORD_WORDS,
                                         by_plain.titles, MADE_TITLE_BYTES);
    return answer.refusal == 0 && plain.refusal == 0 && answer.n == plain.n && same_out() && refusal == 0 &&
           plain_refusal == 0 && memcmp(&by_library, &put, sizeof put) == 0 &&
           memcmp(&by_plain, &put, sizeof put) == 0;
}

/* A side of so many frames and songs gets a song, first a new one and then one that is listed already. */
static bool add_agrees(const struct made *made, size_t frames, uint32_t songs)
{
    struct made side = *made;
    side.cues = songs;
    struct made_file old = made_wave(&side, songs > 0 ? frames + songs : 0, true);
    struct made_file song = made_wave(made, frames + 1, true);
    bool agrees = true;
    for (uint32_t number = 999; number < 1001; number++) {
        clear();
        tronalhet_answer answer = tronalhet_add(old.bytes, old.count, song.bytes, song.count, number,
                                                UINT32_MAX, library_out, ROOM);
        size_t added = plain_add(old.bytes, old.count, song.bytes, song.count, number, plain_out, ROOM);
        agrees = agrees && (answer.refusal == 0 ? answer.n : SIZE_MAX) == added && same_out();
    }
    free(old.bytes);
    free(song.bytes);
    return agrees;
}

static bool told(const char *what, bool agrees, const struct made *made, size_t frames)
{
    if (!agrees)
        printf("library and plain C differ in %s: channels %u align %u frames %zu clipped %d\n", what,
               (unsigned)made->channels, (unsigned)made->align, frames, made->clipped);
    return agrees;
}

static bool adpcm_agrees(uint32_t channels, uint32_t align, bool clipped, size_t frames)
{
    struct made ima = {MADE_IMA, channels, align, clipped, 0, 0};
    struct made microsoft = {MADE_MICROSOFT, channels, align, clipped, 0, 0};
    return told("IMA headers", headers_agree(&ima), &ima, frames) &&
           told("Microsoft headers", headers_agree(&microsoft), &microsoft, frames) &&
           told("IMA encoding", encode_agrees(&ima, frames), &ima, frames) &&
           told("IMA decoding", decode_agrees(&ima, frames), &ima, frames) &&
           told("Microsoft decoding", decode_agrees(&microsoft, frames), &microsoft, frames);
}

static bool pcm_agrees(uint32_t channels, size_t frames)
{
    struct made wide = {MADE_PCM_16, channels, 2 * channels, false, 0, 0};
    struct made narrow = {MADE_PCM_8, channels, channels, false, 0, 0};
    uint32_t cues = (uint32_t)(frames < 64 ? frames : 64);
    struct made all_titles = {MADE_PCM_16, channels, 2 * channels, false, cues, 2 * cues};
    struct made some_titles = all_titles;
    some_titles.titles = (uint32_t)frames % (2 * cues + 1);
    return told("16-bit decoding", decode_agrees(&wide, frames), &wide, frames) &&
           told("8-bit decoding", decode_agrees(&narrow, frames), &narrow, frames) &&
           told("writing", write_agrees(&wide, frames), &wide, frames) &&
           told("all titles", tables_agree(&all_titles, frames), &all_titles, frames) &&
           told("some titles", tables_agree(&some_titles, frames), &some_titles, frames) &&
           told("adding", add_agrees(&wide, frames, (uint32_t)(frames % 64)), &wide, frames);
}

int agree(void)
{
    static const uint32_t aligns[] = {16, 24, 64, 256, 1024};
    for (uint32_t channels = 1; channels <= 2; channels++) {
        for (size_t frames = 0; frames < MOST_FRAMES; frames += 1 + frames / 7) {
            if (!pcm_agrees(channels, frames))
                return 1;
            for (size_t i = 0; i < sizeof aligns / sizeof *aligns; i++) {
                if (!adpcm_agrees(channels, aligns[i], false, frames) ||
                    !adpcm_agrees(channels, aligns[i], true, frames))
                    return 1;
            }
        }
    }
    return 0;
}
