#include "made.h"

#include "tronalhet.h"

#include <stdio.h>
#include <stdlib.h>
#include <string.h>

/* What stands before the sound is never longer than this. */
enum { HEADER_ROOM = 16384 };
/* A longer sound repeats its first samples, since making them takes longer than copying. */
enum { MADE_SAMPLES = 2097152 };

static const int pairs[7][2] = {{256, 0}, {512, -256}, {0, 0}, {192, 64}, {240, 0}, {460, -208}, {392, -232}};

static const int delta_factors[16] = {230, 230, 230, 230, 307, 409, 512, 614,
                                      768, 614, 512, 409, 307, 230, 230, 230};

void *made_room(size_t bytes)
{
    void *room = malloc(bytes > 0 ? bytes : 1);
    if (room == NULL) {
        fprintf(stderr, "measure: no memory for %zu bytes\n", bytes);
        exit(2);
    }
    return room;
}

static int held(int value, int least, int most)
{
    return value < least ? least : value > most ? most : value;
}

/* The smaller of two counts. */
static size_t at_most(size_t count, size_t most)
{
    return count < most ? count : most;
}

static void put16(uint8_t *at, int value)
{
    at[0] = (uint8_t)value;
    at[1] = (uint8_t)(value >> 8);
}

/* ---- Sounds ---- */

/* A wave that goes evenly up and down between -height and height. */
struct triangle {
    int value;
    int slope;
    int height;
};

enum { TRIANGLES = 3 };

/* Three waves for each channel, slow to quick. */
static const struct triangle triangles[2][TRIANGLES] = {
    {{0, 12, 9000}, {0, 60, 6000}, {0, 119, 3000}},
    {{0, 13, 9000}, {0, 58, 6000}, {0, 124, 3000}},
};

static int next_value(struct triangle *wave)
{
    wave->value += wave->slope;
    if (wave->value >= wave->height || wave->value <= -wave->height)
        wave->slope = -wave->slope;
    return wave->value;
}

static int noise(uint32_t *seed, uint32_t height)
{
    *seed = *seed * 1664525u + 1013904223u;
    return (int)((*seed >> 8) % (2 * height + 1)) - (int)height;
}

static void make_samples(const struct made *made, size_t samples, int16_t *sound)
{
    struct triangle waves[2][TRIANGLES];
    memcpy(waves, triangles, sizeof waves);
    uint32_t seed = 1991;
    for (size_t i = 0; i < samples; i++) {
        struct triangle *channel = waves[i % made->channels];
        int sum = made->clipped ? noise(&seed, 98304) : noise(&seed, 700);
        for (int k = 0; k < TRIANGLES && !made->clipped; k++)
            sum += next_value(&channel[k]);
        sound[i] = (int16_t)held(sum, -32768, 32767);
    }
}

/* Copies the first part of a buffer until the whole of it is filled. */
static void repeat(uint8_t *bytes, size_t first, size_t all)
{
    for (size_t done = first; done < all;) {
        size_t more = at_most(done, all - done);
        memcpy(bytes + done, bytes, more);
        done += more;
    }
}

int16_t *made_sound(const struct made *made, size_t frames)
{
    size_t samples = frames * made->channels;
    int16_t *sound = made_room(samples * sizeof *sound);
    size_t first = at_most(samples, MADE_SAMPLES);
    make_samples(made, first, sound);
    repeat((uint8_t *)sound, first * sizeof *sound, samples * sizeof *sound);
    return sound;
}

/* ---- Sound data ---- */

size_t made_block_frames(const struct made *made)
{
    uint32_t channels = made->channels;
    if (made->format == MADE_IMA)
        return (made->align - 4 * channels) * 2 / channels + 1;
    if (made->format == MADE_MICROSOFT)
        return (made->align - 7 * channels) * 2 / channels + 2;
    return 1;
}

/* A simple Microsoft coder. Nothing but decoding is measured, so it needs to be near the sound and no more. */
struct coder {
    int predictor;
    int delta;
    int newer;
    int older;
};

static int microsoft_code(struct coder *coder, int sample)
{
    const int *pair = pairs[coder->predictor];
    int prediction = (coder->newer * pair[0] + coder->older * pair[1]) / 256;
    int error = sample - prediction;
    int half = error < 0 ? -coder->delta / 2 : coder->delta / 2;
    int code = held((error + half) / coder->delta, -8, 7);
    coder->older = coder->newer;
    coder->newer = held(prediction + code * coder->delta, -32768, 32767);
    coder->delta = held(coder->delta * delta_factors[code & 15] / 256, 16, 2796202);
    return code & 15;
}

/* The block's header for one channel. The first delta is a quarter of the first step of the sound. */
static struct coder microsoft_start(const int16_t *sound, uint32_t channels, uint32_t channel, int predictor,
                                    uint8_t *block)
{
    int older = sound[channel];
    int newer = sound[channels + channel];
    struct coder coder = {predictor, held(abs(newer - older) / 4, 16, 32767), newer, older};
    block[channel] = (uint8_t)predictor;
    put16(block + channels + 2 * channel, coder.delta);
    put16(block + 3 * channels + 2 * channel, newer);
    put16(block + 5 * channels + 2 * channel, older);
    return coder;
}

/* One block of whole frames; the predictors come in turn. */
static void microsoft_block(const struct made *made, const int16_t *sound, size_t number, uint8_t *block)
{
    uint32_t channels = made->channels;
    struct coder coders[2];
    for (uint32_t c = 0; c < channels; c++)
        coders[c] = microsoft_start(sound, channels, c, (int)((number + c) % 7), block);
    size_t samples = made_block_frames(made) * channels;
    uint8_t *bytes = block + 7 * channels;
    for (size_t i = 2 * channels; i < samples; i += 2) {
        int high = microsoft_code(&coders[0], sound[i]);
        int low = microsoft_code(&coders[channels - 1], sound[i + 1]);
        *bytes++ = (uint8_t)(16 * high + low);
    }
}

static void microsoft_blocks(const struct made *made, const int16_t *sound, size_t blocks, uint8_t *out)
{
    size_t block_samples = made_block_frames(made) * made->channels;
    for (size_t i = 0; i < blocks; i++)
        microsoft_block(made, sound + i * block_samples, i, out + i * made->align);
}

/* Blocks of an ADPCM sound; past the first millions of samples the blocks repeat themselves. */
static void made_blocks(const struct made *made, size_t blocks, uint8_t *out)
{
    size_t block_samples = made_block_frames(made) * made->channels;
    size_t first = at_most(blocks, MADE_SAMPLES / block_samples);
    int16_t *sound = made_sound(made, first * made_block_frames(made));
    if (made->format == MADE_IMA)
        tronalhet_encode(sound, first * block_samples, (uint16_t)made->channels, (uint16_t)made->align, out,
                         first * made->align);
    else
        microsoft_blocks(made, sound, first, out);
    free(sound);
    repeat(out, first * made->align, blocks * made->align);
}

static void made_8_bits(const struct made *made, size_t samples, uint8_t *out)
{
    size_t first = at_most(samples, MADE_SAMPLES);
    int16_t *sound = made_sound(made, first / made->channels);
    for (size_t i = 0; i < first; i++)
        out[i] = (uint8_t)(sound[i] / 256 + 128);
    free(sound);
    repeat(out, first, samples);
}

static uint8_t *sound_data(const struct made *made, size_t frames, size_t bytes)
{
    if (made->format == MADE_PCM_16)
        return (uint8_t *)made_sound(made, frames);
    uint8_t *out = made_room(bytes);
    if (made->format == MADE_PCM_8)
        made_8_bits(made, frames * made->channels, out);
    else
        made_blocks(made, bytes / made->align, out);
    return out;
}

/* ---- Files ---- */

/* Cues and entries divide the sound evenly, so that it is a side too. */
static void put_cues(uint32_t cues, size_t frames, uint32_t *record)
{
    record[7] = cues;
    record[8] = cues;
    for (uint32_t i = 0; i < cues; i++) {
        uint32_t place = (uint32_t)(frames / cues * i);
        uint32_t end = i + 1 < cues ? (uint32_t)(frames / cues * (i + 1)) : (uint32_t)frames;
        uint32_t *cue = record + 9 + 3 * i;
        uint32_t *entry = record + 9 + 3 * 64 + 3 * i;
        cue[0] = entry[0] = 1000 + i;
        cue[1] = cue[2] = place;
        entry[1] = end - place;
        entry[2] = 1;
    }
}

/* Titles in the order of the cues, all labels before the notes. Their texts are of 10 to 40 letters. */
static size_t put_titles(const struct made *made, uint32_t *record, uint8_t *titles)
{
    size_t end = 0;
    record[TRONALHET_TITLES] = made->titles;
    for (uint32_t i = 0; i < made->titles; i++) {
        uint32_t length = 10 + 7 * i % 31;
        uint32_t *title = record + TRONALHET_FIRST_TITLE + TRONALHET_TITLE_WORDS * i;
        title[TRONALHET_TITLE_KIND] = i / made->cues;
        title[TRONALHET_TITLE_NAME] = 1000 + i % made->cues;
        title[TRONALHET_TITLE_START] = (uint32_t)end;
        title[TRONALHET_TITLE_LENGTH] = length;
        memset(titles + end, 'a' + (int)(i % 26), length);
        titles[end + length] = 0;
        end += length + 1;
    }
    return end;
}

size_t made_record(const struct made *made, size_t frames, uint32_t *record, uint8_t *titles)
{
    static const uint32_t tags[] = {1, 1, 17, 2};
    static const uint32_t bits[] = {16, 8, 4, 4};
    memset(record, 0, TRONALHET_RECORD_WORDS * sizeof *record);
    record[0] = tags[made->format];
    record[1] = made->channels;
    record[2] = MADE_RATE;
    record[3] = bits[made->format];
    record[4] = made->align;
    record[5] = (uint32_t)made_block_frames(made);
    record[6] = (uint32_t)frames;
    put_cues(made->cues, frames, record);
    return put_titles(made, record, titles);
}

struct made_file made_wave(const struct made *made, size_t frames, bool whole_blocks)
{
    size_t block_frames = made_block_frames(made);
    size_t blocks = at_most((frames + (whole_blocks ? 0 : block_frames - 1)) / block_frames,
                            (MADE_FILE_LIMIT - HEADER_ROOM) / made->align);
    size_t held_frames = at_most(frames, blocks * block_frames);
    size_t sound_bytes = blocks * made->align;
    uint8_t *sound = sound_data(made, held_frames, sound_bytes);
    uint32_t record[TRONALHET_RECORD_WORDS];
    uint8_t titles[MADE_TITLE_BYTES];
    size_t title_bytes = made_record(made, held_frames, record, titles);
    struct made_file file = {made_room(sound_bytes + HEADER_ROOM), 0, held_frames, NULL, sound_bytes};
    tronalhet_answer answer = tronalhet_write(record, TRONALHET_RECORD_WORDS, titles, title_bytes, sound,
                                              sound_bytes, file.bytes, sound_bytes + HEADER_ROOM);
    free(sound);
    size_t start;
    if (answer.refusal != 0 || tronalhet_sound(file.bytes, answer.n, &start, 1).refusal != 0) {
        fprintf(stderr, "measure: a made-up file is refused with %u\n", (unsigned)answer.refusal);
        exit(2);
    }
    file.count = answer.n;
    file.sound = file.bytes + start;
    return file;
}
