/* Decoding: PCM, IMA and Microsoft sound to signed 16-bit samples, a whole file or one block. */
#include "second.h"
#include "second_parts.h"

static const int32_t steps[89] = {
    7,    8,     9,     10,    11,    12,    13,    14,    16,    17,    19,    21,    23,    25,   28,
    31,   34,    37,    41,    45,    50,    55,    60,    66,    73,    80,    88,    97,    107,  118,
    130,  143,   157,   173,   190,   209,   230,   253,   279,   307,   337,   371,   408,   449,  494,
    544,  598,   658,   724,   796,   876,   963,   1060,  1166,  1282,  1411,  1552,  1707,  1878, 2066,
    2272, 2499,  2749,  3024,  3327,  3660,  4026,  4428,  4871,  5358,  5894,  6484,  7132,  7845, 8630,
    9493, 10442, 11487, 12635, 13899, 15289, 16818, 18500, 20350, 22385, 24623, 27086, 29794, 32767};

static const int32_t index_changes[8] = {-1, -1, -1, -1, 2, 4, 6, 8};

static const int64_t delta_factors[16] = {230, 230, 230, 230, 307, 409, 512, 614,
                                          768, 614, 512, 409, 307, 230, 230, 230};

static int64_t held_within(int64_t value, int64_t least, int64_t most)
{
    return value < least ? least : value > most ? most : value;
}

int32_t ima_step(const struct ima *state)
{
    return steps[state->index];
}

/* Each quotient is rounded down by itself; the step is never negative. */
void ima_decode_code(struct ima *state, uint32_t code)
{
    int32_t step = ima_step(state);
    int32_t difference = step / 8;
    if (code & 4)
        difference += step;
    if (code & 2)
        difference += step / 2;
    if (code & 1)
        difference += step / 4;
    if (code & 8)
        difference = -difference;
    state->sample = (int32_t)held_within(state->sample + difference, -32768, 32767);
    state->index = (int32_t)held_within(state->index + index_changes[code % 8], 0, 88);
}

/* The code of a sample after the first: four bytes of each channel in turn, low nibble first. */
static uint32_t ima_code_at(const uint8_t *block, uint32_t channels, uint32_t channel, uint32_t sample)
{
    uint32_t group = (sample - 1) / 8;
    uint32_t within = (sample - 1) % 8;
    uint32_t byte = block[4 * channels + 4 * channels * group + 4 * channel + within / 2];
    return within % 2 == 0 ? byte % 16 : byte / 16;
}

static void decode_ima_channel(const uint8_t *block, uint32_t channels, uint32_t channel, uint32_t frames,
                               int16_t *out)
{
    const uint8_t *header = block + 4 * channel;
    struct ima state = {signed16(header), header[2]};
    out[channel] = (int16_t)state.sample;
    for (uint32_t i = 1; i < frames; i++) {
        ima_decode_code(&state, ima_code_at(block, channels, channel, i));
        out[i * channels + channel] = (int16_t)state.sample;
    }
}

/* The nibble of a sample after the second: high nibble first; in stereo the high one is left. */
static uint32_t microsoft_nibble_at(const uint8_t *block, uint32_t channels, uint32_t channel, uint32_t sample)
{
    uint32_t nibble = (sample - 2) * channels + channel;
    uint32_t byte = block[7 * channels + nibble / 2];
    return nibble % 2 == 0 ? byte / 16 : byte % 16;
}

static void decode_microsoft_channel(const uint8_t *block, uint32_t channels, uint32_t channel, uint32_t frames,
                                     int16_t *out)
{
    const int32_t *pair = second_pairs[block[channel]];
    int64_t delta = signed16(block + channels + 2 * channel);
    int64_t newer = signed16(block + 3 * channels + 2 * channel);
    int64_t older = signed16(block + 5 * channels + 2 * channel);
    out[channel] = (int16_t)older;
    if (frames > 1)
        out[channels + channel] = (int16_t)newer;
    for (uint32_t i = 2; i < frames; i++) {
        uint32_t nibble = microsoft_nibble_at(block, channels, channel, i);
        int64_t signed_nibble = nibble < 8 ? (int64_t)nibble : (int64_t)nibble - 16;
        int64_t prediction = (newer * pair[0] + older * pair[1]) / 256;
        int64_t sample = held_within(prediction + signed_nibble * delta, -32768, 32767);
        delta = held_within(delta * delta_factors[nibble] / 256, 16, 2796202);
        older = newer;
        newer = sample;
        out[i * channels + channel] = (int16_t)sample;
    }
}

/* The first `frames` frames of a block. */
static void decode_frames(const struct record *record, const uint8_t *block, uint32_t frames, int16_t *out)
{
    for (uint32_t channel = 0; channel < record->channels; channel++) {
        if (record->tag == IMA)
            decode_ima_channel(block, record->channels, channel, frames, out);
        else
            decode_microsoft_channel(block, record->channels, channel, frames, out);
    }
}

/* 15: an index above 88, or a predictor above 6. */
static bool block_header_is_right(const struct record *record, const uint8_t *block)
{
    for (uint32_t channel = 0; channel < record->channels; channel++) {
        if (record->tag == IMA && block[4 * channel + 2] > 88)
            return false;
        if (record->tag == MICROSOFT && block[channel] > 6)
            return false;
    }
    return true;
}

static void decode_pcm(const struct record *record, const uint8_t *sound, int16_t *out)
{
    for (size_t i = 0; i < (size_t)record->frames * record->channels; i++) {
        if (record->bits == 8)
            out[i] = (int16_t)((sound[i] - 128) * 256);
        else
            out[i] = (int16_t)signed16(sound + 2 * i);
    }
}

/* All blocks; the last one gives what F leaves for it. */
static void decode_blocks(const struct record *record, struct part sound, int16_t *out)
{
    uint32_t done = 0;
    for (size_t place = 0; place < sound.bytes; place += record->align) {
        uint32_t left = record->frames - done;
        uint32_t frames = left < record->samples ? left : record->samples;
        decode_frames(record, sound.at + place, frames, out + (size_t)done * record->channels);
        done += frames;
    }
}

tronalhet_answer second_decode(const uint8_t *file, size_t file_bytes, int16_t *out, size_t out_samples)
{
    struct record record;
    struct part sound;
    uint32_t refusal = second_open(file, file_bytes, &record, &sound);
    if (refusal != 0)
        return (tronalhet_answer){refusal, 0};
    if (out_samples < (uint64_t)record.frames * record.channels)
        return (tronalhet_answer){14, 0};
    if (record.tag == PCM) {
        decode_pcm(&record, sound.at, out);
        return (tronalhet_answer){0, record.frames};
    }
    for (size_t place = 0; place < sound.bytes; place += record.align) {
        if (!block_header_is_right(&record, sound.at + place))
            return (tronalhet_answer){15, 0};
    }
    decode_blocks(&record, sound, out);
    return (tronalhet_answer){0, record.frames};
}

tronalhet_answer second_decode_block(const uint8_t *file, size_t file_bytes, uint32_t block, int16_t *out,
                                     size_t out_samples)
{
    struct record record;
    struct part sound;
    uint32_t refusal = second_open(file, file_bytes, &record, &sound);
    if (refusal != 0)
        return (tronalhet_answer){refusal, 0};
    if (record.tag == PCM || block >= sound.bytes / record.align)
        return (tronalhet_answer){20, 0};
    if (out_samples < (uint64_t)record.samples * record.channels)
        return (tronalhet_answer){14, 0};
    const uint8_t *at = sound.at + (size_t)block * record.align;
    if (!block_header_is_right(&record, at))
        return (tronalhet_answer){15, 0};
    decode_frames(&record, at, record.samples, out);
    return (tronalhet_answer){0, record.samples};
}
