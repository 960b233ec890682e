#include "plain.h"

#include <string.h>

enum { PCM = 1, MICROSOFT = 2, IMA = 17 };
enum { MOST_SONGS = 64 };

static const int steps[89] = {
    7,    8,     9,     10,    11,    12,    13,    14,    16,    17,    19,    21,    23,    25,   28,
    31,   34,    37,    41,    45,    50,    55,    60,    66,    73,    80,    88,    97,    107,  118,
    130,  143,   157,   173,   190,   209,   230,   253,   279,   307,   337,   371,   408,   449,  494,
    544,  598,   658,   724,   796,   876,   963,   1060,  1166,  1282,  1411,  1552,  1707,  1878, 2066,
    2272, 2499,  2749,  3024,  3327,  3660,  4026,  4428,  4871,  5358,  5894,  6484,  7132,  7845, 8630,
    9493, 10442, 11487, 12635, 13899, 15289, 16818, 18500, 20350, 22385, 24623, 27086, 29794, 32767};

static const int index_changes[8] = {-1, -1, -1, -1, 2, 4, 6, 8};

static const int pairs[7][2] = {{256, 0}, {512, -256}, {0, 0}, {192, 64}, {240, 0}, {460, -208}, {392, -232}};

static const int delta_factors[16] = {230, 230, 230, 230, 307, 409, 512, 614,
                                      768, 614, 512, 409, 307, 230, 230, 230};

/* ---- Numbers ---- */

static inline int held(int value, int least, int most)
{
    if (value > most)
        value = most;
    if (value < least)
        value = least;
    return value;
}

static inline uint32_t number16(const uint8_t *at)
{
    return at[0] | (uint32_t)at[1] << 8;
}

static inline uint32_t number32(const uint8_t *at)
{
    return number16(at) | number16(at + 2) << 16;
}

static inline int signed16(const uint8_t *at)
{
    return (int16_t)number16(at);
}

static inline void put16(uint8_t *at, uint32_t value)
{
    at[0] = (uint8_t)value;
    at[1] = (uint8_t)(value >> 8);
}

static inline void put32(uint8_t *at, uint32_t value)
{
    put16(at, value);
    put16(at + 2, value >> 16);
}

/* ---- IMA: a code ---- */

/* A channel: its last sample, its index in the table of steps, and in encoding how many were chased. */
struct ima {
    int sample;
    int index;
    uint32_t chased;
};

static inline void ima_move(struct ima *state, uint32_t code, int difference)
{
    int sample = code & 8 ? state->sample - difference : state->sample + difference;
    state->sample = held(sample, -32768, 32767);
    state->index = held(state->index + index_changes[code & 7], 0, 88);
}

static inline int16_t ima_decode(struct ima *state, uint32_t code)
{
    int step = steps[state->index];
    int difference = step >> 3;
    if (code & 4)
        difference += step;
    if (code & 2)
        difference += step >> 1;
    if (code & 1)
        difference += step >> 2;
    ima_move(state, code, difference);
    return (int16_t)state->sample;
}

static inline uint32_t ima_encode(struct ima *state, int sample)
{
    int step = steps[state->index];
    int d = sample - state->sample;
    int difference = step >> 3;
    uint32_t code = 0;
    if (d < 0) {
        code = 8;
        d = -d;
    }
    if (d >= 2 * step)
        state->chased++;
    if (d >= step) {
        code |= 4;
        d -= step;
        difference += step;
    }
    if (d >= step >> 1) {
        code |= 2;
        d -= step >> 1;
        difference += step >> 1;
    }
    if (d >= step >> 2) {
        code |= 1;
        difference += step >> 2;
    }
    ima_move(state, code, difference);
    return code;
}

/* ---- IMA: decoding a block ---- */

static inline struct ima ima_header(const uint8_t *header)
{
    return (struct ima){signed16(header), header[2], 0};
}

/* Four bytes are eight samples of one channel, low nibble first; channels is a constant where it is called. */
static inline void ima_decode_four(struct ima *state, const uint8_t *bytes, int channels, int16_t *out)
{
    for (int i = 0; i < 4; i++) {
        out[2 * i * channels] = ima_decode(state, bytes[i] & 15);
        out[(2 * i + 1) * channels] = ima_decode(state, bytes[i] >> 4);
    }
}

/* The last samples of a last block, fewer than eight of each channel. */
static void ima_decode_rest(struct ima *state, const uint8_t *bytes, uint32_t channels, uint32_t count,
                            int16_t *out)
{
    for (uint32_t i = 0; i < count; i++)
        out[i * channels] = ima_decode(state, i % 2 == 0 ? bytes[i / 2] & 15 : bytes[i / 2] >> 4);
}

static void ima_decode_mono(const uint8_t *block, uint32_t frames, int16_t *out)
{
    struct ima state = ima_header(block);
    *out++ = (int16_t)state.sample;
    const uint8_t *bytes = block + 4;
    uint32_t left = frames - 1;
    for (; left >= 8; left -= 8) {
        ima_decode_four(&state, bytes, 1, out);
        bytes += 4;
        out += 8;
    }
    ima_decode_rest(&state, bytes, 1, left, out);
}

static void ima_decode_stereo(const uint8_t *block, uint32_t frames, int16_t *out)
{
    struct ima left_state = ima_header(block);
    struct ima right_state = ima_header(block + 4);
    *out++ = (int16_t)left_state.sample;
    *out++ = (int16_t)right_state.sample;
    const uint8_t *bytes = block + 8;
    uint32_t left = frames - 1;
    for (; left >= 8; left -= 8) {
        ima_decode_four(&left_state, bytes, 2, out);
        ima_decode_four(&right_state, bytes + 4, 2, out + 1);
        bytes += 8;
        out += 16;
    }
    ima_decode_rest(&left_state, bytes, 2, left, out);
    ima_decode_rest(&right_state, bytes + 4, 2, left, out + 1);
}

/* ---- IMA: encoding a block ---- */

static inline void ima_start(struct ima *state, int sample, uint8_t *header)
{
    state->sample = sample;
    put16(header, (uint32_t)sample);
    header[2] = (uint8_t)state->index;
    header[3] = 0;
}

static inline void ima_encode_four(struct ima *state, const int16_t *sound, int channels, uint8_t *bytes)
{
    for (int i = 0; i < 4; i++) {
        uint32_t low = ima_encode(state, sound[2 * i * channels]);
        uint32_t high = ima_encode(state, sound[(2 * i + 1) * channels]);
        bytes[i] = (uint8_t)(low | high << 4);
    }
}

static void ima_encode_mono(struct ima *state, const int16_t *sound, uint32_t frames, uint8_t *block)
{
    ima_start(state, sound[0], block);
    for (uint32_t i = 1; i < frames; i += 8) {
        block += 4;
        ima_encode_four(state, sound + i, 1, block);
    }
}

static void ima_encode_stereo(struct ima states[2], const int16_t *sound, uint32_t frames, uint8_t *block)
{
    struct ima left = states[0];
    struct ima right = states[1];
    ima_start(&left, sound[0], block);
    ima_start(&right, sound[1], block + 4);
    for (uint32_t i = 1; i < frames; i += 8) {
        block += 8;
        ima_encode_four(&left, sound + 2 * i, 2, block);
        ima_encode_four(&right, sound + 2 * i + 1, 2, block + 4);
    }
    states[0] = left;
    states[1] = right;
}

/* One channel of a last block whose sound ends after `there` frames: the rest repeats the last one, and is
 * not counted as chased. */
static void ima_encode_short(struct ima *state, const int16_t *sound, uint32_t channels, uint32_t there,
                             uint32_t frames, uint8_t *header)
{
    ima_start(state, sound[0], header);
    for (uint32_t i = 1; i < frames; i++) {
        uint32_t chased = state->chased;
        uint32_t code = ima_encode(state, sound[(i < there ? i : there - 1) * channels]);
        if (i >= there)
            state->chased = chased;
        uint32_t nibble = (i - 1) % 8;
        uint8_t *byte = header + ((i - 1) / 8 + 1) * 4 * channels + nibble / 2;
        *byte = (uint8_t)(nibble % 2 == 0 ? code : *byte | code << 4);
    }
}

struct plain_coded plain_encode(const int16_t *sound, size_t frames, uint32_t channels, uint32_t align,
                                uint8_t *out)
{
    struct ima states[2] = {{0, 0, 0}, {0, 0, 0}};
    uint32_t samples = (align - 4 * channels) * 2 / channels + 1;
    uint8_t *block = out;
    for (; frames >= samples; frames -= samples) {
        if (channels == 1)
            ima_encode_mono(states, sound, samples, block);
        else
            ima_encode_stereo(states, sound, samples, block);
        sound += (size_t)samples * channels;
        block += align;
    }
    if (frames > 0) {
        for (uint32_t c = 0; c < channels; c++)
            ima_encode_short(&states[c], sound + c, channels, (uint32_t)frames, samples, block + 4 * c);
        block += align;
    }
    return (struct plain_coded){(size_t)(block - out), {states[0].chased, states[1].chased}};
}

/* ---- Microsoft ---- */

struct microsoft {
    int c1;
    int c2;
    int delta;
    int newer;
    int older;
};

/* The quotients go toward zero, as C has them. */
static inline int16_t microsoft_decode(struct microsoft *state, int nibble)
{
    int prediction = (state->newer * state->c1 + state->older * state->c2) / 256;
    int signed_nibble = nibble & 8 ? nibble - 16 : nibble;
    int sample = held(prediction + signed_nibble * state->delta, -32768, 32767);
    state->delta = held(state->delta * delta_factors[nibble] / 256, 16, 2796202);
    state->older = state->newer;
    state->newer = sample;
    return (int16_t)sample;
}

static inline struct microsoft microsoft_header(const uint8_t *block, uint32_t channels, uint32_t channel)
{
    const int *pair = pairs[block[channel]];
    const uint8_t *numbers = block + channels + 2 * channel;
    return (struct microsoft){pair[0], pair[1], signed16(numbers), signed16(numbers + 2 * channels),
                              signed16(numbers + 4 * channels)};
}

/* High nibble first. */
static void microsoft_decode_mono(const uint8_t *block, uint32_t frames, int16_t *out)
{
    struct microsoft state = microsoft_header(block, 1, 0);
    const uint8_t *bytes = block + 7;
    *out++ = (int16_t)state.older;
    if (frames == 1)
        return;
    *out++ = (int16_t)state.newer;
    for (uint32_t left = frames - 2; left >= 2; left -= 2) {
        *out++ = microsoft_decode(&state, *bytes >> 4);
        *out++ = microsoft_decode(&state, *bytes & 15);
        bytes++;
    }
    if (frames % 2 == 1)
        *out = microsoft_decode(&state, *bytes >> 4);
}

/* The high nibble is left. */
static void microsoft_decode_stereo(const uint8_t *block, uint32_t frames, int16_t *out)
{
    struct microsoft left = microsoft_header(block, 2, 0);
    struct microsoft right = microsoft_header(block, 2, 1);
    const uint8_t *bytes = block + 14;
    *out++ = (int16_t)left.older;
    *out++ = (int16_t)right.older;
    if (frames == 1)
        return;
    *out++ = (int16_t)left.newer;
    *out++ = (int16_t)right.newer;
    for (uint32_t i = 2; i < frames; i++) {
        *out++ = microsoft_decode(&left, *bytes >> 4);
        *out++ = microsoft_decode(&right, *bytes & 15);
        bytes++;
    }
}

/* ---- Files ---- */

struct part {
    const uint8_t *at;
    size_t bytes;
};

struct wave {
    uint32_t tag;
    uint32_t channels;
    uint32_t rate;
    uint32_t bits;
    uint32_t align;
    uint32_t samples; /* per block */
    size_t frames;
    struct part format;
    struct part fact;
    struct part cues;
    struct part playlist;
    struct part sound;
};

static struct part *part_with_code(struct wave *wave, const uint8_t *code)
{
    if (memcmp(code, "fmt ", 4) == 0)
        return &wave->format;
    if (memcmp(code, "fact", 4) == 0)
        return &wave->fact;
    if (memcmp(code, "cue ", 4) == 0)
        return &wave->cues;
    if (memcmp(code, "plst", 4) == 0)
        return &wave->playlist;
    if (memcmp(code, "data", 4) == 0)
        return &wave->sound;
    return NULL;
}

static bool find_parts(const uint8_t *file, size_t file_bytes, struct wave *wave)
{
    if (file_bytes < 12 || memcmp(file, "RIFF", 4) != 0 || memcmp(file + 8, "WAVE", 4) != 0)
        return false;
    size_t place = 12;
    while (file_bytes - place >= 8) {
        size_t size = number32(file + place + 4);
        size_t left = file_bytes - place - 8;
        if (size > left)
            return false;
        struct part *part = part_with_code(wave, file + place);
        if (part != NULL)
            *part = (struct part){file + place + 8, size};
        /* The last pad may be absent. */
        place += 8 + (size < left ? size + size % 2 : size);
    }
    return wave->format.bytes >= 16 && wave->sound.at != NULL;
}

static bool find_frames(struct wave *wave)
{
    wave->samples = 1;
    if (wave->tag == IMA)
        wave->samples = (wave->align - 4 * wave->channels) * 2 / wave->channels + 1;
    else if (wave->tag == MICROSOFT)
        wave->samples = (wave->align - 7 * wave->channels) * 2 / wave->channels + 2;
    size_t most = wave->sound.bytes / wave->align * wave->samples;
    if (wave->tag == PCM) {
        wave->frames = most;
        return true;
    }
    if (wave->fact.bytes < 4)
        return false;
    wave->frames = number32(wave->fact.at);
    return wave->frames <= most && (wave->frames == most || most - wave->frames < wave->samples);
}

static bool open_wave(const uint8_t *file, size_t file_bytes, struct wave *wave)
{
    memset(wave, 0, sizeof *wave);
    if (!find_parts(file, file_bytes, wave))
        return false;
    wave->tag = number16(wave->format.at);
    wave->channels = number16(wave->format.at + 2);
    wave->rate = number32(wave->format.at + 4);
    wave->align = number16(wave->format.at + 12);
    wave->bits = number16(wave->format.at + 14);
    if (wave->channels < 1 || wave->channels > 2)
        return false;
    if (wave->tag == PCM && wave->align != wave->channels * wave->bits / 8)
        return false;
    if (wave->tag != PCM && (wave->bits != 4 || wave->align < 8 * wave->channels))
        return false;
    return wave->sound.bytes % wave->align == 0 && find_frames(wave);
}

/* ---- Decoding a file ---- */

static bool headers_are_right(const struct wave *wave)
{
    const uint8_t *end = wave->sound.at + wave->sound.bytes;
    for (const uint8_t *block = wave->sound.at; block < end; block += wave->align) {
        for (uint32_t c = 0; c < wave->channels; c++) {
            if (wave->tag == IMA ? block[4 * c + 2] > 88 : block[c] > 6)
                return false;
        }
    }
    return true;
}

static void decode_block(const struct wave *wave, const uint8_t *block, uint32_t frames, int16_t *out)
{
    if (wave->tag == IMA && wave->channels == 1)
        ima_decode_mono(block, frames, out);
    else if (wave->tag == IMA)
        ima_decode_stereo(block, frames, out);
    else if (wave->channels == 1)
        microsoft_decode_mono(block, frames, out);
    else
        microsoft_decode_stereo(block, frames, out);
}

static void decode_blocks(const struct wave *wave, int16_t *out)
{
    const uint8_t *block = wave->sound.at;
    size_t left = wave->frames;
    while (left > 0) {
        uint32_t frames = left < wave->samples ? (uint32_t)left : wave->samples;
        decode_block(wave, block, frames, out);
        block += wave->align;
        out += (size_t)frames * wave->channels;
        left -= frames;
    }
}

static void decode_8_bits(const uint8_t *sound, size_t samples, int16_t *out)
{
    for (size_t i = 0; i < samples; i++)
        out[i] = (int16_t)((sound[i] - 128) * 256);
}

size_t plain_decode(const uint8_t *file, size_t file_bytes, int16_t *out, size_t out_samples)
{
    struct wave wave;
    if (!open_wave(file, file_bytes, &wave) || wave.frames * wave.channels > out_samples)
        return SIZE_MAX;
    if (wave.tag == PCM && wave.bits == 16)
        memcpy(out, wave.sound.at, wave.sound.bytes);
    else if (wave.tag == PCM)
        decode_8_bits(wave.sound.at, wave.sound.bytes, out);
    else if (headers_are_right(&wave))
        decode_blocks(&wave, out);
    else
        return SIZE_MAX;
    return wave.frames;
}

/* ---- Writing and adding ---- */

static uint8_t *put_chunk(uint8_t *at, const char *code, size_t size)
{
    memcpy(at, code, 4);
    put32(at + 4, (uint32_t)size);
    return at + 8;
}

/* The first 36 bytes of a 16-bit PCM file. */
static uint8_t *put_start(uint8_t *out, size_t file_bytes, uint32_t channels, uint32_t rate)
{
    uint8_t *at = put_chunk(out, "RIFF", file_bytes - 8);
    memcpy(at, "WAVE", 4);
    at = put_chunk(at + 4, "fmt ", 16);
    put16(at, PCM);
    put16(at + 2, channels);
    put32(at + 4, rate);
    put32(at + 8, rate * channels * 2);
    put16(at + 12, channels * 2);
    put16(at + 14, 16);
    return at + 16;
}

size_t plain_write(uint32_t channels, uint32_t rate, const uint8_t *sound, size_t sound_bytes, uint8_t *out)
{
    uint8_t *at = put_start(out, 44 + sound_bytes, channels, rate);
    at = put_chunk(at, "data", sound_bytes);
    memcpy(at, sound, sound_bytes);
    return 44 + sound_bytes;
}

/* How many songs a side has; false where its tables cannot take one more. */
static bool count_songs(const struct wave *side, uint32_t *count)
{
    *count = side->cues.bytes >= 4 ? number32(side->cues.at) : 0;
    if (*count == 0)
        return true;
    return *count < MOST_SONGS && side->cues.bytes >= 4 + 24 * *count &&
           side->playlist.bytes >= 4 + 12 * *count;
}

static bool is_listed(struct part cues, uint32_t count, uint32_t number)
{
    for (uint32_t i = 0; i < count; i++) {
        if (number32(cues.at + 4 + 24 * i) == number)
            return true;
    }
    return false;
}

/* The old table with one entry more; the caller fills that in at the answer. */
static uint8_t *put_table(uint8_t *at, const char *code, struct part old, uint32_t count, size_t entry_bytes)
{
    at = put_chunk(at, code, 4 + (count + 1) * entry_bytes);
    put32(at, count + 1);
    if (count > 0)
        memcpy(at + 4, old.at + 4, count * entry_bytes);
    return at + 4 + count * entry_bytes;
}

static uint8_t *put_tables(uint8_t *at, const struct wave *side, uint32_t count, uint32_t number,
                           size_t song_frames)
{
    at = put_table(at, "cue ", side->cues, count, 24);
    put32(at, number);
    put32(at + 4, (uint32_t)side->frames);
    memcpy(at + 8, "data\0\0\0\0\0\0\0", 12);
    put32(at + 20, (uint32_t)side->frames);
    at = put_table(at + 24, "plst", side->playlist, count, 12);
    put32(at, number);
    put32(at + 4, (uint32_t)song_frames);
    put32(at + 8, 1);
    return at + 12;
}

static bool go_together(const struct wave *side, const struct wave *song)
{
    return side->tag == PCM && side->bits == 16 && song->tag == PCM && song->bits == 16 &&
           side->channels == song->channels && side->rate == song->rate && song->frames > 0;
}

size_t plain_add(const uint8_t *side_file, size_t side_bytes, const uint8_t *song_file, size_t song_bytes,
                 uint32_t number, uint8_t *out, size_t out_bytes)
{
    struct wave side;
    struct wave song;
    if (!open_wave(side_file, side_bytes, &side) || !open_wave(song_file, song_bytes, &song))
        return SIZE_MAX;
    uint32_t count;
    if (!go_together(&side, &song) || !count_songs(&side, &count) || is_listed(side.cues, count, number))
        return SIZE_MAX;
    size_t sound_bytes = side.sound.bytes + song.sound.bytes;
    size_t file_bytes = 44 + 24 + 36 * (count + 1) + sound_bytes;
    if (file_bytes > out_bytes)
        return SIZE_MAX;
    uint8_t *at = put_start(out, file_bytes, side.channels, side.rate);
    at = put_tables(at, &side, count, number, song.frames);
    at = put_chunk(at, "data", sound_bytes);
    memcpy(at, side.sound.at, side.sound.bytes);
    memcpy(at + side.sound.bytes, song.sound.at, song.sound.bytes);
    return file_bytes;
}
