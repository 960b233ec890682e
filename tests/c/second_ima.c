/* Encoding: 16-bit samples to IMA blocks, with the count of the chased samples. */
#include "second.h"
#include "second_parts.h"

#include <string.h>

enum { MOST_SAMPLES = 536870912 };

/* The sound that is encoded, its channels in turn. */
struct given_sound {
    const int16_t *samples;
    size_t frames;
    uint32_t channels;
};

/* The code of d at a step. These quotients are rounded down too. */
static uint32_t code_of(int32_t d, int32_t step)
{
    uint32_t code = 0;
    if (d < 0) {
        code = 8;
        d = -d;
    }
    if (d >= step) {
        code += 4;
        d -= step;
    }
    if (d >= step / 2) {
        code += 2;
        d -= step / 2;
    }
    if (d >= step / 4)
        code += 1;
    return code;
}

static bool is_chased(int32_t d, int32_t step)
{
    return (d < 0 ? -d : d) >= 2 * step;
}

/* A frame past the end is the last frame again. */
static int32_t sample_at(const struct given_sound *sound, size_t frame, uint32_t channel)
{
    size_t held = frame < sound->frames ? frame : sound->frames - 1;
    return sound->samples[held * sound->channels + channel];
}

/* Four bytes of each channel in turn, low nibble first; the block is zero before. */
static void put_code(uint8_t *block, uint32_t channels, uint32_t channel, uint32_t sample, uint32_t code)
{
    uint32_t group = (sample - 1) / 8;
    uint32_t within = (sample - 1) % 8;
    uint8_t *byte = block + 4 * channels + 4 * channels * group + 4 * channel + within / 2;
    *byte = (uint8_t)(*byte + (within % 2 == 0 ? code : 16 * code));
}

/* One channel of the block that starts at a frame; carries the index on and answers how many samples of
 * the sound, not of the fill, were chased. */
static uint32_t encode_channel(const struct given_sound *sound, size_t first, uint32_t channel,
                               uint32_t samples, int32_t *index, uint8_t *block)
{
    struct ima state = {sample_at(sound, first, channel), *index};
    put16(block + 4 * channel, (uint32_t)state.sample);
    block[4 * channel + 2] = (uint8_t)state.index;
    uint32_t chased = 0;
    for (uint32_t i = 1; i < samples; i++) {
        int32_t d = sample_at(sound, first + i, channel) - state.sample;
        int32_t step = ima_step(&state);
        uint32_t code = code_of(d, step);
        if (first + i < sound->frames && is_chased(d, step))
            chased++;
        put_code(block, sound->channels, channel, i, code);
        ima_decode_code(&state, code);
    }
    *index = state.index;
    return chased;
}

static bool blocks_are_right(uint32_t channels, uint32_t align)
{
    if (channels < 1 || channels > 2)
        return false;
    return align % (4 * channels) == 0 && align >= 8 * channels && align <= 4096;
}

tronalhet_coded second_encode(const int16_t *sound, size_t sound_samples, uint16_t channels, uint16_t align,
                              uint8_t *out, size_t out_bytes)
{
    if (sound_samples > MOST_SAMPLES)
        return (tronalhet_coded){1, 0, 0, 0};
    if (!blocks_are_right(channels, align))
        return (tronalhet_coded){9, 0, 0, 0};
    if (sound_samples % channels != 0)
        return (tronalhet_coded){10, 0, 0, 0};
    struct given_sound given = {sound, sound_samples / channels, channels};
    uint32_t samples = (align - 4u * channels) * 2 / channels + 1;
    size_t blocks = (given.frames + samples - 1) / samples;
    if (blocks * align > out_bytes)
        return (tronalhet_coded){14, 0, 0, 0};
    uint32_t chased[2] = {0, 0};
    int32_t index[2] = {0, 0};
    for (size_t i = 0; i < blocks; i++) {
        uint8_t *block = out + i * align;
        memset(block, 0, align);
        for (uint32_t channel = 0; channel < channels; channel++)
            chased[channel] += encode_channel(&given, i * samples, channel, samples, &index[channel], block);
    }
    return (tronalhet_coded){0, chased[0], chased[1], blocks * align};
}
