/* The library's jobs in straightforward C of our own: what a programmer with -O3 in mind writes, by the
 * rules of document 01, without intrinsics. It is what the library is measured against. */
#ifndef PLAIN_H
#define PLAIN_H

#include <stdbool.h>
#include <stddef.h>
#include <stdint.h>

/* What was encoded: the bytes of the blocks, and the chased samples of each channel. */
struct plain_coded {
    size_t bytes;
    uint32_t chased[2];
};

/* Decodes a WAVE file to 16-bit samples, the channels in turn. Answers the frames, or SIZE_MAX for a file
 * that is damaged, has a block header out of range, or has more samples than there is room for. */
size_t plain_decode(const uint8_t *file, size_t file_bytes, int16_t *out, size_t out_samples);

/* Encodes a sound to IMA blocks of align bytes; out has room for them. */
struct plain_coded plain_encode(const int16_t *sound, size_t frames, uint32_t channels, uint32_t align,
                                uint8_t *out);

/* Writes a 16-bit PCM file of a sound, and answers its bytes; out has room for it. */
size_t plain_write(uint32_t channels, uint32_t rate, const uint8_t *sound, size_t sound_bytes, uint8_t *out);

/* Writes a side with one song more, and answers its bytes, or SIZE_MAX for files that do not go together or
 * are longer than the room. */
size_t plain_add(const uint8_t *side, size_t side_bytes, const uint8_t *song, size_t song_bytes,
                 uint32_t number, uint8_t *out, size_t out_bytes);

#endif
