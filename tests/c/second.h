/* The second implementation: each function gives what the function of the same name in tronalhet.h
 * gives. It is written from documents 01 and 02 alone and shares no code with the library. */
#ifndef SECOND_H
#define SECOND_H

#include "tronalhet.h"

uint32_t second_read(const uint8_t *file, size_t file_bytes, uint32_t *record, size_t record_words,
                     uint8_t *titles, size_t title_bytes);

tronalhet_answer second_sound(const uint8_t *file, size_t file_bytes, size_t *start, size_t starts);

tronalhet_answer second_write(const uint32_t *record, size_t record_words, const uint8_t *titles,
                              size_t title_bytes, const uint8_t *sound, size_t sound_bytes, uint8_t *out,
                              size_t out_bytes);

tronalhet_answer second_decode(const uint8_t *file, size_t file_bytes, int16_t *out, size_t out_samples);

tronalhet_answer second_decode_block(const uint8_t *file, size_t file_bytes, uint32_t block, int16_t *out,
                                     size_t out_samples);

tronalhet_coded second_encode(const int16_t *sound, size_t sound_samples, uint16_t channels, uint16_t align,
                              uint8_t *out, size_t out_bytes);

tronalhet_answer second_empty(uint16_t channels, uint32_t rate, uint8_t *out, size_t out_bytes);

tronalhet_answer second_add(const uint8_t *side, size_t side_bytes, const uint8_t *song, size_t song_bytes,
                            uint32_t number, uint32_t limit, uint8_t *out, size_t out_bytes);

#endif
