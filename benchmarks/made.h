/* Made-up sounds, and WAVE files of them in memory. Whole numbers only and one fixed seed, so that every run
 * and every machine has the same ones. */
#ifndef MADE_H
#define MADE_H

#include <stdbool.h>
#include <stddef.h>
#include <stdint.h>

/* libsndfile chooses this align at this rate, so all codecs are measured with it. */
enum { MADE_RATE = 44100, MADE_ALIGN = 2048 };
enum { MADE_FILE_LIMIT = 1073741824 };
/* Room for all texts that are made up. */
enum { MADE_TITLE_BYTES = 8192 };

enum made_format { MADE_PCM_16, MADE_PCM_8, MADE_IMA, MADE_MICROSOFT };

struct made {
    enum made_format format;
    uint32_t channels;
    uint32_t align;
    bool clipped; /* noise that is often cut off at the bounds of 16 bits, in place of the usual sound */
    uint32_t cues;
    uint32_t titles; /* at most two for each cue */
};

struct made_file {
    uint8_t *bytes;
    size_t count;
    size_t frames;
    uint8_t *sound; /* within the bytes */
    size_t sound_bytes;
};

/* Memory that is there, or the end of the program. */
void *made_room(size_t bytes);

/* The record of a file, as the C interface has it, and the texts of its titles, for which there is room for
 * MADE_TITLE_BYTES. Answers how many bytes of it they take. */
size_t made_record(const struct made *made, size_t frames, uint32_t *record, uint8_t *titles);

size_t made_block_frames(const struct made *made);

/* A sound of so many frames. Past some millions of samples it repeats itself. */
int16_t *made_sound(const struct made *made, size_t frames);

/* A file of so many frames, or of as many as the limit of a file leaves. ADPCM has whole blocks where
 * whole_blocks says so, in which case the frames are rounded down. */
struct made_file made_wave(const struct made *made, size_t frames, bool whole_blocks);

#endif
