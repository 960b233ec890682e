/* The C interface of Tronalhet, a library for WAVE files whose every function is proved.
 *
 * Each pair of a pointer and a size_t is a lent buffer and how many elements it has; with 0 elements
 * the pointer may be null. A buffer that is written to overlaps no other that is lent with it.
 *
 * Every function answers every input. A refusal is its number below, and 0 is success. Where a function
 * refuses, it has written nothing, and the other numbers that it answers are 0. Where it succeeds, its
 * output stands from the start of the lent buffer, and the rest of that is as it was.
 *
 * Link with -ltronalhet: the archive is installed as libtronalhet.a. The build leaves it as
 * target/staticlib/libwave_c.a. It is for x86-64. examples/side.c is a program to start from. */
#ifndef TRONALHET_H
#define TRONALHET_H

#include <stddef.h>
#include <stdint.h>

#ifdef __cplusplus
extern "C" {
#endif

#define TRONALHET_VERSION "0.3.0"
#define TRONALHET_VERSION_MAJOR 0
#define TRONALHET_VERSION_MINOR 3
#define TRONALHET_VERSION_PATCH 0

/* The most bytes of a file, and the most samples of a sound that is encoded. */
#define TRONALHET_MOST_BYTES 1073741824
#define TRONALHET_MOST_SAMPLES 536870912

/* Success, and the refusals. */
enum tronalhet_refusal {
    TRONALHET_ACCEPTED = 0,
    TRONALHET_LENGTH_OUT_OF_RANGE = 1,      /* under 12 bytes, or over the limit */
    TRONALHET_NOT_WAVE = 2,                 /* not RIFF, or not WAVE */
    TRONALHET_RIFF_SIZE_WRONG = 3,          /* the RIFF size is not that of the file */
    TRONALHET_CHUNK_PAST_THE_END = 4,       /* a chunk passes the end */
    TRONALHET_SECOND_OF_ITS_KIND = 5,       /* a second fmt, data, fact, cue or plst */
    TRONALHET_DATA_BEFORE_FORMAT = 6,       /* data before any fmt */
    TRONALHET_WAVE_LIST = 7,                /* a wavl list */
    TRONALHET_FORMAT_OR_DATA_MISSING = 8,   /* no fmt or no data */
    TRONALHET_FORMAT_WRONG = 9,             /* channels, rate, tag or any rule of fmt not met; a song that
                                             * does not suit the side */
    TRONALHET_NOT_WHOLE_FRAMES = 10,        /* sound data not whole frames or blocks */
    TRONALHET_FACT_WRONG = 11,              /* fact absent where needed, too short, or its count wrong */
    TRONALHET_CUES_WRONG = 12,              /* cue table wrong */
    TRONALHET_PLAYLIST_WRONG = 13,          /* playlist wrong */
    TRONALHET_OUTPUT_TOO_SMALL = 14,        /* lent output too small */
    TRONALHET_BLOCK_HEADER_WRONG = 15,      /* an ADPCM block header holds an index out of range */
    TRONALHET_SONG_EMPTY_OR_DIFFERENT = 16, /* song without frames, or its number listed with other sound */
    TRONALHET_NO_PLACE_ON_SIDE = 17,        /* 64 songs, or more frames than the limit */
    TRONALHET_ALREADY_LISTED = 18,          /* already listed, same sound: nothing to do */
    TRONALHET_NOT_A_SIDE = 19,              /* not a side */
    TRONALHET_NO_SUCH_BLOCK = 20,           /* no such block */
    TRONALHET_TITLES_WRONG = 21             /* a wrong list of titles or title */
};

/* A record travels as words. These are their places: a later version appends words and moves none. */
#define TRONALHET_TAG 0      /* TRONALHET_PCM, TRONALHET_MICROSOFT or TRONALHET_IMA */
#define TRONALHET_CHANNELS 1 /* 1 or 2 */
#define TRONALHET_RATE 2     /* frames a second, 1 to 192,000 */
#define TRONALHET_BITS 3     /* of a sample: 8 or 16 for PCM, else 4 */
#define TRONALHET_ALIGN 4    /* bytes of a frame of PCM, or of a block */
#define TRONALHET_SAMPLES 5  /* per block and channel; 1 for PCM */
#define TRONALHET_FRAMES 6
#define TRONALHET_CUES 7    /* how many there are */
#define TRONALHET_ENTRIES 8 /* how many the playlist has */
#define TRONALHET_FIRST_CUE 9
#define TRONALHET_FIRST_ENTRY 201
#define TRONALHET_TITLES 393 /* how many there are */
#define TRONALHET_FIRST_TITLE 394
#define TRONALHET_RECORD_WORDS 906

/* Cue i starts at word TRONALHET_FIRST_CUE + TRONALHET_CUE_WORDS * i, counted from 0. */
#define TRONALHET_CUE_WORDS 3
#define TRONALHET_CUE_NAME 0     /* the number of a song on a side */
#define TRONALHET_CUE_POSITION 1 /* kept as it was read */
#define TRONALHET_CUE_PLACE 2    /* in frames from the start of the sound */

/* Entry i starts at word TRONALHET_FIRST_ENTRY + TRONALHET_ENTRY_WORDS * i. */
#define TRONALHET_ENTRY_WORDS 3
#define TRONALHET_ENTRY_NAME 0   /* of the cue where it starts */
#define TRONALHET_ENTRY_LENGTH 1 /* in frames */
#define TRONALHET_ENTRY_TIMES 2  /* how often it is played */

/* Title i starts at word TRONALHET_FIRST_TITLE + TRONALHET_TITLE_WORDS * i. Its text stands in a buffer
 * beside the record and is closed by a zero. The texts stand there in the order of the file, one after the
 * other from the start. */
#define TRONALHET_TITLE_WORDS 4
#define TRONALHET_TITLE_KIND 0   /* TRONALHET_LABEL or TRONALHET_NOTE */
#define TRONALHET_TITLE_NAME 1   /* of its cue */
#define TRONALHET_TITLE_START 2  /* where its text starts in that buffer */
#define TRONALHET_TITLE_LENGTH 3 /* of its text, in bytes before the zero: 0 to 255 */

/* There is room for so many cues, for so many entries, and for so many titles; words past the counts are
 * 0. */
#define TRONALHET_MOST_ENTRIES 64
#define TRONALHET_MOST_TITLES 128

/* The most bytes of all texts with their zeros: with room for so many, no file's titles are too long. */
#define TRONALHET_MOST_TITLE_BYTES 32768

/* Kinds of a title. */
#define TRONALHET_LABEL 0
#define TRONALHET_NOTE 1

/* Tags. */
#define TRONALHET_PCM 1
#define TRONALHET_MICROSOFT 2
#define TRONALHET_IMA 17

typedef struct {
    uint32_t refusal;
    size_t n;
} tronalhet_answer;

typedef struct {
    uint32_t refusal;
    uint32_t left;  /* chased samples of the left or only channel */
    uint32_t right; /* and of the right one; 0 where there is none */
    size_t n;       /* bytes of the blocks */
} tronalhet_coded;

/* The record of a file, and the texts of its titles. 14, after the reader's refusals, where there is no room
 * for its words or for the texts; then both are as they were. No other function needs room for texts. */
uint32_t tronalhet_read(const uint8_t *file, size_t file_bytes, uint32_t *record, size_t record_words,
                        uint8_t *titles, size_t title_bytes);

/* Where a file's sound starts, in start[0], and how many bytes it has, in n. 14, after the reader's
 * refusals, where start has no element. */
tronalhet_answer tronalhet_sound(const uint8_t *file, size_t file_bytes, size_t *start, size_t starts);

/* Writes a file of a record, the texts of its titles and its sound; n is the bytes of the file. A record of
 * fewer than 906 words is 9, and a word that does not fit its field is refused by the rule that it breaks: 21
 * for titles that are not as tronalhet_read gives them. Bytes of titles past the last text are no part of
 * it. */
tronalhet_answer tronalhet_write(const uint32_t *record, size_t record_words, const uint8_t *titles,
                                 size_t title_bytes, const uint8_t *sound, size_t sound_bytes, uint8_t *out,
                                 size_t out_bytes);

/* Decodes a whole file to 16-bit samples, the channels in turn; n is the frames. */
tronalhet_answer tronalhet_decode(const uint8_t *file, size_t file_bytes, int16_t *out, size_t out_samples);

/* Decodes a block of an ADPCM file, counted from 0, with its fill; n is the frames of a block. */
tronalhet_answer tronalhet_decode_block(const uint8_t *file, size_t file_bytes, uint32_t block, int16_t *out,
                                        size_t out_samples);

/* Encodes a sound, its channels in turn, to IMA blocks of align bytes. */
tronalhet_coded tronalhet_encode(const int16_t *sound, size_t sound_samples, uint16_t channels, uint16_t align,
                                 uint8_t *out, size_t out_bytes);

/* Writes a side without songs, which has TRONALHET_EMPTY_BYTES; n says so too. 9 unless there are 1 or 2
 * channels and the rate is 1 to 192,000; then 14 where there is no room. */
#define TRONALHET_EMPTY_BYTES 44
tronalhet_answer tronalhet_empty(uint16_t channels, uint32_t rate, uint8_t *out, size_t out_bytes);

/* Writes a side with one song more; n is the bytes of the new side, at most
 * side_bytes + song_bytes + TRONALHET_ADDED_BYTES. limit is the most frames of a side. The side keeps its
 * titles and takes none of the song's. */
#define TRONALHET_ADDED_BYTES 16
tronalhet_answer tronalhet_add(const uint8_t *side, size_t side_bytes, const uint8_t *song, size_t song_bytes,
                               uint32_t number, uint32_t limit, uint8_t *out, size_t out_bytes);

#ifdef __cplusplus
}
#endif

#endif
