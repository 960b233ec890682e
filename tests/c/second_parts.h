/* What the files of the second implementation share: the record and its rules, parts of a file, and
 * little-endian numbers. */
#ifndef SECOND_PARTS_H
#define SECOND_PARTS_H

#include <stdbool.h>
#include <stddef.h>
#include <stdint.h>

enum { PCM = 1, MICROSOFT = 2, IMA = 17 };
enum { LABEL = 0, NOTE = 1 };
enum { MOST_ENTRIES = 64, MOST_TITLES = 128 };
enum { FILE_LIMIT = 1073741824 };

struct cue {
    uint32_t name;
    uint32_t position;
    uint32_t place;
};

struct entry {
    uint32_t name;
    uint32_t length;
    uint32_t times;
};

/* The text stands in the lent file or in the lent buffer of titles. */
struct title {
    uint32_t kind;
    uint32_t name;
    const uint8_t *text;
    size_t bytes; /* of the text with its zero */
};

struct record {
    uint32_t tag;
    uint32_t channels;
    uint32_t rate;
    uint32_t bits;
    uint32_t align;
    uint32_t samples; /* per block; 1 for PCM */
    uint32_t frames;
    uint32_t cue_count;
    uint32_t entry_count;
    uint32_t title_count;
    struct cue cues[MOST_ENTRIES];
    struct entry entries[MOST_ENTRIES];
    struct title titles[MOST_TITLES]; /* nothing looks at those past the count */
};

/* A part of a lent file. */
struct part {
    bool there;
    const uint8_t *at;
    size_t bytes;
};

/* The state of one IMA channel: its last decoded sample and its index in the table of steps. */
struct ima {
    int32_t sample;
    int32_t index;
};

extern const int32_t second_pairs[7][2];

bool is_code(const uint8_t *at, const char *code);

/* Little-endian numbers. */
uint32_t number16(const uint8_t *at);
uint32_t number32(const uint8_t *at);
int32_t signed16(const uint8_t *at);
void put16(uint8_t *at, uint32_t value);
void put32(uint8_t *at, uint32_t value);

/* The rules of a record that reading and writing share; each answers whether its rule is met. */
bool format_is_right(const struct record *record);
bool sound_is_whole(const struct record *record, uint64_t sound_bytes);
bool frames_are_right(const struct record *record, uint64_t sound_bytes);
bool cues_are_right(const struct record *record);
bool entries_are_right(const struct record *record);
bool titles_are_right(const struct record *record);

/* A record without tables and with nothing else in it. */
void clear_record(struct record *record);

/* Reads a list of titles, the last pad of which may be absent or not; the bytes of their texts with the
 * zeros. */
bool read_titles(struct part list, bool pad_may_lack, struct record *record);
size_t title_texts_bytes(const struct record *record);

/* Reads a file: its refusal, or 0 with its record and its sound. */
uint32_t second_open(const uint8_t *file, size_t file_bytes, struct record *record, struct part *sound);

/* The bytes of a written file with its last pad, and the writing of all that stands before the sound;
 * the answer of the latter is how many bytes that is. */
uint64_t written_bytes(const struct record *record, uint64_t sound_bytes);
size_t put_before_sound(const struct record *record, uint32_t sound_bytes, uint8_t *out);

/* Writing of a chunk's header, and of a list of titles; the answer is the place behind it. The bytes of such
 * a list. */
uint8_t *put_header(uint8_t *at, const char *code, uint32_t size);
uint8_t *put_titles(uint8_t *at, const struct record *record);
uint32_t title_list_bytes(const struct record *record);

/* The step of the table at this state, and the decoding of one code. */
int32_t ima_step(const struct ima *state);
void ima_decode_code(struct ima *state, uint32_t code);

#endif
