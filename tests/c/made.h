/* The generator of inputs: from a seed and a case number it makes what one call takes, valid or with
 * faults. The same seed gives the same cases. */
#ifndef MADE_H
#define MADE_H

#include <stdbool.h>
#include <stddef.h>
#include <stdint.h>

/* The random numbers: each case starts its own row of them. */
struct luck {
    uint64_t state;
};

struct luck luck_of(uint64_t seed, uint64_t number);
uint32_t luck_word(struct luck *luck);
uint32_t luck_below(struct luck *luck, uint32_t end);
bool luck_one_in(struct luck *luck, uint32_t times);
uint32_t luck_pick(struct luck *luck, const uint32_t *values, size_t count);

/* One of the listed values. */
#define PICK(luck, ...)                                                                                        \
    luck_pick(luck, (const uint32_t[]){__VA_ARGS__}, sizeof((const uint32_t[]){__VA_ARGS__}) / sizeof(uint32_t))

/* A value at a border of some rule, or next to the right one. */
uint32_t luck_border(struct luck *luck, uint32_t right);

/* Bytes that grow by need. */
struct bytes {
    uint8_t *at;
    size_t count;
    size_t room;
};

void bytes_resize(struct bytes *bytes, size_t count); /* new bytes are zero */
void bytes_add(struct bytes *bytes, const void *more, size_t count);
void bytes_add16(struct bytes *bytes, uint32_t value);
void bytes_add32(struct bytes *bytes, uint32_t value);
void bytes_add_random(struct bytes *bytes, struct luck *luck, size_t count);
void bytes_copy(struct bytes *to, const struct bytes *from);
void bytes_put(struct bytes *bytes, size_t place, size_t width, uint32_t value);
void bytes_free(struct bytes *bytes);

enum { MADE_ENTRIES = 65 }; /* one more than a table may have */
enum { MADE_TITLES = 131 }; /* some more than a record may have */

struct made_cue {
    uint32_t name;
    uint32_t position;
    uint32_t place;
};

struct made_entry {
    uint32_t name;
    uint32_t length;
    uint32_t times;
};

struct made_title {
    uint32_t kind;
    uint32_t name;
    uint32_t start;  /* of its text in the texts of the plan */
    uint32_t length; /* before its zero */
};

/* What a file is to say, before it is laid out in chunks or words. */
struct plan {
    uint32_t tag;
    uint32_t channels;
    uint32_t rate;
    uint32_t bits;
    uint32_t align;
    uint32_t samples;
    uint32_t blocks;
    uint32_t frames;
    uint32_t cue_count;
    uint32_t entry_count;
    uint32_t title_count;
    struct made_cue cues[MADE_ENTRIES];
    struct made_entry entries[MADE_ENTRIES];
    struct made_title titles[MADE_TITLES];
    struct bytes texts; /* of the titles, with their zeros, one after the other */
    struct bytes sound;
};

void make_plan(struct luck *luck, struct plan *plan, bool faulty);
void make_side_plan(struct luck *luck, struct plan *plan);
void break_side_plan(struct luck *luck, struct plan *plan);
void choose_tables(struct luck *luck, struct plan *plan);
void choose_titles(struct luck *luck, struct plan *plan);
void break_titles(struct luck *luck, struct plan *plan);

/* The data of a list of titles. The answer is whether the pad of its last chunk is lost, which may be
 * wished. */
bool list_of_plan(struct luck *luck, const struct plan *plan, struct bytes *list, bool lost);
void disturb_list(struct luck *luck, struct bytes *list);

enum { MOST_CHUNKS = 16 };

struct made_chunk {
    char code[4];
    struct bytes data;
    size_t place; /* of its header in the file */
};

struct made_file {
    size_t chunk_count;
    struct made_chunk chunks[MOST_CHUNKS];
    struct bytes bytes;
};

void file_of_plan(struct luck *luck, const struct plan *plan, struct made_file *file);
void disturb_chunks(struct luck *luck, struct made_file *file);
void damage_bytes(struct luck *luck, struct made_file *file);

/* A small file that is cut at every byte, and changed at every byte, one after the other. */
struct worn {
    struct bytes small;
    size_t next;
};

void wear_file(struct luck *luck, struct worn *worn, struct made_file *file);

enum operation { READ, SOUND, WRITE, DECODE, DECODE_BLOCK, ENCODE, EMPTY, ADD, OPERATIONS };
enum { CALL_WORDS = 920 };

/* What one call takes, without its output. */
struct call {
    enum operation operation;
    struct bytes file; /* for writing the sound, for adding the side */
    struct bytes song;
    struct bytes samples; /* 16 bits each */
    struct bytes titles;  /* their texts, for writing */
    uint32_t words[CALL_WORDS];
    size_t word_count;
    uint16_t channels;
    uint16_t align;
    uint32_t rate;
    uint32_t block;
    uint32_t number;
    uint32_t limit;
    bool null_when_empty;
    bool on_growing_side;
};

/* The generator's memory: its work space, and what goes on from case to case. */
struct maker {
    uint64_t seed;
    struct worn worn[OPERATIONS];
    struct plan plan;
    struct plan song_plan;
    struct made_file file;
    struct made_file song;
    struct plan grown_plan; /* a side that grows by the songs added to it */
    struct bytes grown;
};

void make_call(struct maker *maker, uint64_t number, struct luck *luck, struct call *call);
void keep_grown(struct maker *maker, const uint8_t *side, size_t side_bytes);
void maker_free(struct maker *maker);
void call_free(struct call *call);

#endif
