/* Writing: a record, the texts of its titles and its sound to a file, by the rules of Writing in document 01
 * and by document 02. */
#include "second.h"
#include "second_parts.h"

#include <string.h>

/* The record of its words; what stands past the counts is no part of it. */
static void record_of_words(const uint32_t *words, struct record *record)
{
    clear_record(record);
    record->tag = words[0];
    record->channels = words[1];
    record->rate = words[2];
    record->bits = words[3];
    record->align = words[4];
    record->samples = words[5];
    record->frames = words[6];
    record->cue_count = words[7];
    record->entry_count = words[8];
    for (uint32_t i = 0; i < MOST_ENTRIES && i < record->cue_count; i++) {
        const uint32_t *cue = words + 9 + 3 * i;
        record->cues[i] = (struct cue){cue[0], cue[1], cue[2]};
    }
    for (uint32_t i = 0; i < MOST_ENTRIES && i < record->entry_count; i++) {
        const uint32_t *entry = words + 9 + 3 * MOST_ENTRIES + 3 * i;
        record->entries[i] = (struct entry){entry[0], entry[1], entry[2]};
    }
}

/* The titles of the words, as reading gives them: at most 128, labels and notes, their texts one after the
 * other from the start of the buffer, and within it. */
static bool titles_of_words(const uint32_t *words, const uint8_t *titles, size_t title_bytes,
                            struct record *record)
{
    uint32_t count = words[TRONALHET_TITLES];
    size_t end = 0;
    if (count > MOST_TITLES)
        return false;
    for (uint32_t i = 0; i < count; i++) {
        const uint32_t *title = words + TRONALHET_FIRST_TITLE + TRONALHET_TITLE_WORDS * i;
        size_t length = title[TRONALHET_TITLE_LENGTH];
        if (title[TRONALHET_TITLE_KIND] > NOTE || title[TRONALHET_TITLE_START] != end)
            return false;
        if (length >= title_bytes - end)
            return false;
        record->titles[i] =
            (struct title){title[TRONALHET_TITLE_KIND], title[TRONALHET_TITLE_NAME], titles + end, length + 1};
        end += length + 1;
    }
    record->title_count = count;
    return titles_are_right(record);
}

/* A record that reading could not give with this sound is refused with reading's number. */
static uint32_t record_refusal(const struct record *record, uint64_t sound_bytes)
{
    if (!format_is_right(record))
        return 9;
    if (!sound_is_whole(record, sound_bytes))
        return 10;
    if (!frames_are_right(record, sound_bytes))
        return 11;
    if (!cues_are_right(record))
        return 12;
    if (!entries_are_right(record))
        return 13;
    return 0;
}

static uint32_t format_bytes(const struct record *record)
{
    return record->tag == PCM ? 16 : record->tag == IMA ? 20 : 50;
}

uint64_t written_bytes(const struct record *record, uint64_t sound_bytes)
{
    uint64_t bytes = 12 + 8 + format_bytes(record);
    if (record->tag != PCM)
        bytes += 8 + 4;
    if (record->cue_count > 0)
        bytes += 8 + 4 + 24 * (uint64_t)record->cue_count;
    if (record->entry_count > 0)
        bytes += 8 + 4 + 12 * (uint64_t)record->entry_count;
    if (record->title_count > 0)
        bytes += 8 + title_list_bytes(record);
    return bytes + 8 + sound_bytes + sound_bytes % 2;
}

uint8_t *put_header(uint8_t *at, const char *code, uint32_t size)
{
    memcpy(at, code, 4);
    put32(at + 4, size);
    return at + 8;
}

/* The fmt chunk. The average is rate x align for PCM, else rate x align / samples, rounded down; with
 * samples 1 for PCM both are the same. */
static uint8_t *put_format(uint8_t *at, const struct record *record)
{
    uint32_t size = format_bytes(record);
    uint8_t *format = put_header(at, "fmt ", size);
    put16(format, record->tag);
    put16(format + 2, record->channels);
    put32(format + 4, record->rate);
    put32(format + 8, record->rate * record->align / record->samples);
    put16(format + 12, record->align);
    put16(format + 14, record->bits);
    if (record->tag != PCM) {
        put16(format + 16, size - 18);
        put16(format + 18, record->samples);
    }
    if (record->tag == MICROSOFT) {
        put16(format + 20, 7);
        for (size_t i = 0; i < 7; i++) {
            put16(format + 22 + 4 * i, (uint32_t)second_pairs[i][0]);
            put16(format + 24 + 4 * i, (uint32_t)second_pairs[i][1]);
        }
    }
    return format + size;
}

static uint8_t *put_cues(uint8_t *at, const struct record *record)
{
    at = put_header(at, "cue ", 4 + 24 * record->cue_count);
    put32(at, record->cue_count);
    at += 4;
    for (uint32_t i = 0; i < record->cue_count; i++) {
        put32(at, record->cues[i].name);
        put32(at + 4, record->cues[i].position);
        memcpy(at + 8, "data", 4);
        put32(at + 12, 0);
        put32(at + 16, 0);
        put32(at + 20, record->cues[i].place);
        at += 24;
    }
    return at;
}

static uint8_t *put_entries(uint8_t *at, const struct record *record)
{
    at = put_header(at, "plst", 4 + 12 * record->entry_count);
    put32(at, record->entry_count);
    at += 4;
    for (uint32_t i = 0; i < record->entry_count; i++) {
        put32(at, record->entries[i].name);
        put32(at + 4, record->entries[i].length);
        put32(at + 8, record->entries[i].times);
        at += 12;
    }
    return at;
}

size_t put_before_sound(const struct record *record, uint32_t sound_bytes, uint8_t *out)
{
    uint8_t *at = put_header(out, "RIFF", (uint32_t)(written_bytes(record, sound_bytes) - 8));
    memcpy(at, "WAVE", 4);
    at = put_format(at + 4, record);
    if (record->tag != PCM) {
        at = put_header(at, "fact", 4);
        put32(at, record->frames);
        at += 4;
    }
    if (record->cue_count > 0)
        at = put_cues(at, record);
    if (record->entry_count > 0)
        at = put_entries(at, record);
    if (record->title_count > 0)
        at = put_titles(at, record);
    at = put_header(at, "data", sound_bytes);
    return (size_t)(at - out);
}

tronalhet_answer second_write(const uint32_t *record, size_t record_words, const uint8_t *titles,
                              size_t title_bytes, const uint8_t *sound, size_t sound_bytes, uint8_t *out,
                              size_t out_bytes)
{
    if (record_words < TRONALHET_RECORD_WORDS)
        return (tronalhet_answer){9, 0};
    struct record given;
    record_of_words(record, &given);
    uint32_t refusal = record_refusal(&given, sound_bytes);
    if (refusal != 0)
        return (tronalhet_answer){refusal, 0};
    if (!titles_of_words(record, titles, title_bytes, &given))
        return (tronalhet_answer){21, 0};
    uint64_t bytes = written_bytes(&given, sound_bytes);
    if (bytes > FILE_LIMIT)
        return (tronalhet_answer){1, 0};
    if (bytes > out_bytes)
        return (tronalhet_answer){14, 0};
    size_t place = put_before_sound(&given, (uint32_t)sound_bytes, out);
    if (sound_bytes > 0)
        memcpy(out + place, sound, sound_bytes);
    if (sound_bytes % 2 == 1)
        out[place + sound_bytes] = 0;
    return (tronalhet_answer){0, (size_t)bytes};
}
