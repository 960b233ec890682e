/* The rules of documents 01 and 02 for a record, in the order of their refusal numbers 9 to 13 and 21, and the
 * little-endian numbers. */
#include "second_parts.h"

#include <string.h>

const int32_t second_pairs[7][2] = {{256, 0}, {512, -256}, {0, 0},     {192, 64},
                                    {240, 0}, {460, -208}, {392, -232}};

bool is_code(const uint8_t *at, const char *code)
{
    return memcmp(at, code, 4) == 0;
}

void clear_record(struct record *record)
{
    memset(record, 0, offsetof(struct record, titles));
}

uint32_t number16(const uint8_t *at)
{
    return (uint32_t)at[0] + 256u * at[1];
}

uint32_t number32(const uint8_t *at)
{
    return number16(at) + 65536u * number16(at + 2);
}

int32_t signed16(const uint8_t *at)
{
    int32_t value = (int32_t)number16(at);
    return value < 32768 ? value : value - 65536;
}

void put16(uint8_t *at, uint32_t value)
{
    at[0] = (uint8_t)(value % 256);
    at[1] = (uint8_t)(value / 256 % 256);
}

void put32(uint8_t *at, uint32_t value)
{
    put16(at, value % 65536);
    put16(at + 2, value / 65536);
}

static bool pcm_is_right(const struct record *record)
{
    if (record->bits != 8 && record->bits != 16)
        return false;
    return record->align == record->channels * record->bits / 8 && record->samples == 1;
}

static bool ima_is_right(const struct record *record)
{
    uint32_t channels = record->channels;
    if (record->bits != 4 || record->align % (4 * channels) != 0)
        return false;
    if (record->align < 8 * channels || record->align > 4096)
        return false;
    return record->samples == (record->align - 4 * channels) * 2 / channels + 1;
}

static bool microsoft_is_right(const struct record *record)
{
    uint32_t channels = record->channels;
    if (record->bits != 4 || record->align < 8 * channels || record->align > 4096)
        return false;
    return record->samples == (record->align - 7 * channels) * 2 / channels + 2;
}

/* 9: channels, rate, tag, and the rules of fmt that speak of the record's fields. */
bool format_is_right(const struct record *record)
{
    if (record->channels < 1 || record->channels > 2)
        return false;
    if (record->rate < 1 || record->rate > 192000)
        return false;
    switch (record->tag) {
    case PCM:
        return pcm_is_right(record);
    case IMA:
        return ima_is_right(record);
    case MICROSOFT:
        return microsoft_is_right(record);
    default:
        return false;
    }
}

/* 10: the data length is a multiple of align. */
bool sound_is_whole(const struct record *record, uint64_t sound_bytes)
{
    return sound_bytes % record->align == 0;
}

/* 11: F is length / align for PCM; with B blocks of S samples, F = 0 if B = 0,
 * else (B-1) x S < F <= B x S. */
bool frames_are_right(const struct record *record, uint64_t sound_bytes)
{
    uint64_t blocks = sound_bytes / record->align;
    if (record->tag == PCM)
        return record->frames == blocks;
    if (blocks == 0)
        return record->frames == 0;
    return (blocks - 1) * record->samples < record->frames && record->frames <= blocks * record->samples;
}

/* 12: at most 64 cues, their names differ, each place is below F. */
bool cues_are_right(const struct record *record)
{
    if (record->cue_count > MOST_ENTRIES)
        return false;
    for (uint32_t i = 0; i < record->cue_count; i++) {
        if (record->cues[i].place >= record->frames)
            return false;
        for (uint32_t earlier = 0; earlier < i; earlier++) {
            if (record->cues[earlier].name == record->cues[i].name)
                return false;
        }
    }
    return true;
}

static const struct cue *cue_named(const struct record *record, uint32_t name)
{
    for (uint32_t i = 0; i < record->cue_count; i++) {
        if (record->cues[i].name == name)
            return &record->cues[i];
    }
    return NULL;
}

/* 13: at most 64 entries; name in the cue table, length at least 1, offset + length at most F, times at
 * least 1. */
bool entries_are_right(const struct record *record)
{
    if (record->entry_count > MOST_ENTRIES)
        return false;
    for (uint32_t i = 0; i < record->entry_count; i++) {
        const struct entry *entry = &record->entries[i];
        const struct cue *cue = cue_named(record, entry->name);
        if (cue == NULL || entry->length < 1 || entry->times < 1)
            return false;
        if ((uint64_t)cue->place + entry->length > record->frames)
            return false;
    }
    return true;
}

/* A text has 0 to 255 bytes before its zero, which is last and only there. */
static bool text_is_right(const struct title *title)
{
    if (title->bytes < 1 || title->bytes > 256)
        return false;
    return memchr(title->text, 0, title->bytes) == title->text + title->bytes - 1;
}

/* 21: each title names a cue, its text is right, and a cue has at most one of each kind. */
bool titles_are_right(const struct record *record)
{
    for (uint32_t i = 0; i < record->title_count; i++) {
        const struct title *title = &record->titles[i];
        if (cue_named(record, title->name) == NULL || !text_is_right(title))
            return false;
        for (uint32_t earlier = 0; earlier < i; earlier++) {
            if (record->titles[earlier].kind == title->kind && record->titles[earlier].name == title->name)
                return false;
        }
    }
    return true;
}
