/* Reading: the checks of a file in the order of documents 01 and 02, its record, the texts of its titles, and
 * where its sound stands. */
#include "second.h"
#include "second_parts.h"

#include <string.h>

/* The chunks that a file may have once; more than one list of titles counts only after 13. */
struct chunks {
    struct part format;
    struct part data;
    struct part fact;
    struct part cue;
    struct part playlist;
    struct part titles;
    bool more_titles;
};

/* Refusals 1, 2 and 3. */
static uint32_t start_refusal(const uint8_t *file, size_t file_bytes)
{
    if (file_bytes < 12 || file_bytes > FILE_LIMIT)
        return 1;
    if (!is_code(file, "RIFF") || !is_code(file + 8, "WAVE"))
        return 2;
    uint64_t riff_size = number32(file + 4);
    if (8 + riff_size != file_bytes)
        return 3;
    return 0;
}

static struct part *chunk_with_code(struct chunks *chunks, const uint8_t *code)
{
    if (is_code(code, "fmt "))
        return &chunks->format;
    if (is_code(code, "data"))
        return &chunks->data;
    if (is_code(code, "fact"))
        return &chunks->fact;
    if (is_code(code, "cue "))
        return &chunks->cue;
    if (is_code(code, "plst"))
        return &chunks->playlist;
    return NULL;
}

static void take_titles(struct chunks *chunks, struct part list)
{
    if (chunks->titles.there)
        chunks->more_titles = true;
    chunks->titles = list;
}

/* One step of the walk: refusals 4, 5, 6 and 7 of the chunk at *place, which then moves behind it, and past the
 * end where the last pad is absent. */
static uint32_t take_chunk(const uint8_t *file, size_t file_bytes, size_t *place, struct chunks *chunks)
{
    const uint8_t *chunk = file + *place;
    size_t left = file_bytes - *place;
    if (left < 8)
        return 4;
    size_t size = number32(chunk + 4);
    if (size > left - 8)
        return 4;
    struct part *known = chunk_with_code(chunks, chunk);
    if (known != NULL && known->there)
        return 5;
    if (is_code(chunk, "data") && !chunks->format.there)
        return 6;
    if (is_code(chunk, "LIST") && size >= 4 && is_code(chunk + 8, "wavl"))
        return 7;
    struct part data = {true, chunk + 8, size};
    if (known != NULL)
        *known = data;
    if (is_code(chunk, "LIST") && size >= 4 && is_code(chunk + 8, "adtl"))
        take_titles(chunks, data);
    *place += 8 + size + size % 2;
    return 0;
}

/* The extension size is at least `least` and lies within the chunk, which has its field. */
static bool extension_is_right(struct part format, size_t least)
{
    size_t extension = number16(format.at + 16);
    return extension >= least && 18 + extension <= format.bytes;
}

static bool pairs_are_right(struct part format)
{
    if (number16(format.at + 20) != 7)
        return false;
    for (size_t i = 0; i < 7; i++) {
        const uint8_t *pair = format.at + 22 + 4 * i;
        if (signed16(pair) != second_pairs[i][0] || signed16(pair + 2) != second_pairs[i][1])
            return false;
    }
    return true;
}

/* The rules of fmt that speak of the chunk and not of the record's fields. */
static bool format_chunk_is_right(struct part format, struct record *record)
{
    switch (record->tag) {
    case PCM:
        record->samples = 1;
        return number32(format.at + 8) == (uint64_t)record->rate * record->align;
    case IMA:
        if (format.bytes < 20 || !extension_is_right(format, 2))
            return false;
        record->samples = number16(format.at + 18);
        return true;
    case MICROSOFT:
        if (format.bytes < 50 || !extension_is_right(format, 32))
            return false;
        record->samples = number16(format.at + 18);
        return pairs_are_right(format);
    default:
        return false;
    }
}

/* Refusal 9. */
static bool read_format(struct part format, struct record *record)
{
    if (format.bytes < 16)
        return false;
    record->tag = number16(format.at);
    record->channels = number16(format.at + 2);
    record->rate = number32(format.at + 4);
    record->align = number16(format.at + 12);
    record->bits = number16(format.at + 14);
    return format_chunk_is_right(format, record) && format_is_right(record);
}

/* Refusal 11: a PCM fact is checked only for its length, an ADPCM fact gives F. */
static bool read_frames(struct part fact, size_t sound_bytes, struct record *record)
{
    if (fact.there && fact.bytes < 4)
        return false;
    if (record->tag == PCM) {
        record->frames = (uint32_t)(sound_bytes / record->align);
        return true;
    }
    if (!fact.there)
        return false;
    record->frames = number32(fact.at);
    return frames_are_right(record, sound_bytes);
}

/* A table is a count of at most 64, then so many bytes for each entry, and nothing more. */
static bool read_count(struct part table, size_t entry_bytes, uint32_t *count)
{
    *count = 0;
    if (!table.there)
        return true;
    if (table.bytes < 4)
        return false;
    *count = number32(table.at);
    return *count <= MOST_ENTRIES && table.bytes == 4 + entry_bytes * *count;
}

/* Refusal 12. */
static bool read_cues(struct part table, struct record *record)
{
    if (!read_count(table, 24, &record->cue_count))
        return false;
    for (uint32_t i = 0; i < record->cue_count; i++) {
        const uint8_t *cue = table.at + 4 + 24 * i;
        if (!is_code(cue + 8, "data") || number32(cue + 12) != 0 || number32(cue + 16) != 0)
            return false;
        record->cues[i] = (struct cue){number32(cue), number32(cue + 4), number32(cue + 20)};
    }
    return cues_are_right(record);
}

/* Refusal 13. */
static bool read_entries(struct part table, struct record *record)
{
    if (!read_count(table, 12, &record->entry_count))
        return false;
    for (uint32_t i = 0; i < record->entry_count; i++) {
        const uint8_t *entry = table.at + 4 + 12 * i;
        record->entries[i] = (struct entry){number32(entry), number32(entry + 4), number32(entry + 8)};
    }
    return entries_are_right(record);
}

/* Refusals 8 to 13 by number, then 21. */
static uint32_t read_chunks(const struct chunks *chunks, const uint8_t *end, struct record *record)
{
    if (!chunks->format.there || !chunks->data.there)
        return 8;
    if (!read_format(chunks->format, record))
        return 9;
    if (!sound_is_whole(record, chunks->data.bytes))
        return 10;
    if (!read_frames(chunks->fact, chunks->data.bytes, record))
        return 11;
    if (!read_cues(chunks->cue, record))
        return 12;
    if (!read_entries(chunks->playlist, record))
        return 13;
    bool ends_file = chunks->titles.there && chunks->titles.at + chunks->titles.bytes == end;
    if (chunks->more_titles || !read_titles(chunks->titles, ends_file, record))
        return 21;
    return 0;
}

uint32_t second_open(const uint8_t *file, size_t file_bytes, struct record *record, struct part *sound)
{
    struct chunks chunks;
    memset(&chunks, 0, sizeof chunks);
    clear_record(record);
    uint32_t refusal = start_refusal(file, file_bytes);
    size_t place = 12;
    while (refusal == 0 && place < file_bytes)
        refusal = take_chunk(file, file_bytes, &place, &chunks);
    if (refusal == 0)
        refusal = read_chunks(&chunks, file + file_bytes, record);
    *sound = chunks.data;
    return refusal;
}

/* The titles as words, and their texts one after the other. */
static void store_titles(const struct record *read, uint32_t *record, uint8_t *titles)
{
    size_t place = 0;
    record[393] = read->title_count;
    for (uint32_t i = 0; i < read->title_count; i++) {
        const struct title *title = &read->titles[i];
        uint32_t words[4] = {title->kind, title->name, (uint32_t)place, (uint32_t)title->bytes - 1};
        memcpy(record + 394 + 4 * i, words, sizeof words);
        memcpy(titles + place, title->text, title->bytes);
        place += title->bytes;
    }
}

uint32_t second_read(const uint8_t *file, size_t file_bytes, uint32_t *record, size_t record_words,
                     uint8_t *titles, size_t title_bytes)
{
    struct record read;
    struct part sound;
    uint32_t refusal = second_open(file, file_bytes, &read, &sound);
    if (refusal != 0)
        return refusal;
    if (record_words < TRONALHET_RECORD_WORDS || title_bytes < title_texts_bytes(&read))
        return 14;
    uint32_t start[9] = {read.tag,     read.channels, read.rate,      read.bits,       read.align,
                         read.samples, read.frames,   read.cue_count, read.entry_count};
    memset(record, 0, TRONALHET_RECORD_WORDS * sizeof *record);
    memcpy(record, start, sizeof start);
    for (uint32_t i = 0; i < read.cue_count; i++) {
        record[9 + 3 * i] = read.cues[i].name;
        record[10 + 3 * i] = read.cues[i].position;
        record[11 + 3 * i] = read.cues[i].place;
    }
    for (uint32_t i = 0; i < read.entry_count; i++) {
        record[201 + 3 * i] = read.entries[i].name;
        record[202 + 3 * i] = read.entries[i].length;
        record[203 + 3 * i] = read.entries[i].times;
    }
    store_titles(&read, record, titles);
    return 0;
}

tronalhet_answer second_sound(const uint8_t *file, size_t file_bytes, size_t *start, size_t starts)
{
    struct record record;
    struct part sound;
    uint32_t refusal = second_open(file, file_bytes, &record, &sound);
    if (refusal != 0)
        return (tronalhet_answer){refusal, 0};
    if (starts < 1)
        return (tronalhet_answer){14, 0};
    start[0] = (size_t)(sound.at - file);
    return (tronalhet_answer){0, sound.bytes};
}
