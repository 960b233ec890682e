/* Titles: the list adtl of document 02 as it stands in a file, and as it is written. */
#include "second_parts.h"

#include <string.h>

/* The kind of a title with this code; any other chunk of a list has none, and is skipped. */
static bool is_title(const uint8_t *code, uint32_t *kind)
{
    *kind = is_code(code, "note") ? NOTE : LABEL;
    return *kind == NOTE || is_code(code, "labl");
}

/* One step of the walk over a list: the chunk at *place, which then moves behind it, and past the list's end
 * where the last pad is absent. Neither the header nor the data of a chunk pass the list's end; its pad does
 * only where that may be absent. */
static bool take_inner_chunk(struct part list, bool pad_may_lack, size_t *place, struct record *record)
{
    const uint8_t *chunk = list.at + *place;
    size_t left = list.bytes - *place;
    if (left < 8)
        return false;
    size_t size = number32(chunk + 4);
    if (size > left - 8)
        return false;
    if (size % 2 == 1 && size == left - 8 && !pad_may_lack)
        return false;
    *place += 8 + size + size % 2;
    uint32_t kind;
    if (!is_title(chunk, &kind))
        return true;
    if (size < 5 || record->title_count == MOST_TITLES)
        return false;
    record->titles[record->title_count] = (struct title){kind, number32(chunk + 8), chunk + 12, size - 4};
    record->title_count++;
    return true;
}

bool read_titles(struct part list, bool pad_may_lack, struct record *record)
{
    if (!list.there)
        return true;
    size_t place = 4;
    while (place < list.bytes) {
        if (!take_inner_chunk(list, pad_may_lack, &place, record))
            return false;
    }
    return titles_are_right(record);
}

size_t title_texts_bytes(const struct record *record)
{
    size_t bytes = 0;
    for (uint32_t i = 0; i < record->title_count; i++)
        bytes += record->titles[i].bytes;
    return bytes;
}

/* A title is written as its name, its text and a pad where both together are odd. */
static uint32_t title_bytes(const struct title *title)
{
    return (uint32_t)(4 + title->bytes);
}

uint32_t title_list_bytes(const struct record *record)
{
    uint32_t bytes = 4;
    for (uint32_t i = 0; i < record->title_count; i++) {
        uint32_t size = title_bytes(&record->titles[i]);
        bytes += 8 + size + size % 2;
    }
    return bytes;
}

uint8_t *put_titles(uint8_t *at, const struct record *record)
{
    at = put_header(at, "LIST", title_list_bytes(record));
    memcpy(at, "adtl", 4);
    at += 4;
    for (uint32_t i = 0; i < record->title_count; i++) {
        const struct title *title = &record->titles[i];
        at = put_header(at, title->kind == LABEL ? "labl" : "note", title_bytes(title));
        put32(at, title->name);
        memcpy(at + 4, title->text, title->bytes);
        at += title_bytes(title);
        if (title_bytes(title) % 2 == 1) {
            *at = 0;
            at++;
        }
    }
    return at;
}
