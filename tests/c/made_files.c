/* Files: a plan laid out in chunks, and all ways to disturb the chunks and to damage the bytes. */
#include "made.h"

#include <string.h>

static struct made_chunk *new_chunk(struct made_file *file, const char *code)
{
    struct made_chunk *chunk = &file->chunks[file->chunk_count];
    file->chunk_count++;
    memcpy(chunk->code, code, 4);
    chunk->data.count = 0;
    return chunk;
}

static void add_pairs(struct bytes *data)
{
    static const int pairs[14] = {256, 0, 512, -256, 0, 0, 192, 64, 240, 0, 460, -208, 392, -232};
    bytes_add16(data, 7);
    for (size_t i = 0; i < 14; i++)
        bytes_add16(data, (uint32_t)pairs[i]);
}

/* Extra bytes may follow; the extension size of an ADPCM format may count them or not. */
static void add_format(struct luck *luck, const struct plan *plan, struct made_file *file)
{
    struct bytes *data = &new_chunk(file, "fmt ")->data;
    uint32_t extra = luck_one_in(luck, 4) ? luck_below(luck, 25) : 0;
    uint32_t counted = extra == 0 ? 0 : PICK(luck, 0, extra, luck_below(luck, extra));
    bytes_add16(data, plan->tag);
    bytes_add16(data, plan->channels);
    bytes_add32(data, plan->rate);
    bytes_add32(data, plan->tag == 1 ? plan->rate * plan->align : luck_word(luck));
    bytes_add16(data, plan->align);
    bytes_add16(data, plan->bits);
    if (plan->tag == 17 || plan->tag == 2) {
        bytes_add16(data, (plan->tag == 17 ? 2 : 32) + counted);
        bytes_add16(data, plan->samples);
    }
    if (plan->tag == 2)
        add_pairs(data);
    bytes_add_random(data, luck, extra);
}

static void add_fact(struct luck *luck, const struct plan *plan, struct made_file *file)
{
    if (plan->tag == 1 && !luck_one_in(luck, 5))
        return;
    struct bytes *data = &new_chunk(file, "fact")->data;
    bytes_add32(data, plan->tag == 1 ? luck_word(luck) : plan->frames);
    if (luck_one_in(luck, 5))
        bytes_add_random(data, luck, luck_below(luck, 6));
}

static void add_cues(struct luck *luck, const struct plan *plan, struct made_file *file)
{
    if (plan->cue_count == 0 && !luck_one_in(luck, 6))
        return;
    struct bytes *data = &new_chunk(file, "cue ")->data;
    bytes_add32(data, plan->cue_count);
    for (uint32_t i = 0; i < plan->cue_count; i++) {
        bytes_add32(data, plan->cues[i].name);
        bytes_add32(data, plan->cues[i].position);
        bytes_add(data, "data", 4);
        bytes_add32(data, 0);
        bytes_add32(data, 0);
        bytes_add32(data, plan->cues[i].place);
    }
}

static void add_entries(struct luck *luck, const struct plan *plan, struct made_file *file)
{
    if (plan->entry_count == 0 && !luck_one_in(luck, 6))
        return;
    struct bytes *data = &new_chunk(file, "plst")->data;
    bytes_add32(data, plan->entry_count);
    for (uint32_t i = 0; i < plan->entry_count; i++) {
        bytes_add32(data, plan->entries[i].name);
        bytes_add32(data, plan->entries[i].length);
        bytes_add32(data, plan->entries[i].times);
    }
}

/* The list of titles, now and then without the pad of its last chunk; the answer is whether that is so.
 * Without titles there is seldom a list. */
static bool add_titles(struct luck *luck, const struct plan *plan, struct made_file *file)
{
    if (plan->title_count == 0 && !luck_one_in(luck, 12))
        return false;
    return list_of_plan(luck, plan, &new_chunk(file, "LIST")->data, luck_one_in(luck, 8));
}

/* Chunks that the reader skips: other codes, some of them almost known ones, and other lists; and now and then
 * one more list of titles, or what is almost one. */
static void add_skipped(struct luck *luck, struct made_file *file)
{
    static const char codes[9][5] = {"junk", "slnt", "Fmt ", "DATA", "cue", "wavl", "RIFF", "labl", "facu"};
    static const char lists[6][5] = {"INFO", "adtl", "wavL", "xwav", "wav", "adtL"};
    while (luck_one_in(luck, 2) && file->chunk_count < 9) {
        if (luck_one_in(luck, 3)) {
            struct bytes *data = &new_chunk(file, "LIST")->data;
            bytes_add(data, lists[luck_below(luck, 6)], 4);
            bytes_resize(data, PICK(luck, 4, 4, 3, 0, 9));
        } else {
            struct bytes *data = &new_chunk(file, codes[luck_below(luck, 9)])->data;
            bytes_add_random(data, luck, luck_below(luck, 10));
        }
    }
}

static void swap_chunks(struct made_file *file, size_t one, size_t other)
{
    struct made_chunk chunk = file->chunks[one];
    file->chunks[one] = file->chunks[other];
    file->chunks[other] = chunk;
}

static size_t chunk_place(const struct made_file *file, const char *code)
{
    size_t place = 0;
    while (place < file->chunk_count && memcmp(file->chunks[place].code, code, 4) != 0)
        place++;
    return place;
}

/* Any order is allowed as long as fmt comes before data. */
static void shuffle_chunks(struct luck *luck, struct made_file *file)
{
    for (size_t i = 1; i < file->chunk_count; i++)
        swap_chunks(file, i, luck_below(luck, (uint32_t)i + 1));
    size_t format = chunk_place(file, "fmt ");
    size_t data = chunk_place(file, "data");
    if (data < format)
        swap_chunks(file, format, data);
}

static void fix_riff_size(struct bytes *bytes)
{
    if (bytes->count >= 8)
        bytes_put(bytes, 4, 4, (uint32_t)(bytes->count - 8));
}

/* The pad of an odd chunk may have any value, also one that would end a code, and that of the last may be
 * absent. */
static void lay_out(struct luck *luck, struct made_file *file)
{
    struct bytes *bytes = &file->bytes;
    bytes->count = 0;
    bytes_add(bytes, "RIFF\0\0\0\0WAVE", 12);
    for (size_t i = 0; i < file->chunk_count; i++) {
        struct made_chunk *chunk = &file->chunks[i];
        chunk->place = bytes->count;
        bytes_add(bytes, chunk->code, 4);
        bytes_add32(bytes, (uint32_t)chunk->data.count);
        bytes_add(bytes, chunk->data.at, chunk->data.count);
        bool lost = i + 1 == file->chunk_count && luck_one_in(luck, 3);
        if (chunk->data.count % 2 == 1 && !lost) {
            uint8_t pad = (uint8_t)PICK(luck, 0, 0, 'l', luck_word(luck));
            bytes_add(bytes, &pad, 1);
        }
    }
    fix_riff_size(bytes);
}

/* Where a list of titles stands; the number of chunks where there is none. */
static size_t list_place(const struct made_file *file)
{
    size_t place = 0;
    while (place < file->chunk_count) {
        const struct bytes *data = &file->chunks[place].data;
        bool is_list = memcmp(file->chunks[place].code, "LIST", 4) == 0 && data->count >= 4;
        if (is_list && memcmp(data->at, "adtl", 4) == 0)
            break;
        place++;
    }
    return place;
}

static void move_to_end(struct made_file *file, size_t place)
{
    for (size_t i = place; i + 1 < file->chunk_count; i++)
        swap_chunks(file, i, i + 1);
}

/* A list whose last pad is lost is right only at the file's end, where it mostly goes. */
void file_of_plan(struct luck *luck, const struct plan *plan, struct made_file *file)
{
    file->chunk_count = 0;
    add_format(luck, plan, file);
    add_fact(luck, plan, file);
    add_cues(luck, plan, file);
    add_entries(luck, plan, file);
    bool lost = add_titles(luck, plan, file);
    bytes_copy(&new_chunk(file, "data")->data, &plan->sound);
    add_skipped(luck, file);
    if (luck_one_in(luck, 2))
        shuffle_chunks(luck, file);
    if (lost && !luck_one_in(luck, 4))
        move_to_end(file, list_place(file));
    lay_out(luck, file);
}

static void drop_chunk(struct made_file *file, size_t place)
{
    move_to_end(file, place);
    file->chunk_count--;
}

/* A second chunk of the same code, with the same data or with some of it. */
static void double_chunk(struct luck *luck, struct made_file *file, size_t place)
{
    struct made_chunk *copy = new_chunk(file, file->chunks[place].code);
    bytes_copy(&copy->data, &file->chunks[place].data);
    if (luck_one_in(luck, 3))
        bytes_resize(&copy->data, copy->data.count / 2);
    swap_chunks(file, file->chunk_count - 1, luck_below(luck, (uint32_t)file->chunk_count));
}

static void add_wavl(struct luck *luck, struct made_file *file)
{
    bytes_add(&new_chunk(file, "LIST")->data, "wavl", 4);
    bytes_add_random(&file->chunks[file->chunk_count - 1].data, luck, luck_below(luck, 9));
    swap_chunks(file, file->chunk_count - 1, luck_below(luck, (uint32_t)file->chunk_count));
}

/* A list of titles more, which has none. */
static void add_list(struct luck *luck, struct made_file *file)
{
    bytes_add(&new_chunk(file, "LIST")->data, "adtl", 4);
    swap_chunks(file, file->chunk_count - 1, luck_below(luck, (uint32_t)file->chunk_count));
}

static void resize_chunk(struct luck *luck, struct bytes *data)
{
    uint32_t count = (uint32_t)data->count;
    uint32_t wished = PICK(luck, 0, 1, 3, 4, 15, 16, 19, 20, 49, count - 1, count + 1, count - 2, count + 2,
                           count - 4, count + 4, count + 12, count - 12, count + 24, count - 24);
    bytes_resize(data, wished > 100000 ? 0 : wished);
}

void disturb_chunks(struct luck *luck, struct made_file *file)
{
    static const char codes[6][5] = {"fmt ", "data", "fact", "cue ", "plst", "LIST"};
    if (file->chunk_count < 2 || file->chunk_count + 1 >= MOST_CHUNKS)
        return;
    size_t place = luck_below(luck, (uint32_t)file->chunk_count);
    size_t list = list_place(file);
    if (list < file->chunk_count && luck_one_in(luck, 3)) {
        disturb_list(luck, &file->chunks[list].data);
        lay_out(luck, file);
        return;
    }
    switch (luck_below(luck, 9)) {
    case 0:
        drop_chunk(file, place);
        break;
    case 1:
        double_chunk(luck, file, place);
        break;
    case 2:
        swap_chunks(file, place, luck_below(luck, (uint32_t)file->chunk_count));
        break;
    case 3:
        memcpy(file->chunks[place].code, codes[luck_below(luck, 6)], 4);
        break;
    case 4:
        add_wavl(luck, file);
        break;
    case 5:
        add_list(luck, file);
        break;
    default:
        resize_chunk(luck, &file->chunks[place].data);
        break;
    }
    lay_out(luck, file);
}

/* A field of a chunk: its place in the chunk with its header, and its width. */
struct field {
    size_t place;
    size_t width;
};

static struct field format_field(struct luck *luck)
{
    static const struct field fields[9] = {{0, 2},  {2, 2},  {4, 4},  {8, 4}, {12, 2},
                                           {14, 2}, {16, 2}, {18, 2}, {20, 2}};
    if (luck_one_in(luck, 4))
        return (struct field){22 + 2 * (size_t)luck_below(luck, 14), 2};
    return fields[luck_below(luck, 9)];
}

/* The count of a table, or one of the fields of its entries. */
static struct field table_field(struct luck *luck, const struct bytes *data)
{
    if (data->count < 8 || luck_one_in(luck, 6))
        return (struct field){0, 4};
    return (struct field){4 * (size_t)luck_below(luck, (uint32_t)data->count / 4), 4};
}

static struct field chunk_field(struct luck *luck, const struct made_chunk *chunk)
{
    if (luck_one_in(luck, 6))
        return (struct field){PICK(luck, 0, 4, 4, 4), 4};
    struct field field = {0, 4};
    if (memcmp(chunk->code, "fmt ", 4) == 0)
        field = format_field(luck);
    else if (memcmp(chunk->code, "data", 4) != 0)
        field = table_field(luck, &chunk->data);
    field.place += 8;
    return field;
}

/* Sets one field of the file, the RIFF size among them, to a border. */
static void set_field(struct luck *luck, struct made_file *file)
{
    struct field field = {4, 4};
    if (!luck_one_in(luck, 12)) {
        const struct made_chunk *chunk = &file->chunks[luck_below(luck, (uint32_t)file->chunk_count)];
        field = chunk_field(luck, chunk);
        field.place += chunk->place;
    }
    if (field.place + field.width > file->bytes.count)
        return;
    uint32_t right = 0;
    for (size_t i = field.width; i > 0; i--)
        right = 256 * right + file->bytes.at[field.place + i - 1];
    bytes_put(&file->bytes, field.place, field.width, luck_border(luck, right));
}

static void change_byte(struct luck *luck, struct bytes *bytes, size_t place)
{
    uint8_t old = bytes->at[place];
    bytes->at[place] = (uint8_t)PICK(luck, old + 1u, old - 1u, old ^ 128u, old ^ 32u, 0, 255, luck_word(luck));
}

static void change_start(struct luck *luck, struct bytes *bytes)
{
    static const char starts[6][5] = {"RIFX", "riff", "RIFF", "WAVE", "AVI ", "WAVe"};
    size_t place = PICK(luck, 0, 8);
    memcpy(bytes->at + place, starts[luck_below(luck, 6)], 4);
}

/* The chunks' places are known here, so that the chunks must be as they were laid out. */
void damage_bytes(struct luck *luck, struct made_file *file)
{
    struct bytes *bytes = &file->bytes;
    if (bytes->count < 12 || file->chunk_count == 0)
        return;
    switch (luck_below(luck, 10)) {
    case 0:
        change_byte(luck, bytes, luck_below(luck, (uint32_t)bytes->count));
        break;
    case 1:
        bytes_resize(bytes, luck_below(luck, (uint32_t)bytes->count));
        if (luck_one_in(luck, 2))
            fix_riff_size(bytes);
        break;
    case 2:
        bytes_add_random(bytes, luck, 1 + luck_below(luck, 20));
        if (luck_one_in(luck, 2))
            fix_riff_size(bytes);
        break;
    case 3:
        change_start(luck, bytes);
        break;
    default:
        set_field(luck, file);
        break;
    }
}

/* Goes on with a small file: each count of its bytes, as it is and with a fitting RIFF size, and a change
 * at each byte; then with the next small file. */
void wear_file(struct luck *luck, struct worn *worn, struct made_file *file)
{
    struct bytes *bytes = &file->bytes;
    size_t steps = worn->small.count + 1;
    size_t place = worn->next % steps;
    bytes_copy(bytes, &worn->small);
    if (worn->next / steps < 2)
        bytes_resize(bytes, place);
    else if (place < bytes->count)
        change_byte(luck, bytes, place);
    if (worn->next / steps == 1)
        fix_riff_size(bytes);
    worn->next++;
    if (worn->next == 3 * steps)
        worn->next = 0;
}
