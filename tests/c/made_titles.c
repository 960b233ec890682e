/* Titles: right ones and faulty ones, the list of them as it stands in a file, and ways to disturb that. */
#include "made.h"

#include <string.h>

enum { MOST_INNER = 300 };

static uint32_t choose_length(struct luck *luck)
{
    if (luck_one_in(luck, 12))
        return PICK(luck, 252, 253, 254, 255, luck_below(luck, 256));
    return luck_below(luck, 10);
}

/* A title behind the others: a text of so many bytes, none of them zero, and the zero that closes it. */
static void add_title(struct luck *luck, struct plan *plan, uint32_t kind, uint32_t name, uint32_t length)
{
    struct bytes *texts = &plan->texts;
    size_t start = texts->count;
    uint8_t zero = 0;
    bytes_add_random(texts, luck, length);
    for (size_t i = start; i < texts->count; i++) {
        if (texts->at[i] == 0)
            texts->at[i] = (uint8_t)(1 + luck_below(luck, 255));
    }
    bytes_add(texts, &zero, 1);
    plan->titles[plan->title_count] = (struct made_title){kind, name, (uint32_t)start, length};
    plan->title_count++;
}

static uint32_t choose_title_count(struct luck *luck, uint32_t most)
{
    if (luck_one_in(luck, 12))
        return most;
    uint32_t count = luck_one_in(luck, 6) ? luck_below(luck, most + 1) : 1 + luck_below(luck, 4);
    return count < most ? count : most;
}

/* Some of the labels and notes that the plan's cues can have, in any order. */
void choose_titles(struct luck *luck, struct plan *plan)
{
    uint32_t every[128];
    uint32_t most = 2 * (plan->cue_count < 64 ? plan->cue_count : 64);
    plan->title_count = 0;
    plan->texts.count = 0;
    if (most == 0 || luck_one_in(luck, 3))
        return;
    for (uint32_t i = 0; i < most; i++)
        every[i] = i;
    uint32_t count = choose_title_count(luck, most);
    for (uint32_t i = 0; i < count; i++) {
        uint32_t other = i + luck_below(luck, most - i);
        uint32_t title = every[other];
        every[other] = every[i];
        add_title(luck, plan, title % 2, plan->cues[title / 2].name, choose_length(luck));
    }
}

/* The last title with a text of another length. */
static void rewrite_last(struct luck *luck, struct plan *plan, uint32_t length)
{
    plan->title_count--;
    struct made_title last = plan->titles[plan->title_count];
    plan->texts.count = last.start;
    add_title(luck, plan, last.kind, last.name, length);
}

/* More titles than there may be, or as many, but some of one kind and cue. */
static void add_too_many(struct luck *luck, struct plan *plan)
{
    uint32_t wished = PICK(luck, 128, 129, 129, 130);
    while (plan->title_count < wished) {
        uint32_t name = plan->cues[luck_below(luck, plan->cue_count)].name;
        add_title(luck, plan, luck_below(luck, 2), name, luck_below(luck, 3));
    }
}

/* A zero where none may be, or none where one must be; or a kind that there is not. */
static void break_title(struct luck *luck, struct plan *plan, struct made_title *title)
{
    uint32_t end = title->start + title->length;
    switch (luck_below(luck, 4)) {
    case 0:
        title->kind = PICK(luck, 2, 3, 0xFFFFFFFF);
        break;
    case 1:
        plan->texts.at[end] = (uint8_t)PICK(luck, 1, 32, 255);
        break;
    default:
        plan->texts.at[title->start + luck_below(luck, title->length + 1)] = 0;
        break;
    }
}

/* One title is wrong, or there is one too many. Without cues any title is. */
void break_titles(struct luck *luck, struct plan *plan)
{
    uint32_t first = plan->cue_count == 0 ? 7 : plan->cues[0].name;
    if (plan->title_count == 0)
        add_title(luck, plan, luck_below(luck, 2), first, choose_length(luck));
    struct made_title *title = &plan->titles[luck_below(luck, plan->title_count)];
    switch (luck_below(luck, 6)) {
    case 0:
        title->name += PICK(luck, 1, 65536, 0x1000000, 0xFFFFFFFF, luck_word(luck));
        break;
    case 1:
        add_title(luck, plan, title->kind, title->name, choose_length(luck));
        break;
    case 2:
        if (plan->cue_count > 0 && luck_one_in(luck, 4))
            add_too_many(luck, plan);
        else
            title->kind = 1 - title->kind;
        break;
    case 3:
        rewrite_last(luck, plan, PICK(luck, 253, 254, 255, 256, 257, 258, 300, 512));
        break;
    default:
        break_title(luck, plan, title);
        break;
    }
}

/* A chunk of a list, whose pad may have any value. */
static void add_inner(struct luck *luck, struct bytes *list, const char *code, const struct bytes *data)
{
    bytes_add(list, code, 4);
    bytes_add32(list, (uint32_t)data->count);
    bytes_add(list, data->at, data->count);
    if (data->count % 2 == 1) {
        uint8_t pad = (uint8_t)PICK(luck, 0, 0, luck_word(luck));
        bytes_add(list, &pad, 1);
    }
}

/* Chunks that are no titles, some of them almost; answers whether the last one is odd, if there is one. */
static bool add_inner_skipped(struct luck *luck, struct bytes *list, struct bytes *data, bool odd)
{
    static const char codes[7][5] = {"ltxt", "file", "labL", "Note", "LIST", "rgn ", "data"};
    while (luck_one_in(luck, 4)) {
        bool large = luck_one_in(luck, 20);
        data->count = 0;
        bytes_add_random(data, luck, large ? PICK(luck, 259, 260, 261, 300) : luck_below(luck, 9));
        add_inner(luck, list, codes[luck_below(luck, 7)], data);
        odd = data->count % 2 == 1;
    }
    return odd;
}

/* The list of a plan's titles; where its last chunk is odd, that chunk's pad may be lost. */
bool list_of_plan(struct luck *luck, const struct plan *plan, struct bytes *list, bool lost)
{
    static const char *const codes[3] = {"labl", "note", "ltxt"};
    struct bytes data = {NULL, 0, 0};
    list->count = 0;
    bytes_add(list, "adtl", 4);
    bool odd = add_inner_skipped(luck, list, &data, false);
    for (uint32_t i = 0; i < plan->title_count; i++) {
        const struct made_title *title = &plan->titles[i];
        data.count = 0;
        bytes_add32(&data, title->name);
        bytes_add(&data, plan->texts.at + title->start, title->length + 1);
        add_inner(luck, list, codes[title->kind < 2 ? title->kind : 2], &data);
        odd = add_inner_skipped(luck, list, &data, data.count % 2 == 1);
    }
    bytes_free(&data);
    if (lost && odd)
        list->count--;
    return lost && odd;
}

static uint32_t number_at(const struct bytes *bytes, size_t place)
{
    uint32_t value = 0;
    for (size_t i = 4; i > 0; i--)
        value = 256 * value + bytes->at[place + i - 1];
    return value;
}

/* The places of the headers of a list's chunks, as far as they go, and behind them that of the end. */
static size_t inner_places(const struct bytes *list, size_t places[MOST_INNER + 1])
{
    size_t count = 0;
    size_t place = 4;
    while (count < MOST_INNER && place + 8 <= list->count) {
        size_t size = number_at(list, place + 4);
        places[count] = place;
        count++;
        if (size > list->count - place - 8)
            break;
        place += 8 + size + size % 2;
    }
    places[count] = place < list->count ? place : list->count;
    return count;
}

/* One chunk of a list once more at its end, or no more. */
static void double_or_drop(struct luck *luck, struct bytes *list, size_t from, size_t to)
{
    if (luck_one_in(luck, 2)) {
        struct bytes copy = {NULL, 0, 0};
        bytes_add(&copy, list->at + from, to - from);
        bytes_add(list, copy.at, copy.count);
        bytes_free(&copy);
        return;
    }
    memmove(list->at + from, list->at + to, list->count - to);
    list->count -= to - from;
}

/* Some bytes more or less at the end of a list. */
static void cut_or_grow(struct luck *luck, struct bytes *list)
{
    size_t count = list->count;
    if (luck_one_in(luck, 2))
        bytes_add_random(list, luck, 1 + luck_below(luck, 9));
    else if (luck_one_in(luck, 2))
        bytes_resize(list, count > 12 ? count - 1 - luck_below(luck, 8) : 4);
    else
        bytes_resize(list, luck_below(luck, (uint32_t)count + 1));
}

void disturb_list(struct luck *luck, struct bytes *list)
{
    static const char codes[5][5] = {"labl", "note", "ltxt", "labL", "Labl"};
    size_t places[MOST_INNER + 1];
    size_t count = inner_places(list, places);
    if (count == 0 || luck_one_in(luck, 5)) {
        cut_or_grow(luck, list);
        return;
    }
    size_t chunk = luck_below(luck, (uint32_t)count);
    size_t place = places[chunk];
    switch (luck_below(luck, 5)) {
    case 0:
        memcpy(list->at + place, codes[luck_below(luck, 5)], 4);
        break;
    case 1:
        if (place + 12 <= list->count)
            bytes_put(list, place + 8, 4, luck_border(luck, number_at(list, place + 8)));
        break;
    case 2:
        double_or_drop(luck, list, place, places[chunk + 1]);
        break;
    default:
        bytes_put(list, place + 4, 4, luck_border(luck, number_at(list, place + 4)));
        break;
    }
}
