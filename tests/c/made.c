/* Random numbers, growing bytes, and plans of files: valid ones and ones that break a rule. */
#include "made.h"

#include <stdio.h>
#include <stdlib.h>
#include <string.h>

static uint64_t luck_next(struct luck *luck)
{
    luck->state += 0x9E3779B97F4A7C15u;
    uint64_t mixed = luck->state;
    mixed = (mixed ^ (mixed >> 30)) * 0xBF58476D1CE4E5B9u;
    mixed = (mixed ^ (mixed >> 27)) * 0x94D049BB133111EBu;
    return mixed ^ (mixed >> 31);
}

struct luck luck_of(uint64_t seed, uint64_t number)
{
    struct luck luck = {seed};
    luck.state = luck_next(&luck) ^ number;
    luck.state = luck_next(&luck);
    return luck;
}

uint32_t luck_word(struct luck *luck)
{
    return (uint32_t)(luck_next(luck) >> 32);
}

uint32_t luck_below(struct luck *luck, uint32_t end)
{
    return luck_word(luck) % end;
}

bool luck_one_in(struct luck *luck, uint32_t times)
{
    return luck_below(luck, times) == 0;
}

uint32_t luck_pick(struct luck *luck, const uint32_t *values, size_t count)
{
    return values[luck_below(luck, (uint32_t)count)];
}

uint32_t luck_border(struct luck *luck, uint32_t right)
{
    switch (luck_below(luck, 5)) {
    case 0:
        return PICK(luck, 0, 1, 2, 0xFFFFFFFF, 0xFFFFFFFE, 0x80000000, 0x7FFFFFFF);
    case 1:
        return PICK(luck, right + 1, right - 1);
    case 2:
        return PICK(luck, right + 2, right - 2, right * 2, right + 65536, right + 256);
    case 3:
        return PICK(luck, 3, 4, 6, 7, 8, 15, 16, 17, 20, 24, 32, 50, 63, 64, 65, 88, 89);
    default:
        return PICK(luck, 4096, 4097, 4100, 65535, 65536, 192000, 192001, 1073741824, luck_word(luck));
    }
}

static void bytes_make_room(struct bytes *bytes, size_t count)
{
    if (count <= bytes->room)
        return;
    bytes->room = 2 * count + 64;
    bytes->at = realloc(bytes->at, bytes->room);
    if (bytes->at == NULL) {
        fputs("out of memory\n", stderr);
        exit(1);
    }
}

void bytes_resize(struct bytes *bytes, size_t count)
{
    bytes_make_room(bytes, count);
    if (count > bytes->count)
        memset(bytes->at + bytes->count, 0, count - bytes->count);
    bytes->count = count;
}

void bytes_add(struct bytes *bytes, const void *more, size_t count)
{
    bytes_make_room(bytes, bytes->count + count);
    if (count > 0)
        memcpy(bytes->at + bytes->count, more, count);
    bytes->count += count;
}

void bytes_add16(struct bytes *bytes, uint32_t value)
{
    bytes_resize(bytes, bytes->count + 2);
    bytes_put(bytes, bytes->count - 2, 2, value);
}

void bytes_add32(struct bytes *bytes, uint32_t value)
{
    bytes_resize(bytes, bytes->count + 4);
    bytes_put(bytes, bytes->count - 4, 4, value);
}

void bytes_add_random(struct bytes *bytes, struct luck *luck, size_t count)
{
    size_t end = bytes->count + count;
    bytes_make_room(bytes, end + 8);
    for (size_t i = bytes->count; i < end; i += 8) {
        uint64_t random = luck_next(luck);
        memcpy(bytes->at + i, &random, 8);
    }
    bytes->count = end;
}

void bytes_copy(struct bytes *to, const struct bytes *from)
{
    to->count = 0;
    bytes_add(to, from->at, from->count);
}

void bytes_put(struct bytes *bytes, size_t place, size_t width, uint32_t value)
{
    for (size_t i = 0; i < width; i++)
        bytes->at[place + i] = (uint8_t)(value >> (8 * i));
}

void bytes_free(struct bytes *bytes)
{
    free(bytes->at);
    *bytes = (struct bytes){NULL, 0, 0};
}

static uint32_t choose_align(struct luck *luck, uint32_t tag, uint32_t channels)
{
    bool large = luck_one_in(luck, 20);
    if (tag == 17) {
        uint32_t unit = 4 * channels;
        uint32_t units = large ? PICK(luck, 4096 / unit, 4096 / unit - 1, 256 / unit) : 2 + luck_below(luck, 6);
        return units * unit;
    }
    if (large)
        return PICK(luck, 4096, 4095, 256, 255);
    uint32_t more = luck_below(luck, PICK(luck, 30, 120));
    return 8 * channels + PICK(luck, 0, 1, more, more, more);
}

static void choose_format(struct luck *luck, struct plan *plan)
{
    plan->tag = PICK(luck, 1, 1, 17, 2);
    plan->channels = 1 + luck_below(luck, 2);
    plan->rate = luck_one_in(luck, 3) ? 1 + luck_below(luck, 192000) : PICK(luck, 1, 8000, 44100, 192000);
    plan->bits = plan->tag == 1 ? PICK(luck, 8, 16) : 4;
    if (plan->tag == 1)
        plan->align = plan->channels * plan->bits / 8;
    else
        plan->align = choose_align(luck, plan->tag, plan->channels);
}

/* One field of the format breaks a rule; where it can, the align follows, so that no other rule is broken
 * with it. */
static void break_format(struct luck *luck, struct plan *plan)
{
    uint32_t channels = plan->channels;
    switch (luck_below(luck, 5)) {
    case 0:
        plan->tag = PICK(luck, 0, 3, 6, 16, 18, 65534, 65535);
        break;
    case 1:
        plan->channels = PICK(luck, 0, 3, 4, 65535);
        break;
    case 2:
        plan->rate = PICK(luck, 0, 192001, 192002, 0x80000000, 0xFFFFFFFF);
        break;
    case 3:
        plan->bits = PICK(luck, 0, 1, 3, 4, 5, 7, 9, 12, 15, 17, 20, 24, 32);
        break;
    default:
        plan->align = PICK(luck, 0, 1, 4 * channels, 6 * channels, 7 * channels, 8 * channels - 1, 4097, 4098,
                           4096 + 4 * channels, plan->align + 1, plan->align + 2, plan->align + 4,
                           plan->align - 1, 65535);
        return;
    }
    if (plan->tag == 1)
        plan->align = plan->channels * ((plan->bits + 7) / 8) % 65536;
}

/* The formula of document 01; outside its borders any number will do. */
static uint32_t samples_of_align(const struct plan *plan)
{
    if (plan->tag == 1 || plan->channels == 0)
        return 1;
    if (plan->tag == 17)
        return ((plan->align - 4 * plan->channels) * 2 / plan->channels + 1) % 65536;
    return ((plan->align - 7 * plan->channels) * 2 / plan->channels + 2) % 65536;
}

/* Codes that drive a step or delta to its upper border, and then let it fall until the samples are no
 * longer held, so that one sees where it was held. */
static void climb_and_fall(struct luck *luck, uint8_t *codes, size_t count)
{
    size_t top = 4 + luck_below(luck, 8);
    for (size_t i = 0; i < count; i++)
        codes[i] = (uint8_t)(i < top ? PICK(luck, 0x88, 0x77) : PICK(luck, 0, 0, 0, 0x10, 0xF0, 0x04));
}

static void choose_codes(struct luck *luck, uint8_t *codes, size_t count)
{
    switch (luck_below(luck, 4)) {
    case 0:
        memset(codes, (int)PICK(luck, 0, 0x77, 0x88, 0xFF, 0x80, 0x47), count);
        break;
    case 1:
        climb_and_fall(luck, codes, count);
        break;
    default:
        break;
    }
}

/* A Microsoft block whose delta climbs to where it is held, 2,796,202, and falls by a row of nibbles after
 * which a border of one more or one less would still show in the last sample. */
static void put_fall(uint8_t *block, size_t channels, size_t align)
{
    static const char row[] = "88888800004000404000000004000004000000000000000000000000000001";
    if (7 * channels + (sizeof row * channels) / 2 > align)
        return;
    memset(block + 7 * channels, 0, align - 7 * channels);
    for (size_t channel = 0; channel < channels; channel++) {
        block[channel] = 2;
        block[channels + 2 * channel] = 0xFF;
        block[channels + 2 * channel + 1] = 0x7F;
        for (size_t i = 0; row[i] != '\0'; i++) {
            size_t nibble = i * channels + channel;
            int value = row[i] - '0';
            block[7 * channels + nibble / 2] |= (uint8_t)(nibble % 2 == 0 ? 16 * value : value);
        }
    }
}

/* Puts IMA and Microsoft block headers in range, and some of their fields at borders. */
static void choose_block(struct luck *luck, struct plan *plan, size_t place)
{
    struct bytes *sound = &plan->sound;
    size_t channels = plan->channels;
    size_t header = (plan->tag == 17 ? 4 : 7) * channels;
    for (size_t channel = 0; channel < channels; channel++) {
        if (plan->tag == 17) {
            sound->at[place + 4 * channel + 2] = (uint8_t)PICK(luck, 0, 88, luck_below(luck, 89));
            continue;
        }
        sound->at[place + channel] = (uint8_t)luck_below(luck, 7);
        for (size_t field = 0; field < 3; field++) {
            uint32_t border = PICK(luck, 0, 1, 15, 16, 255, 256, 32767, 32768, 65535);
            if (luck_one_in(luck, 2))
                bytes_put(sound, place + channels + 2 * (channels * field + channel), 2, border);
        }
    }
    choose_codes(luck, sound->at + place + header, plan->align - header);
    if (plan->tag == 2 && luck_one_in(luck, 8))
        put_fall(sound->at + place, channels, plan->align);
}

/* An index or predictor out of range, in one block. */
static void break_block(struct luck *luck, struct plan *plan)
{
    size_t place = (size_t)luck_below(luck, plan->blocks) * plan->align;
    uint32_t channel = luck_below(luck, plan->channels);
    if (plan->tag == 17)
        plan->sound.at[place + 4 * channel + 2] = (uint8_t)PICK(luck, 89, 90, 128, 255);
    else
        plan->sound.at[place + channel] = (uint8_t)PICK(luck, 7, 8, 128, 255);
}

static uint32_t choose_blocks(struct luck *luck, const struct plan *plan)
{
    if (luck_one_in(luck, 10))
        return 0;
    if (plan->align > 200)
        return luck_below(luck, 3);
    if (plan->tag == 1)
        return luck_one_in(luck, 30) ? luck_below(luck, 1000) : luck_below(luck, 40);
    return 1 + luck_below(luck, 5);
}

static void choose_sound(struct luck *luck, struct plan *plan)
{
    plan->blocks = choose_blocks(luck, plan);
    plan->frames = plan->blocks;
    plan->sound.count = 0;
    bytes_add_random(&plan->sound, luck, (size_t)plan->blocks * plan->align);
    if (plan->tag == 1 || plan->blocks == 0)
        return;
    uint32_t last = PICK(luck, 1, plan->samples, 1 + luck_below(luck, plan->samples + 1));
    plan->frames = (plan->blocks - 1) * plan->samples + (last < plan->samples ? last : plan->samples);
    if (plan->channels < 1 || plan->channels > 2 || plan->align < 8 * plan->channels)
        return;
    for (uint32_t block = 0; block < plan->blocks; block++)
        choose_block(luck, plan, (size_t)block * plan->align);
    if (luck_one_in(luck, 6))
        break_block(luck, plan);
}

static void break_sound(struct luck *luck, struct plan *plan)
{
    uint32_t samples = plan->samples;
    if (luck_one_in(luck, 2)) {
        size_t count = plan->sound.count;
        bytes_resize(&plan->sound, count + PICK(luck, 1, 2, 3, 4, plan->align / 2));
        return;
    }
    plan->frames = PICK(luck, 0, (plan->blocks - 1) * samples, (plan->blocks - 1) * samples + 1,
                        plan->blocks * samples + 1, plan->blocks * samples, plan->frames + 1, 0xFFFFFFFF);
}

static void choose_cues(struct luck *luck, struct plan *plan)
{
    uint32_t name = PICK(luck, 0, 1, 7, 0xFFFFFFFF, luck_word(luck));
    uint32_t stride = PICK(luck, 1, 2, 65536, 0xFFFFFFFF);
    for (uint32_t i = 0; i < plan->cue_count; i++) {
        uint32_t place = plan->frames == 0 ? 0 : luck_below(luck, plan->frames);
        plan->cues[i].name = name;
        plan->cues[i].position = PICK(luck, 0, place, 0xFFFFFFFF, luck_word(luck));
        plan->cues[i].place = PICK(luck, 0, place, plan->frames == 0 ? 0 : plan->frames - 1);
        name += stride;
    }
}

static void choose_entries(struct luck *luck, struct plan *plan)
{
    for (uint32_t i = 0; i < plan->entry_count; i++) {
        const struct made_cue *cue = &plan->cues[luck_below(luck, plan->cue_count)];
        uint32_t most = plan->frames > cue->place ? plan->frames - cue->place : 1;
        plan->entries[i].name = cue->name;
        plan->entries[i].length = PICK(luck, 1, most, 1 + luck_below(luck, most));
        plan->entries[i].times = PICK(luck, 1, 2, 0xFFFFFFFF);
    }
}

static uint32_t choose_count(struct luck *luck)
{
    return luck_one_in(luck, 12) ? PICK(luck, 63, 64, luck_below(luck, 65)) : luck_below(luck, 4);
}

void choose_tables(struct luck *luck, struct plan *plan)
{
    plan->cue_count = plan->frames == 0 ? 0 : choose_count(luck);
    plan->entry_count = plan->cue_count == 0 ? 0 : choose_count(luck);
    choose_cues(luck, plan);
    choose_entries(luck, plan);
    choose_titles(luck, plan);
}

static void break_cues(struct luck *luck, struct plan *plan)
{
    if (plan->cue_count == 0 || luck_one_in(luck, 6)) {
        plan->cue_count = MADE_ENTRIES;
        choose_cues(luck, plan);
        return;
    }
    struct made_cue *cue = &plan->cues[luck_below(luck, plan->cue_count)];
    if (luck_one_in(luck, 2))
        cue->name = plan->cues[luck_below(luck, plan->cue_count)].name;
    else
        cue->place = PICK(luck, plan->frames, plan->frames + 1, 0xFFFFFFFF);
}

static void break_entries(struct luck *luck, struct plan *plan)
{
    if (plan->cue_count > 0 && (plan->entry_count == 0 || luck_one_in(luck, 6))) {
        plan->entry_count = MADE_ENTRIES;
        choose_entries(luck, plan);
        return;
    }
    if (plan->entry_count == 0)
        plan->entry_count = 1;
    struct made_entry *entry = &plan->entries[luck_below(luck, plan->entry_count)];
    uint32_t over = entry->length + plan->frames;
    switch (luck_below(luck, 4)) {
    case 0:
        entry->name = PICK(luck, entry->name + 1, entry->name + 65536, luck_word(luck));
        break;
    case 1:
        entry->times = 0;
        break;
    default:
        entry->length = PICK(luck, 0, entry->length + 1, plan->frames, over, 0xFFFFFFFF, 0 - plan->frames);
        break;
    }
}

/* Where faults are wished, each part has its own chance of one, so that several meet. */
void make_plan(struct luck *luck, struct plan *plan, bool faulty)
{
    choose_format(luck, plan);
    if (faulty && luck_one_in(luck, 4))
        break_format(luck, plan);
    plan->samples = samples_of_align(plan);
    if (faulty && luck_one_in(luck, 12))
        plan->samples = luck_border(luck, plan->samples) % 65536;
    choose_sound(luck, plan);
    if (faulty && luck_one_in(luck, 3))
        break_sound(luck, plan);
    choose_tables(luck, plan);
    if (faulty && luck_one_in(luck, 4))
        break_cues(luck, plan);
    if (faulty && luck_one_in(luck, 4))
        break_entries(luck, plan);
    if (faulty && luck_one_in(luck, 3))
        break_titles(luck, plan);
}

void make_side_plan(struct luck *luck, struct plan *plan)
{
    choose_format(luck, plan);
    plan->tag = 1;
    plan->bits = 16;
    plan->align = 2 * plan->channels;
    plan->samples = 1;
    uint32_t songs = PICK(luck, 0, 1, 2, 3, 63, 64, luck_below(luck, 65));
    plan->frames = 0;
    plan->cue_count = songs;
    plan->entry_count = songs;
    choose_cues(luck, plan);
    for (uint32_t i = 0; i < songs; i++) {
        uint32_t frames = 1 + luck_below(luck, 5);
        plan->cues[i].place = plan->frames;
        plan->entries[i] = (struct made_entry){plan->cues[i].name, frames, 1};
        plan->frames += frames;
    }
    plan->blocks = plan->frames;
    plan->sound.count = 0;
    bytes_add_random(&plan->sound, luck, (size_t)plan->frames * plan->align);
    choose_titles(luck, plan);
}

/* Two songs change their places in one of the tables. */
static void swap_songs(struct luck *luck, struct plan *plan)
{
    uint32_t one = luck_below(luck, plan->cue_count);
    uint32_t other = luck_below(luck, plan->cue_count);
    if (luck_one_in(luck, 2)) {
        struct made_cue cue = plan->cues[one];
        plan->cues[one] = plan->cues[other];
        plan->cues[other] = cue;
    } else {
        struct made_entry entry = plan->entries[one];
        plan->entries[one] = plan->entries[other];
        plan->entries[other] = entry;
    }
}

/* One song, or the tables' ends, are wrong; there is at least one song. */
static void break_songs(struct luck *luck, struct plan *plan)
{
    uint32_t song = luck_below(luck, plan->cue_count);
    switch (luck_below(luck, 7)) {
    case 0:
        plan->cues[song].place += PICK(luck, 1, 0xFFFFFFFF);
        break;
    case 1:
        plan->entries[song].times = PICK(luck, 2, 0xFFFFFFFF);
        break;
    case 2:
        plan->entries[song].length += PICK(luck, 1, 0xFFFFFFFF);
        break;
    case 3:
        plan->entry_count--;
        break;
    case 4:
        plan->entry_count = song;
        plan->cue_count = song;
        break;
    case 5:
        plan->entries[plan->entry_count] = plan->entries[song];
        plan->entry_count++;
        break;
    default:
        swap_songs(luck, plan);
        break;
    }
}

/* The plan stays one that reading accepts, mostly, but is not a side. */
void break_side_plan(struct luck *luck, struct plan *plan)
{
    if (plan->cue_count > 0 && !luck_one_in(luck, 4)) {
        break_songs(luck, plan);
    } else if (luck_one_in(luck, 2)) {
        bytes_add_random(&plan->sound, luck, plan->align);
        plan->frames++;
    } else {
        plan->bits = 8;
        plan->align = plan->channels;
        bytes_resize(&plan->sound, plan->sound.count / 2);
    }
    choose_titles(luck, plan);
}
