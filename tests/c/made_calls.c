/* Calls: files for the reading operations, records, texts and sounds for writing, sounds for encoding, formats
 * for empty sides, sides and songs for adding. */
#include "made.h"
#include "second.h"

#include <string.h>

/* Nothing but random bytes, or random bytes behind a start that is right. */
static void make_noise(struct luck *luck, struct bytes *bytes)
{
    bytes->count = 0;
    if (!luck_one_in(luck, 4)) {
        bytes_add(bytes, "RIFF\0\0\0\0WAVE", 12);
        if (luck_one_in(luck, 2))
            bytes_add(bytes, "fmt \x10\0\0\0", 8);
    }
    bytes_add_random(bytes, luck, luck_below(luck, 60));
    if (bytes->count >= 12 && !luck_one_in(luck, 4))
        bytes_put(bytes, 4, 4, (uint32_t)bytes->count - 8);
}

/* Each operation goes through small files of its own. */
static void make_worn_file(struct maker *maker, struct luck *luck, enum operation operation)
{
    struct worn *worn = &maker->worn[operation];
    while (worn->next == 0 && (maker->file.bytes.count < 44 || maker->file.bytes.count > 200)) {
        make_plan(luck, &maker->plan, false);
        file_of_plan(luck, &maker->plan, &maker->file);
    }
    if (worn->next == 0)
        bytes_copy(&worn->small, &maker->file.bytes);
    wear_file(luck, worn, &maker->file);
}

/* A file, in most cases one of the maker's plan, with no, one or some faults. */
static void make_file(struct maker *maker, struct luck *luck, enum operation operation)
{
    uint32_t kind = luck_below(luck, 24);
    maker->plan.blocks = 0;
    if (kind == 0) {
        make_noise(luck, &maker->file.bytes);
        return;
    }
    if (kind <= 3) {
        maker->file.bytes.count = 0;
        make_worn_file(maker, luck, operation);
        return;
    }
    make_plan(luck, &maker->plan, kind <= 9);
    file_of_plan(luck, &maker->plan, &maker->file);
    if (kind >= 10 && kind <= 13)
        disturb_chunks(luck, &maker->file);
    if (kind == 13)
        disturb_chunks(luck, &maker->file);
    if (kind >= 13 && kind <= 17)
        damage_bytes(luck, &maker->file);
    if (kind == 17)
        damage_bytes(luck, &maker->file);
}

/* PCM has no blocks, so that fewer of its files go to the decoding of one. */
static void make_file_call(struct maker *maker, struct luck *luck, struct call *call)
{
    do
        make_file(maker, luck, call->operation);
    while (call->operation == DECODE_BLOCK && maker->plan.tag == 1 && !luck_one_in(luck, 4));
    bytes_copy(&call->file, &maker->file.bytes);
    uint32_t blocks = maker->plan.blocks;
    uint32_t inside = blocks == 0 ? 0 : luck_below(luck, blocks);
    if (luck_one_in(luck, 5))
        call->block = PICK(luck, blocks, blocks + 1, 0xFFFFFFFF, 0x80000000, 0x10000000);
    else
        call->block = inside;
}

/* The words of a plan; those past the counts are junk or zero. */
static void words_of_plan(struct luck *luck, const struct plan *plan, struct call *call)
{
    bool junk = luck_one_in(luck, 2);
    for (size_t i = 0; i < CALL_WORDS; i++)
        call->words[i] = junk ? luck_word(luck) : 0;
    uint32_t start[9] = {plan->tag,     plan->channels, plan->rate,      plan->bits,       plan->align,
                         plan->samples, plan->frames,   plan->cue_count, plan->entry_count};
    memcpy(call->words, start, sizeof start);
    for (size_t i = 0; i < plan->cue_count && i < 64; i++) {
        uint32_t cue[3] = {plan->cues[i].name, plan->cues[i].position, plan->cues[i].place};
        memcpy(call->words + 9 + 3 * i, cue, sizeof cue);
    }
    for (size_t i = 0; i < plan->entry_count && i < 64; i++) {
        uint32_t entry[3] = {plan->entries[i].name, plan->entries[i].length, plan->entries[i].times};
        memcpy(call->words + 201 + 3 * i, entry, sizeof entry);
    }
    call->words[393] = plan->title_count;
    for (size_t i = 0; i < plan->title_count && i < 128; i++) {
        const struct made_title *title = &plan->titles[i];
        uint32_t words[4] = {title->kind, title->name, title->start, title->length};
        memcpy(call->words + 394 + 4 * i, words, sizeof words);
    }
}

/* The texts of a plan, with more behind them, or now and then with less. */
static void titles_of_plan(struct luck *luck, const struct plan *plan, struct call *call)
{
    bytes_copy(&call->titles, &plan->texts);
    if (luck_one_in(luck, 3))
        bytes_add_random(&call->titles, luck, 1 + luck_below(luck, 20));
    if (call->titles.count > 0 && luck_one_in(luck, 16))
        bytes_resize(&call->titles, luck_one_in(luck, 2) ? plan->texts.count / 2 : call->titles.count - 1);
}

/* Sets one word that counts, or one next to those, to a border. */
static void set_word(struct luck *luck, const struct plan *plan, struct call *call)
{
    uint32_t place = luck_below(luck, 9);
    if (luck_one_in(luck, 4))
        place = 9 + luck_below(luck, 3 * plan->cue_count + 1);
    else if (luck_one_in(luck, 3))
        place = 201 + luck_below(luck, 3 * plan->entry_count + 1);
    else if (luck_one_in(luck, 2))
        place = 393 + luck_below(luck, 4 * plan->title_count + 2);
    call->words[place] = luck_border(luck, call->words[place]);
}

static void make_write_call(struct maker *maker, struct luck *luck, struct call *call)
{
    uint32_t kind = luck_below(luck, 12);
    make_plan(luck, &maker->plan, kind < 4);
    words_of_plan(luck, &maker->plan, call);
    titles_of_plan(luck, &maker->plan, call);
    bytes_copy(&call->file, &maker->plan.sound);
    call->word_count = luck_one_in(luck, 4) ? CALL_WORDS : TRONALHET_RECORD_WORDS;
    if (kind >= 3 && kind <= 7)
        set_word(luck, &maker->plan, call);
    if (kind == 7)
        set_word(luck, &maker->plan, call);
    if (kind == 8)
        call->word_count = PICK(luck, 0, 1, 8, 9, 392, 393, 394, 904, 905, 906, 907, luck_below(luck, 906));
    if (kind == 9) {
        uint32_t count = (uint32_t)call->file.count;
        uint32_t wished = PICK(luck, 0, 1, count + 1, count - 1, count + maker->plan.align, count / 2);
        bytes_resize(&call->file, wished > 100000 ? 3 : wished);
    }
}

/* One channel's next sample of a kind of sound. */
static int32_t next_sample(struct luck *luck, uint32_t kind, int32_t last, uint32_t frame)
{
    switch (kind) {
    case 0:
        return 0;
    case 1:
        return last + 37 > 32767 ? -32768 : last + 37;
    case 2:
        return frame / 5 % 2 == 0 ? -32768 : 32767;
    case 3:
        return (int32_t)luck_below(luck, 65536) - 32768;
    case 4:
        return (last + (int32_t)luck_below(luck, 401) - 200) % 32768;
    case 5:
        return frame == 0 ? -32768 : 32767;
    case 6:
        return last + (int32_t)luck_below(luck, 29) - 14;
    default:
        return luck_one_in(luck, 9) ? (int32_t)luck_below(luck, 65536) - 32768 : last;
    }
}

static void add_samples(struct luck *luck, struct bytes *samples, uint32_t frames, uint32_t channels)
{
    int32_t last[2] = {0, 0};
    uint32_t kinds[2];
    kinds[0] = luck_below(luck, 8);
    kinds[1] = luck_below(luck, 8);
    for (uint32_t frame = 0; frame < frames; frame++) {
        for (uint32_t channel = 0; channel < channels; channel++) {
            int32_t next = next_sample(luck, kinds[channel], last[channel], frame);
            int16_t sample = (int16_t)(next > 32767 ? 32767 : next < -32768 ? -32768 : next);
            last[channel] = sample;
            bytes_add(samples, &sample, sizeof sample);
        }
    }
}

/* Frames around the borders of blocks, and few of them where the blocks are large. */
static uint32_t choose_frames(struct luck *luck, uint32_t samples)
{
    if (luck_one_in(luck, 6))
        return PICK(luck, 0, 1, 2);
    uint32_t blocks = samples > 300 ? luck_below(luck, 3) : luck_below(luck, 6);
    uint32_t frames = blocks * samples;
    return PICK(luck, frames, frames + 1, frames == 0 ? 0 : frames - 1, frames + luck_below(luck, samples));
}

static void make_encode_call(struct luck *luck, struct call *call)
{
    uint32_t channels = 1 + luck_below(luck, 2);
    uint32_t unit = 4 * channels;
    uint32_t align =
        luck_one_in(luck, 25) ? PICK(luck, 4096, 4096 - unit, 256) : unit * (2 + luck_below(luck, 7));
    call->samples.count = 0;
    add_samples(luck, &call->samples, choose_frames(luck, (align - unit) * 2 / channels + 1), channels);
    if (luck_one_in(luck, 8))
        bytes_resize(&call->samples, call->samples.count + 2);
    if (luck_one_in(luck, 12))
        channels = PICK(luck, 0, 1, 2, 3, 65535);
    if (luck_one_in(luck, 12))
        align =
            PICK(luck, 0, 1, unit, 2 * unit, align + 1, align + 2, align + 4, 4096, 4097, 4100, 4104, 65535);
    call->channels = (uint16_t)channels;
    call->align = (uint16_t)align;
}

/* Channels and a rate, at their borders, and channels whose double does not fit 16 bits. */
static void make_empty_call(struct luck *luck, struct call *call)
{
    bool other = luck_one_in(luck, 4);
    call->channels = (uint16_t)(other ? PICK(luck, 0, 3, 32768, 32769, 32770, 65535) : PICK(luck, 1, 2));
    call->rate = luck_one_in(luck, 2) ? luck_border(luck, 192000) : 1 + luck_below(luck, 192000);
}

/* Reads a file by the second implementation. */
static bool read_words(const uint8_t *file, size_t file_bytes, uint32_t words[TRONALHET_RECORD_WORDS])
{
    uint8_t titles[TRONALHET_MOST_TITLE_BYTES];
    return second_read(file, file_bytes, words, TRONALHET_RECORD_WORDS, titles, sizeof titles) == 0;
}

/* The plan of a file that the second implementation takes; its titles stay in the file. */
static void plan_of_file(const uint8_t *file, size_t file_bytes, struct plan *plan)
{
    uint32_t words[TRONALHET_RECORD_WORDS];
    size_t start = 0;
    plan->cue_count = 0;
    if (!read_words(file, file_bytes, words))
        return;
    plan->tag = words[0];
    plan->channels = words[1];
    plan->rate = words[2];
    plan->bits = words[3];
    plan->align = words[4];
    plan->samples = words[5];
    plan->frames = words[6];
    plan->cue_count = words[7];
    plan->entry_count = words[8];
    for (uint32_t i = 0; i < plan->cue_count; i++)
        plan->cues[i] = (struct made_cue){words[9 + 3 * i], words[10 + 3 * i], words[11 + 3 * i]};
    for (uint32_t i = 0; i < plan->entry_count; i++)
        plan->entries[i] = (struct made_entry){words[201 + 3 * i], words[202 + 3 * i], words[203 + 3 * i]};
    tronalhet_answer sound = second_sound(file, file_bytes, &start, 1);
    plan->sound.count = 0;
    bytes_add(&plan->sound, file + start, sound.n);
}

void keep_grown(struct maker *maker, const uint8_t *side, size_t side_bytes)
{
    maker->grown.count = 0;
    bytes_add(&maker->grown, side, side_bytes);
    plan_of_file(side, side_bytes, &maker->grown_plan);
}

/* Goes on with the file that was made, unless its list of titles is wrong. */
static bool keep_made(struct maker *maker)
{
    uint32_t words[TRONALHET_RECORD_WORDS];
    const struct bytes *made = &maker->file.bytes;
    if (!read_words(made->at, made->count, words))
        return false;
    keep_grown(maker, made->at, made->count);
    return true;
}

/* An empty side to start with, when there is none yet or the last one has long been full. */
static void start_growing(struct maker *maker, struct luck *luck)
{
    if (maker->grown.count > 0 && (maker->grown_plan.cue_count < 64 || !luck_one_in(luck, 12)))
        return;
    do {
        make_side_plan(luck, &maker->plan);
        file_of_plan(luck, &maker->plan, &maker->file);
    } while (maker->plan.cue_count > 0 || !keep_made(maker));
}

/* The growing side with other titles, laid out anyhow. */
static void title_grown(struct maker *maker, struct luck *luck)
{
    choose_titles(luck, &maker->grown_plan);
    file_of_plan(luck, &maker->grown_plan, &maker->file);
    keep_made(maker);
}

/* A listed song's sound again: whole, without its last frame, or with a changed sample. */
static void repeat_song(struct luck *luck, const struct plan *side, struct plan *song, struct call *call)
{
    uint32_t listed = luck_below(luck, side->cue_count);
    size_t start = (size_t)side->cues[listed].place * side->align;
    size_t bytes = (size_t)side->entries[listed].length * side->align;
    call->number = side->cues[listed].name;
    if (bytes == 0 || start + bytes > side->sound.count || luck_one_in(luck, 3))
        return;
    song->sound.count = 0;
    bytes_add(&song->sound, side->sound.at + start, bytes);
    if (luck_one_in(luck, 6))
        song->sound.count -= side->align;
    else if (luck_one_in(luck, 6))
        song->sound.at[song->sound.count - 1] ^= 1;
    song->frames = (uint32_t)(song->sound.count / side->align);
}

/* A song that fits the side in most cases. */
static void make_song_plan(struct luck *luck, const struct plan *side, struct plan *song)
{
    song->tag = 1;
    song->bits = 16;
    song->samples = 1;
    song->channels = side->channels;
    song->rate = side->rate;
    song->align = 2 * song->channels;
    song->frames = luck_one_in(luck, 12) ? 0 : 1 + luck_below(luck, 9);
    song->sound.count = 0;
    bytes_add_random(&song->sound, luck, (size_t)song->frames * song->align);
}

/* Other channels, another rate, or other bits than the side's. */
static void misfit_song(struct luck *luck, struct plan *song)
{
    uint32_t kind = luck_below(luck, 3);
    if (kind == 0)
        song->rate = song->rate == 192000 ? 1 : song->rate + 1;
    if (kind == 1)
        song->channels = 3 - song->channels;
    if (kind == 2)
        song->bits = 8;
    song->align = song->channels * song->bits / 8;
    bytes_resize(&song->sound, song->sound.count / 4 * 4);
    song->frames = (uint32_t)(song->sound.count / song->align);
}

static void make_song(struct maker *maker, struct luck *luck, const struct plan *side, struct call *call)
{
    struct plan *song = &maker->song_plan;
    make_song_plan(luck, side, song);
    call->number = luck_one_in(luck, 20) ? PICK(luck, 0, 1, 8, 0xFFFFFFFF) : luck_word(luck);
    if (side->cue_count > 0 && luck_one_in(luck, 4))
        repeat_song(luck, side, song, call);
    if (luck_one_in(luck, 12))
        misfit_song(luck, song);
    choose_tables(luck, song);
    if (luck_one_in(luck, 12))
        break_titles(luck, song);
    uint64_t together = (uint64_t)side->frames + song->frames;
    uint32_t sum = together > 0xFFFFFFFF ? 0xFFFFFFFF : (uint32_t)together;
    call->limit = luck_one_in(luck, 3) ? PICK(luck, sum, sum - 1, sum + 1, side->frames, 0) : 0xFFFFFFFF;
    file_of_plan(luck, song, &maker->song);
    if (luck_one_in(luck, 10))
        disturb_chunks(luck, &maker->song);
    if (luck_one_in(luck, 10))
        damage_bytes(luck, &maker->song);
    bytes_copy(&call->song, &maker->song.bytes);
}

static void make_side(struct maker *maker, struct luck *luck, struct call *call)
{
    make_side_plan(luck, &maker->plan);
    if (luck_one_in(luck, 5))
        break_side_plan(luck, &maker->plan);
    if (luck_one_in(luck, 12))
        break_titles(luck, &maker->plan);
    file_of_plan(luck, &maker->plan, &maker->file);
    if (luck_one_in(luck, 12))
        disturb_chunks(luck, &maker->file);
    if (luck_one_in(luck, 12))
        damage_bytes(luck, &maker->file);
    bytes_copy(&call->file, &maker->file.bytes);
}

static void make_add_call(struct maker *maker, struct luck *luck, struct call *call)
{
    call->on_growing_side = luck_one_in(luck, 2);
    if (call->on_growing_side) {
        start_growing(maker, luck);
        if (luck_one_in(luck, 8))
            title_grown(maker, luck);
        bytes_copy(&call->file, &maker->grown);
        make_song(maker, luck, &maker->grown_plan, call);
    } else {
        make_side(maker, luck, call);
        make_song(maker, luck, &maker->plan, call);
    }
    if (luck_one_in(luck, 8)) {
        make_file(maker, luck, ADD);
        bytes_copy(luck_one_in(luck, 2) ? &call->song : &call->file, &maker->file.bytes);
        call->on_growing_side = false;
    }
}

void make_call(struct maker *maker, uint64_t number, struct luck *luck, struct call *call)
{
    static const enum operation turns[21] = {READ,  WRITE,  ADD,   DECODE, READ,         SOUND,  WRITE,
                                             ADD,   ENCODE, READ,  WRITE,  DECODE_BLOCK, ADD,    DECODE,
                                             SOUND, READ,   WRITE, ENCODE, DECODE_BLOCK, DECODE, EMPTY};
    call->operation = turns[number % 21];
    call->null_when_empty = luck_one_in(luck, 2);
    call->on_growing_side = false;
    call->file.count = 0;
    call->song.count = 0;
    call->samples.count = 0;
    call->titles.count = 0;
    call->word_count = 0;
    if (call->operation == WRITE)
        make_write_call(maker, luck, call);
    else if (call->operation == ENCODE)
        make_encode_call(luck, call);
    else if (call->operation == EMPTY)
        make_empty_call(luck, call);
    else if (call->operation == ADD)
        make_add_call(maker, luck, call);
    else
        make_file_call(maker, luck, call);
}

static void file_free(struct made_file *file)
{
    for (size_t i = 0; i < MOST_CHUNKS; i++)
        bytes_free(&file->chunks[i].data);
    bytes_free(&file->bytes);
}

static void plan_free(struct plan *plan)
{
    bytes_free(&plan->sound);
    bytes_free(&plan->texts);
}

void maker_free(struct maker *maker)
{
    file_free(&maker->file);
    file_free(&maker->song);
    plan_free(&maker->plan);
    plan_free(&maker->song_plan);
    plan_free(&maker->grown_plan);
    bytes_free(&maker->grown);
    for (int i = 0; i < OPERATIONS; i++)
        bytes_free(&maker->worn[i].small);
}

void call_free(struct call *call)
{
    bytes_free(&call->file);
    bytes_free(&call->song);
    bytes_free(&call->samples);
    bytes_free(&call->titles);
}
