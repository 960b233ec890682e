/* Sides: what a side is, one without songs, and one with one song more, which keeps the titles of the side
 * and takes none of the song's. */
#include "second.h"
#include "second_parts.h"

#include <string.h>

/* 16-bit PCM whose cues, in order, tile frames 0 to F, and whose playlist plays each once, whole, in that
 * order; without cues that leaves no entry and no frame. */
static bool is_side(const struct record *record)
{
    if (record->tag != PCM || record->bits != 16 || record->entry_count != record->cue_count)
        return false;
    uint32_t tiled = 0;
    for (uint32_t i = 0; i < record->cue_count; i++) {
        const struct entry *entry = &record->entries[i];
        if (record->cues[i].place != tiled)
            return false;
        if (entry->name != record->cues[i].name || entry->times != 1)
            return false;
        tiled += entry->length;
    }
    return tiled == record->frames;
}

tronalhet_answer second_empty(uint16_t channels, uint32_t rate, uint8_t *out, size_t out_bytes)
{
    struct record record = {
        .tag = PCM, .channels = channels, .rate = rate, .bits = 16, .align = 2u * channels, .samples = 1};
    if (!format_is_right(&record))
        return (tronalhet_answer){9, 0};
    uint64_t bytes = written_bytes(&record, 0);
    if (bytes > out_bytes)
        return (tronalhet_answer){14, 0};
    put_before_sound(&record, 0, out);
    return (tronalhet_answer){0, (size_t)bytes};
}

/* 9: the song is 16-bit PCM of the side's channels and rate. */
static bool song_fits(const struct record *side, const struct record *song)
{
    return song->tag == PCM && song->bits == 16 && song->channels == side->channels && song->rate == side->rate;
}

static bool same_sound(const struct record *side, const uint8_t *side_sound, uint32_t listed, struct part song)
{
    size_t start = (size_t)side->cues[listed].place * side->align;
    size_t bytes = (size_t)side->entries[listed].length * side->align;
    return bytes == song.bytes && memcmp(side_sound + start, song.at, bytes) == 0;
}

/* A listed number gives 18 for the same sound, else 16. */
static uint32_t listed_refusal(const struct record *side, struct part side_sound, struct part song,
                               uint32_t number)
{
    for (uint32_t i = 0; i < side->cue_count; i++) {
        if (side->cues[i].name == number)
            return same_sound(side, side_sound.at, i, song) ? 18 : 16;
    }
    return 0;
}

/* The side's record with the song behind its last one. */
static void list_song(struct record *side, uint32_t number, uint32_t frames)
{
    side->cues[side->cue_count] = (struct cue){number, side->frames, side->frames};
    side->entries[side->entry_count] = (struct entry){number, frames, 1};
    side->cue_count++;
    side->entry_count++;
    side->frames += frames;
}

static tronalhet_answer put_side(const struct record *record, struct part side, struct part song, uint8_t *out,
                                 size_t out_bytes)
{
    size_t sound_bytes = side.bytes + song.bytes;
    uint64_t bytes = written_bytes(record, sound_bytes);
    if (bytes > FILE_LIMIT)
        return (tronalhet_answer){1, 0};
    if (bytes > out_bytes)
        return (tronalhet_answer){14, 0};
    size_t place = put_before_sound(record, (uint32_t)sound_bytes, out);
    memcpy(out + place, side.at, side.bytes);
    memcpy(out + place + side.bytes, song.at, song.bytes);
    return (tronalhet_answer){0, (size_t)bytes};
}

tronalhet_answer second_add(const uint8_t *side, size_t side_bytes, const uint8_t *song, size_t song_bytes,
                            uint32_t number, uint32_t limit, uint8_t *out, size_t out_bytes)
{
    struct record song_record;
    struct record side_record;
    struct part song_sound;
    struct part side_sound;
    uint32_t refusal = second_open(song, song_bytes, &song_record, &song_sound);
    if (refusal != 0)
        return (tronalhet_answer){refusal, 0};
    if (second_open(side, side_bytes, &side_record, &side_sound) != 0 || !is_side(&side_record))
        return (tronalhet_answer){19, 0};
    if (!song_fits(&side_record, &song_record))
        return (tronalhet_answer){9, 0};
    if (song_record.frames == 0)
        return (tronalhet_answer){16, 0};
    refusal = listed_refusal(&side_record, side_sound, song_sound, number);
    if (refusal != 0)
        return (tronalhet_answer){refusal, 0};
    if (side_record.cue_count == MOST_ENTRIES || (uint64_t)side_record.frames + song_record.frames > limit)
        return (tronalhet_answer){17, 0};
    list_song(&side_record, number, song_record.frames);
    return put_side(&side_record, side_sound, song_sound, out, out_bytes);
}
