#include "with_sndfile.h"

#include <sndfile.h>
#include <stdio.h>
#include <stdlib.h>
#include <string.h>

/* A file in memory, as libsndfile's virtual files go. */
struct memory {
    uint8_t *bytes;
    size_t count;
    size_t room;
    size_t place;
};

static sf_count_t memory_length(void *user)
{
    return (sf_count_t)((struct memory *)user)->count;
}

static sf_count_t memory_seek(sf_count_t offset, int whence, void *user)
{
    struct memory *memory = user;
    sf_count_t from = 0;
    if (whence == SEEK_CUR)
        from = (sf_count_t)memory->place;
    else if (whence == SEEK_END)
        from = (sf_count_t)memory->count;
    if (from + offset >= 0 && (size_t)(from + offset) <= memory->room)
        memory->place = (size_t)(from + offset);
    return (sf_count_t)memory->place;
}

static sf_count_t memory_read(void *to, sf_count_t count, void *user)
{
    struct memory *memory = user;
    size_t left = memory->count > memory->place ? memory->count - memory->place : 0;
    size_t bytes = (size_t)count < left ? (size_t)count : left;
    memcpy(to, memory->bytes + memory->place, bytes);
    memory->place += bytes;
    return (sf_count_t)bytes;
}

static sf_count_t memory_write(const void *from, sf_count_t count, void *user)
{
    struct memory *memory = user;
    size_t left = memory->room - memory->place;
    size_t bytes = (size_t)count < left ? (size_t)count : left;
    memcpy(memory->bytes + memory->place, from, bytes);
    memory->place += bytes;
    if (memory->place > memory->count)
        memory->count = memory->place;
    return (sf_count_t)bytes;
}

static sf_count_t memory_tell(void *user)
{
    return (sf_count_t)((struct memory *)user)->place;
}

static SNDFILE *open_memory(struct memory *memory, int mode, SF_INFO *info)
{
    static SF_VIRTUAL_IO calls = {memory_length, memory_seek, memory_read, memory_write, memory_tell};
    SNDFILE *opened = sf_open_virtual(&calls, mode, info, memory);
    if (opened == NULL) {
        fprintf(stderr, "measure: libsndfile: %s\n", sf_strerror(NULL));
        exit(2);
    }
    return opened;
}

const char *sndfile_version(void)
{
    return sf_version_string();
}

size_t sndfile_read(const uint8_t *file, size_t file_bytes)
{
    struct memory memory = {(uint8_t *)file, file_bytes, file_bytes, 0};
    SF_INFO info = {0};
    sf_close(open_memory(&memory, SFM_READ, &info));
    return (size_t)info.frames;
}

size_t sndfile_decode(const uint8_t *file, size_t file_bytes, int16_t *out, size_t frames)
{
    struct memory memory = {(uint8_t *)file, file_bytes, file_bytes, 0};
    SF_INFO info = {0};
    SNDFILE *opened = open_memory(&memory, SFM_READ, &info);
    sf_count_t read = sf_readf_short(opened, out, (sf_count_t)frames);
    sf_close(opened);
    return (size_t)read;
}

size_t sndfile_write(bool ima, uint32_t channels, uint32_t rate, const int16_t *sound, size_t frames,
                     uint8_t *out, size_t room)
{
    struct memory memory = {out, 0, room, 0};
    SF_INFO info = {0};
    info.samplerate = (int)rate;
    info.channels = (int)channels;
    info.format = SF_FORMAT_WAV | (ima ? SF_FORMAT_IMA_ADPCM : SF_FORMAT_PCM_16);
    SNDFILE *opened = open_memory(&memory, SFM_WRITE, &info);
    sf_writef_short(opened, sound, (sf_count_t)frames);
    sf_close(opened);
    return memory.count;
}
