/* Runs one job of one contestant some times, and prints what it took.
 *
 *     measure OPERATION WHO BYTES REPEATS [count]    BYTES of 16-bit sound; WHO is library, plain, memcpy or
 *                                                    sndfile; with `count` no clock is read, so that the
 *                                                    guest instructions of a run are always the same
 *     measure file KIND BYTES PATH                   writes a made-up file of about BYTES bytes
 *     measure agree                                  whether library and plain C give the same, on many sounds
 *     measure memcpy                                 where this machine's memcpy stands in the program
 *     measure version                                libsndfile's version
 */
#define _POSIX_C_SOURCE 199309L

#include "agree.h"
#include "made.h"
#include "plain.h"
#include "second.h"
#include "tronalhet.h"
#ifdef HAVE_SNDFILE
#include "with_sndfile.h"
#endif

#include <inttypes.h>
#include <stdio.h>
#include <stdlib.h>
#include <string.h>
#include <time.h>

enum { SONG_NUMBER = 7, RECORD_BYTES = 4 * TRONALHET_RECORD_WORDS, ROOM_TO_SPARE = 16384 };
/* What is read: the record, and behind it the texts of titles. */
enum { READ_BYTES = RECORD_BYTES + TRONALHET_MOST_TITLE_BYTES };
/* The frames of a file that is written for its tables, whatever the size that is asked for. */
enum { SHORT_FRAMES = 640 };

enum job { READ, DECODE, ENCODE, WRITE, WRITE_TABLES, ADD, JOBS };
enum who { LIBRARY, PLAIN, MEMCPY, SNDFILE, CONTESTANTS };

struct operation {
    const char *name;
    enum job job;
    struct made made;
};

/* What a job works on, and what came of it. */
struct work {
    struct made made;
    struct made_file file; /* that is read or decoded, or the side */
    struct made_file song;
    int16_t *sound; /* that is encoded or written */
    size_t frames;
    uint32_t record[TRONALHET_RECORD_WORDS];
    uint8_t titles[MADE_TITLE_BYTES];
    size_t title_bytes;
    uint8_t *out;
    size_t room;
    uint8_t *result; /* within out */
    size_t result_bytes;
    uint32_t chased[2];
    bool failed;
};

static const struct operation operations[] = {
    {"read", READ, {MADE_PCM_16, 2, 4, false, 0, 0}},
    {"read-cues", READ, {MADE_PCM_16, 2, 4, false, 64, 0}},
    {"read-titles", READ, {MADE_PCM_16, 2, 4, false, 64, 128}},
    {"read-clipped", READ, {MADE_PCM_16, 2, 4, true, 0, 0}},
    {"read-ima", READ, {MADE_IMA, 2, MADE_ALIGN, false, 0, 0}},
    {"read-microsoft", READ, {MADE_MICROSOFT, 2, MADE_ALIGN, false, 0, 0}},
    {"decode-ima-mono", DECODE, {MADE_IMA, 1, MADE_ALIGN, false, 0, 0}},
    {"decode-ima-stereo", DECODE, {MADE_IMA, 2, MADE_ALIGN, false, 0, 0}},
    {"decode-ima-mono-clipped", DECODE, {MADE_IMA, 1, MADE_ALIGN, true, 0, 0}},
    {"decode-ima-stereo-clipped", DECODE, {MADE_IMA, 2, MADE_ALIGN, true, 0, 0}},
    {"decode-microsoft-mono", DECODE, {MADE_MICROSOFT, 1, MADE_ALIGN, false, 0, 0}},
    {"decode-microsoft-stereo", DECODE, {MADE_MICROSOFT, 2, MADE_ALIGN, false, 0, 0}},
    {"decode-microsoft-mono-clipped", DECODE, {MADE_MICROSOFT, 1, MADE_ALIGN, true, 0, 0}},
    {"decode-microsoft-stereo-clipped", DECODE, {MADE_MICROSOFT, 2, MADE_ALIGN, true, 0, 0}},
    {"decode-pcm-16", DECODE, {MADE_PCM_16, 2, 4, false, 0, 0}},
    {"decode-pcm-8", DECODE, {MADE_PCM_8, 2, 2, false, 0, 0}},
    {"encode-mono", ENCODE, {MADE_IMA, 1, MADE_ALIGN, false, 0, 0}},
    {"encode-stereo", ENCODE, {MADE_IMA, 2, MADE_ALIGN, false, 0, 0}},
    {"encode-mono-clipped", ENCODE, {MADE_IMA, 1, MADE_ALIGN, true, 0, 0}},
    {"encode-stereo-clipped", ENCODE, {MADE_IMA, 2, MADE_ALIGN, true, 0, 0}},
    {"write", WRITE, {MADE_PCM_16, 2, 4, false, 0, 0}},
    {"write-cues", WRITE_TABLES, {MADE_PCM_16, 2, 4, false, 64, 0}},
    {"write-titles", WRITE_TABLES, {MADE_PCM_16, 2, 4, false, 64, 128}},
    {"add", ADD, {MADE_PCM_16, 2, 4, false, 8, 0}},
};

/* ---- The jobs ---- */

static void result_is(struct work *work, size_t start, size_t bytes, bool failed)
{
    work->result = work->out + start;
    work->result_bytes = bytes;
    work->failed = failed;
}

static size_t frame_bytes(const struct work *work)
{
    return 2 * work->made.channels;
}

static void library_read(struct work *work)
{
    uint32_t refusal =
        tronalhet_read(work->file.bytes, work->file.count, (uint32_t *)work->out, TRONALHET_RECORD_WORDS,
                       work->out + RECORD_BYTES, TRONALHET_MOST_TITLE_BYTES);
    result_is(work, 0, READ_BYTES, refusal != 0);
}

static void plain_read_job(struct work *work)
{
    uint32_t refusal =
        second_read(work->file.bytes, work->file.count, (uint32_t *)work->out, TRONALHET_RECORD_WORDS,
                    work->out + RECORD_BYTES, TRONALHET_MOST_TITLE_BYTES);
    result_is(work, 0, READ_BYTES, refusal != 0);
}

static void library_decode(struct work *work)
{
    tronalhet_answer answer =
        tronalhet_decode(work->file.bytes, work->file.count, (int16_t *)work->out, work->room / 2);
    result_is(work, 0, answer.n * frame_bytes(work), answer.refusal != 0);
}

static void plain_decode_job(struct work *work)
{
    size_t frames = plain_decode(work->file.bytes, work->file.count, (int16_t *)work->out, work->room / 2);
    result_is(work, 0, frames * frame_bytes(work), frames == SIZE_MAX);
}

static void memcpy_decode(struct work *work)
{
    memcpy(work->out, work->file.sound, work->file.sound_bytes);
    result_is(work, 0, work->file.sound_bytes, false);
}

static void library_encode(struct work *work)
{
    uint32_t channels = work->made.channels;
    tronalhet_coded coded = tronalhet_encode(work->sound, work->frames * channels, (uint16_t)channels,
                                             (uint16_t)work->made.align, work->out, work->room);
    work->chased[0] = coded.left;
    work->chased[1] = coded.right;
    result_is(work, 0, coded.n, coded.refusal != 0);
}

static void plain_encode_job(struct work *work)
{
    struct plain_coded coded =
        plain_encode(work->sound, work->frames, work->made.channels, work->made.align, work->out);
    work->chased[0] = coded.chased[0];
    work->chased[1] = coded.chased[1];
    result_is(work, 0, coded.bytes, false);
}

static void library_write(struct work *work)
{
    tronalhet_answer answer =
        tronalhet_write(work->record, TRONALHET_RECORD_WORDS, work->titles, work->title_bytes,
                        (const uint8_t *)work->sound, work->frames * frame_bytes(work), work->out, work->room);
    result_is(work, 0, answer.n, answer.refusal != 0);
}

static void plain_write_tables(struct work *work)
{
    tronalhet_answer answer =
        second_write(work->record, TRONALHET_RECORD_WORDS, work->titles, work->title_bytes,
                     (const uint8_t *)work->sound, work->frames * frame_bytes(work), work->out, work->room);
    result_is(work, 0, answer.n, answer.refusal != 0);
}

static void plain_write_job(struct work *work)
{
    size_t bytes = plain_write(work->made.channels, MADE_RATE, (const uint8_t *)work->sound,
                               work->frames * frame_bytes(work), work->out);
    result_is(work, 0, bytes, false);
}

/* To where the written file has its sound. */
static void memcpy_write(struct work *work)
{
    memcpy(work->out + 44, work->sound, work->frames * frame_bytes(work));
    result_is(work, 44, work->frames * frame_bytes(work), false);
}

static void library_add(struct work *work)
{
    tronalhet_answer answer = tronalhet_add(work->file.bytes, work->file.count, work->song.bytes,
                                            work->song.count, SONG_NUMBER, UINT32_MAX, work->out, work->room);
    result_is(work, 0, answer.n, answer.refusal != 0);
}

static void plain_add_job(struct work *work)
{
    size_t bytes = plain_add(work->file.bytes, work->file.count, work->song.bytes, work->song.count,
                             SONG_NUMBER, work->out, work->room);
    result_is(work, 0, bytes, bytes == SIZE_MAX);
}

/* To where the new side has its sound: one cue of 24 and one entry of 12 bytes behind the old start. */
static void memcpy_add(struct work *work)
{
    size_t start = (size_t)(work->file.sound - work->file.bytes) + 36;
    memcpy(work->out + start, work->file.sound, work->file.sound_bytes);
    memcpy(work->out + start + work->file.sound_bytes, work->song.sound, work->song.sound_bytes);
    result_is(work, start, work->file.sound_bytes + work->song.sound_bytes, false);
}

#ifdef HAVE_SNDFILE
static void sndfile_read_job(struct work *work)
{
    size_t frames = sndfile_read(work->file.bytes, work->file.count);
    result_is(work, 0, 0, frames != work->file.frames);
}

static void sndfile_decode_job(struct work *work)
{
    size_t frames =
        sndfile_decode(work->file.bytes, work->file.count, (int16_t *)work->out, work->file.frames);
    result_is(work, 0, frames * frame_bytes(work), frames != work->file.frames);
}

static void sndfile_encode_job(struct work *work)
{
    size_t bytes = sndfile_write(true, work->made.channels, MADE_RATE, work->sound, work->frames, work->out,
                                 work->room);
    size_t blocks = work->frames / made_block_frames(&work->made) * work->made.align;
    result_is(work, bytes - blocks, blocks, bytes < blocks);
}

static void sndfile_write_job(struct work *work)
{
    size_t bytes = sndfile_write(false, work->made.channels, MADE_RATE, work->sound, work->frames, work->out,
                                 work->room);
    result_is(work, 0, bytes, bytes == 0);
}
#define OF_SNDFILE(job) job
#else
#define OF_SNDFILE(job) NULL
#endif

static void (*const runners[JOBS][CONTESTANTS])(struct work *) = {
    [READ] = {library_read, plain_read_job, NULL, OF_SNDFILE(sndfile_read_job)},
    [DECODE] = {library_decode, plain_decode_job, memcpy_decode, OF_SNDFILE(sndfile_decode_job)},
    [ENCODE] = {library_encode, plain_encode_job, NULL, OF_SNDFILE(sndfile_encode_job)},
    [WRITE] = {library_write, plain_write_job, memcpy_write, OF_SNDFILE(sndfile_write_job)},
    [WRITE_TABLES] = {library_write, plain_write_tables, NULL, NULL},
    [ADD] = {library_add, plain_add_job, memcpy_add, NULL},
};

/* ---- Getting ready ---- */

static size_t smaller(size_t one, size_t other)
{
    return one < other ? one : other;
}

/* A side and a song of about half the bytes each. */
static void make_side_and_song(struct work *work, size_t frames)
{
    struct made song = work->made;
    song.cues = 0;
    size_t most = (MADE_FILE_LIMIT - ROOM_TO_SPARE) / frame_bytes(work);
    work->frames = smaller(frames, most);
    work->file = made_wave(&work->made, work->frames / 2, true);
    work->song = made_wave(&song, work->frames - work->frames / 2, true);
    work->room = work->frames * frame_bytes(work) + ROOM_TO_SPARE;
}

static void make_sound(struct work *work, size_t frames)
{
    size_t block_frames = made_block_frames(&work->made);
    size_t most = (MADE_FILE_LIMIT - (work->made.format == MADE_IMA ? 0 : ROOM_TO_SPARE)) / frame_bytes(work);
    size_t blocks = smaller(frames, most) / block_frames;
    work->frames = blocks * block_frames;
    work->sound = made_sound(&work->made, work->frames);
    work->title_bytes = made_record(&work->made, work->frames, work->record, work->titles);
    work->room = blocks * work->made.align + ROOM_TO_SPARE;
}

static void make_ready(const struct operation *operation, size_t bytes, struct work *work)
{
    work->made = operation->made;
    size_t frames = bytes / frame_bytes(work);
    if (operation->job == ADD) {
        make_side_and_song(work, frames);
    } else if (operation->job == ENCODE || operation->job == WRITE) {
        make_sound(work, frames);
    } else if (operation->job == WRITE_TABLES) {
        make_sound(work, SHORT_FRAMES);
    } else {
        work->file = made_wave(&work->made, frames, true);
        work->frames = work->file.frames;
        work->room = operation->job == READ ? READ_BYTES : work->frames * frame_bytes(work);
    }
    work->out = made_room(work->room);
    memset(work->out, 0, work->room);
}

/* ---- Measuring ---- */

static uint64_t checksum(const uint8_t *bytes, size_t count)
{
    uint64_t sum = 14695981039346656037u ^ count;
    for (; count >= 8; count -= 8, bytes += 8) {
        uint64_t eight;
        memcpy(&eight, bytes, 8);
        sum = (sum ^ eight) * 1099511628211u;
        sum ^= sum >> 29;
    }
    for (; count > 0; count--, bytes++)
        sum = (sum ^ *bytes) * 1099511628211u;
    return sum;
}

static int64_t now(void)
{
    struct timespec time;
    clock_gettime(CLOCK_MONOTONIC, &time);
    return (int64_t)time.tv_sec * 1000000000 + time.tv_nsec;
}

static int by_size(const void *one, const void *other)
{
    int64_t a = *(const int64_t *)one;
    int64_t b = *(const int64_t *)other;
    return (a > b) - (a < b);
}

/* Short jobs are timed several at a time, since reading the clock takes as long as one of them. */
static void run_timed(void (*run)(struct work *), struct work *work, size_t repeats, int64_t at_a_time)
{
    int64_t *times = made_room(repeats * sizeof *times);
    for (size_t i = 0; i < repeats; i++) {
        int64_t start = now();
        for (int64_t k = 0; k < at_a_time; k++)
            run(work);
        times[i] = (now() - start) / at_a_time;
    }
    qsort(times, repeats, sizeof *times, by_size);
    printf("best %" PRId64 " median %" PRId64 " ", times[0], times[repeats / 2]);
    free(times);
}

static int measure(const struct operation *operation, enum who who, size_t bytes, size_t repeats, bool count)
{
    static struct work work;
    void (*run)(struct work *) = runners[operation->job][who];
    if (run == NULL || (who == MEMCPY && operation->job == DECODE && operation->made.format != MADE_PCM_16)) {
        fprintf(stderr, "measure: no such job\n");
        return 2;
    }
    make_ready(operation, bytes, &work);
    run(&work); /* warms the buffers */
    if (count) {
        for (size_t i = 0; i < repeats; i++)
            run(&work);
    } else {
        run_timed(run, &work, repeats, operation->job == READ || operation->job == WRITE_TABLES ? 100 : 1);
    }
    if (work.failed) {
        fprintf(stderr, "measure: the job failed\n");
        return 1;
    }
    printf("samples %zu file %zu result %zu chased %" PRIu32 " %" PRIu32 " checksum %016" PRIx64 "\n",
           work.frames * work.made.channels, work.file.count, work.result_bytes, work.chased[0],
           work.chased[1], checksum(work.result, work.result_bytes));
    return 0;
}

/* ---- The command ---- */

static int write_file(const char *kind, size_t bytes, const char *path)
{
    static const struct {
        const char *name;
        struct made made;
    } kinds[] = {
        {"pcm-16", {MADE_PCM_16, 2, 4, false, 0, 0}},          {"pcm-8", {MADE_PCM_8, 2, 2, false, 0, 0}},
        {"ima", {MADE_IMA, 2, MADE_ALIGN, false, 0, 0}},       {"side", {MADE_PCM_16, 2, 4, false, 8, 0}},
        {"microsoft", {MADE_MICROSOFT, 2, MADE_ALIGN, false, 0, 0}},
    };
    for (size_t i = 0; i < sizeof kinds / sizeof *kinds; i++) {
        const struct made *made = &kinds[i].made;
        if (strcmp(kind, kinds[i].name) != 0)
            continue;
        struct made_file file = made_wave(made, bytes / made->align * made_block_frames(made), true);
        FILE *to = fopen(path, "wb");
        bool written = to != NULL && fwrite(file.bytes, 1, file.count, to) == file.count;
        return to != NULL && fclose(to) == 0 && written ? 0 : 1;
    }
    fprintf(stderr, "measure: no such kind of file\n");
    return 2;
}

/* The address can be looked up among the program's symbols, since it is linked statically. */
static int show_memcpy(void)
{
    void *(*volatile chosen)(void *, const void *, size_t) = memcpy;
    printf("%016" PRIxPTR "\n", (uintptr_t)chosen);
    return 0;
}

static int show_version(void)
{
#ifdef HAVE_SNDFILE
    puts(sndfile_version());
    return 0;
#else
    return 2;
#endif
}

static int usage(void)
{
    fprintf(stderr, "usage: measure OPERATION WHO BYTES REPEATS [count]\n"
                    "       measure file KIND BYTES PATH\n"
                    "       measure agree\n"
                    "       measure memcpy\n"
                    "       measure version\n");
    return 2;
}

int main(int argc, char **argv)
{
    static const char *const contestants[] = {"library", "plain", "memcpy", "sndfile"};
    if (argc == 2 && strcmp(argv[1], "agree") == 0)
        return agree();
    if (argc == 2 && strcmp(argv[1], "memcpy") == 0)
        return show_memcpy();
    if (argc == 2 && strcmp(argv[1], "version") == 0)
        return show_version();
    if (argc < 5)
        return usage();
    size_t bytes = strtoull(argv[3], NULL, 10);
    if (strcmp(argv[1], "file") == 0)
        return write_file(argv[2], bytes, argv[4]);
    size_t repeats = strtoull(argv[4], NULL, 10);
    for (size_t i = 0; i < sizeof operations / sizeof *operations; i++) {
        for (int who = 0; who < CONTESTANTS; who++) {
            if (strcmp(argv[1], operations[i].name) == 0 && strcmp(argv[2], contestants[who]) == 0)
                return measure(&operations[i], (enum who)who, bytes, repeats, argc > 5);
        }
    }
    return usage();
}
