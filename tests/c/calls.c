/* The C test host: calls each function of tronalhet.h and checks what it gives against values worked out
 * by hand from documents 01 and 02. */
#include "tronalhet.h"

#include <stdbool.h>
#include <stdio.h>
#include <stdlib.h>
#include <string.h>

enum { WORDS = TRONALHET_RECORD_WORDS, ROOM = 4000, FILL = 0xA5 };

static unsigned checks;
static unsigned failed;

static void check(bool met, int line, const char *what)
{
    checks++;
    if (met)
        return;
    failed++;
    printf("calls.c:%d: failed: %s\n", line, what);
}

#define CHECK(condition) check(condition, __LINE__, #condition)

/* Mono, 16 bits, rate 8000, four frames; cue 7 with position 9 at place 1, played twice to the end. */
static const uint8_t cue_file[112] = {
    'R', 'I', 'F', 'F', 104, 0, 0, 0, 'W', 'A', 'V', 'E',
    'f', 'm', 't', ' ', 16, 0, 0, 0, 1, 0, 1, 0, 0x40, 0x1F, 0, 0, 0x80, 0x3E, 0, 0, 2, 0, 16, 0,
    'c', 'u', 'e', ' ', 28, 0, 0, 0, 1, 0, 0, 0,
    7, 0, 0, 0, 9, 0, 0, 0, 'd', 'a', 't', 'a', 0, 0, 0, 0, 0, 0, 0, 0, 1, 0, 0, 0,
    'p', 'l', 's', 't', 16, 0, 0, 0, 1, 0, 0, 0, 7, 0, 0, 0, 3, 0, 0, 0, 2, 0, 0, 0,
    'd', 'a', 't', 'a', 8, 0, 0, 0, 1, 0, 0xFF, 0xFF, 0xFF, 0x7F, 0, 0x80};

/* The same file with the list of its titles between plst and data: a label and a note of the cue. */
static const uint8_t title_file[158] = {
    'R', 'I', 'F', 'F', 150, 0, 0, 0, 'W', 'A', 'V', 'E',
    'f', 'm', 't', ' ', 16, 0, 0, 0, 1, 0, 1, 0, 0x40, 0x1F, 0, 0, 0x80, 0x3E, 0, 0, 2, 0, 16, 0,
    'c', 'u', 'e', ' ', 28, 0, 0, 0, 1, 0, 0, 0,
    7, 0, 0, 0, 9, 0, 0, 0, 'd', 'a', 't', 'a', 0, 0, 0, 0, 0, 0, 0, 0, 1, 0, 0, 0,
    'p', 'l', 's', 't', 16, 0, 0, 0, 1, 0, 0, 0, 7, 0, 0, 0, 3, 0, 0, 0, 2, 0, 0, 0,
    'L', 'I', 'S', 'T', 38, 0, 0, 0, 'a', 'd', 't', 'l',
    'l', 'a', 'b', 'l', 9, 0, 0, 0, 7, 0, 0, 0, 'S', 'o', 'n', 'g', 0, 0,
    'n', 'o', 't', 'e', 8, 0, 0, 0, 7, 0, 0, 0, 'a', 'b', 'c', 0,
    'd', 'a', 't', 'a', 8, 0, 0, 0, 1, 0, 0xFF, 0xFF, 0xFF, 0x7F, 0, 0x80};

/* Its texts as they are stored, and the words of its titles. */
static const uint8_t title_texts[9] = {'S', 'o', 'n', 'g', 0, 'a', 'b', 'c', 0};
static const uint32_t title_words[9] = {2, 0, 7, 0, 4, 1, 7, 5, 3};

/* The printed IMA block, mono, align 12, 17 frames. The average is 8000 x 12 / 17 = 5647. */
static const uint8_t ima_file[72] = {
    'R', 'I', 'F', 'F', 64, 0, 0, 0, 'W', 'A', 'V', 'E',
    'f', 'm', 't', ' ', 20, 0, 0, 0, 17, 0, 1, 0, 0x40, 0x1F, 0, 0, 0x0F, 0x16, 0, 0, 12, 0, 4, 0, 2, 0, 17, 0,
    'f', 'a', 'c', 't', 4, 0, 0, 0, 17, 0, 0, 0,
    'd', 'a', 't', 'a', 12, 0, 0, 0, 0x00, 0x80, 0x00, 0x00, 0x77, 0x77, 0x77, 0x77, 0x77, 0x17, 0x00, 0x00};

/* Its samples: after the start each code 7 adds s + s/2 + s/4 + s/8 and moves the index by 8; the
 * twelfth code is 1 and would pass 32767, and the zeros behind it stay there. */
static const int16_t ima_samples[17] = {-32768, -32757, -32727, -32664, -32528, -32235, -31604, -30247, -27337,
                                        -21101, -7729,  20937,  32767,  32767,  32767,  32767,  32767};

/* The printed Microsoft block, mono, align 8, four frames. The average is 8000 x 8 / 4 = 16000. */
static const uint8_t microsoft_file[98] = {
    'R', 'I', 'F', 'F', 90, 0, 0, 0, 'W', 'A', 'V', 'E',
    'f', 'm', 't', ' ', 50, 0, 0, 0, 2, 0, 1, 0, 0x40, 0x1F, 0, 0, 0x80, 0x3E, 0, 0, 8, 0, 4, 0,
    32, 0, 4, 0, 7, 0,
    0x00, 0x01, 0, 0, 0x00, 0x02, 0x00, 0xFF, 0, 0, 0, 0, 0xC0, 0, 0x40, 0, 0xF0, 0, 0, 0,
    0xCC, 0x01, 0x30, 0xFF, 0x88, 0x01, 0x18, 0xFF,
    'f', 'a', 'c', 't', 4, 0, 0, 0, 4, 0, 0, 0,
    'd', 'a', 't', 'a', 8, 0, 0, 0, 0x00, 0x10, 0x00, 0x64, 0x00, 0x32, 0x00, 0x1F};

/* A stereo frame of 8 bits, and an unknown odd chunk with a pad of 9 before it. */
static const uint8_t stereo_file[56] = {
    'R', 'I', 'F', 'F', 48, 0, 0, 0, 'W', 'A', 'V', 'E',
    'f', 'm', 't', ' ', 16, 0, 0, 0, 1, 0, 2, 0, 0x40, 0x1F, 0, 0, 0x80, 0x3E, 0, 0, 2, 0, 8, 0,
    'n', 'o', 't', 'e', 1, 0, 0, 0, 5, 9,
    'd', 'a', 't', 'a', 2, 0, 0, 0, 0, 255};

/* An empty side: mono, 16 bits, rate 8000, no sound. */
static const uint8_t empty_side[44] = {
    'R', 'I', 'F', 'F', 36, 0, 0, 0, 'W', 'A', 'V', 'E',
    'f', 'm', 't', ' ', 16, 0, 0, 0, 1, 0, 1, 0, 0x40, 0x1F, 0, 0, 0x80, 0x3E, 0, 0, 2, 0, 16, 0,
    'd', 'a', 't', 'a', 0, 0, 0, 0};

/* A song of two frames for it. */
static const uint8_t song_file[48] = {
    'R', 'I', 'F', 'F', 40, 0, 0, 0, 'W', 'A', 'V', 'E',
    'f', 'm', 't', ' ', 16, 0, 0, 0, 1, 0, 1, 0, 0x40, 0x1F, 0, 0, 0x80, 0x3E, 0, 0, 2, 0, 16, 0,
    'd', 'a', 't', 'a', 4, 0, 0, 0, 1, 0, 2, 0};

/* The side with that song as number 5. */
static const uint8_t side_of_one[108] = {
    'R', 'I', 'F', 'F', 100, 0, 0, 0, 'W', 'A', 'V', 'E',
    'f', 'm', 't', ' ', 16, 0, 0, 0, 1, 0, 1, 0, 0x40, 0x1F, 0, 0, 0x80, 0x3E, 0, 0, 2, 0, 16, 0,
    'c', 'u', 'e', ' ', 28, 0, 0, 0, 1, 0, 0, 0,
    5, 0, 0, 0, 0, 0, 0, 0, 'd', 'a', 't', 'a', 0, 0, 0, 0, 0, 0, 0, 0, 0, 0, 0, 0,
    'p', 'l', 's', 't', 16, 0, 0, 0, 1, 0, 0, 0, 5, 0, 0, 0, 2, 0, 0, 0, 1, 0, 0, 0,
    'd', 'a', 't', 'a', 4, 0, 0, 0, 1, 0, 2, 0};

/* The same side with a label of its song, the list of which stands behind the sound. */
static const uint8_t labelled_side[136] = {
    'R', 'I', 'F', 'F', 128, 0, 0, 0, 'W', 'A', 'V', 'E',
    'f', 'm', 't', ' ', 16, 0, 0, 0, 1, 0, 1, 0, 0x40, 0x1F, 0, 0, 0x80, 0x3E, 0, 0, 2, 0, 16, 0,
    'c', 'u', 'e', ' ', 28, 0, 0, 0, 1, 0, 0, 0,
    5, 0, 0, 0, 0, 0, 0, 0, 'd', 'a', 't', 'a', 0, 0, 0, 0, 0, 0, 0, 0, 0, 0, 0, 0,
    'p', 'l', 's', 't', 16, 0, 0, 0, 1, 0, 0, 0, 5, 0, 0, 0, 2, 0, 0, 0, 1, 0, 0, 0,
    'd', 'a', 't', 'a', 4, 0, 0, 0, 1, 0, 2, 0,
    'L', 'I', 'S', 'T', 20, 0, 0, 0, 'a', 'd', 't', 'l', 'l', 'a', 'b', 'l', 8, 0, 0, 0, 5, 0, 0, 0,
    'O', 'n', 'e', 0};

/* A change that makes a file refused: bytes put at a place; its line here names it where it fails. */
struct fault {
    int line;
    uint32_t refusal;
    size_t place;
    size_t count;
    char bytes[13];
};

/* Faults of cue_file, whose length stays 112. */
static const struct fault faults[] = {
    {__LINE__, 2, 0, 4, "RIFX"},
    {__LINE__, 2, 8, 4, "WAVe"},
    {__LINE__, 3, 4, 1, "\x69"},
    {__LINE__, 3, 4, 1, "\x6A"},
    {__LINE__, 4, 100, 1, "\x0A"},
    {__LINE__, 4, 100, 4, "\xFF\xFF\xFF\xFF"},
    {__LINE__, 5, 72, 4, "cue "},
    {__LINE__, 6, 12, 4, "xmt "},
    {__LINE__, 7, 72, 12, "LIST\x10\0\0\0wavl"},
    {__LINE__, 8, 96, 4, "dat_"},
    {__LINE__, 9, 20, 1, "\x03"},
    {__LINE__, 9, 22, 1, "\x03"},
    {__LINE__, 9, 24, 2, "\0\0"},
    {__LINE__, 9, 28, 1, "\x81"},
    {__LINE__, 9, 32, 1, "\x04"},
    {__LINE__, 9, 34, 1, "\x14"},
    {__LINE__, 10, 100, 1, "\x07"},
    {__LINE__, 12, 44, 1, "\x02"},
    {__LINE__, 12, 56, 1, "D"},
    {__LINE__, 12, 60, 1, "\x01"},
    {__LINE__, 12, 64, 1, "\x01"},
    {__LINE__, 12, 68, 1, "\x04"},
    {__LINE__, 13, 80, 1, "\0"},
    {__LINE__, 13, 84, 1, "\x08"},
    {__LINE__, 13, 88, 1, "\x04"},
    {__LINE__, 13, 88, 4, "\xFF\xFF\xFF\xFF"},
    {__LINE__, 13, 88, 1, "\0"},
    {__LINE__, 13, 92, 1, "\0"},
};

/* Faults of ima_file, whose one block of 17 samples has a fact count of 1 to 17. */
static const struct fault ima_faults[] = {
    {__LINE__, 4, 44, 4, "\xFF\xFF\xFF\x7F"},
    {__LINE__, 9, 32, 1, "\x0D"},
    {__LINE__, 9, 34, 1, "\x03"},
    {__LINE__, 9, 36, 1, "\x01"},
    {__LINE__, 9, 36, 1, "\x03"},
    {__LINE__, 9, 38, 1, "\x10"},
    {__LINE__, 11, 40, 4, "fakt"},
    {__LINE__, 11, 44, 1, "\x03"},
    {__LINE__, 11, 48, 1, "\0"},
    {__LINE__, 11, 48, 1, "\x12"},
    {__LINE__, 11, 48, 4, "\xFF\xFF\xFF\xFF"},
};

/* Faults of title_file: the list stands at 96, the label at 108, its text at 120, the note at 126, its text
 * at 138. */
static const struct fault title_faults[] = {
    {__LINE__, 4, 100, 4, "\xFF\xFF\xFF\x7F"},
    {__LINE__, 7, 104, 4, "wavl"},
    {__LINE__, 12, 68, 1, "\x04"},
    {__LINE__, 13, 88, 1, "\x04"},
    {__LINE__, 13, 48, 1, "\x08"},
    {__LINE__, 21, 108, 4, "note"},
    {__LINE__, 21, 112, 1, "\0"},
    {__LINE__, 21, 112, 1, "\x04"},
    {__LINE__, 21, 112, 1, "\x08"},
    {__LINE__, 21, 112, 1, "\x0A"},
    {__LINE__, 21, 112, 4, "\xFF\xFF\xFF\xFF"},
    {__LINE__, 21, 112, 4, "\xF8\xFF\xFF\xFF"},
    {__LINE__, 21, 116, 1, "\x08"},
    {__LINE__, 21, 119, 1, "\x01"},
    {__LINE__, 21, 120, 1, "\0"},
    {__LINE__, 21, 122, 1, "\0"},
    {__LINE__, 21, 124, 1, "x"},
    {__LINE__, 21, 126, 4, "labl"},
    {__LINE__, 21, 130, 1, "\x07"},
    {__LINE__, 21, 130, 1, "\x09"},
    {__LINE__, 21, 130, 1, "\x0A"},
    {__LINE__, 21, 134, 1, "\x06"},
    {__LINE__, 21, 140, 1, "\0"},
    {__LINE__, 21, 141, 1, "x"},
};

static void put_fault(uint8_t *file, const struct fault *fault)
{
    memcpy(file + fault->place, fault->bytes, fault->count);
}

/* The buffers that the refused calls get. */
static uint8_t out[ROOM];
static int16_t samples_out[ROOM];
static uint32_t record_out[WORDS + 1];
static uint8_t titles_out[ROOM];

/* Reads a file, with the buffer for titles lent. */
static uint32_t read_file(const uint8_t *file, size_t bytes, uint32_t *record, size_t words)
{
    return tronalhet_read(file, bytes, record, words, titles_out, ROOM);
}

/* Writes a file without titles. */
static tronalhet_answer write_file(const uint32_t *record, size_t words, const uint8_t *sound,
                                   size_t sound_bytes, uint8_t *file, size_t room)
{
    return tronalhet_write(record, words, NULL, 0, sound, sound_bytes, file, room);
}

static void fill_buffers(void)
{
    memset(out, FILL, sizeof out);
    memset(samples_out, FILL, sizeof samples_out);
    memset(record_out, FILL, sizeof record_out);
    memset(titles_out, FILL, sizeof titles_out);
}

static bool is_filled(const void *from, size_t bytes)
{
    const uint8_t *at = from;
    for (size_t i = 0; i < bytes; i++) {
        if (at[i] != FILL)
            return false;
    }
    return true;
}

static bool buffers_are_untouched(void)
{
    return is_filled(out, sizeof out) && is_filled(samples_out, sizeof samples_out) &&
           is_filled(record_out, sizeof record_out) && is_filled(titles_out, sizeof titles_out);
}

static bool refuses(tronalhet_answer answer, uint32_t refusal)
{
    return answer.refusal == refusal && answer.n == 0;
}

static bool refuses_coded(tronalhet_coded coded, uint32_t refusal)
{
    return coded.refusal == refusal && coded.n == 0 && coded.left == 0 && coded.right == 0;
}

static bool gives(tronalhet_answer answer, size_t n)
{
    return answer.refusal == 0 && answer.n == n;
}

/* A file once more, since buffers that are lent together do not overlap. */
static const uint8_t *copy_of(const uint8_t *file, size_t bytes)
{
    static uint8_t copy[158];
    if (bytes > 0)
        memcpy(copy, file, bytes);
    return copy;
}

/* Each function that reads a file gives this refusal and touches nothing. */
static void check_refused_file(const uint8_t *file, size_t bytes, uint32_t refusal, int line)
{
    size_t start = 77;
    fill_buffers();
    check(read_file(file, bytes, record_out, WORDS + 1) == refusal, line, "read refuses the file");
    check(tronalhet_read(file, bytes, NULL, 0, NULL, 0) == refusal, line, "read refuses the file before 14");
    check(refuses(tronalhet_sound(file, bytes, &start, 1), refusal), line, "sound refuses the file");
    check(refuses(tronalhet_sound(file, bytes, NULL, 0), refusal), line, "sound refuses the file before 14");
    check(start == 77, line, "sound keeps its start");
    check(refuses(tronalhet_decode(file, bytes, samples_out, ROOM), refusal), line, "decode refuses the file");
    check(refuses(tronalhet_decode_block(file, bytes, 0, samples_out, ROOM), refusal), line,
          "decode_block refuses the file");
    check(refuses(tronalhet_add(empty_side, 44, file, bytes, 5, 1000, out, ROOM), refusal), line,
          "add refuses the song");
    check(refuses(tronalhet_add(file, bytes, song_file, 48, 5, 1000, out, ROOM), 19), line,
          "add refuses the side");
    check(refuses(tronalhet_add(file, bytes, copy_of(file, bytes), bytes, 5, 1000, out, ROOM), refusal), line,
          "add refuses the song before the side");
    check(buffers_are_untouched(), line, "refused calls touch no buffer");
}

static void check_faults(void)
{
    uint8_t file[158];
    for (size_t i = 0; i < sizeof faults / sizeof faults[0]; i++) {
        memcpy(file, cue_file, sizeof cue_file);
        put_fault(file, &faults[i]);
        check_refused_file(file, sizeof cue_file, faults[i].refusal, faults[i].line);
    }
    for (size_t i = 0; i < sizeof ima_faults / sizeof ima_faults[0]; i++) {
        memcpy(file, ima_file, sizeof ima_file);
        put_fault(file, &ima_faults[i]);
        check_refused_file(file, sizeof ima_file, ima_faults[i].refusal, ima_faults[i].line);
    }
    for (size_t i = 0; i < sizeof title_faults / sizeof title_faults[0]; i++) {
        memcpy(file, title_file, sizeof title_file);
        put_fault(file, &title_faults[i]);
        check_refused_file(file, sizeof title_file, title_faults[i].refusal, title_faults[i].line);
    }
    memcpy(file, cue_file, sizeof cue_file);
    check_refused_file(NULL, 0, 1, __LINE__);
    check_refused_file(file, 0, 1, __LINE__);
    check_refused_file(file, 11, 1, __LINE__);
    check_refused_file(file, 12, 3, __LINE__);
    check_refused_file(file, 111, 3, __LINE__);
    memcpy(file + 4, "\x04\0\0", 4);
    check_refused_file(file, 12, 8, __LINE__);
    memcpy(file + 4, "\x06\0\0", 4);
    check_refused_file(file, 14, 4, __LINE__);
}

/* The words of cue_file, written out. */
static void fill_cue_record(uint32_t *record)
{
    const uint32_t start[12] = {1, 1, 8000, 16, 2, 1, 4, 1, 1, 7, 9, 1};
    const uint32_t entry[3] = {7, 3, 2};
    memset(record, 0, WORDS * sizeof *record);
    memcpy(record, start, sizeof start);
    memcpy(record + 201, entry, sizeof entry);
}

static void check_read(void)
{
    uint32_t right[WORDS];
    fill_cue_record(right);
    fill_buffers();
    CHECK(read_file(cue_file, 112, record_out, WORDS) == 0);
    CHECK(memcmp(record_out, right, sizeof right) == 0);
    CHECK(is_filled(record_out + WORDS, sizeof record_out[0]));
    fill_buffers();
    CHECK(read_file(cue_file, 112, record_out, WORDS + 1) == 0);
    CHECK(memcmp(record_out, right, sizeof right) == 0);
    CHECK(is_filled(record_out + WORDS, sizeof record_out[0]));
    fill_buffers();
    CHECK(read_file(cue_file, 112, record_out, WORDS - 1) == 14);
    CHECK(read_file(cue_file, 112, record_out, 0) == 14);
    CHECK(read_file(cue_file, 112, NULL, 0) == 14);
    CHECK(buffers_are_untouched());
    CHECK(tronalhet_read(cue_file, 112, record_out, WORDS, NULL, 0) == 0);
    CHECK(memcmp(record_out, right, sizeof right) == 0);
}

/* The record of title_file is that of cue_file but for its titles. */
static void fill_title_record(uint32_t *record)
{
    fill_cue_record(record);
    memcpy(record + 393, title_words, sizeof title_words);
}

/* Texts are stored where both buffers suffice, and else nothing in either. */
static void check_read_titles(void)
{
    uint32_t right[WORDS];
    fill_title_record(right);
    for (size_t room = 9; room <= 12; room++) {
        fill_buffers();
        CHECK(tronalhet_read(title_file, 158, record_out, WORDS, titles_out, room) == 0);
        CHECK(memcmp(record_out, right, sizeof right) == 0);
        CHECK(memcmp(titles_out, title_texts, sizeof title_texts) == 0);
        CHECK(is_filled(titles_out + 9, sizeof titles_out - 9));
    }
    fill_buffers();
    CHECK(tronalhet_read(title_file, 158, record_out, WORDS, titles_out, 8) == 14);
    CHECK(tronalhet_read(title_file, 158, record_out, WORDS, titles_out, 0) == 14);
    CHECK(tronalhet_read(title_file, 158, record_out, WORDS, NULL, 0) == 14);
    CHECK(tronalhet_read(title_file, 158, record_out, WORDS - 1, titles_out, 9) == 14);
    CHECK(tronalhet_read(title_file, 158, record_out, 393, titles_out, ROOM) == 14);
    CHECK(tronalhet_read(title_file, 158, NULL, 0, titles_out, ROOM) == 14);
    CHECK(tronalhet_read(title_file, 158, NULL, 0, NULL, 0) == 14);
    CHECK(buffers_are_untouched());
}

/* Lists without titles, of another kind, with chunks that are skipped, and a pad of any value. */
static void check_other_lists(void)
{
    uint8_t file[158];
    uint32_t right[WORDS];
    fill_cue_record(right);
    memcpy(file, title_file, sizeof title_file);
    memcpy(file + 104, "INFO", 4);
    CHECK(tronalhet_read(file, 158, record_out, WORDS, NULL, 0) == 0);
    CHECK(memcmp(record_out, right, sizeof right) == 0);
    memcpy(file, title_file, sizeof title_file);
    memcpy(file + 108, "ltxt", 4);
    memcpy(file + 126, "file", 4);
    CHECK(tronalhet_read(file, 158, record_out, WORDS, NULL, 0) == 0);
    CHECK(memcmp(record_out, right, sizeof right) == 0);
    memcpy(file + 126, "note", 4);
    file[125] = 9;
    fill_buffers();
    CHECK(tronalhet_read(file, 158, record_out, WORDS, titles_out, 4) == 0);
    right[393] = 1;
    memcpy(right + 394, ((const uint32_t[]){1, 7, 0, 3}), 4 * sizeof right[0]);
    CHECK(memcmp(record_out, right, sizeof right) == 0);
    CHECK(memcmp(titles_out, "abc", 4) == 0 && is_filled(titles_out + 4, sizeof titles_out - 4));
}

/* A label at the file's end lacks its pad, where the list lacks its own: 109 bytes; not where there is one
 * more byte, the pad of the list. */
static void check_titles_without_pad(void)
{
    uint8_t file[110] = {
        'R', 'I', 'F', 'F', 101, 0, 0, 0, 'W', 'A', 'V', 'E',
        'f', 'm', 't', ' ', 16, 0, 0, 0, 1, 0, 1, 0, 0x40, 0x1F, 0, 0, 0x40, 0x1F, 0, 0, 1, 0, 8, 0,
        'd', 'a', 't', 'a', 1, 0, 0, 0, 200, 0,
        'c', 'u', 'e', ' ', 28, 0, 0, 0, 1, 0, 0, 0,
        7, 0, 0, 0, 0, 0, 0, 0, 'd', 'a', 't', 'a', 0, 0, 0, 0, 0, 0, 0, 0, 0, 0, 0, 0,
        'L', 'I', 'S', 'T', 19, 0, 0, 0, 'a', 'd', 't', 'l',
        'l', 'a', 'b', 'l', 7, 0, 0, 0, 7, 0, 0, 0, 'a', 'b', 0};
    CHECK(read_file(file, 109, record_out, WORDS) == 0);
    CHECK(record_out[393] == 1 && record_out[396] == 0 && record_out[397] == 2);
    CHECK(memcmp(titles_out, "ab", 3) == 0);
    file[4] = 102;
    check_refused_file(file, 110, 21, __LINE__);
    file[86] = 20;
    CHECK(read_file(file, 110, record_out, WORDS) == 0);
    CHECK(record_out[393] == 1 && record_out[397] == 2);
}

static void check_read_formats(void)
{
    const uint32_t ima[9] = {17, 1, 8000, 4, 12, 17, 17, 0, 0};
    const uint32_t microsoft[9] = {2, 1, 8000, 4, 8, 4, 4, 0, 0};
    const uint32_t stereo[9] = {1, 2, 8000, 8, 2, 1, 1, 0, 0};
    const uint32_t zeros[WORDS - 9] = {0};
    CHECK(read_file(ima_file, 72, record_out, WORDS) == 0);
    CHECK(memcmp(record_out, ima, sizeof ima) == 0);
    CHECK(read_file(microsoft_file, 98, record_out, WORDS) == 0);
    CHECK(memcmp(record_out, microsoft, sizeof microsoft) == 0);
    CHECK(read_file(stereo_file, 56, record_out, WORDS) == 0);
    CHECK(memcmp(record_out, stereo, sizeof stereo) == 0);
    CHECK(memcmp(record_out + 9, zeros, sizeof zeros) == 0);
}

/* The places of a record's words by their names: these files tell any two places apart. */
static void check_places(void)
{
    const uint32_t *cue = record_out + TRONALHET_FIRST_CUE;
    const uint32_t *entry = record_out + TRONALHET_FIRST_ENTRY;
    uint8_t file[112];
    CHECK(read_file(cue_file, 112, record_out, WORDS) == TRONALHET_ACCEPTED);
    CHECK(record_out[TRONALHET_TAG] == TRONALHET_PCM && record_out[TRONALHET_BITS] == 16);
    CHECK(record_out[TRONALHET_CUES] == 1 && record_out[TRONALHET_ENTRIES] == 1);
    CHECK(cue[TRONALHET_CUE_NAME] == 7 && cue[TRONALHET_CUE_POSITION] == 9 && cue[TRONALHET_CUE_PLACE] == 1);
    CHECK(entry[TRONALHET_ENTRY_NAME] == 7 && entry[TRONALHET_ENTRY_LENGTH] == 3);
    CHECK(entry[TRONALHET_ENTRY_TIMES] == 2);
    memcpy(file, cue_file, sizeof cue_file);
    memcpy(file + 72, "skip", 4);
    CHECK(read_file(file, 112, record_out, WORDS) == TRONALHET_ACCEPTED);
    CHECK(record_out[TRONALHET_CUES] == 1 && record_out[TRONALHET_ENTRIES] == 0);
    memcpy(file, ima_file, sizeof ima_file);
    file[48] = 5;
    CHECK(read_file(file, 72, record_out, WORDS) == TRONALHET_ACCEPTED);
    CHECK(record_out[TRONALHET_TAG] == TRONALHET_IMA && record_out[TRONALHET_CHANNELS] == 1);
    CHECK(record_out[TRONALHET_RATE] == 8000 && record_out[TRONALHET_BITS] == 4);
    CHECK(record_out[TRONALHET_ALIGN] == 12 && record_out[TRONALHET_SAMPLES] == 17);
    CHECK(record_out[TRONALHET_FRAMES] == 5 && record_out[TRONALHET_CUES] == 0);
    CHECK(read_file(microsoft_file, 98, record_out, WORDS) == TRONALHET_ACCEPTED);
    CHECK(record_out[TRONALHET_TAG] == TRONALHET_MICROSOFT && record_out[TRONALHET_SAMPLES] == 4);
    const uint32_t *note = record_out + TRONALHET_FIRST_TITLE + TRONALHET_TITLE_WORDS;
    CHECK(read_file(title_file, 158, record_out, WORDS) == TRONALHET_ACCEPTED);
    CHECK(record_out[TRONALHET_TITLES] == 2);
    CHECK(record_out[TRONALHET_FIRST_TITLE + TRONALHET_TITLE_KIND] == TRONALHET_LABEL);
    CHECK(note[TRONALHET_TITLE_KIND] == TRONALHET_NOTE && note[TRONALHET_TITLE_NAME] == 7);
    CHECK(note[TRONALHET_TITLE_START] == 5 && note[TRONALHET_TITLE_LENGTH] == 3);
}

/* The last cue, entry and title are those before what comes next, and the version is its three numbers. */
static void check_counts(void)
{
    char version[32];
    CHECK(TRONALHET_FIRST_CUE + TRONALHET_CUE_WORDS * TRONALHET_MOST_ENTRIES == TRONALHET_FIRST_ENTRY);
    CHECK(TRONALHET_FIRST_ENTRY + TRONALHET_ENTRY_WORDS * TRONALHET_MOST_ENTRIES == TRONALHET_TITLES);
    CHECK(TRONALHET_TITLES + 1 == TRONALHET_FIRST_TITLE);
    CHECK(TRONALHET_FIRST_TITLE + TRONALHET_TITLE_WORDS * TRONALHET_MOST_TITLES == TRONALHET_RECORD_WORDS);
    CHECK(TRONALHET_MOST_TITLES == 2 * TRONALHET_MOST_ENTRIES);
    CHECK(TRONALHET_MOST_TITLE_BYTES == 256 * TRONALHET_MOST_TITLES);
    snprintf(version, sizeof version, "%d.%d.%d", TRONALHET_VERSION_MAJOR, TRONALHET_VERSION_MINOR,
             TRONALHET_VERSION_PATCH);
    CHECK(strcmp(version, TRONALHET_VERSION) == 0);
}

static void check_sound(void)
{
    size_t start[2] = {77, 78};
    CHECK(gives(tronalhet_sound(cue_file, 112, start, 1), 8));
    CHECK(start[0] == 104 && start[1] == 78);
    CHECK(gives(tronalhet_sound(ima_file, 72, start, 2), 12));
    CHECK(start[0] == 60 && start[1] == 78);
    CHECK(gives(tronalhet_sound(microsoft_file, 98, start, 1), 8));
    CHECK(start[0] == 90);
    CHECK(gives(tronalhet_sound(stereo_file, 56, start, 1), 2));
    CHECK(start[0] == 54);
    CHECK(gives(tronalhet_sound(empty_side, 44, start, 1), 0));
    CHECK(start[0] == 44);
    CHECK(gives(tronalhet_sound(title_file, 158, start, 1), 8));
    CHECK(start[0] == 150);
    start[0] = 77;
    CHECK(refuses(tronalhet_sound(cue_file, 112, start, 0), 14));
    CHECK(refuses(tronalhet_sound(cue_file, 112, NULL, 0), 14));
    CHECK(start[0] == 77);
}

/* Writes a file from its own record and sound, and expects the same bytes again. */
static void check_written_again(const uint8_t *file, size_t bytes, int line)
{
    uint32_t record[WORDS];
    size_t start = 0;
    fill_buffers();
    check(read_file(file, bytes, record, WORDS) == 0, line, "the file is read");
    tronalhet_answer sound = tronalhet_sound(file, bytes, &start, 1);
    tronalhet_answer answer =
        tronalhet_write(record, WORDS, titles_out, ROOM, file + start, sound.n, out, bytes);
    check(gives(answer, bytes), line, "the file is written again");
    check(memcmp(out, file, bytes) == 0, line, "the written file is the same");
    check(is_filled(out + bytes, sizeof out - bytes), line, "the rest of the buffer is untouched");
}

static void check_write(void)
{
    uint32_t record[WORDS + 1];
    uint32_t again[WORDS];
    const uint8_t *sound = cue_file + 104;
    fill_cue_record(record);
    record[WORDS] = 4;
    fill_buffers();
    CHECK(gives(write_file(record, WORDS, sound, 8, out, ROOM), 112));
    CHECK(memcmp(out, cue_file, 112) == 0);
    CHECK(is_filled(out + 112, sizeof out - 112));
    CHECK(read_file(out, 112, again, WORDS) == 0);
    CHECK(memcmp(again, record, sizeof again) == 0);
    record[12] = 1;
    record[200] = 4;
    record[204] = 1;
    record[392] = 4;
    record[394] = 2;
    record[905] = 4;
    fill_buffers();
    CHECK(gives(write_file(record, WORDS + 1, sound, 8, out, 112), 112));
    CHECK(memcmp(out, cue_file, 112) == 0);
    check_written_again(cue_file, 112, __LINE__);
    check_written_again(title_file, 158, __LINE__);
    check_written_again(ima_file, 72, __LINE__);
    check_written_again(microsoft_file, 98, __LINE__);
    check_written_again(empty_side, 44, __LINE__);
    check_written_again(song_file, 48, __LINE__);
}

/* One odd byte of sound: 46 bytes, and the writer's pad is zero. */
static void check_write_odd(void)
{
    const uint32_t start[9] = {1, 1, 8000, 8, 1, 1, 1, 0, 0};
    const uint8_t right[10] = {'d', 'a', 't', 'a', 1, 0, 0, 0, 200, 0};
    uint32_t record[WORDS] = {0};
    uint8_t sound = 200;
    memcpy(record, start, sizeof start);
    fill_buffers();
    CHECK(refuses(write_file(record, WORDS, &sound, 1, out, 45), 14));
    CHECK(buffers_are_untouched());
    CHECK(gives(write_file(record, WORDS, &sound, 1, out, 46), 46));
    CHECK(memcmp(out + 36, right, sizeof right) == 0);
    CHECK(is_filled(out + 46, sizeof out - 46));
    record[6] = 0;
    fill_buffers();
    CHECK(gives(write_file(record, WORDS, NULL, 0, out, 46), 44));
    CHECK(is_filled(out + 44, sizeof out - 44));
}

/* The same byte without its pad: 45 bytes, where R is 37 and is 3 if it counts the pad. What is written has it. */
static void check_read_without_pad(void)
{
    const uint32_t start[9] = {1, 1, 8000, 8, 1, 1, 1, 0, 0};
    uint8_t file[45] = {
        'R', 'I', 'F', 'F', 37, 0, 0, 0, 'W', 'A', 'V', 'E',
        'f', 'm', 't', ' ', 16, 0, 0, 0, 1, 0, 1, 0, 0x40, 0x1F, 0, 0, 0x40, 0x1F, 0, 0, 1, 0, 8, 0,
        'd', 'a', 't', 'a', 1, 0, 0, 0, 200};
    uint32_t record[WORDS];
    size_t place = 0;
    CHECK(read_file(file, sizeof file, record, WORDS) == 0);
    CHECK(memcmp(record, start, sizeof start) == 0);
    CHECK(gives(tronalhet_sound(file, sizeof file, &place, 1), 1));
    CHECK(place == 44);
    fill_buffers();
    CHECK(gives(tronalhet_decode(file, sizeof file, samples_out, 1), 1));
    CHECK(samples_out[0] == 18432);
    CHECK(gives(write_file(record, WORDS, file + place, 1, out, 46), 46));
    CHECK(out[4] == 38 && out[45] == 0);
    CHECK(memcmp(out + 8, file + 8, 37) == 0);
    file[4] = 38;
    CHECK(read_file(file, sizeof file, record, WORDS) == 3);
}

/* One word of cue_file's record changed, with the refusal that this gives. */
struct word_fault {
    int line;
    uint32_t refusal;
    size_t place;
    uint32_t value;
};

static const struct word_fault word_faults[] = {
    {__LINE__, 9, 0, 0},
    {__LINE__, 9, 0, 65537},
    {__LINE__, 9, 0, 17},
    {__LINE__, 9, 1, 0},
    {__LINE__, 9, 1, 3},
    {__LINE__, 9, 1, 65537},
    {__LINE__, 9, 2, 0},
    {__LINE__, 9, 2, 192001},
    {__LINE__, 9, 2, 4294967295u},
    {__LINE__, 9, 3, 4},
    {__LINE__, 9, 3, 65552},
    {__LINE__, 9, 4, 4},
    {__LINE__, 9, 4, 65538},
    {__LINE__, 9, 5, 0},
    {__LINE__, 9, 5, 2},
    {__LINE__, 9, 5, 65537},
    {__LINE__, 11, 6, 3},
    {__LINE__, 11, 6, 5},
    {__LINE__, 11, 6, 4294967295u},
    {__LINE__, 12, 7, 65},
    {__LINE__, 12, 7, 4294967295u},
    {__LINE__, 12, 11, 4},
    {__LINE__, 12, 11, 4294967295u},
    {__LINE__, 13, 7, 0},
    {__LINE__, 13, 8, 65},
    {__LINE__, 13, 8, 4294967295u},
    {__LINE__, 13, 201, 8},
    {__LINE__, 13, 202, 0},
    {__LINE__, 13, 202, 4},
    {__LINE__, 13, 202, 4294967295u},
    {__LINE__, 13, 203, 0},
};

static void check_write_refusals(void)
{
    uint32_t record[WORDS];
    const uint8_t *sound = cue_file + 104;
    fill_buffers();
    for (size_t i = 0; i < sizeof word_faults / sizeof word_faults[0]; i++) {
        const struct word_fault *fault = &word_faults[i];
        fill_cue_record(record);
        record[fault->place] = fault->value;
        tronalhet_answer answer = write_file(record, WORDS, sound, 8, out, ROOM);
        check(refuses(answer, fault->refusal), fault->line, "write refuses the word");
        answer = write_file(record, WORDS, sound, 8, NULL, 0);
        check(refuses(answer, fault->refusal), fault->line, "write refuses the word before 14");
    }
    fill_cue_record(record);
    CHECK(refuses(write_file(NULL, 0, sound, 8, out, ROOM), 9));
    CHECK(refuses(write_file(record, 0, sound, 8, out, ROOM), 9));
    CHECK(refuses(write_file(record, WORDS - 1, sound, 8, out, ROOM), 9));
    CHECK(refuses(write_file(record, WORDS, sound, 7, out, ROOM), 10));
    CHECK(refuses(write_file(record, WORDS, sound, 6, out, ROOM), 11));
    CHECK(refuses(write_file(record, WORDS, NULL, 0, out, ROOM), 11));
    CHECK(refuses(write_file(record, WORDS, sound, 8, out, 111), 14));
    CHECK(refuses(write_file(record, WORDS, sound, 8, out, 0), 14));
    CHECK(refuses(write_file(record, WORDS, sound, 8, NULL, 0), 14));
    record[10] = 4294967295u;
    record[7] = 2;
    record[12] = 7;
    CHECK(refuses(write_file(record, WORDS, sound, 8, out, ROOM), 12));
    CHECK(buffers_are_untouched());
}

/* One word of title_file's record changed, so that its titles are not as reading gives them. */
static const struct word_fault title_word_faults[] = {
    {__LINE__, 21, 393, 3},
    {__LINE__, 21, 393, 129},
    {__LINE__, 21, 393, 4294967295u},
    {__LINE__, 21, 394, 1},
    {__LINE__, 21, 394, 2},
    {__LINE__, 21, 394, 4294967295u},
    {__LINE__, 21, 395, 8},
    {__LINE__, 21, 395, 0},
    {__LINE__, 21, 396, 1},
    {__LINE__, 21, 396, 4294967295u},
    {__LINE__, 21, 397, 3},
    {__LINE__, 21, 397, 5},
    {__LINE__, 21, 397, 8},
    {__LINE__, 21, 397, 256},
    {__LINE__, 21, 397, 4294967295u},
    {__LINE__, 21, 398, 0},
    {__LINE__, 21, 398, 256},
    {__LINE__, 21, 399, 6},
    {__LINE__, 21, 400, 0},
    {__LINE__, 21, 400, 4},
    {__LINE__, 21, 400, 6},
    {__LINE__, 21, 401, 2},
    {__LINE__, 21, 401, 4},
    {__LINE__, 21, 401, 4294967295u},
    {__LINE__, 13, 201, 8},
    {__LINE__, 12, 11, 4},
};

/* Writes title_file's record with one word changed, or with other texts. */
static tronalhet_answer write_titles(const struct word_fault *fault, const uint8_t *texts, size_t text_bytes,
                                     uint8_t *to, size_t room)
{
    uint32_t record[WORDS];
    fill_title_record(record);
    if (fault != NULL)
        record[fault->place] = fault->value;
    return tronalhet_write(record, WORDS, texts, text_bytes, title_file + 150, 8, to, room);
}

/* Titles are written between plst and data; what stands behind their texts, and words past their count, is no
 * part of them. */
static void check_write_titles(void)
{
    const uint8_t longer[12] = {'S', 'o', 'n', 'g', 0, 'a', 'b', 'c', 0, 'x', 0, 0};
    const struct word_fault past = {__LINE__, 0, 402, 5};
    const struct word_fault fewer = {__LINE__, 0, 393, 1};
    const uint8_t label[24] = {'L', 'I', 'S', 'T', 22, 0, 0, 0, 'a', 'd', 't', 'l',
                               'l', 'a', 'b', 'l', 9,  0, 0, 0, 7,   0,   0,   0};
    fill_buffers();
    CHECK(gives(write_titles(NULL, title_texts, 9, out, 158), 158));
    CHECK(memcmp(out, title_file, 158) == 0);
    CHECK(is_filled(out + 158, sizeof out - 158));
    CHECK(gives(write_titles(&past, longer, 12, out, ROOM), 158));
    CHECK(memcmp(out, title_file, 158) == 0);
    CHECK(gives(write_titles(&fewer, title_texts, 5, out, ROOM), 142));
    CHECK(memcmp(out + 96, label, sizeof label) == 0);
    CHECK(memcmp(out + 120, "Song\0\0data", 10) == 0);
}

static void check_write_title_refusals(void)
{
    uint8_t texts[9];
    fill_buffers();
    for (size_t i = 0; i < sizeof title_word_faults / sizeof title_word_faults[0]; i++) {
        const struct word_fault *fault = &title_word_faults[i];
        check(refuses(write_titles(fault, title_texts, 9, out, ROOM), fault->refusal), fault->line,
              "write refuses the title");
        check(refuses(write_titles(fault, title_texts, 9, NULL, 0), fault->refusal), fault->line,
              "write refuses the title before 14");
    }
    CHECK(refuses(write_titles(NULL, title_texts, 8, out, ROOM), 21));
    CHECK(refuses(write_titles(NULL, title_texts, 5, out, ROOM), 21));
    CHECK(refuses(write_titles(NULL, title_texts, 0, out, ROOM), 21));
    CHECK(refuses(write_titles(NULL, NULL, 0, out, ROOM), 21));
    for (size_t i = 0; i < 9; i++) {
        memcpy(texts, title_texts, 9);
        texts[i] = texts[i] == 0 ? 'x' : 0;
        CHECK(refuses(write_titles(NULL, texts, 9, out, ROOM), 21));
    }
    CHECK(refuses(write_titles(NULL, title_texts, 9, out, 157), 14));
    CHECK(refuses(write_titles(NULL, title_texts, 9, NULL, 0), 14));
    CHECK(buffers_are_untouched());
}

/* Decodes a file into exact room, and with a sample too few. */
static void check_decoded(const uint8_t *file, size_t bytes, const int16_t *right, size_t samples,
                          size_t frames, int line)
{
    fill_buffers();
    check(refuses(tronalhet_decode(file, bytes, samples_out, samples - 1), 14), line, "a sample too few is 14");
    check(refuses(tronalhet_decode(file, bytes, NULL, 0), 14), line, "no room is 14");
    check(buffers_are_untouched(), line, "14 touches no buffer");
    check(gives(tronalhet_decode(file, bytes, samples_out, samples), frames), line, "the file is decoded");
    check(memcmp(samples_out, right, samples * sizeof *right) == 0, line, "the samples are right");
    check(is_filled(samples_out + samples, (ROOM - samples) * sizeof *right), line, "the rest is untouched");
}

static void check_decode(void)
{
    const int16_t cue_samples[4] = {1, -1, 32767, -32768};
    const int16_t stereo_samples[2] = {-32768, 32512};
    const int16_t microsoft_samples[4] = {50, 100, 116, 100};
    uint8_t file[98];
    check_decoded(cue_file, 112, cue_samples, 4, 4, __LINE__);
    check_decoded(title_file, 158, cue_samples, 4, 4, __LINE__);
    check_decoded(stereo_file, 56, stereo_samples, 2, 1, __LINE__);
    check_decoded(ima_file, 72, ima_samples, 17, 17, __LINE__);
    check_decoded(microsoft_file, 98, microsoft_samples, 4, 4, __LINE__);
    CHECK(gives(tronalhet_decode(empty_side, 44, NULL, 0), 0));
    fill_buffers();
    CHECK(gives(tronalhet_decode(empty_side, 44, samples_out, ROOM), 0));
    CHECK(buffers_are_untouched());
    memcpy(file, ima_file, sizeof ima_file);
    file[62] = 89;
    CHECK(refuses(tronalhet_decode(file, 72, samples_out, 17), 15));
    CHECK(refuses(tronalhet_decode(file, 72, samples_out, 16), 14));
    memcpy(file, microsoft_file, sizeof microsoft_file);
    file[90] = 7;
    CHECK(refuses(tronalhet_decode(file, 98, samples_out, 4), 15));
    CHECK(refuses(tronalhet_decode(file, 98, samples_out, 3), 14));
    CHECK(buffers_are_untouched());
}

/* A file of one frame still has the whole block behind it. */
static void check_decode_block(void)
{
    uint8_t file[72];
    memcpy(file, ima_file, sizeof ima_file);
    file[48] = 1;
    fill_buffers();
    CHECK(gives(tronalhet_decode(file, 72, samples_out, 1), 1));
    CHECK(samples_out[0] == -32768 && is_filled(samples_out + 1, (ROOM - 1) * sizeof samples_out[0]));
    CHECK(gives(tronalhet_decode_block(file, 72, 0, samples_out, 17), 17));
    CHECK(memcmp(samples_out, ima_samples, sizeof ima_samples) == 0);
    CHECK(is_filled(samples_out + 17, (ROOM - 17) * sizeof samples_out[0]));
    CHECK(gives(tronalhet_decode_block(microsoft_file, 98, 0, samples_out, ROOM), 4));
    CHECK(samples_out[0] == 50 && samples_out[1] == 100 && samples_out[2] == 116 && samples_out[3] == 100);
    fill_buffers();
    CHECK(refuses(tronalhet_decode_block(cue_file, 112, 0, samples_out, ROOM), 20));
    CHECK(refuses(tronalhet_decode_block(stereo_file, 56, 0, NULL, 0), 20));
    CHECK(refuses(tronalhet_decode_block(file, 72, 1, samples_out, ROOM), 20));
    CHECK(refuses(tronalhet_decode_block(file, 72, 4294967295u, samples_out, 0), 20));
    CHECK(refuses(tronalhet_decode_block(file, 72, 0x40000000u, samples_out, ROOM), 20));
    CHECK(refuses(tronalhet_decode_block(file, 72, 0, samples_out, 16), 14));
    CHECK(refuses(tronalhet_decode_block(file, 72, 0, NULL, 0), 14));
    file[62] = 89;
    CHECK(refuses(tronalhet_decode_block(file, 72, 0, samples_out, 17), 15));
    CHECK(refuses(tronalhet_decode_block(file, 72, 0, samples_out, 16), 14));
    CHECK(refuses(tronalhet_decode_block(file, 72, 1, samples_out, 17), 20));
    CHECK(buffers_are_untouched());
}

static bool codes(tronalhet_coded coded, size_t n, uint32_t left, uint32_t right)
{
    return coded.refusal == 0 && coded.n == n && coded.left == left && coded.right == right;
}

/* The printed example; then 0, 1000, whose fill is chased no more: codes 7 7 7 7 7 5 0 8. */
static void check_encode(void)
{
    const int16_t printed[17] = {-32768, 32767, 32767, 32767, 32767, 32767, 32767, 32767, 32767,
                                 32767,  32767, 32767, 32767, 32767, 32767, 32767, 32767};
    const int16_t jump[2] = {0, 1000};
    const uint8_t jump_block[8] = {0, 0, 0, 0, 0x77, 0x77, 0x57, 0x80};
    const uint8_t stereo_block[16] = {0, 0, 0, 0, 0xE8, 0x03, 0, 0};
    const int16_t pair[2] = {0, 1000};
    fill_buffers();
    CHECK(codes(tronalhet_encode(printed, 17, 1, 12, out, 12), 12, 11, 0));
    CHECK(memcmp(out, ima_file + 60, 12) == 0);
    CHECK(is_filled(out + 12, sizeof out - 12));
    CHECK(codes(tronalhet_encode(jump, 2, 1, 8, out, ROOM), 8, 1, 0));
    CHECK(memcmp(out, jump_block, 8) == 0);
    fill_buffers();
    CHECK(codes(tronalhet_encode(pair, 2, 2, 16, out, 16), 16, 0, 0));
    CHECK(memcmp(out, stereo_block, 16) == 0);
    CHECK(is_filled(out + 16, sizeof out - 16));
    fill_buffers();
    CHECK(codes(tronalhet_encode(NULL, 0, 1, 8, NULL, 0), 0, 0, 0));
    CHECK(codes(tronalhet_encode(printed, 0, 2, 4096, out, ROOM), 0, 0, 0));
    CHECK(buffers_are_untouched());
}

/* Two stereo frames: only the right channel jumps, by 1000, and is chased once. Then ten mono samples in
 * blocks of nine: the codes 7 0 8 8 0 8 0 8 leave 11 at index 1, where the second block starts; its fill
 * has the codes 0 9 0 0 0 0 0 0. */
static void check_encode_channels(void)
{
    const int16_t stereo[4] = {0, 0, 0, 1000};
    const uint8_t stereo_block[16] = {0, 0, 0, 0, 0, 0, 0, 0, 0, 0, 0, 0, 0x77, 0x77, 0x57, 0x80};
    const int16_t ten[10] = {0, 14, 11, 11, 11, 11, 11, 11, 11, 11};
    const uint8_t ten_blocks[16] = {0, 0, 0, 0, 0x07, 0x88, 0x80, 0x80, 11, 0, 1, 0, 0x90, 0, 0, 0};
    fill_buffers();
    CHECK(codes(tronalhet_encode(stereo, 4, 2, 16, out, 16), 16, 0, 1));
    CHECK(memcmp(out, stereo_block, 16) == 0);
    CHECK(refuses_coded(tronalhet_encode(ten, 10, 1, 8, out, 15), 14));
    CHECK(codes(tronalhet_encode(ten, 10, 1, 8, out, 16), 16, 1, 0));
    CHECK(memcmp(out, ten_blocks, 16) == 0);
    CHECK(is_filled(out + 16, sizeof out - 16));
}

static void check_encode_refusals(void)
{
    const int16_t sound[4] = {1, 2, 3, 4};
    fill_buffers();
    CHECK(refuses_coded(tronalhet_encode(sound, 4, 0, 8, out, ROOM), 9));
    CHECK(refuses_coded(tronalhet_encode(sound, 4, 3, 24, out, ROOM), 9));
    CHECK(refuses_coded(tronalhet_encode(sound, 4, 65535, 8, out, ROOM), 9));
    CHECK(refuses_coded(tronalhet_encode(sound, 4, 1, 0, out, ROOM), 9));
    CHECK(refuses_coded(tronalhet_encode(sound, 4, 1, 4, out, ROOM), 9));
    CHECK(refuses_coded(tronalhet_encode(sound, 4, 1, 10, out, ROOM), 9));
    CHECK(refuses_coded(tronalhet_encode(sound, 4, 1, 4100, out, ROOM), 9));
    CHECK(refuses_coded(tronalhet_encode(sound, 4, 2, 8, out, ROOM), 9));
    CHECK(refuses_coded(tronalhet_encode(sound, 4, 2, 20, out, ROOM), 9));
    CHECK(refuses_coded(tronalhet_encode(sound, 3, 2, 12, out, ROOM), 9));
    CHECK(refuses_coded(tronalhet_encode(NULL, 0, 0, 0, NULL, 0), 9));
    CHECK(refuses_coded(tronalhet_encode(sound, 3, 2, 16, out, ROOM), 10));
    CHECK(refuses_coded(tronalhet_encode(sound, 3, 2, 16, NULL, 0), 10));
    CHECK(refuses_coded(tronalhet_encode(sound, 4, 2, 16, out, 15), 14));
    CHECK(refuses_coded(tronalhet_encode(sound, 4, 2, 16, out, 0), 14));
    CHECK(refuses_coded(tronalhet_encode(sound, 4, 1, 4096, NULL, 0), 14));
    CHECK(buffers_are_untouched());
}

/* Channels and rates that no side has: more than two channels also where twice as many bytes, or the bytes
 * of a second, would be another number in 16 or 32 bits. */
static const struct {
    int line;
    uint16_t channels;
    uint32_t rate;
} no_sides[] = {
    {__LINE__, 0, 8000},
    {__LINE__, 3, 8000},
    {__LINE__, 32768, 8000},
    {__LINE__, 32769, 8000},
    {__LINE__, 32770, 8000},
    {__LINE__, 65535, 8000},
    {__LINE__, 1, 0},
    {__LINE__, 2, 192001},
    {__LINE__, 1, 1073741824},
    {__LINE__, 2, 1073741824},
    {__LINE__, 1, 4294967295u},
    {__LINE__, 0, 0},
};

/* An empty side is 44 bytes, whatever its format; 9 comes before 14. */
static void check_empty(void)
{
    const uint8_t stereo_side[44] = {
        'R', 'I', 'F', 'F', 36, 0, 0, 0, 'W', 'A', 'V', 'E',
        'f', 'm', 't', ' ', 16, 0, 0, 0, 1, 0, 2, 0, 0x00, 0xEE, 0x02, 0, 0x00, 0xB8, 0x0B, 0, 4, 0, 16, 0,
        'd', 'a', 't', 'a', 0, 0, 0, 0};
    CHECK(TRONALHET_EMPTY_BYTES == 44);
    fill_buffers();
    CHECK(gives(tronalhet_empty(1, 8000, out, 44), 44));
    CHECK(memcmp(out, empty_side, 44) == 0);
    CHECK(is_filled(out + 44, sizeof out - 44));
    fill_buffers();
    CHECK(gives(tronalhet_empty(2, 192000, out, ROOM), 44));
    CHECK(memcmp(out, stereo_side, 44) == 0);
    CHECK(is_filled(out + 44, sizeof out - 44));
    CHECK(gives(tronalhet_empty(1, 1, out, 45), 44));
    fill_buffers();
    for (size_t i = 0; i < sizeof no_sides / sizeof no_sides[0]; i++) {
        tronalhet_answer answer = tronalhet_empty(no_sides[i].channels, no_sides[i].rate, out, ROOM);
        check(refuses(answer, 9), no_sides[i].line, "no side has this format");
        answer = tronalhet_empty(no_sides[i].channels, no_sides[i].rate, NULL, 0);
        check(refuses(answer, 9), no_sides[i].line, "no side has this format, before 14");
    }
    CHECK(refuses(tronalhet_empty(1, 8000, out, 43), 14));
    CHECK(refuses(tronalhet_empty(1, 8000, out, 0), 14));
    CHECK(refuses(tronalhet_empty(2, 192000, NULL, 0), 14));
    CHECK(buffers_are_untouched());
}

/* The second song of a side: position and place are the frames before it. */
static void check_second_song(void)
{
    const uint32_t start[15] = {1, 1, 8000, 16, 2, 1, 4, 2, 2, 5, 0, 0, 6, 2, 2};
    const uint32_t entries[6] = {5, 2, 1, 6, 2, 1};
    const uint8_t sound[8] = {1, 0, 2, 0, 1, 0, 2, 0};
    size_t place = 0;
    fill_buffers();
    CHECK(gives(tronalhet_add(side_of_one, 108, song_file, 48, 6, 4, out, 148), 148));
    CHECK(is_filled(out + 148, sizeof out - 148));
    CHECK(read_file(out, 148, record_out, WORDS) == 0);
    CHECK(memcmp(record_out, start, sizeof start) == 0);
    CHECK(memcmp(record_out + 201, entries, sizeof entries) == 0);
    CHECK(gives(tronalhet_sound(out, 148, &place, 1), 8));
    CHECK(place == 140 && memcmp(out + 140, sound, 8) == 0);
}

static void check_add(void)
{
    fill_buffers();
    CHECK(gives(tronalhet_add(empty_side, 44, song_file, 48, 5, 2, out, 108), 108));
    CHECK(memcmp(out, side_of_one, 108) == 0);
    CHECK(is_filled(out + 108, sizeof out - 108));
    CHECK(44 + 48 + TRONALHET_ADDED_BYTES == 108);
    fill_buffers();
    CHECK(gives(tronalhet_add(empty_side, 44, song_file, 48, 5, 4294967295u, out, ROOM), 108));
    CHECK(memcmp(out, side_of_one, 108) == 0);
    CHECK(is_filled(out + 108, sizeof out - 108));
    fill_buffers();
    CHECK(refuses(tronalhet_add(side_of_one, 108, song_file, 48, 5, 1000, out, ROOM), 18));
    CHECK(refuses(tronalhet_add(side_of_one, 108, song_file, 48, 5, 0, NULL, 0), 18));
    CHECK(refuses(tronalhet_add(side_of_one, 108, song_file, 48, 6, 3, out, ROOM), 17));
    CHECK(refuses(tronalhet_add(side_of_one, 108, song_file, 48, 6, 0, NULL, 0), 17));
    CHECK(refuses(tronalhet_add(side_of_one, 108, song_file, 48, 6, 4, out, 147), 14));
    CHECK(refuses(tronalhet_add(empty_side, 44, song_file, 48, 5, 1, out, ROOM), 17));
    CHECK(refuses(tronalhet_add(empty_side, 44, song_file, 48, 5, 2, out, 107), 14));
    CHECK(refuses(tronalhet_add(empty_side, 44, song_file, 48, 5, 2, out, 0), 14));
    CHECK(refuses(tronalhet_add(empty_side, 44, song_file, 48, 5, 2, NULL, 0), 14));
    CHECK(refuses(tronalhet_add(empty_side, 44, copy_of(empty_side, 44), 44, 5, 2, out, ROOM), 16));
    CHECK(refuses(tronalhet_add(side_of_one, 108, empty_side, 44, 5, 2, out, ROOM), 16));
    CHECK(refuses(tronalhet_add(NULL, 0, song_file, 48, 5, 2, out, ROOM), 19));
    CHECK(refuses(tronalhet_add(empty_side, 44, NULL, 0, 5, 2, out, ROOM), 1));
    CHECK(refuses(tronalhet_add(NULL, 0, NULL, 0, 5, 2, NULL, 0), 1));
    CHECK(buffers_are_untouched());
}

/* The side keeps its titles, which go between plst and data, and takes none of the song's. */
static void check_add_titles(void)
{
    fill_buffers();
    CHECK(gives(tronalhet_add(labelled_side, 136, song_file, 48, 6, 4, out, 176), 176));
    CHECK(is_filled(out + 176, sizeof out - 176));
    CHECK(memcmp(out + 132, labelled_side + 108, 28) == 0);
    CHECK(read_file(out, 176, record_out, WORDS) == 0);
    CHECK(record_out[7] == 2 && record_out[393] == 1 && record_out[395] == 5 && record_out[397] == 3);
    CHECK(memcmp(titles_out, "One", 4) == 0);
    fill_buffers();
    CHECK(gives(tronalhet_add(empty_side, 44, title_file, 158, 7, 4, out, ROOM), 112));
    CHECK(read_file(out, 112, record_out, WORDS) == 0);
    CHECK(record_out[7] == 1 && record_out[393] == 0);
    CHECK(is_filled(titles_out, sizeof titles_out));
    CHECK(gives(tronalhet_add(labelled_side, 136, title_file, 158, 7, 6, out, ROOM), 180));
    CHECK(memcmp(out + 132, labelled_side + 108, 28) == 0);
    fill_buffers();
    CHECK(refuses(tronalhet_add(labelled_side, 136, song_file, 48, 6, 4, out, 175), 14));
    CHECK(refuses(tronalhet_add(labelled_side, 136, song_file, 48, 5, 4, out, ROOM), 18));
    CHECK(refuses(tronalhet_add(labelled_side, 136, title_file, 158, 5, 4, out, ROOM), 16));
    CHECK(buffers_are_untouched());
}

/* Other sound under a listed number, songs that do not fit the side, and files that are no side. */
static void check_add_misfits(void)
{
    uint8_t file[108];
    memcpy(file, song_file, sizeof song_file);
    file[47] = 1;
    fill_buffers();
    CHECK(refuses(tronalhet_add(side_of_one, 108, file, 48, 5, 1000, out, ROOM), 16));
    memcpy(file, song_file, sizeof song_file);
    file[4] = 38;
    file[40] = 2;
    CHECK(refuses(tronalhet_add(side_of_one, 108, file, 46, 5, 1000, out, ROOM), 16));
    memcpy(file, song_file, sizeof song_file);
    file[24] = 0x41;
    file[28] = 0x82;
    CHECK(refuses(tronalhet_add(side_of_one, 108, file, 48, 6, 1000, out, ROOM), 9));
    CHECK(refuses(tronalhet_add(side_of_one, 108, stereo_file, 56, 6, 1000, out, ROOM), 9));
    CHECK(refuses(tronalhet_add(side_of_one, 108, ima_file, 72, 6, 1000, out, ROOM), 9));
    CHECK(refuses(tronalhet_add(cue_file, 112, song_file, 48, 6, 1000, out, ROOM), 19));
    CHECK(refuses(tronalhet_add(cue_file, 112, ima_file, 72, 6, 1000, out, ROOM), 19));
    CHECK(refuses(tronalhet_add(song_file, 48, copy_of(song_file, 48), 48, 6, 1000, out, ROOM), 19));
    CHECK(refuses(tronalhet_add(stereo_file, 56, copy_of(stereo_file, 56), 56, 6, 1000, out, ROOM), 19));
    memcpy(file, side_of_one, sizeof side_of_one);
    file[92] = 2;
    CHECK(refuses(tronalhet_add(file, 108, song_file, 48, 6, 1000, out, ROOM), 19));
    file[92] = 1;
    file[88] = 1;
    CHECK(refuses(tronalhet_add(file, 108, song_file, 48, 6, 1000, out, ROOM), 19));
    CHECK(buffers_are_untouched());
}

/* A side takes 64 songs. With c songs of two frames it has 12 + 24 + 12 + 24c + 12 + 12c + 8 + 4c bytes. */
static void check_full_side(void)
{
    static uint8_t side[ROOM];
    size_t bytes = sizeof empty_side;
    memcpy(side, empty_side, bytes);
    for (uint32_t songs = 1; songs <= 64; songs++) {
        tronalhet_answer answer = tronalhet_add(side, bytes, song_file, 48, 100 + songs, 128, out, ROOM);
        CHECK(gives(answer, 68 + 40 * songs));
        bytes = answer.n;
        memcpy(side, out, bytes);
    }
    fill_buffers();
    CHECK(refuses(tronalhet_add(side, bytes, song_file, 48, 5, 4294967295u, out, ROOM), 17));
    CHECK(refuses(tronalhet_add(side, bytes, song_file, 48, 164, 4294967295u, out, ROOM), 18));
    CHECK(refuses(tronalhet_add(side, bytes, cue_file, 112, 101, 4294967295u, out, ROOM), 16));
    CHECK(refuses(tronalhet_add(side, bytes, cue_file, 112, 5, 4294967295u, out, ROOM), 17));
    CHECK(buffers_are_untouched());
}

/* With a cue the file has just the limit's length; a label of it, 26 bytes with its list, is too much. The file lends
 * its bytes as sound, and the record is that of a song as long as the limit. */
static void check_too_long_with_titles(const uint8_t *file, uint32_t *record)
{
    const size_t bytes = TRONALHET_MOST_BYTES - 80;
    const uint8_t text = 0;
    record[6] = 536870872;
    record[7] = 1;
    CHECK(tronalhet_write(record, WORDS, &text, 1, file, bytes, NULL, 0).refusal == 14);
    record[393] = 1;
    CHECK(tronalhet_write(record, WORDS, &text, 1, file, bytes, NULL, 0).refusal == 1);
    record[394] = 2;
    CHECK(tronalhet_write(record, WORDS, &text, 1, file, bytes, NULL, 0).refusal == 21);
    record[8] = 1;
    CHECK(tronalhet_write(record, WORDS, &text, 1, file, bytes, NULL, 0).refusal == 13);
}

/* The size limit: one byte, or one sample, past it is refused by its length alone, before a lack of room.
 * The memory is only reserved: no function looks at the sound of a file that it refuses by its length. */
static void check_too_long(void)
{
    const size_t limit = TRONALHET_MOST_BYTES;
    const size_t samples = TRONALHET_MOST_SAMPLES;
    uint8_t *file = calloc(limit + 2, 1);
    CHECK(file != NULL);
    if (file == NULL)
        return;
    CHECK(read_file(file, limit + 1, NULL, 0) == 1);
    CHECK(read_file(file, limit, NULL, 0) == 2);
    CHECK(tronalhet_encode((const int16_t *)(void *)file, samples + 1, 1, 8, NULL, 0).refusal == 1);
    CHECK(tronalhet_encode((const int16_t *)(void *)file, samples, 1, 8, NULL, 0).refusal == 14);

    /* A song of the limit's length: its header, and as many frames as are left. */
    static const uint8_t size_of_riff[4] = {0xF8, 0xFF, 0xFF, 0x3F};
    static const uint8_t size_of_data[4] = {0xD4, 0xFF, 0xFF, 0x3F};
    memcpy(file, empty_side, sizeof empty_side);
    memcpy(file + 4, size_of_riff, 4);
    memcpy(file + 40, size_of_data, 4);
    uint32_t record[WORDS];
    CHECK(read_file(file, limit, record, WORDS) == 0);
    CHECK(record[6] == 536870890);
    CHECK(write_file(record, WORDS, file, limit - 44, NULL, 0).refusal == 14);
    CHECK(tronalhet_add(empty_side, sizeof empty_side, file, limit, 5, UINT32_MAX, NULL, 0).refusal == 1);
    record[6]++;
    CHECK(write_file(record, WORDS, file, limit - 42, NULL, 0).refusal == 1);

    check_too_long_with_titles(file, record);

    /* The longest file without its pad, 8 bits a sample: with the pad it is as long as is accepted. */
    static const uint8_t eight_bits[8] = {0x40, 0x1F, 0, 0, 1, 0, 8, 0};
    memcpy(file + 28, eight_bits, sizeof eight_bits);
    file[4]--;
    file[40]--;
    CHECK(read_file(file, limit - 1, record, WORDS) == 0);
    CHECK(record[6] == 1073741779);
    CHECK(write_file(record, WORDS, file, limit - 45, NULL, 0).refusal == 14);
    free(file);
}

int main(void)
{
    check_faults();
    check_read();
    check_read_titles();
    check_other_lists();
    check_titles_without_pad();
    check_read_formats();
    check_places();
    check_counts();
    check_sound();
    check_write();
    check_write_odd();
    check_read_without_pad();
    check_write_refusals();
    check_write_titles();
    check_write_title_refusals();
    check_decode();
    check_decode_block();
    check_encode();
    check_encode_channels();
    check_encode_refusals();
    check_empty();
    check_add();
    check_add_titles();
    check_second_song();
    check_add_misfits();
    check_full_side();
    check_too_long();
    printf("calls: %u checks, %u failed\n", checks, failed);
    return failed == 0 ? 0 : 1;
}
