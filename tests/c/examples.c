/* The examples printed in document 01 under "Programs and checked examples", with their values typed in
 * from there; the 45-byte file is as document 02 has it, and so are the titles. */
#include "both.h"

#include <stdbool.h>
#include <stdio.h>
#include <string.h>

struct examples {
    const struct functions *functions;
    unsigned failed;
};

static void expect(struct examples *examples, bool met, const char *what)
{
    if (met)
        return;
    printf("example failed, %s: %s\n", examples->functions->name, what);
    examples->failed++;
}

static void store(uint8_t *at, size_t width, uint32_t value)
{
    for (size_t i = 0; i < width; i++)
        at[i] = (uint8_t)(value >> (8 * i));
}

/* A record without tables. */
static void fill_record(uint32_t *record, const uint32_t start[7])
{
    memset(record, 0, TRONALHET_RECORD_WORDS * sizeof *record);
    memcpy(record, start, 7 * sizeof *record);
}

/* Reads a file without titles, and writes one. */
static uint32_t read_plain(const struct functions *functions, const uint8_t *file, size_t bytes,
                           uint32_t *record)
{
    return functions->read(file, bytes, record, TRONALHET_RECORD_WORDS, NULL, 0);
}

static tronalhet_answer write_plain(const struct functions *functions, const uint32_t *record,
                                    const uint8_t *sound, size_t sound_bytes, uint8_t *out, size_t out_bytes)
{
    return functions->write(record, TRONALHET_RECORD_WORDS, NULL, 0, sound, sound_bytes, out, out_bytes);
}

/* Writes a mono file of this tag, bits, align, samples per block and frames, and decodes it. */
static tronalhet_answer decode_mono(const struct functions *functions, const uint32_t format[5],
                                    const uint8_t *sound, size_t sound_bytes, int16_t *out, size_t out_samples)
{
    uint32_t record[TRONALHET_RECORD_WORDS];
    uint8_t file[2000];
    uint32_t start[7] = {format[0], 1, 8000, format[1], format[2], format[3], format[4]};
    fill_record(record, start);
    tronalhet_answer written = write_plain(functions, record, sound, sound_bytes, file, sizeof file);
    if (written.refusal != 0)
        return (tronalhet_answer){100 + written.refusal, 0};
    return functions->decode(file, written.n, out, out_samples);
}

/* "IMA after 0 at index 0": a sample gives a code, a decoded sample, and is chased or not. */
static void ima_after_zero(struct examples *examples, int16_t sample, uint8_t code, int16_t decoded,
                           uint32_t chased)
{
    int16_t sound[2] = {0, sample};
    uint8_t block[8];
    int16_t out[2] = {1, 1};
    const uint32_t format[5] = {17, 4, 8, 9, 2};
    tronalhet_coded coded = examples->functions->encode(sound, 2, 1, 8, block, sizeof block);
    expect(examples, coded.refusal == 0 && coded.n == 8, "IMA after 0 is one block");
    expect(examples, block[4] % 16 == code, "IMA after 0 gives the code");
    expect(examples, coded.left == chased && coded.right == 0, "IMA after 0 is chased or not");
    tronalhet_answer answer = decode_mono(examples->functions, format, block, sizeof block, out, 2);
    expect(examples, answer.refusal == 0 && answer.n == 2, "IMA after 0 is decoded");
    expect(examples, out[0] == 0 && out[1] == decoded, "IMA after 0 decodes to the sample");
}

static void ima_align_12(struct examples *examples)
{
    const uint8_t right[12] = {0x00, 0x80, 0x00, 0x00, 0x77, 0x77, 0x77, 0x77, 0x77, 0x17, 0x00, 0x00};
    uint8_t block[12];
    int16_t sound[17];
    sound[0] = -32768;
    for (size_t i = 1; i < 17; i++)
        sound[i] = 32767;
    tronalhet_coded coded = examples->functions->encode(sound, 17, 1, 12, block, sizeof block);
    expect(examples, coded.refusal == 0 && coded.n == 12, "align 12 is one block");
    expect(examples, memcmp(block, right, 12) == 0, "align 12 gives its bytes");
    expect(examples, coded.left == 11 && coded.right == 0, "align 12 has 11 chased");
}

static void ima_index(struct examples *examples)
{
    uint8_t block[8] = {0, 0, 88, 0, 0, 0, 0, 0};
    int16_t out[9];
    const uint32_t format[5] = {17, 4, 8, 9, 9};
    expect(examples, decode_mono(examples->functions, format, block, 8, out, 9).refusal == 0,
           "index 88 is read");
    block[2] = 89;
    expect(examples, decode_mono(examples->functions, format, block, 8, out, 9).refusal == 15,
           "index 89 is 15");
}

static void microsoft(struct examples *examples)
{
    const uint8_t block[8] = {0x00, 0x10, 0x00, 0x64, 0x00, 0x32, 0x00, 0x1F};
    const uint8_t negative[8] = {0x04, 0x10, 0x00, 0xFF, 0xFF, 0x00, 0x00, 0x00};
    const int16_t right[4] = {50, 100, 116, 100};
    const uint32_t format[5] = {2, 4, 8, 4, 4};
    int16_t out[4] = {1, 1, 1, 1};
    tronalhet_answer answer = decode_mono(examples->functions, format, block, 8, out, 4);
    expect(examples, answer.refusal == 0 && answer.n == 4, "the Microsoft block is decoded");
    expect(examples, memcmp(out, right, sizeof right) == 0, "the Microsoft block gives its samples");
    answer = decode_mono(examples->functions, format, negative, 8, out, 4);
    expect(examples, answer.refusal == 0 && out[2] == 0, "pair 4, newer -1, nibble 0 gives 0");
}

static void pcm_of_8_bits(struct examples *examples)
{
    const uint8_t sound[3] = {0, 128, 255};
    const uint32_t format[5] = {1, 8, 1, 1, 3};
    int16_t out[3] = {1, 1, 1};
    tronalhet_answer answer = decode_mono(examples->functions, format, sound, 3, out, 3);
    expect(examples, answer.refusal == 0 && answer.n == 3, "8-bit sound is decoded");
    expect(examples, out[0] == -32768 && out[1] == 0 && out[2] == 32512, "8-bit sound gives its samples");
}

/* A mono PCM file of up to one byte of sound in 46 bytes. */
static void small_file(uint8_t file[46], uint32_t riff_size, uint32_t bits, uint32_t align,
                       uint32_t sound_bytes)
{
    memset(file, 0, 46);
    memcpy(file, "RIFF....WAVEfmt ", 16);
    store(file + 4, 4, riff_size);
    store(file + 16, 4, 16);
    store(file + 20, 2, 1);
    store(file + 22, 2, 1);
    store(file + 24, 4, 44100);
    store(file + 28, 4, 44100 * align);
    store(file + 32, 2, align);
    store(file + 34, 2, bits);
    memcpy(file + 36, "data", 4);
    store(file + 40, 4, sound_bytes);
}

static void small_files(struct examples *examples)
{
    uint8_t file[46];
    uint32_t record[TRONALHET_RECORD_WORDS];
    const struct functions *functions = examples->functions;
    small_file(file, 36, 8, 1, 0);
    expect(examples, read_plain(functions, file, 44, record) == 0, "no sound: 44 bytes, accepted");
    small_file(file, 38, 8, 1, 1);
    expect(examples, read_plain(functions, file, 46, record) == 0, "one byte: 46, accepted");
    small_file(file, 37, 8, 1, 1);
    expect(examples, read_plain(functions, file, 45, record) == 0, "45 with R 37, accepted");
    small_file(file, 38, 8, 1, 1);
    expect(examples, read_plain(functions, file, 45, record) == 3, "45 with R 38 is 3");
    small_file(file, 36, 20, 3, 0);
    expect(examples, read_plain(functions, file, 44, record) == 9, "the 20-bit example is 9");
    uint32_t start[7] = {1, 1, 44100, 8, 1, 1, 0};
    uint8_t out[46];
    fill_record(record, start);
    tronalhet_answer answer = write_plain(functions, record, NULL, 0, out, sizeof out);
    expect(examples, answer.refusal == 0 && answer.n == 44, "no sound is written in 44 bytes");
    record[6] = 1;
    answer = write_plain(functions, record, file, 1, out, sizeof out);
    expect(examples, answer.refusal == 0 && answer.n == 46, "one byte is written in 46 bytes");
}

/* A block of 256 bytes is taken with this count of samples and not with one more or less. */
static void samples_of_256(struct examples *examples, uint32_t tag, uint32_t samples)
{
    const uint8_t block[256] = {0};
    int16_t out[600];
    const struct functions *functions = examples->functions;
    const uint32_t format[5] = {tag, 4, 256, samples, samples};
    tronalhet_answer answer = decode_mono(functions, format, block, 256, out, 600);
    expect(examples, answer.refusal == 0 && answer.n == samples, "align 256 has its samples a block");
    const uint32_t more[5] = {tag, 4, 256, samples + 1, samples};
    expect(examples, decode_mono(functions, more, block, 256, out, 600).refusal == 109, "and not one more");
    const uint32_t less[5] = {tag, 4, 256, samples - 1, samples - 1};
    expect(examples, decode_mono(functions, less, block, 256, out, 600).refusal == 109, "and not one less");
}

/* The record of the listing program's file: mono, 16 bits, rate 8000, four frames, cue 7 at 0 played once,
 * whole. */
static void fill_listed_record(uint32_t *record)
{
    const uint32_t start[7] = {1, 1, 8000, 16, 2, 1, 4};
    fill_record(record, start);
    record[7] = 1;
    record[8] = 1;
    record[9] = 7;
    record[201] = 7;
    record[202] = 4;
    record[203] = 1;
}

static void listed_file(struct examples *examples)
{
    uint32_t record[TRONALHET_RECORD_WORDS];
    uint32_t again[TRONALHET_RECORD_WORDS];
    const uint8_t sound[8] = {0};
    uint8_t file[200];
    const struct functions *functions = examples->functions;
    fill_listed_record(record);
    tronalhet_answer answer = write_plain(functions, record, sound, 8, file, sizeof file);
    expect(examples, answer.refusal == 0, "the listed file is written");
    expect(examples, read_plain(functions, file, answer.n, again) == 0, "the listed file is read");
    expect(examples, memcmp(record, again, sizeof record) == 0, "the listed file gives its record");
}

/* The same with a note and a label of the cue. The list stands between plst and data: 8 + 4 bytes, a note of
 * 8 + 4 + 3, its pad, and a label of 8 + 4 + 6. */
static void titled_file(struct examples *examples)
{
    static const char list[] = "LIST\x26\0\0\0adtlnote\x07\0\0\0\x07\0\0\0by\0\0labl\x0A\0\0\0\x07\0\0\0Waltz";
    static const char texts[] = "by\0Waltz";
    uint32_t record[TRONALHET_RECORD_WORDS];
    uint32_t again[TRONALHET_RECORD_WORDS];
    const uint32_t titles[9] = {2, 1, 7, 0, 2, 0, 7, 3, 5};
    const uint8_t sound[8] = {0};
    uint8_t back[10] = {0};
    uint8_t file[200];
    const struct functions *functions = examples->functions;
    fill_listed_record(record);
    memcpy(record + 393, titles, sizeof titles);
    tronalhet_answer answer = functions->write(record, TRONALHET_RECORD_WORDS, (const uint8_t *)texts,
                                               sizeof texts, sound, 8, file, sizeof file);
    expect(examples, answer.refusal == 0 && answer.n == 112 + 46, "the file with titles is written");
    expect(examples, memcmp(file + 96, list, sizeof list) == 0, "its list is between plst and data");
    expect(examples, functions->read(file, answer.n, again, TRONALHET_RECORD_WORDS, back, 8) == 14,
           "a byte too few for its texts is 14");
    expect(examples, functions->read(file, answer.n, again, TRONALHET_RECORD_WORDS, back, 9) == 0,
           "the file with titles is read");
    expect(examples, memcmp(record, again, sizeof record) == 0, "the file with titles gives its record");
    expect(examples, memcmp(texts, back, sizeof texts) == 0 && back[9] == 0, "and its texts");
}

unsigned run_examples(const struct functions *functions)
{
    struct examples examples = {functions, 0};
    ima_after_zero(&examples, 13, 7, 11, 0);
    ima_after_zero(&examples, 14, 7, 11, 1);
    ima_after_zero(&examples, -1, 9, -1, 0);
    ima_align_12(&examples);
    ima_index(&examples);
    microsoft(&examples);
    pcm_of_8_bits(&examples);
    small_files(&examples);
    samples_of_256(&examples, 17, 505);
    samples_of_256(&examples, 2, 500);
    listed_file(&examples);
    titled_file(&examples);
    return examples.failed;
}
