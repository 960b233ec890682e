/* Runs the library and the second implementation side by side on made inputs and compares all that they
 * answer and write. Usage: compare [COUNT [SEED]]
 * It is built of this file, examples.c, made*.c and second_*.c with the library. */
#include "both.h"
#include "made.h"
#include "second.h"

#include <inttypes.h>
#include <stdio.h>
#include <stdlib.h>
#include <string.h>

enum { DEFAULT_COUNT = 400000, DEFAULT_SEED = 1992, GUARD = 64, REFUSALS = 22 };

static const struct functions library = {"library",        tronalhet_read,   tronalhet_sound,
                                         tronalhet_write,  tronalhet_decode, tronalhet_decode_block,
                                         tronalhet_encode, tronalhet_empty,  tronalhet_add};

static const struct functions second = {"second",      second_read,   second_sound,
                                        second_write,  second_decode, second_decode_block,
                                        second_encode, second_empty,  second_add};

static const char *const names[OPERATIONS] = {"read",         "sound",  "write", "decode",
                                              "decode_block", "encode", "empty", "add"};

/* The bytes of one element of each operation's output. */
static const size_t widths[OPERATIONS] = {4, sizeof(size_t), 1, 2, 2, 1, 1, 1};

/* The refusals that each operation can give, one bit each, 0 for success. Refusal 1 of write and encode
 * needs a gigabyte and is not among them. */
#define BIT(number) (1ul << (number))
#define BITS_1_TO_13 0x3FFEul
static const unsigned long expected[OPERATIONS] = {
    BIT(0) | BITS_1_TO_13 | BIT(14) | BIT(21),
    BIT(0) | BITS_1_TO_13 | BIT(14) | BIT(21),
    BIT(0) | BIT(9) | BIT(10) | BIT(11) | BIT(12) | BIT(13) | BIT(14) | BIT(21),
    BIT(0) | BITS_1_TO_13 | BIT(14) | BIT(15) | BIT(21),
    BIT(0) | BITS_1_TO_13 | BIT(14) | BIT(15) | BIT(20) | BIT(21),
    BIT(0) | BIT(9) | BIT(10) | BIT(14),
    BIT(0) | BIT(9) | BIT(14),
    BIT(0) | BITS_1_TO_13 | BIT(14) | BIT(16) | BIT(17) | BIT(18) | BIT(19) | BIT(21),
};

/* All that a function answers; what it does not answer is 0. */
struct outcome {
    uint32_t refusal;
    uint32_t left;
    uint32_t right;
    size_t n;
};

/* What can differ, or be wrong. */
enum difference { IN_REFUSAL, IN_N, IN_CHASED, IN_OUTPUT, IN_TITLES, IN_INPUT, DIFFERENCES };

static const char *const difference_names[DIFFERENCES] = {"refusal", "n",      "chased counts",
                                                          "output",  "titles", "changed input"};

/* What a function is lent to write to, in elements; the titles are for reading alone. */
struct lent {
    void *out;
    size_t room;
    uint8_t *titles;
    size_t title_room;
};

struct comparison {
    struct maker maker;
    struct call call;
    struct call kept; /* the inputs as they were */
    struct bytes scratch;
    struct bytes library_out; /* the lent buffers with their guards */
    struct bytes second_out;
    struct bytes library_titles;
    struct bytes second_titles;
    uint64_t cases[OPERATIONS];
    uint64_t given[OPERATIONS][REFUSALS];
    uint64_t seen[OPERATIONS][DIFFERENCES][REFUSALS + 1][REFUSALS + 1];
    uint64_t differences;
};

/* With no element the pointer is null in half of the cases. */
static const uint8_t *lent(const struct call *call, const struct bytes *bytes)
{
    return bytes->count == 0 && call->null_when_empty ? NULL : bytes->at;
}

static struct outcome of_answer(tronalhet_answer answer)
{
    return (struct outcome){answer.refusal, 0, 0, answer.n};
}

/* One call. */
static struct outcome run(const struct functions *functions, const struct call *call, const struct lent *to)
{
    void *out = to->out;
    size_t room = to->room;
    const uint8_t *file = lent(call, &call->file);
    size_t bytes = call->file.count;
    const uint32_t *words = call->word_count == 0 && call->null_when_empty ? NULL : call->words;
    const uint8_t *titles = lent(call, &call->titles);
    const void *samples = lent(call, &call->samples);
    tronalhet_coded coded;
    switch (call->operation) {
    case READ:
        return (struct outcome){functions->read(file, bytes, out, room, to->titles, to->title_room), 0, 0, 0};
    case SOUND:
        return of_answer(functions->sound(file, bytes, out, room));
    case WRITE:
        return of_answer(functions->write(words, call->word_count, titles, call->titles.count, file, bytes, out,
                                          room));
    case DECODE:
        return of_answer(functions->decode(file, bytes, out, room));
    case DECODE_BLOCK:
        return of_answer(functions->decode_block(file, bytes, call->block, out, room));
    case ENCODE:
        coded = functions->encode(samples, call->samples.count / 2, call->channels, call->align, out, room);
        return (struct outcome){coded.refusal, coded.left, coded.right, coded.n};
    case EMPTY:
        return of_answer(functions->empty(call->channels, call->rate, out, room));
    default:
        return of_answer(functions->add(file, bytes, lent(call, &call->song), call->song.count, call->number,
                                        call->limit, out, room));
    }
}

/* The record of a call's file by the second implementation, all zero where it is refused. */
static void read_words(const struct call *call, uint32_t words[TRONALHET_RECORD_WORDS])
{
    uint8_t titles[TRONALHET_MOST_TITLE_BYTES];
    memset(words, 0, TRONALHET_RECORD_WORDS * sizeof *words);
    second_read(call->file.at, call->file.count, words, TRONALHET_RECORD_WORDS, titles, sizeof titles);
}

/* The bytes that the texts of a call's file need. */
static size_t needed_for_titles(const struct call *call)
{
    uint32_t words[TRONALHET_RECORD_WORDS];
    size_t needed = 0;
    read_words(call, words);
    for (uint32_t i = 0; i < words[TRONALHET_TITLES]; i++)
        needed += words[TRONALHET_FIRST_TITLE + TRONALHET_TITLE_WORDS * i + TRONALHET_TITLE_LENGTH] + 1;
    return needed;
}

/* The elements that the output needs, found by a call of the second implementation with plenty of room. */
static size_t needed_room(struct comparison *comparison)
{
    const struct call *call = &comparison->call;
    size_t plenty =
        4 * (call->file.count + call->song.count + call->samples.count + call->titles.count) + 8192;
    if (call->operation == READ)
        return TRONALHET_RECORD_WORDS;
    if (call->operation == SOUND)
        return 1;
    bytes_resize(&comparison->scratch, plenty * widths[call->operation]);
    struct outcome outcome = run(&second, call, &(struct lent){comparison->scratch.at, plenty, NULL, 0});
    if (call->operation != DECODE && call->operation != DECODE_BLOCK)
        return outcome.n;
    uint32_t words[TRONALHET_RECORD_WORDS];
    read_words(call, words);
    return (call->operation == DECODE ? words[6] : words[5]) * words[1];
}

/* Exact, one less, none, or some more; where nothing is needed any room will do. */
static size_t choose_room(struct luck *luck, size_t needed)
{
    if (needed == 0)
        return luck_one_in(luck, 3) ? 0 : luck_below(luck, 300);
    switch (luck_below(luck, 8)) {
    case 0:
        return needed - 1;
    case 1:
        return luck_one_in(luck, 2) ? 0 : luck_below(luck, (uint32_t)needed);
    case 2:
    case 3:
        return needed + 1 + luck_below(luck, 20);
    default:
        return needed;
    }
}

/* A buffer of so many bytes for each of the two, with the same random contents and guards before and behind. */
static void fill_both(struct bytes *ours, struct bytes *theirs, struct luck *luck, size_t bytes)
{
    ours->count = 0;
    bytes_add_random(ours, luck, GUARD + bytes + GUARD);
    bytes_copy(theirs, ours);
}

static void keep_inputs(struct comparison *comparison)
{
    bytes_copy(&comparison->kept.file, &comparison->call.file);
    bytes_copy(&comparison->kept.song, &comparison->call.song);
    bytes_copy(&comparison->kept.samples, &comparison->call.samples);
    bytes_copy(&comparison->kept.titles, &comparison->call.titles);
    memcpy(comparison->kept.words, comparison->call.words, sizeof comparison->kept.words);
}

static bool same_bytes(const struct bytes *one, const struct bytes *other)
{
    return one->count == other->count && (one->count == 0 || memcmp(one->at, other->at, one->count) == 0);
}

static bool inputs_are_kept(const struct comparison *comparison)
{
    const struct call *call = &comparison->call;
    const struct call *kept = &comparison->kept;
    return same_bytes(&call->file, &kept->file) && same_bytes(&call->song, &kept->song) &&
           same_bytes(&call->samples, &kept->samples) && same_bytes(&call->titles, &kept->titles) &&
           memcmp(call->words, kept->words, sizeof kept->words) == 0;
}

static void print_bytes(const char *name, const uint8_t *bytes, size_t count)
{
    printf("  %s, %zu bytes:", name, count);
    for (size_t i = 0; i < count && i < 200; i++)
        printf("%s%02x", i % 32 == 0 ? "\n    " : " ", bytes[i]);
    printf("%s\n", count > 200 ? " .." : "");
}

static void print_words(const struct call *call)
{
    printf("  record, %zu words:", call->word_count);
    for (size_t i = 0; i < call->word_count && i < 9; i++)
        printf(" %" PRIu32, call->words[i]);
    for (size_t i = 0; i < call->word_count && i < 50; i++)
        printf("%s%08" PRIx32, i % 8 == 0 ? "\n    " : " ", call->words[i]);
    for (size_t i = TRONALHET_TITLES; i < call->word_count && i < TRONALHET_TITLES + 41; i++)
        printf("%s%08" PRIx32, i % 4 == 2 ? "\n    " : " ", call->words[i]);
    printf("\n");
}

static void print_outcome(const char *name, struct outcome outcome)
{
    printf("  %s: refusal %" PRIu32 ", n %zu, chased %" PRIu32 " and %" PRIu32 "\n", name, outcome.refusal,
           outcome.n, outcome.left, outcome.right);
}

static void print_call(const struct call *call)
{
    if (call->operation == WRITE) {
        print_words(call);
        print_bytes("titles", call->titles.at, call->titles.count);
    }
    if (call->operation == DECODE_BLOCK)
        printf("  block %" PRIu32 "\n", call->block);
    if (call->operation == ENCODE)
        printf("  channels %d, align %d\n", call->channels, call->align);
    if (call->operation == EMPTY) {
        printf("  channels %d, rate %" PRIu32 "\n", call->channels, call->rate);
        return;
    }
    if (call->operation == ADD)
        printf("  number %" PRIu32 ", limit %" PRIu32 "\n", call->number, call->limit);
    if (call->operation == ENCODE)
        print_bytes("samples", call->samples.at, call->samples.count);
    else
        print_bytes(call->operation == WRITE ? "sound"
                    : call->operation == ADD ? "side"
                                             : "file",
                    call->file.at, call->file.count);
    if (call->operation == ADD)
        print_bytes("song", call->song.at, call->song.count);
}

/* The first place where two buffers differ, counted from the start of the lent part. */
static void print_difference(const char *name, const struct bytes *one, const struct bytes *other)
{
    size_t place = 0;
    while (place < one->count && one->at[place] == other->at[place])
        place++;
    if (place == one->count)
        return;
    printf("  byte %ld of the %s: library %02x, second %02x\n", (long)place - GUARD, name, one->at[place],
           other->at[place]);
}

static uint32_t kind_of(uint32_t refusal)
{
    return refusal < REFUSALS ? refusal : REFUSALS;
}

/* Counts a difference, and prints the first one of its kind. */
static void report(struct comparison *comparison, enum difference difference, uint64_t number,
                   const struct lent *to, struct outcome ours, struct outcome theirs)
{
    const struct call *call = &comparison->call;
    uint64_t *seen =
        &comparison->seen[call->operation][difference][kind_of(ours.refusal)][kind_of(theirs.refusal)];
    comparison->differences++;
    (*seen)++;
    if (*seen > 1)
        return;
    printf("difference in %s: %s, case %" PRIu64 ", room %zu, for titles %zu\n", difference_names[difference],
           names[call->operation], number, to->room, to->title_room);
    print_outcome("library", ours);
    print_outcome("second", theirs);
    print_difference("output", &comparison->library_out, &comparison->second_out);
    print_difference("titles", &comparison->library_titles, &comparison->second_titles);
    print_call(call);
}

static void compare_outcomes(struct comparison *comparison, uint64_t number, const struct lent *to,
                             struct outcome ours, struct outcome theirs)
{
    if (ours.refusal != theirs.refusal)
        report(comparison, IN_REFUSAL, number, to, ours, theirs);
    if (ours.n != theirs.n)
        report(comparison, IN_N, number, to, ours, theirs);
    if (ours.left != theirs.left || ours.right != theirs.right)
        report(comparison, IN_CHASED, number, to, ours, theirs);
    if (!same_bytes(&comparison->library_out, &comparison->second_out))
        report(comparison, IN_OUTPUT, number, to, ours, theirs);
    if (!same_bytes(&comparison->library_titles, &comparison->second_titles))
        report(comparison, IN_TITLES, number, to, ours, theirs);
    if (!inputs_are_kept(comparison))
        report(comparison, IN_INPUT, number, to, ours, theirs);
}

/* The lent part of a buffer; with no element the pointer is null in half of the cases. */
static void *lent_part(const struct bytes *buffer, size_t elements, bool null_when_empty)
{
    return elements == 0 && null_when_empty ? NULL : buffer->at + GUARD;
}

static void run_case(struct comparison *comparison, uint64_t number)
{
    struct call *call = &comparison->call;
    struct luck luck = luck_of(comparison->maker.seed, number);
    make_call(&comparison->maker, number, &luck, call);
    struct lent to = {NULL, choose_room(&luck, needed_room(comparison)), NULL, 0};
    if (call->operation == READ)
        to.title_room = choose_room(&luck, needed_for_titles(call));
    fill_both(&comparison->library_out, &comparison->second_out, &luck, to.room * widths[call->operation]);
    fill_both(&comparison->library_titles, &comparison->second_titles, &luck, to.title_room);
    keep_inputs(comparison);
    bool null = luck_one_in(&luck, 2);
    to.out = lent_part(&comparison->library_out, to.room, null);
    to.titles = lent_part(&comparison->library_titles, to.title_room, null);
    struct outcome ours = run(&library, call, &to);
    to.out = lent_part(&comparison->second_out, to.room, null);
    to.titles = lent_part(&comparison->second_titles, to.title_room, null);
    struct outcome theirs = run(&second, call, &to);
    comparison->cases[call->operation]++;
    comparison->given[call->operation][kind_of(theirs.refusal) % REFUSALS]++;
    compare_outcomes(comparison, number, &to, ours, theirs);
    if (call->on_growing_side && theirs.refusal == 0)
        keep_grown(&comparison->maker, to.out, theirs.n);
}

/* One line for each operation. */
static void print_counts(const struct comparison *comparison)
{
    for (int i = 0; i < OPERATIONS; i++) {
        const uint64_t *given = comparison->given[i];
        printf("%s: %" PRIu64 " cases, %" PRIu64 " accepted, refused", names[i], comparison->cases[i],
               given[0]);
        for (int number = 1; number < REFUSALS; number++) {
            if (given[number] > 0)
                printf(" %d: %" PRIu64, number, given[number]);
        }
        printf("\n");
    }
}

/* How many expected answers never came; fewer cases than the default need not reach all. */
static unsigned count_missing(const struct comparison *comparison, uint64_t count)
{
    unsigned missing = 0;
    for (int i = 0; i < OPERATIONS && count >= DEFAULT_COUNT; i++) {
        for (int number = 0; number < REFUSALS; number++) {
            if (comparison->given[i][number] == 0 && (expected[i] & BIT(number)) != 0) {
                printf("%s: %d was never reached\n", names[i], number);
                missing++;
            }
        }
    }
    return missing;
}

static void comparison_free(struct comparison *comparison)
{
    maker_free(&comparison->maker);
    call_free(&comparison->call);
    call_free(&comparison->kept);
    bytes_free(&comparison->scratch);
    bytes_free(&comparison->library_out);
    bytes_free(&comparison->second_out);
    bytes_free(&comparison->library_titles);
    bytes_free(&comparison->second_titles);
    free(comparison);
}

/* An argument as a number; where it is none, or too few cases to tell anything, the program ends. */
static uint64_t number_of(const char *argument, uint64_t least)
{
    char *end = NULL;
    uint64_t number = strtoull(argument, &end, 10);
    if (argument[0] < '0' || argument[0] > '9' || *end != '\0' || number < least) {
        fputs("usage: compare [COUNT [SEED]]\n", stderr);
        exit(2);
    }
    return number;
}

int main(int argument_count, char **arguments)
{
    uint64_t count = argument_count > 1 ? number_of(arguments[1], 1) : DEFAULT_COUNT;
    uint64_t seed = argument_count > 2 ? number_of(arguments[2], 0) : DEFAULT_SEED;
    struct comparison *comparison = calloc(1, sizeof *comparison);
    if (comparison == NULL)
        return 1;
    comparison->maker.seed = seed;
    unsigned failed = run_examples(&second) + run_examples(&library);
    for (uint64_t number = 0; number < count; number++)
        run_case(comparison, number);
    print_counts(comparison);
    unsigned missing = count_missing(comparison, count);
    uint64_t differences = comparison->differences;
    printf("compare: %" PRIu64 " cases, %" PRIu64
           " differences, %u examples failed, %u answers never reached\n",
           count, differences, failed, missing);
    comparison_free(comparison);
    return differences == 0 && failed == 0 && missing == 0 ? 0 : 1;
}
