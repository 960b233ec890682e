/* Calls the functions of tronalhet.h as standard input asks: tests/c/request.py sends the requests and reads
 * the answers.
 *
 * A request is a `struct request` and then the bytes of its three inputs; an answer is a `struct answer` and
 * then all of the lent buffers, that of the output and that of titles. The buffers are filled with one value
 * before the call, and so are the bytes on both sides of each. All numbers are little-endian, as on x86-64,
 * for which the library is built. */
#include "tronalhet.h"

#include <stdbool.h>
#include <stdio.h>
#include <stdlib.h>
#include <string.h>

enum operation { READ = 1, SOUND, WRITE, DECODE, DECODE_BLOCK, ENCODE, ADD, EMPTY };
enum { FILL = 0xA5, BESIDE = 64, INPUTS = 3 };

struct request {
    uint32_t operation;
    uint32_t numbers[2];
    uint32_t room;       /* elements of the lent buffer */
    uint32_t title_room; /* bytes of that of titles */
    uint32_t bytes[INPUTS];
};

struct answer {
    uint32_t refusal;
    uint32_t left;
    uint32_t right;
    uint32_t kept; /* 1 where the bytes beside the lent buffers are as they were */
    uint64_t n;
};

static void stop(const char *why)
{
    fprintf(stderr, "request: %s\n", why);
    exit(1);
}

/* Memory for so many bytes. */
static uint8_t *memory(size_t bytes)
{
    uint8_t *made = malloc(bytes + 1);
    if (made == NULL)
        stop("no memory");
    return made;
}

/* The next bytes of standard input. */
static uint8_t *input(size_t bytes)
{
    uint8_t *made = memory(bytes);
    if (fread(made, 1, bytes, stdin) != bytes)
        stop("a request is cut off");
    return made;
}

/* The bytes of an element of the buffer that an operation is lent. */
static size_t element(uint32_t operation)
{
    switch (operation) {
    case READ:
        return sizeof(uint32_t);
    case SOUND:
        return sizeof(size_t);
    case DECODE:
    case DECODE_BLOCK:
        return sizeof(int16_t);
    default:
        return 1;
    }
}

static struct answer plain(tronalhet_answer made)
{
    return (struct answer){.refusal = made.refusal, .n = made.n};
}

static struct answer coded(tronalhet_coded made)
{
    return (struct answer){.refusal = made.refusal, .left = made.left, .right = made.right, .n = made.n};
}

/* Makes the call that a request asks for. */
static struct answer call(const struct request *asked, uint8_t *const inputs[INPUTS], void *out,
                          uint8_t *titles)
{
    const void *first = inputs[0];
    const void *second = inputs[1];
    const void *third = inputs[2];
    const uint32_t *numbers = asked->numbers;
    const uint32_t *bytes = asked->bytes;
    size_t room = asked->room;
    size_t title_room = asked->title_room;
    switch (asked->operation) {
    case READ:
        return (struct answer){.refusal = tronalhet_read(first, bytes[0], out, room, titles, title_room)};
    case SOUND:
        return plain(tronalhet_sound(first, bytes[0], out, room));
    case WRITE:
        return plain(tronalhet_write(first, bytes[0] / sizeof(uint32_t), second, bytes[1], third, bytes[2], out,
                                     room));
    case DECODE:
        return plain(tronalhet_decode(first, bytes[0], out, room));
    case DECODE_BLOCK:
        return plain(tronalhet_decode_block(first, bytes[0], numbers[0], out, room));
    case ENCODE:
        return coded(tronalhet_encode(first, bytes[0] / sizeof(int16_t), (uint16_t)numbers[0],
                                      (uint16_t)numbers[1], out, room));
    case ADD:
        return plain(tronalhet_add(first, bytes[0], second, bytes[1], numbers[0], numbers[1], out, room));
    case EMPTY:
        return plain(tronalhet_empty((uint16_t)numbers[0], numbers[1], out, room));
    default:
        stop("no such operation");
        return (struct answer){0};
    }
}

static bool is_filled(const uint8_t *from, size_t bytes)
{
    for (size_t i = 0; i < bytes; i++) {
        if (from[i] != FILL)
            return false;
    }
    return true;
}

/* A buffer of so many bytes, filled as the bytes beside it are. */
static uint8_t *filled(size_t bytes)
{
    uint8_t *held = memory(BESIDE + bytes + BESIDE);
    memset(held, FILL, BESIDE + bytes + BESIDE);
    return held;
}

/* Whether the bytes beside a buffer are as they were. */
static bool is_kept(const uint8_t *held, size_t bytes)
{
    return is_filled(held, BESIDE) && is_filled(held + BESIDE + bytes, BESIDE);
}

static void send(const void *from, size_t bytes)
{
    if (fwrite(from, 1, bytes, stdout) != bytes)
        stop("an answer cannot be sent");
}

/* Makes the call into a buffer of so many bytes, and sends the answer. */
static void answer(const struct request *asked, uint8_t *const inputs[INPUTS], size_t bytes)
{
    uint8_t *held = filled(bytes);
    uint8_t *titles = filled(asked->title_room);
    struct answer made = call(asked, inputs, held + BESIDE, titles + BESIDE);
    made.kept = is_kept(held, bytes) && is_kept(titles, asked->title_room);
    send(&made, sizeof made);
    send(held + BESIDE, bytes);
    send(titles + BESIDE, asked->title_room);
    if (fflush(stdout) != 0)
        stop("an answer cannot be sent");
    free(held);
    free(titles);
}

int main(void)
{
    struct request asked;
    size_t got;
    while ((got = fread(&asked, 1, sizeof asked, stdin)) == sizeof asked) {
        uint8_t *inputs[INPUTS];
        for (size_t i = 0; i < INPUTS; i++)
            inputs[i] = input(asked.bytes[i]);
        answer(&asked, inputs, asked.room * element(asked.operation));
        for (size_t i = 0; i < INPUTS; i++)
            free(inputs[i]);
    }
    if (got != 0)
        stop("a request is cut off");
    return 0;
}
