/* The functions of the C interface as a table, so that one piece of code runs the library and the second
 * implementation alike. */
#ifndef BOTH_H
#define BOTH_H

#include "tronalhet.h"

struct functions {
    const char *name;
    uint32_t (*read)(const uint8_t *, size_t, uint32_t *, size_t, uint8_t *, size_t);
    tronalhet_answer (*sound)(const uint8_t *, size_t, size_t *, size_t);
    tronalhet_answer (*write)(const uint32_t *, size_t, const uint8_t *, size_t, const uint8_t *, size_t,
                              uint8_t *, size_t);
    tronalhet_answer (*decode)(const uint8_t *, size_t, int16_t *, size_t);
    tronalhet_answer (*decode_block)(const uint8_t *, size_t, uint32_t, int16_t *, size_t);
    tronalhet_coded (*encode)(const int16_t *, size_t, uint16_t, uint16_t, uint8_t *, size_t);
    tronalhet_answer (*empty)(uint16_t, uint32_t, uint8_t *, size_t);
    tronalhet_answer (*add)(const uint8_t *, size_t, const uint8_t *, size_t, uint32_t, uint32_t, uint8_t *,
                            size_t);
};

/* Runs the examples printed in document 01; answers how many failed, and prints them. */
unsigned run_examples(const struct functions *functions);

#endif
