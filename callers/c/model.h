/* What each call of bits.h has to answer, by loops over single bits: no masks, no words at once, nothing clever. */
#ifndef MODEL_H
#define MODEL_H

#include "bits.h"

enum call {
    GET, SET, COUNT_ONES, FIRST_ONE, LAST_ONE, FIRST_ZERO, LAST_ZERO, ANY, ALL, EQUAL, COMPARE, LOAD, LOAD_SIGNED, STORE,
    STORE_SIGNED, FILL, NOT, REVERSE, ROTATE_LEFT, ROTATE_RIGHT, MOVE, COPY, AND, OR, XOR, CALLS
};

extern const char *const call_names[CALLS];

struct storage {
    const char *name;
    unsigned word_bits; /* 8 or 64 */
    bool msb0;
};

enum { U64_LSB0, U64_MSB0, U8_LSB0, U8_MSB0, STORAGES };

extern const struct storage storages[STORAGES];

/* What is asked. Each call takes the fields that it has arguments for. */
struct request {
    enum call call;
    size_t count, start, len; /* `start` is the index of get and set, and where move takes bits from */
    size_t other_count, other_start, other_len;
    size_t to;      /* of move */
    size_t by;      /* of the rotations */
    bool bit;       /* of set and fill */
    uint64_t value; /* of the stores, that of a number with a sign as its 64 digits */
};

/* What is answered. Each call writes the field that it has a pointer for, and none where the status is not BITS_OK. */
struct answer {
    bits_status status;
    uint8_t bit;   /* of get, any, all and equal */
    size_t place;  /* of the searches, and the count of ones */
    int32_t order; /* of compare */
    uint64_t value;
    int64_t signed_value;
};

/* Bit i of a memory. */
bool model_bit(const struct storage *storage, const void *words, size_t i);
void model_put(const struct storage *storage, void *words, size_t i, bool bit);

/* What the request does to `words`, read with `other` beside it, and answers. */
void model_run(const struct storage *storage, const struct request *request, void *words, const void *other,
               struct answer *answer);

#endif
