/* Random calls, often with ranges that are no good, beside the model.

   usage: fuzz [CALLS [SEED]]   a million calls, seed 1 */
#include "agree.h"

#include <stdio.h>
#include <stdlib.h>
#include <string.h>

/* A start and a length for a memory of so many bits: mostly within, often at the edge, beyond it, or with a sum that
   wraps. */
static void range(size_t bits, size_t *start, size_t *len)
{
    switch (chance_below(10)) {
    case 0: /* at the end, or one past it */
        *len = chance_below(bits + 1);
        *start = bits - *len + chance_below(2);
        break;
    case 1: /* a bit too long */
        *start = chance_below(bits + 1);
        *len = bits - *start + chance_below(2);
        break;
    case 2: /* a sum that wraps, to a place within */
        *start = SIZE_MAX - chance_below(200);
        *len = chance_below(400);
        break;
    case 3: /* the same, with the length that is too great */
        *start = chance_below(bits + 1);
        *len = SIZE_MAX - chance_below(400);
        break;
    case 4: /* anything */
        *start = chance() >> chance_below(64);
        *len = chance() >> chance_below(64);
        break;
    default:
        *start = chance_below(bits + 1);
        *len = chance_below(bits - *start + 1);
    }
}

/* A width of a number: mostly one, else none, 65 and the like. */
static size_t width(size_t len)
{
    size_t way = chance_below(8);
    return way == 0 ? len : way == 1 ? chance_below(3) * 65 : 1 + chance_below(64);
}

/* So many words: none, or as many as have some of `most` bits. */
static size_t count(const struct storage *storage, size_t most)
{
    return chance_below(8) == 0 ? 0 : chance_below(most / storage->word_bits) + 1;
}

static bool is_number(enum call call)
{
    return call == LOAD || call == LOAD_SIGNED || call == STORE || call == STORE_SIGNED;
}

static struct request request_of(const struct storage *storage)
{
    /* One in six has room for longer windows, which the library takes by other ways. */
    size_t most = chance_below(6) == 0 ? 1600 : 320;
    struct request request = {.call = (enum call)chance_below(CALLS), .count = count(storage, most)};
    size_t bits = request.count * storage->word_bits, unused;
    request.other_count = count(storage, most);
    range(bits, &request.start, &request.len);
    range(bits, &request.to, &unused);
    range(request.other_count * storage->word_bits, &request.other_start, &request.other_len);
    if (is_number(request.call))
        request.len = width(request.len);
    bool between = request.call >= COPY || request.call == MOVE || request.call == EQUAL || request.call == COMPARE;
    if (between && chance_below(2) == 0) { /* lengths that fit both */
        size_t other_bits = request.other_count * storage->word_bits;
        request.len = chance_below((bits < other_bits ? bits : other_bits) + 1);
        request.start = chance_below(bits - request.len + 1);
        request.to = chance_below(bits - request.len + 1);
        request.other_start = chance_below(other_bits - request.len + 1);
        request.other_len = request.len;
    }
    request.by = chance_below(4) == 0 ? chance() >> chance_below(64) : chance_below(request.len / 2 + 2);
    request.bit = chance_below(2);
    request.value = chance();
    return request;
}

/* Words by chance, or all alike but for some. */
static void refresh(struct pages *pages)
{
    size_t way = chance_below(4);
    for (size_t i = 0; i < PAGES_BYTES; i++)
        pages->model[i] = way == 0 ? (uint8_t)chance() : way == 1 ? 0x00 : way == 2 ? 0xff : pages->model[i];
    if (way == 1 || way == 2)
        for (int k = 0; k < 300; k++)
            pages->model[chance_below(PAGES_BYTES)] ^= (uint8_t)(1u << chance_below(8));
    memcpy(pages->real, pages->model, PAGES_BYTES);
}

/* Two windows of one memory, often the same one. */
static void in_one(struct request *request)
{
    request->other_count = request->count;
    if (chance_below(2) == 0) {
        request->other_start = request->start;
        request->other_len = request->len;
    }
}

int main(int argc, char **argv)
{
    unsigned long calls = argc > 1 ? strtoul(argv[1], NULL, 10) : 1000000;
    unsigned long seed = argc > 2 ? strtoul(argv[2], NULL, 10) : 1;
    chance_begin(seed);
    agree_begin();
    for (unsigned long made = 0; made < calls; made++) {
        if (made % 64 == 0) {
            refresh(&words_pages);
            refresh(&other_pages);
        }
        const struct storage *storage = &storages[chance_below(STORAGES)];
        struct request request = request_of(storage);
        bool is_one = (request.call == EQUAL || request.call == COMPARE) && chance_below(2) == 0;
        if (is_one)
            in_one(&request);
        size_t words_at = place_of(storage, request.count, chance_below(2));
        size_t other_at = is_one ? words_at : place_of(storage, request.other_count, chance_below(2));
        if (!agrees(storage, &request, words_at, other_at, is_one)) {
            printf("call %lu of seed %lu\n", made, seed);
            return 1;
        }
    }
    printf("%lu calls by chance, seed %lu: none differs from the model; %lu were done, %lu out of range, %lu found none, "
           "%lu had a bad width\n",
           calls, seed, ended[BITS_OK], ended[BITS_OUT_OF_RANGE], ended[BITS_NONE], ended[BITS_BAD_WIDTH]);
    return 0;
}
