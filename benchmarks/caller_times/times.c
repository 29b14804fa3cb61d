/* Calls of libbits on words of the type WORD, uint64_t or uint8_t, under lsb0, and the same by the loops of by_blocks.h.

   It prints a line for each call and window: CALL BITS START OTHER_START, and the nanoseconds of both, the least of ROUNDS. */
#define _POSIX_C_SOURCE 199309L

#include "bits.h"

#include "../by_blocks.h"

#include <stdio.h>
#include <time.h>

#define APART __attribute__((noinline)) static
enum { ROUNDS = 24, BY = 61, SPARE = 4 };
static const size_t NOWHERE = SIZE_MAX;

/* --- by hand */

APART uint64_t own_get(const word *w, size_t index) { return w[index / B] >> index % B & 1; }

APART void own_set(word *w, size_t index, bool bit)
{
    word *at = w + index / B;
    *at = (word)((*at & ~((word)1 << index % B)) | (word)bit << index % B);
}

static size_t place_of(size_t index, size_t len) { return index == len ? NOWHERE : index; }

APART uint64_t own_count_ones(const word *w, size_t start, size_t len) { return count_bits(w, start, len); }
APART uint64_t own_first_one(const word *w, size_t start, size_t len)
{
    return place_of(first_bit(w, start, len, 0), len);
}
APART uint64_t own_last_one(const word *w, size_t start, size_t len)
{
    return place_of(last_bit(w, start, len, 0), len);
}
APART uint64_t own_first_zero(const word *w, size_t start, size_t len)
{
    return place_of(first_bit(w, start, len, ALL), len);
}
APART uint64_t own_last_zero(const word *w, size_t start, size_t len)
{
    return place_of(last_bit(w, start, len, ALL), len);
}
APART uint64_t own_any(const word *w, size_t start, size_t len) { return first_bit(w, start, len, 0) != len; }
APART uint64_t own_all(const word *w, size_t start, size_t len) { return first_bit(w, start, len, ALL) == len; }

APART uint64_t own_equal(const word *w, size_t start, size_t len, const word *o, size_t other)
{
    return (uint64_t)same_bits(w, start, o, other, len);
}

APART int own_compare(const word *w, size_t start, size_t len, const word *o, size_t other)
{
    size_t at = mismatch(w, start, o, other, len);
    return at == len ? 0 : w[(start + at) / B] >> (start + at) % B & 1 ? 1 : -1;
}

APART uint64_t own_load(const word *w, size_t start, size_t len) { return read_bits(w, start, len); }

APART int64_t own_load_signed(const word *w, size_t start, size_t len)
{
    return (int64_t)(read_bits(w, start, len) << (64 - len)) >> (64 - len);
}

APART void own_store(word *w, size_t start, size_t len, uint64_t value) { write_bits(w, start, len, value); }
APART void own_fill(word *w, size_t start, size_t len, bool bit) { fill_bits(w, start, len, bit); }
APART void own_not(word *w, size_t start, size_t len) { invert_bits(w, start, len); }
APART void own_reverse(word *w, size_t start, size_t len) { reverse_bits(w, start, len); }
APART void own_move(word *w, size_t from, size_t to, size_t len) { move_bits(w, from, to, len); }

APART void own_rotate_left(word *w, size_t start, size_t len, size_t by) { rotate_bits_left(w, start, len, by); }
APART void own_rotate_right(word *w, size_t start, size_t len, size_t by) { rotate_bits_left(w, start, len, len - by); }

APART void own_copy(word *w, size_t start, size_t len, const word *o, size_t other)
{
    copy_bits(w, start, o, other, len);
}
APART void own_and(word *w, size_t start, size_t len, const word *o, size_t other)
{
    combine_and(w, start, o, other, len);
}
APART void own_or(word *w, size_t start, size_t len, const word *o, size_t other)
{
    combine_or(w, start, o, other, len);
}
APART void own_xor(word *w, size_t start, size_t len, const word *o, size_t other)
{
    combine_xor(w, start, o, other, len);
}

/* --- each call, by the library and by hand */

/* The library's call over words of the type WORD. */
#define CALL_uint64_t(NAME) bits_u64_lsb0_##NAME
#define CALL_uint8_t(NAME) bits_u8_lsb0_##NAME
#define CALL_BY(WORD) CALL_OF(WORD)
#define CALL_OF(WORD) CALL_##WORD
#define LIBRARY(NAME) CALL_BY(WORD)(NAME)

struct window {
    word *words, *other;
    size_t count, start, other_start, len;
};

#define MEMORY v->words, v->count
#define WINDOW MEMORY, v->start, v->len
#define OTHER v->other, v->count, v->other_start

/* What a call answers goes into a sum, so that it has to be made. */
#define READS(NAME, TYPE)                                                                                              \
    APART uint64_t lib_##NAME##_call(const struct window *v, uint64_t n)                                               \
    {                                                                                                                  \
        TYPE answer = 0;                                                                                               \
        (void)n;                                                                                                       \
        return LIBRARY(NAME)(WINDOW, &answer) == BITS_OK ? (uint64_t)answer : NOWHERE;                                 \
    }                                                                                                                  \
    APART uint64_t own_##NAME##_call(const struct window *v, uint64_t n)                                               \
    {                                                                                                                  \
        (void)n;                                                                                                       \
        return (uint64_t)own_##NAME(v->words, v->start, v->len);                                                       \
    }
#define COMPARES(NAME, TYPE)                                                                                           \
    APART uint64_t lib_##NAME##_call(const struct window *v, uint64_t n)                                               \
    {                                                                                                                  \
        TYPE answer = 0;                                                                                               \
        (void)n;                                                                                                       \
        return LIBRARY(NAME)(WINDOW, OTHER, v->len, &answer) == BITS_OK ? (uint64_t)answer : NOWHERE;                  \
    }                                                                                                                  \
    APART uint64_t own_##NAME##_call(const struct window *v, uint64_t n)                                               \
    {                                                                                                                  \
        (void)n;                                                                                                       \
        return (uint64_t)own_##NAME(v->words, v->start, v->len, v->other, v->other_start);                             \
    }
/* n is the number of the call. */
#define CHANGES(NAME, GIVEN, OWN)                                                                                      \
    APART uint64_t lib_##NAME##_call(const struct window *v, uint64_t n)                                               \
    {                                                                                                                  \
        (void)n;                                                                                                       \
        return LIBRARY(NAME) GIVEN;                                                                                    \
    }                                                                                                                  \
    APART uint64_t own_##NAME##_call(const struct window *v, uint64_t n)                                               \
    {                                                                                                                  \
        (void)n;                                                                                                       \
        OWN;                                                                                                           \
        return 0;                                                                                                      \
    }
#define COMBINES(NAME)                                                                                                 \
    CHANGES(NAME, (WINDOW, OTHER), own_##NAME(v->words, v->start, v->len, v->other, v->other_start))

APART uint64_t lib_get_call(const struct window *v, uint64_t n)
{
    uint8_t bit = 0;
    return LIBRARY(get)(MEMORY, v->start + n % 64, &bit) == BITS_OK ? bit : NOWHERE;
}
APART uint64_t own_get_call(const struct window *v, uint64_t n) { return own_get(v->words, v->start + n % 64); }
CHANGES(set, (MEMORY, v->start + n % 64, n & 64), own_set(v->words, v->start + n % 64, n & 64))
READS(count_ones, size_t)
READS(first_one, size_t)
READS(last_one, size_t)
READS(first_zero, size_t)
READS(last_zero, size_t)
READS(any, uint8_t)
READS(all, uint8_t)
COMPARES(equal, uint8_t)
COMPARES(compare, int32_t)
READS(load, uint64_t)
READS(load_signed, int64_t)
CHANGES(store, (WINDOW, n), own_store(v->words, v->start, v->len, n))
CHANGES(store_signed, (WINDOW, -(int64_t)n), own_store(v->words, v->start, v->len, -n))
CHANGES(fill, (WINDOW, n & 1), own_fill(v->words, v->start, v->len, n & 1))
CHANGES(not, (WINDOW), own_not(v->words, v->start, v->len))
CHANGES(reverse, (WINDOW), own_reverse(v->words, v->start, v->len))
CHANGES(rotate_left, (WINDOW, BY), own_rotate_left(v->words, v->start, v->len, BY))
CHANGES(rotate_right, (WINDOW, BY), own_rotate_right(v->words, v->start, v->len, BY))
CHANGES(move, (MEMORY, v->start, v->start + BY, v->len), own_move(v->words, v->start, v->start + BY, v->len))
COMBINES(copy)
COMBINES(and)
COMBINES(or)
COMBINES(xor)

typedef uint64_t made(const struct window *, uint64_t);
enum content { RANDOM, ZEROS, ONES, ALIKE };
enum widths { EACH, SINGLE, NUMBER }; /* SINGLE and NUMBER: on 64 bits alone */

#define BOTH(NAME) #NAME, lib_##NAME##_call, own_##NAME##_call

static const struct {
    const char *name;
    made *library, *own;
    enum content content;
    enum widths widths;
} calls[] = {
    {BOTH(get), RANDOM, SINGLE}, {BOTH(set), RANDOM, SINGLE}, {BOTH(count_ones), RANDOM, EACH},
    {BOTH(first_one), ZEROS, EACH}, {BOTH(last_one), ZEROS, EACH}, {BOTH(first_zero), ONES, EACH},
    {BOTH(last_zero), ONES, EACH}, {BOTH(any), ZEROS, EACH}, {BOTH(all), ONES, EACH}, {BOTH(equal), ALIKE, EACH},
    {BOTH(compare), ALIKE, EACH}, {BOTH(load), RANDOM, NUMBER}, {BOTH(load_signed), RANDOM, NUMBER},
    {BOTH(store), RANDOM, NUMBER}, {BOTH(store_signed), RANDOM, NUMBER}, {BOTH(fill), RANDOM, EACH},
    {BOTH(not), RANDOM, EACH}, {BOTH(reverse), RANDOM, EACH}, {BOTH(rotate_left), RANDOM, EACH},
    {BOTH(rotate_right), RANDOM, EACH}, {BOTH(move), RANDOM, EACH}, {BOTH(copy), RANDOM, EACH},
    {BOTH(and), RANDOM, EACH}, {BOTH(or), RANDOM, EACH}, {BOTH(xor), RANDOM, EACH},
};

/* --- how long they take */

static double now(void)
{
    struct timespec time;
    clock_gettime(CLOCK_MONOTONIC, &time);
    return (double)time.tv_sec * 1e9 + (double)time.tv_nsec;
}

static uint64_t state;

static uint64_t chance(void)
{
    state = state * 6364136223846793005u + 1442695040888963407u;
    return (state >> 32) * 0x9e3779b97f4a7c15;
}

static struct window window_of(size_t len, size_t start, size_t other_start, enum content content)
{
    struct window v = {NULL, NULL, (len / 64 + SPARE) * (64 / B), start, other_start, len};
    v.words = calloc(v.count, sizeof *v.words);
    v.other = calloc(v.count, sizeof *v.other);
    if (v.words == NULL || v.other == NULL)
        exit(2);
    state = len;
    for (size_t k = 0; k < len / 64 + SPARE; k++) {
        store_block(BLOCK(v.words, k), content == ZEROS ? 0 : content == ONES ? ALL : chance());
        store_block(BLOCK(v.other, k), chance());
    }
    for (size_t i = 0; content == ALIKE && i < len; i++)
        own_set(v.other, other_start + i, own_get(v.words, start + i));
    return v;
}

static double round_of(made *call, const struct window *v, uint64_t times, uint64_t *sum)
{
    double start = now();
    for (uint64_t n = 0; n < times; n++)
        *sum = *sum * 31 + call(v, n);
    return (now() - start) / (double)times;
}

static bool times(size_t number, size_t len, size_t start, size_t other_start)
{
    struct window library = window_of(len, start, other_start, calls[number].content);
    struct window own = window_of(len, start, other_start, calls[number].content);
    uint64_t rounds_calls = len >= 1000000 ? 10 : len >= 1000 ? 2000 : 20000, sums[2] = {0, 0};
    double best[2] = {1e300, 1e300};
    for (int round = 0; round < ROUNDS; round++) {
        double took = round_of(calls[number].library, &library, rounds_calls, &sums[0]);
        best[0] = took < best[0] ? took : best[0];
        took = round_of(calls[number].own, &own, rounds_calls, &sums[1]);
        best[1] = took < best[1] ? took : best[1];
    }
    bool same = sums[0] == sums[1] && memcmp(library.words, own.words, library.count * sizeof(word)) == 0;
    printf("%s %zu %zu %zu %.3f %.3f%s\n", calls[number].name, len, start, other_start, best[0], best[1],
           same ? "" : " differ");
    free(library.words);
    free(library.other);
    free(own.words);
    free(own.other);
    return same;
}

int main(void)
{
    bool same = true;
    for (size_t number = 0; number < sizeof calls / sizeof *calls; number++)
        for (int away = 0; away < 2; away++)
            for (size_t len = calls[number].widths == EACH ? 1000000 : 64; len >= 64; len = len == 1000 ? 64 : len / 1000)
                same &= times(number, len, away ? 13 : 0, away ? 29 : 0);
    return !same;
}
