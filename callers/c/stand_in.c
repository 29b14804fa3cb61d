/* The model under the library's names, right or with one of the mistakes below: by this callers/check sees that the test
   and the fuzz find each of them. It is linked in place of the library, and has no bit_table_run.

   The variable WRONG of the environment is the number of a mistake; without it there is none. */
#include "model.h"

#include <stdlib.h>

enum mistake {
    NO_MISTAKE,
    A_SUM_WRAPS,            /* a window whose start + len wraps is taken */
    AN_ANSWER_ALL_THE_SAME, /* where there is no such bit, the place is written too */
    RANGE_BEFORE_WIDTH,     /* a bad width out of range is told as out of range */
    ONE_BIT_MORE,           /* fill writes the bit behind the window, where there is one */
    ONE_BIT_FEWER,          /* count_ones leaves out the last bit of 64 and more */
    FROM_THE_START,         /* last_one counts from the memory's start */
    NO_SIGN,                /* load_signed of fewer than 64 bits never answers less than 0 */
    MORE_THAN_A_TURN,       /* a rotation by more than the length is made */
    NO_OVERLAP,             /* move writes the first bits before it has read the last ones */
    A_BEGINNING_IS_EQUAL,   /* compare ends with the shorter window */
    HIGHEST_FIRST,          /* store of bytes under lsb0 as under msb0 */
    ANY_OF_NONE,            /* any of no bits is true */
    A_WORD_BEHIND,          /* get reads one word more than there are */
    OTHER_UNSEEN,           /* copy does not look at the range of other */
    OTHER_WRITTEN,          /* xor leaves its result in other too */
    MISTAKES
};

static enum mistake mistake(void)
{
    static int number = -1;
    if (number < 0) {
        const char *said = getenv("WRONG");
        number = said == NULL ? NO_MISTAKE : atoi(said);
        if (number >= MISTAKES)
            exit(3);
    }
    return (enum mistake)number;
}

static bool is_behind(const struct storage *storage, const struct request *r)
{
    return r->start + r->len < r->count * storage->word_bits;
}

/* The mistakes that ask another thing of the model. */
static struct request mistaken(const struct storage *storage, struct request r)
{
    bool is_rotation = r.call == ROTATE_LEFT || r.call == ROTATE_RIGHT;
    switch (mistake()) {
    case A_SUM_WRAPS:
        if (r.len > 64 && r.start + r.len < r.len)
            r.start = r.len = 0;
        break;
    case RANGE_BEFORE_WIDTH:
        if (r.call == LOAD && r.len > 64 && r.start > r.count * storage->word_bits)
            r.len = 64;
        break;
    case ONE_BIT_MORE:
        r.len += r.call == FILL && r.len > 0 && is_behind(storage, &r);
        break;
    case ONE_BIT_FEWER:
        r.len -= r.call == COUNT_ONES && r.len >= 64;
        break;
    case MORE_THAN_A_TURN:
        if (is_rotation && r.len > 0 && r.by > r.len)
            r.by %= r.len;
        break;
    case A_BEGINNING_IS_EQUAL:
        if (r.call == COMPARE && r.other_len > r.len)
            r.other_len = r.len;
        break;
    case OTHER_UNSEEN:
        if (r.call == COPY && r.other_start > r.other_count * storage->word_bits)
            r.len = 0, r.other_start = 0;
        break;
    default:
        break;
    }
    return r;
}

/* The mistakes that make another answer or leave other words. */
static void spoil(const struct storage *storage, const struct request *r, void *words, const void *other,
                  struct answer *a)
{
    bool is_done = a->status == BITS_OK;
    switch (mistake()) {
    case AN_ANSWER_ALL_THE_SAME:
        if (a->status == BITS_NONE)
            a->place = 0;
        break;
    case FROM_THE_START:
        a->place += r->call == LAST_ONE && is_done ? r->start : 0;
        break;
    case NO_SIGN:
        if (r->call == LOAD_SIGNED && is_done && r->len < 64)
            a->signed_value &= INT64_MAX >> (63 - r->len);
        break;
    case ANY_OF_NONE:
        if (r->call == ANY && is_done && r->len == 0)
            a->bit = 1;
        break;
    case A_WORD_BEHIND:
        if (r->call == GET && is_done)
            (void)((const volatile uint8_t *)words)[r->count * (storage->word_bits / 8)];
        break;
    case OTHER_WRITTEN:
        if (r->call == XOR && is_done)
            for (size_t i = 0; i < r->len; i++)
                model_put(storage, (void *)(uintptr_t)other, r->other_start + i,
                          model_bit(storage, words, r->start + i));
        break;
    default:
        break;
    }
}

static void run(int number, struct request asked, void *words, const void *other, struct answer *answer)
{
    const struct storage *storage = &storages[number];
    struct request request = mistaken(storage, asked);
    if (mistake() == HIGHEST_FIRST && request.call == STORE && number == U8_LSB0) {
        uint64_t turned = 0;
        for (size_t i = 0; i < request.len && i < 64; i++)
            turned |= (request.value >> i & 1) << (request.len - 1 - i) % 64;
        request.value = turned;
    }
    if (mistake() == NO_OVERLAP && request.call == MOVE) {
        struct answer unused;
        struct request first = request;
        first.len /= 2;
        model_run(storage, &first, words, other, &unused);
    }
    model_run(storage, &request, words, other, answer);
    spoil(storage, &request, words, other, answer);
}

/* One function for each kind of answer. */
static bits_status to_nothing(int number, struct request request, void *words, const void *other)
{
    struct answer answer = {0};
    run(number, request, words, other, &answer);
    return answer.status;
}

static void *read_only(const void *words)
{
    return (void *)(uintptr_t)words;
}

#define TO(NAME, TYPE, FIELD)                                                                                          \
    static bits_status to_##NAME(int number, struct request request, const void *words, const void *other, TYPE *to)  \
    {                                                                                                                  \
        struct answer answer = {.FIELD = *to};                                                                         \
        run(number, request, read_only(words), other, &answer);                                                        \
        *to = answer.FIELD;                                                                                            \
        return answer.status;                                                                                          \
    }

TO(bit, uint8_t, bit)
TO(place, size_t, place)
TO(order, int32_t, order)
TO(value, uint64_t, value)
TO(signed, int64_t, signed_value)

#define WINDOW size_t count, size_t start, size_t len
#define ASKED(CALL, ...) ((struct request){.call = CALL, .count = count, .start = start, __VA_ARGS__})
#define OTHER(W) const W *other, size_t other_count, size_t other_start
#define OF_OTHER .len = len, .other_count = other_count, .other_start = other_start

/* The calls of a storage by what they answer. */
#define READS(S, N, W, NAME, CALL, TYPE, FIELD)                                                                        \
    bits_status bits_##S##_##NAME(const W *words, WINDOW, TYPE *answer)                                                \
    {                                                                                                                  \
        return to_##FIELD(N, ASKED(CALL, .len = len), words, NULL, answer);                                            \
    }
#define COMPARES(S, N, W, NAME, CALL, TYPE, FIELD)                                                                     \
    bits_status bits_##S##_##NAME(const W *words, WINDOW, OTHER(W), size_t other_len, TYPE *answer)                    \
    {                                                                                                                  \
        return to_##FIELD(N, ASKED(CALL, OF_OTHER, .other_len = other_len), words, other, answer);                     \
    }
#define CHANGES(S, N, W, NAME, CALL)                                                                                   \
    bits_status bits_##S##_##NAME(W *words, WINDOW)                                                                    \
    {                                                                                                                  \
        return to_nothing(N, ASKED(CALL, .len = len), words, NULL);                                                    \
    }
#define WRITES(S, N, W, NAME, CALL, TYPE, FIELD)                                                                       \
    bits_status bits_##S##_##NAME(W *words, WINDOW, TYPE FIELD)                                                        \
    {                                                                                                                  \
        return to_nothing(N, ASKED(CALL, .len = len, .FIELD = FIELD), words, NULL);                                    \
    }
#define COMBINES(S, N, W, NAME, CALL)                                                                                  \
    bits_status bits_##S##_##NAME(W *words, WINDOW, OTHER(W))                                                          \
    {                                                                                                                  \
        return to_nothing(N, ASKED(CALL, OF_OTHER), words, other);                                                     \
    }

#define STAND_IN(S, N, W)                                                                                              \
    bits_status bits_##S##_get(const W *words, size_t count, size_t start, uint8_t *bit)                               \
    {                                                                                                                  \
        return to_bit(N, ASKED(GET, .len = 1), words, NULL, bit);                                                      \
    }                                                                                                                  \
    bits_status bits_##S##_set(W *words, size_t count, size_t start, bool bit)                                         \
    {                                                                                                                  \
        return to_nothing(N, ASKED(SET, .bit = bit), words, NULL);                                                     \
    }                                                                                                                  \
    bits_status bits_##S##_move(W *words, size_t count, size_t start, size_t to, size_t len)                           \
    {                                                                                                                  \
        return to_nothing(N, ASKED(MOVE, .to = to, .len = len), words, NULL);                                          \
    }                                                                                                                  \
    bits_status bits_##S##_store_signed(W *words, WINDOW, int64_t value)                                               \
    {                                                                                                                  \
        return to_nothing(N, ASKED(STORE_SIGNED, .len = len, .value = (uint64_t)value), words, NULL);                  \
    }                                                                                                                  \
    READS(S, N, W, count_ones, COUNT_ONES, size_t, place)                                                              \
    READS(S, N, W, first_one, FIRST_ONE, size_t, place)                                                                \
    READS(S, N, W, last_one, LAST_ONE, size_t, place)                                                                  \
    READS(S, N, W, first_zero, FIRST_ZERO, size_t, place)                                                              \
    READS(S, N, W, last_zero, LAST_ZERO, size_t, place)                                                                \
    READS(S, N, W, any, ANY, uint8_t, bit)                                                                             \
    READS(S, N, W, all, ALL, uint8_t, bit)                                                                             \
    READS(S, N, W, load, LOAD, uint64_t, value)                                                                        \
    READS(S, N, W, load_signed, LOAD_SIGNED, int64_t, signed)                                                          \
    COMPARES(S, N, W, equal, EQUAL, uint8_t, bit)                                                                      \
    COMPARES(S, N, W, compare, COMPARE, int32_t, order)                                                                \
    WRITES(S, N, W, store, STORE, uint64_t, value)                                                                     \
    WRITES(S, N, W, fill, FILL, bool, bit)                                                                             \
    WRITES(S, N, W, rotate_left, ROTATE_LEFT, size_t, by)                                                              \
    WRITES(S, N, W, rotate_right, ROTATE_RIGHT, size_t, by)                                                            \
    CHANGES(S, N, W, not, NOT)                                                                                         \
    CHANGES(S, N, W, reverse, REVERSE)                                                                                 \
    COMBINES(S, N, W, copy, COPY)                                                                                      \
    COMBINES(S, N, W, and, AND)                                                                                        \
    COMBINES(S, N, W, or, OR)                                                                                          \
    COMBINES(S, N, W, xor, XOR)

STAND_IN(u64_lsb0, U64_LSB0, uint64_t)
STAND_IN(u64_msb0, U64_MSB0, uint64_t)
STAND_IN(u8_lsb0, U8_LSB0, uint8_t)
STAND_IN(u8_msb0, U8_MSB0, uint8_t)
