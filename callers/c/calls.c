#include "calls.h"

/* The 25 calls of one storage: S in the names, W the word. */
#define CALLS_OF(S, W)                                                                                                 \
    static bits_status run_##S(const struct request *r, W *words, const W *other, struct answer *a)                   \
    {                                                                                                                  \
        size_t n = r->count, start = r->start, len = r->len;                                                           \
        switch (r->call) {                                                                                             \
        case GET: return bits_##S##_get(words, n, start, &a->bit);                                                     \
        case SET: return bits_##S##_set(words, n, start, r->bit);                                                      \
        case COUNT_ONES: return bits_##S##_count_ones(words, n, start, len, &a->place);                                \
        case FIRST_ONE: return bits_##S##_first_one(words, n, start, len, &a->place);                                  \
        case LAST_ONE: return bits_##S##_last_one(words, n, start, len, &a->place);                                    \
        case FIRST_ZERO: return bits_##S##_first_zero(words, n, start, len, &a->place);                                \
        case LAST_ZERO: return bits_##S##_last_zero(words, n, start, len, &a->place);                                  \
        case ANY: return bits_##S##_any(words, n, start, len, &a->bit);                                                \
        case ALL: return bits_##S##_all(words, n, start, len, &a->bit);                                                \
        case EQUAL:                                                                                                    \
            return bits_##S##_equal(words, n, start, len, other, r->other_count, r->other_start, r->other_len,         \
                                    &a->bit);                                                                          \
        case COMPARE:                                                                                                  \
            return bits_##S##_compare(words, n, start, len, other, r->other_count, r->other_start, r->other_len,       \
                                      &a->order);                                                                      \
        case LOAD: return bits_##S##_load(words, n, start, len, &a->value);                                            \
        case LOAD_SIGNED: return bits_##S##_load_signed(words, n, start, len, &a->signed_value);                       \
        case STORE: return bits_##S##_store(words, n, start, len, r->value);                                           \
        case STORE_SIGNED: return bits_##S##_store_signed(words, n, start, len, (int64_t)r->value);                    \
        case FILL: return bits_##S##_fill(words, n, start, len, r->bit);                                               \
        case NOT: return bits_##S##_not(words, n, start, len);                                                         \
        case REVERSE: return bits_##S##_reverse(words, n, start, len);                                                 \
        case ROTATE_LEFT: return bits_##S##_rotate_left(words, n, start, len, r->by);                                  \
        case ROTATE_RIGHT: return bits_##S##_rotate_right(words, n, start, len, r->by);                                \
        case MOVE: return bits_##S##_move(words, n, start, r->to, len);                                                \
        case COPY: return bits_##S##_copy(words, n, start, len, other, r->other_count, r->other_start);                \
        case AND: return bits_##S##_and(words, n, start, len, other, r->other_count, r->other_start);                  \
        case OR: return bits_##S##_or(words, n, start, len, other, r->other_count, r->other_start);                    \
        case XOR: return bits_##S##_xor(words, n, start, len, other, r->other_count, r->other_start);                  \
        case CALLS: break;                                                                                             \
        }                                                                                                              \
        return UINT32_MAX;                                                                                             \
    }

CALLS_OF(u64_lsb0, uint64_t)
CALLS_OF(u64_msb0, uint64_t)
CALLS_OF(u8_lsb0, uint8_t)
CALLS_OF(u8_msb0, uint8_t)

void library_run(const struct storage *storage, const struct request *request, void *words, const void *other,
                 struct answer *answer)
{
    switch (storage - storages) {
    case U64_LSB0: answer->status = run_u64_lsb0(request, words, other, answer); break;
    case U64_MSB0: answer->status = run_u64_msb0(request, words, other, answer); break;
    case U8_LSB0: answer->status = run_u8_lsb0(request, words, other, answer); break;
    case U8_MSB0: answer->status = run_u8_msb0(request, words, other, answer); break;
    }
}
