#include "model.h"

#include <stdlib.h>

const char *const call_names[CALLS] = {
    "get", "set", "count_ones", "first_one", "last_one", "first_zero", "last_zero", "any", "all", "equal", "compare",
    "load", "load_signed", "store", "store_signed", "fill", "not", "reverse", "rotate_left", "rotate_right", "move",
    "copy", "and", "or", "xor"
};

const struct storage storages[STORAGES] = {
    {"u64_lsb0", 64, false}, {"u64_msb0", 64, true}, {"u8_lsb0", 8, false}, {"u8_msb0", 8, true}
};

static unsigned digit_of(const struct storage *storage, size_t i)
{
    unsigned place = (unsigned)(i % storage->word_bits);
    return storage->msb0 ? storage->word_bits - 1 - place : place;
}

bool model_bit(const struct storage *storage, const void *words, size_t i)
{
    unsigned digit = digit_of(storage, i);
    if (storage->word_bits == 8)
        return ((const uint8_t *)words)[i / 8] >> digit & 1;
    return ((const uint64_t *)words)[i / 64] >> digit & 1;
}

void model_put(const struct storage *storage, void *words, size_t i, bool bit)
{
    if (model_bit(storage, words, i) == bit)
        return;
    if (storage->word_bits == 8)
        ((uint8_t *)words)[i / 8] ^= (uint8_t)(1u << digit_of(storage, i));
    else
        ((uint64_t *)words)[i / 64] ^= (uint64_t)1 << digit_of(storage, i);
}

/* Whether `len` bits from `start` on are among the bits of `count` words. */
static bool lies(const struct storage *storage, size_t count, size_t start, size_t len)
{
    size_t bits = count * storage->word_bits;
    return start <= bits && len <= bits - start;
}

/* The window as a list. */
static bool *list_of(const struct storage *storage, const void *words, size_t start, size_t len)
{
    bool *list = malloc(len + 1);
    if (list == NULL)
        abort();
    for (size_t i = 0; i < len; i++)
        list[i] = model_bit(storage, words, start + i);
    return list;
}

static void find(const bool *list, size_t len, bool bit, bool last, struct answer *answer)
{
    answer->status = BITS_NONE;
    for (size_t i = 0; i < len; i++)
        if (list[i] == bit) {
            answer->place = i;
            answer->status = BITS_OK;
            if (!last)
                return;
        }
}

static int32_t order_of(const bool *list, size_t len, const bool *other, size_t other_len)
{
    for (size_t i = 0; i < len && i < other_len; i++)
        if (list[i] != other[i])
            return list[i] ? 1 : -1;
    return len == other_len ? 0 : len < other_len ? -1 : 1;
}

/* Which digit of a number bit i of `len` bits is. */
static size_t digit_in_number(const struct storage *storage, size_t i, size_t len)
{
    return storage->msb0 ? len - 1 - i : i;
}

static uint64_t number_of(const struct storage *storage, const bool *list, size_t len)
{
    uint64_t value = 0;
    for (size_t i = 0; i < len; i++)
        if (list[i])
            value += (uint64_t)1 << digit_in_number(storage, i, len);
    return value;
}

static int64_t signed_number_of(const struct storage *storage, const bool *list, size_t len)
{
    int64_t value = 0;
    for (size_t i = 0; i < len; i++) {
        size_t digit = digit_in_number(storage, i, len);
        if (list[i] && digit == len - 1)
            value += digit == 63 ? INT64_MIN : -((int64_t)1 << digit);
        else if (list[i])
            value += (int64_t)1 << digit;
    }
    return value;
}

static bool is_number(enum call call)
{
    return call == LOAD || call == LOAD_SIGNED || call == STORE || call == STORE_SIGNED;
}

static bool has_other(enum call call)
{
    return call == EQUAL || call == COMPARE || call == COPY || call == AND || call == OR || call == XOR;
}

/* How many bits the window and that of the other memory have. */
static size_t length_of(const struct request *request)
{
    return request->call == GET || request->call == SET ? 1 : request->len;
}

static size_t other_length_of(const struct request *request)
{
    return request->call == EQUAL || request->call == COMPARE ? request->other_len : request->len;
}

/* Why the request is refused, or BITS_OK. */
static bits_status refusal(const struct storage *storage, const struct request *request)
{
    enum call call = request->call;
    size_t len = length_of(request);
    if (is_number(call) && (len < 1 || len > 64))
        return BITS_BAD_WIDTH;
    if (!lies(storage, request->count, request->start, len))
        return BITS_OUT_OF_RANGE;
    if (has_other(call) && !lies(storage, request->other_count, request->other_start, other_length_of(request)))
        return BITS_OUT_OF_RANGE;
    if (call == MOVE && !lies(storage, request->count, request->to, len))
        return BITS_OUT_OF_RANGE;
    if ((call == ROTATE_LEFT || call == ROTATE_RIGHT) && request->by > len)
        return BITS_OUT_OF_RANGE;
    return BITS_OK;
}

/* What bit i of the window becomes. */
static bool changed(const struct storage *storage, const struct request *request, const bool *list, const bool *other,
                    size_t i)
{
    size_t len = request->len;
    switch (request->call) {
    case SET: case FILL:
        return request->bit;
    case STORE: case STORE_SIGNED:
        return request->value >> digit_in_number(storage, i, len) & 1;
    case NOT:
        return !list[i];
    case REVERSE:
        return list[len - 1 - i];
    case ROTATE_LEFT:
        return list[(i + request->by) % len];
    case ROTATE_RIGHT:
        return list[(i + len - request->by) % len];
    case COPY:
        return other[i];
    case AND:
        return list[i] && other[i];
    case OR:
        return list[i] || other[i];
    case XOR:
        return list[i] != other[i];
    default: /* it moves the list, or changes nothing */
        return list[i];
    }
}

static void answer_of(const struct storage *storage, const struct request *request, const bool *list, const bool *other,
                      struct answer *answer)
{
    size_t len = length_of(request);
    size_t ones = 0;
    for (size_t i = 0; i < len; i++)
        ones += list[i];
    switch (request->call) {
    case GET:
        answer->bit = list[0];
        break;
    case COUNT_ONES:
        answer->place = ones;
        break;
    case FIRST_ONE: case LAST_ONE:
        find(list, len, true, request->call == LAST_ONE, answer);
        break;
    case FIRST_ZERO: case LAST_ZERO:
        find(list, len, false, request->call == LAST_ZERO, answer);
        break;
    case ANY:
        answer->bit = ones > 0;
        break;
    case ALL:
        answer->bit = ones == len;
        break;
    case EQUAL:
        answer->bit = order_of(list, len, other, request->other_len) == 0;
        break;
    case COMPARE:
        answer->order = order_of(list, len, other, request->other_len);
        break;
    case LOAD:
        answer->value = number_of(storage, list, len);
        break;
    case LOAD_SIGNED:
        answer->signed_value = signed_number_of(storage, list, len);
        break;
    default: /* it answers nothing */
        break;
    }
}

void model_run(const struct storage *storage, const struct request *request, void *words, const void *other,
               struct answer *answer)
{
    enum call call = request->call;
    answer->status = refusal(storage, request);
    if (answer->status != BITS_OK)
        return;
    size_t len = length_of(request);
    bool *list = list_of(storage, words, request->start, len);
    bool *other_list = list_of(storage, other, request->other_start, has_other(call) ? other_length_of(request) : 0);
    answer_of(storage, request, list, other_list, answer);
    for (size_t i = 0; i < len; i++)
        model_put(storage, words, (call == MOVE ? request->to : request->start) + i,
                  changed(storage, request, list, other_list, i));
    free(list);
    free(other_list);
}
