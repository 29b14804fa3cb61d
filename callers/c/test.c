/* Each call of each storage: worked rows, then all heads of bytes, some of words of 64 bits, and lengths 0 to 140 beside
   the model. */
#include "agree.h"

#include <stdio.h>
#include <string.h>

static unsigned long failed;

/* Worked by hand. A memory has three bytes. */
struct row {
    int storage;
    uint8_t before[3], after[3], other[3];
    struct request request;
    struct answer answer;
};

static const struct row rows[] = {
    /* bits 4 to before 20 of 0x12 0x34 0x56 as a number, the lowest digit first and the highest */
    {U8_LSB0, {0x12, 0x34, 0x56}, {0x12, 0x34, 0x56}, {0}, {.call = LOAD, .start = 4, .len = 16}, {.value = 0x6341}},
    {U8_MSB0, {0x12, 0x34, 0x56}, {0x12, 0x34, 0x56}, {0}, {.call = LOAD, .start = 4, .len = 16}, {.value = 0x2345}},
    /* three ones and a zero behind them */
    {U8_LSB0, {0x0e}, {0x0e}, {0}, {.call = LOAD_SIGNED, .start = 1, .len = 3}, {.signed_value = -1}},
    {U8_LSB0, {0x0e}, {0x0e}, {0}, {.call = LOAD_SIGNED, .start = 1, .len = 4}, {.signed_value = 7}},
    /* 5, and -3, over three bits between others */
    {U8_LSB0, {0}, {0x28}, {0}, {.call = STORE, .start = 3, .len = 3, .value = 5}, {0}},
    {U8_MSB0, {0xff}, {0xf7}, {0}, {.call = STORE_SIGNED, .start = 3, .len = 3, .value = (uint64_t)-3}, {0}},
    {U8_LSB0, {0}, {0}, {0}, {.call = STORE, .len = 0}, {.status = BITS_BAD_WIDTH}},
    {U8_LSB0, {0}, {0}, {0}, {.call = STORE, .start = 99, .len = 65}, {.status = BITS_BAD_WIDTH}},
    /* the sixteen bits moved to bits 0 and 5 */
    {U8_LSB0, {0x12, 0x34, 0x56}, {0x41, 0x63, 0x56}, {0}, {.call = MOVE, .start = 4, .to = 0, .len = 16}, {0}},
    {U8_LSB0, {0x12, 0x34, 0x56}, {0x32, 0x68, 0x4c}, {0}, {.call = MOVE, .start = 4, .to = 5, .len = 16}, {0}},
    /* 0, 1, 0, 0, 1 between ones, turned by 2 */
    {U8_LSB0, {0xcb}, {0xd3}, {0}, {.call = ROTATE_LEFT, .start = 2, .len = 5, .by = 2}, {0}},
    {U8_LSB0, {0xd3}, {0xcb}, {0}, {.call = ROTATE_RIGHT, .start = 2, .len = 5, .by = 2}, {0}},
    {U8_MSB0, {0xd3}, {0xcb}, {0}, {.call = ROTATE_LEFT, .start = 2, .len = 5, .by = 2}, {0}},
    {U8_LSB0, {0xcb}, {0xcb}, {0}, {.call = ROTATE_LEFT, .start = 2, .len = 5, .by = 6}, {.status = BITS_OUT_OF_RANGE}},
    /* 0, 1, 1, five zeros and eight ones */
    {U8_LSB0, {0x06, 0xff}, {0x06, 0xff}, {0}, {.call = COUNT_ONES, .len = 16}, {.place = 10}},
    {U8_LSB0, {0x06, 0xff}, {0x06, 0xff}, {0}, {.call = FIRST_ONE, .len = 16}, {.place = 1}},
    {U8_LSB0, {0x06, 0xff}, {0x06, 0xff}, {0}, {.call = LAST_ONE, .len = 16}, {.place = 15}},
    {U8_LSB0, {0x06, 0xff}, {0x06, 0xff}, {0}, {.call = FIRST_ZERO, .len = 16}, {.place = 0}},
    {U8_LSB0, {0x06, 0xff}, {0x06, 0xff}, {0}, {.call = LAST_ZERO, .len = 16}, {.place = 7}},
    {U8_LSB0, {0x06, 0xff}, {0x06, 0xff}, {0}, {.call = LAST_ZERO, .start = 8, .len = 8}, {.status = BITS_NONE}},
    /* no bits */
    {U8_LSB0, {0xff}, {0xff}, {0}, {.call = ANY, .start = 24}, {.bit = 0}},
    {U8_LSB0, {0}, {0}, {0}, {.call = ALL, .start = 24}, {.bit = 1}},
    {U8_LSB0, {0}, {0}, {0}, {.call = ALL, .start = 25}, {.status = BITS_OUT_OF_RANGE}},
    /* 0, 1 before 0, 1, 1 */
    {U8_LSB0, {0x06}, {0x06}, {0x06}, {.call = COMPARE, .len = 2, .other_len = 3}, {.order = -1}},
    {U8_LSB0, {0x06}, {0x06}, {0x06}, {.call = EQUAL, .start = 1, .len = 2, .other_start = 1, .other_len = 2}, {.bit = 1}},
    /* one bit, and a window turned, filled and put in reverse */
    {U8_MSB0, {0x40}, {0x40}, {0}, {.call = GET, .start = 1}, {.bit = 1}},
    {U8_MSB0, {0}, {0, 0x20}, {0}, {.call = SET, .start = 10, .bit = true}, {0}},
    {U8_LSB0, {0}, {0xf0, 0x0f}, {0}, {.call = FILL, .start = 4, .len = 8, .bit = true}, {0}},
    {U8_LSB0, {0xff, 0x00}, {0x0f, 0x0f}, {0}, {.call = NOT, .start = 4, .len = 8}, {0}},
    {U8_LSB0, {0x12}, {0x48}, {0}, {.call = REVERSE, .len = 8}, {0}},
    /* four ones with 1, 0, 1, 0 */
    {U8_LSB0, {0x78}, {0x28}, {0x05}, {.call = AND, .start = 3, .len = 4}, {0}},
    {U8_LSB0, {0x80}, {0xa8}, {0x05}, {.call = OR, .start = 3, .len = 4}, {0}},
    {U8_LSB0, {0x78}, {0x50}, {0x05}, {.call = XOR, .start = 3, .len = 4}, {0}},
    {U8_LSB0, {0x78}, {0x28}, {0x05}, {.call = COPY, .start = 3, .len = 4}, {0}},
};

static bool is_as_worked(const struct row *row, const uint8_t *memory, const struct answer *answer)
{
    const struct answer *wanted = &row->answer;
    return memcmp(memory, row->after, 3) == 0 && answer->status == wanted->status && answer->bit == wanted->bit
        && answer->place == wanted->place && answer->order == wanted->order && answer->value == wanted->value
        && answer->signed_value == wanted->signed_value;
}

static void run_rows(void)
{
    for (size_t i = 0; i < sizeof rows / sizeof *rows; i++) {
        struct request request = rows[i].request;
        request.count = request.other_count = 3;
        const struct storage *storage = &storages[rows[i].storage];
        for (int model = 0; model < 2; model++) {
            uint8_t memory[3];
            struct answer answer = {0};
            memcpy(memory, rows[i].before, 3);
            (model ? model_run : library_run)(storage, &request, memory, rows[i].other, &answer);
            if (!is_as_worked(&rows[i], memory, &answer)) {
                printf("row %zu, %s of %s: not as worked by %s\n", i, call_names[request.call], storage->name,
                       model ? "the model" : "the library");
                failed++;
            }
        }
    }
    const uint64_t words[2] = {7, UINT64_MAX};
    size_t ones = 0;
    uint64_t number = 0;
    if (bits_u64_lsb0_count_ones(words, 2, 1, 66, &ones) != BITS_OK || ones != 5
        || bits_u64_msb0_load(words, 2, 61, 5, &number) != BITS_OK || number != 31) {
        printf("words of 64 bits: %zu ones and 0x%llx, not as worked\n", ones, (unsigned long long)number);
        failed++;
    }
}

/* What a window holds. */
enum content { RANDOM, ZEROS, ONES, ONE_BIT, ONE_LACKS, CONTENTS };

struct window {
    const struct pages *pages;
    size_t at, count, start, len;
};

static void put(const struct storage *storage, const struct window *window, size_t i, bool bit)
{
    model_put(storage, window->pages->model + window->at, window->start + i, bit);
}

/* Puts it in the model's bytes, with the opposite beside it where it is all the same. */
static void lay(const struct storage *storage, const struct window *window, enum content content)
{
    uint8_t *memory = window->pages->model + window->at;
    size_t bytes = window->count * storage->word_bits / 8;
    bool bit = content == ONES || content == ONE_LACKS;
    if (content == RANDOM) {
        for (size_t i = 0; i < bytes; i++)
            memory[i] = (uint8_t)chance();
        return;
    }
    memset(memory, bit ? 0x00 : 0xff, bytes);
    for (size_t i = 0; i < window->len; i++)
        put(storage, window, i, bit);
    if (window->len > 0 && (content == ONE_BIT || content == ONE_LACKS))
        put(storage, window, chance_below(window->len), !bit);
}

/* A list of ones and zeros like the first one, but for one bit where `turned`. */
static void lay_like(const struct storage *storage, const struct window *window, const struct window *like, bool turned)
{
    size_t len = window->len < like->len ? window->len : like->len;
    size_t other = len > 0 && turned ? chance_below(len) : len;
    for (size_t i = 0; i < len; i++)
        put(storage, window, i, model_bit(storage, like->pages->model + like->at, like->start + i) != (i == other));
}

static size_t words_for(const struct storage *storage, size_t bits)
{
    return (bits + storage->word_bits - 1) / storage->word_bits;
}

/* Mostly just as many words as hold the bits; else one more or one fewer. */
static size_t count_for(const struct storage *storage, size_t bits)
{
    size_t count = words_for(storage, bits), way = chance_below(8);
    return way == 0 ? count + 1 : way == 1 && count > 0 ? count - 1 : count;
}

static bool one_call(const struct storage *storage, enum call call, size_t head, size_t other_head, size_t len,
                     enum content content)
{
    size_t other_len = content == RANDOM || chance_below(4) == 0 ? len + chance_below(3) : len;
    size_t to = other_head + (chance_below(2) ? 0 : storage->word_bits);
    size_t end = call == MOVE && to > head ? to : head;
    struct window words = {&words_pages, 0, words_for(storage, end + len), head, len};
    struct window other = {&other_pages, 0, words_for(storage, other_head + other_len), other_head, other_len};
    words.at = place_of(storage, words.count, true);
    other.at = place_of(storage, other.count, true);
    lay(storage, &words, content);
    lay(storage, &other, content);
    if (content == ONE_BIT || content == ONE_LACKS)
        lay_like(storage, &other, &words, chance_below(2) == 0);
    memcpy(words_pages.real, words_pages.model, PAGES_BYTES);
    memcpy(other_pages.real, other_pages.model, PAGES_BYTES);
    struct request request = {
        .call = call, .count = count_for(storage, end + len), .start = head, .len = len,
        .other_count = count_for(storage, other_head + other_len), .other_start = other_head, .other_len = other_len,
        .to = to, .by = chance_below(len + 2), .bit = chance_below(2), .value = chance()
    };
    return agrees(storage, &request, place_of(storage, request.count, true),
                  place_of(storage, request.other_count, true), false);
}

/* Whether a call has two windows, so that the head of the second one matters. */
static bool has_two(enum call call)
{
    return call == EQUAL || call == COMPARE || call >= MOVE;
}

static unsigned long sweep(const struct storage *storage, const size_t *heads, size_t heads_len)
{
    unsigned long made = 0;
    for (int call = 0; call < CALLS; call++) {
        size_t pairs = has_two((enum call)call) ? heads_len * heads_len : heads_len;
        bool same = true;
        for (size_t len = 0; same && len <= 140; len++)
            for (size_t pair = 0; same && pair < pairs; pair++)
                for (int content = 0; same && content < CONTENTS; content++, made++)
                    same = one_call(storage, (enum call)call, heads[pair % heads_len], heads[pair / heads_len], len,
                                    (enum content)content);
        failed += !same;
    }
    return made;
}

int main(void)
{
    static const size_t bytes[] = {0, 1, 2, 3, 4, 5, 6, 7}, words[] = {0, 1, 13, 31, 32, 63};
    unsigned long made = 0;
    chance_begin(1);
    agree_begin();
    run_rows();
    made += sweep(&storages[U64_LSB0], words, sizeof words / sizeof *words);
    made += sweep(&storages[U64_MSB0], words, sizeof words / sizeof *words);
    made += sweep(&storages[U8_LSB0], bytes, sizeof bytes / sizeof *bytes);
    made += sweep(&storages[U8_MSB0], bytes, sizeof bytes / sizeof *bytes);
    printf("%zu rows, %lu calls beside the model: %lu failed\n", sizeof rows / sizeof *rows + 1, made, failed);
    return failed != 0;
}
