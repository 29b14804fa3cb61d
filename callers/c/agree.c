#define _DEFAULT_SOURCE

#include "agree.h"

#include <inttypes.h>
#include <stdio.h>
#include <stdlib.h>
#include <string.h>
#include <sys/mman.h>

struct pages words_pages, other_pages;
unsigned long ended[BITS_BAD_WIDTH + 1];

static uint8_t *guarded_page(void)
{
    uint8_t *pages = mmap(NULL, 3 * PAGES_BYTES, PROT_NONE, MAP_PRIVATE | MAP_ANONYMOUS, -1, 0);
    if (pages == MAP_FAILED || mprotect(pages + PAGES_BYTES, PAGES_BYTES, PROT_READ | PROT_WRITE) != 0) {
        perror("a page between two others");
        exit(2);
    }
    return pages + PAGES_BYTES;
}

static struct pages begin(void)
{
    struct pages pages = {guarded_page(), guarded_page()};
    for (size_t i = 0; i < PAGES_BYTES; i++)
        pages.real[i] = pages.model[i] = (uint8_t)chance();
    return pages;
}

void agree_begin(void)
{
    words_pages = begin();
    other_pages = begin();
}

size_t place_of(const struct storage *storage, size_t count, bool at_end)
{
    return at_end ? PAGES_BYTES - count * (storage->word_bits / 8) : 0;
}

static void print_answer(const char *who, const struct answer *a)
{
    printf("  %s: status %" PRIu32 ", bit %d, place %zu, order %" PRId32 ", value 0x%" PRIx64 ", with a sign %" PRId64 "\n",
           who, a->status, a->bit, a->place, a->order, a->value, a->signed_value);
}

static bool is_same_memory(const char *which, const struct pages *pages)
{
    for (size_t i = 0; i < PAGES_BYTES; i++)
        if (pages->real[i] != pages->model[i]) {
            printf("  byte %zu of the page of %s: the library left 0x%02x, the model 0x%02x\n", i, which, pages->real[i],
                   pages->model[i]);
            return false;
        }
    return true;
}

static void print_request(const struct storage *storage, const struct request *r, size_t words_at, size_t other_at,
                          bool in_one)
{
    printf("bits_%s_%s differs from the model:\n", storage->name, call_names[r->call]);
    printf("  %zu words at byte %zu, start %zu, len %zu, to %zu, by %zu, bit %d, value 0x%" PRIx64 "\n", r->count,
           words_at, r->start, r->len, r->to, r->by, r->bit, r->value);
    printf("  other: %zu words at byte %zu of %s page, start %zu, len %zu\n", r->other_count, other_at,
           in_one ? "the same" : "another", r->other_start, r->other_len);
}

bool agrees(const struct storage *storage, const struct request *request, size_t words_at, size_t other_at, bool in_one)
{
    /* Values that no call answers by chance, in the fields that are to stay as they are. */
    struct answer said, wanted;
    memset(&said, 0, sizeof said);
    said.bit = 77;
    said.place = 0x7777777777;
    said.order = 77;
    said.value = 0x7777777777777777;
    said.signed_value = 0x7777777777777777;
    wanted = said;
    struct pages other = in_one ? words_pages : other_pages;
    /* No words may lie anywhere, at null too. */
    bool at_null = chance_below(2);
    void *words = at_null && request->count == 0 ? NULL : words_pages.real + words_at;
    const void *others = at_null && request->other_count == 0 ? NULL : other.real + other_at;
    library_run(storage, request, words, others, &said);
    model_run(storage, request, words_pages.model + words_at, other.model + other_at, &wanted);
    ended[wanted.status]++;
    if (said.status == wanted.status && said.bit == wanted.bit && said.place == wanted.place
        && said.order == wanted.order && said.value == wanted.value && said.signed_value == wanted.signed_value
        && memcmp(words_pages.real, words_pages.model, PAGES_BYTES) == 0
        && memcmp(other_pages.real, other_pages.model, PAGES_BYTES) == 0)
        return true;
    print_request(storage, request, words_at, other_at, in_one);
    print_answer("the library", &said);
    print_answer("the model  ", &wanted);
    is_same_memory("words", &words_pages);
    is_same_memory("other", &other_pages);
    return false;
}

static uint64_t state = 1;

void chance_begin(uint64_t seed)
{
    state = seed * 2 + 1;
    for (int i = 0; i < 8; i++)
        chance();
}

uint64_t chance(void)
{
    state ^= state >> 12;
    state ^= state << 25;
    state ^= state >> 27;
    return state * 0x2545f4914f6cdd1d;
}

size_t chance_below(size_t limit)
{
    return (size_t)(chance() % limit);
}
