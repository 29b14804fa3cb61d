/* bit_table_run over all fifteen storages: scripts whose answers are worked out elsewhere, each room that is too small,
   each request for memory refused, and storages that there are not.

   usage: table SCRIPT ANSWER [SCRIPT ANSWER]..   files; linked with --wrap of malloc, realloc and free */
#include "bits.h"

#include <stdio.h>
#include <stdlib.h>
#include <string.h>

enum { UNTOUCHED = 0xa7, BEHIND = 16, MOST_REQUESTS = 100000 };

static unsigned long runs, failed;

/* Each request from number `refuse_from` on is refused, or with `refuse_one` that one alone; 0 refuses none. */
static unsigned long requests, refuse_from;
static bool refuse_one;
static long held;

void *__real_malloc(size_t size);
void *__real_realloc(void *block, size_t size);
void __real_free(void *block);
void *__wrap_malloc(size_t size);
void *__wrap_realloc(void *block, size_t size);
void __wrap_free(void *block);

static bool is_refused(void)
{
    requests++;
    return refuse_from != 0 && (refuse_one ? requests == refuse_from : requests >= refuse_from);
}

void *__wrap_malloc(size_t size)
{
    void *block = is_refused() ? NULL : __real_malloc(size);
    held += block != NULL;
    return block;
}

void *__wrap_realloc(void *block, size_t size)
{
    void *moved = is_refused() ? NULL : __real_realloc(block, size);
    held += block == NULL && moved != NULL;
    return moved;
}

void __wrap_free(void *block)
{
    held -= block != NULL;
    __real_free(block);
}

struct text {
    uint8_t *bytes;
    size_t len;
};

static struct text read_file(const char *name)
{
    struct text text = {NULL, 0};
    FILE *file = fopen(name, "rb");
    if (file == NULL || fseek(file, 0, SEEK_END) != 0 || (text.len = (size_t)ftell(file), fseek(file, 0, SEEK_SET) != 0)
        || (text.bytes = malloc(text.len + 1)) == NULL || fread(text.bytes, 1, text.len, file) != text.len) {
        perror(name);
        exit(2);
    }
    fclose(file);
    return text;
}

struct storage {
    uint32_t word_bits, order;
};

/* A run with this room, in a memory of just as many bytes and some more that no run may touch. */
struct run {
    bits_status status;
    size_t written;
    uint8_t *answer;
    size_t room;
    long held;
};

/* One run; request number `refused` is refused, 0 none. */
static struct run run(struct storage storage, const struct text *script, size_t room, unsigned long refused)
{
    struct run it = {.answer = malloc(room + BEHIND), .room = room, .written = 123456789};
    if (it.answer == NULL)
        exit(2);
    memset(it.answer, UNTOUCHED, room + BEHIND);
    runs++;
    long before = held;
    requests = 0;
    refuse_from = refused;
    it.status = bit_table_run(storage.word_bits, storage.order, script->bytes, script->len, it.answer, room, &it.written);
    refuse_from = 0;
    it.held = held - before;
    return it;
}

static bool is_untouched(const struct run *it, size_t from)
{
    for (size_t i = from; i < it->room + BEHIND; i++)
        if (it->answer[i] != UNTOUCHED)
            return false;
    return true;
}

/* That it ended so, with so many bytes of the answer, and left no block and no byte behind. */
static bool is(const struct run *it, bits_status status, const struct text *answer, size_t written)
{
    return it->status == status && it->written == written && written <= answer->len && it->held == 0
        && memcmp(it->answer, answer->bytes, written) == 0 && is_untouched(it, written);
}

static bool judge(bool holds, const char *what, const char *name, struct storage storage, struct run *it)
{
    if (!holds) {
        printf("%s, words of %u bits, order %u: %s: status %u, %zu of %zu bytes written, %ld blocks held\n", name,
               storage.word_bits, storage.order, what, it->status, it->written, it->room, it->held);
        failed++;
    }
    free(it->answer);
    return holds;
}

/* Each room from none to one byte more than the answer has. */
static void rooms(const char *name, struct storage storage, const struct text *script, const struct text *answer)
{
    for (size_t room = 0; room <= answer->len + 1; room++) {
        struct run it = run(storage, script, room, 0);
        bool is_right = room < answer->len ? is(&it, BITS_NO_ROOM, answer, room) : is(&it, BITS_OK, answer, answer->len);
        if (!judge(is_right, "room", name, storage, &it))
            return;
    }
}

/* Each request refused, alone or with all that follow, until a run asks for no more than was granted. */
static void refusals(const char *name, struct storage storage, const struct text *script, const struct text *answer)
{
    for (int alone = 0; alone < 2; alone++) {
        unsigned long wanted = 0;
        for (unsigned long number = 1; number < MOST_REQUESTS; number++) {
            refuse_one = alone;
            struct run it = run(storage, script, answer->len, number);
            bool is_asked = requests >= number;
            bool is_whole = is(&it, BITS_OK, answer, answer->len);
            bool is_part = it.written <= answer->len && is(&it, BITS_NO_MEMORY, answer, it.written);
            wanted += it.status == BITS_NO_MEMORY;
            if (!judge(is_asked ? is_part || is_whole : is_whole, "a request refused", name, storage, &it) || !is_asked)
                break;
        }
        struct run last = run(storage, script, answer->len, 0);
        judge(answer->len == 0 || wanted > 0, "no refusal was told", name, storage, &last);
    }
}

static void no_storages(const char *name, const struct text *script, const struct text *answer)
{
    static const struct storage none[] = {{0, 0}, {1, 0}, {7, 1}, {24, 0}, {256, 2}, {UINT32_MAX, 0}, {64, 3}, {8, 3},
                                          {64, UINT32_MAX}, {0, 9}};
    for (size_t i = 0; i < sizeof none / sizeof *none; i++) {
        struct run it = run(none[i], script, answer->len, 0);
        bool is_right = it.status == BITS_BAD_STORAGE && it.written == 123456789 && is_untouched(&it, 0) && it.held == 0;
        judge(is_right, "no such storage", name, none[i], &it);
    }
}

/* A script of no bytes and a room of none, at null. */
static void nulls(void)
{
    const struct text script = {(uint8_t *)(uintptr_t)"low a:u1", 8}, none = {NULL, 0};
    const struct text empty = {(uint8_t *)(uintptr_t)"", 0};
    size_t written = 9;
    bool is_right = bit_table_run(64, BITS_LSB0, NULL, 0, NULL, 0, &written) == BITS_OK && written == 0;
    struct run it = run((struct storage){64, BITS_LSB0}, &none, 4, 0);
    judge(is_right && is(&it, BITS_OK, &empty, 0), "no script", "null", (struct storage){64, BITS_LSB0}, &it);
    written = 9;
    is_right = bit_table_run(64, BITS_LSB0, script.bytes, script.len, NULL, 0, &written) == BITS_NO_ROOM && written == 0;
    it = run((struct storage){64, BITS_LSB0}, &script, 0, 0);
    judge(is_right && is(&it, BITS_NO_ROOM, &script, 0), "no room", "null", (struct storage){64, BITS_LSB0}, &it);
}

static void all(const char *name, const struct text *script, const struct text *answer)
{
    for (uint32_t word_bits = 8; word_bits <= 128; word_bits *= 2)
        for (uint32_t order = BITS_LSB0; order <= BITS_HILO; order++) {
            struct storage storage = {word_bits, order};
            bool is_short = answer->len < 300;
            struct run it = run(storage, script, answer->len, 0);
            if (judge(is(&it, BITS_OK, answer, answer->len), "the answer", name, storage, &it) && is_short) {
                rooms(name, storage, script, answer);
                refusals(name, storage, script, answer);
            }
        }
    no_storages(name, script, answer);
}

/* Worked by hand: 5 is 101 and 17 is 10001, the lowest digit first and the highest; and no script. */
static const char *const worked[][2] = {
    {"", ""},
    {"low a:u3 b:u5\ninsert 0 5 17\nimage\n", "ok\nok\n1 8d\n"},
    {"high a:u3 b:u5\ninsert 0 5 17\nimage\n", "ok\nok\n1 b1\n"},
    {"low a:u3 b:i4\ninsert 0 5 -1\ninsert 1 2 3\nimage\nget 7\n", "ok\nok\nok\n2 7d0d\nrefused row\n"},
};

int main(int argc, char **argv)
{
    nulls();
    for (size_t i = 0; i < sizeof worked / sizeof *worked; i++) {
        struct text script = {(uint8_t *)(uintptr_t)worked[i][0], strlen(worked[i][0])};
        struct text answer = {(uint8_t *)(uintptr_t)worked[i][1], strlen(worked[i][1])};
        all("a worked script", &script, &answer);
    }
    for (int i = 1; i + 1 < argc; i += 2) {
        struct text script = read_file(argv[i]), answer = read_file(argv[i + 1]);
        all(argv[i], &script, &answer);
        free(script.bytes);
        free(answer.bytes);
    }
    printf("%lu runs of scripts: %lu failed\n", runs, failed);
    return failed != 0;
}
