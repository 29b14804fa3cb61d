/* Bits in memory under Lsb0, 64 at a time: what the C beside the library is made of.

   Bit i of words of the type WORD is digit i % B of word i / B. On a little-endian machine any eight bytes that begin at a
   word, read as one number, hold the same bits in the same order; so words of 64 bits and bytes take the same code. A block
   is 64 bits that begin at a word. A window is what `place` (the index of its first bit) and `len` say. No call reads or
   writes a word in which no bit of its windows lies. */
#ifndef BY_BLOCKS_H
#define BY_BLOCKS_H

#include <stdint.h>
#include <stdlib.h>
#include <string.h>

#if __BYTE_ORDER__ != __ORDER_LITTLE_ENDIAN__
#error "a block of bytes is read as one number, the lowest byte first"
#endif

#ifndef WORD
#define WORD uint64_t
#endif
typedef WORD word;
#define B (8 * sizeof(word))
#define ALL UINT64_MAX
_Static_assert(B == 64 || B == 8, "words of 64 bits, or bytes");

/* Blocks that are read before any of them is written or looked at, and those that are held at once. */
enum { GROUP = 8, HELD = 64 };

static inline uint64_t load_block(const word *w)
{
    uint64_t x;
    memcpy(&x, w, 8);
    return x;
}

static inline void store_block(word *w, uint64_t x) { memcpy(w, &x, 8); }

/* Block k from the word w on, and from bit d of w on, where d is above 0. */
#define BLOCK(w, k) ((w) + (k) * (64 / B))
static inline uint64_t block(const word *w, size_t k) { return load_block(BLOCK(w, k)); }

static inline uint64_t shifted(const word *w, size_t k, size_t d)
{
    return block(w, k) >> d | block(w + 1, k) << (B - d);
}

/* The words that hold the first `bits` bits of a block, at most 64; of the others 0. */
static inline uint64_t load_some(const word *w, size_t bits)
{
    if (B == 64 || bits > 56)
        return load_block(w);
    const unsigned char *p = (const unsigned char *)w;
    size_t bytes = (bits + 7) / 8, at = 0;
    uint64_t x = 0;
    if (bytes & 4) {
        uint32_t y;
        memcpy(&y, p, 4);
        x = y;
        at = 4;
    }
    if (bytes & 2) {
        uint16_t y;
        memcpy(&y, p + at, 2);
        x |= (uint64_t)y << 8 * at;
        at += 2;
    }
    if (bytes & 1)
        x |= (uint64_t)p[at] << 8 * at;
    return x;
}

static inline void store_some(word *w, size_t bits, uint64_t x)
{
    if (B == 64 || bits > 56) {
        store_block(w, x);
        return;
    }
    unsigned char *p = (unsigned char *)w;
    size_t bytes = (bits + 7) / 8;
    if (bytes & 4) {
        uint32_t y = (uint32_t)x;
        memcpy(p, &y, 4);
        p += 4;
        x >>= 32;
    }
    if (bytes & 2) {
        uint16_t y = (uint16_t)x;
        memcpy(p, &y, 2);
        p += 2;
        x >>= 16;
    }
    if (bytes & 1)
        *p = (unsigned char)x;
}

/* 1 to 64 bits as a number, the first bit its lowest digit. */
static inline uint64_t read_bits(const word *w, size_t place, size_t len)
{
    size_t s = place % B;
    w += place / B;
    if (s + len <= 64)
        return load_some(w, s + len) >> s & ALL >> (64 - len);
    return (load_block(w) >> s | (uint64_t)*BLOCK(w, 1) << (64 - s)) & ALL >> (64 - len);
}

static inline void write_bits(word *w, size_t place, size_t len, uint64_t x)
{
    size_t s = place % B;
    uint64_t mask = ALL >> (64 - len);
    w += place / B;
    x &= mask;
    if (s + len <= 64) {
        store_some(w, s + len, (load_some(w, s + len) & ~(mask << s)) | x << s);
        return;
    }
    store_block(w, (load_block(w) & ~(mask << s)) | x << s);
    word *next = BLOCK(w, 1);
    *next = (word)((*next & ~(mask >> (64 - s))) | x >> (64 - s));
}

/* A window in three parts: the bits up to the end of the block that begins at its first word, none where it begins there
   too; the whole blocks behind these; and the bits that are left, fewer than 64. */
struct parts { size_t head, blocks, tail; };

static inline struct parts parts_of(size_t place, size_t len)
{
    size_t head = place % B ? 64 - place % B : 0;
    if (len <= head)
        return (struct parts){len, 0, 0};
    return (struct parts){head, (len - head) / 64, (len - head) % 64};
}

/* A window by words: the first and the last word in which it has bits, and masks of these; between them whole words lie. */
struct edges { size_t first, last; word head, tail; };

static inline struct edges edges_of(size_t place, size_t len)
{
    size_t end = place + len - 1;
    word all = (word)ALL;
    return (struct edges){place / B, end / B, (word)(all << place % B), (word)(all >> (B - 1 - end % B))};
}

static inline size_t bytes_between(struct edges e) { return (e.last - e.first - 1) * sizeof(word); }
static inline void put(word *w, word mask, word x) { *w = (word)((*w & ~mask) | (x & mask)); }

/* --- reads */

static inline size_t count_bits(const word *w, size_t place, size_t len)
{
    struct parts p = parts_of(place, len);
    const word *m = w + (place + p.head) / B;
    uint64_t sums[4] = {0, 0, 0, 0};
    size_t k = 0;
    if (p.head)
        sums[0] = (uint64_t)__builtin_popcountll(read_bits(w, place, p.head));
    for (; k + 4 <= p.blocks; k += 4) {
        sums[0] += (uint64_t)__builtin_popcountll(block(m, k));
        sums[1] += (uint64_t)__builtin_popcountll(block(m, k + 1));
        sums[2] += (uint64_t)__builtin_popcountll(block(m, k + 2));
        sums[3] += (uint64_t)__builtin_popcountll(block(m, k + 3));
    }
    for (; k < p.blocks; k++)
        sums[1] += (uint64_t)__builtin_popcountll(block(m, k));
    if (p.tail)
        sums[2] += (uint64_t)__builtin_popcountll(read_bits(m, 64 * k, p.tail));
    return sums[0] + sums[1] + sums[2] + sums[3];
}

/* The first bit, or the last one, that is 1 where each is flipped by `flip`, none or ALL; `len` where there is none. */
static inline size_t first_bit(const word *w, size_t place, size_t len, uint64_t flip)
{
    struct parts p = parts_of(place, len);
    const word *m = w + (place + p.head) / B;
    size_t k = 0;
    if (p.head) {
        uint64_t x = (read_bits(w, place, p.head) ^ flip) & ALL >> (64 - p.head);
        if (x)
            return (size_t)__builtin_ctzll(x);
    }
    for (; k + GROUP <= p.blocks; k += GROUP) {
        uint64_t some = 0;
        for (size_t j = 0; j < GROUP; j++)
            some |= block(m, k + j) ^ flip;
        if (some)
            break;
    }
    for (; k < p.blocks; k++) {
        uint64_t x = block(m, k) ^ flip;
        if (x)
            return p.head + 64 * k + (size_t)__builtin_ctzll(x);
    }
    if (p.tail) {
        uint64_t x = (read_bits(m, 64 * k, p.tail) ^ flip) & ALL >> (64 - p.tail);
        if (x)
            return p.head + 64 * k + (size_t)__builtin_ctzll(x);
    }
    return len;
}

static inline size_t last_bit(const word *w, size_t place, size_t len, uint64_t flip)
{
    struct parts p = parts_of(place, len);
    const word *m = w + (place + p.head) / B;
    size_t k = p.blocks;
    if (p.tail) {
        uint64_t x = (read_bits(m, 64 * k, p.tail) ^ flip) & ALL >> (64 - p.tail);
        if (x)
            return p.head + 64 * k + 63 - (size_t)__builtin_clzll(x);
    }
    for (; k >= GROUP; k -= GROUP) {
        uint64_t some = 0;
        for (size_t j = 1; j <= GROUP; j++)
            some |= block(m, k - j) ^ flip;
        if (some)
            break;
    }
    for (; k > 0; k--) {
        uint64_t x = block(m, k - 1) ^ flip;
        if (x)
            return p.head + 64 * k - 1 - (size_t)__builtin_clzll(x);
    }
    if (p.head) {
        uint64_t x = (read_bits(w, place, p.head) ^ flip) & ALL >> (64 - p.head);
        if (x)
            return 63 - (size_t)__builtin_clzll(x);
    }
    return len;
}

/* The first bit in which two windows differ, or `len`. */
static inline size_t mismatch(const word *w, size_t place, const word *o, size_t other, size_t len)
{
    struct parts p = parts_of(place, len);
    const word *m = w + (place + p.head) / B, *n = o + (other + p.head) / B;
    size_t k = 0, d = (other + p.head) % B;
    if (p.head) {
        uint64_t x = read_bits(w, place, p.head) ^ read_bits(o, other, p.head);
        if (x)
            return (size_t)__builtin_ctzll(x);
    }
    if (d == 0) {
        for (; k + GROUP <= p.blocks; k += GROUP) {
            uint64_t some = 0;
            for (size_t j = 0; j < GROUP; j++)
                some |= block(m, k + j) ^ block(n, k + j);
            if (some)
                break;
        }
    } else {
        for (; k + GROUP <= p.blocks; k += GROUP) {
            uint64_t some = 0;
            for (size_t j = 0; j < GROUP; j++)
                some |= block(m, k + j) ^ shifted(n, k + j, d);
            if (some)
                break;
        }
    }
    for (; k < p.blocks; k++) {
        uint64_t x = block(m, k) ^ (d ? shifted(n, k, d) : block(n, k));
        if (x)
            return p.head + 64 * k + (size_t)__builtin_ctzll(x);
    }
    if (p.tail) {
        uint64_t x = read_bits(m, 64 * k, p.tail) ^ read_bits(n, 64 * k + d, p.tail);
        if (x)
            return p.head + 64 * k + (size_t)__builtin_ctzll(x);
    }
    return len;
}

static inline int same_bits(const word *w, size_t place, const word *o, size_t other, size_t len)
{
    if (place % B != other % B)
        return mismatch(w, place, o, other, len) == len;
    if (len == 0)
        return 1;
    struct edges e = edges_of(place, len), f = edges_of(other, len);
    word head = w[e.first] ^ o[f.first], tail = w[e.last] ^ o[f.last];
    if (e.first == e.last)
        return (head & e.head & e.tail) == 0;
    return (head & e.head) == 0 && (tail & e.tail) == 0 && memcmp(w + e.first + 1, o + f.first + 1, bytes_between(e)) == 0;
}

/* --- writes to one window */

static inline void fill_bits(word *w, size_t place, size_t len, int bit)
{
    if (len == 0)
        return;
    struct edges e = edges_of(place, len);
    word x = (word)(bit ? ALL : 0);
    if (e.first == e.last) {
        put(w + e.first, e.head & e.tail, x);
        return;
    }
    put(w + e.first, e.head, x);
    memset(w + e.first + 1, bit ? 0xff : 0, bytes_between(e));
    put(w + e.last, e.tail, x);
}

static inline void invert_bits(word *w, size_t place, size_t len)
{
    struct parts p = parts_of(place, len);
    word *m = w + (place + p.head) / B;
    if (p.head)
        write_bits(w, place, p.head, ~read_bits(w, place, p.head));
    for (size_t k = 0; k < p.blocks; k++)
        store_block(BLOCK(m, k), ~block(m, k));
    if (p.tail)
        write_bits(m, 64 * p.blocks, p.tail, ~read_bits(m, 64 * p.blocks, p.tail));
}

/* --- writes by another window, in other memory: each block y becomes MADE of itself and of the other window's x */

#define COMBINE(NAME, MADE)                                                                                            \
    static inline void NAME(word *restrict w, size_t place, const word *restrict o, size_t other, size_t len)          \
    {                                                                                                                  \
        struct parts p = parts_of(place, len);                                                                         \
        word *restrict m = w + (place + p.head) / B;                                                                   \
        const word *restrict n = o + (other + p.head) / B;                                                             \
        size_t d = (other + p.head) % B;                                                                               \
        if (p.head) {                                                                                                  \
            uint64_t x = read_bits(o, other, p.head), y = read_bits(w, place, p.head);                                 \
            write_bits(w, place, p.head, MADE);                                                                        \
        }                                                                                                              \
        if (d == 0) {                                                                                                  \
            for (size_t k = 0; k < p.blocks; k++) {                                                                    \
                uint64_t x = block(n, k), y = block(m, k);                                                             \
                store_block(BLOCK(m, k), MADE);                                                                        \
            }                                                                                                          \
        } else {                                                                                                       \
            for (size_t k = 0; k < p.blocks; k++) {                                                                    \
                uint64_t x = shifted(n, k, d), y = block(m, k);                                                        \
                store_block(BLOCK(m, k), MADE);                                                                        \
            }                                                                                                          \
        }                                                                                                              \
        if (p.tail) {                                                                                                  \
            uint64_t x = read_bits(n, 64 * p.blocks + d, p.tail), y = read_bits(m, 64 * p.blocks, p.tail);             \
            write_bits(m, 64 * p.blocks, p.tail, MADE);                                                                \
        }                                                                                                              \
    }

COMBINE(combine_and, x & y)
COMBINE(combine_or, x | y)
COMBINE(combine_xor, x ^ y)

/* Blocks from a place on, into an array and back. */
static inline void read_blocks(uint64_t *restrict into, const word *restrict w, size_t place, size_t blocks)
{
    size_t d = place % B;
    w += place / B;
    if (d == 0) {
        memcpy(into, w, 8 * blocks);
        return;
    }
    for (size_t k = 0; k < blocks; k++)
        into[k] = shifted(w, k, d);
}

static inline void write_blocks(word *restrict w, size_t place, const uint64_t *restrict from, size_t blocks)
{
    size_t s = place % B;
    w += place / B;
    if (s == 0) {
        memcpy(w, from, 8 * blocks);
        return;
    }
    if (blocks == 0)
        return;
    write_bits(w, s, 64 - s, from[0]);
    for (size_t k = 1; k < blocks; k++)
        store_block(BLOCK(w, k), from[k - 1] >> (64 - s) | from[k] << s);
    write_bits(w, 64 * blocks, s, from[blocks - 1] >> (64 - s));
}

/* A copy at the same digits of the words; the two may overlap. */
static inline void copy_words_of(word *w, size_t place, const word *o, size_t other, size_t len)
{
    struct edges e = edges_of(place, len), f = edges_of(other, len);
    word head = o[f.first], tail = o[f.last];
    if (e.first == e.last) {
        put(w + e.first, e.head & e.tail, head);
        return;
    }
    memmove(w + e.first + 1, o + f.first + 1, bytes_between(e));
    put(w + e.first, e.head, head);
    put(w + e.last, e.tail, tail);
}

static inline void copy_bits(word *restrict w, size_t place, const word *restrict o, size_t other, size_t len)
{
    struct parts p = parts_of(place, len);
    word *restrict m = w + (place + p.head) / B;
    const word *restrict n = o + (other + p.head) / B;
    size_t d = (other + p.head) % B;
    if (len == 0)
        return;
    if (place % B == other % B) {
        copy_words_of(w, place, o, other, len);
        return;
    }
    if (p.head)
        write_bits(w, place, p.head, read_bits(o, other, p.head));
    for (size_t k = 0; k < p.blocks; k++)
        store_block(BLOCK(m, k), shifted(n, k, d));
    if (p.tail)
        write_bits(m, 64 * p.blocks, p.tail, read_bits(n, 64 * p.blocks + d, p.tail));
}

static inline void swap_few(word *w, size_t place, word *o, size_t other, size_t len)
{
    uint64_t x = read_bits(w, place, len), y = read_bits(o, other, len);
    write_bits(w, place, len, y);
    write_bits(o, other, len, x);
}

static inline void swap_bits(word *restrict w, size_t place, word *restrict o, size_t other, size_t len)
{
    struct parts p = parts_of(place, len);
    word *restrict m = w + (place + p.head) / B;
    word *restrict n = o + (other + p.head) / B;
    size_t d = (other + p.head) % B;
    if (p.head)
        swap_few(w, place, o, other, p.head);
    if (d == 0) {
        for (size_t k = 0; k < p.blocks; k++) {
            uint64_t x = block(m, k), y = block(n, k);
            store_block(BLOCK(m, k), y);
            store_block(BLOCK(n, k), x);
        }
    } else {
        for (size_t k = 0; k < p.blocks; k += HELD) {
            size_t count = p.blocks - k < HELD ? p.blocks - k : HELD;
            uint64_t held[HELD];
            memcpy(held, BLOCK(m, k), 8 * count);
            for (size_t j = 0; j < count; j++)
                store_block(BLOCK(m, k + j), shifted(n, k + j, d));
            write_blocks(n, 64 * k + d, held, count);
        }
    }
    if (p.tail)
        swap_few(m, 64 * p.blocks, n, 64 * p.blocks + d, p.tail);
}

/* --- bits moved within the same memory, overlap allowed */

static inline void move_bits(word *w, size_t from, size_t to, size_t len)
{
    struct parts p = parts_of(to, len);
    word *m = w + (to + p.head) / B;
    const word *n = w + (from + p.head) / B;
    size_t d = (from + p.head) % B;
    if (len == 0)
        return;
    if (from % B == to % B) {
        copy_words_of(w, to, w, from, len);
        return;
    }
    /* The bits at both ends are read before anything is written. */
    uint64_t head = p.head ? read_bits(w, from, p.head) : 0;
    uint64_t tail = p.tail ? read_bits(n, 64 * p.blocks + d, p.tail) : 0;
    if (from > to) {
        size_t k = 0;
        for (; k + GROUP <= p.blocks; k += GROUP) {
            uint64_t group[GROUP];
            for (size_t j = 0; j < GROUP; j++)
                group[j] = shifted(n, k + j, d);
            for (size_t j = 0; j < GROUP; j++)
                store_block(BLOCK(m, k + j), group[j]);
        }
        for (; k < p.blocks; k++)
            store_block(BLOCK(m, k), shifted(n, k, d));
    } else {
        size_t k = p.blocks;
        for (; k >= GROUP; k -= GROUP) {
            uint64_t group[GROUP];
            for (size_t j = 0; j < GROUP; j++)
                group[j] = shifted(n, k - GROUP + j, d);
            for (size_t j = 0; j < GROUP; j++)
                store_block(BLOCK(m, k - GROUP + j), group[j]);
        }
        for (; k > 0; k--)
            store_block(BLOCK(m, k - 1), shifted(n, k - 1, d));
    }
    if (p.head)
        write_bits(w, to, p.head, head);
    if (p.tail)
        write_bits(m, 64 * p.blocks, p.tail, tail);
}

/* The first `by` bits become the last. The shorter part is held aside while the other one is moved: up to 64 bits as a
   number, up to HELD blocks in an array, and more in memory that is allocated for it. */
static inline void rotate_bits_left(word *w, size_t place, size_t len, size_t by)
{
    size_t rest = len - by;
    if (by == 0 || rest == 0)
        return;
    if (by <= 64) {
        uint64_t held = read_bits(w, place, by);
        move_bits(w, place + by, place, rest);
        write_bits(w, place + rest, by, held);
        return;
    }
    if (rest <= 64) {
        uint64_t held = read_bits(w, place + by, rest);
        move_bits(w, place, place + rest, by);
        write_bits(w, place, rest, held);
        return;
    }
    int first = by <= rest;
    size_t from = first ? place : place + by, held_len = first ? by : rest, s = from % B;
    size_t blocks = (s + held_len + 63) / 64;
    word array[HELD * (64 / B)];
    word *held = blocks <= HELD ? array : malloc(8 * blocks);
    if (held == NULL)
        abort();
    /* Around the held bits the first and the last block are read too, though nothing comes of it. */
    store_block(held, 0);
    store_block(BLOCK(held, blocks - 1), 0);
    copy_bits(held, s, w, from, held_len);
    if (first)
        move_bits(w, place + by, place, rest);
    else
        move_bits(w, place, place + rest, by);
    copy_bits(w, first ? place + rest : place, held, s, held_len);
    if (held != array)
        free(held);
}

/* --- bits in reverse */

static inline uint64_t bytes_reversed(uint64_t x)
{
    x = (x >> 1 & 0x5555555555555555) | (x & 0x5555555555555555) << 1;
    x = (x >> 2 & 0x3333333333333333) | (x & 0x3333333333333333) << 2;
    return (x >> 4 & 0x0f0f0f0f0f0f0f0f) | (x & 0x0f0f0f0f0f0f0f0f) << 4;
}

static inline uint64_t reversed(uint64_t x) { return __builtin_bswap64(bytes_reversed(x)); }

/* The first `count` bits of a window and its last ones, at most 64 of each. */
static inline void reverse_few(word *w, size_t place, size_t len, size_t count)
{
    uint64_t x = read_bits(w, place, count), y = read_bits(w, place + len - count, count);
    write_bits(w, place, count, reversed(y) >> (64 - count));
    write_bits(w, place + len - count, count, reversed(x) >> (64 - count));
}

static inline void reverse_bits(word *w, size_t place, size_t len)
{
    size_t head = place % B ? 64 - place % B : 0;
    head = head < len / 2 ? head : len / 2;
    if (head) {
        reverse_few(w, place, len, head);
        place += head;
        len -= 2 * head;
    }
    while (len >= 128) {
        size_t count = len / 128 < HELD ? len / 128 : HELD, last = place + len - 64 * count;
        word *m = w + place / B;
        uint64_t low[HELD], high[HELD];
        for (size_t k = 0; k < count; k++)
            low[count - 1 - k] = reversed(block(m, k));
        read_blocks(high, w, last, count);
        for (size_t k = 0; k < count; k++)
            store_block(BLOCK(m, k), reversed(high[count - 1 - k]));
        write_blocks(w, last, low, count);
        place += 64 * count;
        len -= 128 * count;
    }
    if (len >= 2)
        reverse_few(w, place, len, len / 2);
}

#endif
