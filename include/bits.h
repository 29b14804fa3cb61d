/*
 * bits.h: lists of bits that lie in words of memory, read and written by windows.
 *
 * One file to link: libbits.a, or libbits.so, for Linux on x86-64 with popcnt (x86-64-v2). It needs malloc, realloc
 * and free for bit_table_run alone.
 *
 * Memory. `words` points to `count` words of 64 or of 8 bits. Their bits are one list, word by word. The names say the
 * word, and which digit of a word comes first:
 *
 *     bits_u64_lsb0_..   words of 64 bits, the lowest digit first: bit i is digit i % 64 of words[i / 64]
 *     bits_u64_msb0_..   words of 64 bits, the highest digit first: bit i is digit 63 - i % 64 of words[i / 64]
 *     bits_u8_lsb0_..    bytes, the lowest digit first: bit i is digit i % 8 of words[i / 8]
 *     bits_u8_msb0_..    bytes, the highest digit first: bit i is digit 7 - i % 8 of words[i / 8]
 *
 * Each of the four has the same 25 calls, so a comment stands over four declarations.
 *
 * Windows. `start` and `len` are a window: the `len` bits from bit `start` on. It lies in the memory where start + len,
 * as a sum that does not wrap, is at most the number of the memory's bits. A window of no bits may lie at the end. All
 * places, lengths and distances are counted in bits, all `count`s in words.
 *
 * Answers. Each call returns a status and writes what it answers through its last pointer. Where the status is not
 * BITS_OK nothing is changed: no word, and not what that pointer points to (bit_table_run says what it does). A call
 * that writes changes no bit outside its window.
 *
 * What a caller upholds. No call can see whether these hold:
 *
 *  - A pointer to words is aligned for them and points to at least `count` words, all of them initialized. It is not
 *    null, also where `count` is 0; nor is a pointer for an answer.
 *  - Words that a call writes are no other argument of it: `words` and `other` of copy, and, or and xor share no byte
 *    (`move` is the call for one memory; equal and compare only read, so theirs may be one), and answers lie elsewhere.
 *  - While a call runs, no other thread writes what it reads, or reads or writes what it writes. Nothing else is
 *    shared: calls on other memory may run at the same time.
 *  - A bit that is given is `true` or `false`, as a `bool` of C or C++ always is.
 *  - malloc, realloc and free, which bit_table_run calls, are those of one allocator. bit_table_run is not called from a
 *    signal handler, nor in the child that a process with threads has forked.
 *
 * A memory has at most 2^61 - 1 bits; in one that has more, nothing is in range.
 */
#ifndef BITS_H
#define BITS_H

#include <stdbool.h>
#include <stddef.h>
#include <stdint.h>

#if SIZE_MAX != UINT64_MAX
#error "bits.h: libbits is built for machines whose size_t has 64 bits"
#endif

#ifdef __cplusplus
extern "C" {
#endif

/** How a call ended: one of the seven numbers below. */
typedef uint32_t bits_status;

enum {
    /** It is done. */
    BITS_OK = 0,
    /** A window, an index or a distance does not lie where it has to. */
    BITS_OUT_OF_RANGE = 1,
    /** There is no such bit. */
    BITS_NONE = 2,
    /** A number has no bits, or more than 64. It is told before BITS_OUT_OF_RANGE. */
    BITS_BAD_WIDTH = 3,
    /** The answer to a script is longer than the room for it. */
    BITS_NO_ROOM = 4,
    /** Memory was wanted and refused. */
    BITS_NO_MEMORY = 5,
    /** There is no such word or order. */
    BITS_BAD_STORAGE = 6
};

/* --- Single bits */

/**
 * Reads one bit: `*bit` becomes 0 or 1.
 *
 * BITS_OUT_OF_RANGE where `index` is not below the number of bits.
 */
bits_status bits_u64_lsb0_get(const uint64_t *words, size_t count, size_t index, uint8_t *bit);
bits_status bits_u64_msb0_get(const uint64_t *words, size_t count, size_t index, uint8_t *bit);
bits_status bits_u8_lsb0_get(const uint8_t *words, size_t count, size_t index, uint8_t *bit);
bits_status bits_u8_msb0_get(const uint8_t *words, size_t count, size_t index, uint8_t *bit);

/**
 * Writes one bit.
 *
 * BITS_OUT_OF_RANGE where `index` is not below the number of bits.
 */
bits_status bits_u64_lsb0_set(uint64_t *words, size_t count, size_t index, bool bit);
bits_status bits_u64_msb0_set(uint64_t *words, size_t count, size_t index, bool bit);
bits_status bits_u8_lsb0_set(uint8_t *words, size_t count, size_t index, bool bit);
bits_status bits_u8_msb0_set(uint8_t *words, size_t count, size_t index, bool bit);

/* --- Questions about a window */

/**
 * Counts the ones: `*ones` becomes how many of the window's bits are 1.
 *
 * BITS_OUT_OF_RANGE where the window does not lie in the memory.
 */
bits_status bits_u64_lsb0_count_ones(const uint64_t *words, size_t count, size_t start, size_t len, size_t *ones);
bits_status bits_u64_msb0_count_ones(const uint64_t *words, size_t count, size_t start, size_t len, size_t *ones);
bits_status bits_u8_lsb0_count_ones(const uint8_t *words, size_t count, size_t start, size_t len, size_t *ones);
bits_status bits_u8_msb0_count_ones(const uint8_t *words, size_t count, size_t start, size_t len, size_t *ones);

/**
 * Finds the first 1: `*index` becomes its place, counted from the window's start.
 *
 * BITS_OUT_OF_RANGE where the window does not lie in the memory; BITS_NONE where no bit of it is 1.
 */
bits_status bits_u64_lsb0_first_one(const uint64_t *words, size_t count, size_t start, size_t len, size_t *index);
bits_status bits_u64_msb0_first_one(const uint64_t *words, size_t count, size_t start, size_t len, size_t *index);
bits_status bits_u8_lsb0_first_one(const uint8_t *words, size_t count, size_t start, size_t len, size_t *index);
bits_status bits_u8_msb0_first_one(const uint8_t *words, size_t count, size_t start, size_t len, size_t *index);

/**
 * Finds the last 1: `*index` becomes its place, counted from the window's start.
 *
 * BITS_OUT_OF_RANGE where the window does not lie in the memory; BITS_NONE where no bit of it is 1.
 */
bits_status bits_u64_lsb0_last_one(const uint64_t *words, size_t count, size_t start, size_t len, size_t *index);
bits_status bits_u64_msb0_last_one(const uint64_t *words, size_t count, size_t start, size_t len, size_t *index);
bits_status bits_u8_lsb0_last_one(const uint8_t *words, size_t count, size_t start, size_t len, size_t *index);
bits_status bits_u8_msb0_last_one(const uint8_t *words, size_t count, size_t start, size_t len, size_t *index);

/**
 * Finds the first 0: `*index` becomes its place, counted from the window's start.
 *
 * BITS_OUT_OF_RANGE where the window does not lie in the memory; BITS_NONE where no bit of it is 0.
 */
bits_status bits_u64_lsb0_first_zero(const uint64_t *words, size_t count, size_t start, size_t len, size_t *index);
bits_status bits_u64_msb0_first_zero(const uint64_t *words, size_t count, size_t start, size_t len, size_t *index);
bits_status bits_u8_lsb0_first_zero(const uint8_t *words, size_t count, size_t start, size_t len, size_t *index);
bits_status bits_u8_msb0_first_zero(const uint8_t *words, size_t count, size_t start, size_t len, size_t *index);

/**
 * Finds the last 0: `*index` becomes its place, counted from the window's start.
 *
 * BITS_OUT_OF_RANGE where the window does not lie in the memory; BITS_NONE where no bit of it is 0.
 */
bits_status bits_u64_lsb0_last_zero(const uint64_t *words, size_t count, size_t start, size_t len, size_t *index);
bits_status bits_u64_msb0_last_zero(const uint64_t *words, size_t count, size_t start, size_t len, size_t *index);
bits_status bits_u8_lsb0_last_zero(const uint8_t *words, size_t count, size_t start, size_t len, size_t *index);
bits_status bits_u8_msb0_last_zero(const uint8_t *words, size_t count, size_t start, size_t len, size_t *index);

/**
 * Tells whether a bit of the window is 1: `*answer` becomes 1 or 0. Of no bits it is 0.
 *
 * BITS_OUT_OF_RANGE where the window does not lie in the memory.
 */
bits_status bits_u64_lsb0_any(const uint64_t *words, size_t count, size_t start, size_t len, uint8_t *answer);
bits_status bits_u64_msb0_any(const uint64_t *words, size_t count, size_t start, size_t len, uint8_t *answer);
bits_status bits_u8_lsb0_any(const uint8_t *words, size_t count, size_t start, size_t len, uint8_t *answer);
bits_status bits_u8_msb0_any(const uint8_t *words, size_t count, size_t start, size_t len, uint8_t *answer);

/**
 * Tells whether each bit of the window is 1: `*answer` becomes 1 or 0. Of no bits it is 1.
 *
 * BITS_OUT_OF_RANGE where the window does not lie in the memory.
 */
bits_status bits_u64_lsb0_all(const uint64_t *words, size_t count, size_t start, size_t len, uint8_t *answer);
bits_status bits_u64_msb0_all(const uint64_t *words, size_t count, size_t start, size_t len, uint8_t *answer);
bits_status bits_u8_lsb0_all(const uint8_t *words, size_t count, size_t start, size_t len, uint8_t *answer);
bits_status bits_u8_msb0_all(const uint8_t *words, size_t count, size_t start, size_t len, uint8_t *answer);

/* --- Two windows compared */

/**
 * Tells whether two windows are equal lists of bits: `*answer` becomes 1 or 0. Those of unequal lengths are not.
 *
 * `words` and `other` may be one memory. BITS_OUT_OF_RANGE where a window does not lie in its memory.
 */
bits_status bits_u64_lsb0_equal(const uint64_t *words, size_t count, size_t start, size_t len, const uint64_t *other,
                                size_t other_count, size_t other_start, size_t other_len, uint8_t *answer);
bits_status bits_u64_msb0_equal(const uint64_t *words, size_t count, size_t start, size_t len, const uint64_t *other,
                                size_t other_count, size_t other_start, size_t other_len, uint8_t *answer);
bits_status bits_u8_lsb0_equal(const uint8_t *words, size_t count, size_t start, size_t len, const uint8_t *other,
                               size_t other_count, size_t other_start, size_t other_len, uint8_t *answer);
bits_status bits_u8_msb0_equal(const uint8_t *words, size_t count, size_t start, size_t len, const uint8_t *other,
                               size_t other_count, size_t other_start, size_t other_len, uint8_t *answer);

/**
 * Compares two windows as lists: `*order` becomes -1, 0 or 1 where the first is less than, equal to or greater than the
 * second. The first place where they differ decides, 0 before 1; a list comes before one that it is the beginning of.
 *
 * `words` and `other` may be one memory. BITS_OUT_OF_RANGE where a window does not lie in its memory.
 */
bits_status bits_u64_lsb0_compare(const uint64_t *words, size_t count, size_t start, size_t len, const uint64_t *other,
                                  size_t other_count, size_t other_start, size_t other_len, int32_t *order);
bits_status bits_u64_msb0_compare(const uint64_t *words, size_t count, size_t start, size_t len, const uint64_t *other,
                                  size_t other_count, size_t other_start, size_t other_len, int32_t *order);
bits_status bits_u8_lsb0_compare(const uint8_t *words, size_t count, size_t start, size_t len, const uint8_t *other,
                                 size_t other_count, size_t other_start, size_t other_len, int32_t *order);
bits_status bits_u8_msb0_compare(const uint8_t *words, size_t count, size_t start, size_t len, const uint8_t *other,
                                 size_t other_count, size_t other_start, size_t other_len, int32_t *order);

/* --- Whole numbers */

/**
 * Reads a window of 1 to 64 bits as a whole number without sign. Under lsb0 its first bit is the lowest digit, under
 * msb0 the highest.
 *
 * BITS_BAD_WIDTH where `len` is 0 or more than 64; BITS_OUT_OF_RANGE where the window does not lie in the memory.
 */
bits_status bits_u64_lsb0_load(const uint64_t *words, size_t count, size_t start, size_t len, uint64_t *value);
bits_status bits_u64_msb0_load(const uint64_t *words, size_t count, size_t start, size_t len, uint64_t *value);
bits_status bits_u8_lsb0_load(const uint8_t *words, size_t count, size_t start, size_t len, uint64_t *value);
bits_status bits_u8_msb0_load(const uint8_t *words, size_t count, size_t start, size_t len, uint64_t *value);

/**
 * Reads a window of 1 to 64 bits as a whole number in two's complement of `len` digits. Under lsb0 its last bit is the
 * sign, under msb0 the first.
 *
 * BITS_BAD_WIDTH where `len` is 0 or more than 64; BITS_OUT_OF_RANGE where the window does not lie in the memory.
 */
bits_status bits_u64_lsb0_load_signed(const uint64_t *words, size_t count, size_t start, size_t len, int64_t *value);
bits_status bits_u64_msb0_load_signed(const uint64_t *words, size_t count, size_t start, size_t len, int64_t *value);
bits_status bits_u8_lsb0_load_signed(const uint8_t *words, size_t count, size_t start, size_t len, int64_t *value);
bits_status bits_u8_msb0_load_signed(const uint8_t *words, size_t count, size_t start, size_t len, int64_t *value);

/**
 * Writes the lowest `len` digits of a number over a window of 1 to 64 bits, in the order in which load reads them.
 * Higher digits are left out, so what load reads then is the number where it fits.
 *
 * BITS_BAD_WIDTH where `len` is 0 or more than 64; BITS_OUT_OF_RANGE where the window does not lie in the memory.
 */
bits_status bits_u64_lsb0_store(uint64_t *words, size_t count, size_t start, size_t len, uint64_t value);
bits_status bits_u64_msb0_store(uint64_t *words, size_t count, size_t start, size_t len, uint64_t value);
bits_status bits_u8_lsb0_store(uint8_t *words, size_t count, size_t start, size_t len, uint64_t value);
bits_status bits_u8_msb0_store(uint8_t *words, size_t count, size_t start, size_t len, uint64_t value);

/**
 * Writes the lowest `len` digits of a number in two's complement over a window of 1 to 64 bits, in the order in which
 * load_signed reads them. Higher digits are left out, so what load_signed reads then is the number where it fits.
 *
 * BITS_BAD_WIDTH where `len` is 0 or more than 64; BITS_OUT_OF_RANGE where the window does not lie in the memory.
 */
bits_status bits_u64_lsb0_store_signed(uint64_t *words, size_t count, size_t start, size_t len, int64_t value);
bits_status bits_u64_msb0_store_signed(uint64_t *words, size_t count, size_t start, size_t len, int64_t value);
bits_status bits_u8_lsb0_store_signed(uint8_t *words, size_t count, size_t start, size_t len, int64_t value);
bits_status bits_u8_msb0_store_signed(uint8_t *words, size_t count, size_t start, size_t len, int64_t value);

/* --- A window changed */

/**
 * Makes each bit of the window `bit`.
 *
 * BITS_OUT_OF_RANGE where the window does not lie in the memory.
 */
bits_status bits_u64_lsb0_fill(uint64_t *words, size_t count, size_t start, size_t len, bool bit);
bits_status bits_u64_msb0_fill(uint64_t *words, size_t count, size_t start, size_t len, bool bit);
bits_status bits_u8_lsb0_fill(uint8_t *words, size_t count, size_t start, size_t len, bool bit);
bits_status bits_u8_msb0_fill(uint8_t *words, size_t count, size_t start, size_t len, bool bit);

/**
 * Turns each bit of the window: 0 becomes 1, 1 becomes 0.
 *
 * BITS_OUT_OF_RANGE where the window does not lie in the memory.
 */
bits_status bits_u64_lsb0_not(uint64_t *words, size_t count, size_t start, size_t len);
bits_status bits_u64_msb0_not(uint64_t *words, size_t count, size_t start, size_t len);
bits_status bits_u8_lsb0_not(uint8_t *words, size_t count, size_t start, size_t len);
bits_status bits_u8_msb0_not(uint8_t *words, size_t count, size_t start, size_t len);

/**
 * Puts the bits of the window in reverse: the first becomes the last.
 *
 * BITS_OUT_OF_RANGE where the window does not lie in the memory.
 */
bits_status bits_u64_lsb0_reverse(uint64_t *words, size_t count, size_t start, size_t len);
bits_status bits_u64_msb0_reverse(uint64_t *words, size_t count, size_t start, size_t len);
bits_status bits_u8_lsb0_reverse(uint8_t *words, size_t count, size_t start, size_t len);
bits_status bits_u8_msb0_reverse(uint8_t *words, size_t count, size_t start, size_t len);

/**
 * Turns the window by `by` bits towards its start: its first `by` bits become its last, and bit `by` the first.
 *
 * BITS_OUT_OF_RANGE where the window does not lie in the memory, or `by` is more than `len`.
 */
bits_status bits_u64_lsb0_rotate_left(uint64_t *words, size_t count, size_t start, size_t len, size_t by);
bits_status bits_u64_msb0_rotate_left(uint64_t *words, size_t count, size_t start, size_t len, size_t by);
bits_status bits_u8_lsb0_rotate_left(uint8_t *words, size_t count, size_t start, size_t len, size_t by);
bits_status bits_u8_msb0_rotate_left(uint8_t *words, size_t count, size_t start, size_t len, size_t by);

/**
 * Turns the window by `by` bits towards its end: its last `by` bits become its first.
 *
 * BITS_OUT_OF_RANGE where the window does not lie in the memory, or `by` is more than `len`.
 */
bits_status bits_u64_lsb0_rotate_right(uint64_t *words, size_t count, size_t start, size_t len, size_t by);
bits_status bits_u64_msb0_rotate_right(uint64_t *words, size_t count, size_t start, size_t len, size_t by);
bits_status bits_u8_lsb0_rotate_right(uint8_t *words, size_t count, size_t start, size_t len, size_t by);
bits_status bits_u8_msb0_rotate_right(uint8_t *words, size_t count, size_t start, size_t len, size_t by);

/**
 * Writes the `len` bits from bit `from` on, as they were, over those from bit `to` on. The two windows are of one
 * memory and may overlap.
 *
 * BITS_OUT_OF_RANGE where one of them does not lie in the memory.
 */
bits_status bits_u64_lsb0_move(uint64_t *words, size_t count, size_t from, size_t to, size_t len);
bits_status bits_u64_msb0_move(uint64_t *words, size_t count, size_t from, size_t to, size_t len);
bits_status bits_u8_lsb0_move(uint8_t *words, size_t count, size_t from, size_t to, size_t len);
bits_status bits_u8_msb0_move(uint8_t *words, size_t count, size_t from, size_t to, size_t len);

/* --- A window changed by another memory's */

/**
 * Writes the `len` bits of `other` from bit `other_start` on over the window. The memories share no byte.
 *
 * BITS_OUT_OF_RANGE where a window does not lie in its memory.
 */
bits_status bits_u64_lsb0_copy(uint64_t *words, size_t count, size_t start, size_t len, const uint64_t *other,
                               size_t other_count, size_t other_start);
bits_status bits_u64_msb0_copy(uint64_t *words, size_t count, size_t start, size_t len, const uint64_t *other,
                               size_t other_count, size_t other_start);
bits_status bits_u8_lsb0_copy(uint8_t *words, size_t count, size_t start, size_t len, const uint8_t *other,
                              size_t other_count, size_t other_start);
bits_status bits_u8_msb0_copy(uint8_t *words, size_t count, size_t start, size_t len, const uint8_t *other,
                              size_t other_count, size_t other_start);

/**
 * Each bit of the window becomes 1 where it and the bit of `other` at the same place of that window, the `len` bits
 * from bit `other_start` on, are both 1, else 0. The memories share no byte.
 *
 * BITS_OUT_OF_RANGE where a window does not lie in its memory.
 */
bits_status bits_u64_lsb0_and(uint64_t *words, size_t count, size_t start, size_t len, const uint64_t *other,
                              size_t other_count, size_t other_start);
bits_status bits_u64_msb0_and(uint64_t *words, size_t count, size_t start, size_t len, const uint64_t *other,
                              size_t other_count, size_t other_start);
bits_status bits_u8_lsb0_and(uint8_t *words, size_t count, size_t start, size_t len, const uint8_t *other,
                             size_t other_count, size_t other_start);
bits_status bits_u8_msb0_and(uint8_t *words, size_t count, size_t start, size_t len, const uint8_t *other,
                             size_t other_count, size_t other_start);

/**
 * Each bit of the window becomes 1 where it or the bit of `other` at the same place of that window, the `len` bits from
 * bit `other_start` on, is 1, else 0. The memories share no byte.
 *
 * BITS_OUT_OF_RANGE where a window does not lie in its memory.
 */
bits_status bits_u64_lsb0_or(uint64_t *words, size_t count, size_t start, size_t len, const uint64_t *other,
                             size_t other_count, size_t other_start);
bits_status bits_u64_msb0_or(uint64_t *words, size_t count, size_t start, size_t len, const uint64_t *other,
                             size_t other_count, size_t other_start);
bits_status bits_u8_lsb0_or(uint8_t *words, size_t count, size_t start, size_t len, const uint8_t *other,
                            size_t other_count, size_t other_start);
bits_status bits_u8_msb0_or(uint8_t *words, size_t count, size_t start, size_t len, const uint8_t *other,
                            size_t other_count, size_t other_start);

/**
 * Each bit of the window becomes 1 where it and the bit of `other` at the same place of that window, the `len` bits
 * from bit `other_start` on, differ, else 0. The memories share no byte.
 *
 * BITS_OUT_OF_RANGE where a window does not lie in its memory.
 */
bits_status bits_u64_lsb0_xor(uint64_t *words, size_t count, size_t start, size_t len, const uint64_t *other,
                              size_t other_count, size_t other_start);
bits_status bits_u64_msb0_xor(uint64_t *words, size_t count, size_t start, size_t len, const uint64_t *other,
                              size_t other_count, size_t other_start);
bits_status bits_u8_lsb0_xor(uint8_t *words, size_t count, size_t start, size_t len, const uint8_t *other,
                             size_t other_count, size_t other_start);
bits_status bits_u8_msb0_xor(uint8_t *words, size_t count, size_t start, size_t len, const uint8_t *other,
                             size_t other_count, size_t other_start);

/* --- The table */

/** Which digit of a word comes first in the table's lists of bits. */
enum {
    /** The lowest. */
    BITS_LSB0 = 0,
    /** The highest. */
    BITS_MSB0 = 1,
    /** As BITS_LSB0, with the two halves of each eight digits exchanged. */
    BITS_HILO = 2
};

/**
 * Runs a whole script over an empty table, as the program bit-table does, and writes its answer.
 *
 * `script` has `script_len` bytes; README.md, "The program", says how a script is written. The table lies in words of
 * `word_bits` bits, which is 8, 16, 32, 64 or 128, in the order `order`: BITS_LSB0, BITS_MSB0 or BITS_HILO. These
 * change no answer. A line that is refused is answered so, and the run goes on: its status is still BITS_OK.
 *
 * `*written` becomes the number of bytes that were written at `answer`, at most `answer_len`. Those behind them stay as
 * they were.
 *
 *  - BITS_OK: the script ran whole, and what was written is the whole answer.
 *  - BITS_NO_ROOM: the answer is longer than `answer_len`; what was written are its first `answer_len` bytes.
 *  - BITS_NO_MEMORY: memory was refused; what was written is a beginning of the answer to the lines read whole.
 *  - BITS_BAD_STORAGE: there is no such word or order. Nothing is changed, `*written` neither.
 *
 * All memory that it takes is given back before it returns. `script` and `answer` may be null where their lengths are
 * 0; `written` is not null. What it writes shares no byte with the script, nor do the two that it writes.
 */
bits_status bit_table_run(uint32_t word_bits, uint32_t order, const uint8_t *script, size_t script_len, uint8_t *answer,
                          size_t answer_len, size_t *written);

#ifdef __cplusplus
}
#endif

#endif
