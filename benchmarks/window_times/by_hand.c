/* The calls of window_times by the loops of by_blocks.h, under Lsb0. */
#include <stdint.h>
#include <stdio.h>
#include <stdlib.h>
#include <string.h>
#include <time.h>

#ifndef WORD
#define WORD uint64_t
#define NAME "u64"
#endif
#include "../by_blocks.h"
typedef uint64_t u64;
#define APART __attribute__((noinline))

/* Bits of some words, from a place on. */
typedef struct { word *w; size_t place, len; } window;

/* ---- calls that read */

APART u64 count_ones(window v, window o, u64 call) { return call + count_bits(v.w, v.place, v.len); }
/* Where there is no such bit, a number of its own is the answer. */
APART u64 first_one(window v, window o, u64 call) {
  size_t first = first_bit(v.w, v.place, v.len, 0);
  return call + (first == v.len ? 1000003 : first);
}
APART u64 all_ones(window v, window o, u64 call) { return call + (first_bit(v.w, v.place, v.len, ALL) == v.len); }
static inline u64 sum_of_ones(u64 x, size_t from) {
  u64 sum = 0;
  for (; x; x &= x - 1) sum += from + __builtin_ctzll(x);
  return sum;
}
APART u64 iter_ones(window v, window o, u64 call) {
  struct parts p = parts_of(v.place, v.len);
  const word *m = v.w + (v.place + p.head) / B;
  u64 sum = call;
  if (p.head) sum += sum_of_ones(read_bits(v.w, v.place, p.head), 0);
  for (size_t k = 0; k < p.blocks; k++) sum += sum_of_ones(block(m, k), p.head + 64 * k);
  if (p.tail) sum += sum_of_ones(read_bits(m, 64 * p.blocks, p.tail), p.head + 64 * p.blocks);
  return sum;
}
APART u64 eq_bits(window v, window o, u64 call) { return call + same_bits(v.w, v.place, o.w, o.place, v.len); }
/* Whether the first bits that differ are 0 and 1 (-1), 1 and 0 (1), or none differ (0). */
static APART int compared(window v, window o) {
  size_t at = mismatch(v.w, v.place, o.w, o.place, v.len);
  if (at == v.len) return 0;
  return v.w[(v.place + at) / B] >> (v.place + at) % B & 1 ? 1 : -1;
}
APART u64 cmp_bits(window v, window o, u64 call) { return call + (compared(v, o) == 0); }

/* ---- calls that write */

#define PLACES 61
#define WRITES(CALL, WORK)                       \
  APART u64 CALL(window v, window o, u64 call) { \
    WORK;                                        \
    return call;                                 \
  }
WRITES(fill, fill_bits(v.w, v.place, v.len, call % 2 == 0))
WRITES(invert, invert_bits(v.w, v.place, v.len))
WRITES(and_bits, combine_and(v.w, v.place, o.w, o.place, v.len))
WRITES(or_bits, combine_or(v.w, v.place, o.w, o.place, v.len))
WRITES(xor_bits, combine_xor(v.w, v.place, o.w, o.place, v.len))
WRITES(copy, copy_bits(v.w, v.place, o.w, o.place, v.len))
WRITES(swap_with, swap_bits(v.w, v.place, o.w, o.place, v.len))
WRITES(copy_down, move_bits(v.w, v.place + PLACES, v.place, v.len - PLACES))
WRITES(copy_up, move_bits(v.w, v.place, v.place + PLACES, v.len - PLACES))
WRITES(reverse, reverse_bits(v.w, v.place, v.len))
WRITES(rotate_left, rotate_bits_left(v.w, v.place, v.len, PLACES))
WRITES(rotate_third, rotate_bits_left(v.w, v.place, v.len, v.len / 3))
APART u64 shift_left(window v, window o, u64 call) {
  move_bits(v.w, v.place + PLACES, v.place, v.len - PLACES);
  write_bits(v.w, v.place + v.len - PLACES, PLACES, 0);
  return call;
}
APART u64 shift_right(window v, window o, u64 call) {
  move_bits(v.w, v.place, v.place + PLACES, v.len - PLACES);
  write_bits(v.w, v.place, PLACES, 0);
  return call;
}

/* ---- fields: those of which all blocks lie in the window's words go by these, and the last ones by read_bits */

static inline u64 load(window v, size_t width, u64 call) {
  const word *m = v.w + v.place / B;
  size_t s = v.place % B, fields = v.len / width, bytes = (s + fields * width + B - 1) / B * sizeof(word), k = 0;
  u64 sum = call;
  if (width == 64) {
    if (s == 0)
      for (; k < fields; k++) sum += block(m, k);
    else
      for (; k < fields; k++) sum += shifted(m, k, s);
    return sum;
  }
  /* A field of up to 57 bits lies in the eight bytes from its first one on. */
  for (size_t at = s; k < fields && at / 8 + 8 <= bytes; k++, at += width) {
    u64 x;
    memcpy(&x, (const char *)m + at / 8, 8);
    sum += x >> at % 8 & ALL >> (64 - width);
  }
  for (; k < fields; k++) sum += read_bits(m, s + k * width, width);
  return sum;
}
static inline u64 store(window v, size_t width, u64 call) {
  word *m = v.w + v.place / B;
  size_t s = v.place % B, fields = v.len / width, bits = (s + fields * width) / 64 * 64, k = 0;
  u64 value = call, mask = ALL >> (64 - width);
  for (size_t at = s; k < fields && at + width <= bits; k++, at += width) {
    size_t shift = at % 64;
    word *w = BLOCK(m, at / 64);
    value += 0x9e3779b97f4a7c15;
    u64 x = value & mask;
    store_block(w, (load_block(w) & ~(mask << shift)) | x << shift);
    if (shift + width > 64) {
      w = BLOCK(w, 1);
      store_block(w, (load_block(w) & ~(mask >> (64 - shift))) | x >> (64 - shift));
    }
  }
  for (; k < fields; k++) {
    value += 0x9e3779b97f4a7c15;
    write_bits(m, s + k * width, width, value);
  }
  return call;
}
APART u64 load_7(window v, window o, u64 call) { return load(v, 7, call); }
APART u64 load_17(window v, window o, u64 call) { return load(v, 17, call); }
APART u64 load_64(window v, window o, u64 call) { return load(v, 64, call); }
APART u64 store_7(window v, window o, u64 call) { return store(v, 7, call); }
APART u64 store_17(window v, window o, u64 call) { return store(v, 17, call); }
APART u64 store_64(window v, window o, u64 call) { return store(v, 64, call); }

/* ---- bits of 64 under Lsb0 copied into bytes under Msb0, 64 at a time: the bits of each byte in reverse */

static u64 source[15700];
static inline u64 source_bits(size_t place, size_t len) {
  size_t k = place / 64, s = place % 64;
  u64 x = source[k] >> s;
  if (s + len > 64) x |= source[k + 1] << (64 - s);
  return x & ALL >> (64 - len);
}
static inline void put_reversed(word *w, size_t s, size_t len, u64 x) {
  u64 mask = ALL >> (64 - len) << s;
  store_some(w, s + len, bytes_reversed((bytes_reversed(load_some(w, s + len)) & ~mask) | (x << s & mask)));
}
APART u64 copy_words(window v, window o, u64 call) {
  word *m = v.w + v.place / B;
  size_t from = 29, s = v.place % B, head = s == 0 ? 0 : s + v.len < 64 ? v.len : 64 - s, blocks = (v.len - head) / 64;
  if (head) put_reversed(m, s, head, source_bits(from, head));
  m += (s + head) / B;
  from += head;
  const u64 *n = source + from / 64;
  size_t d = from % 64;
  if (d == 0)
    for (size_t k = 0; k < blocks; k++) store_block(BLOCK(m, k), bytes_reversed(n[k]));
  else
    for (size_t k = 0; k < blocks; k++) store_block(BLOCK(m, k), bytes_reversed(n[k] >> d | n[k + 1] << (64 - d)));
  size_t tail = (v.len - head) % 64;
  if (tail) put_reversed(BLOCK(m, blocks), 0, tail, source_bits(from + 64 * blocks, tail));
  return call;
}

/* ---- how long they take */

static double now(void) {
  struct timespec t;
  clock_gettime(CLOCK_MONOTONIC, &t);
  return t.tv_sec * 1e9 + t.tv_nsec;
}
static int msb0;
static inline int bit_at(window v, size_t i) {
  size_t at = (v.place + i) % B;
  return v.w[(v.place + i) / B] >> (msb0 ? B - 1 - at : at) & 1;
}
static inline void set_at(window v, size_t i, int bit) {
  size_t at = (v.place + i) % B;
  word one = (word)((word)1 << (msb0 ? B - 1 - at : at));
  word *w = v.w + (v.place + i) / B;
  *w = bit ? *w | one : *w & ~one;
}
static u64 mixed(window v) {
  u64 mixed = 1;
  for (size_t i = 0; i < v.len; i++) mixed = mixed * 31 + bit_at(v, i);
  return mixed;
}
static u64 state;
static unsigned half(void) {
  state = state * 6364136223846793005ull + 1442695040888963407ull;
  return (unsigned)(state >> 32);
}
static void mix(window v, unsigned seed, unsigned every) {
  state = seed;
  half();
  half();
  for (size_t i = 0; i < v.len; i++) set_at(v, i, half() % every == 0);
}
typedef u64 work(window, window, u64);
static window v, o;
static unsigned calls;
static void least(work *run, const char *name, int two) {
  double best = 1e300;
  u64 sum = 0;
  for (int round = 0; round < 12; round++) {
    double start = now();
    for (unsigned call = 0; call < calls; call++) sum += run(v, o, call);
    double time = now() - start;
    if (time < best) best = time;
  }
  sum += mixed(v);
  if (two) sum += mixed(o);
  printf("%s %s C %zu %zu %zu %.0f %u %llu\n", name, NAME, v.len, v.place, o.place, best, calls, (unsigned long long)sum);
}
static void times(size_t len, size_t place, size_t other) {
  v = (window){calloc(len / B + 40, sizeof(word)), place, len};
  o = (window){calloc(len / B + 40, sizeof(word)), other, len};
  least(first_one, "first_one", 1);
  memset(v.w, 0xff, len / 8 + 40);
  least(all_ones, "all", 1);
  mix(v, 1, 100);
  least(iter_ones, "iter_ones/100", 1);
  mix(v, 2, 2);
  mix(o, 2, 2);
  least(iter_ones, "iter_ones/2", 1);
  least(count_ones, "count_ones", 1);
  least(eq_bits, "eq_bits", 1);
  least(cmp_bits, "cmp_bits", 1);
  mix(o, 3, 2);
  least(swap_with, "swap_with_bitslice", 1);
  least(xor_bits, "xor_bits", 1);
  least(and_bits, "and_bits", 1);
  mix(v, 4, 2);
  least(or_bits, "or_bits", 1);
  mix(v, 5, 2);
  least(copy, "copy_from_bitslice", 1);
  mix(v, 6, 2);
  least(copy, "clone_from_bitslice", 1);
  if (B == 8) {
    msb0 = 1;
    mix(v, 6, 2);
    mix(o, 3, 2);
    least(copy_words, "clone_from_u64_lsb0", 1);
    msb0 = 0;
    mix(o, 3, 2);
  }
  mix(v, 7, 2);
  least(invert, "invert", 1);
  least(reverse, "reverse", 1);
  least(rotate_left, "rotate_left/61", 1);
  least(rotate_third, "rotate_left/third", 1);
  least(copy_down, "copy_within/down", 1);
  mix(v, 8, 2);
  least(copy_up, "copy_within/up", 1);
  mix(v, 9, 2);
  least(shift_left, "shift_left", 1);
  mix(v, 10, 2);
  least(shift_right, "shift_right", 1);
  least(fill, "fill", 1);
  mix(v, 11, 2);
  least(load_7, "load_le/7", 0);
  least(load_17, "load_le/17", 0);
  least(load_64, "load_le/64", 0);
  least(store_7, "store_le/7", 0);
  least(store_17, "store_le/17", 0);
  least(store_64, "store_le/64", 0);
  free(v.w);
  free(o.w);
}
int main(void) {
  for (int k = 0; k < 15700; k++) source[k] = 0x9e3779b97f4a7c15;
  for (int few = 1; few >= 0; few--)
    for (int odd = 1; odd >= 0; odd--) {
      calls = few ? 200 : 1;
      times(few ? 1000 : 1000000, odd ? 13 : 0, odd ? 29 : 0);
    }
}
