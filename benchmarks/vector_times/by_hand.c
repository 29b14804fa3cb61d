/* The calls of vector_times by the loops of by_blocks.h, under Lsb0. */
#include <stdint.h>
#include <stdio.h>
#include <stdlib.h>
#include <string.h>
#include <time.h>

#ifndef WORD
#define WORD uint64_t
#define NAME "u64"
#endif
#include "../by_blocks.h"
typedef uint64_t u64;
#define APART __attribute__((noinline))

/* Bits in words that were allocated, whole blocks of them, 64 bytes at least; those behind the last bit may be anything.
   `room` counts words. */
typedef struct { word *w; size_t len, room; } vector;

static size_t words_of(size_t bits) { return (bits + B - 1) / B; }
static void grow(vector *v, size_t words) {
  if (words <= v->room) return;
  size_t room = words > 2 * v->room ? words : 2 * v->room;
  v->room = room < 512 / B ? 512 / B : (room + 64 / B - 1) / (64 / B) * (64 / B);
  v->w = realloc(v->w, v->room * sizeof(word));
  if (v->w == NULL) exit(1);
}
static inline void push(vector *v, int bit) {
  size_t k = v->len / B, at = v->len % B;
  if (at == 0) {
    grow(v, k + 1);
    v->w[k] = (word)bit;
  } else
    v->w[k] = (word)((v->w[k] & ~((word)1 << at)) | (word)bit << at);
  v->len++;
}
/* What is made is used, and goes. */
static void drop(vector *v) {
  __asm__ volatile("" : : "r"(v->w) : "memory");
  free(v->w);
}
static inline int bit_of(const vector *v, size_t i) { return v->w[i / B] >> i % B & 1; }

APART u64 equal(vector *v, vector *o, unsigned call) { return v->len == o->len && same_bits(v->w, 0, o->w, 0, v->len); }
APART u64 clone(vector *v, vector *o, unsigned call) {
  vector made = {NULL, v->len, 0};
  grow(&made, words_of(v->len));
  memcpy(made.w, v->w, words_of(v->len) * sizeof(word));
  drop(&made);
  return made.len;
}
APART u64 pushed(vector *v, vector *o, unsigned call) {
  vector made = {NULL, 0, 0};
  for (size_t i = 0; i < o->len; i++) push(&made, call % 2 == 0);
  drop(&made);
  return made.len;
}
/* The length is known: room for all, and each word is put together from its bits. These are read one by one, as from any
   iterator: no compiler may see that they come from a word that could be copied. */
static inline word next_bit(const vector *v, size_t i) {
  word bit = (word)bit_of(v, i);
  __asm__("" : "+r"(bit));
  return bit;
}
APART u64 collect(vector *v, vector *o, unsigned call) {
  vector made = {NULL, 0, 0};
  grow(&made, words_of(o->len));
  for (; made.len + B <= o->len; made.len += B) {
    word x = 0;
    for (size_t j = 0; j < B; j++) x |= (word)(next_bit(o, made.len + j) << j);
    made.w[made.len / B] = x;
  }
  while (made.len < o->len) push(&made, (int)next_bit(o, made.len));
  drop(&made);
  return made.len;
}
/* A bit put in, and the others behind it moved up by one; and taken out. */
APART u64 insert_remove(vector *v, vector *o, unsigned call) {
  size_t at = v->len / 2, first = at / 64, last = v->len / 64;
  grow(v, words_of(v->len + 1));
  word *w = v->w;
  u64 below = ((u64)1 << at % 64) - 1, x = block(w, first);
  for (size_t k = last; k > first; k--) store_block(BLOCK(w, k), block(w, k) << 1 | block(w, k - 1) >> 63);
  store_block(BLOCK(w, first), (x & below) | (u64)(call % 2 == 0) << at % 64 | (x & ~below) << 1);
  x = block(w, first);
  u64 taken = x >> at % 64 & 1, next = first < last ? block(w, first + 1) << 63 : 0;
  store_block(BLOCK(w, first), (x & below) | (x >> 1 & ~below) | next);
  for (size_t k = first + 1; k < last; k++) store_block(BLOCK(w, k), block(w, k) >> 1 | block(w, k + 1) << 63);
  if (first < last) store_block(BLOCK(w, last), block(w, last) >> 1);
  return taken;
}
APART u64 append(vector *v, vector *o, unsigned call) {
  v->len = o->len - 13;
  grow(v, words_of(v->len + o->len));
  copy_bits(v->w, v->len, o->w, 0, o->len);
  v->len += o->len;
  return v->len;
}

/* ---- how long they take */

static double now(void) {
  struct timespec t;
  clock_gettime(CLOCK_MONOTONIC, &t);
  return t.tv_sec * 1e9 + t.tv_nsec;
}
static vector halves(size_t len) {
  vector made = {NULL, 0, 0};
  u64 state = 2;
  for (size_t i = 0; i < len + 2; i++) {
    state = state * 6364136223846793005ull + 1442695040888963407ull;
    if (i >= 2) push(&made, (unsigned)(state >> 32) % 2 == 0);
  }
  return made;
}
typedef u64 work(vector *, vector *, unsigned);
static void least(work *run, const char *name, unsigned calls, vector *v, vector *o) {
  double best = 1e300;
  u64 sum = 0;
  for (int round = 0; round < 12; round++) {
    double start = now();
    for (unsigned call = 0; call < calls; call++) sum += run(v, o, call);
    double time = now() - start;
    if (time < best) best = time;
  }
  for (size_t i = 0; i < v->len; i++) sum = sum * 31 + bit_of(v, i);
  printf("%s\t%s C\t%zu\t%.0f\t%u\t%llu\n", name, NAME, o->len, best, calls, (unsigned long long)sum);
}
static void times(size_t len, unsigned calls) {
  vector v = halves(len), o = halves(len);
  least(equal, "==", calls, &v, &o);
  least(clone, "clone", calls, &v, &o);
  least(pushed, "push", calls, &v, &o);
  least(collect, "collect", calls, &v, &o);
  least(insert_remove, "insert, remove", calls, &v, &o);
  least(append, "extend_from_bitslice", calls, &v, &o);
  free(v.w);
  free(o.w);
}
int main(void) {
  times(1000, 200);
  times(1000000, 1);
}
