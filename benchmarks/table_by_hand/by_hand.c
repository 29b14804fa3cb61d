/* A packed table by hand: it carries out the script on standard input, and writes the answers to standard output.

   It takes layouts of the rule `low`, and knows the commands of COMMANDS, below; what else there is, is refused for its
   form. Rows lie end to end in words of 64 bits, the lowest digit first, and each letter in a list with one bit a row.
   What lies in the words behind the last row may be anything. Words are taken as bytes, so the machine has to put the
   lowest byte first, as x86-64 does. */
#include <stdbool.h>
#include <stdint.h>
#include <stdio.h>
#include <stdlib.h>
#include <string.h>

typedef uint64_t u64;
#define ALL (~(u64)0)
#define MOST_BITS (((u64)1 << 61) - 1)
/* The lists of a table: those of the letters, and that of the rows' numbers. */
enum { LETTERS = 26, NUMBERS = LETTERS, LISTS };
enum { MOST_FIELDS = 1024, PIECE = 1 << 16 };

static void fail(const char *what) {
  fprintf(stderr, "by_hand: %s\n", what);
  exit(1);
}
static void *grown(void *old, size_t bytes) {
  void *memory = realloc(old, bytes);
  if (!memory) fail("no memory");
  return memory;
}

/* ---- bits */

typedef struct { u64 *words; size_t room; } list;

/* Makes room for so many bits, and for the word behind the one that has the place behind them. */
static void reserve(list *of, size_t bits) {
  size_t wanted = bits / 64 + 2;
  if (wanted <= of->room) return;
  of->room = wanted > 2 * of->room ? wanted : 2 * of->room;
  of->words = grown(of->words, of->room * sizeof(u64));
}
/* The 64 bits of two words from a place in the first one on. */
static inline u64 joined(const u64 *w, unsigned shift) { return w[0] >> shift | w[1] << 1 << (63 - shift); }
static inline u64 bits_at(const u64 *w, size_t place) { return joined(w + place / 64, place % 64); }
/* Writes the lowest digits of x over some bits, 1 to 64. */
static inline void put(u64 *w, size_t place, unsigned count, u64 x) {
  unsigned shift = place % 64;
  u64 mask = ALL >> (64 - count);
  w += place / 64;
  x &= mask;
  w[0] = (w[0] & ~(mask << shift)) | x << shift;
  if (shift + count > 64) w[1] = (w[1] & ~(mask >> (64 - shift))) | x >> (64 - shift);
}
/* Copies bits to another memory, or down within one. */
static void copy_down(u64 *to, size_t place, const u64 *from, size_t source, size_t len) {
  if (len > 64) {
    unsigned head = 64 - place % 64;
    put(to, place, head, bits_at(from, source));
    place += head, source += head, len -= head;
    u64 *w = to + place / 64;
    const u64 *r = from + source / 64;
    for (size_t k = 0; k < len / 64; k++) w[k] = joined(r + k, source % 64);
    place += len / 64 * 64, source += len / 64 * 64, len %= 64;
  }
  if (len) put(to, place, len, bits_at(from, source));
}
/* Copies bits up within a memory. */
static void copy_up(u64 *to, size_t place, size_t source, size_t len) {
  if (len > 64) {
    unsigned tail = (place + len) % 64;
    len -= tail;
    if (tail) put(to, place + len, tail, bits_at(to, source + len));
    size_t rest = len % 64;
    u64 *w = to + (place + rest) / 64;
    const u64 *r = to + (source + rest) / 64;
    for (size_t k = len / 64; k-- > 0;) w[k] = joined(r + k, (source + rest) % 64);
    len = rest;
  }
  if (len) put(to, place, len, bits_at(to, source));
}
static void move(u64 *w, size_t place, size_t source, size_t len) {
  if (place > source)
    copy_up(w, place, source, len);
  else
    copy_down(w, place, w, source, len);
}
/* Turns some bits: the first ones become the last. The shorter part is held apart. */
static void turn(u64 *w, size_t place, size_t len, size_t first) {
  static list held;
  size_t rest = len - first;
  reserve(&held, first < rest ? first : rest);
  if (first < rest) {
    copy_down(held.words, 0, w, place, first);
    copy_down(w, place, w, place + first, rest);
    copy_down(w, place + rest, held.words, 0, first);
  } else {
    copy_down(held.words, 0, w, place + first, rest);
    copy_up(w, place + rest, place, first);
    copy_down(w, place, held.words, 0, rest);
  }
}
/* The first place from one on whose bit, flipped by a mask, is 1, or the end. */
static inline size_t next_bit(const u64 *w, u64 flip, size_t from, size_t end) {
  if (from >= end) return end;
  size_t k = from / 64;
  u64 x = (w[k] ^ flip) & ALL << from % 64;
  while (x == 0 && 64 * (k + 1) < end) x = w[++k] ^ flip;
  size_t found = x ? 64 * k + __builtin_ctzll(x) : end;
  return found < end ? found : end;
}
/* Takes out the rows whose bit in `gone` is 1, of a list in which a row has so many bits. */
static void squeeze(u64 *w, size_t unit, const u64 *gone, size_t rows) {
  size_t to = 0;
  for (size_t end = 0; end < rows;) {
    size_t first = next_bit(gone, ALL, end, rows);
    end = next_bit(gone, 0, first, rows);
    copy_down(w, to * unit, w, first * unit, (end - first) * unit);
    to += end - first;
  }
}

/* ---- the table */

typedef struct { char name[17]; unsigned width; size_t place; bool is_signed; } field;
typedef struct { size_t rows; list lists[LISTS]; } table;

static field fields[MOST_FIELDS];
static size_t field_count, units[LISTS];
static table now, kept;
static bool is_kept;

static inline u64 mask_of(const field *f) { return ALL >> (64 - f->width); }
static inline u64 sign_of(const field *f) { return f->is_signed ? (u64)1 << (f->width - 1) : 0; }
static inline size_t place_of(size_t row, const field *f) { return row * units[NUMBERS] + f->place; }
static void reserve_rows(table *of, size_t rows) {
  for (int l = 0; l < LISTS; l++) reserve(&of->lists[l], rows * units[l]);
}
static void move_rows(size_t to, size_t from, size_t rows) {
  for (int l = 0; l < LISTS; l++) move(now.lists[l].words, to * units[l], from * units[l], rows * units[l]);
}
/* The words of a list, zeros behind its last bit. */
static u64 *trimmed(int l) {
  size_t bits = now.rows * units[l];
  u64 *w = now.lists[l].words;
  w[bits / 64] &= ((u64)1 << bits % 64) - 1;
  return w;
}
static size_t bearers(int letter) {
  const u64 *w = trimmed(letter);
  size_t count = 0;
  for (size_t k = 0; k <= now.rows / 64; k++) count += __builtin_popcountll(w[k]);
  return count;
}
static void clear_letter(int letter) { memset(now.lists[letter].words, 0, (now.rows / 64 + 1) * sizeof(u64)); }

/* ---- answers */

static struct { char *text; size_t used, room; } out;

static void flush(void) {
  if (fwrite(out.text, 1, out.used, stdout) != out.used || fflush(stdout)) fail("write fault");
  out.used = 0;
}
/* Where the next so many bytes of the answers are to be written. */
static char *space(size_t bytes) {
  if (out.used + bytes > out.room) {
    out.room = 2 * (out.used + bytes);
    out.text = grown(out.text, out.room);
  }
  out.used += bytes;
  return out.text + out.used - bytes;
}
/* Ends the answers at a place within the space that was given last. */
static void end_at(const char *place) { out.used = (size_t)(place - out.text); }
static void write_byte(char byte) { *space(1) = byte; }
static void write_text(const char *text, size_t length) { memcpy(space(length), text, length); }

/* ---- digits */

/* The four digits of each number below 10,000, and those of each two bytes in hexadecimal. */
static char decimals[4 * 10000], hex_quads[1 << 16][4];
/* The byte of each two characters, -1 where one is no hexadecimal digit. */
static int16_t hex_bytes[1 << 16];

static inline uint16_t two_at(const void *bytes) {
  uint16_t two;
  memcpy(&two, bytes, sizeof two);
  return two;
}
static void set_up_digits(void) {
  static const char low[] = "0123456789abcdef", high[] = "0123456789ABCDEF";
  for (int x = 0; x < 10000; x++)
    for (int k = 3, left = x; k >= 0; k--, left /= 10) decimals[4 * x + k] = low[left % 10];
  for (int k = 0; k < 1 << 16; k++) {
    const char quad[] = {low[k >> 4 & 15], low[k & 15], low[k >> 12], low[k >> 8 & 15]};
    memcpy(hex_quads[k], quad, sizeof quad);
  }
  memset(hex_bytes, -1, sizeof hex_bytes);
  for (int byte = 0; byte < 256; byte++)
    for (int k = 0; k < 4; k++) {
      const char pair[] = {(k & 1 ? high : low)[byte >> 4], (k & 2 ? high : low)[byte & 15]};
      hex_bytes[two_at(pair)] = (int16_t)byte;
    }
}
/* Writes a number where there is space for 20 digits, and answers where its own end. */
static char *put_number(char *to, u64 x) {
  if (x >= 10000) {
    to = put_number(to, x / 10000);
    memcpy(to, decimals + 4 * (x % 10000), 4);
    return to + 4;
  }
  int zeros = (x < 1000) + (x < 100) + (x < 10);
  memcpy(to, decimals + 4 * x + zeros, 4);
  return to + 4 - zeros;
}
static void write_number(u64 x) { end_at(put_number(space(20), x)); }
/* The byte of two hexadecimal digits, or -1. */
static inline int byte_of(const char *digits) { return hex_bytes[two_at(digits)]; }
/* The bytes of so many pairs of hexadecimal digits, two a turn. */
static bool read_bytes(const char *digits, size_t count, unsigned char *bytes) {
  int all = 0;
  size_t k = 0;
  for (; k + 2 <= count; k += 2, digits += 4) {
    int first = byte_of(digits), second = byte_of(digits + 2);
    bytes[k] = (unsigned char)first, bytes[k + 1] = (unsigned char)second;
    all |= first;
    all |= second;
  }
  if (k < count) {
    int last = byte_of(digits);
    bytes[k] = (unsigned char)last;
    all |= last;
  }
  return all >= 0;
}

/* ---- words */

typedef struct { u64 size; bool minus, huge; } number;

/* What is left of a line, and what its words say, each kind in their order. */
static char *rest;
static size_t counts[3];
static int letters[2];
static char op;
static const field *named;
static number numbers[MOST_FIELDS];
static const char *hex;
static size_t hex_length;

static inline bool is_space(char c) { return c == ' ' || c == '\t' || c == '\r' || c == '\n'; }
/* Most words differ in their first byte. */
static inline bool is_equal(const char *one, const char *other) { return *one == *other && strcmp(one, other) == 0; }
/* Takes the next word of the line, an empty one at its end. */
static char *next_word(void) {
  char *word = rest;
  while (is_space(*word)) word++;
  char *end = word;
  while (*end && !is_space(*end)) end++;
  rest = *end ? end + 1 : end;
  *end = 0;
  return word;
}
/* Takes the rest of the line as one word, not to look through a long one once more: a space in it is no digit. */
static void read_hex(void) {
  while (is_space(*rest)) rest++;
  hex = rest;
  rest += strlen(rest);
  for (hex_length = (size_t)(rest - hex); hex_length && is_space(hex[hex_length - 1]);) hex_length--;
}
static inline bool is_in(char c, char first, char last) { return c >= first && c <= last; }
static bool read_number(const char *word, number *n) {
  u64 size = 0;
  bool minus = *word == '-', huge = false;
  const char *at = word + minus;
  for (; is_in(*at, '0', '9'); at++)
    if (__builtin_mul_overflow(size, 10, &size) || __builtin_add_overflow(size, *at - '0', &size)) huge = true;
  *n = (number){size, minus, huge};
  return at > word + minus && !*at;
}
static bool read_count(const char *word, size_t *count) {
  number n;
  bool is_number = read_number(word, &n);
  *count = n.huge ? ALL : n.size;
  return is_number && *word != '-';
}
/* Reads the name of a field; `named` is none where no field has it. */
static bool read_name(const char *word) {
  size_t at = 0;
  while (is_in(word[at], 'a', 'z') || (at && (is_in(word[at], '0', '9') || word[at] == '_'))) at++;
  named = NULL;
  for (const field *f = fields; f < fields + field_count && !named; f++)
    if (is_equal(f->name, word)) named = f;
  return at && at <= 16 && !word[at];
}
/* Reads the words behind a command by their kinds: counts, letters, names, ops, values, and hexadecimal digits, which
   come last, and may be none. */
static bool read_words(const char *kinds) {
  size_t count = 0, letter = 0, value = 0;
  bool ok = true;
  for (; ok && *kinds; kinds++) {
    if (*kinds == 'h') {
      read_hex();
      break;
    }
    const char *word = next_word();
    if (*kinds == 'c') ok = read_count(word, &counts[count++]);
    if (*kinds == 'x') letters[letter++] = *word - 'a', ok = is_in(*word, 'a', 'z') && !word[1];
    if (*kinds == 'f') ok = read_name(word);
    if (*kinds == 'o') op = *word, ok = is_in(op, '<', '>') && !word[1];
    if (*kinds == 'v') ok = read_number(word, &numbers[value++]);
  }
  return ok && !*next_word();
}
/* The digits of a number in a field, where it has a place there. */
static bool digits_of(const field *f, number n, u64 *digits) {
  u64 most = f->is_signed ? sign_of(f) - !n.minus : n.minus ? 0 : mask_of(f);
  *digits = (n.minus ? -n.size : n.size) & mask_of(f);
  return !n.huge && n.size <= most;
}

/* ---- commands */

typedef enum { OK, TOLD, FORM, FIELD, ROW, VALUE, FULL, IMAGE, KEPT } outcome;
static const char *const TEXTS[] = {"ok", "", "refused form", "refused field", "refused row",
                                    "refused value", "refused full", "refused image", "refused kept"};

static outcome insert_row(void) {
  static u64 digits[MOST_FIELDS];
  size_t p = counts[0];
  if (p > now.rows) return ROW;
  for (size_t k = 0; k < field_count; k++)
    if (!digits_of(&fields[k], numbers[k], &digits[k])) return VALUE;
  reserve_rows(&now, now.rows + 1);
  move_rows(p + 1, p, now.rows - p);
  now.rows++;
  for (int l = 0; l < LETTERS; l++) put(now.lists[l].words, p, 1, 0);
  for (size_t k = 0; k < field_count; k++)
    put(now.lists[NUMBERS].words, place_of(p, &fields[k]), fields[k].width, digits[k]);
  return OK;
}
static bool is_range(void) { return counts[0] <= counts[1] && counts[1] <= now.rows; }
static outcome delete_rows(void) {
  if (!is_range()) return ROW;
  move_rows(counts[0], counts[1], now.rows - counts[1]);
  now.rows -= counts[1] - counts[0];
  return OK;
}
static outcome copy_rows(void) {
  size_t rows = counts[1] - counts[0];
  if (!is_range() || counts[2] > now.rows - rows) return ROW;
  move_rows(counts[2], counts[0], rows);
  return OK;
}
static outcome rotate_rows(void) {
  size_t rows = counts[1] - counts[0];
  if (!is_range() || counts[2] > rows) return ROW;
  for (int l = 0; l < LISTS; l++)
    turn(now.lists[l].words, counts[0] * units[l], rows * units[l], counts[2] * units[l]);
  return OK;
}
static outcome set_number(void) {
  u64 digits;
  if (!named) return FIELD;
  if (counts[0] >= now.rows) return ROW;
  if (!digits_of(named, numbers[0], &digits)) return VALUE;
  put(now.lists[NUMBERS].words, place_of(counts[0], named), named->width, digits);
  return OK;
}
static outcome get_row(void) {
  if (counts[0] >= now.rows) return ROW;
  for (const field *f = fields; f < fields + field_count; f++) {
    u64 x = bits_at(now.lists[NUMBERS].words, place_of(counts[0], f)) & mask_of(f);
    if (f > fields) write_byte(' ');
    if (x & sign_of(f)) write_byte('-');
    write_number(x & sign_of(f) ? -x & mask_of(f) : x);
  }
  return TOLD;
}
static outcome tell_image(void) {
  const unsigned char *bytes = (const unsigned char *)trimmed(NUMBERS);
  size_t count = (now.rows * units[NUMBERS] + 7) / 8;
  write_number(now.rows);
  if (count == 0) return TOLD;
  write_byte(' ');
  /* A last byte alone is taken with the one behind it, a zero, whose digits are not told. */
  char *text = space(2 * count + 2);
  for (size_t k = 0; k < count; k += 2) memcpy(text + 2 * k, hex_quads[two_at(bytes + k)], 4);
  end_at(text + 2 * count);
  return TOLD;
}
static outcome load_image(void) {
  static list spare;
  size_t rows = counts[0], count = hex_length / 2;
  reserve(&spare, 8 * count);
  unsigned char *bytes = (unsigned char *)spare.words;
  if (hex_length % 2 || !read_bytes(hex, count, bytes)) return FORM;
  if (rows > MOST_BITS / units[NUMBERS]) return FULL;
  size_t bits = rows * units[NUMBERS];
  if ((bits + 7) / 8 != count || (bits % 8 && bytes[bits / 8] >> bits % 8)) return IMAGE;
  list old = now.lists[NUMBERS];
  now.lists[NUMBERS] = spare;
  spare = old;
  now.rows = rows;
  reserve_rows(&now, rows);
  for (int l = 0; l < LETTERS; l++) clear_letter(l);
  return OK;
}
static outcome keep(void) {
  reserve_rows(&kept, now.rows);
  for (int l = 0; l < LISTS; l++)
    memcpy(kept.lists[l].words, now.lists[l].words, (now.rows * units[l] / 64 + 1) * sizeof(u64));
  kept.rows = now.rows;
  is_kept = true;
  return OK;
}
static outcome back(void) {
  if (!is_kept) return KEPT;
  table left = now;
  now = kept;
  kept = left;
  is_kept = false;
  return OK;
}
/* For one of eight rows: the byte in which its field begins, and, shifted as the field is in there, the field's mask,
   the first number that passes a test, and how many pass. Eight rows further on the field is shifted alike. */
typedef struct { size_t byte; u64 mask, first, passing; } slot;

static inline unsigned passes(const unsigned char *rows, const slot *s) {
  u64 x;
  memcpy(&x, rows + s->byte, sizeof x);
  return ((x - s->first) & s->mask) < s->passing;
}
static inline unsigned char eight_pass(const unsigned char *rows, const slot *s) {
  return (unsigned char)(passes(rows, s) | passes(rows, s + 1) << 1 | passes(rows, s + 2) << 2 |
                         passes(rows, s + 3) << 3 | passes(rows, s + 4) << 4 | passes(rows, s + 5) << 5 |
                         passes(rows, s + 6) << 6 | passes(rows, s + 7) << 7);
}
static void mark_narrow(u64 first, u64 passing) {
  slot slots[8];
  for (size_t k = 0; k < 8; k++) {
    size_t place = place_of(k, named), shift = place % 8;
    slots[k] = (slot){place / 8, mask_of(named) << shift, first << shift, passing << shift};
  }
  const unsigned char *rows = (const unsigned char *)now.lists[NUMBERS].words;
  unsigned char *to = (unsigned char *)now.lists[letters[0]].words;
  size_t left = now.rows, unit = units[NUMBERS];
  for (; left >= 8; left -= 8, rows += unit) *to++ = eight_pass(rows, slots);
  unsigned last = 0;
  for (size_t k = 0; k < left; k++) last |= passes(rows, slots + k) << k;
  *to = (unsigned char)last;
}
static void mark_wide(u64 first, u64 passing) {
  const u64 *w = now.lists[NUMBERS].words;
  u64 *to = now.lists[letters[0]].words, mask = mask_of(named);
  size_t place = named->place, unit = units[NUMBERS];
  for (size_t row = 0; row < now.rows; row += 64) {
    size_t count = now.rows - row < 64 ? now.rows - row : 64;
    u64 answers = 0;
    for (size_t k = 0; k < count; k++, place += unit) {
      u64 answer = ((bits_at(w, place) - first) & mask) < passing;
      answers = answers >> 1 | answer << 63;
    }
    to[row / 64] = answers >> (64 - count);
  }
}
static outcome mark(void) {
  u64 digits;
  if (!named) return FIELD;
  if (!digits_of(named, numbers[0], &digits)) return VALUE;
  /* The numbers of a field stand in a circle, where those that pass follow one another from a first one on. */
  u64 lowest = sign_of(named), less = digits ^ lowest, first = digits, passing = 1;
  if (op == '<') first = lowest, passing = less;
  if (op == '>') first = digits + 1, passing = mask_of(named) - less;
  /* Eight bytes hold a field of so many bits wherever it begins in the first one. */
  if (named->width <= 57)
    mark_narrow(first, passing);
  else
    mark_wide(first, passing);
  return OK;
}
/* Each word of the first letter becomes what the expression makes of it and of that of the second one, ys[k]. */
#define COMBINE(NAME, MADE)                                                    \
  static outcome NAME(void) {                                                  \
    u64 *xs = now.lists[letters[0]].words;                                     \
    const u64 *ys = now.lists[letters[1]].words;                               \
    for (size_t k = 0, last = now.rows / 64; k <= last; k++) xs[k] = MADE;     \
    return OK;                                                                 \
  }
COMBINE(and_letters, xs[k] & ys[k])
COMBINE(or_letters, xs[k] | ys[k])
COMBINE(xor_letters, xs[k] ^ ys[k])
static outcome not_letter(void) {
  u64 *xs = now.lists[letters[0]].words;
  for (size_t k = 0, last = now.rows / 64; k <= last; k++) xs[k] = ~xs[k];
  return OK;
}
static outcome count_letter(void) {
  write_number(bearers(letters[0]));
  return TOLD;
}
static outcome list_letter(void) {
  const u64 *w = trimmed(letters[0]);
  size_t begin = out.used;
  for (size_t k = 0; k <= now.rows / 64; k++) {
    char *to = space(64 * 21);
    for (u64 left = w[k]; left; left &= left - 1) {
      to = put_number(to, 64 * k + __builtin_ctzll(left));
      *to++ = ' ';
    }
    end_at(to);
  }
  if (out.used == begin)
    write_text("none", 4);
  else
    out.used--;
  return TOLD;
}
static outcome drop_rows(void) {
  int x = letters[0];
  size_t gone = bearers(x);
  for (int l = 0; l < LISTS; l++)
    if (l == NUMBERS || (l != x && bearers(l))) squeeze(now.lists[l].words, units[l], now.lists[x].words, now.rows);
  now.rows -= gone;
  clear_letter(x);
  return OK;
}

/* ---- lines */

/* What was read, and how much of it was taken as lines. */
static struct { char *text; size_t taken, used, room; } in;

/* Reads on behind what was not taken, or ends the last line. */
static bool read_on(void) {
  if (in.used + PIECE >= in.room) {
    in.room = 2 * (in.used + PIECE);
    in.text = grown(in.text, in.room);
  }
  in.used -= in.taken;
  memmove(in.text, in.text + in.taken, in.used);
  in.taken = 0;
  size_t count = fread(in.text + in.used, 1, PIECE, stdin);
  if (count == 0 && in.used == 0) return false;
  if (count == 0) in.text[in.used++] = '\n';
  in.used += count;
  return true;
}
/* Takes the next line, or none. */
static char *next_line(void) {
  char *end;
  size_t seen = 0;
  do {
    if (seen == in.used - in.taken && !read_on()) return NULL;
    end = memchr(in.text + in.taken + seen, '\n', in.used - in.taken - seen);
    seen = in.used - in.taken;
  } while (!end);
  char *line = in.text + in.taken;
  *end = 0;
  in.taken = (size_t)(end - in.text) + 1;
  return line;
}
/* Each command with the kinds of its words; an insertion has as many values as there are fields. */
static char insert_kinds[MOST_FIELDS + 2] = "c";
static const struct { const char *name, *kinds; outcome (*carry_out)(void); } COMMANDS[] = {
    {"get", "c", get_row}, {"set", "cfv", set_number}, {"insert", insert_kinds, insert_row}, {"delete", "cc", delete_rows},
    {"copy", "ccc", copy_rows}, {"rotate", "ccc", rotate_rows}, {"image", "", tell_image}, {"load", "ch", load_image},
    {"keep", "", keep}, {"back", "", back}, {"mark", "xfov", mark}, {"and", "xx", and_letters},
    {"or", "xx", or_letters}, {"xor", "xx", xor_letters}, {"not", "x", not_letter}, {"count", "x", count_letter},
    {"list", "x", list_letter}, {"drop", "x", drop_rows}};

static outcome carry_out(const char *name) {
  for (size_t k = 0; k < sizeof COMMANDS / sizeof *COMMANDS; k++)
    if (is_equal(name, COMMANDS[k].name))
      return read_words(COMMANDS[k].kinds) ? COMMANDS[k].carry_out() : FORM;
  return FORM;
}
static outcome lay_out(const char *rule) {
  const char *word = next_word();
  if (strcmp(rule, "low") || !*word) fail("no layout of the rule low");
  for (int l = 0; l < LETTERS; l++) units[l] = 1;
  for (; *word; word = next_word()) {
    if (field_count == MOST_FIELDS) fail("too many fields");
    field *f = &fields[field_count++];
    char sign;
    if (sscanf(word, "%16[a-z0-9_]:%c%u", f->name, &sign, &f->width) != 3 || f->width - 1 > 63) fail("no field");
    f->is_signed = sign == 'i';
    f->place = units[NUMBERS];
    units[NUMBERS] += f->width;
    insert_kinds[field_count] = 'v';
  }
  reserve_rows(&now, 0);
  return OK;
}
int main(void) {
  set_up_digits();
  while ((rest = next_line())) {
    const char *word = next_word();
    if (!*word) continue;
    const char *text = TEXTS[field_count ? carry_out(word) : lay_out(word)];
    write_text(text, strlen(text));
    write_byte('\n');
    if (out.used > PIECE) flush();
  }
  flush();
  return 0;
}
