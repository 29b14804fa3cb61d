//! Calls of the crate `bits` on words of 64 bits, or on bytes with `--cfg 'word="u8"'`, under `Lsb0`, and the same by hand.
//!
//! It prints a line for each call and window: CALL BITS START OTHER_START, and the nanoseconds of both, the least of
//! `ROUNDS`.

use bits::{Bits, BitsMut, Lsb0};
use std::hint::black_box;
use std::process::exit;
use std::time::Instant;

const ROUNDS: usize = 24;
const BY: usize = 61;
const SPARE: usize = 4;

#[cfg(word = "u8")]
type Word = u8;
#[cfg(not(word = "u8"))]
type Word = u64;

/// By hand: blocks of 64 bits, that begin at a word.
mod own {
    use super::Word;
    use std::cmp::Ordering;

    const B: usize = Word::BITS as usize;
    /// How many words a block has.
    const S: usize = 64 / B;
    /// Blocks that are read before any of them is written or looked at, and those that are held at once.
    const GROUP: usize = 8;
    const HELD: usize = 64;
    const ALL: Word = Word::MAX;

    #[cfg(not(word = "u8"))]
    fn load_block(w: &[u64]) -> u64 {
        w[0]
    }

    #[cfg(not(word = "u8"))]
    fn store_block(w: &mut [u64], x: u64) {
        w[0] = x;
    }

    /// The words that hold the first `bits` bits of a block; of the others 0.
    #[cfg(not(word = "u8"))]
    fn load_some(w: &[u64], _bits: usize) -> u64 {
        w[0]
    }

    #[cfg(not(word = "u8"))]
    fn store_some(w: &mut [u64], _bits: usize, x: u64) {
        w[0] = x;
    }

    #[cfg(word = "u8")]
    fn load_block(w: &[u8]) -> u64 {
        u64::from_le_bytes(w[..8].try_into().unwrap())
    }

    #[cfg(word = "u8")]
    fn store_block(w: &mut [u8], x: u64) {
        w[..8].copy_from_slice(&x.to_le_bytes());
    }

    /// The bytes that hold the first `bits` bits of a block; of the others 0.
    #[cfg(word = "u8")]
    fn load_some(w: &[u8], bits: usize) -> u64 {
        if bits > 56 {
            return load_block(w);
        }
        let (bytes, mut at, mut x) = (bits.div_ceil(8), 0, 0);
        if bytes & 4 != 0 {
            x = u64::from(u32::from_le_bytes(w[..4].try_into().unwrap()));
            at = 4;
        }
        if bytes & 2 != 0 {
            x |= u64::from(u16::from_le_bytes(w[at..at + 2].try_into().unwrap())) << (8 * at);
            at += 2;
        }
        if bytes & 1 != 0 {
            x |= u64::from(w[at]) << (8 * at);
        }
        x
    }

    #[cfg(word = "u8")]
    fn store_some(w: &mut [u8], bits: usize, x: u64) {
        if bits > 56 {
            return store_block(w, x);
        }
        let (bytes, mut at) = (bits.div_ceil(8), 0);
        if bytes & 4 != 0 {
            w[..4].copy_from_slice(&(x as u32).to_le_bytes());
            at = 4;
        }
        if bytes & 2 != 0 {
            w[at..at + 2].copy_from_slice(&((x >> (8 * at)) as u16).to_le_bytes());
            at += 2;
        }
        if bytes & 1 != 0 {
            w[at] = (x >> (8 * at)) as u8;
        }
    }

    /// 1 to 64 bits as a number.
    fn read_bits(w: &[Word], start: usize, len: usize) -> u64 {
        let (w, s, mask) = (&w[start / B..], start % B, !0 >> (64 - len));
        if s + len <= 64 {
            load_some(w, s + len) >> s & mask
        } else {
            (load_block(w) >> s | (w[S] as u64) << (64 - s)) & mask
        }
    }

    fn write_bits(w: &mut [Word], start: usize, len: usize, x: u64) {
        let (w, s, mask) = (&mut w[start / B..], start % B, !0 >> (64 - len));
        let x = x & mask;
        if s + len <= 64 {
            let old = load_some(w, s + len);
            store_some(w, s + len, old & !(mask << s) | x << s);
        } else {
            let old = load_block(w);
            store_block(w, old & !(mask << s) | x << s);
            put(&mut w[S], (mask >> (64 - s)) as Word, (x >> (64 - s)) as Word);
        }
    }

    fn put(w: &mut Word, mask: Word, x: Word) {
        *w = *w & !mask | x & mask;
    }

    /// The bits up to the end of the block that begins at the window's first word, none where the window begins there;
    /// the whole blocks behind these, and the bits that are left.
    struct Parts {
        head: usize,
        blocks: usize,
        tail: usize,
    }

    fn parts_of(start: usize, len: usize) -> Parts {
        let head = if start % B == 0 { 0 } else { 64 - start % B };
        if len <= head {
            return Parts { head: len, blocks: 0, tail: 0 };
        }
        Parts { head, blocks: (len - head) / 64, tail: (len - head) % 64 }
    }

    /// The first and the last word in which a window has bits, and a mask of each.
    struct Edges {
        first: usize,
        last: usize,
        head: Word,
        tail: Word,
    }

    fn edges_of(start: usize, len: usize) -> Edges {
        let end = start + len - 1;
        Edges { first: start / B, last: end / B, head: ALL << (start % B), tail: ALL >> (B - 1 - end % B) }
    }

    fn blocks(w: &[Word]) -> impl DoubleEndedIterator<Item = u64> + ExactSizeIterator + '_ {
        w.chunks_exact(S).map(load_block)
    }

    /// The blocks from bit `d` on, which is above 0.
    fn shifted(w: &[Word], d: usize) -> impl Iterator<Item = u64> + '_ {
        let next = w.get(1..).unwrap_or(&[]);
        blocks(w).zip(blocks(next)).map(move |(lo, hi)| lo >> d | hi << (B - d))
    }

    #[inline(never)]
    pub fn get(w: &[Word], index: usize) -> bool {
        w[index / B] >> (index % B) & 1 == 1
    }

    #[inline(never)]
    pub fn set(w: &mut [Word], index: usize, bit: bool) {
        put(&mut w[index / B], 1 << (index % B), if bit { ALL } else { 0 });
    }

    #[inline(never)]
    pub fn count_ones(w: &[Word], start: usize, len: usize) -> usize {
        let p = parts_of(start, len);
        let m = &w[(start + p.head) / B..];
        let ones = |x: u64| x.count_ones() as usize;
        let head = if p.head > 0 { ones(read_bits(w, start, p.head)) } else { 0 };
        let tail = if p.tail > 0 { ones(read_bits(m, 64 * p.blocks, p.tail)) } else { 0 };
        head + blocks(&m[..p.blocks * S]).map(ones).sum::<usize>() + tail
    }

    /// The first 1, or the last one, where each bit is flipped by `flip`.
    #[inline(never)]
    pub fn first(w: &[Word], start: usize, len: usize, flip: u64) -> Option<usize> {
        let p = parts_of(start, len);
        let whole = &w[(start + p.head) / B..][..p.blocks * S];
        let found = |from: usize, x: u64| (x != 0).then(|| from + x.trailing_zeros() as usize);
        let part = |from: usize, len: usize| {
            if len == 0 {
                return None;
            }
            found(from, (read_bits(w, start + from, len) ^ flip) & !0 >> (64 - len))
        };
        let in_blocks = || {
            let group = |x: &[Word]| blocks(x).fold(0, |some, x| some | x ^ flip) != 0;
            let k = GROUP * whole.chunks_exact(GROUP * S).take_while(|x| !group(x)).count();
            blocks(&whole[k * S..]).enumerate().find_map(|(j, x)| found(p.head + 64 * (k + j), x ^ flip))
        };
        part(0, p.head).or_else(in_blocks).or_else(|| part(p.head + 64 * p.blocks, p.tail))
    }

    #[inline(never)]
    pub fn last(w: &[Word], start: usize, len: usize, flip: u64) -> Option<usize> {
        let p = parts_of(start, len);
        let whole = &w[(start + p.head) / B..][..p.blocks * S];
        let found = |from: usize, x: u64| (x != 0).then(|| from + 63 - x.leading_zeros() as usize);
        let part = |from: usize, len: usize| {
            if len == 0 {
                return None;
            }
            found(from, (read_bits(w, start + from, len) ^ flip) & !0 >> (64 - len))
        };
        let in_blocks = || {
            let group = |x: &[Word]| blocks(x).fold(0, |some, x| some | x ^ flip) != 0;
            let k = p.blocks - GROUP * whole.rchunks_exact(GROUP * S).take_while(|x| !group(x)).count();
            blocks(&whole[..k * S]).enumerate().rev().find_map(|(j, x)| found(p.head + 64 * j, x ^ flip))
        };
        part(p.head + 64 * p.blocks, p.tail).or_else(in_blocks).or_else(|| part(0, p.head))
    }

    /// The first bit in which two windows differ.
    fn mismatch(w: &[Word], start: usize, len: usize, o: &[Word], other: usize) -> Option<usize> {
        let p = parts_of(start, len);
        let (whole, n) = (&w[(start + p.head) / B..][..p.blocks * S], &o[(other + p.head) / B..]);
        let d = (other + p.head) % B;
        let found = |from: usize, x: u64| (x != 0).then(|| from + x.trailing_zeros() as usize);
        let part = |from: usize, len: usize| {
            if len == 0 {
                return None;
            }
            found(from, read_bits(w, start + from, len) ^ read_bits(o, other + from, len))
        };
        let in_blocks = || {
            let mut k = 0;
            for x in whole.chunks_exact(GROUP * S) {
                let differ = |some: u64, (x, y): (u64, u64)| some | x ^ y;
                let some = if d == 0 {
                    blocks(x).zip(blocks(&n[k * S..][..GROUP * S])).fold(0, differ)
                } else {
                    blocks(x).zip(shifted(&n[k * S..][..GROUP * S + 1], d)).fold(0, differ)
                };
                if some != 0 {
                    break;
                }
                k += GROUP;
            }
            let rest = blocks(&whole[k * S..]).enumerate();
            if d == 0 {
                let mut rest = rest.zip(blocks(&n[k * S..]));
                rest.find_map(|((j, x), y)| found(p.head + 64 * (k + j), x ^ y))
            } else {
                let mut rest = rest.zip(shifted(&n[k * S..], d));
                rest.find_map(|((j, x), y)| found(p.head + 64 * (k + j), x ^ y))
            }
        };
        part(0, p.head).or_else(in_blocks).or_else(|| part(p.head + 64 * p.blocks, p.tail))
    }

    #[inline(never)]
    pub fn equal(w: &[Word], start: usize, len: usize, o: &[Word], other: usize) -> bool {
        if start % B != other % B {
            return mismatch(w, start, len, o, other).is_none();
        }
        let (e, f) = (edges_of(start, len), edges_of(other, len));
        let (head, tail) = (w[e.first] ^ o[f.first], w[e.last] ^ o[f.last]);
        if e.first == e.last {
            return head & e.head & e.tail == 0;
        }
        head & e.head == 0 && tail & e.tail == 0 && w[e.first + 1..e.last] == o[f.first + 1..f.last]
    }

    #[inline(never)]
    pub fn compare(w: &[Word], start: usize, len: usize, o: &[Word], other: usize) -> Ordering {
        match mismatch(w, start, len, o, other) {
            None => Ordering::Equal,
            Some(at) if w[(start + at) / B] >> ((start + at) % B) & 1 == 1 => Ordering::Greater,
            Some(_) => Ordering::Less,
        }
    }

    #[inline(never)]
    pub fn load(w: &[Word], start: usize, len: usize) -> u64 {
        read_bits(w, start, len)
    }

    #[inline(never)]
    pub fn load_signed(w: &[Word], start: usize, len: usize) -> i64 {
        (read_bits(w, start, len) << (64 - len)) as i64 >> (64 - len)
    }

    #[inline(never)]
    pub fn store(w: &mut [Word], start: usize, len: usize, value: u64) {
        write_bits(w, start, len, value);
    }

    #[inline(never)]
    pub fn fill(w: &mut [Word], start: usize, len: usize, bit: bool) {
        let (e, x) = (edges_of(start, len), if bit { ALL } else { 0 });
        if e.first == e.last {
            return put(&mut w[e.first], e.head & e.tail, x);
        }
        put(&mut w[e.first], e.head, x);
        w[e.first + 1..e.last].fill(x);
        put(&mut w[e.last], e.tail, x);
    }

    #[inline(never)]
    pub fn not(w: &mut [Word], start: usize, len: usize) {
        let p = parts_of(start, len);
        if p.head > 0 {
            let x = read_bits(w, start, p.head);
            write_bits(w, start, p.head, !x);
        }
        let m = &mut w[(start + p.head) / B..];
        for block in m[..p.blocks * S].chunks_exact_mut(S) {
            let x = load_block(block);
            store_block(block, !x);
        }
        if p.tail > 0 {
            let x = read_bits(m, 64 * p.blocks, p.tail);
            write_bits(m, 64 * p.blocks, p.tail, !x);
        }
    }

    /// Blocks over those from a bit on.
    fn write_blocks(w: &mut [Word], start: usize, from: &[u64]) {
        let (w, s) = (&mut w[start / B..], start % B);
        if s == 0 {
            for (block, &x) in w.chunks_exact_mut(S).zip(from) {
                store_block(block, x);
            }
            return;
        }
        write_bits(w, s, 64 - s, from[0]);
        for (block, x) in w[S..from.len() * S].chunks_exact_mut(S).zip(from.windows(2)) {
            store_block(block, x[0] >> (64 - s) | x[1] << s);
        }
        write_bits(w, 64 * from.len(), s, from[from.len() - 1] >> (64 - s));
    }

    /// The first `count` bits of a window and its last ones, at most 64 of each.
    fn reverse_few(w: &mut [Word], start: usize, len: usize, count: usize) {
        let (x, y) = (read_bits(w, start, count), read_bits(w, start + len - count, count));
        write_bits(w, start, count, y.reverse_bits() >> (64 - count));
        write_bits(w, start + len - count, count, x.reverse_bits() >> (64 - count));
    }

    #[inline(never)]
    pub fn reverse(w: &mut [Word], mut start: usize, mut len: usize) {
        let head = if start % B == 0 { 0 } else { (64 - start % B).min(len / 2) };
        if head > 0 {
            reverse_few(w, start, len, head);
            start += head;
            len -= 2 * head;
        }
        while len >= 128 {
            let count = (len / 128).min(HELD);
            let last = start + len - 64 * count;
            let (mut low, mut high) = ([0; HELD], [0; HELD]);
            let (low, high) = (&mut low[..count], &mut high[..count]);
            for (to, x) in low.iter_mut().rev().zip(blocks(&w[start / B..])) {
                *to = x.reverse_bits();
            }
            if last % B == 0 {
                high.iter_mut().zip(blocks(&w[last / B..])).for_each(|(to, x)| *to = x);
            } else {
                high.iter_mut().zip(shifted(&w[last / B..], last % B)).for_each(|(to, x)| *to = x);
            }
            for (block, x) in w[start / B..].chunks_exact_mut(S).zip(high.iter().rev()) {
                store_block(block, x.reverse_bits());
            }
            write_blocks(w, last, low);
            start += 64 * count;
            len -= 128 * count;
        }
        if len >= 2 {
            reverse_few(w, start, len, len / 2);
        }
    }

    /// From that end on where nothing is lost.
    #[inline(never)]
    pub fn move_within(w: &mut [Word], from: usize, to: usize, len: usize) {
        if len == 0 {
            return;
        }
        if from % B == to % B {
            let (e, f) = (edges_of(to, len), edges_of(from, len));
            let (head, tail) = (w[f.first], w[f.last]);
            if e.first == e.last {
                return put(&mut w[e.first], e.head & e.tail, head);
            }
            w.copy_within(f.first + 1..f.last, e.first + 1);
            put(&mut w[e.first], e.head, head);
            return put(&mut w[e.last], e.tail, tail);
        }
        let p = parts_of(to, len);
        let (m, n, d) = ((to + p.head) / B, (from + p.head) / B, (from + p.head) % B);
        let rest = p.head + 64 * p.blocks;
        let head = if p.head > 0 { read_bits(w, from, p.head) } else { 0 };
        let tail = if p.tail > 0 { read_bits(w, from + rest, p.tail) } else { 0 };
        let one = |w: &mut [Word], k: usize| {
            let x = load_block(&w[n + k * S..]) >> d | load_block(&w[n + k * S + 1..]) << (B - d);
            store_block(&mut w[m + k * S..], x);
        };
        let group = |w: &mut [Word], k: usize| {
            let mut group = [0; GROUP];
            let source = shifted(&w[n + k * S..][..GROUP * S + 1], d);
            group.iter_mut().zip(source).for_each(|(to, x)| *to = x);
            let target = w[m + k * S..][..GROUP * S].chunks_exact_mut(S);
            target.zip(group).for_each(|(block, x)| store_block(block, x));
        };
        let groups = p.blocks / GROUP;
        if from > to {
            (0..groups).for_each(|k| group(w, k * GROUP));
            (groups * GROUP..p.blocks).for_each(|k| one(w, k));
        } else {
            let first = p.blocks % GROUP;
            (0..groups).rev().for_each(|k| group(w, first + k * GROUP));
            (0..first).rev().for_each(|k| one(w, k));
        }
        if p.head > 0 {
            write_bits(w, to, p.head, head);
        }
        if p.tail > 0 {
            write_bits(w, to + rest, p.tail, tail);
        }
    }

    /// `by` is at most 64, as in `rotate_right`.
    #[inline(never)]
    pub fn rotate_left(w: &mut [Word], start: usize, len: usize, by: usize) {
        let held = read_bits(w, start, by);
        move_within(w, start + by, start, len - by);
        write_bits(w, start + len - by, by, held);
    }

    #[inline(never)]
    pub fn rotate_right(w: &mut [Word], start: usize, len: usize, by: usize) {
        let held = read_bits(w, start + len - by, by);
        move_within(w, start, start + by, len - by);
        write_bits(w, start, by, held);
    }

    /// Each block becomes what `made` makes of it and of the bits of the other window.
    fn combine(w: &mut [Word], start: usize, len: usize, o: &[Word], other: usize, made: impl Fn(u64, u64) -> u64) {
        let p = parts_of(start, len);
        let (n, d) = (&o[(other + p.head) / B..], (other + p.head) % B);
        if p.head > 0 {
            let x = made(read_bits(w, start, p.head), read_bits(o, other, p.head));
            write_bits(w, start, p.head, x);
        }
        let m = &mut w[(start + p.head) / B..];
        let target = m[..p.blocks * S].chunks_exact_mut(S);
        if d == 0 {
            for (block, x) in target.zip(blocks(n)) {
                let y = load_block(block);
                store_block(block, made(y, x));
            }
        } else {
            for (block, x) in target.zip(shifted(n, d)) {
                let y = load_block(block);
                store_block(block, made(y, x));
            }
        }
        if p.tail > 0 {
            let x = made(read_bits(m, 64 * p.blocks, p.tail), read_bits(n, 64 * p.blocks + d, p.tail));
            write_bits(m, 64 * p.blocks, p.tail, x);
        }
    }

    #[inline(never)]
    pub fn copy(w: &mut [Word], start: usize, len: usize, o: &[Word], other: usize) {
        if start % B != other % B {
            return combine(w, start, len, o, other, |_, x| x);
        }
        let (e, f) = (edges_of(start, len), edges_of(other, len));
        if e.first == e.last {
            return put(&mut w[e.first], e.head & e.tail, o[f.first]);
        }
        put(&mut w[e.first], e.head, o[f.first]);
        w[e.first + 1..e.last].copy_from_slice(&o[f.first + 1..f.last]);
        put(&mut w[e.last], e.tail, o[f.last]);
    }

    #[inline(never)]
    pub fn and(w: &mut [Word], start: usize, len: usize, o: &[Word], other: usize) {
        combine(w, start, len, o, other, |y, x| y & x);
    }

    #[inline(never)]
    pub fn or(w: &mut [Word], start: usize, len: usize, o: &[Word], other: usize) {
        combine(w, start, len, o, other, |y, x| y | x);
    }

    #[inline(never)]
    pub fn xor(w: &mut [Word], start: usize, len: usize, o: &[Word], other: usize) {
        combine(w, start, len, o, other, |y, x| y ^ x);
    }
}

/// What the words of a window hold.
#[derive(Clone, Copy, PartialEq)]
enum Content {
    Random,
    Zeros,
    Ones,
    Alike,
}

use Content::{Alike, Ones, Random, Zeros};

/// A window, and another one of as many bits.
#[derive(Clone)]
struct Pair {
    words: Vec<Word>,
    start: usize,
    other: Vec<Word>,
    other_start: usize,
    len: usize,
}

/// The words of some blocks of 64 bits.
fn words_of(blocks: impl Iterator<Item = u64>) -> Vec<Word> {
    let bytes: Vec<u8> = blocks.flat_map(u64::to_le_bytes).collect();
    bytes.chunks_exact(size_of::<Word>()).map(|word| Word::from_le_bytes(word.try_into().unwrap())).collect()
}

impl Pair {
    fn new(len: usize, start: usize, other_start: usize, content: Content) -> Pair {
        let mut state = len as u64;
        let mut chance = || {
            state = state.wrapping_mul(6364136223846793005).wrapping_add(1442695040888963407);
            (state >> 32).wrapping_mul(0x9e3779b97f4a7c15)
        };
        let count = len / 64 + SPARE;
        let words = words_of((0..count).map(|_| match content {
            Zeros => 0,
            Ones => !0,
            _ => chance(),
        }));
        let mut other = words_of((0..count).map(|_| chance()));
        if content == Alike {
            for i in 0..len {
                own::set(&mut other, other_start + i, own::get(&words, start + i));
            }
        }
        Pair { words, start, other, other_start, len }
    }

    fn bits(&self) -> Bits<'_, Word, Lsb0> {
        Bits::new(&self.words).window(self.start..self.start + self.len).unwrap()
    }

    fn second(&self) -> Bits<'_, Word, Lsb0> {
        Bits::new(&self.other).window(self.other_start..self.other_start + self.len).unwrap()
    }
}

/// Nanoseconds of a call, of so many.
fn round(calls: u64, sum: &mut u64, mut call: impl FnMut(u64) -> u64) -> f64 {
    let start = Instant::now();
    for n in 0..calls {
        *sum = sum.wrapping_mul(31).wrapping_add(call(black_box(n)));
    }
    start.elapsed().as_nanos() as f64 / calls as f64
}

fn place(index: Option<usize>) -> u64 {
    index.unwrap_or(usize::MAX) as u64
}

/// The windows of a table's columns: length, start, the other one's start.
fn windows(each: bool) -> Vec<(usize, usize, usize)> {
    let lengths: &[usize] = if each { &[1_000_000, 1_000, 64] } else { &[64] };
    [(0, 0), (13, 29)].iter().flat_map(|&(start, other)| lengths.iter().map(move |&len| (len, start, other))).collect()
}

fn calls_for(len: usize) -> u64 {
    match len {
        1_000_000.. => 10,
        1_000.. => 2_000,
        _ => 20_000,
    }
}

struct Times {
    same: bool,
}

impl Times {
    fn tell(&mut self, name: &str, (len, start, other): (usize, usize, usize), best: [f64; 2], same: bool) {
        let differ = if same { "" } else { " differ" };
        println!("{name} {len} {start} {other} {:.3} {:.3}{differ}", best[0], best[1]);
        self.same &= same;
    }

    fn reads(
        &mut self,
        name: &str,
        (each, content): (bool, Content),
        library: impl Fn(Bits<'_, Word, Lsb0>, Bits<'_, Word, Lsb0>, u64) -> u64,
        own: impl Fn(&Pair, u64) -> u64,
    ) {
        for window in windows(each) {
            let pair = Pair::new(window.0, window.1, window.2, content);
            let (mut best, mut sums) = ([f64::INFINITY; 2], [0; 2]);
            for _ in 0..ROUNDS {
                let (bits, second) = (pair.bits(), pair.second());
                let took = round(calls_for(pair.len), &mut sums[0], |n| library(black_box(bits), second, n));
                best[0] = best[0].min(took);
                let took = round(calls_for(pair.len), &mut sums[1], |n| own(black_box(&pair), n));
                best[1] = best[1].min(took);
            }
            self.tell(name, window, best, sums[0] == sums[1]);
        }
    }

    fn changes(
        &mut self,
        name: &str,
        each: bool,
        library: impl Fn(&mut BitsMut<'_, Word, Lsb0>, Bits<'_, Word, Lsb0>, u64),
        own: impl Fn(&mut [Word], &Pair, u64),
    ) {
        for window in windows(each) {
            let pair = Pair::new(window.0, window.1, window.2, Random);
            let (mut mine, mut theirs) = (pair.words.clone(), pair.words.clone());
            let mut best = [f64::INFINITY; 2];
            for _ in 0..ROUNDS {
                let mut bits = BitsMut::<Word, Lsb0>::new(&mut theirs);
                // `move` goes beyond the window by as many places as it moves bits.
                let end = if name == "move" { pair.len + BY } else { pair.len };
                let mut part = bits.window(pair.start..pair.start + end).unwrap();
                let took = round(calls_for(pair.len), &mut 0, |n| {
                    library(black_box(&mut part), pair.second(), n);
                    0
                });
                best[0] = best[0].min(took);
                let took = round(calls_for(pair.len), &mut 0, |n| {
                    own(black_box(&mut mine), &pair, n);
                    0
                });
                best[1] = best[1].min(took);
            }
            self.tell(name, window, best, mine == theirs);
        }
    }
}

fn reads(times: &mut Times) {
    times.reads(
        "get",
        (false, Random),
        |v, _, n| u64::from(v.get(n as usize % 64) == Some(true)),
        |p, n| u64::from(own::get(&p.words, p.start + n as usize % 64)),
    );
    times.reads(
        "count_ones",
        (true, Random),
        |v, _, _| v.count_ones() as u64,
        |p, _| own::count_ones(&p.words, p.start, p.len) as u64,
    );
    times.reads("first_one", (true, Zeros), |v, _, _| place(v.first_one()), |p, _| {
        place(own::first(&p.words, p.start, p.len, 0))
    });
    times.reads("last_one", (true, Zeros), |v, _, _| place(v.last_one()), |p, _| {
        place(own::last(&p.words, p.start, p.len, 0))
    });
    times.reads("first_zero", (true, Ones), |v, _, _| place(v.first_zero()), |p, _| {
        place(own::first(&p.words, p.start, p.len, !0))
    });
    times.reads("last_zero", (true, Ones), |v, _, _| place(v.last_zero()), |p, _| {
        place(own::last(&p.words, p.start, p.len, !0))
    });
    times.reads("any", (true, Zeros), |v, _, _| u64::from(v.any()), |p, _| {
        u64::from(own::first(&p.words, p.start, p.len, 0).is_some())
    });
    times.reads("all", (true, Ones), |v, _, _| u64::from(v.all()), |p, _| {
        u64::from(own::first(&p.words, p.start, p.len, !0).is_none())
    });
    times.reads("equal", (true, Alike), |v, o, _| u64::from(v == o), |p, _| {
        u64::from(own::equal(&p.words, p.start, p.len, &p.other, p.other_start))
    });
    times.reads("compare", (true, Alike), |v, o, _| v.cmp(&o) as u64, |p, _| {
        own::compare(&p.words, p.start, p.len, &p.other, p.other_start) as u64
    });
    times.reads("load", (false, Random), |v, _, _| v.load().unwrap(), |p, _| own::load(&p.words, p.start, p.len));
    times.reads("load_signed", (false, Random), |v, _, _| v.load_signed().unwrap() as u64, |p, _| {
        own::load_signed(&p.words, p.start, p.len) as u64
    });
}

fn changes(times: &mut Times) {
    times.changes(
        "set",
        false,
        |v, _, n| v.set(n as usize % 64, n & 64 != 0),
        |w, p, n| own::set(w, p.start + n as usize % 64, n & 64 != 0),
    );
    times.changes("store", false, |v, _, n| v.store(n).unwrap(), |w, p, n| own::store(w, p.start, p.len, n));
    times.changes(
        "store_signed",
        false,
        |v, _, n| v.store_signed(-(n as i64)).unwrap(),
        |w, p, n| own::store(w, p.start, p.len, n.wrapping_neg()),
    );
    times.changes("fill", true, |v, _, n| v.fill(n & 1 == 1), |w, p, n| own::fill(w, p.start, p.len, n & 1 == 1));
    times.changes("not", true, |v, _, _| v.invert(), |w, p, _| own::not(w, p.start, p.len));
    times.changes("reverse", true, |v, _, _| v.reverse(), |w, p, _| own::reverse(w, p.start, p.len));
    times.changes("rotate_left", true, |v, _, _| v.rotate_left(BY), |w, p, _| {
        own::rotate_left(w, p.start, p.len, BY)
    });
    times.changes("rotate_right", true, |v, _, _| v.rotate_right(BY), |w, p, _| {
        own::rotate_right(w, p.start, p.len, BY)
    });
    times.changes("move", true, |v, _, _| v.copy_within(..v.len() - BY, BY), |w, p, _| {
        own::move_within(w, p.start, p.start + BY, p.len)
    });
    times.changes("copy", true, |v, o, _| v.copy_from(o), |w, p, _| {
        own::copy(w, p.start, p.len, &p.other, p.other_start)
    });
    times.changes("and", true, |v, o, _| *v &= o, |w, p, _| own::and(w, p.start, p.len, &p.other, p.other_start));
    times.changes("or", true, |v, o, _| *v |= o, |w, p, _| own::or(w, p.start, p.len, &p.other, p.other_start));
    times.changes("xor", true, |v, o, _| *v ^= o, |w, p, _| own::xor(w, p.start, p.len, &p.other, p.other_start));
}

fn main() {
    let mut times = Times { same: true };
    reads(&mut times);
    changes(&mut times);
    if !times.same {
        exit(1);
    }
}
