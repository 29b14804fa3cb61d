//! The calls of the library as `include/bits.h` declares them, and nothing else that is unsafe.
//!
//! Of what that header asks of a caller, slices uphold the pointers, lengths and alignment, and the borrows that no other
//! memory is written or read meanwhile. No pointer of a slice is null, one of no items neither.

use crate::{Lsb0, Msb0};

pub(crate) const OK: u32 = 0;
pub(crate) const NONE: u32 = 2;
pub(crate) const BAD_WIDTH: u32 = 3;
pub(crate) const NO_ROOM: u32 = 4;
pub(crate) const NO_MEMORY: u32 = 5;

/// The 25 calls on words of one type in one order. Each returns the library's status.
pub trait Calls<O>: Copy + 'static {
    const BITS: usize;

    fn get(words: &[Self], index: usize, bit: &mut u8) -> u32;
    fn set(words: &mut [Self], index: usize, bit: bool) -> u32;
    fn count_ones(words: &[Self], start: usize, len: usize, ones: &mut usize) -> u32;
    fn first_one(words: &[Self], start: usize, len: usize, index: &mut usize) -> u32;
    fn last_one(words: &[Self], start: usize, len: usize, index: &mut usize) -> u32;
    fn first_zero(words: &[Self], start: usize, len: usize, index: &mut usize) -> u32;
    fn last_zero(words: &[Self], start: usize, len: usize, index: &mut usize) -> u32;
    fn any(words: &[Self], start: usize, len: usize, answer: &mut u8) -> u32;
    fn all(words: &[Self], start: usize, len: usize, answer: &mut u8) -> u32;
    fn equal(
        words: &[Self],
        window: (usize, usize),
        other: &[Self],
        with: (usize, usize),
        answer: &mut u8,
    ) -> u32;
    fn compare(
        words: &[Self],
        window: (usize, usize),
        other: &[Self],
        with: (usize, usize),
        order: &mut i32,
    ) -> u32;
    fn load(words: &[Self], start: usize, len: usize, value: &mut u64) -> u32;
    fn load_signed(words: &[Self], start: usize, len: usize, value: &mut i64) -> u32;
    fn store(words: &mut [Self], start: usize, len: usize, value: u64) -> u32;
    fn store_signed(words: &mut [Self], start: usize, len: usize, value: i64) -> u32;
    fn fill(words: &mut [Self], start: usize, len: usize, bit: bool) -> u32;
    fn not(words: &mut [Self], start: usize, len: usize) -> u32;
    fn reverse(words: &mut [Self], start: usize, len: usize) -> u32;
    fn rotate_left(words: &mut [Self], start: usize, len: usize, by: usize) -> u32;
    fn rotate_right(words: &mut [Self], start: usize, len: usize, by: usize) -> u32;
    fn move_within(words: &mut [Self], from: usize, to: usize, len: usize) -> u32;
    fn copy(
        words: &mut [Self],
        start: usize,
        len: usize,
        other: &[Self],
        other_start: usize,
    ) -> u32;
    fn and(words: &mut [Self], start: usize, len: usize, other: &[Self], other_start: usize)
        -> u32;
    fn or(words: &mut [Self], start: usize, len: usize, other: &[Self], other_start: usize) -> u32;
    fn xor(words: &mut [Self], start: usize, len: usize, other: &[Self], other_start: usize)
        -> u32;
}

/// A call that reads a window and answers through a pointer.
macro_rules! reads {
    ($word:ty, $symbol:expr, $name:ident, $answer:ty) => {
        #[inline]
        fn $name(words: &[$word], start: usize, len: usize, answer: &mut $answer) -> u32 {
            extern "C" {
                #[link_name = $symbol]
                fn call(
                    words: *const $word,
                    count: usize,
                    start: usize,
                    len: usize,
                    answer: *mut $answer,
                ) -> u32;
            }
            // SAFETY: the words are those of a slice, and the answer is lent to be written.
            unsafe { call(words.as_ptr(), words.len(), start, len, answer) }
        }
    };
}

/// A call that reads two windows.
macro_rules! compares {
    ($word:ty, $symbol:expr, $name:ident, $answer:ty) => {
        #[inline]
        fn $name(
            words: &[$word],
            (start, len): (usize, usize),
            other: &[$word],
            (other_start, other_len): (usize, usize),
            answer: &mut $answer,
        ) -> u32 {
            extern "C" {
                #[link_name = $symbol]
                fn call(
                    words: *const $word,
                    count: usize,
                    start: usize,
                    len: usize,
                    other: *const $word,
                    other_count: usize,
                    other_start: usize,
                    other_len: usize,
                    answer: *mut $answer,
                ) -> u32;
            }
            let (at, count) = (words.as_ptr(), words.len());
            // SAFETY: the words are those of two slices, and the answer is lent to be written.
            unsafe {
                call(
                    at,
                    count,
                    start,
                    len,
                    other.as_ptr(),
                    other.len(),
                    other_start,
                    other_len,
                    answer,
                )
            }
        }
    };
}

/// A call that writes a window, with one more argument or none.
macro_rules! writes {
    ($word:ty, $symbol:expr, $name:ident $(, $given:ident: $type:ty)?) => {
        #[inline]
        fn $name(words: &mut [$word], start: usize, len: usize $(, $given: $type)?) -> u32 {
            extern "C" {
                #[link_name = $symbol]
                fn call(words: *mut $word, count: usize, start: usize, len: usize $(, $given: $type)?) -> u32;
            }
            // SAFETY: the words are those of a slice that is lent to be written.
            unsafe { call(words.as_mut_ptr(), words.len(), start, len $(, $given)?) }
        }
    };
}

/// A call that writes a window by one of another memory.
macro_rules! combines {
    ($word:ty, $symbol:expr, $name:ident) => {
        #[inline]
        fn $name(
            words: &mut [$word],
            start: usize,
            len: usize,
            other: &[$word],
            other_start: usize,
        ) -> u32 {
            extern "C" {
                #[link_name = $symbol]
                fn call(
                    words: *mut $word,
                    count: usize,
                    start: usize,
                    len: usize,
                    other: *const $word,
                    other_count: usize,
                    other_start: usize,
                ) -> u32;
            }
            let (at, count) = (words.as_mut_ptr(), words.len());
            // SAFETY: the words are those of two slices, one lent to be written, so the other shares no byte with it.
            unsafe {
                call(
                    at,
                    count,
                    start,
                    len,
                    other.as_ptr(),
                    other.len(),
                    other_start,
                )
            }
        }
    };
}

macro_rules! storage {
    ($word:ident, $order:ident, $prefix:literal) => {
        impl Calls<$order> for $word {
            const BITS: usize = $word::BITS as usize;

            #[inline]
            fn get(words: &[$word], index: usize, bit: &mut u8) -> u32 {
                extern "C" {
                    #[link_name = concat!($prefix, "get")]
                    fn call(words: *const $word, count: usize, index: usize, bit: *mut u8) -> u32;
                }
                // SAFETY: the words are those of a slice, and the bit is lent to be written.
                unsafe { call(words.as_ptr(), words.len(), index, bit) }
            }

            #[inline]
            fn set(words: &mut [$word], index: usize, bit: bool) -> u32 {
                extern "C" {
                    #[link_name = concat!($prefix, "set")]
                    fn call(words: *mut $word, count: usize, index: usize, bit: bool) -> u32;
                }
                // SAFETY: the words are those of a slice that is lent to be written.
                unsafe { call(words.as_mut_ptr(), words.len(), index, bit) }
            }

            #[inline]
            fn move_within(words: &mut [$word], from: usize, to: usize, len: usize) -> u32 {
                extern "C" {
                    #[link_name = concat!($prefix, "move")]
                    fn call(words: *mut $word, count: usize, from: usize, to: usize, len: usize) -> u32;
                }
                // SAFETY: the words are those of a slice that is lent to be written.
                unsafe { call(words.as_mut_ptr(), words.len(), from, to, len) }
            }

            reads!($word, concat!($prefix, "count_ones"), count_ones, usize);
            reads!($word, concat!($prefix, "first_one"), first_one, usize);
            reads!($word, concat!($prefix, "last_one"), last_one, usize);
            reads!($word, concat!($prefix, "first_zero"), first_zero, usize);
            reads!($word, concat!($prefix, "last_zero"), last_zero, usize);
            reads!($word, concat!($prefix, "any"), any, u8);
            reads!($word, concat!($prefix, "all"), all, u8);
            compares!($word, concat!($prefix, "equal"), equal, u8);
            compares!($word, concat!($prefix, "compare"), compare, i32);
            reads!($word, concat!($prefix, "load"), load, u64);
            reads!($word, concat!($prefix, "load_signed"), load_signed, i64);
            writes!($word, concat!($prefix, "store"), store, value: u64);
            writes!($word, concat!($prefix, "store_signed"), store_signed, value: i64);
            writes!($word, concat!($prefix, "fill"), fill, bit: bool);
            writes!($word, concat!($prefix, "not"), not);
            writes!($word, concat!($prefix, "reverse"), reverse);
            writes!($word, concat!($prefix, "rotate_left"), rotate_left, by: usize);
            writes!($word, concat!($prefix, "rotate_right"), rotate_right, by: usize);
            combines!($word, concat!($prefix, "copy"), copy);
            combines!($word, concat!($prefix, "and"), and);
            combines!($word, concat!($prefix, "or"), or);
            combines!($word, concat!($prefix, "xor"), xor);
        }
    };
}

storage!(u64, Lsb0, "bits_u64_lsb0_");
storage!(u64, Msb0, "bits_u64_msb0_");
storage!(u8, Lsb0, "bits_u8_lsb0_");
storage!(u8, Msb0, "bits_u8_msb0_");

/// Runs a script: the status, and how many bytes of the answer were written.
pub(crate) fn bit_table_run(
    word_bits: u32,
    order: u32,
    script: &[u8],
    answer: &mut [u8],
) -> (u32, usize) {
    extern "C" {
        #[link_name = "bit_table_run"]
        fn call(
            word_bits: u32,
            order: u32,
            script: *const u8,
            script_len: usize,
            answer: *mut u8,
            answer_len: usize,
            written: *mut usize,
        ) -> u32;
    }
    let mut written = 0;
    let (at, room) = (answer.as_mut_ptr(), answer.len());
    // SAFETY: script and answer are slices, the answer lent to be written, and `written` is a place of its own.
    let status = unsafe {
        call(
            word_bits,
            order,
            script.as_ptr(),
            script.len(),
            at,
            room,
            &mut written,
        )
    };
    (status, written)
}
