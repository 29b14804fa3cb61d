//! Windows of bits, to be read and to be written.

use crate::ffi::{Calls, BAD_WIDTH, NONE, OK};
use std::cmp::Ordering;
use std::error::Error;
use std::fmt;
use std::marker::PhantomData;
use std::ops::{BitAndAssign, BitOrAssign, BitXorAssign, Bound, RangeBounds};

/// The order in which bit 0 of a word is its lowest digit.
#[derive(Clone, Copy, Debug, PartialEq, Eq, Hash)]
pub struct Lsb0;

/// The order in which bit 0 of a word is its highest digit.
#[derive(Clone, Copy, Debug, PartialEq, Eq, Hash)]
pub struct Msb0;

/// Words whose bits lie in the order `O`: `u64` and `u8`, in [`Lsb0`] and [`Msb0`]. No other type can be one.
pub trait Storage<O>: Calls<O> {}

impl<W: Calls<O>, O> Storage<O> for W {}

/// A number was to be read from or written over a window of no bits, or of more than 64.
#[derive(Clone, Copy, Debug, PartialEq, Eq)]
pub struct WidthError {
    /// How many bits the window has.
    pub len: usize,
}

impl fmt::Display for WidthError {
    fn fmt(&self, f: &mut fmt::Formatter<'_>) -> fmt::Result {
        write!(f, "a number of {} bits: it may have 1 to 64", self.len)
    }
}

impl Error for WidthError {}

/// A window of bits to be read.
///
/// Two are compared as lists of bits: the first place where they differ decides, and a list comes before one that it is
/// the beginning of.
///
/// ```
/// use bits::{Bits, Msb0};
///
/// let bytes = [0x12, 0x34, 0x56];
/// let bits = Bits::<u8, Msb0>::new(&bytes);
/// assert_eq!(bits.window(4..20).unwrap().load(), Ok(0x2345));
/// assert_eq!(bits.get(3), Some(true));
/// assert_eq!(bits.get(24), None);
/// assert!(bits.window(20..25).is_none());
/// assert!(bits.window(..4).unwrap() < bits.window(8..12).unwrap());
/// ```
pub struct Bits<'a, W, O> {
    words: &'a [W],
    start: usize,
    len: usize,
    order: PhantomData<O>,
}

impl<W, O> Clone for Bits<'_, W, O> {
    fn clone(&self) -> Self {
        *self
    }
}

impl<W, O> Copy for Bits<'_, W, O> {}

impl<'a, W: Storage<O>, O> Bits<'a, W, O> {
    /// All bits of these words.
    pub fn new(words: &'a [W]) -> Self {
        Bits {
            words,
            start: 0,
            len: all_of(words),
            order: PhantomData,
        }
    }

    /// How many bits it has.
    pub fn len(&self) -> usize {
        self.len
    }

    /// Whether it has no bits.
    pub fn is_empty(&self) -> bool {
        self.len == 0
    }

    /// The bits of a range, or `None` where they do not all lie in this window.
    pub fn window(&self, range: impl RangeBounds<usize>) -> Option<Bits<'a, W, O>> {
        let (start, len) = part(self.len, range)?;
        Some(Bits {
            start: self.start + start,
            len,
            ..*self
        })
    }

    /// A bit, or `None` where there is none at this index.
    pub fn get(&self, index: usize) -> Option<bool> {
        if index >= self.len {
            return None;
        }
        let mut bit = 0;
        done(W::get(self.words, self.start + index, &mut bit));
        Some(bit == 1)
    }

    /// How many bits are 1.
    pub fn count_ones(&self) -> usize {
        let mut ones = 0;
        done(W::count_ones(self.words, self.start, self.len, &mut ones));
        ones
    }

    /// The index of the first 1, if there is one.
    pub fn first_one(&self) -> Option<usize> {
        self.found(W::first_one)
    }

    /// The index of the last 1, if there is one.
    pub fn last_one(&self) -> Option<usize> {
        self.found(W::last_one)
    }

    /// The index of the first 0, if there is one.
    pub fn first_zero(&self) -> Option<usize> {
        self.found(W::first_zero)
    }

    /// The index of the last 0, if there is one.
    pub fn last_zero(&self) -> Option<usize> {
        self.found(W::last_zero)
    }

    fn found(&self, call: fn(&[W], usize, usize, &mut usize) -> u32) -> Option<usize> {
        let mut index = 0;
        let status = call(self.words, self.start, self.len, &mut index);
        if status == NONE {
            return None;
        }
        done(status);
        Some(index)
    }

    /// Whether a bit is 1; of no bits, `false`.
    pub fn any(&self) -> bool {
        let mut answer = 0;
        done(W::any(self.words, self.start, self.len, &mut answer));
        answer == 1
    }

    /// Whether each bit is 1; of no bits, `true`.
    pub fn all(&self) -> bool {
        let mut answer = 0;
        done(W::all(self.words, self.start, self.len, &mut answer));
        answer == 1
    }

    /// The whole number without sign that the window holds. Its first bit is the lowest digit under [`Lsb0`], and the
    /// highest under [`Msb0`].
    ///
    /// # Errors
    ///
    /// The window has no bits, or more than 64.
    pub fn load(&self) -> Result<u64, WidthError> {
        let mut value = 0;
        width(
            W::load(self.words, self.start, self.len, &mut value),
            self.len,
        )?;
        Ok(value)
    }

    /// The whole number that the window holds in two's complement of as many digits. Its first bit is the lowest digit
    /// under [`Lsb0`], and the highest under [`Msb0`].
    ///
    /// # Errors
    ///
    /// The window has no bits, or more than 64.
    pub fn load_signed(&self) -> Result<i64, WidthError> {
        let mut value = 0;
        width(
            W::load_signed(self.words, self.start, self.len, &mut value),
            self.len,
        )?;
        Ok(value)
    }
}

impl<W: Storage<O>, O> PartialEq for Bits<'_, W, O> {
    fn eq(&self, other: &Self) -> bool {
        let mut answer = 0;
        let (window, with) = ((self.start, self.len), (other.start, other.len));
        done(W::equal(self.words, window, other.words, with, &mut answer));
        answer == 1
    }
}

impl<W: Storage<O>, O> Eq for Bits<'_, W, O> {}

impl<W: Storage<O>, O> Ord for Bits<'_, W, O> {
    fn cmp(&self, other: &Self) -> Ordering {
        let mut order = 0;
        let (window, with) = ((self.start, self.len), (other.start, other.len));
        done(W::compare(
            self.words,
            window,
            other.words,
            with,
            &mut order,
        ));
        order.cmp(&0)
    }
}

impl<W: Storage<O>, O> PartialOrd for Bits<'_, W, O> {
    fn partial_cmp(&self, other: &Self) -> Option<Ordering> {
        Some(self.cmp(other))
    }
}

/// Writes the bits as a list of 0 and 1.
impl<W: Storage<O>, O> fmt::Debug for Bits<'_, W, O> {
    fn fmt(&self, f: &mut fmt::Formatter<'_>) -> fmt::Result {
        f.debug_list()
            .entries(
                (0..self.len)
                    .filter_map(|index| self.get(index))
                    .map(u8::from),
            )
            .finish()
    }
}

/// A window of bits to be written. No call changes a bit outside it.
///
/// `&=`, `|=` and `^=` combine it with a window of as many bits, bit by bit, and panic where that has more or fewer.
///
/// ```
/// use bits::{Bits, BitsMut, Lsb0};
///
/// let mut bytes = [0b0111_1000, 0];
/// let mut bits = BitsMut::<u8, Lsb0>::new(&mut bytes);
/// let mut four = bits.window(3..7).unwrap();
/// four ^= Bits::new(&[0b0101]).window(..4).unwrap();
/// assert_eq!(bytes, [0b0101_0000, 0]);
/// ```
pub struct BitsMut<'a, W, O> {
    words: &'a mut [W],
    start: usize,
    len: usize,
    order: PhantomData<O>,
}

impl<'a, W: Storage<O>, O> BitsMut<'a, W, O> {
    /// All bits of these words.
    pub fn new(words: &'a mut [W]) -> Self {
        let len = all_of(words);
        BitsMut {
            words,
            start: 0,
            len,
            order: PhantomData,
        }
    }

    /// The same window to be read.
    pub fn as_bits(&self) -> Bits<'_, W, O> {
        Bits {
            words: self.words,
            start: self.start,
            len: self.len,
            order: PhantomData,
        }
    }

    /// How many bits it has.
    pub fn len(&self) -> usize {
        self.len
    }

    /// Whether it has no bits.
    pub fn is_empty(&self) -> bool {
        self.len == 0
    }

    /// A bit, or `None` where there is none at this index.
    pub fn get(&self, index: usize) -> Option<bool> {
        self.as_bits().get(index)
    }

    /// The bits of a range, to be written, or `None` where they do not all lie in this window.
    pub fn window(&mut self, range: impl RangeBounds<usize>) -> Option<BitsMut<'_, W, O>> {
        let (start, len) = part(self.len, range)?;
        Some(BitsMut {
            words: self.words,
            start: self.start + start,
            len,
            order: PhantomData,
        })
    }

    /// Writes one bit.
    ///
    /// # Panics
    ///
    /// There is none at this index.
    pub fn set(&mut self, index: usize, bit: bool) {
        assert!(
            index < self.len,
            "index {index} is not below the length {}",
            self.len
        );
        done(W::set(self.words, self.start + index, bit));
    }

    /// Makes each bit `bit`.
    pub fn fill(&mut self, bit: bool) {
        done(W::fill(self.words, self.start, self.len, bit));
    }

    /// Turns each bit: 0 becomes 1, 1 becomes 0.
    #[doc(alias = "not")]
    pub fn invert(&mut self) {
        done(W::not(self.words, self.start, self.len));
    }

    /// Puts the bits in reverse.
    pub fn reverse(&mut self) {
        done(W::reverse(self.words, self.start, self.len));
    }

    /// Turns the window: the first `by` bits become the last.
    ///
    /// # Panics
    ///
    /// It has fewer than `by` bits.
    pub fn rotate_left(&mut self, by: usize) {
        assert!(by <= self.len, "a turn by {by} of {} bits", self.len);
        done(W::rotate_left(self.words, self.start, self.len, by));
    }

    /// Turns the window: the last `by` bits become the first.
    ///
    /// # Panics
    ///
    /// It has fewer than `by` bits.
    pub fn rotate_right(&mut self, by: usize) {
        assert!(by <= self.len, "a turn by {by} of {} bits", self.len);
        done(W::rotate_right(self.words, self.start, self.len, by));
    }

    /// Writes the bits of a range, as they were, over those from `to` on. The two may overlap.
    ///
    /// # Panics
    ///
    /// One of them does not lie in this window.
    #[doc(alias = "move")]
    pub fn copy_within(&mut self, range: impl RangeBounds<usize>, to: usize) {
        let (from, len) = part(self.len, range).expect("the bits to be copied lie in the window");
        assert!(
            to <= self.len - len,
            "{len} bits from {to} on do not lie in a window of {}",
            self.len
        );
        done(W::move_within(
            self.words,
            self.start + from,
            self.start + to,
            len,
        ));
    }

    /// Writes the bits of another window of as many bits over those of this one.
    ///
    /// # Panics
    ///
    /// The lengths differ.
    pub fn copy_from(&mut self, other: Bits<'_, W, O>) {
        self.combine(W::copy, other);
    }

    fn combine(
        &mut self,
        call: fn(&mut [W], usize, usize, &[W], usize) -> u32,
        other: Bits<'_, W, O>,
    ) {
        assert_eq!(
            self.len, other.len,
            "two windows of the same number of bits"
        );
        done(call(
            self.words,
            self.start,
            self.len,
            other.words,
            other.start,
        ));
    }

    /// Writes the number's lowest digits over the window, as many as it has bits, in the order in which
    /// [`load`](Bits::load) reads them. Higher digits are left out.
    ///
    /// # Errors
    ///
    /// The window has no bits, or more than 64; then nothing is written.
    pub fn store(&mut self, value: u64) -> Result<(), WidthError> {
        width(W::store(self.words, self.start, self.len, value), self.len)
    }

    /// Writes the lowest digits of the number in two's complement over the window, as many as it has bits, in the order
    /// in which [`load_signed`](Bits::load_signed) reads them. Higher digits are left out.
    ///
    /// # Errors
    ///
    /// The window has no bits, or more than 64; then nothing is written.
    pub fn store_signed(&mut self, value: i64) -> Result<(), WidthError> {
        width(
            W::store_signed(self.words, self.start, self.len, value),
            self.len,
        )
    }
}

impl<W: Storage<O>, O> BitAndAssign<Bits<'_, W, O>> for BitsMut<'_, W, O> {
    fn bitand_assign(&mut self, other: Bits<'_, W, O>) {
        self.combine(W::and, other);
    }
}

impl<W: Storage<O>, O> BitOrAssign<Bits<'_, W, O>> for BitsMut<'_, W, O> {
    fn bitor_assign(&mut self, other: Bits<'_, W, O>) {
        self.combine(W::or, other);
    }
}

impl<W: Storage<O>, O> BitXorAssign<Bits<'_, W, O>> for BitsMut<'_, W, O> {
    fn bitxor_assign(&mut self, other: Bits<'_, W, O>) {
        self.combine(W::xor, other);
    }
}

/// Writes the bits as a list of 0 and 1.
impl<W: Storage<O>, O> fmt::Debug for BitsMut<'_, W, O> {
    fn fmt(&self, f: &mut fmt::Formatter<'_>) -> fmt::Result {
        self.as_bits().fmt(f)
    }
}

fn all_of<W: Storage<O>, O>(words: &[W]) -> usize {
    words
        .len()
        .checked_mul(W::BITS)
        .expect("no memory has so many bits")
}

/// Start and length of a range in a window of `len` bits.
fn part(len: usize, range: impl RangeBounds<usize>) -> Option<(usize, usize)> {
    let start = match range.start_bound() {
        Bound::Included(&start) => start,
        Bound::Excluded(&before) => before.checked_add(1)?,
        Bound::Unbounded => 0,
    };
    let end = match range.end_bound() {
        Bound::Included(&last) => last.checked_add(1)?,
        Bound::Excluded(&end) => end,
        Bound::Unbounded => len,
    };
    (start <= end && end <= len).then(|| (start, end - start))
}

/// A window lies in its words, so the library does what it is asked.
#[inline]
fn done(status: u32) {
    assert_eq!(status, OK, "the status of a call on a window of its words");
}

#[inline]
fn width(status: u32, len: usize) -> Result<(), WidthError> {
    if status == BAD_WIDTH {
        return Err(WidthError { len });
    }
    done(status);
    Ok(())
}
