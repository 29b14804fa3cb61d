//! Lists of bits that lie in words of memory, read and written by windows.
//!
//! [`Bits`] and [`BitsMut`] are windows over a slice of `u64` or `u8`, whose first bit is the lowest digit of a word
//! ([`Lsb0`]) or the highest ([`Msb0`]). Each call is one of the library `libbits`, whose code is proved right; this
//! crate over it is only tested.
//!
//! ```
//! use bits::{BitsMut, Lsb0};
//!
//! let mut words = [0u64; 2];
//! let mut bits = BitsMut::<u64, Lsb0>::new(&mut words);
//! bits.window(60..68).unwrap().fill(true);
//! assert_eq!(bits.as_bits().count_ones(), 8);
//! bits.window(62..67).unwrap().store(0b10010).unwrap();
//! assert_eq!(bits.as_bits().window(62..67).unwrap().load(), Ok(0b10010));
//! assert_eq!(words, [0b1011 << 60, 0b1100]);
//! ```
//!
//! [`run_script`] runs a script of the table of packed rows.
#![deny(missing_docs, unsafe_code)]

mod bits;
#[allow(unsafe_code)]
mod ffi;
mod table;

pub use bits::{Bits, BitsMut, Lsb0, Msb0, Storage, WidthError};
pub use table::{run_script, run_script_into, TableError, TableOrder, TableStorage, WordBits};
