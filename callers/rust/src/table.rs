//! Scripts of the table of packed rows.

use crate::ffi::{self, NO_MEMORY, NO_ROOM, OK};
use std::error::Error;
use std::fmt;

/// How wide the words are that a table lies in.
#[derive(Clone, Copy, Debug, Default, PartialEq, Eq, Hash)]
pub enum WordBits {
    /// Words of 8 bits.
    U8 = 8,
    /// Words of 16 bits.
    U16 = 16,
    /// Words of 32 bits.
    U32 = 32,
    /// Words of 64 bits.
    #[default]
    U64 = 64,
    /// Words of 128 bits.
    U128 = 128,
}

/// Which digit of a word comes first in a table's lists of bits.
#[derive(Clone, Copy, Debug, Default, PartialEq, Eq, Hash)]
pub enum TableOrder {
    /// The lowest.
    #[default]
    Lsb0 = 0,
    /// The highest.
    Msb0 = 1,
    /// As `Lsb0`, with the two halves of each eight digits exchanged.
    HiLo = 2,
}

/// The words that a table lies in. They change no answer.
#[derive(Clone, Copy, Debug, Default, PartialEq, Eq, Hash)]
pub struct TableStorage {
    /// How wide they are.
    pub word_bits: WordBits,
    /// Which digit comes first.
    pub order: TableOrder,
}

/// Why a script's answer is not whole.
#[derive(Clone, Copy, Debug, PartialEq, Eq)]
pub enum TableError {
    /// The answer is longer than the room for it, which was filled with its beginning.
    NoRoom,
    /// Memory was wanted and refused. So many bytes were written, a beginning of the answer.
    NoMemory {
        /// How many bytes were written.
        written: usize,
    },
}

impl fmt::Display for TableError {
    fn fmt(&self, f: &mut fmt::Formatter<'_>) -> fmt::Result {
        match self {
            TableError::NoRoom => f.write_str("the answer is longer than the room for it"),
            TableError::NoMemory { written } => {
                write!(f, "memory was refused after {written} bytes of the answer")
            }
        }
    }
}

impl Error for TableError {}

/// Runs a script over an empty table, and writes its answer to `answer`: how many bytes it has. Those behind them stay.
///
/// # Errors
///
/// The answer is longer than `answer`, or memory was refused.
pub fn run_script_into(
    script: &[u8],
    storage: TableStorage,
    answer: &mut [u8],
) -> Result<usize, TableError> {
    match ffi::bit_table_run(
        storage.word_bits as u32,
        storage.order as u32,
        script,
        answer,
    ) {
        (OK, written) => Ok(written),
        (NO_ROOM, _) => Err(TableError::NoRoom),
        (NO_MEMORY, written) => Err(TableError::NoMemory { written }),
        (status, _) => unreachable!("status {status} of a script over words that there are"),
    }
}

/// Runs a script over an empty table: its answer. The script is run again with twice the room while its answer is longer
/// than the room, which is a page at first, and twice the script where that is more.
///
/// ```
/// let answer = bits::run_script("low a:u3 b:u5\ninsert 0 5 17\nimage\n", Default::default());
/// assert_eq!(answer.unwrap(), b"ok\nok\n1 8d\n");
/// ```
///
/// # Errors
///
/// Memory was refused.
pub fn run_script(script: impl AsRef<[u8]>, storage: TableStorage) -> Result<Vec<u8>, TableError> {
    let script = script.as_ref();
    let mut answer = Vec::new();
    let mut room = script.len().saturating_mul(2).max(4096);
    loop {
        answer
            .try_reserve_exact(room)
            .map_err(|_| TableError::NoMemory { written: 0 })?;
        answer.resize(room, 0);
        match run_script_into(script, storage, &mut answer) {
            Ok(written) => {
                answer.truncate(written);
                return Ok(answer);
            }
            Err(TableError::NoRoom) => room = room.saturating_mul(2),
            Err(error) => return Err(error),
        }
        answer.clear();
    }
}
