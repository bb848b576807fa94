//! A board as bytes.

use std::fmt::{self, Display, Formatter};

use crate::ffi::{self, State};
use crate::Board;

const MAGIC: [u8; 8] = *b"PILOTBRD";

/// Raised when the library's layout changes so that an older board would be read as another one; the test `layout_is_that_of_the_version` tells.
const VERSION: u32 = 1;

/// Magic, version, words, reals, and 4 bytes that are 0.
const HEAD: usize = 24;

/// Why bytes are no saved board. The board that was to take them is as it was.
///
/// ```
/// use board::{Board, RestoreError};
///
/// let mut board = Board::example();
/// let mut bytes = board.save();
/// bytes[100] ^= 1;
/// assert_eq!(board.restore(&bytes), Err(RestoreError::Checksum));
/// assert_eq!(board.restore(b"GIF89a.."), Err(RestoreError::Magic));
/// assert_eq!(board.restore(&bytes[..20]), Err(RestoreError::Length { given: 20, wanted: bytes.len() }));
/// ```
#[derive(Clone, Copy, Debug, PartialEq, Eq, Hash)]
#[non_exhaustive]
pub enum RestoreError {
    /// They do not begin as a saved board does.
    Magic,
    /// They were saved by another version.
    Version {
        /// The version that saved them.
        given: u32,
        /// This one.
        wanted: u32,
    },
    /// They were saved over a library with another layout.
    Layout {
        /// Words and floats of that library.
        given: (u32, u32),
        /// Of this one.
        wanted: (u32, u32),
    },
    /// They are too few or too many.
    Length {
        /// Bytes given.
        given: usize,
        /// Bytes of a saved board.
        wanted: usize,
    },
    /// They were changed.
    Checksum,
}

impl Display for RestoreError {
    fn fmt(&self, f: &mut Formatter) -> fmt::Result {
        match self {
            RestoreError::Magic => f.write_str("no saved board"),
            RestoreError::Version { given, wanted } => write!(f, "a board saved by version {given}, this is version {wanted}"),
            RestoreError::Layout { given, wanted } => {
                write!(f, "a board of {} words and {} floats, the library has {} and {}", given.0, given.1, wanted.0, wanted.1)
            }
            RestoreError::Length { given, wanted } => write!(f, "{given} bytes, a saved board has {wanted}"),
            RestoreError::Checksum => f.write_str("a saved board that was changed"),
        }
    }
}

impl std::error::Error for RestoreError {}

impl Board {
    /// The board as bytes, some 44 KB: everything but the entries of the last call.
    ///
    /// All numbers are little-endian: the 8 bytes `PILOTBRD`, the version, the numbers of words and floats and a 0, in 4 bytes each; the library's
    /// words and the bits of its floats, in 8 bytes each; FNV-1a of all that, in 64 bits. The check sum is against accidents, not against forgers.
    ///
    /// ```
    /// use board::{Board, Reg, TimerIndex};
    ///
    /// let tim2 = TimerIndex(0);
    /// let mut board = Board::example();
    /// board.write_reg(tim2, Reg::Cr1, 1, 100)?;
    /// let bytes = board.save();
    ///
    /// let mut other = Board::new(64);
    /// other.restore(&bytes).unwrap();
    /// assert_eq!((other.last_cycle(), other.read_reg(tim2, Reg::Cnt, 107)?), (100, 7));
    /// # Ok::<(), board::Error>(())
    /// ```
    pub fn save(&self) -> Vec<u8> {
        let mut bytes = Vec::with_capacity(wanted());
        bytes.extend(MAGIC);
        for n in [VERSION, ffi::words() as u32, ffi::reals() as u32, 0] {
            bytes.extend(n.to_le_bytes());
        }
        let reals = self.state().reals().iter().map(|x| x.to_bits());
        bytes.extend(self.state().words().iter().copied().chain(reals).flat_map(u64::to_le_bytes));
        let sum = checksum(&bytes);
        bytes.extend(sum.to_le_bytes());
        bytes
    }

    /// Takes over a saved board. The book stays this board's own; refused, the board stays as it was.
    ///
    /// Every content is a board to the library, so bytes with a right check sum are safe to take whoever made them; whether they are a board
    /// that calls lead to, of which the proofs speak, their maker has to know.
    ///
    /// ```
    /// use board::{Board, RestoreError};
    ///
    /// let bytes = Board::example().save();
    /// let mut board = Board::new(64);
    /// assert_eq!(board.restore(&bytes), Ok(()));
    /// assert_eq!(board.timers().count(), 2);
    /// ```
    pub fn restore(&mut self, bytes: &[u8]) -> Result<(), RestoreError> {
        let length = Err(RestoreError::Length { given: bytes.len(), wanted: wanted() });
        if !bytes.starts_with(&MAGIC) {
            return Err(RestoreError::Magic);
        }
        if bytes.len() < HEAD {
            return length;
        }
        let head = |i: usize| u32::from_le_bytes([bytes[i], bytes[i + 1], bytes[i + 2], bytes[i + 3]]);
        if head(8) != VERSION {
            return Err(RestoreError::Version { given: head(8), wanted: VERSION });
        }
        let (given, here) = ((head(12), head(16)), (ffi::words() as u32, ffi::reals() as u32));
        if given != here {
            return Err(RestoreError::Layout { given, wanted: here });
        }
        if bytes.len() != wanted() {
            return length;
        }
        let (content, sum) = bytes.split_at(bytes.len() - 8);
        if sum != checksum(content).to_le_bytes() {
            return Err(RestoreError::Checksum);
        }
        let mut numbers = content[HEAD..].chunks_exact(8).map(|c| c.iter().rev().fold(0, |n, &b| n << 8 | b as u64));
        let words = numbers.by_ref().take(ffi::words()).collect();
        let reals = numbers.map(f64::from_bits).collect();
        match State::of(words, reals) {
            Some(state) => self.set_state(state),
            None => return length,
        }
        Ok(())
    }
}

/// The length of a saved board.
fn wanted() -> usize {
    HEAD + 8 * (ffi::words() + ffi::reals()) + 8
}

/// FNV-1a in 64 bits. A single changed byte always changes it: each step is one to one.
fn checksum(bytes: &[u8]) -> u64 {
    bytes.iter().fold(0xcbf2_9ce4_8422_2325, |h, &b| (h ^ b as u64).wrapping_mul(0x100_0000_01b3))
}
