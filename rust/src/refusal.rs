//! The numbered refusals.

use core::fmt;

/// Why a call was not carried out.
#[derive(Clone, Copy, PartialEq, Eq, Hash, Debug)]
#[non_exhaustive]
pub enum Refusal {
    /// 1: a key is not 16, 24 or 32 bytes.
    KeyLength,
    /// 2: the IV is not empty in ECB, or not 16 bytes in another mode.
    IvLength,
    /// 3: the input of ECB, CBC or CFB is not a multiple of 16 bytes.
    InputLength,
    /// 4: the output is too short for the result.
    OutputShort,
    /// 5: the number of blocks asked for is not 1 to 128.
    AskedNumber,
    /// 6: the bytes lent are not whole blocks of 512.
    LentLength,
    /// 7: the count is not 1 to 65,535.
    CountRange,
    /// 8: the block is not the one expected; writer: its number is not below the count.
    BlockNumber,
    /// 9: the count is not that of the first block accepted, or not the one the receiver was told.
    CountDiffers,
    /// 10: the release is not that of the first block accepted, or not the one the receiver was told.
    ReleaseDiffers,
    /// 12: the payload length is wrong for its place.
    PayloadLength,
    /// 13: bytes 14 and 15 are neither 0 nor 2, or not those of the edition of the first block accepted; writer: the edition is not 1
    /// or 2.
    EditionWrong,
    /// 14: the check is wrong, of a block or of a message that is [verified](crate::verify); in edition 2 also: the block was sealed on
    /// a check other than the one accepted last.
    CheckWrong,
    /// 15: the decrypted bytes after the payload are not zero.
    FillNotZero,
    /// 16: a block is offered after the last.
    AfterLast,
    /// 17: the last block has not been accepted.
    NotComplete,
    /// 18: wrong length: wrapping takes 16 to 64 bytes, unwrapping 24 to 72, in multiples of 8.
    WrapLength,
    /// 19: the data was not wrapped under this key.
    InitialValue,
    /// 20: a place or number is not below the count.
    NotBelowCount,
    /// 21: the block is held already.
    AlreadyHeld,
    /// 23: a length is outside the profile: nonce 13 bytes, associated data up to 64, message up to 1,024, then a tag of 8.
    CcmLength,
    /// 24: the tag is wrong: not sealed under this key, nonce and associated data.
    CcmTag,
    /// 25: not a bookmark under this check key.
    NotABookmark,
    /// A number that this edition of the wrapper has no name for.
    Other(u32),
}

use Refusal::*;

/// Each with its number and what it says. No call answers 11.
const NAMED: [(u32, Refusal, &str); 23] = [
    (1, KeyLength, "a key is not 16, 24 or 32 bytes"),
    (2, IvLength, "the IV has a wrong length for the mode"),
    (3, InputLength, "the input is not a multiple of 16 bytes"),
    (4, OutputShort, "the output is too short"),
    (
        5,
        AskedNumber,
        "the number of blocks asked for is not 1 to 128",
    ),
    (6, LentLength, "the bytes are not whole blocks of 512"),
    (7, CountRange, "the count is not 1 to 65,535"),
    (8, BlockNumber, "the number of the block is wrong"),
    (9, CountDiffers, "the count is not that of the first block"),
    (
        10,
        ReleaseDiffers,
        "the release is not that of the first block",
    ),
    (
        12,
        PayloadLength,
        "the payload length is wrong for its place",
    ),
    (13, EditionWrong, "the edition is wrong"),
    (14, CheckWrong, "the check is wrong"),
    (15, FillNotZero, "the fill is not zero"),
    (16, AfterLast, "the block comes after the last"),
    (17, NotComplete, "the last block has not been accepted"),
    (18, WrapLength, "the data has a wrong length"),
    (19, InitialValue, "the data was not wrapped under this key"),
    (
        20,
        NotBelowCount,
        "a place or number is not below the count",
    ),
    (21, AlreadyHeld, "the block is held already"),
    (23, CcmLength, "a length is outside the profile"),
    (24, CcmTag, "the tag is wrong"),
    (25, NotABookmark, "not a bookmark under this check key"),
];

impl Refusal {
    /// The number of the refusal in `docs/REFUSALS.md`.
    #[must_use]
    pub fn number(self) -> u32 {
        match self {
            Other(number) => number,
            named => NAMED
                .iter()
                .find(|(_, refusal, _)| *refusal == named)
                .map_or(0, |(number, _, _)| *number),
        }
    }

    /// Whether a block that is refused for this reason is shown with the value found.
    pub(crate) fn holds_value(self) -> bool {
        (CountRange.number()..=EditionWrong.number()).contains(&self.number())
    }

    /// The refusal of a number; 0 is none.
    pub(crate) fn of(number: u32) -> Option<Refusal> {
        if number == 0 {
            return None;
        }
        let named = NAMED.iter().find(|(n, _, _)| *n == number);
        Some(named.map_or(Other(number), |(_, refusal, _)| *refusal))
    }

    /// What a call answered.
    pub(crate) fn answered<T>(number: u32, result: T) -> Result<T, Refusal> {
        match Refusal::of(number) {
            None => Ok(result),
            Some(refusal) => Err(refusal),
        }
    }
}

impl fmt::Display for Refusal {
    fn fmt(&self, f: &mut fmt::Formatter<'_>) -> fmt::Result {
        let words = NAMED.iter().find(|(_, refusal, _)| refusal == self);
        let words = words.map_or("a number without a name", |(_, _, words)| words);
        write!(f, "refusal {}: {words}", self.number())
    }
}

/// The build script says where the compiler has it, from Rust 1.81 on.
#[cfg(dock_core_error)]
impl core::error::Error for Refusal {}
