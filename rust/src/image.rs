//! Release images: a writer of blocks, and a reader (`docs/IMAGE.md`).

use crate::refusal::Refusal;
use crate::sys;
use crate::wipe::wipe;
use core::fmt;

/// What a block says about itself.
#[derive(Clone, Copy, PartialEq, Eq, Debug)]
pub struct Numbers {
    /// Its number, from 0.
    pub number: u32,
    /// How many blocks the image has, 1 to 65,535.
    pub count: u32,
    /// The release.
    pub release: u32,
    /// The edition, 1 or 2.
    pub edition: u32,
}

/// Seals a payload as one block of an image, into the first 512 bytes of the output.
///
/// The keys have 16, 24 or 32 bytes each and may be equal. The payload has 480 bytes in every block except the last, which has 1 to
/// 480, or 0 to 480 if the count is 1. In edition 2 the block is sealed on the check of the block before, bytes 496 to 511 of that
/// block: pass it as `previous`. It is not used in edition 1, nor for number 0.
///
/// # Errors
///
/// The first that applies of [`KeyLength`](Refusal::KeyLength), [`CountRange`](Refusal::CountRange),
/// [`BlockNumber`](Refusal::BlockNumber), [`PayloadLength`](Refusal::PayloadLength), [`EditionWrong`](Refusal::EditionWrong) and
/// [`OutputShort`](Refusal::OutputShort).
pub fn write(
    encryption_key: &[u8],
    check_key: &[u8],
    numbers: Numbers,
    previous: [u8; 16],
    payload: &[u8],
    output: &mut [u8],
) -> Result<(), Refusal> {
    // SAFETY: pointers and lengths are those of slices, and the output is lent by `&mut`.
    let number = unsafe {
        sys::dock_write(
            encryption_key.as_ptr(),
            encryption_key.len(),
            check_key.as_ptr(),
            check_key.len(),
            numbers.number,
            numbers.count,
            numbers.release,
            numbers.edition,
            sys::Block { bytes: previous },
            payload.as_ptr(),
            payload.len(),
            output.as_mut_ptr(),
            output.len(),
        )
    };
    Refusal::answered(number, ())
}

/// A reader of an image: how far it has come, under two keys.
///
/// A refused block leaves the reader unchanged, so trying again needs no clone. Clone the reader before a turn if you may have to go back,
/// because the payload could not be stored. The key material is overwritten with zeros when the reader or a clone of it is dropped.
#[derive(Clone)]
pub struct Reader(sys::Reader);

/// What a turn did, if it was not refused as a whole.
#[derive(Clone, Copy, PartialEq, Eq, Debug)]
#[must_use = "a turn may stop at a refused block, and says how much of the output is payload"]
pub struct Turn {
    /// The blocks accepted.
    pub accepted: usize,
    /// The sum of their payload lengths. Every block before the last is full, so the payload is in the first bytes of the output.
    pub bytes: usize,
    /// The block that ended the turn, if one was refused.
    pub stop: Option<Stop>,
}

/// A refused block. Nothing has changed, so you may fetch it again and offer it.
#[derive(Clone, Copy, PartialEq, Eq, Debug)]
pub struct Stop {
    /// Its place in the turn, from 0: the number of blocks accepted before it.
    pub place: usize,
    /// Why it was refused.
    pub reason: Refusal,
    /// The number found in it, if the reason is 13 or below.
    pub value: Option<u32>,
}

impl Reader {
    /// A reader that expects block 0. The keys have 16, 24 or 32 bytes each.
    ///
    /// # Errors
    ///
    /// [`KeyLength`](Refusal::KeyLength) if either key has another length.
    pub fn start(encryption_key: &[u8], check_key: &[u8]) -> Result<Reader, Refusal> {
        // SAFETY: pointers and lengths are those of slices.
        let answer = unsafe {
            sys::dock_read_start(
                encryption_key.as_ptr(),
                encryption_key.len(),
                check_key.as_ptr(),
                check_key.len(),
            )
        };
        Refusal::answered(answer.number, Reader(answer.reader))
    }

    /// Reads blocks of 512 bytes, at most as many as asked for (1 to 128), and stops at the first one that is refused.
    ///
    /// The output must have 480 bytes for each block to be handled; the decrypted 480 bytes of block j of the turn go to 480 j. Both
    /// editions are read, and the first block accepted fixes the edition. In edition 2 a block of another build, and one that is
    /// doubled, skipped or out of order, gets 14.
    ///
    /// A refused block is not an error: it is in the turn's [`stop`](Turn::stop), with the first reason that applies of 16, 14, 7, 8, 9,
    /// 10, 12, 13, 15. A turn without a stop does not mean that the release is complete: only [`complete`](Reader::complete) says so.
    ///
    /// # Errors
    ///
    /// The whole turn is refused with the first that applies of [`AskedNumber`](Refusal::AskedNumber),
    /// [`LentLength`](Refusal::LentLength) and [`OutputShort`](Refusal::OutputShort).
    pub fn turn(
        &mut self,
        blocks: &[u8],
        asked: usize,
        output: &mut [u8],
    ) -> Result<Turn, Refusal> {
        // SAFETY: pointers and lengths are those of slices, the output is lent by `&mut`, and any bytes in a reader have an answer.
        let answer = unsafe {
            sys::dock_read_turn(
                self.0,
                blocks.as_ptr(),
                blocks.len(),
                asked,
                output.as_mut_ptr(),
                output.len(),
            )
        };
        self.0 = answer.reader;
        Refusal::answered(answer.number, turn_of(&answer))
    }

    /// Whether the last block has been accepted. Only this says that the release is complete.
    ///
    /// # Errors
    ///
    /// [`NotComplete`](Refusal::NotComplete) before.
    pub fn complete(&self) -> Result<(), Refusal> {
        // SAFETY: the reader is passed by value, and any bytes in it have an answer.
        let number = unsafe { sys::dock_read_complete(self.0) };
        Refusal::answered(number, ())
    }

    /// The bookmark of the reader, which has accepted `bytes` payload bytes: the sum of what its turns gave.
    ///
    /// It holds no key, and may be kept where nothing is trusted: [`resume`](Reader::resume) refuses a damaged one. It says how far the
    /// reader came, and not what the store holds (`docs/IMAGE.md`).
    #[must_use]
    pub fn save(&self, bytes: u64) -> [u8; 56] {
        // SAFETY: the reader is passed by value, and any bytes in it have an answer.
        unsafe { sys::dock_read_save(self.0, bytes) }.bytes
    }

    /// The very reader that a bookmark was saved of, and its payload bytes, under the keys that started it.
    ///
    /// # Errors
    ///
    /// The first that applies of [`KeyLength`](Refusal::KeyLength) and [`NotABookmark`](Refusal::NotABookmark).
    pub fn resume(
        encryption_key: &[u8],
        check_key: &[u8],
        bookmark: &[u8; 56],
    ) -> Result<(Reader, u64), Refusal> {
        // SAFETY: pointers and lengths are those of slices, and any bytes of a bookmark have an answer.
        let answer = unsafe {
            sys::dock_read_resume(
                encryption_key.as_ptr(),
                encryption_key.len(),
                check_key.as_ptr(),
                check_key.len(),
                sys::Bookmark { bytes: *bookmark },
            )
        };
        Refusal::answered(answer.number, (Reader(answer.reader), answer.bytes))
    }

    /// The number of the block expected next.
    #[must_use]
    pub fn expected(&self) -> u32 {
        self.0.progress.next
    }

    /// The count of blocks, once a block has been accepted.
    #[must_use]
    pub fn count(&self) -> Option<u32> {
        Some(self.0.progress.count).filter(|_| self.expected() != 0)
    }

    /// The release, once a block has been accepted.
    #[must_use]
    pub fn release(&self) -> Option<u32> {
        Some(self.0.progress.release).filter(|_| self.expected() != 0)
    }

    /// The edition, 1 or 2, once a block has been accepted.
    #[must_use]
    pub fn edition(&self) -> Option<u32> {
        Some(self.0.progress.edition).filter(|_| self.expected() != 0)
    }

    /// The check of the block accepted last, once a block has been accepted.
    #[must_use]
    pub fn last(&self) -> Option<[u8; 16]> {
        Some(self.0.progress.last).filter(|_| self.expected() != 0)
    }
}

fn turn_of(answer: &sys::TurnAnswer) -> Turn {
    let stop = Refusal::of(answer.reason).map(|reason| Stop {
        place: answer.place,
        reason,
        value: Some(answer.value).filter(|_| reason.holds_value()),
    });
    Turn {
        accepted: answer.accepted,
        bytes: answer.bytes,
        stop,
    }
}

impl Drop for Reader {
    fn drop(&mut self) {
        wipe(&mut self.0, sys::Reader::ZERO);
    }
}

/// Shows how far it has come, and no key material.
impl fmt::Debug for Reader {
    fn fmt(&self, f: &mut fmt::Formatter<'_>) -> fmt::Result {
        f.debug_struct("Reader")
            .field("expected", &self.expected())
            .field("count", &self.count())
            .field("release", &self.release())
            .field("edition", &self.edition())
            .finish_non_exhaustive()
    }
}
