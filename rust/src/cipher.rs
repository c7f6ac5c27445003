//! The block cipher of FIPS 197.

use crate::refusal::Refusal;
use crate::sys;
use crate::wipe::wipe;
use core::fmt;

/// The product of two bytes in the field of FIPS 197.
#[must_use]
pub fn product(a: u8, b: u8) -> u8 {
    // SAFETY: only numbers are passed.
    unsafe { sys::dock_product(a, b) }
}

/// The key schedule of a key. It is overwritten with zeros when it is dropped; so is each clone.
#[derive(Clone)]
pub struct Schedule(sys::KeySchedule);

impl Schedule {
    /// 44, 52 or 60 words for keys of 16, 24 and 32 bytes, then zeros. The first byte of a word is its highest.
    #[must_use]
    pub fn words(&self) -> &[u32; 60] {
        &self.0.words
    }

    /// 10, 12 or 14.
    #[must_use]
    pub fn rounds(&self) -> usize {
        self.0.rounds
    }
}

impl Drop for Schedule {
    fn drop(&mut self) {
        wipe(&mut self.0, sys::KeySchedule::ZERO);
    }
}

/// Shows no words: they are key material.
impl fmt::Debug for Schedule {
    fn fmt(&self, f: &mut fmt::Formatter<'_>) -> fmt::Result {
        f.debug_struct("Schedule")
            .field("rounds", &self.0.rounds)
            .finish_non_exhaustive()
    }
}

/// The key schedule of a key of 16, 24 or 32 bytes.
///
/// # Errors
///
/// [`KeyLength`](Refusal::KeyLength) if the key has another length.
pub fn schedule(key: &[u8]) -> Result<Schedule, Refusal> {
    // SAFETY: pointer and length are those of a slice.
    let answer = unsafe { sys::dock_schedule(key.as_ptr(), key.len()) };
    let schedule = Schedule(sys::KeySchedule {
        words: answer.words,
        rounds: answer.rounds,
    });
    Refusal::answered(answer.number, schedule)
}

/// One block encrypted under a key of 16, 24 or 32 bytes.
///
/// # Errors
///
/// [`KeyLength`](Refusal::KeyLength) if the key has another length.
///
/// # Examples
///
/// ```
/// let key = *b"0123456789abcdef";
/// let block = dock::encrypt(&key, [7; 16])?;
/// assert_eq!(dock::decrypt(&key, block)?, [7; 16]);
/// # Ok::<(), dock::Refusal>(())
/// ```
pub fn encrypt(key: &[u8], block: [u8; 16]) -> Result<[u8; 16], Refusal> {
    let block = sys::Block { bytes: block };
    // SAFETY: pointer and length are those of a slice.
    let answer = unsafe { sys::dock_encrypt(key.as_ptr(), key.len(), block) };
    Refusal::answered(answer.number, answer.block)
}

/// One block decrypted under a key of 16, 24 or 32 bytes.
///
/// # Errors
///
/// [`KeyLength`](Refusal::KeyLength) if the key has another length.
pub fn decrypt(key: &[u8], block: [u8; 16]) -> Result<[u8; 16], Refusal> {
    let block = sys::Block { bytes: block };
    // SAFETY: pointer and length are those of a slice.
    let answer = unsafe { sys::dock_decrypt(key.as_ptr(), key.len(), block) };
    Refusal::answered(answer.number, answer.block)
}
