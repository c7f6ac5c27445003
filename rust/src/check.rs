//! The check: CMAC of SP 800-38B, all 16 bytes, whole and running.

use crate::refusal::Refusal;
use crate::sys;
use crate::wipe::wipe;
use core::fmt;
use core::ptr;

/// The check of a message of any length, under a key of 16, 24 or 32 bytes.
///
/// To find out whether a message has the check that came with it, call [`verify`]; do not compare with `==`.
///
/// # Errors
///
/// [`KeyLength`](Refusal::KeyLength) if the key has another length.
pub fn check(key: &[u8], message: &[u8]) -> Result<[u8; 16], Refusal> {
    // SAFETY: pointers and lengths are those of slices.
    let answer =
        unsafe { sys::dock_check(key.as_ptr(), key.len(), message.as_ptr(), message.len()) };
    Refusal::answered(answer.number, answer.check)
}

/// Whether a message has this check under a key of 16, 24 or 32 bytes.
///
/// A wrong check is an error, not `false`. So nothing unverified gets past `verify(..)?`, and the compiler warns if the answer is not
/// used. The comparison looks at all 16 bytes. A comparison with `==` may stop at the first byte that differs, and an attacker who can
/// measure its time could find the right check byte by byte.
///
/// # Errors
///
/// The first that applies of [`KeyLength`](Refusal::KeyLength), if the key has another length, and
/// [`CheckWrong`](Refusal::CheckWrong).
///
/// # Examples
///
/// ```
/// let key = *b"0123456789abcdef";
/// let mut check = dock::check(&key, b"a message")?;
/// dock::verify(&key, b"a message", &check)?;
/// check[15] ^= 1;
/// assert_eq!(dock::verify(&key, b"a message", &check), Err(dock::Refusal::CheckWrong));
/// # Ok::<(), dock::Refusal>(())
/// ```
pub fn verify(key: &[u8], message: &[u8], check: &[u8; 16]) -> Result<(), Refusal> {
    let right = self::check(key, message)?;
    compared(&right, check)
}

fn compared(right: &[u8; 16], check: &[u8; 16]) -> Result<(), Refusal> {
    if same(right, check) {
        Ok(())
    } else {
        Err(Refusal::CheckWrong)
    }
}

/// Whether two checks are equal, in a time that does not depend on their bytes. The function is not inlined, and the sum is read by a
/// volatile read, so the compiler has to compute the whole sum and cannot stop early at a byte that differs.
#[inline(never)]
fn same(a: &[u8; 16], b: &[u8; 16]) -> bool {
    let differing = a.iter().zip(b).fold(0, |sum, (a, b)| sum | (a ^ b));
    // SAFETY: it is a local value.
    unsafe { ptr::read_volatile(&differing) == 0 }
}

/// The running check of a message in parts. It equals the check of the parts joined, however they are split.
///
/// A clone is independent, for example for messages that begin alike. The key material is overwritten with zeros when the check or a
/// clone of it is dropped.
///
/// # Examples
///
/// ```
/// let key = *b"0123456789abcdef";
/// let mut check = dock::Check::start(&key)?;
/// check.feed(b"a mess");
/// check.feed(b"age");
/// assert_eq!(check.close(), dock::check(&key, b"a message")?);
/// # Ok::<(), dock::Refusal>(())
/// ```
#[derive(Clone)]
pub struct Check(sys::Record);

impl Check {
    /// A new check, to which nothing has been fed. The key has 16, 24 or 32 bytes.
    ///
    /// # Errors
    ///
    /// [`KeyLength`](Refusal::KeyLength) if the key has another length.
    pub fn start(key: &[u8]) -> Result<Check, Refusal> {
        // SAFETY: pointer and length are those of a slice.
        let answer = unsafe { sys::dock_check_start(key.as_ptr(), key.len()) };
        Refusal::answered(answer.number, Check(answer.record))
    }

    /// Feeds a part, in place.
    pub fn feed(&mut self, part: &[u8]) {
        // SAFETY: the record is lent by `&mut`, and pointer and length are those of a slice, which does not overlap it.
        unsafe { sys::dock_check_feed(&mut self.0, part.as_ptr(), part.len()) }
    }

    /// The check after one more part, for a fold over parts.
    #[must_use]
    pub fn fed(mut self, part: &[u8]) -> Check {
        self.feed(part);
        self
    }

    /// The check of everything fed so far. You can feed more and close again.
    ///
    /// To find out whether the message has the check that came with it, call [`verify`](Check::verify); do not compare with `==`.
    #[must_use]
    pub fn close(&self) -> [u8; 16] {
        // SAFETY: the record is passed by value, and any bytes in it have an answer.
        unsafe { sys::dock_check_close(self.0) }.check
    }

    /// Whether everything fed so far has this check, as [`verify`] does for a whole message. You can feed more.
    ///
    /// # Errors
    ///
    /// [`CheckWrong`](Refusal::CheckWrong) if it has another.
    pub fn verify(&self, check: &[u8; 16]) -> Result<(), Refusal> {
        compared(&self.close(), check)
    }
}

impl Drop for Check {
    fn drop(&mut self) {
        wipe(&mut self.0, sys::Record::ZERO);
    }
}

/// Shows nothing: it holds key material.
impl fmt::Debug for Check {
    fn fmt(&self, f: &mut fmt::Formatter<'_>) -> fmt::Result {
        f.debug_struct("Check").finish_non_exhaustive()
    }
}
