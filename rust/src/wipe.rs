//! Overwriting what holds key material.

use core::ptr;
use core::sync::atomic::{compiler_fence, Ordering};

/// Overwrites a value with zeros whose memory is about to be freed.
///
/// Nothing reads such memory again, so the compiler may leave out a plain write. It may not leave out a volatile write, and the fence
/// keeps what follows after it.
pub(crate) fn wipe<T: Copy>(value: &mut T, zero: T) {
    // SAFETY: the place is lent by `&mut`, so it may be written and is aligned, and what was there is `Copy` and needs no drop.
    unsafe { ptr::write_volatile(value, zero) };
    compiler_fence(Ordering::SeqCst);
}
