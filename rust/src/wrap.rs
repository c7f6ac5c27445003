//! The key wrap of RFC 3394.

use crate::refusal::Refusal;
use crate::sys;

/// Wraps key data of 16 to 64 bytes, a multiple of 8; the result, 8 bytes longer, goes into the front of the output.
///
/// # Errors
///
/// The first that applies of [`KeyLength`](Refusal::KeyLength), [`WrapLength`](Refusal::WrapLength) and
/// [`OutputShort`](Refusal::OutputShort).
pub fn wrap(key: &[u8], data: &[u8], output: &mut [u8]) -> Result<(), Refusal> {
    called(sys::dock_wrap, key, data, output)
}

/// Unwraps data of 24 to 72 bytes, a multiple of 8. The key data, 8 bytes shorter, goes into the front of the output only if it was
/// wrapped under this key.
///
/// # Errors
///
/// The first that applies of [`KeyLength`](Refusal::KeyLength), [`WrapLength`](Refusal::WrapLength),
/// [`OutputShort`](Refusal::OutputShort) and [`InitialValue`](Refusal::InitialValue).
pub fn unwrap(key: &[u8], data: &[u8], output: &mut [u8]) -> Result<(), Refusal> {
    called(sys::dock_unwrap, key, data, output)
}

fn called(call: sys::WrapCall, key: &[u8], data: &[u8], output: &mut [u8]) -> Result<(), Refusal> {
    // SAFETY: pointers and lengths are those of slices, and the output is lent by `&mut`.
    let number = unsafe {
        call(
            key.as_ptr(),
            key.len(),
            data.as_ptr(),
            data.len(),
            output.as_mut_ptr(),
            output.len(),
        )
    };
    Refusal::answered(number, ())
}
