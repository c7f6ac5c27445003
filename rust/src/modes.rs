//! The modes of SP 800-38A. The documentation of the package says what their calls have in common.

use crate::refusal::Refusal;
use crate::sys;

/// Encrypts an input of whole pieces in ECB.
///
/// # Errors
///
/// The first that applies of [`KeyLength`](Refusal::KeyLength), [`IvLength`](Refusal::IvLength),
/// [`InputLength`](Refusal::InputLength) and [`OutputShort`](Refusal::OutputShort).
pub fn ecb_encrypt(key: &[u8], iv: &[u8], input: &[u8], output: &mut [u8]) -> Result<(), Refusal> {
    applied(sys::dock_ecb_encrypt, key, iv, input, output)
}

/// Decrypts an input of whole pieces in ECB.
///
/// # Errors
///
/// The first that applies of [`KeyLength`](Refusal::KeyLength), [`IvLength`](Refusal::IvLength),
/// [`InputLength`](Refusal::InputLength) and [`OutputShort`](Refusal::OutputShort).
pub fn ecb_decrypt(key: &[u8], iv: &[u8], input: &[u8], output: &mut [u8]) -> Result<(), Refusal> {
    applied(sys::dock_ecb_decrypt, key, iv, input, output)
}

/// Encrypts an input of whole pieces in CBC. The answer is the next chaining value.
///
/// # Errors
///
/// The first that applies of [`KeyLength`](Refusal::KeyLength), [`IvLength`](Refusal::IvLength),
/// [`InputLength`](Refusal::InputLength) and [`OutputShort`](Refusal::OutputShort).
pub fn cbc_encrypt(
    key: &[u8],
    iv: &[u8],
    input: &[u8],
    output: &mut [u8],
) -> Result<[u8; 16], Refusal> {
    chained(sys::dock_cbc_encrypt, key, iv, input, output)
}

/// Decrypts an input of whole pieces in CBC. The answer is the next chaining value.
///
/// # Errors
///
/// The first that applies of [`KeyLength`](Refusal::KeyLength), [`IvLength`](Refusal::IvLength),
/// [`InputLength`](Refusal::InputLength) and [`OutputShort`](Refusal::OutputShort).
pub fn cbc_decrypt(
    key: &[u8],
    iv: &[u8],
    input: &[u8],
    output: &mut [u8],
) -> Result<[u8; 16], Refusal> {
    chained(sys::dock_cbc_decrypt, key, iv, input, output)
}

/// Encrypts an input of whole pieces in CFB. The answer is the next chaining value.
///
/// # Errors
///
/// The first that applies of [`KeyLength`](Refusal::KeyLength), [`IvLength`](Refusal::IvLength),
/// [`InputLength`](Refusal::InputLength) and [`OutputShort`](Refusal::OutputShort).
pub fn cfb_encrypt(
    key: &[u8],
    iv: &[u8],
    input: &[u8],
    output: &mut [u8],
) -> Result<[u8; 16], Refusal> {
    chained(sys::dock_cfb_encrypt, key, iv, input, output)
}

/// Decrypts an input of whole pieces in CFB. The answer is the next chaining value.
///
/// # Errors
///
/// The first that applies of [`KeyLength`](Refusal::KeyLength), [`IvLength`](Refusal::IvLength),
/// [`InputLength`](Refusal::InputLength) and [`OutputShort`](Refusal::OutputShort).
pub fn cfb_decrypt(
    key: &[u8],
    iv: &[u8],
    input: &[u8],
    output: &mut [u8],
) -> Result<[u8; 16], Refusal> {
    chained(sys::dock_cfb_decrypt, key, iv, input, output)
}

/// Encrypts or decrypts an input of any length in OFB: with the same key and IV it undoes itself. The answer is the next
/// chaining value.
///
/// # Errors
///
/// The first that applies of [`KeyLength`](Refusal::KeyLength), [`IvLength`](Refusal::IvLength) and
/// [`OutputShort`](Refusal::OutputShort).
pub fn ofb(key: &[u8], iv: &[u8], input: &[u8], output: &mut [u8]) -> Result<[u8; 16], Refusal> {
    chained(sys::dock_ofb, key, iv, input, output)
}

fn applied(
    call: sys::ModeCall,
    key: &[u8],
    iv: &[u8],
    input: &[u8],
    output: &mut [u8],
) -> Result<(), Refusal> {
    // SAFETY: pointers and lengths are those of slices, and the output is lent by `&mut`.
    let number = unsafe {
        call(
            key.as_ptr(),
            key.len(),
            iv.as_ptr(),
            iv.len(),
            input.as_ptr(),
            input.len(),
            output.as_mut_ptr(),
            output.len(),
        )
    };
    Refusal::answered(number, ())
}

fn chained(
    call: sys::ChainCall,
    key: &[u8],
    iv: &[u8],
    input: &[u8],
    output: &mut [u8],
) -> Result<[u8; 16], Refusal> {
    // SAFETY: pointers and lengths are those of slices, and the output is lent by `&mut`.
    let answer = unsafe {
        call(
            key.as_ptr(),
            key.len(),
            iv.as_ptr(),
            iv.len(),
            input.as_ptr(),
            input.len(),
            output.as_mut_ptr(),
            output.len(),
        )
    };
    Refusal::answered(answer.number, answer.next)
}
