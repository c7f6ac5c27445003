//! Messages in CCM of SP 800-38C: a nonce of 13 bytes, a tag of 8, up to 64 bytes of associated data and 1,024 of message.

use crate::refusal::Refusal;
use crate::sys;

/// Seals a message: the ciphertext and then the tag, 8 bytes more than the message, go into the front of the output.
///
/// Never use a nonce twice under one key: `docs/MESSAGES.md` says how to make them.
///
/// # Errors
///
/// The first that applies of [`KeyLength`](Refusal::KeyLength), [`CcmLength`](Refusal::CcmLength) and
/// [`OutputShort`](Refusal::OutputShort).
pub fn ccm_seal(
    key: &[u8],
    nonce: &[u8],
    ad: &[u8],
    message: &[u8],
    output: &mut [u8],
) -> Result<(), Refusal> {
    called(sys::dock_ccm_seal, key, nonce, ad, message, output)
}

/// Opens a sealed message, ciphertext and tag, 8 to 1,032 bytes. The message, 8 bytes shorter, goes into the front of the output only
/// if the tag is right.
///
/// # Errors
///
/// The first that applies of [`KeyLength`](Refusal::KeyLength), [`CcmLength`](Refusal::CcmLength),
/// [`OutputShort`](Refusal::OutputShort) and [`CcmTag`](Refusal::CcmTag).
pub fn ccm_open(
    key: &[u8],
    nonce: &[u8],
    ad: &[u8],
    sealed: &[u8],
    output: &mut [u8],
) -> Result<(), Refusal> {
    called(sys::dock_ccm_open, key, nonce, ad, sealed, output)
}

fn called(
    call: sys::CcmCall,
    key: &[u8],
    nonce: &[u8],
    ad: &[u8],
    input: &[u8],
    output: &mut [u8],
) -> Result<(), Refusal> {
    // SAFETY: pointers and lengths are those of slices, and the output is lent by `&mut`.
    let number = unsafe {
        call(
            key.as_ptr(),
            key.len(),
            nonce.as_ptr(),
            nonce.len(),
            ad.as_ptr(),
            ad.len(),
            input.as_ptr(),
            input.len(),
            output.as_mut_ptr(),
            output.len(),
        )
    };
    Refusal::answered(number, ())
}
