//! Simplified AES, the bench model for apprentices: 16-bit keys and blocks, not for secrets.

use crate::sys;

/// The state after each of the three key additions; the last one is the ciphertext. Nothing is refused.
#[must_use]
pub fn saes_encrypt(key: u16, block: u16) -> [u16; 3] {
    // SAFETY: only numbers are passed.
    shown(unsafe { sys::dock_saes_encrypt(key, block) })
}

/// The state after each of the three key additions on the way back; the last one is the plaintext. Nothing is refused.
#[must_use]
pub fn saes_decrypt(key: u16, block: u16) -> [u16; 3] {
    // SAFETY: only numbers are passed.
    shown(unsafe { sys::dock_saes_decrypt(key, block) })
}

fn shown(states: sys::States) -> [u16; 3] {
    [states.first, states.second, states.third]
}
