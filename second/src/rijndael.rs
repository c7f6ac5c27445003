//! Rijndael with blocks of 24 and 32 bytes, from its submission, in ECB and CBC.

use crate::field::{inverse, product};
use crate::refusal::Refusal;

#[derive(Clone, Copy, PartialEq, Eq)]
pub enum Way {
    Encrypt,
    Decrypt,
}

/// A key for blocks of so many columns. `round_keys[n]` is as long as a block.
struct Key {
    columns: usize,
    round_keys: Vec<Vec<u8>>,
}

fn shifts(columns: usize) -> [usize; 4] {
    if columns == 8 {
        [0, 1, 3, 4]
    } else {
        [0, 1, 2, 3]
    }
}

/// The inverse, then bits i, i+4, i+5, i+6, i+7 (mod 8) summed, with bit i of 63.
fn substituted(byte: u8) -> u8 {
    let x = inverse(byte);
    x ^ x.rotate_left(1) ^ x.rotate_left(2) ^ x.rotate_left(3) ^ x.rotate_left(4) ^ 0x63
}

fn restored(byte: u8) -> u8 {
    inverse(byte.rotate_left(1) ^ byte.rotate_left(3) ^ byte.rotate_left(6) ^ 0x05)
}

impl Key {
    fn new(key: &[u8], columns: usize) -> Result<Key, Refusal> {
        if ![16, 24, 32].contains(&key.len()) {
            return Err(Refusal::KeyLength);
        }
        let key_words = key.len() / 4;
        let rounds = 6 + key_words.max(columns);
        let mut words: Vec<[u8; 4]> = key.as_chunks::<4>().0.to_vec();
        let mut constant = 1;
        while words.len() < columns * (rounds + 1) {
            let i = words.len();
            let mut t = words[i - 1];
            if i % key_words == 0 {
                t = [t[1], t[2], t[3], t[0]].map(substituted);
                t[0] ^= constant;
                constant = product(constant, 2);
            } else if key_words > 6 && i % key_words == 4 {
                t = t.map(substituted);
            }
            let before = words[i - key_words];
            words.push([0, 1, 2, 3].map(|n| before[n] ^ t[n]));
        }
        let round_keys = words.chunks(columns).map(|words| words.concat()).collect();
        Ok(Key {
            columns,
            round_keys,
        })
    }

    /// Byte r + 4c of the result is byte r of the column so far right of c as row r is shifted.
    fn shifted(&self, state: &[u8], forth: bool) -> Vec<u8> {
        let by = shifts(self.columns);
        let from = |i: usize| {
            let (row, column) = (i % 4, i / 4);
            let turn = if forth {
                by[row]
            } else {
                self.columns - by[row]
            };
            state[row + 4 * ((column + turn) % self.columns)]
        };
        (0..state.len()).map(from).collect()
    }

    fn encrypt(&self, block: &[u8]) -> Vec<u8> {
        let last = self.round_keys.len() - 1;
        let mut state = sum(block, &self.round_keys[0]);
        for (round, key) in self.round_keys.iter().enumerate().skip(1) {
            let substituted: Vec<u8> = state.iter().map(|&byte| substituted(byte)).collect();
            state = self.shifted(&substituted, true);
            if round < last {
                state = mixed(&state, [2, 3, 1, 1]);
            }
            state = sum(&state, key);
        }
        state
    }

    fn decrypt(&self, block: &[u8]) -> Vec<u8> {
        let last = self.round_keys.len() - 1;
        let mut state = block.to_vec();
        for (round, key) in self.round_keys.iter().enumerate().skip(1).rev() {
            state = sum(&state, key);
            if round < last {
                state = mixed(&state, [14, 11, 13, 9]);
            }
            state = self.shifted(&state, false);
            state = state.iter().map(|&byte| restored(byte)).collect();
        }
        sum(&state, &self.round_keys[0])
    }
}

fn sum(a: &[u8], b: &[u8]) -> Vec<u8> {
    a.iter().zip(b).map(|(a, b)| a ^ b).collect()
}

/// Each column times the matrix whose row r is the first row turned right by r.
fn mixed(state: &[u8], first: [u8; 4]) -> Vec<u8> {
    let byte = |i: usize| {
        let (row, start) = (i % 4, i / 4 * 4);
        (0..4).fold(0, |sum, k| {
            sum ^ product(first[(k + 4 - row) % 4], state[start + k])
        })
    };
    (0..state.len()).map(byte).collect()
}

/// ECB, or CBC where it is chained: the chaining value that is handed on, zeros in ECB, or the refusal; the output changes only if done.
pub fn run(
    columns: usize,
    chained: bool,
    way: Way,
    key: &[u8],
    iv: &[u8],
    input: &[u8],
    output: &mut [u8],
) -> Result<Vec<u8>, Refusal> {
    let size = 4 * columns;
    let key = Key::new(key, columns)?;
    if iv.len() != if chained { size } else { 0 } {
        return Err(Refusal::IvLength);
    }
    if input.len() % size != 0 {
        return Err(Refusal::InputLength);
    }
    if output.len() < input.len() {
        return Err(Refusal::OutputShort);
    }
    let mut chain = vec![0; size];
    chain[..iv.len()].copy_from_slice(iv);
    for (piece, place) in input.chunks(size).zip(output.chunks_mut(size)) {
        let made = match way {
            Way::Encrypt => key.encrypt(&sum(piece, &chain)),
            Way::Decrypt => sum(&key.decrypt(piece), &chain),
        };
        if chained {
            chain = if way == Way::Encrypt {
                made.clone()
            } else {
                piece.to_vec()
            };
        }
        place.copy_from_slice(&made);
    }
    Ok(chain)
}

#[cfg(test)]
mod tests {
    use super::*;
    use crate::hex::bytes;

    /// Request E6 (docs/REQUIREMENTS.md): the front of one key and of one block, for each size of both.
    #[test]
    fn every_size() {
        let key = bytes("2b7e151628aed2a6abf7158809cf4f3c762e7160f38b4da56a784d9045190cfe");
        let block = bytes("3243f6a8885a308d313198a2e03707344a4093822299f31d0082efa98ec4e6c8");
        for (size, key_size, sealed) in [
            (24, 16, "b24d275489e82bb8f7375e0d5fcdb1f481757c538b65148a"),
            (24, 24, "725ae43b5f3161de806a7c93e0bca93c967ec1ae1b71e1cf"),
            (24, 32, "0ebacf199e3315c2e34b24fcc7c46ef4388aa475d66c194c"),
            (
                32,
                16,
                "7d15479076b69a46ffb3b3beae97ad8313f622f67fedb487de9f06b9ed9c8f19",
            ),
            (
                32,
                24,
                "5d7101727bb25781bf6715b0e6955282b9610e23a43c2eb062699f0ebf5887b2",
            ),
            (
                32,
                32,
                "a49406115dfb30a40418aafa4869b7c6a886ff31602a7dd19c889dc64f7e4e7a",
            ),
        ] {
            let key = Key::new(&key[..key_size], size / 4).ok().unwrap();
            assert_eq!(key.encrypt(&block[..size]), bytes(sealed));
            assert_eq!(key.decrypt(&bytes(sealed)), &block[..size]);
        }
    }
}
