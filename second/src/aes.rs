//! The block cipher of FIPS 197 for keys of 16, 24 and 32 bytes.

use crate::field::{inverse, product};
use crate::refusal::Refusal;
use std::array::from_fn;
use std::sync::LazyLock;

pub type Block = [u8; 16];
pub type Word = [u8; 4];

/// `state[r][c]` is byte r + 4c of the block.
type State = [[u8; 4]; 4];

const MIX: Word = [0x02, 0x03, 0x01, 0x01];
const UNMIX: Word = [0x0e, 0x0b, 0x0d, 0x09];

static TABLES: LazyLock<Tables> = LazyLock::new(Tables::compute);

/// What is looked up, all of it computed from the field when it is first needed.
struct Tables {
    substitute: [u8; 256],
    restore: [u8; 256],
    /// `multiples[m][b]` is m times b, for the factors of the two mixings.
    multiples: [[u8; 256]; 16],
}

impl Tables {
    fn compute() -> Tables {
        let substitute = every_byte(|byte| affine(inverse(byte)));
        let mut restore = [0; 256];
        for byte in 0..=255 {
            restore[usize::from(substitute[usize::from(byte)])] = byte;
        }
        let mut multiples = [[0; 256]; 16];
        for (row, factor) in multiples.iter_mut().zip(0..) {
            *row = every_byte(|byte| product(factor, byte));
        }
        Tables {
            substitute,
            restore,
            multiples,
        }
    }
}

fn every_byte(rule: impl Fn(u8) -> u8) -> [u8; 256] {
    let mut table = [0; 256];
    for (entry, byte) in table.iter_mut().zip(0..=255) {
        *entry = rule(byte);
    }
    table
}

/// Bit i of the result is bits i, i+4, i+5, i+6, i+7 (mod 8) summed, with bit i of 63.
fn affine(byte: u8) -> u8 {
    let bit = |i: u32| byte >> (i % 8) & 1;
    (0..8).fold(0x63, |sum, i| {
        sum ^ (bit(i) ^ bit(i + 4) ^ bit(i + 5) ^ bit(i + 6) ^ bit(i + 7)) << i
    })
}

fn substitute(byte: u8) -> u8 {
    TABLES.substitute[usize::from(byte)]
}

fn restore(byte: u8) -> u8 {
    TABLES.restore[usize::from(byte)]
}

#[derive(Clone)]
pub struct KeySchedule {
    words: Vec<Word>,
    round_keys: Vec<State>,
    rounds: usize,
}

impl KeySchedule {
    pub fn new(key: &[u8]) -> Result<KeySchedule, Refusal> {
        let rounds = match key.len() {
            16 => 10,
            24 => 12,
            32 => 14,
            _ => return Err(Refusal::KeyLength),
        };
        let words = expand(key, 4 * (rounds + 1));
        let round_keys = words.as_chunks::<4>().0.iter().map(turned).collect();
        Ok(KeySchedule {
            words,
            round_keys,
            rounds,
        })
    }

    pub fn words(&self) -> &[Word] {
        &self.words
    }

    pub fn encrypt(&self, block: &Block) -> Block {
        let mut state = to_state(block);
        for (round, key) in self.round_keys.iter().enumerate() {
            if round > 0 {
                state = shift_rows(&substitute_all(&state, substitute));
                if round < self.rounds {
                    state = mix(&state, MIX);
                }
            }
            state = add(&state, key);
        }
        to_block(&state)
    }

    pub fn decrypt(&self, block: &Block) -> Block {
        let mut state = to_state(block);
        for (round, key) in self.round_keys.iter().enumerate().rev() {
            state = add(&state, key);
            if round > 0 {
                if round < self.rounds {
                    state = mix(&state, UNMIX);
                }
                state = substitute_all(&unshift_rows(&state), restore);
            }
        }
        to_block(&state)
    }
}

fn expand(key: &[u8], length: usize) -> Vec<Word> {
    let mut words = key.as_chunks::<4>().0.to_vec();
    let key_words = words.len();
    let mut constant = 1;
    for i in key_words..length {
        let mut t = words[i - 1];
        if i % key_words == 0 {
            t.rotate_left(1);
            t = t.map(substitute);
            t[0] ^= constant;
            constant = product(constant, 2);
        } else if key_words == 8 && i % 8 == 4 {
            t = t.map(substitute);
        }
        let before = words[i - key_words];
        words.push(from_fn(|n| before[n] ^ t[n]));
    }
    words
}

fn to_state(block: &Block) -> State {
    from_fn(|r| from_fn(|c| block[r + 4 * c]))
}

fn to_block(state: &State) -> Block {
    from_fn(|i| state[i % 4][i / 4])
}

/// Rows become columns: the words of a round key are the columns it is added to.
fn turned(words: &[Word; 4]) -> State {
    from_fn(|r| from_fn(|c| words[c][r]))
}

fn add(state: &State, key: &State) -> State {
    from_fn(|r| from_fn(|c| state[r][c] ^ key[r][c]))
}

fn substitute_all(state: &State, rule: fn(u8) -> u8) -> State {
    state.map(|row| row.map(rule))
}

fn shift_rows(state: &State) -> State {
    from_fn(|r| from_fn(|c| state[r][(c + r) % 4]))
}

fn unshift_rows(state: &State) -> State {
    from_fn(|r| from_fn(|c| state[r][(c + 4 - r) % 4]))
}

/// Each column times the matrix whose row r is the first row turned right by r.
fn mix(state: &State, first_row: Word) -> State {
    let term = |r: usize, c: usize, k: usize| {
        let factor = first_row[(k + 4 - r) % 4];
        TABLES.multiples[usize::from(factor)][usize::from(state[k][c])]
    };
    from_fn(|r| from_fn(|c| term(r, c, 0) ^ term(r, c, 1) ^ term(r, c, 2) ^ term(r, c, 3)))
}

#[cfg(test)]
mod tests {
    use super::*;
    use crate::hex::{array, bytes};

    #[track_caller]
    fn both_ways(key: &str, plain: &str, sealed: &str) {
        let key = KeySchedule::new(&bytes(key)).unwrap();
        let (plain, sealed) = (array(plain), array(sealed));
        assert_eq!(key.encrypt(&plain), sealed);
        assert_eq!(key.decrypt(&sealed), plain);
    }

    #[test]
    fn substitution_entries_and_their_undoing() {
        for (from, to) in [
            (0x00, 0x63),
            (0x53, 0xed),
            (0x2a, 0xe5),
            (0x6a, 0x02),
            (0xff, 0x16),
        ] {
            assert_eq!(substitute(from), to);
        }
        for byte in 0..=255 {
            assert_eq!(restore(substitute(byte)), byte);
        }
    }

    #[test]
    fn last_words_of_the_key_expansions() {
        for (key, last) in [
            ("2b7e151628aed2a6abf7158809cf4f3c", "b6630ca6"),
            (
                "8e73b0f7da0e6452c810f32b809079e562f8ead2522c6b7b",
                "01002202",
            ),
            (
                "603deb1015ca71be2b73aef0857d77811f352c073b6108d72d9810a30914dff4",
                "706c631e",
            ),
        ] {
            let key = KeySchedule::new(&bytes(key)).unwrap();
            assert_eq!(key.words().last(), Some(&array(last)));
            assert_eq!(key.words().len(), 4 * (key.rounds + 1));
        }
    }

    #[test]
    fn cipher_example() {
        both_ways(
            "2b7e151628aed2a6abf7158809cf4f3c",
            "3243f6a8885a308d313198a2e0370734",
            "3925841d02dc09fbdc118597196a0b32",
        );
    }

    #[test]
    fn example_vectors_of_three_key_sizes() {
        let key = "000102030405060708090a0b0c0d0e0f101112131415161718191a1b1c1d1e1f";
        let plain = "00112233445566778899aabbccddeeff";
        both_ways(&key[..32], plain, "69c4e0d86a7b0430d8cdb78070b4c55a");
        both_ways(&key[..48], plain, "dda97ca4864cdfe06eaf70a0ec0d7191");
        both_ways(key, plain, "8ea2b7ca516745bfeafc49904b496089");
    }

    #[test]
    fn one_column_mixed_and_back() {
        let column = |word: Word| word.map(|byte| [byte, 0, 0, 0]);
        let (before, after) = (
            column([0xc9, 0xc5, 0x63, 0x23]),
            column([0x9d, 0xde, 0xaf, 0xa0]),
        );
        assert_eq!(mix(&before, MIX), after);
        assert_eq!(mix(&after, UNMIX), before);
    }

    #[test]
    fn other_key_lengths_are_refused() {
        for length in (0..100).filter(|length| ![16, 24, 32].contains(length)) {
            assert_eq!(
                KeySchedule::new(&vec![0; length]).err(),
                Some(Refusal::KeyLength)
            );
        }
    }
}
