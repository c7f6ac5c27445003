//! The words of `wrap` and `unwrap`. Most data offered to `unwrap` has been wrapped before.

use super::calls::{key as drawn_key, Draw};
use super::rng::Rng;
use crate::aes::KeySchedule;
use crate::hex::shown;
use crate::wrap::{sealed, Half, INITIAL};

pub fn wrap_words(draw: &mut Draw) -> Vec<String> {
    let length = if draw.rng.percent(85) {
        8 * registers(&mut draw.rng)
    } else {
        draw.rng.pick([0, 1, 8, 15, 17, 63, 65, 71, 72, 73, 80])
    };
    vec![draw.key(), draw.hex(length), room(draw, length + 8)]
}

pub fn unwrap_words(draw: &mut Draw) -> Vec<String> {
    let mut key = drawn_key(&mut draw.rng);
    let mut data = wrapped(&mut draw.rng, &key);
    if draw.rng.percent(20) {
        damage(&mut draw.rng, &mut key, &mut data);
    }
    let needed = data.len().saturating_sub(8);
    vec![shown(&key), shown(&data), room(draw, needed)]
}

/// Mostly in the rule, 2 to 8.
fn registers(rng: &mut Rng) -> usize {
    if rng.percent(92) {
        2 + rng.below(7)
    } else {
        rng.pick([1, 9, 10])
    }
}

/// Data that the key unwraps, except that the initial value is sometimes wrong.
fn wrapped(rng: &mut Rng, key: &[u8]) -> Vec<u8> {
    let length = 8 * registers(rng);
    let plain = rng.bytes(length);
    let initial = initial(rng);
    match KeySchedule::new(key) {
        Ok(key) => sealed(&key, initial, plain.as_chunks().0).concat(),
        Err(_) => [&initial[..], &plain].concat(),
    }
}

fn initial(rng: &mut Rng) -> Half {
    let mut initial = INITIAL;
    if rng.percent(6) {
        initial[rng.below(8)] ^= 1 << rng.below(8);
    }
    initial
}

fn damage(rng: &mut Rng, key: &mut Vec<u8>, data: &mut Vec<u8>) {
    let some = rng.pick([1, 7, 8, 9]);
    match rng.below(10) {
        0 => data.truncate(rng.below(data.len())),
        1 => data.truncate(data.len().saturating_sub(some)),
        2 => data.extend(rng.bytes(some)),
        3 => data.rotate_left(8),
        4 => *data = rng.bytes(data.len()),
        5 => *key = drawn_key(rng),
        6 => flip_one_bit(rng, key),
        _ => flip_one_bit(rng, data),
    }
}

fn flip_one_bit(rng: &mut Rng, bytes: &mut [u8]) {
    let chosen = rng.below(bytes.len());
    if let Some(byte) = bytes.get_mut(chosen) {
        *byte ^= 1 << rng.below(8);
    }
}

/// Lent memory: mostly what is needed, often a byte more or less, or a register.
fn room(draw: &mut Draw, needed: usize) -> String {
    let length = match draw.rng.below(20) {
        0 => needed.saturating_sub(1),
        1 => needed.saturating_sub(draw.rng.pick([7, 8, 9, 16])),
        2 => draw.rng.below(needed),
        3 => needed + 1,
        4..=6 => needed + 1 + draw.rng.below(40),
        _ => needed,
    };
    draw.hex(length)
}
