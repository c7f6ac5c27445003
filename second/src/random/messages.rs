//! The words of `ccm-seal` and `ccm-open`. Most messages offered to `ccm-open` have been sealed before.

use super::calls::{key as drawn_key, Draw};
use super::rng::Rng;
use crate::aes::KeySchedule;
use crate::ccm::sealed;
use crate::hex::shown;

pub fn seal_words(draw: &mut Draw) -> Vec<String> {
    let (nonce, ad) = (nonce(&mut draw.rng), ad(&mut draw.rng));
    let length = message_length(&mut draw.rng);
    let key = draw.key();
    let message = draw.hex(length);
    vec![
        key,
        shown(&nonce),
        shown(&ad),
        message,
        room(draw, length + 8),
    ]
}

pub fn open_words(draw: &mut Draw) -> Vec<String> {
    let rng = &mut draw.rng;
    let mut parts = [drawn_key(rng), nonce(rng), ad(rng), Vec::new()];
    let length = message_length(rng);
    let message = rng.bytes(length);
    parts[3] = match (KeySchedule::new(&parts[0]), parts[1].len()) {
        (Ok(key), 7..=13) => sealed(&key, &parts[1], &parts[2], &message, 8),
        _ => rng.bytes(length + 8),
    };
    if rng.percent(20) {
        damage(rng, &mut parts);
    }
    let needed = parts[3].len().saturating_sub(8);
    let mut words: Vec<String> = parts.iter().map(|part| shown(part)).collect();
    words.push(room(draw, needed));
    words
}

fn nonce(rng: &mut Rng) -> Vec<u8> {
    let length = if rng.percent(96) {
        13
    } else {
        rng.pick([0, 7, 12, 14, 16])
    };
    rng.bytes(length)
}

/// Often none, often at the edges of a block.
fn ad(rng: &mut Rng) -> Vec<u8> {
    let length = match rng.below(20) {
        0..=4 => 0,
        5..=12 => rng.below(65),
        13 => rng.pick([65, 66, 80, 256]),
        _ => rng.pick([1, 13, 14, 15, 29, 30, 31, 46, 62, 63, 64]),
    };
    rng.bytes(length)
}

fn message_length(rng: &mut Rng) -> usize {
    match rng.below(40) {
        0..=19 => rng.below(80),
        20..=29 => rng.pick([0, 1, 8, 15, 16, 17, 31, 32, 33, 48]),
        30..=37 => rng.below(1025),
        38 => rng.pick([1023, 1024]),
        _ => rng.pick([1025, 1032, 1040]),
    }
}

/// One part, the sealed message most often, with one bit changed, cut, longer, or another.
fn damage(rng: &mut Rng, parts: &mut [Vec<u8>; 4]) {
    let chosen = rng.pick([0, 1, 2, 2, 3, 3, 3, 3]);
    let part = &mut parts[chosen];
    match rng.below(8) {
        0 => part.truncate(rng.below(part.len())),
        1 => part.extend(rng.bytes(1)),
        2 => *part = rng.bytes(part.len()),
        3 => part.reverse(),
        _ => {
            let place = rng.below(part.len());
            if let Some(byte) = part.get_mut(place) {
                *byte ^= 1 << rng.below(8);
            }
        }
    }
}

/// Lent memory: mostly what is needed, often a byte more or less.
fn room(draw: &mut Draw, needed: usize) -> String {
    let length = match draw.rng.below(20) {
        0 => needed.saturating_sub(1),
        1 => needed.saturating_sub(draw.rng.pick([7, 8, 9, 16])),
        2 => needed + 1,
        3..=5 => needed + 1 + draw.rng.below(20),
        _ => needed,
    };
    draw.hex(length)
}
