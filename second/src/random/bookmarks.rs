//! The words of `read-save` and `read-resume`: the bookmark of the reader held, damaged ones, and states that no reader was in.

use super::calls::{key, Draw};
use crate::hex::shown;
use crate::image::bookmark::{BOOKMARK, COVERED};
use crate::image::Keys;

pub fn save_words(draw: &mut Draw) -> Vec<String> {
    let bytes = bytes_saved(draw);
    vec![draw.numeral(bytes)]
}

pub fn resume_words(draw: &mut Draw) -> Vec<String> {
    let mut bookmark = match draw.rng.below(10) {
        0 => draw.rng.bytes(BOOKMARK),
        1 => vec![0; BOOKMARK],
        2 | 3 => any_state(draw),
        _ => held(draw),
    };
    match draw.rng.below(12) {
        0 => bookmark.push(0),
        1 | 2 => {
            let place = draw.rng.below(BOOKMARK);
            bookmark[place] ^= 1 << draw.rng.below(8);
        }
        _ => {}
    }
    let mut keys = [
        draw.plan.encryption_key.clone(),
        draw.plan.check_key.clone(),
    ];
    if draw.rng.percent(8) {
        let other = draw.rng.below(2);
        keys[other] = key(&mut draw.rng);
    }
    vec![shown(&keys[0]), shown(&keys[1]), shown(&bookmark)]
}

fn bytes_saved(draw: &mut Draw) -> u64 {
    match draw.rng.below(4) {
        0 => draw.rng.number(),
        _ => draw.rng.below(100_000) as u64,
    }
}

fn held(draw: &mut Draw) -> Vec<u8> {
    let bytes = bytes_saved(draw);
    draw.reader.save(bytes).to_vec()
}

/// A right check of numbers that no reader need have come to.
fn any_state(draw: &mut Draw) -> Vec<u8> {
    let mut covered = draw.rng.bytes(COVERED);
    let mut small = |place: usize, limit: usize| {
        let number = draw.rng.below(limit) as u32;
        covered[place..place + 4].copy_from_slice(&number.to_be_bytes());
    };
    small(0, 4);
    small(4, 5);
    small(12, 4);
    let keys = Keys::new(&draw.plan.encryption_key, &draw.plan.check_key);
    keys.map_or_else(
        |_| vec![0; BOOKMARK],
        |keys| keys.bookmark(&covered).to_vec(),
    )
}
