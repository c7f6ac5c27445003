//! The words of `view-block` and `view-check`.

use super::calls::Draw;
use super::rng::Rng;
use crate::hex::shown;
use crate::image::BLOCK;

pub fn view_words(draw: &mut Draw) -> Vec<String> {
    let blocks = blocks_stored(&mut draw.rng);
    let length = length_near(&mut draw.rng, blocks * BLOCK);
    let image = shown(&draw.rng.bytes(length));
    let place = place_near(&mut draw.rng, blocks as u64);
    vec![image, draw.numeral(place)]
}

fn blocks_stored(rng: &mut Rng) -> usize {
    match rng.below(50) {
        // What a line can hold.
        0 => 63,
        1..=4 => 0,
        _ => 1 + rng.below(5),
    }
}

/// Mostly whole blocks; of the others some are of another size that is a power of two.
fn length_near(rng: &mut Rng, whole: usize) -> usize {
    match rng.below(20) {
        0 => whole + rng.pick([1, 16, 256, 496, 511]),
        1 => whole.saturating_sub(rng.pick([1, 16, 256, 496, 511])),
        _ => whole,
    }
}

/// Mostly a block that there is, often the last or the one behind it; of the others some wrap where they are multiplied by 512.
fn place_near(rng: &mut Rng, blocks: u64) -> u64 {
    match rng.below(20) {
        0 => rng.number(),
        1 => rng.pick([
            1 << 55,
            (1 << 55) + 1,
            1 << 32,
            1 << 23,
            u64::MAX,
            u64::MAX - 1,
        ]),
        2..=4 => blocks,
        5 => blocks + 1 + rng.below(3) as u64,
        6..=8 => blocks.saturating_sub(1),
        _ => rng.below(blocks as usize) as u64,
    }
}
