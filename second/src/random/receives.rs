//! The words of `receive-start` and `receive`: the blocks of one image in a random order, doubled, damaged and of other images.

use super::calls::Draw;
use super::plan::Plan;
use super::rng::Rng;
use crate::hex::{read, shown};
use crate::image::{BLOCK, PAYLOAD};

/// The image that is received, and the store and the map as the line before left them.
#[derive(Clone, Default)]
pub struct Receiving {
    pub plan: Plan,
    pub store: Vec<u8>,
    pub map: Vec<u8>,
    pub missing: Vec<u32>,
}

impl Receiving {
    /// An answer of a receiver ends with the store and the map as they are left.
    pub fn left_by(&mut self, answer: &str) {
        let mut words = answer.rsplit(' ');
        let (Some(map), Some(store)) = (words.next(), words.next()) else {
            return;
        };
        leave(&mut self.map, map);
        leave(&mut self.store, store);
        let held = |number: &u32| {
            let byte = self.map.get(*number as usize / 8);
            byte.is_some_and(|byte| byte >> (number % 8) & 1 == 1)
        };
        self.missing = (0..self.plan.count())
            .filter(|number| !held(number))
            .collect();
    }
}

/// A memory that was lent shorter keeps its end.
fn leave(memory: &mut [u8], word: &str) {
    let Some(left) = read(word.as_bytes()) else {
        return;
    };
    if let Some(front) = memory.get_mut(..left.len()) {
        front.copy_from_slice(&left);
    }
}

pub fn receive_start_words(draw: &mut Draw) -> Vec<String> {
    let count = count_received(&mut draw.rng);
    let plan = Plan::received(&mut draw.rng, count);
    let told = match draw.rng.below(25) {
        0 => draw.rng.pick([0, 65_536, u32::MAX]),
        1 => count + 1,
        _ => count,
    };
    let store = length_near(&mut draw.rng, PAYLOAD * count as usize);
    let map = length_near(&mut draw.rng, (count as usize).div_ceil(8));
    draw.receiving = Receiving {
        store: draw.rng.bytes(store),
        map: draw.rng.bytes(map),
        missing: (0..count).collect(),
        plan,
    };
    let release = draw.receiving.plan.release();
    vec![
        shown(&draw.receiving.plan.encryption_key),
        shown(&draw.receiving.plan.check_key),
        draw.numeral(told.into()),
        draw.numeral(release.into()),
        shown(&draw.receiving.store),
        shown(&draw.receiving.map),
    ]
}

pub fn receive_words(draw: &mut Draw) -> Vec<String> {
    let number = number_offered(&mut draw.rng, &draw.receiving);
    let mut block = draw.receiving.plan.offered(&mut draw.rng, number);
    match draw.rng.below(40) {
        0 => block.truncate(draw.rng.below(BLOCK)),
        1 => block.push(draw.rng.byte()),
        _ => {}
    }
    let store = lent(&mut draw.rng, &draw.receiving.store);
    let map = lent(&mut draw.rng, &draw.receiving.map);
    vec![shown(&block), shown(&store), shown(&map)]
}

/// What a line can hold is 60 blocks in the store.
fn count_received(rng: &mut Rng) -> u32 {
    match rng.below(20) {
        0 => rng.pick([40, 55, 60]),
        1..=5 => rng.pick([1, 8, 9, 16]),
        _ => 1 + rng.below(6) as u32,
    }
}

fn length_near(rng: &mut Rng, whole: usize) -> usize {
    match rng.below(20) {
        0 => whole.saturating_sub(1),
        1 => rng.below(whole + 1),
        2..=6 => whole + 1 + rng.below(9),
        _ => whole,
    }
}

/// Mostly one that is not held yet, sometimes one that is, and seldom one that the image does not have.
fn number_offered(rng: &mut Rng, receiving: &Receiving) -> u32 {
    let count = receiving.plan.count();
    match rng.below(20) {
        0 => count,
        1 => count.saturating_add(rng.below(300) as u32),
        2..=4 => rng.below(count.max(1) as usize) as u32,
        _ if receiving.missing.is_empty() => rng.below(count.max(1) as usize) as u32,
        _ => receiving.missing[rng.below(receiving.missing.len())],
    }
}

/// Mostly as it was left, seldom one byte short.
fn lent(rng: &mut Rng, memory: &[u8]) -> Vec<u8> {
    let length = match rng.below(40) {
        0 => memory.len().saturating_sub(1),
        _ => memory.len(),
    };
    memory[..length].to_vec()
}
