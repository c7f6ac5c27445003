//! The calls that lines are drawn from. A new call is one row here and the words it takes.

use super::bookmarks::{resume_words, save_words};
use super::messages::{open_words, seal_words};
use super::plan::Plan;
use super::receives::{receive_start_words, receive_words, Receiving};
use super::rng::Rng;
use super::views::view_words;
use super::wraps::{unwrap_words, wrap_words};
use crate::aes::Block;
use crate::hex::shown;
use crate::image::{Reader, BLOCK, NO_CHECK, PAYLOAD};

#[derive(Clone, Copy)]
pub struct Call {
    pub name: &'static str,
    /// How often it is drawn, beside the weights of the others.
    pub weight: usize,
    /// Draws the words after the name.
    pub words: fn(&mut Draw) -> Vec<String>,
}

const fn call(name: &'static str, weight: usize, words: fn(&mut Draw) -> Vec<String>) -> Call {
    Call {
        name,
        weight,
        words,
    }
}

pub const CALLS: &[Call] = &[
    call("product", 2, two_bytes),
    call("schedule", 2, one_key),
    call("encrypt", 2, key_and_block),
    call("decrypt", 2, key_and_block),
    call("ecb-encrypt", 1, ecb_words),
    call("ecb-decrypt", 1, ecb_words),
    call("cbc-encrypt", 1, chained_words),
    call("cbc-decrypt", 1, chained_words),
    call("cfb-encrypt", 1, chained_words),
    call("cfb-decrypt", 1, chained_words),
    call("ofb", 2, ofb_words),
    call("check", 3, key_and_message),
    call("check-start", 2, one_key),
    call("check-feed", 5, one_message),
    call("check-close", 3, no_words),
    call("write", 3, write_words),
    call("read-start", 2, start_words),
    call("read-turn", 10, turn_words),
    call("read-complete", 2, no_words),
    call("read-save", 2, save_words),
    call("read-resume", 4, resume_words),
    call("receive-start", 2, receive_start_words),
    call("receive", 12, receive_words),
    call("receive-complete", 2, no_words),
    call("wrap", 2, wrap_words),
    call("unwrap", 3, unwrap_words),
    call("view-block", 2, view_words),
    call("view-check", 2, view_words),
    call("saes-encrypt", 2, two_short_words),
    call("saes-decrypt", 2, two_short_words),
    call("ccm-seal", 2, seal_words),
    call("ccm-open", 3, open_words),
    call("wide24-ecb-encrypt", 1, wide24_ecb_words),
    call("wide24-ecb-decrypt", 1, wide24_ecb_words),
    call("wide24-cbc-encrypt", 1, wide24_cbc_words),
    call("wide24-cbc-decrypt", 1, wide24_cbc_words),
    call("wide32-ecb-encrypt", 1, wide32_ecb_words),
    call("wide32-ecb-decrypt", 1, wide32_ecb_words),
    call("wide32-cbc-encrypt", 1, wide32_cbc_words),
    call("wide32-cbc-decrypt", 1, wide32_cbc_words),
];

pub struct Draw {
    pub rng: Rng,
    /// The image of the reading that was started last.
    pub plan: Plan,
    /// The number of the block that the reader expects by now.
    pub expected: u32,
    /// The check of the block that it accepted last.
    pub last: Block,
    /// The reader itself.
    pub reader: Reader,
    /// The image that is received.
    pub receiving: Receiving,
    /// The last block of the turn before.
    offered: Vec<u8>,
}

impl Draw {
    pub fn new(seed: u64) -> Draw {
        Draw {
            rng: Rng::new(seed),
            plan: Plan::default(),
            expected: 0,
            last: NO_CHECK,
            reader: Reader::default(),
            receiving: Receiving::default(),
            offered: Vec::new(),
        }
    }

    pub fn hex(&mut self, length: usize) -> String {
        shown(&self.rng.bytes(length))
    }

    pub fn key(&mut self) -> String {
        shown(&key(&mut self.rng))
    }

    fn iv(&mut self, right: usize) -> String {
        let length = if self.rng.percent(93) {
            right
        } else {
            self.rng.pick([0, 1, 15, 16, 17, 32])
        };
        self.hex(length)
    }

    /// A length that is mostly whole pieces, where only those are taken.
    /// Mostly whole blocks of a width.
    fn wide_length(&mut self, size: usize) -> usize {
        if self.rng.percent(88) {
            size * self.rng.below(5)
        } else {
            self.rng.below(130)
        }
    }

    fn whole_length(&mut self) -> usize {
        if self.rng.percent(88) {
            16 * self.rng.below(7)
        } else {
            self.rng.below(100)
        }
    }

    fn any_length(&mut self) -> usize {
        if self.rng.percent(40) {
            16 * self.rng.below(7)
        } else {
            self.rng.below(100)
        }
    }

    /// Lent memory: mostly what is needed, sometimes more, sometimes less.
    fn output(&mut self, needed: usize) -> String {
        let length = match self.rng.below(20) {
            0 => needed.saturating_sub(1 + self.rng.below(20)),
            1 => self.rng.below(needed + 1),
            2..=5 => needed + 1 + self.rng.below(40),
            _ => needed,
        };
        self.hex(length)
    }

    pub fn numeral(&mut self, number: u64) -> String {
        let zeros = if self.rng.percent(10) {
            self.rng.below(30)
        } else {
            0
        };
        format!("{}{number}", "0".repeat(zeros))
    }
}

pub fn key(rng: &mut Rng) -> Vec<u8> {
    let length = if rng.percent(94) {
        rng.pick([16, 24, 32])
    } else {
        rng.pick([0, 1, 8, 15, 17, 23, 25, 31, 33, 48, 64])
    };
    rng.bytes(length)
}

fn no_words(_: &mut Draw) -> Vec<String> {
    Vec::new()
}

fn two_bytes(draw: &mut Draw) -> Vec<String> {
    vec![draw.hex(1), draw.hex(1)]
}

/// A key and a block of two bytes, seldom of another length.
fn two_short_words(draw: &mut Draw) -> Vec<String> {
    let mut word = || {
        let length = if draw.rng.percent(97) {
            2
        } else {
            draw.rng.pick([0, 1, 3, 4, 16])
        };
        draw.hex(length)
    };
    vec![word(), word()]
}

fn one_key(draw: &mut Draw) -> Vec<String> {
    vec![draw.key()]
}

fn key_and_block(draw: &mut Draw) -> Vec<String> {
    let length = if draw.rng.percent(97) {
        16
    } else {
        draw.rng.pick([0, 15, 17, 32])
    };
    vec![draw.key(), draw.hex(length)]
}

fn ecb_words(draw: &mut Draw) -> Vec<String> {
    let length = draw.whole_length();
    mode_words(draw, 0, length)
}

fn chained_words(draw: &mut Draw) -> Vec<String> {
    let length = draw.whole_length();
    mode_words(draw, 16, length)
}

fn ofb_words(draw: &mut Draw) -> Vec<String> {
    let length = draw.any_length();
    mode_words(draw, 16, length)
}

fn wide24_ecb_words(draw: &mut Draw) -> Vec<String> {
    let length = draw.wide_length(24);
    mode_words(draw, 0, length)
}

fn wide24_cbc_words(draw: &mut Draw) -> Vec<String> {
    let length = draw.wide_length(24);
    mode_words(draw, 24, length)
}

fn wide32_ecb_words(draw: &mut Draw) -> Vec<String> {
    let length = draw.wide_length(32);
    mode_words(draw, 0, length)
}

fn wide32_cbc_words(draw: &mut Draw) -> Vec<String> {
    let length = draw.wide_length(32);
    mode_words(draw, 32, length)
}

fn mode_words(draw: &mut Draw, iv: usize, length: usize) -> Vec<String> {
    vec![
        draw.key(),
        draw.iv(iv),
        draw.hex(length),
        draw.output(length),
    ]
}

fn one_message(draw: &mut Draw) -> Vec<String> {
    let length = draw.any_length();
    vec![draw.hex(length)]
}

fn key_and_message(draw: &mut Draw) -> Vec<String> {
    let length = draw.any_length();
    vec![draw.key(), draw.hex(length)]
}

fn write_words(draw: &mut Draw) -> Vec<String> {
    let count = match draw.rng.below(10) {
        0 => draw.rng.pick([0, 65_535, 65_536, u32::MAX]),
        1 => draw.rng.word(),
        _ => 1 + draw.rng.below(5) as u32,
    };
    let last = count.saturating_sub(1);
    let number = match draw.rng.below(10) {
        0 => draw.rng.pick([count, u32::MAX, 0]),
        1..=5 => last,
        _ => draw.rng.below(count as usize) as u32,
    };
    let length = match draw.rng.below(10) {
        0 => draw.rng.pick([0, 1, 479, 481]),
        _ if number < last => PAYLOAD,
        _ => draw.rng.below(PAYLOAD + 1),
    };
    let release = draw.rng.word();
    let edition = edition(&mut draw.rng);
    vec![
        draw.key(),
        draw.key(),
        draw.numeral(number.into()),
        draw.numeral(count.into()),
        draw.numeral(release.into()),
        draw.numeral(edition.into()),
        previous_check(draw),
        draw.hex(length),
        draw.output(BLOCK),
    ]
}

/// Mostly one that there is; of the others some would pass in fewer bits.
fn edition(rng: &mut Rng) -> u32 {
    match rng.below(12) {
        0 => rng.pick([0, 3, 4, 256, 258, 65_537, 65_538, u32::MAX]),
        1..=4 => 1,
        _ => 2,
    }
}

/// Seldom zeros, for number 0 too.
fn previous_check(draw: &mut Draw) -> String {
    match draw.rng.below(30) {
        0 => {
            let length = draw.rng.pick([0, 1, 15, 17, 32]);
            draw.hex(length)
        }
        1..=3 => shown(&NO_CHECK),
        _ => draw.hex(NO_CHECK.len()),
    }
}

fn start_words(draw: &mut Draw) -> Vec<String> {
    draw.plan = Plan::drawn(&mut draw.rng);
    vec![
        shown(&draw.plan.encryption_key),
        shown(&draw.plan.check_key),
    ]
}

fn turn_words(draw: &mut Draw) -> Vec<String> {
    let lent = blocks_lent(&mut draw.rng);
    let asked = blocks_asked(&mut draw.rng);
    let first = first_offered(&mut draw.rng, draw.expected);
    let mut blocks = draw.plan.blocks(&mut draw.rng, first, draw.last, lent);
    if draw.rng.below(40) == 0 {
        blocks = [&draw.offered[..], &blocks].concat();
    }
    let lent = blocks.len() / BLOCK;
    draw.offered = blocks[blocks.len() - BLOCK.min(blocks.len())..].to_vec();
    let handled = lent.min(usize::try_from(asked).unwrap_or(lent));
    let blocks = mostly_whole(&mut draw.rng, blocks);
    vec![
        draw.numeral(asked),
        shown(&blocks),
        draw.output(PAYLOAD * handled),
    ]
}

/// Mostly the block that is expected, sometimes the one before it again, or the one behind it.
fn first_offered(rng: &mut Rng, expected: u32) -> u32 {
    match rng.below(40) {
        0 => expected.saturating_sub(1),
        1 => expected.saturating_add(1),
        _ => expected,
    }
}

fn blocks_lent(rng: &mut Rng) -> usize {
    match rng.below(50) {
        // 33 blocks and their output are what a line can hold.
        0 => rng.below(34),
        1..=4 => 0,
        _ => 1 + rng.below(4),
    }
}

fn blocks_asked(rng: &mut Rng) -> u64 {
    match rng.below(20) {
        0 => rng.pick([0, 129, u64::MAX]),
        1 => 128,
        2..=9 => 1 + rng.below(4) as u64,
        _ => 1 + rng.below(128) as u64,
    }
}

fn mostly_whole(rng: &mut Rng, mut blocks: Vec<u8>) -> Vec<u8> {
    match rng.below(40) {
        0 => blocks.truncate(rng.below(blocks.len())),
        1 => blocks.push(rng.byte()),
        _ => {}
    }
    blocks
}
