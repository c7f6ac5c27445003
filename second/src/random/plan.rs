//! Images of both editions to be read in random turns: blocks that are accepted, damaged ones, and those of two builds mixed.

use super::calls::key;
use super::rng::Rng;
use crate::aes::Block;
use crate::image::{check_in, filled, tail, Edition, Header, Keys, BLOCK, NO_CHECK, PAYLOAD};

/// How many of a hundred blocks are damaged.
const DAMAGED: usize = 18;

/// How many of a hundred turns bring whole blocks in a wrong order, or blocks of two builds.
const SHUFFLED: usize = 12;

#[derive(Clone, Default)]
pub struct Plan {
    pub encryption_key: Vec<u8>,
    pub check_key: Vec<u8>,
    count: u32,
    release: u32,
    mark: u16,
}

/// A block before it is sealed.
struct Draft {
    encryption_key: Vec<u8>,
    header: Header,
    filled: [u8; PAYLOAD],
    previous: Block,
    /// Covered as a block of the other edition is.
    crossed: bool,
    marked_after_sealing: Option<u16>,
    flipped_after_sealing: Option<usize>,
}

impl Plan {
    pub fn drawn(rng: &mut Rng) -> Plan {
        let encryption_key = key(rng);
        let check_key = if rng.percent(10) {
            encryption_key.clone()
        } else {
            key(rng)
        };
        let count = match rng.below(20) {
            0 => rng.pick([33, 129, 65_535]),
            1..=5 => 1 + rng.below(2),
            _ => 1 + rng.below(20),
        };
        Plan {
            encryption_key,
            check_key,
            count: count as u32,
            release: rng.word(),
            mark: rng.pick([Edition::First, Edition::Second]).mark(),
        }
    }

    /// An image of edition 1, seldom of edition 2, which no receiver reads.
    pub fn received(rng: &mut Rng, count: u32) -> Plan {
        let edition = if rng.percent(5) {
            Edition::Second
        } else {
            Edition::First
        };
        Plan {
            count,
            mark: edition.mark(),
            ..Plan::drawn(rng)
        }
    }

    /// One block, damaged as often as those of turns.
    pub fn offered(&self, rng: &mut Rng, number: u32) -> Vec<u8> {
        self.block(rng, number, NO_CHECK)
    }

    pub fn count(&self) -> u32 {
        self.count
    }

    pub fn release(&self) -> u32 {
        self.release
    }

    /// Blocks one after another, from the number given, for a reader whose last check is the one given.
    pub fn blocks(&self, rng: &mut Rng, first: u32, last: Block, blocks: usize) -> Vec<u8> {
        let mut made = self.chain(rng, first, last, blocks);
        if blocks > 0 && rng.percent(SHUFFLED) {
            self.shuffle(rng, first, &mut made);
        }
        made.concat()
    }

    /// Each block is sealed on the check of the one before it.
    fn chain(&self, rng: &mut Rng, first: u32, last: Block, blocks: usize) -> Vec<Vec<u8>> {
        let mut previous = last;
        (first..)
            .take(blocks)
            .map(|number| {
                let block = self.block(rng, number, previous);
                previous = check_in(&block);
                block
            })
            .collect()
    }

    /// One block doubled, left out, or changed with the next; or another build's blocks from a place on.
    fn shuffle(&self, rng: &mut Rng, first: u32, made: &mut Vec<Vec<u8>>) {
        let (place, blocks) = (rng.below(made.len()), made.len());
        match rng.below(5) {
            0 => made.insert(place, made[place].clone()),
            1 => {
                made.remove(place);
            }
            2 => made.swap(place, (place + 1).min(blocks - 1)),
            _ => {
                let number = first.wrapping_add(place as u32);
                let last = self.check_of_other_build(rng, number);
                made.truncate(place);
                made.extend(self.chain(rng, number, last, blocks - place));
            }
        }
        made.truncate(blocks);
    }

    /// The check that another build of this count and release has before a number.
    fn check_of_other_build(&self, rng: &mut Rng, number: u32) -> Block {
        let before = number.checked_sub(1).and_then(|before| {
            let previous = any_check(rng);
            self.right_draft(rng, before, previous)
                .sealed(&self.check_key)
        });
        before.map_or(NO_CHECK, |block| check_in(&block))
    }

    fn block(&self, rng: &mut Rng, number: u32, previous: Block) -> Vec<u8> {
        let mut draft = self.right_draft(rng, number, previous);
        if rng.percent(DAMAGED) {
            for _ in 0..rng.pick([1, 1, 1, 2, 3]) {
                draft.damage(rng);
            }
        }
        // Without keys that fit there is no right block.
        draft
            .sealed(&self.check_key)
            .unwrap_or_else(|| rng.bytes(BLOCK))
    }

    fn right_draft(&self, rng: &mut Rng, number: u32, previous: Block) -> Draft {
        let length = self.right_length(rng, number);
        let header = Header {
            number,
            count: self.count,
            release: self.release,
            length: length as u16,
            mark: self.mark,
        };
        Draft {
            encryption_key: self.encryption_key.clone(),
            header,
            filled: filled(&rng.bytes(length)).unwrap_or([0; PAYLOAD]),
            previous,
            crossed: false,
            marked_after_sealing: None,
            flipped_after_sealing: None,
        }
    }

    fn right_length(&self, rng: &mut Rng, number: u32) -> usize {
        let is_last = number.saturating_add(1) >= self.count;
        match (is_last, self.count) {
            (false, _) => PAYLOAD,
            (true, 1) => rng.below(PAYLOAD + 1),
            (true, _) => 1 + rng.below(PAYLOAD),
        }
    }
}

impl Draft {
    fn damage(&mut self, rng: &mut Rng) {
        let Header {
            number,
            count,
            release,
            mark,
            ..
        } = self.header;
        match rng.below(15) {
            0 => self.header.number = rng.pick([number.wrapping_add(1), number.wrapping_sub(1)]),
            1 => self.header.number = rng.word(),
            2 => self.header.count = rng.pick([0, 65_536, u32::MAX]),
            3 => self.header.count = rng.pick([count.wrapping_add(1), count.wrapping_sub(1)]),
            4 => self.header.release = release ^ 1 << rng.below(32),
            5 => self.header.length = rng.pick([0, 1, 479, 480, 481, 512, u16::MAX]),
            6 => self.header.mark = odd_mark(rng),
            7 => self.spoil_fill(rng),
            8 => self.encryption_key = key(rng),
            9 => self.header.mark = mark ^ 2,
            10 => self.marked_after_sealing = Some(mark ^ 2),
            11 => self.previous = any_check(rng),
            12 => self.crossed = true,
            13 => self.marked_after_sealing = Some(odd_mark(rng)),
            _ => self.flipped_after_sealing = Some(rng.below(8 * BLOCK)),
        }
    }

    /// Changes nothing where the payload leaves no fill.
    fn spoil_fill(&mut self, rng: &mut Rng) {
        let length = usize::from(self.header.length);
        let place = length + rng.below(PAYLOAD.saturating_sub(length));
        if let Some(byte) = self.filled.get_mut(place) {
            *byte ^= 1 << rng.below(8);
        }
    }

    fn sealed(&self, check_key: &[u8]) -> Option<Vec<u8>> {
        let keys = Keys::new(&self.encryption_key, check_key).ok()?;
        let covered_as = if self.crossed { 2 } else { 0 } ^ self.header.mark;
        let tail = tail(covered_as, &self.previous);
        let mut block = keys.seal_over(&self.header, &self.filled, tail);
        if let Some(mark) = self.marked_after_sealing {
            block[14..16].copy_from_slice(&mark.to_be_bytes());
        }
        if let Some(bit) = self.flipped_after_sealing {
            *block.get_mut(bit / 8)? ^= 1 << (bit % 8);
        }
        Some(block)
    }
}

/// A mark of no edition.
fn odd_mark(rng: &mut Rng) -> u16 {
    rng.pick([1, 3, 4, 256, 258, 512, u16::MAX])
}

/// A check other than the reader's last one, except zeros in a fresh reader.
fn any_check(rng: &mut Rng) -> Block {
    if rng.percent(40) {
        return NO_CHECK;
    }
    NO_CHECK.map(|_| rng.byte())
}
