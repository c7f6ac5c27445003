//! Turns of up to 200 blocks of both editions, and an image of the most blocks there can be: lines in the console's form, but longer
//! than it takes, and their answers.

use super::rng::Rng;
use crate::aes::Block;
use crate::console::Console;
use crate::hex::shown;
use crate::image::{check_in, filled, Edition, Header, Keys, BLOCK, NO_CHECK, PAYLOAD};
use std::io::{self, Write};
use std::ops::Range;

/// The longest line here, in bytes: 200 blocks and the output of 128 are 330,000.
const LONGEST: usize = 1 << 19;

const MOST_ASKED: usize = 128;
const MOST_LENT: usize = 200;
const LARGEST: u32 = 65_535;

/// Writes the lines of a seed and, one for each, the answers.
pub fn write<W: Write>(seed: u64, lines: W, answers: W) -> io::Result<()> {
    let mut script = Script::new(seed, lines, answers);
    every_kind(&mut script)?;
    largest(&mut script, LARGEST)
}

fn every_kind<W: Write>(script: &mut Script<W>) -> io::Result<()> {
    for edition in [Edition::First, Edition::Second] {
        around_asked(script, edition)?;
        around_lent(script, edition)?;
        around_room(script, edition)?;
        stopped(script, edition)?;
        fill_spoiled(script, edition)?;
        after_last(script, edition)?;
        disordered(script, edition)?;
        cut_at_random(script, edition)?;
    }
    Ok(())
}

/// A console that answers each line as it is written, so that the next can suit what is expected by then.
struct Script<W> {
    rng: Rng,
    console: Console,
    lines: W,
    answers: W,
}

impl<W: Write> Script<W> {
    fn new(seed: u64, lines: W, answers: W) -> Script<W> {
        Script {
            rng: Rng::new(seed),
            console: Console::taking(LONGEST),
            lines,
            answers,
        }
    }

    fn say(&mut self, line: &str) -> io::Result<()> {
        let answer = self.console.answer(line.as_bytes());
        writeln!(self.lines, "{line}")?;
        writeln!(self.answers, "{answer}")
    }

    fn start(&mut self, image: &Image) -> io::Result<()> {
        let (encryption_key, check_key) = (shown(&image.encryption_key), shown(&image.check_key));
        self.say(&format!("read-start {encryption_key} {check_key}"))
    }

    fn turn(&mut self, asked: usize, blocks: &[u8], room: usize) -> io::Result<()> {
        let output = self.rng.bytes(room);
        let (blocks, output) = (shown(blocks), shown(&output));
        self.say(&format!("read-turn {asked} {blocks} {output}"))
    }

    fn complete(&mut self) -> io::Result<()> {
        self.say("read-complete")
    }

    fn expected(&self) -> usize {
        self.console.reader().expected() as usize
    }

    fn last(&self) -> Block {
        self.console.reader().last()
    }

    fn is_complete(&self) -> bool {
        self.console.reader().complete().is_ok()
    }
}

struct Image {
    encryption_key: Vec<u8>,
    check_key: Vec<u8>,
    keys: Keys,
    count: u32,
    release: u32,
    mark: u16,
}

impl Image {
    fn drawn(rng: &mut Rng, count: u32, edition: Edition) -> Image {
        let lengths = rng.pick([(16, 16), (16, 32), (24, 16), (32, 24), (32, 32)]);
        let (encryption_key, check_key) = (rng.bytes(lengths.0), rng.bytes(lengths.1));
        Image {
            keys: Keys::new(&encryption_key, &check_key).expect("keys of right lengths"),
            encryption_key,
            check_key,
            count,
            release: rng.word(),
            mark: edition.mark(),
        }
    }

    fn header(&self, rng: &mut Rng, number: u32) -> Header {
        let length = if number + 1 < self.count {
            PAYLOAD
        } else {
            1 + rng.below(PAYLOAD)
        };
        Header {
            number,
            count: self.count,
            release: self.release,
            length: length as u16,
            mark: self.mark,
        }
    }

    /// A block under any header, with random payload as far as its length goes.
    fn block(&self, rng: &mut Rng, header: &Header, previous: &Block) -> Vec<u8> {
        let payload = rng.bytes(usize::from(header.length).min(PAYLOAD));
        let filled = filled(&payload).unwrap_or([0; PAYLOAD]);
        self.keys.seal(header, &filled, previous)
    }

    /// Blocks in order, the first of them sealed on the check given and each other one on that before it.
    fn blocks(&self, rng: &mut Rng, numbers: Range<u32>, last: Block) -> Vec<u8> {
        let mut previous = last;
        numbers
            .flat_map(|number| {
                let header = self.header(rng, number);
                let block = self.block(rng, &header, &previous);
                previous = check_in(&block);
                block
            })
            .collect()
    }

    /// Its first blocks; each call makes another build.
    fn build(&self, rng: &mut Rng, blocks: u32) -> Vec<u8> {
        self.blocks(rng, 0..blocks, NO_CHECK)
    }
}

/// The first blocks of some.
fn first(blocks: &[u8], count: usize) -> &[u8] {
    &blocks[..count * BLOCK]
}

fn around_asked<W: Write>(script: &mut Script<W>, edition: Edition) -> io::Result<()> {
    let image = Image::drawn(&mut script.rng, 300, edition);
    let blocks = image.build(&mut script.rng, MOST_LENT as u32);
    for lent in [0, 1, 127, 128, 129, MOST_LENT] {
        for asked in [0, 1, 127, 128, 129, MOST_LENT] {
            script.start(&image)?;
            script.turn(asked, first(&blocks, lent), PAYLOAD * lent.min(asked))?;
            script.complete()?;
        }
    }
    Ok(())
}

/// Lent bytes that are not whole blocks, also past those asked for.
fn around_lent<W: Write>(script: &mut Script<W>, edition: Edition) -> io::Result<()> {
    let image = Image::drawn(&mut script.rng, 300, edition);
    let blocks = image.build(&mut script.rng, MOST_LENT as u32);
    for lent in [1, 128, 129, MOST_LENT] {
        for less in [1, 16, 511] {
            script.start(&image)?;
            let room = PAYLOAD * lent.min(MOST_ASKED);
            script.turn(MOST_ASKED, &blocks[..lent * BLOCK - less], room)?;
        }
    }
    Ok(())
}

/// Every room from none to more than is needed, a byte and a block around the bound among them.
fn around_room<W: Write>(script: &mut Script<W>, edition: Edition) -> io::Result<()> {
    let image = Image::drawn(&mut script.rng, 300, edition);
    let blocks = image.build(&mut script.rng, MOST_LENT as u32);
    for lent in [1, 2, 127, 128, 129, MOST_LENT] {
        let needed = PAYLOAD * lent.min(MOST_ASKED);
        let less = [1, 479, 480, 481].map(|less| needed.saturating_sub(less));
        let more = [1, 479, 480, 481].map(|more| needed + more);
        for room in [[0; 1].as_slice(), &less, &[needed], &more].concat() {
            script.start(&image)?;
            script.turn(MOST_ASKED, first(&blocks, lent), room)?;
        }
        script.complete()?;
    }
    Ok(())
}

/// A block that is refused for the reason given; 9 and 10 only behind a block that was accepted.
fn wrong(image: &Image, rng: &mut Rng, reason: u8, number: u32, previous: &Block) -> Vec<u8> {
    let mut header = image.header(rng, number);
    match reason {
        7 => header.count = rng.pick([0, LARGEST + 1, u32::MAX]),
        8 => header.number = number + 1,
        9 => header.count += 1,
        10 => header.release ^= 1 << rng.below(32),
        12 => header.length = rng.pick([0, 479, 481, u16::MAX]),
        13 => header.mark = rng.pick([1, 3, 256, 512, u16::MAX]),
        _ => {}
    }
    let mut block = image.block(rng, &header, previous);
    if reason == 14 {
        block[rng.below(BLOCK)] ^= 1 << rng.below(8);
    }
    block
}

/// Each reason at the first places, in the middle, at the last, and at one that is lent and not asked for; then the right blocks.
fn stopped<W: Write>(script: &mut Script<W>, edition: Edition) -> io::Result<()> {
    let image = Image::drawn(&mut script.rng, 300, edition);
    let right = image.build(&mut script.rng, 300);
    for place in [0, 1, 63, 64, 126, 127, 128] {
        for reason in [7, 8, 9, 10, 12, 13, 14] {
            let mut lent = first(&right, 129).to_vec();
            let previous = check_in(first(&right, place));
            let block = wrong(&image, &mut script.rng, reason, place as u32, &previous);
            lent[place * BLOCK..(place + 1) * BLOCK].copy_from_slice(&block);
            script.start(&image)?;
            script.turn(MOST_ASKED, &lent, PAYLOAD * MOST_ASKED)?;
            let rest = &right[script.expected() * BLOCK..];
            script.turn(MOST_ASKED, first(rest, 129), PAYLOAD * MOST_ASKED)?;
            script.complete()?;
        }
    }
    Ok(())
}

/// Only the last block has fill.
fn fill_spoiled<W: Write>(script: &mut Script<W>, edition: Edition) -> io::Result<()> {
    for place in [0, 1, 63, 127] {
        let image = Image::drawn(&mut script.rng, place + 1, edition);
        let mut blocks = image.build(&mut script.rng, place);
        let header = Header {
            length: 5,
            ..image.header(&mut script.rng, place)
        };
        let mut spoiled = filled(b"fives").unwrap_or([0; PAYLOAD]);
        spoiled[5 + script.rng.below(PAYLOAD - 5)] = 1;
        blocks.extend(image.keys.seal(&header, &spoiled, &check_in(&blocks)));
        script.start(&image)?;
        script.turn(MOST_ASKED, &blocks, PAYLOAD * MOST_ASKED)?;
        script.complete()?;
    }
    Ok(())
}

fn after_last<W: Write>(script: &mut Script<W>, edition: Edition) -> io::Result<()> {
    for count in [1, 2, 64, 127, 128] {
        let image = Image::drawn(&mut script.rng, count, edition);
        let mut blocks = image.build(&mut script.rng, count);
        blocks.extend(script.rng.bytes(BLOCK));
        script.start(&image)?;
        script.turn(MOST_ASKED, &blocks, PAYLOAD * MOST_ASKED)?;
        script.complete()?;
        script.turn(MOST_ASKED, first(&blocks, 1), PAYLOAD)?;
    }
    Ok(())
}

/// Two builds mixed from a place on, a block doubled, left out or changed with the next, and one of the other edition, chained or not;
/// then the right blocks.
fn disordered<W: Write>(script: &mut Script<W>, edition: Edition) -> io::Result<()> {
    let image = Image::drawn(&mut script.rng, 300, edition);
    let (right, other) = (
        image.build(&mut script.rng, 300),
        image.build(&mut script.rng, 300),
    );
    for place in [0, 1, 63, 126, 127] {
        let (before, at) = right.split_at(place * BLOCK);
        let (block, behind) = at.split_at(BLOCK);
        let header = Header {
            mark: image.mark ^ 2,
            ..image.header(&mut script.rng, place as u32)
        };
        let chained = image.block(&mut script.rng, &header, &check_in(before));
        let alone = image.block(&mut script.rng, &header, &NO_CHECK);
        for lent in [
            [before, &other[place * BLOCK..]].concat(),
            [before, block, block, behind].concat(),
            [before, behind].concat(),
            [before, first(behind, 1), block, &behind[BLOCK..]].concat(),
            [before, &chained, behind].concat(),
            [before, &alone, behind].concat(),
        ] {
            script.start(&image)?;
            script.turn(MOST_ASKED, first(&lent, 129), PAYLOAD * MOST_ASKED)?;
            let rest = &right[script.expected() * BLOCK..];
            script.turn(MOST_ASKED, first(rest, 129), PAYLOAD * MOST_ASKED)?;
            script.complete()?;
        }
    }
    Ok(())
}

/// Any number of blocks lent and asked for, some damaged, sometimes with too little room.
fn cut_at_random<W: Write>(script: &mut Script<W>, edition: Edition) -> io::Result<()> {
    let image = Image::drawn(&mut script.rng, 1_500, edition);
    let right = image.build(&mut script.rng, image.count);
    script.start(&image)?;
    while !script.is_complete() {
        let left = &right[script.expected() * BLOCK..];
        let rng = &mut script.rng;
        let lent = rng.below(MOST_LENT + 1).min(left.len() / BLOCK);
        let asked = 1 + rng.below(MOST_ASKED);
        let mut blocks = first(left, lent).to_vec();
        if lent > 0 && rng.percent(20) {
            blocks[rng.below(lent * BLOCK)] ^= 1;
        }
        let needed = PAYLOAD * lent.min(asked);
        let room = if rng.percent(10) {
            rng.below(needed)
        } else {
            needed + rng.below(100)
        };
        script.turn(asked, &blocks, room)?;
        script.complete()?;
    }
    Ok(())
}

/// In edition 2, in turns of 128, now and then with more lent, and once with a damaged block in the middle, which is then offered again.
fn largest<W: Write>(script: &mut Script<W>, count: u32) -> io::Result<()> {
    let image = Image::drawn(&mut script.rng, count, Edition::Second);
    let mut damage = Some(count as usize / 2);
    script.start(&image)?;
    while !script.is_complete() {
        let from = script.expected();
        let lent = script.rng.pick([MOST_ASKED, MOST_ASKED, MOST_ASKED, 129]);
        let to = count.min((from + lent) as u32);
        let last = script.last();
        let mut blocks = image.blocks(&mut script.rng, from as u32..to, last);
        if let Some(place) = damage.filter(|number| (from..from + MOST_ASKED).contains(number)) {
            blocks[(place - from) * BLOCK + script.rng.below(BLOCK)] ^= 1;
            damage = None;
        }
        let handled = (blocks.len() / BLOCK).min(MOST_ASKED);
        script.turn(MOST_ASKED, &blocks, PAYLOAD * handled)?;
    }
    script.complete()
}

#[cfg(test)]
mod tests {
    use super::*;

    fn answers(seed: u64) -> Vec<String> {
        let (mut lines, mut answers) = (Vec::new(), Vec::new());
        let mut script = Script::new(seed, &mut lines, &mut answers);
        every_kind(&mut script).unwrap();
        largest(&mut script, 1_000).unwrap();
        let answers = String::from_utf8(answers).unwrap();
        answers.lines().map(str::to_string).collect()
    }

    #[test]
    fn every_answer_of_a_turn_is_met_and_no_line_is_bad() {
        let answers = answers(1);
        let turns: Vec<Vec<&str>> = answers
            .iter()
            .map(|answer| answer.split(' ').collect())
            .filter(|words: &Vec<&str>| words.len() > 1)
            .collect();
        for whole in ["0", "4", "5", "6"] {
            assert!(turns.iter().any(|words| words[0] == whole), "{whole}");
        }
        for reason in ["7", "8", "9", "10", "12", "13", "14", "15", "16", "-"] {
            assert!(turns.iter().any(|words| words[4] == reason), "{reason}");
        }
        assert!(turns.iter().filter(|words| words[1] == "128").count() > 50);
        assert!(answers.iter().all(|answer| answer != "?"));
    }

    #[test]
    fn the_largest_ends_complete() {
        assert_eq!(answers(2).last().map(String::as_str), Some("0"));
    }
}
