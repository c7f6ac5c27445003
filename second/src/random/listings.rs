//! Inputs of a listing from a fixed seed: two keys of 16 bytes and an image of either edition, whole, cut, damaged, mixed or with
//! more behind.

use super::plan::Plan;
use super::rng::Rng;
use crate::aes::Block;
use crate::image::{check_in, filled, Edition, Header, Keys, BLOCK, NO_CHECK, PAYLOAD};
use std::iter;

const KEYS: usize = 32;
const RANDOM_IMAGES: usize = 200;
const LARGEST: u32 = 65_535;

pub struct Input {
    pub name: String,
    pub bytes: Vec<u8>,
}

impl Input {
    fn new(name: impl Into<String>, bytes: Vec<u8>) -> Input {
        Input {
            name: name.into(),
            bytes,
        }
    }
}

pub fn inputs(seed: u64) -> impl Iterator<Item = Input> {
    let mut rng = Rng::new(seed);
    let sets = sets(&mut rng);
    small(&mut rng, &sets).chain(largest(sets))
}

/// One for each edition.
fn sets(rng: &mut Rng) -> [Set; 2] {
    [Edition::First, Edition::Second].map(|edition| Set::drawn(rng, edition))
}

fn small(rng: &mut Rng, sets: &[Set; 2]) -> impl Iterator<Item = Input> + use<> {
    let [first, second] = sets;
    short(rng)
        .chain(rests(first))
        .chain(of_edition(first, rng))
        .chain(of_edition(second, rng))
        .chain(random_images(rng))
}

fn of_edition(set: &Set, rng: &mut Rng) -> impl Iterator<Item = Input> + use<> {
    let name = set.name;
    cuts(set)
        .chain(refusals(set))
        .chain(ends(set, rng))
        .chain(disorders(set))
        .map(move |input| Input::new(format!("{name}{}", input.name), input.bytes))
}

/// Keys and a release, from which the images of one seed and one edition are made.
struct Set {
    name: &'static str,
    keys: Vec<u8>,
    sealing: Keys,
    other: Keys,
    release: u32,
    mark: u16,
}

/// Images of one count and one release differ in these.
#[derive(Clone, Copy)]
struct Build {
    mark: u16,
    byte: u8,
}

impl Set {
    fn drawn(rng: &mut Rng, edition: Edition) -> Set {
        let keys = rng.bytes(KEYS);
        let other = rng.bytes(16);
        Set {
            name: match edition {
                Edition::First => "",
                Edition::Second => "edition2-",
            },
            sealing: Keys::new(&keys[..16], &keys[16..]).expect("keys of 16 bytes"),
            other: Keys::new(&other, &keys[16..]).expect("keys of 16 bytes"),
            keys,
            release: rng.word(),
            mark: edition.mark(),
        }
    }

    fn build(&self) -> Build {
        Build {
            mark: self.mark,
            byte: 0,
        }
    }

    fn header(&self, number: u32, count: u32) -> Header {
        Header {
            number,
            count,
            release: self.release,
            length: if number + 1 < count {
                PAYLOAD as u16
            } else {
                100
            },
            mark: self.mark,
        }
    }

    fn block(&self, header: &Header, byte: u8, previous: &Block) -> Vec<u8> {
        let length = usize::from(header.length).min(PAYLOAD);
        let payload = vec![header.number as u8 ^ byte; length];
        let filled = filled(&payload).unwrap_or([0; PAYLOAD]);
        self.sealing.seal(header, &filled, previous)
    }

    /// The first blocks of a build of this count.
    fn blocks(&self, build: Build, blocks: u32, count: u32) -> Vec<Vec<u8>> {
        let mut previous = NO_CHECK;
        (0..blocks)
            .map(|number| {
                let header = Header {
                    mark: build.mark,
                    ..self.header(number, count)
                };
                let block = self.block(&header, build.byte, &previous);
                previous = check_in(&block);
                block
            })
            .collect()
    }

    fn three(&self, build: Build) -> [Vec<u8>; 3] {
        let blocks = self.blocks(build, 3, 3);
        blocks.try_into().expect("three blocks")
    }

    /// The keys, then these blocks.
    fn before(&self, blocks: &[&Vec<u8>]) -> Vec<u8> {
        let blocks = blocks.iter().flat_map(|block| block.iter());
        self.keys.iter().chain(blocks).copied().collect()
    }

    /// The keys, then that many blocks of an image of this count.
    fn input(&self, blocks: u32, count: u32) -> Vec<u8> {
        let blocks = self.blocks(self.build(), blocks, count);
        self.before(&Vec::from_iter(&blocks))
    }

    /// An image whose third and last block has the header given.
    fn ending_in(&self, header: Header) -> Vec<u8> {
        let first = self.input(2, 3);
        let last = self.block(&header, 0, &check_in(&first));
        [first, last].concat()
    }
}

/// Too few bytes for the keys, the keys alone, and one byte more.
fn short(rng: &mut Rng) -> impl Iterator<Item = Input> + use<> {
    let bytes = rng.bytes(KEYS + 1);
    (0..=bytes.len()).map(move |n| Input::new(format!("short-{n}"), bytes[..n].to_vec()))
}

/// Three blocks, cut at and around the parts of each.
fn cuts(set: &Set) -> impl Iterator<Item = Input> + use<> {
    let whole = set.input(3, 3);
    let inside = [0, 1, 15, 16, 17, 495, 496, 497, 511];
    let places = (0..3).flat_map(move |block| inside.map(|at| KEYS + block * BLOCK + at));
    places
        .chain([KEYS + 3 * BLOCK])
        .map(move |n| Input::new(format!("cut-{n}"), whole[..n].to_vec()))
}

/// A block and from 1 to 511 bytes of the next.
fn rests(set: &Set) -> impl Iterator<Item = Input> + use<> {
    let whole = set.input(2, 2);
    (1..BLOCK).map(move |n| Input::new(format!("rest-{n}"), whole[..KEYS + BLOCK + n].to_vec()))
}

/// Each refusal that a listing can show. 4 and 5 are of calls that it never makes.
fn refusals(set: &Set) -> impl Iterator<Item = Input> + use<> {
    let right = set.header(2, 3);
    let mut flipped = set.input(3, 3);
    flipped[KEYS + 2 * BLOCK + 300] ^= 1;
    let first = set.input(2, 3);
    let foreign = set.other.seal(&right, &[1; PAYLOAD], &check_in(&first));
    let wrong = |number: u8, bytes| Input::new(format!("refused-{number}"), bytes);
    [
        wrong(6, set.input(3, 3)[..KEYS + 3 * BLOCK - 1].to_vec()),
        wrong(7, set.ending_in(Header { count: 0, ..right })),
        wrong(8, set.ending_in(Header { number: 1, ..right })),
        wrong(9, set.ending_in(Header { count: 4, ..right })),
        wrong(
            10,
            set.ending_in(Header {
                release: set.release ^ 1,
                ..right
            }),
        ),
        wrong(12, set.ending_in(Header { length: 0, ..right })),
        wrong(13, set.ending_in(Header { mark: 1, ..right })),
        wrong(14, flipped),
        wrong(15, [first, foreign].concat()),
        wrong(16, set.input(4, 3)),
    ]
    .into_iter()
}

/// Complete, not complete, a block after the last of six, and keys with 100 bytes more.
fn ends(set: &Set, rng: &mut Rng) -> impl Iterator<Item = Input> + use<> {
    [
        Input::new("end-0", set.input(3, 3)),
        Input::new("end-17", set.input(2, 3)),
        Input::new("after-six", [set.input(6, 6), rng.bytes(BLOCK)].concat()),
        Input::new("example", rng.bytes(KEYS + 100)),
    ]
    .into_iter()
}

/// Whole blocks that do not belong where they are: of another build or edition, doubled, left out, or in another order.
fn disorders(set: &Set) -> impl Iterator<Item = Input> + use<> {
    let own = set.build();
    let [a, b, c] = set.three(own);
    let [_, y, z] = set.three(Build { byte: 77, ..own });
    let mark = set.mark ^ 2;
    let [_, _, foreign] = set.three(Build { mark, ..own });
    let marked = Header {
        mark,
        ..set.header(2, 3)
    };
    let mut turned = set.before(&[&a, &b, &c]);
    turned[KEYS + 2 * BLOCK + 15] ^= 2;
    [
        ("mixed-last", set.before(&[&a, &b, &z])),
        ("mixed-middle", set.before(&[&a, &y, &c])),
        ("mixed-both", set.before(&[&a, &y, &z])),
        ("doubled", set.before(&[&a, &b, &b, &c])),
        ("left-out", set.before(&[&a, &c])),
        ("first-lost", set.before(&[&b, &c])),
        ("reordered", set.before(&[&a, &c, &b])),
        ("other-edition", set.before(&[&a, &b, &foreign])),
        ("other-edition-chained", set.ending_in(marked)),
        ("mark-damaged", turned),
    ]
    .map(|(name, bytes)| Input::new(name, bytes))
    .into_iter()
}

fn random_images(rng: &mut Rng) -> impl Iterator<Item = Input> + use<> {
    let mut rng = Rng::new(rng.number());
    (0..RANDOM_IMAGES).map(move |n| Input::new(format!("random-{n}"), random_image(&mut rng)))
}

/// Some blocks are damaged, the count is not always reached or kept to, and the end is sometimes cut.
fn random_image(rng: &mut Rng) -> Vec<u8> {
    let mut plan = Plan::drawn(rng);
    plan.encryption_key = rng.bytes(16);
    plan.check_key = rng.bytes(16);
    let blocks = (plan.count() as usize).min(12) + rng.below(2);
    let blocks = plan.blocks(rng, 0, NO_CHECK, blocks);
    let mut input = [&plan.encryption_key[..], &plan.check_key, &blocks].concat();
    if rng.percent(20) {
        input.truncate(KEYS + rng.below(blocks.len() + 1));
    }
    input
}

/// The most blocks that an image can have, in edition 1, and in edition 2 with one more behind.
fn largest(sets: [Set; 2]) -> impl Iterator<Item = Input> {
    let [first, second] = sets;
    let whole = move || Input::new("largest", first.input(LARGEST, LARGEST));
    let more = move || {
        let mut input = second.input(LARGEST, LARGEST);
        input.extend_from_within(KEYS..KEYS + BLOCK);
        Input::new("largest-and-one", input)
    };
    iter::once_with(whole).chain(iter::once_with(more))
}

#[cfg(test)]
mod tests {
    use super::*;
    use crate::listing::list;
    use std::collections::HashSet;

    fn drawn(seed: u64) -> Vec<Input> {
        let mut rng = Rng::new(seed);
        let sets = sets(&mut rng);
        small(&mut rng, &sets).collect()
    }

    fn listed(name: &str) -> String {
        let inputs = drawn(1);
        let found = inputs.iter().find(|input| input.name == name).unwrap();
        list(&found.bytes)
    }

    #[test]
    fn each_refusal_comes_at_the_third_block() {
        for edition in ["", "edition2-"] {
            for number in [6, 7, 8, 9, 10, 12, 13, 14, 15] {
                let end = format!("\n1 0 480\n2 {number} 0\nend 17 2\n");
                let text = listed(&format!("{edition}refused-{number}"));
                assert!(text.ends_with(&end), "{text}");
            }
            let text = listed(&format!("{edition}refused-16"));
            assert!(text.ends_with("\n3 16 0\nend 0 3\n"));
        }
    }

    #[test]
    fn the_ends() {
        for edition in ["", "edition2-"] {
            let listed = |name| listed(&format!("{edition}{name}"));
            assert!(listed("end-0").ends_with("\n2 0 100\nend 0 3\n"));
            assert!(listed("end-17").ends_with("\n1 0 480\nend 17 2\n"));
            assert!(listed("after-six").ends_with("\n6 16 0\nend 0 6\n"));
            assert_eq!(listed("example"), "block answer length\n0 6 0\nend 17 0\n");
        }
    }

    /// What each edition answers, at which block.
    #[test]
    fn the_disorders() {
        let whole = "2 0 100\nend 0 3";
        for (name, first, second) in [
            ("mixed-last", whole, "2 14 0\nend 17 2"),
            ("mixed-middle", whole, "1 14 0\nend 17 1"),
            ("mixed-both", whole, "1 14 0\nend 17 1"),
            ("doubled", "2 8 0\nend 17 2", "2 14 0\nend 17 2"),
            ("left-out", "1 8 0\nend 17 1", "1 14 0\nend 17 1"),
            ("first-lost", "0 8 0\nend 17 0", "0 14 0\nend 17 0"),
            ("reordered", "1 8 0\nend 17 1", "1 14 0\nend 17 1"),
            ("other-edition", "2 14 0\nend 17 2", "2 13 0\nend 17 2"),
            (
                "other-edition-chained",
                "2 13 0\nend 17 2",
                "2 13 0\nend 17 2",
            ),
            ("mark-damaged", "2 14 0\nend 17 2", "2 14 0\nend 17 2"),
        ] {
            for (edition, end) in [("", first), ("edition2-", second)] {
                let text = listed(&format!("{edition}{name}"));
                assert!(
                    text.ends_with(&format!("\n{end}\n")),
                    "{edition}{name}: {text}"
                );
            }
        }
    }

    #[test]
    fn names_differ_and_a_seed_fixes_the_inputs() {
        let (inputs, again) = (drawn(1), drawn(1));
        let names: HashSet<&String> = inputs.iter().map(|input| &input.name).collect();
        assert_eq!(names.len(), inputs.len());
        let mut pairs = inputs.iter().zip(&again);
        assert!(pairs.all(|(one, other)| one.bytes == other.bytes));
    }
}
