//! Other ways to write the words of a line: good ones, bad ones, and very long ones.

use super::rng::Rng;
use crate::console::LONGEST;

type Spoil = fn(&mut Rng, Vec<String>) -> Vec<u8>;

const SPOILS: [Spoil; 16] = [
    empty_line,
    odd_bytes,
    one_odd_byte,
    wrong_name,
    word_missing,
    word_more,
    space_doubled,
    space_first,
    space_last,
    carriage_return_last,
    tab_for_space,
    digit_missing,
    letter_not_hex,
    dash_for_word,
    dash_in_word,
    odd_number,
];

pub fn joined(words: &[String]) -> Vec<u8> {
    words.join(" ").into_bytes()
}

/// Some or all hex digits in upper case; the line means the same.
pub fn recased(rng: &mut Rng, words: Vec<String>) -> Vec<u8> {
    let share = rng.pick([50, 100]);
    let mut line = joined(&words);
    let name = words.first().map_or(0, String::len);
    for letter in line.iter_mut().skip(name) {
        if rng.percent(share) {
            letter.make_ascii_uppercase();
        }
    }
    line
}

/// Zeros before one word bring the line to the limit, a little under it or a little over.
pub fn stretched(rng: &mut Rng, mut words: Vec<String>) -> Vec<u8> {
    let wanted = LONGEST - 2 + rng.below(5);
    let chosen = 1 + rng.below(words.len().saturating_sub(1));
    if let Some(word) = words.get_mut(chosen).filter(|word| *word == "-") {
        word.clear();
    }
    let zeros = wanted.saturating_sub(joined(&words).len());
    if let Some(word) = words.get_mut(chosen) {
        word.insert_str(0, &"0".repeat(zeros));
    }
    joined(&words)
}

/// A line that is mostly no call any more.
pub fn spoiled(rng: &mut Rng, words: Vec<String>) -> Vec<u8> {
    let spoil = rng.pick(SPOILS);
    spoil(rng, words)
}

fn empty_line(_: &mut Rng, _: Vec<String>) -> Vec<u8> {
    Vec::new()
}

fn odd_bytes(rng: &mut Rng, _: Vec<String>) -> Vec<u8> {
    (0..1 + rng.below(40)).map(|_| odd_byte(rng)).collect()
}

fn one_odd_byte(rng: &mut Rng, words: Vec<String>) -> Vec<u8> {
    let mut line = joined(&words);
    let chosen = rng.below(line.len());
    if let Some(byte) = line.get_mut(chosen) {
        *byte = odd_byte(rng);
    }
    line
}

/// Any byte but the line feed, which would make two lines of one.
fn odd_byte(rng: &mut Rng) -> u8 {
    match rng.byte() {
        b'\n' => b'\r',
        byte => byte,
    }
}

fn wrong_name(rng: &mut Rng, mut words: Vec<String>) -> Vec<u8> {
    if let Some(name) = words.first_mut() {
        match rng.below(5) {
            0 => name.make_ascii_uppercase(),
            1 => name.push('s'),
            2 => name.truncate(name.len().saturating_sub(1)),
            3 => {
                *name = rng
                    .pick(["help", "quit", "?", "-", "00", "check-", "read"])
                    .to_string()
            }
            _ => {
                *name = rng
                    .pick(["encrypt", "schedule", "product", "decrypt"])
                    .to_string()
            }
        }
    }
    joined(&words)
}

fn word_missing(rng: &mut Rng, mut words: Vec<String>) -> Vec<u8> {
    let chosen = rng.below(words.len());
    if chosen < words.len() {
        words.remove(chosen);
    }
    joined(&words)
}

fn word_more(rng: &mut Rng, mut words: Vec<String>) -> Vec<u8> {
    let word = rng.pick(["-", "0", "00", "1", "check"]).to_string();
    words.insert(rng.below(words.len() + 1), word);
    joined(&words)
}

fn space_doubled(rng: &mut Rng, words: Vec<String>) -> Vec<u8> {
    in_place_of_a_space(rng, &words, b"  ")
}

fn tab_for_space(rng: &mut Rng, words: Vec<String>) -> Vec<u8> {
    in_place_of_a_space(rng, &words, b"\t")
}

fn in_place_of_a_space(rng: &mut Rng, words: &[String], put: &[u8]) -> Vec<u8> {
    let (before, after) = words.split_at(rng.below(words.len()));
    [&joined(before), put, &joined(after)].concat()
}

fn space_first(_: &mut Rng, words: Vec<String>) -> Vec<u8> {
    [b" ", &*joined(&words)].concat()
}

fn space_last(_: &mut Rng, words: Vec<String>) -> Vec<u8> {
    [&*joined(&words), b" "].concat()
}

fn carriage_return_last(_: &mut Rng, words: Vec<String>) -> Vec<u8> {
    [&*joined(&words), b"\r"].concat()
}

fn digit_missing(rng: &mut Rng, words: Vec<String>) -> Vec<u8> {
    with_one_word(rng, words, |_, word| {
        word.pop();
    })
}

fn letter_not_hex(rng: &mut Rng, words: Vec<String>) -> Vec<u8> {
    with_one_word(rng, words, |rng, word| {
        word.pop();
        word.push(rng.pick(['g', 'G', 'z', 'x', '-', '.', ':', '/', '@', '`']));
    })
}

fn dash_for_word(rng: &mut Rng, words: Vec<String>) -> Vec<u8> {
    with_one_word(rng, words, |_, word| *word = "-".to_string())
}

fn dash_in_word(rng: &mut Rng, words: Vec<String>) -> Vec<u8> {
    with_one_word(rng, words, |_, word| word.insert(0, '-'))
}

fn odd_number(rng: &mut Rng, words: Vec<String>) -> Vec<u8> {
    with_one_word(rng, words, |rng, word| {
        let odd = [
            "+1",
            "-1",
            "0x1",
            "1.",
            "1e3",
            "a",
            "4294967295",
            "4294967296",
        ];
        let large = [
            "18446744073709551615",
            "18446744073709551616",
            "99999999999999999999999",
        ];
        *word = if rng.percent(70) {
            rng.pick(odd)
        } else {
            rng.pick(large)
        }
        .to_string();
    })
}

fn with_one_word(
    rng: &mut Rng,
    mut words: Vec<String>,
    change: fn(&mut Rng, &mut String),
) -> Vec<u8> {
    // Seldom the name: a word after it says more.
    let first = if rng.percent(90) { 1 } else { 0 };
    let chosen = first + rng.below(words.len().saturating_sub(first));
    if let Some(word) = words.get_mut(chosen) {
        change(rng, word);
    }
    joined(&words)
}
