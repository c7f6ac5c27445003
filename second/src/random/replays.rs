//! Small response files from a fixed seed: right ones, and right ones with some damage.

use super::rng::Rng;
use crate::aes::{Block, KeySchedule};
use crate::hex;
use crate::modes::{self, Operation};
use std::iter;

pub fn inputs(seed: u64) -> impl Iterator<Item = Vec<u8>> {
    let mut rng = Rng::new(seed);
    iter::from_fn(move || Some(input(&mut rng)))
}

fn input(rng: &mut Rng) -> Vec<u8> {
    let monte = rng.percent(40);
    let mut lines = vec![if monte { "mct" } else { "kat" }.to_string()];
    for _ in 0..rng.below(3) + 1 {
        lines.extend(section(rng, monte));
    }
    for _ in 0..rng.pick([0, 0, 1, 1, 1, 2]) {
        damage(rng, &mut lines);
    }
    let end = rng.pick(["\n", "\n", "\n", "\r\n"]);
    let mut bytes: Vec<u8> = lines.join(end).into_bytes();
    if !rng.percent(20) {
        bytes.extend(end.as_bytes());
    }
    if rng.percent(10) {
        bytes.truncate(rng.below(bytes.len() + 1));
    }
    if rng.percent(10) && !bytes.is_empty() {
        let place = rng.below(bytes.len());
        bytes[place] = rng.pick([0, b'\r', b'\n', b' ', b'#', b'=', b'A', b'0', b'[', 0xff]);
    }
    bytes
}

fn section(rng: &mut Rng, monte: bool) -> Vec<String> {
    let encrypting = rng.percent(50);
    let chained = rng.percent(50);
    let size = rng.pick([16, 24, 32]);
    let mut lines = vec![if encrypting { "[ENCRYPT]" } else { "[DECRYPT]" }.to_string()];
    let mut key = rng.bytes(size);
    let mut iv: Option<Block> = chained.then(|| block(rng));
    let mut text = rng.bytes(16);
    for count in 0..rng.below(4) {
        if !monte {
            let pieces = rng.pick([1, 1, 2, 5, 127]);
            key = {
                let size = rng.pick([16, 24, 32]);
                rng.bytes(size)
            };
            iv = rng.percent(50).then(|| block(rng));
            text = rng.bytes(16 * pieces);
        }
        let (before, last) = if monte {
            thousand(encrypting, &key, iv, &text)
        } else {
            (Vec::new(), once(encrypting, &key, iv, &text))
        };
        lines.extend(record(rng, count, encrypting, &key, iv, &text, &last));
        if monte {
            let joined = [&before[..], &last[..]].concat();
            let mask = joined[32 - size..].to_vec();
            key = key.iter().zip(mask).map(|(a, b)| a ^ b).collect();
            text = if chained { before } else { last.clone() };
            iv = iv.map(|_| last[..].try_into().expect("a block"));
        }
    }
    lines
}

fn block(rng: &mut Rng) -> Block {
    rng.bytes(16).try_into().expect("sixteen bytes")
}

fn record(
    rng: &mut Rng,
    count: usize,
    encrypting: bool,
    key: &[u8],
    iv: Option<Block>,
    text: &[u8],
    last: &[u8],
) -> Vec<String> {
    let names = if encrypting {
        ["PLAINTEXT", "CIPHERTEXT"]
    } else {
        ["CIPHERTEXT", "PLAINTEXT"]
    };
    let mut lines = vec![
        format!("COUNT = {count}"),
        format!("KEY = {}", hex::shown(key)),
    ];
    lines.extend(iv.map(|iv| format!("IV = {}", hex::shown(&iv))));
    lines.push(format!("{} = {}", names[0], hex::shown(text)));
    lines.push(format!("{} = {}", names[1], hex::shown(last)));
    if rng.percent(50) {
        lines.push(rng.pick(["", "# a remark", "#"]).to_string());
    }
    lines
}

fn operation(encrypting: bool, chained: bool) -> Operation {
    match (encrypting, chained) {
        (true, false) => Operation::EcbEncrypt,
        (false, false) => Operation::EcbDecrypt,
        (true, true) => Operation::CbcEncrypt,
        (false, true) => Operation::CbcDecrypt,
    }
}

fn once(encrypting: bool, key: &[u8], iv: Option<Block>, text: &[u8]) -> Vec<u8> {
    let mut output = vec![0; text.len()];
    let vector = iv.map(|iv| iv.to_vec()).unwrap_or_default();
    modes::run(
        operation(encrypting, iv.is_some()),
        key,
        &vector,
        text,
        &mut output,
    )
    .expect("a record that is right");
    output
}

/// The last two outputs, by a call of the mode a step.
fn thousand(encrypting: bool, key: &[u8], iv: Option<Block>, text: &[u8]) -> (Vec<u8>, Vec<u8>) {
    let schedule = KeySchedule::new(key).expect("a key of a size");
    let mut chained = iv;
    let mut text: Block = text.try_into().expect("a block");
    let mut last: Block = iv.unwrap_or_default();
    let mut before = last;
    for _ in 0..1000 {
        before = last;
        last = match (encrypting, chained) {
            (true, None) => schedule.encrypt(&text),
            (false, None) => schedule.decrypt(&text),
            (true, Some(value)) => schedule.encrypt(&modes::xor(&text, &value)),
            (false, Some(value)) => modes::xor(&schedule.decrypt(&text), &value),
        };
        chained = chained.map(|_| if encrypting { last } else { text });
        text = if iv.is_some() { before } else { last };
    }
    (before.to_vec(), last.to_vec())
}

/// One change that a file may have suffered.
fn damage(rng: &mut Rng, lines: &mut Vec<String>) {
    let at = rng.below(lines.len());
    match rng.below(11) {
        0 => drop(lines.remove(at)),
        1 => lines.insert(at, lines[at].clone()),
        2 => {
            let other = rng.below(lines.len());
            lines.swap(at, other);
        }
        3 => lines[at] = lines[at].to_uppercase(),
        4 => lines[at].push(rng.pick(['0', ' ', '\r', 'g', '\t'])),
        5 => drop(lines[at].pop()),
        6 => change_digit(rng, &mut lines[at]),
        7 => {
            let word = rng.pick([
                "IV = 000102030405060708090a0b0c0d0e0f",
                "[ENCRYPT]",
                "[DECRYPT]",
                "[X]",
                "COUNT = 99999999999999999999",
                "KEY = -",
                "kat",
                "",
            ]);
            lines.insert(at, word.to_string());
        }
        8 => {
            let long = format!("#{}", "x".repeat(rng.pick([4094, 4095, 4096, 4097])));
            lines.insert(at, long);
        }
        9 => lines[at] = lines[at].replacen(" = ", rng.pick(["=", " =", "= ", "  =  "]), 1),
        _ => {
            let keep = rng.below(lines[at].len() + 1);
            lines[at].truncate(keep);
        }
    }
    if lines.is_empty() {
        lines.push(String::new());
    }
}

fn change_digit(rng: &mut Rng, line: &mut String) {
    if let Some(digit) = line.pop() {
        line.push(if digit == '0' {
            rng.pick(['1', 'f', 'F'])
        } else {
            '0'
        });
    }
}
