//! Response files of AESAVS replayed: known answers and the Monte Carlo chain, for ECB and CBC (request E13, docs/REQUIREMENTS.md).

use crate::aes::{Block, KeySchedule};
use crate::hex;
use crate::modes::xor;
use std::fmt::Write;

const LONGEST: usize = 4096;
const STEPS: usize = 1000;

/// The lines of the input without their ends.
fn lines(input: &[u8]) -> Vec<&[u8]> {
    let mut lines: Vec<&[u8]> = input.split(|&byte| byte == b'\n').collect();
    if lines.last().is_some_and(|line| line.is_empty()) {
        lines.pop();
    }
    lines
        .into_iter()
        .map(|line| line.strip_suffix(b"\r").unwrap_or(line))
        .collect()
}

#[derive(Clone, Default)]
struct Record {
    count: u64,
    key: Vec<u8>,
    iv: Option<Block>,
    first: Vec<u8>,
    second: Vec<u8>,
}

/// What a section goes by: its way, and the chain with whether it has an IV, once a record has started it.
struct Section {
    encrypting: bool,
    chain: Option<Chain>,
}

#[derive(Clone)]
struct Chain {
    key: Vec<u8>,
    iv: Option<Block>,
    text: Block,
}

/// The fields that a record has so far.
enum Open {
    Nothing,
    Count(Record),
    Key(Record),
    Iv(Record),
    First(Record),
}

/// The whole output.
pub fn replay(input: &[u8]) -> String {
    let mut output = String::new();
    if let Err(line) = answer(input, &mut output) {
        writeln!(output, "22 {line}").expect("a string takes everything");
    }
    output
}

/// The error is the number of the line that is refused.
fn answer(input: &[u8], output: &mut String) -> Result<(), usize> {
    let lines = lines(input);
    let monte = match lines.first().copied() {
        Some(b"kat") => false,
        Some(b"mct") => true,
        _ => return Err(1),
    };
    let mut section: Option<Section> = None;
    let mut open = Open::Nothing;
    for (index, line) in lines.iter().enumerate().skip(1) {
        let refused = index + 1;
        if line.len() > LONGEST {
            return Err(refused);
        }
        if line.is_empty() || line[0] == b'#' {
            continue;
        }
        if let Some(encrypting) = mark(line) {
            if !matches!(open, Open::Nothing) {
                return Err(refused);
            }
            section = Some(Section {
                encrypting,
                chain: None,
            });
            continue;
        }
        let current = section.as_mut().ok_or(refused)?;
        let (name, value) = field(line).ok_or(refused)?;
        open = next(open, name, value, current, monte).ok_or(refused)?;
        if let Open::First(record) = &open {
            if !record.second.is_empty() {
                let word = if monte {
                    current.monte(record)
                } else {
                    current.known(record)
                };
                writeln!(output, "{} {}", record.count, word).expect("a string takes everything");
                open = Open::Nothing;
            }
        }
    }
    match open {
        Open::Nothing => Ok(()),
        _ => Err(lines.len() + 1),
    }
}

fn mark(line: &[u8]) -> Option<bool> {
    match line {
        b"[ENCRYPT]" => Some(true),
        b"[DECRYPT]" => Some(false),
        _ => None,
    }
}

fn field(line: &[u8]) -> Option<(&'static str, &[u8])> {
    ["COUNT", "KEY", "IV", "PLAINTEXT", "CIPHERTEXT"]
        .into_iter()
        .find_map(|name| {
            let rest = line.strip_prefix(name.as_bytes())?;
            Some((name, rest.strip_prefix(b" = ")?))
        })
}

/// The record with one field more, or nothing where that field may not come.
fn next(open: Open, name: &str, value: &[u8], section: &Section, monte: bool) -> Option<Open> {
    match (open, name) {
        (Open::Nothing, "COUNT") => Some(Open::Count(Record {
            count: decimal(value)?,
            ..Record::default()
        })),
        (Open::Count(record), "KEY") => {
            let key = hex::read(value).filter(|key| matches!(key.len(), 16 | 24 | 32))?;
            Some(Open::Key(Record { key, ..record }))
        }
        (Open::Key(record), "IV") => {
            let iv = Some(hex::read(value)?.try_into().ok()?);
            Some(Open::Iv(Record { iv, ..record }))
        }
        (Open::Key(record) | Open::Iv(record), name) if name == section.first_name() => {
            let first = hex::read(value)?;
            let good = if monte {
                first.len() == 16 && section.takes(&record)
            } else {
                !first.is_empty() && first.len() % 16 == 0
            };
            good.then(|| Open::First(Record { first, ..record }))
        }
        (Open::First(record), name) if name == section.second_name() => {
            let second = hex::read(value).filter(|second| second.len() == record.first.len())?;
            Some(Open::First(Record { second, ..record }))
        }
        _ => None,
    }
}

fn decimal(value: &[u8]) -> Option<u64> {
    if value.is_empty() || !value.iter().all(u8::is_ascii_digit) {
        return None;
    }
    std::str::from_utf8(value).ok()?.parse().ok()
}

impl Section {
    fn first_name(&self) -> &'static str {
        if self.encrypting {
            "PLAINTEXT"
        } else {
            "CIPHERTEXT"
        }
    }

    fn second_name(&self) -> &'static str {
        if self.encrypting {
            "CIPHERTEXT"
        } else {
            "PLAINTEXT"
        }
    }

    /// A record of the chain has an IV where the first one has.
    fn takes(&self, record: &Record) -> bool {
        match &self.chain {
            Some(chain) => chain.iv.is_some() == record.iv.is_some(),
            None => true,
        }
    }

    fn known(&self, record: &Record) -> &'static str {
        let key = KeySchedule::new(&record.key).expect("the size was looked at");
        let mut chained = record.iv;
        let (texts, _) = record.first.as_chunks::<16>();
        let made: Vec<u8> = texts
            .iter()
            .flat_map(|text| self.block(&key, text, &mut chained))
            .collect();
        if made == record.second {
            "0"
        } else {
            self.second_name()
        }
    }

    /// One block of the mode; what the next is chained to stands in `chained`, which is nothing in ECB.
    fn block(&self, key: &KeySchedule, text: &Block, chained: &mut Option<Block>) -> Block {
        match (self.encrypting, *chained) {
            (true, None) => key.encrypt(text),
            (false, None) => key.decrypt(text),
            (true, Some(before)) => {
                let out = key.encrypt(&xor(text, &before));
                *chained = Some(out);
                out
            }
            (false, Some(before)) => {
                *chained = Some(*text);
                xor(&key.decrypt(text), &before)
            }
        }
    }

    fn monte(&mut self, record: &Record) -> &'static str {
        let text: Block = record.first[..].try_into().expect("the size was looked at");
        let differs = match &self.chain {
            None => None,
            Some(chain) if chain.key != record.key => Some("KEY"),
            Some(chain) if chain.iv != record.iv => Some("IV"),
            Some(chain) if chain.text != text => Some(self.first_name()),
            Some(_) => None,
        };
        let start = self.chain.clone().unwrap_or(Chain {
            key: record.key.clone(),
            iv: record.iv,
            text,
        });
        let (before, last) = self.steps(&start);
        self.chain = Some(start.after(&before, &last));
        match differs {
            Some(name) => name,
            None if last[..] == record.second[..] => "0",
            None => self.second_name(),
        }
    }

    /// Outputs 998 and 999 of AESAVS's inner loop.
    fn steps(&self, start: &Chain) -> (Block, Block) {
        let key = KeySchedule::new(&start.key).expect("the size was looked at");
        let mut chained = start.iv;
        let mut text = start.text;
        let mut outputs: Vec<Block> = Vec::with_capacity(STEPS);
        for j in 0..STEPS {
            let out = self.block(&key, &text, &mut chained);
            outputs.push(out);
            text = match start.iv {
                None => out,
                Some(iv) if j == 0 => iv,
                Some(_) => outputs[j - 1],
            };
        }
        (outputs[STEPS - 2], outputs[STEPS - 1])
    }
}

impl Chain {
    /// What AESAVS's outer loop goes on from.
    fn after(&self, before: &Block, last: &Block) -> Chain {
        let joined = [before.as_slice(), last.as_slice()].concat();
        let mask = &joined[32 - self.key.len()..];
        Chain {
            key: self.key.iter().zip(mask).map(|(a, b)| a ^ b).collect(),
            iv: self.iv.map(|_| *last),
            text: if self.iv.is_some() { *before } else { *last },
        }
    }
}
