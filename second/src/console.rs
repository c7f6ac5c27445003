//! The console: one answer line for every line read, `?` for a line that is not a call.
//!
//! Where the page that fixes the form of the lines is silent, it is read so:
//!
//! - A line is judged whole before anything is called: bad hex beside a key of a wrong length
//!   answers `?`, not 1. So does a block or a previous check that is not 16 bytes, a factor of
//!   `product` that is not one byte, or a key or block of `saes-..` that is not two, `-` too.
//! - First words are in lower case only. Two spaces in a row make an empty word, which is
//!   neither hex nor a number; so do a space at the front and one at the end.
//! - `-` is no bytes where bytes are due and bad where a number is due. Inside a longer word it
//!   is bad hex.
//! - A number may have any count of leading zeros that the line has room for; what fits is
//!   judged by its value. A sign is bad.
//! - The limit on a line holds for the last one too, with or without a line feed. No bytes after
//!   the last line feed are no line, so empty input gets no answer.
//! - `check-feed` answers `0` on the zero record too, and `check-close` then still gives zeros.
//! - A turn refused as a whole answers 0 accepted, a sum of 0, and `-` for PLACE, REASON and
//!   VALUE. A value of 0 is shown as `0`, not as `-`.
//! - Each answer is written out when its line has been read, before the next one is.

use crate::aes::{Block, KeySchedule};
use crate::ccm;
use crate::cmac::{self, RunningCheck};
use crate::field;
use crate::hex;
use crate::image::{self, Reader, Stop, Turn, Which};
use crate::modes::{self, Operation};
use crate::receive::Receiver;
use crate::refusal::{number_of, Refusal};
use crate::rijndael::{self, Way};
use crate::saes::{Saes, States};
use crate::view::View;
use crate::wrap;
use std::io::{self, BufRead, Read, Write};

/// The longest line of the page, without its line feed.
pub const LONGEST: usize = 65_536;

pub const BAD: &str = "?";

const SCHEDULE_BYTES: usize = 4 * 60;

pub fn serve(input: &mut impl BufRead, output: &mut impl Write) -> io::Result<()> {
    let mut console = Console::default();
    let mut line = Vec::new();
    while read_line(input, &mut line)? {
        output.write_all(console.answer(&line).as_bytes())?;
        output.write_all(b"\n")?;
        output.flush()?;
    }
    Ok(())
}

/// Reads the next line without its line feed, or says that there is none. Of a line that is too
/// long no more is kept than shows that it is.
fn read_line(input: &mut impl BufRead, line: &mut Vec<u8>) -> io::Result<bool> {
    line.clear();
    let limit = LONGEST as u64 + 1;
    if input.by_ref().take(limit).read_until(b'\n', line)? == 0 {
        return Ok(false);
    }
    if line.last() == Some(&b'\n') {
        line.pop();
    } else if line.len() > LONGEST {
        input.skip_until(b'\n')?;
    }
    Ok(true)
}

/// What is held from line to line, and how long a line may be.
#[derive(Clone)]
pub struct Console {
    longest: usize,
    check: RunningCheck,
    reader: Reader,
    receiver: Receiver,
}

impl Default for Console {
    fn default() -> Console {
        Console::taking(LONGEST)
    }
}

impl Console {
    pub fn taking(longest: usize) -> Console {
        Console {
            longest,
            check: RunningCheck::default(),
            reader: Reader::default(),
            receiver: Receiver::default(),
        }
    }

    pub fn answer(&mut self, line: &[u8]) -> String {
        if line.len() > self.longest {
            return BAD.to_string();
        }
        let words: Vec<&[u8]> = line.split(|byte| *byte == b' ').collect();
        self.call(&words).unwrap_or_else(|| BAD.to_string())
    }

    pub fn reader(&self) -> &Reader {
        &self.reader
    }

    /// The answer of the call that the words make, or none where they make no call.
    fn call(&mut self, words: &[&[u8]]) -> Option<String> {
        let (name, words) = words.split_first()?;
        match (*name, words) {
            (b"product", [a, b]) => product(a, b),
            (b"schedule", [key]) => schedule(key),
            (b"encrypt", [key, block]) => one_block(key, block, KeySchedule::encrypt),
            (b"decrypt", [key, block]) => one_block(key, block, KeySchedule::decrypt),
            (b"check", [key, message]) => check(key, message),
            (b"check-start", [key]) => self.check_start(key),
            (b"check-feed", [part]) => self.check_feed(part),
            (b"check-close", []) => Some(block_answer(Ok(self.check.close()))),
            (b"write", words) => write(words),
            (b"read-start", [encryption, check]) => self.read_start(encryption, check),
            (b"read-turn", [asked, blocks, output]) => self.read_turn(asked, blocks, output),
            (b"read-complete", []) => Some(number_of(&self.reader.complete()).to_string()),
            (b"read-save", [bytes]) => self.read_save(bytes),
            (b"read-resume", [encryption, check, mark]) => {
                self.read_resume(encryption, check, mark)
            }
            (b"receive-start", words) => self.receive_start(words),
            (b"receive", [block, store, map]) => self.receive(block, store, map),
            (b"receive-complete", []) => Some(number_of(&self.receiver.complete()).to_string()),
            (b"wrap", [key, data, output]) => wrap_call(wrap::wrap, key, data, output),
            (b"unwrap", [key, data, output]) => wrap_call(wrap::unwrap, key, data, output),
            (b"view-block", [image, place]) => view_call(image, place, |view, at| view.block(at)),
            (b"view-check", [image, place]) => view_call(image, place, |view, at| view.check(at)),
            (b"saes-encrypt", [key, block]) => apprentice(Saes::encrypt, key, block),
            (b"saes-decrypt", [key, block]) => apprentice(Saes::decrypt, key, block),
            (b"ccm-seal", words) => ccm_call(ccm::seal, words),
            (b"ccm-open", words) => ccm_call(ccm::open, words),
            (name, [key, iv, input, output]) => match wide_named(name) {
                Some(call) => wide_call(call, key, iv, input, output),
                None => mode_call(name, key, iv, input, output),
            },
            _ => None,
        }
    }

    fn check_start(&mut self, key: &[u8]) -> Option<String> {
        let started = RunningCheck::start(&hex::read(key)?);
        let number = number_of(&started);
        self.check = started.unwrap_or_default();
        Some(number.to_string())
    }

    fn check_feed(&mut self, part: &[u8]) -> Option<String> {
        self.check.feed(&hex::read(part)?);
        Some("0".to_string())
    }

    fn read_start(&mut self, encryption_key: &[u8], check_key: &[u8]) -> Option<String> {
        let started = Reader::start(&hex::read(encryption_key)?, &hex::read(check_key)?);
        let number = number_of(&started);
        self.reader = started.unwrap_or_default();
        Some(number.to_string())
    }

    fn read_turn(&mut self, asked: &[u8], blocks: &[u8], output: &[u8]) -> Option<String> {
        let (asked, blocks) = (number(asked)?, hex::read(blocks)?);
        let mut output = hex::read(output)?;
        let turn = self.reader.turn(asked, &blocks, &mut output);
        Some(format!("{} {}", turn_answer(turn), hex::shown(&output)))
    }

    fn read_save(&self, bytes: &[u8]) -> Option<String> {
        Some(format!(
            "0 {}",
            hex::shown(&self.reader.save(number(bytes)?))
        ))
    }

    fn read_resume(
        &mut self,
        encryption_key: &[u8],
        check_key: &[u8],
        mark: &[u8],
    ) -> Option<String> {
        let (encryption_key, check_key) = (hex::read(encryption_key)?, hex::read(check_key)?);
        let resumed = Reader::resume(&encryption_key, &check_key, &bytes(mark)?);
        let number = number_of(&resumed);
        let (reader, bytes) = resumed.unwrap_or_default();
        self.reader = reader;
        Some(format!("{number} {bytes}"))
    }

    fn receive_start(&mut self, words: &[&[u8]]) -> Option<String> {
        let [encryption_key, check_key, count, release, store, map] = words else {
            return None;
        };
        let (encryption_key, check_key) = (hex::read(encryption_key)?, hex::read(check_key)?);
        let (count, release) = (number(count)?, number(release)?);
        let (store, mut map) = (hex::read(store)?, hex::read(map)?);
        let started = Receiver::start(
            &encryption_key,
            &check_key,
            count,
            release,
            &store,
            &mut map,
        );
        let number = stop_number(&started);
        self.receiver = started.unwrap_or_default();
        Some(format!(
            "{number} {} {}",
            hex::shown(&store),
            hex::shown(&map)
        ))
    }

    fn receive(&mut self, block: &[u8], store: &[u8], map: &[u8]) -> Option<String> {
        let (block, mut store, mut map) = (hex::read(block)?, hex::read(store)?, hex::read(map)?);
        let received = self.receiver.receive(&block, &mut store, &mut map);
        let value = received.err().and_then(|stop| stop.value);
        let value = value.map_or("-".to_string(), |value| value.to_string());
        Some(format!(
            "{} {value} {} {} {}",
            stop_number(&received),
            self.receiver.held(),
            hex::shown(&store),
            hex::shown(&map)
        ))
    }
}

fn stop_number<T>(result: &Result<T, Stop>) -> u8 {
    result.as_ref().err().map_or(0, |stop| stop.reason.number())
}

fn product(a: &[u8], b: &[u8]) -> Option<String> {
    let ([a], [b]) = (bytes(a)?, bytes(b)?);
    Some(format!("0 {:02x}", field::product(a, b)))
}

fn schedule(key: &[u8]) -> Option<String> {
    let schedule = KeySchedule::new(&hex::read(key)?);
    let number = number_of(&schedule);
    let mut words = match schedule {
        Ok(schedule) => schedule.words().as_flattened().to_vec(),
        Err(_) => Vec::new(),
    };
    words.resize(SCHEDULE_BYTES, 0);
    Some(format!("{number} {}", hex::shown(&words)))
}

type OneBlock = fn(&KeySchedule, &Block) -> Block;

fn one_block(key: &[u8], block: &[u8], way: OneBlock) -> Option<String> {
    let (key, block) = (hex::read(key)?, bytes(block)?);
    Some(block_answer(
        KeySchedule::new(&key).map(|key| way(&key, &block)),
    ))
}

fn check(key: &[u8], message: &[u8]) -> Option<String> {
    let (key, message) = (hex::read(key)?, hex::read(message)?);
    Some(block_answer(
        KeySchedule::new(&key).map(|key| cmac::check(&key, &message)),
    ))
}

fn mode_call(name: &[u8], key: &[u8], iv: &[u8], input: &[u8], output: &[u8]) -> Option<String> {
    let operation = operation_named(name)?;
    let (key, iv, input) = (hex::read(key)?, hex::read(iv)?, hex::read(input)?);
    let mut output = hex::read(output)?;
    let result = modes::run(operation, &key, &iv, &input, &mut output);
    let number = match operation {
        Operation::EcbEncrypt | Operation::EcbDecrypt => number_of(&result).to_string(),
        _ => block_answer(result),
    };
    Some(format!("{number} {}", hex::shown(&output)))
}

/// Columns, whether it is CBC, and the way.
type WideCall = (usize, bool, Way);

fn wide_named(name: &[u8]) -> Option<WideCall> {
    let (columns, mode) = match name.split_at_checked(7)? {
        (b"wide24-", mode) => (6, mode),
        (b"wide32-", mode) => (8, mode),
        _ => return None,
    };
    match mode {
        b"ecb-encrypt" => Some((columns, false, Way::Encrypt)),
        b"ecb-decrypt" => Some((columns, false, Way::Decrypt)),
        b"cbc-encrypt" => Some((columns, true, Way::Encrypt)),
        b"cbc-decrypt" => Some((columns, true, Way::Decrypt)),
        _ => None,
    }
}

fn wide_call(
    (columns, chained, way): WideCall,
    key: &[u8],
    iv: &[u8],
    input: &[u8],
    output: &[u8],
) -> Option<String> {
    let (key, iv, input) = (hex::read(key)?, hex::read(iv)?, hex::read(input)?);
    let mut output = hex::read(output)?;
    let result = rijndael::run(columns, chained, way, &key, &iv, &input, &mut output);
    let mut answer = number_of(&result).to_string();
    if chained {
        let next = result.unwrap_or_else(|_| vec![0; 4 * columns]);
        answer = format!("{answer} {}", hex::shown(&next));
    }
    Some(format!("{answer} {}", hex::shown(&output)))
}

fn operation_named(name: &[u8]) -> Option<Operation> {
    match name {
        b"ecb-encrypt" => Some(Operation::EcbEncrypt),
        b"ecb-decrypt" => Some(Operation::EcbDecrypt),
        b"cbc-encrypt" => Some(Operation::CbcEncrypt),
        b"cbc-decrypt" => Some(Operation::CbcDecrypt),
        b"cfb-encrypt" => Some(Operation::CfbEncrypt),
        b"cfb-decrypt" => Some(Operation::CfbDecrypt),
        b"ofb" => Some(Operation::Ofb),
        _ => None,
    }
}

fn write(words: &[&[u8]]) -> Option<String> {
    let [encryption_key, check_key, which @ .., previous, payload, output] = words else {
        return None;
    };
    let (encryption_key, check_key) = (hex::read(encryption_key)?, hex::read(check_key)?);
    let (which, previous) = (which_block(which)?, bytes(previous)?);
    let (payload, mut output) = (hex::read(payload)?, hex::read(output)?);
    let result = image::write(
        &encryption_key,
        &check_key,
        which,
        &previous,
        &payload,
        &mut output,
    );
    Some(format!("{} {}", number_of(&result), hex::shown(&output)))
}

fn which_block(words: &[&[u8]]) -> Option<Which> {
    let [block_number, count, release, edition] = words else {
        return None;
    };
    Some(Which {
        number: number(block_number)?,
        count: number(count)?,
        release: number(release)?,
        edition: number(edition)?,
    })
}

type WrapCall = fn(&[u8], &[u8], &mut [u8]) -> Result<(), Refusal>;

fn wrap_call(call: WrapCall, key: &[u8], data: &[u8], output: &[u8]) -> Option<String> {
    let (key, data) = (hex::read(key)?, hex::read(data)?);
    let mut output = hex::read(output)?;
    let result = call(&key, &data, &mut output);
    Some(format!("{} {}", number_of(&result), hex::shown(&output)))
}

fn view_call(
    image: &[u8],
    place: &[u8],
    call: impl for<'a> Fn(View<'a>, u64) -> Result<&'a [u8], Refusal>,
) -> Option<String> {
    let (image, place) = (hex::read(image)?, number(place)?);
    let made = View::of(&image);
    let view = made.unwrap_or_default();
    let shown = call(view, place);
    Some(format!(
        "{} {} {} {}",
        number_of(&made),
        view.blocks(),
        number_of(&shown),
        hex::shown(shown.unwrap_or_default())
    ))
}

fn apprentice(way: fn(&Saes, u16) -> States, key: &[u8], block: &[u8]) -> Option<String> {
    let (key, block) = (bytes(key)?, bytes(block)?);
    let [first, second, third] = way(
        &Saes::new(u16::from_be_bytes(key)),
        u16::from_be_bytes(block),
    );
    Some(format!("0 {first:04x} {second:04x} {third:04x}"))
}

type CcmCall = fn(&[u8], &[u8], &[u8], &[u8], &mut [u8]) -> Result<(), Refusal>;

fn ccm_call(call: CcmCall, words: &[&[u8]]) -> Option<String> {
    let [key, nonce, ad, input, output] = words else {
        return None;
    };
    let (key, nonce) = (hex::read(key)?, hex::read(nonce)?);
    let (ad, input) = (hex::read(ad)?, hex::read(input)?);
    let mut output = hex::read(output)?;
    let result = call(&key, &nonce, &ad, &input, &mut output);
    Some(format!("{} {}", number_of(&result), hex::shown(&output)))
}

/// Everything that a turn answers before its output.
fn turn_answer(turn: Result<Turn, Refusal>) -> String {
    let number = number_of(&turn);
    let Turn {
        accepted,
        sum,
        stop,
    } = turn.unwrap_or_default();
    match stop {
        None => format!("{number} {accepted} {sum} - - -"),
        Some(stop) => {
            let value = stop
                .value
                .map_or("-".to_string(), |value| value.to_string());
            format!(
                "{number} {accepted} {sum} {accepted} {} {value}",
                stop.reason.number()
            )
        }
    }
}

fn block_answer(result: Result<Block, Refusal>) -> String {
    let number = number_of(&result);
    format!("{number} {}", hex::shown(&result.unwrap_or_default()))
}

/// Exactly N bytes, given in hex.
fn bytes<const N: usize>(word: &[u8]) -> Option<[u8; N]> {
    hex::read(word)?.try_into().ok()
}

/// A decimal number of the width that is asked for.
fn number<T: TryFrom<u64>>(word: &[u8]) -> Option<T> {
    if word.is_empty() {
        return None;
    }
    let value = word.iter().try_fold(0u64, |value, letter| match letter {
        b'0'..=b'9' => value.checked_mul(10)?.checked_add(u64::from(letter - b'0')),
        _ => None,
    });
    T::try_from(value?).ok()
}

#[cfg(test)]
mod tests;
