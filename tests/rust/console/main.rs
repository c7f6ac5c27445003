//! The console over the safe calls: answers each line of docs/CONSOLE.md, with every piece of memory that a call is lent between
//! canaries. `console LONGEST` takes lines of that many bytes instead of 65,536. It stops where a call changes what it may not.

mod held;
mod lent;
mod words;

use dock::{Check, Reader, Receiver, Refusal, Refused, Turn, View};
use held::{Reading, Receiving, Running};
use lent::{stop, Lent};
use std::env;
use std::io::{self, BufRead, BufWriter, Read, Write};
use std::ptr;
use words::{array, bytes, hex, number};

const LONGEST: usize = 65_536;

/// What is held from line to line.
struct Console {
    longest: usize,
    running: Running,
    reading: Reading,
    receiving: Receiving,
}

fn input(word: &[u8]) -> Option<Lent> {
    Some(Lent::input(&bytes(word)?))
}

fn output(word: &[u8]) -> Option<Lent> {
    Some(Lent::output(&bytes(word)?))
}

fn number_of<T>(result: &Result<T, Refusal>) -> u32 {
    result.as_ref().err().map_or(0, |refusal| refusal.number())
}

impl Console {
    fn answer(&mut self, line: &[u8]) -> Option<String> {
        if line.len() > self.longest {
            return None;
        }
        let words: Vec<&[u8]> = line.split(|byte| *byte == b' ').collect();
        let (name, words) = words.split_first()?;
        match (*name, words) {
            (b"product", [a, b]) => product(a, b),
            (b"schedule", [key]) => schedule(key),
            (b"encrypt", [key, block]) => one_block(dock::encrypt, key, block),
            (b"decrypt", [key, block]) => one_block(dock::decrypt, key, block),
            (b"ecb-encrypt", [key, iv, data, room]) => ecb(dock::ecb_encrypt, key, iv, data, room),
            (b"ecb-decrypt", [key, iv, data, room]) => ecb(dock::ecb_decrypt, key, iv, data, room),
            (b"wide24-ecb-encrypt", [key, iv, data, room]) => {
                ecb(dock::wide24_ecb_encrypt, key, iv, data, room)
            }
            (b"wide24-ecb-decrypt", [key, iv, data, room]) => {
                ecb(dock::wide24_ecb_decrypt, key, iv, data, room)
            }
            (b"wide24-cbc-encrypt", [key, iv, data, room]) => {
                chained(dock::wide24_cbc_encrypt, key, iv, data, room)
            }
            (b"wide24-cbc-decrypt", [key, iv, data, room]) => {
                chained(dock::wide24_cbc_decrypt, key, iv, data, room)
            }
            (b"wide32-ecb-encrypt", [key, iv, data, room]) => {
                ecb(dock::wide32_ecb_encrypt, key, iv, data, room)
            }
            (b"wide32-ecb-decrypt", [key, iv, data, room]) => {
                ecb(dock::wide32_ecb_decrypt, key, iv, data, room)
            }
            (b"wide32-cbc-encrypt", [key, iv, data, room]) => {
                chained(dock::wide32_cbc_encrypt, key, iv, data, room)
            }
            (b"wide32-cbc-decrypt", [key, iv, data, room]) => {
                chained(dock::wide32_cbc_decrypt, key, iv, data, room)
            }
            (b"cbc-encrypt", [key, iv, data, room]) => {
                chained(dock::cbc_encrypt, key, iv, data, room)
            }
            (b"cbc-decrypt", [key, iv, data, room]) => {
                chained(dock::cbc_decrypt, key, iv, data, room)
            }
            (b"cfb-encrypt", [key, iv, data, room]) => {
                chained(dock::cfb_encrypt, key, iv, data, room)
            }
            (b"cfb-decrypt", [key, iv, data, room]) => {
                chained(dock::cfb_decrypt, key, iv, data, room)
            }
            (b"ofb", [key, iv, data, room]) => chained(dock::ofb, key, iv, data, room),
            (b"check", [key, message]) => check(key, message),
            (b"check-start", [key]) => self.check_start(key),
            (b"check-feed", [part]) => self.check_feed(part),
            (b"check-close", []) => Some(format!("0 {}", hex(&self.running.close()))),
            (b"write", words) => write(words),
            (b"read-start", [encryption, check]) => self.read_start(encryption, check),
            (b"read-turn", [asked, blocks, room]) => self.read_turn(asked, blocks, room),
            (b"read-complete", []) => Some(self.reading.complete().to_string()),
            (b"read-save", [bytes]) => self.read_save(bytes),
            (b"read-resume", [encryption, check, mark]) => {
                self.read_resume(encryption, check, mark)
            }
            (b"receive-start", words) => self.receive_start(words),
            (b"receive", [block, store, map]) => self.receive(block, store, map),
            (b"receive-complete", []) => Some(self.receiving.complete().to_string()),
            (b"wrap", [key, data, room]) => wrapping(dock::wrap, key, data, room),
            (b"unwrap", [key, data, room]) => wrapping(dock::unwrap, key, data, room),
            (b"view-block", [image, place]) => view(|v, at| v.block(at), 0, image, place),
            (b"view-check", [image, place]) => view(|v, at| v.check(at), 496, image, place),
            (b"saes-encrypt", [key, block]) => apprentice(dock::saes_encrypt, key, block),
            (b"saes-decrypt", [key, block]) => apprentice(dock::saes_decrypt, key, block),
            (b"ccm-seal", words) => ccm(dock::ccm_seal, words),
            (b"ccm-open", words) => ccm(dock::ccm_open, words),
            _ => None,
        }
    }

    fn check_start(&mut self, key: &[u8]) -> Option<String> {
        let started = Check::start(&input(key)?);
        let number = number_of(&started);
        self.running = Running::of(started);
        Some(number.to_string())
    }

    fn check_feed(&mut self, part: &[u8]) -> Option<String> {
        self.running.feed(&input(part)?);
        Some("0".to_string())
    }

    fn read_start(&mut self, encryption_key: &[u8], check_key: &[u8]) -> Option<String> {
        let started = Reader::start(&input(encryption_key)?, &input(check_key)?);
        let number = number_of(&started);
        self.reading = Reading::of(started);
        Some(number.to_string())
    }

    fn read_turn(&mut self, asked: &[u8], blocks: &[u8], room: &[u8]) -> Option<String> {
        let (asked, blocks, mut room) = (number(asked)?, input(blocks)?, output(room)?);
        let turn = self.reading.turn(&blocks, asked, room.lend());
        Some(format!("{} {}", turn_words(&turn), hex(&room)))
    }

    fn read_save(&self, bytes: &[u8]) -> Option<String> {
        Some(format!("0 {}", hex(&self.reading.save(number(bytes)?))))
    }

    fn read_resume(
        &mut self,
        encryption_key: &[u8],
        check_key: &[u8],
        mark: &[u8],
    ) -> Option<String> {
        let (encryption_key, check_key) = (input(encryption_key)?, input(check_key)?);
        let resumed = Reader::resume(&encryption_key, &check_key, &array(mark)?);
        let number = number_of(&resumed);
        let bytes = resumed.as_ref().map_or(0, |(_, bytes)| *bytes);
        self.reading = Reading::of(resumed.map(|(reader, _)| reader));
        Some(format!("{number} {bytes}"))
    }

    fn receive_start(&mut self, words: &[&[u8]]) -> Option<String> {
        let (encryption_key, check_key, count, release, store, map) = match words {
            [ekey, ckey, count, release, store, map] => (ekey, ckey, count, release, store, map),
            _ => return None,
        };
        let (encryption_key, check_key) = (input(encryption_key)?, input(check_key)?);
        let (count, release) = (number(count)?, number(release)?);
        let (store, mut map) = (input(store)?, output(map)?);
        let started = Receiver::start(
            &encryption_key,
            &check_key,
            count,
            release,
            &store,
            map.lend(),
        );
        let refused = started.as_ref().err();
        if refused.and_then(|refused| refused.value).unwrap_or(count) != count {
            stop("the value of a start is not its count");
        }
        let number = refused.map_or(0, |refused| refused.reason.number());
        self.receiving = Receiving::of(started);
        Some(format!("{number} {} {}", hex(&store), hex(&map)))
    }

    fn receive(&mut self, block: &[u8], store: &[u8], map: &[u8]) -> Option<String> {
        let (block, mut store, mut map) = (input(block)?, output(store)?, output(map)?);
        let (number, value) = self.receiving.receive(&block, store.lend(), map.lend());
        let value = value.map_or("-".to_string(), |value| value.to_string());
        let held = self.receiving.held();
        Some(format!(
            "{number} {value} {held} {} {}",
            hex(&store),
            hex(&map)
        ))
    }
}

fn product(a: &[u8], b: &[u8]) -> Option<String> {
    let ([a], [b]) = (array(a)?, array(b)?);
    Some(format!("0 {}", hex(&[dock::product(a, b)])))
}

fn schedule(key: &[u8]) -> Option<String> {
    let key = input(key)?;
    let made = dock::schedule(&key);
    let words = made.as_ref().map_or([0; 60], |schedule| *schedule.words());
    if made
        .as_ref()
        .map_or(false, |schedule| schedule.rounds() != key.len() / 4 + 6)
    {
        stop("the rounds of a schedule");
    }
    let words: Vec<u8> = words.iter().flat_map(|word| word.to_be_bytes()).collect();
    Some(format!("{} {}", number_of(&made), hex(&words)))
}

type OneBlock = fn(&[u8], [u8; 16]) -> Result<[u8; 16], Refusal>;

fn one_block(call: OneBlock, key: &[u8], block: &[u8]) -> Option<String> {
    let (key, block) = (input(key)?, array(block)?);
    Some(block_words(call(&key, block)))
}

fn check(key: &[u8], message: &[u8]) -> Option<String> {
    let (key, message) = (input(key)?, input(message)?);
    let made = dock::check(&key, &message);
    verified(&made, |check| dock::verify(&key, &message, check));
    Some(block_words(made))
}

/// A check that was made is verified, and with one bit of it changed it is not. Where none was made, none is verified.
fn verified(made: &Result<[u8; 16], Refusal>, verify: impl Fn(&[u8; 16]) -> Result<(), Refusal>) {
    let mut check = made.unwrap_or_default();
    if verify(&check) != made.map(|_| ()) {
        stop("a right check is not verified");
    }
    // Which bit it is changes from check to check.
    let at = usize::from(check[0] % 128);
    check[at / 8] ^= 1 << (at % 8);
    if verify(&check) != made.and(Err(Refusal::CheckWrong)) {
        stop("a wrong check is verified");
    }
}

type Ecb = fn(&[u8], &[u8], &[u8], &mut [u8]) -> Result<(), Refusal>;

fn ecb(call: Ecb, key: &[u8], iv: &[u8], data: &[u8], room: &[u8]) -> Option<String> {
    let (key, iv, data, mut room) = (input(key)?, input(iv)?, input(data)?, output(room)?);
    let result = call(&key, &iv, &data, room.lend());
    Some(format!("{} {}", number_of(&result), hex(&room)))
}

type Chained<const N: usize> = fn(&[u8], &[u8], &[u8], &mut [u8]) -> Result<[u8; N], Refusal>;

fn chained<const N: usize>(
    call: Chained<N>,
    key: &[u8],
    iv: &[u8],
    data: &[u8],
    room: &[u8],
) -> Option<String> {
    let (key, iv, data, mut room) = (input(key)?, input(iv)?, input(data)?, output(room)?);
    let result = call(&key, &iv, &data, room.lend());
    Some(format!("{} {}", block_words(result), hex(&room)))
}

fn write(words: &[&[u8]]) -> Option<String> {
    let (keys, numbers, rest) = match words {
        [ekey, ckey, number, count, release, edition, rest @ ..] => (
            [input(ekey)?, input(ckey)?],
            numbers([number, count, release, edition])?,
            rest,
        ),
        _ => return None,
    };
    let (previous, payload, mut room) = match rest {
        [previous, payload, room] => (array(previous)?, input(payload)?, output(room)?),
        _ => return None,
    };
    let [ekey, ckey] = &keys;
    let result = dock::write(ekey, ckey, numbers, previous, &payload, room.lend());
    Some(format!("{} {}", number_of(&result), hex(&room)))
}

fn numbers(words: [&[u8]; 4]) -> Option<dock::Numbers> {
    let [block, count, release, edition] = words;
    Some(dock::Numbers {
        number: number(block)?,
        count: number(count)?,
        release: number(release)?,
        edition: number(edition)?,
    })
}

type Wrapping = fn(&[u8], &[u8], &mut [u8]) -> Result<(), Refusal>;

fn wrapping(call: Wrapping, key: &[u8], data: &[u8], room: &[u8]) -> Option<String> {
    let (key, data, mut room) = (input(key)?, input(data)?, output(room)?);
    let result = call(&key, &data, room.lend());
    Some(format!("{} {}", number_of(&result), hex(&room)))
}

type Showing = for<'a> fn(View<'a>, usize) -> Result<&'a [u8], Refusal>;

fn view(call: Showing, from: usize, image: &[u8], place: &[u8]) -> Option<String> {
    let (image, place) = (input(image)?, number(place)?);
    let made = View::of(&image);
    let view = made.unwrap_or_default();
    let shown = call(view, place);
    if shown.map_or(false, |part| {
        !ptr::eq(part.as_ptr(), &image[512 * place + from])
    }) {
        stop("what is shown is not a part of the image itself");
    }
    if made.is_ok() && !view.blocks().eq(image.chunks(512)) {
        stop("the blocks of a view are not those of its image");
    }
    Some(format!(
        "{} {} {} {}",
        number_of(&made),
        view.len(),
        number_of(&shown),
        hex(shown.unwrap_or_default())
    ))
}

fn apprentice(call: fn(u16, u16) -> [u16; 3], key: &[u8], block: &[u8]) -> Option<String> {
    let (key, block) = (array(key)?, array(block)?);
    let states = call(u16::from_be_bytes(key), u16::from_be_bytes(block));
    let [first, second, third] = states.map(|state| hex(&state.to_be_bytes()));
    Some(format!("0 {first} {second} {third}"))
}

type Ccm = fn(&[u8], &[u8], &[u8], &[u8], &mut [u8]) -> Result<(), Refusal>;

fn ccm(call: Ccm, words: &[&[u8]]) -> Option<String> {
    let (key, nonce, ad, data, room) = match words {
        [key, nonce, ad, data, room] => (key, nonce, ad, data, room),
        _ => return None,
    };
    let (key, nonce, ad, data) = (input(key)?, input(nonce)?, input(ad)?, input(data)?);
    let mut room = output(room)?;
    let result = call(&key, &nonce, &ad, &data, room.lend());
    Some(format!("{} {}", number_of(&result), hex(&room)))
}

fn block_words<const N: usize>(result: Result<[u8; N], Refusal>) -> String {
    format!("{} {}", number_of(&result), hex(&result.unwrap_or([0; N])))
}

/// Everything that a turn answers before its output.
fn turn_words(turn: &Result<Turn, Refusal>) -> String {
    let number = number_of(turn);
    let (accepted, sum) = turn
        .as_ref()
        .map_or((0, 0), |turn| (turn.accepted, turn.bytes));
    let stopped = match turn.as_ref().ok().and_then(|turn| turn.stop) {
        None => "- - -".to_string(),
        Some(stop) => {
            let value = stop
                .value
                .map_or("-".to_string(), |value| value.to_string());
            format!("{} {} {value}", stop.place, stop.reason.number())
        }
    };
    format!("{number} {accepted} {sum} {stopped}")
}

/// Reads the next line without its line feed, or says that there is none. Of a line that is too long one byte too many is kept.
fn next_line(from: &mut impl BufRead, longest: usize, line: &mut Vec<u8>) -> io::Result<bool> {
    line.clear();
    if from
        .by_ref()
        .take(longest as u64 + 1)
        .read_until(b'\n', line)?
        == 0
    {
        return Ok(false);
    }
    if line.last() == Some(&b'\n') {
        line.pop();
    } else if line.len() > longest {
        skip_line(from)?;
    }
    Ok(true)
}

fn skip_line(from: &mut impl BufRead) -> io::Result<()> {
    loop {
        let part = from.fill_buf()?;
        let feed = part.iter().position(|byte| *byte == b'\n');
        let used = feed.map_or(part.len(), |at| at + 1);
        from.consume(used);
        if feed.is_some() || used == 0 {
            return Ok(());
        }
    }
}

fn main() -> io::Result<()> {
    let longest = env::args().nth(1).and_then(|word| word.parse().ok());
    let mut console = Console {
        longest: longest.unwrap_or(LONGEST),
        running: Running::of(Err(Refusal::KeyLength)),
        reading: Reading::of(Err(Refusal::KeyLength)),
        receiving: Receiving::of(Err(Refused {
            reason: Refusal::KeyLength,
            value: None,
        })),
    };
    let (mut from, mut to) = (io::stdin().lock(), BufWriter::new(io::stdout().lock()));
    let mut line = Vec::new();
    while next_line(&mut from, console.longest, &mut line)? {
        let answer = console.answer(&line);
        writeln!(to, "{}", answer.as_deref().unwrap_or("?"))?;
    }
    to.flush()
}
