//! An independent second program for the cipher, its modes, the check, release images, their blocks in any order and views of them, the key
//! wrap, messages in CCM and the bench model for apprentices.

mod aes;
mod ccm;
mod cmac;
mod console;
mod field;
mod hex;
mod image;
mod listing;
mod modes;
mod random;
mod receive;
mod refusal;
mod replay;
mod rijndael;
mod saes;
mod view;
mod wrap;

use std::env;
use std::fs;
use std::io::{self, BufWriter, Read, Write};
use std::path::Path;
use std::process::ExitCode;
use std::str::FromStr;

const USAGE: &str = "usage: second console | second list [KEYS] | second ccm | second seal KEYS RELEASE [EDITION] \
                     | second random SEED COUNT [CALL,CALL...] | second listings SEED DIR | second turns SEED DIR | second blocks KEY.. | second replay | second replays SEED COUNT DIR";

fn main() -> ExitCode {
    let words: Vec<String> = env::args_os()
        .skip(1)
        .map(|word| word.to_string_lossy().into_owned())
        .collect();
    let words: Vec<&str> = words.iter().map(String::as_str).collect();
    match run(&words) {
        Ok(()) => ExitCode::SUCCESS,
        Err(message) => {
            // There is nobody left to tell when this fails too.
            let _ = writeln!(io::stderr(), "second: {message}");
            ExitCode::FAILURE
        }
    }
}

fn run(words: &[&str]) -> Result<(), String> {
    let done = match words {
        ["console"] => console::serve(&mut io::stdin().lock(), &mut io::stdout().lock()),
        ["list"] => list(),
        ["list", keys] => list_under(Path::new(keys))?,
        ["ccm"] => ccm::serve(&mut io::stdin().lock(), &mut io::stdout().lock()),
        ["replay"] => replay_input(),
        ["replays", seed, count, dir] => replays(number(seed)?, number(count)?, Path::new(dir)),
        ["seal", keys, release] => seal(Path::new(keys), number(release)?, 1)?,
        ["seal", keys, release, edition] => {
            seal(Path::new(keys), number(release)?, number(edition)?)?
        }
        ["random", seed, count] => random(number(seed)?, number(count)?, None)?,
        ["random", seed, count, calls] => random(number(seed)?, number(count)?, Some(calls))?,
        ["listings", seed, dir] => listings(number(seed)?, Path::new(dir)),
        ["turns", seed, dir] => turns(number(seed)?, Path::new(dir)),
        ["blocks", keys @ ..] => {
            let keys: Result<Vec<u16>, String> = keys.iter().map(|key| short_key(key)).collect();
            blocks(&keys?)
        }
        _ => return Err(USAGE.to_string()),
    };
    done.map_err(|error| error.to_string())
}

fn list() -> io::Result<()> {
    let mut input = Vec::new();
    io::stdin().lock().read_to_end(&mut input)?;
    io::stdout().write_all(listing::list(&input).as_bytes())
}

/// Lists standard input, an image, under two keys of equal size. The errors are as those of `seal`.
fn list_under(keys: &Path) -> Result<io::Result<()>, String> {
    let keys = fs::read(keys).map_err(|error| error.to_string())?;
    let mut image = Vec::new();
    let read = io::stdin().lock().read_to_end(&mut image);
    read.map_err(|error| error.to_string())?;
    let listed = listing::list_under(&keys, &image)
        .map_err(|refusal| format!("refusal {}", refusal.number()))?;
    Ok(io::stdout().write_all(listed.as_bytes()))
}

/// Seals standard input under two keys of equal size. The outer error is one of reading and sealing, the inner one of the writing.
fn seal(keys: &Path, release: u32, edition: u32) -> Result<io::Result<()>, String> {
    let keys = fs::read(keys).map_err(|error| error.to_string())?;
    let mut payload = Vec::new();
    let read = io::stdin().lock().read_to_end(&mut payload);
    read.map_err(|error| error.to_string())?;
    let (encryption_key, check_key) = keys.split_at(keys.len() / 2);
    let image = image::seal_all(encryption_key, check_key, release, edition, &payload)
        .map_err(|refusal| format!("refusal {}", refusal.number()))?;
    Ok(io::stdout().write_all(&image))
}

/// The outer error is one of the words, the inner one of the writing.
fn random(seed: u64, count: u64, calls: Option<&str>) -> Result<io::Result<()>, String> {
    let lines = random::Lines::new(seed, calls)?;
    Ok(print_lines(lines, count))
}

fn replay_input() -> io::Result<()> {
    let mut input = Vec::new();
    io::stdin().lock().read_to_end(&mut input)?;
    io::stdout().write_all(replay::replay(&input).as_bytes())
}

/// Writes small response files, right and damaged, to DIR/in and their answers to DIR/second.
fn replays(seed: u64, count: usize, dir: &Path) -> io::Result<()> {
    for part in ["in", "second"] {
        fs::create_dir_all(dir.join(part))?;
    }
    for (i, input) in random::replays::inputs(seed).take(count).enumerate() {
        fs::write(dir.join("in").join(i.to_string()), &input)?;
        fs::write(
            dir.join("second").join(i.to_string()),
            replay::replay(&input),
        )?;
    }
    Ok(())
}

/// Writes each input to DIR/in and its listing to DIR/second.
fn listings(seed: u64, dir: &Path) -> io::Result<()> {
    for part in ["in", "second"] {
        fs::create_dir_all(dir.join(part))?;
    }
    for input in random::listings::inputs(seed) {
        fs::write(dir.join("in").join(&input.name), &input.bytes)?;
        fs::write(
            dir.join("second").join(&input.name),
            listing::list(&input.bytes),
        )?;
    }
    Ok(())
}

/// Writes lines to DIR/lines and their answers to DIR/answers.
fn turns(seed: u64, dir: &Path) -> io::Result<()> {
    fs::create_dir_all(dir)?;
    let mut lines = BufWriter::new(fs::File::create(dir.join("lines"))?);
    let mut answers = BufWriter::new(fs::File::create(dir.join("answers"))?);
    random::turns::write(seed, &mut lines, &mut answers)?;
    lines.flush()?;
    answers.flush()
}

/// Every block under each key of 16 bits: the states of its encryption and then those of its decryption, two bytes each.
fn blocks(keys: &[u16]) -> io::Result<()> {
    let mut output = BufWriter::new(io::stdout().lock());
    for key in keys {
        let saes = saes::Saes::new(*key);
        for block in 0..=u16::MAX {
            for state in saes.encrypt(block).iter().chain(&saes.decrypt(block)) {
                output.write_all(&state.to_be_bytes())?;
            }
        }
    }
    output.flush()
}

fn short_key(word: &str) -> Result<u16, String> {
    u16::from_str_radix(word, 16).map_err(|_| format!("not a key of 16 bits: {word:?}"))
}

fn print_lines(lines: random::Lines, count: u64) -> io::Result<()> {
    let mut output = BufWriter::new(io::stdout().lock());
    for (_, line) in (0..count).zip(lines) {
        output.write_all(&line)?;
        output.write_all(b"\n")?;
    }
    output.flush()
}

fn number<T: FromStr>(word: &str) -> Result<T, String> {
    word.parse().map_err(|_| format!("not a number: {word:?}"))
}
