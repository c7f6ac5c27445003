//! CCM of SP 800-38C with the formatting of its appendix A, for every length of nonce and tag that it allows.

use crate::aes::{Block, KeySchedule};
use crate::hex;
use crate::refusal::Refusal;
use std::io::{self, BufRead, Write};

/// The profile of the berth messages.
const NONCE: usize = 13;
const TAG: usize = 8;
const MOST_AD: usize = 64;
const MOST_MESSAGE: usize = 1024;

pub fn seal(
    key: &[u8],
    nonce: &[u8],
    ad: &[u8],
    message: &[u8],
    output: &mut [u8],
) -> Result<(), Refusal> {
    let key = KeySchedule::new(key)?;
    in_profile(nonce, ad, message.len())?;
    let room = output
        .get_mut(..message.len() + TAG)
        .ok_or(Refusal::OutputShort)?;
    room.copy_from_slice(&sealed(&key, nonce, ad, message, TAG));
    Ok(())
}

pub fn open(
    key: &[u8],
    nonce: &[u8],
    ad: &[u8],
    sealed: &[u8],
    output: &mut [u8],
) -> Result<(), Refusal> {
    let key = KeySchedule::new(key)?;
    let length = sealed.len().checked_sub(TAG).ok_or(Refusal::CcmLength)?;
    in_profile(nonce, ad, length)?;
    let room = output.get_mut(..length).ok_or(Refusal::OutputShort)?;
    let message = opened(&key, nonce, ad, sealed, TAG).ok_or(Refusal::CcmTag)?;
    room.copy_from_slice(&message);
    Ok(())
}

fn in_profile(nonce: &[u8], ad: &[u8], message: usize) -> Result<(), Refusal> {
    if nonce.len() == NONCE && ad.len() <= MOST_AD && message <= MOST_MESSAGE {
        Ok(())
    } else {
        Err(Refusal::CcmLength)
    }
}

/// Answers lines `seal TAG KEY NONCE AD MESSAGE` and `open TAG KEY NONCE AD SEALED`, TAG a number of bytes, for published vectors with any
/// lengths: the result in hex, or `!` where there is none.
pub fn serve(input: &mut impl BufRead, output: &mut impl Write) -> io::Result<()> {
    for line in input.lines() {
        let result = line_answer(&line?).map(|bytes| hex::shown(&bytes));
        writeln!(output, "{}", result.as_deref().unwrap_or("!"))?;
    }
    Ok(())
}

fn line_answer(line: &str) -> Option<Vec<u8>> {
    let words: Vec<&str> = line.split(' ').collect();
    let [way, tag, texts @ ..] = &words[..] else {
        return None;
    };
    let texts: Vec<Vec<u8>> = texts
        .iter()
        .map(|text| hex::read(text.as_bytes()))
        .collect::<Option<_>>()?;
    let ([key, nonce, ad, text], Ok(tag)) = (&texts[..], tag.parse::<usize>()) else {
        return None;
    };
    let key = KeySchedule::new(key).ok()?;
    if !(7..=13).contains(&nonce.len()) || !(4..=16).contains(&tag) || tag % 2 != 0 {
        return None;
    }
    match *way {
        "seal" => Some(sealed(&key, nonce, ad, text, tag)),
        "open" => opened(&key, nonce, ad, text, tag),
        _ => None,
    }
}

/// Generation-encryption, 6.1: the ciphertext and then the tag.
pub fn sealed(key: &KeySchedule, nonce: &[u8], ad: &[u8], message: &[u8], tag: usize) -> Vec<u8> {
    let stream = stream(key, nonce, message.len());
    let mut result: Vec<u8> = xor(message, &stream[16..]);
    let mac = mac(key, &formatted(nonce, ad, message, tag));
    result.extend(xor(&mac[..tag], &stream));
    result
}

/// Decryption-verification, 6.2. A ciphertext as long as the tag is an empty message.
pub fn opened(
    key: &KeySchedule,
    nonce: &[u8],
    ad: &[u8],
    sealed: &[u8],
    tag: usize,
) -> Option<Vec<u8>> {
    let (ciphertext, found) = sealed.split_at_checked(sealed.len().checked_sub(tag)?)?;
    let stream = stream(key, nonce, ciphertext.len());
    let message = xor(ciphertext, &stream[16..]);
    let mac = mac(key, &formatted(nonce, ad, &message, tag));
    (xor(found, &stream) == mac[..tag]).then_some(message)
}

fn xor(text: &[u8], mask: &[u8]) -> Vec<u8> {
    text.iter().zip(mask).map(|(a, b)| a ^ b).collect()
}

/// S0, S1 and so on, for a message of this length.
fn stream(key: &KeySchedule, nonce: &[u8], length: usize) -> Vec<u8> {
    (0..=length.div_ceil(16))
        .flat_map(|i| key.encrypt(&block(1 + 13 - nonce.len() as u8, nonce, i)))
        .collect()
}

/// Flags, nonce and a number in the bytes that the nonce leaves.
fn block(flags: u8, nonce: &[u8], number: usize) -> Block {
    let mut block = [0; 16];
    for (byte, shift) in block.iter_mut().rev().zip((0..64).step_by(8)) {
        *byte = (number >> shift) as u8;
    }
    block[0] = flags;
    block[1..=nonce.len()].copy_from_slice(nonce);
    block
}

/// B0 to Br, appendix A.2.
fn formatted(nonce: &[u8], ad: &[u8], message: &[u8], tag: usize) -> Vec<u8> {
    let adata = if ad.is_empty() { 0 } else { 64 };
    let flags = adata + 8 * ((tag as u8 - 2) / 2) + (14 - nonce.len() as u8);
    let mut blocks = block(flags, nonce, message.len()).to_vec();
    if !ad.is_empty() {
        blocks.extend(encoded_length(ad.len()));
        blocks.extend(ad);
        fill(&mut blocks);
    }
    blocks.extend(message);
    fill(&mut blocks);
    blocks
}

/// The length of the associated data, A.2.2.
fn encoded_length(length: usize) -> Vec<u8> {
    if length < 0xff00 {
        (length as u16).to_be_bytes().to_vec()
    } else if let Ok(length) = u32::try_from(length) {
        [&[0xff, 0xfe], &length.to_be_bytes()[..]].concat()
    } else {
        [&[0xff, 0xff], &(length as u64).to_be_bytes()[..]].concat()
    }
}

fn fill(blocks: &mut Vec<u8>) {
    blocks.resize(blocks.len().next_multiple_of(16), 0);
}

/// Yr.
fn mac(key: &KeySchedule, blocks: &[u8]) -> Block {
    blocks
        .as_chunks()
        .0
        .iter()
        .fold([0; 16], |mut y, b: &Block| {
            y.iter_mut().zip(b).for_each(|(y, b)| *y ^= b);
            key.encrypt(&y)
        })
}

#[cfg(test)]
mod tests {
    use super::*;
    use crate::hex;

    fn bytes(text: &str) -> Vec<u8> {
        hex::read(text.as_bytes()).unwrap()
    }

    /// SP 800-38C, appendix C: nonce, associated data, message, and ciphertext with its tag.
    fn example(nonce: &str, ad: &[u8], message: &str, expected: &str, tag: usize) {
        let key = KeySchedule::new(&bytes("404142434445464748494a4b4c4d4e4f")).unwrap();
        let (nonce, message, expected) = (bytes(nonce), bytes(message), bytes(expected));
        assert_eq!(sealed(&key, &nonce, ad, &message, tag), expected);
        assert_eq!(opened(&key, &nonce, ad, &expected, tag), Some(message));
        for place in 0..expected.len() * usize::from(ad.len() <= 64) {
            let mut damaged = expected.clone();
            damaged[place] ^= 0x40;
            assert_eq!(opened(&key, &nonce, ad, &damaged, tag), None, "{place}");
        }
    }

    #[test]
    fn examples_of_the_standard() {
        example(
            "10111213141516",
            &bytes("0001020304050607"),
            "20212223",
            "7162015b4dac255d",
            4,
        );
        example(
            "1011121314151617",
            &bytes("000102030405060708090a0b0c0d0e0f"),
            "202122232425262728292a2b2c2d2e2f",
            "d2a1f0e051ea5f62081a7792073d593d1fc64fbfaccd",
            6,
        );
        example(
            "101112131415161718191a1b",
            &bytes("000102030405060708090a0b0c0d0e0f10111213"),
            "202122232425262728292a2b2c2d2e2f3031323334353637",
            "e3b201a9f5b71a7a9b1ceaeccd97e70b6176aad9a4428aa5484392fbc1b09951",
            8,
        );
        let long: Vec<u8> = (0..=255).cycle().take(65536).collect();
        example(
            "101112131415161718191a1b1c",
            &long,
            "202122232425262728292a2b2c2d2e2f303132333435363738393a3b3c3d3e3f",
            "69915dad1e84c6376a68c2967e4dab615ae0fd1faec44cc484828529463ccf72b4ac6bec93e8598e7f0dadbcea5b",
            14,
        );
    }

    #[test]
    fn lengths_of_the_profile() {
        let (key, long) = ([7; 16], [9; 1025]);
        let mut room = [0; 1100];
        for (nonce, ad, message, number) in [
            (13, 0, 0, None),
            (13, 64, 1024, None),
            (12, 0, 0, Some(Refusal::CcmLength)),
            (14, 0, 0, Some(Refusal::CcmLength)),
            (13, 65, 0, Some(Refusal::CcmLength)),
            (13, 0, 1025, Some(Refusal::CcmLength)),
        ] {
            let result = seal(
                &key,
                &long[..nonce],
                &long[..ad],
                &long[..message],
                &mut room,
            );
            assert_eq!(result.err(), number, "{nonce} {ad} {message}");
        }
        let short = open(&key, &long[..13], &[], &long[..7], &mut room);
        assert_eq!(short, Err(Refusal::CcmLength));
    }
}
