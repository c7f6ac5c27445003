//! The modes of SP 800-38A: ECB, CBC and CFB with 16-byte segments on whole pieces of 16 bytes, OFB on any length.

use crate::aes::{Block, KeySchedule};
use crate::refusal::Refusal;
use std::array::from_fn;

#[derive(Clone, Copy, PartialEq, Eq, Debug)]
pub enum Operation {
    EcbEncrypt,
    EcbDecrypt,
    CbcEncrypt,
    CbcDecrypt,
    CfbEncrypt,
    CfbDecrypt,
    Ofb,
}

/// The answer is the chaining value for bytes that come after these; ECB has none and answers zeros.
pub fn run(
    operation: Operation,
    key: &[u8],
    iv: &[u8],
    input: &[u8],
    output: &mut [u8],
) -> Result<Block, Refusal> {
    let key = KeySchedule::new(key)?;
    let iv = starting_vector(operation, iv)?;
    let result = transform(operation, &key, iv, input)?;
    let room = output.get_mut(..input.len()).ok_or(Refusal::OutputShort)?;
    room.copy_from_slice(&result);
    Ok(chaining_value(operation, &key, iv, input, &result))
}

/// The last ciphertext block, of OFB the last output block (6.2 to 6.4); the IV where there is no block.
fn chaining_value(
    operation: Operation,
    key: &KeySchedule,
    iv: Block,
    input: &[u8],
    result: &[u8],
) -> Block {
    let last_of = |sealed: &[u8]| sealed.last_chunk().copied().unwrap_or(iv);
    match operation {
        Operation::EcbEncrypt | Operation::EcbDecrypt => [0; 16],
        Operation::CbcEncrypt | Operation::CfbEncrypt => last_of(result),
        Operation::CbcDecrypt | Operation::CfbDecrypt => last_of(input),
        Operation::Ofb => (0..input.len().div_ceil(16)).fold(iv, |stream, _| key.encrypt(&stream)),
    }
}

fn starting_vector(operation: Operation, iv: &[u8]) -> Result<Block, Refusal> {
    match operation {
        Operation::EcbEncrypt | Operation::EcbDecrypt if iv.is_empty() => Ok([0; 16]),
        Operation::EcbEncrypt | Operation::EcbDecrypt => Err(Refusal::IvLength),
        _ => iv.try_into().map_err(|_| Refusal::IvLength),
    }
}

fn whole_pieces(input: &[u8]) -> Result<&[Block], Refusal> {
    match input.as_chunks() {
        (pieces, []) => Ok(pieces),
        _ => Err(Refusal::InputLength),
    }
}

fn transform(
    operation: Operation,
    key: &KeySchedule,
    iv: Block,
    input: &[u8],
) -> Result<Vec<u8>, Refusal> {
    let pieces = whole_pieces(input);
    let blocks: Vec<Block> = match operation {
        Operation::EcbEncrypt => pieces?.iter().map(|piece| key.encrypt(piece)).collect(),
        Operation::EcbDecrypt => pieces?.iter().map(|piece| key.decrypt(piece)).collect(),
        Operation::CbcEncrypt => cbc_encrypt(key, iv, pieces?),
        Operation::CbcDecrypt => cbc_decrypt(key, iv, pieces?),
        Operation::CfbEncrypt => cfb_encrypt(key, iv, pieces?),
        Operation::CfbDecrypt => cfb_decrypt(key, iv, pieces?),
        Operation::Ofb => return Ok(ofb(key, iv, input)),
    };
    Ok(blocks.into_flattened())
}

pub fn cbc_encrypt(key: &KeySchedule, iv: Block, plain: &[Block]) -> Vec<Block> {
    let mut last = iv;
    let sealed = plain.iter().map(|piece| {
        last = key.encrypt(&xor(piece, &last));
        last
    });
    sealed.collect()
}

pub fn cbc_decrypt(key: &KeySchedule, iv: Block, sealed: &[Block]) -> Vec<Block> {
    let before = [iv].into_iter().chain(sealed.iter().copied());
    sealed
        .iter()
        .zip(before)
        .map(|(piece, last)| xor(&key.decrypt(piece), &last))
        .collect()
}

fn cfb_encrypt(key: &KeySchedule, iv: Block, plain: &[Block]) -> Vec<Block> {
    let mut last = iv;
    let sealed = plain.iter().map(|piece| {
        last = xor(piece, &key.encrypt(&last));
        last
    });
    sealed.collect()
}

fn cfb_decrypt(key: &KeySchedule, iv: Block, sealed: &[Block]) -> Vec<Block> {
    let before = [iv].into_iter().chain(sealed.iter().copied());
    sealed
        .iter()
        .zip(before)
        .map(|(piece, last)| xor(piece, &key.encrypt(&last)))
        .collect()
}

/// Of the last output block as many leading bytes are used as the input has left (6.4).
fn ofb(key: &KeySchedule, iv: Block, input: &[u8]) -> Vec<u8> {
    let mut stream = iv;
    let mut result = Vec::with_capacity(input.len());
    for piece in input.chunks(stream.len()) {
        stream = key.encrypt(&stream);
        result.extend(piece.iter().zip(stream).map(|(byte, mask)| byte ^ mask));
    }
    result
}

pub fn xor(a: &Block, b: &Block) -> Block {
    from_fn(|i| a[i] ^ b[i])
}

#[cfg(test)]
mod tests {
    use super::*;
    use crate::hex::{bytes, shown};

    const KEYS: [&str; 3] = [
        "2b7e151628aed2a6abf7158809cf4f3c",
        "8e73b0f7da0e6452c810f32b809079e562f8ead2522c6b7b",
        "603deb1015ca71be2b73aef0857d77811f352c073b6108d72d9810a30914dff4",
    ];
    const IV: &str = "000102030405060708090a0b0c0d0e0f";
    const PLAIN: &str = "6bc1bee22e409f96e93d7e117393172aae2d8a571e03ac9c9eb76fac45af8e51";

    const ECB: [Operation; 2] = [Operation::EcbEncrypt, Operation::EcbDecrypt];
    const CBC: [Operation; 2] = [Operation::CbcEncrypt, Operation::CbcDecrypt];
    const CFB: [Operation; 2] = [Operation::CfbEncrypt, Operation::CfbDecrypt];
    const OFB: [Operation; 2] = [Operation::Ofb; 2];

    /// The plain text and its sealed form are cut to the length of `sealed`.
    #[track_caller]
    fn both_ways(ways: [Operation; 2], key: &str, iv: &str, sealed: &str) {
        let plain = &PLAIN[..sealed.len()];
        assert_eq!(answer(ways[0], key, iv, plain), sealed);
        assert_eq!(answer(ways[1], key, iv, sealed), plain);
    }

    fn answer(operation: Operation, key: &str, iv: &str, input: &str) -> String {
        let input = bytes(input);
        let mut output = vec![0; input.len()];
        run(operation, &bytes(key), &bytes(iv), &input, &mut output).unwrap();
        shown(&output)
    }

    #[test]
    fn ecb_examples() {
        both_ways(ECB, KEYS[0], "-", "3ad77bb40d7a3660a89ecaf32466ef97");
        both_ways(ECB, KEYS[1], "-", "bd334f1d6e45f25ff712a214571fa5cc");
        both_ways(ECB, KEYS[2], "-", "f3eed1bdb5d2a03c064b5a7e3db181f8");
    }

    #[test]
    fn cbc_examples() {
        let two = "7649abac8119b246cee98e9b12e9197d5086cb9b507219ee95db113a917678b2";
        both_ways(CBC, KEYS[0], IV, two);
        both_ways(CBC, KEYS[1], IV, "4f021db243bc633d7178183a9fa071e8");
        both_ways(CBC, KEYS[2], IV, "f58c4c04d6e5f1ba779eabfb5f7bfbd6");
    }

    #[test]
    fn cfb_examples() {
        let two = "3b3fd92eb72dad20333449f8e83cfb4ac8a64537a0b3a93fcde3cdad9f1ce58b";
        both_ways(CFB, KEYS[0], IV, two);
        both_ways(CFB, KEYS[1], IV, "cdc80d6fddf18cab34c25909c99a4174");
        both_ways(CFB, KEYS[2], IV, "dc7e84bfda79164b7ecd8486985d3860");
    }

    #[test]
    fn ofb_examples() {
        let two = "3b3fd92eb72dad20333449f8e83cfb4a7789508d16918f03f53c52dac54ed825";
        both_ways(OFB, KEYS[0], IV, two);
        both_ways(OFB, KEYS[1], IV, "cdc80d6fddf18cab34c25909c99a4174");
        both_ways(OFB, KEYS[2], IV, "dc7e84bfda79164b7ecd8486985d3860");
    }

    /// Appendix F.4 by its leading bytes: OFB adds them one by one.
    #[test]
    fn ofb_takes_any_length() {
        let sealed = "3b3fd92eb72dad20333449f8e83cfb4a7789508d16918f03f53c52dac54ed825";
        for length in 1..=32 {
            both_ways(OFB, KEYS[0], IV, &sealed[..2 * length]);
        }
    }

    #[test]
    fn a_short_piece_is_refused_but_in_ofb() {
        for (ways, iv) in [(ECB, 0), (CBC, 16), (CFB, 16)] {
            let mut output = [0xaa; 17];
            let (key, iv) = ([0; 16], vec![0; iv]);
            let result = run(ways[1], &key, &iv, &[0; 17], &mut output);
            assert_eq!(result, Err(Refusal::InputLength));
        }
        let mut output = [0xaa; 16];
        let result = run(Operation::Ofb, &[0; 16], &[0; 16], &[0; 17], &mut output);
        assert_eq!(result, Err(Refusal::OutputShort));
        assert_eq!(output, [0xaa; 16]);
    }

    #[test]
    fn refusals_come_in_order_and_leave_the_output() {
        let lengths = [
            ((15, 15, 17, 0), Refusal::KeyLength),
            ((16, 15, 17, 0), Refusal::IvLength),
            ((16, 16, 17, 0), Refusal::InputLength),
            ((16, 16, 16, 15), Refusal::OutputShort),
        ];
        for ((key, iv, input, room), refusal) in lengths {
            let mut output = vec![0xaa; room];
            let (key, iv, input) = (vec![0; key], vec![0; iv], vec![0; input]);
            let result = run(Operation::CbcEncrypt, &key, &iv, &input, &mut output);
            assert_eq!(result, Err(refusal));
            assert_eq!(output, vec![0xaa; room]);
        }
    }

    #[test]
    fn output_past_the_input_stays() {
        let mut output = [0xaa; 20];
        assert_eq!(
            run(Operation::Ofb, &[0; 16], &[0; 16], &[], &mut output),
            Ok([0; 16])
        );
        assert_eq!(output, [0xaa; 20]);
        assert_eq!(
            run(Operation::EcbEncrypt, &[0; 16], &[], &[0; 16], &mut output),
            Ok([0; 16])
        );
        assert_eq!(output[16..], [0xaa; 4]);
        assert_ne!(output[..16], [0xaa; 16]);
    }

    /// SP 800-38A's examples again, in two calls with the value handed on.
    #[test]
    fn the_value_handed_on_goes_on() {
        let sealed = [
            (
                CBC,
                "7649abac8119b246cee98e9b12e9197d5086cb9b507219ee95db113a917678b2",
            ),
            (
                CFB,
                "3b3fd92eb72dad20333449f8e83cfb4ac8a64537a0b3a93fcde3cdad9f1ce58b",
            ),
            (
                OFB,
                "3b3fd92eb72dad20333449f8e83cfb4a7789508d16918f03f53c52dac54ed825",
            ),
        ];
        for (ways, sealed) in sealed {
            for (way, input, expected) in [(ways[0], PLAIN, sealed), (ways[1], sealed, PLAIN)] {
                let (key, input, mut output) = (bytes(KEYS[0]), bytes(input), [0; 32]);
                let (front, rest) = output.split_at_mut(16);
                let next = run(way, &key, &bytes(IV), &input[..16], front).unwrap();
                run(way, &key, &next, &input[16..], rest).unwrap();
                assert_eq!(shown(&output), expected);
            }
        }
    }

    /// F.4.1's output blocks: the one that a short piece used a part of is handed on whole.
    #[test]
    fn ofb_hands_on_a_whole_output_block() {
        let blocks = [
            "50fe67cc996d32b6da0937e99bafec60",
            "d9a4dada0892239f6b8b3d7680e15674",
        ];
        for (length, block) in [
            (1, blocks[0]),
            (16, blocks[0]),
            (17, blocks[1]),
            (32, blocks[1]),
        ] {
            let input = bytes(&PLAIN[..2 * length]);
            let mut output = vec![0; length];
            let next = run(
                Operation::Ofb,
                &bytes(KEYS[0]),
                &bytes(IV),
                &input,
                &mut output,
            );
            assert_eq!(next.map(|next| shown(&next)), Ok(block.to_string()));
        }
    }
}
