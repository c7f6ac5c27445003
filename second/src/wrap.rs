//! The key wrap of RFC 3394, in the form of its section 2.2 that shifts the registers along.

use crate::aes::{Block, KeySchedule};
use crate::refusal::Refusal;
use std::array::from_fn;
use std::ops::RangeInclusive;

/// A register: 64 bits.
pub type Half = [u8; 8];

/// The initial value of section 2.2.3.1.
pub const INITIAL: Half = [0xa6; 8];

/// How many registers of key data a call takes: 16 to 64 bytes.
const REGISTERS: RangeInclusive<usize> = 2..=8;

pub fn wrap(key: &[u8], data: &[u8], output: &mut [u8]) -> Result<(), Refusal> {
    let key = KeySchedule::new(key)?;
    let registers = whole_registers(data, 0)?;
    let room = output
        .get_mut(..data.len() + 8)
        .ok_or(Refusal::OutputShort)?;
    room.copy_from_slice(sealed(&key, INITIAL, registers).as_flattened());
    Ok(())
}

pub fn unwrap(key: &[u8], data: &[u8], output: &mut [u8]) -> Result<(), Refusal> {
    let key = KeySchedule::new(key)?;
    let registers = whole_registers(data, 1)?;
    let room = output
        .get_mut(..data.len() - 8)
        .ok_or(Refusal::OutputShort)?;
    let (initial, plain) = opened(&key, registers);
    if initial != INITIAL {
        return Err(Refusal::InitialValue);
    }
    room.copy_from_slice(plain.as_flattened());
    Ok(())
}

/// The registers of data that has so many more of them than its key data.
fn whole_registers(data: &[u8], more: usize) -> Result<&[Half], Refusal> {
    let (registers, rest) = data.as_chunks();
    let fits = registers
        .len()
        .checked_sub(more)
        .is_some_and(|count| REGISTERS.contains(&count));
    if fits && rest.is_empty() {
        Ok(registers)
    } else {
        Err(Refusal::WrapLength)
    }
}

/// Section 2.2.1 over any initial value: A, then the registers R.
pub fn sealed(key: &KeySchedule, initial: Half, plain: &[Half]) -> Vec<Half> {
    let mut a = initial;
    let mut r = plain.to_vec();
    for t in 1..=steps(&r) {
        if let Some(first) = r.first_mut() {
            let (high, low) = halves(&key.encrypt(&joined(&a, first)));
            a = counted(&high, t);
            *first = low;
        }
        r.rotate_left(1);
    }
    r.insert(0, a);
    r
}

/// Section 2.2.2: what stood in A before the first step, and the registers R.
fn opened(key: &KeySchedule, sealed: &[Half]) -> (Half, Vec<Half>) {
    let Some((a, r)) = sealed.split_first() else {
        return ([0; 8], Vec::new());
    };
    let (mut a, mut r) = (*a, r.to_vec());
    for t in (1..=steps(&r)).rev() {
        r.rotate_right(1);
        if let Some(first) = r.first_mut() {
            (a, *first) = halves(&key.decrypt(&joined(&counted(&a, t), first)));
        }
    }
    (a, r)
}

fn steps(registers: &[Half]) -> u64 {
    6 * registers.len() as u64
}

/// A register with the number of a step added.
fn counted(half: &Half, t: u64) -> Half {
    (u64::from_be_bytes(*half) ^ t).to_be_bytes()
}

fn joined(high: &Half, low: &Half) -> Block {
    from_fn(|i| if i < 8 { high[i] } else { low[i - 8] })
}

fn halves(block: &Block) -> (Half, Half) {
    (from_fn(|i| block[i]), from_fn(|i| block[i + 8]))
}

#[cfg(test)]
mod tests {
    use super::*;
    use crate::hex::bytes;

    const KEY: &str = "000102030405060708090a0b0c0d0e0f101112131415161718191a1b1c1d1e1f";
    const DATA: &str = "00112233445566778899aabbccddeeff000102030405060708090a0b0c0d0e0f";

    type Call = fn(&[u8], &[u8], &mut [u8]) -> Result<(), Refusal>;

    /// The answer of a call, and lent memory of aa after it.
    fn answer(call: Call, key: &[u8], data: &[u8], room: usize) -> (Result<(), Refusal>, Vec<u8>) {
        let mut output = vec![0xaa; room];
        let result = call(key, data, &mut output);
        (result, output)
    }

    #[track_caller]
    fn refused(call: Call, key: usize, data: &[u8], room: usize, refusal: Refusal) {
        let (result, output) = answer(call, &bytes(KEY).repeat(3)[..key], data, room);
        assert_eq!(result, Err(refusal), "{} {room}", data.len());
        assert_eq!(output, vec![0xaa; room]);
    }

    #[track_caller]
    fn both_ways(key: usize, data: usize, wrapped: &str) {
        let (key, data, wrapped) = (&bytes(KEY)[..key], &bytes(DATA)[..data], bytes(wrapped));
        for more in [0, 1, 40] {
            let past = vec![0xaa; more];
            let (result, output) = answer(wrap, key, data, wrapped.len() + more);
            assert_eq!(
                (result, output),
                (Ok(()), [&wrapped[..], &past[..]].concat())
            );
            let (result, output) = answer(unwrap, key, &wrapped, data.len() + more);
            assert_eq!((result, output), (Ok(()), [data, &past[..]].concat()));
        }
    }

    #[test]
    fn examples_of_the_standard() {
        both_ways(16, 16, "1fa68b0a8112b447aef34bd8fb5a7b829d3e862371d2cfe5");
        both_ways(24, 16, "96778b25ae6ca435f92b5b97c050aed2468ab8a17ad84e5d");
        both_ways(32, 16, "64e8c3f9ce0f5ba263e9777905818a2a93c8191e7d6e8ae7");
        both_ways(
            24,
            24,
            "031d33264e15d33268f24ec260743edce1c6c7ddee725a936ba814915c6762d2",
        );
        both_ways(
            32,
            24,
            "a8f9bc1612c68b3ff6e6f4fbe30e71e4769c8b80a32cb8958cd5d17d6b254da1",
        );
        both_ways(
            32,
            32,
            "28c9f404c4b810f4cbccb35cfb87f8263f5786e2d80ed326cbc7f0e71a99f43bfb988b9b7a02dd21",
        );
    }

    #[test]
    fn unwrapping_undoes_wrapping_at_every_length() {
        for key in [16, 24, 32] {
            let key = &bytes(KEY)[..key];
            for length in (16..=64).step_by(8) {
                let data = &bytes(DATA).repeat(2)[..length];
                let (result, wrapped) = answer(wrap, key, data, length + 8);
                assert_eq!(result, Ok(()));
                assert_eq!(
                    answer(unwrap, key, &wrapped, length),
                    (Ok(()), data.to_vec())
                );
            }
        }
    }

    #[test]
    fn other_lengths_are_refused() {
        for length in 0..=200 {
            let data = vec![0; length];
            if !(16..=64).contains(&length) || length % 8 > 0 {
                refused(wrap, 16, &data, 300, Refusal::WrapLength);
            }
            if !(24..=72).contains(&length) || length % 8 > 0 {
                refused(unwrap, 16, &data, 300, Refusal::WrapLength);
            }
        }
    }

    #[test]
    fn refusals_come_in_order_and_leave_the_output() {
        refused(wrap, 15, &[0; 15], 0, Refusal::KeyLength);
        refused(wrap, 16, &[0; 15], 0, Refusal::WrapLength);
        refused(wrap, 16, &[0; 16], 23, Refusal::OutputShort);
        refused(unwrap, 33, &[0; 16], 0, Refusal::KeyLength);
        refused(unwrap, 32, &[0; 16], 0, Refusal::WrapLength);
        refused(unwrap, 32, &[0; 24], 15, Refusal::OutputShort);
        refused(unwrap, 32, &[0; 24], 16, Refusal::InitialValue);
    }

    #[test]
    fn every_byte_of_the_initial_value_counts() {
        let key = KeySchedule::new(&bytes(KEY)[..16]).unwrap();
        let plain = [[1; 8], [2; 8], [3; 8]];
        for place in 0..8 {
            let mut initial = INITIAL;
            initial[place] ^= 1;
            let data = sealed(&key, initial, &plain);
            refused(unwrap, 16, data.as_flattened(), 24, Refusal::InitialValue);
        }
    }

    #[test]
    fn every_byte_of_wrapped_data_counts() {
        let wrapped = bytes("1fa68b0a8112b447aef34bd8fb5a7b829d3e862371d2cfe5");
        for place in 0..wrapped.len() {
            let mut damaged = wrapped.clone();
            damaged[place] ^= 0x10;
            refused(unwrap, 16, &damaged, 16, Refusal::InitialValue);
        }
    }
}
