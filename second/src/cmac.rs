//! The check: CMAC of SP 800-38B at full length, whole and running.

use crate::aes::{Block, KeySchedule};
use crate::modes::{cbc_encrypt, xor};
use crate::refusal::Refusal;

pub fn check(key: &KeySchedule, message: &[u8]) -> Block {
    // The last piece is never empty unless the message is.
    let before_last = message.len().saturating_sub(1) / 16 * 16;
    let (before, last) = message.split_at(before_last);
    let chained = cbc_encrypt(key, [0; 16], before.as_chunks().0);
    let chained = chained.last().copied().unwrap_or([0; 16]);
    key.encrypt(&xor(&chained, &masked(key, last)))
}

/// The last piece, filled up where it is short, with the subkey that says which it was.
fn masked(key: &KeySchedule, last: &[u8]) -> Block {
    let full_mask = doubled(u128::from_be_bytes(key.encrypt(&[0; 16])));
    match last.try_into() {
        Ok(full) => xor(full, &full_mask.to_be_bytes()),
        Err(_) => xor(&filled(last), &doubled(full_mask).to_be_bytes()),
    }
}

fn doubled(number: u128) -> u128 {
    let carried = if number >> 127 == 1 { 0x87 } else { 0 };
    number << 1 ^ carried
}

fn filled(short: &[u8]) -> Block {
    let mut block = [0; 16];
    let bytes = short.iter().copied().chain([0x80]);
    for (place, byte) in block.iter_mut().zip(bytes) {
        *place = byte;
    }
    block
}

/// Collects what it is fed, so that every way of cutting a message is the same by construction.
/// One that no start made, or that a refused start left, closes to zeros.
#[derive(Clone, Default)]
pub struct RunningCheck {
    key: Option<KeySchedule>,
    fed: Vec<u8>,
}

impl RunningCheck {
    pub fn start(key: &[u8]) -> Result<RunningCheck, Refusal> {
        let key = Some(KeySchedule::new(key)?);
        Ok(RunningCheck {
            key,
            fed: Vec::new(),
        })
    }

    pub fn feed(&mut self, part: &[u8]) {
        self.fed.extend_from_slice(part);
    }

    pub fn close(&self) -> Block {
        match &self.key {
            Some(key) => check(key, &self.fed),
            None => [0; 16],
        }
    }
}

#[cfg(test)]
mod tests {
    use super::*;
    use crate::hex::{array, bytes};

    const MESSAGE: &str = "6bc1bee22e409f96e93d7e117393172aae2d8a571e03ac9c9eb76fac45af8e51\
                           30c81c46a35ce411e5fbc1191a0a52eff69f2445df4f9b17ad2b417be66c3710";

    #[track_caller]
    fn examples(key: &str, checks: [&str; 4]) {
        let key = KeySchedule::new(&bytes(key)).unwrap();
        let message = bytes(MESSAGE);
        for (length, expected) in [0, 16, 40, 64].into_iter().zip(checks) {
            assert_eq!(
                check(&key, &message[..length]),
                array(expected),
                "length {length}"
            );
        }
    }

    #[test]
    fn examples_of_three_key_sizes() {
        examples(
            "2b7e151628aed2a6abf7158809cf4f3c",
            [
                "bb1d6929e95937287fa37d129b756746",
                "070a16b46b4d4144f79bdd9dd04a287c",
                "dfa66747de9ae63030ca32611497c827",
                "51f0bebf7e3b9d92fc49741779363cfe",
            ],
        );
        examples(
            "8e73b0f7da0e6452c810f32b809079e562f8ead2522c6b7b",
            [
                "d17ddf46adaacde531cac483de7a9367",
                "9e99a7bf31e710900662f65e617c5184",
                "8a1de5be2eb31aad089a82e6ee908b0e",
                "a1d5df0eed790f794d77589659f39a11",
            ],
        );
        examples(
            "603deb1015ca71be2b73aef0857d77811f352c073b6108d72d9810a30914dff4",
            [
                "028962f61b7bf89efc6b551f4667d983",
                "28a7023f452e8f82bd4bf28d8c37c35c",
                "aaf3d8f1de5640c232f5b169b9c911e6",
                "e1992190549f6ed5696a2c056c315410",
            ],
        );
    }

    #[test]
    fn doubling_carries_into_the_last_byte() {
        assert_eq!(doubled(1 << 127), 0x87);
        assert_eq!(doubled(1), 2);
    }

    #[test]
    fn running_check_may_be_closed_and_fed_on() {
        let key = bytes("2b7e151628aed2a6abf7158809cf4f3c");
        let mut running = RunningCheck::start(&key).unwrap();
        running.feed(&bytes(MESSAGE)[..16]);
        assert_eq!(running.close(), array("070a16b46b4d4144f79bdd9dd04a287c"));
        running.feed(&[]);
        running.feed(&bytes(MESSAGE)[16..40]);
        assert_eq!(running.close(), array("dfa66747de9ae63030ca32611497c827"));
    }

    #[test]
    fn without_a_start_it_closes_to_zeros() {
        let mut running = RunningCheck::default();
        running.feed(b"any");
        assert_eq!(running.close(), [0; 16]);
        assert_eq!(
            RunningCheck::start(&[0; 15]).err(),
            Some(Refusal::KeyLength)
        );
    }
}
