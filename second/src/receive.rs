//! Blocks of one image of edition 1 in any order, each into its own place of a store, with a map of those that are held.

use crate::image::{count_fits, length_fits, Header, Keys, Stop, BLOCK, PAYLOAD};
use crate::refusal::Refusal;

/// One that no start made, or that a refused start left, accepts nothing.
#[derive(Clone, Default)]
pub struct Receiver {
    keys: Option<Keys>,
    count: u32,
    release: u32,
    held: u32,
    bytes: u32,
}

fn room(count: u32, store: &[u8], map: &[u8]) -> bool {
    let blocks = u64::from(count);
    (store.len() as u64) >= blocks * PAYLOAD as u64 && (map.len() as u64) * 8 >= blocks
}

fn bit(number: u32) -> (usize, u8) {
    let number = number as usize;
    (number >> 3, 1 << (number & 7))
}

impl Receiver {
    pub fn start(
        encryption_key: &[u8],
        check_key: &[u8],
        count: u32,
        release: u32,
        store: &[u8],
        map: &mut [u8],
    ) -> Result<Receiver, Stop> {
        let keys = Keys::new(encryption_key, check_key).map_err(Stop::plain)?;
        if !count_fits(count) {
            return Err(Stop::holding(Refusal::CountRange, count));
        }
        if !room(count, store, map) {
            return Err(Stop::plain(Refusal::OutputShort));
        }
        map[..(count as usize).div_ceil(8)].fill(0);
        Ok(Receiver {
            keys: Some(keys),
            count,
            release,
            held: 0,
            bytes: 0,
        })
    }

    #[cfg(test)]
    pub fn count(&self) -> u32 {
        self.count
    }

    pub fn held(&self) -> u32 {
        self.held
    }

    /// The sum of the payload lengths accepted.
    #[cfg(test)]
    pub fn bytes(&self) -> u32 {
        self.bytes
    }

    pub fn complete(&self) -> Result<(), Refusal> {
        if self.count >= 1 && self.held == self.count {
            Ok(())
        } else {
            Err(Refusal::NotComplete)
        }
    }

    pub fn receive(&mut self, block: &[u8], store: &mut [u8], map: &mut [u8]) -> Result<(), Stop> {
        let block: &[u8; BLOCK] = block
            .try_into()
            .map_err(|_| Stop::plain(Refusal::LentLength))?;
        if !room(self.count, store, map) {
            return Err(Stop::plain(Refusal::OutputShort));
        }
        let keys = match &self.keys {
            Some(keys) if keys.check_holds(block, &[]) => keys,
            _ => return Err(Stop::plain(Refusal::CheckWrong)),
        };
        let header = Header::read(block);
        self.judge(&header)?;
        let payload = keys.open(&header, block);
        let length = usize::from(header.length);
        if payload.iter().skip(length).any(|byte| *byte != 0) {
            return Err(Stop::plain(Refusal::FillNotZero));
        }
        let (byte, mark) = bit(header.number);
        if map[byte] & mark != 0 {
            return Err(Stop::plain(Refusal::AlreadyHeld));
        }
        let at = header.number as usize * PAYLOAD;
        store[at..at + PAYLOAD].copy_from_slice(&payload);
        map[byte] |= mark;
        self.held = self.held.saturating_add(1);
        self.bytes = self.bytes.saturating_add(u32::from(header.length));
        Ok(())
    }

    fn judge(&self, header: &Header) -> Result<(), Stop> {
        let Header {
            number,
            count,
            release,
            length,
            mark,
        } = *header;
        if !count_fits(count) {
            return Err(Stop::holding(Refusal::CountRange, count));
        }
        if count != self.count {
            return Err(Stop::holding(Refusal::CountDiffers, count));
        }
        if release != self.release {
            return Err(Stop::holding(Refusal::ReleaseDiffers, release));
        }
        if number >= self.count {
            return Err(Stop::plain(Refusal::NotBelowCount));
        }
        if !length_fits(number, count, length.into()) {
            return Err(Stop::holding(Refusal::PayloadLength, length));
        }
        if mark != 0 {
            return Err(Stop::holding(Refusal::Edition, mark));
        }
        Ok(())
    }
}

#[cfg(test)]
mod tests {
    use super::*;
    use crate::image::seal_all;

    const KEYS: [&[u8]; 2] = [&[0x11; 16], &[0x22; 24]];

    fn image(payload: &[u8]) -> Vec<u8> {
        seal_all(KEYS[0], KEYS[1], 7, 1, payload).unwrap()
    }

    fn number(result: Result<(), Stop>) -> u8 {
        result.err().map_or(0, |stop| stop.reason.number())
    }

    #[test]
    fn an_image_backwards_is_complete_and_in_the_store() {
        let payload: Vec<u8> = (0..4_000u32).map(|i| (i * 7) as u8).collect();
        let image = image(&payload);
        let count = image.len() / BLOCK;
        let mut store = vec![0xee; count * PAYLOAD + 3];
        let mut map = vec![0xff; 3];
        let started = Receiver::start(KEYS[0], KEYS[1], count as u32, 7, &store, &mut map);
        let mut receiver = started.unwrap();
        assert_eq!(map, [0, 0, 0xff]);
        for block in image.chunks(BLOCK).rev() {
            assert!(receiver.complete().is_err());
            assert_eq!(number(receiver.receive(block, &mut store, &mut map)), 0);
            assert_eq!(number(receiver.receive(block, &mut store, &mut map)), 21);
        }
        assert!(receiver.complete().is_ok());
        assert_eq!(store[..payload.len()], payload);
        assert_eq!(receiver.bytes() as usize, payload.len());
        assert!(store[payload.len()..count * PAYLOAD]
            .iter()
            .all(|b| *b == 0));
        assert_eq!(store[count * PAYLOAD..], [0xee; 3]);
        assert_eq!(map, [0xff, 1, 0xff]);
    }

    #[test]
    fn memory_one_byte_short_is_refused_and_left() {
        let mut map = [0xff; 2];
        let start = |store: usize, map: &mut [u8]| {
            Receiver::start(KEYS[0], KEYS[1], 9, 7, &vec![0; store], map)
                .err()
                .map(|stop| stop.reason.number())
        };
        assert_eq!(start(9 * PAYLOAD - 1, &mut map), Some(4));
        assert_eq!(start(9 * PAYLOAD, &mut map[..1]), Some(4));
        assert_eq!(map, [0xff; 2]);
        assert_eq!(start(9 * PAYLOAD, &mut map), None);
        assert_eq!(map, [0; 2]);
    }

    #[test]
    fn no_start_accepts_nothing() {
        let block = image(b"any");
        let mut receiver = Receiver::default();
        assert_eq!(number(receiver.receive(&block, &mut [], &mut [])), 14);
        assert_eq!(number(receiver.receive(&block[1..], &mut [], &mut [])), 6);
        assert!(receiver.complete().is_err());
    }
}
