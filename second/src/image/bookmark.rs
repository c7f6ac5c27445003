//! A reader saved in a bookmark of 56 bytes, and resumed from one.

use super::{Fixed, Keys, Reader};
use crate::refusal::Refusal;

pub const BOOKMARK: usize = 56;

/// What its check covers: four numbers of four bytes, the check accepted last, and a number of eight, each with its highest byte first.
pub const COVERED: usize = 40;

impl Reader {
    /// Zeros where no keys started the reader.
    pub fn save(&self, bytes: u64) -> [u8; BOOKMARK] {
        match &self.keys {
            Some(keys) => keys.bookmark(&self.covered(bytes)),
            None => [0; BOOKMARK],
        }
    }

    fn covered(&self, bytes: u64) -> Vec<u8> {
        let Fixed {
            count,
            release,
            edition,
        } = self.fixed;
        let numbers = [self.expected, count, release, edition];
        let numbers = numbers.map(u32::to_be_bytes).concat();
        [&numbers, &self.last[..], &bytes.to_be_bytes()].concat()
    }

    pub fn resume(
        encryption_key: &[u8],
        check_key: &[u8],
        bookmark: &[u8; BOOKMARK],
    ) -> Result<(Reader, u64), Refusal> {
        let keys = Keys::new(encryption_key, check_key)?;
        if keys.bookmark(&bookmark[..COVERED]) != *bookmark {
            return Err(Refusal::NotABookmark);
        }
        let fixed = Fixed {
            count: word(bookmark, 4),
            release: word(bookmark, 8),
            edition: word(bookmark, 12),
        };
        let mut last = [0; 16];
        last.copy_from_slice(&bookmark[16..32]);
        let reader = Reader {
            keys: Some(keys),
            expected: word(bookmark, 0),
            fixed,
            last,
        };
        let bytes = u64::from(word(bookmark, 32)) << 32 | u64::from(word(bookmark, 36));
        Ok((reader, bytes))
    }
}

impl Keys {
    pub fn bookmark(&self, covered: &[u8]) -> [u8; BOOKMARK] {
        let mut bookmark = [0; BOOKMARK];
        let (front, check) = bookmark.split_at_mut(COVERED);
        front.copy_from_slice(covered);
        check.copy_from_slice(&self.check_of(covered, &[]));
        bookmark
    }
}

fn word(bookmark: &[u8; BOOKMARK], place: usize) -> u32 {
    let bytes = &bookmark[place..place + 4];
    bytes
        .iter()
        .fold(0, |word, byte| word << 8 | u32::from(*byte))
}

#[cfg(test)]
mod tests {
    use super::*;
    use crate::image::seal_all;

    const KEY: [u8; 16] = [7; 16];
    const OTHER: [u8; 24] = [9; 24];

    /// A reader of two of three blocks, and its image.
    fn midway() -> (Reader, Vec<u8>) {
        let image = seal_all(&KEY, &OTHER, 0x0102_0304, 2, &[5; 1000]).unwrap();
        let mut reader = Reader::start(&KEY, &OTHER).unwrap();
        let turn = reader.turn(2, &image, &mut [0; 960]).unwrap();
        assert_eq!(turn.accepted, 2);
        (reader, image)
    }

    #[test]
    fn each_number_has_its_place() {
        let (reader, image) = midway();
        let bookmark = reader.save(960);
        assert_eq!(
            bookmark[..16],
            [0, 0, 0, 2, 0, 0, 0, 3, 1, 2, 3, 4, 0, 0, 0, 2]
        );
        assert_eq!(bookmark[16..32], image[1008..1024]);
        assert_eq!(bookmark[32..40], [0, 0, 0, 0, 0, 0, 3, 0xc0]);
    }

    #[test]
    fn a_resumed_reader_reads_on() {
        let (reader, image) = midway();
        let (mut resumed, bytes) = Reader::resume(&KEY, &OTHER, &reader.save(960)).unwrap();
        assert_eq!(bytes, 960);
        let turn = resumed.turn(1, &image[1024..], &mut [0; 480]).unwrap();
        assert_eq!((turn.accepted, turn.sum), (1, 40));
        assert!(resumed.complete().is_ok());
    }

    #[test]
    fn any_damaged_byte_is_refused() {
        let bookmark = midway().0.save(960);
        for place in 0..BOOKMARK {
            let mut damaged = bookmark;
            damaged[place] ^= 1;
            let refused = Reader::resume(&KEY, &OTHER, &damaged).err();
            assert_eq!(refused, Some(Refusal::NotABookmark));
        }
        let zeros = Reader::resume(&KEY, &OTHER, &[0; BOOKMARK]).err();
        assert_eq!(zeros, Some(Refusal::NotABookmark));
    }

    #[test]
    fn without_keys_it_is_zeros() {
        assert_eq!(Reader::default().save(7), [0; BOOKMARK]);
        let refused = Reader::resume(&KEY[..15], &OTHER, &[0; BOOKMARK]).err();
        assert_eq!(refused, Some(Refusal::KeyLength));
    }
}
