//! Looking into a stored image: the image is walked block by block.

use crate::image::BLOCK;
use crate::refusal::Refusal;

/// The last bytes of a block.
const CHECK: usize = 16;

/// A view that was refused is the empty one.
#[derive(Clone, Copy, Default)]
pub struct View<'a> {
    image: &'a [u8],
}

impl<'a> View<'a> {
    pub fn of(image: &'a [u8]) -> Result<View<'a>, Refusal> {
        if image.chunks_exact(BLOCK).remainder().is_empty() {
            Ok(View { image })
        } else {
            Err(Refusal::LentLength)
        }
    }

    pub fn blocks(&self) -> usize {
        self.image.chunks_exact(BLOCK).count()
    }

    pub fn block(&self, place: u64) -> Result<&'a [u8], Refusal> {
        let mut places = (0..).zip(self.image.chunks_exact(BLOCK));
        let found = places.find(|(number, _)| *number == place);
        found.map(|(_, block)| block).ok_or(Refusal::NotBelowCount)
    }

    pub fn check(&self, place: u64) -> Result<&'a [u8], Refusal> {
        self.block(place).map(|block| &block[block.len() - CHECK..])
    }
}

#[cfg(test)]
mod tests {
    use super::*;

    /// Every byte of a block is its place, and those of its check are that and 100.
    fn stored(blocks: u8) -> Vec<u8> {
        let block = |place: u8| [[place; BLOCK - CHECK].as_slice(), &[place + 100; CHECK]].concat();
        (0..blocks).flat_map(block).collect()
    }

    #[test]
    fn each_block_and_its_check_are_shown() {
        let image = stored(3);
        let view = View::of(&image).unwrap();
        assert_eq!(view.blocks(), 3);
        for place in 0..3u8 {
            let block = view.block(place.into()).unwrap();
            assert_eq!(block, &stored(3)[usize::from(place) * BLOCK..][..BLOCK]);
            assert_eq!(view.check(place.into()), Ok(&[place + 100; CHECK][..]));
        }
    }

    #[test]
    fn a_place_past_the_last_is_refused() {
        let image = stored(2);
        let view = View::of(&image).unwrap();
        for place in [2, 3, 1 << 55, u64::MAX] {
            assert_eq!(view.block(place), Err(Refusal::NotBelowCount));
            assert_eq!(view.check(place), Err(Refusal::NotBelowCount));
        }
        assert!(View::of(&[]).unwrap().block(0).is_err());
    }

    #[test]
    fn only_whole_blocks_are_taken() {
        let image = stored(2);
        for length in 0..=image.len() {
            let made = View::of(&image[..length]).map(|view| view.blocks());
            let whole = length % BLOCK == 0;
            assert_eq!(made.ok(), whole.then_some(length / BLOCK), "{length}");
        }
        assert_eq!(View::of(&image[1..]).unwrap_or_default().blocks(), 0);
    }
}
