//! Looking into a stored image (`docs/IMAGE.md`).

use crate::refusal::Refusal;
use crate::sys;
use core::fmt;

/// A view of a stored image: it holds the lent image, and shows any block by its place, or the check of that block.
///
/// What it shows is a part of the image itself and lives as long as the image. Nothing is verified: a block may be damaged or belong to
/// another image. The default is the view of an empty image.
///
/// ```
/// let image = [7; 1024];
/// let view = dock::View::of(&image)?;
/// assert_eq!(view.len(), 2);
/// assert_eq!(view.block(1)?, &image[512..]);
/// assert_eq!(view.check(0)?, &image[496..512]);
/// assert_eq!(view.block(2), Err(dock::Refusal::NotBelowCount));
/// # Ok::<(), dock::Refusal>(())
/// ```
#[derive(Clone, Copy, Default)]
pub struct View<'a> {
    image: &'a [u8],
}

impl<'a> View<'a> {
    /// A view of an image of whole blocks of 512 bytes, possibly none.
    ///
    /// # Errors
    ///
    /// [`LentLength`](Refusal::LentLength) if the image has another length.
    pub fn of(image: &'a [u8]) -> Result<View<'a>, Refusal> {
        Refusal::answered(block_of(image, 0).made, View { image })
    }

    /// The number of blocks.
    #[must_use]
    pub fn len(self) -> usize {
        block_of(self.image, 0).blocks
    }

    /// Whether there is no block.
    #[must_use]
    pub fn is_empty(self) -> bool {
        self.len() == 0
    }

    /// Block `place` of the image, from 0: 512 bytes.
    ///
    /// # Errors
    ///
    /// [`NotBelowCount`](Refusal::NotBelowCount) if there is no such block.
    pub fn block(self, place: usize) -> Result<&'a [u8], Refusal> {
        self.shown(block_of(self.image, place))
    }

    /// The check of that block, its last 16 bytes.
    ///
    /// # Errors
    ///
    /// [`NotBelowCount`](Refusal::NotBelowCount) if there is no such block.
    pub fn check(self, place: usize) -> Result<&'a [u8], Refusal> {
        // SAFETY: only numbers are passed.
        self.shown(unsafe { sys::dock_view_check(self.image.len(), place) })
    }

    /// The blocks, from the first on.
    #[must_use]
    pub fn blocks(self) -> Blocks<'a> {
        Blocks {
            view: self,
            next: 0,
        }
    }

    /// The part lies in the image: that is proved.
    fn shown(self, answer: sys::ViewAnswer) -> Result<&'a [u8], Refusal> {
        let part = &self.image[answer.offset..answer.offset + answer.length];
        Refusal::answered(answer.number, part)
    }
}

fn block_of(image: &[u8], place: usize) -> sys::ViewAnswer {
    // SAFETY: only numbers are passed.
    unsafe { sys::dock_view_block(image.len(), place) }
}

/// Shows the number of blocks, and none of their bytes.
impl fmt::Debug for View<'_> {
    fn fmt(&self, f: &mut fmt::Formatter<'_>) -> fmt::Result {
        f.debug_struct("View")
            .field("len", &self.len())
            .finish_non_exhaustive()
    }
}

impl<'a> IntoIterator for View<'a> {
    type Item = &'a [u8];
    type IntoIter = Blocks<'a>;

    fn into_iter(self) -> Blocks<'a> {
        self.blocks()
    }
}

/// The blocks of a [`View`], from the first on.
#[derive(Clone, Debug)]
pub struct Blocks<'a> {
    view: View<'a>,
    next: usize,
}

impl<'a> Iterator for Blocks<'a> {
    type Item = &'a [u8];

    fn next(&mut self) -> Option<&'a [u8]> {
        let block = self.view.block(self.next).ok()?;
        self.next += 1;
        Some(block)
    }

    fn size_hint(&self) -> (usize, Option<usize>) {
        let left = self.view.len() - self.next;
        (left, Some(left))
    }
}

impl ExactSizeIterator for Blocks<'_> {}
