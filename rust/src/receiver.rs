//! Blocks of one image in any order (`docs/IMAGE.md`).

use crate::refusal::Refusal;
use crate::sys;
use crate::wipe::wipe;
use core::fmt;

/// A receiver of the blocks of one image of edition 1, in any order, under two keys.
///
/// It is told count and release at its start. It puts each block into its own place in a store and marks it in a map. Both belong to the
/// caller, who must not change them between calls. The key material is overwritten with zeros when the receiver or a clone of it is
/// dropped.
#[derive(Clone)]
pub struct Receiver(sys::Receiver);

/// A refused start or block. After a refused block nothing has changed, so you may fetch it again and offer it.
#[derive(Clone, Copy, PartialEq, Eq, Debug)]
pub struct Refused {
    /// Why it was refused.
    pub reason: Refusal,
    /// The number found, if the reason is 13 or below and holds a value.
    pub value: Option<u32>,
}

impl Receiver {
    /// A new receiver, which holds no block. The keys have 16, 24 or 32 bytes each. The store must have 480 bytes for each block, the map
    /// one bit. The bytes of the map that hold these bits are cleared; nothing else changes.
    ///
    /// # Errors
    ///
    /// The first that applies of [`KeyLength`](Refusal::KeyLength), [`CountRange`](Refusal::CountRange) with the count, and
    /// [`OutputShort`](Refusal::OutputShort).
    pub fn start(
        encryption_key: &[u8],
        check_key: &[u8],
        count: u32,
        release: u32,
        store: &[u8],
        map: &mut [u8],
    ) -> Result<Receiver, Refused> {
        // SAFETY: pointers and lengths are those of slices, and the map is lent by `&mut`.
        let answer = unsafe {
            sys::dock_receive_start(
                encryption_key.as_ptr(),
                encryption_key.len(),
                check_key.as_ptr(),
                check_key.len(),
                count,
                release,
                store.as_ptr(),
                store.len(),
                map.as_mut_ptr(),
                map.len(),
            )
        };
        match refused(&answer) {
            None => Ok(Receiver(answer.receiver)),
            Some(refused) => Err(refused),
        }
    }

    /// Takes one block of 512 bytes with any number: its decrypted 480 bytes go to 480 times its number in the store, and its bit in the
    /// map is set.
    ///
    /// # Errors
    ///
    /// The first that applies of 6, 4, 14, 7, 9, 10, 20, 12, 13, 15, 21; nothing has changed then.
    pub fn receive(
        &mut self,
        block: &[u8],
        store: &mut [u8],
        map: &mut [u8],
    ) -> Result<(), Refused> {
        // SAFETY: pointers and lengths are those of slices, store and map are lent by `&mut`, and any bytes in a receiver have an answer.
        let answer = unsafe {
            sys::dock_receive(
                self.0,
                block.as_ptr(),
                block.len(),
                store.as_mut_ptr(),
                store.len(),
                map.as_mut_ptr(),
                map.len(),
            )
        };
        self.0 = answer.receiver;
        match refused(&answer) {
            None => Ok(()),
            Some(refused) => Err(refused),
        }
    }

    /// Whether every block is held. Only this says that the release is complete: the first [`bytes`](Receiver::bytes) bytes of the store
    /// are then its payload.
    ///
    /// # Errors
    ///
    /// [`NotComplete`](Refusal::NotComplete) before.
    pub fn complete(&self) -> Result<(), Refusal> {
        // SAFETY: the receiver is passed by value, and any bytes in it have an answer.
        let number = unsafe { sys::dock_receive_complete(self.0) };
        Refusal::answered(number, ())
    }

    /// The count of the image.
    #[must_use]
    pub fn count(&self) -> u32 {
        self.0.receipt.count
    }

    /// The release of the image.
    #[must_use]
    pub fn release(&self) -> u32 {
        self.0.receipt.release
    }

    /// How many blocks are held.
    #[must_use]
    pub fn held(&self) -> u32 {
        self.0.receipt.held
    }

    /// The sum of the payload lengths of the blocks that are held.
    #[must_use]
    pub fn bytes(&self) -> u32 {
        self.0.receipt.bytes
    }

    /// The receiver with the numbers that it had before a power cut, for a map and a store that were kept with them.
    #[must_use]
    pub fn resumed(mut self, held: u32, bytes: u32) -> Receiver {
        self.0.receipt.held = held;
        self.0.receipt.bytes = bytes;
        self
    }
}

fn refused(answer: &sys::ReceiveAnswer) -> Option<Refused> {
    Refusal::of(answer.number).map(|reason| Refused {
        reason,
        value: Some(answer.value).filter(|_| reason.holds_value()),
    })
}

impl Drop for Receiver {
    fn drop(&mut self) {
        wipe(&mut self.0, sys::Receiver::ZERO);
    }
}

/// Shows what it knows about its image, and no key material.
impl fmt::Debug for Receiver {
    fn fmt(&self, f: &mut fmt::Formatter<'_>) -> fmt::Result {
        f.debug_struct("Receiver")
            .field("count", &self.count())
            .field("release", &self.release())
            .field("held", &self.held())
            .field("bytes", &self.bytes())
            .finish_non_exhaustive()
    }
}
