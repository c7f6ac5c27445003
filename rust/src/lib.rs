//! AES, its modes, the check (CMAC), release images, receivers of blocks in any order, views of stored images, the key wrap, messages in
//! CCM and the bench model for apprentices: safe calls over the C exports of a library in which every function is proved.
//!
//! Every call returns, and every input has one answer: a result, or a [`Refusal`] with the number that `docs/REFUSALS.md` explains.
//! A refused call leaves its output, and the value it is called on, unchanged, and no call changes a byte of an output past its result.
//! One exception: a [turn](Reader::turn) that stops at a bad block keeps the payload of the blocks before it.
//!
//! ```
//! let key = *b"0123456789abcdef";
//! let mut block = [0; 512];
//! let numbers = dock::Numbers { number: 0, count: 1, release: 7, edition: 2 };
//! dock::write(&key, &key, numbers, [0; 16], b"a very small release", &mut block)?;
//! let mut reader = dock::Reader::start(&key, &key)?;
//! let mut payload = [0; 480];
//! let turn = reader.turn(&block, 128, &mut payload)?;
//! reader.complete()?;
//! assert_eq!(payload[..turn.bytes], *b"a very small release");
//! # Ok::<(), dock::Refusal>(())
//! ```
//!
//! # The modes
//!
//! ECB, CBC and CFB take multiples of 16 bytes, OFB any length. CFB means CFB-128. Each call puts its result into the front of the output,
//! which must be at least as long as the input. ECB takes an empty IV, the other modes one of 16 bytes.
//!
//! CBC, CFB and OFB return the next chaining value: the last block of the ciphertext; in OFB the last cipher output; the IV if the input
//! is empty. Pass it as the IV of the next call to process a long input in parts. Each part but the last must have a multiple of 16 bytes;
//! the result is the same as that of one call over everything.
//!
//! # Building
//!
//! The package needs only `core`. The archive that it links is for x86-64 Linux: `tools/proved dock_c` writes it to target/staticlib. The
//! build script looks for it there, or in the folder named by `DOCK_LIBS`. For other targets the package can only be checked.
//! [`Refusal`] implements `core::error::Error` if the compiler has it, from Rust 1.81 on.
//!
//! # Key material and time
//!
//! [`Schedule`], [`Check`], [`Reader`] and [`Receiver`] hold expanded keys, and overwrite them with zeros when they are dropped, clones too. Calls
//! and moves also leave copies on the stack, and nothing overwrites those.
//!
//! Nothing is promised about how long a call takes: it may depend on keys and data. But the comparison in [`verify`] takes the same time
//! wherever a wrong check differs.
#![no_std]
#![deny(missing_docs, unsafe_op_in_unsafe_fn)]

mod ccm;
mod check;
mod cipher;
mod image;
mod modes;
mod receiver;
mod refusal;
mod saes;
pub mod sys;
mod view;
mod wide;
mod wipe;
mod wrap;

pub use ccm::{ccm_open, ccm_seal};
pub use check::{check, verify, Check};
pub use cipher::{decrypt, encrypt, product, schedule, Schedule};
pub use image::{write, Numbers, Reader, Stop, Turn};
pub use modes::{
    cbc_decrypt, cbc_encrypt, cfb_decrypt, cfb_encrypt, ecb_decrypt, ecb_encrypt, ofb,
};
pub use receiver::{Receiver, Refused};
pub use refusal::Refusal;
pub use saes::{saes_decrypt, saes_encrypt};
pub use view::{Blocks, View};
pub use wide::{
    wide24_cbc_decrypt, wide24_cbc_encrypt, wide24_ecb_decrypt, wide24_ecb_encrypt,
    wide32_cbc_decrypt, wide32_cbc_encrypt, wide32_ecb_decrypt, wide32_ecb_encrypt,
};
pub use wrap::{unwrap, wrap};
