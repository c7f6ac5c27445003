//! Rijndael with blocks of 24 and of 32 bytes, in ECB and CBC, for the cabinets with the first loader. The documentation of the
//! package says what the calls have in common.

use crate::refusal::Refusal;
use crate::sys;

// One call: what it does to an input of whole blocks of its size, its name and that of the library's, what it answers with, and how that is
// read from the library's answer.
macro_rules! call {
    ($does:literal, $size:literal, $mode:literal, $name:ident, $own:ident, $answer:ty, |$a:ident| $read:expr) => {
        #[doc = concat!($does, " an input of whole blocks of ", $size, " bytes in ", $mode)]
        ///
        /// # Errors
        ///
        /// The first that applies of [`KeyLength`](Refusal::KeyLength), [`IvLength`](Refusal::IvLength),
        /// [`InputLength`](Refusal::InputLength) and [`OutputShort`](Refusal::OutputShort).
        pub fn $name(
            key: &[u8],
            iv: &[u8],
            input: &[u8],
            output: &mut [u8],
        ) -> Result<$answer, Refusal> {
            // SAFETY: pointers and lengths are those of slices, and the output is lent by `&mut`.
            let $a = unsafe {
                sys::$own(
                    key.as_ptr(),
                    key.len(),
                    iv.as_ptr(),
                    iv.len(),
                    input.as_ptr(),
                    input.len(),
                    output.as_mut_ptr(),
                    output.len(),
                )
            };
            $read
        }
    };
}

macro_rules! ecb {
    ($does:literal, $size:literal, $name:ident, $own:ident) => {
        call!($does, $size, "ECB.", $name, $own, (), |number| {
            Refusal::answered(number, ())
        });
    };
}

macro_rules! cbc {
    ($does:literal, $size:literal, $name:ident, $own:ident) => {
        call!(
            $does,
            $size,
            "CBC. The answer is the next chaining value.",
            $name,
            $own,
            [u8; $size],
            |a| Refusal::answered(a.number, a.next)
        );
    };
}

ecb!("Encrypts", 24, wide24_ecb_encrypt, dock_wide24_ecb_encrypt);
ecb!("Decrypts", 24, wide24_ecb_decrypt, dock_wide24_ecb_decrypt);
cbc!("Encrypts", 24, wide24_cbc_encrypt, dock_wide24_cbc_encrypt);
cbc!("Decrypts", 24, wide24_cbc_decrypt, dock_wide24_cbc_decrypt);
ecb!("Encrypts", 32, wide32_ecb_encrypt, dock_wide32_ecb_encrypt);
ecb!("Decrypts", 32, wide32_ecb_decrypt, dock_wide32_ecb_decrypt);
cbc!("Encrypts", 32, wide32_cbc_encrypt, dock_wide32_cbc_encrypt);
cbc!("Decrypts", 32, wide32_cbc_decrypt, dock_wide32_cbc_decrypt);
