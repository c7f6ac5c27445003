//! The calls as C has them, with the layouts of `include/dock.h`, which says what each does.
//!
//! Slices meet its rules about memory: they are not null, are as long as they say and at most `isize::MAX` bytes, and one that is lent by
//! `&mut` overlaps no other. So a call is sound if each pointer and length come from a slice, those of an output from one that is lent by
//! `&mut` for the call, and a record comes from a `&mut`.
#![allow(missing_docs)]

#[repr(C)]
#[derive(Clone, Copy)]
pub struct Block {
    pub bytes: [u8; 16],
}

#[repr(C)]
#[derive(Clone, Copy)]
pub struct ScheduleAnswer {
    pub number: u32,
    pub words: [u32; 60],
    pub rounds: usize,
}

#[repr(C)]
#[derive(Clone, Copy)]
pub struct BlockAnswer {
    pub number: u32,
    pub block: [u8; 16],
}

#[repr(C)]
#[derive(Clone, Copy)]
pub struct ChainAnswer {
    pub number: u32,
    pub next: [u8; 16],
}

#[repr(C)]
#[derive(Clone, Copy)]
pub struct Chain24Answer {
    pub number: u32,
    pub next: [u8; 24],
}

#[repr(C)]
#[derive(Clone, Copy)]
pub struct Chain32Answer {
    pub number: u32,
    pub next: [u8; 32],
}

#[repr(C)]
#[derive(Clone, Copy)]
pub struct CheckAnswer {
    pub number: u32,
    pub check: [u8; 16],
}

#[repr(C)]
#[derive(Clone, Copy)]
pub struct Record {
    pub words: [u32; 60],
    pub rounds: usize,
    pub chain: [u8; 16],
    pub held: [u8; 16],
    pub count: usize,
}

#[repr(C)]
#[derive(Clone, Copy)]
pub struct StartAnswer {
    pub number: u32,
    pub record: Record,
}

#[repr(C)]
#[derive(Clone, Copy)]
pub struct KeySchedule {
    pub words: [u32; 60],
    pub rounds: usize,
}

#[repr(C)]
#[derive(Clone, Copy)]
pub struct Progress {
    pub next: u32,
    pub count: u32,
    pub release: u32,
    pub edition: u32,
    pub last: [u8; 16],
}

#[repr(C)]
#[derive(Clone, Copy)]
pub struct Reader {
    pub enc: KeySchedule,
    pub chk: KeySchedule,
    pub progress: Progress,
}

#[repr(C)]
#[derive(Clone, Copy)]
pub struct ReadStartAnswer {
    pub number: u32,
    pub reader: Reader,
}

#[repr(C)]
#[derive(Clone, Copy)]
pub struct Bookmark {
    pub bytes: [u8; 56],
}

#[repr(C)]
#[derive(Clone, Copy)]
pub struct ResumeAnswer {
    pub number: u32,
    pub bytes: u64,
    pub reader: Reader,
}

#[repr(C)]
#[derive(Clone, Copy)]
pub struct TurnAnswer {
    pub number: u32,
    pub reason: u32,
    pub value: u32,
    pub place: usize,
    pub accepted: usize,
    pub bytes: usize,
    pub reader: Reader,
}

#[repr(C)]
#[derive(Clone, Copy)]
pub struct Receipt {
    pub count: u32,
    pub release: u32,
    pub held: u32,
    pub bytes: u32,
}

#[repr(C)]
#[derive(Clone, Copy)]
pub struct Receiver {
    pub enc: KeySchedule,
    pub chk: KeySchedule,
    pub receipt: Receipt,
}

#[repr(C)]
#[derive(Clone, Copy)]
pub struct ReceiveAnswer {
    pub number: u32,
    pub value: u32,
    pub receiver: Receiver,
}

#[repr(C)]
#[derive(Clone, Copy)]
pub struct ViewAnswer {
    pub made: u32,
    pub number: u32,
    pub blocks: usize,
    pub offset: usize,
    pub length: usize,
}

/// The state after each of the three key additions of Simplified AES.
#[repr(C)]
#[derive(Clone, Copy)]
pub struct States {
    pub first: u16,
    pub second: u16,
    pub third: u16,
}

impl Record {
    pub const ZERO: Record = Record {
        words: [0; 60],
        rounds: 0,
        chain: [0; 16],
        held: [0; 16],
        count: 0,
    };
}

impl KeySchedule {
    pub const ZERO: KeySchedule = KeySchedule {
        words: [0; 60],
        rounds: 0,
    };
}

impl Reader {
    pub const ZERO: Reader = Reader {
        enc: KeySchedule::ZERO,
        chk: KeySchedule::ZERO,
        progress: Progress {
            next: 0,
            count: 0,
            release: 0,
            edition: 0,
            last: [0; 16],
        },
    };
}

impl Receiver {
    pub const ZERO: Receiver = Receiver {
        enc: KeySchedule::ZERO,
        chk: KeySchedule::ZERO,
        receipt: Receipt {
            count: 0,
            release: 0,
            held: 0,
            bytes: 0,
        },
    };
}

/// One of the two calls of ECB: key, IV, input and output, each with its length.
pub type ModeCall = unsafe extern "C" fn(
    *const u8,
    usize,
    *const u8,
    usize,
    *const u8,
    usize,
    *mut u8,
    usize,
) -> u32;

/// One of the five calls of the modes that hand on a chaining value.
pub type ChainCall = unsafe extern "C" fn(
    *const u8,
    usize,
    *const u8,
    usize,
    *const u8,
    usize,
    *mut u8,
    usize,
) -> ChainAnswer;

/// One of the two calls of the key wrap: key, data and output, each with its length.
pub type WrapCall = unsafe extern "C" fn(*const u8, usize, *const u8, usize, *mut u8, usize) -> u32;

/// One of the two calls of CCM: key, nonce, associated data, input and output, each with its length.
pub type CcmCall = unsafe extern "C" fn(
    *const u8,
    usize,
    *const u8,
    usize,
    *const u8,
    usize,
    *const u8,
    usize,
    *mut u8,
    usize,
) -> u32;

#[rustfmt::skip]
extern "C" {
    pub fn dock_product(a: u8, b: u8) -> u8;
    pub fn dock_schedule(key: *const u8, key_length: usize) -> ScheduleAnswer;
    pub fn dock_encrypt(key: *const u8, key_length: usize, block: Block) -> BlockAnswer;
    pub fn dock_decrypt(key: *const u8, key_length: usize, block: Block) -> BlockAnswer;

    pub fn dock_ecb_encrypt(
        key: *const u8, key_length: usize, iv: *const u8, iv_length: usize,
        input: *const u8, input_length: usize, output: *mut u8, output_length: usize,
    ) -> u32;
    pub fn dock_ecb_decrypt(
        key: *const u8, key_length: usize, iv: *const u8, iv_length: usize,
        input: *const u8, input_length: usize, output: *mut u8, output_length: usize,
    ) -> u32;
    pub fn dock_cbc_encrypt(
        key: *const u8, key_length: usize, iv: *const u8, iv_length: usize,
        input: *const u8, input_length: usize, output: *mut u8, output_length: usize,
    ) -> ChainAnswer;
    pub fn dock_cbc_decrypt(
        key: *const u8, key_length: usize, iv: *const u8, iv_length: usize,
        input: *const u8, input_length: usize, output: *mut u8, output_length: usize,
    ) -> ChainAnswer;
    pub fn dock_cfb_encrypt(
        key: *const u8, key_length: usize, iv: *const u8, iv_length: usize,
        input: *const u8, input_length: usize, output: *mut u8, output_length: usize,
    ) -> ChainAnswer;
    pub fn dock_cfb_decrypt(
        key: *const u8, key_length: usize, iv: *const u8, iv_length: usize,
        input: *const u8, input_length: usize, output: *mut u8, output_length: usize,
    ) -> ChainAnswer;
    pub fn dock_ofb(
        key: *const u8, key_length: usize, iv: *const u8, iv_length: usize,
        input: *const u8, input_length: usize, output: *mut u8, output_length: usize,
    ) -> ChainAnswer;
    pub fn dock_wide24_ecb_encrypt(
        key: *const u8, key_length: usize, iv: *const u8, iv_length: usize,
        input: *const u8, input_length: usize, output: *mut u8, output_length: usize,
    ) -> u32;
    pub fn dock_wide24_ecb_decrypt(
        key: *const u8, key_length: usize, iv: *const u8, iv_length: usize,
        input: *const u8, input_length: usize, output: *mut u8, output_length: usize,
    ) -> u32;
    pub fn dock_wide24_cbc_encrypt(
        key: *const u8, key_length: usize, iv: *const u8, iv_length: usize,
        input: *const u8, input_length: usize, output: *mut u8, output_length: usize,
    ) -> Chain24Answer;
    pub fn dock_wide24_cbc_decrypt(
        key: *const u8, key_length: usize, iv: *const u8, iv_length: usize,
        input: *const u8, input_length: usize, output: *mut u8, output_length: usize,
    ) -> Chain24Answer;
    pub fn dock_wide32_ecb_encrypt(
        key: *const u8, key_length: usize, iv: *const u8, iv_length: usize,
        input: *const u8, input_length: usize, output: *mut u8, output_length: usize,
    ) -> u32;
    pub fn dock_wide32_ecb_decrypt(
        key: *const u8, key_length: usize, iv: *const u8, iv_length: usize,
        input: *const u8, input_length: usize, output: *mut u8, output_length: usize,
    ) -> u32;
    pub fn dock_wide32_cbc_encrypt(
        key: *const u8, key_length: usize, iv: *const u8, iv_length: usize,
        input: *const u8, input_length: usize, output: *mut u8, output_length: usize,
    ) -> Chain32Answer;
    pub fn dock_wide32_cbc_decrypt(
        key: *const u8, key_length: usize, iv: *const u8, iv_length: usize,
        input: *const u8, input_length: usize, output: *mut u8, output_length: usize,
    ) -> Chain32Answer;

    pub fn dock_check(key: *const u8, key_length: usize, message: *const u8, length: usize) -> CheckAnswer;
    pub fn dock_check_start(key: *const u8, key_length: usize) -> StartAnswer;
    pub fn dock_check_feed(record: *mut Record, part: *const u8, length: usize);
    pub fn dock_check_close(record: Record) -> CheckAnswer;

    pub fn dock_write(
        ekey: *const u8, ekey_length: usize, ckey: *const u8, ckey_length: usize,
        number: u32, count: u32, release: u32, edition: u32, previous: Block,
        payload: *const u8, payload_length: usize, output: *mut u8, output_length: usize,
    ) -> u32;
    pub fn dock_read_start(
        ekey: *const u8, ekey_length: usize, ckey: *const u8, ckey_length: usize,
    ) -> ReadStartAnswer;
    pub fn dock_read_turn(
        reader: Reader, blocks: *const u8, blocks_length: usize, asked: usize,
        output: *mut u8, output_length: usize,
    ) -> TurnAnswer;
    pub fn dock_read_complete(reader: Reader) -> u32;
    pub fn dock_read_save(reader: Reader, bytes: u64) -> Bookmark;
    pub fn dock_read_resume(
        ekey: *const u8, ekey_length: usize, ckey: *const u8, ckey_length: usize, bookmark: Bookmark,
    ) -> ResumeAnswer;

    pub fn dock_receive_start(
        ekey: *const u8, ekey_length: usize, ckey: *const u8, ckey_length: usize,
        count: u32, release: u32, store: *const u8, store_length: usize, map: *mut u8, map_length: usize,
    ) -> ReceiveAnswer;
    pub fn dock_receive(
        receiver: Receiver, block: *const u8, block_length: usize,
        store: *mut u8, store_length: usize, map: *mut u8, map_length: usize,
    ) -> ReceiveAnswer;
    pub fn dock_receive_complete(receiver: Receiver) -> u32;

    pub fn dock_view_block(image_length: usize, place: usize) -> ViewAnswer;
    pub fn dock_view_check(image_length: usize, place: usize) -> ViewAnswer;

    pub fn dock_wrap(
        key: *const u8, key_length: usize, data: *const u8, data_length: usize,
        output: *mut u8, output_length: usize,
    ) -> u32;
    pub fn dock_unwrap(
        key: *const u8, key_length: usize, data: *const u8, data_length: usize,
        output: *mut u8, output_length: usize,
    ) -> u32;

    pub fn dock_saes_encrypt(key: u16, block: u16) -> States;
    pub fn dock_saes_decrypt(key: u16, block: u16) -> States;
    pub fn dock_ccm_seal(
        key: *const u8, key_length: usize, nonce: *const u8, nonce_length: usize,
        ad: *const u8, ad_length: usize, message: *const u8, message_length: usize,
        output: *mut u8, output_length: usize,
    ) -> u32;
    pub fn dock_ccm_open(
        key: *const u8, key_length: usize, nonce: *const u8, nonce_length: usize,
        ad: *const u8, ad_length: usize, sealed: *const u8, sealed_length: usize,
        output: *mut u8, output_length: usize,
    ) -> u32;
}
