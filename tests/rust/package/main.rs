//! What the package promises beyond the calls of `dock.h`: checks are verified, key material is overwritten when it is dropped, no
//! check, reader or receiver is without a key, a view goes through its blocks, blocks are received in any order, and a refusal is an error like others. It stops at the first
//! that does not hold.

use dock::{Check, Reader, Receiver, Refusal, Refused, View};
use std::mem::{size_of, MaybeUninit};
use std::ptr;

// RFC 4493, examples 1 and 2.
const KEY: [u8; 16] = 0x2b7e_1516_28ae_d2a6_abf7_1588_09cf_4f3cu128.to_be_bytes();
const MESSAGES: [(&[u8], u128); 2] = [
    (&[], 0xbb1d_6929_e959_3728_7fa3_7d12_9b75_6746),
    (
        &0x6bc1_bee2_2e40_9f96_e93d_7e11_7393_172au128.to_be_bytes(),
        0x070a_16b4_6b4d_4144_f79b_dd9d_d04a_287c,
    ),
];

/// Does not compile for a type that has a default: there are two names then that the `_` below can stand for.
trait NoDefault<Marker> {
    fn holds() {}
}

impl<T> NoDefault<()> for T {}
impl<T: Default> NoDefault<u8> for T {}

/// A message has its own check, and none of the 128 that differ from it in one bit. Changes of several bits do not make up for each
/// other.
fn verified(message: &[u8], check: u128, verify: impl Fn(&[u8; 16]) -> Result<(), Refusal>) {
    assert_eq!(verify(&check.to_be_bytes()), Ok(()), "{message:?}");
    for bit in 0..128 {
        for changes in [1u128 << bit, 3 << bit, 0x0101 << bit, u128::MAX << bit] {
            let wrong = (check ^ changes).to_be_bytes();
            assert_eq!(verify(&wrong), Err(Refusal::CheckWrong), "bit {bit}");
        }
    }
}

fn verify() -> Result<(), Refusal> {
    for (message, check) in MESSAGES {
        verified(message, check, |check| dock::verify(&KEY, message, check));
        let running = Check::start(&KEY)?.fed(message);
        verified(message, check, |check| running.verify(check));
    }
    // A key of another length is said before a wrong check.
    for length in (0..=64).filter(|length| ![16, 24, 32].contains(length)) {
        let answer = dock::verify(&[0; 64][..length], &[], &[0; 16]);
        assert_eq!(answer, Err(Refusal::KeyLength), "a key of {length} bytes");
        assert_eq!(answer.map_err(Refusal::number), Err(1));
    }
    Ok(())
}

/// How many bytes of a place are not zero.
fn set_bytes<T>(place: &MaybeUninit<T>) -> usize {
    let at = place.as_ptr().cast::<u8>();
    // SAFETY: the byte is one of the place, in which a value was and no byte is padding.
    let byte = |i| unsafe { ptr::read_volatile(at.add(i)) };
    (0..size_of::<T>()).filter(|i| byte(*i) != 0).count()
}

/// A value holds key material while it is there, and its place holds no byte of it once the value is dropped.
fn overwritten<T>(value: T, name: &str) {
    let mut place = MaybeUninit::new(value);
    let before = set_bytes(&place);
    assert!(before >= 160, "{name} has only {before} bytes that are set");
    // SAFETY: a value is there, and nobody uses it from here on.
    unsafe { ptr::drop_in_place(place.as_mut_ptr()) };
    assert_eq!(set_bytes(&place), 0, "bytes that {name} leaves behind");
}

fn drops() -> Result<(), Refusal> {
    overwritten(dock::schedule(&KEY)?, "a schedule");
    overwritten(dock::schedule(&KEY)?.clone(), "a clone of a schedule");
    overwritten(Check::start(&KEY)?, "a check");
    overwritten(Check::start(&KEY)?.fed(b"a part"), "a check that was fed");
    overwritten(Check::start(&KEY)?.clone(), "a clone of a check");
    let reader = Reader::start(&KEY, &KEY)?;
    overwritten(reader.clone(), "a clone of a reader");
    overwritten(reader, "a reader");
    let receiver = Receiver::start(&KEY, &KEY, 1, 7, &[0; 480], &mut [0; 1]);
    let receiver = receiver.map_err(|refused| refused.reason)?;
    overwritten(receiver.clone(), "a clone of a receiver");
    overwritten(receiver, "a receiver");
    Ok(())
}

/// Both names of the trait, and what `?` makes of a refusal in a function that answers any error.
#[cfg(dock_core_error)]
fn error() {
    fn refused() -> Result<[u8; 16], Box<dyn std::error::Error>> {
        Ok(dock::encrypt(&[], [0; 16])?)
    }
    let refusal: &dyn core::error::Error = &Refusal::CheckWrong;
    assert_eq!(refusal.to_string(), "refusal 14: the check is wrong");
    assert!(refusal.source().is_none());
    let found = refused().unwrap_err().downcast::<Refusal>();
    assert_eq!(found.ok().as_deref(), Some(&Refusal::KeyLength));
}

#[cfg(not(dock_core_error))]
fn error() {}

/// A view that has been made outlives no image, shows the image itself, and goes through its blocks once.
fn views() -> Result<(), Refusal> {
    let image: Vec<u8> = (0..3 * 512u32).map(|i| (i / 7) as u8).collect();
    let view = View::of(&image)?;
    assert_eq!((view.len(), view.blocks().len()), (3, 3));
    assert!(view.into_iter().eq(image.chunks(512)));
    assert!(ptr::eq(view.block(1)?.as_ptr(), &image[512]));
    assert!(ptr::eq(view.check(2)?.as_ptr(), &image[2 * 512 + 496]));
    let mut blocks = view.blocks();
    assert_eq!(
        (blocks.by_ref().count(), blocks.next(), blocks.len()),
        (3, None, 0)
    );
    assert_eq!(View::of(&image[1..]).unwrap_err(), Refusal::LentLength);
    for view in [View::default(), View::of(&[])?] {
        assert!(view.is_empty() && view.blocks().next().is_none());
        assert_eq!(view.block(0), Err(Refusal::NotBelowCount));
        assert_eq!(view.check(usize::MAX), Err(Refusal::NotBelowCount));
    }
    Ok(())
}

/// Three blocks backwards, one of them twice; then a second receiver goes on where the first stood, on a map and a store that were kept.
fn receives() -> Result<(), Refusal> {
    let payloads: [&[u8]; 3] = [&[1; 480], &[2; 480], b"the end"];
    let mut blocks = [[0; 512]; 3];
    for (number, (payload, block)) in (0..).zip(payloads.iter().zip(&mut blocks)) {
        let numbers = dock::Numbers {
            number,
            count: 3,
            release: 7,
            edition: 1,
        };
        dock::write(&KEY, &KEY, numbers, [0; 16], payload, block)?;
    }
    let (mut store, mut map) = ([9; 3 * 480], [0xff; 2]);
    let start = |map: &mut [u8]| Receiver::start(&KEY, &KEY, 3, 7, &[0; 3 * 480], map);
    let mut receiver = start(&mut map).map_err(|refused| refused.reason)?;
    assert_eq!(map, [0, 0xff]);
    for block in [&blocks[2], &blocks[1]] {
        assert_eq!(receiver.receive(block, &mut store, &mut map), Ok(()));
        let held = Refused {
            reason: Refusal::AlreadyHeld,
            value: None,
        };
        assert_eq!(receiver.receive(block, &mut store, &mut map), Err(held));
        assert_eq!(receiver.complete(), Err(Refusal::NotComplete));
    }
    let mut resumed = start(&mut [0; 1])
        .map_err(|refused| refused.reason)?
        .resumed(receiver.held(), receiver.bytes());
    assert_eq!(resumed.receive(&blocks[0], &mut store, &mut map), Ok(()));
    resumed.complete()?;
    assert_eq!(map, [7, 0xff]);
    assert_eq!(store[..resumed.bytes() as usize], payloads.concat());
    let short = start(&mut []).map_err(|refused| refused.reason);
    assert_eq!(short.err(), Some(Refusal::OutputShort));
    let none = Receiver::start(&KEY, &KEY, 0, 7, &[], &mut []).err();
    let count = Refused {
        reason: Refusal::CountRange,
        value: Some(0),
    };
    assert_eq!(none, Some(count));
    Ok(())
}

/// A reader of one of two blocks is saved, and another goes on from the bookmark; a damaged one, and one under another key, are refused.
fn resumes() -> Result<(), Refusal> {
    let mut blocks = [[0; 512]; 2];
    let mut previous = [0; 16];
    for (number, block) in (0..).zip(&mut blocks) {
        let numbers = dock::Numbers {
            number,
            count: 2,
            release: 7,
            edition: 2,
        };
        dock::write(&KEY, &KEY, numbers, previous, &[5; 480], block)?;
        previous.copy_from_slice(&block[496..]);
    }
    let mut reader = Reader::start(&KEY, &KEY)?;
    assert_eq!(reader.turn(&blocks[0], 1, &mut [0; 480])?.bytes, 480);
    let mut bookmark = reader.save(480);
    let (mut resumed, bytes) = Reader::resume(&KEY, &KEY, &bookmark)?;
    assert_eq!(
        (bytes, resumed.expected(), resumed.last()),
        (480, 1, reader.last())
    );
    assert_eq!(resumed.turn(&blocks[1], 1, &mut [0; 480])?.accepted, 1);
    resumed.complete()?;
    let other = Reader::resume(&KEY, &[0; 24], &bookmark).err();
    assert_eq!(other, Some(Refusal::NotABookmark));
    let short = Reader::resume(&KEY[1..], &KEY, &bookmark).err();
    assert_eq!(short, Some(Refusal::KeyLength));
    bookmark[3] = 2;
    let damaged = Reader::resume(&KEY, &KEY, &bookmark).err();
    assert_eq!(damaged, Some(Refusal::NotABookmark));
    Ok(())
}

fn main() -> Result<(), Refusal> {
    <Check as NoDefault<_>>::holds();
    <Reader as NoDefault<_>>::holds();
    <Receiver as NoDefault<_>>::holds();
    verify()?;
    drops()?;
    views()?;
    receives()?;
    resumes()?;
    error();
    println!("package: checks are verified, key material is overwritten when it is dropped, views show the image itself, blocks are received in any order, and a reader is resumed from a bookmark");
    Ok(())
}
