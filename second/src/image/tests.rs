//! Tests of the writer and the reader.

use super::*;

const ENCRYPTION: [u8; 16] = [0x11; 16];
const CHECK: [u8; 24] = [0x22; 24];
const RIGHT: Header = Header {
    number: 0,
    count: 2,
    release: 7,
    length: 480,
    mark: 0,
};

fn keys() -> Keys {
    Keys::new(&ENCRYPTION, &CHECK).unwrap()
}

fn reader() -> Reader {
    Reader::start(&ENCRYPTION, &CHECK).unwrap()
}

/// A block of release 7, and what the writer says.
fn writing(
    (number, count, edition): (u32, u32, u32),
    previous: &Block,
    payload: &[u8],
    room: usize,
) -> (Result<(), Refusal>, Vec<u8>) {
    let mut block = vec![0; room];
    let which = Which {
        number,
        count,
        release: 7,
        edition,
    };
    let result = write(&ENCRYPTION, &CHECK, which, previous, payload, &mut block);
    (result, block)
}

fn written(number: u32, count: u32, payload: &[u8]) -> Vec<u8> {
    let (result, block) = writing((number, count, 1), &[9; 16], payload, BLOCK);
    assert_eq!(result, Ok(()));
    block
}

/// A block of edition 2.
fn chained(number: u32, count: u32, payload: &[u8], previous: &[u8]) -> Vec<u8> {
    let which = (number, count, 2);
    let (result, block) = writing(which, &check_in(previous), payload, BLOCK);
    assert_eq!(result, Ok(()));
    block
}

/// Three blocks of edition 2, whose payloads are that byte over and over.
fn build(byte: u8) -> [Vec<u8>; 3] {
    let a = chained(0, 3, &[byte; 480], &[]);
    let b = chained(1, 3, &[byte; 480], &a);
    let c = chained(2, 3, &[byte; 30], &b);
    [a, b, c]
}

fn offered(reader: &mut Reader, block: &[u8]) -> Option<Stop> {
    reader.turn(1, block, &mut [0; PAYLOAD]).unwrap().stop
}

/// A reader that has accepted these.
fn having(blocks: &[&Vec<u8>]) -> Reader {
    let mut reader = reader();
    for block in blocks {
        assert_eq!(offered(&mut reader, block), None);
    }
    reader
}

const WRONG: Option<Stop> = Some(Stop {
    reason: Refusal::CheckWrong,
    value: None,
});

fn edition_refused(mark: u16) -> Option<Stop> {
    Some(Stop::holding(Refusal::Edition, mark))
}

#[test]
fn what_is_written_is_read() {
    let (first, last) = ([1; 480], [2; 10]);
    let image = [written(0, 2, &first), written(1, 2, &last)].concat();
    let mut output = [0xaa; 961];
    let mut reader = reader();
    let turn = reader.turn(128, &image, &mut output).unwrap();
    assert_eq!(
        turn,
        Turn {
            accepted: 2,
            sum: 490,
            stop: None
        }
    );
    assert_eq!(output[..480], first);
    assert_eq!(output[480..490], last);
    assert_eq!(output[490..960], [0; 470]);
    assert_eq!(output[960], 0xaa);
    assert_eq!(reader.complete(), Ok(()));
}

#[test]
fn a_whole_payload_is_sealed_and_read() {
    let sizes = [(0, 1), (1, 1), (480, 1), (481, 2), (960, 2), (1000, 3)];
    let editions = [1, 2].into_iter();
    for (edition, (length, blocks)) in
        editions.flat_map(|edition| sizes.map(|size| (edition, size)))
    {
        let payload: Vec<u8> = (0..length).map(|at| at as u8).collect();
        let image = seal_all(&ENCRYPTION, &CHECK, 7, edition, &payload).unwrap();
        assert_eq!(image.len(), blocks * BLOCK);
        let mut output = vec![0; blocks * PAYLOAD];
        let mut reader = reader();
        let turn = reader.turn(128, &image, &mut output).unwrap();
        assert_eq!((turn.sum, turn.stop), (length, None));
        assert_eq!(output[..length], payload);
        assert_eq!(reader.complete(), Ok(()));
    }
}

#[test]
fn writer_refuses_in_order() {
    let refused = |number, count, edition, length, room| {
        let payload = vec![1; length];
        writing((number, count, edition), &NO_CHECK, &payload, room).0
    };
    let which = Which {
        number: 9,
        count: 0,
        release: 0,
        edition: 0,
    };
    let short_key = write(&[0; 15], &CHECK, which, &NO_CHECK, &[0; 999], &mut []);
    assert_eq!(short_key, Err(Refusal::KeyLength));
    assert_eq!(refused(9, 0, 0, 999, 0), Err(Refusal::CountRange));
    assert_eq!(refused(9, 65_536, 0, 999, 0), Err(Refusal::CountRange));
    assert_eq!(refused(2, 2, 0, 999, 0), Err(Refusal::BlockNumber));
    assert_eq!(refused(0, 2, 0, 479, 0), Err(Refusal::PayloadLength));
    assert_eq!(refused(1, 2, 0, 0, 0), Err(Refusal::PayloadLength));
    assert_eq!(refused(0, 1, 0, 481, 0), Err(Refusal::PayloadLength));
    for edition in [0, 3, 4, 256, 65_537, 65_538, u32::MAX] {
        assert_eq!(refused(0, 1, edition, 0, 0), Err(Refusal::Edition));
    }
    for edition in [1, 2] {
        assert_eq!(refused(0, 1, edition, 0, 511), Err(Refusal::OutputShort));
        assert_eq!(refused(0, 1, edition, 0, 512), Ok(()));
        assert_eq!(refused(65_534, 65_535, edition, 480, 512), Ok(()));
    }
}

#[test]
fn editions_differ_in_mark_and_cover() {
    let (payload, previous) = ([3; 480], [5; 16]);
    let first = writing((1, 2, 1), &previous, &payload, BLOCK).1;
    let second = writing((1, 2, 2), &previous, &payload, BLOCK).1;
    assert_eq!(first[..14], second[..14]);
    assert_eq!(
        (&first[14..16], &second[14..16]),
        (&[0, 0][..], &[0, 2][..])
    );
    let key = KeySchedule::new(&CHECK).unwrap();
    assert_eq!(first[496..], check(&key, &first[..496]));
    let cover = [&second[..496], &previous].concat();
    assert_eq!(second[496..], check(&key, &cover));
}

#[test]
fn previous_check_is_used_in_edition_2_behind_number_0_alone() {
    for (number, edition, used) in [(0, 1, false), (1, 1, false), (0, 2, false), (1, 2, true)] {
        let payload = [3; 480];
        let on = |previous| writing((number, 2, edition), &previous, &payload, BLOCK).1;
        assert_eq!(on([5; 16]) != on([6; 16]), used);
        assert_eq!(on([5; 16]) != on(NO_CHECK), used);
    }
}

#[test]
fn builds_of_edition_2_do_not_mix() {
    let ([a, b, c], [x, y, z]) = (build(1), build(2));
    assert_eq!(having(&[&a, &b, &c]).complete(), Ok(()));
    assert_eq!(having(&[&x, &y, &z]).complete(), Ok(()));
    assert_eq!(offered(&mut having(&[&a]), &y), WRONG);
    assert_eq!(offered(&mut having(&[&a, &b]), &z), WRONG);
    for block in [&a, &c] {
        assert_eq!(offered(&mut having(&[&a]), block), WRONG);
    }
    for block in [&b, &c] {
        assert_eq!(offered(&mut reader(), block), WRONG);
    }
    let complete = Some(Stop::plain(Refusal::AfterLast));
    assert_eq!(offered(&mut having(&[&a, &b, &c]), &z), complete);
}

#[test]
fn a_refused_block_moves_no_check_on() {
    let [a, b, c] = build(1);
    let mut reader = having(&[&a]);
    let short = Header {
        number: 1,
        count: 3,
        length: 3,
        mark: 2,
        ..RIGHT
    };
    let short = keys().seal(&short, &[0; PAYLOAD], &check_in(&a));
    let stop = Some(Stop::holding(Refusal::PayloadLength, 3u32));
    assert_eq!(offered(&mut reader, &short), stop);
    assert_eq!(reader.last(), check_in(&a));
    assert_eq!(offered(&mut reader, &b), None);
    assert_eq!(offered(&mut reader, &c), None);
}

#[test]
fn a_fresh_reader_covers_with_zeros_whatever_the_number() {
    let third = Header {
        number: 3,
        count: 9,
        mark: 2,
        ..RIGHT
    };
    let block = keys().seal(&third, &[0; PAYLOAD], &NO_CHECK);
    let stop = Some(Stop::holding(Refusal::BlockNumber, 3u32));
    assert_eq!(offered(&mut reader(), &block), stop);
    let block = keys().seal(&Header { number: 0, ..third }, &[0; PAYLOAD], &[1; 16]);
    assert_eq!(offered(&mut reader(), &block), WRONG);
}

#[test]
fn the_first_accepted_block_fixes_the_edition() {
    let second = Header { number: 1, ..RIGHT };
    let seal = |mark, previous: &[u8]| {
        let header = Header { mark, ..second };
        keys().seal(&header, &[0; PAYLOAD], &check_in(previous))
    };
    let first = written(0, 2, &[1; 480]);
    let mut reader = having(&[&first]);
    assert_eq!(offered(&mut reader, &seal(2, &first)), edition_refused(2));
    assert_eq!(offered(&mut reader, &seal(2, &[])), WRONG);
    assert_eq!(offered(&mut reader, &seal(3, &first)), edition_refused(3));
    assert_eq!(offered(&mut reader, &seal(0, &[])), None);
    let first = chained(0, 2, &[1; 480], &[]);
    let mut reader = having(&[&first]);
    assert_eq!(offered(&mut reader, &seal(0, &first)), edition_refused(0));
    assert_eq!(offered(&mut reader, &seal(3, &first)), edition_refused(3));
    assert_eq!(offered(&mut reader, &seal(2, &first)), None);
}

#[test]
fn a_refused_block_fixes_no_edition() {
    for (mark, other) in [(0, 2), (2, 0)] {
        let refused = Header {
            length: 479,
            mark,
            ..RIGHT
        };
        let mut reader = reader();
        let block = keys().seal(&refused, &[0; PAYLOAD], &NO_CHECK);
        assert!(offered(&mut reader, &block).is_some());
        let right = Header {
            mark: other,
            ..RIGHT
        };
        let block = keys().seal(&right, &[0; PAYLOAD], &NO_CHECK);
        assert_eq!(offered(&mut reader, &block), None);
    }
}

#[test]
fn a_damaged_mark_is_refused() {
    let [a, b, _] = build(1);
    let (first, second) = (written(0, 3, &[1; 480]), written(1, 3, &[1; 480]));
    for (before, block) in [(&a, &b), (&first, &second)] {
        for mark in [0, 1, 2, 3, 256, 512, u16::MAX] {
            let mut damaged = block.clone();
            damaged[14..16].copy_from_slice(&u16::to_be_bytes(mark));
            let stop = offered(&mut having(&[before]), &damaged);
            assert_eq!(stop.is_none(), damaged == *block);
            assert!(stop.is_none() || stop == WRONG);
        }
    }
}

#[test]
fn first_block_is_judged_by_its_header() {
    let cases = [
        (
            Header { count: 0, ..RIGHT },
            Stop::holding(Refusal::CountRange, 0u32),
        ),
        (
            Header {
                count: 65_536,
                ..RIGHT
            },
            Stop::holding(Refusal::CountRange, 65_536u32),
        ),
        (
            Header { number: 1, ..RIGHT },
            Stop::holding(Refusal::BlockNumber, 1u32),
        ),
        (
            Header {
                length: 479,
                ..RIGHT
            },
            Stop::holding(Refusal::PayloadLength, 479u32),
        ),
        (
            Header {
                length: 481,
                ..RIGHT
            },
            Stop::holding(Refusal::PayloadLength, 481u32),
        ),
        (
            Header { mark: 258, ..RIGHT },
            Stop::holding(Refusal::Edition, 258u32),
        ),
    ];
    for (header, stop) in cases {
        let block = keys().seal(&header, &[0; PAYLOAD], &NO_CHECK);
        assert_eq!(offered(&mut reader(), &block), Some(stop));
    }
}

#[test]
fn later_blocks_keep_count_and_release() {
    let mut reader = reader();
    assert_eq!(offered(&mut reader, &written(0, 2, &[1; 480])), None);
    let second = Header { number: 1, ..RIGHT };
    for (header, stop) in [
        (
            Header { count: 3, ..second },
            Stop::holding(Refusal::CountDiffers, 3u32),
        ),
        (
            Header {
                release: 8,
                ..second
            },
            Stop::holding(Refusal::ReleaseDiffers, 8u32),
        ),
        (
            Header {
                length: 0,
                ..second
            },
            Stop::holding(Refusal::PayloadLength, 0u32),
        ),
    ] {
        let block = keys().seal(&header, &[0; PAYLOAD], &NO_CHECK);
        assert_eq!(offered(&mut reader, &block), Some(stop));
        assert_eq!(reader.expected(), 1);
    }
    assert_eq!(offered(&mut reader, &written(1, 2, &[1; 3])), None);
}

#[test]
fn refused_block_fixes_nothing() {
    let mut reader = reader();
    let unfilled = Header {
        count: 1,
        release: 99,
        length: 3,
        ..RIGHT
    };
    let block = keys().seal(&unfilled, &[1; PAYLOAD], &NO_CHECK);
    assert_eq!(
        offered(&mut reader, &block),
        Some(Stop::plain(Refusal::FillNotZero))
    );
    assert_eq!(offered(&mut reader, &written(0, 2, &[1; 480])), None);
}

#[test]
fn every_damaged_byte_is_refused() {
    for block in [written(0, 1, &[5; 100]), chained(0, 1, &[5; 100], &[])] {
        for place in 0..BLOCK {
            let mut damaged = block.clone();
            damaged[place] ^= 0x40;
            assert_eq!(offered(&mut reader(), &damaged), WRONG);
        }
    }
}

#[test]
fn refused_block_leaves_its_place() {
    let bad = keys().seal(
        &Header {
            number: 1,
            length: 3,
            ..RIGHT
        },
        &[1; PAYLOAD],
        &NO_CHECK,
    );
    let image = [written(0, 2, &[1; 480]), bad].concat();
    let mut output = [0xaa; 960];
    let turn = reader().turn(2, &image, &mut output).unwrap();
    let stop = Some(Stop::plain(Refusal::FillNotZero));
    assert_eq!(
        turn,
        Turn {
            accepted: 1,
            sum: 480,
            stop
        }
    );
    assert_eq!(output[..480], [1; 480]);
    assert_eq!(output[480..], [0xaa; 480]);
}

#[test]
fn whole_turns_are_refused_in_order() {
    let mut reader = reader();
    assert_eq!(
        reader.turn(0, &[0; 513], &mut []),
        Err(Refusal::AskedNumber)
    );
    assert_eq!(
        reader.turn(129, &[0; 513], &mut []),
        Err(Refusal::AskedNumber)
    );
    assert_eq!(reader.turn(1, &[0; 513], &mut []), Err(Refusal::LentLength));
    assert_eq!(
        reader.turn(1, &[0; 1024], &mut [0; 479]),
        Err(Refusal::OutputShort)
    );
    assert_eq!(reader.turn(128, &[], &mut []), Ok(Turn::default()));
}

#[test]
fn complete_reader_refuses_before_checking() {
    let mut reader = reader();
    assert_eq!(reader.complete(), Err(Refusal::NotComplete));
    assert_eq!(offered(&mut reader, &written(0, 1, &[])), None);
    assert_eq!(
        offered(&mut reader, &[0; 512]),
        Some(Stop::plain(Refusal::AfterLast))
    );
    assert_eq!(reader.turn(1, &[0; 511], &mut []), Err(Refusal::LentLength));
    assert_eq!(reader.turn(1, &[], &mut []), Ok(Turn::default()));
}

#[test]
fn reader_without_a_start_accepts_nothing() {
    let mut reader = Reader::default();
    let block = written(0, 1, &[]);
    assert_eq!(
        offered(&mut reader, &block),
        Some(Stop::plain(Refusal::CheckWrong))
    );
    assert_eq!(
        offered(&mut reader, &[0; 512]),
        Some(Stop::plain(Refusal::CheckWrong))
    );
    assert_eq!(reader.complete(), Err(Refusal::NotComplete));
}
