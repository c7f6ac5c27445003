//! Release images of both editions: the blocks of 512 bytes, their writer and their reader.

use crate::aes::{Block, KeySchedule};
use crate::cmac::check;
use crate::modes::{cbc_decrypt, cbc_encrypt};
use crate::refusal::Refusal;

pub const BLOCK: usize = 512;
pub const PAYLOAD: usize = 480;
const HEADER: usize = 16;
const SEALED: usize = HEADER + PAYLOAD;
const LAST_COUNT: u32 = 65_535;

/// What is covered for the previous check before block 0.
pub const NO_CHECK: Block = [0; 16];

/// What bytes 14 and 15 of a block say, as far as they are right.
#[derive(Clone, Copy, PartialEq, Eq, Debug)]
pub enum Edition {
    First,
    Second,
}

impl Edition {
    pub fn numbered(number: u32) -> Option<Edition> {
        match number {
            1 => Some(Edition::First),
            2 => Some(Edition::Second),
            _ => None,
        }
    }

    pub fn number(self) -> u32 {
        match self {
            Edition::First => 1,
            Edition::Second => 2,
        }
    }

    pub fn mark(self) -> u16 {
        match self {
            Edition::First => 0,
            Edition::Second => 2,
        }
    }

    fn marked(mark: u16) -> Option<Edition> {
        match mark {
            0 => Some(Edition::First),
            2 => Some(Edition::Second),
            _ => None,
        }
    }
}

/// What the check covers behind bytes 0 to 495: under mark 2 the check before, under every other mark nothing.
pub fn tail(mark: u16, previous: &Block) -> &[u8] {
    match Edition::marked(mark) {
        Some(Edition::Second) => previous,
        Some(Edition::First) | None => &[],
    }
}

/// Bytes 0 to 15 of a block.
#[derive(Clone, Copy, PartialEq, Eq, Debug)]
pub struct Header {
    pub number: u32,
    pub count: u32,
    pub release: u32,
    pub length: u16,
    pub mark: u16,
}

impl Header {
    fn bytes(&self) -> Block {
        let [n0, n1, n2, n3] = self.number.to_be_bytes();
        let [c0, c1, c2, c3] = self.count.to_be_bytes();
        let [r0, r1, r2, r3] = self.release.to_be_bytes();
        let [l0, l1] = self.length.to_be_bytes();
        let [m0, m1] = self.mark.to_be_bytes();
        [
            n0, n1, n2, n3, c0, c1, c2, c3, r0, r1, r2, r3, l0, l1, m0, m1,
        ]
    }

    pub fn read(block: &[u8; BLOCK]) -> Header {
        Header {
            number: u32::from_be_bytes([block[0], block[1], block[2], block[3]]),
            count: u32::from_be_bytes([block[4], block[5], block[6], block[7]]),
            release: u32::from_be_bytes([block[8], block[9], block[10], block[11]]),
            length: u16::from_be_bytes([block[12], block[13]]),
            mark: u16::from_be_bytes([block[14], block[15]]),
        }
    }
}

pub fn count_fits(count: u32) -> bool {
    (1..=LAST_COUNT).contains(&count)
}

/// Asked only where the number is below the count.
pub fn length_fits(number: u32, count: u32, length: usize) -> bool {
    let is_last = number.saturating_add(1) >= count;
    match (is_last, count) {
        (false, _) => length == PAYLOAD,
        (true, 1) => length <= PAYLOAD,
        (true, _) => (1..=PAYLOAD).contains(&length),
    }
}

#[derive(Clone)]
pub struct Keys {
    encryption: KeySchedule,
    check: KeySchedule,
}

impl Keys {
    pub fn new(encryption: &[u8], check: &[u8]) -> Result<Keys, Refusal> {
        Ok(Keys {
            encryption: KeySchedule::new(encryption)?,
            check: KeySchedule::new(check)?,
        })
    }

    /// The block of any header, right or wrong, over a payload that is already filled up, with the cover that its mark selects.
    pub fn seal(&self, header: &Header, filled: &[u8; PAYLOAD], previous: &Block) -> Vec<u8> {
        self.seal_over(header, filled, tail(header.mark, previous))
    }

    /// The same with any bytes covered behind bytes 0 to 495.
    pub fn seal_over(&self, header: &Header, filled: &[u8; PAYLOAD], tail: &[u8]) -> Vec<u8> {
        let mut block = header.bytes().to_vec();
        let body = cbc_encrypt(&self.encryption, self.iv(header), filled.as_chunks().0);
        block.extend_from_slice(body.as_flattened());
        let check = self.check_of(&block, tail);
        block.extend_from_slice(&check);
        block
    }

    pub fn check_holds(&self, block: &[u8; BLOCK], tail: &[u8]) -> bool {
        block[SEALED..] == self.check_of(&block[..SEALED], tail)
    }

    fn check_of(&self, sealed: &[u8], tail: &[u8]) -> Block {
        check(&self.check, &[sealed, tail].concat())
    }

    pub fn open(&self, header: &Header, block: &[u8; BLOCK]) -> Vec<u8> {
        let body = block[HEADER..SEALED].as_chunks().0;
        cbc_decrypt(&self.encryption, self.iv(header), body).into_flattened()
    }

    fn iv(&self, header: &Header) -> Block {
        self.encryption.encrypt(&header.bytes())
    }
}

/// The payload with zeros up to 480 bytes; none where it is longer.
pub fn filled(payload: &[u8]) -> Option<[u8; PAYLOAD]> {
    let mut filled = [0; PAYLOAD];
    filled.get_mut(..payload.len())?.copy_from_slice(payload);
    Some(filled)
}

/// The check of a block, or of the last of some blocks.
pub fn check_in(blocks: &[u8]) -> Block {
    blocks.last_chunk().copied().unwrap_or(NO_CHECK)
}

/// Which block is to be written.
#[derive(Clone, Copy)]
pub struct Which {
    pub number: u32,
    pub count: u32,
    pub release: u32,
    /// 1 or 2; any other is refused.
    pub edition: u32,
}

/// The previous check is not looked at for edition 1, nor for number 0.
pub fn write(
    encryption_key: &[u8],
    check_key: &[u8],
    which: Which,
    previous: &Block,
    payload: &[u8],
    output: &mut [u8],
) -> Result<(), Refusal> {
    let Which {
        number,
        count,
        release,
        edition,
    } = which;
    let keys = Keys::new(encryption_key, check_key)?;
    if !count_fits(count) {
        return Err(Refusal::CountRange);
    }
    if number >= count {
        return Err(Refusal::BlockNumber);
    }
    if !length_fits(number, count, payload.len()) {
        return Err(Refusal::PayloadLength);
    }
    let filled = filled(payload).ok_or(Refusal::PayloadLength)?;
    let edition = Edition::numbered(edition).ok_or(Refusal::Edition)?;
    let room = output.get_mut(..BLOCK).ok_or(Refusal::OutputShort)?;
    let header = Header {
        number,
        count,
        release,
        length: payload.len() as u16,
        mark: edition.mark(),
    };
    let previous = if number == 0 { &NO_CHECK } else { previous };
    room.copy_from_slice(&keys.seal(&header, &filled, previous));
    Ok(())
}

/// The image of a whole payload; an empty one makes one block.
pub fn seal_all(
    encryption_key: &[u8],
    check_key: &[u8],
    release: u32,
    edition: u32,
    payload: &[u8],
) -> Result<Vec<u8>, Refusal> {
    let mut parts: Vec<&[u8]> = payload.chunks(PAYLOAD).collect();
    if parts.is_empty() {
        parts.push(&[]);
    }
    let count = u32::try_from(parts.len()).map_err(|_| Refusal::CountRange)?;
    let mut image = Vec::new();
    for (number, part) in (0..).zip(parts) {
        let mut block = [0; BLOCK];
        let which = Which {
            number,
            count,
            release,
            edition,
        };
        let previous = check_in(&image);
        write(
            encryption_key,
            check_key,
            which,
            &previous,
            part,
            &mut block,
        )?;
        image.extend_from_slice(&block);
    }
    Ok(image)
}

/// Where a reader stands. One that no start made, or that a refused start left, accepts nothing.
#[derive(Clone, Default)]
pub struct Reader {
    keys: Option<Keys>,
    expected: u32,
    /// It counts once a block has been accepted.
    fixed: Fixed,
    /// The check of the block accepted last, of either edition.
    last: Block,
}

/// What the first accepted block settles for those after it.
#[derive(Clone, Copy, Default)]
struct Fixed {
    count: u32,
    release: u32,
    edition: u32,
}

/// The answer of a turn that was not refused as a whole.
#[derive(Clone, Copy, PartialEq, Eq, Debug, Default)]
pub struct Turn {
    pub accepted: usize,
    pub sum: usize,
    /// The reason for refusing the block at place `accepted`, if one was refused.
    pub stop: Option<Stop>,
}

#[derive(Clone, Copy, PartialEq, Eq, Debug)]
pub struct Stop {
    pub reason: Refusal,
    pub value: Option<u32>,
}

impl Stop {
    pub fn plain(reason: Refusal) -> Stop {
        Stop {
            reason,
            value: None,
        }
    }

    pub fn holding(reason: Refusal, value: impl Into<u32>) -> Stop {
        Stop {
            reason,
            value: Some(value.into()),
        }
    }
}

struct Accepted {
    payload: Vec<u8>,
    length: usize,
}

impl Reader {
    pub fn start(encryption_key: &[u8], check_key: &[u8]) -> Result<Reader, Refusal> {
        let keys = Some(Keys::new(encryption_key, check_key)?);
        Ok(Reader {
            keys,
            ..Reader::default()
        })
    }

    fn fixed(&self) -> Option<Fixed> {
        Some(self.fixed).filter(|_| self.expected != 0)
    }

    pub fn expected(&self) -> u32 {
        self.expected
    }

    /// The check of the block accepted last, zeros before the first.
    pub fn last(&self) -> Block {
        self.last
    }

    /// The edition that the first accepted block has fixed.
    #[cfg(test)]
    pub fn edition(&self) -> Option<Edition> {
        Edition::numbered(self.fixed()?.edition)
    }

    pub fn complete(&self) -> Result<(), Refusal> {
        match self.fixed() {
            Some(fixed) if fixed.count == self.expected => Ok(()),
            _ => Err(Refusal::NotComplete),
        }
    }

    pub fn turn(&mut self, asked: u64, lent: &[u8], output: &mut [u8]) -> Result<Turn, Refusal> {
        let asked = match asked {
            1..=128 => asked as usize,
            _ => return Err(Refusal::AskedNumber),
        };
        let (blocks, rest) = lent.as_chunks();
        if !rest.is_empty() {
            return Err(Refusal::LentLength);
        }
        let handled = blocks.len().min(asked);
        let room = output
            .get_mut(..PAYLOAD * handled)
            .ok_or(Refusal::OutputShort)?;
        Ok(self.take_up(blocks, room))
    }

    /// Takes blocks up to the first refused one, as many as the room has places.
    fn take_up(&mut self, blocks: &[[u8; BLOCK]], room: &mut [u8]) -> Turn {
        let mut turn = Turn::default();
        for (block, place) in blocks.iter().zip(room.chunks_exact_mut(PAYLOAD)) {
            match self.accept(block) {
                Ok(accepted) => {
                    place.copy_from_slice(&accepted.payload);
                    turn.accepted += 1;
                    turn.sum += accepted.length;
                }
                Err(stop) => {
                    turn.stop = Some(stop);
                    break;
                }
            }
        }
        turn
    }

    fn accept(&mut self, block: &[u8; BLOCK]) -> Result<Accepted, Stop> {
        let over = |fixed: Fixed| fixed.count <= self.expected;
        if self.fixed().is_some_and(over) {
            return Err(Stop::plain(Refusal::AfterLast));
        }
        let header = Header::read(block);
        let tail = tail(header.mark, &self.last);
        let keys = match &self.keys {
            Some(keys) if keys.check_holds(block, tail) => keys,
            _ => return Err(Stop::plain(Refusal::CheckWrong)),
        };
        let fixed = self.judge(&header)?;
        let length = usize::from(header.length);
        let payload = keys.open(&header, block);
        if payload.iter().skip(length).any(|byte| *byte != 0) {
            return Err(Stop::plain(Refusal::FillNotZero));
        }
        self.expected += 1;
        self.fixed = fixed;
        self.last = check_in(block);
        Ok(Accepted { payload, length })
    }

    /// What is fixed once the block is accepted, where nothing but its fill can refuse it any more.
    fn judge(&self, header: &Header) -> Result<Fixed, Stop> {
        let Header {
            number,
            count,
            release,
            length,
            mark,
        } = *header;
        let fixed = self.fixed();
        if !count_fits(count) {
            Err(Stop::holding(Refusal::CountRange, count))
        } else if number != self.expected {
            Err(Stop::holding(Refusal::BlockNumber, number))
        } else if fixed.is_some_and(|fixed| fixed.count != count) {
            Err(Stop::holding(Refusal::CountDiffers, count))
        } else if fixed.is_some_and(|fixed| fixed.release != release) {
            Err(Stop::holding(Refusal::ReleaseDiffers, release))
        } else if !length_fits(number, count, usize::from(length)) {
            Err(Stop::holding(Refusal::PayloadLength, length))
        } else {
            let edition = self
                .edition_of(mark)
                .ok_or(Stop::holding(Refusal::Edition, mark))?;
            Ok(Fixed {
                count,
                release,
                edition: edition.number(),
            })
        }
    }

    /// The edition that a mark stands for, unless another one is fixed.
    fn edition_of(&self, mark: u16) -> Option<Edition> {
        let found = Edition::marked(mark)?;
        match self.fixed() {
            Some(fixed) if fixed.edition != found.number() => None,
            _ => Some(found),
        }
    }
}

pub mod bookmark;
#[cfg(test)]
mod tests;
