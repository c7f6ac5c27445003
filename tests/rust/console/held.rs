//! What is held from line to line: a running check, a reader and a receiver. Before the first start, and after a start that was refused,
//! these are the zero record, the zero reader and the zero receiver. The safe types have no such values, so they come from `dock::sys`, and so do the calls on them.

use crate::lent::{canary, stop, CANARY};
use dock::{sys, Check, Reader, Receiver, Refusal, Refused, Stop, Turn};

/// A record is fed in place, so it has canaries of its own.
#[repr(C)]
pub struct Between<T> {
    before: [u8; CANARY],
    record: T,
    behind: [u8; CANARY],
}

impl<T> Between<T> {
    fn canaries(record: T) -> Between<T> {
        Between {
            before: canary(1),
            record,
            behind: canary(1),
        }
    }

    fn look(&self) {
        if [self.before, self.behind] != [canary(1); 2] {
            stop("a byte around a record has changed");
        }
    }
}

pub enum Running {
    Keyed(Between<Check>),
    Zero(Between<sys::Record>),
}

impl Running {
    pub fn of(started: Result<Check, Refusal>) -> Running {
        match started {
            Ok(check) => Running::Keyed(Between::canaries(check)),
            Err(_) => Running::Zero(Between::canaries(sys::Record::ZERO)),
        }
    }

    /// On the spot, and as the step of a fold, which must come to the same.
    pub fn feed(&mut self, part: &[u8]) {
        match self {
            Running::Keyed(between) => {
                let fed = between.record.clone().fed(part);
                between.record.feed(part);
                between.look();
                if fed.close() != between.record.close() {
                    stop("feeding a copy and feeding in place differ");
                }
            }
            Running::Zero(between) => {
                // SAFETY: the record is lent by `&mut`, and pointer and length are those of a slice, which does not overlap it.
                unsafe {
                    sys::dock_check_feed(&mut between.record, part.as_ptr(), part.len());
                }
                between.look();
            }
        }
    }

    pub fn close(&self) -> [u8; 16] {
        match self {
            Running::Keyed(between) => {
                let check = between.record.close();
                crate::verified(&Ok(check), |check| between.record.verify(check));
                check
            }
            // SAFETY: the record is passed by value, and any bytes in it have an answer.
            Running::Zero(between) => unsafe { sys::dock_check_close(between.record) }.check,
        }
    }
}

pub enum Reading {
    Keyed(Reader),
    Zero(sys::Reader),
}

impl Reading {
    pub fn of(started: Result<Reader, Refusal>) -> Reading {
        match started {
            Ok(reader) => Reading::Keyed(reader),
            Err(_) => Reading::Zero(sys::Reader::ZERO),
        }
    }

    fn expected(&self) -> u32 {
        match self {
            Reading::Keyed(reader) => reader.expected(),
            Reading::Zero(reader) => reader.progress.next,
        }
    }

    pub fn turn(
        &mut self,
        blocks: &[u8],
        asked: usize,
        output: &mut [u8],
    ) -> Result<Turn, Refusal> {
        let expected = self.expected();
        let turn = match self {
            Reading::Keyed(reader) => reader.turn(blocks, asked, output),
            Reading::Zero(reader) => zero_turn(reader, blocks, asked, output),
        };
        let accepted = turn.as_ref().map_or(0, |turn| turn.accepted);
        if (self.expected() - expected) as usize != accepted {
            stop("the blocks accepted are the advance of the reader");
        }
        turn
    }

    /// The number of the answer.
    pub fn complete(&self) -> u32 {
        match self {
            Reading::Keyed(reader) => crate::number_of(&reader.complete()),
            // SAFETY: the reader is passed by value, and any bytes in it have an answer.
            Reading::Zero(reader) => unsafe { sys::dock_read_complete(*reader) },
        }
    }

    pub fn save(&self, bytes: u64) -> [u8; 56] {
        match self {
            Reading::Keyed(reader) => reader.save(bytes),
            // SAFETY: the reader is passed by value, and any bytes in it have an answer.
            Reading::Zero(reader) => unsafe { sys::dock_read_save(*reader, bytes) }.bytes,
        }
    }
}

/// The turn in the words of the safe call. Its refusals stand there by their numbers alone, which is all that a line shows of them.
fn zero_turn(
    reader: &mut sys::Reader,
    blocks: &[u8],
    asked: usize,
    output: &mut [u8],
) -> Result<Turn, Refusal> {
    // SAFETY: pointers and lengths are those of slices, the output is lent by `&mut`, and any bytes in a reader have an answer.
    let answer = unsafe {
        sys::dock_read_turn(
            *reader,
            blocks.as_ptr(),
            blocks.len(),
            asked,
            output.as_mut_ptr(),
            output.len(),
        )
    };
    *reader = answer.reader;
    if answer.number != 0 {
        return Err(Refusal::Other(answer.number));
    }
    let stop = Some(answer.reason)
        .filter(|reason| *reason != 0)
        .map(|reason| Stop {
            place: answer.place,
            reason: Refusal::Other(reason),
            value: Some(answer.value).filter(|_| (7..=13).contains(&reason)),
        });
    Ok(Turn {
        accepted: answer.accepted,
        bytes: answer.bytes,
        stop,
    })
}

pub enum Receiving {
    Keyed(Receiver),
    Zero(sys::Receiver),
}

impl Receiving {
    pub fn of(started: Result<Receiver, Refused>) -> Receiving {
        match started {
            Ok(receiver) => Receiving::Keyed(receiver),
            Err(_) => Receiving::Zero(sys::Receiver::ZERO),
        }
    }

    pub fn held(&self) -> u32 {
        match self {
            Receiving::Keyed(receiver) => receiver.held(),
            Receiving::Zero(receiver) => receiver.receipt.held,
        }
    }

    /// The number of the answer, and the value found.
    pub fn receive(
        &mut self,
        block: &[u8],
        store: &mut [u8],
        map: &mut [u8],
    ) -> (u32, Option<u32>) {
        match self {
            Receiving::Keyed(receiver) => {
                let before = (receiver.held(), receiver.bytes());
                let received = receiver.receive(block, store, map);
                let refused = match received {
                    Ok(()) => return (0, None),
                    Err(refused) => refused,
                };
                if (receiver.held(), receiver.bytes()) != before {
                    stop("a refused block changes a receiver");
                }
                (refused.reason.number(), refused.value)
            }
            Receiving::Zero(receiver) => zero_receive(receiver, block, store, map),
        }
    }

    /// The number of the answer.
    pub fn complete(&self) -> u32 {
        match self {
            Receiving::Keyed(receiver) => crate::number_of(&receiver.complete()),
            // SAFETY: the receiver is passed by value, and any bytes in it have an answer.
            Receiving::Zero(receiver) => unsafe { sys::dock_receive_complete(*receiver) },
        }
    }
}

fn zero_receive(
    receiver: &mut sys::Receiver,
    block: &[u8],
    store: &mut [u8],
    map: &mut [u8],
) -> (u32, Option<u32>) {
    // SAFETY: pointers and lengths are those of slices, store and map are lent by `&mut`, and any bytes in a receiver have an answer.
    let answer = unsafe {
        sys::dock_receive(
            *receiver,
            block.as_ptr(),
            block.len(),
            store.as_mut_ptr(),
            store.len(),
            map.as_mut_ptr(),
            map.len(),
        )
    };
    *receiver = answer.receiver;
    let holds = (7..=13).contains(&answer.number);
    (answer.number, Some(answer.value).filter(|_| holds))
}
