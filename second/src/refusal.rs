//! The numbered refusals.

#[derive(Clone, Copy, PartialEq, Eq, Debug)]
pub enum Refusal {
    KeyLength = 1,
    IvLength = 2,
    InputLength = 3,
    OutputShort = 4,
    AskedNumber = 5,
    LentLength = 6,
    CountRange = 7,
    BlockNumber = 8,
    CountDiffers = 9,
    ReleaseDiffers = 10,
    PayloadLength = 12,
    Edition = 13,
    CheckWrong = 14,
    FillNotZero = 15,
    AfterLast = 16,
    NotComplete = 17,
    WrapLength = 18,
    InitialValue = 19,
    NotBelowCount = 20,
    AlreadyHeld = 21,
    CcmLength = 23,
    CcmTag = 24,
    NotABookmark = 25,
}

impl Refusal {
    pub fn number(self) -> u8 {
        self as u8
    }
}

/// 0 for a call that was carried out, else the number of its refusal.
pub fn number_of<T>(result: &Result<T, Refusal>) -> u8 {
    match result {
        Ok(_) => 0,
        Err(refusal) => refusal.number(),
    }
}
