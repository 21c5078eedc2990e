//! The numbers a caller may be given (01, "Numbers a caller may be given").

#[derive(Clone, Copy, Debug, PartialEq, Eq)]
pub enum Refusal {
    Short = 1,
    OverLong = 2,
    LengthMismatch = 3,
    BadChecksum = 4,
    NotForUs = 5,
    NotAwaited = 6,
    UnexpectedType = 7,
    BadEcho = 8,
    BadMethod = 9,
    PayloadTooLong = 10,
    NoRoom = 11,
    BadType = 12,
    BadMac = 13,
    Busy = 14,
    Held = 15,
    Full = 16,
    // 17 is retired and given to nothing else (C-23)
    AwaitingReply = 18,
    NobodyListed = 19,
    NotWaiting = 20,
    BadPool = 21,
    StateUnfit = 22,
    NotDiscovering = 23,
    OtherSubnet = 24,
    TooManyTypes = 25,
    BadLength = 26,
    NoSlot = 27,
    BadInner = 30,
    TooDeep = 31,
    BadTextLength = 32,
    BadText = 33,
}

impl Refusal {
    pub fn number(self) -> u8 {
        self as u8
    }
}

/// `Err(refusal)` if the condition holds: one line per rule in the steps.
pub fn refuse_if(condition: bool, refusal: Refusal) -> Result<(), Refusal> {
    if condition {
        Err(refusal)
    } else {
        Ok(())
    }
}
