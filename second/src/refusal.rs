//! The refusal numbers of document 01, each under a name.

/// Why something was refused; the value is document 01's number.
#[derive(Clone, Copy, Debug, PartialEq, Eq)]
#[repr(u8)]
pub enum Refusal {
    FrameTooShort = 1,
    FrameTooLong = 2,
    OtherAddress = 3,
    OtherOpcode = 4,
    ControlBufferTooShort = 5,
    GroupSource = 6,
    Rate = 10,
    Metres = 11,
    Percentage = 12,
    LargestFrame = 13,
    DelayTooLong = 14,
    RoomTooSmall = 15,
    PauseTimeTooShort = 16,
    Refresh = 17,
    RoomTooLarge = 18,
    HaltTooLong = 19,
    HeadAbove8 = 20,
    HeadOfOtherClass = 21,
    MapEntryAbove7 = 22,
    KindAbove7 = 30,
    BodyCutShort = 31,
    PriorityAbove7 = 32,
    Length = 33,
    WireBusy = 34,
    PausedAtA = 35,
    TooManyUnderWay = 36,
    NoneEnded = 37,
    OtherFrameTooLate = 38,
    NotDue = 39,
    BoundOverrun = 40,
    TimeTooLate = 41,
    MoreThanHeld = 42,
    NotEnabled = 43,
    SettingsMissingOrRepeated = 44,
    InputTooLong = 45,
}

impl Refusal {
    pub fn number(self) -> u8 {
        self as u8
    }
}

/// Refuses where the condition holds, so that a row of conditions reads in document 01's order.
pub fn refuse_if(condition: bool, refusal: Refusal) -> Result<(), Refusal> {
    if condition {
        Err(refusal)
    } else {
        Ok(())
    }
}
