//! The internal switch of `compare --self-test`: it makes the library break one rule on purpose.
//!
//! No other program touches it, so everywhere else each rule stands as document 01 and document 02's
//! L1 and L2 say.

use std::cell::Cell;

use crate::order::{self, all_pairs, while_watched, Pair};

/// One rule broken. The text beside each is what `compare --self-test` prints.
macro_rules! slips {
    ($($name:ident: $text:literal,)*) => {
        #[derive(Clone, Copy, Debug, PartialEq, Eq)]
        pub enum Slip {
            $(#[doc = $text] $name,)*
            /// The later of a pair is given; of neighbours in a line, the later is tried first.
            OutOfOrder(Pair),
        }

        const SINGLE_SLIPS: &[Slip] = &[$(Slip::$name,)*];

        impl Slip {
            pub fn text(self) -> String {
                match self {
                    $(Slip::$name => $text.to_string(),)*
                    Slip::OutOfOrder(pair) => {
                        let given = order::text(pair.later);
                        format!("{} gives {given} where {pair} hold", pair.line.text())
                    }
                }
            }
        }
    };
}

slips! {
    TimesFromOtherEnd: "time[n] is read from the wrong end",
    FirstEnableOctetRead: "the first octet of the enable vector is not ignored",
    FrameUpToM: "refusal 2 only above M",
    PadLeftAsFound: "building leaves octets 34 to 59 as found",
    OctetAfterFrameTouched: "building touches octet 60",
    UnsetTimersZeroed: "timers whose e[n] is 0 are zeroed",
    LargerTimeKept: "a request keeps the larger time",
    EnableSettingIgnored: "timers of priorities not enabled are set too",
    IndicationsSaturate: "the count of indications stops at its end",
    LoweringWraps: "a timer below the count goes on from 65,535 in place of stopping at 0",
    CountCutTo16Bits: "a count of quanta is cut to its low 16 bits",
    CountCutTo32Bits: "a count of quanta is cut to its low 32 bits",
    CountStopsAt65534: "a count of quanta lowers by 65,534 at most",
    TimerAtCountKept: "a timer equal to the count is left as found",
    TimerBelowCountKept: "a timer below the count is left as found",
    LoweredAsSigned: "timer less count is taken as a signed number of 16 bits",
    LastTimerLeftOut: "the timer of priority 7 is not lowered",
    OnlyEnabledLowered: "timers of priorities not enabled are not lowered",
    PausedHeadStopsChoice: "a paused head holds back the lower classes too",
    LightAt300: "light is taken as 300 metres per microsecond",
    LightCutShort: "light is cut to whole metres per millisecond, 299,792",
    PercentageOnWrongSide: "the percentage stands on the wrong side of the link's fraction",
    LinkBitsRoundedDown: "link bits are rounded down",
    LinkBitsOneMore: "link bits are one more where nothing is to be rounded",
    HaltAsStationDelay: "14 tries the halt delay as a station delay",
    RoundedTogether: "G, P and D are rounded as one sum",
    FirstQuantumWhole: "refusal 16 without the extra 64",
    NotEnabledRoomsTried: "18 tries rooms of priorities not enabled",
    MarkAtHeadroom: "the mark stands at exactly the headroom",
    ReleaseAboveOnly: "wanted ends only above the hysteresis, not at it",
    HysteresisIgnored: "wanted ends at the mark, without the hysteresis",
    DueDatedAnew: "a due frame is dated anew at each change",
    LateMarkDatedBack: "a mark that rises late is dated from last start + I",
    CrossingFrameCounted: "the crossing frame counts in worst",
    SpansJoined: "a wanted span goes on counting where the last one ended",
    OpenSpanNotCounted: "worst leaves out a span still open",
    OnlyWantedEnabled: "the frame carries e[n] for wanted priorities only",
    SenderFiveOnlyWhenDue: "the sender gives 5 only when PFC is due",
    RefreshUnseenInWait: "a refresh inside a wait is dated from the wait's end",
    RefreshAfterI: "the refresh asks for more than I octet times",
    OtherFrameOneLater: "38 comes one octet time too late",
    OtherFrameOneEarlier: "38 comes one octet time too early",
    BoundsExclusive: "40 is given for reaching a bound",
    RefreshBoundForgotten: "40 forgets the bound of a refresh inside the wait",
    WireFreeOneLater: "the wire is free one octet time too late",
    PfcWireOf80: "a PFC frame holds the wire for 80 octet times",
    PathsSwapped: "frames are bound by the path of the other direction",
    Only127UnderWay: "each direction holds 127 frames",
    QuantaByWait: "quanta are counted from the start of each wait",
    CutSettingsGive31: "later settings cut short give 31",
    WaitOfZeroNotCounted: "a wait of 0 is not counted as a step",
}

/// Every slip: the rules above one by one, then each pair of each order line.
pub fn all_slips() -> Vec<Slip> {
    let pairs = all_pairs().into_iter().map(Slip::OutOfOrder);
    SINGLE_SLIPS.iter().copied().chain(pairs).collect()
}

thread_local! {
    static SLIP: Cell<Option<Slip>> = const { Cell::new(None) };
}

/// Whether this rule is broken on purpose just now.
#[inline]
pub(crate) fn slipped(slip: Slip) -> bool {
    SLIP.get() == Some(slip)
}

/// Does the work with one rule broken, on this thread alone.
pub fn with_slip<T>(slip: Slip, work: impl FnOnce() -> T) -> T {
    /// Mends the rule on every way out.
    struct Mend;
    impl Drop for Mend {
        fn drop(&mut self) {
            SLIP.set(None);
        }
    }
    let _mend = Mend;
    SLIP.set(Some(slip));
    while_watched(work)
}
