//! Document 01's order lines: "Each is given exactly when its condition holds and none earlier in
//! the order does."

use std::cell::{Cell, RefCell};
use std::collections::BTreeSet;
use std::fmt;

use crate::slips::{slipped, Slip};

/// An order line. Kind 01's, 41 and 40, is not among them: no input reaches 41, so no input tells
/// which of the two is tried first.
#[derive(Clone, Copy, Debug, PartialEq, Eq, PartialOrd, Ord)]
pub enum Line {
    Reading,
    Building,
    Headroom,
    Choice,
    Settings,
    Records,
    Kind02,
    Kind04,
    Kind05,
    Kind07,
}

pub const ALL_LINES: [Line; 10] = [
    Line::Reading,
    Line::Building,
    Line::Headroom,
    Line::Choice,
    Line::Settings,
    Line::Records,
    Line::Kind02,
    Line::Kind04,
    Line::Kind05,
    Line::Kind07,
];

/// Stands in the line of reading where a frame turns out to be data; no refusal has this number.
pub const DATA: u8 = 0;

/// Two places of a line that are never the first two that hold, whatever is given.
const NEVER_THE_FIRST_TWO: [(Line, u8, u8); 7] = [
    // Where 13 does not hold, M - 4 is at least 60: no frame is shorter than that and longer.
    (Line::Reading, 1, 2),
    // A rate that is none of the three has no limit of its own for the halt delay.
    (Line::Headroom, 10, 19),
    // A first kind above 07 is not settings, so 44 holds between the two.
    (Line::Records, 45, 30),
    // In more than 65,536 octets the first record stands whole, and no later one is looked at.
    (Line::Records, 45, 31),
    // Document 01 gives a kind above 07 no body that could be cut short.
    (Line::Records, 30, 31),
    // A priority above 7 has no timer at A.
    (Line::Kind02, 32, 35),
    // A priority above 7 is not enabled either, so 43 holds between the two.
    (Line::Kind07, 32, 42),
];

impl Line {
    /// The line as document 01 writes it.
    pub fn numbers(self) -> &'static [u8] {
        match self {
            Line::Reading => &[13, 1, 2, DATA, 3, 4],
            Line::Building => &[5, 6],
            Line::Headroom => &[10, 11, 12, 13, 14, 19],
            Line::Choice => &[22, 20, 21],
            Line::Settings => &[13, 14, 17, 18, 16, 15],
            Line::Records => &[45, 44, 30, 31],
            Line::Kind02 => &[32, 33, 34, 35, 36],
            Line::Kind04 => &[33, 34, 38],
            Line::Kind05 => &[39, 34, 36],
            Line::Kind07 => &[32, 43, 42],
        }
    }

    pub fn text(self) -> &'static str {
        match self {
            Line::Reading => "reading",
            Line::Building => "building",
            Line::Headroom => "headroom",
            Line::Choice => "choice",
            Line::Settings => "settings",
            Line::Records => "records",
            Line::Kind02 => "kind 02",
            Line::Kind04 => "kind 04",
            Line::Kind05 => "kind 05",
            Line::Kind07 => "kind 07",
        }
    }

    /// Every two of the line that can be the first two that hold, neighbours or not.
    pub fn pairs(self) -> Vec<Pair> {
        let numbers = self.numbers();
        let mut pairs = Vec::new();
        for (place, &earlier) in numbers.iter().enumerate() {
            let with = |&later: &u8| Pair {
                line: self,
                earlier,
                later,
            };
            pairs.extend(numbers[place + 1..].iter().map(with));
        }
        pairs.retain(|pair| !NEVER_THE_FIRST_TWO.contains(&(self, pair.earlier, pair.later)));
        pairs
    }
}

/// Two of one order line: the first and the second that hold. The earlier is to be given.
#[derive(Clone, Copy, Debug, PartialEq, Eq, PartialOrd, Ord)]
pub struct Pair {
    pub line: Line,
    pub earlier: u8,
    pub later: u8,
}

impl Pair {
    pub fn has(self, number: u8) -> bool {
        [self.earlier, self.later].contains(&number)
    }
}

impl fmt::Display for Pair {
    fn fmt(&self, f: &mut fmt::Formatter<'_>) -> fmt::Result {
        write!(f, "{} and {}", text(self.earlier), text(self.later))
    }
}

/// What stands at a place of a line.
pub fn text(number: u8) -> String {
    match number {
        DATA => "data".to_string(),
        _ => number.to_string(),
    }
}

/// Every pair of every line.
pub fn all_pairs() -> Vec<Pair> {
    ALL_LINES.into_iter().flat_map(Line::pairs).collect()
}

/// What the first of a line's conditions that holds leads to, if one holds; given are the line and,
/// in its order, what each leads to and the condition. None is tried past the first that holds.
///
/// Only while lines are watched all are tried again, to find the second. So a condition changes
/// nothing and has an answer whatever was given.
macro_rules! first_of {
    ($line:expr, [$(($answer:expr, $condition:expr)),+ $(,)?] $(,)?) => {{
        'first: {
            'watched: {
                $(if $condition {
                    if $crate::order::are_watched() {
                        break 'watched;
                    }
                    break 'first Some($answer);
                })+
                break 'first None;
            }
            $crate::order::first_watched($line, &[$(($answer, $condition)),+])
        }
    }};
}
pub(crate) use first_of;

/// Refuses by the first of a line's conditions that holds; written as `first_of`.
macro_rules! refuse_first {
    ($line:expr, $conditions:tt $(,)?) => {
        match $crate::order::first_of!($line, $conditions) {
            Some(refusal) => Err(refusal),
            None => Ok(()),
        }
    };
}
pub(crate) use refuse_first;

/// As `first_of`, from the conditions' answers: the pair met is noted, and its slip is done.
#[cold]
#[inline(never)]
pub(crate) fn first_watched<A: Copy>(line: Line, conditions: &[(A, bool)]) -> Option<A> {
    let mut holding = (0..conditions.len()).filter(|&place| conditions[place].1);
    let first = holding.next()?;
    let mut given = first;
    if let Some(second) = holding.next() {
        let pair = Pair {
            line,
            earlier: line.numbers()[first],
            later: line.numbers()[second],
        };
        note_met(pair);
        if slipped(Slip::OutOfOrder(pair)) {
            given = second;
        }
    }
    Some(conditions[given].0)
}

thread_local! {
    /// How many ask on this thread that lines be watched.
    static WATCHERS: Cell<u32> = const { Cell::new(0) };
    /// The pairs met, while someone asks for them.
    static MET: RefCell<Option<BTreeSet<Pair>>> = const { RefCell::new(None) };
}

/// Whether the second condition that holds is looked for too, on this thread.
#[inline]
pub(crate) fn are_watched() -> bool {
    WATCHERS.get() > 0
}

/// Does the work with the lines watched: for a slip, or for the pairs met.
pub(crate) fn while_watched<T>(work: impl FnOnce() -> T) -> T {
    /// One asks no longer, on every way out.
    struct Gone;
    impl Drop for Gone {
        fn drop(&mut self) {
            WATCHERS.set(WATCHERS.get() - 1);
        }
    }
    WATCHERS.set(WATCHERS.get() + 1);
    let _gone = Gone;
    work()
}

fn note_met(pair: Pair) {
    MET.with_borrow_mut(|met| {
        if let Some(met) = met {
            met.insert(pair);
        }
    });
}

/// Does the work; the answer is also which pairs it met on this thread.
pub fn with_pairs_met<T>(work: impl FnOnce() -> T) -> (T, BTreeSet<Pair>) {
    MET.set(Some(BTreeSet::new()));
    let done = while_watched(work);
    (done, MET.take().unwrap_or_default())
}
