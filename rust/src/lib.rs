//! Decides propositional sequents by Wang's method. This is a safe wrapper of the proved library `libgekunday.a`.
//!
//! A *question* is a sequent in bytes: a left side and a right side, each a list of formulas over the letters 0 to 63.
//! In a state (which letters are true) it is true if some left formula is false or some right formula is true. If it is
//! true in every state, it is a *theorem*; otherwise it is *refuted*, by a state that is handed back. All states that
//! refute it can be listed, too. Questions that differ only in the order of a side's formulas, or in how often one
//! stands there, have one standard *spelling*. Questions whose formulas are *clauses* alone ("if these letters, then
//! that letter") are decided without a budget, and the state that refutes one is the least.
//!
//! | bytes | meaning |
//! |---|---|
//! | `10 n` | left side, `n` formulas follow (0 to 16) |
//! | `20 m` | right side, `m` formulas follow (0 to 16) |
//! | `01 k` | letter `k` (0 to 63) |
//! | `02` | NOT, one formula follows |
//! | `03`, `04`, `05`, `06` | AND, OR, IMPLIES, EQUIV, two formulas follow |
//!
//! A question is the left side, then the right side, and nothing more; it has at most 48 connectives, so at most 212
//! bytes.
//!
//! A state is a `u64`: bit `k` is set exactly if letter `k` is true. A stored 32-bit state, from when letters went to
//! 31, reads as the same number: `u64::from(stored)` for a `u32`.
//!
//! ```
//! use gekunday::{check, clauses, decide, derive, spell, states, width, ClauseVerdict, Kind};
//!
//! // From NOT (P OR Q) follows NOT P (Principia 2.45).
//! let question = [0x10, 1, 0x02, 0x04, 0x01, 0, 0x01, 1, 0x20, 1, 0x02, 0x01, 0];
//!
//! // The width bounds the work before any is done.
//! let size = width(&question)?;
//! assert_eq!((size.width, size.connectives, size.reductions_bound()), (1, 3, 3));
//!
//! let verdict = decide(&question, size.reductions_bound())?;
//! assert_eq!(verdict.kind, Kind::Theorem);
//! assert_eq!((verdict.reductions, verdict.closings), (3, 1));
//!
//! let mut buffer = [0; 64];
//! let written = derive(&question, size.reductions_bound(), &mut buffer).unwrap();
//! assert_eq!(written.derivation, [0x52, 0, 0x62, 0, 0x64, 0, 0x41, 0]);
//! assert_eq!(check(&question, written.derivation), Ok(()));
//!
//! // From P OR Q does not follow P AND Q: it fails where only P or only Q is true.
//! let question = [0x10, 1, 0x04, 0x01, 0, 0x01, 1, 0x20, 1, 0x03, 0x01, 0, 0x01, 1];
//! let mut buffer = [0; 4];
//! assert_eq!(states(&question, &mut buffer).unwrap(), [0b01, 0b10]);
//!
//! // A state that was stored with 32 bits is found by its number.
//! let stored: u32 = 0b10;
//! assert!(states(&question, &mut buffer).unwrap().contains(&u64::from(stored)));
//!
//! // Q, P and Q again on the left is the same question as P and Q.
//! let question = [0x10, 3, 0x01, 1, 0x01, 0, 0x01, 1, 0x20, 0];
//! let mut buffer = [0; 10];
//! assert_eq!(spell(&question, &mut buffer).unwrap(), [0x10, 2, 0x01, 0, 0x01, 1, 0x20, 0]);
//!
//! // Two clauses on the left: P, and NOT P OR Q ("if P, then Q"). P comes true in the first round, Q in the second.
//! let question = [0x10, 2, 0x01, 0, 0x04, 0x02, 0x01, 0, 0x01, 1, 0x20, 0];
//! assert_eq!(clauses(&question), Ok(ClauseVerdict::Refuted { state: 0b11, rounds: 2 }));
//! # Ok::<(), gekunday::Refusal>(())
//! ```
//!
//! No call panics, uses a heap or keeps anything between calls. What the answers mean is proved of the library; this
//! wrapper only gives them types. A number that the library's contract excludes would never read as a theorem, as a
//! derivation written, as one that passes, as a list of states or as a spelling.

#![no_std]
#![deny(unsafe_op_in_unsafe_fn, missing_docs)]
#![warn(clippy::undocumented_unsafe_blocks)]

use core::error::Error;
use core::fmt;

pub mod raw;

/// Bytes of the longest question.
pub const QUESTION_MAX: usize = 212;
/// Formulas that a side may have.
pub const FORMULAS_MAX: usize = 16;
/// Connectives that a question may have over both sides.
pub const CONNECTIVES_MAX: usize = 48;
/// Letters are numbered from 0 to 63.
pub const LETTERS: usize = 64;
/// Different letters that a question may have for its states to be listed.
pub const VARIED_MAX: usize = 16;

/// A side of a sequent.
#[derive(Clone, Copy, Debug, PartialEq, Eq, Hash)]
pub enum Side {
    /// The left side.
    Left,
    /// The right side.
    Right,
}

/// Why bytes are no question. Each case holds the place, counted from 0, of the byte that decides.
///
/// [`TooLong`](Refusal::TooLong) comes before all; otherwise the earliest, reading from the first byte on, decides.
#[derive(Clone, Copy, Debug, PartialEq, Eq, Hash)]
pub enum Refusal {
    /// 1: more than 212 bytes. The place is 212.
    TooLong(u64),
    /// 2: the bytes end where a command or operand is due. The place is their length.
    Cut(u64),
    /// 3: a byte that may not come there.
    WrongCommand(u64),
    /// 4: a side's count is over 16. The place is the operand's.
    ManyFormulas(u64),
    /// 5: a letter over 63. The place is the operand's.
    NoSuchLetter(u64),
    /// 6: the 49th connective.
    ManyConnectives(u64),
    /// 7: bytes follow the last formula. The place is that of the first such byte.
    LeftOver(u64),
}

impl Refusal {
    /// The library's number, 1 to 7.
    ///
    /// ```
    /// let refusal = gekunday::width(&[]).unwrap_err();
    /// assert_eq!(refusal, gekunday::Refusal::Cut(0));
    /// assert_eq!((refusal.number(), refusal.place()), (2, 0));
    /// ```
    pub const fn number(self) -> u32 {
        match self {
            Refusal::TooLong(_) => 1,
            Refusal::Cut(_) => 2,
            Refusal::WrongCommand(_) => 3,
            Refusal::ManyFormulas(_) => 4,
            Refusal::NoSuchLetter(_) => 5,
            Refusal::ManyConnectives(_) => 6,
            Refusal::LeftOver(_) => 7,
        }
    }

    /// The place in the question, counted from 0.
    pub const fn place(self) -> u64 {
        match self {
            Refusal::TooLong(place)
            | Refusal::Cut(place)
            | Refusal::WrongCommand(place)
            | Refusal::ManyFormulas(place)
            | Refusal::NoSuchLetter(place)
            | Refusal::ManyConnectives(place)
            | Refusal::LeftOver(place) => place,
        }
    }

    /// The library gives no other number than 1 to 7 here; whatever it gave, a refusal stays a refusal.
    const fn of(number: u32, place: u64) -> Refusal {
        match number {
            1 => Refusal::TooLong(place),
            2 => Refusal::Cut(place),
            3 => Refusal::WrongCommand(place),
            4 => Refusal::ManyFormulas(place),
            5 => Refusal::NoSuchLetter(place),
            6 => Refusal::ManyConnectives(place),
            _ => Refusal::LeftOver(place),
        }
    }
}

impl fmt::Display for Refusal {
    fn fmt(&self, f: &mut fmt::Formatter<'_>) -> fmt::Result {
        let why = match self {
            Refusal::TooLong(_) => "too long",
            Refusal::Cut(_) => "cut",
            Refusal::WrongCommand(_) => "wrong command",
            Refusal::ManyFormulas(_) => "many formulas",
            Refusal::NoSuchLetter(_) => "no such letter",
            Refusal::ManyConnectives(_) => "many connectives",
            Refusal::LeftOver(_) => "left over",
        };
        write!(f, "refused: {} at {}", why, self.place())
    }
}

impl Error for Refusal {}

/// How a run ended.
#[derive(Clone, Copy, Debug, PartialEq, Eq, Hash)]
pub enum Kind {
    /// True in every state.
    Theorem,
    /// False in this state: bit `k` is set exactly if letter `k` is true. It makes each left formula true and each
    /// right formula false.
    Refuted(u64),
    /// The question takes more reductions than the budget.
    Spent,
}

/// The answer of [`decide`].
#[derive(Clone, Copy, Debug, PartialEq, Eq, Hash)]
pub struct Verdict {
    /// How the run ended.
    pub kind: Kind,
    /// Reductions made.
    pub reductions: u64,
    /// Sequents closed.
    pub closings: u64,
}

/// The answer of [`width`].
#[derive(Clone, Copy, Debug, PartialEq, Eq, Hash)]
pub struct Width {
    /// The width W.
    pub width: u64,
    /// The connectives c.
    pub connectives: u64,
}

impl Width {
    /// c times W: no run makes more reductions, so this budget is never spent.
    pub const fn reductions_bound(self) -> u64 {
        self.connectives.saturating_mul(self.width)
    }

    /// W: no run closes more sequents.
    pub const fn closings_bound(self) -> u64 {
        self.width
    }

    /// 2 (c W + W): no derivation that [`derive()`] writes has more bytes.
    pub const fn derivation_bound(self) -> u64 {
        self.reductions_bound().saturating_add(self.closings_bound()).saturating_mul(2)
    }
}

/// The answer of [`derive()`] when the derivation was written.
#[derive(Clone, Copy, Debug, PartialEq, Eq, Hash)]
pub struct Written<'b> {
    /// The derivation: the first bytes of the lent buffer.
    pub derivation: &'b [u8],
    /// Reductions made.
    pub reductions: u64,
    /// Sequents closed.
    pub closings: u64,
}

/// Why [`derive()`] wrote nothing.
#[derive(Clone, Copy, Debug, PartialEq, Eq, Hash)]
pub enum NotWritten {
    /// 1 to 7: the question is refused.
    Refused(Refusal),
    /// 9: the question takes more reductions than the budget.
    Spent {
        /// Reductions made: the budget.
        reductions: u64,
        /// Sequents closed.
        closings: u64,
    },
    /// 10: the question is refuted.
    NotProved {
        /// The refuting state, as in [`Kind::Refuted`].
        state: u64,
        /// Reductions made.
        reductions: u64,
        /// Sequents closed.
        closings: u64,
    },
    /// 11: the buffer is shorter than the derivation.
    NoSpace {
        /// Bytes that the derivation has.
        needed: u64,
    },
}

impl NotWritten {
    /// The library's number: 1 to 7, or 9 to 11.
    pub const fn number(self) -> u32 {
        match self {
            NotWritten::Refused(refusal) => refusal.number(),
            NotWritten::Spent { .. } => 9,
            NotWritten::NotProved { .. } => 10,
            NotWritten::NoSpace { .. } => 11,
        }
    }
}

impl fmt::Display for NotWritten {
    fn fmt(&self, f: &mut fmt::Formatter<'_>) -> fmt::Result {
        match self {
            NotWritten::Refused(refusal) => refusal.fmt(f),
            NotWritten::Spent { reductions, .. } => write!(f, "spent after {} reductions", reductions),
            NotWritten::NotProved { state, .. } => write!(f, "not proved: false in state {}", state),
            NotWritten::NoSpace { needed } => write!(f, "no space: {} bytes needed", needed),
        }
    }
}

impl Error for NotWritten {}

/// Why [`check`] does not pass a derivation. Apart from [`Refused`](NotPassed::Refused), each case holds a place in the
/// derivation, counted from 0.
#[derive(Clone, Copy, Debug, PartialEq, Eq, Hash)]
pub enum NotPassed {
    /// 1 to 7: the question is refused.
    Refused(Refusal),
    /// 20: fewer than two bytes are left while a sequent waits, or fewer than three at 42.
    Cut(u64),
    /// 21: an unknown command.
    UnknownCommand(u64),
    /// 22: no formula at that place; for 42, at one of the two.
    NoFormula(u64),
    /// 23: the formula there is a letter or has another connective.
    OtherFormula(u64),
    /// 24: the letter does not stand on both sides.
    NotClosed(u64),
    /// 25: bytes follow a complete derivation. The place is that of the first such byte.
    LeftOver(u64),
    /// 26: the two formulas that 42 names differ or are letters.
    NotEqual(u64),
}

impl NotPassed {
    /// The library's number: 1 to 7 or 20 to 26.
    pub const fn number(self) -> u32 {
        match self {
            NotPassed::Refused(refusal) => refusal.number(),
            NotPassed::Cut(_) => 20,
            NotPassed::UnknownCommand(_) => 21,
            NotPassed::NoFormula(_) => 22,
            NotPassed::OtherFormula(_) => 23,
            NotPassed::NotClosed(_) => 24,
            NotPassed::LeftOver(_) => 25,
            NotPassed::NotEqual(_) => 26,
        }
    }

    /// The place, in the question for [`Refused`](NotPassed::Refused) and otherwise in the derivation.
    pub const fn place(self) -> u64 {
        match self {
            NotPassed::Refused(refusal) => refusal.place(),
            NotPassed::Cut(place)
            | NotPassed::UnknownCommand(place)
            | NotPassed::NoFormula(place)
            | NotPassed::OtherFormula(place)
            | NotPassed::NotClosed(place)
            | NotPassed::LeftOver(place)
            | NotPassed::NotEqual(place) => place,
        }
    }

    const fn of(number: u32, place: u64) -> NotPassed {
        match number {
            20 => NotPassed::Cut(place),
            21 => NotPassed::UnknownCommand(place),
            22 => NotPassed::NoFormula(place),
            23 => NotPassed::OtherFormula(place),
            24 => NotPassed::NotClosed(place),
            25 => NotPassed::LeftOver(place),
            26 => NotPassed::NotEqual(place),
            _ => NotPassed::Refused(Refusal::of(number, place)),
        }
    }
}

impl fmt::Display for NotPassed {
    fn fmt(&self, f: &mut fmt::Formatter<'_>) -> fmt::Result {
        let why = match self {
            NotPassed::Refused(refusal) => return refusal.fmt(f),
            NotPassed::Cut(_) => "cut",
            NotPassed::UnknownCommand(_) => "unknown command",
            NotPassed::NoFormula(_) => "no formula at that place",
            NotPassed::OtherFormula(_) => "a letter or another connective at that place",
            NotPassed::NotClosed(_) => "the letter does not stand on both sides",
            NotPassed::LeftOver(_) => "bytes left over",
            NotPassed::NotEqual(_) => "the two formulas differ or are letters",
        };
        write!(f, "not passed: {} at {}", why, self.place())
    }
}

impl Error for NotPassed {}

/// Why [`states`] listed nothing.
#[derive(Clone, Copy, Debug, PartialEq, Eq, Hash)]
pub enum NotListed {
    /// 1 to 7: the question is refused.
    Refused(Refusal),
    /// 12: more than 16 different letters occur.
    ManyLetters {
        /// Different letters that occur.
        letters: u64,
    },
    /// 11: the buffer is shorter than the list.
    NoSpace {
        /// States that the list has.
        needed: u64,
    },
}

impl NotListed {
    /// The library's number: 1 to 7, 11 or 12.
    pub const fn number(self) -> u32 {
        match self {
            NotListed::Refused(refusal) => refusal.number(),
            NotListed::ManyLetters { .. } => 12,
            NotListed::NoSpace { .. } => 11,
        }
    }
}

impl fmt::Display for NotListed {
    fn fmt(&self, f: &mut fmt::Formatter<'_>) -> fmt::Result {
        match self {
            NotListed::Refused(refusal) => refusal.fmt(f),
            NotListed::ManyLetters { letters } => write!(f, "many letters: {} different ones", letters),
            NotListed::NoSpace { needed } => write!(f, "no space: {} states needed", needed),
        }
    }
}

impl Error for NotListed {}

/// Why [`spell`] wrote nothing.
#[derive(Clone, Copy, Debug, PartialEq, Eq, Hash)]
pub enum NotSpelled {
    /// 1 to 7: the question is refused.
    Refused(Refusal),
    /// 11: the buffer is shorter than the spelling.
    NoSpace {
        /// Bytes that the spelling has.
        needed: u64,
    },
}

impl NotSpelled {
    /// The library's number: 1 to 7 or 11.
    pub const fn number(self) -> u32 {
        match self {
            NotSpelled::Refused(refusal) => refusal.number(),
            NotSpelled::NoSpace { .. } => 11,
        }
    }
}

impl fmt::Display for NotSpelled {
    fn fmt(&self, f: &mut fmt::Formatter<'_>) -> fmt::Result {
        match self {
            NotSpelled::Refused(refusal) => refusal.fmt(f),
            NotSpelled::NoSpace { needed } => write!(f, "no space: {} bytes needed", needed),
        }
    }
}

impl Error for NotSpelled {}

/// The answer of [`clauses`].
#[derive(Clone, Copy, Debug, PartialEq, Eq, Hash)]
pub enum ClauseVerdict {
    /// True in every state.
    Theorem {
        /// Rounds that made a letter true.
        rounds: u64,
    },
    /// False in this state, and in no state in which one of its true letters is false.
    Refuted {
        /// The least refuting state: bit `k` is set exactly if letter `k` is true in every refuting state.
        state: u64,
        /// Rounds that made a letter true.
        rounds: u64,
    },
}

/// Why [`clauses`] came to no verdict. Each case holds a place in the question, counted from 0.
///
/// [`Refused`](NotClauses::Refused) comes first, then [`RightFormula`](NotClauses::RightFormula). Then the earliest
/// left formula decides, and at one formula [`NotClause`](NotClauses::NotClause) comes first.
#[derive(Clone, Copy, Debug, PartialEq, Eq, Hash)]
pub enum NotClauses {
    /// 1 to 7: the question is refused.
    Refused(Refusal),
    /// 13: the right side has a formula. The place is that of the first one's first byte.
    RightFormula(u64),
    /// 14: a left formula is not built from letters, NOT of a letter and OR alone. The place is that of its first byte.
    NotClause(u64),
    /// 15: a left formula has two or more letters without NOT, counted by occurrence. The place is that of its first
    /// byte.
    ManyPositive(u64),
}

impl NotClauses {
    /// The library's number: 1 to 7 or 13 to 15.
    pub const fn number(self) -> u32 {
        match self {
            NotClauses::Refused(refusal) => refusal.number(),
            NotClauses::RightFormula(_) => 13,
            NotClauses::NotClause(_) => 14,
            NotClauses::ManyPositive(_) => 15,
        }
    }

    /// The place in the question.
    pub const fn place(self) -> u64 {
        match self {
            NotClauses::Refused(refusal) => refusal.place(),
            NotClauses::RightFormula(place) | NotClauses::NotClause(place) | NotClauses::ManyPositive(place) => place,
        }
    }

    const fn of(number: u32, place: u64) -> NotClauses {
        match number {
            13 => NotClauses::RightFormula(place),
            14 => NotClauses::NotClause(place),
            15 => NotClauses::ManyPositive(place),
            _ => NotClauses::Refused(Refusal::of(number, place)),
        }
    }
}

impl fmt::Display for NotClauses {
    fn fmt(&self, f: &mut fmt::Formatter<'_>) -> fmt::Result {
        let why = match self {
            NotClauses::Refused(refusal) => return refusal.fmt(f),
            NotClauses::RightFormula(_) => "a formula on the right",
            NotClauses::NotClause(_) => "a formula that is no clause",
            NotClauses::ManyPositive(_) => "two or more letters without NOT in the formula",
        };
        write!(f, "not clauses: {} at {}", why, self.place())
    }
}

impl Error for NotClauses {}

/// Decides a question with at most `budget` reductions.
///
/// The verdict is [`Kind::Spent`] exactly if the question takes more reductions than the budget. A budget of
/// [`Width::reductions_bound`] is never spent.
///
/// ```
/// use gekunday::{decide, Kind, Refusal, Verdict};
///
/// // P OR Q on the left, P on the right: false where only Q is true.
/// let question = [0x10, 1, 0x04, 0x01, 0, 0x01, 1, 0x20, 1, 0x01, 0];
/// assert_eq!(decide(&question, 10), Ok(Verdict { kind: Kind::Refuted(0b10), reductions: 1, closings: 1 }));
/// assert_eq!(decide(&question, 0), Ok(Verdict { kind: Kind::Spent, reductions: 0, closings: 0 }));
/// assert_eq!(decide(&question[..9], 10), Err(Refusal::Cut(9)));
///
/// // Letter 63 on the left, letter 31 on the right. There is no letter 64.
/// let question = [0x10, 1, 0x01, 63, 0x20, 1, 0x01, 31];
/// assert_eq!(decide(&question, 0), Ok(Verdict { kind: Kind::Refuted(1 << 63), reductions: 0, closings: 0 }));
/// assert_eq!(decide(&[0x10, 1, 0x01, 64, 0x20, 0], 0), Err(Refusal::NoSuchLetter(3)));
/// ```
pub fn decide(question: &[u8], budget: u64) -> Result<Verdict, Refusal> {
    let mut out = [0; 4];
    // SAFETY: the pointers and lengths are those of live slices, and `out` has 4 words.
    let number = unsafe { raw::gekunday_decide(question.as_ptr(), question.len(), budget, out.as_mut_ptr()) };
    let [first, state, reductions, closings] = out;
    let kind = match (number, first) {
        (0, 0) => Kind::Theorem,
        (0, _) => Kind::Refuted(state),
        (9, _) => Kind::Spent,
        _ => return Err(Refusal::of(number, first)),
    };
    Ok(Verdict { kind, reductions, closings })
}

/// Works out a question's width and counts its connectives, without deciding it.
///
/// ```
/// // P EQUIV P on the right.
/// let size = gekunday::width(&[0x10, 0, 0x20, 1, 0x06, 0x01, 0, 0x01, 0])?;
/// assert_eq!((size.width, size.connectives), (2, 1));
/// assert_eq!((size.reductions_bound(), size.closings_bound(), size.derivation_bound()), (2, 2, 8));
/// # Ok::<(), gekunday::Refusal>(())
/// ```
pub fn width(question: &[u8]) -> Result<Width, Refusal> {
    let mut out = [0; 2];
    // SAFETY: the pointers and lengths are those of live slices, and `out` has 2 words.
    let number = unsafe { raw::gekunday_width(question.as_ptr(), question.len(), out.as_mut_ptr()) };
    let [first, connectives] = out;
    match number {
        0 => Ok(Width { width: first, connectives }),
        _ => Err(Refusal::of(number, first)),
    }
}

/// Hands out a formula of the question: its own bytes. The place counts from 0 on its side.
///
/// `None` where the question is refused or has no such place.
///
/// ```
/// use gekunday::{formula, Side};
///
/// let question = [0x10, 1, 0x02, 0x01, 5, 0x20, 2, 0x01, 0, 0x03, 0x01, 1, 0x01, 2];
/// assert_eq!(formula(&question, Side::Left, 0), Some(&[0x02, 0x01, 5][..]));
/// assert_eq!(formula(&question, Side::Right, 1), Some(&[0x03, 0x01, 1, 0x01, 2][..]));
/// assert_eq!(formula(&question, Side::Right, 2), None);
/// ```
pub fn formula(question: &[u8], side: Side, place: usize) -> Option<&[u8]> {
    let side = match side {
        Side::Left => 0,
        Side::Right => 1,
    };
    let mut out = [0; 2];
    // SAFETY: the pointers and lengths are those of live slices, and `out` has 2 words.
    let number = unsafe { raw::gekunday_formula(question.as_ptr(), question.len(), side, place, out.as_mut_ptr()) };
    let start = usize::try_from(out[0]).ok()?;
    let length = usize::try_from(out[1]).ok()?;
    if number != 0 || length == 0 {
        return None;
    }
    question.get(start..start.checked_add(length)?)
}

/// Decides a question with at most `budget` reductions and writes the derivation of a theorem to the first bytes of
/// `buffer`.
///
/// The bytes behind the derivation keep their content; under an error all do. A buffer of [`Width::derivation_bound`]
/// bytes is never too short, and an empty one asks for the length alone.
///
/// | bytes | meaning |
/// |---|---|
/// | `52` to `56`, place | reduces NOT to EQUIV on the left |
/// | `62` to `66`, place | reduces NOT to EQUIV on the right |
/// | `41`, letter | closes: the letter stands on both sides |
/// | `42`, left place, right place | closes: equal formulas with a connective stand there |
///
/// After a reduction with two premises comes the whole derivation of the first, then that of the second. A sequent is
/// closed by its lowest letter on both sides; if there is none, by the lowest left place whose formula has an equal on
/// the right, with the lowest such right place.
///
/// ```
/// use gekunday::{derive, NotWritten};
///
/// // P AND Q on the left, Q AND P on the right.
/// let question = [0x10, 1, 0x03, 0x01, 0, 0x01, 1, 0x20, 1, 0x03, 0x01, 1, 0x01, 0];
/// assert_eq!(derive(&question, 100, &mut []), Err(NotWritten::NoSpace { needed: 8 }));
///
/// let mut buffer = [0xff; 10];
/// let written = derive(&question, 100, &mut buffer)?;
/// assert_eq!(written.derivation, [0x53, 0, 0x63, 0, 0x41, 1, 0x41, 0]);
/// assert_eq!(buffer[8..], [0xff; 2]);
///
/// // P AND Q on both sides.
/// let question = [0x10, 1, 0x03, 0x01, 0, 0x01, 1, 0x20, 1, 0x03, 0x01, 0, 0x01, 1];
/// let written = derive(&question, 0, &mut buffer)?;
/// assert_eq!((written.derivation, written.reductions, written.closings), (&[0x42, 0, 0][..], 0, 1));
/// # Ok::<(), gekunday::NotWritten>(())
/// ```
pub fn derive<'b>(question: &[u8], budget: u64, buffer: &'b mut [u8]) -> Result<Written<'b>, NotWritten> {
    let mut out = [0; 3];
    // SAFETY: the pointers and lengths are those of live slices, `buffer` is borrowed for writing, and `out` has 3
    // words.
    let number = unsafe {
        raw::gekunday_derive(
            question.as_ptr(),
            question.len(),
            budget,
            buffer.as_mut_ptr(),
            buffer.len(),
            out.as_mut_ptr(),
        )
    };
    let [first, second, third] = out;
    match number {
        0 => {
            let length = usize::try_from(first).unwrap_or(usize::MAX);
            // The library never says that it wrote more than the buffer holds.
            let derivation = buffer.get(..length).ok_or(NotWritten::NoSpace { needed: first })?;
            Ok(Written { derivation, reductions: second, closings: third })
        }
        9 => Err(NotWritten::Spent { reductions: first, closings: second }),
        10 => Err(NotWritten::NotProved { state: first, reductions: second, closings: third }),
        11 => Err(NotWritten::NoSpace { needed: first }),
        _ => Err(NotWritten::Refused(Refusal::of(number, first))),
    }
}

/// Checks a derivation of a question, ours or another's: it may reduce in any order. A question with a derivation that
/// passes is a theorem.
///
/// ```
/// use gekunday::{check, NotPassed};
///
/// // P AND Q on both sides. The two formulas are equal; they may be reduced all the same, here the right one first.
/// let question = [0x10, 1, 0x03, 0x01, 0, 0x01, 1, 0x20, 1, 0x03, 0x01, 0, 0x01, 1];
/// assert_eq!(check(&question, &[0x42, 0, 0]), Ok(()));
/// let derivation = [0x63, 0, 0x53, 0, 0x41, 0, 0x53, 0, 0x41, 1];
/// assert_eq!(check(&question, &derivation), Ok(()));
/// assert_eq!(check(&question, &derivation[..9]), Err(NotPassed::Cut(8)));
/// assert_eq!(check(&question, &[0x63, 1]), Err(NotPassed::NoFormula(0)));
/// assert_eq!(check(&question, &[0x53, 0, 0x42, 0, 0]), Err(NotPassed::NotEqual(2)));
/// ```
pub fn check(question: &[u8], derivation: &[u8]) -> Result<(), NotPassed> {
    let mut out = [0; 1];
    // SAFETY: the pointers and lengths are those of live slices, and `out` has 1 word.
    let number = unsafe {
        raw::gekunday_check(question.as_ptr(), question.len(), derivation.as_ptr(), derivation.len(), out.as_mut_ptr())
    };
    match number {
        0 => Ok(()),
        _ => Err(NotPassed::of(number, out[0])),
    }
}

/// Lists, in the first places of `buffer`, every state that makes a question false: ascending as numbers, each once.
///
/// Only letters that occur in the question vary; all others are false in each state listed. A theorem gives an empty
/// list. The places behind the list keep their content; under an error all do. A buffer of 2 to the power
/// [`VARIED_MAX`] places is never too short, and an empty one asks for the number of states alone.
///
/// ```
/// use gekunday::{states, NotListed};
///
/// // P OR Q on the left, nothing on the right: false where P or Q is true.
/// let question = [0x10, 1, 0x04, 0x01, 0, 0x01, 1, 0x20, 0];
/// assert_eq!(states(&question, &mut []), Err(NotListed::NoSpace { needed: 3 }));
///
/// let mut buffer = [0xff; 5];
/// assert_eq!(states(&question, &mut buffer)?, [0b01, 0b10, 0b11]);
/// assert_eq!(buffer[3..], [0xff; 2]);
///
/// // The same with the letters 31 and 32.
/// let question = [0x10, 1, 0x04, 0x01, 31, 0x01, 32, 0x20, 0];
/// assert_eq!(states(&question, &mut buffer)?, [0x0_8000_0000, 0x1_0000_0000, 0x1_8000_0000]);
///
/// // P on both sides: a theorem.
/// assert!(states(&[0x10, 1, 0x01, 0, 0x20, 1, 0x01, 0], &mut [])?.is_empty());
/// # Ok::<(), gekunday::NotListed>(())
/// ```
pub fn states<'s>(question: &[u8], buffer: &'s mut [u64]) -> Result<&'s [u64], NotListed> {
    let mut out = [0; 1];
    // SAFETY: the pointers and lengths are those of live slices, `buffer` is borrowed for writing, and `out` has 1
    // word.
    let number = unsafe {
        raw::gekunday_states(question.as_ptr(), question.len(), buffer.as_mut_ptr(), buffer.len(), out.as_mut_ptr())
    };
    let [first] = out;
    match number {
        0 => {
            let count = usize::try_from(first).unwrap_or(usize::MAX);
            // The library never says that it listed more than the buffer holds.
            buffer.get(..count).ok_or(NotListed::NoSpace { needed: first })
        }
        11 => Err(NotListed::NoSpace { needed: first }),
        12 => Err(NotListed::ManyLetters { letters: first }),
        _ => Err(NotListed::Refused(Refusal::of(number, first))),
    }
}

/// Writes the standard spelling of a question to the first bytes of `buffer`: on each side the formulas ascend by their
/// bytes, compared from the first, and equal ones are written once.
///
/// Two accepted questions get the same spelling exactly if each side has the same set of formulas. A spelling is an
/// accepted question, and its spelling is itself. It is true in exactly the states in which the question is: a theorem
/// stays a theorem, a refuted one stays refuted, and [`states`] answers the same. What need not stay: which of the
/// refuting states [`decide`] names, the reductions and closings, the width, and the places of formulas. So a
/// derivation of the question need not pass for its spelling.
///
/// The bytes behind the spelling keep their content; under an error all do. A spelling is never longer than its
/// question, so a buffer of [`QUESTION_MAX`] bytes is never too short; an empty one asks for the length alone.
///
/// ```
/// use gekunday::{spell, NotSpelled};
///
/// // NOT Q and P on the left, with P twice, and R on the right.
/// let question = [0x10, 3, 0x01, 0, 0x02, 0x01, 1, 0x01, 0, 0x20, 1, 0x01, 2];
/// assert_eq!(spell(&question, &mut []), Err(NotSpelled::NoSpace { needed: 11 }));
///
/// let mut buffer = [0xff; 13];
/// let spelling = spell(&question, &mut buffer)?;
/// assert_eq!(spelling, [0x10, 2, 0x01, 0, 0x02, 0x01, 1, 0x20, 1, 0x01, 2]);
///
/// // The same formulas in another order, with R twice.
/// let question = [0x10, 2, 0x02, 0x01, 1, 0x01, 0, 0x20, 2, 0x01, 2, 0x01, 2];
/// assert_eq!(spell(&question, &mut [0; 13])?, spelling);
/// assert_eq!(buffer[11..], [0xff; 2]);
///
/// // Q AND P beside P AND Q: they are true in the same states, but are two formulas.
/// let question = [0x10, 2, 0x03, 0x01, 1, 0x01, 0, 0x03, 0x01, 0, 0x01, 1, 0x20, 0];
/// let spelling = [0x10, 2, 0x03, 0x01, 0, 0x01, 1, 0x03, 0x01, 1, 0x01, 0, 0x20, 0];
/// assert_eq!(spell(&question, &mut [0; 14])?, spelling);
/// # Ok::<(), gekunday::NotSpelled>(())
/// ```
pub fn spell<'b>(question: &[u8], buffer: &'b mut [u8]) -> Result<&'b [u8], NotSpelled> {
    let mut out = [0; 1];
    // SAFETY: the pointers and lengths are those of live slices, `buffer` is borrowed for writing, and `out` has 1
    // word.
    let number = unsafe {
        raw::gekunday_spell(question.as_ptr(), question.len(), buffer.as_mut_ptr(), buffer.len(), out.as_mut_ptr())
    };
    let [first] = out;
    match number {
        0 => {
            let length = usize::try_from(first).unwrap_or(usize::MAX);
            // The library never says that it wrote more than the buffer holds.
            buffer.get(..length).ok_or(NotSpelled::NoSpace { needed: first })
        }
        11 => Err(NotSpelled::NoSpace { needed: first }),
        _ => Err(NotSpelled::Refused(Refusal::of(number, first))),
    }
}

/// Decides a question that is made of clauses alone (Horn clauses, by unit propagation), without a budget.
///
/// The right side is empty, and each left formula is a letter, NOT of a letter, or OR of such formulas, with at most
/// one letter that stands without NOT, counted by occurrence. Each is a rule: NOT P OR NOT Q OR R is "if P and Q, then
/// R", NOT P OR NOT Q is "not both P and Q", and R alone is "R".
///
/// All letters start false. A round makes true every false letter that is the letter without NOT of a clause whose
/// letters under NOT are all true when the round starts. Rounds go on until one makes no letter true; then the question
/// is a theorem exactly if some clause is false. The rounds that made a letter true are counted: they are at most as
/// many as the different letters in the question.
///
/// The state of a refuted question is the least one: each letter true in it is true in every refuting state. The state
/// that [`decide`] names need not be the least. The verdict is that of [`decide`] wherever that is not [`Kind::Spent`].
///
/// ```
/// use gekunday::{clauses, decide, ClauseVerdict, Kind, NotClauses};
///
/// // R OR NOT Q, which is "if Q, then R", and P. Q stays false, so R does, too.
/// let question = [0x10, 2, 0x04, 0x01, 2, 0x02, 0x01, 1, 0x01, 0, 0x20, 0];
/// assert_eq!(clauses(&question), Ok(ClauseVerdict::Refuted { state: 0b001, rounds: 1 }));
/// assert_eq!(decide(&question, 9).unwrap().kind, Kind::Refuted(0b101));
///
/// // "Not both P and Q", "if P, then Q" and P. After two rounds the first of them is false.
/// let question =
///     [0x10, 3, 0x04, 0x02, 0x01, 0, 0x02, 0x01, 1, 0x04, 0x02, 0x01, 0, 0x01, 1, 0x01, 0, 0x20, 0];
/// assert_eq!(clauses(&question), Ok(ClauseVerdict::Theorem { rounds: 2 }));
///
/// // P, and then P OR Q: two letters without NOT in the formula at place 4.
/// let question = [0x10, 2, 0x01, 0, 0x04, 0x01, 0, 0x01, 1, 0x20, 0];
/// assert_eq!(clauses(&question), Err(NotClauses::ManyPositive(4)));
/// // NOT NOT P, and P on the right.
/// assert_eq!(clauses(&[0x10, 1, 0x02, 0x02, 0x01, 0, 0x20, 0]), Err(NotClauses::NotClause(2)));
/// assert_eq!(clauses(&[0x10, 0, 0x20, 1, 0x01, 0]), Err(NotClauses::RightFormula(4)));
/// ```
pub fn clauses(question: &[u8]) -> Result<ClauseVerdict, NotClauses> {
    let mut out = [0; 3];
    // SAFETY: the pointers and lengths are those of live slices, and `out` has 3 words.
    let number = unsafe { raw::gekunday_clauses(question.as_ptr(), question.len(), out.as_mut_ptr()) };
    let [first, state, rounds] = out;
    match (number, first) {
        (0, 0) => Ok(ClauseVerdict::Theorem { rounds }),
        (0, _) => Ok(ClauseVerdict::Refuted { state, rounds }),
        _ => Err(NotClauses::of(number, first)),
    }
}
