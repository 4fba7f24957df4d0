//! Why a call did not do what was asked.
use crate::lit::Lit;
use crate::numbers::{Denied, Expected, File, Limit, Unproved};
use crate::options::Options;
use pbcnf_sys as c;
use std::fmt;

/// A place in a text: lines and columns count from 1, columns in bytes.
#[derive(Clone, Copy, PartialEq, Eq, Hash, PartialOrd, Ord, Debug)]
pub struct Place {
    /// The line.
    pub line: u64,
    /// The column.
    pub column: u64,
}

/// Which number of those that were passed is out of its range.
#[derive(Clone, Copy, PartialEq, Eq, Hash, Debug)]
#[non_exhaustive]
pub enum Mistake {
    /// The budget is not from 1 to [`Options::MOST_BUDGET`].
    Budget(u32),
    /// The first fresh variable is not from 1 to 2^31.
    First(u32),
    /// The literal of this term, counted from 0, is not of a variable below the first fresh one.
    Literal {
        /// Which term.
        term: usize,
        /// Its literal.
        literal: Lit,
        /// The first fresh variable.
        first: u32,
    },
    /// The literal of this term of one of many constraints, both counted from 0, is not of a variable below the first fresh one.
    LiteralOf {
        /// Which constraint.
        constraint: usize,
        /// Which of its terms.
        term: usize,
        /// Its literal.
        literal: Lit,
        /// The first fresh variable.
        first: u32,
    },
    /// The condition of this one of many constraints, counted from 0, is not of a variable below the first fresh one.
    Condition {
        /// Which constraint.
        constraint: usize,
        /// Its condition.
        condition: Lit,
        /// The first fresh variable.
        first: u32,
    },
}

impl fmt::Display for Mistake {
    fn fmt(&self, f: &mut fmt::Formatter<'_>) -> fmt::Result {
        match self {
            Mistake::Budget(budget) => write!(
                f,
                "the budget is {budget}, and not from 1 to {}",
                Options::MOST_BUDGET
            ),
            Mistake::First(first) => write!(
                f,
                "the first fresh variable is {first}, and not from 1 to {}",
                1u32 << 31
            ),
            Mistake::Literal {
                term,
                literal,
                first,
            } => write!(
                f,
                "the literal of term {} is {literal}, and not of a variable from 1 to {}",
                term + 1,
                first - 1
            ),
            Mistake::LiteralOf {
                constraint,
                term,
                literal,
                first,
            } => write!(
                f,
                "the literal of term {} of constraint {} is {literal}, and not of a variable from 1 to {}",
                term + 1,
                constraint + 1,
                first - 1
            ),
            Mistake::Condition {
                constraint,
                condition,
                first,
            } => write!(
                f,
                "the condition of constraint {} is {condition}, and not of a variable from 1 to {}",
                constraint + 1,
                first - 1
            ),
        }
    }
}

/// What kept a call from doing what was asked, as the program's exit statuses tell it apart.
#[derive(Clone, Copy, PartialEq, Eq, Hash, Debug)]
#[non_exhaustive]
pub enum Kind {
    /// A text leaves its grammar, first at this place.
    Refused {
        /// Which text.
        file: File,
        /// Where.
        place: Place,
        /// What its grammar allows there.
        expected: Expected,
    },
    /// What was passed chooses nothing.
    Usage(Mistake),
    /// A text, or what is to be made of it, passes a limit.
    Limit {
        /// Which.
        limit: Limit,
        /// The text that is to blame, if one is.
        file: Option<File>,
        /// And where.
        place: Option<Place>,
    },
    /// The library was given no memory.
    NoMemory,
    /// A step of the derivation is not allowed.
    Rejected {
        /// Its line.
        line: u64,
        /// Why.
        why: Denied,
        /// The variable or id that this is said of, else 0.
        number: u64,
    },
    /// A line of the refutation is none, or it ends before that line without an empty clause.
    NotRefuted {
        /// The line.
        line: u64,
        /// Why.
        why: Unproved,
        /// The id that this is said of, else 0.
        number: u64,
    },
    /// The values violate a statement.
    NotASolution {
        /// The first that they violate, counted from 1. A bound on the objective counts as the last.
        statement: u64,
    },
    /// The solver does not say that there is a model.
    NoModel,
    /// The library reports a cause that this crate does not know: it is of another version.
    Unknown,
}

/// Why a call did not do what was asked. It is shown as the program would print it.
///
/// ```
/// use pbcnf::{Kind, Options};
/// let error = pbcnf::encode(b"+1 x1 >= ;", None, &Options::new()).unwrap_err();
/// assert_eq!(error.to_string(), "pbcnf: OPB 1:10: expected an integer");
/// assert!(matches!(error.kind(), Kind::Refused { place, .. } if (place.line, place.column) == (1, 10)));
/// ```
#[derive(Clone, PartialEq, Eq, Hash, Debug)]
pub struct Error {
    kind: Kind,
    status: u8,
    constraint: Option<usize>,
    words: String,
}

impl fmt::Display for Error {
    fn fmt(&self, f: &mut fmt::Formatter<'_>) -> fmt::Result {
        f.write_str(&self.words)
    }
}

impl std::error::Error for Error {}

impl Error {
    /// What it is.
    pub fn kind(&self) -> Kind {
        self.kind
    }

    /// The exit status of the program in the same case.
    pub fn status(&self) -> u8 {
        self.status
    }

    /// Which of many constraints is to blame, counted from 0, if a single one is.
    pub fn constraint(&self) -> Option<usize> {
        self.constraint
    }

    /// The error that a refusal reports. Which mistake a usage is, the caller looks for.
    pub(crate) fn of(refusal: &c::Refusal, mistake: impl FnOnce() -> Option<Mistake>) -> Error {
        let told = match refusal.status {
            2 => mistake().map(Kind::Usage),
            _ => kind_of(refusal),
        };
        let kind = told.unwrap_or(Kind::Unknown);
        let words = match kind {
            Kind::Usage(mistake) => format!("pbcnf: usage: {mistake}"),
            _ => words_of(refusal),
        };
        Error {
            kind,
            status: refusal.status as u8,
            constraint: constraint_of(refusal),
            words,
        }
    }
}

/// The constraint to blame, which a refusal counts from 1.
fn constraint_of(refusal: &c::Refusal) -> Option<usize> {
    match refusal.status {
        2 | 3 => (refusal.number as usize).checked_sub(1),
        _ => None,
    }
}

/// What a refusal reports, if these are numbers of the header.
fn kind_of(refusal: &c::Refusal) -> Option<Kind> {
    let (line, number) = (refusal.line, refusal.number);
    let place = Place {
        line,
        column: refusal.column,
    };
    let kind = match refusal.status {
        1 => Kind::Refused {
            file: File::of(refusal.file)?,
            place,
            expected: Expected::of(refusal.expected)?,
        },
        3 => Kind::Limit {
            limit: Limit::of(refusal.limit)?,
            file: File::of(refusal.file),
            place: (line > 0).then_some(place),
        },
        6 => Kind::NoMemory,
        7 => Kind::Rejected {
            line,
            why: Denied::of(refusal.denied)?,
            number,
        },
        8 => Kind::NotASolution { statement: number },
        9 => Kind::NoModel,
        10 => Kind::NotRefuted {
            line,
            why: Unproved::of(refusal.unproved)?,
            number,
        },
        _ => return None,
    };
    Some(kind)
}

fn words_of(refusal: &c::Refusal) -> String {
    let mut said = [0; 256];
    let mut length = 0;
    // SAFETY: each pointer and count are those of one array or struct of our own, and none overlaps another.
    unsafe { c::pbcnf_words(refusal, said.as_mut_ptr(), said.len(), &mut length) };
    String::from_utf8_lossy(&said[..length as usize]).into_owned()
}
