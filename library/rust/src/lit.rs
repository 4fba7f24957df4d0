//! Literals.
use std::fmt;
use std::num::NonZeroI32;
use std::ops::Not;

/// A literal: a variable from 1 to 2^31 - 1, or its negation.
///
/// ```
/// use pbcnf::{lit, Lit};
/// assert_eq!(!lit(3), lit(-3));
/// assert_eq!(Lit::new(0), None);
/// assert_eq!(i32::from(lit(-3)), -3);
/// ```
#[derive(Clone, Copy, PartialEq, Eq, Hash, PartialOrd, Ord)]
#[repr(transparent)]
pub struct Lit(NonZeroI32);

impl Lit {
    /// The literal of a variable's number, or of its negative; none of 0, nor of a number whose variable is too great.
    pub const fn new(number: i32) -> Option<Lit> {
        match NonZeroI32::new(number) {
            Some(number) if number.get() != i32::MIN => Some(Lit(number)),
            _ => None,
        }
    }

    /// The variable's number, or its negative.
    pub const fn get(self) -> i32 {
        self.0.get()
    }

    /// The variable.
    pub const fn var(self) -> u32 {
        self.get().unsigned_abs()
    }

    /// True if the variable is negated.
    pub const fn is_negated(self) -> bool {
        self.get() < 0
    }

    /// Numbers as literals, none of which is 0.
    pub(crate) fn of_integers(integers: &[i32]) -> &[Lit] {
        assert!(integers.iter().all(|&integer| integer != 0));
        // SAFETY: a literal is laid out as its number, and each of these is one that is not 0.
        unsafe { std::slice::from_raw_parts(integers.as_ptr().cast(), integers.len()) }
    }
}

/// The literal of a variable's number, or of its negative.
///
/// # Panics
///
/// If there is none: see [`Lit::new`].
pub const fn lit(number: i32) -> Lit {
    match Lit::new(number) {
        Some(lit) => lit,
        None => panic!("no literal has this number"),
    }
}

impl Not for Lit {
    type Output = Lit;

    fn not(self) -> Lit {
        lit(-self.get())
    }
}

impl From<Lit> for i32 {
    fn from(lit: Lit) -> i32 {
        lit.get()
    }
}

/// No literal has this number.
#[derive(Clone, Copy, PartialEq, Eq, Hash, Debug)]
pub struct NoLiteral(
    /// The number.
    pub i32,
);

impl fmt::Display for NoLiteral {
    fn fmt(&self, f: &mut fmt::Formatter<'_>) -> fmt::Result {
        write!(f, "no literal has the number {}", self.0)
    }
}

impl std::error::Error for NoLiteral {}

impl TryFrom<i32> for Lit {
    type Error = NoLiteral;

    fn try_from(number: i32) -> Result<Lit, NoLiteral> {
        Lit::new(number).ok_or(NoLiteral(number))
    }
}

impl fmt::Display for Lit {
    fn fmt(&self, f: &mut fmt::Formatter<'_>) -> fmt::Result {
        fmt::Display::fmt(&self.get(), f)
    }
}

impl fmt::Debug for Lit {
    fn fmt(&self, f: &mut fmt::Formatter<'_>) -> fmt::Result {
        fmt::Debug::fmt(&self.get(), f)
    }
}
