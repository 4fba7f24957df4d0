//! What is chosen of an encoding.
use pbcnf_sys as c;

/// The clauses of at most one literal.
#[derive(Clone, Copy, PartialEq, Eq, Hash, PartialOrd, Ord, Debug, Default)]
#[non_exhaustive]
pub enum Amo {
    /// By the number of the literals.
    #[default]
    Auto,
    /// A clause for each pair.
    Pairwise,
    /// A ladder of fresh variables.
    Ladder,
    /// A grid of rows and columns.
    Product,
}

/// The clauses of at most so many literals.
#[derive(Clone, Copy, PartialEq, Eq, Hash, PartialOrd, Ord, Debug, Default)]
#[non_exhaustive]
pub enum Card {
    /// By the bound.
    #[default]
    Auto,
    /// A sequential counter.
    Counter,
    /// A totalizer.
    Totalizer,
}

/// The clauses of weighted sums.
#[derive(Clone, Copy, PartialEq, Eq, Hash, PartialOrd, Ord, Debug, Default)]
#[non_exhaustive]
pub enum General {
    /// A decision diagram.
    #[default]
    Diagram,
    /// A generalized totalizer.
    Tree,
    /// A network of adders, for which unit propagation is not promised.
    Adder,
}

/// How equalities are encoded.
#[derive(Clone, Copy, PartialEq, Eq, Hash, PartialOrd, Ord, Debug, Default)]
#[non_exhaustive]
pub enum Equal {
    /// Half by half.
    #[default]
    Split,
    /// As one, if a number of the literals is asked for.
    Joint,
}

/// What is chosen of an encoding.
///
/// ```
/// use pbcnf::{General, Options};
/// let options = Options::new().general(General::Tree).budget(1000);
/// assert_ne!(options, Options::default());
/// ```
#[derive(Clone, Copy, PartialEq, Eq, Hash, Debug)]
pub struct Options {
    amo: Amo,
    card: Card,
    general: General,
    equal: Equal,
    table: bool,
    pub(crate) budget: u32,
}

impl Default for Options {
    fn default() -> Self {
        Options::new()
    }
}

impl Options {
    /// The most fresh variables that a constraint may be given.
    pub const MOST_BUDGET: u32 = 10_000_000;

    /// What is taken if nothing is chosen.
    pub const fn new() -> Self {
        Options {
            amo: Amo::Auto,
            card: Card::Auto,
            general: General::Diagram,
            equal: Equal::Split,
            table: false,
            budget: 50_000,
        }
    }

    /// Chooses the clauses of at most one literal.
    pub const fn amo(self, amo: Amo) -> Self {
        Options { amo, ..self }
    }

    /// Chooses the clauses of at most so many literals.
    pub const fn card(self, card: Card) -> Self {
        Options { card, ..self }
    }

    /// Chooses the clauses of weighted sums.
    pub const fn general(self, general: General) -> Self {
        Options { general, ..self }
    }

    /// Chooses how equalities are encoded.
    pub const fn equal(self, equal: Equal) -> Self {
        Options { equal, ..self }
    }

    /// Chooses the most fresh variables of a constraint, past which it goes to adders: 1 to [`Options::MOST_BUDGET`], and 50,000
    /// if none is chosen.
    pub const fn budget(self, budget: u32) -> Self {
        Options { budget, ..self }
    }

    /// Chooses whether a table of bounds on the objective stands after all constraints; [`bounds`](crate::bounds) gives its rows.
    pub const fn table(self, table: bool) -> Self {
        Options { table, ..self }
    }

    pub(crate) fn numbers(&self) -> c::Options {
        c::Options {
            amo: self.amo as u32,
            card: self.card as u32,
            general: self.general as u32,
            equal: self.equal as u32,
            table: self.table as u32,
            budget: self.budget,
        }
    }
}
