//! One constraint at a time: nothing is kept from call to call but the first variable that is still free.
use crate::calling::{fill, mistaken_budget, mistaken_first, text, words};
use crate::constraints::Constraints;
use crate::error::{Error, Mistake};
use crate::lit::Lit;
use crate::options::Options;
use crate::results::Encoding;
use pbcnf_sys as c;

/// What stands between a sum and its right side.
#[derive(Clone, Copy, PartialEq, Eq, Hash, PartialOrd, Ord, Debug)]
pub enum Relation {
    /// The sum is at least the right side.
    AtLeast,
    /// The sum is at most the right side.
    AtMost,
    /// The sum is the right side.
    Equal,
}

/// A constraint: a sum, a relation and the right side.
#[derive(Clone, Copy, PartialEq, Eq, Hash, Debug)]
pub struct Constraint<'a> {
    /// Coefficients and literals. A variable may stand more than once.
    pub terms: &'a [(i128, Lit)],
    /// What stands between the sum and the right side.
    pub relation: Relation,
    /// The right side.
    pub right: i128,
}

/// A call on one constraint that puts a text or integers.
type Call<T> = unsafe extern "C" fn(
    *const u64,
    usize,
    *const i32,
    usize,
    *const c::Side,
    *const c::Options,
    *mut T,
    usize,
    *mut c::Size,
    *mut c::Refusal,
) -> u8;

/// What is asked of one call.
struct Asked<'a> {
    constraint: Constraint<'a>,
    first: u32,
    options: &'a Options,
}

impl Asked<'_> {
    fn side(&self) -> c::Side {
        let (right_low, right_high) = words(self.constraint.right);
        c::Side {
            relation: self.constraint.relation as u32,
            first: self.first,
            right_low,
            right_high,
        }
    }

    /// The number that the library has refused.
    fn mistake(&self) -> Option<Mistake> {
        let first = self.first;
        let literal = |(term, &(_, literal)): (usize, &(i128, Lit))| {
            (literal.var() >= first).then_some(Mistake::Literal {
                term,
                literal,
                first,
            })
        };
        mistaken_budget(self.options)
            .or_else(|| mistaken_first(first))
            .or_else(|| self.constraint.terms.iter().enumerate().find_map(literal))
    }
}

/// The terms of a constraint, as the library takes them.
#[derive(Clone, Default, Debug)]
pub(crate) struct Columns {
    pub(crate) coefficients: Vec<u64>,
    pub(crate) literals: Vec<i32>,
}

impl Columns {
    pub(crate) fn clear(&mut self) {
        self.coefficients.clear();
        self.literals.clear();
    }

    pub(crate) fn extend(&mut self, terms: &[(i128, Lit)]) {
        for &(coefficient, literal) in terms {
            let (low, high) = words(coefficient);
            self.coefficients.extend([low, high]);
            self.literals.push(literal.get());
        }
    }
}

/// Has a call put what it makes of one constraint into a room of so many items at least, and gives its size.
fn put<T: Clone + Default>(
    call: Call<T>,
    asked: &Asked<'_>,
    columns: &mut Columns,
    room: usize,
    put: &mut Vec<T>,
) -> Result<c::Size, Error> {
    columns.clear();
    columns.extend(asked.constraint.terms);
    let (side, options, mut size) = (asked.side(), asked.options.numbers(), c::Size::default());
    fill(
        put,
        room,
        || asked.mistake(),
        |put, length, refusal| {
            // SAFETY: each pointer and count are those of one slice or struct, borrowed for the call; what is written is borrowed alone.
            let status = unsafe {
                call(
                    columns.coefficients.as_ptr(),
                    columns.coefficients.len(),
                    columns.literals.as_ptr(),
                    columns.literals.len(),
                    &side,
                    &options,
                    put.as_mut_ptr(),
                    put.len(),
                    &mut size,
                    refusal,
                )
            };
            *length = size.length;
            status
        },
    )?;
    Ok(size)
}

/// Makes the clauses of one constraint after another in the same room, which it keeps and lends.
///
/// ```
/// use pbcnf::{lit, Constraint, Encoder, Options, Relation};
/// let (mut encoder, mut first, mut clauses) = (Encoder::new(Options::new()), 9, Vec::<i32>::new());
/// for bound in [3, 2, 1] {
///     let terms: Vec<_> = (1..9).map(|var| (1, lit(var))).collect();
///     let at_most = Constraint { terms: &terms, relation: Relation::AtMost, right: bound };
///     let made = encoder.constraint(at_most, first)?;
///     clauses.extend(made.integers());
///     first = made.next_free();
/// }
/// # Ok::<(), pbcnf::Error>(())
/// ```
#[derive(Clone, Debug)]
pub struct Encoder {
    options: Options,
    columns: Columns,
    room: Vec<i32>,
}

impl Encoder {
    /// Nothing is made yet.
    pub fn new(options: Options) -> Encoder {
        Encoder {
            options,
            columns: Columns::default(),
            room: Vec::new(),
        }
    }

    /// The clauses of one constraint, whose fresh variables begin at `first`; all its variables are below that. The next
    /// constraint's `first` is [`Encoding::next_free`] of what is lent; nothing else hangs on the calls before.
    pub fn constraint(
        &mut self,
        constraint: Constraint<'_>,
        first: u32,
    ) -> Result<Encoding<&[i32]>, Error> {
        let asked = Asked {
            constraint,
            first,
            options: &self.options,
        };
        let room = 32 * constraint.terms.len() + 256;
        let size = put(
            c::pbcnf_constraint,
            &asked,
            &mut self.columns,
            room,
            &mut self.room,
        )?;
        Ok(Encoding::new(&self.room[..size.length as usize], size))
    }

    /// The clauses of many constraints, one after another, with their fresh variables from `first` on.
    pub fn constraints(
        &mut self,
        constraints: &Constraints,
        first: u32,
    ) -> Result<Encoding<&[i32]>, Error> {
        let size = constraints.fill(first, &self.options, &mut self.room)?;
        Ok(Encoding::new(&self.room[..size.length as usize], size))
    }
}

/// The clauses of one constraint, as [`Encoder::constraint`] makes them, in a room of their own.
///
/// ```
/// use pbcnf::{constraint, lit, Constraint, Options, Relation};
/// let terms = [(1, lit(1)), (1, !lit(2)), (1, lit(3))];
/// let at_most_one = Constraint { terms: &terms, relation: Relation::AtMost, right: 1 };
/// let encoding = constraint(at_most_one, 4, &Options::new())?;
/// assert_eq!(encoding.integers(), [-1, 2, 0, -1, -3, 0, 2, -3, 0]);
/// # Ok::<(), pbcnf::Error>(())
/// ```
pub fn constraint(
    constraint: Constraint<'_>,
    first: u32,
    options: &Options,
) -> Result<Encoding, Error> {
    let mut encoder = Encoder::new(*options);
    Ok(encoder.constraint(constraint, first)?.into())
}

/// The derivation of the clauses of one constraint, beside the problem of this one over the variables below `first`.
///
/// ```
/// use pbcnf::{derive_constraint, lit, Constraint, Options, Relation};
/// let (terms, options) = ([(1, lit(1)), (1, lit(2))], Options::new());
/// let clause = Constraint { terms: &terms, relation: Relation::AtLeast, right: 1 };
/// assert_eq!(derive_constraint(clause, 3, &options)?, pbcnf::derive(b"+1 x1 +1 x2 >= 1 ;", None, &options)?);
/// # Ok::<(), pbcnf::Error>(())
/// ```
pub fn derive_constraint(
    constraint: Constraint<'_>,
    first: u32,
    options: &Options,
) -> Result<String, Error> {
    let asked = Asked {
        constraint,
        first,
        options,
    };
    let (room, mut said) = (512 * constraint.terms.len() + 4096, Vec::new());
    let size = put(
        c::pbcnf_constraint_derive,
        &asked,
        &mut Columns::default(),
        room,
        &mut said,
    )?;
    said.truncate(size.length as usize);
    Ok(text(said))
}
