//! Many constraints in one call.
use crate::calling::{fill, mistaken_budget, mistaken_first, text, words};
use crate::constraint::{Columns, Constraint};
use crate::error::{Error, Mistake};
use crate::lit::Lit;
use crate::options::Options;
use crate::results::Encoding;
use pbcnf_sys as c;

/// A call on many constraints that puts a text or integers.
type Call<T> = unsafe extern "C" fn(
    *const u64,
    usize,
    *const i32,
    usize,
    *const c::Sum,
    usize,
    u32,
    *const c::Options,
    *mut T,
    usize,
    *mut c::Size,
    *mut c::Refusal,
) -> u8;

/// Constraints in columns, the terms of each after those of the one before, to be encoded in one call.
///
/// ```
/// use pbcnf::{lit, Constraint, Constraints, Options, Relation};
/// let mut constraints = Constraints::new();
/// for var in 1..4 {
///     let terms = [(1, lit(var)), (1, lit(var + 1))];
///     constraints.push(Constraint { terms: &terms, relation: Relation::AtMost, right: 1 });
/// }
/// let encoding = constraints.encode(5, &Options::new())?;
/// assert_eq!(encoding.integers(), [-1, -2, 0, -2, -3, 0, -3, -4, 0]);
/// # Ok::<(), pbcnf::Error>(())
/// ```
#[derive(Clone, Default, Debug)]
pub struct Constraints {
    columns: Columns,
    sums: Vec<c::Sum>,
}

impl Constraints {
    /// None yet.
    pub fn new() -> Constraints {
        Constraints::default()
    }

    /// Adds one at the end.
    pub fn push(&mut self, constraint: Constraint<'_>) {
        self.push_with(0, constraint);
    }

    /// Adds one that has to hold only if the condition is true. Unit propagation reaches from the condition all that each half
    /// forces, and the condition's negation if that half cannot hold.
    ///
    /// ```
    /// use pbcnf::{lit, Constraint, Constraints, Options, Relation};
    /// let (terms, mut constraints) = ([(1, lit(1)), (1, lit(2))], Constraints::new());
    /// constraints.push_under(lit(3), Constraint { terms: &terms, relation: Relation::AtLeast, right: 1 });
    /// assert_eq!(constraints.encode(4, &Options::new())?.integers(), [1, 2, -3, 0]);
    /// # Ok::<(), pbcnf::Error>(())
    /// ```
    pub fn push_under(&mut self, condition: Lit, constraint: Constraint<'_>) {
        self.push_with(condition.get(), constraint);
    }

    fn push_with(&mut self, condition: i32, constraint: Constraint<'_>) {
        let (right_low, right_high) = words(constraint.right);
        self.columns.extend(constraint.terms);
        self.sums.push(c::Sum {
            relation: constraint.relation as u32,
            condition,
            terms: constraint.terms.len() as u64,
            right_low,
            right_high,
        });
    }

    /// How many there are.
    pub fn len(&self) -> usize {
        self.sums.len()
    }

    /// True if there is none.
    pub fn is_empty(&self) -> bool {
        self.sums.is_empty()
    }

    /// Removes all, and keeps their room.
    pub fn clear(&mut self) {
        self.columns.clear();
        self.sums.clear();
    }

    /// The clauses of all, one after another, with their fresh variables from `first` on; all their variables are below that.
    pub fn encode(&self, first: u32, options: &Options) -> Result<Encoding, Error> {
        let mut integers = Vec::new();
        let size = self.fill(first, options, &mut integers)?;
        integers.truncate(size.length as usize);
        Ok(Encoding::new(integers, size))
    }

    /// The derivation of these clauses, beside the problem of these constraints over the variables below `first`.
    ///
    /// ```
    /// use pbcnf::{lit, Constraint, Constraints, Options, Relation};
    /// let terms = [[(1, lit(1)), (1, lit(2))], [(1, lit(2)), (1, lit(3))]];
    /// let (mut clauses, options) = (Constraints::new(), Options::new());
    /// clauses.extend(terms.iter().map(|terms| Constraint { terms, relation: Relation::AtLeast, right: 1 }));
    /// let text = b"+1 x1 +1 x2 >= 1 ;\n+1 x2 +1 x3 >= 1 ;";
    /// assert_eq!(clauses.derive(4, &options)?, pbcnf::derive(text, None, &options)?);
    /// # Ok::<(), pbcnf::Error>(())
    /// ```
    pub fn derive(&self, first: u32, options: &Options) -> Result<String, Error> {
        let (room, mut said) = (512 * self.columns.literals.len() + 4096, Vec::new());
        let size = self.put(c::pbcnf_constraints_derive, first, options, room, &mut said)?;
        said.truncate(size.length as usize);
        Ok(text(said))
    }

    /// Puts the integers of their clauses, and gives their size.
    pub(crate) fn fill(
        &self,
        first: u32,
        options: &Options,
        put: &mut Vec<i32>,
    ) -> Result<c::Size, Error> {
        let room = 32 * self.columns.literals.len() + 256;
        self.put(c::pbcnf_constraints, first, options, room, put)
    }

    fn put<T: Clone + Default>(
        &self,
        call: Call<T>,
        first: u32,
        options: &Options,
        room: usize,
        put: &mut Vec<T>,
    ) -> Result<c::Size, Error> {
        let (numbers, mut size) = (options.numbers(), c::Size::default());
        fill(
            put,
            room,
            || self.mistake(first, options),
            |put, length, refusal| {
                // SAFETY: each pointer and count are those of one slice or struct, borrowed for the call; what is written is borrowed alone.
                let status = unsafe {
                    call(
                        self.columns.coefficients.as_ptr(),
                        self.columns.coefficients.len(),
                        self.columns.literals.as_ptr(),
                        self.columns.literals.len(),
                        self.sums.as_ptr(),
                        self.sums.len(),
                        first,
                        &numbers,
                        put.as_mut_ptr(),
                        put.len(),
                        &mut size,
                        refusal,
                    )
                };
                *length = size.length;
                status
            },
        )?;
        Ok(size)
    }

    /// The number that the library has refused.
    fn mistake(&self, first: u32, options: &Options) -> Option<Mistake> {
        mistaken_budget(options)
            .or_else(|| mistaken_first(first))
            .or_else(|| self.mistaken_condition(first))
            .or_else(|| self.mistaken_literal(first))
    }

    fn mistaken_condition(&self, first: u32) -> Option<Mistake> {
        let of_sum = |(constraint, sum): (usize, &c::Sum)| {
            let condition = Lit::try_from(sum.condition).ok()?;
            (condition.var() >= first).then_some(Mistake::Condition {
                constraint,
                condition,
                first,
            })
        };
        self.sums.iter().enumerate().find_map(of_sum)
    }

    fn mistaken_literal(&self, first: u32) -> Option<Mistake> {
        let mut place = 0;
        for (constraint, sum) in self.sums.iter().enumerate() {
            let terms = sum.terms as usize;
            for (term, &number) in self.columns.literals[place..place + terms]
                .iter()
                .enumerate()
            {
                let literal = Lit::try_from(number).ok()?;
                if literal.var() >= first {
                    return Some(Mistake::LiteralOf {
                        constraint,
                        term,
                        literal,
                        first,
                    });
                }
            }
            place += terms;
        }
        None
    }
}

impl<'a> FromIterator<Constraint<'a>> for Constraints {
    fn from_iter<I: IntoIterator<Item = Constraint<'a>>>(constraints: I) -> Constraints {
        let mut all = Constraints::new();
        all.extend(constraints);
        all
    }
}

impl<'a> Extend<Constraint<'a>> for Constraints {
    fn extend<I: IntoIterator<Item = Constraint<'a>>>(&mut self, constraints: I) {
        for constraint in constraints {
            self.push(constraint);
        }
    }
}
