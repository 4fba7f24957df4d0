//! What the calls give back.
use crate::lit::Lit;
use pbcnf_sys as c;
use std::iter::FusedIterator;

/// The clauses of a problem, or of one constraint. `for clause in &encoding` goes through them. The integers are a vector of its
/// own, or lent by an [`Encoder`](crate::Encoder).
///
/// ```
/// use pbcnf::lit;
/// let encoding = pbcnf::encode(b"+2 x1 +1 x2 +1 x3 >= 3 ;", None, &pbcnf::Options::new())?;
/// assert_eq!((encoding.variables(), encoding.next_free()), (3, 4));
/// assert_eq!(encoding.clauses().last(), Some(&[lit(2), lit(3)][..]));
/// assert_eq!(encoding.into_integers(), [1, 0, 2, 3, 0]);
/// # Ok::<(), pbcnf::Error>(())
/// ```
#[derive(Clone, Copy, PartialEq, Eq, Hash, Debug)]
pub struct Encoding<I = Vec<i32>> {
    variables: u32,
    original: u32,
    count: usize,
    integers: I,
}

impl<I: AsRef<[i32]>> Encoding<I> {
    pub(crate) fn new(integers: I, size: c::Size) -> Encoding<I> {
        Encoding {
            variables: size.vars,
            original: size.original,
            count: size.clauses as usize,
            integers,
        }
    }

    /// The last variable that is taken.
    pub fn variables(&self) -> u32 {
        self.variables
    }

    /// The variables before those of products and the fresh ones: those of the problem, or those below the first fresh one.
    pub fn original(&self) -> u32 {
        self.original
    }

    /// The first variable that is still free: the `first` of the next constraint.
    pub fn next_free(&self) -> u32 {
        self.variables + 1
    }

    /// The clauses, each as its literals.
    pub fn clauses(&self) -> Clauses<'_> {
        Clauses {
            left: self.integers(),
            count: self.count,
        }
    }

    /// The literals of each clause, a variable's number or its negative, and then 0, as IPASIR takes them.
    pub fn integers(&self) -> &[i32] {
        self.integers.as_ref()
    }

    /// The same integers: the vector, or what is lent.
    pub fn into_integers(self) -> I {
        self.integers
    }
}

impl From<Encoding<&[i32]>> for Encoding {
    fn from(lent: Encoding<&[i32]>) -> Encoding {
        Encoding {
            variables: lent.variables,
            original: lent.original,
            count: lent.count,
            integers: lent.integers.to_vec(),
        }
    }
}

impl<'a, I: AsRef<[i32]>> IntoIterator for &'a Encoding<I> {
    type Item = &'a [Lit];
    type IntoIter = Clauses<'a>;

    fn into_iter(self) -> Clauses<'a> {
        self.clauses()
    }
}

/// Goes through the clauses of an encoding, each as its literals.
#[derive(Clone, Debug)]
pub struct Clauses<'a> {
    left: &'a [i32],
    count: usize,
}

impl<'a> Iterator for Clauses<'a> {
    type Item = &'a [Lit];

    fn next(&mut self) -> Option<&'a [Lit]> {
        let length = self.left.iter().position(|&integer| integer == 0)?;
        let clause = &self.left[..length];
        self.left = &self.left[length + 1..];
        self.count -= 1;
        Some(Lit::of_integers(clause))
    }

    fn size_hint(&self) -> (usize, Option<usize>) {
        (self.count, Some(self.count))
    }
}

impl ExactSizeIterator for Clauses<'_> {}
impl FusedIterator for Clauses<'_> {}

/// A solution of a problem, whose every statement was tested.
#[derive(Clone, PartialEq, Eq, Hash, Debug)]
pub struct Solution {
    text: String,
    objective: Option<i128>,
    values: Vec<(String, bool)>,
}

impl Solution {
    /// The solution of which the library says this.
    pub(crate) fn of(text: String) -> Solution {
        let words = |head| text.lines().find_map(move |line| line.strip_prefix(head));
        let objective = words("o ").map(|value| value.parse().expect("the library says a number"));
        let value = |word: &str| match word.strip_prefix('-') {
            Some(name) => (name.to_owned(), false),
            None => (word.to_owned(), true),
        };
        let values = words("v ").map_or(Vec::new(), |names| names.split(' ').map(value).collect());
        Solution {
            objective,
            values,
            text,
        }
    }

    /// What the program says of it: its `o`, `s` and `v` lines.
    pub fn text(&self) -> &str {
        &self.text
    }

    /// The value of the objective, if there is one.
    pub fn objective(&self) -> Option<i128> {
        self.objective
    }

    /// The value of each variable, by its name, in the order of the variables.
    pub fn values(&self) -> &[(String, bool)] {
        &self.values
    }
}
