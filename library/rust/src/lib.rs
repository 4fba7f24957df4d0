//! Encodes pseudo-Boolean problems as clauses in this process, by the C library of pbcnf, whose calls are proved.
//!
//! ```
//! let encoding = pbcnf::encode(b"+2 x1 +1 x2 +1 x3 >= 3 ;", None, &pbcnf::Options::new())?;
//! for clause in &encoding {
//!     println!("{clause:?}");
//! }
//! assert_eq!(encoding.integers(), [1, 0, 2, 3, 0]);
//! # Ok::<(), pbcnf::Error>(())
//! ```
//!
//! A problem is an OPB text. A bound on its objective, if one is given, asks for solutions of at most that value. All calls
//! are functions of what they are passed, and may be made by several threads at once.
#![warn(missing_docs)]

mod calling;
mod constraint;
mod constraints;
mod error;
mod lit;
mod numbers;
mod options;
mod results;

pub use constraint::{constraint, derive_constraint, Constraint, Encoder, Relation};
pub use constraints::Constraints;
pub use error::{Error, Kind, Mistake, Place};
pub use lit::{lit, Lit, NoLiteral};
pub use numbers::{Denied, Expected, File, Limit, Unproved};
pub use options::{Amo, Card, Equal, General, Options};
pub use results::{Clauses, Encoding, Solution};

use pbcnf_sys as c;

use calling::{bound_of, filled, judge_library, mistaken_budget, number, text};

/// A call on a problem that puts a text or integers.
type Call<T> = unsafe extern "C" fn(
    *const u8,
    usize,
    *const c::Options,
    *const c::Bound,
    *mut T,
    usize,
    *mut c::Size,
    *mut c::Refusal,
) -> u8;

fn posed<T: Clone + Default>(
    call: Call<T>,
    room: usize,
    opb: &[u8],
    at_most: Option<i128>,
    options: &Options,
) -> Result<(Vec<T>, c::Size), Error> {
    let (numbers, bound, mut size) = (options.numbers(), bound_of(at_most), c::Size::default());
    let mistake = || mistaken_budget(options);
    let put = filled(room, mistake, |put, length, refusal| {
        // SAFETY: each pointer and count are those of one slice or struct, borrowed for the call; what is written is borrowed alone.
        let status = unsafe {
            call(
                opb.as_ptr(),
                opb.len(),
                &numbers,
                &bound,
                put.as_mut_ptr(),
                put.len(),
                &mut size,
                refusal,
            )
        };
        *length = size.length;
        status
    })?;
    Ok((put, size))
}

/// The clauses of a problem: their models, cut to its variables, are exactly its solutions.
///
/// ```
/// use pbcnf::{Amo, Options};
/// let encoding = pbcnf::encode(b"+1 x1 +1 x2 +1 x3 <= 1 ;", None, &Options::new().amo(Amo::Ladder))?;
/// assert_eq!((encoding.original(), encoding.variables(), encoding.clauses().len()), (3, 5, 5));
/// # Ok::<(), pbcnf::Error>(())
/// ```
pub fn encode(opb: &[u8], at_most: Option<i128>, options: &Options) -> Result<Encoding, Error> {
    let room = 2 * opb.len() + 1024;
    let (integers, size) = posed(c::pbcnf_clauses, room, opb, at_most, options)?;
    Ok(Encoding::new(integers, size))
}

/// The same clauses as a CNF text, the one that the program writes.
///
/// ```
/// let text = pbcnf::dimacs(b"+2 x1 +1 x2 +1 x3 >= 3 ;", None, &pbcnf::Options::new())?;
/// assert_eq!(text, "p cnf 3 2\n1 0\n2 3 0\n");
/// # Ok::<(), pbcnf::Error>(())
/// ```
pub fn dimacs(opb: &[u8], at_most: Option<i128>, options: &Options) -> Result<String, Error> {
    posed(c::pbcnf_encode, 4 * opb.len() + 4096, opb, at_most, options).map(|(put, _)| text(put))
}

/// The derivation of the same clauses, which [`check`] accepts.
///
/// ```
/// let text = pbcnf::derive(b"+1 x1 +1 x2 >= 1 ;", None, &pbcnf::Options::new())?;
/// assert!(text.ends_with("rup +1 x1 +1 x2 >= 1 ; 1\nout 2\nend\n"));
/// # Ok::<(), pbcnf::Error>(())
/// ```
pub fn derive(opb: &[u8], at_most: Option<i128>, options: &Options) -> Result<String, Error> {
    posed(
        c::pbcnf_derive,
        16 * opb.len() + 4096,
        opb,
        at_most,
        options,
    )
    .map(|(put, _)| text(put))
}

/// The rows of the table of bounds of `encode` with `table` in the options: values that the objective may be below, ascending, each
/// with the literal that is false just there. Assume its negation, and the models are just the solutions below the value.
///
/// ```
/// use pbcnf::{lit, Options};
/// let rows = pbcnf::bounds(b"min: +3 x1 -2 x2 ;", None, &Options::new())?;
/// assert_eq!(rows, [(0, lit(3)), (1, lit(4)), (3, lit(5))]);
/// # Ok::<(), pbcnf::Error>(())
/// ```
pub fn bounds(
    opb: &[u8],
    at_most: Option<i128>,
    options: &Options,
) -> Result<Vec<(i128, Lit)>, Error> {
    let (rows, _) = posed(c::pbcnf_bounds, 64, opb, at_most, &options.table(true))?;
    Ok(told(&rows))
}

/// The values and the literals of rows.
fn told(rows: &[c::Row]) -> Vec<(i128, Lit)> {
    let pair = |row: &c::Row| (number(row.low, row.high), lit(row.literal));
    rows.iter().map(pair).collect()
}

/// What the objective of a problem costs, for a MaxSAT solver beside the clauses of [`encode`]: an offset, and weights with their
/// literals. In each model the objective is the offset and the weights of the literals that are false.
///
/// ```
/// use pbcnf::lit;
/// assert_eq!(pbcnf::softs(b"min: +3 x1 -2 x2 ;", None)?, (-2, vec![(3, lit(-1)), (2, lit(2))]));
/// # Ok::<(), pbcnf::Error>(())
/// ```
pub fn softs(opb: &[u8], at_most: Option<i128>) -> Result<(i128, Vec<(i128, Lit)>), Error> {
    let (bound, mut costs) = (bound_of(at_most), c::Costs::default());
    let rows = filled(
        64,
        || None,
        |put: &mut [c::Row], length, refusal| {
            // SAFETY: as in `posed`.
            let status = unsafe {
                c::pbcnf_softs(
                    opb.as_ptr(),
                    opb.len(),
                    &bound,
                    put.as_mut_ptr(),
                    put.len(),
                    &mut costs,
                    refusal,
                )
            };
            *length = costs.length;
            status
        },
    )?;
    Ok((number(costs.offset_low, costs.offset_high), told(&rows)))
}

/// The weighted CNF of a problem and its objective, the text that the program's `wcnf` writes.
///
/// ```
/// let text = pbcnf::wcnf(b"min: +3 x1 -2 x2 ;\n+1 x1 +1 x2 >= 1 ;", None, &pbcnf::Options::new())?;
/// assert_eq!(text, "c offset -2\nh 1 2 0\n3 -1 0\n2 2 0\n");
/// # Ok::<(), pbcnf::Error>(())
/// ```
pub fn wcnf(opb: &[u8], at_most: Option<i128>, options: &Options) -> Result<String, Error> {
    posed(c::pbcnf_wcnf, 5 * opb.len() + 4096, opb, at_most, options).map(|(put, _)| text(put))
}

fn judged(status: u8, refusal: &c::Refusal) -> Result<(), Error> {
    if status == 0 {
        Ok(())
    } else {
        Err(Error::of(refusal, || None))
    }
}

/// Checks whether a derivation shows that each solution of a problem is the front of a model of a CNF, else why not.
///
/// ```
/// let (opb, options) = (b"+1 x1 +1 x2 >= 1 ;", pbcnf::Options::new());
/// let proof = pbcnf::derive(opb, None, &options)?;
/// pbcnf::check(opb, None, b"p cnf 2 1\n1 2 0\n", proof.as_bytes())?;
/// let error = pbcnf::check(opb, None, b"p cnf 2 1\n1 0\n", proof.as_bytes()).unwrap_err();
/// assert_eq!(error.to_string(), "pbcnf: PROOF line 4: not implied by 2");
/// # Ok::<(), pbcnf::Error>(())
/// ```
pub fn check(opb: &[u8], at_most: Option<i128>, cnf: &[u8], proof: &[u8]) -> Result<(), Error> {
    judge_library();
    let (bound, mut refusal) = (bound_of(at_most), c::Refusal::default());
    // SAFETY: as in `posed`.
    let status = unsafe {
        c::pbcnf_check(
            opb.as_ptr(),
            opb.len(),
            &bound,
            cnf.as_ptr(),
            cnf.len(),
            proof.as_ptr(),
            proof.len(),
            &mut refusal,
        )
    };
    judged(status, &refusal)
}

/// Checks whether these show that a problem has no solution, else why not: the derivation as in `check`, and the refutation, in the LRAT
/// format, of the CNF.
///
/// ```
/// let (opb, options) = (b"+1 x1 >= 1 ;\n+1 ~x1 >= 1 ;", pbcnf::Options::new());
/// let (cnf, proof) = (pbcnf::dimacs(opb, None, &options)?, pbcnf::derive(opb, None, &options)?);
/// pbcnf::refute(opb, None, cnf.as_bytes(), proof.as_bytes(), b"3 0 1 2 0\n")?;
/// # Ok::<(), pbcnf::Error>(())
/// ```
pub fn refute(
    opb: &[u8],
    at_most: Option<i128>,
    cnf: &[u8],
    proof: &[u8],
    lrat: &[u8],
) -> Result<(), Error> {
    judge_library();
    let (bound, mut refusal) = (bound_of(at_most), c::Refusal::default());
    // SAFETY: as in `posed`.
    let status = unsafe {
        c::pbcnf_refute(
            opb.as_ptr(),
            opb.len(),
            &bound,
            cnf.as_ptr(),
            cnf.len(),
            proof.as_ptr(),
            proof.len(),
            lrat.as_ptr(),
            lrat.len(),
            &mut refusal,
        )
    };
    judged(status, &refusal)
}

/// The text that a call on a problem puts, for which four bytes are tried first for each of the problem's.
fn said_of(
    opb: &[u8],
    call: impl FnMut(&mut [u8], &mut u64, &mut c::Refusal) -> u8,
) -> Result<String, Error> {
    filled(4 * opb.len() + 64, || None, call).map(text)
}

/// The solution of a problem that a solver's text gives, its `s` and `v` lines, once it was tested against each statement.
///
/// ```
/// let solution = pbcnf::decode(b"+1 rain +1 sun = 1 ;", None, b"s SATISFIABLE\nv -1 2 0\n")?;
/// assert_eq!(solution.values(), [("rain".to_owned(), false), ("sun".to_owned(), true)]);
/// # Ok::<(), pbcnf::Error>(())
/// ```
pub fn decode(opb: &[u8], at_most: Option<i128>, model: &[u8]) -> Result<Solution, Error> {
    let bound = bound_of(at_most);
    // SAFETY: as in `posed`.
    let said = said_of(opb, |put, length, refusal| unsafe {
        c::pbcnf_decode(
            opb.as_ptr(),
            opb.len(),
            &bound,
            model.as_ptr(),
            model.len(),
            put.as_mut_ptr(),
            put.len(),
            length,
            refusal,
        )
    })?;
    Ok(Solution::of(said))
}

/// The solution that a model gives whose true literals are these, tested likewise. A variable that is not listed is false.
///
/// ```
/// use pbcnf::lit;
/// let solution = pbcnf::decode_literals(b"min: +2 rain +3 sun ;\n+1 rain +1 sun = 1 ;", None, [lit(1)])?;
/// assert_eq!(solution.objective(), Some(2));
/// # Ok::<(), pbcnf::Error>(())
/// ```
pub fn decode_literals(
    opb: &[u8],
    at_most: Option<i128>,
    model: impl IntoIterator<Item = Lit>,
) -> Result<Solution, Error> {
    let words: String = model
        .into_iter()
        .map(|literal| format!("{literal} "))
        .collect();
    decode(
        opb,
        at_most,
        format!("s SATISFIABLE\nv {words}0\n").as_bytes(),
    )
}

/// The free names of a problem, with the numbers of their variables. A variable that is not here is named by its number.
///
/// ```
/// assert_eq!(pbcnf::names(b"+1 rain +1 x1 >= 1 ;")?, [(2, "rain".to_owned())]);
/// # Ok::<(), pbcnf::Error>(())
/// ```
pub fn names(opb: &[u8]) -> Result<Vec<(u32, String)>, Error> {
    // SAFETY: as in `posed`.
    let said = said_of(opb, |put, length, refusal| unsafe {
        c::pbcnf_map(
            opb.as_ptr(),
            opb.len(),
            put.as_mut_ptr(),
            put.len(),
            length,
            refusal,
        )
    })?;
    let pairs = said.lines().filter_map(|line| line.split_once(' '));
    let number = |word: &str| word.parse().expect("the library says a number");
    Ok(pairs
        .map(|(var, name)| (number(var), name.to_owned()))
        .collect())
}
