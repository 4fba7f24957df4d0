//! Finds the cheapest guards for a street of corners by one solver in this process: after each solution it gets one constraint
//! more, that the next is cheaper. Nothing is kept between the calls but the first variable that is still free.
//!
//! cargo run --features cadical --example cheapest
mod cadical;

use cadical::Solver;
use pbcnf::{lit, Constraint, Error, Lit, Options, Relation};

const COSTS: [i128; 8] = [3, 5, 4, 6, 2, 4, 7, 3];

/// A solver that takes constraints over variables below `first`.
struct Constraints {
    solver: Solver,
    first: u32,
}

impl Constraints {
    fn add(&mut self, terms: &[(i128, Lit)], relation: Relation, right: i128) -> Result<(), Error> {
        let constraint = Constraint {
            terms,
            relation,
            right,
        };
        let encoding = pbcnf::constraint(constraint, self.first, &Options::new())?;
        self.solver.add(encoding.integers());
        self.first = encoding.next_free();
        Ok(())
    }
}

fn main() -> Result<(), Error> {
    let last = COSTS.len() as u32;
    let guards: Vec<(i128, Lit)> = COSTS.into_iter().zip((1..).map(lit)).collect();
    let mut constraints = Constraints {
        solver: Solver::new(),
        first: last + 1,
    };
    // Each stretch of the street is seen from one of its ends.
    for ends in guards.windows(2) {
        constraints.add(&[(1, ends[0].1), (1, ends[1].1)], Relation::AtLeast, 1)?;
    }
    while let Some(model) = constraints.solver.model(last) {
        let cost: i128 = guards
            .iter()
            .filter(|(_, guard)| model.contains(guard))
            .map(|(cost, _)| cost)
            .sum();
        println!("cost {cost}");
        constraints.add(&guards, Relation::AtMost, cost - 1)?;
    }
    println!("none is cheaper");
    Ok(())
}
