//! Solves an OPB file in one process: encodes it, hands its clauses to CaDiCaL, and decodes the model, which tests it.
//!
//! cargo run --features cadical --example solve -- knapsack.opb
//!
//! Exit status: that of pbcnf in the same case, or 20 where there is no solution.
mod cadical;

use cadical::Solver;
use pbcnf::{Error, Options};
use std::process::ExitCode;

fn solve(opb: &[u8]) -> Result<ExitCode, Error> {
    let encoding = pbcnf::encode(opb, None, &Options::new())?;
    let mut solver = Solver::new();
    solver.add(encoding.integers());
    match solver.model(encoding.original()) {
        Some(model) => {
            print!("{}", pbcnf::decode_literals(opb, None, model)?.text());
            Ok(ExitCode::SUCCESS)
        }
        None => {
            println!("s UNSATISFIABLE");
            Ok(ExitCode::from(20))
        }
    }
}

fn main() -> ExitCode {
    let Some(name) = std::env::args_os().nth(1) else {
        eprintln!("usage: solve OPB");
        return ExitCode::from(2);
    };
    let opb = match std::fs::read(name) {
        Ok(opb) => opb,
        Err(fault) => {
            eprintln!("{fault}");
            return ExitCode::from(4);
        }
    };
    solve(&opb).unwrap_or_else(|error| {
        eprintln!("{error}");
        ExitCode::from(error.status())
    })
}
