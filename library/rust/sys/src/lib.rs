//! The calls of pbcnf.h and their structs, as they are there: it says what each means, and what is required of the caller. The crate `pbcnf`
//! makes these calls safely.
#![allow(missing_docs)]

#[repr(C)]
#[derive(Clone, Copy, PartialEq, Eq, Hash, Default, Debug)]
pub struct Options {
    pub amo: u32,
    pub card: u32,
    pub general: u32,
    pub equal: u32,
    pub table: u32,
    pub budget: u32,
}

#[repr(C)]
#[derive(Clone, Copy, PartialEq, Eq, Hash, Default, Debug)]
pub struct Bound {
    pub set: u64,
    pub low: u64,
    pub high: u64,
}

#[repr(C)]
#[derive(Clone, Copy, PartialEq, Eq, Hash, Default, Debug)]
pub struct Size {
    pub vars: u32,
    pub original: u32,
    pub clauses: u64,
    pub length: u64,
}

#[repr(C)]
#[derive(Clone, Copy, PartialEq, Eq, Hash, Default, Debug)]
pub struct Row {
    pub low: u64,
    pub high: u64,
    pub literal: i32,
    pub unused: i32,
}

#[repr(C)]
#[derive(Clone, Copy, PartialEq, Eq, Hash, Default, Debug)]
pub struct Refusal {
    pub line: u64,
    pub column: u64,
    pub number: u64,
    pub status: u32,
    pub file: u32,
    pub expected: u32,
    pub limit: u32,
    pub denied: u32,
    pub unproved: u32,
}

#[repr(C)]
#[derive(Clone, Copy, PartialEq, Eq, Hash, Default, Debug)]
pub struct Costs {
    pub offset_low: u64,
    pub offset_high: u64,
    pub length: u64,
}

#[repr(C)]
#[derive(Clone, Copy, PartialEq, Eq, Hash, Default, Debug)]
pub struct Side {
    pub relation: u32,
    pub first: u32,
    pub right_low: u64,
    pub right_high: u64,
}

#[repr(C)]
#[derive(Clone, Copy, PartialEq, Eq, Hash, Default, Debug)]
pub struct Sum {
    pub relation: u32,
    pub condition: i32,
    pub terms: u64,
    pub right_low: u64,
    pub right_high: u64,
}

/// Which structs and numbers are these, as PBCNF_ABI of the header.
pub const ABI: u32 = 1;

#[rustfmt::skip]
extern "C" {
    pub fn pbcnf_abi() -> u32;
    pub fn pbcnf_encode(opb: *const u8, opb_len: usize, options: *const Options, bound: *const Bound,
        cnf: *mut u8, room: usize, size: *mut Size, refusal: *mut Refusal) -> u8;
    pub fn pbcnf_clauses(opb: *const u8, opb_len: usize, options: *const Options, bound: *const Bound,
        integers: *mut i32, room: usize, size: *mut Size, refusal: *mut Refusal) -> u8;
    pub fn pbcnf_derive(opb: *const u8, opb_len: usize, options: *const Options, bound: *const Bound,
        proof: *mut u8, room: usize, size: *mut Size, refusal: *mut Refusal) -> u8;
    pub fn pbcnf_bounds(opb: *const u8, opb_len: usize, options: *const Options, bound: *const Bound,
        rows: *mut Row, room: usize, size: *mut Size, refusal: *mut Refusal) -> u8;
    pub fn pbcnf_wcnf(opb: *const u8, opb_len: usize, options: *const Options, bound: *const Bound,
        wcnf: *mut u8, room: usize, size: *mut Size, refusal: *mut Refusal) -> u8;
    pub fn pbcnf_check(opb: *const u8, opb_len: usize, bound: *const Bound, cnf: *const u8, cnf_len: usize,
        proof: *const u8, proof_len: usize, refusal: *mut Refusal) -> u8;
    pub fn pbcnf_refute(opb: *const u8, opb_len: usize, bound: *const Bound, cnf: *const u8, cnf_len: usize,
        proof: *const u8, proof_len: usize, lrat: *const u8, lrat_len: usize, refusal: *mut Refusal) -> u8;
    pub fn pbcnf_decode(opb: *const u8, opb_len: usize, bound: *const Bound, model: *const u8, model_len: usize,
        said: *mut u8, room: usize, length: *mut u64, refusal: *mut Refusal) -> u8;
    pub fn pbcnf_map(opb: *const u8, opb_len: usize, said: *mut u8, room: usize, length: *mut u64, refusal: *mut Refusal) -> u8;
    pub fn pbcnf_softs(opb: *const u8, opb_len: usize, bound: *const Bound, softs: *mut Row, room: usize, costs: *mut Costs,
        refusal: *mut Refusal) -> u8;
    pub fn pbcnf_constraint(coefficients: *const u64, coefficient_words: usize, literals: *const i32, count: usize,
        side: *const Side, options: *const Options, integers: *mut i32, room: usize, size: *mut Size, refusal: *mut Refusal) -> u8;
    pub fn pbcnf_constraint_derive(coefficients: *const u64, coefficient_words: usize, literals: *const i32, count: usize,
        side: *const Side, options: *const Options, proof: *mut u8, room: usize, size: *mut Size, refusal: *mut Refusal) -> u8;
    pub fn pbcnf_constraints(coefficients: *const u64, coefficient_words: usize, literals: *const i32, count: usize,
        sums: *const Sum, constraints: usize, first: u32, options: *const Options,
        integers: *mut i32, room: usize, size: *mut Size, refusal: *mut Refusal) -> u8;
    pub fn pbcnf_constraints_derive(coefficients: *const u64, coefficient_words: usize, literals: *const i32, count: usize,
        sums: *const Sum, constraints: usize, first: u32, options: *const Options,
        proof: *mut u8, room: usize, size: *mut Size, refusal: *mut Refusal) -> u8;
    pub fn pbcnf_words(refusal: *const Refusal, said: *mut u8, room: usize, length: *mut u64) -> u8;
}

#[cfg(test)]
mod tests {
    #[test]
    fn the_library_has_this_interface() {
        // SAFETY: it asks for nothing.
        assert_eq!(unsafe { super::pbcnf_abi() }, super::ABI);
    }
}
