//! CaDiCaL by its C interface, ccadical.h.
use pbcnf::{lit, Lit};
use std::ffi::c_int;

#[repr(C)]
struct Opaque {
    _private: [u8; 0],
}

#[link(name = "cadical")]
#[link(name = "stdc++")]
extern "C" {
    fn ccadical_init() -> *mut Opaque;
    fn ccadical_release(solver: *mut Opaque);
    fn ccadical_add(solver: *mut Opaque, literal: c_int);
    fn ccadical_solve(solver: *mut Opaque) -> c_int;
    fn ccadical_val(solver: *mut Opaque, literal: c_int) -> c_int;
}

pub struct Solver(*mut Opaque);

impl Solver {
    pub fn new() -> Self {
        // SAFETY: it asks for nothing.
        Solver(unsafe { ccadical_init() })
    }

    /// Adds clauses as integers, each with the 0 after it.
    pub fn add(&mut self, integers: &[i32]) {
        for &integer in integers {
            // SAFETY: the solver is ours until it is dropped, here and below.
            unsafe { ccadical_add(self.0, integer) };
        }
    }

    /// The true literals of a model over the variables 1 to `last`, if there is one.
    pub fn model(&mut self, last: u32) -> Option<Vec<Lit>> {
        // SAFETY: as above.
        if unsafe { ccadical_solve(self.0) } != 10 {
            return None;
        }
        let signed = |var: i32| {
            // SAFETY: as above, and there is a model.
            let is_true = unsafe { ccadical_val(self.0, var) } > 0;
            lit(if is_true { var } else { -var })
        };
        Some((1..=last as i32).map(signed).collect())
    }
}

impl Drop for Solver {
    fn drop(&mut self) {
        // SAFETY: it is not used again.
        unsafe { ccadical_release(self.0) };
    }
}
