//! The register's calls for a host in Rust: a store of N words and a method for each call. The library takes any rows, so nothing is tested here.

use crate::exports::*;

/// The rows of a store: N volatile, persistent and old words, what is held beside them, and the 64 records.
pub struct Register {
    pub vol: Vec<u32>,
    pub pers: Vec<u32>,
    pub old: Vec<u32>,
    pub held: [u64; 8],
    pub records: [u32; 256],
}

/// An answer: its number and its value.
pub type Answer = (u64, u64);

/// Calls a function of the library with the five rows, each as pointer and length, and further words.
macro_rules! call {
    ($f:ident, $r:expr $(, $more:expr)*) => {
        // SAFETY: five rows of their own, as pointer and length, which is how the library takes them
        unsafe {
            $f(
                $r.vol.as_mut_ptr(), $r.vol.len(),
                $r.pers.as_mut_ptr(), $r.pers.len(),
                $r.old.as_mut_ptr(), $r.old.len(),
                $r.held.as_mut_ptr(), $r.held.len(),
                $r.records.as_mut_ptr(), $r.records.len()
                $(, $more)*
            )
        }
    };
}

impl Register {
    /// A fresh store of n words.
    pub fn fresh(n: usize) -> Register {
        let mut r = Register { vol: vec![0; n], pers: vec![0; n], old: vec![0; n], held: [0; 8], records: [0; 256] };
        call!(register_make_fresh, r);
        r
    }
    pub fn begin(&mut self, id: u64) -> Answer {
        (call!(register_begin, self, id), 0)
    }
    pub fn write(&mut self, id: u64, word: u32, value: u32) -> Answer {
        (call!(register_write, self, id, word, value), 0)
    }
    pub fn commit(&mut self, id: u64) -> Answer {
        (call!(register_commit, self, id), 0)
    }
    /// One line of a transaction.
    pub fn step(&mut self, id: u64) -> Answer {
        let mut value = [0; 1];
        (call!(register_step, self, id, value.as_mut_ptr(), 1), value[0])
    }
    pub fn crash(&mut self) -> Answer {
        (call!(register_crash, self), 0)
    }
    /// Recovery lines, as many as the allowance or all that are left.
    pub fn recover_up_to(&mut self, allowance: u64) -> Answer {
        let mut value = [0; 1];
        (call!(register_recover_up_to, self, allowance, value.as_mut_ptr(), 1), value[0])
    }
}
