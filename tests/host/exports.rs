//! What the static library of `calls_c` exports, as C calls it. Each function is lent the rows of volatile, persistent and old words, of what is
//! held beside them and of the records, as pointer and length, and gives the answer's number. Rows of any length and content may be lent; they may not overlap.

macro_rules! exports {
    ($($name:ident($($more:ident: $type:ty),*);)*) => {
        // a host uses those that it needs
        #[allow(dead_code)]
        extern "C" {
            $(pub fn $name(
                v: *mut u32, vs: usize, p: *mut u32, ps: usize, o: *mut u32, os: usize, h: *mut u64, hs: usize, r: *mut u32, rs: usize
                $(, $more: $type)*
            ) -> u64;)*
        }
    };
}

exports! {
    register_make_fresh();
    register_begin(id: u64);
    register_read(id: u64, word: u32);
    register_write(id: u64, word: u32, value: u32);
    register_commit(id: u64);
    register_step(id: u64, value: *mut u64, values: usize);
    register_flush(word: u32);
    register_crash();
    register_recover();
    register_recover_up_to(allowance: u64, value: *mut u64, values: usize);
}
