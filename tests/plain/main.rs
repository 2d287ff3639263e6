//! The plain program: document 01 once more, in ordinary Rust, with nothing of the
//! proved code in it. What it prints is what the proved replay is compared with.
//!
//! plain replay < trace      the output of 01's program replay
//! plain check < trace       the same, then `V record what` for each violation
//! plain gen KIND SEED       a trace on standard output
//! plain kinds               the kinds
//! plain fast < trace        the output of the fast form used by bench
//! plain bench FILE N        nanoseconds per record of the fast form, N replays

mod fast;
mod generate;
mod ghost;
mod store;
mod trace;
#[cfg(test)]
mod tests;

use std::hint::black_box;
use std::io::{Read, Write};
use std::time::Instant;

/// Room for the longest output: 21,844 records, 20 bytes each at most.
const MOST_OUTPUT: usize = 500_000;

fn standard_input() -> Vec<u8> {
    let mut bytes = Vec::new();
    std::io::stdin().read_to_end(&mut bytes).expect("standard input");
    bytes
}

fn put(bytes: &[u8]) {
    let mut out = std::io::stdout().lock();
    out.write_all(bytes).expect("standard output");
    out.flush().expect("standard output");
}

fn usage() -> ! {
    eprintln!("plain replay | check | fast < trace; plain gen KIND SEED; plain kinds; plain bench FILE N");
    std::process::exit(2)
}

fn main() {
    let args: Vec<String> = std::env::args().skip(1).collect();
    let words: Vec<&str> = args.iter().map(|a| a.as_str()).collect();
    match words[..] {
        ["replay"] => put(trace::replay(&standard_input()).as_bytes()),
        ["check"] => {
            let (output, violations) = ghost::check(&standard_input());
            let mut text = output;
            for v in &violations {
                text.push_str(&format!("V {} {}\n", v.record, v.what));
            }
            put(text.as_bytes());
            if !violations.is_empty() {
                std::process::exit(1);
            }
        }
        ["fast"] => {
            let mut machine = fast::Machine::new();
            let mut out = Vec::with_capacity(MOST_OUTPUT);
            fast::replay(&standard_input(), &mut machine, &mut out);
            put(&out);
        }
        ["gen", kind, seed] => {
            let seed: u64 = seed.parse().unwrap_or_else(|_| usage());
            match generate::generate(kind, seed) {
                Some(bytes) => put(&bytes),
                None => usage(),
            }
        }
        ["kinds"] => {
            for kind in generate::KINDS {
                println!("{}", kind);
            }
        }
        ["bench", file, times] => {
            let bytes = std::fs::read(file).expect("the trace file");
            let times: u64 = times.parse().unwrap_or_else(|_| usage());
            let mut machine = fast::Machine::new();
            let mut out = Vec::with_capacity(MOST_OUTPUT);
            let records = fast::replay(&bytes, &mut machine, &mut out) as u64;
            let start = Instant::now();
            for _ in 0..times {
                black_box(fast::replay(black_box(&bytes), &mut machine, &mut out));
                black_box(&out);
            }
            let spent = start.elapsed().as_nanos() as f64;
            let all = (records * times).max(1) as f64;
            println!(
                "{:.3} ns per record ({} records, {} replays, {:.0} ns per replay)",
                spent / all,
                records,
                times,
                spent / times.max(1) as f64
            );
        }
        _ => usage(),
    }
}
