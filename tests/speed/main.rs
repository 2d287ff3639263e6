//! How fast the proved code is, beside a replay written in Rust for speed (tests/plain/fast.rs): four full traces of 64 KiB at N = 256 and at N = 255, how the
//! cost of a record grows with the trace, and a single call on numbers; both sides optimised alike, in one process, turn by turn, the least of many rounds.
//! Prints a line for each: a name, how many records, and nanoseconds a record of both, between tabs; tools/speed makes a table of them.

#[path = "../host/exports.rs"]
mod exports;
#[path = "../plain/fast.rs"]
mod fast;
#[allow(dead_code)] // of the calls one is timed
#[path = "../host/register.rs"]
mod register;

use register::Register;
use std::hint::black_box;
use std::time::Instant;

extern "C" {
    fn register_replay(trace: *const u8, length: usize, out: *mut u8, room: usize) -> usize;
}

const FULL: usize = 65_536;
const ROOM: usize = 655_438;
const ROUNDS: u32 = 3_000;

/// A trace that grows record by record, up to so many bytes.
struct Trace {
    bytes: Vec<u8>,
    most: usize,
    seed: u64,
}

impl Trace {
    fn new(most: usize) -> Trace {
        Trace { bytes: vec![1, 1, 0], most, seed: 1 }
    }
    fn record(&mut self, body: &[u8]) {
        if self.bytes.len() + 2 + body.len() <= self.most {
            self.bytes.extend_from_slice(&[0, body.len() as u8]);
            self.bytes.extend_from_slice(body);
        }
    }
    fn is_full(&self) -> bool {
        self.bytes.len() + 4 > self.most
    }
    /// A word, 0 to 255.
    fn word(&mut self) -> u8 {
        self.seed = self.seed.wrapping_mul(6_364_136_223_846_793_005).wrapping_add(1_442_695_040_888_963_407);
        (self.seed >> 40) as u8
    }
    fn steps(&mut self, id: u8, lines: u32) {
        for _ in 0..lines {
            self.record(&[5, id]);
        }
    }
    fn begin(&mut self, id: u8) {
        self.record(&[1, id]);
        self.steps(id, 2);
    }
    fn read(&mut self, id: u8) {
        let word = self.word();
        self.record(&[2, id, word]);
        self.steps(id, 2);
    }
    /// The first write of a transaction takes seven lines, a further one five, one of a logged word four.
    fn write(&mut self, id: u8, word: u8, lines: u32) {
        self.record(&[3, id, word, 0, 1, word, id]);
        self.steps(id, lines);
    }
    fn commit(&mut self, id: u8) {
        self.record(&[4, id]);
        self.steps(id, 3);
    }
}

/// 64 writers, one after the other, each with as many writes as make the trace full.
fn writers(most: usize) -> Vec<u8> {
    let mut t = Trace::new(most);
    for id in 0..64 {
        t.begin(id);
        for k in 0..34u8 {
            t.write(id, k.wrapping_mul(7).wrapping_add(id), if k == 0 { 7 } else { 5 });
        }
        t.commit(id);
    }
    while !t.is_full() {
        t.record(&[6, 0]);
    }
    t.bytes
}

/// A crash every fifty records: a writer of some words is cut, and recovery puts them back; when no identifier is left, flushes are cut.
fn crash50() -> Vec<u8> {
    let mut t = Trace::new(FULL);
    let mut id = 0u8;
    while !t.is_full() {
        if id < 64 {
            t.begin(id);
            for k in 0..3u8 {
                t.write(id, k.wrapping_add(id), if k == 0 { 7 } else { 5 });
            }
            t.record(&[7]);
            for _ in 0..17 {
                t.record(&[8]);
            }
            for _ in 0..6 {
                let word = t.word();
                t.record(&[6, word]);
            }
            id += 1;
        } else {
            t.record(&[7]);
            t.record(&[8]);
            t.record(&[8]);
            for _ in 0..47 {
                let word = t.word();
                t.record(&[6, word]);
            }
        }
    }
    t.bytes
}

/// Almost all reads: 63 readers after one writer.
fn reads() -> Vec<u8> {
    let mut t = Trace::new(FULL);
    t.begin(0);
    for k in 0..20u8 {
        t.write(0, k, if k == 0 { 7 } else { 5 });
    }
    t.commit(0);
    for id in 1..64 {
        t.begin(id);
        for _ in 0..79 {
            t.read(id);
        }
        t.commit(id);
    }
    while !t.is_full() {
        t.read(63);
    }
    t.bytes
}

/// Everything by turns: readers beside a writer, a write of a logged word, commits, flushes, records that are refused, and a crash with its recovery.
fn mixed() -> Vec<u8> {
    let mut t = Trace::new(FULL);
    let mut id = 0u8;
    while !t.is_full() {
        let (writer, reader) = (id & 63, (id + 1) & 63);
        t.begin(writer);
        t.begin(reader);
        for _ in 0..20 {
            t.read(reader);
        }
        for k in 0..20u8 {
            let word = t.word();
            t.write(writer, word, if k == 0 { 7 } else { 5 });
            t.write(writer, word, 4);
            t.record(&[6, word]);
        }
        t.read(reader);
        if id % 8 == 0 {
            t.record(&[7]);
            for _ in 0..102 {
                t.record(&[8]);
            }
        } else {
            t.commit(writer);
            t.commit(reader);
        }
        id = id.wrapping_add(2);
    }
    t.bytes
}

/// The same bytes with N = 255.
fn at_255(mut trace: Vec<u8>) -> Vec<u8> {
    trace[1] = 0;
    trace[2] = 255;
    trace
}

fn proved(trace: &[u8], out: &mut [u8]) -> usize {
    // SAFETY: two slices, as pointer and length, which is how the library takes them
    unsafe { register_replay(trace.as_ptr(), trace.len(), out.as_mut_ptr(), out.len()) }
}

/// Nanoseconds of each, turn by turn, the least of the rounds.
fn least(mut ours: impl FnMut(), mut theirs: impl FnMut()) -> (f64, f64) {
    let (mut a, mut b) = (f64::MAX, f64::MAX);
    for _ in 0..ROUNDS {
        let start = Instant::now();
        ours();
        a = a.min(start.elapsed().as_nanos() as f64);
        let start = Instant::now();
        theirs();
        b = b.min(start.elapsed().as_nanos() as f64);
    }
    (a, b)
}

fn measure(name: &str, trace: &[u8]) {
    let mut room = vec![0u8; ROOM];
    let mut machine = fast::Machine::new();
    let mut text = Vec::with_capacity(ROOM);
    let records = fast::replay(trace, &mut machine, &mut text) as f64;
    let length = proved(trace, &mut room);
    assert!(room[..length] == text[..], "{}: the two texts differ", name);
    let (ours, theirs) = least(
        || {
            black_box(proved(black_box(trace), &mut room));
        },
        || {
            black_box(fast::replay(black_box(trace), &mut machine, &mut text));
        },
    );
    println!("{name}\t{records}\t{:.3}\t{:.3}", ours / records, theirs / records);
}

/// A step of a ready record, which answers 15 and changes nothing, through the exports; beside it one record of the plain replay of writers.
fn one_call() {
    const CALLS: u32 = 1000;
    let mut r = Register::fresh(256);
    r.begin(0);
    r.step(0);
    r.step(0);
    assert!(r.step(0) == (15, 0));
    let trace = writers(FULL);
    let mut machine = fast::Machine::new();
    let mut text = Vec::with_capacity(ROOM);
    let records = fast::replay(&trace, &mut machine, &mut text) as f64;
    let (ours, theirs) = least(
        || {
            for _ in 0..CALLS {
                black_box(r.step(black_box(0)));
            }
        },
        || {
            black_box(fast::replay(black_box(&trace), &mut machine, &mut text));
        },
    );
    println!("a call on numbers\t{CALLS}\t{:.3}\t{:.3}", ours / CALLS as f64, theirs / records);
}

fn main() {
    for (name, trace) in [("writers", writers(FULL)), ("crash50", crash50()), ("reads", reads()), ("mixed", mixed())] {
        measure(&format!("{name}, N = 256"), &trace);
        measure(&format!("{name}, N = 255"), &at_255(trace));
    }
    for kib in [1, 4, 16, 64] {
        measure(&format!("writers, {kib} KiB"), &writers(kib * 1024));
    }
    one_call();
}
