//! The cases, group by group. A task gives some traces; a group's tasks are numbered from 0.

use crate::generate::{encode, generate, Rng, KINDS};
use crate::judge::How;
use crate::trace::{read_record, Call};

pub type Sink<'a> = &'a mut dyn FnMut(&[u8]);

pub struct Group {
    pub name: String,
    pub how: How,
    pub tasks: u64,
    pub cases: Box<dyn Fn(u64, Sink) + Sync>,
}

fn group(name: &str, how: How, tasks: usize, cases: impl Fn(u64, Sink) + Sync + 'static) -> Group {
    Group { name: name.to_string(), how, tasks: tasks as u64, cases: Box::new(cases) }
}

/// Seeds of each kind; kinds of long traces have fewer.
fn seeds(kind: &str) -> usize {
    match kind {
        "full" => 400,
        "reads" | "crash50" => 1200,
        "damaged" | "random" => 12_000,
        _ => 3000,
    }
}

/// Every kind of generated trace, with one in so many of its seeds.
pub fn kinds(part: usize) -> Vec<Group> {
    let of = |kind: &'static str| {
        let cases = move |seed: u64, put: Sink| put(&generate(kind, seed).expect("a kind"));
        group(&format!("kind {}", kind), How::Demands, seeds(kind) / part, cases)
    };
    KINDS.iter().map(|kind| of(kind)).collect()
}

// ---- traces by hand ----

/// A trace that grows.
#[derive(Clone)]
struct Day(Vec<u8>);

impl Day {
    fn new(n: usize) -> Day {
        Day(vec![1, (n / 256) as u8, (n % 256) as u8])
    }

    fn call(&mut self, call: Call) {
        encode(call, &mut self.0);
    }

    fn calls(&mut self, calls: &[Call]) {
        for call in calls {
            self.call(*call);
        }
    }

    fn steps(&mut self, id: u8, lines: usize) {
        self.calls(&vec![Call::Step { id }; lines]);
    }

    fn begin(&mut self, id: u8) {
        self.call(Call::Begin { id });
        self.steps(id, 2);
    }

    fn read(&mut self, id: u8, word: u8) {
        self.call(Call::Read { id, word });
        self.steps(id, 2);
    }

    fn write(&mut self, id: u8, word: u8, value: u32, lines: usize) {
        self.call(Call::Write { id, word, value });
        self.steps(id, lines);
    }

    fn commit(&mut self, id: u8, lines: usize) {
        self.call(Call::Commit { id });
        self.steps(id, lines);
    }

    fn crash(&mut self) {
        self.call(Call::Crash);
    }

    fn recover(&mut self, lines: usize) {
        self.calls(&vec![Call::Recover; lines]);
    }
}

/// The 76 bytes of 01, with its flush or without.
fn of_01(flush: bool) -> Vec<u8> {
    let mut d = Day::new(4);
    d.begin(3);
    d.write(3, 2, 9, 6);
    if flush {
        d.call(Call::Flush { word: 2 });
    }
    d.crash();
    d.recover(7);
    d.0
}

/// A reader that a writer's W2 aborts; the writer commits, a crash, and a later reader.
fn read_and_write() -> Vec<u8> {
    let mut d = Day::new(4);
    d.begin(0);
    d.begin(1);
    d.read(0, 1);
    d.write(1, 1, 0x0102_0304, 7);
    d.read(0, 1);
    d.commit(1, 3);
    d.crash();
    d.recover(2);
    d.begin(2);
    d.read(2, 1);
    d.commit(2, 1);
    d.0
}

/// Words on both sides of the first mark number's border; one is written twice, then a crash in recovery.
fn written_twice() -> Vec<u8> {
    let mut d = Day::new(65);
    d.begin(0);
    d.write(0, 64, 5, 7);
    d.write(0, 63, 6, 5);
    d.write(0, 64, 7, 4);
    d.read(0, 64);
    d.crash();
    d.recover(8);
    d.crash();
    d.recover(12);
    d.begin(1);
    d.read(1, 63);
    d.read(1, 64);
    d.0
}

fn short_days() -> Vec<Vec<u8>> {
    vec![of_01(true), read_and_write(), written_twice()]
}

/// The records of a sound trace, as many as end within so many bytes.
fn first_records(trace: &[u8], most: usize) -> Vec<u8> {
    let mut at = 3;
    while let Ok(Some((_, next))) = read_record(trace, at) {
        if next > most {
            break;
        }
        at = next;
    }
    trace[..at].to_vec()
}

// ---- bytes ----

fn one_byte_changed() -> Group {
    let days = short_days();
    group("one byte changed", How::Demands, days.len(), move |task, put| {
        let mut b = days[task as usize].clone();
        put(&b);
        for at in 0..b.len() {
            for _ in 0..255 {
                b[at] = b[at].wrapping_add(1);
                put(&b);
            }
            b[at] = b[at].wrapping_add(1);
        }
    })
}

fn cut_short(small: bool) -> Group {
    let most = if small { 300 } else { 1500 };
    let mut days = short_days();
    for kind in KINDS.iter().filter(|k| **k != "damaged" && **k != "random") {
        for seed in 0..4 {
            days.push(first_records(&generate(kind, seed).expect("a kind"), most));
        }
    }
    group("every truncation", How::Text, days.len(), move |task, put| {
        let b = &days[task as usize];
        for length in 0..=b.len() {
            put(&b[..length]);
        }
    })
}

fn byte_strings(small: bool) -> Group {
    group("byte strings", How::Text, 257, move |task, put| {
        if task == 256 {
            put(&[]);
            return;
        }
        let a = task as u8;
        put(&[a]);
        for b in 0..=255 {
            put(&[a, b]);
            if !small {
                for c in 0..=255 {
                    put(&[a, b, c]);
                }
            }
        }
    })
}

fn headers() -> Group {
    group("headers", How::Text, 512, |task, put| {
        if task < 256 {
            // every N, before one record and alone
            for low in 0..=255 {
                put(&[1, task as u8, low, 0, 2, 1, 0]);
                put(&[1, task as u8, low]);
            }
            return;
        }
        // every version, before as much of a trace as there can be
        let mut b = read_and_write();
        b[0] = (task - 256) as u8;
        for length in 0..=b.len() {
            put(&b[..length]);
        }
        b.resize(65_537, 0);
        put(&b);
    })
}

/// Every kind byte, with every small body length and every number of bytes after it, and after a record that is done.
fn record_shapes() -> Group {
    group("records of every shape", How::Text, 256, |kind, put| {
        for length in (0..12).chain([255, 256, 257, 65_535]) {
            for there in 0..14 {
                for before in [&[][..], &[0, 1, 7][..]] {
                    let mut b = vec![1, 0, 4];
                    b.extend_from_slice(before);
                    b.extend_from_slice(&[(length / 256) as u8, (length % 256) as u8]);
                    b.extend(&[kind as u8, 3, 2, 1, 0, 0, 0, 9, 9, 9, 9, 9, 9, 9][..there]);
                    put(&b);
                }
            }
        }
    })
}

fn random_bytes(small: bool) -> Group {
    group("random bytes", How::Text, if small { 20 } else { 200 }, |task, put| {
        let mut r = Rng::new(task ^ 0x7E57_0000);
        for _ in 0..200 {
            let length = r.below(300) as usize;
            let mut b: Vec<u8> = (0..length).map(|_| r.next() as u8).collect();
            put(&b);
            // behind a sound header, and with small numbers only
            let mut c = vec![1, 0, 1 + r.below(255) as u8];
            c.append(&mut b);
            put(&c);
            for x in c[3..].iter_mut() {
                *x = *x % 9;
            }
            put(&c);
        }
    })
}

fn empty_bodies() -> Group {
    let mut days = short_days();
    days.push(vec![1, 0, 1]);
    days.push(vec![1, 1, 0]);
    group("no body at the end", How::Demands, days.len(), move |task, put| {
        let ends: [&[u8]; 9] = [
            &[0, 0], &[0], &[0, 0, 0], &[0, 0, 0, 0], &[0, 1], &[1, 0], &[0, 0, 7], &[255, 255], &[0, 0, 0, 1, 7],
        ];
        for end in ends {
            let mut b = days[task as usize].clone();
            b.extend_from_slice(end);
            put(&b);
        }
    })
}

fn longest() -> Group {
    group("65,536 bytes and more", How::Text, 24, |task, put| {
        let fill = |bytes: &[u8]| {
            let mut b = vec![1, 1, 0];
            while b.len() < 65_536 {
                b.extend_from_slice(bytes);
            }
            b
        };
        let mut b = match task {
            0 => fill(&[0, 1, 7]),
            1 => fill(&[0, 1, 8]),
            2 => fill(&[0, 1, 7, 0, 1, 8]),
            3 => fill(&[0, 2, 6, 255]),
            4 => fill(&[0, 0]),
            5 => fill(&[255]),
            6 => {
                // the longest lines: reads of the greatest value
                let mut d = Day::new(1);
                d.begin(0);
                d.write(0, 0, u32::MAX, 7);
                while d.0.len() < 65_536 {
                    d.read(0, 0);
                }
                d.0
            }
            _ => generate("full", 1000 + task).expect("a kind"),
        };
        for length in [65_533, 65_534, 65_535, 65_536, 65_537, 65_538, 70_000, 131_072 + 3] {
            b.resize(length, 0);
            put(&b);
        }
    })
}

// ---- the store ----

const SIZES: [usize; 8] = [0, 1, 2, 64, 65, 255, 256, 257];

fn sizes() -> Group {
    group("N of 0, 1, 2, 64, 65, 255, 256, 257", How::Demands, SIZES.len(), |task, put| {
        let n = SIZES[task as usize];
        // one word alone
        for word in 0..=255 {
            let mut d = Day::new(n);
            d.begin(0);
            d.write(0, word, 77, 7);
            d.crash();
            d.recover(8);
            d.begin(1);
            d.read(1, word);
            d.write(1, word, 78, 7);
            d.commit(1, 3);
            d.call(Call::Flush { word });
            d.crash();
            d.recover(3);
            d.begin(2);
            d.read(2, word);
            put(&d.0);
        }
        // every word in the log, then undone or kept
        for lines in 1..=3 {
            let mut d = Day::new(n);
            d.begin(0);
            for word in 0..=255 {
                d.write(0, word, 1000 + word as u32, if word == 0 { 7 } else { 5 });
            }
            d.commit(0, lines);
            d.crash();
            d.recover(5 * n + 3);
            d.begin(1);
            for word in 0..=255 {
                d.read(1, word);
            }
            put(&d.0);
        }
    })
}

fn identifiers_spent() -> Group {
    group("all identifiers spent", How::Demands, 4, |task, put| {
        let mut d = Day::new(4);
        for id in 0..64u8 {
            d.begin(id);
            match task {
                0 => d.commit(id, 3),
                1 => {
                    d.write(id, id % 4, 100 + id as u32, 7);
                    d.commit(id, 3);
                }
                2 => {
                    d.write(id, id % 4, 100 + id as u32, 7);
                    d.crash();
                    d.recover(8);
                }
                _ => d.read(id, id % 4),
            }
            put(&d.0);
        }
        for id in 0..=255 {
            d.calls(&[Call::Begin { id }, Call::Step { id }, Call::Read { id, word: 0 }, Call::Write { id, word: 0, value: 1 }, Call::Commit { id }]);
            put(&d.0);
        }
    })
}

/// Every call with every identifier and every word, on a store with fresh, ready, ended and waiting records, and in recovery.
fn out_of_range() -> Group {
    let sizes = [1, 2, 64, 255, 256];
    group("identifiers and words out of range", How::Demands, sizes.len() * 2, move |task, put| {
        let mut start = Day::new(sizes[task as usize / 2]);
        start.begin(0);
        start.begin(1);
        start.commit(1, 1);
        start.begin(2);
        start.write(2, 0, 5, 3);
        start.begin(63);
        start.read(63, 0);
        if task % 2 == 1 {
            start.crash();
            start.recover(1);
        }
        for x in 0..=255 {
            let mut each = vec![Call::Begin { id: x }, Call::Commit { id: x }, Call::Step { id: x }, Call::Flush { word: x }];
            for y in [0, 1, 63, 64, 65, 254, 255] {
                for (id, word) in [(x, y), (y, x)] {
                    each.push(Call::Read { id, word });
                    each.push(Call::Write { id, word, value: 6 });
                }
            }
            for call in &each {
                let mut d = start.clone();
                d.call(*call);
                put(&d.0);
            }
            let mut d = start.clone();
            d.calls(&each);
            put(&d.0);
        }
    })
}

// ---- crashes ----

/// Three words, not in their order, on both sides of a mark number's border.
const WORDS: [u8; 3] = [64, 1, 5];
const N: usize = 70;

/// Another writer has been here, so no old word is 0.
fn written_before() -> Day {
    let mut d = Day::new(N);
    d.begin(0);
    for (i, word) in WORDS.iter().enumerate() {
        d.write(0, *word, 11 + i as u32, if i == 0 { 7 } else { 5 });
    }
    d.commit(0, 3);
    d
}

/// The calls of a writer of three words, line by line.
fn writer(id: u8) -> Vec<Call> {
    let mut calls = vec![Call::Begin { id }, Call::Step { id }, Call::Step { id }];
    for (i, word) in WORDS.iter().enumerate() {
        calls.push(Call::Write { id, word: *word, value: 21 + i as u32 });
        calls.extend(vec![Call::Step { id }; if i == 0 { 7 } else { 5 }]);
    }
    calls.push(Call::Commit { id });
    calls.extend([Call::Step { id }; 3]);
    calls
}

/// The same of one that writes its first word twice.
fn rewriter(id: u8) -> Vec<Call> {
    let mut calls = vec![Call::Begin { id }, Call::Step { id }, Call::Step { id }];
    for (word, value, lines) in [(WORDS[0], 31, 7), (WORDS[1], 32, 5), (WORDS[0], 33, 4)] {
        calls.push(Call::Write { id, word, value });
        calls.extend(vec![Call::Step { id }; lines]);
    }
    calls.push(Call::Read { id, word: WORDS[0] });
    calls.extend([Call::Step { id }; 2]);
    calls.push(Call::Commit { id });
    calls.extend([Call::Step { id }; 3]);
    calls
}

/// What the system flushes before a crash: nothing, one of the words, or all.
const FLUSHES: [&[u8]; 5] = [&[], &WORDS, &[WORDS[0]], &[WORDS[1]], &[WORDS[2]]];

/// The most lines that recovery has here, and the one after the last.
const RECOVERY: usize = 5 * 3 + 2 + 1;

fn flush_and_crash(d: &mut Day, words: &[u8]) {
    for word in words {
        d.call(Call::Flush { word: *word });
    }
    d.crash();
}

/// Recovers, reads the words, and once more behind a further crash: what is read then was persistent.
fn recover_and_read(d: &mut Day) {
    d.recover(RECOVERY);
    for id in [10, 11] {
        d.begin(id);
        for word in WORDS {
            d.read(id, word);
        }
        d.crash();
        d.recover(2);
    }
}

fn a_crash_after_every_line(name: &str, calls: Vec<Call>) -> Group {
    group(name, How::Demands, calls.len() + 1, move |cut, put| {
        let mut before = written_before();
        before.calls(&calls[..cut as usize]);
        for first in FLUSHES {
            let mut d = before.clone();
            flush_and_crash(&mut d, first);
            let crashed = d.clone();
            recover_and_read(&mut d);
            put(&d.0);
            for lines in 0..RECOVERY {
                for second in FLUSHES {
                    let mut d = crashed.clone();
                    d.recover(lines);
                    flush_and_crash(&mut d, second);
                    recover_and_read(&mut d);
                    put(&d.0);
                }
            }
        }
    })
}

fn three_crashes() -> Group {
    let calls = writer(1);
    group("three crashes", How::Demands, calls.len() + 1, move |cut, put| {
        let mut before = written_before();
        before.calls(&calls[..cut as usize]);
        before.crash();
        for first in 0..RECOVERY {
            for second in 0..RECOVERY {
                let mut d = before.clone();
                d.recover(first);
                d.crash();
                d.recover(second);
                d.crash();
                recover_and_read(&mut d);
                put(&d.0);
            }
        }
    })
}

/// A read's two lines at every two places of a writer, and a second writer or a begin there.
fn beside_a_writer() -> Group {
    let calls = writer(1);
    group("beside a writer", How::Demands, calls.len() + 1, move |first, put| {
        let first = first as usize;
        for second in first..=calls.len() {
            for word in WORDS {
                for other in 0..3 {
                    let mut d = written_before();
                    if other < 2 {
                        d.begin(2);
                    }
                    d.calls(&calls[..first]);
                    match other {
                        0 => d.call(Call::Read { id: 2, word }),
                        1 => d.call(Call::Write { id: 2, word, value: 41 }),
                        _ => d.call(Call::Begin { id: 2 }),
                    }
                    d.steps(2, 1);
                    d.calls(&calls[first..second]);
                    d.steps(2, 1);
                    d.calls(&calls[second..]);
                    d.steps(2, 6);
                    d.read(2, word);
                    d.commit(2, 3);
                    d.crash();
                    recover_and_read(&mut d);
                    put(&d.0);
                }
            }
        }
    })
}

fn short_buffers() -> Group {
    let mut days = short_days();
    days.extend([vec![], vec![2], vec![1, 0, 4], vec![1, 0, 4, 0]]);
    for kind in ["joins", "mixed", "reads", "rewrites"] {
        days.push(first_records(&generate(kind, 7).expect("a kind"), 700));
    }
    group("short buffers", How::ShortBuffers, days.len(), move |task, put| put(&days[task as usize]))
}

fn worked_histories() -> Group {
    group("01's trace", How::Demands, 1, |_, put| {
        put(&of_01(true));
        put(&of_01(false));
        put(&read_and_write());
        put(&written_twice());
    })
}

pub fn all(small: bool) -> Vec<Group> {
    let mut all = vec![
        worked_histories(),
        one_byte_changed(),
        cut_short(small),
        byte_strings(small),
        headers(),
        record_shapes(),
        empty_bodies(),
        random_bytes(small),
        longest(),
        sizes(),
        identifiers_spent(),
        out_of_range(),
        a_crash_after_every_line("a crash after every line", writer(1)),
        a_crash_after_every_line("a crash after every line of a second write", rewriter(1)),
        three_crashes(),
        beside_a_writer(),
        short_buffers(),
    ];
    all.append(&mut kinds(if small { 60 } else { 1 }));
    all
}
