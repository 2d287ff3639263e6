//! The cases of the single calls, group by group: a store as numbers, and a call on it. A task gives some cases; a group's tasks are numbered from 0.

use crate::generate::Rng;
use crate::lent::{phase, plain, recovery, spell, Ask, Numbers};
use crate::store::{make_fresh, new_store, recover, Phase, Recovery, Store, Tx, IDENTIFIERS};
use std::panic::{catch_unwind, AssertUnwindSafe};

pub type Put<'a> = &'a mut dyn FnMut(&Numbers, Ask);

pub struct Singles {
    pub name: String,
    pub tasks: u64,
    /// Of so many tasks the small comparison does one.
    pub small: u64,
    pub cases: Box<dyn Fn(u64, Put) + Sync>,
}

fn singles(name: &str, tasks: usize, small: u64, cases: impl Fn(u64, Put) + Sync + 'static) -> Singles {
    Singles { name: format!("single calls: {}", name), tasks: tasks as u64, small, cases: Box::new(cases) }
}

// ---- stores and calls ----

const HUGE: u64 = u64::MAX;
const PAST_32: u64 = 1 << 32;
const SIZES: [usize; 6] = [1, 2, 64, 65, 255, 256];

fn words(from: u32, length: usize) -> Vec<u32> {
    (0..length as u32).map(|i| from + i).collect()
}

/// A fit store in which no two words are alike.
fn store_of(n: usize) -> Store {
    let mut s = new_store(n);
    (s.vol, s.pers, s.old) = (words(1000, n), words(2000, n), words(3000, n));
    s.glb = 4;
    s
}

fn mark(s: &mut Store, word: usize) {
    if word < 256 {
        s.marks[word / 64] |= 1 << (word % 64);
    }
}

/// Every call, with this identifier and this word.
fn asks(id: u64, word: u32) -> Vec<Ask> {
    vec![
        Ask::MakeFresh,
        Ask::Begin { id },
        Ask::Read { id, word },
        Ask::Write { id, word, value: 77 },
        Ask::Commit { id },
        Ask::Step { id },
        Ask::Flush { word },
        Ask::Crash,
        Ask::Recover,
        Ask::RecoverUpTo { allowance: 0 },
        Ask::RecoverUpTo { allowance: 1 },
        Ask::RecoverUpTo { allowance: 3 },
        Ask::RecoverUpTo { allowance: HUGE },
    ]
}

fn each(s: &Store, asks: &[Ask], put: Put) {
    let numbers = spell(s);
    for ask in asks {
        put(&numbers, *ask);
    }
}

fn phase_of(number: usize, word: u32, value: u32) -> Phase {
    phase(number as u32, word, value).expect("a phase")
}

fn recovery_at(line: usize, word: u32, value: u32) -> Recovery {
    recovery(line as u64, word, value).expect("a line")
}

/// All records but the first few, each at a phase of its own.
fn every_phase(s: &mut Store) {
    let n = s.vol.len() as u32;
    for i in 4..s.txs.len() {
        s.txs[i] = Tx { loc: i as u32, phase: phase_of(i % 18, i as u32 % n, 500 + i as u32) };
    }
}

// ---- lengths ----

const LENGTHS: [usize; 10] = [0, 1, 2, 63, 64, 65, 255, 256, 257, 300];

fn row_lengths() -> Singles {
    singles("row lengths", LENGTHS.len() * LENGTHS.len(), 7, |task, put| {
        let (vol, pers) = (LENGTHS[task as usize / 10], LENGTHS[task as usize % 10]);
        for old in LENGTHS {
            let mut s = store_of(1);
            (s.vol, s.pers, s.old) = (words(1000, vol), words(2000, pers), words(3000, old));
            each(&s, &asks(0, 0), put);
            each(&s, &asks(64, vol as u32), put);
            s.recovery = Recovery::C3 { word: 0, value: 7 };
            s.txs[0].phase = Phase::W5 { word: 0, value: 8 };
            each(&s, &asks(0, 0), put);
        }
    })
}

fn other_lengths() -> Singles {
    let sizes = [0, 1, 64, 256, 257];
    let records = [0, 1, 2, 3, 4, 5, 251, 252, 253, 255, 256, 257, 258, 259, 260, 512];
    singles("lengths of the records and of what is held", sizes.len() * records.len(), 7, move |task, put| {
        let mut s = store_of(sizes[task as usize / records.len()]);
        s.txs[0].phase = Phase::Ready;
        for recovering in [false, true] {
            if recovering {
                s.recovery = Recovery::C6;
            }
            let mut numbers = spell(&s);
            numbers.records.resize(records[task as usize % records.len()], 0);
            for held in [0, 1, 4, 5, 7, 8, 9, 16] {
                let mut these = numbers.clone();
                these.held.resize(held, 0);
                for ask in asks(0, 0).into_iter().chain(asks(64, 300)) {
                    put(&these, ask);
                }
            }
        }
    })
}

// ---- content ----

fn phases_and_recoveries() -> Singles {
    singles("every phase and every recovery", 18 * 7, 5, |task, put| {
        let (number, line) = (task as usize / 7, task as usize % 7);
        for n in SIZES {
            for word in if n == 1 { vec![0] } else { vec![0, n - 1] } {
                for (glb, loc) in [(4, 4), (4, 2), (5, 5), (5, 4), (4, 5)] {
                    for marks in 0..4 {
                        let mut s = store_of(n);
                        every_phase(&mut s);
                        (s.glb, s.recovery) = (glb, recovery_at(line, word as u32, 88));
                        let id = if glb == loc { 0 } else { 3 };
                        s.txs[id] = Tx { loc, phase: phase_of(number, word as u32, 99) };
                        for w in 0..n {
                            if [false, w == word, w % 3 == 0, w != word][marks] {
                                mark(&mut s, w);
                            }
                        }
                        each(&s, &asks(id as u64, word as u32), put);
                    }
                }
            }
        }
    })
}

fn counts_and_locs() -> Singles {
    const EDGES: [u32; 9] = [0, 1, 2, 65_533, 65_534, 65_535, 65_536, 65_537, u32::MAX];
    singles("counts and locs at their edges", EDGES.len() * EDGES.len(), 7, |task, put| {
        let (glb, loc) = (EDGES[task as usize / 9], EDGES[task as usize % 9]);
        for number in 0..18 {
            for line in [0, 1, 6] {
                for owner in [0, 5, 63] {
                    let mut s = store_of(2);
                    (s.glb, s.recovery) = (glb, recovery_at(line, 0, 0));
                    s.txs[0] = Tx { loc: glb, phase: phase_of(number, 1, 9) };
                    s.txs[owner].loc = loc;
                    each(&s, &asks(0, 1), put);
                }
            }
        }
    })
}

const IDENTIFIERS_ASKED: [u64; 10] = [0, 1, 63, 64, 65, 255, 256, PAST_32, PAST_32 + 1, HUGE];

/// Reads, writes and flushes of words at their edges, by identifiers at theirs.
fn edges_asked(n: usize) -> Vec<Ask> {
    let mut all = Vec::new();
    let n = n as u32;
    for word in [0, n - 1, n, n + 1, 255, 256, 65_536, 65_536 + n - 1, 1 << 31, u32::MAX] {
        all.push(Ask::Flush { word });
        for id in IDENTIFIERS_ASKED {
            all.extend([Ask::Read { id, word }, Ask::Write { id, word, value: u32::MAX }]);
        }
    }
    for id in IDENTIFIERS_ASKED {
        all.extend([Ask::Begin { id }, Ask::Commit { id }, Ask::Step { id }]);
    }
    all
}

fn identifiers_and_words() -> Singles {
    singles("identifiers and words at their edges", SIZES.len() * 8, 7, |task, put| {
        let n = SIZES[task as usize / 8];
        let mut s = store_of(n);
        every_phase(&mut s);
        let (line, number) = [(0, 1), (0, 0), (0, 6), (0, 2), (1, 1), (3, 1), (6, 0), (6, 13)][task as usize % 8];
        s.recovery = recovery_at(line, 0, 5);
        for i in [0, 1, 63] {
            s.txs[i] = Tx { loc: 4, phase: phase_of(number, n as u32 - 1, 9) };
        }
        each(&s, &edges_asked(n), put);
    })
}

/// A word that a phase or recovery names.
fn words_named() -> Singles {
    let sizes = [1, 2, 63, 64, 65, 255, 256];
    singles("words named", sizes.len() * 21, 5, move |task, put| {
        let (n, place) = (sizes[task as usize / 21], task as usize % 21);
        let edge = n as u32;
        for word in [0, edge - 1, edge, edge + 1, 63, 64, 255, 256, 257, 65_536, 1 << 31, u32::MAX] {
            let mut s = store_of(n);
            mark(&mut s, n - 1);
            s.txs[0].phase = Phase::Ready;
            match place {
                // R1, R2, W1 to W7, of the record that is asked or of another
                0..=17 => s.txs[9 * (place / 9)] = Tx { loc: 4, phase: phase_of(6 + place % 9, word, word) },
                _ => s.recovery = recovery_at(place - 15, word, word),
            }
            each(&s, &asks(0, 0), put);
            each(&s, &[Ask::Begin { id: 1 }, Ask::Step { id: 9 }, Ask::Read { id: 64, word: edge }], put);
        }
    })
}

fn marks() -> Singles {
    let sizes = [1, 2, 63, 64, 65, 127, 128, 129, 191, 192, 193, 255, 256];
    singles("one mark and two", sizes.len() * 256, 31, move |task, put| {
        let (n, at) = (sizes[task as usize / 256], task as usize % 256);
        let word = (at % n) as u32;
        for second in [None, Some(0), Some(n - 1), Some(255)] {
            for line in [0, 1, 2, 5] {
                let mut s = store_of(n);
                mark(&mut s, at);
                if let Some(other) = second {
                    mark(&mut s, other);
                }
                s.recovery = recovery_at(line, word, 6);
                s.txs[0].phase = Phase::W4 { word, value: 5 };
                s.txs[1].phase = Phase::W5 { word, value: 5 };
                s.txs[2].phase = Phase::E2;
                let mut some = vec![Ask::Recover, Ask::RecoverUpTo { allowance: HUGE }, Ask::Crash, Ask::Flush { word }];
                if line == 0 {
                    some.extend([Ask::Step { id: 0 }, Ask::Step { id: 1 }, Ask::Step { id: 2 }]);
                }
                each(&s, &some, put);
            }
        }
    })
}

// ---- unfit ----

/// Every set of things that make a store unfit, before calls that other checks refuse or that none does.
fn unfit_at_once() -> Singles {
    singles("several unfit things at once", 1 << 13, 31, |set, put| {
        let has = |bit: u64| set >> bit & 1 == 1;
        let n = if has(2) { 0 } else if has(3) { 257 } else { 5 };
        let mut s = store_of(n);
        s.pers.resize(n + has(0) as usize, 1);
        s.old.resize(if has(1) { n + 2 } else { n }, 1);
        s.txs[0] = Tx { loc: 4, phase: Phase::Ready };
        if has(4) {
            s.txs.pop();
        }
        mark(&mut s, if has(5) { 5 } else { 4 });
        s.glb = if has(6) { 65_536 } else { 4 };
        if has(7) {
            s.txs[0].loc = 65_536;
        }
        if has(8) {
            s.txs[62].loc = 70_000;
        }
        if has(9) {
            s.txs[0].phase = Phase::W4 { word: n as u32, value: 3 };
        }
        if has(10) {
            s.recovery = Recovery::C4 { word: n as u32, value: 3 };
        }
        if has(11) {
            s.recovery = Recovery::C2;
            s.marks = [0; 4];
        }
        let mut numbers = spell(&s);
        if has(12) {
            numbers.records[4 * 30 + 2] = 1;
        }
        for id in [0, 64, HUGE] {
            for word in [0, n as u32, u32::MAX] {
                put(&numbers, Ask::Read { id, word });
                put(&numbers, Ask::Write { id, word, value: 1 });
            }
            for ask in [Ask::Begin { id }, Ask::Commit { id }, Ask::Step { id }, Ask::Flush { word: id as u32 }] {
                put(&numbers, ask);
            }
        }
        for ask in [Ask::Flush { word: 2 }, Ask::Crash, Ask::Recover, Ask::MakeFresh] {
            put(&numbers, ask);
        }
        for allowance in [0, 3] {
            put(&numbers, Ask::RecoverUpTo { allowance });
        }
    })
}

/// Records, and what is held, each number of which is right or not.
fn no_store() -> Singles {
    singles("numbers that spell no store", 24 * 3 + 18, 7, |task, put| {
        let mut s = store_of(4);
        mark(&mut s, 1);
        let fit = spell(&s);
        if task < 24 * 3 {
            let at = [0, 7, 63][task as usize % 3];
            let number = task as u32 / 3;
            let number = if number < 20 { number } else { [255, 256, 1 << 31, u32::MAX][number as usize - 20] };
            for (word, value) in [(0, 0), (1, 0), (0, 1), (1, 1), (3, 5), (4, 0), (u32::MAX, 0), (0, u32::MAX), (u32::MAX, u32::MAX)] {
                let mut numbers = fit.clone();
                numbers.records[4 * at + 1..4 * at + 4].copy_from_slice(&[number, word, value]);
                for ask in asks(at as u64, 1).into_iter().chain(asks(8, 4)) {
                    put(&numbers, ask);
                }
            }
            return;
        }
        let line = [0, 1, 2, 3, 4, 5, 6, 7, 8, 255, PAST_32, PAST_32 + 1, PAST_32 + 3, PAST_32 + 6, PAST_32 + 7, HUGE - 1, HUGE, 1 << 63];
        for word in [0, 1, 4, PAST_32, PAST_32 + 1, HUGE] {
            for value in [0, 9, PAST_32 - 1, PAST_32, PAST_32 + 9, HUGE] {
                for count in [0, 4, 65_535, 65_536, PAST_32, PAST_32 + 4, HUGE] {
                    let mut numbers = fit.clone();
                    numbers.held[4..].copy_from_slice(&[count, line[task as usize - 24 * 3], word, value]);
                    for ask in asks(0, 1) {
                        put(&numbers, ask);
                    }
                }
            }
        }
    })
}

// ---- recovery with an allowance ----

/// How many recovery lines are left.
fn left(s: &Store) -> u64 {
    let mut s = s.clone();
    let mut lines = 0;
    while lines < 2000 && s.recovery != Recovery::Idle {
        if recover(&mut s).0 >= 9 {
            break;
        }
        lines += 1;
    }
    lines
}

fn allowances() -> Singles {
    singles("allowances", SIZES.len() * 5 * 6, 7, |task, put| {
        let (n, share, line) = (SIZES[task as usize / 30], task as usize / 6 % 5, 1 + task as usize % 6);
        for word in if n == 1 { vec![0] } else { vec![0, n / 2, n - 1] } {
            let mut s = store_of(n);
            for w in 0..n {
                if [false, w == word, w == n - 1, w % 2 == 0, true][share] {
                    mark(&mut s, w);
                }
            }
            s.recovery = recovery_at(line, word as u32, 66);
            let left = left(&s);
            for allowance in [0, 1, 2, 3, left.wrapping_sub(1), left, left + 1, left + 1000, PAST_32, PAST_32 + 1, HUGE] {
                put(&spell(&s), Ask::RecoverUpTo { allowance });
            }
            s.recovery = Recovery::Idle;
            for allowance in [0, 1, HUGE] {
                put(&spell(&s), Ask::RecoverUpTo { allowance });
            }
        }
    })
}

// ---- at random ----

fn some_size(r: &mut Rng) -> usize {
    match r.below(8) {
        0 => 1,
        1 => 2,
        2..=4 => 1 + r.below(8) as usize,
        5 => [63, 64, 65, 128, 255, 256][r.below(6) as usize],
        _ => 1 + r.below(256) as usize,
    }
}

fn some_words(r: &mut Rng, length: usize) -> Vec<u32> {
    let few = r.chance(1, 2);
    (0..length).map(|_| if few { r.below(3) as u32 } else { r.next() as u32 }).collect()
}

fn some_count(r: &mut Rng) -> u32 {
    if r.chance(1, 8) { 65_529 + r.below(7) as u32 } else { r.below(8) as u32 }
}

/// A fit store: content that schedules reach, and content that none reaches.
fn some_store(r: &mut Rng) -> Store {
    let n = some_size(r);
    let mut s = new_store(n);
    (s.vol, s.pers, s.old) = (some_words(r, n), some_words(r, n), some_words(r, n));
    let marks = [0, 0, 1, 2, 5, n as u64][r.below(6) as usize];
    for _ in 0..marks {
        let word = r.below(n as u64) as usize;
        mark(&mut s, word);
    }
    s.glb = some_count(r);
    let some_word = |r: &mut Rng| r.below(n as u64) as u32;
    if r.chance(2, 5) {
        let line = 1 + r.below(6) as usize;
        s.recovery = recovery_at(line, some_word(r), r.next() as u32);
        if s.recovery == Recovery::C2 && s.marks == [0; 4] {
            s.recovery = Recovery::C1;
        }
    }
    let quiet = r.chance(1, 3);
    for i in 0..s.txs.len() {
        let number = if quiet && r.chance(7, 8) { r.below(4) } else { r.below(18) } as usize;
        let loc = match r.below(4) {
            0 => some_count(r),
            1 => s.glb ^ 1,
            _ => s.glb,
        };
        s.txs[i] = Tx { loc: loc.min(65_535), phase: phase_of(number, some_word(r), r.next() as u32) };
    }
    s
}

/// One thing wrong with it.
fn damage(r: &mut Rng, n: &mut Numbers) {
    let size = n.vol.len() as u64;
    let record = 4 * r.below(64) as usize;
    let past = |r: &mut Rng| (size + [0, 0, 1, 1000][r.below(4) as usize]) as u32;
    let odd = |r: &mut Rng| [1, 7, 8, 18, 255, PAST_32, PAST_32 + 1, HUGE][r.below(8) as usize];
    match r.below(12) {
        0 => n.vol.push(1),
        1 => n.pers.truncate(r.below(size) as usize),
        2 => n.old.push(0),
        3 => n.records.truncate(r.below(256) as usize),
        4 => n.held.resize(r.below(12) as usize, 0),
        5 => n.held[(size / 64).min(3) as usize] |= 1 << 63,
        6 => n.held[4] = 65_535 + r.below(3),
        7 => n.records[record] = 65_535 + r.below(3) as u32,
        8 => n.records[record + 1..record + 4].copy_from_slice(&[6 + r.below(9) as u32, past(r), 0]),
        9 => n.held[5..].copy_from_slice(&[3 + r.below(3), past(r) as u64, 1]),
        10 => n.held[4 + r.below(4) as usize] = odd(r),
        _ => n.records[record + 1 + r.below(3) as usize] = odd(r) as u32,
    }
}

fn some_id(r: &mut Rng) -> u64 {
    if r.chance(1, 12) { IDENTIFIERS_ASKED[r.below(10) as usize] } else { r.below(IDENTIFIERS as u64) }
}

fn some_word(r: &mut Rng, n: usize) -> u32 {
    let n = n as u32;
    if r.chance(1, 12) || n == 0 { [n, n + 1, 256, 65_536, u32::MAX][r.below(5) as usize] } else { r.below(n as u64) as u32 }
}

fn some_ask(r: &mut Rng, n: usize) -> Ask {
    match r.below(16) {
        0 => Ask::Begin { id: some_id(r) },
        1 => Ask::Read { id: some_id(r), word: some_word(r, n) },
        2 => Ask::Write { id: some_id(r), word: some_word(r, n), value: r.next() as u32 },
        3 => Ask::Commit { id: some_id(r) },
        4 => Ask::Flush { word: some_word(r, n) },
        5 => Ask::Crash,
        6 | 7 => Ask::Recover,
        8 => Ask::RecoverUpTo { allowance: [0, 1, r.below(20), r.below(1400), HUGE][r.below(5) as usize] },
        9 if r.chance(1, 4) => Ask::MakeFresh,
        _ => Ask::Step { id: some_id(r) },
    }
}

fn arbitrary(seed: u64, put: Put) {
    let mut r = Rng::new(seed ^ 0x51C6_1E00);
    let mut numbers = spell(&some_store(&mut r));
    if r.chance(1, 6) {
        for _ in 0..1 + r.below(3) {
            // a damaged length leaves no place for some of the others
            if numbers.records.len() == 256 && numbers.held.len() == 8 && !numbers.vol.is_empty() {
                damage(&mut r, &mut numbers);
            }
        }
    }
    for _ in 0..16 {
        let ask = some_ask(&mut r, numbers.vol.len());
        put(&numbers, ask);
    }
}

/// What is done next in a walk: mostly what is carried out.
fn next_ask(r: &mut Rng, s: &Store, ids: &[u64]) -> Ask {
    let n = s.vol.len();
    if r.chance(1, 10) {
        return some_ask(r, n);
    }
    if s.recovery != Recovery::Idle {
        return match r.below(12) {
            0 => Ask::Crash,
            1 => Ask::Flush { word: some_word(r, n) },
            2 => Ask::RecoverUpTo { allowance: r.below(12) },
            _ => Ask::Recover,
        };
    }
    let id = ids[r.below(ids.len() as u64) as usize];
    match s.txs[id as usize].phase {
        Phase::Fresh => Ask::Begin { id },
        Phase::Ready => match r.below(6) {
            0 | 1 => Ask::Read { id, word: some_word(r, n) },
            2 => Ask::Commit { id },
            _ => Ask::Write { id, word: some_word(r, n), value: r.next() as u32 },
        },
        Phase::Committed | Phase::Aborted => match r.below(8) {
            0 => Ask::Crash,
            1 => Ask::Flush { word: some_word(r, n) },
            _ => Ask::Step { id: some_id(r) },
        },
        _ => Ask::Step { id },
    }
}

const WALK: usize = 50;

/// A store, then calls in a row. A call that answers 9 ends it: the next would too.
fn walk(seed: u64, put: Put) {
    let mut r = Rng::new(seed ^ 0x3A1C_0000);
    let mut s = some_store(&mut r);
    if r.chance(1, 4) {
        make_fresh(&mut s);
    }
    let ids: Vec<u64> = (0..6).map(|_| r.below(IDENTIFIERS as u64)).collect();
    for _ in 0..WALK {
        let ask = next_ask(&mut r, &s, &ids);
        put(&spell(&s), ask);
        match catch_unwind(AssertUnwindSafe(|| plain(&mut s, ask))) {
            Ok((9, _)) | Err(_) => return,
            Ok(_) => {}
        }
    }
}

/// Any numbers at all are made fresh.
fn making_fresh() -> Singles {
    singles("making fresh", 20_000, 60, |seed, put| {
        let mut r = Rng::new(seed ^ 0x00F2_E5B0);
        let n = if r.chance(1, 5) { LENGTHS[r.below(10) as usize] } else { some_size(&mut r) };
        let records = if r.chance(1, 10) { r.below(300) as usize } else { 256 };
        let held = if r.chance(1, 10) { r.below(10) } else { 8 };
        let (vol, pers) = (some_words(&mut r, n), some_words(&mut r, n));
        let old = if r.chance(1, 10) { some_words(&mut r, n / 2) } else { some_words(&mut r, n) };
        let numbers = Numbers { vol, pers, old, held: (0..held).map(|_| r.next()).collect(), records: some_words(&mut r, records) };
        put(&numbers, Ask::MakeFresh);
        put(&numbers, some_ask(&mut r, n));
    })
}

/// The two groups of stores and calls at random, whose tasks are seeds.
pub fn at_random() -> Vec<Singles> {
    vec![singles("arbitrary stores", 100_000, 60, arbitrary), singles("walks of 50 calls", 40_000, 60, walk)]
}

pub fn all() -> Vec<Singles> {
    let mut all = vec![
        row_lengths(),
        other_lengths(),
        phases_and_recoveries(),
        counts_and_locs(),
        identifiers_and_words(),
        words_named(),
        marks(),
        unfit_at_once(),
        no_store(),
        allowances(),
        making_fresh(),
    ];
    all.append(&mut at_random());
    all
}
