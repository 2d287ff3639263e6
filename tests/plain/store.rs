//! The store of document 01, written as directly as possible: one match arm for
//! each numbered line, one function for each call. It uses no other file.

pub const IDENTIFIERS: usize = 64;
pub const MOST_WORDS: usize = 256;
pub const MOST_COUNT: u32 = 65_535;

#[derive(Clone, Copy, PartialEq, Eq, Debug)]
pub enum Phase {
    Fresh,
    Ready,
    Committed,
    Aborted,
    B1,
    B2,
    R1 { word: u32 },
    R2 { value: u32 },
    W1 { word: u32, value: u32 },
    W2 { word: u32, value: u32 },
    W3 { word: u32, value: u32 },
    W4 { word: u32, value: u32 },
    W5 { word: u32, value: u32 },
    W6 { word: u32, value: u32 },
    W7 { word: u32 },
    E1,
    E2,
    E3,
}

#[derive(Clone, Copy, PartialEq, Eq, Debug)]
pub enum Recovery {
    Idle,
    C1,
    C2,
    C3 { word: u32, value: u32 },
    C4 { word: u32, value: u32 },
    C5 { word: u32, value: u32 },
    C6,
}

#[derive(Clone, Copy, PartialEq, Eq, Debug)]
pub struct Tx {
    pub loc: u32,
    pub phase: Phase,
}

#[derive(Clone, PartialEq, Eq, Debug)]
pub struct Store {
    pub vol: Vec<u32>,
    pub pers: Vec<u32>,
    pub old: Vec<u32>,
    pub marks: [u64; 4],
    pub glb: u32,
    pub recovery: Recovery,
    pub txs: Vec<Tx>,
}

/// A number and a value.
pub type Answer = (u32, u64);

/// Rows of n words and 64 records, all fresh.
pub fn new_store(n: usize) -> Store {
    Store {
        vol: vec![0; n],
        pers: vec![0; n],
        old: vec![0; n],
        marks: [0; 4],
        glb: 0,
        recovery: Recovery::Idle,
        txs: vec![Tx { loc: 0, phase: Phase::Fresh }; IDENTIFIERS],
    }
}

// ---- the marks ----

pub fn is_marked(marks: &[u64; 4], word: u32) -> bool {
    let i = word as usize;
    i < 256 && (marks[i / 64] >> (i % 64)) & 1 == 1
}

fn set_mark(marks: &mut [u64; 4], word: u32) {
    let i = word as usize;
    marks[i / 64] |= 1u64 << (i % 64);
}

fn clear_mark(marks: &mut [u64; 4], word: u32) {
    let i = word as usize;
    marks[i / 64] &= !(1u64 << (i % 64));
}

fn no_mark(marks: &[u64; 4]) -> bool {
    marks[0] == 0 && marks[1] == 0 && marks[2] == 0 && marks[3] == 0
}

fn lowest_mark(marks: &[u64; 4]) -> Option<u32> {
    let mut word = 0;
    while word < 256 {
        if is_marked(marks, word) {
            return Some(word);
        }
        word += 1;
    }
    None
}

// ---- fitness ----

/// The length conditions under Unfit.
pub fn lengths_fit(s: &Store) -> bool {
    if s.vol.len() != s.pers.len() {
        return false;
    }
    if s.vol.len() != s.old.len() {
        return false;
    }
    if s.vol.len() == 0 {
        return false;
    }
    if s.vol.len() > MOST_WORDS {
        return false;
    }
    if s.txs.len() != IDENTIFIERS {
        return false;
    }
    true
}

fn word_of_phase(phase: Phase) -> Option<u32> {
    match phase {
        Phase::Fresh => None,
        Phase::Ready => None,
        Phase::Committed => None,
        Phase::Aborted => None,
        Phase::B1 => None,
        Phase::B2 => None,
        Phase::R1 { word } => Some(word),
        Phase::R2 { value: _ } => None,
        Phase::W1 { word, value: _ } => Some(word),
        Phase::W2 { word, value: _ } => Some(word),
        Phase::W3 { word, value: _ } => Some(word),
        Phase::W4 { word, value: _ } => Some(word),
        Phase::W5 { word, value: _ } => Some(word),
        Phase::W6 { word, value: _ } => Some(word),
        Phase::W7 { word } => Some(word),
        Phase::E1 => None,
        Phase::E2 => None,
        Phase::E3 => None,
    }
}

fn word_of_recovery(recovery: Recovery) -> Option<u32> {
    match recovery {
        Recovery::Idle => None,
        Recovery::C1 => None,
        Recovery::C2 => None,
        Recovery::C3 { word, value: _ } => Some(word),
        Recovery::C4 { word, value: _ } => Some(word),
        Recovery::C5 { word, value: _ } => Some(word),
        Recovery::C6 => None,
    }
}

/// 01, "Unfit", the other way round.
pub fn fit(s: &Store) -> bool {
    if !lengths_fit(s) {
        return false;
    }
    let n = s.vol.len() as u32;
    let mut word = n;
    while word < 256 {
        if is_marked(&s.marks, word) {
            return false;
        }
        word += 1;
    }
    if s.glb > MOST_COUNT {
        return false;
    }
    for tx in &s.txs {
        if tx.loc > MOST_COUNT {
            return false;
        }
        if let Some(word) = word_of_phase(tx.phase) {
            if word >= n {
                return false;
            }
        }
    }
    if let Some(word) = word_of_recovery(s.recovery) {
        if word >= n {
            return false;
        }
    }
    if s.recovery == Recovery::C2 && no_mark(&s.marks) {
        return false;
    }
    true
}

// ---- the calls ----

pub fn make_fresh(s: &mut Store) -> Answer {
    if !lengths_fit(s) {
        return (9, 0);
    }
    for i in 0..s.vol.len() {
        s.vol[i] = 0;
        s.pers[i] = 0;
        s.old[i] = 0;
    }
    s.marks = [0; 4];
    s.glb = 0;
    s.recovery = Recovery::Idle;
    for i in 0..s.txs.len() {
        s.txs[i] = Tx { loc: 0, phase: Phase::Fresh };
    }
    (0, 0)
}

pub fn begin(s: &mut Store, id: u32) -> Answer {
    if !fit(s) {
        return (9, 0);
    }
    if id >= 64 {
        return (11, 0);
    }
    if s.recovery != Recovery::Idle {
        return (12, 0);
    }
    if s.txs[id as usize].phase != Phase::Fresh {
        return (13, 0);
    }
    s.txs[id as usize].phase = Phase::B1;
    (0, 0)
}

pub fn read(s: &mut Store, id: u32, word: u32) -> Answer {
    if !fit(s) {
        return (9, 0);
    }
    if id >= 64 {
        return (11, 0);
    }
    if word as usize >= s.vol.len() {
        return (10, 0);
    }
    if s.recovery != Recovery::Idle {
        return (12, 0);
    }
    if s.txs[id as usize].phase != Phase::Ready {
        return (14, 0);
    }
    s.txs[id as usize].phase = Phase::R1 { word };
    (0, 0)
}

pub fn write(s: &mut Store, id: u32, word: u32, value: u32) -> Answer {
    if !fit(s) {
        return (9, 0);
    }
    if id >= 64 {
        return (11, 0);
    }
    if word as usize >= s.vol.len() {
        return (10, 0);
    }
    if s.recovery != Recovery::Idle {
        return (12, 0);
    }
    if s.txs[id as usize].phase != Phase::Ready {
        return (14, 0);
    }
    s.txs[id as usize].phase = Phase::W1 { word, value };
    (0, 0)
}

pub fn commit(s: &mut Store, id: u32) -> Answer {
    if !fit(s) {
        return (9, 0);
    }
    if id >= 64 {
        return (11, 0);
    }
    if s.recovery != Recovery::Idle {
        return (12, 0);
    }
    if s.txs[id as usize].phase != Phase::Ready {
        return (14, 0);
    }
    s.txs[id as usize].phase = Phase::E1;
    (0, 0)
}

pub fn step(s: &mut Store, id: u32) -> Answer {
    if !fit(s) {
        return (9, 0);
    }
    if id >= 64 {
        return (11, 0);
    }
    if s.recovery != Recovery::Idle {
        return (12, 0);
    }
    let i = id as usize;
    match s.txs[i].phase {
        Phase::Fresh => (15, 0),
        Phase::Ready => (15, 0),
        Phase::Committed => (15, 0),
        Phase::Aborted => (15, 0),
        Phase::B1 => {
            s.txs[i].loc = s.glb;
            s.txs[i].phase = Phase::B2;
            (0, 0)
        }
        Phase::B2 => {
            if s.txs[i].loc % 2 == 0 {
                s.txs[i].phase = Phase::Ready;
                (1, 0)
            } else {
                s.txs[i].phase = Phase::B1;
                (0, 0)
            }
        }
        Phase::R1 { word } => {
            let value = s.vol[word as usize];
            s.txs[i].phase = Phase::R2 { value };
            (0, 0)
        }
        Phase::R2 { value } => {
            if s.glb == s.txs[i].loc {
                s.txs[i].phase = Phase::Ready;
                (2, value as u64)
            } else {
                s.txs[i].phase = Phase::Aborted;
                (5, 0)
            }
        }
        Phase::W1 { word, value } => {
            if s.txs[i].loc % 2 == 0 {
                s.txs[i].phase = Phase::W2 { word, value };
            } else {
                s.txs[i].phase = Phase::W4 { word, value };
            }
            (0, 0)
        }
        Phase::W2 { word, value } => {
            if s.glb == s.txs[i].loc {
                s.glb = s.glb + 1;
                s.txs[i].phase = Phase::W3 { word, value };
                (0, 0)
            } else {
                s.txs[i].phase = Phase::Aborted;
                (5, 0)
            }
        }
        Phase::W3 { word, value } => {
            s.txs[i].loc = s.txs[i].loc + 1;
            s.txs[i].phase = Phase::W4 { word, value };
            (0, 0)
        }
        Phase::W4 { word, value } => {
            if is_marked(&s.marks, word) {
                s.txs[i].phase = Phase::W6 { word, value };
            } else {
                s.txs[i].phase = Phase::W5 { word, value };
            }
            (0, 0)
        }
        Phase::W5 { word, value } => {
            s.old[word as usize] = s.vol[word as usize];
            set_mark(&mut s.marks, word);
            s.txs[i].phase = Phase::W6 { word, value };
            (0, 0)
        }
        Phase::W6 { word, value } => {
            s.vol[word as usize] = value;
            s.txs[i].phase = Phase::W7 { word };
            (0, 0)
        }
        Phase::W7 { word } => {
            s.pers[word as usize] = s.vol[word as usize];
            s.txs[i].phase = Phase::Ready;
            (3, 0)
        }
        Phase::E1 => {
            if s.txs[i].loc % 2 == 1 {
                s.txs[i].phase = Phase::E2;
                (0, 0)
            } else {
                s.txs[i].phase = Phase::Committed;
                (4, 0)
            }
        }
        Phase::E2 => {
            s.marks = [0; 4];
            s.txs[i].phase = Phase::E3;
            (0, 0)
        }
        Phase::E3 => {
            s.glb = s.txs[i].loc + 1;
            s.txs[i].phase = Phase::Committed;
            (4, 0)
        }
    }
}

/// The system flush of one word.
pub fn flush(s: &mut Store, word: u32) -> Answer {
    if !fit(s) {
        return (9, 0);
    }
    if word as usize >= s.vol.len() {
        return (10, 0);
    }
    s.pers[word as usize] = s.vol[word as usize];
    (0, 0)
}

pub fn crash(s: &mut Store) -> Answer {
    if !fit(s) {
        return (9, 0);
    }
    for i in 0..s.vol.len() {
        s.vol[i] = s.pers[i];
    }
    s.glb = 0;
    s.recovery = Recovery::C1;
    for i in 0..s.txs.len() {
        match s.txs[i].phase {
            Phase::Fresh => {}
            Phase::Committed => {}
            Phase::Aborted => {}
            _ => s.txs[i].phase = Phase::Aborted,
        }
    }
    (0, 0)
}

/// One recovery line.
pub fn recover(s: &mut Store) -> Answer {
    if !fit(s) {
        return (9, 0);
    }
    match s.recovery {
        Recovery::Idle => (16, 0),
        Recovery::C1 => {
            if no_mark(&s.marks) {
                s.recovery = Recovery::C6;
            } else {
                s.recovery = Recovery::C2;
            }
            (0, 0)
        }
        Recovery::C2 => match lowest_mark(&s.marks) {
            Some(word) => {
                let value = s.old[word as usize];
                s.recovery = Recovery::C3 { word, value };
                (0, 0)
            }
            None => (9, 0), // fit() has shut this out
        },
        Recovery::C3 { word, value } => {
            s.vol[word as usize] = value;
            s.recovery = Recovery::C4 { word, value };
            (0, 0)
        }
        Recovery::C4 { word, value } => {
            s.pers[word as usize] = s.vol[word as usize];
            s.recovery = Recovery::C5 { word, value };
            (0, 0)
        }
        Recovery::C5 { word, value: _ } => {
            clear_mark(&mut s.marks, word);
            s.recovery = Recovery::C1;
            (0, 0)
        }
        Recovery::C6 => {
            s.glb = 0;
            s.recovery = Recovery::Idle;
            (6, 0)
        }
    }
}

/// Recovery with an allowance: b lines, or all that are left up to and with C6.
/// No trace has this call, so the program has no use for it.
#[allow(dead_code)]
pub fn recover_up_to(s: &mut Store, b: u64) -> Answer {
    if !fit(s) {
        return (9, 0);
    }
    if s.recovery == Recovery::Idle {
        return (16, 0);
    }
    let mut done: u64 = 0;
    while done < b {
        let (number, _) = recover(s);
        done += 1;
        if number == 6 {
            return (6, done);
        }
    }
    (0, done)
}
