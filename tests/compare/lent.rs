//! One single call: what the library makes of a store that is lent to it as numbers, and what the plain program makes of the store.

use crate::exports::*;
use crate::store::{self, Phase, Recovery, Store, Tx};
use std::fmt::Write;
use std::panic::{catch_unwind, AssertUnwindSafe};

#[derive(Clone, Copy, Debug)]
pub enum Ask {
    MakeFresh,
    Begin { id: u64 },
    Read { id: u64, word: u32 },
    Write { id: u64, word: u32, value: u32 },
    Commit { id: u64 },
    Step { id: u64 },
    Flush { word: u32 },
    Crash,
    Recover,
    RecoverUpTo { allowance: u64 },
}

/// Whether the library puts the answer's value into a row; the value of every other call is 0.
fn tells(ask: Ask) -> bool {
    matches!(ask, Ask::Step { .. } | Ask::RecoverUpTo { .. })
}

/// A store as numbers, or numbers that spell none.
#[derive(Clone, PartialEq, Eq)]
pub struct Numbers {
    pub vol: Vec<u32>,
    pub pers: Vec<u32>,
    pub old: Vec<u32>,
    pub held: Vec<u64>,
    pub records: Vec<u32>,
}

// ---- the spelling ----

pub fn spell_tx(tx: &Tx) -> [u32; 4] {
    let (phase, word, value) = match tx.phase {
        Phase::Fresh => (0, 0, 0),
        Phase::Ready => (1, 0, 0),
        Phase::Committed => (2, 0, 0),
        Phase::Aborted => (3, 0, 0),
        Phase::B1 => (4, 0, 0),
        Phase::B2 => (5, 0, 0),
        Phase::R1 { word } => (6, word, 0),
        Phase::R2 { value } => (7, 0, value),
        Phase::W1 { word, value } => (8, word, value),
        Phase::W2 { word, value } => (9, word, value),
        Phase::W3 { word, value } => (10, word, value),
        Phase::W4 { word, value } => (11, word, value),
        Phase::W5 { word, value } => (12, word, value),
        Phase::W6 { word, value } => (13, word, value),
        Phase::W7 { word } => (14, word, 0),
        Phase::E1 => (15, 0, 0),
        Phase::E2 => (16, 0, 0),
        Phase::E3 => (17, 0, 0),
    };
    [tx.loc, phase, word, value]
}

/// The phase of that number, with the word and the value if it has them.
pub fn phase(number: u32, word: u32, value: u32) -> Option<Phase> {
    Some(match number {
        0 => Phase::Fresh,
        1 => Phase::Ready,
        2 => Phase::Committed,
        3 => Phase::Aborted,
        4 => Phase::B1,
        5 => Phase::B2,
        6 => Phase::R1 { word },
        7 => Phase::R2 { value },
        8 => Phase::W1 { word, value },
        9 => Phase::W2 { word, value },
        10 => Phase::W3 { word, value },
        11 => Phase::W4 { word, value },
        12 => Phase::W5 { word, value },
        13 => Phase::W6 { word, value },
        14 => Phase::W7 { word },
        15 => Phase::E1,
        16 => Phase::E2,
        17 => Phase::E3,
        _ => return None,
    })
}

/// Recovery at that line, with the word and the value if it has them.
pub fn recovery(line: u64, word: u32, value: u32) -> Option<Recovery> {
    Some(match line {
        0 => Recovery::Idle,
        1 => Recovery::C1,
        2 => Recovery::C2,
        3 => Recovery::C3 { word, value },
        4 => Recovery::C4 { word, value },
        5 => Recovery::C5 { word, value },
        6 => Recovery::C6,
        _ => return None,
    })
}

pub fn spell(s: &Store) -> Numbers {
    let (line, word, value) = match s.recovery {
        Recovery::Idle => (0, 0, 0),
        Recovery::C1 => (1, 0, 0),
        Recovery::C2 => (2, 0, 0),
        Recovery::C3 { word, value } => (3, word, value),
        Recovery::C4 { word, value } => (4, word, value),
        Recovery::C5 { word, value } => (5, word, value),
        Recovery::C6 => (6, 0, 0),
    };
    let mut held = s.marks.to_vec();
    held.extend([s.glb as u64, line, word as u64, value as u64]);
    let mut records = Vec::with_capacity(4 * s.txs.len());
    for tx in &s.txs {
        records.extend(spell_tx(tx));
    }
    Numbers { vol: s.vol.clone(), pers: s.pers.clone(), old: s.old.clone(), held, records }
}

/// The store that the numbers spell, if they spell one: what a phase or recovery has no use for is 0, and the count, a word and a value have 32 bits.
pub fn read(n: &Numbers) -> Option<Store> {
    if n.held.len() != 8 || n.records.len() % 4 != 0 {
        return None;
    }
    let narrow = |x: u64| u32::try_from(x).ok();
    let (word, value) = (narrow(n.held[6])?, narrow(n.held[7])?);
    let recovery = recovery(n.held[5], word, value)?;
    let at_a_word = matches!(recovery, Recovery::C3 { .. } | Recovery::C4 { .. } | Recovery::C5 { .. });
    if !at_a_word && (word, value) != (0, 0) {
        return None;
    }
    let mut txs = Vec::with_capacity(n.records.len() / 4);
    for four in n.records.chunks(4) {
        let phase = phase(four[1], four[2], four[3])?;
        let tx = Tx { loc: four[0], phase };
        if spell_tx(&tx) != four {
            return None;
        }
        txs.push(tx);
    }
    let marks = [n.held[0], n.held[1], n.held[2], n.held[3]];
    Some(Store { vol: n.vol.clone(), pers: n.pers.clone(), old: n.old.clone(), marks, glb: narrow(n.held[4])?, recovery, txs })
}

// ---- the plain program ----

pub fn plain(s: &mut Store, ask: Ask) -> (u64, u64) {
    // an identifier past 32 bits is past every row
    let narrow = |x: u64| x.min(u32::MAX as u64) as u32;
    let (number, value) = match ask {
        Ask::MakeFresh => store::make_fresh(s),
        Ask::Begin { id } => store::begin(s, narrow(id)),
        Ask::Read { id, word } => store::read(s, narrow(id), word),
        Ask::Write { id, word, value } => store::write(s, narrow(id), word, value),
        Ask::Commit { id } => store::commit(s, narrow(id)),
        Ask::Step { id } => store::step(s, narrow(id)),
        Ask::Flush { word } => store::flush(s, word),
        Ask::Crash => store::crash(s),
        Ask::Recover => store::recover(s),
        Ask::RecoverUpTo { allowance } => store::recover_up_to(s, allowance),
    };
    (number as u64, value)
}

/// What is due: numbers that spell no store are an unfit store, but making fresh looks at the lengths alone.
fn due(before: &Numbers, ask: Ask) -> (u64, u64, Numbers) {
    let refused = || (9, 0, before.clone());
    let lengths = before.held.len() == 8 && before.records.len() == 4 * store::IDENTIFIERS;
    let mut s = match (ask, read(before)) {
        (Ask::MakeFresh, _) if !lengths => return refused(),
        (_, Some(s)) => s,
        (Ask::MakeFresh, None) => {
            let mut any = store::new_store(0);
            (any.vol, any.pers, any.old) = (before.vol.clone(), before.pers.clone(), before.old.clone());
            any
        }
        (_, None) => return refused(),
    };
    match (ask, plain(&mut s, ask)) {
        (Ask::MakeFresh, (9, 0)) => refused(),
        (_, (number, value)) => (number, value, spell(&s)),
    }
}

// ---- the library ----

const MARGIN: usize = 2;
const BEFORE: u64 = 0xA5A5_A5A5_A5A5_A5A5;

/// A row that is lent again and again, with a margin on both sides that has to stay as it is.
struct Row<T> {
    all: Vec<T>,
    margin: T,
}

impl<T: Copy + PartialEq> Row<T> {
    fn new(margin: T) -> Row<T> {
        Row { all: Vec::new(), margin }
    }

    fn fill(&mut self, numbers: &[T]) {
        self.all.clear();
        self.all.resize(MARGIN, self.margin);
        self.all.extend_from_slice(numbers);
        self.all.resize(2 * MARGIN + numbers.len(), self.margin);
    }

    fn row(&self) -> &[T] {
        &self.all[MARGIN..self.all.len() - MARGIN]
    }

    fn lend(&mut self) -> (*mut T, usize) {
        let end = self.all.len() - MARGIN;
        let row = &mut self.all[MARGIN..end];
        (row.as_mut_ptr(), row.len())
    }

    fn untouched(&self) -> bool {
        let end = self.all.len() - MARGIN;
        self.all[..MARGIN].iter().chain(&self.all[end..]).all(|x| *x == self.margin)
    }
}

/// The rows that are lent to the library.
pub struct Lent {
    vol: Row<u32>,
    pers: Row<u32>,
    old: Row<u32>,
    held: Row<u64>,
    records: Row<u32>,
    value: Row<u64>,
}

impl Lent {
    pub fn new() -> Lent {
        let words = || Row::new(BEFORE as u32);
        Lent { vol: words(), pers: words(), old: words(), held: Row::new(BEFORE), records: words(), value: Row::new(BEFORE) }
    }

    /// The proved call, with a row of so many numbers for the value; gives the answer's number.
    fn call(&mut self, before: &Numbers, ask: Ask, room: usize) -> u64 {
        self.vol.fill(&before.vol);
        self.pers.fill(&before.pers);
        self.old.fill(&before.old);
        self.held.fill(&before.held);
        self.records.fill(&before.records);
        self.value.fill(&vec![BEFORE; room]);
        let ((v, vs), (p, ps), (o, os)) = (self.vol.lend(), self.pers.lend(), self.old.lend());
        let ((h, hs), (r, rs), (x, xs)) = (self.held.lend(), self.records.lend(), self.value.lend());
        // SAFETY: rows that do not overlap, each as pointer and length, which is how the library takes them
        unsafe {
            match ask {
                Ask::MakeFresh => register_make_fresh(v, vs, p, ps, o, os, h, hs, r, rs),
                Ask::Begin { id } => register_begin(v, vs, p, ps, o, os, h, hs, r, rs, id),
                Ask::Read { id, word } => register_read(v, vs, p, ps, o, os, h, hs, r, rs, id, word),
                Ask::Write { id, word, value } => register_write(v, vs, p, ps, o, os, h, hs, r, rs, id, word, value),
                Ask::Commit { id } => register_commit(v, vs, p, ps, o, os, h, hs, r, rs, id),
                Ask::Step { id } => register_step(v, vs, p, ps, o, os, h, hs, r, rs, id, x, xs),
                Ask::Flush { word } => register_flush(v, vs, p, ps, o, os, h, hs, r, rs, word),
                Ask::Crash => register_crash(v, vs, p, ps, o, os, h, hs, r, rs),
                Ask::Recover => register_recover(v, vs, p, ps, o, os, h, hs, r, rs),
                Ask::RecoverUpTo { allowance } => register_recover_up_to(v, vs, p, ps, o, os, h, hs, r, rs, allowance, x, xs),
            }
        }
    }

    /// The row for the value, as it is due: a refused call leaves it.
    fn value_due(&self, ask: Ask, number: u64, value: u64) -> Vec<u64> {
        let mut row = vec![BEFORE; self.value.row().len()];
        if tells(ask) && number < 9 && !row.is_empty() {
            row[0] = value;
        }
        row
    }

    /// What the library wrote where it had nothing to write.
    fn touched(&self) -> Option<String> {
        let words = self.vol.untouched() && self.pers.untouched() && self.old.untouched();
        if words && self.held.untouched() && self.records.untouched() && self.value.untouched() {
            return None;
        }
        Some("  the library wrote beside a row".to_string())
    }
}

// ---- both ----

fn first<T: PartialEq + std::fmt::Display>(row: &str, library: &[T], plain: &[T]) -> Option<String> {
    if library.len() != plain.len() {
        return Some(format!("  {}: proved: {} numbers\n  {}: plain:  {} numbers", row, library.len(), row, plain.len()));
    }
    let at = (0..plain.len()).find(|i| library[*i] != plain[*i])?;
    let place = if plain.len() == 1 { row.to_string() } else { format!("{}[{}]", row, at) };
    Some(format!("  {}: proved: {}\n  {}: plain:  {}", place, library[at], place, plain[at]))
}

/// What differs in the whole outcome of a call. The row for the value has so many numbers.
pub fn judge(before: &Numbers, ask: Ask, room: usize, lent: &mut Lent) -> Option<String> {
    let Ok((number, value, after)) = catch_unwind(AssertUnwindSafe(|| due(before, ask))) else {
        return Some("  the plain program panics".to_string());
    };
    let library = lent.call(before, ask, room);
    first("answer", &[library], &[number])
        .or_else(|| first("value", &[if tells(ask) { value } else { 0 }], &[value]))
        .or_else(|| first("value", lent.value.row(), &lent.value_due(ask, number, value)))
        .or_else(|| first("volatile", lent.vol.row(), &after.vol))
        .or_else(|| first("persistent", lent.pers.row(), &after.pers))
        .or_else(|| first("old", lent.old.row(), &after.old))
        .or_else(|| first("held", lent.held.row(), &after.held))
        .or_else(|| first("records", lent.records.row(), &after.records))
        .or_else(|| lent.touched())
}

/// A call and the numbers before it, to be kept in a file.
pub fn text(before: &Numbers, ask: Ask) -> String {
    let mut text = format!("{:?}\n", ask);
    let rows = [("volatile", &before.vol), ("persistent", &before.pers), ("old", &before.old), ("records", &before.records)];
    let _ = writeln!(text, "held {:?}", before.held);
    for (name, row) in rows {
        let _ = writeln!(text, "{} {:?}", name, row);
    }
    text
}
