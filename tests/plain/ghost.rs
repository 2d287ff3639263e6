//! Beside the store: the full list of committed memories, and what the
//! customer's demands 2 and 3 say, checked after every record of a replay.

use crate::store::*;
use crate::trace::*;

#[derive(Clone)]
struct GhostTx {
    live: bool,
    cleared: bool,                    // has done E2
    began: usize,                     // memory that was the last at its latest B1
    reading: u32,                     // the word of the read under way
    writing: (u32, u32),              // word and value of the write under way
    answered: Vec<(u32, u32)>,        // writes answered 3, in order
    entered: Vec<u32>,                // words that its W5 lines entered
}

fn nobody() -> GhostTx {
    GhostTx {
        live: false,
        cleared: false,
        began: 0,
        reading: 0,
        writing: (0, 0),
        answered: Vec::new(),
        entered: Vec::new(),
    }
}

pub struct Violation {
    pub record: usize,
    pub what: String,
}

pub struct Ghost {
    memories: Vec<Vec<u32>>,
    txs: Vec<GhostTx>,
    crashes: u64,
    recovery_lines: u64,
    entered_cut: u64,
    awaited: Option<(u64, u64)>, // after a crash: 5k + 2, and lines since it
    pub violations: Vec<Violation>,
}

impl Ghost {
    pub fn new(n: usize) -> Ghost {
        Ghost {
            memories: vec![vec![0; n]],
            txs: vec![nobody(); IDENTIFIERS],
            crashes: 0,
            recovery_lines: 0,
            entered_cut: 0,
            awaited: None,
            violations: Vec::new(),
        }
    }

    fn wrong(&mut self, record: usize, what: String) {
        self.violations.push(Violation { record, what });
    }

    pub fn after(&mut self, record: usize, done: Option<&Done>, s: &Store) {
        if let Some(done) = done {
            if done.answer.0 < 9 {
                self.follow(record, done, s);
            }
        }
        self.check_overlay(record, s);
        if self.recovery_lines > 5 * self.entered_cut + 4 * self.crashes {
            self.wrong(
                record,
                format!(
                    "bound: {} recovery lines, {} entered words cut, {} crashes",
                    self.recovery_lines, self.entered_cut, self.crashes
                ),
            );
        }
    }

    fn check_overlay(&mut self, record: usize, s: &Store) {
        let last = self.memories.len() - 1;
        for w in 0..s.pers.len() {
            let shown = if is_marked(&s.marks, w as u32) { s.old[w] } else { s.pers[w] };
            if shown != self.memories[last][w] {
                let due = self.memories[last][w];
                self.wrong(
                    record,
                    format!("overlay: word {} is {}, committed {}", w, shown, due),
                );
                return;
            }
        }
    }

    fn follow(&mut self, record: usize, done: &Done, s: &Store) {
        let (number, value) = done.answer;
        match done.call {
            Call::Begin { id } => {
                self.txs[id as usize] = nobody();
                self.txs[id as usize].live = true;
            }
            Call::Read { id, word } => self.txs[id as usize].reading = word as u32,
            Call::Write { id, word, value } => {
                self.txs[id as usize].writing = (word as u32, value)
            }
            Call::Commit { .. } => {}
            Call::Flush { .. } => {}
            Call::Step { id } => {
                let i = id as usize;
                if done.line == Some(Line::B1) {
                    self.txs[i].began = self.memories.len() - 1;
                }
                if done.line == Some(Line::W5) {
                    let word = self.txs[i].writing.0;
                    self.txs[i].entered.push(word);
                }
                if done.line == Some(Line::E2) {
                    self.txs[i].cleared = true;
                    let mut memory = self.memories[self.memories.len() - 1].clone();
                    for (word, value) in &self.txs[i].answered {
                        memory[*word as usize] = *value;
                    }
                    self.memories.push(memory);
                }
                if number == 3 {
                    let w = self.txs[i].writing;
                    self.txs[i].answered.push(w);
                }
                if number == 2 {
                    self.check_read(record, i, value);
                }
                if number == 4 || number == 5 {
                    self.txs[i].live = false;
                }
            }
            Call::Crash => {
                self.crashes += 1;
                for i in 0..IDENTIFIERS {
                    if self.txs[i].live && !self.txs[i].cleared {
                        self.entered_cut += self.txs[i].entered.len() as u64;
                    }
                    self.txs[i].live = false;
                }
                let mut k = 0;
                for w in 0..s.pers.len() {
                    if is_marked(&s.marks, w as u32) {
                        k += 1;
                    }
                }
                self.awaited = Some((5 * k + 2, 0));
            }
            Call::Recover => {
                self.recovery_lines += 1;
                match self.awaited {
                    None => self.wrong(record, "recovery line with no crash awaited".to_string()),
                    Some((due, before)) => {
                        let now = before + 1;
                        if number == 6 && now != due {
                            self.wrong(record, format!("5k+2: done after {}, due {}", now, due));
                        }
                        if number != 6 && now >= due {
                            self.wrong(record, format!("5k+2: not done after {}, due {}", now, due));
                        }
                        self.awaited = if number == 6 { None } else { Some((due, now)) };
                    }
                }
                if number == 6 {
                    self.check_sides(record, s);
                }
            }
        }
    }

    fn check_read(&mut self, record: usize, i: usize, value: u64) {
        let word = self.txs[i].reading;
        let mut due = self.memories[self.txs[i].began][word as usize];
        for (w, v) in &self.txs[i].answered {
            if *w == word {
                due = *v;
            }
        }
        if value != due as u64 {
            self.wrong(
                record,
                format!("read: transaction {} word {} shows {}, due {}", i, word, value, due),
            );
        }
    }

    fn check_sides(&mut self, record: usize, s: &Store) {
        let last = self.memories.len() - 1;
        for w in 0..s.pers.len() {
            let due = self.memories[last][w];
            if s.vol[w] != due || s.pers[w] != due {
                self.wrong(
                    record,
                    format!(
                        "recovered: word {} volatile {} persistent {}, committed {}",
                        w, s.vol[w], s.pers[w], due
                    ),
                );
                return;
            }
        }
    }
}

/// The replay's output and every violation.
pub fn check(bytes: &[u8]) -> (String, Vec<Violation>) {
    let n = read_header(bytes).unwrap_or(256);
    let mut s = new_store(n);
    let mut ghost = Ghost::new(n);
    let outcome = run(bytes, &mut s, &mut |record, done, s| ghost.after(record, done, s));
    let t = totals(&outcome.history);
    let records = outcome.history.len();
    if t.entered_cut != ghost.entered_cut
        || t.crashes != ghost.crashes
        || t.recovery_lines != ghost.recovery_lines
    {
        ghost.wrong(records, "totals: the T line and the ghost count differ".to_string());
    }
    (print_outcome(&outcome), ghost.violations)
}
