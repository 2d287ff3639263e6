//! The trace of document 01: header, records, refusals, and the replay.

use crate::store::*;

pub const MOST_BYTES: usize = 65_536;

#[derive(Clone, Copy, PartialEq, Eq, Debug)]
pub enum Call {
    Begin { id: u8 },
    Read { id: u8, word: u8 },
    Write { id: u8, word: u8, value: u32 },
    Commit { id: u8 },
    Step { id: u8 },
    Flush { word: u8 },
    Crash,
    Recover,
}

/// The name of a numbered line.
#[derive(Clone, Copy, PartialEq, Eq, Debug)]
pub enum Line {
    B1, B2, R1, R2, W1, W2, W3, W4, W5, W6, W7, E1, E2, E3,
    C1, C2, C3, C4, C5, C6,
}

/// One record that was done: the call, its answer, and the numbered line that
/// it carried out, if it carried out one.
#[derive(Clone, Copy, PartialEq, Eq, Debug)]
pub struct Done {
    pub call: Call,
    pub answer: Answer,
    pub line: Option<Line>,
}

/// N, or the refusal.
pub fn read_header(bytes: &[u8]) -> Result<usize, u32> {
    if bytes.len() > MOST_BYTES {
        return Err(22);
    }
    if bytes.len() == 0 {
        return Err(20);
    }
    if bytes[0] != 1 {
        return Err(19);
    }
    if bytes.len() < 3 {
        return Err(20);
    }
    let n = bytes[1] as usize * 256 + bytes[2] as usize;
    if n < 1 || n > 256 {
        return Err(21);
    }
    Ok(n)
}

/// The record at `at`: nothing at the end, a call and the place after it, or a refusal.
pub fn read_record(bytes: &[u8], at: usize) -> Result<Option<(Call, usize)>, u32> {
    let left = bytes.len() - at;
    if left == 0 {
        return Ok(None);
    }
    if left == 1 {
        return Err(20);
    }
    let length = bytes[at] as usize * 256 + bytes[at + 1] as usize;
    if length == 0 {
        return Err(18);
    }
    if length > left - 2 {
        return Err(20);
    }
    let body = &bytes[at + 2..at + 2 + length];
    let call = match body[0] {
        1 => {
            if length != 2 {
                return Err(18);
            }
            Call::Begin { id: body[1] }
        }
        2 => {
            if length != 3 {
                return Err(18);
            }
            Call::Read { id: body[1], word: body[2] }
        }
        3 => {
            if length != 7 {
                return Err(18);
            }
            let value = u32::from_be_bytes([body[3], body[4], body[5], body[6]]);
            Call::Write { id: body[1], word: body[2], value }
        }
        4 => {
            if length != 2 {
                return Err(18);
            }
            Call::Commit { id: body[1] }
        }
        5 => {
            if length != 2 {
                return Err(18);
            }
            Call::Step { id: body[1] }
        }
        6 => {
            if length != 2 {
                return Err(18);
            }
            Call::Flush { word: body[1] }
        }
        7 => {
            if length != 1 {
                return Err(18);
            }
            Call::Crash
        }
        8 => {
            if length != 1 {
                return Err(18);
            }
            Call::Recover
        }
        _ => return Err(17),
    };
    Ok(Some((call, at + 2 + length)))
}

/// The numbered line that a call would carry out, if it is taken.
pub fn line_ahead(s: &Store, call: Call) -> Option<Line> {
    match call {
        Call::Step { id } => match s.txs.get(id as usize)?.phase {
            Phase::Fresh | Phase::Ready | Phase::Committed | Phase::Aborted => None,
            Phase::B1 => Some(Line::B1),
            Phase::B2 => Some(Line::B2),
            Phase::R1 { .. } => Some(Line::R1),
            Phase::R2 { .. } => Some(Line::R2),
            Phase::W1 { .. } => Some(Line::W1),
            Phase::W2 { .. } => Some(Line::W2),
            Phase::W3 { .. } => Some(Line::W3),
            Phase::W4 { .. } => Some(Line::W4),
            Phase::W5 { .. } => Some(Line::W5),
            Phase::W6 { .. } => Some(Line::W6),
            Phase::W7 { .. } => Some(Line::W7),
            Phase::E1 => Some(Line::E1),
            Phase::E2 => Some(Line::E2),
            Phase::E3 => Some(Line::E3),
        },
        Call::Recover => match s.recovery {
            Recovery::Idle => None,
            Recovery::C1 => Some(Line::C1),
            Recovery::C2 => Some(Line::C2),
            Recovery::C3 { .. } => Some(Line::C3),
            Recovery::C4 { .. } => Some(Line::C4),
            Recovery::C5 { .. } => Some(Line::C5),
            Recovery::C6 => Some(Line::C6),
        },
        _ => None,
    }
}

/// One call on the store.
pub fn do_call(s: &mut Store, call: Call) -> Done {
    let ahead = line_ahead(s, call);
    let answer = match call {
        Call::Begin { id } => begin(s, id as u32),
        Call::Read { id, word } => read(s, id as u32, word as u32),
        Call::Write { id, word, value } => write(s, id as u32, word as u32, value),
        Call::Commit { id } => commit(s, id as u32),
        Call::Step { id } => step(s, id as u32),
        Call::Flush { word } => flush(s, word as u32),
        Call::Crash => crash(s),
        Call::Recover => recover(s),
    };
    let line = if answer.0 >= 9 { None } else { ahead };
    Done { call, answer, line }
}

/// What a replay gives: the records done, and where a refusal stopped it
/// (refusal, record number; 0 for the header).
pub struct Outcome {
    pub history: Vec<Done>,
    pub stop: Option<(u32, usize)>,
}

/// Replays on lent rows. `after` is called once after the store is made fresh
/// (record number 0, no record) and once after each record.
pub fn run(
    bytes: &[u8],
    s: &mut Store,
    after: &mut dyn FnMut(usize, Option<&Done>, &Store),
) -> Outcome {
    let mut history = Vec::new();
    let n = match read_header(bytes) {
        Ok(n) => n,
        Err(refusal) => return Outcome { history, stop: Some((refusal, 0)) },
    };
    if s.vol.len() != n || s.pers.len() != n || s.old.len() != n || s.txs.len() != IDENTIFIERS {
        return Outcome { history, stop: Some((9, 0)) };
    }
    make_fresh(s);
    after(0, None, s);
    let mut at = 3;
    loop {
        match read_record(bytes, at) {
            Ok(None) => return Outcome { history, stop: None },
            Err(refusal) => {
                let number = history.len() + 1;
                return Outcome { history, stop: Some((refusal, number)) };
            }
            Ok(Some((call, next))) => {
                let done = do_call(s, call);
                history.push(done);
                after(history.len(), Some(&done), s);
                at = next;
            }
        }
    }
}

/// The five numbers of the T line.
#[derive(Clone, Copy, PartialEq, Eq, Debug, Default)]
pub struct Totals {
    pub records: u64,
    pub crashes: u64,
    pub recovery_lines: u64,
    pub entered_cut: u64,
    pub committed: u64,
}

/// A transaction as its history alone shows it.
#[derive(Clone, Copy)]
struct Past {
    live: bool,
    cleared: bool,
    entered: u64,
}

/// The five numbers, counted over the history of records done and nothing else.
pub fn totals(history: &[Done]) -> Totals {
    let mut t = Totals::default();
    let mut past = [Past { live: false, cleared: false, entered: 0 }; IDENTIFIERS];
    for done in history {
        t.records += 1;
        let (number, _) = done.answer;
        if number >= 9 {
            continue;
        }
        match done.call {
            Call::Begin { id } => {
                past[id as usize] = Past { live: true, cleared: false, entered: 0 };
            }
            Call::Step { id } => {
                let p = &mut past[id as usize];
                if done.line == Some(Line::W5) {
                    p.entered += 1;
                }
                if done.line == Some(Line::E2) {
                    p.cleared = true;
                }
                if number == 4 {
                    t.committed += 1;
                    p.live = false;
                }
                if number == 5 {
                    p.live = false;
                }
            }
            Call::Crash => {
                t.crashes += 1;
                for p in past.iter_mut() {
                    if p.live && !p.cleared {
                        t.entered_cut += p.entered;
                    }
                    p.live = false;
                }
            }
            Call::Recover => t.recovery_lines += 1,
            Call::Read { .. } | Call::Write { .. } | Call::Commit { .. } | Call::Flush { .. } => {}
        }
    }
    t
}

/// What the program replay prints.
pub fn print_outcome(outcome: &Outcome) -> String {
    let mut out = String::new();
    for (i, done) in outcome.history.iter().enumerate() {
        let (number, value) = done.answer;
        if number != 0 {
            out.push_str(&format!("{} {} {}\n", i + 1, number, value));
        }
    }
    if let Some((refusal, record)) = outcome.stop {
        out.push_str(&format!("X {} {}\n", refusal, record));
    }
    let t = totals(&outcome.history);
    out.push_str(&format!(
        "T {} {} {} {} {}\n",
        t.records, t.crashes, t.recovery_lines, t.entered_cut, t.committed
    ));
    out
}

/// The program replay: its own zeroed words, the first N of them lent.
pub fn replay(bytes: &[u8]) -> String {
    let n = read_header(bytes).unwrap_or(256);
    let mut s = new_store(n);
    let outcome = run(bytes, &mut s, &mut |_, _, _| {});
    print_outcome(&outcome)
}
