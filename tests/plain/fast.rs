//! A replay as one writes it in Rust for speed, to measure the proved one against:
//! fixed arrays, nothing allocated in the loop, the text put into a Vec that the
//! caller gives. It starts from fresh, so it never tests fitness.

#[derive(Clone, Copy)]
enum Phase {
    Fresh,
    Ready,
    Committed,
    Aborted,
    B1,
    B2,
    R1 { word: u8 },
    R2 { value: u32 },
    W1 { word: u8, value: u32 },
    W2 { word: u8, value: u32 },
    W3 { word: u8, value: u32 },
    W4 { word: u8, value: u32 },
    W5 { word: u8, value: u32 },
    W6 { word: u8, value: u32 },
    W7 { word: u8 },
    E1,
    E2,
    E3,
}

#[derive(Clone, Copy)]
enum Recovery {
    Idle,
    C1,
    C2,
    C3 { word: u8, value: u32 },
    C4 { word: u8 },
    C5 { word: u8 },
    C6,
}

#[derive(Clone, Copy)]
struct Tx {
    loc: u32,
    entered: u32, // W5 lines, for the T line
    phase: Phase,
}

pub struct Machine {
    vol: [u32; 256],
    pers: [u32; 256],
    old: [u32; 256],
    marks: [u64; 4],
    n: usize,
    glb: u32,
    recovery: Recovery,
    txs: [Tx; 64],
    crashes: u32,
    recovery_lines: u32,
    entered_cut: u32,
    committed: u32,
}

const FRESH: Tx = Tx { loc: 0, entered: 0, phase: Phase::Fresh };

impl Machine {
    pub fn new() -> Machine {
        Machine {
            vol: [0; 256],
            pers: [0; 256],
            old: [0; 256],
            marks: [0; 4],
            n: 256,
            glb: 0,
            recovery: Recovery::Idle,
            txs: [FRESH; 64],
            crashes: 0,
            recovery_lines: 0,
            entered_cut: 0,
            committed: 0,
        }
    }

    fn make_fresh(&mut self, n: usize) {
        self.n = n;
        self.vol[..n].fill(0);
        self.pers[..n].fill(0);
        self.old[..n].fill(0);
        self.marks = [0; 4];
        self.glb = 0;
        self.recovery = Recovery::Idle;
        self.txs = [FRESH; 64];
        self.crashes = 0;
        self.recovery_lines = 0;
        self.entered_cut = 0;
        self.committed = 0;
    }

    fn idle(&self) -> bool {
        matches!(self.recovery, Recovery::Idle)
    }

    fn marked(&self, word: u8) -> bool {
        self.marks[(word >> 6) as usize] >> (word & 63) & 1 == 1
    }

    #[inline]
    fn begin(&mut self, id: u8) -> (u32, u32) {
        if id >= 64 {
            return (11, 0);
        }
        if !self.idle() {
            return (12, 0);
        }
        let tx = &mut self.txs[id as usize];
        if !matches!(tx.phase, Phase::Fresh) {
            return (13, 0);
        }
        tx.phase = Phase::B1;
        (0, 0)
    }

    /// Read, write (with a word) and commit (without one) are called alike.
    #[inline]
    fn invoke(&mut self, id: u8, word: Option<u8>, first: Phase) -> (u32, u32) {
        if id >= 64 {
            return (11, 0);
        }
        if let Some(word) = word {
            if word as usize >= self.n {
                return (10, 0);
            }
        }
        if !self.idle() {
            return (12, 0);
        }
        let tx = &mut self.txs[id as usize];
        if !matches!(tx.phase, Phase::Ready) {
            return (14, 0);
        }
        tx.phase = first;
        (0, 0)
    }

    #[inline]
    fn step(&mut self, id: u8) -> (u32, u32) {
        if id >= 64 {
            return (11, 0);
        }
        if !self.idle() {
            return (12, 0);
        }
        let tx = &mut self.txs[id as usize];
        match tx.phase {
            Phase::Fresh | Phase::Ready | Phase::Committed | Phase::Aborted => (15, 0),
            Phase::B1 => {
                tx.loc = self.glb;
                tx.phase = Phase::B2;
                (0, 0)
            }
            Phase::B2 => {
                if tx.loc & 1 == 0 {
                    tx.phase = Phase::Ready;
                    (1, 0)
                } else {
                    tx.phase = Phase::B1;
                    (0, 0)
                }
            }
            Phase::R1 { word } => {
                tx.phase = Phase::R2 { value: self.vol[word as usize] };
                (0, 0)
            }
            Phase::R2 { value } => {
                if self.glb == tx.loc {
                    tx.phase = Phase::Ready;
                    (2, value)
                } else {
                    tx.phase = Phase::Aborted;
                    (5, 0)
                }
            }
            Phase::W1 { word, value } => {
                tx.phase = if tx.loc & 1 == 0 {
                    Phase::W2 { word, value }
                } else {
                    Phase::W4 { word, value }
                };
                (0, 0)
            }
            Phase::W2 { word, value } => {
                if self.glb == tx.loc {
                    self.glb += 1;
                    tx.phase = Phase::W3 { word, value };
                    (0, 0)
                } else {
                    tx.phase = Phase::Aborted;
                    (5, 0)
                }
            }
            Phase::W3 { word, value } => {
                tx.loc += 1;
                tx.phase = Phase::W4 { word, value };
                (0, 0)
            }
            Phase::W4 { word, value } => {
                let marked = self.marked(word);
                self.txs[id as usize].phase = if marked {
                    Phase::W6 { word, value }
                } else {
                    Phase::W5 { word, value }
                };
                (0, 0)
            }
            Phase::W5 { word, value } => {
                self.old[word as usize] = self.vol[word as usize];
                self.marks[(word >> 6) as usize] |= 1 << (word & 63);
                tx.entered += 1;
                tx.phase = Phase::W6 { word, value };
                (0, 0)
            }
            Phase::W6 { word, value } => {
                self.vol[word as usize] = value;
                tx.phase = Phase::W7 { word };
                (0, 0)
            }
            Phase::W7 { word } => {
                self.pers[word as usize] = self.vol[word as usize];
                tx.phase = Phase::Ready;
                (3, 0)
            }
            Phase::E1 => {
                if tx.loc & 1 == 1 {
                    tx.phase = Phase::E2;
                    (0, 0)
                } else {
                    tx.phase = Phase::Committed;
                    self.committed += 1;
                    (4, 0)
                }
            }
            Phase::E2 => {
                self.marks = [0; 4];
                tx.phase = Phase::E3;
                (0, 0)
            }
            Phase::E3 => {
                self.glb = tx.loc + 1;
                tx.phase = Phase::Committed;
                self.committed += 1;
                (4, 0)
            }
        }
    }

    #[inline]
    fn flush(&mut self, word: u8) -> (u32, u32) {
        if word as usize >= self.n {
            return (10, 0);
        }
        self.pers[word as usize] = self.vol[word as usize];
        (0, 0)
    }

    fn crash(&mut self) -> (u32, u32) {
        let n = self.n;
        self.vol[..n].copy_from_slice(&self.pers[..n]);
        self.glb = 0;
        self.recovery = Recovery::C1;
        self.crashes += 1;
        for tx in self.txs.iter_mut() {
            match tx.phase {
                Phase::Fresh | Phase::Committed | Phase::Aborted => {}
                Phase::E3 => tx.phase = Phase::Aborted,
                _ => {
                    self.entered_cut += tx.entered;
                    tx.phase = Phase::Aborted;
                }
            }
        }
        (0, 0)
    }

    #[inline]
    fn recover(&mut self) -> (u32, u32) {
        match self.recovery {
            Recovery::Idle => return (16, 0),
            Recovery::C1 => {
                let any = self.marks[0] | self.marks[1] | self.marks[2] | self.marks[3];
                self.recovery = if any != 0 { Recovery::C2 } else { Recovery::C6 };
            }
            Recovery::C2 => {
                let mut i = 0;
                while i < 3 && self.marks[i] == 0 {
                    i += 1;
                }
                // from fresh some mark is set here
                let word = (i as u32 * 64 + (self.marks[i].trailing_zeros() & 63)) as u8;
                self.recovery = Recovery::C3 { word, value: self.old[word as usize] };
            }
            Recovery::C3 { word, value } => {
                self.vol[word as usize] = value;
                self.recovery = Recovery::C4 { word };
            }
            Recovery::C4 { word } => {
                self.pers[word as usize] = self.vol[word as usize];
                self.recovery = Recovery::C5 { word };
            }
            Recovery::C5 { word } => {
                self.marks[(word >> 6) as usize] &= !(1 << (word & 63));
                self.recovery = Recovery::C1;
            }
            Recovery::C6 => {
                self.glb = 0;
                self.recovery = Recovery::Idle;
                self.recovery_lines += 1;
                return (6, 0);
            }
        }
        self.recovery_lines += 1;
        (0, 0)
    }
}

fn push_number(out: &mut Vec<u8>, mut x: u32) {
    let mut digits = [0u8; 10];
    let mut at = 10;
    loop {
        at -= 1;
        digits[at] = b'0' + (x % 10) as u8;
        x /= 10;
        if x == 0 {
            break;
        }
    }
    out.extend_from_slice(&digits[at..]);
}

fn header(bytes: &[u8]) -> Result<usize, u32> {
    if bytes.len() > 65_536 {
        return Err(22);
    }
    if bytes.is_empty() {
        return Err(20);
    }
    if bytes[0] != 1 {
        return Err(19);
    }
    if bytes.len() < 3 {
        return Err(20);
    }
    let n = u16::from_be_bytes([bytes[1], bytes[2]]) as usize;
    if n < 1 || n > 256 {
        return Err(21);
    }
    Ok(n)
}

/// Replays, puts the output into `out` (cleared first), returns records done.
pub fn replay(bytes: &[u8], m: &mut Machine, out: &mut Vec<u8>) -> u32 {
    out.clear();
    let n = match header(bytes) {
        Ok(n) => n,
        Err(refusal) => {
            out.extend_from_slice(b"X ");
            push_number(out, refusal);
            out.extend_from_slice(b" 0\nT 0 0 0 0 0\n");
            return 0;
        }
    };
    m.make_fresh(n);
    let mut rest = &bytes[3..];
    let mut records = 0u32;
    let refusal = loop {
        if rest.is_empty() {
            break 0;
        }
        if rest.len() == 1 {
            break 20;
        }
        let length = u16::from_be_bytes([rest[0], rest[1]]) as usize;
        if length == 0 {
            break 18;
        }
        if length > rest.len() - 2 {
            break 20;
        }
        let (body, next) = rest[2..].split_at(length);
        let (number, value) = match body[0] {
            1 => match *body {
                [_, id] => m.begin(id),
                _ => break 18,
            },
            2 => match *body {
                [_, id, word] => m.invoke(id, Some(word), Phase::R1 { word }),
                _ => break 18,
            },
            3 => match *body {
                [_, id, word, a, b, c, d] => {
                    let value = u32::from_be_bytes([a, b, c, d]);
                    m.invoke(id, Some(word), Phase::W1 { word, value })
                }
                _ => break 18,
            },
            4 => match *body {
                [_, id] => m.invoke(id, None, Phase::E1),
                _ => break 18,
            },
            5 => match *body {
                [_, id] => m.step(id),
                _ => break 18,
            },
            6 => match *body {
                [_, word] => m.flush(word),
                _ => break 18,
            },
            7 => match *body {
                [_] => m.crash(),
                _ => break 18,
            },
            8 => match *body {
                [_] => m.recover(),
                _ => break 18,
            },
            _ => break 17,
        };
        records += 1;
        if number != 0 {
            push_number(out, records);
            out.push(b' ');
            push_number(out, number);
            out.push(b' ');
            push_number(out, value);
            out.push(b'\n');
        }
        rest = next;
    };
    if refusal != 0 {
        out.extend_from_slice(b"X ");
        push_number(out, refusal);
        out.push(b' ');
        push_number(out, records + 1);
        out.push(b'\n');
    }
    out.push(b'T');
    for x in [records, m.crashes, m.recovery_lines, m.entered_cut, m.committed] {
        out.push(b' ');
        push_number(out, x);
    }
    out.push(b'\n');
    records
}
