//! Seeded generators of traces. A store runs beside the bytes, only to steer
//! (to know which call fits an identifier's phase).

use crate::store::*;
use crate::trace::*;

pub const KINDS: [&str; 12] = [
    "writers", "joins", "crash50", "lines", "reads", "mixed", "flushes", "rewrites", "sizes",
    "full", "damaged", "random",
];

pub struct Rng(u64);

impl Rng {
    pub fn new(seed: u64) -> Rng {
        // splitmix64, so that neighbouring seeds start far apart and never at 0
        let mut z = seed.wrapping_add(0x9E37_79B9_7F4A_7C15);
        z = (z ^ (z >> 30)).wrapping_mul(0xBF58_476D_1CE4_E5B9);
        z = (z ^ (z >> 27)).wrapping_mul(0x94D0_49BB_1331_11EB);
        z ^= z >> 31;
        Rng(if z == 0 { 1 } else { z })
    }
    pub fn next(&mut self) -> u64 {
        // xorshift64*
        let mut x = self.0;
        x ^= x >> 12;
        x ^= x << 25;
        x ^= x >> 27;
        self.0 = x;
        x.wrapping_mul(0x2545_F491_4F6C_DD1D)
    }
    /// 0 to n - 1.
    pub fn below(&mut self, n: u64) -> u64 {
        (self.next() >> 11) % n
    }
    /// True a times in b.
    pub fn chance(&mut self, a: u64, b: u64) -> bool {
        self.below(b) < a
    }
}

pub fn encode(call: Call, out: &mut Vec<u8>) {
    match call {
        Call::Begin { id } => out.extend_from_slice(&[0, 2, 1, id]),
        Call::Read { id, word } => out.extend_from_slice(&[0, 3, 2, id, word]),
        Call::Write { id, word, value } => {
            out.extend_from_slice(&[0, 7, 3, id, word]);
            out.extend_from_slice(&value.to_be_bytes());
        }
        Call::Commit { id } => out.extend_from_slice(&[0, 2, 4, id]),
        Call::Step { id } => out.extend_from_slice(&[0, 2, 5, id]),
        Call::Flush { word } => out.extend_from_slice(&[0, 2, 6, word]),
        Call::Crash => out.extend_from_slice(&[0, 1, 7]),
        Call::Recover => out.extend_from_slice(&[0, 1, 8]),
    }
}

/// Chances out of 1,000 for the mixed calls.
#[derive(Clone, Copy)]
struct Mix {
    wild: u64,   // a call that need not fit: any identifier, any word
    crash: u64,
    flush: u64,
    commit: u64, // of a ready record
    write: u64,  // of a ready record; the rest reads
    live: usize, // identifiers in use at once
    words: u64,  // words in use
}

struct Gen {
    r: Rng,
    n: usize,
    out: Vec<u8>,
    records: usize,
    limit: usize,
    s: Store,
    pool: Vec<u8>,
    next_id: u8,
}

impl Gen {
    fn new(seed: u64, n: usize) -> Gen {
        Gen {
            r: Rng::new(seed),
            n,
            out: vec![1, (n / 256) as u8, (n % 256) as u8],
            records: 0,
            limit: MOST_BYTES,
            s: new_store(n),
            pool: Vec::new(),
            next_id: 0,
        }
    }

    fn room(&self) -> bool {
        self.out.len() + 9 <= self.limit
    }

    fn put(&mut self, call: Call) -> Answer {
        if !self.room() {
            return (99, 0);
        }
        encode(call, &mut self.out);
        self.records += 1;
        do_call(&mut self.s, call).answer
    }

    fn value(&mut self) -> u32 {
        match self.r.below(6) {
            0 => 0,
            1 => 1 + self.r.below(3) as u32,
            2 => 0xFFFF_FFFF,
            _ => self.r.next() as u32,
        }
    }

    fn word(&mut self) -> u8 {
        self.r.below(self.n as u64) as u8
    }

    /// A word with the low ones and the borders more often.
    fn near_word(&mut self, words: u64) -> u8 {
        let n = self.n as u64;
        let w = match self.r.below(8) {
            0 => n - 1,
            1 => n / 2,
            2 => self.r.below(n),
            3 => (63 + self.r.below(2)).min(n - 1),
            _ => self.r.below(words.min(n)),
        };
        w as u8
    }

    fn has_line(&self, id: u8) -> bool {
        line_ahead(&self.s, Call::Step { id }).is_some()
    }

    /// Steps until there is no line, at most `most` of them.
    fn steps(&mut self, id: u8, most: usize) {
        let mut i = 0;
        while i < most && self.has_line(id) && self.room() {
            self.put(Call::Step { id });
            i += 1;
        }
    }

    fn begin_whole(&mut self, id: u8) {
        self.put(Call::Begin { id });
        self.steps(id, 2);
    }

    fn write_whole(&mut self, id: u8, word: u8, value: u32) {
        self.put(Call::Write { id, word, value });
        self.steps(id, 7);
    }

    fn read_whole(&mut self, id: u8, word: u8) {
        self.put(Call::Read { id, word });
        self.steps(id, 2);
    }

    fn commit_whole(&mut self, id: u8) {
        self.put(Call::Commit { id });
        self.steps(id, 3);
    }

    fn recover_whole(&mut self) {
        while self.s.recovery != Recovery::Idle && self.room() {
            self.put(Call::Recover);
        }
    }

    /// Any call at all, identifiers and words out of range too.
    fn wild(&mut self, words: u64) {
        let id = match self.r.below(10) {
            0 => 64,
            1 => self.r.below(256) as u8,
            2 => 63,
            _ => {
                if self.pool.is_empty() {
                    self.r.below(64) as u8
                } else {
                    let i = self.r.below(self.pool.len() as u64) as usize;
                    self.pool[i]
                }
            }
        };
        let word = match self.r.below(6) {
            0 => (self.n & 255) as u8, // N itself (0 if N is 256)
            1 => self.r.below(256) as u8,
            _ => self.near_word(words),
        };
        let value = self.value();
        let call = match self.r.below(8) {
            0 => Call::Begin { id },
            1 => Call::Read { id, word },
            2 => Call::Write { id, word, value },
            3 => Call::Commit { id },
            4 => Call::Step { id },
            5 => Call::Flush { word },
            6 => Call::Recover,
            _ => {
                if self.r.chance(1, 12) {
                    Call::Crash
                } else {
                    Call::Step { id }
                }
            }
        };
        self.put(call);
    }

    /// One call of the mixed kind. False when all identifiers are spent.
    fn mixed_call(&mut self, m: Mix) -> bool {
        while self.pool.len() < m.live && self.next_id < 64 {
            self.pool.push(self.next_id);
            self.next_id += 1;
        }
        if self.r.chance(m.wild, 1000) {
            self.wild(m.words);
            return !self.pool.is_empty();
        }
        if self.r.chance(m.crash, 1000) {
            self.put(Call::Crash);
            return !self.pool.is_empty();
        }
        if self.r.chance(m.flush, 1000) {
            let word = self.near_word(m.words);
            self.put(Call::Flush { word });
            return !self.pool.is_empty();
        }
        if self.s.recovery != Recovery::Idle {
            self.put(Call::Recover);
            return !self.pool.is_empty();
        }
        if self.pool.is_empty() {
            return false;
        }
        let i = self.r.below(self.pool.len() as u64) as usize;
        let id = self.pool[i];
        match self.s.txs[id as usize].phase {
            Phase::Fresh => {
                self.put(Call::Begin { id });
            }
            Phase::Ready => {
                if self.r.chance(m.commit, 1000) {
                    self.put(Call::Commit { id });
                } else if self.r.chance(m.write, 1000) {
                    let word = self.near_word(m.words);
                    let value = self.value();
                    self.put(Call::Write { id, word, value });
                } else {
                    let word = self.near_word(m.words);
                    self.put(Call::Read { id, word });
                }
            }
            Phase::Committed | Phase::Aborted => {
                if self.r.chance(1, 4) {
                    self.put(Call::Step { id });
                }
                self.pool.swap_remove(i);
            }
            _ => {
                self.put(Call::Step { id });
            }
        }
        true
    }
}

fn some_n(seed: u64) -> usize {
    let mut r = Rng::new(seed ^ 0x5151_5151);
    match r.below(6) {
        0 => 1 + r.below(4) as usize,
        1 => 256,
        2 => 60 + r.below(10) as usize,
        3 => 1 + r.below(256) as usize,
        _ => 4 + r.below(12) as usize,
    }
}

fn writers(seed: u64) -> Vec<u8> {
    let mut g = Gen::new(seed, some_n(seed));
    for id in 0..64 {
        g.begin_whole(id);
        let count = 1 + g.r.below(3);
        for _ in 0..count {
            let (word, value) = (g.word(), g.value());
            g.write_whole(id, word, value);
        }
        g.commit_whole(id);
    }
    let id = g.r.below(64) as u8;
    g.put(Call::Begin { id });
    g.put(Call::Step { id });
    g.out
}

fn joins(seed: u64) -> Vec<u8> {
    let n = some_n(seed).max(6);
    let mut g = Gen::new(seed, n);
    let third = (n / 3) as u64;
    let mut id = 0;
    while id < 64 {
        // link, history and area of one field
        let field = g.r.below(third);
        let words = [field as u8, (third + field) as u8, (2 * third + field) as u8];
        let reader = if id + 1 < 64 && g.r.chance(1, 4) { Some(id + 1) } else { None };
        if let Some(reader) = reader {
            g.begin_whole(reader);
            g.read_whole(reader, words[0]);
        }
        g.begin_whole(id);
        let cut = g.r.chance(1, 6);
        let cut_at = g.r.below(24) as i64;
        let mut lines = 0i64;
        let mut gone = false;
        for i in 0..3 {
            let value = g.value();
            g.put(Call::Write { id, word: words[i], value });
            while g.has_line(id) && g.room() {
                if cut && lines == cut_at {
                    g.put(Call::Crash);
                    g.recover_whole();
                    gone = true;
                    break;
                }
                g.put(Call::Step { id });
                lines += 1;
            }
            if gone {
                break;
            }
            if let Some(reader) = reader {
                if g.r.chance(1, 4) {
                    g.read_whole(reader, words[1]);
                }
            }
        }
        if !gone {
            g.commit_whole(id);
        }
        id += if reader.is_some() { 2 } else { 1 };
    }
    g.out
}

fn crash50(seed: u64) -> Vec<u8> {
    let mut g = Gen::new(seed, some_n(seed));
    let live = 1 + g.r.below(3) as usize;
    let m = Mix { wild: 15, crash: 0, flush: 40, commit: 60, write: 850, live, words: 24 };
    // every fiftieth record is a crash; its recovery lines come right after it
    while g.room() && g.records < 6000 {
        if g.records % 50 == 49 {
            g.put(Call::Crash);
            continue;
        }
        if g.s.recovery != Recovery::Idle {
            if g.r.chance(1, 12) {
                let word = g.word();
                g.put(Call::Flush { word });
            } else {
                g.put(Call::Recover);
            }
            continue;
        }
        if !g.mixed_call(m) {
            break;
        }
    }
    g.put(Call::Crash);
    g.recover_whole();
    g.out
}

fn lines(seed: u64) -> Vec<u8> {
    let mut g = Gen::new(seed, some_n(seed).min(64));
    for id in 0..64u8 {
        // a writer of one to three words, cut after one random line
        let count = 1 + g.r.below(3);
        let cut_at = g.r.below(2 + 7 + 6 * (count - 1) + 3 + 1);
        let mut plan: Vec<Call> = vec![Call::Begin { id }];
        for _ in 0..count {
            let (word, value) = (g.word(), g.value());
            plan.push(Call::Write { id, word, value });
        }
        plan.push(Call::Commit { id });
        let mut lines = 0;
        let mut last = 0u8;
        'plan: for call in plan {
            if let Call::Write { word, .. } = call {
                last = word;
            }
            g.put(call);
            while g.has_line(id) && g.room() {
                if lines == cut_at {
                    break 'plan;
                }
                g.put(Call::Step { id });
                lines += 1;
            }
        }
        match g.r.below(3) {
            0 => {
                g.put(Call::Flush { word: last });
            }
            1 => {
                for word in 0..g.n.min(8) {
                    g.put(Call::Flush { word: word as u8 });
                }
            }
            _ => {}
        }
        g.put(Call::Crash);
        // recovery, cut again after a random line, some times over
        while g.r.chance(1, 2) {
            let most = g.r.below(12);
            for _ in 0..most {
                if g.s.recovery == Recovery::Idle {
                    break;
                }
                g.put(Call::Recover);
            }
            if g.r.chance(1, 2) {
                g.put(Call::Flush { word: last });
            }
            g.put(Call::Crash);
        }
        g.recover_whole();
    }
    g.out
}

fn reads(seed: u64) -> Vec<u8> {
    let mut g = Gen::new(seed, some_n(seed));
    let mut id = 0u8;
    while id < 64 {
        let writer = id;
        id += 1;
        g.begin_whole(writer);
        for _ in 0..3 {
            let (word, value) = (g.word(), g.value());
            g.write_whole(writer, word, value);
        }
        g.commit_whole(writer);
        let readers = (2 + g.r.below(4) as u8).min(64 - id);
        for i in 0..readers {
            g.begin_whole(id + i);
        }
        let many = 100 + g.r.below(200);
        for _ in 0..many {
            if readers > 0 {
                let reader = id + g.r.below(readers as u64) as u8;
                let word = g.word();
                if g.s.txs[reader as usize].phase == Phase::Ready {
                    g.put(Call::Read { id: reader, word });
                } else {
                    g.put(Call::Step { id: reader });
                }
            }
        }
        id += readers;
    }
    g.out
}

fn mixed(seed: u64) -> Vec<u8> {
    let mut g = Gen::new(seed, some_n(seed));
    let m = Mix {
        wild: 50 + g.r.below(150),
        crash: 2 + g.r.below(30),
        flush: 30,
        commit: 50 + g.r.below(200),
        write: 200 + g.r.below(600),
        live: 1 + g.r.below(5) as usize,
        words: 2 + g.r.below(6),
    };
    let most = 300 + g.r.below(2000) as usize;
    while g.room() && g.records < most {
        g.mixed_call(m);
        if g.pool.is_empty() && g.next_id >= 64 {
            g.wild(m.words);
        }
    }
    g.out
}

fn flushes(seed: u64) -> Vec<u8> {
    let mut g = Gen::new(seed, some_n(seed));
    let m = Mix { wild: 20, crash: 8, flush: 600, commit: 60, write: 700, live: 3, words: 5 };
    while g.room() && g.records < 4000 {
        if !g.mixed_call(m) {
            break;
        }
    }
    g.put(Call::Crash);
    g.recover_whole();
    g.out
}

fn rewrites(seed: u64) -> Vec<u8> {
    let mut g = Gen::new(seed, some_n(seed));
    for id in 0..64u8 {
        g.begin_whole(id);
        let few: Vec<u8> = (0..1 + g.r.below(4)).map(|_| g.word()).collect();
        let writes = 4 + g.r.below(24);
        for _ in 0..writes {
            let i = g.r.below(few.len() as u64) as usize;
            let value = g.value();
            g.write_whole(id, few[i], value);
            if g.r.chance(1, 4) {
                let i = g.r.below(few.len() as u64) as usize;
                g.read_whole(id, few[i]);
            }
        }
        match g.r.below(4) {
            0 => {
                let value = g.value();
                g.put(Call::Write { id, word: few[0], value });
                let most = g.r.below(5) as usize;
                g.steps(id, most);
                g.put(Call::Crash);
                g.recover_whole();
            }
            1 => {
                g.put(Call::Commit { id });
                let most = g.r.below(3) as usize;
                g.steps(id, most);
                g.put(Call::Crash);
                g.recover_whole();
            }
            _ => g.commit_whole(id),
        }
    }
    g.out
}

fn sizes(seed: u64) -> Vec<u8> {
    let n = [1, 2, 64, 65, 255, 256][(seed % 6) as usize];
    let mut g = Gen::new(seed, n);
    let m = Mix { wild: 60, crash: 8, flush: 40, commit: 40, write: 700, live: 3, words: 256 };
    while g.room() && g.records < 3000 {
        if !g.mixed_call(m) {
            break;
        }
    }
    g.put(Call::Crash);
    g.recover_whole();
    g.out
}

fn full(seed: u64) -> Vec<u8> {
    let mut g = Gen::new(seed, some_n(seed));
    let m = Mix { wild: 80, crash: 3, flush: 30, commit: 30, write: 300, live: 3, words: 12 };
    // paced: while identifiers go faster than bytes, nothing that ends one is called
    let slow = Mix { wild: 0, crash: 0, commit: 0, ..m };
    while g.out.len() + 32 <= MOST_BYTES {
        let ahead = g.next_id as usize * MOST_BYTES > 64 * g.out.len() + 4 * MOST_BYTES;
        g.mixed_call(if ahead { slow } else { m });
        if g.pool.is_empty() && g.next_id >= 64 {
            g.wild(m.words);
        }
    }
    // records of three and four bytes fill the rest exactly
    while g.out.len() < MOST_BYTES {
        let left = MOST_BYTES - g.out.len();
        let call = if left % 3 == 0 { Call::Recover } else { Call::Step { id: 63 } };
        encode(call, &mut g.out);
    }
    g.out
}

fn damaged(seed: u64) -> Vec<u8> {
    let mut r = Rng::new(seed ^ 0xDA3A_6ED0);
    let sound = ["writers", "joins", "crash50", "lines", "reads", "mixed", "flushes", "rewrites", "sizes"];
    let kind = sound[r.below(sound.len() as u64) as usize];
    let mut b = generate(kind, r.below(1000)).unwrap();
    if r.chance(1, 2) {
        b.truncate(3 + r.below(600) as usize);
    }
    let times = 1 + r.below(4);
    for _ in 0..times {
        if b.is_empty() {
            break;
        }
        let at = if r.chance(1, 10) {
            r.below(3.min(b.len() as u64)) as usize
        } else {
            r.below(b.len() as u64) as usize
        };
        match r.below(8) {
            0 => b.truncate(at),
            1 => {
                b.remove(at);
            }
            2 => b.insert(at, r.below(10) as u8),
            3 => b[at] = r.next() as u8,
            4 => b[at] ^= 1 << r.below(8),
            5 => b[at] = 0,
            6 => b[at] = r.below(10) as u8,
            _ => {
                let cut = r.below(4) as usize;
                let left = b.len().saturating_sub(cut);
                b.truncate(left);
            }
        }
    }
    b
}

fn random(seed: u64) -> Vec<u8> {
    let mut r = Rng::new(seed ^ 0x0BAD_5EED);
    let mut b: Vec<u8> = Vec::new();
    match r.below(10) {
        0 => {}                                                  // no header
        1 => b.push(r.next() as u8),
        2 => b.extend_from_slice(&[1, r.below(3) as u8]),
        3 => b.extend_from_slice(&[1, r.below(3) as u8, r.below(3) as u8]), // N 0, 257, 512 among them
        4 => b.extend_from_slice(&[r.below(3) as u8, 0, 4]),
        _ => {
            let n = 1 + r.below(256);
            b.extend_from_slice(&[1, (n / 256) as u8, (n % 256) as u8]);
        }
    }
    let length = match r.below(16) {
        0 => 65_530 + r.below(16) as usize,
        1 => b.len(),
        _ => b.len() + r.below(400) as usize,
    };
    let style = r.below(6);
    while b.len() < length {
        match style {
            0 => b.push(r.next() as u8),
            1 => b.push(r.below(9) as u8),
            _ => {
                // the shape of a record with random fields, seldom a wrong one
                let often = [1, 2, 2, 3, 3, 4, 5, 5, 5, 5, 5, 5, 5, 5, 6, 8, 8];
                let kind = if r.chance(1, 100) {
                    r.next() as u8
                } else if r.chance(1, 40) {
                    7
                } else {
                    often[r.below(often.len() as u64) as usize]
                };
                let due = match kind {
                    2 => 3,
                    3 => 7,
                    7 | 8 => 1,
                    _ => 2,
                };
                let len = if r.chance(1, 100) { r.below(9) as u8 } else { due };
                b.extend_from_slice(&[0, len, kind]);
                for i in 1..due {
                    b.push(if i < 3 { r.below(4) as u8 } else { r.next() as u8 });
                }
            }
        }
    }
    b.truncate(length.max(3));
    b
}

pub fn generate(kind: &str, seed: u64) -> Option<Vec<u8>> {
    Some(match kind {
        "writers" => writers(seed),
        "joins" => joins(seed),
        "crash50" => crash50(seed),
        "lines" => lines(seed),
        "reads" => reads(seed),
        "mixed" => mixed(seed),
        "flushes" => flushes(seed),
        "rewrites" => rewrites(seed),
        "sizes" => sizes(seed),
        "full" => full(seed),
        "damaged" => damaged(seed),
        "random" => random(seed),
        _ => return None,
    })
}
