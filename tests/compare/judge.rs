//! One case: what the library puts into a buffer, and what the plain program prints.

use crate::ghost;
use crate::trace;

extern "C" {
    /// The proved replay: a trace and its length, a buffer and its length; gives the place after the text.
    fn register_replay(trace: *const u8, length: usize, out: *mut u8, room: usize) -> usize;
}

/// No text is longer.
const ROOM: usize = 655_438;

/// What stands in a buffer before the library writes to it.
const BEFORE: u8 = 0xA5;

/// A buffer that is lent to the library again and again. It holds BEFORE between two calls.
pub struct Lent(Vec<u8>);

impl Lent {
    pub fn new() -> Lent {
        Lent(vec![BEFORE; ROOM])
    }

    pub fn untouched(&self) -> bool {
        self.0.iter().all(|b| *b == BEFORE)
    }
}

pub enum How {
    /// The two texts.
    Text,
    /// The two texts, and demands 2 and 3 after every record.
    Demands,
    /// A buffer of every length up to three more than the text has.
    ShortBuffers,
}

fn proved(trace: &[u8], out: &mut [u8]) -> usize {
    // SAFETY: two slices, as pointer and length, which is how the library takes them
    unsafe { register_replay(trace.as_ptr(), trace.len(), out.as_mut_ptr(), out.len()) }
}

/// The first line in which two texts differ, of both.
pub fn first_difference(library: &[u8], plain: &[u8]) -> String {
    let mut a = library.split(|b| *b == b'\n');
    let mut b = plain.split(|b| *b == b'\n');
    let mut line = 1;
    loop {
        match (a.next(), b.next()) {
            (None, None) => return "  no line differs".to_string(),
            (x, y) if x == y => line += 1,
            (x, y) => {
                let show = |l: Option<&[u8]>| match l {
                    Some(l) => String::from_utf8_lossy(l).into_owned(),
                    None => "(no more lines)".to_string(),
                };
                return format!("  line {}: proved: {}\n  line {}: plain:  {}", line, show(x), line, show(y));
            }
        }
    }
}

/// How many cases a trace was, and what differs.
pub fn judge(how: &How, trace: &[u8], lent: &mut Lent) -> (u64, Option<String>) {
    match how {
        How::Text => (1, whole(trace, trace::replay(trace).as_bytes(), lent)),
        How::Demands => {
            let (text, violations) = ghost::check(trace);
            let broken = violations.first().map(|v| format!("  record {}: {}", v.record, v.what));
            (1, whole(trace, text.as_bytes(), lent).or(broken))
        }
        How::ShortBuffers => short(trace, trace::replay(trace).as_bytes()),
    }
}

fn whole(trace: &[u8], due: &[u8], lent: &mut Lent) -> Option<String> {
    let out = &mut lent.0[..];
    let length = proved(trace, out);
    if length > out.len() {
        return Some(format!("  the library gives {} for a buffer of {}", length, out.len()));
    }
    let what = if out[..length] == *due { None } else { Some(first_difference(&out[..length], due)) };
    out[..length].fill(BEFORE);
    what
}

fn short(trace: &[u8], due: &[u8]) -> (u64, Option<String>) {
    let rooms = due.len() + 4;
    let mut memory = vec![BEFORE; rooms + 16];
    for room in 0..rooms {
        let length = proved(trace, &mut memory[..room]);
        let there = room.min(due.len());
        let rest = memory[there..].iter().all(|b| *b == BEFORE);
        if length != there || memory[..there] != due[..there] || !rest {
            return (rooms as u64, Some(format!("  a buffer of {} bytes: {} given, rest untouched: {}", room, length, rest)));
        }
        memory[..there].fill(BEFORE);
    }
    (rooms as u64, None)
}
