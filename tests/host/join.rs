//! A host that joins "Lower Forty" with "Lower Forty B": the link, the history and the area are written in one transaction. The power fails after its
//! second write, recovery takes the join back, and a second transaction writes it whole. Each call's answer is printed, and the three persistent words.

mod exports;
mod register;

use register::{Answer, Register};

const LINK: u32 = 0;
const HISTORY: u32 = 1;
const AREA: u32 = 2;

fn tell(what: &str, answer: Answer) {
    println!("{}: {} {}", what, answer.0, answer.1);
}

/// Lines of a transaction up to the first answer other than 0.
fn steps(r: &mut Register, id: u64) -> Answer {
    loop {
        let answer = r.step(id);
        if answer.0 != 0 {
            return answer;
        }
    }
}

fn begin(r: &mut Register, id: u64) {
    r.begin(id);
    tell("begin", steps(r, id));
}

fn write(r: &mut Register, id: u64, word: u32, value: u32) {
    r.write(id, word, value);
    tell("write", steps(r, id));
}

fn words(r: &Register) {
    println!("persistent: link {}, history {}, area {}", r.pers[0], r.pers[1], r.pers[2]);
}

fn main() {
    let mut r = Register::fresh(8);
    begin(&mut r, 0);
    write(&mut r, 0, LINK, 41);
    write(&mut r, 0, HISTORY, 42);
    words(&r);
    tell("the power fails", r.crash());
    tell("recovery", r.recover_up_to(1000));
    words(&r);
    begin(&mut r, 1);
    write(&mut r, 1, LINK, 41);
    write(&mut r, 1, HISTORY, 42);
    write(&mut r, 1, AREA, 43);
    r.commit(1);
    tell("commit", steps(&mut r, 1));
    words(&r);
}
