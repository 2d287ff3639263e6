//! 01's worked histories, its refusals and orders of checks, stores that no schedule
//! reaches, and every kind of trace under the checks of demands 2 and 3.

use crate::fast;
use crate::generate::*;
use crate::ghost;
use crate::store::*;
use crate::trace::*;

fn fresh4() -> Store {
    let mut s = new_store(4);
    assert_eq!(make_fresh(&mut s), (0, 0));
    s
}

fn steps(s: &mut Store, id: u32, n: usize) -> Vec<Answer> {
    (0..n).map(|_| step(s, id)).collect()
}

fn recovers(s: &mut Store, n: usize) -> Vec<Answer> {
    (0..n).map(|_| recover(s)).collect()
}

fn numbers(a: &[Answer]) -> Vec<u32> {
    a.iter().map(|x| x.0).collect()
}

fn start(s: &mut Store, id: u32) {
    assert_eq!(begin(s, id), (0, 0));
    assert_eq!(numbers(&steps(s, id, 2)), [0, 1]);
}

fn example(with_flush: bool) -> Vec<u8> {
    let mut b = vec![1, 0, 4];
    let mut calls = vec![Call::Begin { id: 3 }, Call::Step { id: 3 }, Call::Step { id: 3 }];
    calls.push(Call::Write { id: 3, word: 2, value: 9 });
    calls.extend([Call::Step { id: 3 }; 6]);
    if with_flush {
        calls.push(Call::Flush { word: 2 });
    }
    calls.push(Call::Crash);
    calls.extend([Call::Recover; 7]);
    for c in calls {
        encode(c, &mut b);
    }
    b
}

#[test]
fn the_trace_of_76_bytes() {
    let b = example(true);
    assert_eq!(b.len(), 76);
    let hex: String = b.iter().map(|x| format!("{:02x}", x)).collect();
    let due = format!(
        "{}{}{}{}{}{}{}{}",
        "010004", "00020103", "00020503".repeat(2), "000703030200000009", "00020503".repeat(6),
        "00020602", "000107", "000108".repeat(7)
    );
    assert_eq!(hex, due);
    assert_eq!(replay(&b), "3 1 0\n19 6 0\nT 19 1 7 1 0\n");
}

#[test]
fn p1() {
    let mut s = fresh4();
    assert_eq!(begin(&mut s, 0), (0, 0));
    assert_eq!(step(&mut s, 0), (0, 0));
    assert_eq!(step(&mut s, 0), (1, 0));
}

#[test]
fn p2() {
    let mut s = fresh4();
    assert_eq!(begin(&mut s, 63), (0, 0));
    assert_eq!(begin(&mut s, 64), (11, 0));
}

#[test]
fn p3() {
    let mut s = fresh4();
    start(&mut s, 0);
    assert_eq!(read(&mut s, 0, 3), (0, 0));
    assert_eq!(read(&mut s, 0, 4), (10, 0));
    let mut s = fresh4();
    start(&mut s, 0);
    assert_eq!(read(&mut s, 0, 4), (10, 0));
}

#[test]
fn p4_p5() {
    for with_flush in [true, false] {
        let b = example(with_flush);
        let mut s = new_store(4);
        let o = run(&b, &mut s, &mut |_, _, _| {});
        assert!(o.stop.is_none());
        assert_eq!(s.vol[2], 0);
        assert_eq!(s.pers[2], 0);
        assert_eq!(s.marks, [0; 4]);
        assert_eq!(s.vol, [0; 4]);
        assert_eq!(s.pers, [0; 4]);
        assert_eq!(ghost::check(&b).1.len(), 0);
    }
}

#[test]
fn p6() {
    let mut s = fresh4();
    start(&mut s, 0);
    assert_eq!(write(&mut s, 0, 1, 5), (0, 0));
    assert_eq!(numbers(&steps(&mut s, 0, 7)), [0, 0, 0, 0, 0, 0, 3]);
    assert_eq!(commit(&mut s, 0), (0, 0));
    assert_eq!(numbers(&steps(&mut s, 0, 2)), [0, 0]);
    assert_eq!(crash(&mut s), (0, 0));
    assert_eq!(numbers(&recovers(&mut s, 3)), [0, 6, 16]);
    assert_eq!((s.vol[1], s.pers[1]), (5, 5));
}

#[test]
fn p7() {
    let mut s = fresh4();
    start(&mut s, 0);
    assert_eq!(write(&mut s, 0, 1, 5), (0, 0));
    assert_eq!(numbers(&steps(&mut s, 0, 7)), [0, 0, 0, 0, 0, 0, 3]);
    assert_eq!(commit(&mut s, 0), (0, 0));
    assert_eq!(numbers(&steps(&mut s, 0, 1)), [0]);
    assert_eq!(crash(&mut s), (0, 0));
    assert_eq!((s.vol[1], s.pers[1]), (5, 5));
    assert_eq!(numbers(&recovers(&mut s, 8)), [0, 0, 0, 0, 0, 0, 6, 16]);
    assert_eq!((s.vol[1], s.pers[1]), (0, 0));
}

#[test]
fn p8() {
    let mut s = fresh4();
    start(&mut s, 0);
    start(&mut s, 1);
    write(&mut s, 1, 0, 7);
    steps(&mut s, 1, 2); // W1, W2
    assert_eq!(read(&mut s, 0, 0), (0, 0));
    assert_eq!(steps(&mut s, 0, 2), [(0, 0), (5, 0)]);
    assert_eq!(s.txs[0].phase, Phase::Aborted);
}

#[test]
fn p9() {
    let mut s = fresh4();
    start(&mut s, 0);
    start(&mut s, 1);
    write(&mut s, 1, 0, 7);
    steps(&mut s, 1, 1); // W1
    assert_eq!(read(&mut s, 0, 0), (0, 0));
    assert_eq!(steps(&mut s, 0, 2), [(0, 0), (2, 0)]);
    assert_eq!(steps(&mut s, 1, 1), [(0, 0)]); // W2
    assert_eq!(s.glb, 1);
}

#[test]
fn p10() {
    let mut s = fresh4();
    start(&mut s, 0);
    start(&mut s, 1);
    write(&mut s, 0, 0, 7);
    write(&mut s, 1, 1, 8);
    assert_eq!(numbers(&steps(&mut s, 1, 2)), [0, 0]);
    assert_eq!(numbers(&steps(&mut s, 0, 2)), [0, 5]);
    assert_eq!(s.txs[0].phase, Phase::Aborted);
}

#[test]
fn p11() {
    let mut s = fresh4();
    start(&mut s, 0);
    write(&mut s, 0, 0, 7);
    assert_eq!(numbers(&steps(&mut s, 0, 7)), [0, 0, 0, 0, 0, 0, 3]);
    begin(&mut s, 1);
    assert_eq!(numbers(&steps(&mut s, 1, 2)), [0, 0]);
    assert_eq!(s.txs[1].phase, Phase::B1);
    commit(&mut s, 0);
    assert_eq!(numbers(&steps(&mut s, 0, 3)), [0, 0, 4]);
    assert_eq!(s.glb, 2);
    assert_eq!(numbers(&steps(&mut s, 1, 2)), [0, 1]);
}

#[test]
fn p12() {
    let mut s = fresh4();
    assert_eq!(recover(&mut s), (16, 0));
    assert_eq!(recover_up_to(&mut s, 0), (16, 0));
    assert_eq!(recover_up_to(&mut s, 9), (16, 0));
}

#[test]
fn p13() {
    let mut calls = vec![Call::Begin { id: 0 }, Call::Step { id: 0 }, Call::Step { id: 0 }];
    calls.push(Call::Write { id: 0, word: 1, value: 5 });
    calls.extend([Call::Step { id: 0 }; 7]);
    calls.push(Call::Crash);
    calls.extend([Call::Recover; 4]);
    calls.push(Call::Crash);
    calls.extend([Call::Recover; 7]);
    let mut b = vec![1, 0, 4];
    for c in calls {
        encode(c, &mut b);
    }
    // 11 lines; bound 5 * 1 + 4 * 2 = 13
    assert_eq!(replay(&b), "3 1 0\n11 3 0\n24 6 0\nT 24 2 11 1 0\n");
    let mut s = new_store(4);
    let o = run(&b, &mut s, &mut |_, _, _| {});
    let t = totals(&o.history);
    assert_eq!(t.recovery_lines, 11);
    assert_eq!(5 * t.entered_cut + 4 * t.crashes, 13);
    assert_eq!((s.vol[1], s.pers[1]), (0, 0));
}

#[test]
fn p14() {
    let mut s = fresh4();
    assert_eq!(crash(&mut s), (0, 0));
    assert_eq!(begin(&mut s, 0), (12, 0));
    assert_eq!(recover(&mut s), (0, 0));
    assert_eq!(begin(&mut s, 0), (12, 0));
    assert_eq!(recover(&mut s), (6, 0));
    assert_eq!(begin(&mut s, 0), (0, 0));
}

// "Run only".

#[test]
fn a_second_write_to_a_logged_word_takes_four_lines() {
    let mut s = fresh4();
    start(&mut s, 0);
    write(&mut s, 0, 1, 5);
    assert_eq!(numbers(&steps(&mut s, 0, 7)), [0, 0, 0, 0, 0, 0, 3]);
    write(&mut s, 0, 1, 6);
    assert_eq!(numbers(&steps(&mut s, 0, 5)), [0, 0, 0, 3, 15]);
    assert_eq!(s.old[1], 0);
    // a second word takes five
    write(&mut s, 0, 2, 6);
    assert_eq!(numbers(&steps(&mut s, 0, 6)), [0, 0, 0, 0, 3, 15]);
}

#[test]
fn all_identifiers_spent() {
    let mut s = fresh4();
    for id in 0..64 {
        start(&mut s, id);
        commit(&mut s, id);
        assert_eq!(step(&mut s, id), (4, 0));
    }
    for id in 0..64 {
        assert_eq!(begin(&mut s, id), (13, 0));
        assert_eq!(step(&mut s, id), (15, 0));
        assert_eq!(commit(&mut s, id), (14, 0));
    }
}

#[test]
fn trace_refusals() {
    let t = |b: &[u8]| replay(b);
    let none = "T 0 0 0 0 0\n";
    let big = vec![1u8; 65_537];
    assert_eq!(t(&big), format!("X 22 0\n{}", none));
    assert_eq!(t(&vec![0u8; 70_000]), format!("X 22 0\n{}", none));
    assert_eq!(t(&[]), format!("X 20 0\n{}", none));
    assert_eq!(t(&[2]), format!("X 19 0\n{}", none));
    assert_eq!(t(&[0, 0]), format!("X 19 0\n{}", none));
    assert_eq!(t(&[1]), format!("X 20 0\n{}", none));
    assert_eq!(t(&[1, 0]), format!("X 20 0\n{}", none));
    assert_eq!(t(&[1, 0, 0]), format!("X 21 0\n{}", none));
    assert_eq!(t(&[1, 1, 1]), format!("X 21 0\n{}", none));
    assert_eq!(t(&[1, 1, 0]), none);
    assert_eq!(t(&[1, 0, 1]), none);
    assert_eq!(t(&[1, 0, 4, 0]), format!("X 20 1\n{}", none));
    assert_eq!(t(&[1, 0, 4, 0, 0]), format!("X 18 1\n{}", none));
    assert_eq!(t(&[1, 0, 4, 0, 1]), format!("X 20 1\n{}", none));
    assert_eq!(t(&[1, 0, 4, 0, 2, 99]), format!("X 20 1\n{}", none)); // unknown, beyond the end
    assert_eq!(t(&[1, 0, 4, 0, 1, 99]), format!("X 17 1\n{}", none));
    assert_eq!(t(&[1, 0, 4, 0, 1, 0]), format!("X 17 1\n{}", none));
    assert_eq!(t(&[1, 0, 4, 0, 1, 9]), format!("X 17 1\n{}", none));
    assert_eq!(t(&[1, 0, 4, 0, 2, 7, 7]), format!("X 18 1\n{}", none));
    for kind in 1..=8u8 {
        let due = [0, 2, 3, 7, 2, 2, 2, 1, 1][kind as usize];
        for length in 1..=300usize {
            let mut b = vec![1, 0, 4, (length / 256) as u8, (length % 256) as u8, kind];
            b.extend(vec![0u8; length - 1]);
            let out = t(&b);
            assert_eq!(out.contains("X 18 1\n"), length != due, "{} {}", kind, length);
            assert_eq!(out.contains("X "), length != due);
        }
    }
    // earlier records are done; the refused one is not
    assert_eq!(t(&[1, 0, 4, 0, 1, 7, 0, 1, 8, 0, 2, 8, 8]), "X 18 3\nT 2 1 1 0 0\n");
    // a refused record counts as done and is printed; a refused recover is no line
    assert_eq!(t(&[1, 0, 4, 0, 1, 8, 0, 2, 6, 4]), "1 16 0\n2 10 0\nT 2 0 0 0 0\n");
    // a whole trace of 65,536 bytes is taken
    let full = generate("full", 1).unwrap();
    assert_eq!(full.len(), 65_536);
    assert!(!t(&full).contains('X'));
    let mut more = full.clone();
    more.push(0);
    assert_eq!(t(&more), format!("X 22 0\n{}", none));
}

#[test]
fn lent_rows_that_do_not_fit_the_header() {
    let b = example(true);
    for (v, p, o, t) in [(5, 5, 5, 64), (4, 5, 4, 64), (4, 4, 3, 64), (4, 4, 4, 63), (256, 256, 256, 64)] {
        let mut s = new_store(4);
        s.vol = vec![7; v];
        s.pers = vec![7; p];
        s.old = vec![7; o];
        s.txs = vec![Tx { loc: 3, phase: Phase::Ready }; t];
        s.glb = 99_999;
        let before = s.clone();
        assert_eq!(run(&b, &mut s, &mut |_, _, _| {}).stop, Some((9, 0)));
        assert_eq!(s, before);
        assert_eq!(run(&[1, 0, 0], &mut s, &mut |_, _, _| {}).stop, Some((21, 0)));
        assert_eq!(s, before);
    }
}

// Orders of checks.

#[test]
fn orders() {
    let mut s = fresh4();
    assert_eq!(read(&mut s, 64, 4), (11, 0));
    assert_eq!(write(&mut s, 64, 4, 1), (11, 0));
    crash(&mut s);
    assert_eq!(read(&mut s, 0, 4), (10, 0));
    assert_eq!(write(&mut s, 0, 4, 1), (10, 0));
    assert_eq!(read(&mut s, 0, 3), (12, 0));
    assert_eq!(write(&mut s, 0, 3, 1), (12, 0));
    assert_eq!(commit(&mut s, 0), (12, 0));
    assert_eq!(commit(&mut s, 64), (11, 0));
    assert_eq!(step(&mut s, 0), (12, 0));
    assert_eq!(step(&mut s, u32::MAX), (11, 0));
    assert_eq!(begin(&mut s, 64), (11, 0));
    assert_eq!(flush(&mut s, 4), (10, 0));
    assert_eq!(flush(&mut s, u32::MAX), (10, 0));
    assert_eq!(flush(&mut s, 3), (0, 0));
    assert_eq!(crash(&mut s), (0, 0));
    assert_eq!(recover_up_to(&mut s, 0), (0, 0));
    assert_eq!(recover_up_to(&mut s, 1), (0, 1));
    assert_eq!(recover_up_to(&mut s, 1), (6, 1));
    assert_eq!(recover_up_to(&mut s, 0), (16, 0));
    crash(&mut s);
    assert_eq!(recover_up_to(&mut s, 2), (6, 2));
    crash(&mut s);
    assert_eq!(recover_up_to(&mut s, u64::MAX), (6, 2));
}

// Stores that no schedule reaches.

/// Every call on a copy; all have to answer 9 and change nothing.
fn all_nine(s: &Store) {
    for call in 0..9 {
        let mut t = s.clone();
        let a = match call {
            0 => begin(&mut t, 64),
            1 => read(&mut t, 64, 999),
            2 => write(&mut t, 64, 999, 1),
            3 => commit(&mut t, 64),
            4 => step(&mut t, 64),
            5 => flush(&mut t, 999),
            6 => crash(&mut t),
            7 => recover(&mut t),
            _ => recover_up_to(&mut t, 5),
        };
        assert_eq!(a, (9, 0), "call {}", call);
        assert_eq!(&t, s);
    }
}

#[test]
fn unfit_stores() {
    let sizes = [1usize, 2, 63, 64, 65, 127, 128, 129, 255, 256];
    for n in sizes {
        let s = new_store(n);
        assert!(fit(&s));
        for row in 0..3 {
            for change in [-1i32, 1] {
                let mut t = s.clone();
                let r = match row {
                    0 => &mut t.vol,
                    1 => &mut t.pers,
                    _ => &mut t.old,
                };
                r.resize((n as i32 + change) as usize, 0);
                all_nine(&t);
                assert_eq!(make_fresh(&mut t), (9, 0));
            }
        }
        for records in [0usize, 1, 63, 65] {
            let mut t = s.clone();
            t.txs.resize(records, Tx { loc: 0, phase: Phase::Fresh });
            all_nine(&t);
            let before = t.clone();
            assert_eq!(make_fresh(&mut t), (9, 0));
            assert_eq!(t, before);
        }
        for bit in 0..256usize {
            let mut t = s.clone();
            t.marks[bit / 64] = 1 << (bit % 64);
            assert_eq!(fit(&t), bit < n);
            if bit >= n {
                all_nine(&t);
            }
        }
        let w = n as u32;
        for id in [0, 63] {
            for (phase, names) in [
                (Phase::R1 { word: w }, true),
                (Phase::R2 { value: w }, false),
                (Phase::W1 { word: w, value: 0 }, true),
                (Phase::W2 { word: w, value: 0 }, true),
                (Phase::W3 { word: w, value: 0 }, true),
                (Phase::W4 { word: w, value: 0 }, true),
                (Phase::W5 { word: w, value: 0 }, true),
                (Phase::W6 { word: w, value: 0 }, true),
                (Phase::W7 { word: w }, true),
                (Phase::W1 { word: w - 1, value: u32::MAX }, false),
            ] {
                let mut t = s.clone();
                t.txs[id].phase = phase;
                assert_eq!(fit(&t), !names);
                if names {
                    all_nine(&t);
                }
            }
            for (loc, ok) in [(65_535, true), (65_536, false), (u32::MAX, false)] {
                let mut t = s.clone();
                t.txs[id].loc = loc;
                assert_eq!(fit(&t), ok);
                if !ok {
                    all_nine(&t);
                    assert_eq!(make_fresh(&mut t), (0, 0));
                    assert_eq!(t, s);
                }
                let mut t = s.clone();
                t.glb = loc;
                assert_eq!(fit(&t), ok);
            }
        }
        for (recovery, ok) in [
            (Recovery::C1, true),
            (Recovery::C2, false),
            (Recovery::C3 { word: w, value: 0 }, false),
            (Recovery::C4 { word: w, value: 0 }, false),
            (Recovery::C5 { word: w, value: 0 }, false),
            (Recovery::C5 { word: w - 1, value: 0 }, true),
            (Recovery::C6, true),
        ] {
            let mut t = s.clone();
            t.recovery = recovery;
            assert_eq!(fit(&t), ok);
            if !ok {
                all_nine(&t);
            }
        }
    }
    all_nine(&new_store(0));
    all_nine(&new_store(257));
}

#[test]
fn literal_lines_and_65_535() {
    let mut s = fresh4();
    // begin does not set loc
    s.txs[0].loc = 7;
    begin(&mut s, 0);
    assert_eq!(s.txs[0].loc, 7);
    step(&mut s, 0);
    assert_eq!(s.txs[0].loc, 0);
    // W2 has no parity test and raises 65,535
    let mut s = fresh4();
    s.glb = 65_535;
    s.txs[1] = Tx { loc: 65_535, phase: Phase::W2 { word: 0, value: 1 } };
    assert_eq!(step(&mut s, 1), (0, 0));
    assert_eq!(s.glb, 65_536);
    all_nine(&s);
    // W3
    let mut s = fresh4();
    s.txs[1] = Tx { loc: 65_535, phase: Phase::W3 { word: 0, value: 1 } };
    assert_eq!(step(&mut s, 1), (0, 0));
    assert_eq!(s.txs[1].loc, 65_536);
    all_nine(&s);
    // E3
    let mut s = fresh4();
    s.txs[1] = Tx { loc: 65_535, phase: Phase::E3 };
    assert_eq!(step(&mut s, 1), (4, 0));
    assert_eq!(s.glb, 65_536);
    all_nine(&s);
    // E2 and E3 act with an even loc too
    let mut s = fresh4();
    s.marks[0] = 5;
    s.txs[1] = Tx { loc: 8, phase: Phase::E2 };
    assert_eq!(numbers(&steps(&mut s, 1, 2)), [0, 4]);
    assert_eq!((s.glb, s.marks), (9, [0; 4]));
    // C5 on an unmarked word clears nothing and goes to C1
    let mut s = fresh4();
    s.marks[0] = 1;
    s.glb = 12;
    s.old[0] = 77;
    s.recovery = Recovery::C5 { word: 2, value: 9 };
    assert_eq!(recover(&mut s), (0, 0));
    assert_eq!((s.recovery, s.marks), (Recovery::C1, [1, 0, 0, 0]));
    assert_eq!(recover_up_to(&mut s, 100), (6, 7));
    assert_eq!((s.vol[0], s.pers[0], s.old[0], s.glb), (77, 77, 77, 0));
    // C2 takes the lowest marked word
    let mut s = new_store(256);
    s.marks = [0, 0, 1 << 5, 1];
    s.old[133] = 3;
    s.recovery = Recovery::C2;
    assert_eq!(recover(&mut s), (0, 0));
    assert_eq!(s.recovery, Recovery::C3 { word: 133, value: 3 });
    // C3 and C4 use what they carry, not the old row
    let mut s = fresh4();
    s.old[1] = 50;
    s.recovery = Recovery::C3 { word: 1, value: 60 };
    recover(&mut s);
    assert_eq!((s.vol[1], s.pers[1]), (60, 0));
    s.vol[1] = 61;
    recover(&mut s);
    assert_eq!((s.vol[1], s.pers[1]), (61, 61));
    // crash keeps persistent, old, marks, loc
    let mut s = fresh4();
    s.vol = vec![1, 2, 3, 4];
    s.pers = vec![5, 6, 7, 8];
    s.old = vec![9, 10, 11, 12];
    s.marks[0] = 15;
    s.glb = 9;
    for (i, phase) in [Phase::Fresh, Phase::Ready, Phase::Committed, Phase::Aborted, Phase::E3].into_iter().enumerate() {
        s.txs[i] = Tx { loc: 20 + i as u32, phase };
    }
    assert_eq!(crash(&mut s), (0, 0));
    assert_eq!(s.vol, [5, 6, 7, 8]);
    assert_eq!(s.pers, [5, 6, 7, 8]);
    assert_eq!(s.old, [9, 10, 11, 12]);
    assert_eq!((s.marks[0], s.glb, s.recovery), (15, 0, Recovery::C1));
    let phases: Vec<Phase> = s.txs[..5].iter().map(|t| t.phase).collect();
    assert_eq!(phases, [Phase::Fresh, Phase::Aborted, Phase::Committed, Phase::Aborted, Phase::Aborted]);
    for i in 0..5 {
        assert_eq!(s.txs[i].loc, 20 + i as u32);
    }
}

fn arbitrary_phase(r: &mut Rng, n: u64) -> Phase {
    let word = if r.chance(1, 200) { r.next() as u32 } else { r.below(n.max(1)) as u32 };
    let value = r.next() as u32;
    match r.below(18) {
        0 => Phase::Fresh,
        1 => Phase::Ready,
        2 => Phase::Committed,
        3 => Phase::Aborted,
        4 => Phase::B1,
        5 => Phase::B2,
        6 => Phase::R1 { word },
        7 => Phase::R2 { value },
        8 => Phase::W1 { word, value },
        9 => Phase::W2 { word, value },
        10 => Phase::W3 { word, value },
        11 => Phase::W4 { word, value },
        12 => Phase::W5 { word, value },
        13 => Phase::W6 { word, value },
        14 => Phase::W7 { word },
        15 => Phase::E1,
        16 => Phase::E2,
        _ => Phase::E3,
    }
}

fn arbitrary(r: &mut Rng) -> Store {
    let n = match r.below(8) {
        0 => r.below(260),
        1 => 256,
        2 => 64,
        _ => 1 + r.below(8),
    };
    let row = |r: &mut Rng| {
        let len = if r.chance(1, 40) { r.below(300) } else { n };
        (0..len).map(|_| r.below(1000) as u32).collect::<Vec<u32>>()
    };
    let (vol, pers, old) = (row(r), row(r), row(r));
    let mut marks = [0u64; 4];
    for w in 0..n.min(256) as usize {
        if r.chance(1, 3) {
            marks[w / 64] |= 1 << (w % 64);
        }
    }
    if r.chance(1, 20) {
        marks[r.below(4) as usize] |= 1 << r.below(64);
    }
    if r.chance(1, 4) {
        marks = [0; 4];
    }
    let count = |r: &mut Rng| match r.below(400) {
        0 => r.next() as u32,
        1 => 65_536,
        2..=40 => 65_535,
        _ => r.below(6) as u32,
    };
    let glb = count(r);
    let txs = if r.chance(1, 40) { r.below(130) } else { 64 };
    let txs = (0..txs).map(|_| Tx { loc: count(r), phase: arbitrary_phase(r, n) }).collect();
    let word = if r.chance(1, 20) { r.next() as u32 } else { r.below(n.max(1)) as u32 };
    let value = r.next() as u32;
    let recovery = match r.below(12) {
        0 => Recovery::C1,
        1 => Recovery::C2,
        2 => Recovery::C3 { word, value },
        3 => Recovery::C4 { word, value },
        4 => Recovery::C5 { word, value },
        5 => Recovery::C6,
        _ => Recovery::Idle,
    };
    Store { vol, pers, old, marks, glb, recovery, txs }
}

#[test]
fn arbitrary_stores() {
    let mut r = Rng::new(2024);
    let (mut fits, mut taken) = (0, 0);
    for _ in 0..40_000 {
        let mut s = arbitrary(&mut r);
        for _ in 0..4 {
            let before = s.clone();
            let was_fit = fit(&s);
            fits += was_fit as u32;
            let id = if r.chance(1, 10) { r.next() as u32 } else { r.below(66) as u32 };
            let word = if r.chance(1, 10) { r.next() as u32 } else { r.below(s.vol.len() as u64 + 2) as u32 };
            let value = r.next() as u32;
            let b = if r.chance(1, 10) { r.next() } else { r.below(30) };
            let kind = r.below(10);
            let (number, result) = match kind {
                0 => begin(&mut s, id),
                1 => read(&mut s, id, word),
                2 => write(&mut s, id, word, value),
                3 => commit(&mut s, id),
                4 | 5 => step(&mut s, id),
                6 => flush(&mut s, word),
                7 => crash(&mut s),
                8 => recover(&mut s),
                _ => {
                    let mut t = s.clone();
                    let a = recover_up_to(&mut s, b);
                    // the same by single calls
                    let mut due = (0, 0);
                    if !was_fit {
                        due = (9, 0);
                    } else if t.recovery == Recovery::Idle {
                        due = (16, 0);
                    } else {
                        while due.1 < b && due.0 == 0 {
                            due = (recover(&mut t).0, due.1 + 1);
                        }
                    }
                    assert_eq!(a, due);
                    assert_eq!(s, t);
                    a
                }
            };
            assert_eq!(number == 9, !was_fit);
            if number >= 9 {
                assert_eq!(result, 0);
                assert_eq!(s, before);
            } else {
                taken += 1;
                if number != 2 && kind != 9 {
                    assert_eq!(result, 0);
                }
            }
        }
    }
    assert!(fits > 40_000 && taken > 20_000, "{} {}", fits, taken);
}

#[test]
fn every_kind_plain_fast_and_ghost() {
    let mut machine = fast::Machine::new();
    let mut out = Vec::new();
    for kind in KINDS {
        for seed in 0..50 {
            let b = generate(kind, seed).unwrap();
            assert!(b.len() <= 65_536 || kind == "random");
            let (text, violations) = ghost::check(&b);
            for v in &violations {
                panic!("{} {}: record {}: {}", kind, seed, v.record, v.what);
            }
            assert_eq!(text, replay(&b), "{} {}", kind, seed);
            fast::replay(&b, &mut machine, &mut out);
            assert_eq!(text.as_bytes(), &out[..], "{} {}", kind, seed);
            if kind == "full" {
                assert_eq!(b.len(), 65_536);
            }
            if kind != "random" && kind != "damaged" {
                assert!(!text.contains('X'), "{} {}", kind, seed);
            }
        }
    }
}
