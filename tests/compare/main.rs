//! Compares the proved libraries with the plain program, in one process: traces byte by byte, and single calls number by number.
//!
//! compare                   every group, with fixed seeds
//! compare --small           the same with a sixtieth of the seeds, and no byte strings of three bytes
//! compare --single          the groups of single calls
//! compare --minutes M       traces of every kind, and single calls at random, from fresh seeds, for M minutes
//! compare --trace FILE      one trace
//! compare --program FILE    the built program replay, run as a process

mod groups;
mod judge;
mod lent;
mod program;
mod singles;
#[path = "../host/exports.rs"]
mod exports;
#[path = "../plain/generate.rs"]
mod generate;
#[path = "../plain/ghost.rs"]
mod ghost;
#[path = "../plain/store.rs"]
mod store;
#[path = "../plain/trace.rs"]
mod trace;

use groups::Group;
use judge::{judge, How, Lent};
use singles::Singles;
use std::path::Path;
use std::sync::atomic::{AtomicU64, Ordering};
use std::sync::Mutex;
use std::time::{Duration, Instant, SystemTime, UNIX_EPOCH};

/// Traces, and stores with their calls, on which the two differ are written here.
pub const KEPT: &str = "target/compare";

/// A group's differing cases are counted; of so many the trace or the store is kept.
const SHOWN: u64 = 3;

/// Writes the trace, or the store and its call, of a differing case to a file and says where and what. The task of a kind is its seed, and so
/// is that of stores and walks at random.
pub fn tell(group: &str, task: u64, number: u64, kept: &[u8], what: &str) {
    let name: String = group.chars().map(|c| if c.is_alphanumeric() { c } else { '-' }).collect();
    let kind = if group.starts_with("single calls") { "store" } else { "trace" };
    let path = Path::new(KEPT).join(format!("{}-{}-{}.{}", name, task, number, kind));
    let written = std::fs::create_dir_all(KEPT).and_then(|_| std::fs::write(&path, kept));
    let place = match written {
        Ok(()) => path.display().to_string(),
        Err(e) => format!("(not written: {})", e),
    };
    let seeded = ["kind ", "single calls: arbitrary", "single calls: walks"].iter().any(|start| group.starts_with(start));
    let task_is = if seeded { "seed" } else { "task" };
    println!("{}, {} {}, case {}: {}\n{}", group, task_is, task, number, place, what);
}

/// Cases and differing cases, of all threads.
struct Tally {
    cases: AtomicU64,
    differ: AtomicU64,
    speaking: Mutex<()>,
}

impl Tally {
    fn add(&self, cases: u64, what: Option<String>, tell: impl FnOnce(&str)) {
        self.cases.fetch_add(cases, Ordering::Relaxed);
        if let Some(what) = what {
            if self.differ.fetch_add(1, Ordering::Relaxed) < SHOWN {
                let _one = self.speaking.lock();
                tell(&what);
            }
        }
    }
}

/// Runs tasks on every processor until `next` has no more of them; gives cases and differing cases.
fn in_threads(next: &(dyn Fn() -> Option<u64> + Sync), work: impl Fn(&mut dyn Iterator<Item = u64>, &Tally) + Sync) -> (u64, u64) {
    let threads = std::thread::available_parallelism().map_or(2, |n| n.get());
    let tally = Tally { cases: AtomicU64::new(0), differ: AtomicU64::new(0), speaking: Mutex::new(()) };
    std::thread::scope(|scope| {
        for _ in 0..threads {
            scope.spawn(|| work(&mut std::iter::from_fn(next), &tally));
        }
    });
    (tally.cases.into_inner(), tally.differ.into_inner())
}

fn run(group: &Group, next: &(dyn Fn() -> Option<u64> + Sync)) -> (u64, u64) {
    in_threads(next, |tasks, tally| {
        let mut lent = Lent::new();
        for task in tasks {
            let mut number = 0;
            (group.cases)(task, &mut |trace: &[u8]| {
                let (cases, what) = judge(&group.how, trace, &mut lent);
                tally.add(cases, what, |what| tell(&group.name, task, number, trace, what));
                number += 1;
            });
        }
        let touched = if lent.untouched() { None } else { Some("the library wrote behind its text".to_string()) };
        tally.add(0, touched, |what| println!("{}: {}", group.name, what));
    })
}

fn run_singles(group: &Singles, next: &(dyn Fn() -> Option<u64> + Sync)) -> (u64, u64) {
    in_threads(next, |tasks, tally| {
        let mut lent = lent::Lent::new();
        for task in tasks {
            let mut number = 0;
            (group.cases)(task, &mut |before, ask| {
                // mostly a row of one number for the value; now and then none, or more
                let room = [0, 3, 1, 1, 1, 1, 1, 1][number as usize % 8];
                let what = lent::judge(before, ask, room, &mut lent);
                let shown = |what: &str| tell(&group.name, task, number, lent::text(before, ask).as_bytes(), &format!("  {:?}\n{}", ask, what));
                tally.add(1, what, shown);
                number += 1;
            });
        }
    })
}

/// A group's line, as tools/compare counts it.
pub fn say(group: &str, cases: u64, differ: u64) {
    println!("group {}: {} cases, {} differ", group, cases, differ);
}

/// Says each group's line, and sums them up.
fn sum<'a>(groups: impl Iterator<Item = (&'a str, (u64, u64))>) -> (u64, u64) {
    groups.fold((0, 0), |sum, (name, (cases, differ))| {
        say(name, cases, differ);
        (sum.0 + cases, sum.1 + differ)
    })
}

/// The tasks of a group, one of so many.
fn every(part: u64, tasks: u64) -> impl Fn() -> Option<u64> + Sync {
    let given = AtomicU64::new(0);
    move || Some(given.fetch_add(part, Ordering::Relaxed)).filter(|task| *task < tasks)
}

fn every_trace(small: bool) -> (u64, u64) {
    let groups = groups::all(small);
    sum(groups.iter().map(|group| (&group.name[..], run(group, &every(1, group.tasks)))))
}

fn every_single_call(small: bool) -> (u64, u64) {
    let part = |group: &Singles| if small { group.small } else { 1 };
    let groups = singles::all();
    sum(groups.iter().map(|group| (&group.name[..], run_singles(group, &every(part(group), group.tasks)))))
}

fn every_group(small: bool) -> (u64, u64) {
    let (traces, calls) = (every_trace(small), every_single_call(small));
    (traces.0 + calls.0, traces.1 + calls.1)
}

fn fresh_seeds(minutes: f64) -> (u64, u64) {
    let first = SystemTime::now().duration_since(UNIX_EPOCH).map_or(0, |d| d.as_nanos() as u64);
    println!("seeds from {}", first);
    let end = Instant::now() + Duration::from_secs_f64(minutes * 60.0);
    let kinds: Vec<Group> = groups::kinds(1);
    let singles: Vec<Singles> = singles::at_random();
    let names: Vec<String> = kinds.iter().map(|g| &g.name).chain(singles.iter().map(|g| &g.name)).cloned().collect();
    let mut sums = vec![(0, 0); names.len()];
    for round in 0.. {
        for (i, sum) in sums.iter_mut().enumerate() {
            // a single call takes far less time than a trace
            let many: u64 = if i < kinds.len() { 64 } else { 4096 };
            let given = AtomicU64::new(0);
            let next = || {
                let i = given.fetch_add(1, Ordering::Relaxed);
                if i < many && Instant::now() < end { Some(first.wrapping_add(round * many + i)) } else { None }
            };
            let (cases, differ) = if i < kinds.len() { run(&kinds[i], &next) } else { run_singles(&singles[i - kinds.len()], &next) };
            *sum = (sum.0 + cases, sum.1 + differ);
        }
        if Instant::now() >= end {
            break;
        }
    }
    sum(names.iter().map(|name| &name[..]).zip(sums))
}

fn one_trace(file: &str) -> (u64, u64) {
    let trace = std::fs::read(file).expect("the trace file");
    let (cases, what) = judge(&How::Demands, &trace, &mut Lent::new());
    if let Some(what) = &what {
        println!("{}", what);
    }
    (cases, what.is_some() as u64)
}

fn usage() -> ! {
    eprintln!("compare [--small | --single | --minutes M | --trace FILE | --program FILE]");
    std::process::exit(2)
}

fn main() {
    let args: Vec<String> = std::env::args().skip(1).collect();
    let words: Vec<&str> = args.iter().map(|a| a.as_str()).collect();
    let (cases, differ) = match words[..] {
        [] => every_group(false),
        ["--small"] => every_group(true),
        ["--single"] => every_single_call(false),
        ["--minutes", m] => fresh_seeds(m.parse().unwrap_or_else(|_| usage())),
        ["--trace", file] => one_trace(file),
        ["--program", file] => program::every_run(file),
        _ => usage(),
    };
    println!("{} cases, {} differ", cases, differ);
    if differ > 0 {
        std::process::exit(1);
    }
}
