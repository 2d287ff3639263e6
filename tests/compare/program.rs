//! The built program replay as a process: files, pipes, and descriptors that are closed or full.

use crate::generate::{generate, KINDS};
use crate::judge::first_difference;
use crate::trace;
use crate::{say, tell, KEPT};
use std::fs::File;
use std::io::{Read, Write};
use std::path::Path;
use std::process::{Child, Command, Stdio};
use std::time::{Duration, Instant};

/// A run that takes longer has not ended.
const LIMIT: Duration = Duration::from_secs(20);

/// Whether it has ended; if not, it is stopped.
fn ends(child: &mut Child) -> bool {
    let start = Instant::now();
    while start.elapsed() < LIMIT {
        if let Ok(Some(_)) = child.try_wait() {
            return true;
        }
        std::thread::sleep(Duration::from_millis(1));
    }
    let _ = child.kill();
    let _ = child.wait();
    false
}

/// Runs it with the trace in a file and the text to a file.
fn by_files(command: &mut Command, input: &[u8]) -> Result<Vec<u8>, String> {
    let failed = |e: std::io::Error| format!("  {}", e);
    let (from, to) = (Path::new(KEPT).join("program.in"), Path::new(KEPT).join("program.out"));
    std::fs::write(&from, input).map_err(failed)?;
    let mut child = command
        .stdin(File::open(&from).map_err(failed)?)
        .stdout(File::create(&to).map_err(failed)?)
        .spawn()
        .map_err(failed)?;
    if !ends(&mut child) {
        return Err("  it does not end".to_string());
    }
    std::fs::read(&to).map_err(failed)
}

/// Runs it with the trace in a pipe, in pieces of so many bytes, and the text to a pipe.
fn by_pipes(command: &mut Command, input: &[u8], piece: usize) -> Result<Vec<u8>, String> {
    let failed = |e: std::io::Error| format!("  {}", e);
    let mut child = command.stdin(Stdio::piped()).stdout(Stdio::piped()).spawn().map_err(failed)?;
    let (mut to, mut from) = (child.stdin.take().expect("a pipe"), child.stdout.take().expect("a pipe"));
    let bytes = input.to_vec();
    let writer = std::thread::spawn(move || {
        for part in bytes.chunks(piece) {
            // a program that has read enough may have ended
            if to.write_all(part).is_err() {
                break;
            }
        }
    });
    let mut text = Vec::new();
    from.read_to_end(&mut text).map_err(failed)?;
    let _ = writer.join();
    if ends(&mut child) { Ok(text) } else { Err("  it does not end".to_string()) }
}

struct Runs {
    sum: (u64, u64),
}

impl Runs {
    fn group(&mut self, name: &str, cases: Vec<Vec<u8>>, run: &dyn Fn(&[u8]) -> Result<Vec<u8>, String>) {
        let name = format!("program, {}", name);
        let mut differ = 0;
        for (number, input) in cases.iter().enumerate() {
            let due = trace::replay(input);
            let what = match run(input) {
                Ok(text) if text == due.as_bytes() => continue,
                Ok(text) => first_difference(&text, due.as_bytes()),
                Err(what) => what,
            };
            differ += 1;
            tell(&name, 0, number as u64, input, &what);
        }
        say(&name, cases.len() as u64, differ);
        self.sum = (self.sum.0 + cases.len() as u64, self.sum.1 + differ);
    }
}

/// Empty, a header alone, a full trace, one byte more, and many more.
fn edges() -> Vec<Vec<u8>> {
    let full = generate("full", 1).expect("a kind");
    let mut cases = vec![vec![], vec![1], vec![1, 0, 4], vec![1, 1, 0], vec![1, 1, 1], full.clone()];
    for length in [65_537, 65_538, 200_000] {
        let mut b = full.clone();
        b.resize(length, 0);
        cases.push(b);
    }
    cases
}

pub fn every_run(program: &str) -> (u64, u64) {
    std::fs::create_dir_all(KEPT).expect("a folder for files");
    let mut runs = Runs { sum: (0, 0) };
    let mut cases = Vec::new();
    for kind in KINDS {
        for seed in 500..517 {
            cases.push(generate(kind, seed).expect("a kind"));
        }
    }
    let some: Vec<Vec<u8>> = cases.iter().step_by(17).cloned().collect();
    runs.group("generated traces", cases, &|b| by_files(&mut Command::new(program), b));
    runs.group("empty, header, full and above", edges(), &|b| by_files(&mut Command::new(program), b));
    runs.group("through pipes", edges(), &|b| by_pipes(&mut Command::new(program), b, 4096));
    runs.group("byte by byte", some, &|b| by_pipes(&mut Command::new(program), b, 1));
    runs.group("standard input closed", vec![vec![]], &|b| {
        by_files(Command::new("sh").args(["-c", "exec \"$0\" <&-", program]), b)
    });
    // its text has nowhere to go: it has to end
    let mut ended = 0;
    for to in ["> /dev/full", ">&-"] {
        let line = format!("exec \"$0\" {}", to);
        let input = generate("full", 2).expect("a kind");
        ended += by_files(Command::new("sh").args(["-c", &line, program]), &input).is_ok() as u64;
    }
    say("program, output full or closed", 2, 2 - ended);
    runs.sum = (runs.sum.0 + 2, runs.sum.1 + 2 - ended);
    runs.sum
}
