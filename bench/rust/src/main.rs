//! The Rust's work on a sheet: `rust_pass QUESTION SHEET SECONDS`.
//!
//! | question | what is measured |
//! |---|---|
//! | `rewrite` | `declock_project` on the tree of the sheet, which is built before |
//! | `clocks` | `infer_clocks` of each node of it |
//! | `rewrite-bytes` | the same from the sheet's bytes to the rewritten bytes, read, checked and written by the judge |
//! | `clocks-bytes` | the same from the sheet's bytes to the listing |
//!
//! The first call of `measured` is what callgrind counts. It is then called again for about SECONDS; the shortest call is
//! printed in nanoseconds. Freeing what a call returned is not measured.
use std::collections::HashMap;
use std::hint::black_box;
use std::process::ExitCode;
use std::time::{Duration, Instant};

use judge::sheet::{self, Sheet, MOST_LETTERS, MOST_NAMES, MOST_WRITTEN};
use ol_ir::clocks::{infer_clocks, ClockInfo};
use ol_ir::declock::{declock_project, DeclockError};
use ol_ir::expr::Expr;
use ol_ir::project::Project;

/// What a call returned: kept until it is freed outside of what is measured.
#[allow(dead_code)]
pub enum Answer {
    Project(Result<Project, Vec<DeclockError>>),
    Clocks(Vec<ClockInfo>),
    Bytes(Option<Vec<u8>>),
}

fn clocks(project: &Project) -> Vec<ClockInfo> {
    project.packages[0].nodes.iter().map(infer_clocks).collect()
}

/// The names of the output: the sheet's, each node's new locals, then `condact` if that node first needs it.
fn names_out(sheet: &Sheet, project: &Project) -> (Vec<String>, HashMap<String, u32>) {
    let mut names = sheet.names.clone();
    let mut ids = sheet::ids(&names);
    let mut add = |name: &str| {
        if !ids.contains_key(name) {
            ids.insert(name.to_string(), names.len() as u32);
            names.push(name.to_string());
        }
    };
    for (node, source) in project.packages[0].nodes.iter().zip(sheet.nodes()) {
        node.locals[source.locals.len()..].iter().for_each(|l| add(&l.name));
        let mut calls = false;
        for eq in &node.equations {
            eq.rhs.visit(|e| calls |= matches!(e, Expr::Call { node, .. } if node == "condact"));
        }
        if calls {
            add("condact");
        }
    }
    (names, ids)
}

fn rewrite_bytes(bytes: &[u8]) -> Option<Vec<u8>> {
    let sheet = judge::answer::examine(bytes).ok()?;
    let project = declock_project(&sheet.project).ok()?;
    let (names, ids) = names_out(&sheet, &project);
    if names.len() > MOST_NAMES || names.iter().map(|n| n.len()).sum::<usize>() > MOST_LETTERS {
        return None;
    }
    Some(sheet::bytes(&names, &sheet::tokens(&project, &ids, MOST_WRITTEN)?))
}

fn clocks_bytes(bytes: &[u8]) -> Option<Vec<u8>> {
    use std::io::Write;
    let sheet = judge::answer::examine(bytes).ok()?;
    let mut out = Vec::new();
    for (k, (node, info)) in sheet.nodes().iter().zip(clocks(&sheet.project)).enumerate() {
        writeln!(out, "{} {} {}", node.name, node.equations.len(), info.chains.len()).ok()?;
        for (i, clock) in info.equation_clocks.iter().enumerate() {
            writeln!(out, "{i} {}", clock.key()).ok()?;
        }
        for chain in &info.chains {
            writeln!(out, "chain {}", chain.key()).ok()?;
        }
        for e in &info.errors {
            writeln!(out, "fault {k} {} {}", e.equation.unwrap_or(0), e.message).ok()?;
        }
    }
    Some(out)
}

#[no_mangle]
#[inline(never)]
pub extern "C" fn measured(question: &Question, answer: &mut Option<Answer>) {
    *answer = Some(match question {
        Question::Rewrite(project) => Answer::Project(declock_project(project)),
        Question::Clocks(project) => Answer::Clocks(clocks(project)),
        Question::RewriteBytes(bytes) => Answer::Bytes(rewrite_bytes(bytes)),
        Question::ClocksBytes(bytes) => Answer::Bytes(clocks_bytes(bytes)),
    });
}

pub enum Question {
    Rewrite(Project),
    Clocks(Project),
    RewriteBytes(Vec<u8>),
    ClocksBytes(Vec<u8>),
}

#[repr(C)]
struct Timespec {
    seconds: i64,
    nanoseconds: i64,
}

extern "C" {
    fn clock_gettime(clock: i32, time: *mut Timespec) -> i32;
}

/// The processor's time of this thread.
fn busy() -> Duration {
    const CLOCK_THREAD_CPUTIME_ID: i32 = 3;
    let mut t = Timespec { seconds: 0, nanoseconds: 0 };
    // SAFETY: the call writes one Timespec.
    unsafe { clock_gettime(CLOCK_THREAD_CPUTIME_ID, &mut t) };
    Duration::new(t.seconds as u64, t.nanoseconds as u32)
}

/// A call of this length may be interrupted; the processor's clock is too coarse for a shorter one.
const LONG: Duration = Duration::from_millis(2);

/// The shortest call within the time, by the wall, a long one by the processor; at least one is made.
fn shortest(question: &Question, seconds: f64) -> Duration {
    let begin = Instant::now();
    let mut best = Duration::MAX;
    loop {
        let mut answer = None;
        let from = busy();
        let start = Instant::now();
        measured(black_box(question), &mut answer);
        let wall = start.elapsed();
        let busy = busy() - from;
        best = best.min(if wall >= LONG { wall.min(busy) } else { wall });
        drop(black_box(answer));
        if begin.elapsed().as_secs_f64() >= seconds {
            return best;
        }
    }
}

fn run() -> ExitCode {
    let words: Vec<String> = std::env::args().skip(1).collect();
    let [what, path, seconds] = &words[..] else {
        eprintln!("usage: rust_pass (rewrite|clocks|rewrite-bytes|clocks-bytes) SHEET SECONDS");
        return ExitCode::from(2);
    };
    let bytes = std::fs::read(path).expect("the sheet");
    let seconds: f64 = seconds.parse().expect("seconds");
    let tree = |bytes: &[u8]| sheet::read(bytes).expect("a sheet that is not refused").project;
    let question = match what.as_str() {
        "rewrite" => Question::Rewrite(tree(&bytes)),
        "clocks" => Question::Clocks(tree(&bytes)),
        "rewrite-bytes" => Question::RewriteBytes(bytes),
        "clocks-bytes" => Question::ClocksBytes(bytes),
        _ => return ExitCode::from(2),
    };
    println!("{}", shortest(&question, seconds).as_nanos());
    ExitCode::SUCCESS
}

fn main() -> ExitCode {
    // Trees are shallow, defaults are not.
    std::thread::Builder::new().stack_size(1 << 29).spawn(run).unwrap().join().unwrap_or(ExitCode::from(3))
}
