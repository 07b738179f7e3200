//! The judge: question lines to answer lines, or one question about a sheet on standard input.
use std::collections::BTreeMap;
use std::io::{self, BufRead, BufWriter, Read, Write};
use std::process::ExitCode;

use judge::answer::Way;
use judge::line;
use judge::program::{self, Shown};

const HELP: &str = "\
usage: judge [--both] [--count]       question lines on standard input, answered lines on standard output
       judge rewrite [BYTES]          one sheet on standard input: the rewritten sheet
       judge clocks [NODE]            one sheet on standard input: the clocks of each node, or of one
       judge text NODE FAULT [BYTES]  one sheet on standard input: the text of a fault
       judge inspect                  one sheet on standard input: what is in it
  --both   where it can, ask the Rust on the sheet as it is and on small types, and compare
  --count  counts by question, refusal and fault on standard error
";

fn main() -> ExitCode {
    // Trees are shallow, defaults are not.
    std::thread::Builder::new().stack_size(1 << 29).spawn(run).unwrap().join().unwrap_or(ExitCode::from(3))
}

fn run() -> ExitCode {
    let args: Vec<String> = std::env::args().skip(1).collect();
    let words: Vec<&str> = args.iter().map(|a| a.as_str()).collect();
    let numbers: Option<Vec<u64>> = words.iter().skip(1).map(|a| a.parse().ok()).collect();
    match (words.first().copied(), numbers) {
        (Some("--help" | "-h"), _) => {
            print!("{HELP}");
            ExitCode::SUCCESS
        }
        (Some("rewrite"), Some(n)) if n.len() <= 1 => show(program::rewrite(&sheet(), n.first().copied().unwrap_or(u64::MAX))),
        (Some("clocks"), Some(n)) if n.len() <= 1 => show(program::clocks(&sheet(), n.first().copied())),
        (Some("text"), Some(n)) if (2..=3).contains(&n.len()) => {
            show(program::text(&sheet(), n[0], n[1], n.get(2).copied().unwrap_or(u64::MAX)))
        }
        (Some("inspect"), Some(n)) if n.is_empty() => show(program::inspect(&sheet())),
        _ if words.iter().all(|w| ["--both", "--count"].contains(w)) => {
            batch(if words.contains(&"--both") { Way::Both } else { Way::Best }, words.contains(&"--count"))
        }
        _ => {
            eprint!("{HELP}");
            ExitCode::from(2)
        }
    }
}

fn sheet() -> Vec<u8> {
    let mut bytes = Vec::new();
    io::stdin().lock().read_to_end(&mut bytes).expect("standard input");
    bytes
}

fn show(shown: Shown) -> ExitCode {
    io::stdout().write_all(&shown.out).expect("standard output");
    io::stderr().write_all(&shown.err).expect("standard error");
    if shown.err.is_empty() {
        ExitCode::SUCCESS
    } else {
        ExitCode::FAILURE
    }
}

fn batch(way: Way, count: bool) -> ExitCode {
    let mut out = BufWriter::new(io::stdout().lock());
    let mut counts: BTreeMap<String, u64> = BTreeMap::new();
    let mut panics = 0;
    for (k, l) in io::stdin().lock().lines().enumerate() {
        let l = l.expect("standard input");
        if l.is_empty() || l.starts_with('#') {
            continue;
        }
        let Some(q) = line::parse(&l) else {
            eprintln!("line {}: not a question", k + 1);
            return ExitCode::from(2);
        };
        let a = std::panic::catch_unwind(|| line::answer(&q, way)).unwrap_or_else(|_| {
            eprintln!("line {}: panic: {}", k + 1, q.line());
            panics += 1;
            "panic".into()
        });
        if count {
            tally(&mut counts, &q, &a);
        }
        writeln!(out, "{} {a}", q.line()).expect("standard output");
    }
    for (what, n) in counts {
        eprintln!("{n:9} {what}");
    }
    if panics > 0 {
        return ExitCode::from(3);
    }
    ExitCode::SUCCESS
}

fn tally(counts: &mut BTreeMap<String, u64>, q: &line::Question, a: &str) {
    let mut add = |what: String| *counts.entry(what).or_insert(0) += 1;
    let f: Vec<&str> = a.split(' ').collect();
    let kind = match q {
        line::Question::Rewrite { .. } => "rewrite",
        line::Question::Clocks { .. } => "clocks",
        line::Question::Text { .. } => "text",
    };
    match f[0] {
        "refused" => add(format!("{kind} refused {:>2}", f[1])),
        other => add(format!("{kind} {other}")),
    }
    let from = if kind != "text" && ["accepted", "refused"].contains(&f[0]) && f.len() > 4 { 4 } else { f.len() };
    for t in f[from..].chunks(3) {
        add(format!("fault {}", t[1]));
    }
}
