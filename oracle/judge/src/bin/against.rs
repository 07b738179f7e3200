//! Holds our programs against the judge: what each prints, byte for byte.
use std::collections::BTreeMap;
use std::io::{self, BufRead, Write};
use std::process::{Command, ExitCode, Stdio};

use judge::program::{self, Shown};
use judge::line;

const HELP: &str = "\
usage: against CRATES [inspect]
Question lines on standard input (answers after them are passed over). For each, runs the program of that name, which stands in
CRATES/NAME/out, on the sheet and compares what it prints with what the judge does; with the word `inspect`, runs the program
inspect on each sheet instead. Prints each difference, and counts; exit status 1 if anything differs.
";

fn main() -> ExitCode {
    // Trees are shallow, defaults are not.
    std::thread::Builder::new().stack_size(1 << 29).spawn(run).unwrap().join().unwrap_or(ExitCode::from(3))
}

fn run() -> ExitCode {
    let args: Vec<String> = std::env::args().skip(1).collect();
    let inspecting = args.get(1).map(|a| a.as_str()) == Some("inspect");
    if args.is_empty() || args[0].starts_with('-') || args.len() > 1 + inspecting as usize {
        eprint!("{HELP}");
        return ExitCode::from(2);
    }
    let mut counts: BTreeMap<String, u64> = BTreeMap::new();
    let mut different = 0;
    for l in io::stdin().lock().lines() {
        let l = l.expect("standard input");
        let Some(q) = line::parse(&l) else { continue };
        let (mut words, sheet, mut wanted) = program::asked(&q);
        if inspecting {
            words = vec!["inspect".into()];
            wanted = program::inspect(sheet);
        }
        let shown = printed(&args[0], &words, sheet);
        let first = String::from_utf8_lossy(&wanted.err).split(' ').take(2).collect::<Vec<_>>().join(" ");
        *counts.entry(if first.is_empty() { "accepted".into() } else { first }).or_insert(0) += 1;
        if shown != wanted {
            different += 1;
            println!("differs: {} {}", words.join(" "), line::hex(sheet));
            println!("  judge:   {:?}", String::from_utf8_lossy(if wanted.err.is_empty() { &wanted.out } else { &wanted.err }));
            println!("  program: {:?}", String::from_utf8_lossy(if shown.err.is_empty() { &shown.out } else { &shown.err }));
        }
    }
    for (what, n) in &counts {
        println!("{n:9} {what}");
    }
    println!("{} compared, {different} different", counts.values().sum::<u64>());
    ExitCode::from((different > 0) as u8)
}

fn printed(crates: &str, words: &[String], sheet: &[u8]) -> Shown {
    let mut child = Command::new(format!("{crates}/{0}/out/{0}", words[0]))
        .args(&words[1..])
        .stdin(Stdio::piped())
        .stdout(Stdio::piped())
        .stderr(Stdio::piped())
        .spawn()
        .expect("the program");
    // A program may turn a sheet down before it has read all of it.
    let _ = child.stdin.take().unwrap().write_all(sheet);
    let done = child.wait_with_output().expect("the program's end");
    Shown { out: done.stdout, err: done.stderr }
}
