//! Seeded question lines.
use std::io::{self, BufWriter, Write};
use std::process::ExitCode;

use judge::answer::{self, Rewritten, Way};
use judge::generate::{known, question, sheet, Random, KINDS};
use judge::line::Question;
use judge::Refused;

const HELP: &str = "\
usage: generate SEED COUNT [KIND...]  COUNT question lines, kinds in turn (default: all but known)
       generate known                 every question about the sheets K1 to K12
kinds: known right near damaged limit types deep large fault many
";

fn main() -> ExitCode {
    std::thread::Builder::new().stack_size(1 << 29).spawn(run).unwrap().join().unwrap_or(ExitCode::from(3))
}

fn run() -> ExitCode {
    let args: Vec<String> = std::env::args().skip(1).collect();
    let words: Vec<&str> = args.iter().map(|a| a.as_str()).collect();
    let mut out = BufWriter::new(io::stdout().lock());
    let numbers: Vec<Option<u64>> = words.iter().take(2).map(|a| a.parse().ok()).collect();
    match (&words[..], &numbers[..]) {
        (["--help" | "-h"], _) => {
            print!("{HELP}");
            ExitCode::SUCCESS
        }
        (["known"], _) => {
            for q in all_known() {
                if writeln!(out, "{}", q.line()).is_err() {
                    break;
                }
            }
            ExitCode::SUCCESS
        }
        ([_, _, kinds @ ..], [Some(seed), Some(count)]) if kinds.iter().all(|k| KINDS.contains(k)) => {
            let kinds = if kinds.is_empty() { &KINDS[1..] } else { kinds };
            let mut r = Random::new(*seed);
            for k in 0..*count {
                let bytes = sheet(&mut r, kinds[k as usize % kinds.len()]);
                let q = question(&mut r, bytes);
                if writeln!(out, "{}", q.line()).is_err() {
                    break;
                }
            }
            ExitCode::SUCCESS
        }
        _ => {
            eprint!("{HELP}");
            ExitCode::from(2)
        }
    }
}

/// Rewriting with enough, exactly enough and one byte too few; the clocks of each node and of one past the last; the
/// text of each fault and of one past the last, whole and one byte short.
fn all_known() -> Vec<Question> {
    let plenty = 1 << 20;
    let mut all = Vec::new();
    for (_, sheet) in known() {
        all.push(Question::Rewrite { lent: plenty, sheet: sheet.clone() });
        if let Rewritten::Refused(Refused(12, n), _) = answer::rewrite(&sheet, 0, Way::Best) {
            all.push(Question::Rewrite { lent: n, sheet: sheet.clone() });
            all.push(Question::Rewrite { lent: n - 1, sheet: sheet.clone() });
        }
        let nodes = answer::all_clocks(&sheet).map_or(0, |c| c.len() as u64);
        for node in 0..=nodes {
            all.push(Question::Clocks { node, sheet: sheet.clone() });
            for fault in 0.. {
                let text = answer::text(&sheet, node, fault, plenty, Way::Best);
                all.push(Question::Text { node, fault, lent: plenty, sheet: sheet.clone() });
                let Ok(text) = text else { break };
                let lent = text.len() as u64;
                all.push(Question::Text { node, fault, lent, sheet: sheet.clone() });
                all.push(Question::Text { node, fault, lent: lent - 1, sheet: sheet.clone() });
            }
        }
    }
    all
}
