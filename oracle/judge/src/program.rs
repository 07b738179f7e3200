//! What each program prints: standard output, standard error.
use crate::answer::{self, Fault, Rewritten, Way};
use crate::{line, Refused};
use ol_ir::clocks::node_uses_clocks;
use ol_ir::node::NodeKind;
use ol_ir::project::TypeBody;

#[derive(Debug, Default, PartialEq)]
pub struct Shown {
    pub out: Vec<u8>,
    pub err: Vec<u8>,
}

/// What each refusal means and what to do, from 1 on.
const REASONS: [&str; 12] = [
    "the input has fewer than 12 bytes: hand in a whole sheet",
    "a size is outside its limit (place 0: 1,024 names, 1: 16,384 letters, 2: 2 to 4,096 tokens): split the sheet, or make one of a text with tools/sheet read",
    "the length is not 12 + names + letters + 5 x tokens: hand in the whole sheet and nothing more",
    "this name, counted from 0, repeats an earlier one or is not 1 to 32 letters, digits and _, no digit first; past the last name: the lengths do not sum to the letters",
    "this token, counted from 0, is not allowed there or its value is out of range; past the last token: the tokens end early",
    "at this token, counted from 0, a count, array length or depth is outside its limit: rewrite --help lists the limits",
    "this type, counted from 0, reaches itself through fields, targets or elements: break the circle",
    "there is no such node, or the node has no such fault: both are counted from 0; inspect lists the nodes, clocks and rewrite the faults",
    "in this node, counted from 0, a clock comes to more than eight conditions: sample it by fewer",
    "some node has a fault: mend the first fault of each faulty node, listed below, and rewrite again",
    "the rewritten sheet would pass a limit (1,024 names, 16,384 letters, 8,192 tokens): split the sheet",
    "the bytes lent are too few: lend as many as the place says",
];

fn refused(r: Refused) -> Shown {
    let reason = REASONS[r.0 as usize - 1];
    Shown { err: format!("refused {} {}: {reason}\n", r.0, r.1).into_bytes(), ..Shown::default() }
}

fn told(text: String) -> Shown {
    Shown { out: text.into_bytes(), ..Shown::default() }
}

fn fault_lines(faults: &[Fault]) -> String {
    faults.iter().map(|f| format!("fault {} {} {} {}\n", f.node, f.fault, f.equation, f.text)).collect()
}

pub fn rewrite(bytes: &[u8], lent: u64) -> Shown {
    match answer::rewrite(bytes, lent, Way::Best) {
        Rewritten::Accepted(out) => Shown { out, ..Shown::default() },
        Rewritten::Refused(r, faults) => {
            let mut shown = refused(r);
            if r.0 == 10 {
                shown.err.extend(format!("faults {}\n{}", faults.len(), fault_lines(&faults)).bytes());
            }
            shown
        }
    }
}

pub fn clocks(bytes: &[u8], node: Option<u64>) -> Shown {
    let found = match node {
        Some(k) => answer::clocks(bytes, k).map(|c| vec![c]),
        None => answer::all_clocks(bytes),
    };
    match found {
        Ok(all) => told(all.iter().map(|c| c.listing.clone() + &fault_lines(&c.faults)).collect()),
        Err(r) => refused(r),
    }
}

pub fn text(bytes: &[u8], node: u64, fault: u64, lent: u64) -> Shown {
    match answer::text(bytes, node, fault, lent, Way::Best) {
        Ok(text) => told(text + "\n"),
        Err(r) => refused(r),
    }
}

/// `sheet M L T`, a line for each type, a line for each node.
pub fn inspect(bytes: &[u8]) -> Shown {
    let sheet = match answer::examine(bytes) {
        Ok(sheet) => sheet,
        Err(r) => return refused(r),
    };
    let size = |at: usize| u32::from_le_bytes(bytes[at..at + 4].try_into().unwrap());
    let mut out = format!("sheet {} {} {}\n", size(0), size(4), size(8));
    for t in sheet.types() {
        let (kind, count) = match &t.body {
            TypeBody::Enum(e) => ("enum", e.variants.len()),
            TypeBody::Record { fields, .. } => ("record", fields.len()),
            TypeBody::Alias { .. } => ("alias", 1),
        };
        out += &format!("type {} {kind} {count}\n", t.name());
    }
    for n in sheet.nodes() {
        let kind = match n.kind {
            NodeKind::Function => "function",
            NodeKind::Operator => "operator",
            NodeKind::Imported => "imported",
        };
        let counts = [n.inputs.len(), n.outputs.len(), n.locals.len(), n.equations.len(), n.probes.len()];
        let counts: Vec<String> = counts.iter().map(|c| c.to_string()).collect();
        let clocks = if node_uses_clocks(n) { "clocks" } else { "base" };
        out += &format!("node {} {kind} {} {clocks}\n", n.name, counts.join(" "));
    }
    told(out)
}

/// What the program that a question line asks prints, with its words.
pub fn asked(q: &line::Question) -> (Vec<String>, &[u8], Shown) {
    match q {
        line::Question::Rewrite { lent, sheet } => (vec!["rewrite".into(), lent.to_string()], sheet, rewrite(sheet, *lent)),
        line::Question::Clocks { node, sheet } => (vec!["clocks".into(), node.to_string()], sheet, clocks(sheet, Some(*node))),
        line::Question::Text { node, fault, lent, sheet } => {
            let words = ["text".to_string(), node.to_string(), fault.to_string(), lent.to_string()];
            (words.to_vec(), sheet, text(sheet, *node, *fault, *lent))
        }
    }
}
