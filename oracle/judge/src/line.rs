//! Question lines and answer lines: fields separated by one space, bytes as lower-case hex, none as `-`.
use crate::answer::{self, Fault, Rewritten, Way};
use crate::Refused;

#[derive(Debug, Clone, PartialEq)]
pub enum Question {
    Rewrite { lent: u64, sheet: Vec<u8> },
    Clocks { node: u64, sheet: Vec<u8> },
    Text { node: u64, fault: u64, lent: u64, sheet: Vec<u8> },
}

pub fn hex(bytes: &[u8]) -> String {
    if bytes.is_empty() {
        return "-".into();
    }
    let mut out = String::with_capacity(2 * bytes.len());
    for b in bytes {
        for d in [b >> 4, b & 15] {
            out.push(char::from_digit(d as u32, 16).unwrap());
        }
    }
    out
}

pub fn unhex(field: &str) -> Option<Vec<u8>> {
    if field == "-" {
        return Some(vec![]);
    }
    if field.is_empty() || field.len() % 2 != 0 {
        return None;
    }
    let digit = |b: u8| match b {
        b'0'..=b'9' => Some(b - b'0'),
        b'a'..=b'f' => Some(b - b'a' + 10),
        _ => None,
    };
    field.as_bytes().chunks(2).map(|p| Some(digit(p[0])? << 4 | digit(p[1])?)).collect()
}

/// The question at the front of a line; an answer after it is passed over.
pub fn parse(line: &str) -> Option<Question> {
    let mut fields = line.split(' ');
    let kind = fields.next()?;
    let mut number = || fields.next()?.parse::<u64>().ok();
    Some(match kind {
        "rewrite" => Question::Rewrite { lent: number()?, sheet: unhex(fields.next()?)? },
        "clocks" => Question::Clocks { node: number()?, sheet: unhex(fields.next()?)? },
        "text" => {
            let (node, fault, lent) = (number()?, number()?, number()?);
            Question::Text { node, fault, lent, sheet: unhex(fields.next()?)? }
        }
        _ => return None,
    })
}

impl Question {
    pub fn line(&self) -> String {
        match self {
            Question::Rewrite { lent, sheet } => format!("rewrite {lent} {}", hex(sheet)),
            Question::Clocks { node, sheet } => format!("clocks {node} {}", hex(sheet)),
            Question::Text { node, fault, lent, sheet } => format!("text {node} {fault} {lent} {}", hex(sheet)),
        }
    }
}

fn triples(faults: &[Fault]) -> String {
    let mut out = faults.len().to_string();
    for f in faults {
        out += &format!(" {} {} {}", f.node, f.fault, f.equation);
    }
    out
}

/// The answer's fields.
pub fn answer(q: &Question, way: Way) -> String {
    match q {
        Question::Rewrite { lent, sheet } => match answer::rewrite(sheet, *lent, way) {
            Rewritten::Accepted(out) => format!("accepted {}", hex(&out)),
            Rewritten::Refused(Refused(n, place), faults) => format!("refused {n} {place} {}", triples(&faults)),
        },
        Question::Clocks { node, sheet } => match answer::clocks(sheet, *node) {
            Ok(c) => format!("accepted {} {} {}", hex(c.listing.as_bytes()), c.passes, triples(&c.faults)),
            Err(Refused(n, place)) => format!("refused {n} {place}"),
        },
        Question::Text { node, fault, lent, sheet } => match answer::text(sheet, *node, *fault, *lent, way) {
            Ok(text) => format!("accepted {}", hex(text.as_bytes())),
            Err(Refused(n, place)) => format!("refused {n} {place}"),
        },
    }
}
