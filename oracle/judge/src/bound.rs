//! Refusal 9: a clock of more than eight conditions. The Rust has no such bound, so inference is gone through once
//! more here, as document 01 words it, only to see how deep clocks become.
use std::collections::{HashMap, HashSet};

use ol_ir::expr::Expr;
use ol_ir::node::NodeDef;

/// A clock is its conditions, base outward.
type Clock<'a> = Vec<(&'a str, bool)>;

/// A clock of nine conditions was formed.
struct Past;

type Bounded<A> = Result<A, Past>;

const MOST: usize = 8;

struct Bound<'a> {
    clocks: HashMap<&'a str, Clock<'a>>,
}

fn uses_clocks(node: &NodeDef) -> bool {
    fn in_expr(e: &Expr) -> bool {
        matches!(e, Expr::When { .. } | Expr::Merge { .. }) || children(e).into_iter().any(in_expr)
    }
    node.equations.iter().any(|eq| in_expr(&eq.rhs))
}

/// Operands, left to right, as the sheet has them.
fn children(e: &Expr) -> Vec<&Expr> {
    match e {
        Expr::Const { .. } | Expr::Var { .. } => vec![],
        Expr::Unary { arg, .. } | Expr::Pre { arg } | Expr::Cast { arg, .. } | Expr::When { arg, .. } => vec![arg],
        Expr::Field { base, .. } => vec![base],
        Expr::Binary { lhs, rhs, .. } => vec![lhs, rhs],
        Expr::Arrow { init, body } => vec![init, body],
        Expr::Index { base, index } => vec![base, index],
        Expr::IfThenElse { cond, then_branch, else_branch } => vec![cond, then_branch, else_branch],
        Expr::Merge { on_true, on_false, .. } => vec![on_true, on_false],
        Expr::Call { args: items, .. } | Expr::Tuple { items } | Expr::Array { items } => items.iter().collect(),
        Expr::Struct { fields, .. } => fields.iter().map(|f| &f.value).collect(),
        Expr::Iterate { init, arrays, .. } => init.iter().map(|i| i.as_ref()).chain(arrays).collect(),
    }
}

fn under<'a>(parent: &Clock<'a>, name: &'a str, on: bool) -> Bounded<Clock<'a>> {
    if parent.len() >= MOST {
        return Err(Past);
    }
    let mut clock = parent.clone();
    clock.push((name, on));
    Ok(clock)
}

impl<'a> Bound<'a> {
    fn natural(&self, e: &'a Expr) -> Bounded<Option<Clock<'a>>> {
        match e {
            Expr::Const { .. } => Ok(None),
            Expr::Var { name } => Ok(self.clocks.get(name.as_str()).cloned()),
            Expr::When { arg, clock, on } => {
                let parent = match self.natural(arg)? {
                    Some(parent) => parent,
                    None => self.clocks.get(clock.as_str()).cloned().unwrap_or_default(),
                };
                under(&parent, clock, *on).map(Some)
            }
            Expr::Merge { clock, on_true, on_false } => {
                if let Some(own) = self.clocks.get(clock.as_str()) {
                    return Ok(Some(own.clone()));
                }
                for branch in [on_true, on_false] {
                    if let Some(mut found) = self.natural(branch)? {
                        if found.pop().is_some() {
                            return Ok(Some(found));
                        }
                    }
                }
                Ok(None)
            }
            other => {
                for child in children(other) {
                    let found = self.natural(child)?;
                    if found.is_some() {
                        return Ok(found);
                    }
                }
                Ok(None)
            }
        }
    }

    fn check(&self, e: &'a Expr, expected: &Clock<'a>) -> Bounded<()> {
        match e {
            Expr::When { arg, clock, on } => {
                let matched = expected.last() == Some(&(clock.as_str(), *on));
                let parent = if matched {
                    expected[..expected.len() - 1].to_vec()
                } else {
                    self.natural(arg)?.unwrap_or_default()
                };
                self.check(arg, &parent)
            }
            Expr::Merge { clock, on_true, on_false } => {
                self.check(on_true, &under(expected, clock, true)?)?;
                self.check(on_false, &under(expected, clock, false)?)
            }
            other => children(other).into_iter().try_for_each(|c| self.check(c, expected)),
        }
    }

    fn node(&mut self, node: &'a NodeDef) -> Bounded<()> {
        let ports: HashSet<&str> = node.inputs.iter().chain(&node.outputs).map(|p| p.name.as_str()).collect();
        self.clocks = ports.iter().map(|&p| (p, Clock::new())).collect();
        for _ in 0..node.equations.len() + 1 {
            let mut changed = false;
            for eq in &node.equations {
                let Some(clock) = self.natural(&eq.rhs)? else { continue };
                for l in eq.lhs.iter().filter(|l| !ports.contains(l.as_str())) {
                    changed |= self.clocks.insert(l, clock.clone()).as_ref() != Some(&clock);
                }
            }
            if !changed {
                break;
            }
        }
        for eq in &node.equations {
            let clock = self.natural(&eq.rhs)?.unwrap_or_default();
            self.check(&eq.rhs, &clock)?;
        }
        Ok(())
    }
}

/// The first node that uses clocks and forms a clock of more than eight conditions.
pub fn first_past(nodes: &[NodeDef]) -> Option<usize> {
    nodes.iter().position(|node| {
        uses_clocks(node) && Bound { clocks: HashMap::new() }.node(node).is_err()
    })
}
