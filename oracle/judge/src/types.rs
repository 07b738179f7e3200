//! Refusal 7, and the size of a default before it is built: the Rust builds it path by path, which no machine
//! finishes for some allowed types.
use std::collections::HashMap;

use ol_ir::project::{TypeBody, TypeDef};
use ol_ir::types::Type;

use crate::Refused;

/// The first definition of each name.
fn first<'a>(types: &'a [TypeDef]) -> HashMap<&'a str, usize> {
    let mut found = HashMap::new();
    for (k, def) in types.iter().enumerate() {
        found.entry(def.name()).or_insert(k);
    }
    found
}

/// The name at the bottom of a type, below its arrays.
fn bottom(ty: &Type) -> &Type {
    match ty {
        Type::Array { elem, .. } => bottom(elem),
        other => other,
    }
}

/// Refusal 7: the first definition that reaches itself.
pub fn acyclic(types: &[TypeDef]) -> Result<(), Refused> {
    let found = first(types);
    let next: Vec<Vec<usize>> = types
        .iter()
        .map(|def| {
            let parts: Vec<&Type> = match &def.body {
                TypeBody::Enum(_) => vec![],
                TypeBody::Record { fields, .. } => fields.iter().map(|f| &f.ty).collect(),
                TypeBody::Alias { target, .. } => vec![target],
            };
            parts
                .into_iter()
                .filter_map(|ty| match bottom(ty) {
                    Type::Named { name } => found.get(name.as_str()).copied(),
                    _ => None,
                })
                .collect()
        })
        .collect();
    for k in 0..types.len() {
        let (mut seen, mut open) = (vec![false; types.len()], next[k].clone());
        while let Some(j) = open.pop() {
            if j == k {
                return Err(Refused(7, k as u64));
            }
            if !std::mem::replace(&mut seen[j], true) {
                open.extend_from_slice(&next[j]);
            }
        }
    }
    Ok(())
}

/// Of a type: the tokens of its default, if it has one, and the steps the Rust takes to build it or to fail.
#[derive(Debug, Clone, Copy)]
pub struct Measure {
    pub tokens: Option<u64>,
    pub steps: u64,
}

/// Measures of a sheet's types, one for each definition. The definitions must be acyclic.
pub struct Measures<'a> {
    types: &'a [TypeDef],
    found: HashMap<&'a str, usize>,
    known: Vec<Option<Measure>>,
}

impl<'a> Measures<'a> {
    pub fn new(types: &'a [TypeDef]) -> Self {
        Measures { types, found: first(types), known: vec![None; types.len()] }
    }

    pub fn of(&mut self, ty: &Type) -> Measure {
        match ty {
            Type::Bool | Type::Char => Measure { tokens: Some(1), steps: 1 },
            Type::Array { elem, len } => {
                let m = self.of(elem);
                let len = *len as u64;
                Measure {
                    tokens: m.tokens.map(|n| n.saturating_mul(len).saturating_add(2)),
                    steps: m.steps.saturating_add(m.tokens.unwrap_or(0).saturating_mul(len)).saturating_add(1),
                }
            }
            Type::Named { name } => match self.found.get(name.as_str()) {
                None => Measure { tokens: None, steps: 1 },
                Some(&k) => self.definition(k),
            },
            _ => Measure { tokens: Some(2), steps: 1 },
        }
    }

    fn definition(&mut self, k: usize) -> Measure {
        if let Some(m) = self.known[k] {
            return m;
        }
        let types = self.types;
        let m = match &types[k].body {
            TypeBody::Enum(e) => Measure { tokens: e.variants.first().map(|_| 1), steps: 1 },
            TypeBody::Record { fields, .. } => {
                let mut sum = Measure { tokens: Some(2), steps: 1 };
                for f in fields {
                    let m = self.of(&f.ty);
                    sum.steps = sum.steps.saturating_add(m.steps);
                    sum.tokens = match (sum.tokens, m.tokens) {
                        (Some(a), Some(b)) => Some(a.saturating_add(b).saturating_add(1)),
                        _ => None,
                    };
                }
                sum
            }
            TypeBody::Alias { target, .. } => self.of(target),
        };
        self.known[k] = Some(m);
        m
    }
}
