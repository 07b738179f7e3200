//! The three questions.
use std::collections::HashMap;

use ol_ir::clocks::{infer_clocks, node_uses_clocks, ClockInfo};
use ol_ir::declock::{declock_node, declock_project, default_expr};
use ol_ir::expr::{Expr, FieldInit};
use ol_ir::node::NodeDef;
use ol_ir::project::{EnumDef, Project, TypeBody, TypeDef};
use ol_ir::types::Type;
use ol_ir::{clocks_counted, declock_placed, trace};

use crate::sheet::{self, Sheet, MOST_LETTERS, MOST_NAMES, MOST_WRITTEN};
use crate::types::{acyclic, Measures};
use crate::{bound, Refused};

#[derive(Debug, Clone, PartialEq, Eq)]
pub struct Fault {
    pub node: usize,
    pub fault: u8,
    pub equation: usize,
    pub text: String,
}

#[derive(Debug, Clone, PartialEq)]
pub enum Rewritten {
    Accepted(Vec<u8>),
    /// Under 10 each faulty node's first fault.
    Refused(Refused, Vec<Fault>),
}

#[derive(Debug, Clone, PartialEq)]
pub struct Clocks {
    pub listing: String,
    pub passes: usize,
    pub faults: Vec<Fault>,
}

/// Refusals 1 to 7.
pub fn examine(bytes: &[u8]) -> Result<Sheet, Refused> {
    let sheet = sheet::read(bytes)?;
    acyclic(sheet.types())?;
    Ok(sheet)
}

/// Refusal 9.
fn bounded(sheet: &Sheet) -> Result<(), Refused> {
    match bound::first_past(sheet.nodes()) {
        Some(node) => Err(Refused(9, node as u64)),
        None => Ok(()),
    }
}

/// A message's fault number, by its form. Names hold no space, so no name makes one form into another.
fn fault_number(message: &str) -> u8 {
    let has = |part| message.contains(part);
    if has(" but its defining equation runs on ") {
        1
    } else if has(" but is used here on ") {
        2
    } else if has("` produces a sampled stream, but this position expects ") {
        3
    } else if message.starts_with("clock variable `") {
        4
    } else if message.ends_with("` is not declared") {
        5
    } else if message.starts_with("no default value for the type of `") {
        6
    } else if message.starts_with("no default value for output `") {
        7
    } else if message == "a clocked equation with several outputs must be a single call" {
        8
    } else if message == "cannot determine the type of a clocked `pre` operand" {
        9
    } else {
        panic!("unknown message: {message}")
    }
}

fn clock_faults(node: usize, info: &ClockInfo) -> Vec<Fault> {
    info.errors
        .iter()
        .map(|e| Fault {
            node,
            fault: fault_number(&e.message),
            equation: e.equation.expect("a clock fault has an equation"),
            text: e.message.clone(),
        })
        .collect()
}

/// A node's faults: its clock faults, else rewriting's first.
fn node_faults(k: usize, node: &NodeDef, work: &Project) -> Vec<Fault> {
    if !node_uses_clocks(node) {
        return vec![];
    }
    let found = clock_faults(k, &infer_clocks(node));
    if !found.is_empty() {
        return found;
    }
    let node = &work.packages[0].nodes[k];
    match declock_node(node, work) {
        Ok(_) => vec![],
        Err(e) => {
            // The copy that notes the equation must fail in the same way.
            let placed = declock_placed::declock_node(node, work).unwrap_err();
            assert_eq!(placed.message, e.message);
            vec![Fault { node: k, fault: fault_number(&e.message), equation: trace::last_equation(), text: e.message }]
        }
    }
}

/// A project in which no default is large: each declared type that is named or an array keeps its arrays, at length
/// 1, over a new enum `$k`, k its place in `full`, that has a variant `$k` where the type has a default. No name of a
/// sheet has that letter.
struct Small {
    project: Project,
    full: Vec<Type>,
}

fn shrink(sheet: &Sheet, measures: &mut Measures) -> Small {
    let mut project = sheet.project.clone();
    let (mut full, mut types, mut known) = (Vec::new(), Vec::new(), HashMap::new());
    let package = &mut project.packages[0];
    for node in &mut package.nodes {
        let ports = node.inputs.iter_mut().chain(&mut node.outputs).map(|p| &mut p.ty);
        for ty in ports.chain(node.locals.iter_mut().map(|l| &mut l.ty)) {
            if !matches!(ty, Type::Named { .. } | Type::Array { .. }) {
                continue;
            }
            let k = *known.entry(ty.clone()).or_insert_with(|| {
                let name = format!("${}", full.len());
                let variants = measures.of(ty).tokens.iter().map(|_| name.clone()).collect();
                types.push(TypeDef { body: TypeBody::Enum(EnumDef { name, variants }) });
                full.push(ty.clone());
                full.len() - 1
            });
            *ty = mark(ty, k);
        }
    }
    package.types = types;
    Small { project, full }
}

fn mark(ty: &Type, k: usize) -> Type {
    match ty {
        Type::Array { elem, .. } => Type::Array { elem: Box::new(mark(elem, k)), len: 1 },
        _ => Type::Named { name: format!("${k}") },
    }
}

/// A default that is known to be there, without going below an array of length 0: what stands there may be too large
/// for the Rust, which builds it before it leaves it out.
fn default(ty: &Type, sheet: &Sheet) -> Expr {
    match ty {
        Type::Array { len: 0, .. } => Expr::Array { items: vec![] },
        Type::Array { elem, len } => Expr::Array { items: vec![default(elem, sheet); *len as usize] },
        Type::Named { name } => {
            let def = sheet.types().iter().find(|d| d.name() == name).expect("a definition");
            match &def.body {
                TypeBody::Enum(e) => Expr::var(e.variants[0].clone()),
                TypeBody::Record { name, fields } => Expr::Struct {
                    ty: name.clone(),
                    fields: fields
                        .iter()
                        .map(|f| FieldInit { field: f.name.clone(), value: default(&f.ty, sheet) })
                        .collect(),
                },
                TypeBody::Alias { target, .. } => default(target, sheet),
            }
        }
        basic => default_expr(basic, &sheet.project).expect("a default"),
    }
}

/// The defaults alone pass the output's limit.
struct Past;

struct Grow<'a> {
    full: &'a [Type],
    sheet: &'a Sheet,
    measures: Measures<'a>,
    /// Tokens of defaults that the output still has room for.
    room: u64,
}

impl Grow<'_> {
    /// The type that `arrays` arrays over `$k` stand for.
    fn meant(&self, arrays: usize, name: &str) -> Type {
        let mut ty = self.full[name[1..].parse::<usize>().unwrap()].clone();
        let depth = |mut t: &Type| {
            let mut n = 0;
            while let Type::Array { elem, .. } = t {
                n += 1;
                t = elem;
            }
            n
        };
        while depth(&ty) > arrays {
            let Type::Array { elem, .. } = ty else { unreachable!() };
            ty = *elem;
        }
        ty
    }

    fn ty(&self, ty: &mut Type) {
        let (mut arrays, mut t) = (0, &*ty);
        while let Type::Array { elem, .. } = t {
            arrays += 1;
            t = elem;
        }
        if let Type::Named { name } = t {
            if name.starts_with('$') {
                *ty = self.meant(arrays, name);
            }
        }
    }

    fn expr(&mut self, e: &mut Expr) -> Result<(), Past> {
        let (mut arrays, mut t) = (0, &*e);
        while let Expr::Array { items } = t {
            let [item] = &items[..] else { break };
            arrays += 1;
            t = item;
        }
        if let Expr::Var { name } = t {
            if name.starts_with('$') {
                let ty = self.meant(arrays, name);
                let measure = self.measures.of(&ty);
                self.room = self.room.checked_sub(measure.tokens.expect("a default")).ok_or(Past)?;
                *e = default(&ty, self.sheet);
                if measure.steps <= 100_000 {
                    let rust = default_expr(&ty, &self.sheet.project).expect("a default");
                    assert_eq!(*e, rust);
                }
            }
            return Ok(());
        }
        let mut done = Ok(());
        e.for_each_child_mut(&mut |c| {
            if done.is_ok() {
                done = self.expr(c);
            }
        });
        done
    }

    fn project(&mut self, mut p: Project) -> Result<Project, Past> {
        let package = &mut p.packages[0];
        package.types = self.sheet.types().to_vec();
        for node in &mut package.nodes {
            node.inputs.iter_mut().chain(&mut node.outputs).for_each(|p| self.ty(&mut p.ty));
            node.locals.iter_mut().for_each(|l| self.ty(&mut l.ty));
            for eq in &mut node.equations {
                self.expr(&mut eq.rhs)?;
            }
        }
        Ok(p)
    }
}

/// Whether the Rust can be given the sheet as it is: a bound on the steps that all its defaults take.
fn feasible(sheet: &Sheet, measures: &mut Measures) -> bool {
    let (mut most, mut outputs, mut sites) = (1u64, 1u64, 0u64);
    for node in sheet.nodes() {
        for ty in node.inputs.iter().chain(&node.outputs).map(|p| &p.ty).chain(node.locals.iter().map(|l| &l.ty)) {
            most = most.max(measures.of(ty).steps);
        }
        outputs = outputs.max(node.outputs.len() as u64);
        if node_uses_clocks(node) {
            for eq in &node.equations {
                sites += eq.lhs.len() as u64;
                eq.rhs.visit(|e| sites += matches!(e, Expr::Call { .. }) as u64);
            }
        }
    }
    most.saturating_mul(outputs).saturating_mul(sites) <= 200_000
}

/// How the Rust is asked. `Both` asks in both ways and compares, where the sheet as it is can be asked.
#[derive(Debug, Clone, Copy, PartialEq)]
pub enum Way {
    Best,
    Both,
}

struct Asked {
    faults: Vec<Vec<Fault>>,
    /// None where the defaults alone pass the output's limit.
    project: Option<Project>,
}

fn ask_direct(sheet: &Sheet) -> Asked {
    let faults: Vec<Vec<Fault>> =
        sheet.nodes().iter().enumerate().map(|(k, n)| node_faults(k, n, &sheet.project)).collect();
    let firsts: Vec<&str> = faults.iter().filter_map(|f| f.first()).map(|f| f.text.as_str()).collect();
    match declock_project(&sheet.project) {
        Ok(p) => {
            assert!(firsts.is_empty());
            Asked { faults, project: Some(p) }
        }
        Err(e) => {
            assert_eq!(firsts, e.iter().map(|e| e.message.as_str()).collect::<Vec<_>>());
            Asked { faults, project: None }
        }
    }
}

fn ask_small(sheet: &Sheet, mut measures: Measures) -> Asked {
    let small = shrink(sheet, &mut measures);
    let faults: Vec<Vec<Fault>> =
        sheet.nodes().iter().enumerate().map(|(k, n)| node_faults(k, n, &small.project)).collect();
    let project = match declock_project(&small.project) {
        Ok(p) => {
            let mut grow = Grow { full: &small.full, sheet, measures, room: MOST_WRITTEN as u64 };
            grow.project(p).ok()
        }
        Err(_) => None,
    };
    Asked { faults, project }
}

fn ask(sheet: &Sheet, way: Way) -> Asked {
    let mut measures = Measures::new(sheet.types());
    if !feasible(sheet, &mut measures) {
        return ask_small(sheet, measures);
    }
    let direct = ask_direct(sheet);
    if way == Way::Both {
        let small = ask_small(sheet, measures);
        assert_eq!(direct.faults, small.faults);
        match (&direct.project, &small.project) {
            (Some(a), Some(b)) => assert_eq!(format!("{a:?}"), format!("{b:?}")),
            (Some(a), None) => assert!(output(sheet, a).is_err()),
            (None, b) => assert!(b.is_none()),
        }
    }
    direct
}

/// The output's bytes, or refusal 11.
fn output(sheet: &Sheet, project: &Project) -> Result<Vec<u8>, Refused> {
    let mut names = sheet.names.clone();
    let mut ids = sheet::ids(&names);
    let mut add = |name: &str| {
        if !ids.contains_key(name) {
            ids.insert(name.to_string(), names.len() as u32);
            names.push(name.to_string());
        }
    };
    for (node, source) in project.packages[0].nodes.iter().zip(sheet.nodes()) {
        for l in &node.locals[source.locals.len()..] {
            add(&l.name);
        }
        let mut calls = false;
        for eq in &node.equations {
            eq.rhs.visit(|e| calls |= matches!(e, Expr::Call { node, .. } if node == "condact"));
        }
        if calls {
            add("condact");
        }
    }
    let letters: usize = names.iter().map(|n| n.len()).sum();
    if names.len() > MOST_NAMES || letters > MOST_LETTERS {
        return Err(Refused(11, 0));
    }
    match sheet::tokens(project, &ids, MOST_WRITTEN) {
        Some(tokens) => Ok(sheet::bytes(&names, &tokens)),
        None => Err(Refused(11, 0)),
    }
}

pub fn rewrite(bytes: &[u8], lent: u64, way: Way) -> Rewritten {
    let inner = || -> Result<Result<Vec<u8>, Vec<Fault>>, Refused> {
        let sheet = examine(bytes)?;
        bounded(&sheet)?;
        let asked = ask(&sheet, way);
        let firsts: Vec<Fault> = asked.faults.into_iter().filter_map(|f| f.into_iter().next()).collect();
        if !firsts.is_empty() {
            return Ok(Err(firsts));
        }
        let written = output(&sheet, &asked.project.ok_or(Refused(11, 0))?)?;
        if written.len() as u64 > lent {
            return Err(Refused(12, written.len() as u64));
        }
        Ok(Ok(written))
    };
    match inner() {
        Ok(Ok(written)) => Rewritten::Accepted(written),
        Ok(Err(firsts)) => Rewritten::Refused(Refused(10, 0), firsts),
        Err(refused) => Rewritten::Refused(refused, vec![]),
    }
}

/// Refusals 1 to 9 of a question about one node.
fn examine_node(bytes: &[u8], node: u64) -> Result<Sheet, Refused> {
    let sheet = examine(bytes)?;
    if node >= sheet.nodes().len() as u64 {
        return Err(Refused(8, 0));
    }
    bounded(&sheet)?;
    Ok(sheet)
}

pub fn clocks(bytes: &[u8], node: u64) -> Result<Clocks, Refused> {
    let sheet = examine_node(bytes, node)?;
    Ok(clocks_of(&sheet, node as usize))
}

fn clocks_of(sheet: &Sheet, k: usize) -> Clocks {
    let node = &sheet.nodes()[k];
    let info = infer_clocks(node);
    trace::take_passes();
    clocks_counted::infer_clocks(node);
    let passes = trace::take_passes();
    let mut listing = format!("{} {} {} {}\n", node.name, node.equations.len(), passes, info.chains.len());
    for (i, clock) in info.equation_clocks.iter().enumerate() {
        listing += &format!("{i} {}\n", clock.key());
    }
    for chain in &info.chains {
        listing += &format!("chain {}\n", chain.key());
    }
    Clocks { listing, passes, faults: clock_faults(k, &info) }
}

/// Every node's listing, in order.
pub fn all_clocks(bytes: &[u8]) -> Result<Vec<Clocks>, Refused> {
    let sheet = examine(bytes)?;
    bounded(&sheet)?;
    Ok((0..sheet.nodes().len()).map(|k| clocks_of(&sheet, k)).collect())
}

pub fn text(bytes: &[u8], node: u64, fault: u64, lent: u64, way: Way) -> Result<String, Refused> {
    let sheet = examine_node(bytes, node)?;
    let faults = ask(&sheet, way).faults.swap_remove(node as usize);
    match faults.into_iter().nth(usize::try_from(fault).unwrap_or(usize::MAX)) {
        None => Err(Refused(8, 0)),
        Some(f) if f.text.len() as u64 > lent => Err(Refused(12, f.text.len() as u64)),
        Some(f) => Ok(f.text),
    }
}
