//! The sheet of document 01: bytes to names and the Rust's tree (refusals 1 to 6), and the way back.
use std::collections::{HashMap, HashSet};

use ol_ir::expr::{BinOp, Expr, FieldInit, IterKind, Literal, UnaryOp};
use ol_ir::node::{Equation, Local, NodeDef, NodeKind, Port, Probe};
use ol_ir::project::{EnumDef, Package, Project, RecordField, TypeBody, TypeDef};
use ol_ir::types::Type;

use crate::Refused;

pub const MOST_NAMES: usize = 1024;
pub const MOST_LETTERS: usize = 16384;
pub const MOST_TOKENS: usize = 4096;
pub const MOST_WRITTEN: usize = 8192;

const BINARY: [BinOp; 20] = [
    BinOp::And,
    BinOp::Or,
    BinOp::Xor,
    BinOp::Implies,
    BinOp::Eq,
    BinOp::Neq,
    BinOp::Lt,
    BinOp::Le,
    BinOp::Gt,
    BinOp::Ge,
    BinOp::Add,
    BinOp::Sub,
    BinOp::Mul,
    BinOp::Div,
    BinOp::Mod,
    BinOp::BitAnd,
    BinOp::BitOr,
    BinOp::BitXor,
    BinOp::Shl,
    BinOp::Shr,
];

const BASIC: [Type; 12] = [
    Type::Bool,
    Type::Int8,
    Type::Int16,
    Type::Int32,
    Type::Int64,
    Type::Uint8,
    Type::Uint16,
    Type::Uint32,
    Type::Uint64,
    Type::Float32,
    Type::Float64,
    Type::Char,
];

#[derive(Debug, Clone)]
pub struct Sheet {
    pub names: Vec<String>,
    /// One package that holds every type and node.
    pub project: Project,
}

impl Sheet {
    pub fn types(&self) -> &[TypeDef] {
        &self.project.packages[0].types
    }
    pub fn nodes(&self) -> &[NodeDef] {
        &self.project.packages[0].nodes
    }
}

pub fn project(types: Vec<TypeDef>, nodes: Vec<NodeDef>) -> Project {
    let package = Package { types, nodes, ..Package::default() };
    Project { packages: vec![package], ..Project::default() }
}

type Read<A> = Result<A, Refused>;

fn word(bytes: &[u8], at: usize) -> u32 {
    u32::from_le_bytes([bytes[at], bytes[at + 1], bytes[at + 2], bytes[at + 3]])
}

/// Refusals 1 to 6.
pub fn read(bytes: &[u8]) -> Read<Sheet> {
    if bytes.len() < 12 {
        return Err(Refused(1, 0));
    }
    let (m, l, t) = (word(bytes, 0) as usize, word(bytes, 4) as usize, word(bytes, 8) as usize);
    if m > MOST_NAMES {
        return Err(Refused(2, 0));
    }
    if l > MOST_LETTERS {
        return Err(Refused(2, 1));
    }
    if !(2..=MOST_TOKENS).contains(&t) {
        return Err(Refused(2, 2));
    }
    if bytes.len() != 12 + m + l + 5 * t {
        return Err(Refused(3, 0));
    }
    let lengths = &bytes[12..12 + m];
    let letters = &bytes[12 + m..12 + m + l];
    let tags = &bytes[12 + m + l..12 + m + l + t];
    let values: Vec<u32> = (0..t).map(|k| word(bytes, 12 + m + l + t + 4 * k)).collect();
    let names = read_names(lengths, letters)?;
    let mut r = Reader { names: &names, tags, values: &values, at: 0 };
    let project = r.sheet()?;
    Ok(Sheet { names, project })
}

fn read_names(lengths: &[u8], letters: &[u8]) -> Read<Vec<String>> {
    if lengths.iter().map(|&n| n as usize).sum::<usize>() != letters.len() {
        return Err(Refused(4, lengths.len() as u64));
    }
    let (mut names, mut seen, mut at) = (Vec::new(), HashSet::new(), 0);
    for (k, &n) in lengths.iter().enumerate() {
        let name = &letters[at..at + n as usize];
        at += n as usize;
        let formed = (1..=32).contains(&name.len())
            && name.iter().all(|&b| b.is_ascii_alphanumeric() || b == b'_')
            && !name[0].is_ascii_digit();
        if !formed || !seen.insert(name) {
            return Err(Refused(4, k as u64));
        }
        names.push(String::from_utf8(name.to_vec()).unwrap());
    }
    Ok(names)
}

struct Reader<'a> {
    names: &'a [String],
    tags: &'a [u8],
    values: &'a [u32],
    at: usize,
}

impl Reader<'_> {
    fn bad<A>(&self, number: u8, at: usize) -> Read<A> {
        Err(Refused(number, at as u64))
    }
    /// The next token, if there is one.
    fn next(&mut self) -> Read<(usize, u8, u32)> {
        let at = self.at;
        if at >= self.tags.len() {
            return self.bad(5, self.tags.len());
        }
        self.at += 1;
        Ok((at, self.tags[at], self.values[at]))
    }
    fn want(&mut self, tag: u8) -> Read<(usize, u32)> {
        let (at, got, value) = self.next()?;
        if got != tag {
            return self.bad(5, at);
        }
        Ok((at, value))
    }
    fn id(&self, at: usize, value: u32) -> Read<String> {
        match self.names.get(value as usize) {
            Some(name) => Ok(name.clone()),
            None => self.bad(5, at),
        }
    }
    fn empty(&self, at: usize, value: u32) -> Read<()> {
        if value == 0 {
            Ok(())
        } else {
            self.bad(5, at)
        }
    }
    fn named(&mut self, tag: u8) -> Read<String> {
        let (at, value) = self.want(tag)?;
        self.id(at, value)
    }
    fn counted(&mut self, tag: u8, least: u32, most: u32) -> Read<usize> {
        let (at, value) = self.want(tag)?;
        if value < least || value > most {
            return self.bad(6, at);
        }
        Ok(value as usize)
    }
    fn count(&mut self) -> Read<usize> {
        self.counted(3, 0, 64)
    }

    fn sheet(&mut self) -> Read<Project> {
        let n = self.counted(1, 0, 32)?;
        let types = (0..n).map(|_| self.definition()).collect::<Read<Vec<_>>>()?;
        let n = self.counted(2, 0, 16)?;
        let nodes = (0..n).map(|_| self.node()).collect::<Read<Vec<_>>>()?;
        if self.at < self.tags.len() {
            return self.bad(5, self.at);
        }
        Ok(project(types, nodes))
    }

    fn definition(&mut self) -> Read<TypeDef> {
        let (at, tag, value) = self.next()?;
        if !(10..=12).contains(&tag) {
            return self.bad(5, at);
        }
        let name = self.id(at, value)?;
        let body = match tag {
            10 => {
                let n = self.count()?;
                let variants = (0..n).map(|_| self.named(4)).collect::<Read<Vec<_>>>()?;
                TypeBody::Enum(EnumDef { name, variants })
            }
            11 => {
                let n = self.count()?;
                let fields = (0..n)
                    .map(|_| Ok(RecordField { name: self.named(4)?, ty: self.ty(0)? }))
                    .collect::<Read<Vec<_>>>()?;
                TypeBody::Record { name, fields }
            }
            _ => TypeBody::Alias { name, target: self.ty(0)? },
        };
        Ok(TypeDef { body })
    }

    /// A type below `around` array types.
    fn ty(&mut self, around: usize) -> Read<Type> {
        let (at, tag, value) = self.next()?;
        match tag {
            20..=31 => {
                self.empty(at, value)?;
                Ok(BASIC[tag as usize - 20].clone())
            }
            32 => {
                if value > 256 || around == 8 {
                    return self.bad(6, at);
                }
                Ok(Type::Array { elem: Box::new(self.ty(around + 1)?), len: value })
            }
            33 => Ok(Type::Named { name: self.id(at, value)? }),
            _ => self.bad(5, at),
        }
    }

    fn node(&mut self) -> Read<NodeDef> {
        let name = self.named(40)?;
        let (at, value) = self.want(41)?;
        let kind = match value {
            0 => NodeKind::Function,
            1 => NodeKind::Operator,
            2 => NodeKind::Imported,
            _ => return self.bad(5, at),
        };
        let mut room = 128;
        let inputs = self.declared(&mut room)?;
        let outputs = self.declared(&mut room)?;
        let locals = self.declared(&mut room)?;
        let n = self.count()?;
        let equations = (0..n).map(|_| self.equation()).collect::<Read<Vec<_>>>()?;
        let n = self.count()?;
        let probes = (0..n)
            .map(|_| Ok(Probe { label: self.named(4)?, var: self.named(4)? }))
            .collect::<Read<Vec<_>>>()?;
        let port = |(name, ty)| Port { name, ty };
        Ok(NodeDef {
            name,
            kind,
            inputs: inputs.into_iter().map(port).collect(),
            outputs: outputs.into_iter().map(port).collect(),
            locals: locals.into_iter().map(|(name, ty)| Local { name, ty }).collect(),
            equations,
            contract: None,
            diagram: Default::default(),
            probes,
        })
    }

    fn declared(&mut self, room: &mut u32) -> Read<Vec<(String, Type)>> {
        let n = self.counted(3, 0, *room)?;
        *room -= n as u32;
        (0..n).map(|_| Ok((self.named(4)?, self.ty(0)?))).collect()
    }

    fn equation(&mut self) -> Read<Equation> {
        let n = self.counted(3, 1, 8)?;
        let lhs = (0..n).map(|_| self.named(4)).collect::<Read<Vec<_>>>()?;
        Ok(Equation { lhs, rhs: self.expr(1)? })
    }

    fn high(&mut self, low: u32) -> Read<u64> {
        let (_, high) = self.want(5)?;
        Ok((high as u64) << 32 | low as u64)
    }

    /// An expression whose first token stands at `level`, 1 for a right side.
    fn expr(&mut self, level: usize) -> Read<Expr> {
        let (at, tag, value) = self.next()?;
        // The token itself first: its tag and its value.
        let mut name = String::new();
        match tag {
            50 | 55 if value > 1 => return self.bad(5, at),
            53 if value > 255 => return self.bad(5, at),
            56 if value > 19 => return self.bad(5, at),
            50..=53 | 55 | 56 => {}
            54 | 60 | 61 | 65 | 67..=71 => name = self.id(at, value)?,
            57..=59 | 62..=64 | 66 => self.empty(at, value)?,
            _ => return self.bad(5, at),
        }
        if level > 32 {
            return self.bad(6, at);
        }
        let below = level + 1;
        Ok(match tag {
            50 => Expr::bool_lit(value == 1),
            51 => Expr::int_lit(self.high(value)? as i64),
            52 => Expr::Const { lit: Literal::Float { value: f64::from_bits(self.high(value)?) } },
            53 => Expr::Const { lit: Literal::Char { value: value as u8 } },
            54 => Expr::Var { name },
            55 => {
                let op = if value == 0 { UnaryOp::Not } else { UnaryOp::Neg };
                Expr::Unary { op, arg: self.boxed(below)? }
            }
            56 => Expr::Binary { op: BINARY[value as usize], lhs: self.boxed(below)?, rhs: self.boxed(below)? },
            57 => Expr::IfThenElse {
                cond: self.boxed(below)?,
                then_branch: self.boxed(below)?,
                else_branch: self.boxed(below)?,
            },
            58 => Expr::Pre { arg: self.boxed(below)? },
            59 => Expr::Arrow { init: self.boxed(below)?, body: self.boxed(below)? },
            60 => Expr::Call { node: name, args: self.exprs(below)? },
            61 => Expr::Field { base: self.boxed(below)?, field: name },
            62 => Expr::Index { base: self.boxed(below)?, index: self.boxed(below)? },
            63 => Expr::Tuple { items: self.exprs(below)? },
            64 => Expr::Array { items: self.exprs(below)? },
            65 => {
                let n = self.count()?;
                let fields = (0..n)
                    .map(|_| Ok(FieldInit { field: self.named(4)?, value: self.expr(below)? }))
                    .collect::<Read<Vec<_>>>()?;
                Expr::Struct { ty: name, fields }
            }
            66 => Expr::Cast { to: self.ty(0)?, arg: self.boxed(below)? },
            67 | 68 => Expr::When { arg: self.boxed(below)?, clock: name, on: tag == 67 },
            69 => Expr::Merge { clock: name, on_true: self.boxed(below)?, on_false: self.boxed(below)? },
            _ => {
                let starts = self.counted(3, 0, 1)?;
                let init = if starts == 1 { Some(self.boxed(below)?) } else { None };
                let kind = if tag == 70 { IterKind::Map } else { IterKind::Fold };
                Expr::Iterate { kind, node: name, init, arrays: self.exprs(below)? }
            }
        })
    }
    fn boxed(&mut self, level: usize) -> Read<Box<Expr>> {
        Ok(Box::new(self.expr(level)?))
    }
    fn exprs(&mut self, level: usize) -> Read<Vec<Expr>> {
        let n = self.count()?;
        (0..n).map(|_| self.expr(level)).collect()
    }
}

/// The tokens of a project, or none past `most` tokens. Every name must be in `ids`.
pub fn tokens(project: &Project, ids: &HashMap<String, u32>, most: usize) -> Option<Vec<(u8, u32)>> {
    let mut w = Writer { ids, most, out: Vec::new() };
    w.sheet(project);
    if w.out.len() > most {
        None
    } else {
        Some(w.out)
    }
}

struct Writer<'a> {
    ids: &'a HashMap<String, u32>,
    most: usize,
    out: Vec<(u8, u32)>,
}

impl Writer<'_> {
    fn full(&self) -> bool {
        self.out.len() > self.most
    }
    fn put(&mut self, tag: u8, value: u32) {
        if !self.full() {
            self.out.push((tag, value));
        }
    }
    fn count(&mut self, n: usize) {
        self.put(3, n as u32);
    }
    fn name(&mut self, tag: u8, name: &str) {
        let id = *self.ids.get(name).unwrap_or_else(|| panic!("no name {name}"));
        self.put(tag, id);
    }
    fn sheet(&mut self, project: &Project) {
        let package = &project.packages[0];
        self.put(1, package.types.len() as u32);
        for def in &package.types {
            match &def.body {
                TypeBody::Enum(e) => {
                    self.name(10, &e.name);
                    self.count(e.variants.len());
                    e.variants.iter().for_each(|v| self.name(4, v));
                }
                TypeBody::Record { name, fields } => {
                    self.name(11, name);
                    self.count(fields.len());
                    for f in fields {
                        self.name(4, &f.name);
                        self.ty(&f.ty);
                    }
                }
                TypeBody::Alias { name, target } => {
                    self.name(12, name);
                    self.ty(target);
                }
            }
        }
        self.put(2, package.nodes.len() as u32);
        for node in &package.nodes {
            self.node(node);
        }
    }
    fn ty(&mut self, ty: &Type) {
        match ty {
            Type::Array { elem, len } => {
                self.put(32, *len);
                self.ty(elem);
            }
            Type::Named { name } => self.name(33, name),
            basic => {
                let k = BASIC.iter().position(|b| b == basic).unwrap();
                self.put(20 + k as u8, 0);
            }
        }
    }
    fn declared<'b>(&mut self, names: impl ExactSizeIterator<Item = (&'b String, &'b Type)>) {
        self.count(names.len());
        for (name, ty) in names {
            self.name(4, name);
            self.ty(ty);
        }
    }
    fn node(&mut self, node: &NodeDef) {
        self.name(40, &node.name);
        self.put(41, match node.kind {
            NodeKind::Function => 0,
            NodeKind::Operator => 1,
            NodeKind::Imported => 2,
        });
        self.declared(node.inputs.iter().map(|p| (&p.name, &p.ty)));
        self.declared(node.outputs.iter().map(|p| (&p.name, &p.ty)));
        self.declared(node.locals.iter().map(|p| (&p.name, &p.ty)));
        self.count(node.equations.len());
        for eq in &node.equations {
            self.count(eq.lhs.len());
            eq.lhs.iter().for_each(|l| self.name(4, l));
            self.expr(&eq.rhs);
        }
        self.count(node.probes.len());
        for p in &node.probes {
            self.name(4, &p.label);
            self.name(4, &p.var);
        }
    }
    fn wide(&mut self, tag: u8, word: u64) {
        self.put(tag, word as u32);
        self.put(5, (word >> 32) as u32);
    }
    fn expr(&mut self, e: &Expr) {
        if self.full() {
            return;
        }
        match e {
            Expr::Const { lit } => match lit {
                Literal::Bool { value } => self.put(50, *value as u32),
                Literal::Int { value } => self.wide(51, *value as u64),
                Literal::Float { value } => self.wide(52, value.to_bits()),
                Literal::Char { value } => self.put(53, *value as u32),
            },
            Expr::Var { name } => self.name(54, name),
            Expr::Unary { op, arg } => {
                self.put(55, if *op == UnaryOp::Not { 0 } else { 1 });
                self.expr(arg);
            }
            Expr::Binary { op, lhs, rhs } => {
                let k = BINARY.iter().position(|b| b == op).unwrap();
                self.put(56, k as u32);
                self.expr(lhs);
                self.expr(rhs);
            }
            Expr::IfThenElse { cond, then_branch, else_branch } => {
                self.put(57, 0);
                self.expr(cond);
                self.expr(then_branch);
                self.expr(else_branch);
            }
            Expr::Pre { arg } => {
                self.put(58, 0);
                self.expr(arg);
            }
            Expr::Arrow { init, body } => {
                self.put(59, 0);
                self.expr(init);
                self.expr(body);
            }
            Expr::Call { node, args } => {
                self.name(60, node);
                self.exprs(args);
            }
            Expr::Field { base, field } => {
                self.name(61, field);
                self.expr(base);
            }
            Expr::Index { base, index } => {
                self.put(62, 0);
                self.expr(base);
                self.expr(index);
            }
            Expr::Tuple { items } => {
                self.put(63, 0);
                self.exprs(items);
            }
            Expr::Array { items } => {
                self.put(64, 0);
                self.exprs(items);
            }
            Expr::Struct { ty, fields } => {
                self.name(65, ty);
                self.count(fields.len());
                for f in fields {
                    self.name(4, &f.field);
                    self.expr(&f.value);
                }
            }
            Expr::Cast { to, arg } => {
                self.put(66, 0);
                self.ty(to);
                self.expr(arg);
            }
            Expr::When { arg, clock, on } => {
                self.name(if *on { 67 } else { 68 }, clock);
                self.expr(arg);
            }
            Expr::Merge { clock, on_true, on_false } => {
                self.name(69, clock);
                self.expr(on_true);
                self.expr(on_false);
            }
            Expr::Iterate { kind, node, init, arrays } => {
                self.name(if *kind == IterKind::Map { 70 } else { 71 }, node);
                self.count(init.is_some() as usize);
                if let Some(i) = init {
                    self.expr(i);
                }
                self.exprs(arrays);
            }
        }
    }
    fn exprs(&mut self, items: &[Expr]) {
        self.count(items.len());
        for i in items {
            if self.full() {
                return;
            }
            self.expr(i);
        }
    }
}

/// The bytes of names and tokens. Sizes are written as they are, within the limits or not.
pub fn bytes(names: &[String], tokens: &[(u8, u32)]) -> Vec<u8> {
    let letters: usize = names.iter().map(|n| n.len()).sum();
    let mut out = Vec::with_capacity(12 + names.len() + letters + 5 * tokens.len());
    for size in [names.len(), letters, tokens.len()] {
        out.extend_from_slice(&(size as u32).to_le_bytes());
    }
    out.extend(names.iter().map(|n| n.len() as u8));
    names.iter().for_each(|n| out.extend_from_slice(n.as_bytes()));
    out.extend(tokens.iter().map(|t| t.0));
    tokens.iter().for_each(|t| out.extend_from_slice(&t.1.to_le_bytes()));
    out
}

pub fn ids(names: &[String]) -> HashMap<String, u32> {
    names.iter().enumerate().map(|(k, n)| (n.clone(), k as u32)).collect()
}
