//! Seeded sheets and questions, in kinds. The same seed, count and kinds give the same lines.
use std::collections::HashSet;

use ol_ir::expr::{BinOp, Expr, FieldInit, IterKind, Literal, UnaryOp};
use ol_ir::node::{Equation, Local, NodeDef, NodeKind, Port, Probe};
use ol_ir::project::{EnumDef, Project, RecordField, TypeBody, TypeDef};
use ol_ir::types::Type;

use crate::answer::{self, Rewritten, Way};
use crate::line::Question;
use crate::{sheet, Refused};

pub const KINDS: [&str; 10] =
    ["known", "right", "near", "damaged", "limit", "types", "deep", "large", "fault", "many"];

/// splitmix64
pub struct Random(u64);

impl Random {
    pub fn new(seed: u64) -> Self {
        Random(seed)
    }
    pub fn word(&mut self) -> u64 {
        self.0 = self.0.wrapping_add(0x9e37_79b9_7f4a_7c15);
        let mut z = self.0;
        z = (z ^ (z >> 30)).wrapping_mul(0xbf58_476d_1ce4_e5b9);
        z = (z ^ (z >> 27)).wrapping_mul(0x94d0_49bb_1331_11eb);
        z ^ (z >> 31)
    }
    pub fn below(&mut self, n: usize) -> usize {
        (self.word() % n as u64) as usize
    }
    /// Once in n times.
    pub fn once_in(&mut self, n: usize) -> bool {
        self.below(n) == 0
    }
    pub fn pick<'a, A>(&mut self, of: &'a [A]) -> &'a A {
        &of[self.below(of.len())]
    }
    fn shuffle<A>(&mut self, of: &mut [A]) {
        for k in (1..of.len()).rev() {
            of.swap(k, self.below(k + 1));
        }
    }
}

// Short ways to write trees.
fn v(name: &str) -> Expr {
    Expr::var(name)
}
fn int(n: i64) -> Expr {
    Expr::int_lit(n)
}
fn when(e: Expr, c: &str) -> Expr {
    Expr::when(e, c, true)
}
fn add(a: Expr, b: Expr) -> Expr {
    Expr::bin(BinOp::Add, a, b)
}
fn eq(lhs: &str, rhs: Expr) -> Equation {
    Equation { lhs: vec![lhs.into()], rhs }
}
fn declared(names: &[(&str, Type)]) -> Vec<(String, Type)> {
    names.iter().map(|(n, t)| (n.to_string(), t.clone())).collect()
}
fn node(
    name: &str,
    kind: NodeKind,
    inputs: Vec<(String, Type)>,
    outputs: Vec<(String, Type)>,
    locals: Vec<(String, Type)>,
    equations: Vec<Equation>,
) -> NodeDef {
    let port = |(name, ty)| Port { name, ty };
    NodeDef {
        name: name.into(),
        kind,
        inputs: inputs.into_iter().map(port).collect(),
        outputs: outputs.into_iter().map(port).collect(),
        locals: locals.into_iter().map(|(name, ty)| Local { name, ty }).collect(),
        equations,
        contract: None,
        diagram: Default::default(),
        probes: vec![],
    }
}
fn i32s(names: &[&str]) -> Vec<(String, Type)> {
    names.iter().map(|n| (n.to_string(), Type::Int32)).collect()
}
/// A node over the inputs x and c, as the known sheets have it.
fn plain(name: &str, outputs: &[&str], locals: &[&str], equations: Vec<Equation>) -> NodeDef {
    let inputs = declared(&[("x", Type::Int32), ("c", Type::Bool)]);
    node(name, NodeKind::Operator, inputs, i32s(outputs), i32s(locals), equations)
}
fn named(name: &str) -> Type {
    Type::named(name)
}
fn array(len: u32, elem: Type) -> Type {
    Type::Array { elem: Box::new(elem), len }
}
fn record(name: &str, fields: Vec<(String, Type)>) -> TypeDef {
    let fields = fields.into_iter().map(|(name, ty)| RecordField { name, ty }).collect();
    TypeDef { body: TypeBody::Record { name: name.into(), fields } }
}
fn enumeration(name: &str, variants: &[&str]) -> TypeDef {
    let variants = variants.iter().map(|s| s.to_string()).collect();
    TypeDef { body: TypeBody::Enum(EnumDef { name: name.into(), variants }) }
}
fn alias(name: &str, target: Type) -> TypeDef {
    TypeDef { body: TypeBody::Alias { name: name.into(), target } }
}

/// Every name of a project, in order of first occurrence.
pub fn names_of(p: &Project) -> Vec<String> {
    struct Names {
        seen: HashSet<String>,
        names: Vec<String>,
    }
    impl Names {
        fn add(&mut self, n: &str) {
            if self.seen.insert(n.to_string()) {
                self.names.push(n.to_string());
            }
        }
        fn ty(&mut self, t: &Type) {
            match t {
                Type::Array { elem, .. } => self.ty(elem),
                Type::Named { name } => self.add(name),
                _ => {}
            }
        }
    }
    let mut n = Names { seen: HashSet::new(), names: vec![] };
    for def in &p.packages[0].types {
        n.add(def.name());
        match &def.body {
            TypeBody::Enum(e) => e.variants.iter().for_each(|x| n.add(x)),
            TypeBody::Record { fields, .. } => fields.iter().for_each(|f| {
                n.add(&f.name);
                n.ty(&f.ty);
            }),
            TypeBody::Alias { target, .. } => n.ty(target),
        }
    }
    for d in &p.packages[0].nodes {
        n.add(&d.name);
        for q in d.inputs.iter().chain(&d.outputs) {
            n.add(&q.name);
            n.ty(&q.ty);
        }
        for l in &d.locals {
            n.add(&l.name);
            n.ty(&l.ty);
        }
        for e in &d.equations {
            e.lhs.iter().for_each(|l| n.add(l));
            e.rhs.visit(|e| match e {
                Expr::Var { name } => n.add(name),
                Expr::Call { node, .. } | Expr::Iterate { node, .. } => n.add(node),
                Expr::Field { field, .. } => n.add(field),
                Expr::Struct { ty, fields } => {
                    n.add(ty);
                    fields.iter().for_each(|f| n.add(&f.field));
                }
                Expr::Cast { to, .. } => n.ty(to),
                Expr::When { clock, .. } | Expr::Merge { clock, .. } => n.add(clock),
                _ => {}
            });
        }
        for q in &d.probes {
            n.add(&q.label);
            n.add(&q.var);
        }
    }
    n.names
}

pub fn sheet_of(p: &Project) -> Vec<u8> {
    sheet_with(p, names_of(p))
}

/// The sheet with every name made long, the same place in the table for the same name.
fn long_sheet_of(r: &mut Random, p: &Project) -> Vec<u8> {
    let names = names_of(p);
    let tokens = sheet::tokens(p, &sheet::ids(&names), usize::MAX - 1).unwrap();
    let same = r.once_in(2);
    let names: Vec<String> = (0..names.len()).map(|k| long_name(k, if same { 32 } else { 1 + r.below(32) })).collect();
    sheet::bytes(&names, &tokens)
}

/// The sheet over a table of names that holds at least the project's.
fn sheet_with(p: &Project, names: Vec<String>) -> Vec<u8> {
    let tokens = sheet::tokens(p, &sheet::ids(&names), usize::MAX - 1).unwrap();
    sheet::bytes(&names, &tokens)
}

/// The sheets K1 to K12 of document 01.
pub fn known() -> Vec<(&'static str, Vec<u8>)> {
    let one = |n: NodeDef| sheet_of(&sheet::project(vec![], vec![n]));
    let xc = || when(v("x"), "c");
    let k1 = || {
        plain("start", &["y"], &["a"], vec![
            eq("a", Expr::arrow(xc(), add(Expr::pre(v("a")), xc()))),
            eq("y", Expr::merge("c", v("a"), int(0))),
        ])
    };
    let k2 = vec![0, 0, 0, 0, 0, 0, 0, 0, 2, 0, 0, 0, 1, 2, 0, 0, 0, 0, 0, 0, 0, 0];
    let mut k12 = k2.clone();
    k12.push(0);
    let k3 = plain("copy", &["y"], &["a"], vec![eq("a", add(v("x"), v("offset"))), eq("y", add(v("a"), v("gain")))]);
    let k4 = plain("k4", &["y"], &["k"], vec![
        eq("k", Expr::arrow(int(0), add(Expr::pre(v("k")), int(1)))),
        eq("y", Expr::merge("c", add(xc(), v("k")), Expr::when(v("x"), "c", false))),
    ]);
    let k5 = plain("k5", &[], &["p", "q", "r"], vec![eq("p", v("q")), eq("q", v("r")), eq("r", xc())]);
    let k6 = plain("k6", &[], &["p", "q"], vec![eq("p", when(v("q"), "c")), eq("q", v("p"))]);
    let k7 = plain("k7", &[], &["a"], vec![eq("a", Expr::pre(xc()))]);
    let k8 = plain("k8", &[], &["a"], vec![eq("a", Expr::pre(add(xc(), xc())))]);
    let mut k9 = k1();
    k9.locals.push(Local { name: "__ck0".into(), ty: Type::Bool });
    let whens = |n: usize| {
        let mut e = v("x");
        for _ in 0..n {
            e = when(e, "u");
        }
        one(plain("k10", &[], &["a"], vec![eq("a", e)]))
    };
    let f = node("f", NodeKind::Operator, i32s(&["i"]), i32s(&["o", "p"]), vec![], vec![]);
    let call = Equation { lhs: vec!["a".into(), "b".into()], rhs: Expr::call("f", vec![xc()]) };
    let sampled = Equation { lhs: vec!["a".into(), "b".into()], rhs: when(Expr::call("f", vec![v("x")]), "c") };
    let k11 = sheet_of(&sheet::project(vec![], vec![f.clone(), plain("k11", &[], &["a", "b"], vec![call])]));
    let k11b = sheet_of(&sheet::project(vec![], vec![f, plain("k11", &[], &["a", "b"], vec![sampled])]));
    vec![
        ("K1", one(k1())),
        ("K2", k2),
        ("K3", one(k3)),
        ("K4", one(k4)),
        ("K5", one(k5)),
        ("K6", one(k6)),
        ("K7", one(k7)),
        ("K8", one(k8)),
        ("K9", one(k9)),
        ("K10", whens(8)),
        ("K10", whens(9)),
        ("K11", k11b),
        ("K11", k11),
        ("K12", k12),
    ]
}

const STATE_NAMES: [&str; 8] = ["__ck0", "__ck1", "__first0", "__hold0", "condact", "__ck2", "__first1", "__hold1"];

/// A declared name: its type and the clock meant for it, a place in `clocks`.
#[derive(Clone)]
struct Var {
    name: String,
    ty: Type,
    clock: usize,
}

/// A callee as a caller sees it.
#[derive(Clone)]
struct Callee {
    name: String,
    outputs: usize,
}

/// Makes projects whose nodes are clocked right, as far as `wild` lets them.
struct Maker<'a> {
    r: &'a mut Random,
    types: Vec<TypeDef>,
    callees: Vec<Callee>,
    vars: Vec<Var>,
    /// Clocks as parent, name and whether on; the first is base.
    clocks: Vec<(usize, String, bool)>,
    /// Names for equations made on the way down.
    fresh: usize,
    wild: bool,
}

impl Maker<'_> {
    fn type_name(&mut self) -> Type {
        if self.types.is_empty() || self.r.once_in(if self.wild { 6 } else { 40 }) {
            return named("Unknown");
        }
        let k = self.r.below(self.types.len());
        named(self.types[k].name())
    }
    fn ty(&mut self, depth: usize) -> Type {
        match self.r.below(14) {
            0..=4 => Type::Int32,
            5 | 6 => Type::Bool,
            7 => Type::Float64,
            8 => Type::Char,
            9 => self.r.pick(&[Type::Int8, Type::Uint16, Type::Float32, Type::Uint64, Type::Int64, Type::Uint8]).clone(),
            10 | 11 if depth > 0 => {
                let len = *self.r.pick(&[0, 1, 1, 2, 2, 3]);
                let elem = self.ty(depth - 1);
                array(len, elem)
            }
            _ if !self.types.is_empty() || self.wild => self.type_name(),
            _ => Type::Int32,
        }
    }
    fn definitions(&mut self) {
        let n = *self.r.pick(&[0, 0, 0, 1, 1, 2, 3, 4]);
        let mut names: Vec<String> = (0..n).map(|k| format!("T{k}")).collect();
        if n > 1 && self.r.once_in(8) {
            names[n - 1] = names[0].clone();
        }
        for name in names {
            let def = match self.r.below(3) {
                0 => {
                    let all = ["Red", "Green", "Blue"];
                    let least = if self.r.once_in(5) { 0 } else { 1 };
                    let n = least + self.r.below(3);
                    enumeration(&name, &all[..n])
                }
                1 => {
                    let n = self.r.below(4);
                    let fields = (0..n).map(|k| (format!("f{k}"), self.ty(2))).collect();
                    record(&name, fields)
                }
                _ => {
                    let target = self.ty(2);
                    alias(&name, target)
                }
            };
            self.types.push(def);
        }
        if self.r.once_in(3) {
            // Later ones may then be meant before they stand.
            let mut types = std::mem::take(&mut self.types);
            self.r.shuffle(&mut types);
            self.types = types;
        }
    }
    fn child(&mut self, parent: usize, name: &str, on: bool) -> usize {
        let key = (parent, name.to_string(), on);
        if let Some(k) = self.clocks.iter().skip(1).position(|c| *c == key) {
            return k + 1;
        }
        self.clocks.push(key);
        self.clocks.len() - 1
    }
    fn on(&self, clock: usize, ty: Option<&Type>) -> Vec<String> {
        self.vars.iter().filter(|w| w.clock == clock && ty.is_none_or(|t| w.ty == *t)).map(|w| w.name.clone()).collect()
    }
    /// A name to sample by on a clock: a Bool there, else an undeclared name.
    fn condition(&mut self, clock: usize) -> String {
        let bools = self.on(clock, Some(&Type::Bool));
        if bools.is_empty() || self.r.once_in(12) {
            return self.r.pick(&["u", "w", "up", "u_", "uA", "u1"]).to_string();
        }
        self.r.pick(&bools).clone()
    }
    fn constant(&mut self) -> Expr {
        let lit = match self.r.below(8) {
            0 => Literal::Bool { value: self.r.once_in(2) },
            1 => {
                let word = self.r.word();
                Literal::Float { value: *self.r.pick(&[1.5, 0.0, -0.0, f64::NAN, f64::from_bits(word)]) }
            }
            2 => Literal::Char { value: self.r.below(256) as u8 },
            3 => Literal::Int { value: self.r.word() as i64 },
            _ => Literal::Int { value: self.r.below(10) as i64 - 3 },
        };
        Expr::Const { lit }
    }
    fn leaf(&mut self, clock: usize) -> Expr {
        let here = self.on(clock, None);
        if !here.is_empty() && !self.r.once_in(4) {
            return Expr::var(self.r.pick(&here).clone());
        }
        if clock != 0 && !self.r.once_in(3) {
            return self.sampled(clock, 0);
        }
        if self.r.once_in(10) {
            return Expr::var(*self.r.pick(&["u", "free", "Red"]));
        }
        self.constant()
    }
    fn sampled(&mut self, clock: usize, depth: usize) -> Expr {
        let (parent, name, on) = self.clocks[clock].clone();
        let arg = self.expr(parent, depth.saturating_sub(1));
        Expr::when(arg, name, on)
    }
    fn items(&mut self, clock: usize, depth: usize, most: usize) -> Vec<Expr> {
        let n = self.r.below(most + 1);
        (0..n).map(|_| self.expr(clock, depth)).collect()
    }
    fn boxed(&mut self, clock: usize, depth: usize) -> Box<Expr> {
        Box::new(self.expr(clock, depth))
    }
    fn callee(&mut self) -> String {
        if self.callees.is_empty() || self.r.once_in(8) {
            return self.r.pick(&["absent", "condact", "sin"]).to_string();
        }
        self.r.pick(&self.callees).name.clone()
    }
    /// An expression on a clock.
    fn expr(&mut self, clock: usize, depth: usize) -> Expr {
        if depth == 0 || self.r.once_in(9) {
            return self.leaf(clock);
        }
        let d = depth - 1;
        match self.r.below(30) {
            0..=3 => {
                let op = *self.r.pick(&[BinOp::Add, BinOp::And, BinOp::Sub, BinOp::Lt, BinOp::Shr, BinOp::Mod, BinOp::Eq]);
                Expr::bin(op, self.expr(clock, d), self.expr(clock, d))
            }
            4 => {
                let op = if self.r.once_in(2) { UnaryOp::Not } else { UnaryOp::Neg };
                Expr::Unary { op, arg: self.boxed(clock, d) }
            }
            5 => Expr::if_then_else(self.expr(clock, d), self.expr(clock, d), self.expr(clock, d)),
            6..=8 => {
                let arg = match self.r.below(6) {
                    0..=2 => self.leaf(clock),
                    3 if clock != 0 => self.sampled(clock, d),
                    4 => {
                        let (a, b) = (self.leaf(clock), self.leaf(clock));
                        Expr::arrow(a, Expr::pre(b))
                    }
                    _ if self.r.once_in(4) => self.expr(clock, d),
                    _ => Expr::pre(self.leaf(clock)),
                };
                Expr::pre(arg)
            }
            9..=11 => Expr::arrow(self.expr(clock, d), self.expr(clock, d)),
            12..=14 => Expr::call(self.callee(), self.items(clock, d, 2)),
            15 => Expr::Field { base: self.boxed(clock, d), field: "f0".into() },
            16 => {
                let base = self.leaf(clock);
                let at = Expr::Index { base: Box::new(base), index: self.boxed(clock, 0) };
                if self.r.once_in(2) {
                    Expr::pre(at)
                } else {
                    at
                }
            }
            17 => Expr::Tuple { items: self.items(clock, d, 2) },
            18 => Expr::Array { items: self.items(clock, d, 3) },
            19 => {
                let ty = self.type_name();
                let Type::Named { name } = ty else { unreachable!() };
                let n = self.r.below(3);
                let fields = (0..n).map(|k| FieldInit { field: format!("f{k}"), value: self.expr(clock, d) }).collect();
                Expr::Struct { ty: name, fields }
            }
            20 => Expr::cast(self.ty(1), self.expr(clock, d)),
            21 => {
                let kind = if self.r.once_in(2) { IterKind::Map } else { IterKind::Fold };
                let init = if self.r.once_in(2) { Some(self.boxed(clock, d)) } else { None };
                Expr::Iterate { kind, node: self.callee(), init, arrays: self.items(clock, d, 2) }
            }
            22..=25 if clock != 0 => self.sampled(clock, depth),
            _ => {
                let name = self.condition(clock);
                let (t, f) = (self.child(clock, &name, true), self.child(clock, &name, false));
                Expr::merge(name, self.expr(t, d), self.expr(f, d))
            }
        }
    }
    /// The clocks to put locals on, each condition with a name to sample by.
    fn some_clocks(&mut self) {
        for _ in 0..self.r.below(4) {
            let parent = self.r.below(self.clocks.len());
            let name = self.condition(parent);
            let on = !self.r.once_in(3);
            let k = self.child(parent, &name, on);
            // A Bool on the clock lets clocks stand below it.
            if self.r.once_in(2) {
                self.vars.push(Var { name: format!("b{}", self.fresh), ty: Type::Bool, clock: k });
                self.fresh += 1;
            }
        }
    }
    fn node(&mut self, name: &str, depth: usize) -> NodeDef {
        self.vars.clear();
        self.clocks = vec![(0, String::new(), true)];
        self.fresh = 0;
        let kind = match self.r.below(8) {
            0 => NodeKind::Function,
            1 => NodeKind::Imported,
            _ => NodeKind::Operator,
        };
        let mut inputs = declared(&[("x", Type::Int32), ("c", Type::Bool), ("d", Type::Bool)]);
        if self.r.once_in(3) {
            inputs.pop();
        }
        if self.r.once_in(4) {
            let ty = self.ty(2);
            inputs.push(("arr".into(), ty));
        }
        for (name, ty) in &inputs {
            self.vars.push(Var { name: name.clone(), ty: ty.clone(), clock: 0 });
        }
        let first = self.vars.len();
        self.some_clocks();
        for _ in 0..1 + self.r.below(4) {
            let ty = self.ty(2);
            let clock = self.r.below(self.clocks.len());
            let name = if self.r.once_in(25) {
                let n = self.r.pick(&STATE_NAMES).to_string();
                if self.vars.iter().any(|w| w.name == n) {
                    continue;
                }
                n
            } else {
                format!("a{}", self.fresh)
            };
            self.fresh += 1;
            self.vars.push(Var { name, ty, clock });
        }
        let mut outputs = Vec::new();
        for k in 0..self.r.below(3) {
            let ty = self.ty(1);
            outputs.push((format!("y{k}"), ty.clone()));
            if self.r.once_in(2) {
                self.vars.push(Var { name: format!("y{k}"), ty, clock: 0 });
            }
        }
        let mut locals: Vec<(String, Type)> = Vec::new();
        let mut equations = Vec::new();
        let mut made: Vec<Var> =
            self.vars[first..].iter().filter(|w| !w.name.starts_with('y')).cloned().collect();
        while let Some(w) = made.pop() {
            let second = made.last().filter(|o| o.clock == w.clock).cloned();
            match second {
                Some(o) if self.r.once_in(3) => {
                    made.pop();
                    let rhs = match self.r.below(8) {
                        0 => self.expr(w.clock, depth),
                        1 => Expr::Tuple { items: vec![self.expr(w.clock, depth), self.expr(w.clock, 1)] },
                        2 if w.clock != 0 => {
                            let (parent, name, on) = self.clocks[w.clock].clone();
                            Expr::when(Expr::call(self.callee(), self.items(parent, 1, 2)), name, on)
                        }
                        _ => Expr::call(self.callee(), vec![self.expr(w.clock, depth)]),
                    };
                    equations.push(Equation { lhs: vec![o.name.clone(), w.name.clone()], rhs });
                    locals.push((o.name, o.ty));
                    locals.push((w.name, w.ty));
                }
                _ => {
                    let rhs = if w.clock != 0 && self.r.once_in(3) {
                        self.sampled(w.clock, depth)
                    } else {
                        self.expr(w.clock, depth)
                    };
                    equations.push(eq(&w.name, rhs));
                    locals.push((w.name, w.ty));
                }
            }
        }
        for (name, _) in outputs.clone() {
            let rhs = self.expr(0, depth);
            equations.push(eq(&name, rhs));
        }
        if self.r.once_in(2) {
            self.r.shuffle(&mut equations);
        } else {
            equations.reverse();
        }
        if self.r.once_in(2) {
            self.r.shuffle(&mut locals);
        }
        if self.r.once_in(20) && !locals.is_empty() {
            // Declared twice, the last of another type.
            let (name, _) = self.r.pick(&locals).clone();
            let ty = self.ty(1);
            locals.push((name, ty));
        }
        if self.r.once_in(20) {
            locals.push((self.r.pick(&STATE_NAMES).to_string(), Type::Bool));
        }
        if self.r.once_in(25) {
            // A port declared again as a local.
            let ty = self.ty(1);
            locals.push((self.r.pick(&["x", "c", "y0"]).to_string(), ty));
        }
        let mut n = node(name, kind, inputs, outputs, locals, equations);
        if self.r.once_in(5) {
            n.probes.push(Probe { label: "level".into(), var: self.r.pick(&["x", "nothing"]).to_string() });
        }
        n
    }
}

fn rich(r: &mut Random, wild: bool, depth: usize) -> Project {
    let mut m = Maker { r, types: vec![], callees: vec![], vars: vec![], clocks: vec![], fresh: 0, wild };
    m.definitions();
    let n = *m.r.pick(&[1, 1, 1, 2, 2, 3]);
    let mut names: Vec<String> = (0..n).map(|k| format!("n{k}")).collect();
    if m.r.once_in(20) {
        let k = m.r.below(n);
        names[k] = m.r.pick(&["condact", "n0", "when"]).to_string();
    }
    let mut nodes = Vec::new();
    let small = m.r.below(3);
    for k in 0..small {
        // Callees with few outputs of any type.
        let kind = *m.r.pick(&[NodeKind::Operator, NodeKind::Operator, NodeKind::Function, NodeKind::Imported]);
        let outs = m.r.below(3);
        let outputs = (0..outs).map(|i| (format!("o{i}"), m.ty(1))).collect();
        let equations = (0..outs).map(|i| eq(&format!("o{i}"), v("i"))).collect();
        let name = if m.r.once_in(30) { "condact".to_string() } else { format!("g{k}") };
        nodes.push(node(&name, kind, i32s(&["i"]), outputs, vec![], equations));
        m.callees.push(Callee { name, outputs: outs });
    }
    for name in &names {
        m.callees.push(Callee { name: name.clone(), outputs: 1 });
    }
    for name in &names {
        let depth = if m.r.once_in(12) { depth + 2 } else { depth };
        let made = m.node(name, depth);
        nodes.push(made);
    }
    if m.r.once_in(4) {
        m.r.shuffle(&mut nodes);
    }
    debug_assert!(m.callees.iter().all(|c| c.outputs < 9));
    let types = std::mem::take(&mut m.types);
    sheet::project(types, nodes)
}

/// One change somewhere in a project.
fn change(r: &mut Random, p: &mut Project) {
    let nodes = &mut p.packages[0].nodes;
    if nodes.is_empty() {
        return;
    }
    let k = r.below(nodes.len());
    let n = &mut nodes[k];
    let choice = r.below(12);
    if choice < 3 {
        match choice {
            0 if !n.equations.is_empty() => {
                let k = r.below(n.equations.len());
                let other = n.equations[r.below(n.equations.len())].lhs[0].clone();
                let l = &mut n.equations[k].lhs;
                let at = r.below(l.len());
                l[at] = r.pick(&[other, "q".to_string(), "x".to_string(), "y0".to_string()]).clone();
            }
            1 if !n.locals.is_empty() => {
                let k = r.below(n.locals.len());
                n.locals.remove(k);
            }
            _ if !n.locals.is_empty() => {
                let k = r.below(n.locals.len());
                n.locals[k].ty = r.pick(&[named("Unknown"), array(2, named("T0")), named("T1"), Type::Bool]).clone();
            }
            _ => {}
        }
        return;
    }
    // The place of the change: a sampling, or any part.
    let mut parts = 0;
    let samplings = r.once_in(2);
    let fits = |e: &Expr| !samplings || matches!(e, Expr::When { .. } | Expr::Merge { .. });
    n.equations.iter().for_each(|q| q.rhs.visit(|e| parts += fits(e) as usize));
    if parts == 0 {
        return;
    }
    let at = r.below(parts);
    let mut k = 0;
    let mut done = false;
    for q in &mut n.equations {
        q.rhs.walk_mut(&mut |e| {
            if done || !fits(e) {
                return;
            }
            if k < at {
                k += 1;
                return;
            }
            done = true;
            let name = r.pick(&["c", "d", "u", "a0", "b0", "x", "a1"]).to_string();
            match e {
                Expr::When { arg, clock, on } => match r.below(4) {
                    0 => *clock = name,
                    1 => *on = !*on,
                    2 => *e = (**arg).clone(),
                    _ => *e = Expr::when(e.clone(), name, true),
                },
                Expr::Merge { clock, on_true, on_false } => match r.below(3) {
                    0 => *clock = name,
                    1 => std::mem::swap(on_true, on_false),
                    _ => *e = (**on_true).clone(),
                },
                Expr::Var { name: old } if r.once_in(2) => *old = name,
                Expr::Pre { arg } if r.once_in(2) => *e = (**arg).clone(),
                other => {
                    let part = other.clone();
                    *other = match r.below(4) {
                        0 => Expr::when(part, name, r.once_in(2)),
                        1 => Expr::pre(part),
                        2 => Expr::merge(name, part.clone(), part),
                        _ => v(&name),
                    };
                }
            }
        });
    }
}

/// A sheet with a few bytes or tokens changed.
fn damage(r: &mut Random, sheet: &[u8]) -> Vec<u8> {
    let mut b = sheet.to_vec();
    let size = |b: &[u8], k: usize| u32::from_le_bytes(b[4 * k..4 * k + 4].try_into().unwrap()) as usize;
    let (m, l, t) = (size(&b, 0), size(&b, 1), size(&b, 2));
    let (tags, values) = (12 + m + l, 12 + m + l + t);
    match r.below(18) {
        0 => b.truncate(r.below(13)),
        1 => b.truncate(r.below(b.len() + 1)),
        2 => b.push(r.word() as u8),
        3 => {
            // A size past its limit, or one off.
            let k = r.below(3);
            let n = *r.pick(&[0, 1, 1025, 16385, 4097, 1024, 16384, 4096, u32::MAX, 1 << 31, size(&b, k) as u32 + 1]);
            b[4 * k..4 * k + 4].copy_from_slice(&n.to_le_bytes());
        }
        4 if m > 0 => {
            let k = 12 + r.below(m);
            b[k] = b[k].wrapping_add(*r.pick(&[1, 255, 32]));
        }
        5 if m > 1 => {
            // The lengths still sum to L.
            let (i, j) = (12 + r.below(m), 12 + r.below(m));
            let n = b[i].min(*r.pick(&[1, 255]));
            b[i] -= n;
            b[j] = b[j].wrapping_add(n);
        }
        6 | 7 if l > 0 => {
            let k = 12 + m + r.below(l);
            b[k] = *r.pick(&[b'0', b' ', b'@', b'[', b'`', b'{', 0, 200, b'9', b'/', b':', b'-', b'x', b'c', b'a', b'_']);
        }
        8 if m > 1 => {
            // One name becomes another.
            let (i, j) = (r.below(m), r.below(m));
            let at = |b: &[u8], k: usize| 12 + m + b[12..12 + k].iter().map(|&n| n as usize).sum::<usize>();
            let (p, q, n) = (at(&b, i), at(&b, j), b[12 + i].min(b[12 + j]) as usize);
            for o in 0..n {
                b[q + o] = b[p + o];
            }
        }
        9 | 10 => {
            let k = tags + r.below(t);
            b[k] = *r.pick(&[0, 1, 2, 3, 4, 5, 6, 9, 10, 13, 19, 20, 31, 32, 33, 34, 40, 41, 42, 49, 50, 54, 58, 67, 68, 69, 71, 72, 73, 255]);
        }
        11..=14 => {
            let k = values + 4 * r.below(t);
            let old = u32::from_le_bytes(b[k..k + 4].try_into().unwrap());
            let n = *r.pick(&[0, 1, 2, 3, 8, 9, 16, 17, 19, 20, 32, 33, 64, 65, 128, 129, 255, 256, 257, u32::MAX, old ^ 1, old.wrapping_add(1), m as u32]);
            b[k..k + 4].copy_from_slice(&n.to_le_bytes());
        }
        15 => {
            // One token more or less, all sizes right.
            let k = r.below(t);
            let more = r.once_in(2);
            let (mut ts, mut vs) = (b[tags..values].to_vec(), b[values..].to_vec());
            if more {
                ts.insert(k, ts[k]);
                let w: Vec<u8> = vs[4 * k..4 * k + 4].to_vec();
                vs.splice(4 * k..4 * k, w);
            } else {
                ts.remove(k);
                vs.drain(4 * k..4 * k + 4);
            }
            b.truncate(tags);
            b[8..12].copy_from_slice(&(ts.len() as u32).to_le_bytes());
            b.extend(ts);
            b.extend(vs);
        }
        16 => {
            // The tokens end early, all sizes right.
            let n = 2 + r.below(t.max(3) - 2);
            let n = n.min(t);
            let (ts, vs) = (b[tags..tags + n].to_vec(), b[values..values + 4 * n].to_vec());
            b.truncate(tags);
            b[8..12].copy_from_slice(&(n as u32).to_le_bytes());
            b.extend(ts);
            b.extend(vs);
        }
        _ => {
            for _ in 0..1 + r.below(3) {
                let k = r.below(b.len());
                b[k] ^= 1 << r.below(8);
            }
        }
    }
    b
}

fn long_name(k: usize, letters: usize) -> String {
    let mut s = format!("n{k}");
    while s.len() < letters {
        s.push('_');
    }
    s
}

/// A sheet at a limit or one past it.
fn at_limit(r: &mut Random) -> Vec<u8> {
    let past = r.below(2);
    let one = |n: NodeDef| sheet_of(&sheet::project(vec![], vec![n]));
    let nest = |n: usize, f: &dyn Fn(Expr) -> Expr| (0..n).fold(v("x"), |e, _| f(e));
    match r.below(19) {
        0 => {
            let n = 64 + past;
            one(plain("n", &["y"], &["a"], (0..n).map(|_| eq("y", int(1))).collect()))
        }
        1 => {
            let n = 126 + past;
            let locals: Vec<String> = (0..n).map(|k| format!("l{k}")).collect();
            let mut d = plain("n", &[], &[], vec![eq("l0", when(v("x"), "c"))]);
            for l in locals {
                let at = r.below(3);
                let (name, ty) = (l, Type::Int32);
                match at {
                    0 => d.inputs.push(Port { name, ty }),
                    1 => d.outputs.push(Port { name, ty }),
                    _ => d.locals.push(Local { name, ty }),
                }
            }
            one(d)
        }
        2 => {
            let n = 8 + past;
            let lhs: Vec<String> = (0..n).map(|k| format!("l{k}")).collect();
            let mut d = plain("n", &[], &[], vec![Equation { lhs: lhs.clone(), rhs: Expr::call("f", vec![when(v("x"), "c")]) }]);
            d.locals = lhs.into_iter().map(|name| Local { name, ty: Type::Int32 }).collect();
            one(d)
        }
        3 => {
            let items: Vec<Expr> = (0..64 + past).map(|_| v("x")).collect();
            let rhs = match r.below(4) {
                0 => Expr::call("f", items),
                1 => Expr::Tuple { items },
                2 => Expr::map("f", items),
                _ => Expr::Array { items },
            };
            one(plain("n", &["y"], &[], vec![eq("y", rhs)]))
        }
        4 => {
            let fields = (0..64 + past).map(|_| FieldInit { field: "f".into(), value: v("x") }).collect();
            one(plain("n", &["y"], &[], vec![eq("y", Expr::Struct { ty: "R".into(), fields })]))
        }
        5 => {
            let mut d = plain("n", &[], &["a"], vec![]);
            d.locals[0].ty = array(256 + past as u32, Type::Bool);
            if r.once_in(2) {
                d.equations.push(eq("a", when(v("x"), "c")));
            }
            one(d)
        }
        6 => {
            let mut d = plain("n", &[], &["a"], vec![eq("a", when(v("x"), "c"))]);
            d.locals[0].ty = (0..8 + past).fold(Type::Int8, |t, _| array(1, t));
            one(d)
        }
        7 => one(plain("n", &["y"], &[], vec![eq("y", nest(31 + past, &|e| Expr::not(e)))])),
        8 => {
            let n = 15 + past;
            one(plain("n", &["y"], &[], vec![eq("y", nest(n, &|e| Expr::Array { items: vec![Expr::neg(e)] }))]))
        }
        9 => {
            let fs: Vec<NodeDef> = (0..16 + past).map(|k| plain(&format!("n{k}"), &[], &[], vec![])).collect();
            sheet_of(&sheet::project(vec![], fs))
        }
        10 => {
            let ts = (0..32 + past).map(|k| enumeration(&format!("E{k}"), &[])).collect();
            sheet_of(&sheet::project(ts, vec![]))
        }
        11 => {
            let fields = (0..64 + past).map(|_| ("f".to_string(), Type::Bool)).collect();
            sheet_of(&sheet::project(vec![record("R", fields)], vec![]))
        }
        12 => {
            let all: Vec<String> = (0..64 + past).map(|k| format!("V{k}")).collect();
            let all: Vec<&str> = all.iter().map(|s| s.as_str()).collect();
            sheet_of(&sheet::project(vec![enumeration("E", &all)], vec![]))
        }
        13 => {
            let mut d = plain("n", &[], &[], vec![]);
            d.probes = (0..64 + past).map(|_| Probe { label: "p".into(), var: "x".into() }).collect();
            one(d)
        }
        14 => {
            // A name of 32 or 33 letters.
            let mut d = plain("n", &[], &["a"], vec![eq("a", when(v("x"), "c"))]);
            d.name = long_name(0, 32 + past);
            one(d)
        }
        15 => {
            // M at its limit, in the output or already in the sheet.
            let gated = r.once_in(2);
            let rhs = if gated { Expr::call("n", vec![when(v("x"), "c")]) } else { when(v("x"), "c") };
            let p = sheet::project(vec![], vec![plain("n", &[], &["a"], vec![eq("a", rhs)])]);
            let mut names = names_of(&p);
            let n = 1020 + r.below(6);
            let mut k = 0;
            while names.len() < n {
                names.push(format!("z{k}"));
                k += 1;
            }
            sheet_with(&p, names)
        }
        16 => {
            // L at its limit.
            let gated = r.once_in(2);
            let rhs = if gated { Expr::call("n", vec![when(v("x"), "c")]) } else { when(v("x"), "c") };
            let p = sheet::project(vec![], vec![plain("n", &[], &["a"], vec![eq("a", rhs)])]);
            let mut names = names_of(&p);
            let most = 16370 + r.below(17);
            let mut letters: usize = names.iter().map(|n| n.len()).sum();
            let mut k = 0;
            while letters + 64 <= most {
                names.push(long_name(k + 100, 32));
                letters += 32;
                k += 1;
            }
            let rest = most - letters;
            for part in [rest / 2, rest - rest / 2] {
                names.push(long_name(k + 100, part));
                k += 1;
            }
            sheet_with(&p, names)
        }
        17 => {
            // T at its limit: 12 tokens and more around the equations, 5 to an equation.
            let n = 4096 + past;
            let mut nodes = Vec::new();
            let mut have = 2;
            let mut k = 0;
            while have + 7 <= n && nodes.len() < 15 {
                let mut d = node(&format!("n{k}"), NodeKind::Operator, vec![], vec![], vec![], vec![]);
                have += 7;
                while have + 7 + 64 <= n && d.equations.len() < 64 {
                    let items: Vec<Expr> = (0..60).map(|_| v("x")).collect();
                    d.equations.push(eq("y", Expr::Array { items }));
                    have += 64;
                }
                nodes.push(d);
                k += 1;
            }
            let last = nodes.last_mut().unwrap();
            let mut rest = n - have;
            if rest % 2 == 1 && rest >= 3 {
                last.equations.push(eq("y", v("x")));
                rest -= 3;
            }
            while rest >= 2 {
                last.probes.push(Probe { label: "p".into(), var: "x".into() });
                rest -= 2;
            }
            sheet_of(&sheet::project(vec![], nodes))
        }
        _ => {
            // A start count, or left names, out of range.
            let p = sheet::project(vec![], vec![plain("n", &["y"], &[], vec![eq("y", Expr::fold("f", int(0), v("x")))])]);
            let names = names_of(&p);
            let mut tokens = sheet::tokens(&p, &sheet::ids(&names), 8192).unwrap();
            let at = tokens.iter().position(|t| t.0 == 71).unwrap();
            if past == 1 {
                tokens[at + 1].1 = 2;
            } else {
                tokens[at - 2].1 = 0;
            }
            sheet::bytes(&names, &tokens)
        }
    }
}

/// Types that reach themselves, or whose defaults are large.
fn hostile(r: &mut Random) -> Vec<u8> {
    let used = |ty: Type| {
        let mut d = plain("n", &[], &["a", "b"], vec![eq("a", when(v("x"), "c")), eq("b", Expr::call("f", vec![when(v("x"), "c")]))]);
        d.locals[0].ty = ty.clone();
        let f = node("f", NodeKind::Operator, i32s(&["i"]), vec![("o".into(), ty)], vec![], vec![]);
        vec![f, d]
    };
    let chain = |n: usize, fields: usize, bottom: TypeDef| {
        let mut types: Vec<TypeDef> = (0..n - 1)
            .map(|k| record(&format!("T{k}"), (0..fields).map(|i| (format!("f{i}"), named(&format!("T{}", k + 1)))).collect()))
            .collect();
        types.push(bottom);
        types
    };
    let types = match r.below(9) {
        0 | 1 => {
            // A graph at random, often with a cycle.
            let n = 1 + r.below(6);
            (0..n)
                .map(|k| {
                    let name = format!("T{}", if r.once_in(8) { 0 } else { k });
                    let to = |r: &mut Random| {
                        let t = named(&format!("T{}", r.below(n + 1)));
                        if r.once_in(3) {
                            array(r.below(3) as u32, t)
                        } else {
                            t
                        }
                    };
                    match r.below(4) {
                        0 => enumeration(&name, &["Red"]),
                        1 => {
                            let target = to(r);
                            alias(&name, target)
                        }
                        2 => {
                            let fields = (0..1 + r.below(2)).map(|i| (format!("f{i}"), to(r))).collect();
                            record(&name, fields)
                        }
                        _ => record(&name, vec![("f0".into(), Type::Bool)]),
                    }
                })
                .collect()
        }
        2 => vec![alias("T0", named("T0"))],
        3 => chain(16, 60, enumeration("T15", if r.once_in(2) { &[] } else { &["Red"] })),
        4 => {
            let n = 2 + r.below(4);
            let bottom = enumeration(&format!("T{}", n - 1), if r.once_in(3) { &[] } else { &["Red"] });
            let fields = 1 + r.below(4);
            chain(n, fields, bottom)
        }
        5 => {
            // Aliases in a row.
            let n = 1 + r.below(31);
            let mut t: Vec<TypeDef> = (0..n).map(|k| alias(&format!("T{k}"), named(&format!("T{}", k + 1)))).collect();
            t.push(record(&format!("T{n}"), if r.once_in(2) { vec![] } else { vec![("f".into(), Type::Char)] }));
            t
        }
        6 => {
            // Arrays over arrays, through names; a length of 0 may stand among them.
            let n = 1 + r.below(4);
            let mut t: Vec<TypeDef> = (0..n)
                .map(|k| {
                    let len = *r.pick(&[0, 1, 2, 16, 256]);
                    alias(&format!("T{k}"), array(len, named(&format!("T{}", k + 1))))
                })
                .collect();
            t.push(enumeration(&format!("T{n}"), if r.once_in(3) { &[] } else { &["Red", "Green"] }));
            t
        }
        7 => {
            let deep = (0..8).fold(Type::Int32, |t, _| array(*r.pick(&[0, 1, 2, 256]), t));
            vec![alias("T0", deep)]
        }
        _ => vec![enumeration("T0", &["Red"]), enumeration("T0", &[]), record("T1", vec![("f".into(), named("T0"))])],
    };
    let of = named(&format!("T{}", if r.once_in(4) { r.below(types.len()) } else { 0 }));
    let ty = if r.once_in(4) { array(*r.pick(&[0, 1, 2, 256]), of) } else { of };
    let nodes = if r.once_in(6) { vec![] } else { used(ty) };
    sheet_of(&sheet::project(types, nodes))
}

/// Clocks of about eight conditions, formed in several ways.
fn deep(r: &mut Random) -> Vec<u8> {
    let n = 6 + r.below(5);
    let name = |r: &mut Random| r.pick(&["u", "w", "c"]).to_string();
    let mut e = v("x");
    for _ in 0..n {
        let c = if r.once_in(3) { name(r) } else { "u".into() };
        e = match r.below(12) {
            0 => Expr::when(add(e, int(1)), c, true),
            1 => Expr::when(Expr::pre(e), c, false),
            _ => Expr::when(e, c, !r.once_in(4)),
        };
    }
    let mut eqs = match r.below(6) {
        0 => vec![eq("p", Expr::when(v("q"), "c", true)), eq("q", v("p"))],
        1 => (0..n).map(|k| eq(&format!("l{k}"), when(v(&if k == 0 { "x".into() } else { format!("l{}", k - 1) }), "u"))).collect(),
        2 => vec![eq("a", (0..n).fold(v("x"), |e, k| Expr::merge(if k % 2 == 0 { "u" } else { "w" }, when(e, "u"), int(0))))],
        3 => vec![eq("a", (0..n).fold(int(1), |e, _| Expr::merge("u", e, int(0))))],
        4 => vec![eq("a", Expr::merge("u", e, int(0))), eq("b", v("a"))],
        _ => vec![eq("a", e), eq("b", v("a"))],
    };
    if r.once_in(3) {
        eqs.reverse();
    }
    if r.once_in(4) {
        eqs.push(eq("y", Expr::if_then_else(v("x"), v("x"), (0..n).fold(int(1), |e, _| when(e, "u")))));
    }
    let locals: Vec<String> = ["a", "b", "p", "q"].iter().map(|s| s.to_string()).chain((0..n).map(|k| format!("l{k}"))).collect();
    let locals: Vec<&str> = locals.iter().map(|s| s.as_str()).collect();
    let mut d = plain("deep", &["y"], &locals, eqs);
    d.inputs.truncate(1 + r.below(2));
    let mut nodes = vec![d];
    if r.once_in(2) {
        nodes.insert(0, plain("first", &["y"], &["a"], vec![eq("a", when(v("x"), "c"))]));
    }
    let p = sheet::project(vec![], nodes);
    if r.once_in(5) {
        return long_sheet_of(r, &p);
    }
    sheet_of(&p)
}

/// Many clocks in one node: flags past ten, names that are prefixes of each other, names already taken.
fn many(r: &mut Random) -> Vec<u8> {
    let most = if r.once_in(4) { 40 } else { 12 };
    let n = 2 + r.below(most);
    let conditions = ["u", "u_", "uA", "u1", "u11", "up", "U", "c", "d"];
    let (mut eqs, mut locals) = (Vec::new(), Vec::new());
    // Each local with its clock, so that later ones can stand below it.
    let mut made: Vec<(String, Vec<(String, bool)>)> = vec![("x".into(), vec![])];
    for k in 0..n {
        let name = format!("l{k}");
        let (from, mut clock) = r.pick(&made).clone();
        let mut e = v(&from);
        for _ in 0..1 + r.below(2) {
            if clock.len() < 5 {
                let c = r.pick(&conditions[..if clock.is_empty() { 9 } else { 7 }]).to_string();
                let on = !r.once_in(3);
                e = Expr::when(e, c.clone(), on);
                clock.push((c, on));
            }
        }
        let rhs = match r.below(8) {
            0 => Expr::arrow(e.clone(), Expr::pre(v(&name))),
            1 => Expr::pre(e),
            2 => Expr::arrow(e.clone(), Expr::pre(e)),
            3 => add(e, Expr::pre(v(&name))),
            4 => Expr::call("many", vec![e]),
            5 => Expr::arrow(int(0), Expr::pre(Expr::arrow(e.clone(), Expr::pre(e)))),
            _ => e,
        };
        let ty = if r.once_in(8) { array(2, Type::Int32) } else { Type::Int32 };
        eqs.push(eq(&name, rhs));
        locals.push((name.clone(), ty));
        made.push((name, clock));
    }
    for taken in ["__ck0", "__ck3", "__ck10", "__first0", "__first1", "__hold0", "__hold2"] {
        if r.once_in(5) {
            locals.push((taken.into(), Type::Bool));
        }
    }
    r.shuffle(&mut eqs);
    let inputs = declared(&[("x", Type::Int32), ("c", Type::Bool), ("d", Type::Bool)]);
    let d = node("many", NodeKind::Operator, inputs, i32s(&["y"]), locals, eqs);
    let mut nodes = vec![d];
    if r.once_in(4) {
        let mut p = sheet::project(vec![], nodes);
        change(r, &mut p);
        nodes = std::mem::take(&mut p.packages[0].nodes);
    }
    if r.once_in(4) {
        nodes.push(plain("after", &[], &["a"], vec![eq("a", Expr::call("many", vec![Expr::arrow(when(v("x"), "c"), int(1))]))]));
    }
    sheet_of(&sheet::project(vec![], nodes))
}

/// Outputs about the limit of 8,192 tokens.
fn large(r: &mut Random) -> Vec<u8> {
    let mut d = plain("n", &[], &["a"], vec![]);
    // The rest of the output is about 50 tokens; the defaults make up what is left.
    match r.below(4) {
        0 => {
            // a : array(256) of array(k) of Bool, a second to hit the limit exactly.
            d.locals[0].ty = array(256, array(29, Type::Bool));
            d.equations.push(eq("a", when(v("x"), "c")));
            d.locals.push(Local { name: "b".into(), ty: array(256 - r.below(200) as u32, Type::Bool) });
            d.equations.push(eq("b", when(v("x"), "c")));
        }
        1 => {
            let n = 24 + r.below(16);
            for k in 0..n {
                let name = format!("l{k}");
                d.equations.push(eq(&name, when(v("x"), "c")));
                d.locals.push(Local { name, ty: array(255 - r.below(3) as u32, Type::Char) });
            }
        }
        2 => {
            // Exactly at the limit, or one or two off: the size without the second default is measured first.
            d.locals[0].ty = array(256, array(29, Type::Bool));
            d.equations.push(eq("a", when(v("x"), "c")));
            d.locals.push(Local { name: "b".into(), ty: array(0, Type::Bool) });
            d.equations.push(eq("b", when(v("x"), "c")));
            let p = sheet::project(vec![], vec![d.clone()]);
            if let Rewritten::Accepted(out) = answer::rewrite(&sheet_of(&p), u64::MAX, Way::Best) {
                let t = u32::from_le_bytes(out[8..12].try_into().unwrap());
                d.locals[1].ty = array(8192 + r.below(4) as u32 - 1 - t, Type::Bool);
            }
        }
        _ => {
            // Many gated calls of an operator with many outputs.
            let outs: Vec<(String, Type)> = (0..60).map(|k| (format!("o{k}"), array(r.below(3) as u32, Type::Int32))).collect();
            let f = node("f", NodeKind::Operator, vec![], outs, vec![], vec![]);
            let n = 20 + r.below(60);
            let items: Vec<Expr> = (0..n.min(64)).map(|_| Expr::call("f", vec![])).collect();
            d.equations.push(eq("a", when(Expr::Array { items: vec![v("x")] }, "c")));
            d.equations.push(eq("a", Expr::Array { items: std::iter::once(when(v("x"), "c")).chain(items.into_iter().skip(1)).collect() }));
            let faulty = r.once_in(8);
            let mut nodes = vec![f, d];
            if faulty {
                nodes.push(plain("late", &["y"], &[], vec![eq("y", when(v("x"), "c"))]));
            }
            return sheet_of(&sheet::project(vec![], nodes));
        }
    }
    let mut nodes = vec![d];
    if r.once_in(6) {
        // 10 comes before 11.
        nodes.push(plain("late", &["y"], &[], vec![eq("y", when(v("x"), "c"))]));
    }
    sheet_of(&sheet::project(vec![], nodes))
}

/// Small sheets made for one fault each.
fn faulty(r: &mut Random) -> Vec<u8> {
    let xc = || when(v("x"), "c");
    let types = vec![enumeration("Empty", &[]), record("Pair", vec![("l".into(), Type::Int32), ("r".into(), named("Empty"))])];
    let bad = r.pick(&[named("Empty"), named("Pair"), named("None"), array(0, named("Empty")), array(2, named("Pair"))]).clone();
    let f = |outs: Vec<(String, Type)>| node("f", NodeKind::Operator, i32s(&["i"]), outs, vec![], vec![]);
    let two = |rhs: Expr| Equation { lhs: vec!["a".into(), "b".into()], rhs };
    let mut d = plain("n", &["y"], &["a", "b"], vec![]);
    let mut nodes = vec![];
    match r.below(14) {
        0 => d.equations.push(eq("y", xc())),
        1 => d.equations.push(eq("a", add(xc(), v("x")))),
        2 => d.equations.push(eq("y", add(v("x"), xc()))),
        3 => d.equations.push(eq("a", when(xc(), "c"))),
        4 => d.equations.push(eq("q", xc())),
        5 => {
            d.locals[0].ty = bad;
            d.equations.push(eq("a", xc()));
        }
        6 => {
            nodes.push(f(vec![("o".into(), Type::Bool), ("p".into(), bad)]));
            d.equations.push(eq("a", Expr::call("f", vec![xc()])));
        }
        7 => d.equations.push(two(Expr::Tuple { items: vec![xc(), xc()] })),
        8 => d.equations.push(eq("a", Expr::pre(add(xc(), xc())))),
        9 => {
            // Several left names of a call that is not gated.
            d.locals[1].ty = bad;
            d.equations.push(two(Expr::call("g", vec![xc()])));
        }
        10 => {
            d.equations.push(Equation { lhs: vec!["a".into(), "q".into()], rhs: Expr::call("g", vec![xc()]) });
        }
        11 => d.equations.push(eq("a", Expr::pre(Expr::Index { base: Box::new(xc()), index: Box::new(int(0)) }))),
        12 => {
            d.locals[0].ty = bad;
            d.equations.push(eq("a", Expr::pre(when(Expr::call("f", vec![v("x")]), "c"))));
        }
        _ => d.equations.push(eq("a", Expr::merge("c", when(when(v("x"), "d"), "c"), Expr::when(xc(), "c", false)))),
    }
    if r.once_in(2) {
        d.equations.push(eq("b", when(v("x"), "c")));
    }
    if r.once_in(3) {
        d.equations.insert(0, eq("y", v("x")));
    }
    nodes.push(d);
    if r.once_in(3) {
        for k in 0..1 + r.below(4) {
            let e = if r.once_in(3) { v("x") } else { xc() };
            let at = r.below(nodes.len() + 1);
            nodes.insert(at, plain(&format!("other{k}"), &["y"], &[], vec![eq("y", e)]));
        }
    }
    sheet_of(&sheet::project(types, nodes))
}

/// A sheet of a kind.
pub fn sheet(r: &mut Random, kind: &str) -> Vec<u8> {
    match kind {
        "known" => {
            let all = known();
            r.pick(&all).1.clone()
        }
        "right" => {
            let depth = 1 + r.below(4);
            let p = rich(r, false, depth);
            if r.once_in(30) {
                return long_sheet_of(r, &p);
            }
            sheet_of(&p)
        }
        "near" => {
            let depth = 1 + r.below(3);
            let wild = r.once_in(2);
            let mut p = rich(r, wild, depth);
            for _ in 0..1 + r.below(2) {
                change(r, &mut p);
            }
            sheet_of(&p)
        }
        "damaged" => {
            let base = if r.once_in(3) {
                let all = known();
                r.pick(&all).1.clone()
            } else if r.once_in(5) {
                let b = if r.once_in(2) { at_limit(r) } else { hostile(r) };
                if b.len() < 4000 {
                    b
                } else {
                    known()[0].1.clone()
                }
            } else {
                let depth = 1 + r.below(3);
                sheet_of(&rich(r, false, depth))
            };
            if sheet::read(&base).is_ok() {
                damage(r, &base)
            } else {
                base
            }
        }
        "limit" => at_limit(r),
        "types" => hostile(r),
        "deep" => deep(r),
        "large" => large(r),
        "fault" => faulty(r),
        "many" => many(r),
        other => panic!("unknown kind {other}"),
    }
}

/// A question about a sheet: mostly rewriting, with enough bytes lent.
pub fn question(r: &mut Random, sheet: Vec<u8>) -> Question {
    let plenty = 1 << 20;
    match r.below(10) {
        0..=4 => Question::Rewrite { lent: plenty, sheet },
        5 => {
            // Bytes lent about the number needed.
            let needed = match answer::rewrite(&sheet, 0, Way::Best) {
                Rewritten::Refused(Refused(12, n), _) => n,
                _ => 100,
            };
            let lent = match r.below(4) {
                0 => needed,
                1 => needed.saturating_sub(1),
                2 => needed + 1,
                _ => r.below(needed as usize + 1) as u64,
            };
            Question::Rewrite { lent, sheet }
        }
        6 | 7 => {
            let nodes = answer::all_clocks(&sheet).map_or(2, |all| all.len());
            let node = if r.once_in(12) { *r.pick(&[nodes as u64, 16, 1 << 33]) } else { r.below(nodes.max(1)) as u64 };
            Question::Clocks { node, sheet }
        }
        _ => {
            // Mostly a node that has a fault.
            let faults = match answer::rewrite(&sheet, plenty, Way::Best) {
                Rewritten::Refused(_, faults) => faults,
                _ => vec![],
            };
            let node = if faults.is_empty() || r.once_in(12) {
                *r.pick(&[0, 0, 1, 2, 3, 17])
            } else {
                r.pick(&faults).node as u64
            };
            let fault = *r.pick(&[0, 0, 0, 0, 0, 0, 1, 1, 2, 3, 1 << 40]);
            let lent = *r.pick(&[plenty, plenty, plenty, plenty, 804, 0, 20, 60, 100, 150]);
            Question::Text { node, fault, lent, sheet }
        }
    }
}
