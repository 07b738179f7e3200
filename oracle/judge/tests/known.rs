//! The sheets K1 to K12 as document 01 words them.
use judge::answer::{clocks, rewrite, text, Rewritten, Way};
use judge::generate::known;
use judge::sheet::read;
use judge::Refused;
use ol_ir::expr::Expr;
use ol_ir::node::NodeDef;

fn sheets(name: &str) -> Vec<Vec<u8>> {
    known().into_iter().filter(|(n, _)| *n == name).map(|(_, b)| b).collect()
}
fn sheet(name: &str) -> Vec<u8> {
    sheets(name).remove(0)
}
fn rewritten(bytes: &[u8]) -> Vec<u8> {
    match rewrite(bytes, u64::MAX, Way::Both) {
        Rewritten::Accepted(out) => out,
        refused => panic!("{refused:?}"),
    }
}
fn last_node(bytes: &[u8]) -> NodeDef {
    read(bytes).unwrap().nodes().last().unwrap().clone()
}
fn equation(node: &NodeDef, left: &str) -> Expr {
    node.equations.iter().find(|e| e.lhs[0] == left).unwrap().rhs.clone()
}
fn v(name: &str) -> Expr {
    Expr::var(name)
}
fn pre(e: Expr) -> Expr {
    Expr::pre(e)
}
fn firsts(bytes: &[u8]) -> Vec<(usize, u8, usize)> {
    match rewrite(bytes, u64::MAX, Way::Both) {
        Rewritten::Refused(Refused(10, 0), faults) => faults.iter().map(|f| (f.node, f.fault, f.equation)).collect(),
        other => panic!("{other:?}"),
    }
}

#[test]
fn k1() {
    let node = last_node(&rewritten(&sheet("K1")));
    let lefts: Vec<&str> = node.equations.iter().map(|e| e.lhs[0].as_str()).collect();
    assert_eq!(lefts, ["__ck0", "__first0", "a", "y"]);
    assert_eq!(equation(&node, "__ck0"), v("c"));
    assert_eq!(
        equation(&node, "__first0"),
        Expr::arrow(Expr::bool_lit(true), Expr::and(pre(v("__first0")), Expr::not(pre(v("__ck0")))))
    );
    let sum = Expr::bin(ol_ir::expr::BinOp::Add, pre(v("a")), v("x"));
    let running = Expr::if_then_else(v("__first0"), v("x"), sum);
    let held = Expr::arrow(Expr::int_lit(0), pre(v("a")));
    assert_eq!(equation(&node, "a"), Expr::if_then_else(v("__ck0"), running, held));
    assert_eq!(equation(&node, "y"), Expr::if_then_else(v("c"), v("a"), Expr::int_lit(0)));
    assert_eq!(clocks(&sheet("K1"), 0).unwrap().listing, "start 2 2 1\n0 base/c+\n1 base\nchain base/c+\n");
}

#[test]
fn as_they_came() {
    for k in ["K2", "K3"] {
        assert_eq!(rewritten(&sheet(k)), sheet(k));
    }
    assert_eq!(sheet("K2").len(), 22);
    assert_eq!(rewrite(&sheet("K12"), u64::MAX, Way::Both), Rewritten::Refused(Refused(3, 0), vec![]));
    rewritten(&sheet("K4"));
}

#[test]
fn passes() {
    assert_eq!(clocks(&sheet("K5"), 0).unwrap().passes, 4);
    let k6 = clocks(&sheet("K6"), 0).unwrap();
    assert_eq!(k6.passes, 3);
    assert_eq!(k6.faults.iter().map(|f| (f.fault, f.equation)).collect::<Vec<_>>(), [(1, 0), (4, 0)]);
    assert_eq!(firsts(&sheet("K6")), [(0, 1, 0)]);
}

#[test]
fn holds_and_flags() {
    let node = last_node(&rewritten(&sheet("K7")));
    assert_eq!(equation(&node, "__hold0"), Expr::if_then_else(v("__ck0"), v("x"), pre(v("__hold0"))));
    assert_eq!(firsts(&sheet("K8")), [(0, 9, 0)]);
    assert_eq!(
        text(&sheet("K8"), 0, 0, u64::MAX, Way::Both).unwrap(),
        "cannot determine the type of a clocked `pre` operand"
    );
    assert_eq!(equation(&last_node(&rewritten(&sheet("K9"))), "__ck1"), v("c"));
}

#[test]
fn eight_conditions() {
    let all = sheets("K10");
    rewritten(&all[0]);
    assert_eq!(rewrite(&all[1], u64::MAX, Way::Both), Rewritten::Refused(Refused(9, 0), vec![]));
    assert_eq!(clocks(&all[1], 0), Err(Refused(9, 0)));
}

#[test]
fn gated_call() {
    for k11 in sheets("K11") {
        let call = Expr::call("f", vec![v("x")]);
        let gated = Expr::call("condact", vec![v("__ck0"), call, Expr::int_lit(0), Expr::int_lit(0)]);
        assert_eq!(equation(&last_node(&rewritten(&k11)), "a"), gated);
    }
}
