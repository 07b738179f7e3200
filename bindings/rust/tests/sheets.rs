//! The wrapper on the sheets of document 01: K1 is rewritten, K6 has a fault, and each refusal that a few bytes can call forth.
use declock::{Clock, Condition, Counts, Fault, Refusal};

/// A sheet of names and tokens (tag and value).
fn sheet(names: &[&str], tokens: &[(u8, u32)]) -> Vec<u8> {
    let letters: usize = names.iter().map(|n| n.len()).sum();
    let mut bytes = Vec::new();
    for size in [names.len(), letters, tokens.len()] {
        bytes.extend((size as u32).to_le_bytes());
    }
    bytes.extend(names.iter().map(|n| n.len() as u8));
    bytes.extend(names.iter().flat_map(|n| n.bytes()));
    bytes.extend(tokens.iter().map(|t| t.0));
    bytes.extend(tokens.iter().flat_map(|t| t.1.to_le_bytes()));
    bytes
}

const BOOL: u8 = 20;
const INT32: u8 = 23;

/// A sheet's tokens with one operator: name 0, with inputs x, which is name 1 and an Int32, and c, name 2 and a Bool; outputs and locals
/// are names with their types, equations a left name and the tokens of a right side.
fn operator(
    outputs: &[(u32, u8)],
    locals: &[(u32, u8)],
    equations: &[(u32, &[(u8, u32)])],
) -> Vec<(u8, u32)> {
    let inputs = [(1, INT32), (2, BOOL)];
    let mut tokens = vec![(1, 0), (2, 1), (40, 0), (41, 1)];
    for declared in [&inputs, outputs, locals] {
        tokens.push((3, declared.len() as u32));
        tokens.extend(declared.iter().flat_map(|(id, of)| [(4, *id), (*of, 0)]));
    }
    tokens.push((3, equations.len() as u32));
    for (left, right) in equations {
        tokens.extend([(3, 1), (4, *left)]);
        tokens.extend(*right);
    }
    tokens.push((3, 0));
    tokens
}

/// K1: `a = (x when c) -> (pre a + (x when c))`, `y = merge(c; a, 0)`.
fn k1() -> Vec<u8> {
    let a = [
        (59, 0),
        (67, 2),
        (54, 1),
        (56, 10),
        (58, 0),
        (54, 4),
        (67, 2),
        (54, 1),
    ];
    let y = [(69, 2), (54, 4), (51, 0), (5, 0)];
    sheet(
        &["start", "x", "c", "y", "a"],
        &operator(&[(3, INT32)], &[(4, INT32)], &[(4, &a), (3, &y)]),
    )
}

/// K1 rewritten, in which __ck0 is 5 and __first0 is 6.
fn k1_rewritten() -> Vec<u8> {
    let ck = [(54, 2)];
    let first = [
        (59, 0),
        (50, 1),
        (56, 0),
        (58, 0),
        (54, 6),
        (55, 0),
        (58, 0),
        (54, 5),
    ];
    let a = [
        (57, 0),
        (54, 5),
        (57, 0),
        (54, 6),
        (54, 1),
        (56, 10),
        (58, 0),
        (54, 4),
        (54, 1),
        (59, 0),
        (51, 0),
        (5, 0),
        (58, 0),
        (54, 4),
    ];
    let y = [(57, 0), (54, 2), (54, 4), (51, 0), (5, 0)];
    let locals = [(4, INT32), (5, BOOL), (6, BOOL)];
    let tokens = operator(
        &[(3, INT32)],
        &locals,
        &[(5, &ck), (6, &first), (4, &a), (3, &y)],
    );
    sheet(&["start", "x", "c", "y", "a", "__ck0", "__first0"], &tokens)
}

/// K6: `p = q when c`, `q = p`.
fn k6() -> Vec<u8> {
    sheet(
        &["k6", "x", "c", "p", "q"],
        &operator(
            &[],
            &[(3, INT32), (4, INT32)],
            &[(3, &[(67, 2), (54, 4)]), (4, &[(54, 3)])],
        ),
    )
}

/// A rewriting that must be refused, and leave the bytes and, but under 10, the list untouched.
fn refused(bytes: &[u8], lent: usize) -> Refusal {
    let untouched = Fault {
        node: 7,
        fault: 7,
        equation: 7,
    };
    let mut out = vec![0xa5; lent];
    let mut faults = [untouched; declock::FAULTS];
    let refusal = declock::rewrite(bytes, &mut out, &mut faults).expect_err("accepted");
    assert!(
        out.iter().all(|b| *b == 0xa5),
        "a byte was written under {refusal}"
    );
    assert!(
        faults.iter().skip(refusal.faulty).all(|f| *f == untouched),
        "a fault was written under {refusal}"
    );
    refusal
}

fn told(bytes: &[u8], lent: usize) -> (u32, usize, usize) {
    let r = refused(bytes, lent);
    (r.number, r.place, r.faulty)
}

#[test]
fn k1_is_rewritten() {
    let mut out = vec![0xa5; declock::OUT_BYTES];
    let n = declock::rewrite(&k1(), &mut out, &mut []).unwrap();
    assert_eq!(out[..n], k1_rewritten());
    assert!(out[n..].iter().all(|b| *b == 0xa5));
}

#[test]
fn as_many_bytes_as_needed_are_enough() {
    let needed = k1_rewritten().len();
    assert_eq!(told(&k1(), needed - 1), (12, needed, 0));
    assert_eq!(told(&k1(), 0), (12, needed, 0));
    assert_eq!(
        declock::rewrite(&k1(), &mut vec![0; needed], &mut []),
        Ok(needed)
    );
}

#[test]
fn k6_has_a_fault() {
    let mut faults = [Fault::default(); 2];
    let refusal = declock::rewrite(&k6(), &mut [], &mut faults).unwrap_err();
    assert_eq!(
        refusal,
        Refusal {
            number: 10,
            place: 0,
            faulty: 1
        }
    );
    assert_eq!(
        faults,
        [
            Fault {
                node: 0,
                fault: 1,
                equation: 0
            },
            Fault::default()
        ]
    );
    assert_eq!(declock::rewrite(&k6(), &mut [], &mut []), Err(refusal));
    let mut out = [0; declock::TEXT_BYTES];
    let n = declock::text(&k6(), 0, 0, &mut out).unwrap();
    let text = core::str::from_utf8(&out[..n]).unwrap();
    assert!(
        text.starts_with(
            "`p` is on clock `when c when c when c` but its defining equation runs on clock"
        ),
        "{text}"
    );
    assert_eq!(declock::text(&k6(), 0, 2, &mut out).unwrap_err().number, 8);
    assert_eq!(declock::text(&k6(), 1, 0, &mut out).unwrap_err().number, 8);
}

#[test]
fn clocks_of_k1() {
    let on_c = [Condition { name: 2, on: 1 }];
    let mut equations = [Clock::default(); 3];
    let mut chains = [Clock::default(); 2];
    let counts = declock::clocks(&k1(), 0, &mut equations, &mut chains, &mut []).unwrap();
    let expected = Counts {
        name: 0,
        passes: 2,
        equations: 2,
        chains: 1,
        faults: 0,
    };
    assert_eq!(counts, expected);
    assert_eq!(equations[0].conditions(), on_c);
    assert_eq!(equations[1].conditions(), []);
    assert_ne!(equations[1], Clock::default());
    assert_eq!(equations[2], Clock::default());
    assert_eq!(chains[0].conditions(), on_c);
    assert_eq!(chains[1], Clock::default());
}

#[test]
fn clocks_of_k6_have_two_faults() {
    let mut faults = [Fault::default(); 3];
    let counts = declock::clocks(&k6(), 0, &mut [], &mut [], &mut faults).unwrap();
    assert_eq!((counts.passes, counts.chains, counts.faults), (3, 0, 2));
    assert_eq!((faults[0].fault, faults[1].fault), (1, 4));
    assert_eq!(faults[2], Fault::default());
    let mut equations = [Clock::default(); 2];
    let refusal = declock::clocks(&k6(), 1, &mut equations, &mut [], &mut []).unwrap_err();
    assert_eq!((refusal.number, refusal.place), (8, 0));
    assert_eq!(equations, [Clock::default(); 2]);
}

#[test]
fn clocks_are_listed() {
    let expected = "start 2 2 1\n0 base/c+\n1 base\nchain base/c+\n";
    let mut out = [0; 4096];
    let n = declock::listing(&k1(), 0, &mut out).unwrap();
    assert_eq!(core::str::from_utf8(&out[..n]).unwrap(), expected);
    let n = declock::listings(&k1(), &mut out).unwrap();
    assert_eq!(core::str::from_utf8(&out[..n]).unwrap(), expected);
    let needed = Refusal {
        number: 12,
        place: expected.len(),
        faulty: 0,
    };
    assert_eq!(declock::listing(&k1(), 0, &mut []), Err(needed));
    assert_eq!(declock::listings(&k1(), &mut []), Err(needed));
    assert_eq!(declock::listing(&k1(), 1, &mut out).unwrap_err().number, 8);
}

#[test]
fn each_refusal_has_its_number_and_place() {
    let all = declock::OUT_BYTES;
    let changed = |at: usize, value: u8| {
        let mut bytes = k1();
        bytes[at] = value;
        bytes
    };
    let tokens = 12 + 5 + 9;
    assert_eq!(told(&[], all), (1, 0, 0));
    assert_eq!(told(&k1()[..11], all), (1, 0, 0));
    assert_eq!(told(&changed(1, 5), all), (2, 0, 0));
    assert_eq!(told(&changed(6, 1), all), (2, 1, 0));
    assert_eq!(told(&changed(9, 32), all), (2, 2, 0));
    assert_eq!(told(&[k1(), vec![0]].concat(), all), (3, 0, 0));
    assert_eq!(told(&changed(12, 4), all), (4, 5, 0));
    assert_eq!(told(&changed(18, b' '), all), (4, 0, 0));
    assert_eq!(told(&changed(tokens, 2), all), (5, 0, 0));
    assert_eq!(told(&sheet(&["t"], &[(1, 33), (2, 0)]), all), (6, 0, 0));
    assert_eq!(
        told(&sheet(&["t"], &[(1, 1), (12, 0), (33, 0), (2, 0)]), all),
        (7, 0, 0)
    );
    let mut nine: Vec<(u8, u32)> = vec![(67, 4); 9];
    nine.push((54, 1));
    assert_eq!(
        told(
            &sheet(
                &["k", "x", "c", "y", "d"],
                &operator(&[(3, INT32)], &[], &[(3, &nine)])
            ),
            all
        ),
        (9, 0, 0)
    );
    assert_eq!(told(&k6(), all), (10, 0, 1));
}

#[test]
fn a_refusal_is_told_in_words() {
    let refusal = refused(&[], 0);
    assert_eq!(refusal.to_string(), "refused 1 0: fewer than 12 bytes");
    let _: &dyn std::error::Error = &refusal;
}
