#!/usr/bin/env python3
"""Writes the sheets that are measured to a folder, one file each, and a list of them.

usage: sheets.py FOLDER [GENERATE]

GENERATE is the judge's program `generate` (oracle/README.md); without it the sheets that are drawn at random are left out.
The same bytes come out each time. `list.txt` in the folder has a line for each sheet: its class, its file, what it is, and
`endless` where the Rust would build a default that no machine can hold.
The class `growth` has each kind of sheet in four sizes.
"""
import os
import struct
import subprocess
import sys

TYPES, NODES, COUNT, NAME, HIGH = 1, 2, 3, 4, 5
ENUM, RECORD, ALIAS = 10, 11, 12
BOOL, INT32, ARRAY_TYPE, NAMED = 20, 23, 32, 33
NODE, KIND = 40, 41
TRUE, INT, VAR, UNARY, BINARY, IF, PRE, ARROW, CALL = 50, 51, 54, 55, 56, 57, 58, 59, 60
TUPLE, WHEN, WHEN_NOT, MERGE = 63, 67, 68, 69
FUNCTION, OPERATOR = 0, 1
ADD = 10
MOST_TOKENS = 4096


class Names:
    """Names in a fixed order, or in order of first use."""

    def __init__(self, first=()):
        self.list, self.ids = [], {}
        for n in first:
            self.id(n)

    def id(self, name):
        if name not in self.ids:
            self.ids[name] = len(self.list)
            self.list.append(name)
        return self.ids[name]


def flat(parts):
    """Tokens of nested lists of tokens."""
    out = []
    for p in parts:
        if isinstance(p, tuple):
            out.append(p)
        else:
            out.extend(flat(p))
    return out


def sheet(names, tokens):
    tokens = [t if len(t) == 2 else (t[0], 0) for t in flat(tokens)]
    tokens = [(tag, names.id(v) if isinstance(v, str) else v) for tag, v in tokens]
    letters = "".join(names.list).encode()
    assert len(names.list) <= 1024 and len(letters) <= 16384 and 2 <= len(tokens) <= MOST_TOKENS, (
        len(names.list), len(letters), len(tokens))
    assert all(1 <= len(n) <= 32 for n in names.list)
    out = struct.pack("<III", len(names.list), len(letters), len(tokens))
    out += bytes(len(n) for n in names.list) + letters
    out += bytes(t for t, _ in tokens)
    return out + b"".join(struct.pack("<I", v) for _, v in tokens)


# Parts of a sheet, as nested lists of tokens.
def var(n):
    return [(VAR, n)]


def int_(n):
    return [(INT, n), (HIGH, 0)]


def add(a, b):
    return [(BINARY, ADD), a, b]


def total(terms):
    """The sum of terms, half and half."""
    if len(terms) == 1:
        return terms[0]
    k = len(terms) // 2
    return add(total(terms[:k]), total(terms[k:]))


def pre(e):
    return [(PRE,), e]


def arrow(a, b):
    return [(ARROW,), a, b]


def when(e, *clocks):
    """e under each name, the first the innermost."""
    for c in clocks:
        e = [(WHEN, c), e]
    return e


def merge(c, a, b):
    return [(MERGE, c), a, b]


def tuple_(items):
    assert len(items) <= 64
    return [(TUPLE,), (COUNT, len(items)), items]


def eq(left, right):
    left = [left] if isinstance(left, str) else left
    return [(COUNT, len(left)), [(NAME, n) for n in left], right]


def declared(pairs):
    return [(COUNT, len(pairs)), [[(NAME, n), t] for n, t in pairs]]


def node(name, inputs, outputs, locals_, equations, kind=OPERATOR):
    assert len(equations) <= 64 and len(inputs) + len(outputs) + len(locals_) <= 128
    return [(NODE, name), (KIND, kind), declared(inputs), declared(outputs), declared(locals_),
            (COUNT, len(equations)), equations, (COUNT, 0)]


def project(types, nodes):
    return [(TYPES, len(types)), types, (NODES, len(nodes)), nodes]


def size(tokens):
    return len(flat(tokens))


def name(stem, k, letters):
    """A name of so many letters whose end tells k."""
    digits = str(k)
    return stem + "_" * (letters - len(stem) - len(digits)) + digits


I32, BOOLT = [(INT32,)], [(BOOL,)]


def k1(label="start", x="x", c="c", y="y", a="a"):
    return node(label, [(x, I32), (c, BOOLT)], [(y, I32)], [(a, I32)],
                [eq(a, arrow(when(var(x), c), add(pre(var(a)), when(var(x), c)))), eq(y, merge(c, var(a), int_(0)))])


def small():
    return sheet(Names(["start", "x", "c", "y", "a"]), project([], [k1()]))


def empty():
    return sheet(Names(), project([], []))


def counter_node(label, n, terms):
    """n counters like K1's, each on its own clock, with so many terms more in all."""
    inputs = [("x", I32)] + [(f"c{k}", BOOLT) for k in range(n)]
    outputs = [(f"y{k}", I32) for k in range(n)]
    locals_ = [(f"a{k}", I32) for k in range(n)]
    equations = []
    for k in range(n):
        c, a = f"c{k}", f"a{k}"
        more = terms // n + (k < terms % n)
        e = total([pre(var(a))] + [when(var("x"), c)] * (1 + more))
        equations.append(eq(a, arrow(when(var("x"), c), e)))
        equations.append(eq(f"y{k}", merge(c, var(a), int_(0))))
    return node(label, inputs, outputs, locals_, equations)


def counters(most=MOST_TOKENS):
    """A counter like K1's for each 128 tokens in one node, each on its own clock, their sums filled up."""
    n = most // 128
    terms = (most - 2 - size(counter_node("start", n, 0))) // 3
    return sheet(Names(), project([], [counter_node("start", n, terms)]))


def counters_nodes():
    """16 nodes of two such counters, filled up likewise."""
    terms = ((MOST_TOKENS - 2) // 16 - size(counter_node("start", 2, 0))) // 3
    return sheet(Names(), project([], [counter_node(f"start{k}", 2, terms) for k in range(16)]))


def plain(most=MOST_TOKENS):
    """Without a clock: an equation for each 64 tokens, sums of names, then a tuple that fills up."""
    n = most // 64
    outputs = [(f"y{k}", I32) for k in range(n)]
    def made(fill):
        equations = []
        for k in range(n - 1):
            e = var("x")
            for i in range(28):
                e = add(e, var(f"y{(k + i) % n}"))
            equations.append(eq(f"y{k}", e))
        equations.append(eq(f"y{n - 1}", tuple_([tuple_([var("x")] * n) for n in fill])))
        return project([], [node("full", [("x", I32)], outputs, [], equations)])
    return sheet(Names(), made(fill_up(made, most)))


def fill_up(made, most):
    """Lengths of tuples inside one tuple such that the whole has so many tokens."""
    room = most - size(made([]))
    lengths = []
    while room >= 2:
        n = min(64, room - 2)
        lengths.append(n)
        room -= n + 2
    assert len(lengths) <= 64
    return lengths


def reverse(most=MOST_TOKENS):
    """64 equations in reverse order of dependence, each a tuple of undeclared names and then the next local: 65 passes."""
    p = [name("p", k, 31) for k in range(64)]
    cs = [name("c", k, 32) for k in range(8)]
    def made(total):
        equations = []
        for k in range(63):
            n = total // 63 + (k < total % 63)
            equations.append(eq(p[k], tuple_([var("u")] * n + [var(p[k + 1])])))
        equations.append(eq(p[63], when(var("u"), *cs)))
        return project([], [node("reverse", [], [], [(n, I32) for n in p], equations)])
    room = most - size(made(0))
    return sheet(Names(), made(min(room, 63 * 63)))


def reverse_settled():
    """The same over a local that never has a clock, so that it is a left name: 64 passes."""
    p = [name("p", k, 31) for k in range(63)]
    cs = [name("c", k, 32) for k in range(8)]
    def made(total):
        equations = [eq("z", [(TRUE, 1)])]
        for k in range(62):
            n = total // 62 + (k < total % 62)
            equations.append(eq(p[k], tuple_([var("z")] * n + [var(p[k + 1])])))
        equations.append(eq(p[62], when(var("z"), *cs)))
        return project([], [node("reverse", [], [], [("z", BOOLT)] + [(n, I32) for n in p], equations)])
    room = MOST_TOKENS - size(made(0))
    return sheet(Names(), made(min(room, 62 * 63)))


def reverse_sums():
    """The same with sums, 29 deep, for tuples: 65 passes."""
    p = [name("p", k, 31) for k in range(64)]
    cs = [name("c", k, 32) for k in range(8)]
    equations = []
    for k in range(63):
        e = var(p[k + 1])
        for _ in range(28):
            e = add(var("u"), e)
        equations.append(eq(p[k], e))
    equations.append(eq(p[63], when(var("u"), *cs)))
    return sheet(Names(), project([], [node("reverse", [], [], [(n, I32) for n in p], equations)]))


def most_that_fit(made, most):
    """The largest number with which what is made has at most so many tokens."""
    n = 1
    while size(made(n + 1)) <= most:
        n += 1
    return n


DIGITS = "zyxwvutsrqponmlkjihgfedcbaZYXWVUTSRQPONMLKJIHGFEDCBA"


def falling_names(n):
    """Names of 16 letters, 14 in common, in falling order."""
    return [("a" * 14) + DIGITS[k // 32] + DIGITS[k % 32] for k in range(n)]


def letters_down(k, letters, stem=""):
    """Names of so many letters that fall in order and differ in the last letters only."""
    digits = "zyxwvutsrqponmlkjihgfedcba"
    end = ""
    for _ in range(3):
        end = digits[k % 26] + end
        k //= 26
    return (stem + "a" * letters)[: letters - 3] + end


def chains_wide(most=MOST_TOKENS, letters=18):
    """Seven nested merges, then as many merges of two sites as fit: chains of eight conditions, met in falling order."""
    def made(n):
        items = [merge(letters_down(k, letters, "e"), pre(var("u")), pre(var("u"))) for k in range(n)]
        rows = [tuple_(items[k: k + 64]) for k in range(0, n, 64)]
        e = tuple_(rows)
        for k in range(7):
            e = merge(name("m", k, 32), e, var("u"))
        return project([], [node("chains", [], [("y", I32)], [], [eq("y", e)])])
    return sheet(Names(), made(most_that_fit(made, most)))


def chains_passes(most=MOST_TOKENS, equations=41, letters=3):
    """Tuples of merges of two sites and the next local, in reverse order: chains of eight conditions and many passes."""
    p = [f"p{k}" for k in range(equations + 1)]
    cs = [name("c", k, 8) for k in range(7)]
    def made(total):
        eqs, met = [], 0
        for k in range(equations):
            n = total // equations + (k < total % equations)
            items = [merge(letters_down(met + i, letters, "e"), pre(var("u")), pre(var("u"))) for i in range(n)]
            met += n
            eqs.append(eq(p[k], tuple_(items + [var(p[k + 1])])))
        eqs.append(eq(p[equations], when(var("u"), *cs)))
        return project([], [node("chains", [], [], [(n, I32) for n in p], eqs)])
    return sheet(Names(), made(most_that_fit(made, most)))


def faults(most=MOST_TOKENS, chained=31):
    """One local on a clock of eight conditions, used on another one wherever there is room, after chained equations."""
    p = [name("p", k, 31) for k in range(chained + 1)]
    a = [name("a", k, 32) for k in range(8)]
    b = [name("b", k, 32) for k in range(8)]
    def nots(e, cs):
        for c in cs:
            e = [(WHEN_NOT, c), e]
        return e
    def made(fill):
        eqs = [eq(p[k], var(p[k + 1])) for k in range(chained)]
        eqs.append(eq(p[chained], nots(var("u"), a)))
        eqs.append(eq("q", tuple_([nots(var("u"), b), tuple_([tuple_([var(p[0])] * n) for n in fill])])))
        return project([], [node("faulty", [], [], [(n, I32) for n in p + ["q"]], eqs)])
    return sheet(Names(), made(fill_up(made, most)))


def names_down(most=MOST_TOKENS):
    """A name for each four tokens, and an equation for each 64, 31 deep: 1,024 names and 64 equations."""
    n = most // 4
    names = Names(falling_names(n))
    ns = names.list
    ports = min(27, most // 64)
    outputs = [(ns[k], I32) for k in range(ports)]
    eqs = []
    for k in range(most // 64):
        e = var(ns[(31 * k) % n])
        for i in range(30):
            e = add(e, var(ns[(31 * k + i + 1) % n]))
        eqs.append(eq(ns[k % ports], e))
    return sheet(names, project([], [node(ns[n - 1], [], outputs, [], eqs)]))


def faulty_nodes(equations=20):
    """16 faulty nodes, their equations in reverse order of dependence, and 1,024 names of 16 letters, 14 in common."""
    names = Names(falling_names(1024))
    ns = names.list
    def made(k, total):
        y, u, *p = ns[32 * k: 32 * k + 2 + equations]
        eqs = [eq(y, var(p[0]))]
        for i in range(equations - 1):
            n = total // (equations - 1) + (i < total % (equations - 1))
            eqs.append(eq(p[i], tuple_([var(u)] * n + [var(p[i + 1])])))
        eqs.append(eq(p[-1], when(var(u), *ns[1000:1008])))
        return node(ns[600 + k], [], [(y, I32)], [(n, I32) for n in p], eqs)
    total = (MOST_TOKENS - 2) // 16 - size(made(0, 0))
    return sheet(names, project([], [made(k, total) for k in range(16)]))


def names_down_clocked():
    """1,024 names of 16 letters, 14 in common, in falling order, used as clocks: compared while chains are ordered."""
    names = Names(falling_names(1024))
    ns = names.list
    def made(n):
        items = [merge(ns[k], pre(var(ns[1023])), pre(var(ns[1023]))) for k in range(n)]
        rows = [tuple_(items[k: k + 64]) for k in range(0, n, 64)]
        return project([], [node(ns[1023], [], [(ns[1022], I32)], [], [eq(ns[1022], tuple_(rows))])])
    return sheet(names, made(most_that_fit(made, MOST_TOKENS)))


def records(count, fields, last):
    """Records each of whose fields is of the next type, with as many names and letters as a sheet may have."""
    types, met = [], 0
    for k in range(count):
        t = [(NAMED, name("R", k + 1, 15))] if k + 1 < count else last
        row = [[(NAME, name("f", (met + i) % 960, 16)), t] for i in range(fields)]
        met += fields
        types.append([(RECORD, name("R", k, 15)), (COUNT, fields), row])
    return types


def types_read():
    """31 records of 64 fields, each of the next type; no node uses them on a clock."""
    return sheet(Names(), project(records(31, 64, I32), [k1()]))


def types_past():
    """31 records of 64 fields, each of the next type: the default of a clocked local of the first passes every limit."""
    eqs = [eq("a", when(var("x"), "c")), eq("y", merge("c", int_(0), int_(0)))]
    return sheet(Names(), project(records(31, 64, I32), [
        node("start", [("x", I32), ("c", BOOLT)], [("y", I32)], [("a", [(NAMED, name("R", 0, 15))])], eqs)]))


def types_deep():
    """32 records of one field, each of the next type, and 64 clocked locals of the first: deep defaults within the limits."""
    locals_ = [(f"a{k}", [(NAMED, name("R", 0, 15))]) for k in range(64)]
    eqs = [eq(f"a{k}", when(var("x"), "c")) for k in range(64)]
    return sheet(Names(), project(records(32, 1, I32), [node("start", [("x", I32), ("c", BOOLT)], [], locals_, eqs)]))


def types_square():
    """Two records, 8 fields of 8 numbers, after 30 that nobody uses; clocked locals of the first, up to the output's limit."""
    idle = [[(RECORD, f"S{k}"), (COUNT, 48), [[(NAME, f"f{i}"), I32] for i in range(48)]] for k in range(29)]
    outer = [(RECORD, "O"), (COUNT, 8), [[(NAME, f"f{i}"), [(NAMED, "N")]] for i in range(8)]]
    inner = [(RECORD, "N"), (COUNT, 8), [[(NAME, f"f{i}"), I32] for i in range(8)]]
    n = 22
    locals_ = [(f"a{k}", [(NAMED, "O")]) for k in range(n)]
    eqs = [eq(f"a{k}", when(var("x"), "c")) for k in range(n)]
    return sheet(Names(), project(idle + [outer, inner], [node("start", [("x", I32), ("c", BOOLT)], [], locals_, eqs)]))


def output_array(lengths):
    """A clocked local of nested arrays of Bool: a small sheet with a large output."""
    ty = BOOLT
    for n in lengths:
        ty = [(ARRAY_TYPE, n), ty]
    eqs = [eq("a", when(var("x"), "c")), eq("y", merge("c", int_(0), int_(0)))]
    return sheet(Names(), project([], [node("start", [("x", I32), ("c", BOOLT)], [("y", I32)], [("a", ty)], eqs)]))


def output_flags(n):
    """So many merges of two `->`: two first-tick flags and two activation flags each."""
    items = [merge(letters_down(k, 4, "e"), arrow(var("u"), var("u")), arrow(var("u"), var("u"))) for k in range(n)]
    rows = [tuple_(items[k: k + 64]) for k in range(0, n, 64)]
    return sheet(Names(), project([], [node("flags", [], [("y", I32)], [], [eq("y", tuple_(rows))])]))


def output_flags_deep(n):
    """The same under seven nested merges: chains of eight conditions."""
    items = [merge(letters_down(k, 4, "e"), arrow(var("u"), var("u")), arrow(var("u"), var("u"))) for k in range(n)]
    e = tuple_([tuple_(items[k: k + 64]) for k in range(0, n, 64)])
    for k in range(7):
        e = merge(f"m{k}", e, var("u"))
    return sheet(Names(), project([], [node("flags", [], [("y", I32)], [], [eq("y", e)])]))


def output_holds(n):
    """So many `pre (x when c)`, each held in a new local."""
    items = [pre(when(var("x"), "c")) for k in range(n)]
    e = tuple_([tuple_(items[k: k + 64]) for k in range(0, n, 64)])
    return sheet(Names(), project([], [node("holds", [("x", I32), ("c", BOOLT)], [], [("a", I32)], [
        eq("a", when(var("x"), "c")), eq("b", merge("c", e, int_(0)))])]))


def output_calls(n):
    """So many calls of an operator on a clock, gated by condact."""
    callee = node("f", [("i", I32)], [("o", I32)], [], [eq("o", pre(var("i")))])
    items = [[(CALL, "f"), (COUNT, 1), when(var("x"), "c")] for k in range(n)]
    e = tuple_([tuple_(items[k: k + 64]) for k in range(0, n, 64)])
    return sheet(Names(), project([], [callee, node("calls", [("x", I32), ("c", BOOLT)], [("y", I32)], [], [
        eq("y", merge("c", e, int_(0)))])]))


def drawn(generate, kind, seed, count):
    """The sheets of so many generated questions."""
    text = subprocess.run([generate, str(seed), str(count), kind], check=True, capture_output=True, text=True).stdout
    return [b"" if line.split()[-1] == "-" else bytes.fromhex(line.split()[-1]) for line in text.splitlines()]


def middle(sheets):
    sheets = sorted(sheets, key=lambda s: (len(s), s))
    return sheets[len(sheets) // 2]


# Of these the Rust cannot be asked for the rewriting.
ENDLESS = ["the same, a clocked local of the first", "a clocked local of 256 arrays of 256 Bools, eight deep"]

CLASSES = [
    ("empty", "K2, two tokens", empty),
    ("small", "K1", small),
    ("largest", "32 counters like K1's, each on its own clock", counters),
    ("largest", "16 nodes of two such counters", counters_nodes),
    ("largest", "4,096 tokens without a clock", plain),
    ("hostile passes", "64 equations in reverse order of dependence", reverse),
    ("hostile passes", "the same, tuples of a local that never has a clock", reverse_settled),
    ("hostile passes", "the same, sums 29 deep of undeclared names", reverse_sums),
    ("hostile chains", "merges of two sites under seven merges", chains_wide),
    ("hostile chains", "merges of two sites, 41 equations in reverse order", chains_passes),
    ("hostile faults", "one local used on another clock, 31 chained equations", faults),
    ("hostile faults", "16 faulty nodes of 21 equations, 1,024 names with 14 letters in common", faulty_nodes),
    ("hostile names", "1,024 names with 14 letters in common, 64 equations 31 deep", names_down),
    ("hostile names", "1,024 names with 14 letters in common, used as clocks", names_down_clocked),
    ("hostile types", "31 records of 64 fields, each of the next type, unused", types_read),
    ("hostile types", "the same, a clocked local of the first", types_past),
    ("hostile types", "32 records of one field, 64 clocked locals of the first", types_deep),
    ("hostile types", "22 clocked locals of a record of 8 records of 8 numbers", types_square),
    ("output limit", "a clocked local of 63 arrays of 127 Bools", lambda: output_array([127, 63])),
    ("output limit", "a clocked local of 256 arrays of 256 Bools, eight deep", lambda: output_array([256] * 8)),
    ("output limit", "a clocked local of 256 arrays of 256 Bools: refused", lambda: output_array([256, 256])),
    ("output limit", "two-sided merges of `->`: flags", lambda: output_flags(181)),
    ("output limit", "the same under seven merges", lambda: output_flags_deep(165)),
    ("output limit", "holds", lambda: output_holds(736)),
    ("output limit", "gated calls", lambda: output_calls(1001)),
]

GROWTH = [
    ("counters like K1's", counters),
    ("no clock", plain),
    ("64 equations in reverse order", reverse),
    ("chains", chains_wide),
    ("chains, 41 equations in reverse order", chains_passes),
    ("faults", faults),
    ("names", names_down),
]
SIZES = [512, 1024, 2048, 4096]

DRAWN = [
    ("median", "the median of 1,001 generated that are clocked right", "right", 1, 1001),
    ("median", "the median of 1,001 generated that are nearly right", "near", 2, 1001),
]


def main():
    if len(sys.argv) not in (2, 3) or sys.argv[1].startswith("-"):
        sys.stderr.write(__doc__)
        sys.exit(2)
    folder = sys.argv[1]
    os.makedirs(folder, exist_ok=True)
    made = [(c, what, make()) for c, what, make in CLASSES]
    if len(sys.argv) == 3:
        for c, what, kind, seed, count in DRAWN:
            made.insert(2, (c, what, middle(drawn(sys.argv[2], kind, seed, count))))
    for what, make in GROWTH:
        for most in SIZES:
            made.append(("growth", what, make(most)))
    with open(os.path.join(folder, "list.txt"), "w") as lines:
        for k, (c, what, data) in enumerate(made):
            file = f"{k:02d}-{c.replace(' ', '-')}.sheet"
            with open(os.path.join(folder, file), "wb") as out:
                out.write(data)
            lines.write(f"{c}|{file}|{what}|{'endless' if what in ENDLESS else ''}\n")


if __name__ == "__main__":
    main()
