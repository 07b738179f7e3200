"""Whether a node without faults is plain, in document 01's sense; a local without a clock is taken for not settled."""
from .runs import CONDACT, OPERATOR


def parts(e):
    """An expression and all below it."""
    yield e
    for operand in e.operands:
        yield from parts(operand)


def reads(e):
    """The names that an expression reads, clock names among them."""
    return [p.value for p in parts(e) if p.form in ('var', 'when', 'when-not', 'merge')]


def clocked_names(node):
    """Ports, and the locals whose right sides have a when or a name with a clock."""
    found = {name for name, _ in node.inputs + node.outputs}
    grown = True
    while grown:
        grown = False
        for equation in node.equations:
            has = any(p.form in ('when', 'when-not') or p.form in ('var', 'merge') and p.value in found for p in parts(equation.right))
            if has and not found.issuperset(equation.lefts):
                found.update(equation.lefts)
                grown = True
    return found


def why_not_plain(sheet, node, clocks):
    """The first reason why a node is not plain, or None; `clocks` are those of its equations."""
    inputs = [name for name, _ in node.inputs]
    declared = inputs + [name for name, _ in node.outputs + node.locals]
    lefts = [name for equation in node.equations for name in equation.lefts]
    all_parts = [p for equation in node.equations for p in parts(equation.right)]
    undeclared = [n for equation in node.equations for n in reads(equation.right) if n not in declared]
    operators = [n.name for n in sheet.nodes if n.kind == OPERATOR]
    if len(set(declared)) < len(declared):
        return 'a name is declared twice'
    if sorted(lefts) != sorted(n for n in declared if n not in inputs):
        return 'an output or local is not defined exactly once, or another name is'
    if not clocked_names(node).issuperset(declared):
        return 'a local has no clock'
    if any(p.form == 'call' and p.value == CONDACT for p in all_parts) or any(n.name == CONDACT for n in sheet.nodes):
        return 'condact is called, or is a node'
    if any(len(q.lefts) > 1 and clock and q.right.form != 'call' for q, clock in zip(node.equations, clocks)):
        return 'on a clock, several left names stand before what is no call'
    if any(p.form in ('map', 'fold') and p.value in operators for p in all_parts):
        return 'a map or fold is over an operator'
    if any(n.startswith('__') for n in undeclared):
        return 'an undeclared name begins with two underscores'
    return None
