#!/usr/bin/env python3
"""Writes arithmetic.txt and arithmetic.out: `python3 arithmetic.py`."""
from words import Text, ap

t = Text("arithmetic", """Arithmetic, and roles that nobody holds. arithmetic.py writes this text.
Each call's comment says what it shows and, after the colon, the answer: read-out; steps, rows. These are worked out by hand from the document's rules; oracle/model.py, which wrote arithmetic.out, agrees.""")

t.block("""ARITHMETIC. "Arithmetic role with exactly two arguments: both reduce to numbers, first then second .. sub stops at 0; div by 0 is 0; mod by 0 is the dividend". The answer is one row.""")
s0, s1, v0, v1 = t.s(0), t.s(1), t.v(0), t.v(1)
f = t.c(0)
t.decl("f, an axiom")
OPS = {name: t.decl(name, role=name) for name in "add sub mul div mod beq ble".split()}
TRUE, FALSE = t.decl("true", kind=1, role="true"), t.decl("false", kind=1, role="false")
ZERO, SUCC = t.decl("zero", kind=1, role="zero"), t.decl("succ", kind=1, role="succ", second=1)
t.decl("mod2, a definition of 7", value=t.n(7))
t.context(None, None, t.n(3), t.n(5))
t.set(fill=900, steps=100, nesting=3)
def of(op, a, b): return t.at(t.c(OPS[op]), a if not isinstance(a, int) else t.n(a), b if not isinstance(b, int) else t.n(b))
W, TOP = 2**32, 2**64 - 1
for op, a, b, answer, why in (
        ("add", 2, 3, 5, "two small numbers"), ("add", 0, 0, 0, "the least"), ("add", W - 1, 1, W, "from the low word into the high one"),
        ("add", TOP, 0, TOP, "the largest"), ("add", TOP - 1, 1, TOP, "the largest, by a step"),
        ("sub", 3, 2, 1, "two small numbers"), ("sub", 2, 3, 0, "\"sub stops at 0\""), ("sub", 3, 3, 0, "equal"), ("sub", W, 1, W - 1, "from the high word"),
        ("sub", 1, TOP, 0, "the largest taken from 1"),
        ("mul", 7, 6, 42, "two small numbers"), ("mul", 0, TOP, 0, "by 0"), ("mul", 65536, 65536, W, "into the high word"),
        ("mul", W - 1, W - 1, 18446744065119617025, "the square of 2^32 - 1"), ("mul", W + 1, W - 1, TOP, "the largest, as a product"), ("mul", 2**63, 1, 2**63, "by 1"),
        ("div", 7, 2, 3, "with a remainder"), ("div", 7, 0, 0, "\"div by 0 is 0\""), ("div", 0, 0, 0, "0 by 0"), ("div", TOP, W, W - 1, "the high word"),
        ("div", 2, 3, 0, "by a larger one"), ("div", TOP, TOP, 1, "by itself"),
        ("mod", 7, 2, 1, "a remainder"), ("mod", 7, 0, 7, "\"mod by 0 is the dividend\""), ("mod", TOP, W, W - 1, "the low word"), ("mod", 2, 3, 2, "by a larger one"), ("mod", 6, 3, 0, "none")):
    t.ask(f"{op} {a} {b}, {why}", of(op, a, b), f"n{answer}", 1, 1)
for op, a, b, answer, why in (
        ("beq", 2, 2, TRUE, "equal"), ("beq", 2, 3, FALSE, "not equal"), ("beq", 1, W + 1, FALSE, "equal in the low word alone"), ("beq", TOP, TOP, TRUE, "equal in both"),
        ("ble", 2, 3, TRUE, "below"), ("ble", 3, 3, TRUE, "equal"), ("ble", 3, 2, FALSE, "above"), ("ble", 2, W, TRUE, "the high word decides"), ("ble", W, 2, FALSE, "the high word decides")):
    t.ask(f"{op} {a} {b}, {why}: the constant, 0 levels", of(op, a, b), f"c{answer}", 1, 1)
for op, a, b in (("add", TOP, 1), ("add", TOP, TOP), ("mul", 2**63, 2), ("mul", W, W), ("mul", TOP, TOP)):
    t.refused(f"{op} {a} {b} is over 2^64 - 1", of(op, a, b), 7)
t.ask("the arguments reduce: 6, 4, then 10; one row each", of("add", of("mul", 2, 3), of("sub", 5, 1)), "n10", 3, 3)
t.ask("an argument that unfolds: a step, no row", of("add", t.c(12), 1), "n8", 2, 1)
t.ask("the role alone decides: levels are given", t.at(t.c(OPS["add"], 5), t.n(2), t.n(3)), "n5", 1, 1)
six = of("mul", 2, 3)
t.final("the first argument is no number: the second, which is a redex, is not tried", of("add", f, six), ap("c1", "c0", ap("c3", "n2", "n3")))
second = of("add", six, f)
t.ask("the second is no number: the first one's step and row stay, \"the pointer it had\"", second, ap("c1", ap("c3", "n2", "n3"), "c0"), 1, 1, (second.row, 0))
t.final("the constant zero is no number", of("add", t.c(ZERO), 1), ap("c1", f"c{ZERO}", "n1"))
t.final("succ of a number is no number, and no redex", of("add", t.at(t.c(SUCC), t.n(1)), 1), ap("c1", ap(f"c{SUCC}", "n1"), "n1"))
t.final("an applied number is no number", of("add", t.at(t.n(1), s0), 1), ap("c1", ap("n1", "s0"), "n1"))
t.set(nesting=0)
t.final("one argument: no level is entered", t.at(t.c(1), t.n(2)))
t.final("three arguments", t.at(of("add", 2, 3), s0), ap("c1", "n2", "n3", "s0"))
t.final("none", t.c(1))
t.refused("two: a level is asked for, though both are numbers", of("add", 2, 3), 6)
t.set(depth=4, nesting=1)
t.ask("variable 0 := 5, variable 1 := 3: three steps", of("sub", v0, v1), "n2", 3, 1)
t.ask("the same the other way round", of("sub", v1, v0), "n0", 3, 1)
t.final("variable 2 has no value, and the second is not tried", of("sub", v0, v1).up(2), ap("c2", "v2", "v3"))
t.ask("(add v0 2) shifted 1: variable 1", of("add", v0, 2).up(1), "n5", 2, 1)

t.block("ROLES THAT NOBODY HOLDS: zero, succ, false and Quot.mk. \"beq and ble are tried only if roles true and false are held\"; a number becomes zero or succ \"if that role is held, else stays\".")
s0 = t.s(0)
f = t.c(0)
t.say(f"rule 4 0 {f.row} 0")
t.decl("f, an axiom")
t.decl("beq", role="beq")
t.decl("ble, with a value, f", role="ble", value=f)
t.decl("a recursor with a rule for 4", kind=2, rules=1)
t.decl("true", kind=1, role="true")
t.decl("Quot.lift", role="Quot.lift")
t.decl("add", role="add")
t.set(fill=90, steps=100)
t.final("beq without false: not tried, no level is asked for", t.at(t.c(1), t.n(2), t.n(2)))
t.ask("ble likewise, and then its value: two applications", t.at(t.c(2), t.n(2), t.n(2)), ap("c0", "n2", "n2"), 1, 2)
t.set(nesting=1)
t.final("0 stays a number: no row", t.at(t.c(3), t.n(0)))
t.final("so does 2", t.at(t.c(3), t.n(2)))
t.ask("the rule is for 4", t.at(t.c(3), t.c(4)), "c0", 1, 0)
t.set(nesting=2)
big = t.at(t.c(5), s0, s0, s0, f, s0, t.at(t.c(6), t.n(2), t.n(3)))
t.ask("Quot.lift reduces its major though nobody holds Quot.mk: the step and the row stay", big, ap("c5", "s0", "s0", "s0", "c0", "s0", ap("c6", "n2", "n3")), 1, 1, (big.row, 0))
t.set(nesting=0)
t.refused(".. and asks for a level", big, 6)
t.done()
