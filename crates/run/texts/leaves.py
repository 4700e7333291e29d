#!/usr/bin/env python3
"""Writes leaves.txt and leaves.out: `python3 leaves.py`."""
from words import Text, Ptr, ap, JUNK

t = Text("leaves", """What a call leaves: the mark, the scratch's words, the records; and `again`. leaves.py writes this text.
"After 4 to 11 the used mark is the old one and scratch words from it to the end are 0. On a term, words past the new mark are untouched. .. reduction writes no record." After 1, 2 and 3 everything is as lent. Each call's comment says which words stand in the scratch after it, row by row; leaves.py holds them, written by hand, and takes the sums of them, which are equal to those of oracle/model.py, which wrote leaves.out. J is a row of nine words 4294967295 as `fill` gives it, Z a row of nine zeros; the other rows are named by their terms.""")
J, Z = [JUNK] * 9, [0] * 9
def row(kind, *words, bound=0, height=1): return [kind, *words, *[0] * (6 - len(words)), bound, height]
class Run:
    """The words that stand in scratch and context, by hand."""
    context = []
    def left(self, *rows): return [w for r in rows for w in r], self.context
r = Run()
def names(rows, known):
    out = [next((n for n, w in known.items() if w == x), "?") for x in rows]
    return " ".join(out) or "nothing"
known = {"J": J, "Z": Z}
def term(why, p, reads, steps, n, rows, at=None):
    t.ask(f"{why}. Scratch: {names(rows, known)}", p, reads, steps, n, at, r.left(*rows))
def refused(why, p, number, rows, place=0):
    t.refused(f"{why}. Scratch: {names(rows, known)}", p, number, place, r.left(*rows))
def again(why, reads, steps, n, rows, at=None):
    t.again(f"{why}. Scratch: {names(rows, known)}", reads, steps, n, at, r.left(*rows))
def again_no(why, number, rows):
    t.again_refused(f"{why}. Scratch: {names(rows, known)}", number, r.left(*rows))

t.block("""ROWS AND REFUSALS. Depth 1, and two spare records of junk, which no call touches. F1 is the row (f s1); A is scratch row 0 applied to s0, B is scratch row 1 applied to s0; N5 is the number 5.""")
s0, s1, v0 = t.s(0), t.s(1), t.v(0)
f = t.c(0)
t.decl("f, an axiom")
t.decl("add", role="add")
t.decl("mul", role="mul")
fs = t.at(t.lam(s0, t.at(f, v0)), s1)
fss = t.at(fs, s0)
ids = t.at(t.lam(s0, v0), s1)
five = t.at(t.c(1), t.n(2), t.n(3))
big = t.at(t.c(2), t.n(2**63), t.n(2))
L = t.lib
t.context(None)
t.asks.append("spare 10")
r.context = [0] * 5 + [JUNK] * 10
F1 = row(3, f.row, 0, s1.row, 0, height=2)
N5 = row(8, 5, 0)
known |= {"F1": F1, "N5": N5}
def A(below): return row(3, L + below, 0, s0.row, 0, height=3)
known |= {"B": A(1), "A": A(0)}
term("an empty scratch: both sums start at 1, and the context's goes on", s1, "s1", 0, 0, [])
t.set(depth=1)
refused("a refusal in an empty scratch", ids, 4, [])
t.set(fill=36, steps=1, nesting=1)
term("four rows of junk, a term without a row", ids, "s1", 1, 0, [J, J, J, J])
term("a row: the other three are untouched", fs, ap("c0", "s1"), 1, 1, [F1, J, J, J], (L, 0))
term("two rows more, from the mark on", fss, ap("c0", "s1", "s0"), 1, 2, [F1, F1, A(1), J], (L + 2, 0))
refused("the term is out of scope: 3, as lent", v0.up(1), 3, [F1, F1, A(1), J])
t.set(depth=4)
refused("the depth is past the end: 1, as lent", s1, 1, [F1, F1, A(1), J])
t.set(depth=1, mark=9)
refused("the mark is past the end: 1, as lent, and it stays 9", s1, 1, [F1, F1, A(1), J])
t.set(mark=4)
refused("the fourth row is junk, and below the mark: 2, as lent", s1, 2, [F1, F1, A(1), J], L + 3)
t.set(mark=3)
refused("two rows are due and one is free: 5. It was written, and is zero now; the three below the mark stay", fss, 5, [F1, F1, A(1), Z])
term("the mark is still 3: the row comes fourth", five, "n5", 1, 1, [F1, F1, A(1), N5], (L + 3, 0))
refused("the mark is at the end: nothing is zeroed", five, 5, [F1, F1, A(1), N5])
t.set(mark=2)
term("a lower mark: rows past it are free, and untouched where nothing is written", ids, "s1", 1, 0, [F1, F1, A(1), N5])
term("one is written, the next is untouched", five, "n5", 1, 1, [F1, F1, N5, N5], (L + 2, 0))
t.set(mark=1, steps=0)
refused("4: \"from it to the end\", rows of earlier calls too", ids, 4, [F1, Z, Z, Z])
t.set(fill=9)
term("a final term after it: zeros and new junk are left as they are", f, "c0", 0, 0, [F1, Z, Z, Z, J])
t.set(nesting=0)
refused("6: the new junk is zero, too", five, 6, [F1, Z, Z, Z, Z])
t.set(fill=9, steps=1, nesting=1)
refused("7", big, 7, [F1, Z, Z, Z, Z, Z])
t.set(fill=9)
term("a row over the zeros", fs, ap("c0", "s1"), 1, 1, [F1, F1, Z, Z, Z, Z, J], (L + 1, 0))
t.set(mark=0, steps=0)
refused("4 at mark 0: everything", fs, 4, [Z] * 7)
t.set(steps=1)
term("and from the start again", fss, ap("c0", "s1", "s0"), 1, 2, [F1, A(0), Z, Z, Z, Z, Z], (L + 1, 0))
t.set(mark=3)
refused("a row of zeros is none (kind 0, index 0 has bound 1): 2, as lent", s1, 2, [F1, A(0), Z, Z, Z, Z, Z], L + 2)

t.block("""THE ORDER OF ROWS. "children in field order, bodies at c + 1, then the new row". The value is v0, shifted up by the binders crossed. Fi is the row (f v0^i); V, P and Q name the rows that the comment says.""")
s0, v0, v1, v2 = t.s(0), t.v(0), t.v(1), t.v(2)
f = t.c(0)
t.decl("f, an axiom")
fv0, fv1, fv2 = t.at(f, v0), t.at(f, v1), t.at(f, v2)
pi = t.at(t.lam(s0, t.pi(fv0, fv1)), v0)
let = t.at(t.lam(s0, t.pi(s0, t.let(fv1, fv1, fv2))), v0)
more = t.at(t.lam(s0, t.at(v1, v0)), s0, v0, s0)
t.context(None)
r.context = [0] * 5
L = t.lib
def F(i): return row(3, f.row, 0, v0.row, i, bound=i + 1, height=2)
V = row(6, L, 0, L + 1, 0, L + 2, 0, bound=2, height=3)
P1 = row(5, L, 0, L + 1, 0, bound=1, height=3)
Q = row(5, s0.row, 0, L + 3, 0, bound=1, height=4)
known = {"J": J, "Z": Z, "F0": F(0), "F1": F(1), "F2": F(2), "V": V, "P": P1, "Q": Q}
t.set(fill=54, steps=1, depth=1)
term("the pi P: its type F0, its body F1, then itself", pi, "(pi (@ c0 v0) (@ c0 v1))", 1, 3, [F(0), F(1), P1, J, J, J], (L + 2, 0))
t.set(mark=0)
term("the pi Q of the let V: type and value F1, written twice though they are one row, body F2, V, Q; the sixth is untouched", let,
     "(pi s0 (let (@ c0 v1) (@ c0 v1) (@ c0 v2)))", 1, 5, [F(1), F(1), F(2), V, Q, J], (L + 4, 0))
X = [row(0, 0, bound=1), row(3, L, 0, s0.row, 0, bound=1, height=2), row(3, L + 1, 0, v0.row, 0, bound=1, height=3), row(3, L + 2, 0, s0.row, 0, bound=1, height=4)]
known |= {"X0": X[0], "X1": X[1], "X2": X[2], "X3": X[3]}
t.set(mark=0)
term("(lambda. v1 v0) s0 v0 s0: X0 is the moved v0, X1 = X0 s0, then the remaining arguments, X2 = X1 v0 and X3 = X2 s0; two rows of the call before are untouched", more,
     ap("v0", "s0", "v0", "s0"), 1, 4, X + [Q, J], (L + 3, 0))

t.block("""AGAIN on a final term answers itself (docs/DECISIONS.md, R8). A stuck recursor pays for its side reductions again: here 3 rows, succ 1, each time. S is the row of succ, N1 of 1, Mi the application written after scratch rows i and i + 1, which it names; N4 and N5 are numbers.""")
s0, s1, v0 = t.s(0), t.s(1), t.v(0)
f = t.c(0)
t.say(f"rule 1 0 {f.row} 0")
t.decl("f, an axiom")
t.decl("zero", kind=1, role="zero")
t.decl("succ", kind=1, role="succ", second=1)
t.decl("a recursor without a rule for succ", kind=2, rules=1)
t.decl("add", role="add")
stuck = t.at(t.c(3), t.n(2))
sum_ = t.at(t.c(4), t.n(2), t.n(3))
stuck5 = t.at(t.c(3), sum_)
L = t.lib
r.context = []
S, N1, N4, N5 = row(2, 2, 0), row(8, 1, 0), row(8, 4, 0), row(8, 5, 0)
def M(at): return row(3, L + at, 0, L + at + 1, 0, height=2)
known = {"J": J, "Z": Z, "S": S, "N1": N1, "N4": N4, "N5": N5, "M0": M(0), "M1": M(1), "M3": M(3), "M6": M(6), "M9": M(9)}
t.set(fill=72, nesting=2)
P = (stuck.row, 0)
Q = ap("c3", "n2")
term("eight free rows", stuck, Q, 0, 3, [S, N1, M(0), J, J, J, J, J], P)
again("the same pointer, 3 rows more", Q, 0, 3, [S, N1, M(0), S, N1, M(3), J, J], P)
again_no("two rows are left, \"free rows are those that are left\": 5, and they are zero", 5, [S, N1, M(0), S, N1, M(3), Z, Z])
term("after a refusal the term has to be named; with the mark at 6 two rows are free: a final term", f, "c0", 0, 0, [S, N1, M(0), S, N1, M(3), Z, Z])
t.set(fill=9)
term("`fill` gives the third", stuck, Q, 0, 3, [S, N1, M(0), S, N1, M(3), S, N1, M(6)], P)
t.set(fill=27)
again("`fill` before `again` gives three more", Q, 0, 3, [S, N1, M(0), S, N1, M(3), S, N1, M(6), S, N1, M(9)], P)
t.set(mark=0, steps=1)
term("mark 0; the major is add 2 3: its step and row, then succ 4", stuck5, ap("c3", ap("c4", "n2", "n3")), 1, 4, [N5, S, N4, M(1), N1, M(3), S, N1, M(6), S, N1, M(9)], (stuck5.row, 0))
t.set(mark=0)
again("again from mark 0: the same words, the same step", ap("c3", ap("c4", "n2", "n3")), 1, 4, [N5, S, N4, M(1), N1, M(3), S, N1, M(6), S, N1, M(9)], (stuck5.row, 0))
t.set(mark=0, steps=0)
again_no("without a step: 4, and all is zero", 4, [Z] * 12)

t.block("""AGAIN, "with lists and numbers as they now stand". Records: 0 without a value, 1 := sort 1, 2 := v0 (shifted 1 it is variable 1).""")
s0, s1, v0, v1 = t.s(0), t.s(1), t.v(0), t.v(1)
f = t.c(0)
t.decl("f, an axiom")
t.context(None, s1, v0)
r.context = [0] * 5 + [0, 0, s1.row, 0, 1] + [0, 0, v0.row, 0, 1]
known = {"J": J, "Z": Z}
fv = t.at(t.lam(s0, t.at(f, v0)), v0)
FV = row(3, f.row, 0, v0.row, 0, bound=1, height=2)
L = t.lib
known |= {"FV": FV}
t.set(fill=18, steps=10, depth=1)
term("at depth 1 variable 0 is final", v0, "v0", 0, 0, [J, J], (v0.row, 0))
again("again: itself", "v0", 0, 0, [J, J], (v0.row, 0))
t.set(depth=2)
again("at depth 2 it is record 1", "s1", 1, 0, [J, J], (s1.row, 0))
again("its answer is final", "s1", 0, 0, [J, J], (s1.row, 0))
t.set(depth=3)
term("at depth 3 it is record 2, and then record 1", v0, "s1", 2, 0, [J, J])
t.set(depth=1)
term("f v0, a row (FV)", fv, ap("c0", "v0"), 1, 1, [FV, J], (L, 0))
t.set(depth=2)
again("at depth 2 the same pointer, f applied to another variable 0", ap("c0", "v0"), 0, 0, [FV, J], (L, 0))
t.set(steps=0)
again("without steps: nothing is due", ap("c0", "v0"), 0, 0, [FV, J], (L, 0))
t.set(depth=0)
again_no("at depth 0 it is out of scope: 3, as lent", 3, [FV, J])

t.block("""AGAIN with a longer library and with a lower mark: scratch rows are numbered after library rows, so the same number names another row. G is the row (f s1) as it is written, after the library.""")
s0, s1, v0 = t.s(0), t.s(1), t.v(0)
f = t.c(0)
t.decl("f, an axiom")
lam = t.lam(s0, t.at(f, v0))
redex = t.at(lam, s1)
L = t.lib
r.context = []
G = row(3, f.row, 0, s1.row, 0, height=2)
known = {"J": J, "Z": Z, "G": G}
t.set(fill=18, steps=1)
term("one row", redex, ap("c0", "s1"), 1, 1, [G, J], (L, 0))
t.asks.append("lib 1 9 0 0 0 0 0 0 1")
again("the library has a row more, sort 9, of the number that the answer had", "s9", 0, 0, [G, J], (L, 0))
term("the scratch row has the next number", Ptr(L + 1, 0, 0, 2, ""), ap("c0", "s1"), 0, 0, [G, J], (L + 1, 0))
t.set(mark=0)
again_no("with mark 0 it is no row any more: 3, as lent", 3, [G, J])
t.done()
