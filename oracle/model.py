#!/usr/bin/env python3
"""Document 01's reduction once more, in Python, from the document alone: the third opinion of the differential runs.

    oracle/model.py < TEXT          answers the text of a run as the program does (whnf; infer is not there)

It is written to be read beside the document, not to be quick. `quirks` are the Rust's known differences, by their numbers
in docs/DIFFERENCES.md: with them on, the model answers as the Rust does, so that a difference can be named. `fault` is the
name of a slip, for oracle/mutants. `fired` counts the rules that fired, and the ways in which they did not.
"""
import sys, threading
from collections import Counter

VAR, SORT, CONST, APP, LAM, PI, LET, PROJ, NUM = range(9)
# which fields are terms, as (word, binders above it)
TERMS = [[], [], [], [(1, 0), (3, 0)], [(1, 0), (3, 1)], [(1, 0), (3, 1)], [(1, 0), (3, 0), (5, 1)], [(1, 0)], []]
USED = [1, 1, 2, 4, 4, 4, 6, 4, 2]          # words in use after the kind
ROLES = ("none Nat zero succ true false Quot.mk Quot.lift Quot.ind add sub mul div mod beq ble").split()
NAT, ZERO, SUCC, TRUE, FALSE, MK, LIFT, IND, ADD, SUB, MUL, DIV, MOD, BEQ, BLE = range(1, 16)
PLAIN, CTOR, REC, STRUCT = range(4)
JUNK = 4294967295


class Refused(Exception):
    def __init__(self, number, place=0):
        self.number, self.place = number, place


class Store:
    """What is lent: five lists of words and four numbers. Rows are kept as tuples of nine words."""

    def __init__(self):
        self.lib, self.decl, self.rule, self.ctx, self.scr = [], [], [], [], []
        self.mark = self.depth = self.steps = self.nesting = 0


class Call:
    def __init__(self, s, quirks=(), fault=None, fired=None):
        self.s, self.quirks, self.fault = s, quirks, fault
        self.fired = fired if fired is not None else Counter()
        self.used = 0
        self.decls = [s.decl[i:i + 16] for i in range(0, len(s.decl), 16)]
        self.nlib = len(s.lib) // 9
        self.rows = [tuple(s.lib[i:i + 9]) for i in range(0, len(s.lib), 9)]
        self.rows += [tuple(s.scr[i:i + 9]) for i in range(0, 9 * s.mark, 9)]
        self.start = len(self.rows)
        self.room = self.nlib + len(s.scr) // 9
        self.holder = {d[7]: i for i, d in reversed(list(enumerate(self.decls))) if len(d) == 16 and d[7]}

    # ------------------------------------------------------------ refusals 1, 2, 3

    def pointer_ok(self, row, shift, below, bound):
        return row < below and (shift == 0 if self.rows[row][7] == 0 else self.rows[row][7] + shift <= bound)

    def row_ok(self, i, w):
        if w[0] > 8 or any(w[USED[w[0]] + 1:7]): return False
        if w[0] == VAR and w[1] > 4095 or w[0] == SORT and w[1] > 255: return False
        if w[0] == CONST and (w[1] >= len(self.decls) or w[2] > 16): return False
        if w[0] == PROJ and w[3] >= len(self.decls): return False
        bound, height = (w[1] + 1 if w[0] == VAR else 0), 1
        for f, under in TERMS[w[0]]:
            if not self.pointer_ok(w[f], w[f + 1], i, 4096 + under): return False
            bound = max(bound, self.bound((w[f], w[f + 1])) - under)
            height = max(height, 1 + self.rows[w[f]][8])
        return w[7] == bound <= 4096 and w[8] == height <= 2000

    def decl_ok(self, i, d):
        kind, used = d[0], {PLAIN: 8, CTOR: 10, REC: 15, STRUCT: 10}
        closed = lambda r, s: r < self.nlib and s == 0 and self.rows[r][7] == 0
        if kind > 3 or any(d[used[kind]:]) or d[1] > 16 or not closed(d[2], d[3]) or d[4] > 1 or d[7] > 15: return False
        if not (closed(d[5], d[6]) if d[4] else d[5] == d[6] == 0): return False
        if d[7] and self.holder[d[7]] != i: return False
        isctor = lambda c: c < len(self.decls) and self.decls[c][0] == CTOR
        if kind == STRUCT and not isctor(d[9]): return False
        if kind == REC:
            if d[12] or d[14] > 64 or d[13] + d[14] > len(self.s.rule) // 4: return False
            for c, _, r, sh in self.rules_of(d):
                if not isctor(c) or not closed(r, sh): return False
        return True

    def rules_of(self, d):
        return [self.s.rule[4 * j:4 * j + 4] for j in range(d[13], d[13] + d[14])]

    def accept(self, p):
        s = self.s
        lists = [(s.lib, 9, 65536), (s.scr, 9, 65536), (s.decl, 16, 4096), (s.rule, 4, 262144), (s.ctx, 5, 4096)]
        if any(len(l) % n or len(l) // n > most for l, n, most in lists): raise Refused(1)
        if s.mark > len(s.scr) // 9 or s.depth > len(s.ctx) // 5 or s.steps > 1000000 or s.nesting > 500: raise Refused(1)
        for i, w in enumerate(self.rows):
            if not self.row_ok(i, w): raise Refused(2, i)
        for i, d in enumerate(self.decls):
            if not self.decl_ok(i, d): raise Refused(3, i)
        for i in range(s.depth):
            t, ts, v, vs, has = s.ctx[5 * i:5 * i + 5]
            if has > 1 or not self.pointer_ok(t, ts, self.start, i): raise Refused(3, i)
            if not (self.pointer_ok(v, vs, self.start, i) if has else v == vs == 0): raise Refused(3, i)
        if not self.pointer_ok(p[0], p[1], self.start, s.depth): raise Refused(3, 0)

    # ------------------------------------------------------------ rows and pointers

    def bound(self, p):
        b = self.rows[p[0]][7]
        return b and b + p[1]

    def up(self, p, k):
        return (p[0], p[1] + k) if self.rows[p[0]][7] else p

    def child(self, p, f):
        """The field at word f, the pointer's shift taken on."""
        w = self.rows[p[0]]
        return self.up((w[f], w[f + 1]), p[1])

    def write(self, kind, *words):
        w = [kind, *words] + [0] * (6 - len(words))
        bound, height = (w[1] + 1 if kind == VAR else 0), 1
        for f, under in TERMS[kind]:
            bound = max(bound, self.bound((w[f], w[f + 1])) - under)
            height = max(height, 1 + self.rows[w[f]][8])
        if bound > 4096 or height > 2000: raise Refused(8)
        if len(self.rows) == self.room: raise Refused(5)
        self.rows.append((*w, bound, height))
        return (len(self.rows) - 1, 0)

    def app(self, f, a):
        return self.write(APP, *f, *a)

    def apps(self, f, args):
        for a in args: f = self.app(f, a)
        return f

    # ------------------------------------------------------------ replacement

    def replace(self, p, c, value, k):
        """At cutoff c, with one value or None, and a move k."""
        n = 0 if value is None else 1
        s = p[1]
        if self.bound(p) <= c: return p
        if s >= c + n: return (p[0], s - n + (0 if self.fault == 'shifted pointer not moved' else k))
        if self.fault == 'cutoff not lowered by the shift': return self.up(self.replace_row(p[0], c, value, n, k), s)
        return self.up(self.replace_row(p[0], c - s, value, n, k), 0 if self.fault == 'result not shifted back' else s)

    def replace_row(self, r, c, value, n, k):
        w = self.rows[r]
        if w[0] == VAR:
            if w[1] < c: return (r, 0)
            if w[1] == c and n == 1:
                return self.up(value, 0 if self.fault == 'value not shifted up' else c + k if self.fault == 'value moved too' else c)
            return self.write(VAR, w[1] - n + k)
        new = list(w[1:7])
        for f, under in TERMS[w[0]]:
            if self.fault == 'cutoff not raised under a binder': under = 0
            if self.fault == 'let body at the same cutoff' and f == 5: under = 0
            new[f - 1:f + 1] = self.replace((w[f], w[f + 1]), c + under, value, k)
        return self.write(w[0], *new)

    # ------------------------------------------------------------ head rules

    def spine(self, p):
        args = []
        while self.rows[p[0]][0] == APP:
            if self.fault == 'argument without the spine\'s shift':
                args.append((self.rows[p[0]][3], self.rows[p[0]][4]))
            else:
                args.append(self.child(p, 3))
            p = self.child(p, 1)
        return p, args[::-1]

    def side(self, p, level):
        if level + 1 > self.s.nesting: raise Refused(6)
        return self.reduce(p, level + 1)

    def step(self, what):
        if self.used == self.s.steps: raise Refused(4)
        self.used += 1
        self.fired[what] += 1

    def miss(self, what):
        self.fired['no ' + what] += 1

    def reduce(self, p, level=0):
        """The final term; a rule that fires gives the next one."""
        while True:
            next = self.fire(p, level)
            if next is None: return p
            p = next

    def fire(self, p, level):
        head, args = self.spine(p)
        w = self.rows[head[0]]
        if w[0] == LAM and args:
            self.step('lambda')
            k = 0 if self.fault == 'head\'s shift dropped' else head[1]
            return self.apps(self.replace((w[3], w[4]), 0, args[0], k), args[1:])
        if w[0] == LET:
            self.step('let')
            value = (w[3], w[4]) if self.fault == 'let value without the head\'s shift' else self.child(head, 3)
            return self.apps(self.replace((w[5], w[6]), 0, value, head[1]), args)
        if w[0] == VAR:
            i = w[1] + head[1]
            assert i < self.s.depth or self.fault
            t = self.s.ctx[5 * (self.s.depth - 1 - i):][:5] if i < self.s.depth else [0] * 5
            if not t[4]: self.miss('variable'); return None
            self.step('variable')
            return self.apps(self.up((t[2], t[3]), i if self.fault == 'context value one short' else i + 1), args)
        if w[0] == PROJ:
            f, fargs = self.spine(self.side(self.child(head, 1), level))
            d = self.const(f)
            if d is None or self.decls[d][0] != CTOR: self.miss('projection: no constructor'); return None
            at = (0 if self.fault == 'parameters not skipped' else self.decls[d][8]) + w[4]
            if at >= len(fargs): self.miss('projection: no such argument'); return None
            self.step('projection')
            return self.apps(fargs[at], args)
        if w[0] == CONST:
            d, levels = w[1], w[2]
            role = self.decls[d][7]
            for rule in (self.quot, self.recursor, self.arithmetic, self.delta):
                made = rule(d, self.decls[d], role, levels, args, level)
                if made is not None: return made
            return None
        self.fired['no rule: kind %d%s' % (w[0], ' with arguments' if args else '')] += 1
        return None

    def const(self, p):
        w = self.rows[p[0]]
        return w[1] if w[0] == CONST else None

    def quot(self, d, decl, role, levels, args, level):
        if role not in (LIFT, IND): return None
        if 3 in self.quirks and (decl[0] != PLAIN or decl[4]): return None
        if 1 in self.quirks and role == IND and LIFT not in self.holder: return None
        major = 5 if role == LIFT else 4
        if len(args) <= major: self.miss(ROLES[role] + ': no major'); return None
        f, fargs = self.spine(self.side(args[major], level))
        c = self.const(f)
        if c is None or self.decls[c][7] != MK: self.miss(ROLES[role] + ': no Quot.mk'); return None
        if len(fargs) != 3: self.miss(ROLES[role] + ': not 3 arguments'); return None
        self.step(ROLES[role])
        return self.apps(self.app(args[3], fargs[1 if self.fault == 'Quot.mk\'s second argument' else 2]), args[major + 1:])

    def recursor(self, d, decl, role, levels, args, level):
        if decl[0] != REC: return None
        if levels != decl[1]: self.miss('recursor: levels'); return None
        first = decl[8] + decl[9] + decl[10]
        major = first + (0 if self.fault == 'indices not counted' else decl[11])
        if len(args) <= major: self.miss('recursor: no major'); return None
        m = self.side(args[major], level)
        w = self.rows[m[0]]
        if w[0] == NUM:
            n = w[1] + (w[2] << 32)
            if n == 0 and ZERO in self.holder:
                m = self.write(CONST, self.holder[ZERO], 0)
            elif n and SUCC in self.holder:
                c = self.write(CONST, self.holder[SUCC], 0)
                n -= 0 if self.fault == 'succ of the same number' else 1
                m = self.app(c, self.write(NUM, n & JUNK, n >> 32))
        f, fargs = self.spine(m)
        c = self.const(f)
        rules = self.rules_of(decl) if c is not None else []
        for ctor, fields, row, shift in reversed(rules) if self.fault == 'last rule counts' else rules:
            if ctor != c: continue
            if len(fargs) < fields: self.miss('recursor: too few fields'); return None
            self.step('recursor on a number' if w[0] == NUM else 'recursor')
            kept = fargs[:fields] if self.fault == 'parameters for fields' else fargs[len(fargs) - fields:]
            return self.apps((row, shift), args[:first] + kept + args[major + (0 if self.fault == 'major kept' else 1):])
        self.miss('recursor: no rule')
        if self.fault == 'stuck recursor with the reduced major' and m != args[major]:
            return None if level else self.stuck(d, levels, args, major, m)
        return None

    def stuck(self, d, levels, args, major, m):
        raise Stuck(self.apps(self.write(CONST, d, levels), args[:major] + [m] + args[major + 1:]))

    def arithmetic(self, d, decl, role, levels, args, level):
        if role < ADD: return None
        if len(args) != 2: self.miss(ROLES[role] + ': not 2 arguments'); return None
        held = TRUE in self.holder and FALSE in self.holder
        if role in (BEQ, BLE) and not held and 2 not in self.quirks: self.miss(ROLES[role] + ': roles'); return None
        n = []
        for a in args:
            r = self.rows[self.side(a, level)[0]]
            if r[0] != NUM: self.miss(ROLES[role] + ': no number'); return None
            n.append(r[1] + (r[2] << 32))
        a, b = n
        if role in (BEQ, BLE):
            yes = a == b if role == BEQ else (a < b if self.fault == 'ble is below' else a <= b)
            answer = self.holder.get(TRUE if yes else FALSE)
            if answer is None: self.miss(ROLES[role] + ': roles'); return None
            self.step(ROLES[role])
            return self.write(CONST, answer, 0)
        n = {ADD: lambda: a + b, SUB: lambda: max(a - b, 0), MUL: lambda: a * b, DIV: lambda: a // b if b else 0,
             MOD: lambda: a % b if b else (0 if self.fault == 'mod by 0 is 0' else a)}[role]()
        self.step(ROLES[role])
        if n >= 1 << 64: raise Refused(7)
        return self.write(NUM, n & JUNK, n >> 32)

    def delta(self, d, decl, role, levels, args, level):
        if not decl[4]: self.miss('delta: no value'); return None
        if decl[1] != levels and self.fault != 'delta without counts': self.miss('delta: levels'); return None
        self.step('delta')
        return self.apps((decl[5], decl[6]), args)


class Stuck(Exception):
    """Only with a fault: the answer that document 01's slip would give."""


def read_out(rows, p, most=65536):
    out, size = [], 0
    todo = [(p, ())]                       # a pointer and the shifts that are still to be carried out, innermost last
    while todo:
        p, pend = todo.pop()
        if isinstance(p, str):
            out.append(p); size += len(p)
            if size > most: return '...'
            continue
        w = rows[p[0]]
        if p[1] and w[7]: pend += ((p[1], 0),)
        if w[0] == VAR:
            i = w[1]
            for a, cut in reversed(pend):
                if i >= cut: i += a
            t = 'v%d' % i
        elif w[0] == SORT: t = 's%d' % w[1]
        elif w[0] == CONST: t = 'c%d' % w[1] + ('.%d' % w[2] if w[2] else '')
        elif w[0] == NUM: t = 'n%d' % (w[1] + (w[2] << 32))
        else:
            name = {APP: '@', LAM: 'lam', PI: 'pi', LET: 'let', PROJ: 'proj %d %d' % (w[3], w[4])}[w[0]]
            todo.append((')', ()))
            for f, under in reversed(TERMS[w[0]]):
                todo.append(((w[f], w[f + 1]), tuple((a, cut + 1) for a, cut in pend) if under else pend))
                todo.append((' ', ()))
            t = '(' + name
        out.append(t); size += len(t)
        if size > most: return '...'
    return ''.join(out)


def total(words):
    h = 1
    for w in words: h = (31 * h + w) & JUNK
    return h


def whnf(s, p, **how):
    """One call: the answer as (pointer, steps, rows written, read-out) or a Refused; s is left as the call leaves it."""
    c = Call(s, **how)
    try:
        c.accept(p)
        try:
            q = c.reduce(p)
        except Stuck as e:
            q = e.args[0]
        new = c.rows[c.start:]
        reads = read_out(c.rows, q)
        for i, w in enumerate(new): s.scr[9 * (s.mark + i):9 * (s.mark + i) + 9] = w
        s.mark += len(new)
        return q, c.used, len(new), reads
    except Refused as e:
        if e.number > 3: s.scr[9 * s.mark:] = [0] * (len(s.scr) - 9 * s.mark)
        return e


def run(lines, sums=True, **how):
    """Answers the text of a run, line by line."""
    s, last = Store(), None
    for no, line in enumerate(lines, 1):
        words = line.split('#')[0].split()
        if not words: continue
        key, n = words[0], words[1:]
        if not all(w.isdecimal() and int(w) <= JUNK for w in n): yield 'line %d: a number is wanted' % no; return
        n = [int(w) for w in n]
        if key in ('lib', 'decl', 'rule', 'ctx', 'scr'): getattr(s, key).extend(n)
        elif key == 'fill' and len(n) == 1: s.scr.extend([JUNK] * n[0])
        elif key == 'spare' and len(n) == 1: s.ctx.extend([JUNK] * n[0])
        elif key in ('mark', 'depth', 'steps', 'nesting') and len(n) == 1: setattr(s, key, n[0])
        elif key == 'reset' and not n: s, last = Store(), None
        elif key == 'whnf' and len(n) == 2 or key == 'again' and not n:
            if key == 'again' and last is None: yield 'line %d: nothing to do again' % no; return
            answer = whnf(s, tuple(n) if n else last, **how)
            if isinstance(answer, Refused):
                last = None
                yield 'refused %d at %d' % (answer.number, answer.place)
            else:
                last = answer[0]
                yield 'term %d %d steps %d rows %d mark %d' % (*answer[0], answer[1], answer[2], s.mark)
                yield 'reads ' + answer[3]
            if sums: yield 'left %d %d' % (total(s.scr), total(s.ctx))
        else: yield 'line %d: no statement' % no; return


def deep(main):
    """Replacement goes as deep as a row is high, inside as many side reductions as the nesting allows."""
    sys.setrecursionlimit(1 << 30)
    threading.stack_size(1 << 29)
    t = threading.Thread(target=main); t.start(); t.join()


if __name__ == '__main__':
    def main():
        for line in run(sys.stdin): print(line)
    deep(main)
