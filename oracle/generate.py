#!/usr/bin/env python3
"""Texts for the differential runs: accepted tables and calls on them.

    oracle/generate.py random SEED TABLES      random tables, about six calls on each
    oracle/generate.py small SIZE [PART OF]    every term of that size over one small table (PART of OF, from 0)
    oracle/generate.py examples                document 01's E1 to E9 and E11

Terms are made as plain trees and then written as rows: wherever a subterm's loose variables allow it, the pointer takes a
shift, and equal rows are shared or not, both by lot. Trees are made towards a goal (a number, a boolean, a structure, an
element of a quotient, a function ..), so that most of them reduce for many steps; some goals are missed on purpose.
"""
import random, sys
from itertools import product

VAR, SORT, CONST, APP, LAM, PI, LET, PROJ, NUM = range(9)
UNDER = {APP: (0, 0), LAM: (0, 1), PI: (0, 1), LET: (0, 0, 1), PROJ: (0,)}
NAT, ZERO, SUCC, TRUE, FALSE, MK, LIFT, IND, ADD, SUB, MUL, DIV, MOD, BEQ, BLE = range(1, 16)


class Node:
    __slots__ = 'kind', 'data', 'kids', 'bound', 'low', 'size'


class Trees:
    """Plain terms, each made once. bound: one more than the largest loose index; low: the least one; size: of the tree."""

    def __init__(self):
        self.made, self.moved, self.leasts = {}, {}, {}

    def node(self, kind, data=(), *kids):
        key = (kind, data, kids)
        t = self.made.get(key)
        if t is None:
            t = Node()
            t.kind, t.data, t.kids = key
            loose = [(k.bound - u, k.low) for k, u in zip(kids, UNDER.get(kind, ()))]
            t.bound = data[0] + 1 if kind == VAR else max([0] + [b for b, _ in loose])
            t.low = data[0] if kind == VAR else None
            t.size = 1 + sum(k.size for k in kids)
            for k, u in zip(kids, UNDER.get(kind, ())):
                l = self.least(k, u)
                if l is not None and (t.low is None or l < t.low): t.low = l
            self.made[key] = t
        return t

    def least(self, t, c):
        """The least loose index that is not below c, less c."""
        if t.bound <= c: return None
        if t.low >= c: return t.low - c
        if (t, c) not in self.leasts:
            l = [self.least(k, c + u) for k, u in zip(t.kids, UNDER[t.kind])]
            self.leasts[t, c] = min(x for x in l if x is not None)
        return self.leasts[t, c]

    def raised(self, t, s, c=0):
        """Loose indexes from c on, plus s."""
        if s == 0 or t.bound <= c: return t
        if t.kind == VAR: return self.v(t.data[0] + s)
        if (t, s, c) not in self.moved:
            self.moved[t, s, c] = self.node(t.kind, t.data, *[self.raised(k, s, c + u) for k, u in zip(t.kids, UNDER[t.kind])])
        return self.moved[t, s, c]

    def lower(self, t, s): return self.raised(t, -s)

    def v(self, i): return self.node(VAR, (i,))
    def s(self, n): return self.node(SORT, (n,))
    def c(self, d, levels=0): return self.node(CONST, (d, levels))
    def n(self, n): return self.node(NUM, (n & 0xffffffff, n >> 32))
    def lam(self, t, b): return self.node(LAM, (), t, b)
    def pi(self, t, b): return self.node(PI, (), t, b)
    def let(self, t, v, b): return self.node(LET, (), t, v, b)
    def proj(self, d, i, x): return self.node(PROJ, (d, i), x)

    def app(self, f, *args):
        for a in args: f = self.node(APP, (), f, a)
        return f


class Rows:
    """Rows as they are written, and what they say of themselves."""

    def __init__(self):
        self.rows = []

    def add(self, kind, data, ptrs):
        words = [w for p in ptrs for w in p]
        words = words + list(data) if kind == PROJ else words or list(data)
        bound, height = (data[0] + 1 if kind == VAR else 0), 1
        for (r, s), u in zip(ptrs, UNDER.get(kind, ())):
            b = self.rows[r][7]
            bound = max(bound, b + s - u if b else 0)
            height = max(height, 1 + self.rows[r][8])
        self.rows.append([kind] + (words + [0] * 6)[:6] + [bound, height])
        return len(self.rows) - 1


class Writer:
    """Trees to rows, with shifts and sharing by lot. Scratch rows are not used by the library's."""

    def __init__(self, trees, rng):
        self.t, self.rng, self.rows, self.seen = trees, rng, Rows(), {}
        self.share = rng.choice([0.3, 0.9, 1])
        self.shifts = rng.choice([0, 0.5, 0.5, 1])

    def pointer(self, t):
        s = 0
        if t.bound and self.rng.random() < self.shifts:
            s = t.low if self.rng.random() < 0.6 else self.rng.randint(0, t.low)
        return (self.row(self.t.lower(t, s)), s)

    def row(self, t):
        if t in self.seen and self.rng.random() < self.share: return self.seen[t]
        r = self.rows.add(t.kind, t.data, [self.pointer(k) for k in t.kids])
        self.seen[t] = r
        return r


def goal_fn(*goals):
    """('fn', A, ('fn', B, C)) from A, B, C."""
    g = goals[-1]
    for a in reversed(goals[:-1]): g = ('fn', a, g)
    return g


class Table:
    """Declarations with random counts, and a random context."""

    def __init__(self, rng):
        self.rng, self.t = rng, Trees()
        t, r = self.t, rng
        self.pool = {}
        self.S = dict(params=r.randint(0, 2), goals=[self.simple() for _ in range(r.randint(1, 4))])
        self.lp = r.randint(0, 2)                                     # the list's parameters
        names = ['Nat', 'zero', 'succ', 'true', 'false', 'mk', 'lift', 'ind', 'add', 'sub', 'mul', 'div', 'mod', 'beq', 'ble',
                 'S', 'S.mk', 'nil', 'cons', 'natrec', 'boolrec', 'srec', 'listrec'] + ['a%d' % i for i in range(4)]
        self.defs = [(self.any_goal() if i < 5 else self.simple()) for i in range(r.randint(3, 8))]
        names += ['d%d' % i for i in range(len(self.defs))]
        if r.random() < 0.3:
            for gone in r.sample(['Nat', 'true', 'false', 'lift', 'ind', 'mk', 'add', 'beq'], r.randint(1, 2)): names.remove(gone)
        elif r.random() < 0.1: names.remove('zero'); names.remove('succ')
        r.shuffle(names)
        self.at = {n: i for i, n in enumerate(names)}
        self.roles = dict(zip(['Nat', 'zero', 'succ', 'true', 'false', 'mk', 'lift', 'ind', 'add', 'sub', 'mul', 'div', 'mod', 'beq', 'ble'], range(1, 16)))
        self.levels = {n: 0 for n in names}
        for i in range(len(self.defs)):
            if r.random() < 0.3: self.levels['d%d' % i] = r.randint(1, 3)
        self.rank = {}                                               # definitions use lower ones, so that most runs end
        for i in range(len(self.defs)): self.rank['d%d' % i] = i
        self.names = names

    # ---------------------------------------------------------------- goals
    def simple(self): return self.rng.choice(['num', 'num', 'nat', 'bool', 'list', 'any'])
    def any_goal(self):
        x = self.rng.random()
        if x < 0.4: return self.simple()
        if x < 0.5: return 'str'
        if x < 0.6: return ('quot', self.simple())
        return goal_fn(*[self.simple() for _ in range(self.rng.randint(2, 3))])

    def k(self, name, levels=None):
        """A constant, or an axiom where nobody has the name."""
        if name not in self.at: name = 'a0'
        return self.t.c(self.at[name], self.levels[name] if levels is None else levels)

    # ---------------------------------------------------------------- terms
    def ty(self, n):
        """A type, which no rule of reduction looks at; n variables are in scope."""
        x = self.rng.random()
        if x < 0.5: return self.t.s(self.rng.randint(0, 2))
        if x < 0.7 and n: return self.t.v(self.rng.randrange(n))
        if x < 0.85: return self.k('Nat')
        return self.t.pi(self.ty(n), self.ty(n + 1))

    def gen(self, goal, env, fuel, top):
        """A term that comes to the goal; env: the goals of the variables in scope, innermost first; top: definitions below it."""
        r, t = self.rng, self.t
        if r.random() < 0.015: goal = 'any'
        if env and r.random() < 0.12:                                 # without the innermost variables, so that a pointer can shift
            k = r.randint(1, min(3, len(env)))
            return t.raised(self.gen(goal, env[k:], fuel, top), k)
        if r.random() < 0.08:                                         # a term that stands elsewhere already
            fit = [(x, e) for x, e in self.pool.get(goal, ()) if len(e) <= len(env) and env[len(env) - len(e):] == e]
            if fit: x, e = r.choice(fit); return t.raised(x, len(env) - len(e))
        x = self.gen_new(goal, env, fuel, top)
        if top == len(self.defs) and x.size < 40 and r.random() < 0.3: self.pool.setdefault(goal, []).append((x, env))
        return x

    def gen_new(self, goal, env, fuel, top):
        r, t = self.rng, self.t
        same = [i for i, g in enumerate(env) if g == goal]
        if same and r.random() < (0.7 if fuel <= 0 else 0.35): return t.v(r.choice(same))
        if fuel <= 0 or r.random() < 0.25: return self.direct(goal, env, fuel, top)
        g = lambda goal, f=2: self.gen(goal, env, fuel // f, top)
        way = r.randrange(13)
        if way == 0:                                                  # beta, one to three arguments
            a = [self.any_goal() for _ in range(r.choice([1, 1, 2, 3]))]
            body = self.gen(goal, a[::-1] + env, fuel // 2, top)
            f, n = body, len(env) + len(a)
            for i in reversed(range(len(a))): f = t.lam(self.ty(len(env) + i), f)
            return t.app(f, *[g(x, 3) for x in a])
        if way == 1:
            a = self.any_goal()
            return t.let(self.ty(len(env)), g(a), self.gen(goal, [a] + env, fuel // 2, top))
        if way == 2:
            fit = [i for i, d in enumerate(self.defs) if i < top and d == goal]
            if fit: return self.definition(r.choice(fit))
            fit = [i for i, d in enumerate(self.defs) if i < top and isinstance(d, tuple) and d[0] == 'fn' and d[2] == goal]
            if fit: i = r.choice(fit); return t.app(self.definition(i), g(self.defs[i][1]))
        if way == 3:
            at = [i for i, x in enumerate(self.S['goals']) if x == goal]
            if at: return t.proj(self.at['S'] if r.random() < 0.8 else r.randrange(len(self.names)), r.choice(at), g('str'))
            i = r.randrange(3)                                        # another constructor's argument
            args = [g('any', 4) for _ in range(self.lp + 2)]
            if self.lp + i < len(args): args[self.lp + i] = g(goal)
            return t.proj(self.at['S'], i, t.app(self.k('cons'), *args))
        if way in (4, 5):
            a = self.simple()
            if way == 4: args = [g('any', 6) for _ in range(3)] + [g(goal_fn(a, goal)), g('any', 6), g(('quot', a))]
            else: args = [g('any', 6) for _ in range(3)] + [g(goal_fn(a, goal)), g(('quot', a))]
            return t.app(self.k('lift' if way == 4 else 'ind'), *args)
        if way in (6, 7):
            idx = [g('any', 6) for _ in range(self.nat_i)]
            return t.app(self.k('natrec'), g('any', 6), g(goal), g(goal_fn('nat', goal, goal), 3), *idx, g('nat', 3))
        if way == 8:
            return t.app(self.k('boolrec'), g('any', 6), g(goal), g(goal), g('bool'))
        if way == 9:
            p = [g('any', 6) for _ in range(self.S['params'])]
            return t.app(self.k('srec'), *p, g('any', 6), g(goal_fn(*self.S['goals'], goal)), g('str'))
        if way == 10:
            p = [g('any', 6) for _ in range(self.lp)]
            return t.app(self.k('listrec'), *p, g('any', 6), g(goal), g(goal_fn('any', 'list', goal, goal)), g('list'))
        if way == 11:
            a = self.simple()
            return t.app(g(goal_fn(a, goal)), g(a))
        if way == 12: return t.let(self.ty(len(env)), g('any', 3), t.raised(g(goal), 1))
        return self.direct(goal, env, fuel, top)

    def definition(self, i):
        n = 'd%d' % i
        l = self.levels[n]
        if self.rng.random() < (0.3 if l else 0.03): l = self.rng.randint(0, 3)
        return self.t.c(self.at[n], l)

    def direct(self, goal, env, fuel, top):
        r, t = self.rng, self.t
        g = lambda goal, f=2: self.gen(goal, env, fuel // f, top)
        if goal == 'num' or goal == 'nat':
            if goal == 'nat' and r.random() < 0.4 and fuel > 0: return self.k('zero') if r.random() < 0.3 else t.app(self.k('succ'), g('nat', 2))
            if fuel > 0 and r.random() < 0.6:
                return t.app(self.k(r.choice(['add', 'sub', 'mul', 'div', 'mod'])), g('num'), t.n(0) if r.random() < 0.15 else g('num'))
            x = r.random()
            return t.n(r.randint(0, 4) if x < 0.9 else r.randint(5, 60) if x < 0.98 else r.choice([2**32 - 1, 2**32, 2**63, 2**64 - 1]))
        if goal == 'bool':
            if fuel > 0 and r.random() < 0.6: return t.app(self.k(r.choice(['beq', 'ble'])), g('num'), g('num'))
            return self.k(r.choice(['true', 'false']))
        if goal == 'str':
            return t.app(self.k('S.mk'), *[g('any', 6) for _ in range(self.S['params'])], *[g(x) for x in self.S['goals']])
        if goal == 'list':
            p = [g('any', 6) for _ in range(self.lp)]
            if fuel <= 0 or r.random() < 0.4: return t.app(self.k('nil'), *p)
            return t.app(self.k('cons'), *p, g('any', 3), g('list'))
        if goal[0] == 'quot':
            return t.app(self.k('mk'), *[g('any', 6) for _ in range(r.choice([2, 2, 2, 2, 2, 2, 1, 3]))], g(goal[1]))
        if goal[0] == 'fn':
            return t.lam(self.ty(len(env)), self.gen(goal[2], [goal[1]] + env, fuel - 1, top))
        return self.any(env, fuel, top)

    def any(self, env, fuel, top):
        r, t = self.rng, self.t
        x = r.random()
        if x < 0.2 or fuel <= 0: return t.v(r.randrange(len(env))) if env and r.random() < 0.6 else r.choice([t.s(r.randint(0, 3)), self.k('a0'), t.n(r.randint(0, 3))])
        g = lambda goal, f=2: self.gen(goal, env, fuel // f, top)
        if x < 0.5: return t.app(self.k('a%d' % r.randrange(4)), *[g(self.any_goal()) for _ in range(r.randint(0, 3))])
        if x < 0.6: return t.pi(self.ty(len(env)), self.gen('any', ['any'] + env, fuel // 2, top))
        if x < 0.7 and env: return t.app(t.v(r.randrange(len(env))), *[g('any') for _ in range(r.randint(0, 2))])
        if x < 0.85: return g(self.any_goal())
        n = r.choice([n for n in self.names if self.levels[n] == 0])
        if n in self.rank and self.rank[n] >= top: n = 'a1'
        return t.app(self.k(n), *[g(self.any_goal(), 3) for _ in range(r.randint(0, 7))])

    def wild(self, n, fuel):
        """Any term with n variables in scope."""
        r, t = self.rng, self.t
        if fuel <= 1 or r.random() < 0.1:
            x = r.random()
            if x < 0.4 and n: return t.v(r.randrange(n))
            if x < 0.5: return t.n(r.randint(0, 3))
            if x < 0.6: return t.s(r.randint(0, 2))
            return self.k(r.choice(self.names))
        x = r.random()
        a = r.randint(1, fuel - 1)
        if x < 0.55: return t.app(self.wild(n, a), self.wild(n, fuel - a))
        if x < 0.8: return t.app(t.lam(self.ty(n), self.wild(n + 1, a)), self.wild(n, fuel - a))
        if x < 0.87: return t.lam(self.ty(n), self.wild(n + 1, fuel - 1))
        if x < 0.94: return t.let(self.ty(n), self.wild(n, a), self.wild(n + 1, fuel - a))
        return t.proj(self.at['S'], r.randint(0, 2), self.wild(n, fuel - 1))

    def chain(self, env, top):
        """Deep side reductions."""
        r, t = self.rng, self.t
        depth = r.choice([5, 20, 60, 120, 300])
        x = self.gen('num', env, 3, top)
        kind = r.randrange(6)
        for i in range(depth):
            if kind == 0: x = t.app(self.k('add'), x, t.n(1))
            elif kind == 1: x = t.app(self.k('sub'), t.n(1000), x)
            elif kind == 2:
                at = r.randrange(len(self.S['goals']))
                args = [t.s(0)] * self.S['params'] + [t.n(7)] * len(self.S['goals'])
                args[self.S['params'] + at] = x
                x = t.proj(self.at['S'], at, t.app(self.k('S.mk'), *args))
            elif kind == 3: x = t.app(self.k('natrec'), t.s(0), t.n(3), t.lam(t.s(0), t.lam(t.s(0), t.v(1))), *[t.s(0)] * self.nat_i, x)
            elif kind == 4: x = t.app(t.lam(t.s(0), t.app(self.k('add'), t.v(0), self.lifted(x))), t.n(1))
            else: x = t.let(t.s(0), x, t.app(self.k('add'), t.v(0), t.n(1)))
        if kind == 5 or r.random() < 0.3:                            # a long recursion
            n = r.choice([10, 30, 100])
            x = t.app(self.k('natrec'), t.s(0), t.n(0), t.lam(t.s(0), t.lam(t.s(0), t.app(self.k('add'), t.v(0), t.v(1)))), *[t.s(0)] * self.nat_i, t.n(n))
        return x

    def lifted(self, x): return self.t.raised(x, 1)

    # ---------------------------------------------------------------- the text
    def pis(self, n, last):
        t = self.t
        x = t.pi(last, t.s(0))
        for i in range(n): x = t.pi(t.s(i % 2), x)
        return x

    def text(self, calls, fuels=(3, 5, 8, 12, 20, 40), fill=45000, values=(3, 14)):
        r, t = self.rng, self.t
        w = Writer(t, r)
        self.nat_i = r.choice([0, 0, 1])
        out = []
        rules = []
        def closed(x): return w.row(x)
        def lams(n, body):
            for _ in range(n): body = t.lam(t.s(0), body)
            return body
        body = {}
        for i, goal in enumerate(self.defs): body['d%d' % i] = self.gen(goal, [], r.randint(*values), i)
        some = r.random()
        if some < 0.3: body[r.choice(['add', 'beq', 'mul'])] = self.gen(goal_fn('num', 'num', 'num'), [], 10, len(self.defs))
        elif some < 0.35: body[r.choice(['mk', 'Nat', 'a1'])] = self.gen('any', [], 5, 0)
        elif some < 0.37: body[r.choice(['lift', 'ind'])] = self.gen('any', [], 5, 0)
        elif some < 0.38: body[r.choice(['S.mk', 'cons', 'natrec'])] = self.gen('any', [], 5, 0)
        plain = r.random() < 0.02 and r.choice(['true', 'false', 'S.mk', 'lift', 'ind', 'add'])
        sp, sf, lp = self.S['params'], len(self.S['goals']), self.lp
        broken = r.random() < 0.03
        few = r.random() < 0.03
        decls = []
        for d, n in enumerate(self.names):
            role, lev = self.roles.get(n, 0), self.levels[n]
            kind, counts, ty = 0, [0] * 8, t.s(r.randint(0, 3))
            if n in ('zero', 'succ', 'true', 'false', 'S.mk', 'nil', 'cons'):
                kind = 1
                counts[:2] = {'succ': (0, 1), 'S.mk': (sp, sf), 'nil': (lp, 0), 'cons': (lp, 2)}.get(n, (0, 0))
            elif n == 'S': kind, counts[:2] = 3, (sp, self.at['S.mk'])
            elif n in ('natrec', 'boolrec', 'srec', 'listrec'):
                kind = 2
                me, first = t.c(d), len(rules)
                if n == 'natrec':
                    shape, of = (0, 1, 2, self.nat_i), 'Nat'
                    # zero: motive z s; succ: motive z s n, with the recursive call on n
                    if 'zero' in self.at: rules.append(('zero', 0, lams(3, t.v(1))))
                    call = t.app(me, t.v(3), t.v(2), t.v(1), *[t.s(0)] * self.nat_i, t.v(0))
                    if 'succ' in self.at: rules.append(('succ', 1, lams(4, t.app(t.v(1), t.v(0), call))))
                elif n == 'boolrec':
                    shape, of = (0, 1, 2, 0), 'a2'
                    if 'true' in self.at: rules.append(('true', 0, lams(3, t.v(1))))
                    if 'false' in self.at: rules.append(('false', 0, lams(3, t.v(0))))
                elif n == 'srec':
                    shape, of = (sp, 1, 1, 0), 'S'
                    rules.append(('S.mk', sf + few, lams(sp + 2 + sf, t.app(t.v(sf), *[t.v(sf - 1 - i) for i in range(sf)]))))
                else:
                    shape, of = (lp, 1, 2, 0), 'a3'
                    rules.append(('nil', 0, lams(lp + 3, t.v(1))))
                    call = t.app(me, *[t.v(lp + 4 - i) for i in range(lp)], t.v(4), t.v(3), t.v(2), t.v(0))
                    rules.append(('cons', 2, lams(lp + 5, t.app(t.v(2), t.v(1), t.v(0), call))))
                if len(rules) > first and r.random() < 0.1: rules.append((rules[-1][0], 0, t.s(0)))   # a second rule for a constructor
                counts = [*shape, 0, first, len(rules) - first, 0]
                ty = t.s(0) if broken else self.pis(sum(shape), self.k(of, 0))
            if plain == n and kind == 0: kind, counts[:2] = 1, (r.randint(0, 2), 0)
            elif plain == n and role: kind, counts = 0, [0] * 8
            if kind == 0 and n in ('true', 'false') and r.random() < 0.5: body[n] = t.n(1)
            decls.append([kind, lev, closed(ty), 0, *((1, closed(body[n]), 0) if n in body else (0, 0, 0)), role, *counts])
        ctors = {d for d, x in enumerate(decls) if x[0] == 1}
        for x in decls:
            if x[0] == 3 and x[9] not in ctors: x[0], x[8:] = 0, [0] * 8
        rules = [(self.at[c], f, closed(v)) for c, f, v in rules]
        for x in decls:
            if x[0] == 2 and not all(rules[j][0] in ctors for j in range(x[13], x[13] + x[14])): x[13] = x[14] = 0
        depth = r.choice([0, 1, 3, 3, 5, 8]) if r.random() < 0.97 else r.choice([300, 4000])
        records, goals = [], []
        for i in range(depth):
            goal = self.any_goal() if r.random() < 0.6 and (i < 8 or i > depth - 3) else None
            records.append((self.ty(i), None if goal is None else self.gen(goal, goals, r.randint(1, values[1]), len(self.defs))))
            goals.insert(0, goal or 'any')
        terms = []
        for i in range(calls):
            x = r.random()
            if x < 0.12: terms.append(self.wild(depth, r.randint(3, 25)))
            elif x < 0.18: terms.append(self.chain(goals, len(self.defs)))
            else: terms.append(self.gen(r.choice([self.any_goal(), 'num', 'str', 'bool']), goals, r.choice(fuels), len(self.defs)))
        in_lib = [r.random() < 0.3 for _ in terms]
        lib_ptrs = {i: w.pointer(x) for i, x in enumerate(terms) if in_lib[i]}
        nlib = len(w.rows.rows)
        recs = []
        for ty, v in records: recs.append([*w.pointer(ty), *(w.pointer(v) if v else (0, 0)), int(v is not None)])
        ptrs = [lib_ptrs.get(i) or w.pointer(x) for i, x in enumerate(terms)]
        mark = len(w.rows.rows) - nlib
        lines = ['lib ' + ' '.join(map(str, x)) for x in w.rows.rows[:nlib]]
        lines += ['decl ' + ' '.join(map(str, x)) for x in decls]
        lines += ['rule %d %d %d 0' % x for x in rules]
        lines += ['ctx ' + ' '.join(map(str, x)) for x in recs]
        lines += ['scr ' + ' '.join(map(str, x)) for x in w.rows.rows[nlib:]]
        lines += ['fill %d' % fill, 'depth %d' % depth, 'steps %d' % (6000 if r.random() < 0.95 else 3), 'nesting %d' % (500 if r.random() < 0.9 else 20)]
        for p in ptrs: lines += ['mark %d' % mark, 'whnf %d %d' % p]
        return lines


def random_tables(seed, tables):
    """Texts, one for each table; each can be made by itself from its own seed."""
    for i in range(tables):
        yield one_table('%s/%d' % (seed, i))


def one_table(seed):
    rng = random.Random(seed)
    return ['reset', '# table %s' % seed] + Table(rng).text(rng.randint(4, 8))


# ---------------------------------------------------------------- every small term

def small_table():
    """A holder for each role, a structure of one parameter and two fields, a recursor with two rules, a definition, and a
    context of three records, the middle one with a value."""
    t, w = Trees(), None
    roles = list(range(1, 16))
    S, SMK, RECN, DEF = 15, 16, 17, 18
    rng = random.Random(0)
    w = Writer(t, rng)
    w.shifts, w.share = 0, 1
    lam = lambda n, b: b if n == 0 else t.lam(t.s(0), lam(n - 1, b))
    sort = w.row(t.s(0))
    rec_type = t.s(0)
    rec_type = t.pi(t.c(0), rec_type)                                 # major: Nat; two minors before it
    for _ in range(2): rec_type = t.pi(t.s(0), rec_type)
    zero_rule, succ_rule = lam(2, t.v(1)), lam(3, t.app(t.v(1), t.v(0)))
    value = lam(1, t.v(0))
    decls = []
    for role in roles:
        d = [0, 0, sort, 0, 0, 0, 0, role] + [0] * 8
        if role in (ZERO, SUCC, TRUE, FALSE): d[0], d[9] = 1, int(role == SUCC)
        decls.append(d)
    decls.append([3, 0, sort, 0, 0, 0, 0, 0, 1, SMK] + [0] * 6)
    decls.append([1, 0, sort, 0, 0, 0, 0, 0, 1, 2] + [0] * 6)
    decls.append([2, 0, w.row(rec_type), 0, 0, 0, 0, 0, 0, 0, 2, 0, 0, 0, 2, 0])
    decls.append([0, 0, sort, 0, 1, w.row(value), 0, 0] + [0] * 8)
    rules = [(ZERO - 1, 0, w.row(zero_rule)), (SUCC - 1, 1, w.row(succ_rule))]
    val = w.row(t.app(t.c(16), t.s(0), t.v(0)))                       # S.mk s0 v0, in a context of one record
    lines = ['lib ' + ' '.join(map(str, x)) for x in w.rows.rows]
    lines += ['decl ' + ' '.join(map(str, x)) for x in decls]
    lines += ['rule %d %d %d 0' % x for x in rules]
    lines += ['ctx %d 0 0 0 0' % sort, 'ctx %d 0 %d 0 1' % (sort, val), 'ctx %d 0 0 0 0' % sort]
    lines += ['depth 3', 'steps 1000', 'nesting 50']
    return lines, len(w.rows.rows), len(decls)


def small_terms(size, scope, ndecl, part=0, of=1):
    """Trees of rows: (kind, data, ((child, shift), ..)), each child with shift 0 and 1 where it is open; the term's own
    pointer has shift 0. The bound is at most the scope. The terms are dealt out to the parts by their first child."""
    leaves = [(NUM, (0, 0)), (NUM, (2, 0)), (SORT, (0,))] + [(CONST, (d, 0)) for d in range(ndecl)]
    memo = {}

    def bound(x):
        return x[3]

    def make(kind, data, kids):
        b = data[0] + 1 if kind == VAR else max([0] + [(k[3] + s if k[3] else 0) - u for (k, s), u in zip(kids, UNDER.get(kind, ()))])
        return (kind, data, kids, b)

    def rows(n, scope):
        """All unshifted rows of n nodes with bound at most scope."""
        if scope < 0: return []
        if (n, scope) not in memo:
            out = []
            if n == 1:
                out = [make(k, d, ()) for k, d in leaves] + [make(VAR, (i,), ()) for i in range(scope)]
            else:
                for kind, under in UNDER.items():
                    for parts in splits(n - 1, len(under)):
                        for kids in product(*[pointers(m, scope + u) for m, u in zip(parts, under)]):
                            if kind == PROJ: out += [make(kind, (15, i), kids) for i in (0, 1)]
                            else: out.append(make(kind, (), kids))
            memo[n, scope] = out
        return memo[n, scope]

    def pointers(n, scope):
        return [(x, 0) for x in rows(n, scope)] + [(x, 1) for x in rows(n, scope - 1) if x[3]]

    def splits(n, parts):
        if parts == 1: return [(n,)] if n > 0 else []
        return [(a, *rest) for a in range(1, n) for rest in splits(n - a, parts - 1)]

    if size == 1:
        if part == 0: yield from rows(1, scope)
        return
    dealt = 0
    for kind, under in UNDER.items():                                 # the top layer is not kept
        for parts in splits(size - 1, len(under)):
            lists = [pointers(m, scope + u) for m, u in zip(parts, under)]
            for first in lists[0]:
                dealt += 1
                if dealt % of != part: continue
                for rest in product(*lists[1:]):
                    for data in [(15, 0), (15, 1)] if kind == PROJ else [()]: yield make(kind, data, (first, *rest))


def small_texts(size, part=0, of=1, batch=40):
    table, nlib, ndecl = small_table()
    head = ['reset'] + table
    rows, seen, asked = Rows(), {}, []

    def row(x):
        if x not in seen:
            seen[x] = None
            ptrs = [(row(k), s) for k, s in x[2]]
            seen[x] = rows.add(x[0], x[1], ptrs)
        return seen[x]

    def start():
        rows.rows = [list(map(int, l.split()[1:])) for l in table if l.startswith('lib')]
        seen.clear(); asked.clear()

    def finish():
        scr = rows.rows[nlib:]
        lines = head + ['scr ' + ' '.join(map(str, x)) for x in scr] + ['fill 1800']
        for r in asked: lines += ['mark %d' % len(scr), 'whnf %d 0' % r]
        return lines

    start()
    for x in small_terms(size, 3, ndecl, part, of):
        asked.append(row(x))
        if len(asked) == batch:
            yield finish()
            start()
    if asked: yield finish()


def arities(args):
    """Each constant of the small table applied to none up to seven arguments."""
    table, nlib, ndecl = small_table()
    rows, asked = Rows(), []
    rows.rows = [list(map(int, l.split()[1:])) for l in table if l.startswith('lib')]
    leaves = [rows.add(k, d, []) for k, d in args]
    for d in range(ndecl):
        asked.append(rows.add(CONST, (d, 0), []))
        for i in range(7): asked.append(rows.add(APP, (), [(asked[-1], 0), (leaves[i % len(leaves)], 0)]))
    lines = ['reset'] + table + ['scr ' + ' '.join(map(str, x)) for x in rows.rows[nlib:]] + ['fill 450']
    for r in asked: lines += ['mark %d' % (len(rows.rows) - nlib), 'whnf %d 0' % r]
    return lines


# ---------------------------------------------------------------- document 01's examples

def examples():
    """E1 to E11, but for E10 (refusal 7): each with the read-out that the document gives. Last, a term that the Rust finds in
    its cache of a smaller context (tc.rs 1132)."""
    def one(tree, depth=(), decls=(), rules=(), want='', top_rows=None):
        t = Trees(); w = Writer(t, random.Random(1)); w.shifts, w.share = 0, 1
        p = top_rows(w) if top_rows else (w.row(tree(t)), 0)
        vals = [w.row(d(t)) if d else None for d in depth]
        sort = w.row(t.s(0))
        rs = [(c, f, w.row(v(t))) for c, f, v in rules]
        ds = [d(sort) if callable(d) else d for d in decls]
        lines = ['reset'] + ['lib ' + ' '.join(map(str, x)) for x in w.rows.rows]
        lines += ['decl ' + ' '.join(map(str, d)) for d in ds] + ['rule %d %d %d 0' % x for x in rs]
        lines += ['ctx %d 0 %d 0 %d' % (sort, v or 0, v is not None) for v in vals]
        return lines + ['fill 900', 'depth %d' % len(vals), 'steps 100', 'nesting 10', 'whnf %d %d' % p], want
    ax = lambda role=0: (lambda sort: [0, 0, sort, 0, 0, 0, 0, role] + [0] * 8)
    ctor = lambda role, fields: (lambda sort: [1, 0, sort, 0, 0, 0, 0, role, 0, fields] + [0] * 6)

    def e3(w):
        body = w.rows.add(VAR, (1,), [])
        lam = w.rows.add(LAM, (), [(w.row(w.t.s(0)), 0), (body, 0)])
        return (w.rows.add(APP, (), [(lam, 2), (w.row(w.t.s(1)), 0)]), 0)
    lift = lambda t, n: t.app(t.c(0), t.c(2), t.c(3), t.c(4), t.c(5), t.c(6), t.app(t.c(1), t.c(2), t.c(3), t.c(7), *[t.c(8)] * (n - 3)))
    quots = [ax(7), ax(6)] + [ax()] * 7
    rec = lambda sort: [2, 0, sort, 0, 0, 0, 0, 0, 0, 1, 2, 0, 0, 0, 2, 0]
    lev = lambda sort: [0, 1, sort, 0, 1, sort, 0, 0] + [0] * 8
    return [
        one(lambda t: t.s(0), want='s0'),
        one(lambda t: t.app(t.lam(t.s(0), t.v(0)), t.s(1)), want='s1'),
        one(None, depth=[None] * 3, top_rows=e3, want='v2'),
        one(lambda t: t.let(t.s(2), t.s(1), t.v(0)), want='s1'),
        one(lambda t: t.v(0), depth=[None, lambda t: t.v(0)], want='v1'),
        one(lambda t: lift(t, 3), decls=quots, want='(@ c5 c7)'),
        one(lambda t: lift(t, 4), decls=quots, want='(@ (@ (@ (@ (@ (@ c0 c2) c3) c4) c5) c6) (@ (@ (@ (@ c1 c2) c3) c7) c8))'),
        one(lambda t: t.c(0), decls=[lev], want='c0'),
        one(lambda t: t.app(t.c(0), t.n(2), t.n(3)), decls=[ax(10)], want='n0'),
        one(lambda t: t.app(t.c(0), t.c(4), t.c(5), t.c(6), t.n(2)), decls=[rec, ctor(2, 0), ctor(3, 1)] + [ax()] * 4,
            rules=[(1, 0, lambda t: t.c(3)), (2, 1, lambda t: t.c(3))], want='(@ (@ (@ (@ c3 c4) c5) c6) n1)'),
        one(lambda t: t.app(t.c(0), t.v(0), t.let(t.s(0), t.s(0), t.v(1))), depth=[lambda t: t.n(1)], decls=[ax(9)], want='n2'),
    ]


if __name__ == '__main__':
    what, args = sys.argv[1], sys.argv[2:]
    sys.setrecursionlimit(100000)
    texts = (random_tables(args[0], int(args[1])) if what == 'random' else small_texts(*map(int, args)) if what == 'small'
             else [l for l, _ in examples()])
    for lines in texts: print('\n'.join(lines))
