#!/usr/bin/env python3
"""The differential runs: one text for both sides, read-out against read-out.

    oracle/compare.py random SEED TABLES       random tables (oracle/generate.py)
    oracle/compare.py small SIZE [PART OF]     every term of that size over the small table
    oracle/compare.py text FILE                a text of your own

    RUN      the program under comparison; reads the text on standard input (default: the model, oracle/model.py)
    ORACLE   the Rust (default: target/oracle/oracle, made by oracle/build)
    OPT      statements for the Rust's side alone, e.g. 'opt osnf deep'; see oracle/src/parser.rs

Every call is counted once: same read-out, or why it is outside the comparison. Outside it the model (oracle/model.py) must answer as the
program does, refusals too, and a panic of the Rust's must be one that docs/DIFFERENCES.md names. A difference that docs/DIFFERENCES.md names is
counted under its number: the model answers as the program without that quirk of the Rust's and as the Rust with it. The first
other difference is shrunk and printed, and the command fails.
"""
import os, shlex, subprocess, sys
from collections import Counter
from itertools import chain
here = os.path.dirname(os.path.abspath(__file__))
sys.path.insert(0, here)
import generate, model

RUN = shlex.split(os.environ['RUN']) if 'RUN' in os.environ else lambda lines: model.run(lines, sums=False)
ORACLE = shlex.split(os.environ.get('ORACLE', os.path.join(here, '..', 'target', 'oracle', 'oracle')))
OPT = [l.strip() for l in os.environ.get('OPT', '').split(';') if l.strip()]
KNOWN = [(1,), (2,), (3,), (1, 2), (1, 3), (2, 3), (1, 2, 3)]
# where docs/DIFFERENCES.md says that the Rust panics; a panic elsewhere is a difference
PANICS = {'tc.rs:1180', 'tc.rs:1253', 'tc.rs:1695', 'tc.rs:1706', 'expr.rs:989', 'env.rs:157'}


def run(command, lines):
    if callable(command): return command(lines)
    out = subprocess.run(command, input='\n'.join(lines) + '\n', capture_output=True, text=True)
    if out.returncode: raise SystemExit('%s failed: %s' % (command, out.stderr[-2000:]))
    return out.stdout.splitlines()


def of_program(lines):
    """One answer for each call: ('reads', TERM, steps) or ('refused N',) or ('line ..',)."""
    out, steps = [], 0
    for l in lines:
        if l.startswith('term'): steps = int(l.split()[4])
        elif l.startswith('reads'): out.append(('reads', l[6:], steps))
        elif l.startswith('refused'): out.append((l.split(' at ')[0],))
        elif l.startswith('line'): out.append((l,))
    return out


def of_rust(lines):
    """('reads', TERM), ('left out', TERM), ('panic', PLACE), ('endless',), ('not posable', WHY)."""
    out = []
    for l in lines:
        if l.startswith('reads '): out.append(('reads', l[6:]))
        elif l.startswith('left out '): out.append(('left out', l[9:]))
        elif l.startswith('panic'): out.append(('panic', l.rsplit(' at ', 1)[-1]))
        elif l.startswith('not posable'): out.append(('not posable', l[12:]))
        else: out.append((l,))
    return out


def both(lines):
    return of_program(run(RUN, lines)), of_rust(run(ORACLE, OPT + lines))


def calls(lines):
    """For each call of the text: the lines of its table, and the calls of that table up to it."""
    table, asked = [], []
    for l in lines:
        key = l.split()[0] if l.strip() else '#'
        if key == 'reset': table, asked = [], []
        if key in ('whnf', 'again', 'infer'):
            asked = asked + [l] if key == 'again' else [l]
            yield table + asked
        else: table = table + [l] if key in ('mark', 'steps', 'nesting', 'depth') else (table.append(l) or table)


def kind_of(p, r):
    """How a call counts: a name, and whether it is a difference."""
    if r[0] == 'reads' and p[0] == 'reads':
        if p[1] != r[1]: return 'different', True
        return ('same, but too long to be read out' if p[1] == '...' else 'same'), False
    if r[0] == 'left out':
        if p[0] != 'reads': return 'the Rust uses what is left out; ' + p[0], False
        return 'the Rust uses what is left out; shut out, it reads ' + ('the same' if p[1] == r[1] else 'otherwise'), p[1] != r[1]
    if r[0] == 'panic': return 'the Rust panics at ' + r[1], r[1].split('/')[-1] not in PANICS
    if r[0] == 'not posable': return 'not posable', False
    if r[0] == 'endless': return 'the Rust does not end; ' + p[0], False
    return p[0], False


def modelled(lines, **how):
    return of_program(model.run(lines, sums=False, **how))[-1]


def named(lines, p, r):
    """The number of a known difference that explains this one."""
    if modelled(lines)[:2] != p[:2]: return None
    ample = [l for l in lines if not l.startswith(('steps', 'nesting'))]
    ample[1:1] = ['steps 100000', 'nesting 500']
    for quirks in KNOWN:
        m = modelled(ample, quirks=quirks)
        if m[0] == 'reads' and m[1] == r[1]: return 'known difference ' + ' and '.join(map(str, quirks))
    return None


# ---------------------------------------------------------------- shrinking

class Small:
    """A text of one call, taken apart. `more`: further terms that are asked before it."""

    def __init__(self, lines):
        self.rows, self.decls, self.rules, self.ctx, self.nlib, self.numbers, self.more, self.term = [], [], [], [], 0, {}, [], None
        self.fill = 45000
        for l in lines:
            w = l.split('#')[0].split()
            if not w: continue
            n = [int(x) for x in w[1:]]
            if w[0] in ('lib', 'scr'):
                for i in range(0, len(n), 9): self.rows.append(n[i:i + 7])
                if w[0] == 'lib': self.nlib = len(self.rows)
            elif w[0] == 'decl': self.decls += [n[i:i + 16] for i in range(0, len(n), 16)]
            elif w[0] == 'rule': self.rules += [n[i:i + 4] for i in range(0, len(n), 4)]
            elif w[0] == 'ctx': self.ctx += [n[i:i + 5] for i in range(0, len(n), 5)]
            elif w[0] == 'whnf':
                if self.term: self.more.append(self.term)
                self.term = n
            elif w[0] == 'fill': self.fill = n[0]
            elif w[0] in ('depth', 'steps', 'nesting'): self.numbers[w[0]] = n[0]
        self.again = sum(l.strip() == 'again' for l in lines)

    def copy(self):
        c = object.__new__(Small)
        c.__dict__ = dict(self.__dict__, rows=[list(x) for x in self.rows], decls=[list(x) for x in self.decls],
                          rules=[list(x) for x in self.rules], ctx=[list(x) for x in self.ctx], term=list(self.term), numbers=dict(self.numbers), more=[list(x) for x in self.more])
        return c

    def pointers(self):
        """Every place that holds a pointer, as (list, position)."""
        for w in self.rows: yield from ((w, f) for f, _ in model.TERMS[w[0]])
        for d in self.decls:
            yield d, 2
            if d[4]: yield d, 5
        for r in self.rules: yield r, 2
        for c in self.ctx:
            yield c, 0
            if c[4]: yield c, 2
        for t in self.more + [self.term]: yield t, 0

    def lines(self):
        rows = []
        for w in self.rows:
            w = list(w)
            bound, height = (w[1] + 1 if w[0] == model.VAR else 0), 1
            for f, under in model.TERMS[w[0]]:
                if rows[w[f]][7] == 0: w[f + 1] = 0
                else: bound = max(bound, rows[w[f]][7] + w[f + 1] - under)
                height = max(height, 1 + rows[w[f]][8])
            rows.append(w + [bound, height])
        for l, f in self.pointers():
            if rows[l[f]][7] == 0: l[f + 1] = 0
        t = lambda key, l: ['%s %s' % (key, ' '.join(map(str, x))) for x in l]
        out = ['reset'] + t('lib', rows[:self.nlib]) + t('decl', self.decls) + t('rule', self.rules) + t('ctx', self.ctx) + t('scr', rows[self.nlib:])
        out += ['fill %d' % self.fill] + ['%s %d' % x for x in self.numbers.items()]
        for t in self.more + [self.term]: out += ['mark %d' % (len(rows) - self.nlib), 'whnf %d %d' % tuple(t)]
        return out + ['again'] * self.again

    def swept(self):
        """Without the rows that nothing points at."""
        c = self.copy()
        used = {l[f] for l, f in c.pointers() if not any(l is w for w in c.rows)}
        for i in reversed(range(len(c.rows))):
            if i in used: used |= {c.rows[i][f] for f, _ in model.TERMS[c.rows[i][0]]}
        new = {old: i for i, old in enumerate(sorted(used))}
        c.nlib = sum(i < self.nlib for i in used)
        c.rows = [w for i, w in enumerate(c.rows) if i in used]
        for l, f in list(c.pointers()): l[f] = new[l[f]]
        return c

    def without_decl(self, d):
        c = self.copy()
        if any(w[0] == 2 and w[1] == d or w[0] == 7 and w[3] == d for w in c.rows) or any(r[0] == d for r in c.rules): return None
        if any(x[0] == 3 and x[9] == d for x in c.decls): return None
        less = lambda n: n - (n > d)
        for w in c.rows:
            if w[0] == 2: w[1] = less(w[1])
            if w[0] == 7: w[3] = less(w[3])
        for r in c.rules: r[0] = less(r[0])
        for x in c.decls:
            if x[0] == 3: x[9] = less(x[9])
        del c.decls[d]
        return c

    def smaller(self):
        """Edits, as functions from a text to a smaller one or None; large ones first."""
        def plain_types(c):
            i = next((i for i in range(c.nlib) if c.rows[i][0] == 1), None)
            for d in c.decls if i is not None else ():
                if d[0] != 2: d[2] = i
            for x in c.ctx if i is not None else (): x[:2] = [i, 0]
        yield plain_types
        def no_decl(d):
            def edit(c):
                new = c.without_decl(d) if d < len(c.decls) else None
                if new: c.__dict__ = new.__dict__
            return edit
        def no_rule(j):
            def edit(c):
                if j >= len(c.rules): return
                for x in c.decls:
                    if x[0] == 2: x[14] -= x[13] <= j < x[13] + x[14]; x[13] -= x[13] > j
                del c.rules[j]
            return edit
        def set_words(which, i, a, b, words):
            def edit(c):
                l = getattr(c, which)
                if i < len(l): l[i][a:b] = words
            return edit
        def no_record(c):
            if c.ctx: c.ctx.pop(0); c.numbers['depth'] -= 1
        def part(f):
            def edit(c):
                w = c.rows[c.term[0]]
                if f in [g for g, _ in model.TERMS[w[0]]]: c.term = [w[f], w[f + 1] + c.term[1]]
            return edit
        def for_parent(i, f):
            def edit(c):
                if i >= len(c.rows) or f not in [g for g, _ in model.TERMS[c.rows[i][0]]]: return
                w = c.rows[i]
                j, s = w[f], w[f + 1]
                for l, g in list(c.pointers()):
                    if l[g] == i and l is not w: l[g], l[g + 1] = j, l[g + 1] + s
            return edit
        def leaf(i, words):
            def edit(c):
                if i < len(c.rows) and c.rows[i][0] > 2: c.rows[i] = list(words)
            return edit
        def less_shift(i, f):
            def edit(c):
                if i < len(c.rows) and f in [g for g, _ in model.TERMS[c.rows[i][0]]] and c.rows[i][f + 1]: c.rows[i][f + 1] -= 1
            return edit
        for j in reversed(range(len(self.rules))): yield no_rule(j)
        for d in reversed(range(len(self.decls))):
            yield set_words('decls', d, 4, 7, [0, 0, 0])
            yield no_decl(d)
        for f in (1, 3, 5): yield part(f)
        for i in reversed(range(len(self.rows))):
            for f in (1, 3, 5): yield for_parent(i, f)
            for words in ([1, 0, 0, 0, 0, 0, 0], [8, 1, 0, 0, 0, 0, 0], [0, 0, 0, 0, 0, 0, 0]): yield leaf(i, words)
            for f in (1, 3, 5): yield less_shift(i, f)
        for d in reversed(range(len(self.decls))):
            yield set_words('decls', d, 7, 8, [0])
            yield set_words('decls', d, 0, 1, [0]) if self.decls[d][0] != 2 else set_words('decls', d, 14, 15, [0])
        for i in range(len(self.ctx)): yield set_words('ctx', i, 2, 5, [0, 0, 0])
        for _ in self.ctx: yield no_record

    def size(self):
        return (len(self.rows), len(self.decls) + len(self.rules) + len(self.ctx), sum(map(sum, self.rows)), sum(map(sum, self.decls)), sum(map(sum, self.ctx)))


def shrink(lines, still, most=3000):
    """A smaller text for which `still` holds, by trying edits until none helps."""
    best, moved, tries = Small(lines), True, 0
    while moved and tries < most:
        moved = False
        for edit in best.smaller():
            c = best.copy()
            try:
                edit(c)
                c = c.swept()
                if c.size() >= best.size(): continue
                tries += 1
                if still(c.lines()): best, moved = c, True
            except (KeyError, IndexError, RecursionError): continue
    return best.lines()


def different(lines):
    p, r = both(lines)
    return bool(p and r) and kind_of(p[-1], r[-1])[1] and p[-1][0] == 'reads' and not named(lines, p[-1], r[-1])


# ---------------------------------------------------------------- the whole run

def compare(texts, at_once=40, stop=True, say=print):
    counts, steps, group, n = Counter(), Counter(), [], 0
    first = None
    def done(group):
        nonlocal first
        lines = list(chain.from_iterable(group))
        ps, rs = both(lines)
        asked = sum(l.startswith(('whnf', 'again', 'infer')) for l in lines)
        if not len(ps) == len(rs) == asked: raise SystemExit('%d calls, %d and %d answers: %s' % (asked, len(ps), len(rs), (ps[-1:], rs[-1:])))
        table = None
        for i, (p, r) in enumerate(zip(ps, rs)):
            what, bad = kind_of(p, r)
            # where the Rust has no read-out to compare with, the model must answer as the program does
            if not what.startswith('same'):
                table = table or list(calls(lines))
                name = named(table[i], p, r) if bad else None
                if name: what = name
                elif first is None and (bad or modelled(table[i])[:2] != p[:2]): first = table[i], p, r
            counts[what] += 1
            if p[0] == 'reads': steps[next(s for s in (0, 1, 4, 19, 99, 999, 10**6) if p[2] <= s)] += 1
    for t in texts:
        group.append(t)
        if len(group) == at_once:
            done(group); group = []
            if first and stop: break
    if group: done(group)
    return counts, steps, first


def report(counts, steps, say=print):
    total = sum(counts.values())
    say('%d calls' % total)
    for what, n in counts.most_common(): say('%9d  %s' % (n, what))
    if steps: say('steps of the answers: ' + ', '.join('%d up to %d' % (n, s) for s, n in sorted(steps.items())))


def main():
    what, args = sys.argv[1], sys.argv[2:]
    if what == 'random': texts = generate.random_tables(args[0], int(args[1]))
    elif what == 'small': texts = generate.small_texts(*map(int, args))
    else: texts = [open(args[0]).read().splitlines()]
    counts, steps, first = compare(texts, at_once=500 if what == 'small' else 40)
    report(counts, steps)
    if what != 'text' and not first and not counts['same']:
        print('nothing was the same, so nothing was compared')
        os._exit(1)
    if first:
        lines, p, r = first
        print('DIFFERENT\n  program: %s\n  Rust:    %s\n  model:   %s\nshrunk:' % (str(p)[:1000], str(r)[:1000], str(modelled(lines))[:1000]))
        lines = shrink(lines, different)
        p, r = both(lines)
        print('\n'.join(lines) + '\n# program: %s\n# Rust:    %s' % (p[-1][1], r[-1][1]))
        os._exit(1)


if __name__ == '__main__':
    model.deep(main)
