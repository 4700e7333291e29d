#!/usr/bin/env python3
"""Mutants of the comparison: faults that the runs must find, or the generator is too weak.

    oracle/mutants.py model SEED [TABLES]      slips in the model, which then stands for the program
    oracle/mutants.py support SEED [TABLES]    slips in the support modules; the Rust is built anew for each (NANOBRUIJN_SRC)
    oracle/mutants.py programs SEED DIR ..     programs with a fault, built beforehand: each executable file is one

For each: the table that showed it first; with SHRINK set, also the text to which the difference shrinks (this takes a while).
"""
import os, re, shutil, subprocess, sys
here = os.path.dirname(os.path.abspath(__file__))
sys.path.insert(0, here)
import compare, generate, model

# Each is a place of oracle/src/util.rs, and what stands there instead.
SUPPORT = [
    ('a let\'s value without the pointer\'s shift', 'val: val.shift_up(s), body: self.shift_body(body, s), nondep }', 'val, body: self.shift_body(body, s), nondep }'),
    ('a shifted binder\'s body left as it is', 'else { self.shift_expr(body.core, s, 1) }', 'else { body }'),
    ('a common shift not taken from a body', 'if let Some(b) = body_v { if self.nlbv(b) > 1 { body_v = Some(self.lower(b, m, 1)) } }', ''),
    ('bounds without the pointer\'s shift', 'match self.nlbv_core(e.core) { 0 => 0, n => n + e.shift } } }', 'self.nlbv_core(e.core) } }'),
    ('the next older record\'s value', 'pub fn local_value(&self, i: u16) -> Option<ExprPtr<\'t>> { self.at(i).val }', 'pub fn local_value(&self, i: u16) -> Option<ExprPtr<\'t>> { if (i as usize) + 1 < self.frames.len() { self.at(i + 1).val } else { None } }'),
    ('a body\'s shift taken out whole', 'else { see(b.shift.saturating_sub(1)) }', 'else { see(b.shift) }'),
    ('mod by 0 is 0', 'pub fn nat_mod(x: BigUint, y: BigUint) -> BigUint { if y.is_zero() { x }', 'pub fn nat_mod(x: BigUint, y: BigUint) -> BigUint { if y.is_zero() { y }'),
    ('div by 0 is the dividend', 'if y.is_zero() { y } else { x / y } }', 'if y.is_zero() { x } else { x / y } }'),
    ('sub that does not stop at 0', 'if y >= x { BigUint::zero() } else { x - y } }', 'if y >= x { y - x } else { x - y } }'),
    ('a shift dropped where one is put on a core', 'ExprPtr::from_nlbv(e, self.num_loose_bvars(e)).shift_up(amount) }', 'ExprPtr::from_nlbv(e, self.num_loose_bvars(e)).shift_up(if amount > 1 { amount - 1 } else { amount }) }'),
    ('caches shared by all depths', 'self.frames[bucket - 1].t.$field.get(k).copied()', 'self.frames.iter().find_map(|f| f.t.$field.get(k).copied())'),
]


def faults():
    """The names of the slips, as oracle/model.py tests for them."""
    text = open(os.path.join(here, 'model.py')).read()
    return sorted({m.replace("\\'", "'") for m in re.findall(r"self\.fault [!=]= '((?:[^'\\]|\\.)*)'", text)})


def hunt(name, seed, tables):
    counts, _, first = compare.compare(generate.random_tables(seed, tables), at_once=10)
    if not first:
        print('MISSED  %s: %d calls' % (name, sum(counts.values())))
        return False
    lines, p, r = first
    table = next(l for l in lines if l.startswith('# table'))
    print('found   %s: %s, %d of the first %d calls' % (name, table[2:], counts['different'], sum(counts.values())), flush=True)
    if 'SHRINK' in os.environ: print('\n'.join(compare.shrink(lines, compare.different)))
    return True


def support(seed, tables, out):
    missed = 0
    for name, old, new in SUPPORT:
        copy = os.path.join(out, 'mutant')
        shutil.rmtree(copy, ignore_errors=True)
        shutil.copytree(here, copy, ignore=shutil.ignore_patterns('__pycache__'))
        util = os.path.join(copy, 'src', 'util.rs')
        text = open(util).read()
        if text.count(old) != 1: raise SystemExit('no such place, or more than one: ' + name)
        open(util, 'w').write(text.replace(old, new))
        subprocess.run([os.path.join(copy, 'build'), out], check=True)
        compare.ORACLE = [os.path.join(out, 'oracle')]
        missed += not hunt(name, seed, tables)
    return missed


def main():
    what, seed, rest = sys.argv[1], sys.argv[2], sys.argv[3:]
    missed = 0
    if what == 'model':
        for name in faults():
            compare.RUN = lambda lines: model.run(lines, sums=False, fault=name)
            missed += not hunt(name, seed, int(rest[0]) if rest else 100)
    elif what == 'support':
        missed = support(seed, int(rest[0]) if rest else 100, os.path.join(here, '..', 'target', 'oracle-mutants'))
    else:
        for d in rest:
            for f in sorted(os.listdir(d)):
                compare.RUN = [os.path.join(d, f)]
                missed += not hunt(f, seed, 100)
    os._exit(1 if missed else 0)


if __name__ == '__main__':
    model.deep(main)
