#!/usr/bin/env python3
"""Chooses the sample that the gate replays: oracle/sample.txt, and what the program must answer, oracle/sample.out.

    oracle/sample.py SEED [CALLS]

Calls are taken from small random tables until each rule, and each way in which a rule does not fire, has been seen often enough.
Taken are only calls where the Rust gives a term, uses nothing that is left out, and reads the same as the model. The `reads`
lines are the Rust's; `term .. steps .. rows .. mark ..` and `left` come from the model, by document 01: the Rust has no such numbers.
"""
import os, random, sys
from collections import Counter
here = os.path.dirname(os.path.abspath(__file__))
sys.path.insert(0, here)
import compare, generate, model

ENOUGH = 20


def judged(lines):
    """For each call: what fired, and whether the call can stand in the sample."""
    rust = compare.of_rust(compare.run(compare.ORACLE, lines))
    for one, r in zip(compare.calls(lines), rust):
        fired = Counter()
        p = compare.of_program(model.run(one, sums=False, fired=fired))[-1]
        yield fired, p, p[0] == r[0] == 'reads' and p[1] == r[1] and len(p[1]) < 1500 and p[2] < 400


def main():
    seed, want = sys.argv[1], int(sys.argv[2]) if len(sys.argv) > 2 else 500
    seen, texts, total, i = Counter(), [], 0, 0
    for lines, _ in generate.examples():
        texts.append(lines); total += 1
    def take(lines, chosen):
        small = compare.Small(lines)
        terms = small.more + [small.term]
        small.more, small.term, small.again = [terms[n] for n in chosen[:-1]], terms[chosen[-1]], 1
        texts.append(small.swept().lines())
        return len(chosen) + 1
    lines = generate.arities([(generate.NUM, (2, 0)), (generate.NUM, (3, 0))])
    chosen = []
    for n, (fired, p, good) in enumerate(judged(lines)):
        if good: seen.update(set(fired)); chosen.append(n)
    total += take(lines, chosen)
    while total < want:
        rng = random.Random('%s/%d' % (seed, i)); i += 1
        lines = ['reset'] + generate.Table(rng).text(60, fuels=(1, 2, 3, 5), fill=1800, values=(1, 4))
        if 'steps 3' in lines: continue
        chosen = []
        for n, (fired, p, good) in enumerate(judged(lines)):
            new = [k for k in fired if seen[k] < ENOUGH]
            if not good or not (new or p[2] > 8 and rng.random() < 0.3): continue
            seen.update(set(fired)); chosen.append(n)
        if len(chosen) >= 8: total += take(lines, chosen)
    lines = [l for t in texts for l in t]
    rust = compare.of_rust(compare.run(compare.ORACLE, lines))
    answers = list(model.run(lines))
    reads = iter(rust)
    for j, l in enumerate(answers):
        if l.startswith('reads'): r = next(reads); assert r[0] == 'reads' and 'reads ' + r[1] == l, (l, r)
    head = '# %d calls, made by: oracle/sample.py %s %d\n' % (len(rust), seed, want)
    open(os.path.join(here, 'sample.txt'), 'w').write(head + '\n'.join(lines) + '\n')
    open(os.path.join(here, 'sample.out'), 'w').write('\n'.join(answers) + '\n')
    print('%d calls from %d tables; seen:' % (len(rust), len(texts)))
    for k, n in sorted(seen.items()): print('%5d  %s' % (n, k))


if __name__ == '__main__':
    model.deep(main)
