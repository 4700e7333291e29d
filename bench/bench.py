#!/usr/bin/env python3
"""Cost of a step, for three loads and three sizes of the library: instructions, which do not depend on what else the machine does, and steps
per second by the clock, which do. `bench/bench.py` prints a table in Markdown.

A load is run once as it is and once with a call that takes no step over the same table, so that reading the text and acceptance fall away;
what is left is divided by the steps. Instructions are counted by valgrind's callgrind on x86-64; elsewhere an older toolchain's emulator,
which today's has no more, ran the program and wrote a line for each instruction, and the lines were counted."""
import os, platform, re, subprocess, sys, tempfile, time

ROOT = os.path.dirname(os.path.dirname(os.path.abspath(__file__)))
PROGRAM = os.path.join(ROOT, "crates", "run", "out", "run")
SIZES = [1000, 8000, 64000]
# Under the emulator a count for the largest library takes an hour: reading its text is what costs.
COUNTED = SIZES if platform.machine() == "x86_64" else SIZES[:2]


class Table:
    def __init__(self, free):
        self.rows, self.decls, self.rules, self.free = [], [], [], free

    def row(self, kind, pairs, bound, height):
        self.rows.append([kind, *pairs, *[0] * (6 - len(pairs)), bound, height])
        return len(self.rows) - 1

    def bound(self, r):
        return self.rows[r][7]

    def height(self, r):
        return self.rows[r][8]

    def var(self, i):
        return self.row(0, [i], i + 1, 1)

    def sort(self, n):
        return self.row(1, [n], 0, 1)

    def const(self, d):
        return self.row(2, [d, 0], 0, 1)

    def num(self, n):
        return self.row(8, [n, 0], 0, 1)

    def app(self, f, *arguments):
        for a in arguments:
            f = self.row(3, [f, 0, a, 0], max(self.bound(f), self.bound(a)), 1 + max(self.height(f), self.height(a)))
        return f

    def lam(self, t, b):
        return self.row(4, [t, 0, b, 0], max(self.bound(t), max(self.bound(b) - 1, 0)), 1 + max(self.height(t), self.height(b)))

    def decl(self, kind=0, value=None, role=0, tail=(0,) * 8):
        self.decls.append([kind, 0, 0, 0, 0 if value is None else 1, value or 0, 0, role, *tail])

    def text(self, size, calls):
        filler = [1, 0, 0, 0, 0, 0, 0, 0, 1]
        rows = self.rows + [filler] * (size - len(self.rows))
        out = ["lib " + " ".join(map(str, r)) for r in rows]
        out += ["decl " + " ".join(map(str, d)) for d in self.decls]
        out += ["rule " + " ".join(map(str, r)) for r in self.rules]
        return "\n".join(out + [f"fill {9 * self.free}", "steps 1000000", "nesting 500"] + calls) + "\n"


def beta_chain():
    """c unfolds to (lambda x. x) c: half of the steps are delta, half are beta, and no row is written"""
    t = Table(1)
    s = t.sort(0)
    value = t.app(t.lam(s, t.var(0)), t.const(0))
    t.decl(value=value)
    return "a long beta chain", t, t.const(0), 20000


def recursor():
    """Nat.rec over a number, with a step function that hands the result on"""
    t = Table(12000)
    s = t.sort(0)
    v0, v1, v2, v3 = (t.var(i) for i in range(4))
    rec = t.const(2)
    step = t.lam(s, t.lam(s, v0))
    zero_rule = t.lam(s, t.lam(s, t.lam(s, v1)))
    succ_rule = t.lam(s, t.lam(s, t.lam(s, t.lam(s, t.app(v1, v0, t.app(rec, v3, v2, v1, v0))))))
    t.decl(kind=1, role=2)
    t.decl(kind=1, role=3, tail=(0, 1, 0, 0, 0, 0, 0, 0))
    t.decl(kind=2, tail=(0, 1, 2, 0, 0, 0, 2, 0))
    t.rules = [[0, 0, zero_rule, 0], [1, 1, succ_rule, 0]]
    return "a recursor over a number", t, t.app(rec, s, s, step, t.num(300)), None


def arithmetic():
    """400 additions, one inside the other"""
    t = Table(500)
    t.sort(0)
    t.decl(role=9)
    add, one = t.const(0), t.num(1)
    term = one
    for _ in range(400):
        term = t.app(add, term, one)
    return "nested arithmetic", t, term, None


def command(*options):
    """the program, under the emulator where the processor is another"""
    if platform.machine() == "x86_64":
        return [PROGRAM]
    kit = os.path.dirname(subprocess.run(["rt", "doc"], capture_output=True, text=True).stdout.strip())
    tools = os.path.join(kit, "on", platform.machine(), "toolchain")
    return [f"{tools}/bin/qemu-x86_64", *options, f"{tools}/lib/ld-linux-x86-64.so.2", "--library-path", f"{tools}/lib", PROGRAM]


def run(text):
    began = time.time()
    out = subprocess.run(command(), input=text, capture_output=True, text=True).stdout
    return out, time.time() - began


def instructions(text):
    with tempfile.NamedTemporaryFile("w", suffix=".txt") as f:
        f.write(text)
        f.flush()
        if platform.machine() == "x86_64":
            valgrind = ["valgrind", "--tool=callgrind", "--callgrind-out-file=/dev/null", PROGRAM, f.name]
            said = subprocess.run(valgrind, capture_output=True, text=True).stderr
            return int(re.search(r"Collected : (\d+)", said)[1])
        counted = " ".join(command("-one-insn-per-tb", "-d", "exec,nochain", "-D", "/dev/stderr")) + f" {f.name} 2>&1 >/dev/null | wc -l"
        return int(subprocess.run(counted, shell=True, capture_output=True, text=True).stdout)


def steps_of(text, budget):
    answer = run(text)[0].split("\n")[0]
    return budget if answer.startswith("refused 4") else int(re.search(r"steps (\d+)", answer)[1])


def each_step(t, term, size, budget):
    """instructions per step, and those of reading the text and of acceptance"""
    calls = ([f"steps {budget}"] if budget else []) + [f"whnf {term} 0"]
    text, idle = t.text(size, calls), t.text(size, ["whnf 0 0"])
    resting = instructions(idle)
    return (instructions(text) - resting) / steps_of(text, budget), resting


def per_second(t, term, budget):
    """by the clock, over many calls on the smallest library; every other call takes no step, and its time is taken off"""
    often = 50
    asked = (["steps 1000000"] if budget else []) + ["mark 0", f"whnf {term} 0"]
    text, idle = t.text(SIZES[0], asked * often), t.text(SIZES[0], ["mark 0", "whnf 0 0"] * often)
    steps = often * steps_of(text, 1000000)
    took = min(run(text)[1] for _ in range(3)) - min(run(idle)[1] for _ in range(3))
    return f"{steps / took:,.0f}" if 0.05 < took else "too short to be timed"


def main():
    print("| load | library rows | instructions per step | instructions of reading and acceptance | steps per second |")
    print("|---|---|---|---|---|")
    for name, t, term, budget in (beta_chain(), recursor(), arithmetic()):
        rate = per_second(t, term, budget)
        for size in COUNTED:
            each, resting = each_step(t, term, size, budget)
            print(f"| {name} | {size:,} | {each:,.0f} | {resting:,} | {rate} |")
            rate = ""
            sys.stdout.flush()


main()
