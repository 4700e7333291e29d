"""Writes texts of runs, for the scripts beside it: rows and declarations by name, and for each call the answer that was worked out by hand from
the document. `done` asks oracle/model.py for the whole text, fails where an answer by hand is not the model's, and writes NAME.txt and NAME.out."""
import os, sys, textwrap

HERE = os.path.dirname(os.path.abspath(__file__))
sys.dont_write_bytecode = True
sys.path.insert(0, os.path.join(HERE, "..", "..", "..", "oracle"))
import model

JUNK = 4294967295
UNDER = [[], [], [], [0, 0], [0, 1], [0, 1], [0, 0, 1], [0], []]
ROLE = {name: number for number, name in enumerate("none Nat zero succ true false Quot.mk Quot.lift Quot.ind add sub mul div mod beq ble".split())}


class Ptr:
    """A row and a shift, with what is needed for rows above it."""
    def __init__(self, row, shift, bound, height, name):
        self.row, self.shift, self.height, self.base = row, shift, height, name
        self.name = name + ("^%d" % shift if shift else "")
        self.bound = bound and bound + shift

    def up(self, k):
        assert self.bound
        return Ptr(self.row, self.shift + k, self.bound - self.shift, self.height, self.base)


def ap(*terms):
    """the read-out of an application"""
    out = terms[0]
    for t in terms[1:]:
        out = f"(@ {out} {t})"
    return out


def total(words):
    h = 1
    for w in words:
        h = (31 * h + w) % 2**32
    return h


class Text:
    def __init__(self, name, comment):
        self.name, self.lines, self.due = name, [], []
        self.asks = self.lines
        self.note(comment)

    def say(self, line):
        self.lines.append(line)

    def note(self, comment):
        for paragraph in comment.split("\n"):
            self.asks += textwrap.wrap(paragraph, 138, initial_indent="# ", subsequent_indent="# ", break_on_hyphens=False)

    def block(self, comment):
        """A new table: its rows, declarations and records come first, then its numbers and calls."""
        self.close()
        self.say("")
        self.note(comment)
        self.say("reset")
        self.asks = []
        self.rows, self.inside, self.lib, self.decls, self.list = {}, 0, 0, 0, "lib"

    def close(self):
        if self.asks is not self.lines: self.lines += self.asks
        self.asks = self.lines

    # rows; each is written once, unless it is asked for anew

    def row(self, kind, words, parts, name, anew=False):
        key = (kind, *words, *[(p.row, p.shift) for p in parts])
        if key in self.rows and not anew: return self.rows[key]
        all = [x for p in parts for x in (p.row, p.shift)] + list(words)
        all += [0] * (6 - len(all))
        bound, height = words[0] + 1 if kind == 0 else 0, 1
        for p, under in zip(parts, UNDER[kind]):
            bound = max(bound, p.bound - under)
            height = max(height, p.height + 1)
        number = self.lib + self.inside
        if len(name) > 60: name = "r%d" % number
        self.say("%s  %-40s # %d %s" % (self.list, " ".join(map(str, [kind, *all, bound, height])), number, self.label(kind, parts, name, number)))
        if self.list == "lib": self.lib += 1
        else: self.inside += 1
        self.rows[key] = Ptr(number, 0, bound, height, name)
        return self.rows[key]

    def label(self, kind, parts, name, number):
        if name != "r%d" % number: return name
        short = ["r%d" % p.row + ("^%d" % p.shift if p.shift else "") for p in parts]
        return "(%s %s)" % ({3: "@", 4: "lam", 5: "pi", 6: "let", 7: "proj"}[kind], " ".join(short))

    def scratch(self): self.list = "scr"

    def v(self, i): return self.row(0, [i], [], "v%d" % i)
    def s(self, n): return self.row(1, [n], [], "s%d" % n)
    def c(self, d, levels=0): return self.row(2, [d, levels], [], "c%d" % d + (".%d" % levels if levels else ""))
    def n(self, k): return self.row(8, [k & JUNK, k >> 32], [], "n%d" % k)

    def at(self, f, *args):
        for x in args: f = self.row(3, [], [f, x], f"(@ {f.name} {x.name})")
        return f

    def lam(self, t, b): return self.row(4, [], [t, b], f"(lam {t.name} {b.name})")
    def pi(self, t, b): return self.row(5, [], [t, b], f"(pi {t.name} {b.name})")
    def let(self, t, v, b): return self.row(6, [], [t, v, b], f"(let {t.name} {v.name} {b.name})")
    def proj(self, d, i, s): return self.row(7, [d, i], [s], f"(proj {d} {i} {s.name})")

    # declarations, whose type is row 0

    def decl(self, name, kind=0, levels=0, value=None, role="none", parameters=0, second=0, minors=0, indices=0, first=0, rules=0, k=0):
        given = [1, value.row, value.shift] if value else [0, 0, 0]
        words = [kind, levels, 0, 0, *given, ROLE[role], parameters, second, minors, indices, k, first, rules, 0]
        self.say("decl %-40s # %d %s" % (" ".join(map(str, words)), self.decls, name))
        self.decls += 1
        return self.decls - 1

    def set(self, **numbers):
        for key, n in numbers.items(): self.asks.append("%s %d" % (key, n))

    def context(self, *values):
        """Records of type sort 0 (row 0), each with a value or None."""
        for v in values: self.say("ctx 0 0 %s" % ("%d %d 1" % (v.row, v.shift) if v else "0 0 0"))

    def bulk(self, rows, a_line=40):
        """Many library rows, without comments."""
        for i in range(0, len(rows), a_line): self.say("lib " + "  ".join(" ".join(map(str, r)) for r in rows[i:i + a_line]))
        self.lib += len(rows)

    # calls: what is asked, the read-out, steps and rows; or a refusal. `left`: the words of scratch and context after it, by hand

    def ask(self, why, p, reads=None, steps=0, rows=0, at=None, left=None):
        if reads is None: reads = p.name
        wide = reads if len(reads) < 200 else "a long read-out"
        self.note(f"{why}: {wide}; {steps}, {rows}" if why else f"{wide}; {steps}, {rows}")
        self.asks.append("whnf %d %d" % (p.row, p.shift))
        self.due.append(("term", reads, steps, rows, at, left))

    def final(self, why, p, reads=None):
        """The pointer it had, no step, no row."""
        self.ask(why, p, reads, at=(p.row, p.shift))

    def refused(self, why, p, number, place=0, left=None):
        self.note((f"{why}: " if why else "") + f"refusal {number}" + (f" at {place}" if number in (2, 3) else ""))
        self.asks.append("whnf %d %d" % (p if isinstance(p, tuple) else (p.row, p.shift)))
        self.due.append(("refused", number, place, left))

    def again(self, why, reads, steps=0, rows=0, at=None, left=None):
        wide = reads if len(reads) < 200 else "a long read-out"
        self.note(f"{why}: {wide}; {steps}, {rows}")
        self.asks.append("again")
        self.due.append(("term", reads, steps, rows, at, left))

    def again_refused(self, why, number, left=None):
        self.note(f"{why}: refusal {number}")
        self.asks.append("again")
        self.due.append(("refused", number, 0, left))

    def done(self):
        self.close()
        out = []
        # the model walks up to the mark before it tests it; a mark past every maximum is past the end like any other
        asked = [l if not l.startswith("mark") or int(l.split()[1]) < 100000 else "mark 100000" for l in self.lines]
        model.deep(lambda: out.extend(model.run(asked)))
        at, bad = 0, 0
        calls = [i for i, l in enumerate(self.lines) if l.split("#")[0].split()[:1] in (["whnf"], ["again"])]
        assert len(calls) == len(self.due)
        for i, due in zip(calls, self.due):
            if at >= len(out): print("no answer", self.lines[i]); bad += 1; break
            words = out[at].split()
            if words[0] == "line": print(out[at]); bad += 1; break
            if words[0] == "term":
                got = ("term", out[at + 1][6:], int(words[4]), int(words[6]))
                ok = due[:4] == got and (due[4] is None or due[4] == (int(words[1]), int(words[2])))
                left, at = out[at + 2], at + 3
            else:
                got = ("refused", int(words[1]), int(words[3]))
                ok = due[:3] == got
                left, at = out[at + 1], at + 2
            if due[-1] is not None and left != "left %d %d" % tuple(map(total, due[-1])): ok = False
            if not ok:
                bad += 1
                print(f"{self.name}: line {i + 1}: {self.lines[i - 1]} / {self.lines[i]}\n  by hand {due}\n  model   {got} {words}")
        assert at == len(out) or bad
        if bad: raise SystemExit(f"{bad} answers by hand are not the model's")
        for ending, lines in (("txt", self.lines), ("out", out)):
            with open(os.path.join(HERE, f"{self.name}.{ending}"), "w") as f: f.write("\n".join(lines) + "\n")
        print(f"{self.name}: {len(self.due)} calls, {len(self.lines)} lines")
