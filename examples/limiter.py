#!/usr/bin/env python3
"""Writes limiter.txt: the rows of the definitions below, each row once, with a comment that says what it is. The answers in the comments are
worked out here with Python's own numbers; no answer is taken from the program. `python3 limiter.py > limiter.txt`, then crates/run/join."""

# -- rows ---------------------------------------------------------------------------------------------------------------------------

ROWS, SEEN = [], {}


def row(kind, pairs, bound, height, said):
    words = (kind, *pairs, *(0,) * (6 - len(pairs)), bound, height)
    if words not in SEEN:
        SEEN[words] = len(ROWS)
        ROWS.append((words, said))
    return SEEN[words]


def bound(r):
    return ROWS[r][0][7]


def height(r):
    return ROWS[r][0][8]


def var(i):
    return row(0, (i,), i + 1, 1, f"variable {i}")


def sort(level):
    return row(1, (level,), 0, 1, f"sort {level}")


def const(d):
    return row(2, (d, 0), 0, 1, NAMES[d])


def num(n):
    return row(8, (n % 2**32, n >> 32), 0, 1, f"the number {n}")


def app(f, *arguments):
    for a in arguments:
        f = row(3, (f, 0, a, 0), max(bound(f), bound(a)), 1 + max(height(f), height(a)), f"row {f} applied to row {a}")
    return f


def binder(kind, word, t, b):
    return row(kind, (t, 0, b, 0), max(bound(t), max(bound(b) - 1, 0)), 1 + max(height(t), height(b)), f"{word} row {t}. row {b}")


def lam(t, b):
    return binder(4, "lambda", t, b)


def pi(t, b):
    return binder(5, "pi", t, b)


# -- declarations -------------------------------------------------------------------------------------------------------------------

NAMES = ["Nat", "Bool", "false", "true", "Bool.rec", "add", "sub", "mul", "div", "mod", "beq", "ble",
         "negative", "size", "product", "sameSign", "clip", "minus", "saturating", "wrapping", "bothMinusOne", "lowered"]
NUMBER = {name: d for d, name in enumerate(NAMES)}
ROLES = {"Nat": 1, "true": 4, "false": 5, "add": 9, "sub": 10, "mul": 11, "div": 12, "mod": 13, "beq": 14, "ble": 15}


def c(name, *arguments):
    return app(const(NUMBER[name]), *arguments)


def choose(kind, when_false, when_true, test):
    """Bool.rec at a motive that is always `kind`"""
    return c("Bool.rec", lam(c("Bool"), kind), when_false, when_true, test)


def function(arguments, body):
    for _ in range(arguments):
        body = lam(c("Nat"), body)
    return body


def arrow(count, to):
    for _ in range(count):
        to = pi(c("Nat"), to)
    return to


def main():
    nat, boolean = c("Nat"), c("Bool")
    a1 = var(0)                      # the argument of a function of one
    a, b = var(1), var(0)            # the arguments of a function of two
    one, two = arrow(1, nat), arrow(2, nat)
    motive = pi(boolean, sort(1))
    # (motive : Bool -> Sort 1) -> motive false -> motive true -> (b : Bool) -> motive b
    rec_type = pi(motive, pi(app(var(0), c("false")), pi(app(var(1), c("true")), pi(boolean, app(var(3), var(0))))))
    take_false = lam(motive, lam(app(var(0), c("false")), lam(app(var(1), c("true")), var(1))))
    take_true = lam(motive, lam(app(var(0), c("false")), lam(app(var(1), c("true")), var(0))))
    values = {
        "negative": function(1, c("ble", num(32768), a1)),
        "size": function(1, choose(nat, a1, c("sub", num(65536), a1), c("negative", a1))),
        "product": function(2, c("div", c("mul", c("size", a), c("size", b)), num(32768))),
        "sameSign": function(2, c("beq", c("div", a, num(32768)), c("div", b, num(32768)))),
        "clip": function(1, choose(nat, num(32767), a1, c("ble", a1, num(32767)))),
        "minus": function(1, c("mod", c("sub", num(65536), a1), num(65536))),
        "saturating": function(2, choose(nat, c("minus", c("product", a, b)), c("clip", c("product", a, b)), c("sameSign", a, b))),
        "wrapping": function(2, choose(nat, c("minus", c("product", a, b)), c("mod", c("product", a, b), num(65536)), c("sameSign", a, b))),
        "bothMinusOne": function(2, choose(boolean, c("false"), c("beq", b, num(32768)), c("beq", a, num(32768)))),
        "lowered": function(2, choose(nat, c("wrapping", a, b), num(32767), c("bothMinusOne", a, b))),
    }
    types = {"Nat": sort(1), "Bool": sort(1), "false": boolean, "true": boolean, "Bool.rec": rec_type,
             "beq": arrow(2, boolean), "ble": arrow(2, boolean), "negative": arrow(1, boolean), "size": one, "clip": one, "minus": one,
             "sameSign": arrow(2, boolean), "bothMinusOne": arrow(2, boolean)}
    calls = [(name, x, y, c(name, num(x), num(y))) for x, y, names in CALLS for name in names]
    write(types, two, values, take_false, take_true, calls)


# -- the multiply in Python's numbers ------------------------------------------------------------------------------------------------

def exact(x, y):
    """the product of two 16-bit fractions, toward 0, not yet fitted into 16 bits"""
    signed = [v - 65536 if v >= 32768 else v for v in (x, y)]
    size = abs(signed[0]) * abs(signed[1]) // 32768
    return -size if (signed[0] < 0) != (signed[1] < 0) else size


ANSWER = {
    "saturating": lambda x, y: min(exact(x, y), 32767) % 65536,
    "lowered": lambda x, y: min(exact(x, y), 32767) % 65536,
    "wrapping": lambda x, y: exact(x, y) % 65536,
}
ALL = ["saturating", "lowered", "wrapping"]
CALLS = [(32768, 32768, ALL), (32769, 32768, ALL), (32768, 32769, ALL), (32769, 32769, ALL), (32768, 32767, ALL), (32767, 32767, ALL),
         (0, 32768, ALL), (32768, 0, ALL), (0, 0, ALL)]


def spoken(v):
    return {32768: "-1", 32767: "the largest number", 0: "0"}.get(v, f"{v - 65536 if v >= 32768 else v}/32768")


# -- the text ------------------------------------------------------------------------------------------------------------------------

STORY = """# A limiter keeps a hearing aid from hurting: a sound that is too loud is clipped at the largest number. It multiplies 16-bit fractions:
# 16,384 stands for a half, 32,767 for the largest number (just below 1), 32,768 for -1, 65,535 for the smallest step below 0.
#
# The trap: -1 times -1 is 1, and 1 is one more than the largest number. A multiply that saturates answers the largest number. One that
# wraps answers 32,768, which is -1: at the loudest moment the sound jumps to the other end. That is a bang in the ear.
#
# Below stand, as definitions over natural numbers, the multiply as it is meant (`saturating`), the one that a compiler makes of it (`lowered`:
# test for the trap, else multiply and wrap), and the one that a careless compiler makes (`wrapping`). Each call asks for the weak-head normal
# form of one of them at two numbers: the line `reads n..` has the number. Each comment has the answer that is right, worked out by other means."""


def write(types, two, values, take_false, take_true, calls):
    print(STORY)
    print("\n# The rows: kind, three pairs, bound, height.")
    for n, (words, said) in enumerate(ROWS):
        print("lib " + " ".join(str(v) for v in words) + f"  # {n}: {said}")
    print("\n# The rules of Bool.rec: at false the second argument, at true the third.")
    print(f"rule {NUMBER['false']} 0 {take_false} 0")
    print(f"rule {NUMBER['true']} 0 {take_true} 0")
    print("\n# The declarations.")
    for d, name in enumerate(NAMES):
        kind = {"false": 1, "true": 1, "Bool.rec": 2}.get(name, 0)
        tail = [0, 1, 2, 0, 0, 0, 2, 0] if kind == 2 else [0] * 8
        value = [1, values[name], 0] if name in values else [0, 0, 0]
        words = [kind, 0, types.get(name, two), 0, *value, ROLES.get(name, 0), *tail]
        print("decl " + " ".join(str(v) for v in words) + f"  # {d}: {name}")
    print("\n# Budgets: 4,000 rows, 1,000 steps a call, 50 levels of nesting.")
    print("fill 36000\nsteps 1000\nnesting 50")
    at = None
    for name, x, y, term in calls:
        if (x, y) != at:
            at = (x, y)
            print(f"\n# {spoken(x)} times {spoken(y)}" + (": the trap" if at == (32768, 32768) else ""))
        right = ANSWER[name](x, y)
        wrong = " (not what was meant)" if right != ANSWER["saturating"](x, y) else ""
        print(f"whnf {term} 0  # {name}: {right}, {spoken(right)}{wrong}")


main()
