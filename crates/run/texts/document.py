#!/usr/bin/env python3
"""Writes the file document.out: for each call of the file document.txt the answer below, worked out by hand, and the sums of the words that are
left. Of the text it reads only what the sums need, and it makes no call: `python3 document.py > document.out`."""
import os

JUNK = 4294967295
S0 = "s0"

def ap(*terms):
    out = terms[0]
    for t in terms[1:]:
        out = f"(@ {out} {t})"
    return out

# a term: row, shift, steps, read-out, the words of the rows that are written; a refusal: its number and place
TERM, REFUSED = 0, 1
F_A = [3, 4, 0, 1, 0, 0, 0, 0, 2]
ANSWERS = [
    (TERM, 0, 0, 0, S0, []),
    (TERM, 1, 0, 1, "s1", []),
    (TERM, 10, 0, 1, "v2", [0, 2, 0, 0, 0, 0, 0, 3, 1]),
    (TERM, 1, 0, 1, "s1", []),
    # E5
    (TERM, 1, 1, 1, "v1", []),
    (TERM, 2, 0, 0, "v1", []),
    (REFUSED, 3, 0),
    (REFUSED, 3, 0),
    # E6
    (TERM, 31, 0, 1, ap("c2", "s1"), F_A),
    (TERM, 31, 0, 0, ap("c2", "s1"), []),
    # E7
    (TERM, 15, 0, 0, ap("c0", S0, S0, S0, "c2", S0, ap("c1", S0, S0, "s1", S0)), []),
    # E8
    (TERM, 16, 0, 0, "c8", []),
    # E9
    (TERM, 32, 0, 1, "n0", [8, 0, 0, 0, 0, 0, 0, 0, 1]),
    # E10
    (REFUSED, 7, 0),
    # E11: succ, 1, succ 1; f applied to three sorts and to 1
    (TERM, 39, 0, 1, ap("c2", S0, S0, S0, "n1"),
     [2, 4, 0, 0, 0, 0, 0, 0, 1] + [8, 1, 0, 0, 0, 0, 0, 0, 1] + [3, 33, 0, 34, 0, 0, 0, 0, 2]
     + [3, 4, 0, 0, 0, 0, 0, 0, 2] + [3, 36, 0, 0, 0, 0, 0, 0, 3] + [3, 37, 0, 0, 0, 0, 0, 0, 4] + [3, 38, 0, 34, 0, 0, 0, 0, 5]),
    (TERM, 39, 0, 0, ap("c2", S0, S0, S0, "n1"), []),
    # E6 with no level to spare
    (REFUSED, 6, 0),
]

def total(words):
    h = 1
    for w in words:
        h = (31 * h + w) % 2**32
    return h

def answer(a, scratch, mark):
    """writes the answer's lines but the last; the mark after it"""
    if a[0] == REFUSED:
        print(f"refused {a[1]} at {a[2]}")
        if a[1] > 3:
            scratch[9 * mark:] = [0] * (len(scratch) - 9 * mark)
        return mark
    _, row, shift, steps, reads, words = a
    scratch[9 * mark:9 * mark + len(words)] = words
    new = mark + len(words) // 9
    print(f"term {row} {shift} steps {steps} rows {new - mark} mark {new}\nreads {reads}")
    return new

def main():
    folder = os.path.dirname(os.path.abspath(__file__))
    due = iter(ANSWERS)
    scratch, context, mark = [], [], 0
    for line in open(os.path.join(folder, "document.txt")):
        words = line.split("#")[0].split()
        if not words:
            continue
        keyword, numbers = words[0], [int(w) for w in words[1:]]
        if keyword == "reset":
            scratch, context, mark = [], [], 0
        elif keyword == "fill":
            scratch += [JUNK] * numbers[0]
        elif keyword == "ctx":
            context += numbers
        elif keyword in ("whnf", "again"):
            mark = answer(next(due), scratch, mark)
            print("left", total(scratch), total(context))
    assert next(due, None) is None

main()
