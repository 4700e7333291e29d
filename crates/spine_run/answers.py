#!/usr/bin/env python3
"""Prints what spine_run has to write, from document 01's rules of rows and heads over plain Python lists: `answers.py > stdout`."""

LIBRARY = [
    [2, 0, 0, 0, 0, 0, 0, 0, 1],      # 0 constant 0
    [0, 0, 0, 0, 0, 0, 0, 1, 1],      # 1 variable 0
    [0, 1, 0, 0, 0, 0, 0, 2, 1],      # 2 variable 1
    [0, 2, 0, 0, 0, 0, 0, 3, 1],      # 3 variable 2
    [3, 0, 0, 1, 0, 0, 0, 1, 2],      # 4 row 0 applied to row 1
    [3, 4, 1, 2, 0, 0, 0, 2, 3],      # 5 row 4 shifted 1, applied to row 2
    [3, 5, 2, 3, 0, 0, 0, 4, 4],      # 6 row 5 shifted 2, applied to row 3
]
SCRATCH = [
    [4, 0, 0, 1, 0, 0, 0, 0, 2],      # 7 lambda constant 0. variable 0
    [3, 7, 0, 6, 1, 0, 0, 5, 5],      # 8 row 7 applied to row 6 shifted 1
    [3, 1, 4, 0, 0, 0, 0, 5, 2],      # 9 variable 0 shifted 4, applied to constant 0
]
FREE = 2
# row k is row k - 1 applied to row 0, and has the height k + 1
TOWER = [[2, 0, 0, 0, 0, 0, 0, 0, 1]] + [[3, k - 1, 0, 0, 0, 0, 0, 0, k + 1] for k in range(1, 2000)]

def shifted(rows, pointer, k):
    """A closed pointer stays as it is."""
    row, shift = pointer
    return (row, shift + k) if rows[row][7] else pointer

def bound(rows, pointer):
    row, shift = pointer
    return rows[row][7] + shift if rows[row][7] else 0

def spine(rows, t):
    """The head and the arguments: each child takes the pointer's shift on."""
    row, shift = t
    if rows[row][0] != 3:
        return t, []
    f, a = tuple(rows[row][1:3]), tuple(rows[row][3:5])
    head, arguments = spine(rows, shifted(rows, f, shift))
    return head, arguments + [shifted(rows, a, shift)]

def applied(rows, free, f, arguments):
    """One row each: 8, then 5. What was written before a refusal stands: only the outermost call zeroes."""
    rows = list(rows)
    for a in arguments:
        size = max(bound(rows, f), bound(rows, a)), 1 + max(rows[f[0]][8], rows[a[0]][8])
        if size[0] > 4096 or size[1] > 2000:
            return rows, "refused 8"
        if free == 0:
            return rows, "refused 5"
        rows.append([3, *f, *a, 0, 0, *size])
        f, free = (len(rows) - 1, 0), free - 1
    return rows, f

def line(*parts):
    print(" ".join(str(p) for p in parts))

def walk(row, shift):
    show_head(LIBRARY + SCRATCH, (row, shift))
    _, arguments = spine(LIBRARY + SCRATCH, (row, shift))
    line("arguments", row, shift, "=", *[n for a in arguments for n in a])

def show_head(rows, t):
    head, arguments = spine(rows, t)
    line("head", *t, "=", *head, len(arguments))

def show_apply(rows, nlib, free, f, t, start, end):
    _, arguments = spine(rows, t)
    after, answer = applied(rows, free, f, arguments[start:end])
    said = [answer] if isinstance(answer, str) else ["done", *answer, len(after) - nlib]
    words = [n for row in after[len(rows):] for n in row]
    line("apply", *f, *t, start, end, "=", *said, ":", *words, *[0] * (9 * free - len(words)))

def runs(f, t):
    for start in range(4):
        for end in range(start, 4):
            show_apply(LIBRARY + SCRATCH, len(LIBRARY), FREE, f, t, start, end)

def tower(row):
    show_apply(TOWER, len(TOWER), 3, (row, 0), (2, 0), 0, 2)

for t in [(0, 0), (1, 2), (4, 0), (4, 3), (6, 0), (6, 5), (8, 2), (9, 3)]:
    walk(*t)
runs((7, 0), (6, 5))
runs((1, 9), (6, 0))
runs((2, 4095), (6, 0))
line("head", 1999, 0, "=", 0, 0, 1999)  # row 1999 is row 0 applied 1999 times
for row in [1997, 1998, 1999]:
    tower(row)
