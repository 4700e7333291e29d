#!/usr/bin/env python3
"""Prints what rows_run has to write, from document 01's rules of rows over plain Python lists: `answers.py > stdout`."""

LIBRARY = [
    [1, 0, 0, 0, 0, 0, 0, 0, 1],      # 0 sort 0
    [0, 0, 0, 0, 0, 0, 0, 1, 1],      # 1 variable 0
    [2, 1, 0, 0, 0, 0, 0, 0, 1],      # 2 constant 1, no levels
    [4, 0, 0, 1, 0, 0, 0, 0, 2],      # 3 lambda sort 0. variable 0
    [3, 1, 2, 2, 0, 0, 0, 3, 2],      # 4 variable 2 applied to constant 1
    [8, 5, 1, 0, 0, 0, 0, 0, 1],      # 5 number 5 + 2^32
]
SCRATCH = [
    [5, 0, 0, 4, 1, 0, 0, 3, 3],      # 6 pi sort 0. row 4 shifted 1
    [6, 0, 0, 4, 0, 6, 3, 5, 4],      # 7 let sort 0 := row 4 in row 6 shifted 3
    [7, 7, 1, 1, 9, 0, 0, 6, 5],      # 8 projection of row 7 shifted 1
    [0, 4095, 0, 0, 0, 0, 0, 4096, 1],  # 9 variable 4095
    [7] * 9,                          # past the mark
    [7] * 9,
]
MARK, DECLARATIONS = 4, 2

# kind -> the fields that are terms, with 1 for a body under the binder; how many words it uses
TERMS = {0: [], 1: [], 2: [], 3: [(0, 0), (1, 0)], 4: [(0, 0), (1, 1)], 5: [(0, 0), (1, 1)], 6: [(0, 0), (1, 0), (2, 1)], 7: [(0, 0)], 8: []}
USED = {0: 1, 1: 1, 2: 2, 3: 4, 4: 4, 5: 4, 6: 6, 7: 4, 8: 2}

def pointer_bound(rows, row, shift):
    bound = rows[row][7]
    return bound + shift if bound else 0

def sizes(rows, kind, words):
    if kind == 0:
        return words[0] + 1, 1
    children = [(words[2 * j], words[2 * j + 1], under) for j, under in TERMS[kind]]
    bound = max([max(pointer_bound(rows, r, s) - under, 0) for r, s, under in children], default=0)
    height = 1 + max([rows[r][8] for r, s, under in children], default=0)
    return bound, height

def in_range(kind, words):
    if kind == 0:
        return words[0] <= 4095
    if kind == 1:
        return words[0] <= 255
    if kind == 2:
        return words[0] < DECLARATIONS and words[1] <= 16
    if kind == 7:
        return words[2] < DECLARATIONS
    return True

def passes(rows, n):
    kind, words, bound, height = rows[n][0], rows[n][1:7], rows[n][7], rows[n][8]
    if kind > 8 or any(words[USED[kind]:]) or not in_range(kind, words):
        return False
    for j, _ in TERMS[kind]:
        row, shift = words[2 * j], words[2 * j + 1]
        if row >= n or (rows[row][7] == 0 and shift != 0):
            return False
    return (bound, height) == sizes(rows, kind, words) and bound <= 4096 and height <= 2000

def check(rows):
    bad = [n for n in range(len(LIBRARY) + MARK) if not passes(rows, n)]
    return f"broken {bad[0]}" if bad else "pass"

def made(scratch, mark, kind, words):
    bound, height = sizes(LIBRARY + scratch, kind, words)
    if kind == 1 and words[0] > 255:
        said = "refused 10"
    elif bound > 4096 or height > 2000:
        said = "refused 8"
    elif mark == len(scratch):
        said = "refused 5"
    else:
        scratch[mark] = [kind, *words, bound, height]
        said = f"done {len(LIBRARY) + mark} 0 {mark + 1}"
    return said + " : " + " ".join(str(w) for row in scratch[4:] for w in row)

def copy(rows):
    return [list(row) for row in rows]

for at in range(54):
    for name, first in [("library", 0), ("scratch", len(LIBRARY))]:
        for value in [0, 1, 2, 9, 256, 4096, 2**32 - 1]:
            rows = copy(LIBRARY + SCRATCH)
            rows[first + at // 9][at % 9] = value
            print(name, at, value, "=", check(rows))

NONE, OPEN, TOP, OVER, FAR = [0, 0], [4, 2], [9, 0], [9, 1], [1, 2**32 - 1]
for mark in [4, 6]:
    for kind, pairs in [(3, NONE + OPEN), (3, TOP + OPEN), (3, OPEN + OVER), (3, FAR + OPEN), (4, OPEN + OVER), (5, OVER + OPEN),
                        (6, NONE + OPEN + OVER), (6, OVER + NONE + NONE), (6, NONE + FAR + OPEN)]:
        print("make", kind, mark, *pairs, "=", made(copy(SCRATCH), mark, kind, pairs + [0] * (6 - len(pairs))))
for mark in [5, 6]:
    for name, kind, words in [("variable", 0, [4095]), ("variable", 0, [4096]), ("sort", 1, [255]), ("sort", 1, [256]), ("constant", 2, [1, 3]), ("number", 8, [2**32 - 1, 7])]:
        print(name, *words, "=", made(copy(SCRATCH), mark, kind, words + [0] * (6 - len(words))))
for row, shift, k in [(0, 0, 5), (0, 3, 5), (4, 0, 5), (4, 3, 65536), (7, 2**32 - 1, 0), (11, 1, 1)]:
    rows = LIBRARY + SCRATCH
    shifted = "" if shift > 65536 else f" {row} {shift + k if rows[row][7] else shift}"
    print("pointer", row, shift, k, "=", str(pointer_bound(rows, row, shift)) + shifted)
