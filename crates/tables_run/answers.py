#!/usr/bin/env python3
"""Prints what tables_run has to write, from document 01's rules and the format's words over plain Python lists: `answers.py > stdout`."""

def words(text):
    return [ord(letter) - 48 for letter in text.replace(" ", "")]

LIBRARY = words("100000001 000000011 400100002 210000001")
SCRATCH = words("010000021 340110022 777777777")
DECLARATIONS = words("0000000100000000 1000000200000000 1000000321000000 2100000001200120 3000000012000000 0@00120900000000")
RULES = [9] * 4 + [1, 0, 3, 0] * 68 + [9] * 4
CONTEXT = words("00000 10101 77777")
TERM = (5, 0)
MOST = 2**32 - 1

# ROWS: kind -> the fields that are terms, with 1 for a body under the binder; how many words it uses
TERMS = {0: [], 1: [], 2: [], 3: [(0, 0), (1, 0)], 4: [(0, 0), (1, 1)], 5: [(0, 0), (1, 1)], 6: [(0, 0), (1, 0), (2, 1)], 7: [(0, 0)], 8: []}
USED = {0: 1, 1: 1, 2: 2, 3: 4, 4: 4, 5: 4, 6: 6, 7: 4, 8: 2}

def records(size, lent):
    return [lent[at:at + size] for at in range(0, len(lent), size)]

def pointer_bound(rows, row, shift):
    return rows[row][7] + shift if rows[row][7] else 0

def row_passes(rows, n, declarations):
    kind, plain, bound, height = rows[n][0], rows[n][1:7], rows[n][7], rows[n][8]
    if kind > 8 or any(plain[USED[kind]:]):
        return False
    if kind == 0:
        return plain[0] <= 4095 and (bound, height) == (plain[0] + 1, 1)
    if kind == 1 and plain[0] > 255 or kind == 2 and (plain[0] >= declarations or plain[1] > 16) or kind == 7 and plain[2] >= declarations:
        return False
    children = [(plain[2 * j], plain[2 * j + 1], under) for j, under in TERMS[kind]]
    if any(row >= n or (rows[row][7] == 0 and shift) for row, shift, under in children):
        return False
    right = (max([max(pointer_bound(rows, r, s) - under, 0) for r, s, under in children], default=0),
             1 + max([rows[r][8] for r, s, under in children], default=0))
    return (bound, height) == right and bound <= 4096 and height <= 2000

# DECLARATIONS AND RECORDS

def in_scope(rows, below, depth, row, shift):
    """At one of the first rows, bound at most the depth, no shift where the row is closed."""
    if row >= below:
        return False
    return pointer_bound(rows, row, shift) <= depth if rows[row][7] else shift == 0

def value_right(rows, below, depth, flag, row, shift):
    if flag == 0:
        return row == 0 and shift == 0
    return flag == 1 and in_scope(rows, below, depth, row, shift)

def form_right(rows, library, decls, rules, d):
    kind, parameters, second, minors, indices, k, first, count, last = d[0], *d[8:16]
    constructor = lambda number: number < len(decls) and decls[number][0] == 1
    if kind == 0:
        return not any(d[8:])
    if kind == 1:
        return not any(d[10:])
    if kind == 3:
        return not any(d[10:]) and constructor(second)
    if kind != 2 or k or last or count > 64 or first + count > len(rules):
        return False
    return all(constructor(r[0]) and in_scope(rows, library, 0, r[2], r[3]) for r in rules[first:first + count])

def declaration_right(rows, library, decls, rules, j):
    d = decls[j]
    if d[1] > 16 or d[7] > 15 or (d[7] and d[7] in [lower[7] for lower in decls[:j]]):
        return False
    return (in_scope(rows, library, 0, d[2], d[3]) and value_right(rows, library, 0, d[4], d[5], d[6])
            and form_right(rows, library, decls, rules, d))

def record_right(rows, below, j, x):
    return in_scope(rows, below, j, x[0], x[1]) and value_right(rows, below, j, x[4], x[2], x[3])

# ACCEPTANCE

def accept(library, decls, rules, context, depth, scratch, mark, term, steps, nesting):
    sizes = [(library, 9, 65536), (decls, 16, 4096), (rules, 4, 262144), (context, 5, 4096), (scratch, 9, 65536)]
    if any(len(lent) % size or len(lent) > size * most for lent, size, most in sizes):
        return "refused 1 0"
    if mark * 9 > len(scratch) or depth * 5 > len(context) or steps > 1000000 or nesting > 500:
        return "refused 1 0"
    rows = records(9, library) + records(9, scratch)[:mark]
    in_library, decls, rules, context = len(library) // 9, records(16, decls), records(4, rules), records(5, context)
    for n in range(len(rows)):
        if not row_passes(rows, n, len(decls)):
            return f"refused 2 {n}"
    for j in range(len(decls)):
        if not declaration_right(rows, in_library, decls, rules, j):
            return f"refused 3 {j}"
    for j in range(depth):
        if not record_right(rows, len(rows), j, context[j]):
            return f"refused 3 {j}"
    if not in_scope(rows, len(rows), depth, *term):
        return "refused 3 0"
    return "accepted"

# THE CASES

def changed(lent, *changes):
    lent = list(lent)
    for at, value in changes:
        lent[at] = value
    return lent

def small(library=LIBRARY, decls=DECLARATIONS, rules=RULES, context=CONTEXT, depth=2, scratch=SCRATCH, mark=2, term=TERM, steps=7, nesting=3):
    return accept(library, decls, rules, context, depth, scratch, mark, term, steps, nesting)

def word_cases(name, number, lent, at):
    for value in [0, 1, 2, 3, 4, 6, 15, 16, 17, 64, 65, MOST]:
        print("word", number, at, value, "=", small(**{name: changed(lent, (at, value))}))

for at in range(96):
    word_cases("decls", 2, DECLARATIONS, at)
for at in range(12):
    word_cases("rules", 3, RULES, at)
for at in range(15):
    word_cases("context", 4, CONTEXT, at)
for at in range(9, 18):
    word_cases("library", 0, LIBRARY, at)
for at in range(9, 18):
    word_cases("scratch", 1, SCRATCH, at)
word_cases("scratch", 1, SCRATCH, 20)

for at, value, other, second in [
        (61, 1, 62, 64), (61, 1, 62, 65), (61, 5, 62, 64), (61, 6, 62, 64), (61, 7, 62, 64), (61, 70, 62, 0), (61, 71, 62, 0), (61, MOST, 62, 1),
        (23, 1, 60, 0), (23, 1, 60, 1), (87, 3, 60, 1), (87, 3, 39, 0), (39, 0, 87, 0),
        (4, 1, 5, 2), (4, 1, 5, 1), (4, 1, 6, 1), (84, 0, 85, 0), (84, 0, 86, 1)]:
    print("pair", at, value, other, second, "=", small(decls=changed(DECLARATIONS, (at, value), (other, second))))

CLOSED = (2, 0)
for mark, depth, term, steps, nesting in [
        (0, 0, CLOSED, 0, 0), (0, 2, TERM, 7, 3), (1, 2, TERM, 7, 3), (3, 2, TERM, 7, 3), (4, 2, TERM, 7, 3), (MOST, 2, TERM, 7, 3),
        (2, 0, TERM, 7, 3), (2, 1, TERM, 7, 3), (2, 3, TERM, 7, 3), (2, 4, TERM, 7, 3), (2, MOST, TERM, 7, 3),
        (2, 2, CLOSED, 1000000, 500), (2, 2, CLOSED, 1000001, 500), (2, 2, CLOSED, 1000000, 501),
        (2, 2, (2, 1), 7, 3), (2, 2, (1, 1), 7, 3), (2, 2, (1, 2), 7, 3), (2, 2, (1, MOST), 7, 3), (2, 2, (6, 0), 7, 3)]:
    print("numbers", mark, depth, *term, steps, nesting, "=", small(mark=mark, depth=depth, term=term, steps=steps, nesting=nesting))

for a, b, c, d, e in [
        (36, 96, 280, 15, 27), (35, 96, 280, 15, 27), (27, 96, 280, 15, 27), (36, 95, 280, 15, 27), (36, 80, 280, 15, 27), (36, 16, 280, 15, 27),
        (36, 0, 280, 15, 27), (36, 96, 279, 15, 27), (36, 96, 8, 15, 27), (36, 96, 12, 15, 27), (36, 96, 280, 14, 27), (36, 96, 280, 10, 27),
        (36, 96, 280, 5, 27), (36, 96, 280, 15, 26), (36, 96, 280, 15, 18), (36, 96, 280, 15, 9)]:
    print("lengths", a, b, c, d, e, "=", small(LIBRARY[:a], DECLARATIONS[:b], RULES[:c], CONTEXT[:d], 2, SCRATCH[:e]))

SORTS, ZEROS = ([1, 0, 0, 0, 0, 0, 0, 0, 1] * 116510)[:1048580], [0] * 65552
for a, b, c, d, e, mark, depth in [
        (589824, 65536, 1048576, 20480, 589824, 65536, 4096), (589833, 65536, 1048576, 20480, 589824, 65536, 4096),
        (589824, 65552, 1048576, 20480, 589824, 65536, 4096), (589824, 65536, 1048580, 20480, 589824, 65536, 4096),
        (589824, 65536, 1048576, 20485, 589824, 65536, 4096), (589824, 65536, 1048576, 20480, 589833, 65536, 4096),
        (589824, 65536, 1048576, 20480, 589824, 65537, 4096), (589824, 65536, 1048576, 20480, 589824, 65536, 4097),
        (9, 0, 0, 0, 0, 0, 0), (0, 0, 0, 0, 9, 1, 0), (0, 16, 0, 0, 9, 1, 0), (0, 0, 0, 5, 9, 1, 1), (0, 0, 0, 0, 0, 0, 0)]:
    print("large", a, b, c, d, e, mark, depth, "=", accept(SORTS[:a], ZEROS[:b], SORTS[:c], ZEROS[:d], depth, SORTS[:e], mark, (0, 0), 1000000, 500))
