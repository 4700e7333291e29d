"""The answers of replace_run's cases, from the paper's text on replacement and on rows: `answers.py > stdout`. It reads nothing of the program.
`answers.py rows` and `answers.py cases` print the library's words and the cases, for the program."""
import sys

TABLE = ["...", "...", "...", "tt.", "tb.", "tb.", "ttb", "t..", "..."]  # plain word, term, body; by kind
library = []


class Refusal(Exception):
    pass


def bound(rows, p):
    return rows[p[0]][7] + p[1] if rows[p[0]][7] else 0


def row_words(rows, kind, pairs):
    if kind == 0:
        return [0, pairs[0][0], 0, 0, 0, 0, 0, pairs[0][0] + 1, 1]
    bounds, heights = [0], [0]
    for mark, p in zip(TABLE[kind], pairs):
        if mark != ".":
            bounds.append(max(bound(rows, p) - (mark == "b"), 0))
            heights.append(rows[p[0]][8])
    return [kind] + [w for p in pairs for w in p] + [max(bounds), 1 + max(heights)]


def put(rows, most, kind, pairs):
    words = row_words(rows, kind, pairs)
    if words[7] > 4096 or words[8] > 2000:
        raise Refusal(8)
    if len(rows) == most:
        raise Refusal(5)
    rows.append(words)
    return (len(rows) - 1, 0)


def up(rows, p, k):
    return (p[0], p[1] + k) if rows[p[0]][7] else p


def replace(rows, most, p, c, value, n, k):
    if bound(rows, p) <= c:
        return p
    if p[1] >= c + n:
        return (p[0], p[1] - n + k)
    return up(rows, on_row(rows, most, p[0], c - p[1], value, n, k), p[1])


def on_row(rows, most, r, c, value, n, k):
    kind, index = rows[r][0], rows[r][1]
    if kind == 0:
        if index < c:
            return (r, 0)
        if index == c and n == 1:
            return up(rows, value, c)
        return put(rows, most, 0, [(index - n + k, 0)])
    pairs = []
    for j, mark in enumerate(TABLE[kind]):
        p = (rows[r][2 * j + 1], rows[r][2 * j + 2])
        pairs.append(p if mark == "." else replace(rows, most, p, c + (mark == "b"), value, n, k))
    return put(rows, most, kind, pairs)


def lib(kind, *pairs):
    library.append(row_words(library, kind, list(pairs) + [(0, 0)] * (3 - len(pairs))))
    return (len(library) - 1, 0)


sort0, sort1, var0, var1 = lib(1, (0, 0)), lib(1, (1, 0)), lib(0, (0, 0)), lib(0, (1, 0))
const0 = lib(2, (0, 0))
applied = lib(3, var0, const0)
under = lib(4, sort0, var1)
twice = lib(3, var1, var1)
bind = lib(6, var0, var1, var1)
field = lib(7, var0, (3, 2))
number = lib(8, (7, 1))
deep = lib(5, under, number)

CASES = [  # name, pointer, cutoff, value, n, move, free rows
    ("E2", var0, 0, sort1, 1, 0, 3),
    ("E3", var1, 0, sort1, 1, 2, 3),
    ("value up under a binder", under, 0, var0, 1, 0, 3),
    ("value not moved", var0, 0, var1, 1, 2, 3),
    ("closed result", (applied[0], 1), 1, sort1, 1, 0, 3),
    ("index written though it stays", var1, 0, sort1, 1, 1, 3),
    ("shared row twice", twice, 0, sort1, 1, 3, 3),
    ("shift moved", (var1[0], 2), 0, sort1, 1, 5, 3),
    ("bound at the cutoff", (var1[0], 1), 3, sort1, 1, 5, 3),
    ("no value, shift moved", applied, 0, sort0, 0, 3, 3),
    ("no value, past the cutoff", twice, 1, sort0, 0, 3, 3),
    ("let, body at the next cutoff", bind, 0, (var0[0], 4), 1, 2, 3),
    ("projection keeps its words", field, 0, sort1, 1, 0, 3),
    ("closed children", (deep[0], 2), 2, var1, 1, 6, 3),
    ("8 before 5", var1, 0, sort1, 1, 5000, 0),
    ("5", var1, 0, sort1, 1, 0, 0),
    ("5 at the second row", twice, 0, sort1, 1, 3, 1),
    ("8 at the new row", applied, 0, (var1[0], 4095), 1, 0, 3),
]

if sys.argv[1:] == ["rows"]:
    print(", ".join(str(w) for words in library for w in words))
elif sys.argv[1:] == ["cases"]:
    for name, p, c, v, n, k, free in CASES:
        value = f"Some(({v[0]}, {v[1]}))" if n else "None"
        print(f'    ("{name}", ({p[0]}, {p[1]}), {c}, {value}, {k}, {free}),')
else:
    for name, p, c, v, n, k, free in CASES:
        rows = [list(words) for words in library]
        try:
            q = replace(rows, len(library) + free, p, c, v, n, k)
            new = [w for words in rows[len(library):] for w in words]
            print(f"{name}: {q[0]} {q[1]} {len(rows) - len(library)}" + "".join(f" {w}" for w in new))
        except Refusal as e:
            print(f"{name}: refused {e}")
