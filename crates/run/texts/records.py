#!/usr/bin/env python3
"""Writes records.txt and records.out: `python3 records.py`."""
from words import Text

t = Text("records", """Refusal 3 at a context record and at the asked term, and their order. records.py writes this text.
The document: "both with bound at most the record's position (from 0)"; "A term is in scope if its bound is at most the depth"; "others also at scratch rows below the mark". The library has the rows 0 sort 0, 1 variable 0, 2 variable 1. By hand from these words; oracle/model.py, which wrote records.out, agrees.""")
class P:
    row, shift, name = 0, 0, "s0"
def ok(why=""): t.final(why, P, "s0")
def no(place, why="", number=3): t.refused(why, P, number, place)
def say(*lines):
    for l in lines: t.asks.append(l)
LIB = "lib 1 0 0 0 0 0 0 0 1  0 0 0 0 0 0 0 1 1  0 1 0 0 0 0 0 2 1"
def record(why, bad, good="0 0 0 0 0"):
    t.block(why)
    say(LIB, "scr 1 0 0 0 0 0 0 0 1", "scr 1 0 0 0 0 0 0 0 1", "mark 1", "ctx 0 0 0 0 0", "ctx " + good, "ctx " + bad, "depth 2")
    ok()
    say("depth 3")
    no(2)
t.note("In each table of this part record 1 passes; record 2 breaks the rule that the comment names, and is first past the depth and not looked at.")
record("a type's bound at position 1, and at 2: variable 1 shifted 1 has bound 3", "2 1 0 0 0", "1 0 0 0 0")
record("a value's bound: variable 0 shifted 2 has bound 3", "0 0 1 2 1", "0 0 1 0 1")
record("a type shifted so far that its bound would wrap to 0", "1 4294967295 0 0 0")
record("a value likewise", "0 0 1 4294967295 1")
record("a closed type's shift is 0", "0 1 0 0 0")
record("a closed value's shift is 0", "0 0 0 1 1")
record("the flag 2 is kept", "0 0 0 0 2")
record("an absent value's row is 0", "0 0 1 0 0")
record("an absent value's shift is 0", "0 0 0 1 0")
record("scratch row 3 is below the mark; row 4 is not", "4 0 0 0 0", "3 0 3 0 1")
record("a value past the mark", "0 0 4 0 1", "0 0 3 0 1")
record("junk", "4294967295 4294967295 4294967295 4294967295 4294967295")

t.block("The first record has position 0: an open type is out of scope there, and in scope at 1.")
say(LIB, "ctx 0 0 0 0 0", "ctx 1 0 1 0 1", "depth 2")
ok()
say("reset", LIB, "ctx 1 0 0 0 0", "depth 1")
no(0)

t.block("THE ORDER: \"lowest declaration, else lowest record, else 0\". Records 1 and 2 are bad.")
say(LIB, "ctx 0 0 0 0 0", "ctx 9 0 0 0 0", "ctx 9 0 0 0 0", "depth 3")
no(1, "the lowest record")
t.refused("the term is out of scope, too: the record first", (1, 3), 3, 1)
say("depth 1")
t.refused("the records are past the depth now: the term, place 0", (1, 1), 3, 0)
say("depth 3", "decl 0 0 0 0 0 0 0 0 0 0 0 0 0 0 0 0")
no(1, "a good declaration changes nothing")
say("decl 0 0 0 0 0 0 0 0 0 0 0 0 0 0 0 0", "decl 0 0 9 0 0 0 0 0 0 0 0 0 0 0 0 0")
no(2, "declaration 2 is bad: before record 1")

t.block("THE ASKED TERM, at depth 2. \"a variable of index 2 at depth 2 is refusal 3, index 1 is fine\"")
say(LIB, "lib 0 2 0 0 0 0 0 3 1", "scr 1 3 0 0 0 0 0 0 1", "scr 1 4 0 0 0 0 0 0 1", "ctx 0 0 0 0 0", "ctx 0 0 0 0 0", "depth 2", "mark 1")
class V:
    def __init__(self, row, shift, name): self.row, self.shift, self.name = row, shift, name
t.final("index 1", V(2, 0, "v1"))
t.refused("index 2", (3, 0), 3, 0)
t.final("index 0 shifted 1", V(1, 1, "v1"))
t.refused("index 0 shifted 2", (1, 2), 3, 0)
t.refused("1 + 4294967295 is exact", (1, 4294967295), 3, 0)
t.refused("a closed row with a shift", (0, 1), 3, 0)
t.final("scratch row 4 is below the mark", V(4, 0, "s3"))
t.refused("row 5 is not, though it is a row", (5, 0), 3, 0)
t.refused("row 6 is none", (6, 0), 3, 0)
t.refused("nor is row 4294967295", (4294967295, 0), 3, 0)
say("mark 2")
t.final("with the mark at 2 row 5 is there", V(5, 0, "s4"))
say("mark 0")
t.refused("with the mark at 0 not even row 4 is", (4, 0), 3, 0)
t.block("No table at all: there is no term to ask for.")
t.refused("row 0", (0, 0), 3, 0)
t.done()
