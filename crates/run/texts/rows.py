#!/usr/bin/env python3
"""Writes rows.txt and rows.out: `python3 rows.py`."""
from words import Text

t = Text("rows", """Refusal 2, clause by clause. rows.py writes this text.
The document fixes number and place: 2 at the "lowest such row", scratch rows counted after library rows. Each table has the library rows 0 sort 0, 1 variable 0, 2 lambda sort 0. variable 0, and one declaration, an axiom. The first scratch row, row 3, passes; the second, row 4, breaks the rule that the comment names: it is first past the mark and not looked at, and then below it. The asked term is sort 0, row 0, which answers itself where everything passes. By hand from the document's words; oracle/model.py, which wrote rows.out, agrees.""")
class P:
    row, shift, name = 0, 0, "s0"
def ok(why): t.final(why, P, "s0")
def no(why, number, place=0): t.refused(why, P, number, place)
def say(*lines):
    for l in lines: t.asks.append(l)
S0 = "1 0 0 0 0 0 0 0 1"

BASE = "1 0 0 0 0 0 0 0 1  0 0 0 0 0 0 0 1 1  4 0 0 1 0 0 0 0 2"
def pair(why, good, bad):
    t.block(why)
    say("lib " + BASE, "decl 0 0 0 0 0 0 0 0 0 0 0 0 0 0 0 0", "scr " + good + "  " + bad, "mark 1")
    ok("")
    say("mark 2")
    no("", 2, 4)
pair("kind 8 is the last", "8 5 6 0 0 0 0 0 1", "9 0 0 0 0 0 0 0 1")
pair("a variable's \"index, 0 to 4,095\"", "0 4095 0 0 0 0 0 4096 1", "0 4096 0 0 0 0 0 4097 1")
pair("its bound is index + 1", "0 7 0 0 0 0 0 8 1", "0 7 0 0 0 0 0 7 1")
pair("its height is 1", "0 7 0 0 0 0 0 8 1", "0 7 0 0 0 0 0 8 2")
pair("its second word is unused", "0 7 0 0 0 0 0 8 1", "0 7 1 0 0 0 0 8 1")
pair("index 4294967295: index + 1 is exact, not 0", "0 0 0 0 0 0 0 1 1", "0 4294967295 0 0 0 0 0 0 1")
pair("a sort's \"level, 0 to 255\"", "1 255 0 0 0 0 0 0 1", "1 256 0 0 0 0 0 0 1")
pair("its last unused word", "1 1 0 0 0 0 0 0 1", "1 1 0 0 0 0 1 0 1")
pair("its bound is 0", "1 1 0 0 0 0 0 0 1", "1 1 0 0 0 0 0 1 1")
pair("its height is not 0", "1 1 0 0 0 0 0 0 1", "1 1 0 0 0 0 0 0 0")
pair("\"a declaration number names a declaration\": there is one, 0", "2 0 0 0 0 0 0 0 1", "2 1 0 0 0 0 0 0 1")
pair("\"count of levels given, 0 to 16\"; the declaration's own count is not asked", "2 0 16 0 0 0 0 0 1", "2 0 17 0 0 0 0 0 1")
pair("a constant's third word is unused", "2 0 0 0 0 0 0 0 1", "2 0 0 1 0 0 0 0 1")
pair("\"A child's row number is lower than its parent's\": a row is not its own child", "3 2 0 0 0 0 0 0 3", "3 4 0 0 0 0 0 0 3")
pair("nor is a row after it", "3 2 0 2 0 0 0 0 3", "3 2 0 5 0 0 0 0 3")
pair("nor is row 4294967295; the row just before, a scratch row, would be one", "3 2 0 2 0 0 0 0 3", "3 3 0 4294967295 0 0 0 0 4")
pair("a closed child's \"shift must then be 0\"", "3 0 0 1 0 0 0 1 2", "3 0 1 1 0 0 0 1 2")
pair(".. also where the child has a binder", "3 2 0 1 0 0 0 1 3", "3 2 1 1 0 0 0 1 3")
pair("an application's bound is the largest child bound, row bound plus shift", "3 1 2 1 3 0 0 4 2", "3 1 2 1 3 0 0 3 2")
pair("its height is 1 + the largest child height", "3 0 0 2 0 0 0 0 3", "3 0 0 2 0 0 0 0 2")
pair("its third pair is unused", "3 0 0 0 0 0 0 0 2", "3 0 0 0 0 0 1 0 2")
pair("\"A row's bound is at most 4,096\": variable 0 shifted 4,095", "3 0 0 1 4095 0 0 4096 2", "3 0 0 1 4096 0 0 4097 2")
pair("shift 4294967295: 1 + 4294967295 is exact, not 0", "3 0 0 1 0 0 0 1 2", "3 0 0 1 4294967295 0 0 0 2")
pair("a lambda's body counts one less, its type does not", "4 1 0 1 0 0 0 1 2", "4 1 0 1 0 0 0 0 2")
pair("\"a body's counted one less (not below 0)\"", "4 0 0 0 0 0 0 0 2", "4 0 0 0 0 0 0 4294967295 2")
pair("a body of bound 4,097 makes a lambda of bound 4,096", "4 0 0 1 4096 0 0 4096 2", "4 0 0 1 4097 0 0 4097 2")
pair("a pi likewise", "5 0 0 1 4096 0 0 4096 2", "5 0 0 1 4097 0 0 4097 2")
pair("a pi's third pair is unused", "5 0 0 1 0 0 0 0 2", "5 0 0 1 0 1 0 0 2")
pair("a let's value counts fully, its body one less", "6 0 0 1 0 1 0 1 2", "6 0 0 1 0 1 0 0 2")
pair("its body is a child too: not row 4294967295", "6 0 0 0 0 2 0 0 3", "6 0 0 0 0 4294967295 0 0 3")
pair("its three children's heights", "6 0 0 2 0 0 0 0 3", "6 0 0 2 0 0 0 0 2")
pair("a closed body's shift is 0", "6 0 0 0 0 1 1 1 2", "6 0 0 0 0 2 1 0 3")
pair("a projection's field index may be any word", "7 2 0 0 4294967295 0 0 0 3", "7 2 0 1 0 0 0 0 3")
pair("its third pair is unused", "7 1 4095 0 1 0 0 4096 2", "7 1 4095 0 1 0 1 4096 2")
pair("a number's words are any", "8 4294967295 4294967295 0 0 0 0 0 1", "8 1 1 1 0 0 0 0 1")
pair("its bound is 0", "8 0 0 0 0 0 0 0 1", "8 0 0 0 0 0 0 1 1")
t.done()
