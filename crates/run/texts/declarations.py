#!/usr/bin/env python3
"""Writes declarations.txt and declarations.out: `python3 declarations.py`."""
from words import Text

t = Text("declarations", """Refusal 3 at a declaration, clause by clause, and its lowest place. declarations.py writes this text.
The document: "a declaration, role, context record or the asked term breaks its rule, or a K flag", at the "lowest declaration, else lowest record, else 0"; the words are those of the format. In each pair the table has the library rows 0 sort 0, 1 variable 0, 2 the axiom, where the comment says so a scratch row 3 below the mark, declaration 0, an axiom, and 1, a constructor. Declaration 2 passes; declaration 3 breaks the rule that the comment names. The asked term is sort 0. By hand from these words; oracle/model.py, which wrote declarations.out, agrees.
The words of a declaration: kind, levels, type, 1 with a value, value, role, parameters, fields or motives or constructor, minors, indices, K, first rule, rules, 0.""")
class P:
    row, shift, name = 0, 0, "s0"
def ok(why=""): t.final(why, P, "s0")
def no(place, why="", number=3): t.refused(why, P, number, place)
def say(*lines):
    for l in lines: t.asks.append(l)
AX = "0 0 0 0 0 0 0 0 0 0 0 0 0 0 0 0"
CT = "1 0 0 0 0 0 0 0 0 1 0 0 0 0 0 0"
LIB = "lib 1 0 0 0 0 0 0 0 1  0 0 0 0 0 0 0 1 1  2 0 0 0 0 0 0 0 1"
SCR = "scr 1 0 0 0 0 0 0 0 1"
def pair(why, good, bad, *rules):
    t.block(why)
    say(LIB, *([SCR, "mark 1"] if "scratch" in why else []), "decl " + AX + "  " + CT, *rules, "decl " + good)
    ok()
    say("decl " + bad)
    no(3)
pair("kind 3 is the last; 4 is kept", "3 0 0 0 0 0 0 0 2 1 0 0 0 0 0 0", "4 0 0 0 0 0 0 0 0 0 0 0 0 0 0 0")
pair("\"level count 0 to 16\"", "0 16 0 0 0 0 0 0 0 0 0 0 0 0 0 0", "0 17 0 0 0 0 0 0 0 0 0 0 0 0 0 0")
pair("\"closed type\": variable 0 is open", "0 0 2 0 0 0 0 0 0 0 0 0 0 0 0 0", "0 0 1 0 0 0 0 0 0 0 0 0 0 0 0 0")
pair("a closed type's shift is 0", "0 0 2 0 0 0 0 0 0 0 0 0 0 0 0 0", "0 0 2 1 0 0 0 0 0 0 0 0 0 0 0 0")
pair("\"declarations point only at library rows\": row 3 is a scratch row", "0 0 2 0 0 0 0 0 0 0 0 0 0 0 0 0", "0 0 3 0 0 0 0 0 0 0 0 0 0 0 0 0")
pair("\"closed value\"", "0 0 0 0 1 2 0 0 0 0 0 0 0 0 0 0", "0 0 0 0 1 1 0 0 0 0 0 0 0 0 0 0")
pair("a value in the scratch", "0 0 0 0 1 2 0 0 0 0 0 0 0 0 0 0", "0 0 0 0 1 3 0 0 0 0 0 0 0 0 0 0")
pair("a value's shift", "0 0 0 0 1 0 0 0 0 0 0 0 0 0 0 0", "0 0 0 0 1 0 1 0 0 0 0 0 0 0 0 0")
pair("the flag is 0 or 1", "0 0 0 0 1 0 0 0 0 0 0 0 0 0 0 0", "0 0 0 0 2 0 0 0 0 0 0 0 0 0 0 0")
pair("an absent value's words are 0", "0 0 0 0 1 2 0 0 0 0 0 0 0 0 0 0", "0 0 0 0 0 2 0 0 0 0 0 0 0 0 0 0")
pair("role 15 is the last; 16 is kept", "0 0 0 0 0 0 0 15 0 0 0 0 0 0 0 0", "0 0 0 0 0 0 0 16 0 0 0 0 0 0 0 0")
pair("so is 22", "0 0 0 0 0 0 0 1 0 0 0 0 0 0 0 0", "0 0 0 0 0 0 0 22 0 0 0 0 0 0 0 0")
pair("the largest word is no role", "0 0 0 0 0 0 0 2 0 0 0 0 0 0 0 0", "0 0 0 0 0 0 0 4294967295 0 0 0 0 0 0 0 0")
pair("\"a second holder breaks the rule\": the place is the second's", "0 0 0 0 0 0 0 9 0 0 0 0 0 0 0 0", "1 0 0 0 0 0 0 9 0 0 0 0 0 0 0 0")
pair("a plain declaration has no parameters", AX, "0 0 0 0 0 0 0 0 1 0 0 0 0 0 0 0")
pair("a constructor's parameters and fields are any words; its next word is 0", "1 0 0 0 0 0 0 0 4294967295 4294967295 0 0 0 0 0 0", "1 0 0 0 0 0 0 0 0 0 1 0 0 0 0 0")
pair("\"Named constructors are of that kind\": a structure type names declaration 1, and 0, an axiom", "3 0 0 0 0 0 0 0 9 1 0 0 0 0 0 0", "3 0 0 0 0 0 0 0 9 0 0 0 0 0 0 0")
pair("a structure type names a declaration past the list", "3 0 0 0 0 0 0 0 0 1 0 0 0 0 0 0", "3 0 0 0 0 0 0 0 0 4 0 0 0 0 0 0")
pair("a structure type's next word is 0", "3 0 0 0 0 0 0 0 0 1 0 0 0 0 0 0", "3 0 0 0 0 0 0 0 0 1 1 0 0 0 0 0")
pair("a recursor's counts are any words; a K flag is refused", "2 0 0 0 0 0 0 0 4294967295 4294967295 4294967295 4294967295 0 0 0 0", "2 0 0 0 0 0 0 0 0 0 0 0 1 0 0 0")
pair("a recursor's last word is 0", "2 0 0 0 0 0 0 0 0 0 0 0 0 0 0 0", "2 0 0 0 0 0 0 0 0 0 0 0 0 0 0 1")
pair("first rule + count is at most the list's length, 1", "2 0 0 0 0 0 0 0 0 0 0 0 0 0 1 0", "2 0 0 0 0 0 0 0 0 0 0 0 0 1 1 0", "rule 1 0 0 0")
pair("also where the count is 0", "2 0 0 0 0 0 0 0 0 0 0 0 0 1 0 0", "2 0 0 0 0 0 0 0 0 0 0 0 0 2 0 0", "rule 1 0 0 0")
pair("4294967295 + 1 is exact, not 0", "2 0 0 0 0 0 0 0 0 0 0 0 0 1 0 0", "2 0 0 0 0 0 0 0 0 0 0 0 0 4294967295 1 0", "rule 1 0 0 0")
pair("rule 1 names an axiom. Rule 0 may be shared; rule 1 is not looked at where nobody names it", "2 0 0 0 0 0 0 0 0 0 0 0 0 0 1 0", "2 0 0 0 0 0 0 0 0 0 0 0 0 0 2 0", "rule 1 4294967295 0 0", "rule 0 0 0 0")
pair("rule 1 names a declaration past the list", "2 0 0 0 0 0 0 0 0 0 0 0 0 0 1 0", "2 0 0 0 0 0 0 0 0 0 0 0 0 0 2 0", "rule 1 0 2 0", "rule 4 0 0 0")
pair("rule 1 has an open value", "2 0 0 0 0 0 0 0 0 0 0 0 0 0 1 0", "2 0 0 0 0 0 0 0 0 0 0 0 0 1 1 0", "rule 1 0 0 0", "rule 1 0 1 0")
pair("rule 1 has a value in the scratch", "2 0 0 0 0 0 0 0 0 0 0 0 0 0 1 0", "2 0 0 0 0 0 0 0 0 0 0 0 0 1 1 0", "rule 1 0 0 0", "rule 1 0 3 0")
pair("rule 1 has a shifted value", "2 0 0 0 0 0 0 0 0 0 0 0 0 0 1 0", "2 0 0 0 0 0 0 0 0 0 0 0 0 1 1 0", "rule 1 0 0 0", "rule 1 0 0 1")
SIXTY = ["rule " + "  ".join(["1 0 0 0"] * 13)] * 5
pair("\"64 rules a recursor (more is refusal 3)\"; the list has 65", "2 0 0 0 0 0 0 0 0 0 0 0 0 1 64 0", "2 0 0 0 0 0 0 0 0 0 0 0 0 0 65 0", *SIXTY)

t.block("THE LOWEST PLACE. Three declarations hold role add: the second holder, 2, is the lowest.")
say(LIB, "decl " + AX)
say("decl 0 0 0 0 0 0 0 9 0 0 0 0 0 0 0 0", "decl 0 0 0 0 0 0 0 9 0 0 0 0 0 0 0 0", "decl 0 0 0 0 0 0 0 9 0 0 0 0 0 0 0 0")
no(2)
t.block("The first holder, 0, is bad in another way: it is the lowest. Of a lower holder only the role word counts (docs/DECISIONS.md, D9), so 1 is bad as well.")
say(LIB, "decl 0 17 0 0 0 0 0 9 0 0 0 0 0 0 0 0", "decl 0 0 0 0 0 0 0 9 0 0 0 0 0 0 0 0")
no(0)
t.block("A second holder at 1, and a bad kind at 2: the lowest, 1.")
say(LIB, "decl 0 0 0 0 0 0 0 9 0 0 0 0 0 0 0 0", "decl 0 0 0 0 0 0 0 9 0 0 0 0 0 0 0 0", "decl 7 0 0 0 0 0 0 0 0 0 0 0 0 0 0 0")
no(1)
t.block("A named constructor may stand later. Structure type 0 names 1, whose kind is right and whose level count is not: the place is 1.")
say(LIB, "decl 3 0 0 0 0 0 0 0 0 1 0 0 0 0 0 0")
no(0, "before 1 is there")
say("decl 1 17 0 0 0 0 0 0 0 0 0 0 0 0 0 0")
no(1, "and after")
t.block("Recursor 0 with a rule for 1: before it is there, and after.")
say(LIB, "rule 1 0 0 0", "decl 2 0 0 0 0 0 0 0 0 0 0 0 0 0 1 0")
no(0, "a number past the list")
say("decl " + CT)
ok("a constructor that stands later")
t.done()
