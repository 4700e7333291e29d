#!/usr/bin/env python3
"""Writes deep.txt: `python3 deep.py > deep.txt`."""
rows=[]
def row(*w): rows.append(w); return len(rows)-1
# decl 0: loops to itself; decl 1: axiom k; decls 2..502: c_0 .. c_500
out=[]
const0=row(2,0,0,0,0,0,0,0,1)
k=row(2,1,0,0,0,0,0,0,1)
s0=row(1,0,0,0,0,0,0,0,1)
v=row(0,0,0,0,0,0,0,1,1)
b=v;h=1
while h<1998:
    h+=1
    b=row(3,k,0,b,0,0,0,1,h)
lam=row(4,s0,0,b,0,0,0,0,h+1)
app=row(3,lam,0,s0,0,0,0,0,h+2)
vals={}
vals[500]=app
for i in range(499,-1,-1):
    c=row(2,2+i+1,0,0,0,0,0,0,1)
    vals[i]=row(7,c,0,1,0,0,0,0,2)
top=row(2,2,0,0,0,0,0,0,1)
print("""# Long and deep runs, within the ordinary stack. The answers come from oracle/model.py; deep.py writes this text.
# The rows: a chain of applications of height 1,998 with variable 0 at its end, a lambda over it applied to sort 0, and 500 projections,
# each of a constant that unfolds to the next. Declaration 0 unfolds to itself, 1 is an axiom, 2 to 502 are the chain.""")
for r in rows: print("lib"," ".join(map(str,r)))
print("decl 0 0",s0,"0 1",const0,"0 0 0 0 0 0 0 0 0 0")
print("decl 0 0",s0,"0 0 0 0 0 0 0 0 0 0 0 0 0")
for i in range(501): print("decl 0 0",s0,"0 1",vals[i],"0 0 0 0 0 0 0 0 0 0")
print("fill 27000\nsteps 1000000\nnesting 500")
print("# 1,000,000 steps, no row, and then refusal 4")
print("whnf",const0,"0")
print("# 500 side reductions, one in the other, and a replacement down 1,998 rows in the innermost: no constructor there, so every projection stays")
print("whnf",top,"0")
