#!/usr/bin/env python3
"""joins.py FILE NAME(if-X or match) THEN ELSE: turns `⊎_elim (λ w. A) (λ w. B) c.IF.branch` into an elim with named cases.
THEN, ELSE: comma lists of what w.0, w.1, .. are (a step's name, or VAR-is)."""
import re,sys
p,ifn,th,el=sys.argv[1:5]
tn=sys.argv[5] if len(sys.argv)>5 else 'then-'+ifn[3:]
en=sys.argv[6] if len(sys.argv)>6 else 'else-'+ifn[3:]
th,el=th.split(','),el.split(',')
s=open(p).read()
def group(s,i):
    d=0
    for k in range(i,len(s)):
        if s[k]=='(':d+=1
        if s[k]==')':
            d-=1
            if d==0:return k+1
def turn(body,names):
    body=re.sub(r"^\(λ w\.\s*",'',body)[:-1]
    def r(m):
        k=int(m.group(1)); n=names[k]
        rest=m.group(2)
        rest=re.sub(r"^\.taken\b",'.true',rest); rest=re.sub(r"^\.left\b",'.false',rest)
        return 'w.'+n+rest
    if len(names)==1: return re.sub(r"(?<![^\s(){};,@\[\]])w\.(left|taken)", lambda m:'w.'+names[0]+{'left':'.false','taken':'.true'}[m.group(1)], body)
    return re.sub(r"(?<![^\s(){};,@\[\]])w\.(\d+)((?:\.[^\s(){}.;,@\"«»\[\]]+)*)",r,body)
while True:
    m=None
    for m_ in re.finditer(r"⊎_elim\s+(?=\(λ w\.)",s):
        a=m_.end(); b=group(s,a)
        c=b+len(re.match(r"\s*",s[b:]).group(0)); d=group(s,c)
        mm=re.match(r"\s*c\.%s\.branch"%re.escape(ifn),s[d:])
        if mm: m=(m_.start(),s[a:b],s[c:d],d+mm.end()); break
    if not m: break
    suffix=ifn[3:]
    s=s[:m[0]]+f"elim c.{ifn}.branch [\n        {tn} w ↦ {turn(m[1],th)}\n      | {en} w ↦ {turn(m[2],el)}\n      ]"+s[m[3]:]
mod=re.search(r"use (\S+)\.Goals as goal\n",s)
suffix=ifn[3:]
s=s.replace(mod.group(0),mod.group(0)+f"use {mod.group(1)}.Goals.{{{tn}, {en}}}\n")
open(p,'w').write(s)
