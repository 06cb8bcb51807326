#!/usr/bin/env python3
"""python3 tools/forms/contracts.py [REPO] [-v]: facts that stand in the contracts of three or more functions, parameters that travel together.
requires clauses are split at × outside brackets, `.old`/`.new` written as `.now`, white space folded; -r also writes variables of one role alike
(table/bytes/component/edge/part/program -> B, out/lent/text/list -> O, i/j/k/c/row/component -> I) and numbers stay."""
import os,re,sys,collections
sys.path.insert(0,os.path.dirname(os.path.abspath(__file__))); from forms import *
V='-v' in sys.argv
def split(t):
    out=[];d=0;cur='';
    for i,ch in enumerate(t):
        if ch in '({[': d+=1
        if ch in ')}]': d-=1
        if ch=='×' and d==0: out.append(cur); cur=''
        else: cur+=ch
    out.append(cur); return out
def norm(c):
    c=re.sub(r'\s+',' ',c).strip()
    while c.startswith('(') and c.endswith(')'):
        d=0;ok=True
        for i,ch in enumerate(c):
            d+= ch=='('; d-= ch==')'
            if d==0 and i<len(c)-1: ok=False
        if not ok: break
        c=c[1:-1].strip()
    return re.sub(r'\.(old|new)\b','.now',c)
def clauses(fn,kind):
    t=' '.join(s for _,s in fn.contract); r=[]
    for m in re.finditer(r'\b(requires|ensures)\b(?: \w+)? \{(.*?)\}(?= (?:requires|ensures)\b|$)',t):
        if m.group(1)==kind: r+=[norm(x) for x in split(m.group(2))]
    return [x for x in r if x]
def role(c):
    c=re.sub(r'\b(table|bytes|component|edge|part|program|guards|updates|pairs|statement)\.now\b','B.now',c)
    c=re.sub(r'\b(out|lent|text|list|chart|told|answers|observations|kept|digits)\.now\b','O.now',c)
    return c
fns=allfns(); REQ=collections.defaultdict(list); ENS=collections.defaultdict(list); n=0
for fn in fns:
    for c in set(clauses(fn,'requires')):
        REQ[role(c) if '-r' in sys.argv else c].append(fn); n+=1
    for c in set(clauses(fn,'ensures')): ENS[role(c) if '-r' in sys.argv else c].append(fn)
with_req=[f for f in fns if clauses(f,'requires')]
big=sorted([(k,v) for k,v in REQ.items() if len(v)>=3],key=lambda x:-len(x[1]))
print('FUNCTIONS',len(fns),'with requires',len(with_req),'clauses',n,'different',len(REQ),'in three or more functions',len(big),'standing in',sum(len(v) for k,v in big),'places')
for k,v in big: print('R %3d %s'%(len(v),k)+('\n      '+'; '.join('%s:%d %s%s'%(short(f.file),f.line,f.name,' C' if isC(f.file) else '') for f in v) if V else ''))
be=sorted([(k,v) for k,v in ENS.items() if len(v)>=3],key=lambda x:-len(x[1]))
print('ENSURES in three or more',len(be))
for k,v in be: print('E %3d %s'%(len(v),k)+('\n      '+'; '.join('%s:%d %s%s'%(short(f.file),f.line,f.name,' C' if isC(f.file) else '') for f in v) if V else ''))
P=[(f,frozenset(re.sub(r"'\w+ ",'',p[0]+': '+p[1].replace('&mut ','&')) for p in f.params if p[1])) for f in fns]
P=[(f,s) for f,s in P if len(s)>=3]
sets=set(s for f,s in P)
closed=set(sets); front=set(sets)
for a in list(sets):
    for b in list(sets):
        c=a&b
        if len(c)>=3: closed.add(c)
sup={c:[f for f,s in P if c<=s] for c in closed}
sup={c:v for c,v in sup.items() if len(v)>=3}
# a closed set is kept if no larger one has the same functions
keep={c:v for c,v in sup.items() if not any(c<d and len(w)==len(v) for d,w in sup.items())}
print('PARAMETERS functions with three or more',len(P),'closed groups of three or more in three or more functions',len(keep))
cov=set()
for c,v in sorted(keep.items(),key=lambda x:(-len(x[1])*len(x[0]),-len(x[1]))):
    print('P %3d x %2d {%s}'%(len(v),len(c),', '.join(sorted(c)))+('\n      '+'; '.join('%s:%d %s%s'%(short(f.file),f.line,f.name,' C' if isC(f.file) else '') for f in v) if V else '')); cov|=set((f.file,f.line) for f in v)
print('FUNCTIONS in some group',len(cov)); 
long=sorted([f for f in fns if len(f.params)>=7],key=lambda f:-len(f.params))
print('LONG functions with seven or more parameters',len(long),', ten or more',len([f for f in long if len(f.params)>=10]))
if V:
    for f in long: print('L %2d %s:%d %s'%(len(f.params),short(f.file),f.line,f.name))
