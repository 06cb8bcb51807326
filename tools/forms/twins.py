#!/usr/bin/env python3
"""python3 tools/forms/twins.py [REPO] [--same-names]: candidates for point 2.
S  functions whose body and signature have one shape when names, types and numbers are left out (groups), at least 12 tokens
N  functions of one name in several crates
P  pairs of functions whose shapes are alike to 0.85 or more (at least 40 tokens)"""
import os,re,sys,collections
sys.path.insert(0,os.path.dirname(os.path.abspath(__file__))); from forms import *
TOK=re.compile(r'b?"(?:[^"\\]|\\.)*"|0x[0-9A-Fa-f]+|\d[\d_]*(?:u8|u16|u32|u64|usize|i16|i32)?|[A-Za-z_]\w*|::|->|=>|==|!=|<=|>=|\+=|-=|\.\.|&&|\|\||\S')
KW=set('let mut if else while loop for in return match break fn as true false struct enum pub self Self'.split())
def toks(fn):
    t=' '.join(s.split('//')[0] for _,s in fn.body)
    return TOK.findall(t)
def shape(ts):
    out=[]
    for i,x in enumerate(ts):
        if x[0] in 'b"' and x.endswith('"'): out.append('S')
        elif x[0].isdigit(): out.append('N')
        elif re.match(r'[A-Za-z_]',x) and x not in KW: out.append('I')
        else: out.append(x)
    # I::I::I -> I ; I.I -> I
    r=[]
    for x in out:
        if x=='I' and len(r)>=2 and r[-1] in('::',) and r[-2]=='I': r.pop(); continue
        r.append(x)
    return r
fns=allfns(); G=collections.defaultdict(list); NM=collections.defaultdict(list)
for fn in fns:
    fn.shape=shape(toks(fn)); 
    if len(fn.shape)>=12: G[' '.join(fn.shape)].append(fn)
    NM[fn.name].append(fn)
gs=sorted([v for v in G.values() if len(v)>1],key=lambda v:-len(v[0].shape)*len(v))
print('S groups',len(gs),'functions',sum(map(len,gs)))
for v in gs: print('S %3d tokens: '%len(v[0].shape)+'; '.join('%s:%d %s'%(short(f.file),f.line,f.name) for f in v))
ns=sorted([(k,v) for k,v in NM.items() if len({f.file for f in v})>1 and k not in('main',)],key=lambda x:-len(x[1]))
print('N names',len(ns),'functions',sum(len(v) for k,v in ns))
for k,v in ns: print('N %s: '%k+'; '.join('%s:%d'%(short(f.file),f.line) for f in v))
big=[f for f in fns if len(f.shape)>=40]; n=0; P=[]
bag=[collections.Counter(zip(f.shape,f.shape[1:],f.shape[2:])) for f in big]
for i in range(len(big)):
    for j in range(i+1,len(big)):
        a,b=bag[i],bag[j]; s=sum((a&b).values())*2/(sum(a.values())+sum(b.values()))
        if s>=0.85 and big[i].shape!=big[j].shape: P.append((s,big[i],big[j]))
print('P pairs',len(P))
for s,a,b in sorted(P,key=lambda x:-x[0]): print('P %.2f %s:%d %s ~ %s:%d %s'%(s,short(a.file),a.line,a.name,short(b.file),b.line,b.name))
