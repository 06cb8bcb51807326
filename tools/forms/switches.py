#!/usr/bin/env python3
"""python3 tools/forms/switches.py [REPO]: functions that branch on a parameter which says what is to be done.
B  branches on it themselves   H  hands it on only     F  closures, impl Fn, dyn, fn types that are there"""
import os,re,sys,collections
sys.path.insert(0,os.path.dirname(os.path.abspath(__file__))); from forms import *
ENUM={'Kind','Question','Part','Action','Reason','End','Hearing','Standing'}
C=collections.Counter()
for f in files():
    for fn in functions(f):
        b=' '.join(s.strip() for _,s in fn.body)
        for n,t in fn.params:
            n=n.replace('mut ','')
            sel=(t=='bool' and n not in('budgets',)) or t in ENUM or (t in('u8','u32','usize') and re.match(r'(kind|number|what|op|part|question|field|tight|offset|edge_kind|refusal)$',n))
            if not sel: continue
            br=re.search(r'\bmatch %s\b|\bif !?%s\b|\b%s (==|!=|<|<=|>)|(==|<|<=) %s\b'%(n,n,n,n),b)
            k='B' if br else 'H'
            C[k]+=1; print('%s %s:%d%s %s(%s: %s)'%(k,short(f),fn.line,' C' if isC(f) else '',fn.name,n,t))
    for i,s in enumerate(open(f).read().split('\n')):
        if re.match(r'\s*(//|requires|ensures|ghost )',s): continue
        if re.search(r'\bimpl Fn|\bdyn\b|: fn\(|\bF: Fn|[(,=] ?(move )?\|[^|]*\| ?',re.sub(r'"[^"]*"','',s)): C['F']+=1; print('F %s:%d %s'%(short(f),i+1,s.strip()))
print('TOTAL',dict(C))
