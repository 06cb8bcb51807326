#!/usr/bin/env python3
"""python3 tools/forms/buffers.py [REPO]: candidates for point 6.
A  arrays that are made (`[x; N]`) or named in a type (`[T; N]`)
L  functions that take a slice or array and a count/length beside it
I  index expressions with a multiplication (`i * W + field`): records in flat arrays
X  constants that number fields or words
N  Vec, Box, String, maps (the heap)"""
import os,re,sys,collections
sys.path.insert(0,os.path.dirname(os.path.abspath(__file__))); from forms import *
C=collections.Counter()
def put(k,f,n,t): C[k]+=1; print('%s %s:%d%s %s'%(k,short(f),n,' C' if isC(f) else '',t))
code=lambda s: not re.match(r'\s*(//|requires|ensures|ghost |#)',s)
for f in files():
    for i,s in enumerate(open(f).read().split('\n')):
        if not code(s): continue
        s0=re.sub(r'b?"(?:[^"\\]|\\.)*"','""',s).split('//')[0]
        if re.search(r'\[[\w.]+; [\w:]+\]',s0) and 'fn ' not in s0 and not re.match(r'\s*\w+: &?(mut )?\[',s0.replace('pub ','')) or re.search(r'pub \w+: \[\w+; ',s0): put('A',f,i+1,s.strip())
        if re.search(r'\[[^\]]*\w+ \* [\w:]+',s0) or re.search(r'let at = \w+ \* [\w:]+',s0): put('I',f,i+1,s.strip())
        if re.match(r'\s*(pub )?const \w+: usize = \d+;',s0): put('X',f,i+1,s.strip())
        if re.search(r'\b(Vec|Box|String|HashMap|BTreeMap|Rc)\b',s0): put('N',f,i+1,s.strip())
    for fn in functions(f):
        sl=[n for n,t in fn.params if re.search(r'\[\w+(; \w+)?\]',t) and n not in('starts','clocks','values')]
        ct=[n for n,t in fn.params if re.match(r'(count|passages|n|components|nodes|size|last|clocks|variables|used|written|many)$',n) and t in('usize','u8','u32')]
        if sl and ct: put('L',f,fn.line,'%s(%s | %s)'%(fn.name,', '.join(sl),', '.join(ct)))
print('TOTAL',dict(C))
