#!/usr/bin/env python3
"""python3 tools/forms/conversions.py [REPO]: candidates for point 4.
as  every cast `x as T` (one line each; -v shows), by target type
wr  calls of the functions that wrap a cast: parts::wide, wide16, wide32, word32, word_place, text::wide, node::wide64, node::wide32, registers::small, half, flag
fn  functions whose whole body is one cast, one comparison of two, one match of an enum to numbers, or one `if a < b`
mt  match arms that map an enum's variant to a number, or a number to an enum
cp  struct literals that copy three or more fields of one other value by name (`x: o.x`)
be  lines with `/ 256`, `% 256`, `* 256` (bytes of a number by hand)
dr  derives"""
import os,re,sys,collections
sys.path.insert(0,os.path.dirname(os.path.abspath(__file__))); from forms import *
C=collections.Counter(); T=collections.Counter(); W=collections.Counter(); V='-v' in sys.argv
def put(k,f,n,t,show=True):
    C[k]+=1
    if show: print('%s %s:%d%s %s'%(k,short(f),n,' C' if isC(f) else '',t))
code=lambda s: not re.match(r'\s*(//|requires|ensures|ghost |#)',s)
for f in files():
    L=open(f).read().split('\n')
    for i,s in enumerate(L):
        if not code(s): continue
        s0=re.sub(r'b?"(?:[^"\\]|\\.)*"','""',s).split('//')[0]
        for m in re.finditer(r'\bas (u8|u16|u32|u64|usize|i16|i32|i64)\b',s0):
            T[m.group(1)]+=1; put('as',f,i+1,m.group(1)+' | '+s.strip(),V)
        for m in re.finditer(r'\b(?:(?:parts|text|node|registers)::)?(wide|wide16|wide32|wide64|word32|word_place|small|half|flag)\(',s0):
            if 'fn '+m.group(1) in s0: continue
            W[m.group(1)]+=1; put('wr',f,i+1,m.group(1)+' | '+s.strip(),V)
        if re.search(r'(/|%|\*) (256|65536|16777216)\b',s0): put('be',f,i+1,s.strip())
        if re.match(r'\s*\w+::\w+(\(\w*\))? => (\d+|\w+::[A-Z_]+),$',s0) or re.match(r'\s*(\d+|_) => \w+::\w+(\(\w+\))?,$',s0): put('mt',f,i+1,s.strip())
    for fn in functions(f):
        b=[t.strip() for _,t in fn.body if t.strip()]
        j=' '.join(b)
        if len(b)==1 and re.match(r'^\(?[\w.]+( % \d+)?\)? as \w+$',b[0]): put('fn',f,fn.line,fn.name+' cast: '+j)
        elif len(b)<=5 and re.match(r'^if (\w+) < (\w+) \{ (\1|\2) \} else \{ (\1|\2) \}$',j): put('fn',f,fn.line,fn.name+' min/max: '+j)
        elif len(b)<=5 and re.match(r'^if (\w+) < (\w+) \{ (return 0; \}|\2 - \1 \} else \{ 0 \}).*$',j): put('fn',f,fn.line,fn.name+' cut off: '+j)
        elif len(b)<=5 and re.match(r'^if (\w+) \{ (\w+) \} else \{ (false|true|\w+) \}$',j): put('fn',f,fn.line,fn.name+' bool: '+j)
    t=open(f).read()
    for m in re.finditer(r'\b([A-Z]\w+) \{\n((?:\s+\w+(?:: [^\n]*)?,\n)+)\s*\}',t):
        c=collections.Counter(x.group(2) for x in re.finditer(r'(\w+): (\w+)\.\1\b',m.group(2)))
        if c and c.most_common(1)[0][1]>=3: put('cp',f,t[:m.start()].count('\n')+1,'%s copies %d fields of %s'%(m.group(1),c.most_common(1)[0][1],c.most_common(1)[0][0]))
print('TOTAL',dict(C),'as',dict(T),'wr',dict(W))
