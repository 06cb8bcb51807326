#!/usr/bin/env python3
"""python3 tools/forms/options.py [REPO]: candidates for point 1.
 a  enums of the shape of Option/Result (two variants, or a variant named like a refusal)
 b  structs with a verdict, or with a bool field beside values, or with `number`/`row`/`node` that stand for none
 c  lines that compare with or answer a number for none (255, 65535, 65536, 4294967295, NEVER, NOWHERE, NO_WORK, 32u16)
 d  functions that take or answer kinds, ops, refusal numbers as numbers (`kind|op|number|what|part|tight|refusal: u8`, or a u8 answer)
 e  arms that pass on a refusal (where `?` would stand), and comparisons of a header's number with 0
 f  uses of Option/Result/`?` that are there"""
import os,re,sys,collections
sys.path.insert(0,os.path.dirname(os.path.abspath(__file__))); from forms import *
C=collections.Counter()
def put(k,f,n,t):
    C[k]+=1; print('%s %s:%d%s %s'%(k,short(f),n,' C' if isC(f) else '',t))
code=lambda s: not re.match(r'\s*(//|requires|ensures|ghost |#)',s)
for f in files():
    L=open(f).read().split('\n')
    for i,s in enumerate(L):
        m=re.match(r'\s*(?:pub )?(enum|struct) (\w+)',s)
        if m:
            j=i+1; fs=[]
            while L[j].strip()!='}': fs.append(L[j].strip().rstrip(',')); j+=1
            if m.group(1)=='enum':
                v=[x for x in fs if x and not x.startswith('//')]
                pay=[x for x in v if '(' in x]
                refuses=any(re.match(r'(Refused|Fault|Fails|Unheard|Unreadable|IllFormed|Out|Nothing|Nobody)\b',x) for x in v)
                if (len(v)==2 and pay) or refuses: put('a',f,i+1,m.group(2)+' '+' | '.join(v))
            else:
                fl=[x.replace('pub ','') for x in fs if x]
                why=[]
                if any(re.match(r'\w+: Verdict$',x) for x in fl): why.append('verdict')
                why+=['flag '+x.split(':')[0] for x in fl if x.endswith(': bool')]
                why+=['number '+x.split(':')[0] for x in fl if re.match(r'(number|end|answer|node|edge|update|index|message|part|tight|refusal|component|concerned): u8$',x)]
                if why: put('b',f,i+1,m.group(2)+': '+', '.join(why))
        if not code(s): continue
        if re.search(r'\b(255|65535|65536|4294967295|4294967296|NOWHERE|NO_WORK|NEVER|32u16)\b',s) and not re.search(r'b"',s): put('c',f,i+1,s.strip())
        if re.search(r'(Verdict::Refused\([a-z_]\w*, \w+\)|Verdict::Refused\(_\w*, _\w*\)|Next::Fault\([a-z_]\w*\)|Tried::Fails\([a-z]\w*\)|Opening::Fails\([a-z]\w*\)) =>',s): put('e',f,i+1,s.strip())
        if re.search(r'if (header|number|bad|table::header\(table\)) != 0',s): put('e',f,i+1,s.strip())
        if re.search(r'\b(Option<|Result<|Some\(|None\b|Ok\(|Err\()|\?;',s): put('f',f,i+1,s.strip())
    for fn in functions(f):
        p=[n for n,t in fn.params if re.search(r'\b(kind|op|number|what|part|tight|refusal|message|mask|first|last)$',n) and t=='u8']
        if p or fn.ret in('-> u8',): put('d',f,fn.line,'%s(%s)%s'%(fn.name,', '.join(p),' '+fn.ret if fn.ret=='-> u8' else ''))
print('TOTAL',dict(C))
