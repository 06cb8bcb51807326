#!/usr/bin/env python3
"""python3 tools/forms/casts.py [REPO] [-v]: each `x as T` with the type of x (parameters, annotations, fields, answers of functions, elements of slices),
classed: wider (From), usize<->u32/u64 up (From where std has it, else TryFrom or a method of the crate), narrower (TryFrom, or a proof that it fits), sign (i16<->u16/i32)."""
import os,re,sys,collections
sys.path.insert(0,os.path.dirname(os.path.abspath(__file__))); from forms import *
fns=allfns(); RET={}; RETF={}; HERE=None
for f in fns: 
    r=re.sub(r'^-> ','',f.ret or '')
    RET.setdefault(f.name,set()).add(r)
    RETF[(short(f.file),f.name)]=r; RETF[(short(f.file).split('/')[0],f.name)]=r
def answer(path):
    p=path.split('::'); n=p[-1]
    if len(p)==1 and (HERE,n) in RETF: return RETF[(HERE,n)]
    if len(p)>1 and (p[0],n) in RETF: return RETF[(p[0],n)]
    r=RET.get(n,())
    return next(iter(r)) if len(r)==1 else None
FIELD=collections.defaultdict(set); CONST={}
for f in files():
    t=open(f).read()
    for m in re.finditer(r'struct (\w+) \{\n(.*?)\n\}',t,re.S):
        for x in re.finditer(r'(\w+): ([^,\n]+),',m.group(2)): FIELD[x.group(1)].add((m.group(1),x.group(2)))
    for m in re.finditer(r'const (\w+): (\w+)',t): CONST[m.group(1)]=m.group(2)
INT='u8 u16 u32 u64 usize i16 i32 i64'.split()
SIZE={'u8':8,'u16':16,'u32':32,'u64':64,'usize':64,'i16':16,'i32':32,'i64':64}
def elem(t):
    m=re.search(r'\[(?:mut )?(\w+)',t); return m.group(1) if m else None
def locals_(fn,upto):
    E={n.replace('mut ','').strip():t for n,t in fn.params}
    for no,s in fn.body:
        if no>=upto: break
        m=re.match(r'\s*let (?:mut )?(\w+)(?:: ([^=]+))? = (.*?);?$',s)
        if m:
            t=m.group(2)
            if t: E[m.group(1)]=t.strip()
            else:
                v=m.group(3)
                q=re.match(r'\[\d+(u8|u16|u32|u64|usize|i16)?; \w+\]',v)
                if q and q.group(1): E[m.group(1)]='[%s; n]'%q.group(1)
                else:
                    ty=typ(v,E); 
                    if ty: E[m.group(1)]=ty
        m=re.match(r'\s*for (\w+) in (\w+)\.\.(.*) \{',s)
        if m: E[m.group(1)]=E.get(m.group(2)) or typ(m.group(3),E) or 'usize'
        m=re.match(r'\s*(?:[\w:]+)\((\w+)(?:, (\w+))?\) =>',s)
        if m:
            h=s.strip()
            if 'Refused' in h:
                for g in m.groups(): 
                    if g: E[g]='u8'
            elif 'Late' in h or 'Send' in h or 'DataBound' in h: E[m.group(1)]='u8'
    return E
def typ(x,E):
    x=x.strip().rstrip(';')
    while x.startswith('(') and x.endswith(')') : x=x[1:-1].strip()
    m=re.match(r'^(.*) as (\w+)$',x)
    if m: return m.group(2)
    if re.match(r'^\w+$',x): return E.get(x) or CONST.get(x)
    m=re.match(r'^((?:\w+::)*\w+)\(.*\)?$',x)
    if m and m.group(1).endswith('trailing_zeros'): return 'u32'
    if m and answer(m.group(1)): return answer(m.group(1))
    if m and m.group(1)=='wide' : return 'u32'
    if '.len()' in x: return 'usize'
    if re.search(r'[-+*/%]',x) and ('(' in x) and not re.match(r'^[\w:]+\(',x): x=re.sub(r'[()]','',x)
    m=re.match(r'^(\w+)\[.*\]$',x)
    if m and m.group(1) in E: return elem(E[m.group(1)])
    m=re.match(r'^(\w+)\.(\w+)$',x)
    if m:
        rt=E.get(m.group(1))
        for s,t in FIELD.get(m.group(2),()):
            if s==rt: return t
        ts={t for s,t in FIELD.get(m.group(2),())}
        if len(ts)==1: return ts.pop()
    m=re.match(r'^(.+?) [-+*/%] (.+)$',x)
    if m: return typ(m.group(1),E) or typ(m.group(2),E)
    return None
C=collections.Counter(); K=collections.Counter()
for fn in fns:
    HERE=short(fn.file)
    for no,s in fn.body:
        s0=re.sub(r'b?"(?:[^"\\]|\\.)*"','""',s).split('//')[0]
        for m in re.finditer(r' as (u8|u16|u32|u64|usize|i16|i32|i64)\b',s0):
            a=m.start(); d=0; b=a
            while b>0:
                ch=s0[b-1]
                if ch in ')]': d+=1
                if ch in '([':
                    if d==0: break
                    d-=1
                if d==0 and (ch in ' ,;{=' ): break
                b-=1
            x=s0[b:a]; E=locals_(fn,no); t=typ(x,E); to=m.group(1)
            if t not in INT: c='?'
            elif t[0]!=to[0] or (t=='i32' and to=='i16'): c='sign'
            elif t==to: c='same'
            elif SIZE[to]>SIZE[t]: c='wider (From)' if not(to=='usize' and t in('u32',)) else 'u32 to usize'
            elif SIZE[to]==SIZE[t]: c='usize<->u64'
            else: c='narrower (TryFrom)'
            if (t,to) in(('i16','i32'),('u16','i32')): c='wider (From)'
            C[c]+=1; K[(c,str(t),to)]+=1
            if '-v' in sys.argv or c=='?': print('%s:%d %s %s | %s: %s -> %s'%(short(fn.file),no,fn.name,'C' if isC(fn.file) else '',x,t,to),'|',c)
print('TOTAL',sum(C.values()),dict(C))
for k,v in sorted(K.items()): print('  ',k,v)
