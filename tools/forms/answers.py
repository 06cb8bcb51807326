#!/usr/bin/env python3
"""python3 tools/forms/answers.py [REPO] [-v]: candidates for point 8.
A  answers (in */proofs/**/Answers.antt) by what they say: search, omega, projection, rewriting by what was called, other
T  lemmas (top-level `name : type`) of crates/*/proofs and specs whose type or body stands twice word for word (white space folded)
B  runs of six or more equal lines in two proof files"""
import re,sys,glob,os,collections
ROOT=next((a for a in sys.argv[1:] if os.path.isdir(a)),'.'); V='-v' in sys.argv
base=os.path.join(ROOT,'crates'); short=lambda f: os.path.relpath(f,base)
def decls(f):
    """(line, name, type, body) of the top-level declarations with a type"""
    L=open(f,encoding='utf-8').read().split('\n'); out=[]; i=0
    while i<len(L):
        m=re.match(r'^(?:pub |abbrev |private |mutual |terminating )*([^\s(:{]+) +: +(.*)$',L[i])
        if m and not L[i].startswith(('use ','--','record','data','where')):
            n=m.group(1); j=i+1; t=[m.group(2)]
            while j<len(L) and L[j].startswith((' ','\t')) : t.append(L[j].strip()); j+=1
            b=[]; k=j
            while k<len(L) and (L[k].startswith((n+' ',' ','\t','  ')) or L[k]==n or (L[k].startswith(n) and re.match(re.escape(n)+r'[ ({]',L[k]))):
                b.append(L[k].strip()); k+=1
            out.append((i+1,n,' '.join(t),' '.join(b))); i=max(k,i+1); continue
        i+=1
    return out
C=collections.Counter(); ex=collections.defaultdict(list); whole=[]
PROJ=r"c\.[\w.\-]+"
def kind(b):
    b=re.sub(r'^\S+ c = ?','',b).strip(); b=re.sub(r'\s+',' ',b)
    parts=lambda x: re.sub(r'[(),;]|record|\{|\}|\w+ = ',' ',x).split()
    if b in('search rules',): return 'search rules alone'
    w=re.sub(r'search rules|refl|omega arith|'+PROJ+r'|λ( [\w_]+)+\.|a\.[\w.]+','§',b)
    if re.fullmatch(r'[\s(),;§{}=\w]*',w) and 'search rules' in b and not re.search(r'[a-z_]\w*',re.sub(r'record|\w+ =|let \w+ =| in ','',w)): return 'search rules with projections, refl, records'
    if b=='refl' : return 'refl alone'
    if re.fullmatch(r'omega arith',b) : return 'omega arith alone'
    if re.fullmatch(r'(let [^=]+ = [^ ]+ in )*(\()?(omega \(?arith[^()]*\)?(, )?)+(\))?',b): return 'omega over projections alone'
    if re.fullmatch(r'\(?('+PROJ+r'(, )?)+\)?',b): return 'projections alone'
    if re.fullmatch(r'rw \(?((← )?'+PROJ+r'(, )?)+\)?',b): return 'rw by what was called alone'
    if re.fullmatch(r'rw \(?((← )?'+PROJ+r'(, )?)+\)? \(?'+PROJ+r'\)?',b): return 'rw by what was called alone'
    return 'other'
files=sorted(glob.glob(base+'/*/proofs/**/*.antt',recursive=True)+glob.glob(base+'/*/specs/**/*.antt',recursive=True))
ans=[f for f in files if f.endswith('/Answers.antt') and '/proofs/' in f]
for f in ans:
    ks=[]
    for ln,n,t,b in decls(f):
        if not t.startswith('goal.'): continue
        k=kind(b); C[k]+=1; ks.append(k); ex[k].append('%s:%d %s'%(short(f),ln,n))
    if ks and all(k!='other' for k in ks): whole.append((short(f),ks))
print('ANSWERS files',len(ans),'answers',sum(C.values()),dict(C))
print('FILES with no answer of the kind other',len(whole))
for k in ex:
    if k!='other' and (V or k.startswith('search')): 
        for x in ex[k]: print('A %s | %s'%(k,x))
# statements and bodies twice
ST=collections.defaultdict(list); BO=collections.defaultdict(list)
for f in files:
    if f in ans or f.endswith('Invariants.antt'): continue
    for ln,n,t,b in decls(f):
        tt=re.sub(r'\s+',' ',t).strip()
        if len(tt)>=25 and not tt.startswith('goal.') and ('≡' in tt or '→' in tt): ST[tt].append((f,ln,n))
        bb=re.sub(r'(?<![\w\-])'+re.escape(n)+r'(?![\w\-])','_self',b)
        if len(bb)>=60: BO[bb].append((f,ln,n))
st=[(k,v) for k,v in ST.items() if len(v)>1]; bo=[(k,v) for k,v in BO.items() if len(v)>1]
print('STATEMENTS twice',len(st),'lemmas',sum(len(v) for k,v in st)); print('BODIES twice',len(bo),'lemmas',sum(len(v) for k,v in bo))
for k,v in sorted(st,key=lambda x:(-len(x[1]),x[0])): print('T %d %s | %s'%(len(v),'; '.join('%s:%d %s'%(short(f),l,n) for f,l,n in v),k[:160]))
for k,v in sorted(bo,key=lambda x:(-len(x[1]),x[0])): print('U %d %s | %s'%(len(v),'; '.join('%s:%d %s'%(short(f),l,n) for f,l,n in v),k[:110]))
