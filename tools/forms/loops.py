#!/usr/bin/env python3
"""python3 tools/forms/loops.py [REPO]: every while/loop/for of crates/*/src with a class by its shape.
counts+  : the name in the condition is moved by +1 (or +const) as a plain statement of the loop's own level
counts-  : the same downward
led      : neither (the step depends on data, or the loop is `loop`)
-v prints the bodies."""
import os,re,sys,collections
sys.path.insert(0,os.path.dirname(os.path.abspath(__file__))); from forms import *
C=collections.Counter(); n=0
for f in files():
    L=open(f).read().split('\n')
    fns=functions(f)
    for i,s in enumerate(L):
        m=re.match(r'^(\s*)(?:let \w+ = )?(while|loop|for)\b(.*)\{$',s)
        if not m: continue
        ind=m.group(1); j=i+1
        while L[j]!=ind+'}' and not L[j].startswith(ind+'}'): j+=1
        body=L[i+1:j]
        own=next((x.name for x in fns if x.line<=i+1<=x.end),'?')
        kind=m.group(2); cond=m.group(3).strip()
        top=[b.strip() for b in body if re.match('^'+ind+r'    \S',b)]
        names=set(re.findall(r'\b[a-z_]\w*\b',cond))
        cls='for' if kind=='for' else 'led'
        if kind=='while':
            for b in top:
                q=re.match(r'^(\w+) ([+-])= (\d+|[A-Za-z:_]*[A-Z_]+);$',b)
                if q and q.group(1) in names: cls='counts'+q.group(2)+('' if q.group(3)=='1' else q.group(3))
        ret='exit' if any(re.search(r'\b(return|break)\b',b) for b in body) else 'full'
        C[cls]+=1; n+=1
        print('%s:%d %s%s - %s %s | %s %s %d lines'%(short(f),i+1,own,' C' if isC(f) else '',kind,cond,cls,ret,len(body)))
        if '-v' in sys.argv: print('\n'.join(body))
it=sum(1 for f in files() for l in open(f) if not re.match(r'\s*(//|requires|ensures|ghost )',l) and re.search(r'\.(iter|iter_mut|into_iter|zip|enumerate|chunks|chunks_exact|windows|any|all|position|rposition|find|map|filter|fold|sum|rev|take_while|copy_from_slice|fill|split|partition_point|min_by_key)\(',l))
print('TOTAL',n,dict(C),'lines with a method of iterators or slices',it)
