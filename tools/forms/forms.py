"""Shared by count-*.py: the .rt files, their functions (name, lines, parameters, contract clauses, body)."""
import glob,os,re,sys
ROOT=next((a for a in sys.argv[1:] if os.path.isdir(a)),'.')
EXPORTS=('timed_network','timed_network_words','timed_node')
def files():
    base=os.path.join(ROOT,'crates')
    return sorted(glob.glob(base+'/*/src/**/*.rt',recursive=True))
def short(f):
    return os.path.relpath(f,os.path.join(ROOT,'crates'))
def isC(f):
    return short(f).split('/')[0] in EXPORTS
FN=re.compile(r'^(\s*)(?:pub(?:\([a-z]+\))? )?(?:const )?(?:unsafe )?(?:extern "C" )?(?:ghost )?fn (\w+)')
class Fn: pass
def functions(f):
    L=open(f,encoding='utf-8').read().split('\n')
    out=[];i=0
    while i<len(L):
        m=FN.match(L[i])
        if not m: i+=1; continue
        fn=Fn(); fn.file=f; fn.name=m.group(2); fn.line=i+1; ind=m.group(1)
        # signature up to the contract or the brace
        sig=[];j=i
        while j<len(L):
            s=L[j]
            if j>i and re.match(r'\s*(requires|ensures)\b',s): break
            if j>i and s==ind+'{': break
            sig.append(s.strip())
            if s.rstrip().endswith('{'): break
            if s.rstrip().endswith(';'): break
            j+=1
        fn.sig=' '.join(sig)
        con=[]
        if j<len(L) and not L[j].rstrip().endswith('{') or (j<len(L) and re.match(r'\s*(requires|ensures)\b',L[j])):
            while j<len(L) and L[j]!=ind+'{' and not (re.match(r'.*[^ ]* \{$',L[j]) and not re.match(r'\s*(requires|ensures)',L[j])):
                con.append((j+1,L[j].strip())); j+=1
        fn.contract=con
        # body: to the closing brace at the same indent
        k=j
        while k<len(L) and L[k]!=ind+'}': k+=1
        fn.body=[(n+1,L[n]) for n in range(j+1,min(k,len(L)))]
        fn.end=k+1
        p=re.search(r'\((.*)\)\s*(->.*)?\{?$',re.sub(r'\s+',' ',fn.sig))
        fn.params=[]
        s=re.sub(r'\s+',' ',fn.sig)
        g=s.find('fn '+fn.name)+3+len(fn.name)
        if s[g:g+1]=='<':
            d=0
            while g<len(s):
                if s[g]=='<': d+=1
                if s[g]=='>' and s[g-1]!='-':
                    d-=1
                    if d==0: break
                g+=1
        a=s.find('(',g)
        if a>=0:
            d=0
            for b in range(a,len(s)):
                if s[b] in '([<' and not s[b-1:b+1]=='->': d+=1
                if s[b] in ')]' or (s[b]=='>' and s[b-1]!='-'): d-=1
                if d==0: break
            inner=s[a+1:b]; d=0; cur='';ps=[]
            for ch in inner:
                if ch in '([<': d+=1
                if ch in ')]>': d-=1
                if ch==',' and d==0: ps.append(cur.strip()); cur=''
                else: cur+=ch
            if cur.strip(): ps.append(cur.strip())
            fn.params=[tuple(x.strip() for x in p.split(':',1)) if ':' in p else (p,'') for p in ps]
            fn.ret=s[b+1:].strip(' {')
        out.append(fn)
        i=k+1
    return out
def allfns():
    return [fn for f in files() for fn in functions(f)]
