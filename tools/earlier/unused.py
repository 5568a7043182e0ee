import re,sys,subprocess,os
tok=re.compile(r"[^\s(){}\[\];,.\"⌜⌝«»]+")
def check(f):
    t=open(f).read()
    body='\n'.join(l for l in t.split('\n') if not l.lstrip().startswith('--') and not re.match(r'(ghost )?use ',l))
    toks=set(tok.findall(body))
    # mixfix parts
    out=[]
    for m in re.finditer(r'^(?:ghost )?use ([^\n{]+)\.\{([^}]*)\}',t,re.M):
        for n in m.group(2).split(','):
            n=n.strip()
            if not n or n=='[]': continue
            n=n.split(' as ')[-1].strip()
            parts=[x for x in n.split('_') if x] if '_' in n else [n]
            if n in toks or all(any(p==k or p in k for k in toks) for p in parts): continue
            out.append((m.group(1),n))
    return out
for f in sys.argv[1:]:
    for o in check(f): print(f,*o)
