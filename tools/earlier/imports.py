import re,glob,os,sys,subprocess
root=sys.argv[1]+'/crates/'
bad=0; n=0
cache={}
def text(crate,kind,mod):
    k=(crate,kind,mod)
    if k not in cache:
        p=f'{root}{crate}/{kind}/{mod.replace(".","/")}.antt'
        cache[k]=open(p).read() if os.path.exists(p) else None
    return cache[k]
crates=set(os.listdir(root))
listed={l.split(':')[0] for l in open(sys.argv[1]+'/crates.txt') if ':' in l and not l.startswith('#')}
deps={l.split(':')[0]:l.split('#')[0].split(':')[1].split() for l in open(sys.argv[1]+'/crates.txt') if ':' in l and not l.startswith('#')}
if crates!=listed: print('crates differ',crates^listed); bad+=1
for f in glob.glob(root+'**/*.antt',recursive=True)+glob.glob(root+'**/*.rt',recursive=True):
    c=f[len(root):].split('/')[0]
    for m in re.finditer(r'use Rattle·(\w+)(?:·(specs|proofs))?\.(specs|proofs)\.([\w.]+?)\.\{([^}]*)\}',open(f).read(),flags=re.S):
        crate,_,kind,mod,names=m.groups()
        if 'declared' in mod or 'Statement' in mod or 'Tie' in mod: continue
        if crate!=c and crate not in deps.get(c,[]): print('not a dep',c,crate,f); bad+=1
        t=text(crate,kind,mod); n+=1
        if t is None: print('no module',f,crate,kind,mod); bad+=1; continue
        for x in re.split(r',\s*',names.strip().strip(',')):
            x=x.strip().split(' as ')[0].strip()
            if x and x not in t: print(f[len(root):],crate,mod,x); bad+=1
print(sys.argv[1],'imports',n,'bad',bad)
