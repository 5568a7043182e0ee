import re,collections,subprocess,sys
def parse(fn):
    cost=collections.Counter(); cur=None; names={}; addr=0; incall=False
    for line in open(fn):
        line=line.rstrip('\n')
        m=re.match(r'fn=\((\d+)\)(?: (.*))?',line)
        if m:
            if m.group(2): names[m.group(1)]=m.group(2)
            cur=names[m.group(1)]; continue
        m=re.match(r'cfn=\((\d+)\)(?: (.*))?',line)
        if m:
            if m.group(2): names[m.group(1)]=m.group(2)
            continue
        if line.startswith('calls='): incall=True; continue
        m=re.match(r'(0x[0-9a-f]+|\+\d+|-\d+|\*) (\S+)(?: (\d+))?',line)
        if m and cur:
            a=m.group(1)
            if a.startswith('0x'): addr=int(a,16)
            elif a.startswith('+'): addr+=int(a[1:])
            elif a.startswith('-'): addr-=int(a[1:])
            if incall: incall=False; continue
            cost[(cur,addr)]+=int(m.group(3) or 0)
    return cost
cg,binary,fn=sys.argv[1:4]
c={a:n for (f,a),n in parse(cg).items() if f==fn}
lo,hi=min(c),max(c)
print(sum(c.values()))
for l in subprocess.run(['objdump','-d','--no-show-raw-insn',f'--start-address={lo:#x}',f'--stop-address={hi+8:#x}',binary],capture_output=True,text=True).stdout.split('\n'):
    try: a=int(l.split(':')[0].strip(),16)
    except: continue
    if a in c: print(f'{c[a]:6d} {l.rstrip()[:100]}')
